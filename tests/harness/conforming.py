"""What the tests of `tools/conform` share: small receivers in memory, or on loopback, and what a
trial finds of them."""

import contextlib
import shutil
import socket
import subprocess
import threading
import time

import small_nodes
from tooling import wait_for

from cueplayer_tools.conform.peers import PeerFault, SteppedClock
from cueplayer_tools.conform.rounds import Setting, try_all
from cueplayer_tools.conform.rules import RULES

# What tshark tells of a frame.
FIELDS = (
    "frame.time_epoch", "eth.dst", "ip.src", "udp.srcport", "ip.dst", "udp.dstport",
    "ip.checksum.status", "udp.checksum.status", "udp.payload", "frame.comment",
)  # fmt: skip
CASES = {rule.name: {case.name for case in rule.cases} for rule in RULES}


class InMemory:
    """A peer of small receivers, a new one for each case, at moments that are told."""

    name, version, keeps_time, moves, look_time = "small", "1", True, True, 0
    # Two ports of one address, and the first of them at another address.
    senders = (("127.0.0.1", 1), ("127.0.0.1", 2), ("127.0.0.2", 1))

    def __init__(self, kind, clock, universes=range(1, 101)):
        self.kind, self.clock, self.universes = kind, clock, universes
        self.pair = universes[:2]
        self.receivers = {}
        self.groups = {}

    def begin(self, universes):
        """Receivers of these universes, which hear what comes for any of them."""
        node = small_nodes.node(self.kind, universes)
        self.receivers |= node
        self.groups |= dict.fromkeys(universes, node)

    def route(self, universe, sender):
        return self.senders[sender], ("127.0.0.1", 5568)

    def send(self, universe, data, sender):
        for receiver in self.groups[universe].values():
            receiver.take(self.clock.now(), data, self.senders[sender])

    def look(self, universe):
        return self.receivers[universe].look(self.clock.now())

    def close(self):
        self.receivers.clear()


def tried(kind, rules=RULES, **options):
    clock = SteppedClock()
    return try_all(Setting(lambda: InMemory(kind, clock, **options), clock), rules)


def verdicts(kind, rules=RULES, **options):
    return tried(kind, rules, **options).verdicts


def broken_cases(found):
    """The cases that were broken, by their rules."""
    cases = {}
    for each in found:
        if each.verdict == "broken":
            cases.setdefault(each.rule.name, set()).add(each.case.name)
    return cases


def choices(found):
    told = {}
    for each in found:
        if each.choice:
            told.setdefault(each.rule.name, set()).add(each.choice)
    return told


def rules_named(*names):
    """The rules of these names, in their order."""
    return tuple(rule for rule in RULES if rule.name in names)


def write_shown(folder, universe, slots):
    """What a receiver shows, in the file that its command prints."""
    line = " ".join(["slots", *(f"{slot}:{level}" for slot, level in slots.items())])
    file = folder / f"new-{universe}"
    file.write_text(line + "\n")
    file.rename(folder / f"shown-{universe}")


def run_node(kind, universes, listener, folder, is_over):
    """Receives until it is over, or a receiver ends; then nothing is shown any more."""
    receivers, shown = small_nodes.node(kind, universes), {}
    try:
        while not is_over.is_set():
            with contextlib.suppress(TimeoutError):
                data, sender = listener.recvfrom(2048)
                moment = int(1000 * time.monotonic())
                for receiver in receivers.values():
                    receiver.take(moment, data, sender)
            for universe, receiver in receivers.items():
                slots = receiver.look(int(1000 * time.monotonic()))
                if shown.get(universe) != slots:
                    write_shown(folder, universe, slots)
                shown[universe] = slots
    except PeerFault:
        for universe in universes:
            (folder / f"shown-{universe}").unlink(missing_ok=True)


@contextlib.contextmanager
def serve(kind, universes, folder, comes_back=0.0):
    """A receiver of some universes on loopback, and the words that try it; one that ended comes
    back after so many seconds, if at all."""
    with socket.socket(socket.AF_INET, socket.SOCK_DGRAM) as listener:
        listener.bind(("127.0.0.1", 0))
        listener.settimeout(0.01)
        is_over = threading.Event()

        def live():
            run_node(kind, universes, listener, folder, is_over)
            while comes_back and not is_over.wait(comes_back):
                run_node(kind, universes, listener, folder, is_over)

        server = threading.Thread(target=live)
        server.start()
        wait_for(lambda: (folder / f"shown-{universes[-1]}").exists(), "it shows something")
        try:
            to = "127.0.0.1:{}".format(listener.getsockname()[1])
            command = f"cat {folder}/shown-{{universe}}"
            names = f"{universes[0]}-{universes[-1]}"
            yield ("--to", to, "--universes", names, "--command", command)
        finally:
            is_over.set()
            server.join()


def read_by_tshark(test, file):
    """The fields of each frame of a capture."""
    if not shutil.which("tshark"):
        test.skipTest("tshark is not on PATH")
    words = ["tshark", "-r", file, "-T", "fields", "-E", "separator=/t"]
    words += ["-o", "ip.check_checksum:TRUE", "-o", "udp.check_checksum:TRUE"]
    words += [word for field in FIELDS for word in ("-e", field)]
    done = subprocess.run(words, capture_output=True, text=True, timeout=120)
    test.assertEqual(0, done.returncode, done.stderr)
    return [dict(zip(FIELDS, line.split("\t"))) for line in done.stdout.splitlines()]
