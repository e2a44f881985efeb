#!/usr/bin/env python3
"""A bad night at sixteen universes, by a seed: the desk and its readers stand still, the disk of
the record stalls, pages open and close, floods come, slow connections are held, others send, and
the link goes down and up.

usage: tests/bad_night.py [--seconds N] [--seed S]

It makes a network of its own, where a desk plays multicast through a link that it can take down.
What must hold: no tick is later than 60 ms, but for the time in which the machine stood still, no
packet is off its place, no press is carried out late, and the night ends with its streams. It
prints what was seen; the exit status is 1 where something was wrong, and 2 where something was
late and nothing else was wrong.
"""

import argparse
import collections
import contextlib
import http.client
import json
import os
import random
import re
import select
import signal
import socket
import subprocess
import sys
import tempfile
import threading
import time
import uuid
from collections.abc import Iterator
from pathlib import Path

sys.dont_write_bytecode = True
sys.path.insert(0, str(Path(__file__).resolve().parent / "harness"))

from machine import (
    Late,
    Took,
    in_time,
    witness,
)  # noqa: E402  (the harness is on the path now)
from program import behind_head, packet  # noqa: E402
from tooling import TOOLS  # noqa: E402
from wire import OPTIONS, SEQUENCE, TERMINATED  # noqa: E402

UNIVERSES = 16
DIMMERS = 512 * UNIVERSES
CHANNELS = 4096
# Cues of the page's presses, and behind them those of Open Sound Control.
CUES = 400
TICK, BEYOND, LATE = 25, 60, 1000
HERE = "10.77.0.1"
UP = "ip link set stage up && ip route replace 239.0.0.0/8 dev stage"
LINK = (
    "ip link set lo up && ip link add stage type veth peer name hall && ip link set hall up && "
    f"ip addr add {HERE}/24 dev stage && {UP}"
)


def show_text(chance: random.Random) -> str:
    """A show with every dimmer patched, and cues that change in a second or two."""
    lines = [f"PATCH 1 {1 + (at - 1) % CHANNELS}<{at}@FL" for at in range(1, DIMMERS + 1)]
    for cue in range(1, 2 * CUES + 1):
        lines += [f"CUE {cue}", f"UP {1 + cue % 2}"]
        for _ in range(8):
            first = chance.randint(1, CHANNELS - 8)
            pairs = [f"{first + at}@{chance.randint(0, 100)}" for at in range(8)]
            lines.append(" ".join(["CHAN", *pairs]))
    return "".join(line + "\n" for line in lines)


def milliseconds() -> float:
    return time.monotonic() * 1000


class Receiver:
    """Receives all universes, and sees whether each packet is the next of its universe."""

    def __init__(self, cid: uuid.UUID) -> None:
        self.cid = cid.bytes
        self.last: dict[int, int] = {}
        self.count = 0
        self.ended = 0
        self.wrong: list[str] = []
        # While the link is down, and shortly after, packets may be missing; and behind that before
        # the first one of a universe.
        self.may_miss_until = 0.0
        self.may_miss: set[int] = set()
        self.sockets = [self._join(universe) for universe in range(1, UNIVERSES + 1)]
        threading.Thread(target=self._read, daemon=True).start()

    def _join(self, universe: int) -> socket.socket:
        group = f"239.255.0.{universe}"
        receiver = socket.socket(socket.AF_INET, socket.SOCK_DGRAM)
        receiver.setsockopt(socket.SOL_SOCKET, socket.SO_REUSEADDR, 1)
        receiver.setsockopt(socket.SOL_SOCKET, socket.SO_RCVBUF, 1 << 22)
        receiver.bind((group, 5568))
        membership = socket.inet_aton(group) + socket.inet_aton(HERE)
        receiver.setsockopt(socket.IPPROTO_IP, socket.IP_ADD_MEMBERSHIP, membership)
        return receiver

    def _read(self) -> None:
        while True:
            for ready in select.select(self.sockets, [], [])[0]:
                self._take(ready.recv(2048))

    def settle(self) -> None:
        """Waits until all that came has been read: nothing has, for a while."""
        count = -1
        while count != self.count:
            count = self.count
            time.sleep(0.3)

    def _take(self, data: bytes) -> None:
        if len(data) != 638 or data[22:38] != self.cid:
            return
        universe, number = int.from_bytes(data[113:115], "big"), data[SEQUENCE]
        self.count += 1
        self.ended += bool(data[OPTIONS] & TERMINATED)
        step = (number - self.last.get(universe, number - 1)) % 256
        self.last[universe] = number
        if time.monotonic() <= self.may_miss_until:
            return
        if step != 1 and universe not in self.may_miss:
            self.wrong.append(f"universe {universe}: {step} steps to number {number}")
        self.may_miss.discard(universe)


class Desk:
    """A desk whose night has begun, and one page of it that listens."""

    def __init__(self, folder: Path, cid: uuid.UUID, chance: random.Random) -> None:
        self.record = folder / "night.play"
        show = folder / "show.asc"
        show.write_text(show_text(chance))
        self.began = time.monotonic()
        words = [sys.executable, TOOLS / "desk", show, "--to", "239.255.0.0", "--cid", str(cid)]
        words += ["--record", self.record, "--replies", folder / "replies", "--osc", "0"]
        pipe = subprocess.PIPE
        self.process = subprocess.Popen([*map(str, words)], text=True, stdout=pipe, stderr=pipe)
        address = self.process.stdout.readline().split()[-1]
        self.host, self.path = re.fullmatch(r"http://([^/]+)(/.*/)", address).groups()
        live = int(re.search(r"process (\d+)", self.process.stderr.readline())[1])
        # Its number may be another process's by the time that it has ended.
        self.live = os.pidfd_open(live)
        self.port = int(self.host.split(":")[1])
        self.ahead = collections.deque([-1e15], maxlen=100)
        self.state: dict = {}
        self.osc = 0
        self.events = self.open_events()
        threading.Thread(target=self._read, daemon=True).start()
        while not (self.state and self.osc):
            time.sleep(0.01)

    def open_events(self) -> http.client.HTTPResponse:
        connection = http.client.HTTPConnection(self.host, timeout=60)
        connection.request("GET", self.path + "events")
        return connection.getresponse()

    def _read(self) -> None:
        kind = b""
        for line in self.events:
            name, _, value = line.strip().partition(b": ")
            if name == b"id":
                self.ahead.append(int(value) - milliseconds())
            elif name == b"event":
                kind = value
            elif name == b"data" and kind == b"show":
                self.osc = int(json.loads(value)["osc"].split(":")[1])
            elif name == b"data" and kind == b"state":
                self.state = json.loads(value)

    def press(self, line: str) -> int | None:
        """Presses as the page does; the status, or None where there was none in a second."""
        at = max(int(milliseconds() + max(self.ahead)), 0)
        connection = http.client.HTTPConnection(self.host, timeout=1.0)
        seen = self.state.get("number", 0)
        headers = {"Origin": f"http://{self.host}", "Desk-Time": str(at), "Desk-State": str(seen)}
        try:
            connection.request("POST", self.path + "command", line, headers)
            return connection.getresponse().status
        except OSError:
            return None
        finally:
            connection.close()


class Presses:
    """Presses of a page and of a tablet, each of a cue of its own, and when each was made."""

    def __init__(self, desk: Desk, chance: random.Random) -> None:
        self.desk = desk
        self.chance = chance
        self.made: list[tuple[float, int]] = []
        self.answers: collections.Counter = collections.Counter()
        self.is_over = threading.Event()
        self.threads = [threading.Thread(target=self._press, args=(kind,)) for kind in (0, 1)]
        for thread in self.threads:
            thread.start()

    def _press(self, kind: int) -> None:
        tablet = socket.socket(socket.AF_INET, socket.SOCK_DGRAM)
        number = 0
        while not self.is_over.wait(self.chance.uniform(0.2, 0.6)):
            cue = 1 + number % CUES + kind * CUES
            number += 1
            self.made.append((milliseconds(), cue))
            if kind == 0:
                self.answers[self.desk.press(f"goto {cue}")] += 1
            else:
                asked = b"/cueplayer/goto\0,i\0\0" + cue.to_bytes(4, "big")
                tablet.sendto(asked, ("127.0.0.1", self.desk.osc))

    def end(self) -> None:
        self.is_over.set()
        for thread in self.threads:
            thread.join()


class Trouble:
    """What goes wrong in the night, one thing after the other, by a seed."""

    def __init__(self, desk: Desk, receiver: Receiver, chance: random.Random) -> None:
        self.desk = desk
        self.receiver = receiver
        self.chance = chance
        self.happened: collections.Counter = collections.Counter()
        self.kinds = {
            "rest": lambda: time.sleep(1),
            "desk stands still": self.stop_desk,
            "disk stalls": self.stall_disk,
            "pages come and go": self.open_pages,
            "slow connections": self.hold_connections,
            "flood": self.flood,
            "link goes down": self.take_link_down,
            "others send": self.send_as_others,
        }

    def until(self, end: float) -> None:
        while time.monotonic() < end:
            kind = self.chance.choice(list(self.kinds))
            self.happened[kind] += 1
            self.kinds[kind]()

    def stop_desk(self) -> None:
        self.desk.process.send_signal(signal.SIGSTOP)
        time.sleep(self.chance.uniform(0.1, 3))
        self.desk.process.send_signal(signal.SIGCONT)

    def stall_disk(self) -> None:
        """The process that writes the record stands still, as where it waits for the disk."""
        lives = children(self.desk.process.pid)
        writers = [each for live in lives for each in children(live) if name_of(each) == "cat"]
        for writer in writers:
            os.kill(writer, signal.SIGSTOP)
        self.happened["writers that stalled"] += len(writers)
        time.sleep(self.chance.uniform(0.1, 3))
        for writer in writers:
            os.kill(writer, signal.SIGCONT)

    def open_pages(self) -> None:
        with contextlib.suppress(OSError):
            pages = [self.desk.open_events() for _ in range(self.chance.randint(1, 8))]
            time.sleep(self.chance.uniform(0, 2))
            for page in pages:
                page.close()

    def hold_connections(self) -> None:
        with contextlib.ExitStack() as held, contextlib.suppress(OSError):
            for _ in range(300):
                slow = socket.create_connection(("127.0.0.1", self.desk.port), 1)
                held.enter_context(slow)
                slow.send(b"GET / HTTP/1.1\r\n")
            time.sleep(self.chance.uniform(0, 1))

    def flood(self) -> None:
        junk = self.chance.choice((b"junk", b"/accxyz\0,f\0\0????", b"/cueplayer/no\0\0\0,\0\0\0"))
        with socket.socket(socket.AF_INET, socket.SOCK_DGRAM) as sender:
            sender.connect(("127.0.0.1", self.desk.osc))
            for _ in range(40):
                for _ in range(400):
                    with contextlib.suppress(OSError):
                        sender.send(junk)
                time.sleep(0.02)

    def take_link_down(self) -> None:
        self.receiver.may_miss_until = time.monotonic() + 3600
        self.receiver.may_miss = set(range(1, UNIVERSES + 1))
        subprocess.run(["ip", "link", "set", "stage", "down"], check=True)
        time.sleep(self.chance.uniform(0.1, 2))
        subprocess.run(UP, shell=True, check=True)
        self.receiver.may_miss_until = time.monotonic() + 1

    def send_as_others(self) -> None:
        with socket.socket(socket.AF_INET, socket.SOCK_DGRAM) as other:
            for number in range(200):
                universe = self.chance.randint(1, UNIVERSES)
                strange = packet(universe, {1: 9}, number, cid=str(uuid.UUID(int=number % 12 + 1)))
                with contextlib.suppress(OSError):
                    other.sendto(strange, (f"239.255.0.{universe}", 5568))
                time.sleep(0.002)


def children(process: int) -> list[int]:
    tasks = Path(f"/proc/{process}/task").glob("*/children")
    return [int(each) for task in tasks for each in task.read_text().split()]


def name_of(process: int) -> str:
    return Path(f"/proc/{process}/comm").read_text().strip()


def carried_out(lines: list[list[str]], made: list[tuple[float, int]]) -> list[Took]:
    """How old each press was when it was carried out; far too old where it was never made."""
    moves = [(int(moment), int(words[1])) for moment, *words in lines if words[0] == "goto"]
    by_cue = collections.defaultdict(list)
    for pressed, cue in made:
        by_cue[cue].append(pressed)
    # The clock of `live` and this one: the quickest press took next to nothing.
    first = min(moment - pressed for moment, cue in moves for pressed in by_cue[cue][:1])
    found = []
    for moment, cue in moves:
        ages = [moment - pressed - first for pressed in by_cue[cue]]
        age = min((each for each in ages if each >= -1), default=1e9)
        until = (moment - first) / 1000
        found.append(Took(age, until - age / 1000, until))
    return found


def late_in(lines: list[list[str]], presses: list[Took], began: float) -> list[str]:
    """What was later than it may be, of a night that began at this moment."""
    ticks = [int(moment) for moment, *words in lines if words == ["tick"]]
    late: list[str] = []
    for before, after in zip(ticks, ticks[1:]):
        stretch = Took(after - before, began + before / 1000 - 1, began + after / 1000 + 1)
        with collect_late(late):
            in_time(stretch, TICK + BEYOND, f"the tick at {after}")
    for each in presses:
        # What is in time for the desk waits for `live`, at most as long as a tick may.
        with collect_late(late):
            in_time(each, LATE + BEYOND, "a press")
    worst = max(after - before for before, after in zip(ticks, ticks[1:])) - TICK
    stood = max(
        (woke - due for each in witness().stalls.values() for due, woke in each), default=0
    )
    print(
        f"{len(ticks)} ticks, the latest by {worst} ms; the machine stood still for "
        f"{1000 * stood:.0f} ms"
    )
    return late


@contextlib.contextmanager
def collect_late(late: list[str]) -> Iterator[None]:
    """What is late inside is one of these."""
    try:
        yield
    except Late as fault:
        late.append(str(fault))


def faults_of(desk: Desk, receiver: Receiver, presses: Presses) -> tuple[list[str], list[str]]:
    """What was wrong in a night that has ended, and what was late; prints what was seen."""
    lines = [line.split() for line in behind_head(desk.record.read_bytes())]
    moves = carried_out(lines, presses.made)
    late = late_in(lines, moves, desk.began)
    faults = receiver.wrong[:10]
    print(
        f"{len(presses.made)} presses, {len(moves)} carried out; answers {dict(presses.answers)}"
    )
    print(f"{receiver.count} packets received, {receiver.ended} ended streams")
    if len(moves) < len(presses.made) // 3:
        faults.append("most presses were not carried out")
    if receiver.ended < UNIVERSES:
        faults.append("the streams have not ended")
    return faults, late


def play(seconds: float, seed: int) -> tuple[list[str], list[str]]:
    """Plays the night in this network; what was wrong in it, and what was late."""
    subprocess.run(LINK, shell=True, check=True)
    witness()
    chance, cid = random.Random(seed), uuid.uuid4()
    with tempfile.TemporaryDirectory() as folder:
        receiver = Receiver(cid)
        desk = Desk(Path(folder), cid, chance)
        try:
            presses = Presses(desk, random.Random(seed + 1))
            trouble = Trouble(desk, receiver, chance)
            trouble.until(time.monotonic() + seconds)
            presses.end()
            print(", ".join(f"{kind} {count}" for kind, count in sorted(trouble.happened.items())))
            desk.process.terminate()
            desk.process.wait(30)
            receiver.settle()
            return faults_of(desk, receiver, presses)
        finally:
            desk.process.kill()
            with contextlib.suppress(ProcessLookupError):
                signal.pidfd_send_signal(desk.live, signal.SIGKILL)


def main() -> int:
    parser = argparse.ArgumentParser(description=__doc__.splitlines()[0])
    parser.add_argument("--seconds", type=float, default=600)
    parser.add_argument("--seed", type=int, default=38)
    parser.add_argument("--inside", action="store_true", help=argparse.SUPPRESS)
    words = parser.parse_args()
    if not words.inside:
        network = ["unshare", *(["--user", "--map-root-user"] if os.geteuid() else []), "--net"]
        return subprocess.run([*network, sys.executable, *sys.argv, "--inside"]).returncode
    faults, late = play(words.seconds, words.seed)
    for fault in faults:
        print(f"WRONG: {fault}")
    for each in late:
        print(f"LATE: {each}")
    return 1 if faults else 2 if late else 0


if __name__ == "__main__":
    sys.exit(main())
