"""Networks of a test: a console's machine with two cards, and a node at the far end of each cable.

They are network namespaces. `ip netns exec` mounts the system's files anew, so that the program
sees the cards of its own machine alone. Nothing leaves them: no card of this machine is in them.
"""

import ctypes
import functools
import itertools
import os
import re
import select
import shutil
import socket
import subprocess
import threading
import time
import unittest
import uuid
from collections.abc import Callable
from concurrent.futures import ThreadPoolExecutor
from contextlib import ExitStack, suppress
from pathlib import Path
from typing import NamedTuple, TypeVar

from program import PROGRAM
from tooling import PATIENCE, Lines, wait_for

OFFICE, STAGE = "10.101.1.1", "10.101.2.1"
# The console's cards: the default route leads by the first one, the nodes are behind the second.
EVERYDAY, LIT = "10.101.1.10", "10.101.2.10"
PORT = 5568
UDP = 17
CLONE_NEWNET = 0x40000000
ETH_P_IP = 0x0800
NAMES = itertools.count(1)
AT_ONCE = 16
LAST_OF_THE_START = ("end ends the night", "the main leads")
Made = TypeVar("Made")


class Came(NamedTuple):
    """A datagram of streaming ACN that came by a cable: its addresses, what was left of its time
    to live, and what it holds."""

    source: str
    to: str
    ttl: int
    packet: bytes


class Machine:
    """A machine of the network, with no cards yet."""

    def __init__(self, kept: ExitStack) -> None:
        self.kept = kept
        self.name = f"cueplayer-{os.getpid()}-{next(NAMES)}"
        subprocess.run(["ip", "netns", "add", self.name], check=True, capture_output=True)
        kept.callback(lambda: subprocess.run(["ip", "netns", "del", self.name], check=True))
        self.ip("link set lo up")

    def ip(self, *lines: str) -> None:
        """Carries out lines of `ip`, all at once."""
        words = ["ip", "-n", self.name, "-batch", "-"]
        subprocess.run(words, input="\n".join(lines), text=True, check=True, capture_output=True)

    def words(self, *words: object) -> list[str]:
        """The words that run others on this machine."""
        return ["ip", "netns", "exec", self.name, *map(str, words)]

    def within(self, make: Callable[[], Made]) -> Made:
        """Calls this in a thread that is on this machine: a socket made there stays there."""
        made: list[Made] = []
        failed: list[Exception] = []

        def enter() -> None:
            with open(f"/run/netns/{self.name}", "rb") as namespace:
                if ctypes.CDLL(None).setns(namespace.fileno(), CLONE_NEWNET):
                    return
            try:
                made.append(make())
            except Exception as fault:
                failed.append(fault)

        thread = threading.Thread(target=enter)
        thread.start()
        thread.join()
        if failed:
            raise failed[0]
        return made[0]


class Node(Machine):
    """A node with one card, `port`: it listens, and all that comes by its cable is seen."""

    def __init__(self, kept: ExitStack, address: str) -> None:
        super().__init__(kept)
        self.address = address
        self.listener: socket.socket | None = None

    def begin(self) -> None:
        """Sees what comes by its cable, from here on, and listens, so that it refuses nothing."""
        self.watch_cable()
        self.listener = self.within(self._bind)
        self.kept.callback(self.refuse)

    def watch_cable(self) -> None:
        """Sees what comes by its cable, which may be a new one."""
        self.cable = self.within(self._tap)
        self.kept.callback(self.cable.close)

    def _tap(self) -> socket.socket:
        tap = socket.socket(socket.AF_PACKET, socket.SOCK_DGRAM, socket.htons(ETH_P_IP))
        tap.bind(("port", ETH_P_IP))
        tap.setsockopt(socket.SOL_SOCKET, socket.SO_RCVBUF, 1 << 22)
        return tap

    def _bind(self) -> socket.socket:
        listener = socket.socket(socket.AF_INET, socket.SOCK_DGRAM)
        listener.bind(("0.0.0.0", PORT))
        return listener

    def refuse(self) -> None:
        """Listens no more: the system answers each datagram with a refusal, by ICMP."""
        if self.listener is not None:
            self.listener.close()
            self.listener = None

    def came(self, wait: float = 0.1) -> list[Came]:
        """The datagrams to the port of streaming ACN since the last look, until none comes for so
        many seconds; those that the node sent itself are left out."""
        found = []
        while select.select([self.cable], [], [], wait)[0]:
            try:
                datagram, (_, _, kind, *_) = self.cable.recvfrom(65536)
            except OSError:
                # The cable was pulled out: that is told once.
                continue
            head = 4 * (datagram[0] & 15)
            to_port = int.from_bytes(datagram[head + 2 : head + 4], "big")
            if kind == socket.PACKET_OUTGOING or datagram[9] != UDP or to_port != PORT:
                continue
            source, to = (socket.inet_ntoa(datagram[at : at + 4]) for at in (12, 16))
            found.append(Came(source, to, datagram[8], datagram[head + 8 :]))
        return found

    def wait(self, patience: float = PATIENCE) -> list[Came]:
        """Waits until something comes."""
        until = time.monotonic() + patience
        while time.monotonic() < until:
            if came := self.came(0.02):
                return came
        raise AssertionError(f"nothing came to {self.address} in {patience} seconds")


class Venue:
    """A console with the cards `eth0` and `lit`, an office behind the first and the stage behind
    the second. The default route leads to the office."""

    def __init__(self, kept: ExitStack, has_addresses: bool = True) -> None:
        self.console = Machine(kept)
        self.office, self.stage = Node(kept, OFFICE), Node(kept, STAGE)
        for card, node in (("eth0", self.office), ("lit", self.stage)):
            self.plug(card, node)
            node.begin()
        if has_addresses:
            self.give_addresses()
            wait_for(self.is_up, "the console's cards are up")

    def plug(self, card: str, node: Node) -> None:
        """Plugs in a card of the console, with a cable to a node."""
        self.console.ip(f"link add {card} type veth peer name port netns {node.name}")
        node.ip(f"addr add {node.address}/24 dev port", "link set port up")

    def give_addresses(self) -> None:
        """What a machine gets as its network comes up."""
        self.console.ip(
            f"addr add {EVERYDAY}/24 dev eth0",
            f"addr add {LIT}/24 dev lit",
            "link set eth0 up",
            "link set lit up",
            f"route add default via {OFFICE}",
        )

    def is_up(self, cards: int = 2) -> bool:
        """Whether so many cards say that their links are there: some time behind the links."""
        words = ["ip", "-n", self.console.name, "-brief", "link", "show", "up", "type", "veth"]
        return subprocess.run(words, capture_output=True, text=True).stdout.count(" UP ") == cards

    def run(self, *words: object, stdin: bytes = b"") -> subprocess.CompletedProcess[bytes]:
        """A run of the program on the console's machine, to its end."""
        there = self.console.words(PROGRAM, *words)
        return subprocess.run(there, input=stdin, capture_output=True, timeout=60)


class Night:
    """A night of `live` on the console's machine."""

    def __init__(
        self, kept: ExitStack, venue: Venue, show: Path, *options: object, cid: str | None = None
    ) -> None:
        cid = cid or str(uuid.uuid4())
        words = venue.console.words(PROGRAM, "live", show, "--cid", cid, *options)
        pipe = subprocess.PIPE
        self.process = subprocess.Popen(
            words, text=True, bufsize=1, stdin=pipe, stdout=pipe, stderr=pipe
        )
        kept.callback(self._leave)
        self.out, self.err = Lines(self.process.stdout), Lines(self.process.stderr)
        self.start = self._begin()

    def _leave(self) -> None:
        self.process.kill()
        self.process.wait()
        with suppress(BrokenPipeError):
            self.process.stdin.close()

    def _begin(self) -> list[str]:
        """The lines of the start."""
        told: list[str] = []
        while (line := self.err.next()) is not None:
            told.append(line)
            if line.startswith(LAST_OF_THE_START):
                return told
        raise AssertionError(f"no night begins: {told}")

    def type(self, line: str) -> None:
        self.process.stdin.write(line + "\n")

    def ask(self, line: str = "where") -> int:
        """Types a line; the moment of its answer."""
        self.type(line)
        return int(self.out.find(r"(\d+) (ok|where)\b")[1])

    def wait_for_message(self, *texts: str) -> None:
        """Waits for one of these on standard error, behind its moment in hours, minutes and
        seconds."""
        self.err.find(rf"\d+:\d\d:\d\d ({'|'.join(map(re.escape, texts))})$")

    def end(self) -> tuple[int, list[str]]:
        """Ends the night: its status, and what was told since the last look."""
        self.type("end")
        status = self.process.wait(PATIENCE)
        return status, self.err.rest()


def universes(came: list[Came]) -> set[int]:
    return {int.from_bytes(each.packet[113:115], "big") for each in came}


@functools.cache
def obstacle() -> str | None:
    """Why no such network can be made here."""
    if os.geteuid() != 0:
        return "only root makes networks with cards"
    if not shutil.which("ip"):
        return "no ip (iproute2) is on PATH"
    with ExitStack() as kept:
        try:
            venue = Venue(kept)
            subprocess.run(venue.console.words("true"), check=True, capture_output=True)
        except (OSError, subprocess.CalledProcessError, IndexError) as fault:
            reason = getattr(fault, "stderr", None) or str(fault)
            return f"no network with cards can be made: {reason}"
    return None


class NetworkTest(unittest.TestCase):
    """With networks; where none can be made each test is skipped, with the reason."""

    def setUp(self) -> None:
        super().setUp()
        if reason := obstacle():
            self.skipTest(reason)

    def side_by_side(self, *cases: Callable[[ExitStack], None]) -> None:
        """Runs cases at the same time, each in networks of its own, and tells of each."""

        def run(case: Callable[[ExitStack], None]) -> None:
            with ExitStack() as kept:
                case(kept)

        with ThreadPoolExecutor(AT_ONCE) as pool:
            runs = [(case.__name__, pool.submit(run, case)) for case in cases]
        for name, done in runs:
            with self.subTest(name):
                done.result()
