"""What is tried: a receiver that is sent datagrams, and asked what it shows."""

import functools
import re
import shlex
import socket
import subprocess
import time
from collections.abc import Sequence
from typing import Protocol

from cueplayer_tools.addresses import Address
from cueplayer_tools.conform.capture import group_of
from cueplayer_tools.conform.expected import slots_of
from cueplayer_tools.line_protocol import Refused, printable
from cueplayer_tools.program import program, run
from cueplayer_tools.rehearsal import Slots

PORT = 5568
# Sends each universe to its own multicast group, as in the words of the program.
GROUPS = "239.255.0.0"
PATIENCE = 10
ANY = "0.0.0.0"
# A second address of this machine, for packets to itself.
SECOND_OF_LOOPBACK = "127.0.0.2"
# Looks at all universes together take no longer, in seconds.
LONGEST_LOOKS = 0.1


class PeerFault(Exception):
    """The peer ended or does not answer; the text says which."""


class NetworkFault(PeerFault):
    """This machine cannot send; the text says why."""


class Peer(Protocol):
    """A receiver of some universes, which do not touch each other."""

    name: str
    version: str
    universes: Sequence[int]
    # The two universes of a case of two; fewer where it has no two.
    pair: Sequence[int]
    # Whether it can be sent to from a second address.
    moves: bool
    # Whether time goes by for it. One that takes all as of one moment loses no source.
    keeps_time: bool
    # How long a look takes, in seconds.
    look_time: float

    def begin(self, universes: Sequence[int]) -> None:
        """A case begins in these universes."""

    def send(self, universe: int, data: bytes, sender: int) -> None:
        """Sends a datagram: 0 and 1 are two ports of one address, and 2 is another address."""

    def route(self, universe: int, sender: int) -> tuple[Address, Address]:
        """From where and to where such a datagram goes."""

    def look(self, universe: int) -> Slots:
        """The slots that it shows and that are not 0."""

    def close(self) -> None:
        """Ends what was begun for it."""


class Clock:
    """The time of a run, in milliseconds."""

    def __init__(self) -> None:
        self.begun = time.monotonic()

    def now(self) -> int:
        return int(1000 * (time.monotonic() - self.begun))

    def wait_until(self, moment: int) -> None:
        left = self.begun + moment / 1000 - time.monotonic()
        if left > 0:
            time.sleep(left)


class SteppedClock(Clock):
    """A clock that goes on as far as somebody waits, at once: for receivers that know no time, or
    are told it."""

    def __init__(self) -> None:
        super().__init__()
        self.moment = 0

    def now(self) -> int:
        return self.moment

    def wait_until(self, moment: int) -> None:
        self.moment = max(self.moment, moment)


class Sockets:
    """Sockets that send to a receiver, or each universe to its group: two of one address, and one
    of a second address where there is one. Loopback has many."""

    def __init__(
        self, to: str = "127.0.0.1", port: int = PORT, source: str = "", second: str = ""
    ) -> None:
        self.to, self.port = to, port
        if not second and to.startswith("127."):
            second = SECOND_OF_LOOPBACK
        sources = [source, source, *([second] if second else [])]
        self.sockets = [self._open(each) for each in sources]
        self.addresses = [each.getsockname() for each in self.sockets]
        self.moves = bool(second)

    def _open(self, source: str) -> socket.socket:
        opened = socket.socket(socket.AF_INET, socket.SOCK_DGRAM)
        try:
            opened.bind((source, 0))
            if source:
                card = socket.inet_aton(source)
                opened.setsockopt(socket.IPPROTO_IP, socket.IP_MULTICAST_IF, card)
        except OSError as fault:
            opened.close()
            raise Refused(f"no card has {source}: {fault.strerror}") from fault
        return opened

    def route(self, universe: int, sender: int) -> tuple[Address, Address]:
        """From where and to where a datagram goes."""
        to = (group_of(universe) if self.to == GROUPS else self.to, self.port)
        host, port = self.addresses[sender]
        return (_source_to(to) if host == ANY else host, port), to

    def send(self, universe: int, data: bytes, sender: int) -> None:
        host = group_of(universe) if self.to == GROUPS else self.to
        try:
            self.sockets[sender].sendto(data, (host, self.port))
        except OSError as fault:
            raise NetworkFault(f"{host}:{self.port}: {fault.strerror}") from fault

    def close(self) -> None:
        for each in self.sockets:
            each.close()


@functools.cache
def _source_to(to: Address) -> str:
    """The address that this machine sends from, by its route."""
    with socket.socket(socket.AF_INET, socket.SOCK_DGRAM) as asked:
        try:
            asked.connect(to)
            return str(asked.getsockname()[0])
        except OSError:
            return ANY


class CommandPeer:
    """A receiver of the user's, and a command that prints a slots line of what it shows. In the
    command `{universe}` stands for the universe that is asked for."""

    keeps_time = True

    def __init__(self, command: str, universes: Sequence[int], sockets: Sockets) -> None:
        self.words = shlex.split(command)
        if not self.words:
            raise Refused("--command names no program")
        self.name, self.version = printable(command), "unknown"
        self.sockets, self.moves = sockets, sockets.moves
        self.pair: Sequence[int] = universes[:2]
        self.route = sockets.route
        self.look(universes[0])
        self.look_time = sorted(self._timed_look(universes[0]) for _ in range(3))[1]
        # While it looks at one universe, no datagram goes to another.
        at_a_time = int(LONGEST_LOOKS / self.look_time)
        self.universes = universes[: max(1, at_a_time)]

    def _timed_look(self, universe: int) -> float:
        begun = time.monotonic()
        self.look(universe)
        return time.monotonic() - begun

    def begin(self, universes: Sequence[int]) -> None:
        pass

    def send(self, universe: int, data: bytes, sender: int) -> None:
        self.sockets.send(universe, data, sender)

    def look(self, universe: int) -> Slots:
        words = [word.replace("{universe}", str(universe)) for word in self.words]
        try:
            done = subprocess.run(words, capture_output=True, timeout=PATIENCE, check=False)
        except subprocess.TimeoutExpired as fault:
            raise PeerFault(f"the command gives no answer within {PATIENCE} s") from fault
        except OSError as fault:
            raise Refused(f"{printable(words[0])}: {fault.strerror}") from fault
        return slots_in(done.stdout.decode("latin-1"))

    def close(self) -> None:
        self.sockets.close()


def slots_in(printed: str) -> Slots:
    """The slots of the last slots line of a text."""
    lines = [line for line in printed.splitlines() if re.match(r"slots( \d+:\d+)*\s*$", line)]
    if not lines:
        raise PeerFault(f"the command prints no slots line: {printable(printed)!r}")
    return slots_of(lines[-1])


class OwnPeer:
    """`cueplayer listen`, begun anew for each look, with all datagrams of the case so far."""

    keeps_time, moves, look_time = False, True, 0.0
    pair: Sequence[int] = (1, 2)

    def __init__(self) -> None:
        self.name = "cueplayer listen"
        version = run("--version").printed.splitlines()
        self.version = version[0].removeprefix("cueplayer ") if version else "unknown"
        self.universes: Sequence[int] = range(1, 100)
        self.came: dict[int, list[tuple[bytes, int]]] = {}
        self.sockets = [socket.socket(socket.AF_INET, socket.SOCK_DGRAM) for _ in range(3)]
        self.sockets[2].bind((SECOND_OF_LOOPBACK, 0))

    def begin(self, universes: Sequence[int]) -> None:
        # What comes for one of them comes to all.
        self.came |= dict.fromkeys(universes, list[tuple[bytes, int]]())

    def send(self, universe: int, data: bytes, sender: int) -> None:
        self.came[universe].append((data, sender))

    def route(self, universe: int, sender: int) -> tuple[Address, Address]:
        # Each look has sockets of its own.
        host = SECOND_OF_LOOPBACK if sender == 2 else "127.0.0.1"
        return (host, PORT + 1 + sender), ("127.0.0.1", PORT)

    def look(self, universe: int) -> Slots:
        came = self.came[universe]
        if not came:
            return {}
        words = [program(), "listen", "127.0.0.1:0", str(universe), str(len(came))]
        pipe = subprocess.PIPE
        with subprocess.Popen(words, text=True, stdout=pipe, stderr=pipe) as child:
            assert child.stderr is not None
            told = child.stderr.readline()
            if not told.startswith("listening at "):
                raise PeerFault(f"listen: {told.strip()}")
            host, port = told.split()[2].split(":")
            for data, sender in came:
                self.sockets[sender].sendto(data, (host, int(port)))
            try:
                return slots_in(child.communicate(timeout=PATIENCE)[0])
            except subprocess.TimeoutExpired as fault:
                child.kill()
                raise PeerFault("listen: not all datagrams came") from fault

    def close(self) -> None:
        for each in self.sockets:
            each.close()
