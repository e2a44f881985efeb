"""Nights that are killed and taken up: the head of a record, and what was heard of a night."""

import contextlib
import fcntl
import hashlib
import os
import re
import resource
import select
import signal
import socket
import struct
import subprocess
import threading
import time
from collections.abc import Callable, Iterator
from pathlib import Path
from typing import NamedTuple

from expected import runs
from expected import show as shows
from expected.desk import Desk
from expected.script import Console
from expected.words import lines_of, uuid
from machine import Took, by_clock
from program import CID, LIVE_NAME, PROGRAM
from wire import SEQUENCE, address_of, receiver_socket

HEAD = re.compile(
    rb"! cueplayer record 1: show (?P<show>[0-9a-f]{64})\n"
    rb"! cid (?P<cid>[0-9a-f-]{36}), priority (?P<priority>\d+), base (?P<base>\d+),"
    rb" name (?P<name>.{1,63}), started (?P<started>\d{4}-\d\d-\d\dT\d\d:\d\d:\d\d\.\d{3}Z)\n"
)
STARTED = "2026-11-26T19:30:00.250Z"
UNIVERSE = slice(113, 115)
# How long light is waited for, and a program that is to end, in seconds.
PATIENCE = 30
# The length of a datagram that is no packet, and that a test sends to itself.
MARK = 16
# What Linux calls SO_TIMESTAMPNS, the option and the time that comes by it, and SO_RCVBUFFORCE.
TIMESTAMP, FORCED_ROOM = 35, 33


def head(
    show: bytes, cid: str = CID, priority: int = 100, base: int = 1, name: str = LIVE_NAME
) -> bytes:
    """The first lines of a record."""
    return (
        f"! cueplayer record 1: show {hashlib.sha256(show).hexdigest()}\n"
        f"! cid {cid}, priority {priority}, base {base}, name {name}, started {STARTED}\n"
    ).encode()


class Wrong(AssertionError):
    """What was not as it must be."""


def wait_until(holds: Callable[[], bool], what: str) -> None:
    """Waits until a condition holds."""
    until = time.monotonic() + PATIENCE
    while not holds():
        if time.monotonic() > until:
            raise Wrong(f"not within {PATIENCE} seconds: {what}")
        time.sleep(0.001)


class Sent(NamedTuple):
    """A packet that a record means, with the moment of its tick."""

    moment: int
    packet: bytes


class Heard(NamedTuple):
    """A packet that came: when, in seconds of the system's clock, and from which port."""

    at: float
    port: int
    packet: bytes


def sent_by(
    show: bytes,
    record: bytes,
    cid: str = CID,
    priority: int = 100,
    base: int = 1,
    name: str = LIVE_NAME,
) -> Iterator[Sent]:
    """The packets that the lines of a record mean, by the second reader."""
    desk, console = Desk(shows.read(show), base), Console(base, priority, uuid(cid.encode()), name)
    for line in lines_of(record):
        for universe, packet in runs.play_line(desk, line)[1]:
            yield Sent(desk.last, runs.wire(universe, packet, console))


def whole_lines(record: bytes) -> bytes:
    """A record without what is behind its last LF."""
    return record[: record.rfind(b"\n") + 1]


def moments(record: bytes, word: bytes = rb"tick") -> list[int]:
    """The moments of the lines of a record that begin with this word, a pattern."""
    return [int(at) for at in re.findall(rb"(?m)^(\d+) " + word, record)]


def universe_of(packet: bytes) -> int:
    return int.from_bytes(packet[UNIVERSE], "big")


def limit_files(size: int) -> None:
    """No file may grow beyond this size; a write then fails, and does not end the program."""
    signal.signal(signal.SIGXFSZ, signal.SIG_IGN)
    resource.setrlimit(resource.RLIMIT_FSIZE, (size, size))


def is_free(file: int) -> bool:
    """Whether no other process holds the lock of a file."""
    try:
        fcntl.flock(file, fcntl.LOCK_EX | fcntl.LOCK_NB)
    except BlockingIOError:
        return False
    fcntl.flock(file, fcntl.LOCK_UN)
    return True


class Ear(threading.Thread):
    """Takes every datagram of a socket, with the time at which the system took it."""

    def __init__(self, receiver: socket.socket) -> None:
        super().__init__(daemon=True)
        self.receiver, self.heard, self.is_over = receiver, list[Heard](), False
        # What `settle` sent, and what of it came.
        self.marks = set[bytes]()
        receiver.setsockopt(socket.SOL_SOCKET, TIMESTAMP, 1)
        try:
            receiver.setsockopt(socket.SOL_SOCKET, FORCED_ROOM, 1 << 23)
        except PermissionError:
            pass
        self.start()

    def run(self) -> None:
        while not self.is_over:
            if select.select([self.receiver], [], [], 0.05)[0]:
                packet, ((_, _, stamp),), _, (_, port) = self.receiver.recvmsg(1500, 64)
                if len(packet) == MARK:
                    self.marks.add(packet)
                    continue
                seconds, nanoseconds = struct.unpack("qq", stamp)
                self.heard.append(Heard(seconds + nanoseconds / 1e9, port, packet))

    def settle(self) -> None:
        """Waits until all that was sent before has been heard: datagrams come in their order."""
        mark = os.urandom(MARK)
        with socket.socket(socket.AF_INET, socket.SOCK_DGRAM) as own:
            own.sendto(mark, self.receiver.getsockname())
        wait_until(lambda: mark in self.marks, "what was sent has come")

    def close(self) -> None:
        self.is_over = True
        self.join()
        self.receiver.close()


class Kill(NamedTuple):
    """A kill, in seconds of the system's clock: when it was asked for, and when it was done. In
    between the process may still have sent."""

    at: float
    done: float


class KilledNight:
    """A night of `live --resume` that may be killed and taken up, and all that was heard of it."""

    def __init__(
        self, folder: Path, show: bytes, *options: str, program=PROGRAM, cid=CID, to="", env=None
    ) -> None:
        self.text, self.env = show, env
        self.show, self.record = folder / "show.asc", folder / "night.play"
        self.show.write_bytes(show)
        receiver = receiver_socket()
        words = ["live", self.show, "--to", to or address_of(receiver), "--cid", cid]
        self.words = [program, *words, "--record", self.record, *options]
        self.ear = Ear(receiver)
        # Each process of the night that played, the one that stands by, and the kills.
        self.processes: list[subprocess.Popen] = []
        self.spare: subprocess.Popen | None = None
        self.kills: list[Kill] = []
        # The lines of standard error that were waited for, by process.
        self.lines: dict[int, list[bytes]] = {}

    def begin(
        self, *options: str, resume: bool = True, limit: int | None = None
    ) -> subprocess.Popen:
        """Starts a process of the night, whose files may have a limit."""
        night = self._start([*options, *(["--resume"] if resume else [])], limit)
        self.processes.append(night)
        return night

    def _start(self, options: list[str], limit: int | None = None) -> subprocess.Popen:
        """Its outputs are pipes that have room for what it tells."""
        pipe = subprocess.PIPE
        limited = None if limit is None else lambda: limit_files(limit)
        return subprocess.Popen(
            [*self.words, *options], bufsize=0, env=self.env, preexec_fn=limited,
            stdin=pipe, stdout=pipe, stderr=pipe,
        )  # fmt: skip

    def stand_by(self, *options: str) -> subprocess.Popen:
        """Starts a spare."""
        self.spare = self._start([*options, "--resume", "--spare"])
        return self.spare

    def stands_by(self, *options: str) -> subprocess.Popen:
        """Starts a spare, and waits until it reads the record."""
        spare = self.stand_by(*options)
        self.reads(spare)
        return spare

    def reads(self, process: subprocess.Popen) -> None:
        """Waits until a process has the record open."""
        wait_until(lambda: self._is_read_by(process), "the record is read")

    def _is_read_by(self, process: subprocess.Popen) -> bool:
        """Whether a process has the record open for reading, as the script that starts it has
        not."""
        # A file that is closed meanwhile is not there any more.
        with contextlib.suppress(OSError):
            for each in Path(f"/proc/{process.pid}/fd").iterdir():
                if os.path.samefile(each, self.record):
                    told = Path(f"/proc/{process.pid}/fdinfo", each.name).read_text()
                    flags = int(re.search(r"flags:\s*(\d+)", told)[1], 8)
                    if flags & os.O_ACCMODE != os.O_WRONLY:
                        return True
        return False

    def promote(self) -> None:
        """From now on the spare is the process that plays."""
        if self.spare is None:
            raise Wrong("no spare stands by")
        self.processes.append(self.spare)
        self.spare = None

    @property
    def heard(self) -> list[Heard]:
        return list(self.ear.heard)

    def type(self, line: bytes) -> None:
        self.processes[-1].stdin.write(line)

    def type_commands(self, lines: bytes) -> None:
        """Types commands, lines that are recorded as they are, and waits until a tick has come
        behind them: they were carried out and answered."""
        before = self.record.stat().st_size
        self.type(lines)
        wanted = [b" " + line for line in lines.splitlines(keepends=True)]
        wait_until(
            lambda: all(line in self.record.read_bytes()[before:] for line in wanted),
            f"the record has {lines!r}",
        )
        ticks = len(moments(self.record.read_bytes()))
        wait_until(lambda: len(moments(self.record.read_bytes())) > ticks, "a tick comes")

    def light(self, packets: int = 1) -> None:
        """Waits until so many more packets have come, of the process that plays."""
        wanted, night = len(self.ear.heard) + packets, self.processes[-1]

        def is_there() -> bool:
            if len(self.ear.heard) < wanted and night.poll() is not None:
                raise Wrong(f"status {night.returncode}: {night.stderr.read()}")
            return len(self.ear.heard) >= wanted

        wait_until(is_there, "light")

    def kill(self, stalls: bool = False) -> None:
        """Kills the process that plays. Where no spare stands by to take the record at once, and
        what writes it does not stall, the record is whole then."""
        at = time.time()
        self.processes[-1].kill()
        self.processes[-1].wait()
        self.kills.append(Kill(at, time.time()))
        if self.spare is None and not stalls:
            self.settle()

    def settle(self) -> None:
        """Waits until no process has the record any more, and all that was sent has been heard. A
        writer ends behind the program, and holds the record's lock until then."""
        if self.record.exists():
            with open(self.record, "rb") as file:
                wait_until(lambda: is_free(file.fileno()), "the record is whole")
        self.ear.settle()

    def is_at_rest(self) -> bool:
        """Whether all that the record means was heard: no tick was recorded and not carried
        out."""
        return len(list(sent_by(self.text, self.record.read_bytes()))) == len(self.ear.heard)

    def end(self, line: bytes = b"end\n") -> int:
        """Types the line that ends the night, and answers the status."""
        self.type(line)
        return self.end_status()

    def end_status(self) -> int:
        """Waits until the process that plays has ended, and answers the status."""
        status = self.processes[-1].wait(PATIENCE)
        self.ear.settle()
        return status

    def tells(self, pattern: bytes) -> None:
        """Waits until the process that plays tells a line that begins so on standard error."""
        night = self.processes[-1]
        lines = self.lines.setdefault(night.pid, [])
        while not (lines and re.match(pattern, lines[-1])):
            if not select.select([night.stderr], [], [], PATIENCE)[0]:
                raise Wrong(f"{pattern!r} is not told: {lines}")
            lines.append(night.stderr.readline())
            if not lines[-1]:
                raise Wrong(f"{pattern!r} is not told: {lines}")

    def outputs(self) -> list[tuple[bytes, bytes]]:
        """What each process printed and told. None of them runs any more."""
        return [
            (each.stdout.read(), b"".join(self.lines.get(each.pid, [])) + each.stderr.read())
            for each in self.processes
        ]

    def close(self) -> None:
        for each in [*self.processes, *([self.spare] if self.spare else [])]:
            each.kill()
            each.wait()
            for pipe in (each.stdin, each.stdout, each.stderr):
                pipe.close()
        self.ear.close()


class Figures(NamedTuple):
    """What receivers had of a night: how long it took from each kill to the next packet; how far
    the light was behind the show at most, in milliseconds; how many packets were lost; and how far
    the moments of each process were off those of the one before."""

    gaps: list[Took]
    behind: float
    lost: int
    drifts: list[Took]

    def dark(self) -> float:
        """The longest time from a kill to the next packet, in milliseconds."""
        return max((each.ms for each in self.gaps), default=0.0)

    def drift(self) -> float:
        """How far moments were off at most, in milliseconds."""
        return max((each.ms for each in self.drifts), default=0.0)


class Judge:
    """Holds what was heard of a night against what its record means."""

    def __init__(self, night: KilledNight, **source) -> None:
        self.heard, self.kills = night.heard, night.kills
        self.sent = list(sent_by(night.text, night.record.read_bytes(), **source))
        self.universes = {universe_of(each.packet) for each in self.sent}
        self.places = list(self._places())

    def _places(self) -> Iterator[int]:
        """The place of each packet that was heard, among those that the record means."""
        place, room = 0, len(self.universes) * (1 + len(self.kills))
        for each in self.heard:
            ahead = [sent.packet for sent in self.sent[place : place + room]]
            if each.packet not in ahead:
                number, universe = each.packet[SEQUENCE], universe_of(each.packet)
                raise Wrong(f"number {number} of universe {universe} is not meant at {place}")
            place += ahead.index(each.packet) + 1
            yield place - 1

    def _kills_between(self, first: float, last: float) -> int:
        """How many kills there may have been between two packets: a spare sends before it is known
        that the process before it is gone."""
        return sum(first < kill.done and kill.at < last for kill in self.kills)

    def lost_packets(self) -> int:
        """How many packets were lost: at most one of a universe at a kill, and else none."""
        times = {place: each.at for each, place in zip(self.heard, self.places)}
        latest: dict = {}
        missing = dict.fromkeys(self.universes, 0)
        lost = 0
        for place, sent in enumerate(self.sent[: self.places[-1] + 1]):
            universe, at = universe_of(sent.packet), times.get(place)
            if at is None:
                missing[universe] += 1
                continue
            if missing[universe] > self._kills_between(latest.get(universe, 0.0), at):
                raise Wrong(f"{missing[universe]} packets of universe {universe} before {place}")
            lost += missing[universe]
            latest[universe], missing[universe] = at, 0
        return lost

    def gaps(self) -> list[Took]:
        """From each kill to the next packet of another process, where that came before the next
        kill."""
        found = []
        ends = [kill.at for kill in self.kills[1:]] + [float("inf")]
        for kill, until in zip(self.kills, ends):
            before = [each.port for each in self.heard if each.at <= kill.at][-1:]
            behind = [
                each.at
                for each in self.heard
                if kill.at < each.at < until and (each.at > kill.done or each.port not in before)
            ]
            found += [by_clock(kill.at, behind[0])] if behind else []
        return found

    def _zeros(self) -> list[tuple[float, float, float]]:
        """Of each process the time at which its moments were 0, by the packet that was least late,
        and from when to when it was heard, in seconds."""
        zeros: dict[int, tuple[float, float, float]] = {}
        for each, place in zip(self.heard, self.places):
            zero = each.at - self.sent[place].moment / 1000
            least, first, _ = zeros.get(each.port, (zero, each.at, each.at))
            zeros[each.port] = min(zero, least), first, each.at
        return list(zeros.values())

    def drifts(self) -> list[Took]:
        """How far the moments of each process were off those of the one before."""
        zeros = self._zeros()
        return [
            by_clock(first, last)._replace(ms=1000 * abs(zero - before))
            for (before, first, _), (zero, _, last) in zip(zeros, zeros[1:])
        ]

    def figures(self) -> Figures:
        (zero, *_), *_ = self._zeros()
        behind = [
            1000 * (each.at - zero) - self.sent[before].moment
            for each, before in zip(self.heard[1:], self.places)
        ]
        return Figures(self.gaps(), max(behind), self.lost_packets(), self.drifts())
