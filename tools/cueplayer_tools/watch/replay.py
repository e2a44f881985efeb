"""A watch of a capture: its datagrams at the moments that it has of them, as fast as it goes."""

import select
import sys
from collections import Counter
from collections.abc import Iterator
from contextlib import contextmanager
from dataclasses import dataclass
from typing import BinaryIO

from cueplayer_tools.captures.frames import Datagram
from cueplayer_tools.captures.reading import datagrams
from cueplayer_tools.line_protocol import Refused, printable
from cueplayer_tools.watch.told import LOOK, Told, came_of

# Where a packet has its universe, and what says that it is a data packet (E1.31-2018, 4).
_VECTORS = {18: b"\0\0\0\x04", 40: b"\0\0\0\x02"}
_UNIVERSE = slice(113, 115)
_SHORTEST = 126
# Nanoseconds in a millisecond.
_MILLISECOND = 10**6
# Universes that are named where there are too many to be watched.
_MOST_NAMED = 40
STANDARD_INPUT = "-"


@contextmanager
def opened(name: str) -> Iterator[BinaryIO]:
    """A capture, or the one on standard input; Refused where it cannot be opened."""
    if name == STANDARD_INPUT:
        yield sys.stdin.buffer
        return
    try:
        file = open(name, "rb")
    except OSError as fault:
        raise Refused(f"{printable(name)}: {fault.strerror}") from fault
    with file:
        yield file


def universes_in(name: str, port: int, most: int) -> list[int]:
    """The universes of a capture; Refused where there are none, or more than so many."""
    if name == STANDARD_INPUT:
        raise Refused("name the universes of a capture on standard input: tools/watch - 1-4")
    with opened(name) as file:
        counts = Counter(
            int.from_bytes(each.data[_UNIVERSE], "big")
            for each in datagrams(file)
            if each.to[1] == port and _is_data(each.data)
        )
    found = sorted(counts)
    if not found:
        raise Refused(f"{printable(name)} has no data packet of streaming ACN to port {port}")
    if len(found) > most:
        named = " ".join(map(str, found[:_MOST_NAMED])) + (" .." if found[_MOST_NAMED:] else "")
        told = f"{printable(name)} has {len(found)} universes, {named}: name up to {most}"
        raise Refused(told)
    return found


def _is_data(data: bytes) -> bool:
    return len(data) >= _SHORTEST and all(
        data[at : at + 4] == vector for at, vector in _VECTORS.items()
    )


@dataclass
class Replay:
    """The datagrams of a capture that came to a port, given to a watch."""

    told: Told
    port: int
    # Milliseconds of the capture that are read.
    longest: float

    def __post_init__(self) -> None:
        self.first: int | None = None
        self.moment = 0
        self.poll = select.poll()
        self.poll.register(self.told.feed.output, select.POLLIN)

    def run(self, file: BinaryIO) -> bool:
        """Gives them all; whether the program ran so long."""
        for datagram in datagrams(file):
            if datagram.to[1] != self.port:
                continue
            if self._moment_of(datagram) > self.longest:
                break
            self._give(datagram)
            while self.told.feed.is_full():
                if not self._turn():
                    return False
        self.told.rates.end_second(max(self.moment / 1000, 0.001))
        return True

    def _moment_of(self, datagram: Datagram) -> int:
        """Milliseconds since the first one; a capture of several cards may go back a little."""
        if self.first is None:
            self.first = datagram.moment
        return max((datagram.moment - self.first) // _MILLISECOND, self.moment)

    def _give(self, datagram: Datagram) -> None:
        moment = self._moment_of(datagram)
        for look in range(self.moment // LOOK + 1, moment // LOOK + 1):
            self.told.clock(LOOK * look)
        self.moment = moment
        self.told.give([came_of(moment, datagram.data, datagram.source, datagram.to)])

    def _turn(self) -> bool:
        """Has the program take what waits, and takes what it tells; whether it still runs."""
        feed = self.told.feed
        self.poll.register(feed.input, select.POLLOUT)
        ready = {file for file, _ in self.poll.poll()}
        if feed.input in ready:
            feed.push()
        lines = feed.new_lines() if feed.output in ready else []
        for line in lines or []:
            self.told.tell(line)
        return lines is not None
