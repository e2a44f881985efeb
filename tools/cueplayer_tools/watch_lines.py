"""What `watch` prints, the program's and the tool's, read strictly, a line at a time."""

import re
from dataclasses import dataclass

SLOTS = 512
_CID = r"([0-9a-f]{8}-[0-9a-f]{4}-[0-9a-f]{4}-[0-9a-f]{4}-[0-9a-f]{12})"
_FRONT = re.compile(r"(\d{1,15}) (\d{1,5}) (.*)", re.ASCII)
_SLOTS = re.compile(r"slots((?: \d{1,3}:\d{1,3})*)", re.ASCII)
_SOURCE = re.compile(rf"source (.*) {_CID} priority (\d{{1,3}})", re.ASCII)
_LEFT = re.compile(rf"(gone|ended) (.*) {_CID}", re.ASCII)
_LEADS = re.compile(rf"leads (.*) {_CID}", re.ASCII)
_LOST = re.compile(rf"lost (.*) {_CID} (\d{{1,10}})", re.ASCII)
_IGNORED = re.compile(r"ignored (\w+(?: \w+)?) (\d{1,10})", re.ASCII)
_FLASH = re.compile(r"flash((?: \d{1,3})+)", re.ASCII)
_DROPPED = re.compile(r"dropped (\d{1,10})", re.ASCII)


@dataclass(frozen=True)
class WatchLine:
    """The moment of a line, in milliseconds, and its universe; 0 is none."""

    moment: int
    universe: int


@dataclass(frozen=True)
class SlotsLine(WatchLine):
    """The levels of all 512 slots."""

    levels: bytes


@dataclass(frozen=True)
class SourceLine(WatchLine):
    """A source that is live, by its name, its CID and its priority."""

    name: str
    cid: str
    priority: int


@dataclass(frozen=True)
class LeftLine(WatchLine):
    """A source that is live no more: `gone` in silence, or `ended` by a termination."""

    word: str
    name: str
    cid: str


@dataclass(frozen=True)
class LeadsLine(WatchLine):
    """A source that is of the greatest priority now."""

    name: str
    cid: str


@dataclass(frozen=True)
class LostLine(WatchLine):
    """So many packets of a source are missing."""

    name: str
    cid: str
    packets: int


@dataclass(frozen=True)
class IgnoredLine(WatchLine):
    """So many datagrams were ignored for this reason."""

    reason: str
    datagrams: int


@dataclass(frozen=True)
class FlashLine(WatchLine):
    """Slots, from 1, that changed and came back within a second: the tool tells it."""

    slots: tuple[int, ...]


@dataclass(frozen=True)
class DroppedLine(WatchLine):
    """So many datagrams came faster than they could be handed on: the tool tells it."""

    datagrams: int


def _levels(pairs: str) -> bytes | None:
    """The levels of ` 1:128 3:9`; None where it has others than a universe."""
    levels = bytearray(SLOTS)
    for pair in pairs.split():
        slot, level = map(int, pair.split(":"))
        if not (1 <= slot <= SLOTS and level <= 255):
            return None
        levels[slot - 1] = level
    return bytes(levels)


def read_watch_line(line: str) -> WatchLine | None:
    """What a line says; None where it is none of `watch`."""
    front = _FRONT.fullmatch(line)
    if front is None:
        return None
    moment, universe, rest = int(front[1]), int(front[2]), front[3]
    if found := _SLOTS.fullmatch(rest):
        levels = _levels(found[1])
        return None if levels is None else SlotsLine(moment, universe, levels)
    if found := _SOURCE.fullmatch(rest):
        return SourceLine(moment, universe, found[1], found[2], int(found[3]))
    if found := _LEFT.fullmatch(rest):
        return LeftLine(moment, universe, *found.groups())
    if found := _LEADS.fullmatch(rest):
        return LeadsLine(moment, universe, *found.groups())
    if found := _LOST.fullmatch(rest):
        return LostLine(moment, universe, found[1], found[2], int(found[3]))
    if found := _IGNORED.fullmatch(rest):
        return IgnoredLine(moment, universe, found[1], int(found[2]))
    if found := _FLASH.fullmatch(rest):
        return FlashLine(moment, universe, tuple(map(int, found[1].split())))
    if found := _DROPPED.fullmatch(rest):
        return DroppedLine(moment, universe, int(found[1]))
    return None
