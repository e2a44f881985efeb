"""What is kept of what `cueplayer watch` prints: the slots of each universe as a receiver shows
them, and the sources on it."""

import threading
import uuid
from collections.abc import Iterable
from dataclasses import dataclass, field

from cueplayer_tools.line_protocol import printable
from cueplayer_tools.watch_lines import (
    SLOTS,
    IgnoredLine,
    LeftLine,
    SlotsLine,
    SourceLine,
    read_watch_line,
)

USUAL_PRIORITY = 100
# So many other sources are named; the rest are counted.
MOST_NAMED = 8
# Where more sources came than are told apart, that is told for so many milliseconds.
CROWDED = 2_500


@dataclass
class Source:
    """Another source: what it says of itself, and the universes on which it is live."""

    name: str
    priority: int
    universes: set[int]

    def __str__(self) -> str:
        universes = ", ".join(map(str, sorted(self.universes)))
        plural = "s" if len(self.universes) > 1 else ""
        return f"{self.name}, priority {self.priority}, universe{plural} {universes}"


@dataclass(frozen=True)
class Others:
    """The other sources in words, by their priority beside our own; and the universes on which
    there are more than are told apart."""

    above: tuple[str, ...] = ()
    beside: tuple[str, ...] = ()
    below: tuple[str, ...] = ()
    crowded: tuple[int, ...] = ()


@dataclass
class Levels:
    """The slots of each universe, why those of others are not received, and other sources."""

    reasons: dict[int, str] = field(default_factory=dict)
    slots: dict[int, bytes] = field(default_factory=dict)
    others: Others = Others()
    version: int = 0


def _names(sources: Iterable[Source]) -> tuple[str, ...]:
    names = sorted(map(str, sources))
    more = len(names) - MOST_NAMED
    if more > 0:
        names[MOST_NAMED:] = [f"and {more} more"]
    return tuple(names)


class Watched:
    """What was printed so far."""

    def __init__(self, cid: uuid.UUID, priority: int = USUAL_PRIORITY) -> None:
        """The source of this CID is our own, and sends at this priority."""
        self.cid = str(cid)
        self.priority = priority
        self.levels = Levels()
        self.sources: dict[str, Source] = {}
        self.crowded: dict[int, int] = {}
        self.lock = threading.Lock()

    def hear(self, line: str) -> bool:
        """Takes a line; whether anything that is shown has changed."""
        with self.lock:
            return self._hear(line)

    def _hear(self, line: str) -> bool:
        version = self.levels.version
        match read_watch_line(line):
            case SlotsLine(universe=universe, levels=levels):
                self.levels.slots[universe] = levels
                self.levels.version += 1
            case SourceLine() as said:
                self._source(said)
            case LeftLine(universe=universe, cid=cid):
                self._leave(universe, cid)
            case IgnoredLine(reason="SourcesFull", moment=moment, universe=universe):
                self.crowded[universe] = moment
        self._name_others()
        return self.levels.version != version

    def look(self, moment: int) -> bool:
        """What is over at this moment; whether anything that is shown has changed."""
        with self.lock:
            crowded = self.crowded.items()
            self.crowded = {at: told for at, told in crowded if moment - told < CROWDED}
            return self._name_others()

    def fail(self, reason: str, universes: list[int]) -> None:
        """The levels of these are not received, nor what was shown of them."""
        with self.lock:
            self.levels.reasons |= dict.fromkeys(universes, reason)
            self.levels.slots, self.sources = {}, {}
            self.levels.version += 1
            self._name_others()

    def _source(self, said: SourceLine) -> None:
        if said.universe not in self.levels.slots:
            # It is dark until a line says something else.
            self.levels.slots[said.universe] = bytes(SLOTS)
            self.levels.version += 1
        if said.cid == self.cid:
            return
        source = self.sources.setdefault(said.cid, Source("", 0, set()))
        source.name = printable(said.name.strip(), 63) or "a source without a name"
        source.priority = said.priority
        source.universes.add(said.universe)

    def _leave(self, universe: int, cid: str) -> None:
        source = self.sources.get(cid)
        if source is None:
            return
        source.universes.discard(universe)
        if not source.universes:
            del self.sources[cid]

    def _name_others(self) -> bool:
        sources, ours = self.sources.values(), self.priority
        others = Others(
            above=_names(each for each in sources if each.priority > ours),
            beside=_names(each for each in sources if each.priority == ours),
            below=_names(each for each in sources if each.priority < ours),
            crowded=tuple(sorted(self.crowded)),
        )
        if others == self.levels.others:
            return False
        self.levels.others = others
        self.levels.version += 1
        return True
