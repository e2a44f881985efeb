"""What is known of universes, by the lines of `cueplayer watch`."""

from collections import Counter
from dataclasses import dataclass, field

from cueplayer_tools.watch_lines import (
    SLOTS,
    IgnoredLine,
    LeftLine,
    LostLine,
    SlotsLine,
    SourceLine,
    WatchLine,
    read_watch_line,
)

# Milliseconds within which a slot that changed comes back, where that is a flash; and for which a
# flash is shown.
FLASH = 1_000
SHOWN = 3_000
# Sources that have left a universe and are still named: the last ones.
MOST_LEFT = 4


@dataclass
class Source:
    """A live source of a universe."""

    name: str
    priority: int
    lost: int = 0


@dataclass
class Left:
    """A source that is not live any more: `gone` in silence, or `ended` by a termination."""

    name: str
    priority: int
    word: str
    moment: int


@dataclass
class Universe:
    """A universe: its slots and its sources by their CIDs."""

    number: int
    slots: list[int] = field(default_factory=lambda: [0] * SLOTS)
    # Of each slot its level before the last change, and when that was.
    before: list[int] = field(default_factory=lambda: [0] * SLOTS)
    changed: list[int] = field(default_factory=lambda: [-FLASH - 1] * SLOTS)
    flashes: dict[int, int] = field(default_factory=dict)
    sources: dict[str, Source] = field(default_factory=dict)
    # By their CIDs, the one that left last at the end.
    left: dict[str, Left] = field(default_factory=dict)
    ignored: Counter[str] = field(default_factory=Counter)

    def leads(self, cid: str) -> bool:
        """Whether a source is of the greatest priority."""
        return self.sources[cid].priority == max(each.priority for each in self.sources.values())

    def slots_line(self) -> str:
        """The slots as a line of `watch` has them."""
        return "slots" + "".join(f" {n}:{level}" for n, level in enumerate(self.slots, 1) if level)

    def has_flashed(self, slot: int, moment: int) -> bool:
        """Whether a flash of a slot, 1 to 512, is still shown."""
        return slot in self.flashes and moment - self.flashes[slot] < SHOWN

    def lose(self, cid: str, word: str, moment: int) -> None:
        """Takes a source as one that has left."""
        source = self.sources.pop(cid, None)
        if source is None:
            return
        self.left[cid] = Left(source.name, source.priority, word, moment)
        while len(self.left) > MOST_LEFT:
            del self.left[next(iter(self.left))]

    def show(self, moment: int, levels: bytes) -> list[int]:
        """Takes the levels of all slots; the slots that flashed."""
        places = [n for n, (old, new) in enumerate(zip(self.slots, levels)) if old != new]
        flashed = [
            n + 1
            for n in places
            if self.before[n] == levels[n] and moment - self.changed[n] <= FLASH
        ]
        self.flashes.update(dict.fromkeys(flashed, moment))
        for n in places:
            self.before[n] = self.slots[n]
            self.changed[n] = moment
        self.slots = [*levels]
        return flashed


class Watched:
    """The universes that are watched, and what belongs to none of them."""

    def __init__(self, numbers: list[int]) -> None:
        self.moment = 0
        self.universes = {number: Universe(number) for number in numbers}
        self.ignored: Counter[str] = Counter()

    def pass_to(self, moment: int) -> None:
        """Takes the clock, which goes on where nothing is told."""
        self.moment = max(self.moment, moment)

    def take(self, line: str) -> list[str]:
        """Takes a line of `watch`; what is told behind it."""
        said = read_watch_line(line)
        if said is None:
            return []
        self.pass_to(said.moment)
        universe = self.universes.get(said.universe)
        if isinstance(said, IgnoredLine):
            ignored = self.ignored if universe is None else universe.ignored
            ignored[said.reason] += said.datagrams
        elif universe is not None:
            return self._change(universe, said)
        return []

    @staticmethod
    def _change(universe: Universe, said: WatchLine) -> list[str]:
        match said:
            case SlotsLine(moment=moment, levels=levels):
                if flashed := universe.show(moment, levels):
                    return [f"{moment} {universe.number} flash {' '.join(map(str, flashed))}"]
            case LeftLine():
                universe.lose(said.cid, said.word, said.moment)
            case SourceLine():
                universe.left.pop(said.cid, None)
                known = universe.sources.get(said.cid)
                lost = known.lost if known else 0
                universe.sources[said.cid] = Source(said.name, said.priority, lost)
            case LostLine() if said.cid in universe.sources:
                universe.sources[said.cid].lost += said.packets
        return []
