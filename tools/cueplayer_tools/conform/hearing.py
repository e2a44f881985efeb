"""Whether a receiver still hears: one that shows nothing new in several cases, and should have, is
deaf, and what follows says nothing about its rules."""

from dataclasses import dataclass, field

from cueplayer_tools.conform.verdicts import BROKEN, Named, Played, judge
from cueplayer_tools.rehearsal import Slots

# It is deaf where so many cases ended without anything new, and so many of them were broken.
STILL, WRONG = 5, 3
CID = slice(22, 38)
SHORTEST = 126


@dataclass(frozen=True)
class Deaf:
    """A receiver that shows nothing new: from which case on, or never anything, after how many
    sources at least and at most, what it shows, and the cases that say nothing because of it."""

    universes: tuple[int, ...]
    since: Named | None
    least: int
    most: int
    shown: Slots
    cases: tuple[Named, ...]


@dataclass
class Hearing:
    """What some universes have shown so far, and the sources that were sent to them."""

    shown: dict[int, Slots] = field(default_factory=dict)
    sources: set[bytes] = field(default_factory=set)
    # How many sources there were at the last look that was new, and at the next one.
    heard: int = 0
    missed: int = 0
    since: Named | None = None
    # That case, if it has ended, and those that ended since then.
    still: list[Played] = field(default_factory=list)
    is_over: bool = False

    def begin(self, universe: int, slots: Slots) -> None:
        """What a universe shows before its first case."""
        self.shown[universe] = slots

    def send(self, data: bytes) -> None:
        if len(data) >= SHORTEST:
            self.sources.add(data[CID])

    def look(self, universe: int, slots: Slots, case: Named) -> None:
        is_new = slots != self.shown.get(universe, {})
        self.shown[universe] = slots
        # One that is deaf goes dark once its sources are lost.
        if is_new and slots:
            self.heard, self.missed, self.since = len(self.sources), 0, case
            self.still = []
        elif not self.missed:
            self.missed = len(self.sources)

    def end(self, played: Played, settle: int) -> bool:
        """A case has ended; whether the receiver is deaf."""
        self.still.append(played)
        silent = [each for each in self.still if (each.rule, each.case) != self.since]
        return len(silent) >= STILL and sum(_is_broken(each, settle) for each in silent) >= WRONG

    def deaf(self, left: list[Named], settle: int) -> Deaf:
        """What there is to say once it is deaf, and these cases are left. What was played keeps
        its verdict up to the first that was broken, unless nothing was ever new."""
        first = next(place for place, each in enumerate(self.still) if _is_broken(each, settle))
        told = self.still[first + 1 :] if self.since else self.still
        cases = [(each.rule, each.case) for each in told] + left
        since = (self.still[first].rule, self.still[first].case) if self.since else None
        shown: Slots = next(iter(self.shown.values()), {})
        most = max(self.heard, self.missed - 1)
        return Deaf(tuple(sorted(self.shown)), since, self.heard, most, shown, tuple(cases))


def _is_broken(played: Played, settle: int) -> bool:
    return judge(played, settle).verdict == BROKEN
