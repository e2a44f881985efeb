"""What a storm did: how long each universe was other than the show meant, where most, and whether
that was ever so where the promise speaks."""

from collections.abc import Iterator
from dataclasses import dataclass, field, replace
from operator import itemgetter, sub
from typing import Any

from cueplayer_tools.storm.network import Network, Traffic
from cueplayer_tools.storm.night import DARK, Change, Console, Looks, Plan
from cueplayer_tools.storm.premises import Premises, premises_of, together
from cueplayer_tools.storm.seen import Keep, Seen, watch

# Stretches are counted by how long they are at least.
LENGTHS = (25, 50, 75, 100, 500, 1000, 2500)
MOST_FOUND = 100_000
# What changes: what is shown, what a console means, or what holds of it.
SHOWN, MEANS, HOLDS = range(3)
# A change: its moment, its kind, the console, and what is so from then on.
Turn = tuple[int, int, int, Any]


@dataclass
class Stretch:
    """A time in which a universe is other than the show means, without a break."""

    universe: int
    first: int
    until: int
    # How far a slot is off at most, which one, and the levels there.
    off: int = 0
    slot: int = 0
    level: int = 0
    meant: int = 0
    dark: int = 0
    # Levels times milliseconds: by how much a slot is off, and for how long.
    weight: int = 0

    @property
    def length(self) -> int:
        return self.until - self.first


@dataclass
class Fault:
    """A time in which the premises hold and a slot is other than promised: the program's fault."""

    universe: int
    first: int
    until: int
    slot: int
    level: int
    promised: int


@dataclass
class Verdict:
    """What became of one universe, in milliseconds."""

    universe: int
    whole: int = 0
    stretches: list[Stretch] = field(default_factory=list)
    in_window: int = 0
    is_fresh: int = 0
    held: int = 0
    faults: list[Fault] = field(default_factory=list)

    @property
    def wrong(self) -> int:
        return sum(each.length for each in self.stretches)

    @property
    def dark(self) -> int:
        return sum(each.dark for each in self.stretches)

    @property
    def longest(self) -> int:
        return max((each.length for each in self.stretches), default=0)

    @property
    def off(self) -> int:
        return max((each.off for each in self.stretches), default=0)

    def counts(self) -> list[int]:
        """How many stretches are at least so long."""
        return [sum(each.length >= length for each in self.stretches) for length in LENGTHS]


@dataclass
class Storm:
    """A night in a network, and what came of it."""

    plan: Plan
    consoles: list[Console]
    network: Network
    traffic: dict[tuple[int, int], Traffic]
    seen: Seen
    first: int
    last: int
    verdicts: list[Verdict] = field(default_factory=list)

    @property
    def faults(self) -> list[Fault]:
        return [fault for verdict in self.verdicts for fault in verdict.faults]

    def meant_changes(self, universe: int) -> list[Change]:
        """What the show means, by all consoles, from moment to moment."""
        moments = _Moments(self, universe)
        changes: list[Change] = []
        for first, _ in moments.spans():
            if not changes or changes[-1][1] != moments.meant:
                changes.append((first, moments.meant))
        return changes


class _Off:
    """How far one look is off another: by how much, at which slot, and the two levels there."""

    def __init__(self, looks: Looks) -> None:
        self.looks = looks
        self.found: dict[tuple[int, int], tuple[int, int, int, int]] = {}

    def of(self, shown: int, meant: int) -> tuple[int, int, int, int]:
        if (shown, meant) not in self.found:
            if len(self.found) == MOST_FOUND:
                self.found.clear()
            self.found[shown, meant] = self._between(shown, meant)
        return self.found[shown, meant]

    def _between(self, shown: int, meant: int) -> tuple[int, int, int, int]:
        levels, wanted = self.looks.levels[shown], self.looks.levels[meant]
        off = list(map(sub, levels, wanted))
        high, low = max(off), min(off)
        slot = off.index(high if high > -low else low)
        return max(high, -low), slot + 1, levels[slot], wanted[slot]


class _Moments:
    """What is shown, meant and promised for a universe, from moment to moment."""

    def __init__(self, storm: Storm, universe: int) -> None:
        self.storm = storm
        self.universe = universe
        consoles = range(len(storm.consoles))
        self.shown = DARK
        # What each console means; None where it has sent nothing, or its streams have ended.
        self.means: list[int | None] = [None for _ in consoles]
        self.premises = [Premises() for _ in consoles]
        self.meant = DARK
        # None where the promise does not speak.
        self.promised: int | None = None
        self.state = together(self.premises)

    def _merge(self, lit: list[int]) -> int:
        """What these consoles mean together: those of the greatest priority."""
        consoles = self.storm.consoles
        first = max((consoles[console].priority for console in lit), default=0)
        leading = {self.means[each] for each in lit if consoles[each].priority == first}
        return self.storm.plan.looks.greatest({look for look in leading if look is not None})

    def _settle(self) -> None:
        lit = [console for console, look in enumerate(self.means) if look is not None]
        self.meant = self._merge(lit)
        self.state = together(self.premises)
        heard = [console for console in lit if not self.premises[console].is_silent]
        self.promised = self._merge(heard) if self.state.hold else None

    def _changes(self) -> list[Turn]:
        """What changes, in order."""
        storm, plan = self.storm, self.storm.plan
        shown = storm.seen.shown[self.universe]
        changes: list[Turn] = [(moment, SHOWN, 0, look) for moment, look in shown]
        for console, each in enumerate(storm.consoles):
            for moment, look in plan.meant[self.universe]:
                is_over = plan.ended is not None and moment >= plan.ended
                changes.append((moment + each.late, MEANS, console, None if is_over else look))
            if plan.ended is not None:
                changes.append((plan.ended + each.late, MEANS, console, None))
            held = premises_of(storm.traffic[console, self.universe], storm.last)
            changes += [(moment, HOLDS, console, premises) for moment, premises in held]
        return sorted(changes, key=itemgetter(0))

    def _take(self, change: Turn) -> None:
        _, kind, console, value = change
        if kind == SHOWN:
            self.shown = value
        elif kind == MEANS:
            self.means[console] = value
        else:
            self.premises[console] = value

    def spans(self) -> Iterator[tuple[int, int]]:
        """The times in which nothing changes, each with its first moment and the one behind it."""
        changes, last = self._changes(), self.storm.last
        at = 0
        while at < len(changes):
            moment = changes[at][0]
            is_settled = True
            while at < len(changes) and changes[at][0] == moment:
                self._take(changes[at])
                is_settled = is_settled and changes[at][1] == SHOWN
                at += 1
            if not is_settled:
                self._settle()
            until = min(changes[at][0], last) if at < len(changes) else last
            if until > max(moment, self.storm.first):
                yield max(moment, self.storm.first), until


def _judge(storm: Storm, universe: int) -> Verdict:
    """What became of a universe."""
    verdict = Verdict(universe, storm.last - storm.first)
    moments, off = _Moments(storm, universe), _Off(storm.plan.looks)
    for first, until in moments.spans():
        length = until - first
        state = moments.state
        verdict.in_window += length * state.in_window
        verdict.is_fresh += length * state.is_fresh
        verdict.held += length * state.hold
        if moments.promised is not None and moments.promised != moments.shown:
            _, *levels = off.of(moments.shown, moments.promised)
            _note_fault(verdict, Fault(universe, first, until, *levels))
        if moments.shown != moments.meant:
            _extend(verdict, first, until, off.of(moments.shown, moments.meant))
            verdict.stretches[-1].dark += length * (moments.shown == DARK)
    return verdict


def _note_fault(verdict: Verdict, fault: Fault) -> None:
    """Adds a fault, or a time to the last one where it is the same that goes on."""
    last = verdict.faults[-1] if verdict.faults else None
    if last is not None and replace(last, first=fault.first, until=fault.until) == fault:
        if last.until == fault.first:
            last.until = fault.until
            return
    verdict.faults.append(fault)


def _extend(verdict: Verdict, first: int, until: int, found: tuple[int, int, int, int]) -> None:
    """Adds a time to the stretch that ends where it begins, or to a new one."""
    stretches = verdict.stretches
    if not stretches or stretches[-1].until != first:
        stretches.append(Stretch(verdict.universe, first, first))
    stretch = stretches[-1]
    off, slot, level, meant = found
    if off > stretch.off:
        stretch.off, stretch.slot, stretch.level, stretch.meant = off, slot, level, meant
    stretch.weight += off * (until - first)
    stretch.until = until


def storm_of(
    plan: Plan, consoles: list[Console], traffic: dict[tuple[int, int], Traffic],
    network: Network, keep: Keep | None = None,
) -> Storm:  # fmt: skip
    """What comes of a night whose packets come so."""
    late = [each.late for each in consoles]
    first, last = plan.first + min(late), plan.last + max(late)
    seen = watch(plan, consoles, traffic, last, keep)
    storm = Storm(plan, consoles, network, traffic, seen, first, last)
    storm.verdicts = [_judge(storm, universe) for universe in sorted(plan.sent)]
    return storm
