"""Verdicts: which reading of a case the looks of a receiver are of."""

from dataclasses import dataclass, field

from cueplayer_tools.conform.expected import Done, expected_slots, looks_in
from cueplayer_tools.conform.script import PLAIN, Case, Look, Rule
from cueplayer_tools.rehearsal import Slots

KEPT, CHOICE, BROKEN, NOT_TRIED = "kept", "choice", "broken", "not tried"
# Of a source: what was seen, without a judgement.
SEEN = "seen"
# A step that is so late makes a case another one: it is tried again.
LATE = 150
OTHER = "something else"
Named = tuple[Rule, Case]


@dataclass(frozen=True)
class Verdict:
    """What a case came to: `choice` where the standard leaves one, and of what is broken the first
    look that was not as it should be."""

    rule: Rule
    case: Case
    verdict: str
    choice: str = ""
    about: str = ""
    expected: Slots = field(default_factory=dict)
    seen: Slots = field(default_factory=dict)
    tries: int = 1


@dataclass(frozen=True)
class Played:
    """A case as it was played: when it began, its steps, and by how much the latest was late."""

    rule: Rule
    case: Case
    universes: tuple[int, ...]
    begun: int
    done: list[Done]
    late: int = 0


def judge(played: Played, settle: int) -> Verdict:
    """Which reading of a case the looks are of."""
    rule, case = played.rule, played.case
    if played.late > LATE:
        busy = f"this machine is too busy: a datagram or a look came {played.late} ms late"
        return Verdict(rule, case, NOT_TRIED, about=busy)
    looks = looks_in(played.done)
    first: Verdict | None = None
    for reading in (PLAIN, *case.readings):
        wanted = expected_slots(played.universes, played.done, reading, settle)
        wrong = [
            (look, slots)
            for look, slots in zip(looks, wanted, strict=True)
            if dict(look.seen or ()) not in slots
        ]
        if not wrong:
            choice = reading or case.plain
            return Verdict(rule, case, CHOICE if choice else KEPT, choice)
        if first is None:
            look, slots = wrong[0]
            assert isinstance(look.step, Look)
            seen = dict(look.seen or ())
            first = Verdict(rule, case, BROKEN, "", look.step.about, slots[-1], seen)
    assert first is not None
    if not case.is_open:
        return first
    return Verdict(rule, case, CHOICE, OTHER, first.about, first.expected, first.seen)
