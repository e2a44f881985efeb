"""Test vectors: the datagrams of each case at their moments, and the slots that `cueplayer
rehearse` answers after each, for each choice that the standard leaves."""

import json
from collections.abc import Iterator
from dataclasses import replace

from cueplayer_tools.addresses import Address
from cueplayer_tools.captures.writing import Frame, capture_of
from cueplayer_tools.conform.capture import group_of
from cueplayer_tools.conform.diagnoses import slots_text
from cueplayer_tools.conform.expected import HEADER, answers, slots_of
from cueplayer_tools.conform.peers import PORT
from cueplayer_tools.conform.rules import RULES
from cueplayer_tools.conform.script import PLAIN, SETTLE, Case, Datagram, Look, Rule, Step
from cueplayer_tools.rehearsal import Slots

# The CIDs of all cases are made of it.
SALT = "vectors"
UNIVERSES = (1, 2)
# Two ports of one address, and another address: of those that are kept for examples.
SENDERS = (("192.0.2.1", 5568), ("192.0.2.1", 5569), ("192.0.2.2", 5568))
# Between two cases of a capture, in milliseconds: every source is lost by then.
APART = 5000
Timed = list[tuple[int, Step]]


def _timed(case: Case) -> tuple[tuple[int, ...], Timed]:
    """The universes of a case, and its steps with their moments."""
    moment, found = 0, []
    for step in case.script(*UNIVERSES, SALT).steps:
        moment += step.wait
        found.append((moment, step))
    return UNIVERSES[: 2 if case.is_wide else 1], found


def _is_told(step: Step) -> bool:
    """Whether a maker sees it: what only a reading hears is not sent."""
    return isinstance(step, Look) or step.only is None


def _slots_after(universes: tuple[int, ...], timed: Timed, reading: str) -> list[list[Slots]]:
    """The slots of each universe after each step that is told."""
    lines, asked = [f"receiver {universe}" for universe in universes], []
    places = range(len(universes))
    for moment, step in timed:
        if isinstance(step, Datagram) and step.is_heard(reading):
            lines += [f"{moment} stray {place} {step.data.hex()}" for place in places]
        if _is_told(step):
            asked.append(len(lines) + 2)
            lines += [f"{moment} slots {place}" for place in places]
    replies = dict(line.split(" ", 1) for line in answers(HEADER + "\n".join(lines) + "\n"))
    return [[slots_of(replies[str(first + place)]) for place in places] for first in asked]


def _readings(case: Case) -> Iterator[tuple[str, str]]:
    """Each reading, and the name of its choice."""
    yield PLAIN, case.plain
    for reading in case.readings:
        yield reading, reading


def _step_data(moment: int, step: Step, universes: tuple[int, ...]) -> dict[str, object]:
    universe = universes[step.place]
    if isinstance(step, Look):
        return {"at": moment, "universe": universe, "look": step.about}
    return {"at": moment, "universe": universe, "from": step.sender, "hex": step.data.hex()}


def _case_data(rule: Rule, case: Case) -> dict[str, object]:
    universes, timed = _timed(case)
    told = []
    for reading, choice in _readings(case):
        after = _slots_after(universes, timed, reading)
        slots = [dict(zip(map(str, universes), each)) for each in after]
        told.append({"choice": choice, "slots": slots})
    return {
        "rule": rule.name,
        "clause": rule.clause,
        "asks": rule.asks,
        "case": case.name,
        "open": case.is_open,
        "universes": universes,
        "steps": [_step_data(at, step, universes) for at, step in timed if _is_told(step)],
        "answers": told,
    }


def vectors_json(by: str) -> str:
    """All cases as JSON, the same text each time."""
    cases = [_case_data(rule, case) for rule in RULES for case in rule.cases]
    whole = {"standard": "ANSI E1.31-2018", "by": f"{by}, rehearse", "cases": cases}
    return json.dumps(whole, indent=1) + "\n"


def _right(readings: list[tuple[str, list[list[Slots]]]], place: int) -> str:
    """What is right after a step, for people."""
    told = ((choice, ", ".join(map(slots_text, after[place]))) for choice, after in readings)
    return "; or ".join(f"{choice}: {slots}" if choice else slots for choice, slots in told)


def _frames(rule: Rule, case: Case, begun: int) -> list[Frame]:
    """The datagrams of a case, each with what is right after it, and where nothing more comes for
    a while, what is right then."""
    universes, timed = _timed(case)
    readings = [
        (choice, _slots_after(universes, timed, reading)) for reading, choice in _readings(case)
    ]
    found: list[Frame] = []
    for place, (at, step) in enumerate(each for each in timed if _is_told(each[1])):
        right, moment = _right(readings, place), 1000 * (begun + at)
        if isinstance(step, Datagram):
            comment = f"{rule.name}, {case.name} ({rule.clause}): {right}"
            to: Address = (group_of(universes[step.place]), PORT)
            found.append(Frame(moment, SENDERS[step.sender], to, step.data, comment))
        elif step.wait > SETTLE:
            later = (moment - found[-1].moment) // 1000
            comment = f"{found[-1].comment}; {later} ms later {right}"
            found[-1] = replace(found[-1], comment=comment)
    return found


def vectors_capture() -> bytes:
    """All cases as a capture, one after the other, the same bytes each time."""
    frames: list[Frame] = []
    begun = 0
    for rule in RULES:
        for case in rule.cases:
            frames += _frames(rule, case, begun)
            begun += case.lasts() + APART
    return capture_of(frames)
