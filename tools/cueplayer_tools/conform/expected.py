"""What a receiver has to show: what `cueplayer rehearse` answers to the datagrams of a case, at
the moments at which they were sent."""

import functools
import tempfile
from collections.abc import Sequence
from dataclasses import dataclass
from pathlib import Path

from cueplayer_tools.conform.script import Datagram, Look, Step
from cueplayer_tools.line_protocol import Refused
from cueplayer_tools.program import run
from cueplayer_tools.rehearsal import Slots

# A rehearsal has a console; this one says nothing.
HEADER = "console 1 100 c0ffee00-0000-4000-8000-00000000e131\n"


@dataclass(frozen=True)
class Done:
    """A step as it was done: from when to when, in milliseconds since the case began, and what was
    seen at a look."""

    step: Step
    begun: int
    ended: int
    seen: tuple[tuple[int, int], ...] | None = None


def slots_of(line: str) -> Slots:
    """The slots of a slots line that are not 0."""
    pairs = (pair.split(":") for pair in line.split()[1:])
    return {int(slot): int(level) for slot, level in pairs}


@functools.lru_cache(maxsize=4096)
def answers(script: str) -> tuple[str, ...]:
    """What a rehearsal of these lines prints."""
    with tempfile.TemporaryDirectory() as folder:
        show, file = Path(folder, "show.asc"), Path(folder, "case.script")
        show.write_text("")
        file.write_text(script)
        ended = run("rehearse", show, file)
    if ended.status:
        raise Refused(f"rehearse: {ended.told.strip()}")
    return tuple(ended.printed.splitlines())


def expected_slots(
    universes: Sequence[int], done: list[Done], reading: str, slack: int
) -> list[list[Slots]]:
    """For each look what may be shown then by this reading: a look takes time, and a receiver may
    be late by `slack`, so there are up to three moments, and their answers."""
    lines, asked, latest, number = [f"receiver {each}" for each in universes], [], 0, 0
    for each in done:
        latest = max(latest, each.begun)
        if isinstance(each.step, Datagram):
            if each.step.is_heard(reading):
                data = each.step.data.hex()
                lines += [f"{latest} stray {place} {data}" for place in range(len(universes))]
            continue
        # What had come by then had come so long before: a look waits.
        moments = [max(latest_sent(done, each), each.begun - slack), each.begun, each.ended]
        for moment in moments:
            lines.append(f"{moment} slots {each.step.place}")
            asked.append((number, len(lines) + 1))
        latest, number = each.ended, number + 1
    replies = dict(line.split(" ", 1) for line in answers(HEADER + "\n".join(lines) + "\n"))
    found: list[list[Slots]] = [[] for _ in range(number)]
    for look, line in asked:
        found[look].append(slots_of(replies[str(line)]))
    return found


def latest_sent(done: list[Done], look: Done) -> int:
    """The moment of the last step before a look."""
    place = next(place for place, each in enumerate(done) if each is look)
    return done[place - 1].ended if place else look.begun


def looks_in(done: list[Done]) -> list[Done]:
    return [each for each in done if isinstance(each.step, Look)]
