"""Rehearsals: a script is written, the program plays it, and its replies are read."""

import tempfile
from dataclasses import dataclass, field
from pathlib import Path

from cueplayer_tools.line_protocol import Refused
from cueplayer_tools.program import run
from cueplayer_tools.record import words_of

LONGEST_SCRIPT = 16_777_216
MOST_RECEIVERS = 8
Slots = dict[int, int]


@dataclass(frozen=True)
class Event:
    """A line of a script behind its header, and the words of the reply to it."""

    moment: int
    words: tuple[str, ...]
    reply: tuple[str, ...]

    @property
    def is_skipped(self) -> bool:
        return self.reply[:1] == ("skipped",)

    def sent_universes(self) -> list[int]:
        """The universes of which a tick sent a packet, ascending."""
        items = (item.partition(":") for item in self.reply if ":s" in item)
        return [int(universe) for universe, _, _ in items]

    def slots(self) -> Slots:
        """The slots of a slots line that are not 0."""
        pairs = (pair.split(":") for pair in self.reply[1:])
        return {int(slot): int(level) for slot, level in pairs}


@dataclass
class Rehearsal:
    """The consoles and receivers of a script, its events with replies, and the last slots."""

    consoles: list[tuple[str, ...]] = field(default_factory=list)
    receivers: list[int] = field(default_factory=list)
    events: list[Event] = field(default_factory=list)
    last: list[Slots] = field(default_factory=list)


def replies_of(show: str, script: str) -> str:
    """What the program prints of a rehearsal."""
    if len(script) > LONGEST_SCRIPT:
        raise Refused("too long a night for one rehearsal: ask for a part of it")
    with tempfile.TemporaryDirectory() as folder:
        file = Path(folder) / "night.script"
        file.write_text(script, encoding="latin-1")
        ended = run("rehearse", show, file)
    if ended.status:
        raise Refused(f"rehearse: {ended.told.strip()}")
    return ended.printed


def with_replies(script: str, printed: str) -> Rehearsal:
    """A script and what was printed of it; Refused where that is of no such script."""
    try:
        return _with_replies(script, printed)
    except (ValueError, IndexError) as fault:
        raise Refused("the replies are not those of this script") from fault


def _with_replies(script: str, printed: str) -> Rehearsal:
    replies: dict[int, tuple[str, ...]] = {}
    rehearsal = Rehearsal()
    for line in printed.splitlines():
        place, *words = line.split()
        if place == "end":
            pairs = (pair.split(":") for pair in words[2:])
            rehearsal.last.append({int(slot): int(level) for slot, level in pairs})
        else:
            replies[int(place)] = tuple(words)
    for number, line in enumerate(script.split("\n"), 1):
        words = words_of(line)
        if not words:
            continue
        if words[0].lower() == "console":
            rehearsal.consoles.append(tuple(words[1:]))
        elif words[0].lower() == "receiver":
            rehearsal.receivers.append(int(words[1]))
        elif number in replies:
            lower = tuple(word.lower() for word in words[1:])
            rehearsal.events.append(Event(int(words[0]), lower, replies.pop(number)))
        else:
            raise ValueError(f"no reply to line {number}")
    if replies or len(rehearsal.last) != len(rehearsal.receivers):
        raise ValueError("replies are left over, or slots are missing")
    return rehearsal


def rehearse(show: str, script: str) -> Rehearsal:
    """The program's own replies to a script."""
    return with_replies(script, replies_of(show, script))


def with_questions(script: str, moments: list[int]) -> str:
    """The script, and besides a `slots` line for each receiver at these moments, ascending.

    A question changes nothing of what else is replied: its moment lies between those of the events
    around it."""
    receivers = sum(words_of(line)[:1] == ["receiver"] for line in script.lower().split("\n"))
    asked: list[str] = []
    waiting = list(moments)
    latest: int | None = None
    for line in script.split("\n"):
        words = words_of(line)
        if words and words[0].isdecimal():
            moment = int(words[0])
            while latest is not None and waiting and waiting[0] < moment:
                at = waiting.pop(0)
                if at >= latest:
                    asked += [f"{at} slots {receiver}" for receiver in range(receivers)]
            latest = moment if latest is None else max(latest, moment)
        asked.append(line)
    return "\n".join(asked)
