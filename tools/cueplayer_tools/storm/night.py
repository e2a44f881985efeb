"""What the consoles of a storm do: which packets they send, when, and what these mean.

The program answers all of it. A rehearsal without receivers says which ticks send packets; one in
which each packet arrives at once says what the show means at each of these ticks.
"""

from bisect import bisect_right
from collections.abc import Iterator
from dataclasses import dataclass, field
from hashlib import blake2b

from cueplayer_tools.cue_list import Show
from cueplayer_tools.line_protocol import Refused
from cueplayer_tools.night import LEAST_APART, fill_ticks
from cueplayer_tools.record import Given
from cueplayer_tools.rehearsal import MOST_RECEIVERS, replies_of

SLOTS = 512
DARK = 0
GRID = 25
# How long a night is looked at behind its last change.
BEHIND = 1000
MOST_CONSOLES = 4
# About so many bytes of slots lines are asked for in one rehearsal.
MOST_PRINTED = 1 << 26
LONGEST_KEY = 100
RECORD_HEAD = "! cueplayer record "
# A line of a script behind its moment.
Line = tuple[int, str]
# A look, by its number, from a moment on.
Change = tuple[int, int]


@dataclass(frozen=True)
class Console:
    """A console of a storm. It takes all lines of the night so many milliseconds late."""

    priority: int
    late: int = 0


class Looks:
    """Looks of 512 slots, each once; number 0 is the dark."""

    def __init__(self) -> None:
        self.levels = [bytes(SLOTS)]
        self._by_levels = {self.levels[DARK]: DARK}
        self._by_line: dict[str | bytes, int] = {"slots": DARK}

    def of_line(self, line: str) -> int:
        """The look that a slots line shows."""
        key: str | bytes = line
        if len(line) > LONGEST_KEY:
            key = blake2b(line.encode(), digest_size=16).digest()
        known = self._by_line.get(key)
        if known is None:
            known = self._by_line[key] = self.of_levels(_levels_in(line))
        return known

    def of_levels(self, levels: bytes) -> int:
        known = self._by_levels.get(levels)
        if known is None:
            known = self._by_levels[levels] = len(self.levels)
            self.levels.append(levels)
        return known

    def greatest(self, looks: set[int]) -> int:
        """The look that has the greatest of these at each slot."""
        if len(looks) < 2:
            return next(iter(looks), DARK)
        return self.of_levels(bytes(map(max, *(self.levels[look] for look in sorted(looks)))))


def _levels_in(line: str) -> bytes:
    words = line.replace(":", " ").split()
    if words[:1] != ["slots"]:
        raise Refused(f"rehearse: no slots line: {line[:80]}")
    levels = bytearray(SLOTS)
    for slot, level in zip(map(int, words[1::2]), map(int, words[2::2])):
        levels[slot - 1] = level
    return bytes(levels)


@dataclass
class Plan:
    """What one console of a night does. A later console does the same so much later."""

    show: str
    base: int
    # Its commands, and the ticks that send, by their words in a script without the console.
    lines: list[Given] = field(default_factory=list)
    # The moment of each packet of a universe, in the order of their numbers.
    sent: dict[int, list[int]] = field(default_factory=dict)
    # What the show means for a universe, from these moments on.
    meant: dict[int, list[Change]] = field(default_factory=dict)
    looks: Looks = field(default_factory=Looks)
    # The first and the last tick, and the first tick behind `end`.
    first: int = 0
    last: int = 0
    ended: int | None = None

    def leave_out_rest(self, last: int) -> None:
        """Ends a night where nothing changes any more behind this moment."""
        changed = max(changes[-1][0] for changes in self.meant.values())
        ticks = [line.moment for line in self.lines if line.is_tick]
        behind = (moment for moment in ticks if moment >= max(last, changed) + BEHIND)
        self.last = next(behind, self.last)
        self.lines = [line for line in self.lines if line.moment <= self.last]
        for moments in self.sent.values():
            del moments[bisect_right(moments, self.last) :]

    @property
    def most_printed(self) -> int:
        """A bound on the bytes of a slots line, by the looks so far."""
        lit = (SLOTS - levels.count(0) for levels in self.looks.levels)
        return 20 + 8 * max(lit)


def cid_of(console: int) -> str:
    return f"00000000-0000-4000-8000-{console + 1:012}"


def head_of(base: int, consoles: list[Console], universes: list[int]) -> str:
    """The header of a script."""
    lines = [f"console {base} {each.priority} {cid_of(c)}\n" for c, each in enumerate(consoles)]
    return "".join(lines + [f"receiver {universe}\n" for universe in universes])


def line_of(console: int, given: Given) -> str:
    return f"tick {console}" if given.is_tick else f"do {console} {given.asked}"


def text_of(head: str, lines: list[Line]) -> str:
    return head + "".join([f"{moment} {words}\n" for moment, words in lines])


def answers_of(show: str, script: str, lines: int, skipped: int = 0) -> list[str]:
    """What is replied to the lines of a script behind its header, the first ones left away."""
    printed = replies_of(show, script).split("\n")
    return [reply.partition(" ")[2] for reply in printed[skipped:lines]]


def groups_of(universes: list[int]) -> Iterator[list[int]]:
    """The universes, as many at a time as a rehearsal has receivers."""
    for start in range(0, len(universes), MOST_RECEIVERS):
        yield universes[start : start + MOST_RECEIVERS]


def with_ticks(given: list[Given], show: Show, every: int, until: int | None = None) -> list[Given]:
    """The lines of a night with ticks wherever they have none: up to a moment, or for as long as a
    last fade may take."""
    last = max(line.moment for line in given)
    if until is None and not any(line.words[0] == "end" for line in given):
        until = last + max((cue.fade for cue in show.cues.values()), default=0) + BEHIND
    if until is not None and until > last:
        given = [*given, Given(until, ("tick",))]
    return fill_ticks(given, max(every, LEAST_APART))


def part_of(given: list[Given], first: int | None, until: int | None) -> list[Given]:
    """The lines up to a moment, without the ticks before another."""
    lines = [line for line in given if until is None or line.moment <= until]
    return [line for line in lines if not line.is_tick or first is None or line.moment >= first]


def plan_of(file: str, given: list[Given], show: Show, base: int) -> Plan:
    """What a console does that takes these lines."""
    plan = Plan(file, base)
    lines = [(line.moment, line_of(0, line)) for line in given]
    head = head_of(base, [Console(100)], [])
    replies = answers_of(file, text_of(head, lines), len(lines))
    told = []
    for line, reply in zip(given, replies):
        if not line.is_tick:
            plan.lines.append(line)
            told.append("")
        elif ":s" in reply:
            plan.lines.append(line)
            told.append(reply)
            for universe in _universes_in(reply):
                plan.sent.setdefault(universe, []).append(line.moment)
            if plan.ended is None and reply.startswith("ending"):
                plan.ended = line.moment
    ticks = [line.moment for line, reply in zip(given, replies) if line.is_tick and ":" in reply]
    if not plan.sent:
        raise Refused("the night sends nothing: no tick is in it, or no dimmer is patched")
    plan.first, plan.last = ticks[0], ticks[-1]
    patched = max(sum(1 for _ in group) for group in _dimmers_of(show, base).values())
    for universes in groups_of(sorted(plan.sent)):
        _listen(plan, told, universes, MOST_PRINTED // (20 + 8 * patched))
    return plan


def _dimmers_of(show: Show, base: int) -> dict[int, list[int]]:
    dimmers: dict[int, list[int]] = {}
    for dimmer in show.patch:
        dimmers.setdefault(base + (dimmer - 1) // SLOTS, []).append(dimmer)
    return dimmers


def _universes_in(reply: str) -> list[int]:
    """The universes of which a tick sent a packet."""
    items = (item.partition(":") for item in reply.split() if ":s" in item)
    return [int(universe) for universe, _, _ in items]


def _listen(plan: Plan, told: list[str], universes: list[int], most: int) -> None:
    """Adds what the show means for these universes: by a receiver each, whose packets all come at
    once, so many of them in one rehearsal."""
    head = head_of(plan.base, [Console(100)], universes)
    before = [(line.moment, line_of(0, line)) for line in plan.lines]
    packets = dict.fromkeys(universes, 0)
    at = 0
    while at < len(before):
        start, lines = at, before[:at]
        asked: list[tuple[int, int | None, str]] = []
        while at < len(before) and len(asked) < most:
            moment = before[at][0]
            # Ticks that send nothing are left away. Then those that are left answer as before.
            asked.append((len(lines) - start, None, told[at]))
            lines.append(before[at])
            for universe in _universes_in(told[at]):
                receiver = universes.index(universe) if universe in universes else None
                if receiver is None:
                    continue
                lines.append((moment, f"deliver {receiver} 0 {universe} {packets[universe]}"))
                packets[universe] += 1
                asked.append((len(lines) - start, universe, str(moment)))
                lines.append((moment, f"slots {receiver}"))
            at += 1
        replies = answers_of(plan.show, text_of(head, lines), len(lines), start)
        _note(plan, replies, asked)


def _note(plan: Plan, replies: list[str], asked: list[tuple[int, int | None, str]]) -> None:
    """Takes the answers: ticks as they were told before, and what the show means."""
    for place, universe, words in asked:
        if universe is None:
            if words and replies[place] != words:
                raise Refused(f"rehearse: {replies[place]} where {words} was sent before")
            continue
        look = plan.looks.of_line(replies[place])
        changes = plan.meant.setdefault(universe, [])
        if not changes or changes[-1][1] != look:
            changes.append((int(words), look))
