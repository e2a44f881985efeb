"""What the audience sees of a storm: slots lines of rehearsals in which packets arrive as the
network brings them.

A night is rehearsed in parts, since a script has a greatest size. A part has all that the consoles
do up to its end. Of what came before it, it has the packet that each receiver took last of each
console: what a receiver shows goes by nothing else. Each part is rehearsed twice. The first time
tells which packets are taken. The second time asks for the slots wherever they can change: at each
packet that is taken, and where a console's last one is 2.5 seconds old.
"""

from collections.abc import Callable
from dataclasses import dataclass, field
from operator import itemgetter
from typing import NamedTuple

from cueplayer_tools.line_protocol import Refused
from cueplayer_tools.rehearsal import LONGEST_SCRIPT
from cueplayer_tools.storm.network import Traffic
from cueplayer_tools.storm.night import (
    MOST_PRINTED,
    Change,
    Console,
    Line,
    Plan,
    answers_of,
    groups_of,
    head_of,
    line_of,
    text_of,
)

SILENCE = 2500
MOST_DELIVERIES = 100_000
# More than the lines of a delivery and of the questions that it gives rise to have.
DELIVERY_BYTES = 160
# What is told of each script that shows slots.
Keep = Callable[[str], None]


class Delivery(NamedTuple):
    moment: int
    console: int
    universe: int
    packet: int


@dataclass
class Seen:
    """What receivers showed, by universe, and the packets that they ignored, with the reason."""

    shown: dict[int, list[Change]] = field(default_factory=dict)
    ignored: dict[Delivery, str] = field(default_factory=dict)


class _Stage:
    """Receivers of some universes, from part to part."""

    def __init__(self, plan: Plan, consoles: list[Console], universes: list[int]) -> None:
        self.plan = plan
        self.universes = universes
        self.receiver = {universe: at for at, universe in enumerate(universes)}
        self.head = head_of(plan.base, consoles, universes)
        tracks = [
            (line.moment + each.late, line_of(console, line))
            for console, each in enumerate(consoles)
            for line in plan.lines
        ]
        self.lines: list[Line] = sorted(tracks, key=itemgetter(0))
        # The first of the lines that are not played yet, and when their part begins.
        self.at = 0
        self.start = 0
        # What each receiver took last of each console.
        self.taken: dict[tuple[int, int], Delivery] = {}
        self.seen = Seen({universe: [] for universe in universes})

    def _words(self, each: Delivery) -> Line:
        receiver = self.receiver[each.universe]
        words = f"deliver {receiver} {each.console} {each.universe} {each.packet}"
        return each.moment, words

    def _before(self) -> list[Line]:
        """The lines before a part, with the packets that were taken last."""
        last = [self._words(each) for each in sorted(self.taken.values())]
        return sorted([*self.lines[: self.at], *last], key=itemgetter(0))

    def play(self, deliveries: list[Delivery], until: int, keep: Keep | None) -> None:
        """Plays a part, up to a moment that is no part of it."""
        end = self.at
        while end < len(self.lines) and self.lines[end][0] < until:
            end += 1
        before = self._before()
        played = [*self.lines[self.at : end], *map(self._words, deliveries)]
        played.sort(key=itemgetter(0))
        script = text_of(self.head, [*before, *played])
        replies = answers_of(self.plan.show, script, len(before) + len(played), len(before))
        answers = [
            reply for (_, words), reply in zip(played, replies) if words.startswith("deliver")
        ]
        asked = self._questions(deliveries, answers, until)
        played = sorted([*played, *asked], key=itemgetter(0))
        script = text_of(self.head, [*before, *played])
        if keep is not None:
            keep(script)
        replies = answers_of(self.plan.show, script, len(before) + len(played), len(before))
        self._note(played, replies)
        self.at, self.start = end, until

    def _questions(
        self, deliveries: list[Delivery], answers: list[str], until: int
    ) -> list[Line]:
        """Where slots are asked for."""
        asked: set[tuple[int, int]] = set()
        for each, answer in zip(deliveries, answers):
            if not answer.startswith("taken"):
                self.seen.ignored[each] = answer.partition(" ")[2]
                continue
            key = each.console, each.universe
            last = self.taken.get(key)
            if last is not None and last.moment + SILENCE < each.moment:
                asked.add((last.moment + SILENCE, self.receiver[each.universe]))
            asked.add((each.moment, self.receiver[each.universe]))
            self.taken[key] = each
        for each in self.taken.values():
            asked.add((each.moment + SILENCE, self.receiver[each.universe]))
        within = (each for each in sorted(asked) if self.start <= each[0] < until)
        return [(at, f"slots {receiver}") for at, receiver in within]

    def _note(self, played: list[Line], replies: list[str]) -> None:
        for (moment, words), reply in zip(played, replies):
            if words.startswith("slots"):
                shown = self.seen.shown[self.universes[int(words[6:])]]
                look = self.plan.looks.of_line(reply)
                if not shown or shown[-1][1] != look:
                    shown.append((moment, look))


def _most_deliveries(plan: Plan, stage: _Stage) -> int:
    """How many a part may have: a script has its room, and so have the answers."""
    room = LONGEST_SCRIPT - len(text_of(stage.head, stage.lines))
    if room < DELIVERY_BYTES * 1000:
        raise Refused("the night is too long for a rehearsal: ask for a part of it, by --until")
    return min(MOST_DELIVERIES, room // DELIVERY_BYTES, MOST_PRINTED // plan.most_printed)


def _watch(stage: _Stage, deliveries: list[Delivery], last: int, keep: Keep | None) -> None:
    """Plays a night in parts, up to its last moment."""
    most, at = _most_deliveries(stage.plan, stage), 0
    while at < len(deliveries):
        end = at + most
        while at < end < len(deliveries) and deliveries[end].moment == deliveries[end - 1].moment:
            end -= 1
        if end == at:
            raise Refused(f"too many packets come at {deliveries[at].moment}: delay them less")
        until = deliveries[end].moment if end < len(deliveries) else last + 1
        stage.play(deliveries[at:end], until, keep)
        at = end


def watch(
    plan: Plan,
    consoles: list[Console],
    traffic: dict[tuple[int, int], Traffic],
    last: int,
    keep: Keep | None = None,
) -> Seen:
    """What receivers show up to a moment, of what came to them by console and universe."""
    seen = Seen({universe: [] for universe in plan.sent})
    for universes in groups_of(sorted(plan.sent)):
        stage = _Stage(plan, consoles, universes)
        deliveries = sorted(
            Delivery(moment, console, universe, packet)
            for (console, universe), each in traffic.items()
            if universe in universes
            for moment, packet in each.came
            if moment <= last
        )
        _watch(stage, deliveries, last, keep)
        seen.shown.update(stage.seen.shown)
        seen.ignored.update(stage.seen.ignored)
    return seen
