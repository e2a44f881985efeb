"""A night, as the program tells it: what a receiver showed at many moments, and what was answered.

The lines of the record are rehearsed by the program, with ticks where the record has them, and
with a receiver of each universe that is handed each packet at once and asked for its slots.
"""

from bisect import bisect_left
from dataclasses import dataclass, field

from cueplayer_tools.cue_list import Show
from cueplayer_tools.line_protocol import MOVES, Refused, level_byte, thousandths_of
from cueplayer_tools.live_lines import Move
from cueplayer_tools.record import Given
from cueplayer_tools.rehearsal import MOST_RECEIVERS, Event, rehearse

# Any identity does: what is shown of a night does not hang on its name.
CONSOLE = "00000000-0000-4000-8000-000000000001"
LEAST_APART = 23
MOST_MOMENTS = 480
Slot = tuple[int, int]
Curve = list[int]


@dataclass(frozen=True)
class Asked:
    """A command and what the program answered to it: None is `ok`."""

    moment: int
    words: tuple[str, ...]
    refused: str | None


@dataclass
class Night:
    """What there is to draw: the levels of each slot that was ever lit, one for each moment."""

    moments: list[int] = field(default_factory=list)
    curves: dict[Slot, Curve] = field(default_factory=dict)
    asked: list[Asked] = field(default_factory=list)

    @property
    def first(self) -> int:
        return self.moments[0]

    @property
    def last(self) -> int:
        return max(self.moments[-1], max((each.moment for each in self.asked), default=0))

    def curve(self, slot: Slot) -> Curve:
        return self.curves.get(slot, [0] * len(self.moments))


def fill_ticks(given: list[Given], every: int) -> list[Given]:
    """The lines, with ticks of our own wherever the next recorded one is farther than `every`."""
    ticks = [line.moment for line in given if line.is_tick]
    last = max(line.moment for line in given)
    stops = sorted({*ticks, last + LEAST_APART})
    own = list(range(min(line.moment for line in given), stops[0] - LEAST_APART + 1, every))
    for here, there in zip(ticks, stops[bisect_left(stops, ticks[0]) + 1 :] if ticks else []):
        own += range(here + every, there - LEAST_APART + 1, every)
    both = given + [Given(moment, ("tick",)) for moment in own]
    # Lines of one moment stay in their order, and a tick of our own comes behind them.
    return sorted(both, key=lambda line: line.moment)


def thin_ticks(given: list[Given], first: int, last: int) -> list[Given]:
    """The commands up to `last`, and of the ticks between the two no more than can be seen: those
    at even distances, and the last before and the first after each move from cue to cue."""
    ticks = [at for at, line in enumerate(given) if line.is_tick and first <= line.moment <= last]
    moments = [given[at].moment for at in ticks]
    wanted = set(ticks[:1] + ticks[-1:])
    if len(ticks) > MOST_MOMENTS:
        for step in range(MOST_MOMENTS):
            moment = first + (last - first) * step // MOST_MOMENTS
            wanted.add(ticks[min(bisect_left(moments, moment), len(ticks) - 1)])
        for at in (at for at, line in enumerate(given) if line.words[0] in (*MOVES, "end")):
            behind = bisect_left(ticks, at)
            wanted.update(ticks[max(behind - 1, 0) : behind + 1])
    else:
        wanted.update(ticks)
    return [
        line
        for at, line in enumerate(given)
        if at in wanted or (not line.is_tick and line.moment <= last)
    ]


def _lines(given: list[Given]) -> list[str]:
    return [
        f"{line.moment} tick 0" if line.is_tick else f"{line.moment} do 0 {line.asked}"
        for line in given
    ]


def _requests(events: list[Event]) -> list[Asked]:
    commands = (event for event in events if event.words[0] == "do")
    return [
        Asked(each.moment, each.words[2:], None if each.reply == ("ok",) else each.reply[-1])
        for each in commands
    ]


def night_of(file: str, given: list[Given], universes: list[int], base: int) -> Night:
    """The night of these lines, at the moments of its ticks."""
    header = f"console {base} 100 {CONSOLE}\n"
    plain = rehearse(file, header + "\n".join(_lines(given)) + "\n")
    ticks = [event for event in plain.events if event.words[0] == "tick"]
    accepted = [event for event in ticks if event.reply[0] != "refused"]
    if not accepted:
        raise Refused("no tick is in this part of the night: nothing was shown")
    night = Night([event.moment for event in accepted], asked=_requests(plain.events))
    for start in range(0, len(universes), MOST_RECEIVERS):
        _listen(night, file, header, plain.events, universes[start : start + MOST_RECEIVERS])
    return night


def _listen(
    night: Night, file: str, header: str, events: list[Event], universes: list[int]
) -> None:
    """Adds the slots of these universes to a night, by a rehearsal with a receiver of each."""
    script = [header + "".join(f"receiver {universe}\n" for universe in universes)]
    packets = dict.fromkeys(universes, 0)
    for event in events:
        script.append(f"{event.moment} {' '.join(event.words)}\n")
        if event.words[0] != "tick" or event.reply[0] == "refused":
            continue
        for receiver, universe in enumerate(universes):
            if universe in event.sent_universes():
                packet = packets[universe]
                packets[universe] += 1
                script.append(f"{event.moment} deliver {receiver} 0 {universe} {packet}\n")
            script.append(f"{event.moment} slots {receiver}\n")
    heard = rehearse(file, "".join(script))
    at = dict.fromkeys(range(len(universes)), 0)
    for event in heard.events:
        if event.words[0] == "slots":
            receiver = int(event.words[1])
            for slot, level in event.slots().items():
                key = (universes[receiver], slot)
                curve = night.curves.setdefault(key, [0] * len(night.moments))
                curve[at[receiver]] = level
            at[receiver] += 1


def moves_of(show: Show, night: Night) -> list[Move]:
    """The moves of a night: which cues it came to, and when.

    A record has no `cue` lines, and a rehearsal prints none. So the moves are worked out here from
    the commands that the program accepted, by the order of the cues and their FOLLOWONs."""
    moves: list[Move] = []
    for each in night.asked:
        if each.refused is not None:
            continue
        _follow(show, moves, each.moment)
        if each.words[0] == "end":
            return moves
        cue = _cue_of(show, moves[-1].cue if moves else None, each.words)
        if cue is not None:
            moves.append(Move(each.moment, cue))
    _follow(show, moves, night.last)
    return moves


def _cue_of(show: Show, current: int | None, words: tuple[str, ...]) -> int | None:
    """The cue that an accepted command came to; None where it is no move."""
    match words[0]:
        case "go":
            return show.next_cue(current)
        case "back":
            return show.previous_cue(current)
        case "goto":
            return thousandths_of(words[1])
    return None


def _follow(show: Show, moves: list[Move], moment: int) -> None:
    """Makes the moves that cues make by themselves up to a moment, each at its own."""
    while moves:
        latest = moves[-1]
        follow, cue = show.cues[latest.cue].follow, show.next_cue(latest.cue)
        if follow is None or cue is None or latest.moment + follow > moment:
            return
        moves.append(Move(latest.moment + follow, cue))


def masters_of(asked: list[Asked]) -> dict[str, list[tuple[int, int]]]:
    """The positions of each master that was moved, by its words: moments and bytes."""
    masters: dict[str, list[tuple[int, int]]] = {}
    for each in asked:
        if each.refused is None and each.words[0] in ("sub", "group", "master"):
            *name, level = each.words
            words = " ".join([name[0], *(str(int(number)) for number in name[1:])])
            masters.setdefault(words, []).append((each.moment, level_byte(level)))
    return masters
