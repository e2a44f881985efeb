"""Which slots a picture shows, and what they are called."""

from dataclasses import dataclass

from cueplayer_tools.cue_list import Show
from cueplayer_tools.line_protocol import Refused
from cueplayer_tools.night import Curve, Night, Slot
from cueplayer_tools.picture.axis import LEFT, RIGHT, Axis
from cueplayer_tools.picture.svg import Drawing, colour, number, spread

MOST_CURVES = 12
LONGEST_LABEL = 24
FARTHEST_JOINT = 30


@dataclass(frozen=True)
class Named:
    """A curve and what it is of."""

    name: str
    curve: Curve


def ranges(numbers: list[int]) -> str:
    """Ascending numbers, short: 1 to 3, 7 is `1-3, 7`."""
    runs: list[list[int]] = []
    for value in numbers:
        if runs and value == runs[-1][-1] + 1:
            runs[-1].append(value)
        else:
            runs.append([value])
    return ", ".join(f"{run[0]}-{run[-1]}" if len(run) > 1 else str(run[0]) for run in runs)


def slots_name(slots: list[Slot]) -> str:
    """Slots as `universe:slots`."""
    universes = sorted({universe for universe, _ in slots})
    parts = (
        f"{universe}:" + ranges([slot for where, slot in slots if where == universe])
        for universe in universes
    )
    return " ".join(parts)


def cut(text: str) -> str:
    return text if len(text) <= LONGEST_LABEL else text[: LONGEST_LABEL - 2] + ".."


def _together(curves: dict[Slot, Curve]) -> list[tuple[list[Slot], Curve]]:
    """The slots of each curve, in the order of the first of them."""
    together: dict[tuple[int, ...], list[Slot]] = {}
    for slot in sorted(curves):
        together.setdefault(tuple(curves[slot]), []).append(slot)
    return [(slots, list(curve)) for curve, slots in together.items()]


def lit(curves: dict[Slot, Curve], channels: dict[Slot, int]) -> list[Named]:
    """All slots that were ever lit, those of one curve together, by their channels where they are
    known."""
    named = []
    for slots, curve in _together(curves):
        runs = sorted({channels[slot] for slot in slots if slot in channels})
        name = "channel " + ranges(runs) if runs else slots_name(slots)
        named.append(Named(cut(name), curve))
    return named


def choose_curves(
    night: Night, show: Show, base: int, slots: list[Slot], channels: list[int]
) -> list[Named]:
    """The curves that were asked for: of each slot, and of the slots of each channel."""
    named = [Named(slots_name([slot]), night.curve(slot)) for slot in slots]
    for channel in channels:
        curves = {slot: night.curve(slot) for slot in show.slots_of(channel, base)}
        if not curves:
            raise Refused(f"channel {channel} runs no dimmer")
        for of_one, curve in _together(curves):
            named.append(Named(cut(f"channel {channel} ({slots_name(of_one)})"), curve))
    return named


def all_of(night: Night, show: Show, base: int) -> tuple[list[Named], int]:
    """All curves, at most twelve, and how many are left away: those of the lowest peaks."""
    owners = {}
    for channel in set(show.patch.values()):
        owners.update(dict.fromkeys(show.slots_of(channel, base), channel))
    named = lit(night.curves, owners)
    kept = sorted(range(len(named)), key=lambda at: (-max(named[at].curve), at))[:MOST_CURVES]
    return [named[at] for at in sorted(kept)], len(named) - len(kept)


def draw_levels(
    drawing: Drawing, axis: Axis, moments: list[int], named: list[Named], top: float, bottom: float
) -> None:
    """The curves between two heights, 255 at the top, with their names at the right."""

    def height(level: int) -> float:
        return bottom - (bottom - top) * level / 255

    for level in (0, 128, 255):
        drawing.line(LEFT, height(level), RIGHT, height(level), "rule")
        drawing.text(LEFT - 6, height(level) + 4, str(level), "faint end")
    ends = [height(each.curve[-1]) for each in named]
    for place, (each, end, label) in enumerate(
        zip(named, ends, spread(ends, 14, top + 2, bottom))
    ):
        points = ((axis.at(moment), height(level)) for moment, level in zip(moments, each.curve))
        drawing.add("path", d=drawing.steps(points, RIGHT), class_="curve", style=colour(place))
        # A name that had to stand far off is told by its colour alone.
        near = abs(label - end) <= FARTHEST_JOINT
        joint = f"M{number(RIGHT)} {number(end)}L{number(RIGHT + 10)} {number(label)}h12"
        joint = joint if near else f"M{number(RIGHT + 6)} {number(label)}h16"
        drawing.add("path", d=joint, class_="curve", style=colour(place))
        drawing.text(RIGHT + 26, label + 4, each.name)
