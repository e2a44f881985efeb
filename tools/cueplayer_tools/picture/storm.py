"""Pictures of storms: what was meant and shown, and how long it was wrong by the rate of loss."""

import math
from dataclasses import dataclass

from cueplayer_tools.night import Slot
from cueplayer_tools.picture.axis import LEFT, RIGHT, Axis
from cueplayer_tools.picture.svg import Drawing, colour, number
from cueplayer_tools.storm.network import Traffic
from cueplayer_tools.storm.night import DARK, Change
from cueplayer_tools.storm.report import duration, network_words, percent, share
from cueplayer_tools.storm.sweep import Rate
from cueplayer_tools.storm.verdict import Storm, Verdict

TOP = 40.0
PLOT = 130.0
LANE = 18.0
APART = 30.0
MOST_SLOTS = 4
# More packets than these are no strokes any more.
MOST_STROKES = 600
_MEANT = "stroke:var(--faint);stroke-width:1.2;stroke-dasharray:5 3"
# What the axis of a chart may be divided by.
_STEPS = (0.01, 0.02, 0.05, 0.1, 0.2, 0.5, 1.0, 2.0, 5.0, 10.0, 20.0)
_MOST_STEPS = 6


@dataclass(frozen=True)
class Panel:
    """A storm and the slots of it that are drawn."""

    storm: Storm
    slots: list[Slot]

    @property
    def axis(self) -> Axis:
        return Axis(self.storm.first, self.storm.last)


def brightest(storm: Storm) -> list[Slot]:
    """The slots that reach the highest levels, a few."""
    peaks: dict[Slot, int] = {}
    levels = storm.plan.looks.levels
    for universe, changes in storm.plan.meant.items():
        looks = {look for _, look in changes}
        most = [max(each) for each in zip(*(levels[look] for look in sorted(looks)))]
        peaks |= {(universe, slot): peak for slot, peak in enumerate(most, 1) if peak}
    kept = sorted(peaks, key=lambda slot: (-peaks[slot], slot))[:MOST_SLOTS]
    return sorted(kept)


def _height(top: float, level: int) -> float:
    return top + PLOT * (1 - level / 255)


def _path(drawing: Drawing, panel: Panel, top: float, slot: int, changes: list[Change]) -> str:
    """The path of a slot by these looks."""
    axis, levels = panel.axis, panel.storm.plan.looks.levels
    before = [look for moment, look in changes if moment <= axis.first][-1:]
    points = [(axis.first, before[0] if before else DARK)]
    points += [change for change in changes if axis.first < change[0] <= axis.last]
    heights = (
        (axis.at(moment), _height(top, levels[look][slot - 1])) for moment, look in points
    )
    return drawing.steps(heights, RIGHT)


def _draw_slots(drawing: Drawing, panel: Panel, top: float) -> None:
    """What is meant and shown of each slot, and its name."""
    storm = panel.storm
    for place, (universe, slot) in enumerate(panel.slots):
        meant = _path(drawing, panel, top, slot, storm.meant_changes(universe))
        shown = _path(drawing, panel, top, slot, storm.seen.shown[universe])
        y = top + 14 * place + 4
        name = f"M{number(RIGHT + 8)} {number(y)}h14"
        drawing.add("path", d=meant, class_="curve", style=_MEANT)
        for path in (shown, name):
            drawing.add("path", d=path, class_="curve", style=colour(place))
        drawing.text(RIGHT + 26, y + 4, f"{universe}:{slot}")


def _draw_wrong(drawing: Drawing, axis: Axis, y: float, verdict: Verdict) -> None:
    """A stroke wherever something was other than meant."""
    end = LEFT - 1.0
    for stretch in verdict.stretches:
        first, until = max(axis.at(stretch.first), end), axis.at(stretch.until)
        if until - end >= 0.5:
            drawing.line(min(first, until - 0.5), y, until, y, "alarm")
            end = until


def _draw_packets(
    drawing: Drawing, axis: Axis, y: float, name: str, traffic: Traffic
) -> None:
    """A lane with the packets of a console's universe: a stroke each, a cross where lost."""
    drawing.text(LEFT - 6, y + 4, name, "faint end")
    drawing.line(LEFT, y, RIGHT, y, "rule")
    if len(traffic.sent) <= MOST_STROKES:
        for packet, moment in enumerate(traffic.sent):
            x = axis.at(moment)
            if packet in traffic.lost:
                drawing.cross(x, y)
            else:
                drawing.line(x, y - 4, x, y + 4, "mark")
    told = f"{len(traffic.lost)} of {len(traffic.sent)} lost"
    drawing.text(RIGHT + 26, y + 4, told, "alarmed" if traffic.lost else "faint")


def _summary(storm: Storm, universes: list[int]) -> str:
    """The storm in words."""
    told = [each for each in storm.verdicts if each.universe in universes]
    wrong = ", ".join(
        f"universe {each.universe} other than meant for {duration(each.wrong)} of"
        f" {duration(each.whole)}, by {each.off} at most"
        for each in told
    )
    return f"{network_words(storm.network)}: {wrong}"


def _draw_panel(drawing: Drawing, panel: Panel, top: float) -> float:
    """A panel; where it ends."""
    storm, axis = panel.storm, panel.axis
    universes = sorted({universe for universe, _ in panel.slots})
    drawing.text(LEFT, top, _summary(storm, universes))
    top += 12
    for level in (0, 128, 255):
        y = _height(top, level)
        drawing.line(LEFT, y, RIGHT, y, "rule")
        drawing.text(LEFT - 6, y + 4, str(level), "faint end")
    _draw_slots(drawing, panel, top)
    y = top + PLOT + 14
    for verdict in (each for each in storm.verdicts if each.universe in universes):
        drawing.text(LEFT - 6, y + 4, f"universe {verdict.universe} wrong", "faint end")
        _draw_wrong(drawing, axis, y, verdict)
        y += LANE
        for console in range(len(storm.consoles)):
            traffic = storm.traffic[console, verdict.universe]
            _draw_packets(drawing, axis, y, f"console {console}", traffic)
            y += LANE
    return y - LANE + 6


def draw_storms(title: str, panels: list[Panel]) -> str:
    """Storms of one night, one below the other, as a file."""
    said = " ".join(
        _summary(each.storm, sorted({universe for universe, _ in each.slots})) + "."
        for each in panels
    )
    slots = ", ".join(f"{universe}:{slot}" for universe, slot in panels[0].slots)
    drawing = Drawing(title, f"Levels of slots {slots}, meant (broken lines) and shown. {said}")
    drawing.text(LEFT, 24, title, "title")
    bottom = TOP
    for panel in panels:
        top = bottom + 14
        axis = panel.axis
        part = Drawing("", "")
        bottom = _draw_panel(part, panel, top)
        axis.draw(drawing, top + 12, bottom)
        drawing.parts += part.parts
        bottom += APART
    told = "broken: what the show means; red: wrong; crosses: lost packets"
    drawing.text(LEFT, bottom + 6, told, "faint")
    return drawing.file_text(bottom + 20)


def _scale(most: float) -> float:
    """The step of an axis up to here."""
    return next((step for step in _STEPS if most <= step * _MOST_STEPS), _STEPS[-1])


@dataclass(frozen=True)
class _Chart:
    """Places for rates, one beside the other, and heights for shares in percent."""

    count: int
    highest: float
    top: float = 80.0
    bottom: float = 330.0

    def across(self, at: int) -> float:
        return LEFT + (RIGHT - LEFT) * (at + 0.5) / self.count

    def height(self, part: float) -> float:
        return self.bottom - (self.bottom - self.top) * part / self.highest


def _draw_rates(drawing: Drawing, chart: _Chart, rates: list[Rate], shares: list[float]) -> None:
    """The rates along the axis, and what each did."""
    for at, (each, part) in enumerate(zip(rates, shares)):
        x, y = chart.across(at), chart.height(part)
        drawing.line(x, chart.bottom, x, chart.bottom + 4, "mark")
        drawing.text(x, chart.bottom + 17, percent(each.loss), "middle")
        drawing.text(x, y - 24, f"{part:.2g} %" if part else "never", "end")
        told = f"longest {duration(each.together.longest)}" if part else ""
        drawing.text(x, y - 10, told, "faint end")
    drawing.text((LEFT + RIGHT) / 2, chart.bottom + 34, "packets lost", "faint middle")


def draw_sweep(title: str, rates: list[Rate], said: str) -> str:
    """The share of the time in which something was wrong, by the rate of loss, as a file."""
    nights = [each.together for each in rates]
    parts = ((percent(each.loss), share(it.wrong, it.time)) for each, it in zip(rates, nights))
    told = "; ".join(f"{loss}: {part}" for loss, part in parts)
    drawing = Drawing(title, f"Time in which a universe is other than meant, by loss. {told}.")
    drawing.text(LEFT, 24, title, "title")
    drawing.text(LEFT, 44, said, "faint")
    shares = [100 * each.wrong / max(each.time, 1) for each in nights]
    darks = [100 * each.dark / max(each.time, 1) for each in nights]
    step = _scale(max(shares))
    lines = math.ceil(max(shares) / step) + 1
    chart = _Chart(len(rates), step * lines)
    for line in range(lines + 1):
        y = chart.height(line * step)
        drawing.line(LEFT, y, RIGHT, y, "rule")
        drawing.text(LEFT - 6, y + 4, f"{line * step:g} %", "faint end")
    for at, (name, drawn) in enumerate((("wrong", shares), ("of it dark", darks))):
        points = [(chart.across(each), chart.height(part)) for each, part in enumerate(drawn)]
        path = "L".join(f"{number(x)} {number(y)}" for x, y in points)
        drawing.add("path", d=f"M{path}", class_="curve", style=colour(at))
        y = points[-1][1] + (4 if at == 0 else 14)
        drawing.text(points[-1][0] + 8, y, name)
    _draw_rates(drawing, chart, rates, shares)
    return drawing.file_text(chart.bottom + 46)
