"""The picture of a night: cues, levels, masters, refused commands and lost packets."""

from dataclasses import dataclass

from cueplayer_tools.cue_list import Show
from cueplayer_tools.line_protocol import cue_word
from cueplayer_tools.night import Night, masters_of, moves_of
from cueplayer_tools.picture.axis import (
    LEFT,
    RIGHT,
    ROW,
    Axis,
    Label,
    clock,
    draw_labels,
    label_rows,
)
from cueplayer_tools.picture.curves import Named, draw_levels
from cueplayer_tools.picture.svg import Drawing, number
from cueplayer_tools.record import Lost

TOP = 40.0
PLOT = 250.0
LANE = 26.0


@dataclass(frozen=True)
class NightPicture:
    """All that a picture of a night shows."""

    title: str
    show: Show
    night: Night
    named: list[Named]
    left_away: int
    # None where it was not told which packets were lost.
    lost: list[Lost] | None

    @property
    def axis(self) -> Axis:
        return Axis(self.night.first, self.night.last)


def _with_name(words: str, name: str) -> str:
    return f"{words} {name}".strip()


def _labels(picture: NightPicture) -> list[Label]:
    """The cues that were gone to, the commands that were refused, and the end."""
    labels = [
        Label(move.moment, _with_name(cue_word(move.cue), picture.show.cues[move.cue].name))
        for move in moves_of(picture.show, picture.night)
    ]
    for each in picture.night.asked:
        text = " ".join(each.words)
        if each.refused is not None:
            labels.append(Label(each.moment, f"{text}: {each.refused}", True))
        elif each.words[0] == "end":
            labels.append(Label(each.moment, "end"))
    labels.sort(key=lambda label: label.moment)
    return [label for label in labels if picture.axis.shows(label.moment)]


def _master_name(show: Show, words: str) -> str:
    kind, _, at = words.partition(" ")
    records = {"sub": show.subs, "group": show.groups}.get(kind, {})
    return _with_name(words, records[int(at)].name if at else "")


def _draw_master(
    drawing: Drawing, axis: Axis, top: float, name: str, start: int, moved: list[tuple[int, int]]
) -> None:
    """A lane with the positions of one master over time."""
    before = [level for moment, level in moved if moment < axis.first]
    points = [(axis.first, before[-1] if before else start)]
    points += [(moment, level) for moment, level in moved if axis.shows(moment)]
    bottom, deep = top + LANE - 8, LANE - 8
    heights = ((axis.at(at), bottom - deep * level / 255) for at, level in points)
    path = drawing.steps(heights, RIGHT)
    drawing.add("path", d=f"{path}V{number(bottom)}H{number(LEFT)}Z", class_="area")
    drawing.text(LEFT - 6, bottom - 4, name if len(name) <= 18 else name[:16] + "..", "end")
    drawing.text(RIGHT + 26, bottom - 4, f"{points[-1][1]}", "faint")


def _draw_lost(drawing: Drawing, picture: NightPicture, top: float) -> None:
    drawing.text(LEFT - 6, top + 14, "lost packets", "end")
    shown = [lost for lost in picture.lost or [] if picture.axis.shows(lost.moment)]
    drawing.line(LEFT, top + 10, RIGHT, top + 10, "rule")
    for moment in sorted({lost.moment for lost in shown}):
        drawing.cross(picture.axis.at(moment), top + 10)
    drawing.text(RIGHT + 26, top + 14, str(len(shown)), "alarmed" if shown else "faint")


def _description(picture: NightPicture, labels: list[Label]) -> str:
    """The same in words, for those who do not see it."""
    told = "; ".join(f"{clock(label.moment)} {label.text}" for label in labels)
    curves = ", ".join(each.name for each in picture.named)
    lost = "" if picture.lost is None else f" {len(picture.lost)} packets were lost."
    return f"Levels of {curves or 'no slot'}, 0 to 255, over time. {told}.{lost}"


def draw_night(picture: NightPicture) -> str:
    """The picture, as a file."""
    axis, labels = picture.axis, _labels(picture)
    drawing = Drawing(picture.title, _description(picture, labels))
    drawing.text(LEFT, 24, picture.title, "title")
    top = TOP + ROW * (max(label_rows(axis, labels), default=-1) + 1) + 10
    masters = masters_of(picture.night.asked)
    lanes = len(masters) + (picture.lost is not None)
    bottom = top + PLOT
    under = bottom + 14
    axis.draw(drawing, top, under + LANE * lanes)
    draw_labels(drawing, axis, labels, TOP, bottom)
    draw_levels(drawing, axis, picture.night.moments, picture.named, top, bottom)
    for place, words in enumerate(sorted(masters, key=_master_order)):
        start = 255 if words == "master" else 0
        name = _master_name(picture.show, words)
        _draw_master(drawing, axis, under + LANE * place, name, start, masters[words])
    if picture.lost is not None:
        _draw_lost(drawing, picture, under + LANE * len(masters))
    height = under + LANE * lanes + 34
    if picture.left_away:
        height += ROW
        drawing.text(LEFT, height - 8, f"and {picture.left_away} lower curves", "faint")
    return drawing.file_text(height)


def _master_order(words: str) -> tuple[int, int]:
    kind, _, at = words.partition(" ")
    return ("master", "sub", "group").index(kind), int(at or 0)
