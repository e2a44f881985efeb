"""The time axis of a picture, and the labels that stand along it."""

from dataclasses import dataclass

from cueplayer_tools.picture.svg import LETTER, WIDTH, Drawing, rows_of

LEFT = 118.0
RIGHT = 836.0
ROW = 15.0
_STEPS = (100, 200, 500, 1000, 2000, 5000, 10_000, 15_000, 30_000, 60_000, 120_000, 300_000,
          600_000, 1_200_000, 1_800_000, 3_600_000, 7_200_000, 14_400_000, 28_800_000)
MOST_STEPS = 12


def clock(moment: int) -> str:
    """A moment as people read it: 12.5 s, 2:05, 1:00:00."""
    seconds, rest = divmod(moment, 1000)
    if seconds < 60:
        return f"{seconds}.{rest:03}".rstrip("0").rstrip(".") + " s"
    minutes, seconds = divmod(seconds, 60)
    if minutes < 60:
        return f"{minutes}:{seconds:02}"
    return "{}:{:02}:{:02}".format(*divmod(minutes, 60), seconds)


@dataclass(frozen=True)
class Axis:
    """The moments from `first` to `last`, from left to right."""

    first: int
    last: int

    def at(self, moment: int) -> float:
        whole = max(self.last - self.first, 1)
        return LEFT + (RIGHT - LEFT) * (moment - self.first) / whole

    def shows(self, moment: int) -> bool:
        return self.first <= moment <= self.last

    def draw(self, drawing: Drawing, top: float, bottom: float) -> None:
        """Rules at round moments, named below `bottom`."""
        whole = self.last - self.first
        step = next((step for step in _STEPS if whole <= step * MOST_STEPS), _STEPS[-1])
        for moment in range(-(-self.first // step) * step, self.last + 1, step):
            x = self.at(moment)
            drawing.line(x, top, x, bottom + 4, "rule")
            drawing.text(x, bottom + 17, clock(moment), "faint middle")


@dataclass(frozen=True)
class Label:
    """A text at a moment."""

    moment: int
    text: str
    is_alarm: bool = False


def _span(axis: Axis, label: Label) -> tuple[float, float]:
    """From where to where a label reaches: to the left of its line where there is no room."""
    x, wide = axis.at(label.moment), LETTER * len(label.text) + 12
    return (x, x + wide) if x + wide <= WIDTH else (x - wide, x)


def label_rows(axis: Axis, labels: list[Label]) -> list[int]:
    """The row of each label, so that none lies over another."""
    return rows_of([_span(axis, label) for label in labels])


def draw_labels(
    drawing: Drawing, axis: Axis, labels: list[Label], top: float, bottom: float
) -> None:
    """Labels in rows from `top` on, each with a line down to `bottom`."""
    for label, row in zip(labels, label_rows(axis, labels)):
        x, y = axis.at(label.moment), top + row * ROW
        drawing.line(x, y, x, bottom, "move")
        is_left = _span(axis, label)[0] < x
        kind = ("alarmed " if label.is_alarm else "") + ("end" if is_left else "")
        drawing.text(x - 4 if is_left else x + 4, y + 10, label.text, kind.strip())
