"""Scalable vector graphics, as little of it as a picture of a night needs."""

from collections.abc import Iterable
from xml.sax.saxutils import escape, quoteattr

WIDTH = 1000
# Curves differ by colour and by dash, so that they are told apart in print too.
DASHES = ("", "7 3", "2 3", "9 3 2 3")
LIGHT = ("#0b5cad", "#b4400a", "#00725a", "#8a2a80", "#7a5b00", "#3d4a55", "#a3123a", "#3b3fb0")
DARK = ("#6db5ff", "#ff9d66", "#4fd6b4", "#e79ae0", "#e3c04f", "#b9c4cf", "#ff8aa5", "#a9acff")
LETTER = 6.4

_STYLE = """
svg{{--paper:#fff;--ink:#1b1f24;--faint:#626b75;--rule:#d5dae0;--alarm:#b00020;{light}}}
@media (prefers-color-scheme:dark){{svg{{--paper:#14171b;--ink:#eceff3;--faint:#a3acb6;\
--rule:#363d46;--alarm:#ff8a8a;{dark}}}}}
@media print{{svg{{--paper:#fff;--ink:#000;--faint:#333;--rule:#bbb;--alarm:#b00020;{light}}}}}
text{{font:11.5px system-ui,sans-serif;fill:var(--ink)}}
.title{{font-size:17px;font-weight:600}}.faint{{fill:var(--faint)}}.end{{text-anchor:end}}
.middle{{text-anchor:middle}}.paper{{fill:var(--paper)}}
.rule{{stroke:var(--rule);fill:none}}.move{{stroke:var(--faint);stroke-dasharray:3 3;fill:none}}
.alarm{{stroke:var(--alarm);stroke-width:2;fill:none}}.alarmed{{fill:var(--alarm)}}
.curve{{fill:none;stroke-width:1.8}}.area{{fill:var(--rule);stroke:var(--faint)}}
.mark{{stroke:var(--faint);fill:none}}
"""


def number(value: float) -> str:
    """A coordinate, to a tenth."""
    text = f"{value:.1f}".rstrip("0").rstrip(".")
    return "0" if text in ("-0", "") else text


def colour(place: int) -> str:
    """The style of the curve of this place."""
    dash = DASHES[place // len(LIGHT) % len(DASHES)] if place >= len(LIGHT) else DASHES[place % 2]
    dashed = f";stroke-dasharray:{dash}" if dash else ""
    return f"stroke:var(--c{place % len(LIGHT)}){dashed}"


class Drawing:
    """The parts of a picture, in the order in which they are drawn."""

    def __init__(self, title: str, description: str) -> None:
        self.title = title
        self.description = description
        self.parts: list[str] = []

    def add(self, name: str, **attributes: str | float) -> None:
        words = []
        for key, value in attributes.items():
            shown = value if isinstance(value, str) else number(value)
            words.append(f" {key.strip('_').replace('_', '-')}={quoteattr(shown)}")
        self.parts.append(f"<{name}{''.join(words)}/>")

    def text(self, x: float, y: float, words: str, kind: str = "") -> None:
        kinds = f' class="{kind}"' if kind else ""
        self.parts.append(f'<text x="{number(x)}" y="{number(y)}"{kinds}>{escape(words)}</text>')

    def line(self, x: float, y: float, x2: float, y2: float, kind: str) -> None:
        self.add("path", d=f"M{number(x)} {number(y)}L{number(x2)} {number(y2)}", class_=kind)

    def cross(self, x: float, y: float, size: float = 3.5) -> None:
        """A small cross: something that went wrong."""
        far = number(2 * size)
        start = f"M{number(x - size)} {number(y - size)}"
        self.add("path", d=f"{start}l{far} {far}m0 -{far}l-{far} {far}", class_="alarm")

    def steps(self, points: Iterable[tuple[float, float]], end: float) -> str:
        """A path that stays at each height until the next point, and at the last up to `end`. Of
        points at one place the last counts."""
        path, height = "", None
        for x, y in {number(x): (x, y) for x, y in points}.values():
            if height is None:
                path = f"M{number(x)} {number(y)}"
            elif number(y) != number(height):
                path += f"H{number(x)}V{number(y)}"
            else:
                continue
            height = y
        return f"{path}H{number(end)}"

    def file_text(self, height: float) -> str:
        """The picture as a file."""
        colours = [
            "".join(f"--c{place}:{value};" for place, value in enumerate(values))
            for values in (LIGHT, DARK)
        ]
        style = _STYLE.format(light=colours[0], dark=colours[1])
        head = (
            f'<svg xmlns="http://www.w3.org/2000/svg" viewBox="0 0 {WIDTH} {number(height)}"'
            f' role="img" aria-labelledby="title description">\n'
            f'<title id="title">{escape(self.title)}</title>\n'
            f'<desc id="description">{escape(self.description)}</desc>\n'
            f"<style>{style}</style>\n"
            f'<rect class="paper" width="{WIDTH}" height="{number(height)}"/>\n'
        )
        return head + "\n".join(self.parts) + "\n</svg>\n"


def spread(heights: list[float], apart: float, top: float, bottom: float) -> list[float]:
    """Heights for labels at these heights, in the same order, at least so far apart."""
    order = sorted(range(len(heights)), key=lambda at: (heights[at], at))
    placed = dict.fromkeys(order, 0.0)
    next_free = top
    for at in order:
        placed[at] = max(heights[at], next_free)
        next_free = placed[at] + apart
    limit = bottom
    for at in reversed(order):
        placed[at] = min(placed[at], limit)
        limit = placed[at] - apart
    return [placed[at] for at in range(len(heights))]


def rows_of(spans: list[tuple[float, float]]) -> list[int]:
    """A row for each span from left to right, so that none lies over another."""
    ends: list[float] = []
    rows = []
    for start, end in spans:
        row = next((at for at, taken in enumerate(ends) if taken <= start), len(ends))
        ends[row : row + 1] = [end]
        rows.append(row)
    return rows
