#!/usr/bin/env python3
"""The screen of `tools/watch` as a picture: a main and its backup light a stage, another console
is in the way, and a cue has just come. Run alone it writes docs/watch.svg."""

import sys
from pathlib import Path
from xml.sax.saxutils import escape

TESTS = Path(__file__).resolve().parent
sys.dont_write_bytecode = True
sys.path[:0] = [str(TESTS / "harness"), str(TESTS.parent / "tools")]

from program import TOP, packet, run  # noqa: E402  (both are on the path from here on)

from cueplayer_tools.watch.rates import Rates  # noqa: E402
from cueplayer_tools.watch.state import Watched  # noqa: E402
from cueplayer_tools.watch.view import Picture, View, picture  # noqa: E402

PICTURE = TOP / "docs/watch.svg"
SIZE = (104, 25)
LETTER, LINE, EDGE = 7.3, 16, 10
CIDS = [f"c0ffee00-0000-4000-8000-00000000e13{n}" for n in (1, 2, 3)]
# Who sends: name, priority, address, and the slots.
SOURCES = (
    ("main", 100, "10.101.1.10", {1: 255, 2: 204, 17: 128, 18: 128, 101: 255}),
    ("backup", 90, "10.101.1.11", {1: 255, 2: 204, 17: 128, 18: 128, 101: 255}),
    ("visitor", 80, "10.101.1.77", {1: 255}),
)


def came() -> list[tuple[int, bytes, str]]:
    """Moment, datagram and address of what comes in two seconds, each source at its 44 a
    second."""
    datagrams = []
    for tick in range(88):
        for cid, (name, priority, address, slots) in zip(CIDS, SOURCES):
            levels = slots if tick > 40 else {1: 255}
            sent = packet(1, levels, tick % 256, priority=priority, cid=cid, name=name)
            # One packet in forty of the visitor is lost.
            if name != "visitor" or tick % 40 != 39:
                datagrams.append((tick * 1000 // 44, sent, address))
    return datagrams


def draw() -> Picture:
    """What the tool shows behind it, by what `cueplayer watch` says of the datagrams."""
    watched, rates = Watched([1, 2, 3, 4]), Rates()
    datagrams = came()
    lines = b"".join(b"%d %s\n" % (moment, sent.hex().encode()) for moment, sent, _ in datagrams)
    outcome = run("watch", "1", "2", "3", "4", stdin=lines + b"2000\n")
    for line in outcome.out.decode("ascii").splitlines():
        watched.take(line)
    for moment, sent, address in datagrams:
        if moment >= 1000:
            rates.add(sent, (address, 5568))
    rates.end_second(1)
    view = View([1, 2, 3, 4])
    for key in "17m":
        view.key(key)
    return picture(watched, rates, 0, view, SIZE)


def svg(screen: Picture) -> str:
    """The picture of a screen, in letters of one width."""
    rows = [(line, "text") for line in screen.lines]
    for first, cells in screen.rows:
        rows.append((f"{first:3}" + "".join(f"{cell.text:>4}" for cell in cells), "text"))
    rows.append((screen.foot, "faint"))
    width, height = 2 * EDGE + LETTER * SIZE[0], 2 * EDGE + LINE * len(rows)
    parts = [
        f'<svg xmlns="http://www.w3.org/2000/svg" viewBox="0 0 {width:.0f} {height}" role="img">',
        "<title>The screen of tools/watch: sources and slots of a universe</title>",
        "<style>text{font:12px ui-monospace,Menlo,Consolas,monospace;fill:#e8e6e3;white-space:pre}",
        ".faint{fill:#a9a49c}</style>",
        f'<rect width="{width:.0f}" height="{height}" rx="6" fill="#16181c"/>',
    ]
    for place, (line, kind) in enumerate(rows):
        y = EDGE + LINE * place + 12
        length = f'textLength="{LETTER * len(line.rstrip()):.1f}" xml:space="preserve"'
        if line.strip():
            parts.append(
                f'<text x="{EDGE}" y="{y}" class="{kind}" {length}>{escape(line.rstrip())}</text>'
            )
    return "\n".join([*parts, "</svg>", ""])


if __name__ == "__main__":
    PICTURE.write_text(svg(draw()))
