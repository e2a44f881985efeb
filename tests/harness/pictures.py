"""Pictures of a page, small enough to be kept, and compared in a way that holds on another machine.

A picture is cut into squares of 8 pixels, and of each square the colour is kept that stands in the
middle of all of its pixels' colours. So letters, which fill less than half of a square, hardly
count, whatever the machine's fonts are; the fills of buttons, panels and rows do. Outlines of one
pixel do not, so the boxes of the controls are kept beside the picture.
"""

import base64
import json
from pathlib import Path
from typing import Any, NamedTuple

from browser import Browser, BrowserPage

PICTURES = Path(__file__).resolve().parents[1] / "pictures"
# How far two colours may be apart, of 255 in red, green or blue; which part of a picture's squares,
# and of a control's, may be further apart; and by how many pixels an edge of a control may move.
MOST_APART = 24
MOST_OF_PICTURE, MOST_OF_CONTROL = 0.05, 0.2
MOST_MOVED = 12
SIDE = 8

# The picture of the middle colours, of squares of SIDE pixels; and the colours of a picture.
SCRIPTS = """
async function pixelsOf(data, kind) {
  const bytes = Uint8Array.from(atob(data), (each) => each.charCodeAt(0));
  const image = await createImageBitmap(new Blob([bytes], { type: `image/${kind}` }));
  const canvas = new OffscreenCanvas(image.width, image.height);
  const drawing = canvas.getContext("2d");
  drawing.drawImage(image, 0, 0);
  return drawing.getImageData(0, 0, image.width, image.height);
}
function middleOf(image, left, top, side, channel) {
  const right = Math.min(left + side, image.width);
  const bottom = Math.min(top + side, image.height);
  const found = new Uint8Array((right - left) * (bottom - top));
  let count = 0;
  for (let y = top; y < bottom; y += 1) {
    for (let x = left; x < right; x += 1) {
      found[count] = image.data[4 * (y * image.width + x) + channel];
      count += 1;
    }
  }
  return found.sort()[count >> 1];
}
async function squaresOf(data, kind, side) {
  const image = await pixelsOf(data, kind);
  const squares = new ImageData(Math.ceil(image.width / side), Math.ceil(image.height / side));
  squares.data.fill(255);
  let at = 0;
  for (let top = 0; top < image.height; top += side) {
    for (let left = 0; left < image.width; left += side) {
      for (const channel of [0, 1, 2]) {
        squares.data[at + channel] = middleOf(image, left, top, side, channel);
      }
      at += 4;
    }
  }
  return squares;
}
async function smallPicture(data, kind, side) {
  const squares = await squaresOf(data, kind, side);
  const canvas = new OffscreenCanvas(squares.width, squares.height);
  canvas.getContext("2d").putImageData(squares, 0, 0);
  const bytes = new Uint8Array(await (await canvas.convertToBlob()).arrayBuffer());
  return btoa(String.fromCharCode(...bytes));
}
async function coloursOf(data, kind) {
  const { width, data: bytes } = await pixelsOf(data, kind);
  return [width, [...bytes].map((each) => each.toString(16).padStart(2, "0")).join("")];
}
"""
# Where the controls are: what is not shown is left out.
BOXES = """(() => {
  const parts = {
    strip: "#strip", go: "#go", back: "#back", blackout: "#blackout", goto: "#goto",
    list: "#cues", current: "#cues [aria-current]", next: "#cues .is-next", finder: "#finder",
    blind: "#blind", master: "#master", channels: "#lit-channels", alarms: "#alarms", pin: "#pin",
  };
  const boxes = {};
  for (const [name, part] of Object.entries(parts)) {
    const box = document.querySelector(part)?.getBoundingClientRect();
    if (box?.width && box.height) {
      boxes[name] = [box.left, box.top, box.right, box.bottom].map(Math.round);
    }
  }
  return boxes;
})()"""

Box = list[int]
Colour = bytes


class Squares(NamedTuple):
    """The colours of a small picture, row by row."""

    columns: int
    colours: list[Colour]


class Taken(NamedTuple):
    """A picture that was taken, or is kept: its small PNG, and where the controls were."""

    png: bytes
    boxes: dict[str, Box]


class Darkroom:
    """Where pictures are made small, and looked into: a page of its own."""

    def __init__(self, browser: Browser) -> None:
        self.page: BrowserPage = browser.open_page("about:blank")

    def _value(self, call: str) -> Any:
        answer = self.page.call(
            "Runtime.evaluate",
            expression=f"(async () => {{ {SCRIPTS} return {call}; }})()",
            awaitPromise=True,
            returnByValue=True,
        )
        if "exceptionDetails" in answer:
            raise AssertionError(answer["exceptionDetails"])
        return answer["result"]["value"]

    def small(self, picture: bytes, kind: str = "png") -> bytes:
        """The small PNG of a picture of this kind."""
        data = base64.b64encode(picture).decode()
        return base64.b64decode(self._value(f"smallPicture('{data}', '{kind}', {SIDE})"))

    def squares(self, png: bytes) -> Squares:
        """The colours of a small PNG."""
        data = base64.b64encode(png).decode()
        columns, colours = self._value(f"coloursOf('{data}', 'png')")
        found = bytes.fromhex(colours)
        return Squares(columns, [found[at : at + 3] for at in range(0, len(found), 4)])

    def take(self, page: BrowserPage) -> Taken:
        """What a page shows now."""
        picture = page.call("Page.captureScreenshot", format="png")["data"]
        return Taken(self.small(base64.b64decode(picture)), page.value(BOXES))

    def faults(self, taken: Taken, kept: Taken) -> list[str]:
        """How a picture differs from the one that is kept by more than it may."""
        moved = [name for name in kept.boxes if _is_moved(taken.boxes.get(name), kept.boxes[name])]
        told = [f"{name}: at {taken.boxes.get(name)}, and not {kept.boxes[name]}" for name in moved]
        told += [f"{name}: is shown" for name in taken.boxes if name not in kept.boxes]
        return told + self.colour_faults(taken, kept.png)

    def colour_faults(self, taken: Taken, kept: bytes) -> list[str]:
        """How the colours differ from those of a small PNG by more than they may."""
        ours, theirs = self.squares(taken.png), self.squares(kept)
        if (ours.columns, len(ours.colours)) != (theirs.columns, len(theirs.colours)):
            return ["another size"]
        apart = {at for at, each in enumerate(ours.colours) if _is_apart(each, theirs.colours[at])}
        told = []
        if len(apart) > MOST_OF_PICTURE * len(ours.colours):
            told.append(f"{100 * len(apart) / len(ours.colours):.1f} % of the picture")
        for name, box in taken.boxes.items():
            squares = _squares_in(box, ours)
            share = len(apart & squares) / max(len(squares), 1)
            if share > MOST_OF_CONTROL:
                told.append(f"{name}: {100 * share:.0f} % of its colours")
        return told


def _is_apart(one: Colour, other: Colour) -> bool:
    return any(abs(each - their) > MOST_APART for each, their in zip(one, other))


def _is_moved(box: Box | None, kept: Box) -> bool:
    return box is None or any(abs(edge - its) > MOST_MOVED for edge, its in zip(box, kept))


def _squares_in(box: Box, squares: Squares) -> set[int]:
    """The places of the squares that lie whole in a box."""
    left, top = (-(-max(edge, 0) // SIDE) for edge in box[:2])
    right, bottom = (edge // SIDE for edge in box[2:])
    right = min(right, squares.columns)
    rows = range(top, min(bottom, len(squares.colours) // squares.columns))
    return {row * squares.columns + column for row in rows for column in range(left, right)}


def kept_boxes() -> dict[str, dict[str, Box]]:
    """Where the controls are in each picture that is kept."""
    return json.loads((PICTURES / "boxes.json").read_text())


def keep(pictures: dict[str, Taken]) -> None:
    """Keeps these pictures, and no others."""
    for old in PICTURES.glob("*.png"):
        old.unlink()
    PICTURES.mkdir(exist_ok=True)
    lines = []
    for name, (png, boxes) in sorted(pictures.items()):
        (PICTURES / f"{name}.png").write_bytes(png)
        lines.append(f" {json.dumps(name)}: {json.dumps(boxes)}")
    (PICTURES / "boxes.json").write_text("{\n" + ",\n".join(lines) + "\n}\n")
