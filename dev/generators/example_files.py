"""The worked examples as they stand below tests/examples/, a folder each.

A folder has `example.json`, and beside it what the example needs: `text.md`, which stands above
its tables on the page, `after.md`, which stands below, and `show.asc`, the show of its runs, where
that is not S1.asc. `page.md` has the chapters of the page, and shows or names each example.

example.json has `tables`, and `above` where lines stand above each show or script. A table has
`rows`, and may have a `note` above it, the `options` of its runs, and `begins` with the example
that it begins as. The names of a row's values are the columns; a value of a plural name, as
`shows`, has several texts.

A text is a line without its LF, or a list of pieces: such a line; `bytes` as they are, `times`
over where that is given; or the lines from `first` to `last`, which end in a number. A character
stands for the byte of its number. A datagram is a text, or the packet of an example: `of`, `with`
other bytes, in hex, at these offsets, `cut` to so many bytes, and a text `behind` it.
"""

import json
from functools import lru_cache
from pathlib import Path
from typing import Any, NamedTuple

from generators.marks import TOP

FOLDER = TOP / "tests/examples"
PLURALS = {"shows": "show", "lines": "line", "scripts": "script"}


class Row(NamedTuple):
    """The cells of a row by their columns; those of which there are several texts are in
    `several`."""

    cells: dict[str, Any]
    several: set[str]

    def texts(self, column: str) -> list[bytes]:
        """The texts of a cell."""
        cell = self.cells[column]
        return [bytes_of(text) for text in (cell if column in self.several else [cell])]

    def text(self, column: str) -> bytes:
        """The text of a cell that has one."""
        (text,) = self.texts(column)
        return text

    def words(self, column: str) -> list[str]:
        """The lines of a cell that is no text, each without its LF."""
        cell = self.cells[column]
        return cell if isinstance(cell, list) else [cell] if cell else []


class Table(NamedTuple):
    """A table of an example, in front of which stand the rows of the one that it begins as."""

    columns: tuple[str, ...]
    rows: list[Row]
    begins: dict[str, Any]
    note: str
    options: list[str]
    own_rows: list[Row]


class Example(NamedTuple):
    """An example: its tables, and the texts beside them."""

    name: str
    tables: list[Table]
    above: Any
    folder: Path

    def file(self, name: str) -> str:
        """The text of a file of the folder; empty where it has none."""
        path = self.folder / name
        return path.read_text() if path.exists() else ""

    def show(self) -> bytes:
        """The show of its runs."""
        path = self.folder / "show.asc"
        return (path if path.exists() else FOLDER / "S1.asc").read_bytes()


def piece_bytes(piece: Any) -> bytes:
    """The bytes of a piece of a text."""
    if isinstance(piece, str):
        return piece.encode("latin-1") + b"\n"
    if "bytes" in piece:
        as_is: str = piece["bytes"] * piece.get("times", 1)
        return as_is.encode("latin-1")
    words, first = piece["first"].rsplit(" ", 1)
    last = piece["last"].rsplit(" ", 1)[1]
    numbers = range(int(first), int(last) + 1)
    return b"".join(b"%s %d\n" % (words.encode(), number) for number in numbers)


def bytes_of(text: Any) -> bytes:
    """The bytes of a text."""
    return b"".join(map(piece_bytes, [text] if isinstance(text, str) else text))


def row_of(cells: dict[str, Any]) -> Row:
    """The row of an object of example.json."""
    several = {PLURALS[name] for name in cells if name in PLURALS}
    return Row({PLURALS.get(name, name): cell for name, cell in cells.items()}, several)


def table_of(found: dict[str, Any]) -> Table:
    """The table of an object of example.json."""
    rows = [row_of(cells) for cells in found["rows"]]
    begins = found.get("begins", {})
    front = []
    if begins:
        (table,) = example(begins["as"]).tables
        front = table.rows[: begins.get("lines")]
    columns = tuple(rows[0].cells)
    options = found.get("options", [])
    return Table(columns, front + rows, begins, found.get("note", ""), options, rows)


@lru_cache(maxsize=None)
def example(name: str) -> Example:
    """The example of this name."""
    found = json.loads((FOLDER / name / "example.json").read_text())
    tables = [table_of(each) for each in found["tables"]]
    return Example(name, tables, found.get("above", []), FOLDER / name)


def names() -> list[str]:
    """The names of all examples."""
    return sorted(path.parent.name for path in FOLDER.glob("*/example.json"))
