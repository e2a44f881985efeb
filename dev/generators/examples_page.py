"""docs/EXAMPLES.md, from tests/examples/."""

import re
from typing import Any

from generators.example_files import FOLDER, Example, Row, Table, example, names
from generators.marks import TOP

ESCAPES = {"\n": "\\n", "\r": "\\r", "\t": "\\t"}
# The columns of texts, and those that are shown as they are written.
TEXTS = ("show", "line", "script", "explained", "then")
PLAIN = ("delivered", "bytes", "offsets")


class WrongOrder(Exception):
    """tests/examples/page.md does not show or name each example once."""

    def __init__(self, names: str) -> None:
        super().__init__(f"tests/examples/page.md has to show or name each example once: {names}")


def code(words: str) -> str:
    """A line in backquotes, with an escape for each byte that is no printable ASCII."""
    shown = (ESCAPES.get(c) or (c if " " <= c <= "~" else f"\\x{ord(c):02x}") for c in words)
    return f"`{''.join(shown)}`"


def piece(found: Any) -> str:
    """A piece of a text, as the page shows it."""
    if isinstance(found, str):
        return code(found)
    if "times" in found:
        return f"{found['times']} times {code(found['bytes'])}"
    if "bytes" in found:
        return f"the bytes {code(found['bytes'])}"
    return f"{code(found['first'])} to {code(found['last'])}"


def text(found: Any) -> str:
    """A text, as the page shows it."""
    return " ".join(map(piece, [found] if isinstance(found, str) else found))


def datagram(found: Any) -> str:
    """A datagram, as the page shows it."""
    if not isinstance(found, dict):
        return text(found or [])
    turned = [f"{byte} at {offset}" for offset, byte in found.get("with", {}).items()]
    shown = "the packet" + (" with " + ", ".join(turned) if turned else "")
    if "cut" in found:
        shown += f" cut to {found['cut']} bytes"
    if "behind" in found:
        shown += f"{',' if turned else ''} and {text(found['behind'])}"
    return shown


def cell(row: Row, column: str) -> str:
    """A cell of a row, as the page shows it."""
    found = row.cells[column]
    if column in TEXTS:
        return ", ".join(map(text, found if column in row.several else [found]))
    if column == "datagram":
        return datagram(found)
    if column in PLAIN:
        return str(found)
    if isinstance(found, dict):
        return f"{code(found['stderr'])} on standard error, status {found['status']}"
    parted = ", " if "datagram" in row.cells else " "
    return parted.join(map(code, row.words(column)))


def line(cells: list[str]) -> str:
    return "|" + "|".join(f" {each} " if each else " " for each in cells) + "|"


def table(found: Table) -> str:
    """A table of the page."""
    lines = [line([column.capitalize() for column in found.columns])]
    lines.append("|" + "---|" * len(found.columns))
    for row in found.own_rows:
        lines.append(line([cell(row, column) for column in found.columns]))
    return "\n".join(lines)


def named_show(show: bytes) -> str:
    """The show of the runs of an example, as the page names it; empty for S1."""
    usual = (FOLDER / "S1.asc").read_text().splitlines()
    lines = show.decode("latin-1").splitlines()
    if lines == usual:
        return ""
    for path in sorted((TOP / "examples").glob("*.asc")):
        if path.read_bytes() == show:
            return f"the file `{path.relative_to(TOP)}`"
    for at, added in enumerate(lines):
        if at and lines[:at] + lines[at + 1 :] == usual:
            return f"S1 with {code(added)} below {code(lines[at - 1])}"
    return text(lines) if lines else text([{"bytes": "!", "times": 0}])


def begins_as(begins: dict[str, Any]) -> str:
    """How a table begins, as the page says it."""
    if not begins:
        return ""
    part = f"the first {begins['lines']} lines of " if "lines" in begins else ""
    return f"Begins as {part}`{begins['as']}`."


def body(found: Example) -> str:
    """What stands below the name of an example."""
    parts = []
    about, show = found.file("text.md").strip(), named_show(found.show())
    for number, each in enumerate(found.tables):
        note = each.note if number else about
        parts.append(f"{note} {begins_as(each.begins)}".strip())
        if found.above and not number:
            parts.append(f"Above each: {text(found.above)}")
        if show and {"line", "script"} & set(each.columns):
            parts.append(f"Show: {show}")
            show = ""
        parts.append(f"Options: `{' '.join(each.options)}`" if each.options else "")
        parts.append(table(each))
    parts.append(found.file("after.md").strip())
    return "".join(f"{part}\n\n" for part in parts if part)


def named(written: str) -> list[str]:
    """The examples that page.md shows, and those that it names below `More:`."""
    shown = re.findall(r"(?m)^### (\w+)\n", written)
    more = re.findall(r"(?m)^More: .*$", written)
    return shown + [name for line in more for name in re.findall(r"`(\w+)`", line)]


def page() -> str:
    """The page."""
    written = (FOLDER / "page.md").read_text()
    written = written.replace("{S1.asc}\n", (FOLDER / "S1.asc").read_text())
    found = named(written)
    if sorted(found) != names():
        raise WrongOrder(" ".join(sorted(set(found) ^ set(names()))))
    written = re.sub(
        r"(?m)^### (\w+)\n\n", lambda name: f"{name[0]}{body(example(name[1]))}", written
    )
    return written.rstrip("\n") + "\n"
