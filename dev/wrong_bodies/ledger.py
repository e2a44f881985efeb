"""The ledger of what the prover has refused: edits.txt.

A line of it has the key of an edit, the edit, and what refused it: a function and a goal. The key
is a digest of all that the verdict rests on. So a line stands for a verdict until the toolchain's
logic, the edit, its crate or a contract below it changes.
"""

import functools
import hashlib
from pathlib import Path
from typing import NamedTuple

from generators.marks import TOP
from wrong_bodies.crates import PARTS, below, files, listed, logic, source
from wrong_bodies.edit import name_of
from wrong_bodies.functions import without_bodies

LEDGER = TOP / "edits.txt"
# To be raised where the judgement of `verdict` changes.
JUDGEMENT = "2"
COMMENTS = {".rt": "//", ".antt": "--"}


class Line(NamedTuple):
    """What the ledger has of an edit."""

    key: str
    refused_by: str


def digest(*parts: str) -> str:
    """A digest of these texts in this order."""
    return hashlib.sha256("\0".join(parts).encode()).hexdigest()[:32]


def without_comments(path: str, text: str) -> str:
    """A text without the lines that are empty or a comment."""
    comment = COMMENTS.get(Path(path).suffix, "")
    lines = [line.strip() for line in text.splitlines()]
    return "\n".join(line for line in lines if line and not (comment and line.startswith(comment)))


@functools.cache
def whole(crate: str) -> str:
    """A digest of what a crate is and how it is proved."""
    paths = [path for part in PARTS for path in files(crate, part)]
    texts = [without_comments(path, source(crate, path)) for path in paths]
    return digest(str(listed()[crate]), *paths, *texts)


@functools.cache
def contracts(crate: str) -> str:
    """A digest of what a crate above can rest on: no bodies, no proofs."""
    texts = [path + without_comments(path, source(crate, path)) for path in files(crate, "specs")]
    for path in files(crate, "src"):
        text = without_bodies(crate, path, source(crate, path))
        texts.append(path + without_comments(path, text))
    return digest(*texts)


def key_of(file: Path) -> str:
    """The key of the edit of this file."""
    crate = file.parent.parent.name
    lows = [f"{low} {contracts(low)}" for low in sorted(below(crate))]
    return digest(JUDGEMENT, logic(), file.read_text(encoding="utf-8"), whole(crate), *lows)


def keys(edits: list[Path]) -> dict[str, str]:
    """The key of each of these edits, by its name."""
    return {name_of(file): key_of(file) for file in edits}


def read() -> dict[str, Line]:
    """The lines of the ledger, by the names of the edits."""
    if not LEDGER.is_file():
        return {}
    rows = [line.split(" ", 2) for line in LEDGER.read_text(encoding="utf-8").splitlines()]
    return {row[1]: Line(row[0], row[2] if len(row) > 2 else "") for row in rows if len(row) > 1}


def text(lines: dict[str, Line]) -> str:
    """The ledger that has these lines."""
    rows = [f"{line.key} {name} {line.refused_by}".rstrip() for name, line in lines.items()]
    return "".join(f"{row}\n" for row in sorted(rows, key=lambda row: row.split(" ")[1]))
