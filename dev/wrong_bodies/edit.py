"""The edits of crates/CRATE/must-fail/ and crates/CRATE/more-edits/.

A file has lines of four kinds, and of each text one line:

    wrong body: NAME     the wrong body of the specification that it is, if it is one
    file: src/FILE.rt    what the pairs below it change
    old: TEXT            it stands there once
    new: TEXT            in its place
"""

from dataclasses import dataclass
from pathlib import Path
from typing import NamedTuple

from wrong_bodies.crates import CRATES, source
from wrong_bodies.functions import Function, functions, plain, without_bodies

FOLDERS = ("must-fail", "more-edits")


class Change(NamedTuple):
    """One text of a file, and what stands in its place."""

    file: str
    old: str
    new: str


class Body(NamedTuple):
    """A function whose body an edit changes, and the body that it gets."""

    function: Function
    text: str


@dataclass(frozen=True)
class Edit:
    """An edit: the texts of the files that it changes, or why it does not apply.

    `bodies` is empty where it changes more than bodies of functions of one file.
    """

    file: Path
    texts: tuple[tuple[str, str], ...]
    bodies: tuple[Body, ...] = ()
    fault: str = ""

    @property
    def crate(self) -> str:
        return self.file.parent.parent.name

    @property
    def name(self) -> str:
        return name_of(self.file)

    @property
    def functions(self) -> set[str]:
        return {body.function.pattern for body in self.bodies}


def name_of(file: Path) -> str:
    """How the ledger names the edit of this file: CRATE/EDIT."""
    return f"{file.parent.parent.name}/{file.stem}"


def edit_files(crate: str = "*") -> list[Path]:
    """The files of all edits of a crate, or of all crates."""
    return sorted(
        file for folder in FOLDERS for file in CRATES.glob(f"{crate}/{folder}/*.edit")
    )


def changes(file: Path) -> list[Change]:
    """What an edit changes, in the order of its lines."""
    found: list[Change] = []
    path = old = ""
    for line in file.read_text(encoding="utf-8").splitlines():
        word, _, text = line.partition(": ")
        if word == "file":
            path = text.strip()
        elif word == "old":
            old = text
        elif word == "new" or line == "new:":
            found.append(Change(path, old, text))
    return found


def wrong_body(file: Path) -> str:
    """The wrong body of the specification that an edit is; empty for any other."""
    word, _, name = file.read_text(encoding="utf-8").partition("\n")[0].partition(": ")
    return name.strip() if word == "wrong body" else ""


def changed_bodies(crate: str, path: str, new: str) -> tuple[Body, ...]:
    """The functions whose bodies differ in the new text; none where more than bodies differs."""
    old = source(crate, path)
    were, now = functions(crate, path, old), functions(crate, path, new)
    if [each.pattern for each in were] != [each.pattern for each in now]:
        return ()
    if plain(without_bodies(crate, path, old)) != plain(without_bodies(crate, path, new)):
        return ()
    pairs = [(each, new[to.start : to.end]) for each, to in zip(were, now)]
    return tuple(
        Body(each, text)
        for each, text in pairs
        if plain(old[each.start : each.end]) != plain(text)
    )


def read_edit(file: Path) -> Edit:
    """The edit of a file."""
    crate = file.parent.parent.name
    texts: dict[str, str] = {}
    for path, old, new in changes(file):
        text = texts.setdefault(path, source(crate, path))
        if text.count(old) != 1:
            return Edit(file, (), fault=f"an old text stands in {path} {text.count(old)} times")
        texts[path] = text.replace(old, new)
    if len(texts) != 1:
        return Edit(file, tuple(texts.items()), fault="" if texts else "it changes nothing")
    path, text = next(iter(texts.items()))
    return Edit(file, ((path, text),), changed_bodies(crate, path, text))
