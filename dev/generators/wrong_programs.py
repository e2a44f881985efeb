"""The wrong programs of tests/wrong_programs/: what each has wrong, which tests catch it, and the
edit of the sources that makes it.

A file has lines of five kinds:

    wrong: WORDS                      what is wrong
    caught: [NAME=VALUE ..] TEST ..   the variables and the names of the tests: a module, a class
                                      of it, or one test
    wrong body: NAME                  where a contract lets it through: which wrong body it is
    file: CRATE/src/FILE.rt           below crates/
    old: TEXT                         it stands there once
    new: TEXT                         in its place
"""

from pathlib import Path
from typing import NamedTuple

from generators.marks import TOP

FOLDER = TOP / "tests/wrong_programs"


class Edit(NamedTuple):
    """One text of a file of crates/, and what stands in its place."""

    file: str
    old: str
    new: str


class WrongProgram(NamedTuple):
    """A wrong program, by the name of its file."""

    name: str
    wrong: str
    tests: list[str]
    environment: dict[str, str]
    edits: list[Edit]
    wrong_body: str = ""

    def told(self) -> str:
        """What is wrong with it, and which tests catch it, with which variables."""
        variables = [f"{name}={value}" for name, value in self.environment.items()]
        return f"{self.name}: {self.wrong}; caught by {' '.join([*variables, *self.tests])}"


class EditUnfit(Exception):
    """An edit does not fit the sources."""


def read_program(path: Path) -> WrongProgram:
    """The wrong program of a file."""
    program = WrongProgram(path.stem, "", [], {}, [])
    file = old = ""
    for line in path.read_text().splitlines():
        word, _, text = line.partition(": ")
        if word == "wrong":
            program = program._replace(wrong=text)
        elif word == "caught":
            for each in text.split():
                name, is_variable, value = each.partition("=")
                if is_variable:
                    program.environment[name] = value
                else:
                    program.tests.append(name)
        elif word == "wrong body":
            program = program._replace(wrong_body=text)
        elif word == "file":
            file = text
        elif word == "old":
            old = text
        elif word == "new" or line == "new:":
            program.edits.append(Edit(file, old, text))
        else:
            raise EditUnfit(f"{path.name}: no line of a wrong program: {line}")
    return program


def wrong_programs() -> list[WrongProgram]:
    """All of them, by their names."""
    return [read_program(path) for path in sorted(FOLDER.glob("*.edit"))]


def edited_files(program: WrongProgram, crates: Path) -> dict[Path, str]:
    """The files of crates/ that a wrong program changes, as they are then."""
    texts: dict[Path, str] = {}
    for edit in program.edits:
        source = crates / edit.file
        text = texts.get(source) or source.read_text()
        if text.count(edit.old) != 1 or edit.old == edit.new:
            raise EditUnfit(f"{program.name}: not once in {edit.file}: {edit.old}")
        texts[source] = text.replace(edit.old, edit.new)
    return texts
