"""The table of docs/DESIGN.md of the wrong bodies that the specification names: the edits of
crates/CRATE/must-fail/ that are one, and the wrong programs that are."""

from pathlib import Path

from generators.wrong_programs import WrongProgram, wrong_programs
from wrong_bodies import ledger
from wrong_bodies.edit import edit_files, name_of, wrong_body

TITLE = "| Wrong body | Edit | Refused by |\n|---|---|---|\n"


def edit_row(file: Path, lines: dict[str, ledger.Line]) -> str:
    """The row of an edit: the function that is refused, and the goal that it leaves open."""
    name = name_of(file)
    refused_by = lines[name].refused_by if name in lines else ""
    function, _, goal = refused_by.partition(" ")
    words = [f"`{word}`" for word in (function, goal) if word]
    return f"| `{wrong_body(file)}` | `{name}` | {', goal '.join(words) or 'not tried yet'} |\n"


def program_row(program: WrongProgram) -> str:
    """The row of a wrong program: the tests that catch it."""
    tests = ", ".join(f"`{test}`" for test in program.tests)
    return f"| `{program.wrong_body}` | the program `{program.name}` | {tests} |\n"


def table() -> str:
    """A row an edit or a program, by the names of the wrong bodies."""
    lines = ledger.read()
    rows = [edit_row(file, lines) for file in edit_files() if wrong_body(file)]
    rows += [program_row(program) for program in wrong_programs() if program.wrong_body]
    return TITLE + "".join(sorted(rows))
