"""The table of the command line, as the program's own source has it."""

import re
from enum import Enum
from typing import NamedTuple

from generators.marks import TOP

SOURCE = TOP / "crates/cmd_words/src/program.rt"

# A string of Rust: a backslash at the end of a line joins it to the next.
STRING = r'"((?:[^"\\]|\\.|\\\n)*)"'
ARGUMENT = re.compile(r"const (\w+): Argument<'static> = Argument::(\w+)\((.*?)\n?\);\n", re.S)
LINE = re.compile(
    rf"Line \{{\s*name: {STRING},\s*about: {STRING},\s*example: {STRING},"
    r"\s*arguments: &\[(.*?)\],\s*\}",
    re.S,
)


class Kind(Enum):
    """How often an argument stands, as `Argument` of the program has it."""

    POSITIONAL = "Positional"
    SEVERAL = "Several"
    REQUIRED = "Required"
    REPEATED = "Repeated"
    OPTIONAL = "Optional"
    FLAG = "Flag"


class Argument(NamedTuple):
    """A word of a job, whose option is empty, or an option, whose value is empty for a flag."""

    kind: Kind
    option: str
    value: str
    text: str

    def is_option(self) -> bool:
        return bool(self.option)

    def synopsis(self) -> str:
        """The argument as a synopsis has it."""
        several = ".." if self.kind in (Kind.SEVERAL, Kind.REPEATED) else ""
        words = f"{self.option} {self.value}{several}".strip()
        return f"[{words}]" if self.kind in (Kind.OPTIONAL, Kind.FLAG) else words


class Job(NamedTuple):
    """A job of the program: what it does, an example, and its arguments in their order."""

    name: str
    about: str
    example: str
    arguments: list[Argument]

    def options(self) -> list[Argument]:
        return [argument for argument in self.arguments if argument.is_option()]

    def words(self) -> list[Argument]:
        return [argument for argument in self.arguments if not argument.is_option()]

    def synopsis(self) -> list[str]:
        """The parts of its synopsis: the call, and each argument."""
        return [f"cueplayer {self.name}", *(each.synopsis() for each in self.arguments)]

    def does(self) -> str:
        """What it does, as a row of a table says it."""
        return self.about[0].lower() + self.about[1:]


def string_in(written: str) -> str:
    """The value of a string of Rust, without its quotes."""
    return re.sub(r"\\\n\s*", "", written)


def argument_in(kind: Kind, strings: list[str]) -> Argument:
    """The argument of a constructor's strings."""
    if kind is Kind.POSITIONAL:
        value, text = strings
        return Argument(kind, "", value, text)
    if kind is Kind.FLAG:
        name, text = strings
        return Argument(kind, f"--{name}", "", text)
    name, value, text = strings
    return Argument(kind, "" if kind is Kind.SEVERAL else f"--{name}", value, text)


def jobs() -> list[Job]:
    """The jobs of the program, in the order of its help."""
    source = SOURCE.read_text()
    arguments = {}
    for constant, kind, strings in ARGUMENT.findall(source):
        found = [string_in(each) for each in re.findall(STRING, strings)]
        arguments[constant] = argument_in(Kind(kind), found)
    found_jobs = []
    for name, about, example, listed in LINE.findall(source):
        of_job = [arguments[constant] for constant in re.findall(r"\w+", listed)]
        found_jobs.append(Job(name, string_in(about), string_in(example), of_job))
    return found_jobs
