"""The record of a night: lines of `play`, each behind its moment."""

import re
from dataclasses import dataclass

from cueplayer_tools.line_protocol import Refused

_MOMENT = re.compile(r"\d{1,15}", re.ASCII)
_SEPARATORS = re.compile(r"[ \t\r\x1a,;/<=>@]+")
# How many words a line of each kind has behind its moment.
_SIZES = {"go": 1, "back": 1, "end": 1, "tick": 1, "goto": 2, "master": 2, "sub": 3, "group": 3}


@dataclass(frozen=True)
class Given:
    """A line: its moment in milliseconds, and its words in lower case."""

    moment: int
    words: tuple[str, ...]

    @property
    def is_tick(self) -> bool:
        return self.words == ("tick",)

    @property
    def asked(self) -> str:
        return " ".join(self.words)


def words_of(line: str) -> list[str]:
    """The words of a line before its comment."""
    return [word for word in _SEPARATORS.split(line.partition("!")[0]) if word]


def given_in(words: list[str]) -> Given | None:
    """The line that these words are, or None where they are none."""
    if words and _MOMENT.fullmatch(words[0]) and len(words) > 1:
        lower = tuple(word.lower() for word in words[1:])
        is_timed = lower[0] == "goto" and lower[2:3] == ("in",) and len(lower) == 4
        if is_timed or _SIZES.get(lower[0]) == len(lower):
            return Given(int(words[0]), lower)
    return None


def read_record(text: str) -> list[Given]:
    """The lines of a record. The last one may be cut off, as where the machine lost its power."""
    given = []
    lines = text.split("\n")
    for number, line in enumerate(lines, 1):
        words = words_of(line)
        if not words:
            continue
        found = given_in(words)
        if found is None:
            if number == len(lines):
                break
            raise Refused(f"record: line {number} refused")
        given.append(found)
    return given


@dataclass(frozen=True)
class Lost:
    """A packet of a universe that could not be sent."""

    moment: int
    universe: int


def lost_in(printed: str) -> list[Lost]:
    """The lost packets among what `live` or `play` printed."""
    lost = []
    for line in printed.splitlines():
        moment, *words = line.split() or [""]
        for word in words:
            universe, colon, item = word.partition(":")
            if colon and item.startswith("x") and universe.isdecimal() and moment.isdecimal():
                lost.append(Lost(int(moment), int(universe)))
    return lost
