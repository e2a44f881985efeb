"""What a show says of its cues beside their labels: further TEXT lines, comments, and the page of
the play that one of them names."""

import re

from cueplayer_tools.channel_levels import data_lines
from cueplayer_tools.cue_list import name_in
from cueplayer_tools.line_protocol import Refused, thousandths_of
from cueplayer_tools.record import words_of

_PRIMARY = frozenset("CLEAR CONSOLE CUE GROUP IDENT MANUFACTURER PATCH SET SUB".split())
_EDGES = " \t\r\x1a,;/<=>@\"'"
# As `p. 12`, `page 12`, `pg 12`, `S. 12`, `Seite 12`.
_PAGE = re.compile(r"\b(?:(?:page|pg|seite) ?|[ps]\.) ?(\d{1,4}[a-z]?)\b", re.ASCII | re.IGNORECASE)

Notes = dict[int, list[str]]


def _opened(words: list[str]) -> int | None:
    """The cue that a primary line opens; None where it opens none of this show."""
    if words[0].upper() != "CUE" or len(words) < 2:
        return None
    if len(words) > 2 and words[2].isdecimal() and int(words[2]) != 1:
        return None
    try:
        return thousandths_of(words[1])
    except Refused:
        return None


def _clears(words: list[str]) -> bool:
    return len(words) == 2 and words[1].upper() in ("ALL", "CUE", "CUES")


def notes_of(content: bytes) -> Notes:
    """All that is said of each cue, in the order of the file."""
    notes: Notes = {}
    cue: int | None = None
    for line in data_lines(content):
        words = words_of(line)
        word = words[0].upper() if words else ""
        said = ""
        if word in _PRIMARY or (word.startswith("$") and not word.startswith("$$")):
            cue = _opened(words)
            said = line.partition("!")[2]
            if word == "CLEAR" and _clears(words):
                notes = {}
        elif word == "TEXT":
            said = line.lstrip(_EDGES)[len("TEXT") :]
        if cue is not None and (told := name_in(said.strip(_EDGES))):
            notes.setdefault(cue, []).append(told)
    return notes


def page_in(label: str, notes: list[str]) -> str:
    """The page of the play that a cue's label or notes name; empty where none does."""
    found = (_PAGE.search(text) for text in (label, *notes))
    return next((each[1] for each in found if each), "")
