"""In which cue a night was: by the lines of its record that can be read, and by its replies."""

import re
from collections.abc import Iterable

from cueplayer_tools.cue_list import Show, read_show
from cueplayer_tools.keeper.folder import Folder
from cueplayer_tools.keeper.show_copy import is_of_record
from cueplayer_tools.line_protocol import Refused, cue_word, thousandths_of
from cueplayer_tools.record import Given, given_in, words_of

# What may be a move, or the end of follow-ons; the ticks between them are too many to be read.
_MOVE = re.compile(rb"(?mi)^[ \t,]*\d{1,15}[ \t,]+(?:go|back|goto|end)\b[^\n]*\n")
_ANSWER = re.compile(rb"^\d{1,15} cue ([0-9.]{1,8})$", re.MULTILINE)
_MOST, _LAST = 1 << 30, 1 << 16


def _read(texts: Iterable[bytes]) -> list[Given]:
    lines = (given_in(words_of(text.decode("latin-1").rstrip("\n"))) for text in texts)
    return [line for line in lines if line is not None]


def _lines_in(record: bytes) -> list[Given]:
    """The moves that can be read, and the last tick."""
    behind = record.rfind(b"\n") + 1
    last = record[max(behind - _LAST, 0) : behind].splitlines(keepends=True)[1:]
    moves = _read(found[0] for found in _MOVE.finditer(record))
    ticks = [line for line in _read(last) if line.is_tick]
    return [*moves, *ticks[-1:]]


def cue_at_end(record: bytes, show: Show) -> int | None:
    """The cue that is current behind the lines of a record, in thousandths; None before the
    first."""
    cue: int | None = None
    # When the next cue follows by itself, if it does.
    due: int | None = None
    for line in _lines_in(record):
        while due is not None and due <= line.moment:
            cue, due = _follow(show, cue, due)
        if line.words[0] == "end":
            break
        to = _target(show, cue, line)
        if to is not None:
            cue, due = to, _due(show, to, line.moment)
    return cue


def _due(show: Show, cue: int, moment: int) -> int | None:
    follow = show.cues[cue].follow
    return None if follow is None else moment + follow


def _follow(show: Show, cue: int | None, due: int) -> tuple[int | None, int | None]:
    following = show.next_cue(cue)
    return (cue, None) if following is None else (following, _due(show, following, due))


def _target(show: Show, cue: int | None, line: Given) -> int | None:
    """The cue to which a line moves; None where it moves to none."""
    match line.words[0]:
        case "go":
            return show.next_cue(cue)
        case "back":
            return show.previous_cue(cue) if cue is not None else None
        case "goto":
            number = thousandths_of(line.words[1])
            return number if number in show.cues else None
    return None


def answered_cue(folder: Folder) -> int | None:
    """The cue that the replies named last."""
    found = None
    size = folder.size("replies")
    for found in _ANSWER.finditer(folder.read("replies", max(size - (1 << 24), 0), 1 << 24)):
        pass
    return None if found is None else thousandths_of(found[1].decode())


def find_cue(folder: Folder, show: str) -> int | None:
    """The last cue that is known of a night, in thousandths, whose show this file should be; None
    before the first. Refused where the program cannot read the show."""
    record, cue = folder.read("record", 0, _MOST), answered_cue(folder)
    if cue is None or is_of_record(folder, show):
        return cue_at_end(record, read_show(show))
    return cue


def find_last_cue(folder: Folder, show: str) -> str | None:
    """The cue in which a night begins anew that was broken off: the last one that is known, or the
    one before it where this show has not that one; None before the first cue, and where the show
    cannot be read."""
    try:
        cue, cues = find_cue(folder, show), read_show(show)
    except (Refused, OSError, ValueError):
        return None
    if cue is None:
        return None
    known = cue if cue in cues.cues else cues.previous_cue(cue)
    return None if known is None else cue_word(known)
