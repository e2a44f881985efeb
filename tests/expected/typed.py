"""What a line that is typed to `live` asks for, or why it is refused (FORMATS.md, "The lines of
live")."""

import re
from typing import NamedTuple

from .desk import command
from .words import words_of

LONGEST, SHOWN = 200, 200
# What a key sends: `ESC [` up to a byte of 64 to 126, and one more where that is a `[`; `ESC O`
# and one byte; else ESC and a byte that is no ESC. What has no end goes on to the end of the line.
KEY = re.compile(rb"(?s)\x1b(?:\[[^@-~]*(?:\[.?|[@-~])?|O.?|[^\x1b]|(?=\x1b)|$)")
MOMENT = re.compile(rb"[0-9]{1,15}")
ALONE = (b"back", b"end", b"leave", b"where", b"help", b"?")
LONG = "a line has at most 200 bytes with its moment"
ENDING = "the night is ending"
KEYS = "arrow and function keys do nothing; help lists the commands"
CLOCK = "moments are given by the clock; type the command alone"
GO = "go takes no number; goto 4 goes to a cue"
STAND_ALONE = "back, end, leave, where and help stand alone"
OF_FIRST_WORDS = {
    b"goto": "goto wants a cue number, and may have a time: goto 4.5, goto 4.5 in 3",
    b"sub": "sub and group want a number and a level: sub 3 50, group 1 FL",
    b"group": "sub and group want a number and a level: sub 3 50, group 1 FL",
    b"master": "master wants a level: master 50, master FL, master H80",
}
UNKNOWN = "no such command; help lists the commands"
WHERE, HELP, END, LEAVE, ORDER = "where", "help", "end", "leave", "order"


class Asked(NamedTuple):
    """What a line asks for: the text of it that counts, and whether keys were left out of it."""

    what: str
    text: bytes
    has_keys: bool


def without_keys(line):
    return KEY.sub(b"", line)


def shown_line(line):
    """A refused line as it is told."""
    return re.sub(rb"[^ -~]", b"?", line[:SHOWN]).decode()


def request_in(line, at, is_ending=False):
    """What a line asks for at a moment; the text of its refusal; or None where it has no words."""
    if not words_of(line):
        return None
    if len(f"{at} ") + len(line) > LONGEST:
        return LONG
    text = without_keys(line)
    words = [word.lower() for word in words_of(text)]
    if words in ([b"where"], [b"help"], [b"?"]):
        return Asked(WHERE if words == [b"where"] else HELP, text, text != line)
    if is_ending:
        return ENDING
    if words == [b"leave"] or command(words):
        what = {b"leave": LEAVE, b"end": END}.get(words[0], ORDER)
        return Asked(what, text, text != line)
    return reason(words)


def reason(words):
    """Why these words are no command."""
    if not words:
        return KEYS
    first = words[0]
    if MOMENT.fullmatch(first):
        return CLOCK
    if first == b"go":
        return GO
    if first in ALONE:
        return STAND_ALONE
    return OF_FIRST_WORDS.get(first, UNKNOWN)
