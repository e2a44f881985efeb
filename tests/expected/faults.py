"""The faulty lines of a show text, each with the name of its fault and the word that has it: what
`explain` prints of such a text, and `python3 -m expected.faults FILE`, run in tests/."""

import sys
from pathlib import Path

from .notes import on_encoding, shown_text
from .show import NOBODY, PRIMARY, TIMED, Cue, LineFault, Reader, read
from .words import cue_number, level, lines_with_words, number, time

RECORDS = (b"CUE", b"GROUP", b"SUB")


def is_number(least, most=999_999_999):
    """The fault of a word that must be a number of a range."""

    def fault(word):
        if number(word) is None:
            return "BadNumber"
        return None if least <= number(word) <= most else "Limit"

    return fault


def has_form(form, name):
    return lambda word: name if form(word) is None else None


PAGE = is_number(0)
LEVEL, TIME = has_form(level, "BadLevel"), has_form(time, "BadTime")
# The roles of the first words behind a keyword, and of those behind these, in turn.
ROLES = {
    b"IDENT": ([lambda word: None if word == b"3:0" else "Ident"], []),
    b"CUE": ([has_form(cue_number, "BadNumber"), PAGE], []),
    b"GROUP": ([is_number(1, 500), PAGE], []),
    b"SUB": ([is_number(1, 100), PAGE], []),
    b"PATCH": ([PAGE], [is_number(0, 4096), is_number(1, 8192), LEVEL]),
    b"CHAN": ([], [is_number(1, 4096), LEVEL]),
    **{keyword: ([TIME] * count, []) for keyword, count in TIMED.items()},
}


def word_at_fault(words, fault):
    """The first word that has a line's fault by itself, or None."""
    first, turn = ROLES[words[0].upper()]
    for place, word in enumerate(words[1:]):
        roles = first[place : place + 1] or turn and [turn[(place - len(first)) % len(turn)]]
        if roles and roles[0](word) == fault:
            return word
    return None


def faulty_line(n, line, words, fault):
    word = word_at_fault(words, fault)
    at = "" if word is None else f" at `{shown_text(word)}`"
    return f"line {n}: {fault}{at}: {shown_text(line)}"


def owner_below(words):
    """Whom the lines below a faulty line belong to: a record of its kind, or nobody."""
    if words[0].upper() not in RECORDS or words[2:] and number(words[2]) not in (None, 1):
        return NOBODY
    return Cue() if words[0].upper() == b"CUE" else {}


def faults(text):
    """What `explain` prints of a show with a fault."""
    decides = read(text)
    if decides == "show: TooLong":
        return []
    reader, told = Reader(), []
    for n, line, words in lines_with_words(text):
        # No line of its own has a cue too many.
        reader.show.cues.clear()
        above = reader.owner
        try:
            reader.take(words, line)
        except LineFault as fault:
            told.append(faulty_line(n, line, words, str(fault)))
            reader.owner = owner_below(words) if words[0].upper() in PRIMARY else above
            reader.named = "cues", 1
    return [*on_encoding(text), *told, f"check answers {decides.removeprefix('show ')}"]


if __name__ == "__main__":
    print("\n".join(faults(Path(sys.argv[1]).read_bytes())))
