"""The keywords of an export, the words that may be what is left of one, and texts that look like
levels: what a damaged line may have been."""

import re
from typing import NamedTuple

PRIMARY = frozenset("CLEAR CONSOLE CUE ENDDATA GROUP IDENT MANUFACTURER PATCH SET SUB".split())
SECONDARY = frozenset("CHAN DOWN FOLLOWON LINK PART TEXT UP".split())
KEYWORDS = sorted(PRIMARY | SECONDARY)
KINDS = {"CUE": "cue", "SUB": "submaster", "GROUP": "group"}
# The keywords without whose line light is missing, or stands in another record.
LIT = frozenset(("CHAN", "PATCH", *KINDS))
# Lines that a record, or a part of a cue, has once.
SINGLE = frozenset("DOWN FOLLOWON LINK TEXT UP".split())

_VALUE = re.compile(r"[0-9].*|FL|FF|FULL|H[0-9A-F]{1,2}", re.IGNORECASE)
_LEVEL = r"(?:[0-9]|FL|FF|H[0-9A-F])"
# A channel with its level, or a dimmer, behind a mark that no other text is likely to have there.
_LEVELS = re.compile(rf"[0-9][ \t]*[@<][ \t]*{_LEVEL}", re.IGNORECASE)
_HELD = re.compile(
    rf"CHAN[ \t]*[0-9]+[ \t]*[@/=][ \t]*{_LEVEL}|PATCH[ \t]*[0-9]+[ \t]+[0-9]+[ \t]*<.*",
    re.IGNORECASE,
)
_JOINED = re.compile(r"(?:CHAN|CUE|GROUP|PATCH|SUB)[ \t]*[.0-9]|[0-9][ \t]*[@<]", re.IGNORECASE)


class Meant(NamedTuple):
    """The keywords that a word may be what is left of, and whether light depends on one."""

    keywords: list[str]
    is_lit: bool


def is_near(word: str, other: str) -> bool:
    """Whether two words are so alike that one may be meant by the other: an edit apart, or two
    letters swapped."""
    if abs(len(word) - len(other)) > 1 or len(word) < 2 or word == other:
        return False
    same = next((at for at, pair in enumerate(zip(word, other)) if pair[0] != pair[1]), None)
    at = min(len(word), len(other)) if same is None else same
    rest, others = word[at:], other[at:]
    swapped = rest[1:2] + rest[:1] + rest[2:]
    return rest[1:] == others[1:] or rest[1:] == others or rest == others[1:] or swapped == others


def meaning_of(word: str) -> Meant | None:
    """What a word may be meant as: what is near to it, else what begins or ends with it."""
    found = [keyword for keyword in KEYWORDS if is_near(word, keyword)]
    if not found:
        found = [each for each in KEYWORDS if each.startswith(word) or each.endswith(word)]
    return Meant(found, not LIT.isdisjoint(found)) if found else None


def is_value(word: str) -> bool:
    """Whether a word is a number or a level: no line begins with one, but where it goes on."""
    return _VALUE.fullmatch(word) is not None


def has_levels(text: str) -> bool:
    """Whether a text has a channel with its level in it, or a channel with its dimmer."""
    return _LEVELS.search(text) is not None


def held_levels(text: str) -> str:
    """What of a label or comment looks like a line of levels; empty where nothing does."""
    found = _HELD.search(text)
    return found[0] if found else ""


def has_joined_line(text: str) -> bool:
    """Whether words that have no meaning where they stand look like a line of their own."""
    return _JOINED.search(text) is not None
