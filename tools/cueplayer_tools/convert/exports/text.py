"""The text of another console's export: its encoding, its line ends, its lines and words.

A character of the text stands for a byte, as in a show file."""

import re
from collections.abc import Iterator
from dataclasses import dataclass, field

from cueplayer_tools.convert.exports.words import KEYWORDS

SEPARATORS = " \t\r\x1a,;/<=>@"
# No label begins or ends with one of these.
EDGES = SEPARATORS + '"'
# Lines that may go on in the next one, which then begins with a number.
_LONG = ("CHAN", "PATCH")
_BLANKS = str.maketrans(SEPARATORS, " " * len(SEPARATORS))
_LONE_CR = re.compile(r"\r(?!\n)")
# A CR inside a line, with a keyword behind it: where a line ended once.
_LINE_END = re.compile(rf"\r+(?=[ \t]*(?:{'|'.join(KEYWORDS)})\b)", re.IGNORECASE)
_DIGITS = re.compile(r"[0-9]+")


@dataclass(slots=True)
class Line:
    """A line with words, and those that it goes on in, each with its number: `said` is what stands
    before a comment."""

    number: int
    said: str
    comment: str
    words: list[str]
    more: list[tuple[int, str]] = field(default_factory=list)
    # Whether a CR alone stands before it, in place of a line end.
    is_behind_cr: bool = False

    @property
    def first(self) -> str:
        """The first word, in capital letters."""
        return self.words[0].upper()

    @property
    def numbers(self) -> range:
        """The line's number, and those of the lines that it goes on in."""
        return range(self.number, (self.more[-1][0] if self.more else self.number) + 1)


def decode(content: bytes) -> tuple[str, list[str]]:
    """The text of a file, and what had to be done to read it."""
    changes = []
    if content[:3] == b"\xef\xbb\xbf":
        content = content[3:]
        changes.append("the byte order mark of UTF-8")
    elif content[:2] in (b"\xff\xfe", b"\xfe\xff") or b"\0" in content[:2]:
        order = "be" if content[:2] == b"\xfe\xff" or content[:1] == b"\0" else "le"
        wide = content.decode(f"utf-16-{order}", errors="replace").removeprefix("\ufeff")
        content = wide.encode("utf-8", errors="replace")
        changes.append("UTF-16, written as UTF-8")
    text = content.decode("latin-1")
    if len(_LONE_CR.findall(text)) > text.count("\n"):
        text = _LONE_CR.sub("\n", text)
        changes.append("the line ends of old Macs, CR alone")
    return text, changes


def words_of(said: str) -> list[str]:
    return [word for word in said.translate(_BLANKS).split(" ") if word]


def _pieces(text: str) -> Iterator[tuple[int, bool, str]]:
    """The lines with their numbers, and those that a CR alone parts, each by itself."""
    for number, line in enumerate(text.split("\n"), 1):
        if "\r" not in line or "\r" not in line.rstrip("\r"):
            yield number, False, line
            continue
        for place, piece in enumerate(_LINE_END.split(line)):
            yield number, place > 0, piece


def lines_of(text: str) -> Iterator[Line]:
    """The lines with words; a CHAN or PATCH line has those that it goes on in."""
    held: Line | None = None
    for number, is_behind_cr, line in _pieces(text):
        said, _, comment = line.partition("!")
        words = words_of(said)
        if not words:
            continue
        if held is not None:
            if _DIGITS.fullmatch(words[0]):
                held.words += words
                held.more.append((number, said))
                continue
            yield held
            held = None
        found = Line(number, said, comment, words, is_behind_cr=is_behind_cr)
        if found.first in _LONG:
            held = found
        else:
            yield found
    if held is not None:
        yield held


def comments_of(text: str) -> Iterator[tuple[int, str]]:
    """The comments with the numbers of their lines."""
    for number, line in enumerate(text.split("\n"), 1):
        if "!" in line:
            yield number, line.partition("!")[2]
