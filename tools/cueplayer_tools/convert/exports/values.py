"""The values of CHAN and PATCH lines of another console's export.

Where all words fall into pairs or triples they are taken in turn. Where one does not, the marks
between the words tell what belongs together, and what does not fit is left out by name."""

import re
from collections.abc import Callable, Iterator
from typing import Any

from cueplayer_tools.convert.exports import forms
from cueplayer_tools.convert.exports.text import SEPARATORS, Line
from cueplayer_tools.convert.report import CHANGED, DOUBT, LOST, Report, line_text
from cueplayer_tools.line_protocol import printable

HIGHEST_DIMMER = 8192
_BLANKS = re.compile(r"[ \t]+")
# A mark with blanks on both sides, or before it: a blank behind it alone may part what belongs to
# it from what does not.
_MARKS = re.compile(r" ([@<>/=]) | ([@<>/=])")
_BETWEEN = re.compile(r"[ \t\r\x1a,;]+")
_WITHIN = re.compile(r"[@<>/=]+")

_PAGE_AND_MARK = re.compile(r"[ \t\r\x1a,;/<=>@]*PATCH[ \t]+[0-9]+[ \t]*[<@]", re.IGNORECASE)
_LAST = re.compile(r"(?<=[@<>/= ])[0-9A-Fa-f]{2,3}$")
# The usual spellings, so that those are read quickly.
_CHANNELS = {str(channel): channel for channel in range(4097)}

Chunk = tuple[int, str]
Pair = tuple[int, int]
Triple = tuple[int, int, int]
Read = Callable[[list[str]], Pair | Triple | None]


def _chunks(line: Line) -> Iterator[Chunk]:
    """What stands between blanks, commas and semicolons, behind the keyword, with its line."""
    behind = line.said.lstrip(SEPARATORS)[len(line.words[0]) :]
    for number, text in [(line.number, behind), *line.more]:
        parts = _BETWEEN.split(_MARKS.sub(r"\1\2", _BLANKS.sub(" ", text)))
        yield from ((number, part) for part in parts if part.strip("@<>/="))


def has_page(line: Line) -> bool:
    """Whether a PATCH line has a page in front, and no channel with a mark behind it."""
    if len(line.words) % 3 == 2 and _plain_triples(line.words) is not None:
        return True
    first = next(_chunks(line), None)
    return first is None or not _WITHIN.search(first[1])


class Values:
    """Takes the values of lines, and tells what of them cannot be read."""

    def __init__(self, report: Report) -> None:
        self.report = report
        # What the lines belong to, as it stands before what is told of them.
        self.owner = ""
        self.number = 0

    def _level(self, word: str) -> int | None:
        found = forms.level(word)
        if found is None:
            return None
        anew = forms.LEVEL_WORDS[found.value]
        if found.is_rounded:
            self.report.add(CHANGED, self.number, f"level {printable(word)} to {anew}")
        elif found.is_free:
            self.report.respell(self.number, word, anew)
        return found.value

    def _whole(self, word: str) -> int | None:
        found = forms.whole(word)
        if found is not None and not forms.is_plain_number(word):
            self.report.respell(self.number, word, str(found))
        return found

    def _pair(self, words: list[str]) -> Pair | None:
        channel = self._whole(words[0])
        byte = self._level(words[1])
        return None if channel is None or byte is None else (channel, byte)

    def _triple(self, words: list[str]) -> Triple | None:
        channel, dimmer, byte = self._whole(words[0]), self._whole(words[1]), self._level(words[2])
        if channel is None or dimmer is None or byte is None:
            return None
        return channel, dimmer, byte

    def _lose(self, line: Line, number: int, what: str) -> None:
        text = f"{self.owner}{line.first} {line_text(what)} cannot be read"
        self.report.add(LOST, number, text)
        scale = _other_scale(what)
        if scale:
            text = f"a level of another scale: if all are {scale}, they were misread as percent"
            self.report.add(DOUBT, number, text)

    def pairs(self, line: Line) -> list[Pair]:
        """The channels of a CHAN line with their levels."""
        words = line.words
        if len(words) == 1:
            self.report.add(LOST, line.number, f"{self.owner}CHAN without a channel")
            return []
        if len(words) % 2:
            plain = _plain_pairs(words)
            if plain is not None:
                self._note_marks(line, len(plain))
                return plain
        return self._by_marks(line, self._pair, 2, list(_chunks(line)))

    def triples(self, line: Line) -> list[Triple]:
        """The patch of a PATCH line: channel, dimmer and level, behind its page."""
        if len(line.words) < 3:
            self.report.add(LOST, line.number, f"{line_text(line.said)} without a dimmer")
            return []
        found = _plain_triples(line.words) if len(line.words) % 3 == 2 else None
        if found is not None:
            self._note_marks(line, 2 * len(found), _PAGE_AND_MARK.match(line.said) is not None)
        else:
            chunks = list(_chunks(line))
            found = self._by_marks(line, self._triple, 3, chunks[1 if has_page(line) else 0 :])
        good = []
        for triple in found:
            if 1 <= triple[1] <= HIGHEST_DIMMER:
                good.append(triple)
            else:
                told = f"there is no dimmer {triple[1]}, of channel {triple[0]}"
                self.report.add(LOST, line.number, told)
        return good

    def _note_marks(self, line: Line, expected: int, is_odd: bool = False) -> None:
        """Tells of a line of which all words were read in turn, where its marks say otherwise."""
        texts = [line.said, *(text for _, text in line.more)]
        marks = sum(text.count(mark) for text in texts for mark in "@<>/=")
        if is_odd or marks not in (0, expected):
            by_words = "read word by word, though its marks group it differently"
            told = f"{line_text(line.said)}: {by_words}"
            self.report.add(DOUBT, line.numbers, told)

    def _by_marks(self, line: Line, read: Read, size: int, chunks: list[Chunk]) -> list[Any]:
        words = [_WITHIN.split(chunk.strip("@<>/=")) for _, chunk in chunks]
        if all(len(each) == 1 for each in words):
            return self._in_turn(line, read, size, chunks)
        found = []
        for (number, chunk), each in zip(chunks, words):
            if size == 3 and len(each) == 2 and "<" in chunk and "@" not in chunk:
                self.report.add(CHANGED, number, f"{line_text(chunk)} has no level: full")
                each.append("FL")
            self.number = number
            value = read(each) if len(each) == size else None
            if value is None:
                self._lose(line, number, chunk)
            else:
                found.append(value)
        return found

    def _in_turn(self, line: Line, read: Read, size: int, chunks: list[Chunk]) -> list[Any]:
        """Words with blanks alone between them: so many at a time, none where one is missing."""
        words = [chunk.strip("@<>/=") for _, chunk in chunks]
        if len(words) % size:
            told = " ".join(words[: 4 * size])
            self._lose(line, line.number, f"{told}: a word is missing, so all of it")
            return []
        found = []
        for at in range(0, len(words), size):
            self.number = chunks[at][0]
            value = read(words[at : at + size])
            if value is None:
                self._lose(line, chunks[at][0], " ".join(words[at : at + size]))
            else:
                found.append(value)
        return found


def _plain_pairs(words: list[str]) -> list[Pair] | None:
    """The pairs of words where all are spelled as a show file spells them; else None."""
    plain = zip(map(_CHANNELS.get, words[1::2]), map(forms.PLAIN_LEVELS.get, words[2::2]))
    pairs = [
        (channel, byte) for channel, byte in plain if channel is not None and byte is not None
    ]
    if len(pairs) == len(words) // 2:
        return pairs
    found = []
    for at in range(1, len(words), 2):
        channel, byte = words[at], forms.level(words[at + 1])
        if not _is_number(channel) or byte is None or byte.is_free:
            return None
        found.append((int(channel), byte.value))
    return found


def _plain_triples(words: list[str]) -> list[Triple] | None:
    """The triples behind a keyword and a page, in the same way."""
    found = []
    for at in range(2, len(words), 3):
        channel, dimmer, byte = words[at], words[at + 1], forms.level(words[at + 2])
        if not (_is_number(channel) and _is_number(dimmer)) or byte is None or byte.is_free:
            return None
        found.append((int(channel), int(dimmer), byte.value))
    return found


def _is_number(word: str) -> bool:
    return word.isascii() and word.isdecimal() and len(word) <= 9


def _other_scale(words: str) -> str:
    """Of which scale the last word is a level, where it is none of percent."""
    word = _LAST.search(words)
    if word is None:
        return ""
    if word[0].isdecimal():
        return "from 0 to 255" if 100 < int(word[0]) <= 255 else ""
    return "hexadecimal without an H" if len(word[0]) == 2 else ""
