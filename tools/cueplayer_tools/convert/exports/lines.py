"""The lines that belong to a record of an export: its levels, its times, its label."""

import re
from collections import Counter
from collections.abc import Callable

from cueplayer_tools.convert.exports import forms
from cueplayer_tools.convert.report import (
    CHANGED, DOUBT, LEFT_OUT, LOST, NOT_PLAYED, Report, line_text,
)  # fmt: skip
from cueplayer_tools.picture.curves import ranges
from cueplayer_tools.convert.exports.records import Cue, Export, Part, Rate, Record
from cueplayer_tools.convert.exports.text import EDGES, Line
from cueplayer_tools.convert.exports.values import Pair, Values
from cueplayer_tools.convert.exports.words import SINGLE, has_joined_line, held_levels
from cueplayer_tools.line_protocol import cue_word, printable, time_word

_COMMA = re.compile(r"[0-9],[0-9]")


def label_in(text: str) -> str:
    return text.strip(EDGES)


def note_list(line: Line, place: str, report: Report) -> None:
    """Tells of the lines that a CHAN or PATCH line goes on in, and of one that ends too early."""
    last, said = line.more[-1] if line.more else (line.number, line.said)
    if line.more:
        numbers = [number for number, _ in line.more]
        report.add(CHANGED, numbers, f"joined to the {line.first} line above")
    if said.rstrip().endswith((",", ";")):
        report.add(DOUBT, last, f"{place}: {line.first} ends with a comma: is its end missing?")


class RecordLines:
    """Takes the lines of records."""

    def __init__(self, report: Report, export: Export, values: Values) -> None:
        self.report = report
        self.export = export
        self.values = values
        self.by_keyword: dict[str, Callable[[Line, Record], None]] = {
            "CHAN": self._chan,
            "UP": self._rate,
            "DOWN": self._rate,
            "FOLLOWON": self._follow,
            "LINK": self._link,
            "PART": self._part,
            "TEXT": self._text,
        }

    def take(self, line: Line, owner: Record) -> None:
        self._note_second(line, owner)
        self.by_keyword[line.first](line, owner)

    def _note_second(self, line: Line, owner: Record) -> None:
        """Tells of a line that stands twice in a record, or in a part, which has it once: it is one
        of the next record, whose head is missing, unless it stands right below the first."""
        first = owner.seen.setdefault(line.first, line.number) if line.first in SINGLE else 0
        if first and first != line.number:
            head = "CUE or PART" if isinstance(owner, Cue) else "SUB or GROUP"
            is_near = line.number == first + 1
            means = "the last counts" if is_near else f"a {head} line is missing between them"
            text = f"{owner.name} has two {line.first} lines: {means}"
            self.report.add(DOUBT if is_near else LOST, [first, line.number], text)

    def _chan(self, line: Line, owner: Record) -> None:
        note_list(line, owner.name, self.report)
        self.values.owner = f"{owner.name}: "
        pairs = self.values.pairs(line)
        self._note_twice(line, owner, pairs)
        owner.levels.update(pairs)
        channels = [channel for channel, _ in pairs]
        if isinstance(owner, Cue):
            owner.parts[-1].channels.update(channels)
        for channel in channels:
            self.export.note_high(line, channel)
        if not channels:
            owner.unread.extend(line.numbers)
        elif not min(channels):
            self.report.add(LOST, line.numbers, f"{owner.name}: there is no channel 0")
            del owner.levels[0]

    def _note_twice(self, line: Line, owner: Record, pairs: list[Pair]) -> None:
        """Tells of channels that stand in a record already: of two levels the last one counts."""
        counts = Counter(channel for channel, _ in pairs)
        twice = {each for each, count in counts.items() if count > 1 or each in owner.levels}
        if not twice:
            return
        levels = dict(pairs) | owner.levels
        other = {channel for channel, byte in pairs if levels[channel] != byte}
        for channels, kind, what in (
            (other, LOST, "at two levels: the last counts"),
            (twice - other, DOUBT, "twice"),
        ):
            if channels:
                word = "channel" if len(channels) == 1 else "channels"
                text = f"{owner.name} has {word} {ranges(sorted(channels))} {what}"
                self.report.add(kind, line.numbers, text)

    def _time(self, line: Line, word: str) -> int | None:
        """A time of a cue, or None where the word is none, which is told."""
        found = forms.time(word)
        if found is None:
            kind = LOST if has_joined_line(line.said) else NOT_PLAYED
            text = f"{line_text(line.said)}: {printable(word)} is not a time"
            self.report.add(kind, line.numbers, f"{self.values.owner}{text}")
            return None
        anew = time_word(found.value)
        if found.is_cut:
            text = f"{line_text(line.said)}: {printable(word)} to the longest time, {anew}"
            self.report.add(NOT_PLAYED, line.numbers, f"{self.values.owner}{text}")
        elif found.is_rounded:
            self.report.add(CHANGED, line.numbers, f"time {printable(word)} to {anew}")
        elif not forms.is_plain_time(word):
            self.report.respell(line.number, word, anew)
        return found.value

    def _times(self, line: Line, owner: Record, most: int, comma: str) -> list[int]:
        """The times of a line of a cue: up to the first word that is none. Of a comma between
        digits this is said."""
        self.values.owner = f"{owner.name}: "
        if has_comma(line.said):
            self.report.add(DOUBT, line.numbers, f"{line_text(line.said)}{comma}")
        words = line.words[1 : most + 1]
        if not words:
            text = f"{owner.name}: {line.first} without a time"
            self.report.add(NOT_PLAYED, line.numbers, text)
        found: list[int] = []
        for word in words:
            value = self._time(line, word)
            if value is None:
                break
            found.append(value)
        self._note_rest(line, owner, most)
        return found

    def _note_rest(self, line: Line, owner: Record, most: int) -> None:
        """Tells of words behind those that a line may have: they may be a line of their own."""
        if len(line.words) > most + 1:
            kind = LOST if has_joined_line(line.said) else NOT_PLAYED
            rest = line_text(" ".join(line.words[most + 1 :]))
            self.report.add(kind, line.numbers, f"{owner.name}: words after {line.first}: {rest}")

    def _leave_out(self, line: Line, owner: Record, text: str) -> None:
        """Leaves out a line that a submaster or group may have, and that says nothing of light."""
        if has_joined_line(line.said):
            self.report.add(LOST, line.numbers, f"{owner.name}: {line_text(line.said)}")
        else:
            self.report.add(LEFT_OUT, line.numbers, text)

    def _rate(self, line: Line, owner: Record) -> None:
        if not isinstance(owner, Cue):
            self._leave_out(line, owner, "fade times of submasters and groups")
            return
        times = self._times(line, owner, 2, " is a time and a delay: is the comma a point?")
        if times:
            part = owner.parts[-1]
            setattr(part, line.first.lower(), Rate(*times))
            part.numbers.append(line.number)

    def _follow(self, line: Line, owner: Record) -> None:
        if not isinstance(owner, Cue):
            self._leave_out(line, owner, "FOLLOWON of submasters and groups")
            return
        times = self._times(line, owner, 1, ": only what stands before the comma counts")
        owner.follow = times[0] if times else owner.follow

    def _link(self, line: Line, owner: Record) -> None:
        if not isinstance(owner, Cue):
            self._leave_out(line, owner, "LINK of submasters and groups")
            return
        to = forms.cue_number(line.words[1]) if len(line.words) > 1 else None
        if to is None:
            text = f"{owner.name}: {line_text(line.said)}: no cue number"
            self.report.add(NOT_PLAYED, line.numbers, text)
        else:
            owner.link = to, line.number
            if not forms.is_plain_cue_number(line.words[1]):
                self.report.respell(line.number, line.words[1], cue_word(to))
        self._note_rest(line, owner, 1)

    def _part(self, line: Line, owner: Record) -> None:
        if not isinstance(owner, Cue):
            self._leave_out(line, owner, "PART of submasters and groups")
            return
        owner.seen.clear()
        name = printable(" ".join(line.words[1:2])) or "?"
        owner.parts.append(Part(name, [line.number]))
        self._note_rest(line, owner, 1)

    def _text(self, line: Line, owner: Record) -> None:
        label = label_in(line.said.strip(EDGES)[len(line.words[0]) :])
        held = held_levels(label)
        if held:
            text = f"{owner.name}: its label holds {line_text(held)}: is a line end missing?"
            self.report.add(LOST, line.numbers, text)
        if isinstance(owner, Cue) and owner.parts[-1].name:
            text = f"the label of part {owner.parts[-1].name} of a cue: {line_text(label)}"
            self.report.add(LEFT_OUT, line.numbers, text)
        elif label:
            owner.text = label


def has_comma(text: str) -> bool:
    """Whether a comma stands between two digits."""
    return _COMMA.search(text) is not None
