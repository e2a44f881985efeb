"""Writes the lines of a show file, in one form."""

from collections.abc import Iterable

from cueplayer_tools.convert.exports.forms import LEVEL_WORDS
from cueplayer_tools.convert.exports.records import Cue, Export, Record
from cueplayer_tools.convert.times import Times, rate_word
from cueplayer_tools.line_protocol import cue_word, time_word


class Writer:
    """Writes a show of the records of an export."""

    def __init__(self, width: int) -> None:
        self.width = width
        self.lines: list[str] = []

    def wrap(self, front: str, items: Iterable[str]) -> None:
        """Lines that begin with the same words, none longer than the width, which may be none."""
        line = front
        for item in items:
            if self.width and len(line) + len(item) >= self.width and line != front:
                self.lines.append(line)
                line = front
            line = f"{line} {item}"
        self.lines.append(line)

    def levels(self, levels: dict[int, int]) -> None:
        items = [f"{channel}@{LEVEL_WORDS[byte]}" for channel, byte in sorted(levels.items())]
        if items:
            self.wrap("CHAN", items)

    def head(self, word: str, number: str, record: Record) -> None:
        """The line that opens a record, and its label: as a comment where TEXT would cut it."""
        label = record.label
        self.lines += ["", f"{word} {number} ! {label}" if "!" in label else f"{word} {number}"]
        if label and "!" not in label:
            self.lines.append(f"TEXT {label}")

    def patch(self, export: Export) -> None:
        self.lines.append("")
        items = (
            f"{each.channel}<{dimmer}@{LEVEL_WORDS[each.level]}"
            for dimmer, each in sorted(export.patch.items())
        )
        self.wrap("PATCH 1", items)

    def cue(self, cue: Cue, times: Times, link: int | None) -> None:
        self.head("CUE", cue_word(cue.key), cue)
        for name, rate in zip(("UP", "DOWN"), times):
            if rate is not None:
                self.lines.append(f"{name} {rate_word(rate)}")
        if cue.follow is not None:
            self.lines.append(f"FOLLOWON {time_word(cue.follow)}")
        if link is not None:
            self.lines.append(f"LINK {cue_word(link)}")
        self.levels(cue.levels)
