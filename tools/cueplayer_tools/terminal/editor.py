"""A line that is typed: its keys, its cursor, and the lines before it.

The library `readline` waits for a key and cannot draw its line anew below an answer that comes
meanwhile, at the place of its cursor; so the few keys that a command needs are here.
"""

import codecs
import re
from dataclasses import dataclass, field

MOST_LINES = 1_000
# Longer than any line that the program takes.
LONGEST_LINE = 1_000
# What a key sends: a sequence as of ECMA-48, one of a keypad, a key with Alt; else one character.
_KEY = re.compile(r"\x1b\[[0-?]*[ -/]*[@-~]|\x1bO[ -~]|\x1b[^[O]|[^\x1b]", re.DOTALL)
# A key's sequence of which the rest is still to come.
_BEGUN = re.compile(r"\x1b(?:\[[0-?]*[ -/]*|O)?\Z")

_NAMES = {
    "\x1b[A": "up",
    "\x1bOA": "up",
    "\x10": "up",
    "\x1b[B": "down",
    "\x1bOB": "down",
    "\x0e": "down",
    "\x1b[C": "right",
    "\x1bOC": "right",
    "\x06": "right",
    "\x1b[D": "left",
    "\x1bOD": "left",
    "\x02": "left",
    "\x1b[H": "home",
    "\x1bOH": "home",
    "\x1b[1~": "home",
    "\x01": "home",
    "\x1b[F": "end",
    "\x1bOF": "end",
    "\x1b[4~": "end",
    "\x05": "end",
    "\x1b[3~": "delete",
    "\x7f": "backspace",
    "\x08": "backspace",
    "\x15": "drop",
    "\x03": "drop",
    "\x17": "word",
}
_ENTER = ("\r", "\n")
_END_OF_INPUT = "\x04"


class EndOfInput:
    """Control-D on an empty line."""


@dataclass
class LineEditor:
    """The line being typed, where its cursor is, and the lines entered before."""

    text: str = ""
    cursor: int = 0
    lines: list[str] = field(default_factory=list)
    # The place in `lines` of the line that was called back; behind them is the one being typed.
    at: int = 0
    typed: str = ""
    rest: str = ""
    decoder: codecs.IncrementalDecoder = field(
        default_factory=lambda: codecs.getincrementaldecoder("utf-8")("replace")
    )

    def take(self, given: bytes) -> list[str | EndOfInput]:
        """Takes what was typed, and answers the lines that were entered."""
        text = self.rest + self.decoder.decode(given)
        begun = _BEGUN.search(text)
        self.rest = text[begun.start() :] if begun else ""
        entered: list[str | EndOfInput] = []
        for key in _KEY.findall(text[: len(text) - len(self.rest)]):
            if key in _ENTER:
                entered.append(self._enter())
            elif key == _END_OF_INPUT and not self.text:
                entered.append(EndOfInput())
            else:
                self._press(key)
        return entered

    def _enter(self) -> str:
        line = self.text
        if line.strip() and self.lines[-1:] != [line]:
            self.lines = [*self.lines, line][-MOST_LINES:]
        self.at, self.typed = len(self.lines), ""
        self._show("")
        return line

    def _show(self, text: str) -> None:
        self.text, self.cursor = text, len(text)

    def _press(self, key: str) -> None:
        match _NAMES.get(key, ""):
            case "up":
                self._call(self.at - 1)
            case "down":
                self._call(self.at + 1)
            case "left":
                self.cursor = max(self.cursor - 1, 0)
            case "right":
                self.cursor = min(self.cursor + 1, len(self.text))
            case "home":
                self.cursor = 0
            case "end":
                self.cursor = len(self.text)
            case "delete":
                self._cut(self.cursor, self.cursor + 1)
            case "backspace":
                self._cut(max(self.cursor - 1, 0), self.cursor)
            case "word":
                before = self.text[: self.cursor].rstrip()
                self._cut(before.rfind(" ") + 1, self.cursor)
            case "drop":
                self._show("")
            case _:
                self._insert(key)

    def _insert(self, key: str) -> None:
        """A character; other keys do nothing."""
        if len(key) == 1 and key.isprintable() and len(self.text) < LONGEST_LINE:
            self.text = self.text[: self.cursor] + key + self.text[self.cursor :]
            self.cursor += 1

    def _cut(self, start: int, end: int) -> None:
        self.text = self.text[:start] + self.text[end:]
        self.cursor = start

    def _call(self, at: int) -> None:
        """Calls a line back; behind the last one is what was being typed."""
        if not 0 <= at <= len(self.lines):
            return
        if self.at == len(self.lines):
            self.typed = self.text
        self.at = at
        self._show(self.lines[at] if at < len(self.lines) else self.typed)
