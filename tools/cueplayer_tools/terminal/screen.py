"""The screen: what is told, and below it the line that is typed."""

import os
import queue
import threading

from cueplayer_tools.terminal.editor import LineEditor

PROMPT = "> "
_MOST_WAITING = 1_000
_USUAL_WIDTH = 80


def _printable(text: str) -> str:
    return "".join(letter if letter.isprintable() else "?" for letter in text)


class Screen:
    """Writes to a terminal, and waits for nobody: one that is stopped holds up no command."""

    def __init__(self, terminal: int) -> None:
        self.terminal = terminal
        self.has_prompt = False
        self.waiting: queue.SimpleQueue[str | None] = queue.SimpleQueue()
        self.writer = threading.Thread(target=self._write, daemon=True)
        self.writer.start()

    def draw(self, editor: LineEditor) -> None:
        """Draws the line that is typed."""
        self.has_prompt = True
        self._put(self._line(editor))

    def enter(self, line: str) -> None:
        """Leaves a line that was entered on the screen."""
        self._put(f"\r\x1b[K{PROMPT}{_printable(line)}\n")

    def tell(self, text: str, editor: LineEditor) -> None:
        """Writes a line above the one that is typed."""
        below = self._line(editor) if self.has_prompt else ""
        self._put(f"\r\x1b[K{_printable(text)}\n{below}")

    def leave(self) -> None:
        """Takes the prompt away, and writes what waits, if that can be done at once."""
        if self.has_prompt:
            self._put("\r\x1b[K")
        self.waiting.put(None)
        self.writer.join(1.0)

    def _line(self, editor: LineEditor) -> str:
        """The line that is typed, or as much of it as one row of the screen takes, and its cursor
        in its place."""
        room = self._width() - len(PROMPT) - 1
        start = max(0, editor.cursor - room + 1)
        shown = editor.text[start : start + room]
        behind = len(shown) - (editor.cursor - start)
        return f"\r\x1b[K{PROMPT}{shown}" + (f"\x1b[{behind}D" if behind else "")

    def _width(self) -> int:
        try:
            return max(os.get_terminal_size(self.terminal).columns, 20)
        except OSError:
            return _USUAL_WIDTH

    def _put(self, text: str) -> None:
        if self.waiting.qsize() < _MOST_WAITING:
            self.waiting.put(text)

    def _write(self) -> None:
        while (text := self.waiting.get()) is not None:
            left = text.encode()
            try:
                while left:
                    left = left[os.write(self.terminal, left) :]
            except OSError:
                # The terminal has gone; the night goes on.
                pass
