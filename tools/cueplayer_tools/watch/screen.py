"""The screen of `tools/watch` at a terminal, and its keys."""

import os
import shutil
import sys
import termios
import tty

from cueplayer_tools.watch.view import Cell, Picture

_ALTERNATE, _NORMAL = "\x1b[?1049h\x1b[?25l", "\x1b[?25h\x1b[?1049l"
_HOME, _TO_LINE_END, _TO_SCREEN_END = "\x1b[H", "\x1b[K", "\x1b[J"
_INVERSE, _BOLD, _PLAIN = "\x1b[7m", "\x1b[1m", "\x1b[0m"
_NAMED = {
    b"\x1b[A": "up",
    b"\x1b[B": "down",
    b"\x1b[C": "n",
    b"\x1b[D": "p",
    b"\t": "n",
    b" ": "f",
}


def keys_in(typed: bytes) -> list[str]:
    """The keys of what was typed: letters and digits, and arrows by their names."""
    keys = []
    while typed:
        name = next((name for name in _NAMED if typed.startswith(name)), typed[:1])
        keys.append(_NAMED.get(name, name.decode("ascii", "replace").lower()))
        typed = typed[len(name) :]
    return keys


class Screen:
    """A terminal: what was on it is back at the end."""

    def __init__(self) -> None:
        self.keyboard = sys.stdin.fileno()
        self.before = termios.tcgetattr(self.keyboard)
        tty.setcbreak(self.keyboard)
        self._write(_ALTERNATE)

    def leave(self) -> None:
        """Gives the terminal back."""
        self._write(_NORMAL)
        termios.tcsetattr(self.keyboard, termios.TCSADRAIN, self.before)

    def size(self) -> tuple[int, int]:
        return shutil.get_terminal_size()

    def keys(self) -> list[str]:
        """The keys that were typed; the terminal's end is `q`."""
        try:
            typed = os.read(self.keyboard, 256)
        except OSError:
            typed = b""
        return keys_in(typed) if typed else ["q"]

    def draw(self, picture: Picture) -> None:
        """Shows a picture in place of the one before."""
        rows = [f"{first:3} " + "".join(map(self._cell, cells)) for first, cells in picture.rows]
        lines = [*picture.lines, *rows]
        self._write(
            _HOME
            + "".join(f"{line}{_TO_LINE_END}\n" for line in lines)
            + picture.foot
            + _TO_LINE_END
            + _TO_SCREEN_END
        )

    @staticmethod
    def _cell(cell: Cell) -> str:
        text = f"{cell.text:>3}{'*' if cell.has_flashed else ' '}"
        style = (_INVERSE if cell.is_marked else "") + (_BOLD if cell.has_flashed else "")
        return f"{style}{text}{_PLAIN}" if style else text

    def _write(self, text: str) -> None:
        try:
            sys.stdout.write(text)
            sys.stdout.flush()
        except OSError:
            # The terminal has gone: its end is read as a key.
            pass
