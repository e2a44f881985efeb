"""`cueplayer live` at a terminal: runs it, hands on what is typed, and tells what it answers."""

import contextlib
import os
import selectors
import signal
import subprocess
import termios
from collections.abc import Callable, Iterator
from typing import IO, NoReturn

from cueplayer_tools.cue_list import Show, read_show
from cueplayer_tools.line_protocol import Refused
from cueplayer_tools.program import program
from cueplayer_tools.terminal.answers import Answers
from cueplayer_tools.terminal.editor import EndOfInput, LineEditor
from cueplayer_tools.terminal.phrases import HELP, live_line
from cueplayer_tools.terminal.screen import Screen

INPUT, OUTPUT, ERROR = 0, 1, 2
# The options of `live` that take no value.
_FLAGS = ("--resume", "--spare", "--any-route", "--end-with-input")
# A terminal sends these; the light goes on.
_IGNORED = (
    signal.SIGINT,
    signal.SIGQUIT,
    signal.SIGHUP,
    signal.SIGTSTP,
    signal.SIGTTIN,
    signal.SIGTTOU,
)
# The last line of the start: from here on lines can be typed.
_STARTED = "end ends the night"


def show_file(words: list[str]) -> str | None:
    """The show file that these words of `live` name."""
    rest = iter(words)
    for word in rest:
        if word == "--":
            return next(rest, None)
        if not word.startswith("--"):
            return word
        if "=" not in word and word not in _FLAGS:
            next(rest, None)
    return None


def _show(words: list[str]) -> Show:
    """The show, for its labels and times; where it has a fault `live` tells it."""
    file = show_file(words)
    try:
        return read_show(file) if file else Show()
    except (Refused, OSError, ValueError, LookupError):
        return Show()


@contextlib.contextmanager
def _each_key(terminal: int) -> Iterator[None]:
    """Each key comes as it is pressed, and is not shown; control-C is a key."""
    usual = termios.tcgetattr(terminal)
    keys = termios.tcgetattr(terminal)
    keys[3] &= ~(termios.ICANON | termios.ECHO | termios.ISIG | termios.IEXTEN)
    keys[6][termios.VMIN], keys[6][termios.VTIME] = 1, 0
    termios.tcsetattr(terminal, termios.TCSADRAIN, keys)
    try:
        yield
    finally:
        with contextlib.suppress(termios.error):
            termios.tcsetattr(terminal, termios.TCSADRAIN, usual)


class Lines:
    """Bytes that come in pieces, a line at a time."""

    def __init__(self) -> None:
        self.rest = b""

    def take(self, given: bytes) -> list[str]:
        """The lines that are whole; at the end of the stream what is left."""
        *whole, self.rest = (self.rest + given).split(b"\n")
        if not given and self.rest:
            whole, self.rest = [self.rest], b""
        return [line.decode("utf-8", "replace") for line in whole]


class Session:
    """A `live` that runs, and the terminal before it."""

    def __init__(self, live: subprocess.Popen[bytes], answers: Answers, has_end: bool) -> None:
        assert live.stdin is not None
        self.live, self.commands = live, live.stdin
        self.answers = answers
        # Whether the end of the input ends the night.
        self.has_end = has_end
        self.editor = LineEditor()
        self.screen = Screen(OUTPUT)
        self.chosen = selectors.DefaultSelector()

    def run(self) -> int:
        """Runs to the end of `live`, and answers its status."""
        self.chosen.register(INPUT, selectors.EVENT_READ, self._read_keys)
        self._follow(self.live.stdout, self._tell_answer)
        if self.live.stderr is None:
            self.screen.draw(self.editor)
        else:
            self._follow(self.live.stderr, self._tell)
        while any(key != INPUT for key in self.chosen.get_map()):
            for key, _ in self.chosen.select():
                key.data()
        status = self.live.wait()
        self.screen.leave()
        return status if status >= 0 else 128 - status

    def _follow(self, stream: IO[bytes] | None, tell: Callable[[str], None]) -> None:
        """Has each line of a stream told as it comes."""
        assert stream is not None
        lines, number = Lines(), stream.fileno()

        def read() -> None:
            given = os.read(number, 65_536)
            for line in lines.take(given):
                tell(line)
            if not given:
                self.chosen.unregister(number)

        self.chosen.register(number, selectors.EVENT_READ, read)

    def _tell(self, line: str) -> None:
        self.screen.tell(line, self.editor)
        if line.startswith(_STARTED):
            self.screen.draw(self.editor)

    def _tell_answer(self, line: str) -> None:
        for told in self._answers(line):
            self._tell(told)
        if line.startswith("end "):
            # The last line of `help`.
            for told in HELP:
                self._tell(told)

    def _answers(self, line: str) -> list[str]:
        try:
            return self.answers.tell(line)
        except Exception:
            # A fault in the words is no reason to lose the keyboard.
            return [line]

    def _read_keys(self) -> None:
        try:
            given = os.read(INPUT, 4096)
        except OSError:
            given = b""
        if not given:
            # The terminal has gone: the light holds.
            self.chosen.unregister(INPUT)
            self._end_input()
            return
        for entered in self.editor.take(given):
            if isinstance(entered, EndOfInput):
                self._end_typing()
            else:
                self._enter(entered)
        self.screen.draw(self.editor)

    def _enter(self, typed: str) -> None:
        self.screen.enter(typed)
        line = live_line(typed)
        self.answers.ask(line)
        with contextlib.suppress(OSError, ValueError):
            self.commands.write(line.encode() + b"\n")

    def _end_typing(self) -> None:
        if self.has_end:
            self._end_input()
        else:
            self._tell("type end to end the night")

    def _end_input(self) -> None:
        with contextlib.suppress(OSError):
            self.commands.close()


def _is_in_front() -> bool:
    """Whether what is typed comes to this process: in the background nobody types."""
    try:
        return os.tcgetpgrp(INPUT) == os.getpgrp()
    except OSError:
        return True


def _run_plain(words: list[str]) -> NoReturn:
    """Becomes the program itself."""
    os.execvp(program(), [program(), "live", *words])


def main(words: list[str]) -> int:
    for each in _IGNORED:
        signal.signal(each, signal.SIG_IGN)
    # Whoever starts this program again, by CUEPLAYER or below it, has the program itself.
    os.environ["CUEPLAYER_TERMINAL"] = "plain"
    if not _is_in_front() or {"--help", "-h"} & set(words):
        _run_plain(words)
    live = subprocess.Popen(
        [program(), "live", *words],
        stdin=subprocess.PIPE,
        stdout=subprocess.PIPE,
        stderr=subprocess.PIPE if os.isatty(ERROR) else None,
        bufsize=0,
    )
    signal.signal(signal.SIGTERM, lambda *_: live.terminate())
    with _each_key(INPUT):
        return Session(live, Answers(_show(words)), "--end-with-input" in words).run()
