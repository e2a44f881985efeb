"""Telling lines without waiting for whoever reads them."""

import os
import queue
import threading
from collections.abc import Callable
from typing import TextIO

MOST_LINES = 1_000


class Teller:
    """Writes lines, and waits for nobody: a terminal that is stopped or has gone, or a disk that
    is full or slow, holds up no night. Lines that find no room are dropped, and counted."""

    def __init__(
        self,
        stream: TextIO,
        prefix: str = "",
        most: int = MOST_LINES,
        tell_dropped: Callable[[str], None] | None = None,
    ) -> None:
        """Keeps up to `most` lines for the stream. How many were dropped is told here, or by
        `tell_dropped`, once the stream takes lines again."""
        self.stream = stream
        self.prefix = prefix
        self.most = most
        self.tell_dropped = tell_dropped or self._write
        # A signal's handler may tell a line while the same thread is telling one.
        self.lines: queue.SimpleQueue[str] = queue.SimpleQueue()
        self.lock = threading.RLock()
        self.dropped = 0
        self.printer = threading.Thread(target=self._print, daemon=True)
        self.printer.start()

    def __call__(self, text: str) -> None:
        if self.lines.qsize() < self.most:
            self.lines.put(text)
            return
        with self.lock:
            self.dropped += 1

    def _write(self, text: str) -> None:
        try:
            # One write, so that no other's line falls into it.
            self.stream.write(f"{self.prefix}{text}\n")
            self.stream.flush()
        except (OSError, ValueError):
            # Nobody reads any more; the work goes on.
            pass

    def _print(self) -> None:
        while text := self.lines.get():
            self._write(text)
            if self.dropped:
                with self.lock:
                    dropped, self.dropped = self.dropped, 0
                self.tell_dropped(f"{dropped} lines dropped: they were not read in time")

    def leave(self) -> None:
        """What was told is written, if it can be at once."""
        self.lines.put("")
        self.printer.join(1.0)

    def is_stuck(self) -> bool:
        """Whether the stream takes nothing: then the interpreter could not close it at its end."""
        return self.printer.is_alive()


def leave_all(status: int, *tellers: Teller) -> int:
    """The status of a tool that ends, behind what its tellers still can tell."""
    for teller in tellers:
        teller.leave()
    if any(teller.is_stuck() for teller in tellers):
        os._exit(status)
    return status
