"""The pipe to a running `live`: the lines that were handed on, and those that it never read.

A press that waits in a pipe is carried out whenever its reader goes on, when nobody expects it. So
what `live` has not read within a second is read back, and the operator is told.
"""

import fcntl
import os
import sys
import termios
import time
from collections import deque
from typing import NamedTuple

from cueplayer_tools.line_protocol import MOVES, Refused
from cueplayer_tools.night_folder import NightFolder

# Asks for the whole state of the night.
WHERE = "where"
# An answer takes some milliseconds.
LATE = 1.0
_MOST_IN_PIPE = 65_536


class Given(NamedTuple):
    """A line that was handed on: when, and the word of the page that it came from, if from one."""

    at: float
    line: str
    page: str


class Waiting:
    """The lines that were handed on and have no answer yet. Each gets one, in order."""

    def __init__(self) -> None:
        self.waiting: deque[Given] = deque()

    def oldest(self) -> str | None:
        """The line that the next answer is to: the oldest that waits."""
        return self.waiting[0].line if self.waiting else None

    def oldest_moment(self) -> float:
        """When the oldest line that waits was handed on, by `time.monotonic()`."""
        return self.waiting[0].at

    def oldest_page(self) -> str:
        """The word of the page that the oldest line that waits came from."""
        return self.waiting[0].page

    def take_answered(self) -> str | None:
        """The line that an answer is to. It waits no more."""
        return self.waiting.popleft().line if self.waiting else None

    def is_asked(self) -> bool:
        """Whether a `where` waits for its answer."""
        return any(each.line == WHERE for each in self.waiting)

    def is_moving(self) -> bool:
        """Whether a move waits for its answer."""
        return any(each.line.split()[0] in MOVES for each in self.waiting)

    def forget_asked(self) -> None:
        """The last `where` was answered: what was handed on before it waits no more."""
        while self.is_asked():
            self.waiting.popleft()

    def has_end(self) -> bool:
        """Whether an `end` waits for its answer. Nothing is handed on behind it."""
        return bool(self.waiting) and self.waiting[-1].line == "end"

    def is_late(self) -> bool:
        """Whether a line has waited for its answer for too long."""
        return bool(self.waiting) and time.monotonic() - self.waiting[0].at > LATE

    def _wait(self, line: str, page: str) -> None:
        self.waiting.append(Given(time.monotonic(), line, page))


class LiveInput(Waiting):
    """Standard input of a `live` of one's own, by which lines are handed on."""

    def __init__(self) -> None:
        super().__init__()
        self.theirs, self.ours = os.pipe()
        os.set_blocking(self.ours, False)
        # Opened anew, since not to block is a property of all who share an opened pipe.
        again = f"/proc/self/fd/{self.theirs}"
        self.back = os.open(again, os.O_RDONLY | os.O_NONBLOCK)
        self.is_probed = False

    def close(self) -> None:
        """Nobody reads any more."""
        os.close(self.ours)
        os.close(self.back)

    def give(self, line: str, page: str = "") -> None:
        """Hands on a line, or refuses it: it is never handed on later."""
        if self.stands_still():
            raise Refused("live does not answer: nothing was sent")
        try:
            os.write(self.ours, line.encode() + b"\n")
        except (BlockingIOError, BrokenPipeError) as fault:
            raise Refused("live takes no line now: nothing was sent") from fault
        self._wait(line, page)

    def stands_still(self) -> bool:
        """Whether `live` was seen to read nothing, and has not read since."""
        self.is_probed = self.is_probed and self._unread() > 0
        return self.is_probed

    def _unread(self) -> int:
        """How many bytes `live` has not read yet."""
        return int.from_bytes(fcntl.ioctl(self.back, termios.FIONREAD, bytes(4)), sys.byteorder)

    def _is_unread_late(self) -> bool:
        """Whether the oldest line that was not read yet has waited for too long."""
        unread, oldest = self._unread(), time.monotonic()
        for given, line, _ in reversed(self.waiting):
            if unread <= 0:
                break
            unread, oldest = unread - len(line) - 1, given
        return time.monotonic() - oldest > LATE

    def take_back(self) -> list[str]:
        """Takes back the lines that `live` has not read, where the oldest of them is late."""
        if self.stands_still() or not self._is_unread_late():
            return []
        try:
            unread = os.read(self.back, _MOST_IN_PIPE)
        except BlockingIOError:
            return []
        taken: list[str] = []
        while unread:
            line = self.waiting[-1].line
            if len(line) >= len(unread):
                # The front of this one was read: the rest belongs to it.
                break
            self.waiting.pop()
            taken.append(line)
            unread = unread[: -len(line) - 1]
        # A line without words has no answer. Once it is read, `live` goes on.
        os.write(self.ours, unread + b"\n")
        self.is_probed = True
        return taken[::-1]


class FolderInput(Waiting):
    """The FIFO of a night, by which lines are handed on beside those of others. What is not read
    there whoever keeps the night takes back."""

    def __init__(self, folder: NightFolder) -> None:
        super().__init__()
        self.folder = folder

    def give(self, line: str, page: str = "") -> None:
        """Hands on a line, or refuses it: it is never handed on later."""
        self.folder.give(line)
        self._wait(line, page)

    def is_late(self) -> bool:
        """Whether a line has waited for too long, or no `live` is there."""
        return super().is_late() or self.folder.is_away()

    def stands_still(self) -> bool:
        """Whether `live` reads nothing."""
        return self.folder.stands_still()

    def take_back(self) -> list[str]:
        """Nothing: a line of another would be taken too."""
        return []
