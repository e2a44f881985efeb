"""What stands between the keeper of a night and its terminal: the keeper waits for none of it.

Each is a process of its own, which ends with the keeper, however that ends.
"""

import contextlib
import os
import signal
import time
from collections.abc import Callable

from cueplayer_tools.keeper.folder import Folder
from cueplayer_tools.keeper.growth import Follower
from cueplayer_tools.keeper.processes import Starter
from cueplayer_tools.keeper.streams import write_all
from cueplayer_tools.keeper.waiting import wait_for

# For how long what was told last may still be shown at the end, in seconds.
_LAST = 0.2
# How often it is looked whether a terminal gives what is typed to this process.
_LOOK_EVERY = 0.5
_MOST = 65_536


def _is_in_front() -> bool:
    """Whether the terminal gives what is typed to this process, and not to a shell that runs it
    with &."""
    with open("/proc/self/stat", "rb") as file:
        fields = file.read().rpartition(b") ")[2].split()
    return fields[2] == fields[5]


def _is_nothing(file: int) -> bool:
    """Whether what is written to a file is for nobody."""
    return os.path.samestat(os.fstat(file), os.stat(os.devnull))


class Helpers:
    """The processes that show the replies, tell what happens, and take what is typed."""

    def __init__(self, folder: Folder, starter: Starter) -> None:
        self.folder, self.starter = folder, starter
        self.numbers: list[int] = []
        # Nothing is ever written here: it ends with the keeper.
        self.life, self.own_life = os.pipe()
        self.told, self.telling = os.pipe()
        os.set_blocking(self.telling, False)
        if not _is_nothing(1):
            self._start(self._show, folder.size("replies"))
        # Where standard output is the same it shows the replies.
        if not (_is_nothing(2) or os.path.samestat(os.fstat(1), os.fstat(2))):
            self._start(self._tell, 0)
        if os.isatty(0):
            self._start(self._type, 0)
        os.close(self.told)
        os.close(self.life)

    def _start(self, run: Callable[[int], None], start: int) -> None:
        number = self.starter.fork()
        if number:
            self.numbers.append(number)
            return
        try:
            os.close(self.own_life)
            os.close(self.telling)
            run(start)
        except OSError:
            # Nobody reads what is shown.
            pass
        finally:
            os._exit(0)

    def _is_over(self, seconds: float = 0.0) -> bool:
        """Whether the keeper is gone; it may wait so long for that."""
        return bool(wait_for([self.life], seconds))

    def _show(self, start: int) -> None:
        """Shows the replies from here on."""
        follower = Follower(self.folder.file("replies"), start)
        while not self._is_over():
            if content := follower.read():
                write_all(1, content)
            else:
                follower.growth.wait(1.0, self.life)

    def _tell(self, _: int) -> None:
        while content := os.read(self.told, _MOST):
            write_all(2, content)

    def _type(self, _: int) -> None:
        """Hands on what is typed. In the background there is nothing to read."""
        line = b""
        while os.isatty(0) and not self._is_over():
            if not _is_in_front():
                self._is_over(_LOOK_EVERY)
            elif 0 not in wait_for([0, self.life], _LOOK_EVERY):
                # What ends without its line end is no line.
                line = b""
            elif _is_in_front():
                line = self._hand_on(line, os.read(0, _MOST))

    def _hand_on(self, before: bytes, typed: bytes) -> bytes:
        """Hands on the lines that are whole; what is left."""
        if not typed and not before and os.isatty(0) and not self._is_over():
            write_all(2, b"type end to end the night\n")
            self._is_over(_LOOK_EVERY)
        *lines, rest = (before + typed).split(b"\n")
        for line in lines:
            if not self.folder.give(os.fsdecode(line)):
                write_all(2, b"no live plays: nothing was sent; type it again\n")
        return rest

    def tell(self, line: str) -> None:
        """Tells a line on standard error. Where that is not read it is dropped."""
        with contextlib.suppress(OSError):
            os.write(self.telling, os.fsencode(line) + b"\n")

    def leave(self) -> None:
        """Ends them, once what was told last is shown."""
        time.sleep(_LAST)
        for number in self.numbers:
            with contextlib.suppress(OSError):
                os.kill(number, signal.SIGTERM)
