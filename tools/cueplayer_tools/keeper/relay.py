"""What a start says that comes each second: a start that is refused as the one before says nothing
new, and the replies of a night stay short.

Standard error of such a start comes through a process of its own, which does not end with the
keeper: what `live` tells once it plays goes on to the replies.
"""

import contextlib
import os
import re
import select
import signal

from cueplayer_tools.keeper.folder import Folder, open_file
from cueplayer_tools.keeper.streams import write_all

_BEGUN = re.compile(rb"^end ends the night", re.MULTILINE)
_NUMBERS = re.compile(rb"\d+")
# More than a start says; how long what it said last may be on the way, in milliseconds.
_MOST, _LAST = 65_536, 1000


def _lines_in(told: bytes) -> set[bytes]:
    """What two starts have in common that were refused for the same reason."""
    return set(_NUMBERS.sub(b"#", told).splitlines())


class Relay:
    """A pipe to the replies of a night, which holds back what is known."""

    def __init__(self, folder: Folder, known: bytes) -> None:
        self.folder, self.known = folder, _lines_in(known)
        self.source, self.sink = os.pipe()
        # The process, once it was started.
        self.number = 0

    def carry(self) -> int:
        """Hands on what comes, to the end of the last one that writes, in a process of its own,
        whose status this is: 0 where nothing was new."""
        os.setsid()
        signal.pthread_sigmask(signal.SIG_SETMASK, {signal.SIGTERM, signal.SIGPIPE})
        # What the keeper has open would not end with it.
        nothing = os.open(os.devnull, os.O_RDWR)
        for file, place in ((self.source, 3), (nothing, 0), (nothing, 1), (nothing, 2)):
            os.dup2(file, place)
        os.closerange(4, os.sysconf("SC_OPEN_MAX"))
        held, is_begun = b"", False
        while part := os.read(3, _MOST):
            held += part
            is_begun = is_begun or len(held) >= _MOST or _BEGUN.search(held) is not None
            if is_begun:
                self._write(held)
                held = b""
        is_new = is_begun or not _lines_in(held) <= self.known
        if is_new and held:
            self._write(held)
        return int(is_new)

    def _write(self, told: bytes) -> None:
        # Where the disk is full, what is told later may find room again.
        with contextlib.suppress(OSError):
            file = open_file(self.folder.file("replies"), os.O_WRONLY | os.O_APPEND)
            try:
                write_all(file, told)
            finally:
                os.close(file)

    def has_news(self) -> bool:
        """Waits until all was handed on, a second at most; whether something was new."""
        with contextlib.suppress(OSError):
            descriptor = os.pidfd_open(self.number)
            poll = select.poll()
            poll.register(descriptor, select.POLLIN)
            poll.poll(_LAST)
            os.close(descriptor)
            number, status = os.waitpid(self.number, os.WNOHANG)
            return number == 0 or status != 0
        return True
