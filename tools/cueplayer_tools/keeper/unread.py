"""Lines that lie unread in the FIFO of a night, and when they are taken back."""

import fcntl
import os
import termios
import time

from cueplayer_tools.keeper.folder import Folder, open_file

# For how long a line may lie there, in seconds.
_LATE = 1.0
# How much a pipe has room for.
_ALL = 65_536


class Unread:
    """What its keeper sees in the FIFO of a night."""

    def __init__(self, folder: Folder) -> None:
        self.folder = folder
        # Since when something lay there at each look, and whether that was taken back.
        self.since: float | None = None
        self.is_taken_back = False

    def _is_there(self) -> bool:
        """Whether something lies there. Who asks is no reader: where no `live` is, no line is
        taken."""
        file = self.folder.open_fifo()
        if file is None:
            return False
        try:
            return any(fcntl.ioctl(file, termios.FIONREAD, bytes(4)))
        except OSError:
            return False
        finally:
            os.close(file)

    def take_all(self) -> bytes:
        """Takes back what lies there."""
        try:
            file = open_file(self.folder.file("in"), os.O_RDONLY)
        except OSError:
            return b""
        try:
            return os.read(file, _ALL)
        except OSError:
            return b""
        finally:
            os.close(file)

    def forget(self) -> None:
        """Begins to look anew."""
        self.since, self.is_taken_back = None, False

    def take_late(self) -> bytes | None:
        """Takes back what `live` has not read for a second: a press is not carried out when nobody
        expects it. None where there is no such thing."""
        now = time.monotonic()
        if not self._is_there():
            self.forget()
        elif self.since is None:
            self.since = now
        elif now - self.since >= _LATE and not self.is_taken_back:
            self.is_taken_back = True
            return self.take_all()
        return None
