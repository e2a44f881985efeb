"""A file that grows: read from a place on, and waited for by a descriptor of the system."""

import contextlib
import os

from cueplayer_tools.keeper.folder import open_file
from cueplayer_tools.keeper.processes import LOOK_EVERY
from cueplayer_tools.keeper.waiting import wait_for

_MOST = 65_536
# What Linux calls IN_MODIFY.
_IS_WRITTEN = 2


class Growth:
    """A descriptor that is ready once one of these files was written. The system may have none
    left: then there is only looking."""

    def __init__(self, *paths: str) -> None:
        self.descriptor: int | None = None
        try:
            # A Python may have been built without it; a hardened system may refuse its memory.
            import ctypes

            library = ctypes.CDLL(None)
            descriptor = int(library.inotify_init1(os.O_NONBLOCK | os.O_CLOEXEC))
        except (ImportError, OSError, AttributeError, MemoryError):
            return
        if descriptor < 0:
            return
        watch = library.inotify_add_watch
        if any(watch(descriptor, os.fsencode(path), _IS_WRITTEN) < 0 for path in paths):
            os.close(descriptor)
        else:
            self.descriptor = descriptor

    def descriptors(self) -> list[int]:
        return [] if self.descriptor is None else [self.descriptor]

    def take(self) -> None:
        """Forgets what was written up to now."""
        if self.descriptor is not None:
            with contextlib.suppress(OSError):
                os.read(self.descriptor, _MOST)

    def wait(self, seconds: float, *others: int) -> None:
        """Waits until something was written, or another descriptor is ready, or the time is
        over."""
        if self.descriptor is None:
            seconds = min(seconds, LOOK_EVERY)
        wait_for([*self.descriptors(), *others], seconds)
        self.take()

    def close(self) -> None:
        if self.descriptor is not None:
            os.close(self.descriptor)
            self.descriptor = None


class Follower:
    """What comes into a file behind its first bytes."""

    def __init__(self, path: str, start: int) -> None:
        self.path, self.start = path, start
        self.file = open_file(path, os.O_RDONLY)
        self.growth = Growth(path)

    def read(self) -> bytes:
        """What has come since the last call, at most so much at once. A file that was cut is read
        from its beginning."""
        if os.fstat(self.file).st_size < self.start:
            self.start = 0
        try:
            content = os.pread(self.file, _MOST, self.start)
        except OSError:
            return b""
        self.start += len(content)
        return content

    def is_replaced(self) -> bool:
        """Whether the name leads to another file now."""
        try:
            return not os.path.samestat(os.fstat(self.file), os.stat(self.path))
        except OSError:
            return False

    def close(self) -> None:
        os.close(self.file)
        self.growth.close()
