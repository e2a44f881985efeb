"""The pipes of a `live` to those who write its record and its replies, and who those are.

`live` has the reading ends open too: a writer that dies breaks no pipe, and the next one finds in
it what the last one has not written.
"""

import contextlib
import fcntl
import os
import stat

from cueplayer_tools.keeper.folder import Folder, open_file

# Which number each has in `live`, all below 10: the script that starts the program hands none of
# these on to what else it runs. The file of the record is shared with its writer, and so its lock.
FILE, RECORD, REPLIES, RECORD_END, REPLIES_END = 3, 4, 5, 6, 7
# What a system grants to everybody, if it grants that much.
_ROOM = 1 << 20
# What Linux calls F_SETPIPE_SZ. Above all numbers of `live`.
_SET_ROOM, _ABOVE = 1031, 10


def _new_pipe() -> tuple[int, int]:
    source, sink = os.pipe()
    with contextlib.suppress(OSError):
        fcntl.fcntl(sink, _SET_ROOM, _ROOM)
    os.set_blocking(source, False)
    return source, sink


def _open_record(path: str, may_make: bool) -> tuple[int | None, bool]:
    """The file of a record, and whether it was made; none where that is not a regular file: the
    program tells why."""
    is_made = not os.path.lexists(path)
    try:
        file = open_file(path, os.O_WRONLY | (os.O_CREAT if may_make else 0))
    except OSError:
        return None, False
    if stat.S_ISREG(os.fstat(file).st_mode):
        return file, is_made
    os.close(file)
    return None, False


class Pipes:
    """Those of a `live` that is about to be started, in its keeper."""

    def __init__(self, folder: Folder, may_make: bool) -> None:
        path = folder.file("record")
        self.file, is_made = _open_record(path, may_make)
        self.record = None if self.file is None else _new_pipe()
        self.replies = _new_pipe()
        self.environment = {"CUEPLAYER_OUTPUT_PIPE": f"/dev/fd/{REPLIES}"}
        if self.file is not None:
            self.environment["CUEPLAYER_RECORD_PIPE"] = f"/dev/fd/{RECORD}"
            self.environment["CUEPLAYER_RECORD_FILE"] = f"/dev/fd/{FILE}"
        if is_made:
            self.environment["CUEPLAYER_RECORD_MADE"] = path

    def _numbered(self) -> list[tuple[int, int]]:
        """Each descriptor with its number in `live`."""
        found = [(self.replies[1], REPLIES), (self.replies[0], REPLIES_END)]
        if self.record is not None and self.file is not None:
            found += [(self.file, FILE), (self.record[1], RECORD), (self.record[0], RECORD_END)]
        return found

    def become(self) -> None:
        """Gives this process the numbers of `live`."""
        above = [
            (fcntl.fcntl(file, fcntl.F_DUPFD_CLOEXEC, _ABOVE), number)
            for file, number in self._numbered()
        ]
        for file, number in above:
            os.dup2(file, number)

    def close(self) -> None:
        for file, _ in self._numbered():
            os.close(file)


def _ends(live: int) -> dict[int, os.stat_result]:
    """The pipes that a `live` has by these numbers, where it was started with both ends, and is a
    program already."""
    found: dict[int, os.stat_result] = {}
    try:
        with open(f"/proc/{live}/environ", "rb") as file:
            if f"CUEPLAYER_OUTPUT_PIPE=/dev/fd/{REPLIES}".encode() not in file.read().split(b"\0"):
                return found
    except OSError:
        return found
    for place, end in ((RECORD, RECORD_END), (REPLIES, REPLIES_END)):
        with contextlib.suppress(OSError):
            there, other = os.stat(f"/proc/{live}/fd/{place}"), os.stat(f"/proc/{live}/fd/{end}")
            if stat.S_ISFIFO(there.st_mode) and os.path.samestat(there, other):
                found[place] = there
    return found


class LivePipes:
    """Those of a `live` that runs, whoever has started it."""

    def __init__(self, live: int) -> None:
        self.live, self.found = live, _ends(live)

    def is_writer(self, place: int, number: int) -> bool:
        """Whether this process writes what comes by that pipe."""
        pipe = self.found.get(place)
        try:
            return pipe is not None and os.path.samestat(os.stat(f"/proc/{number}/fd/0"), pipe)
        except OSError:
            return False

    def find_writer(self, place: int) -> int | None:
        """The process that writes what comes by a pipe; None where none does."""
        numbers = (int(name) for name in os.listdir("/proc") if name.isdigit())
        return next((each for each in numbers if self.is_writer(place, each)), None)

    def open_end(self, place: int) -> int:
        """The end of a pipe that a writer reads."""
        end = RECORD_END if place == RECORD else REPLIES_END
        return open_file(f"/proc/{self.live}/fd/{end}", os.O_RDONLY)

    def open_file(self) -> int:
        """The file of the record: the one that is open in `live`, with its lock, where the system
        hands that out; else the same file without it."""
        try:
            return _descriptor_of(self.live, FILE)
        except (OSError, ImportError, AttributeError):
            return open_file(f"/proc/{self.live}/fd/{FILE}", os.O_WRONLY)


def find_writers(live: int) -> list[int]:
    """The processes that write for a `live`."""
    pipes = LivePipes(live)
    found = (pipes.find_writer(place) for place in pipes.found)
    return [each for each in found if each is not None]


def _descriptor_of(number: int, place: int) -> int:
    """A descriptor of another process."""
    import ctypes

    library = ctypes.CDLL(None, use_errno=True)
    process = os.pidfd_open(number)
    try:
        # What Linux calls pidfd_getfd.
        file = int(library.syscall(438, process, place, 0))
    finally:
        os.close(process)
    if file < 0:
        raise OSError(ctypes.get_errno(), "no descriptor")
    return file
