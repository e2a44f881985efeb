"""Processes that write the record and the replies of a night for its `live`.

One waits for the disk, as `live` may not, and for room on it: what could not be written stays in
the pipe. A file has some room kept behind its end, for a disk that is full. It does not end with
the keeper, and no signal ends it that may be ignored.
"""

import contextlib
import errno
import fcntl
import os
import signal
import time
from collections.abc import Callable

from cueplayer_tools.keeper.folder import Folder, has_end, open_file, take_free_lock
from cueplayer_tools.keeper.pipes import RECORD
from cueplayer_tools.keeper.players import find_number, is_live
from cueplayer_tools.keeper.streams import reason
from cueplayer_tools.keeper.waiting import wait_for

# How much room is kept behind the end of the record, which grows by 2 MB an hour, and of the
# replies, in bytes.
RESERVE, _REPLIES_RESERVE = 1 << 20, 1 << 16
# How much is moved at once; how often a disk that is full is tried, and for how long once `live` is
# gone, if the night goes on and if it has ended, in seconds.
_PART, _EVERY = 1 << 16, 0.05
_PATIENCE, _LAST_PATIENCE = 0.5, 3600.0
_SYNC_EVERY = 1.0
_LAST_LINES, _MOST_TOLD = 4096, 80
# Above the three standard streams.
_ABOVE = 3
# What Linux calls FALLOC_FL_KEEP_SIZE.
_KEEP_SIZE = 1
# Python has it from 3.10 on, where it was built for it.
_SPLICE: Callable[..., int] | None = getattr(os, "splice", None)
_IGNORED = ("SIGINT", "SIGHUP", "SIGQUIT", "SIGTERM", "SIGTSTP", "SIGTTIN", "SIGTTOU", "SIGPIPE")
# What says that a file system knows no splice.
_NO_SPLICE = (errno.EINVAL, errno.ENOSYS, errno.EOPNOTSUPP)


# What the writer of a record is called in the list of processes, and what that begins with while
# the system refuses to write, with the number of its reason behind it.
_NAME, NO_ROOM = "record-writer", "record-wait-"
# The same of the one of the replies.
_REPLIES, NO_ANSWERS = "replies-writer", "replies-w-"


def _call_self(name: str) -> None:
    """The name that the system has for this process."""
    with contextlib.suppress(OSError):
        with open("/proc/self/comm", "w", encoding="ascii") as file:
            file.write(name)


class Reserve:
    """Room on the disk behind the end of a file."""

    def __init__(self, size: int) -> None:
        self.size, self.until = size, 0

    def keep(self, file: int) -> None:
        """Has at least half of it there, where the system gives it."""
        found, disk = os.fstat(file), os.fstatvfs(file)
        end, missing = found.st_size, self.size - 512 * found.st_blocks + found.st_size
        # A try that fails may cost what is there already.
        if end + self.size // 2 < self.until or disk.f_bavail * disk.f_frsize < missing:
            return
        try:
            # A Python may have been built without it; a hardened system may refuse its memory.
            import ctypes

            allocate = ctypes.CDLL(None).fallocate64
            allocate.argtypes = [ctypes.c_int, ctypes.c_int, ctypes.c_int64, ctypes.c_int64]
            if allocate(file, _KEEP_SIZE, end, self.size) == 0:
                self.until = end + self.size
        except (ImportError, OSError, AttributeError, MemoryError):
            return


class RecordWriter:
    """Writes what comes by standard input to the record, which is standard output."""

    def __init__(self, folder: Folder) -> None:
        self.folder = folder
        self.reserve = Reserve(RESERVE)
        # What was taken from the pipe, where the system cannot move it.
        self.held = b""
        self.is_spliced = True
        # The number of the reason why the system refuses to write.
        self.fault: int | None = None
        # Where the file ended behind what was written last.
        self.end: int | None = None

    def _size(self) -> int:
        """How many bytes the file has. Lines behind those of `live` are nobody's: no spare would go
        on behind them."""
        size = os.fstat(1).st_size
        if self.end is None or size <= self.end:
            return size
        file = open_file("/proc/self/fd/1", os.O_RDONLY)
        try:
            stray = os.pread(file, _LAST_LINES, self.end)
        finally:
            os.close(file)
        os.ftruncate(1, self.end)
        # It may have read them.
        self._end_spare()
        told = stray[:_MOST_TOLD].decode("ascii", "replace").strip().replace("\n", "; ")
        self.folder.note(f"taken out of the record, as live has not written it: {told}")
        return self.end

    def _move(self) -> bool:
        """Moves what has come to the file; whether the pipe has ended. OSError where that cannot
        be; nothing is lost then, nor where this process is killed."""
        if self.is_spliced and _SPLICE is not None:
            try:
                size = self._size()
                moved = _SPLICE(0, 1, _PART, offset_dst=size)
                self.end = size + moved
                return moved == 0
            except OSError as fault:
                if fault.errno not in _NO_SPLICE:
                    raise
                self.is_spliced = False
        if not self.held:
            self.held = os.read(0, _PART)
        is_over = not self.held
        while self.held:
            size = self._size()
            written = os.pwrite(1, self.held, size)
            self.held, self.end = self.held[written:], size + written
        return is_over

    def _note_room(self, fault: OSError | None) -> None:
        number = None if fault is None else fault.errno
        if number != self.fault:
            self.fault = number
            _call_self(_NAME if number is None else f"{NO_ROOM}{number}")

    def run(self) -> None:
        _call_self(_NAME)
        is_over = False
        while not is_over:
            wait_for([0], 1.0)
            try:
                is_over = self._move()
                self._note_room(None)
                self.reserve.keep(1)
            except BlockingIOError:
                continue
            except OSError as fault:
                self._note_room(fault)
                if self._has_no_sender() and not self._finish():
                    return
                time.sleep(_EVERY)
        if self._has_end():
            # The room behind its end is of no use any more.
            os.ftruncate(1, os.fstat(1).st_size)

    def _has_end(self) -> bool:
        """Whether the night in the record has ended."""
        file = open_file("/proc/self/fd/1", os.O_RDONLY)
        try:
            start = max(os.fstat(file).st_size - _LAST_LINES, 0)
            return has_end(os.pread(file, _LAST_LINES, start))
        finally:
            os.close(file)

    def _has_no_sender(self) -> bool:
        """Whether `live` is gone."""
        import select

        poll = select.poll()
        poll.register(0, 0)
        return any(event & select.POLLHUP for _, event in poll.poll(0))

    def _try(self, seconds: float, every: float) -> bool:
        """Tries for so long to write what is left; whether that is done."""
        until = time.monotonic() + seconds
        while True:
            try:
                if self._move():
                    return True
            except OSError:
                if time.monotonic() > until:
                    return False
                time.sleep(every)

    def _finish(self) -> bool:
        """What is done where `live` is gone and its last lines have no room: they are tried for a
        while; a spare then goes on without them, with the commands among them. Behind an `end` none
        goes on. Whether there is more to do."""
        if not take_free_lock(1) or self._try(_PATIENCE, _EVERY):
            return False
        left = self._left()
        if any(line.lower().split()[1:2] == [b"end"] for line in left):
            self._end_spare()
            self._try(_LAST_PATIENCE, 1.0)
            return False
        commands = [b" ".join(line.split()[1:]) for line in left if not line.startswith(b"!")]
        given = [os.fsdecode(each) for each in commands if each.lower() != b"tick"]
        for each in given:
            self.folder.give(each)
        told = f"the disk is full, and the last {len(left)} lines are not in the record"
        self.folder.note(f"{told}; commands among them, given again: {len(given)}")
        return False

    def _end_spare(self) -> None:
        """Ends the one that stands by: the keeper has another take its place while `live` plays."""
        spare = find_number(self.folder, "spare")
        if spare is None or not is_live(self.folder, spare):
            return
        with contextlib.suppress(OSError):
            # One that has just gone on is the `live` of this writer.
            if not os.path.samestat(os.stat(f"/proc/{spare}/fd/{RECORD}"), os.fstat(0)):
                os.kill(spare, signal.SIGKILL)

    def _left(self) -> list[bytes]:
        """The lines that are not in the record."""
        content, self.is_spliced = self.held, False
        with contextlib.suppress(OSError):
            while part := os.read(0, _PART):
                content += part
        self.held = content
        return content.split(b"\n")[:-1]


class RepliesWriter:
    """Writes what comes by standard input to the replies, whichever file has that name."""

    def __init__(self, folder: Folder) -> None:
        self.folder, self.reserve = folder, Reserve(_REPLIES_RESERVE)
        self.fault: int | None = None

    def _note_room(self, fault: int | None) -> None:
        if fault != self.fault:
            self.fault = fault
            _call_self(_REPLIES if fault is None else f"{NO_ANSWERS}{fault}")

    def _write(self, content: bytes) -> bytes:
        """Writes it; what is left of it."""
        try:
            file = open_file(self.folder.file("replies"), os.O_WRONLY | os.O_APPEND | os.O_CREAT)
        except OSError as fault:
            self._note_room(fault.errno)
            return content
        try:
            content = content[os.write(file, content) :]
            self._note_room(None)
            self.reserve.keep(file)
        except OSError as fault:
            self._note_room(fault.errno)
        finally:
            os.close(file)
        return content

    def run(self) -> None:
        _call_self(_REPLIES)
        held, ended = b"", 0.0
        while not ended or (held and time.monotonic() < ended + _PATIENCE):
            if held:
                time.sleep(_EVERY)
            elif not ended:
                wait_for([0], 1.0)
            # A pipe that is full drops answers, and tells how many.
            if not ended and len(held) < _PART:
                with contextlib.suppress(BlockingIOError):
                    part = os.read(0, _PART)
                    held += part
                    ended = 0.0 if part else time.monotonic()
            held = self._write(held) if held else held


def _become(source: int, file: int | None) -> None:
    """Has this process read one descriptor and write the other, and nothing else open."""
    os.setsid()
    for name in _IGNORED:
        signal.signal(signal.Signals[name], signal.SIG_IGN)
    nothing = os.open(os.devnull, os.O_RDWR)
    # None of them may be where another one is to be.
    given = (source, nothing if file is None else file, nothing)
    above = [fcntl.fcntl(each, fcntl.F_DUPFD_CLOEXEC, _ABOVE) for each in given]
    for place, each in enumerate(above):
        os.dup2(each, place)
    os.closerange(3, os.sysconf("SC_OPEN_MAX"))


def _is_only_one() -> bool:
    """Whether nobody else writes what comes by this pipe; then nobody will, as long as this process
    runs. `live` has its end of the pipe open too, and so the lock is of another opening."""
    with contextlib.suppress(OSError):
        own = open_file("/proc/self/fd/0", os.O_RDONLY)
        os.dup2(own, 0)
        os.close(own)
        return take_free_lock(0)
    os.set_blocking(0, False)
    return True


def _sync(life: int, writer: int) -> None:
    """Has the record on the disk once a second, as long as its writer runs. The file is opened
    anew each time, so that its lock is not held."""
    _call_self("record-sync")
    os.dup2(life, 0)
    os.closerange(1, os.sysconf("SC_OPEN_MAX"))
    while not wait_for([0], _SYNC_EVERY):
        with contextlib.suppress(OSError):
            file = os.open(f"/proc/{writer}/fd/1", os.O_RDONLY)
            try:
                os.fdatasync(file)
            finally:
                os.close(file)


def _start_sync() -> None:
    writer, (life, own_life) = os.getpid(), os.pipe()
    with contextlib.suppress(OSError):
        if os.fork() == 0:
            try:
                os.close(own_life)
                _sync(life, writer)
            finally:
                os._exit(0)
    os.close(life)


def write_record(folder: Folder, source: int, file: int) -> None:
    """Is the writer of a record, to its end, in a process of its own."""
    _become(source, file)
    if _is_only_one():
        _start_sync()
        RecordWriter(folder).run()


def write_replies(folder: Folder, source: int) -> None:
    """Is the writer of the replies, to its end, in a process of its own."""
    _become(source, None)
    if _is_only_one():
        RepliesWriter(folder).run()


def start_writer(fork: Callable[[], int], write: Callable[[], None]) -> int:
    """The number of the process that writes."""
    number = fork()
    if number:
        return number
    try:
        write()
    except OSError as fault:
        with contextlib.suppress(OSError):
            os.write(2, os.fsencode(f"cueplayer-night: a writer failed: {reason(fault)}\n"))
    finally:
        os._exit(0)
