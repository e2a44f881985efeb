"""The folder of a night: its files and its FIFO. Each command reads this: it is short."""

import fcntl
import os
import stat
import time

from cueplayer_tools.keeper.streams import Failure, reason

# `end` and the three ticks behind it are shorter.
_LAST_LINES = 4096
# What a write into a pipe takes whole, or not at all.
MOST_OF_A_LINE = 4096
# The exit status of `status` where it may not look.
UNSEEN = 8


def open_file(path: str, flags: int) -> int:
    """Opens a file, and waits for nobody: the name may be that of a FIFO."""
    return os.open(path, flags | os.O_NONBLOCK | os.O_NOCTTY, 0o600)


def whole_path(name: str) -> str:
    """A path from the root on. Links in it are left as they are."""
    try:
        path = os.path.abspath(name)
    except OSError as fault:
        raise Failure(f"cannot find {name} from here: {reason(fault)}") from fault
    return "/" + path.lstrip("/")


def take_free_lock(file: int) -> bool:
    """Takes the lock of an open file where that is free; whether it was."""
    try:
        fcntl.flock(file, fcntl.LOCK_EX | fcntl.LOCK_NB)
        return True
    except BlockingIOError:
        return False


def user_of(number: int) -> str:
    """Whose a file or a process of this user's number is."""
    import pwd

    try:
        return f"{pwd.getpwuid(number).pw_name}'s"
    except KeyError:
        return f"of the user with the number {number}"


def has_end(content: bytes) -> bool:
    """Whether the last lines of a record are its `end` and the three ticks behind it."""
    *lines, rest = content.lower().split(b"\n")
    last = [line.partition(b" ") for line in lines[-4:]]
    if rest or len(last) < 4 or not all(moment.isdigit() for moment, *_ in last):
        return False
    return last[0][2].startswith(b"end") and all(line[2] == b"tick" for line in last[1:])


class Folder:
    """A folder in which a night is played, was, or is to be."""

    def __init__(self, path: str) -> None:
        self.path = path

    def file(self, name: str) -> str:
        return os.path.join(self.path, name)

    def check_seen(self, status: int, *names: str) -> None:
        """Fails with this status where these files are another user's: then whatever was told of
        the night, as that nothing plays it, would be made up."""
        for name in ("", *names):
            path = self.file(name) if name else self.path
            flags = os.O_WRONLY if name == "in" else os.O_RDONLY
            try:
                os.close(open_file(path, flags))
            except PermissionError as fault:
                raise self.hidden(path, status) from fault
            except OSError:
                # There is none, or no `live` reads it.
                continue

    def hidden(self, path: str, status: int = 1) -> Failure:
        """That it cannot be seen who plays the night, since a file or a process is another's."""
        try:
            owner = user_of(os.stat(path).st_uid)
        except OSError:
            owner = "another user's"
        told = f"{path} is {owner}: who plays the night in {self.path} cannot be seen from here"
        return Failure(f"{told}; be that user, or root", status)

    def has_reader(self) -> bool:
        """Whether a process reads the FIFO."""
        file = self.open_fifo()
        if file is not None:
            os.close(file)
        return file is not None

    def is_file(self, name: str) -> bool:
        return os.path.isfile(self.file(name))

    def size(self, name: str) -> int:
        """How many bytes a file has; 0 where there is none."""
        try:
            return os.stat(self.file(name)).st_size
        except OSError:
            return 0

    def place_in(self, name: str, start: int) -> int:
        """This place in a file that grows; its beginning where somebody has cut or removed that."""
        return start if start <= self.size(name) else 0

    def read(self, name: str, start: int, most: int) -> bytes:
        """What stands in a regular file behind its first bytes; nothing where it cannot be
        read."""
        content = b""
        try:
            file = open_file(self.file(name), os.O_RDONLY)
        except OSError:
            return content
        try:
            while stat.S_ISREG(os.fstat(file).st_mode) and len(content) < most:
                part = os.pread(file, most - len(content), start + len(content))
                if not part:
                    break
                content += part
        except OSError:
            pass
        finally:
            os.close(file)
        return content

    def words(self) -> list[str]:
        """Those of `live`."""
        lines = self.read("night", 0, 1 << 20).split(b"\n")
        return [os.fsdecode(line) for line in (lines if lines[-1] else lines[:-1])]

    def has_record(self) -> bool:
        """Whether a night has begun."""
        return self.is_file("record") and self.size("record") > 0

    def has_ended(self) -> bool:
        """Whether the record ends with its `end` and the three ticks behind it."""
        start = max(self.size("record") - _LAST_LINES, 0)
        return has_end(self.read("record", start, _LAST_LINES))

    def is_fifo(self) -> bool:
        try:
            return stat.S_ISFIFO(os.stat(self.file("in")).st_mode)
        except OSError:
            return False

    def open_fifo(self) -> int | None:
        """The FIFO to write to; None where no `live` reads."""
        try:
            file = open_file(self.file("in"), os.O_WRONLY)
        except OSError:
            return None
        if stat.S_ISFIFO(os.fstat(file).st_mode):
            return file
        os.close(file)
        return None

    def give(self, line: str) -> bool:
        """Writes a line by one write, which is whole or nothing; whether a `live` reads it."""
        content = os.fsencode(line) + b"\n"
        file = self.open_fifo()
        if file is None:
            return False
        try:
            return len(content) <= MOST_OF_A_LINE and os.write(file, content) > 0
        except OSError:
            return False
        finally:
            os.close(file)

    def note(self, text: str) -> str:
        """Writes a line of whoever keeps the night to the replies; that line."""
        line = f"night: {time.strftime('%Y-%m-%d %H:%M:%S')} {text}"
        try:
            file = open_file(self.file("replies"), os.O_WRONLY | os.O_APPEND | os.O_CREAT)
        except OSError:
            return line
        try:
            os.write(file, os.fsencode(line) + b"\n")
        except OSError:
            # A full disk ends no night.
            pass
        finally:
            os.close(file)
        return line
