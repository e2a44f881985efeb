"""The record that a `live` writes, whatever becomes of its name.

A spare and a restart take up the file that the name `record` leads to. So the name is put back:
from the file itself, which a second name keeps, or as a copy once nothing writes it any more.
"""

import contextlib
import os
import re
from collections.abc import Callable

from cueplayer_tools.keeper.aside import put_aside
from cueplayer_tools.keeper.folder import Folder, open_file
from cueplayer_tools.keeper.streams import Failure, reason

# A second name of the record, which no pattern of a shell finds.
SECOND = ".record"
# How much room there is on a disk that is full, in bytes.
FULL = 1 << 16
_PART = 1 << 20
_TICK = re.compile(rb"(?m)^(\d{1,15}) tick$")
# More than a line has.
_LINE = 256


def _file_of(live: int) -> str:
    """Where the record's file is in a `live`. One that is no program yet has none: what it has open
    is its keeper's."""
    with open(f"/proc/{live}/environ", "rb") as file:
        words = dict(each.partition(b"=")[::2] for each in file.read().split(b"\0"))
    name = os.path.basename(os.fsdecode(words.get(b"CUEPLAYER_RECORD_FILE", b"")))
    if not name.isdigit():
        raise OSError(0, "no record")
    return f"/proc/{live}/fd/{name}"


class OwnRecord:
    """The file, open to be read, and the folder in which it has its name."""

    def __init__(self, folder: Folder, live: int) -> None:
        self.folder = folder
        self.file = self._open(live)
        self.place = os.open(folder.path, os.O_PATH | os.O_DIRECTORY)
        self._keep_second_name()

    def _open(self, live: int) -> int | None:
        with contextlib.suppress(OSError):
            return open_file(_file_of(live), os.O_RDONLY)
        with contextlib.suppress(OSError):
            return open_file(self.folder.file("record"), os.O_RDONLY)
        return None

    def _keep_second_name(self) -> None:
        """Not each file system has second names."""
        path = self.folder.file(SECOND)
        if self.file is None or self._leads_here(path):
            return
        with contextlib.suppress(OSError):
            with contextlib.suppress(FileNotFoundError):
                os.unlink(path)
            self._link(path)

    def _link(self, path: str) -> None:
        # With the descriptor of a folder, Python follows the link in /proc.
        os.link(f"/proc/self/fd/{self.file}", path, src_dir_fd=self.place)

    def _leads_here(self, path: str) -> bool:
        if self.file is None:
            return True
        try:
            return os.path.samestat(os.stat(path), os.fstat(self.file))
        except OSError:
            return False

    def size(self) -> int:
        """How many bytes it has."""
        return self.folder.size("record") if self.file is None else os.fstat(self.file).st_size

    def longest_pause(self, start: int) -> float:
        """For how many seconds there was no tick behind its first bytes, at most."""
        if self.file is None:
            return 0.0
        content = os.pread(self.file, _PART, max(start - _LINE, 0)).partition(b"\n")[2]
        moments = [int(moment) for moment in _TICK.findall(content)]
        pauses = (after - before for before, after in zip(moments, moments[1:]))
        return max(pauses, default=0) / 1000

    def room(self) -> tuple[int, int]:
        """How many bytes are free on its disk, and how many are kept for it behind its end."""
        if self.file is None:
            return 1 << 30, 0
        disk, found = os.fstatvfs(self.file), os.fstat(self.file)
        kept = 512 * found.st_blocks - found.st_size
        return disk.f_bavail * disk.f_frsize, max(kept, 0)

    def is_named(self) -> bool:
        """Whether its name leads to it."""
        return self._leads_here(self.folder.file("record"))

    def put_back(self, make_folder: Callable[[], None] | None = None) -> str:
        """Has its name lead to it again; what was done. Where nothing writes the file any more, its
        folder may be made again, and a copy do for it. OSError where it cannot be done."""
        told = self._put_folder_back(make_folder)
        if self.is_named():
            return told
        path = self.folder.file("record")
        if os.path.lexists(path):
            kept = put_aside(self.folder, "record", "replaced")
            told = f"another file was in the record's place, and is kept as {kept}"
        else:
            told = told or "the record was gone from its place"
        try:
            self._link(path)
        except OSError:
            if make_folder is None:
                raise
            self.copy()
        self._keep_second_name()
        return f"{told}: the record is put back"

    def _put_folder_back(self, make_folder: Callable[[], None] | None) -> str:
        """Where the folder was moved, a link in its place leads there; what was done."""
        if os.path.lexists(self.folder.path):
            return ""
        place = os.readlink(f"/proc/self/fd/{self.place}")
        if not os.path.isdir(place):
            if make_folder is None:
                raise OSError(0, "its folder was removed")
            make_folder()
            return "the folder of the night was removed, and is made again"
        os.symlink(place, self.folder.path)
        return f"the folder of the night was moved: {self.folder.path} is a link to {place} now"

    def copy(self) -> None:
        """Has a copy of it take its name, which nobody has a lock of."""
        if self.file is None:
            return
        path = self.folder.file("record")
        part = open_file(f"{path}.part", os.O_WRONLY | os.O_CREAT | os.O_TRUNC)
        try:
            place, end = 0, os.fstat(self.file).st_size
            while place < end:
                place += os.write(part, os.pread(self.file, _PART, place))
            written = os.fstat(self.file)
            os.utime(part, ns=(written.st_atime_ns, written.st_mtime_ns))
        finally:
            os.close(part)
        os.rename(f"{path}.part", path)

    def close(self) -> None:
        os.close(self.place)
        if self.file is not None:
            os.close(self.file)


def forget_second_name(folder: Folder) -> None:
    """Takes the second name away, as where the night has ended."""
    with contextlib.suppress(OSError):
        os.unlink(folder.file(SECOND))


def why_not(fault: OSError | Failure) -> str:
    """Why a record cannot be put back."""
    why = reason(fault) if isinstance(fault, OSError) else str(fault)
    return f"it cannot be put back: {why}"
