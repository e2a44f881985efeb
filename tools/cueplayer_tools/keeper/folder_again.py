"""What somebody takes out of the folder of a night while it is played, or the folder itself: it is
put back, so that the night is commanded, and goes on where `live` dies. The record is another's
matter.
"""

import contextlib
import os
import stat

from cueplayer_tools.keeper.aside import put_aside
from cueplayer_tools.keeper.folder import Folder, open_file, take_free_lock
from cueplayer_tools.keeper.lines import lead_to, make_lines
from cueplayer_tools.keeper.locks import write_number
from cueplayer_tools.keeper.new_folder import make_files, write_words
from cueplayer_tools.keeper.show_copy import COPY, is_of_record, put_file, read_show_file
from cueplayer_tools.keeper.streams import Failure


def _is_same(path: str, other: str | int) -> bool:
    """Whether a name leads to the file of another name, or to one that is open."""
    try:
        return os.path.samestat(os.stat(path), os.stat(other))
    except OSError:
        return False


def _mark_of(path: str) -> tuple[int, ...]:
    """What changes where a file does."""
    try:
        found = os.stat(path)
    except OSError:
        return ()
    return found.st_dev, found.st_ino, found.st_size, found.st_mtime_ns


class FolderAgain:
    """What a folder has to have."""

    def __init__(self, folder: Folder, words: list[str], lock: int | None) -> None:
        self.folder, self.words = folder, words
        # The show that is played, once that is known, and its copy as it was seen last.
        self.show: bytes | None = None
        self.copy: tuple[int, ...] = ()
        # That of the keeper, as long as it runs.
        self.lock = lock
        # Whether the folder was gone at the last look, and what was missing in it: who removes a
        # folder may be at it.
        self.is_gone = False
        self.missing: set[str] = set()

    def forget_show(self) -> None:
        """Another show may be played from now on."""
        self.show = None

    def _learn_show(self) -> None:
        """Keeps the show that is played, once the record says which one that is."""
        path = self.folder.file(COPY)
        if self.show is None and is_of_record(self.folder, path):
            self.copy, self.show = _mark_of(path), read_show_file(path)

    def _has_other_show(self) -> bool:
        """Whether the copy of the show is gone, or another one."""
        mark = _mark_of(self.folder.file(COPY))
        if self.show is None or mark == self.copy:
            return False
        is_same = read_show_file(self.folder.file(COPY)) == self.show
        self.copy = mark if is_same else self.copy
        return not is_same

    def make(self) -> None:
        """Makes the folder. OSError or Failure where that cannot be."""
        os.mkdir(self.folder.path)
        make_files(self.folder)
        write_words(self.folder, self.words)
        self._put_show()
        self._put_lock()

    def make_lines(self) -> bool:
        """Has a FIFO there for a `live` that is about to be started; whether it is another one."""
        try:
            return make_lines(self.folder)
        except FileExistsError:
            with contextlib.suppress(OSError, Failure):
                put_aside(self.folder, "in", "replaced")
                return make_lines(self.folder)
        except (OSError, Failure):
            # What is started tells why it has none.
            pass
        return False

    def _put_show(self) -> None:
        if self.show is not None:
            put_file(self.folder, COPY, self.show)

    def _put_lock(self) -> None:
        lock = open_file(self.folder.file("lock"), os.O_RDWR | os.O_CREAT)
        if take_free_lock(lock):
            write_number(lock, os.getpid())
            self.lock = lock
        else:
            os.close(lock)

    def _put_number(self, name: str, number: int) -> None:
        file = open_file(self.folder.file(name), os.O_RDWR | os.O_CREAT)
        try:
            write_number(file, number)
        finally:
            os.close(file)

    def _is_missing(self, name: str, live: int) -> bool:
        path = self.folder.file(name)
        if name == "in":
            own = f"/proc/{live}/fd/0"
            with contextlib.suppress(OSError):
                return stat.S_ISFIFO(os.stat(own).st_mode) and not _is_same(path, own)
            return False
        if name == "lock":
            return self.lock is not None and not _is_same(path, self.lock)
        return self._has_other_show() if name == COPY else not os.path.lexists(path)

    def _put(self, name: str, live: int, spare: int) -> str:
        """Puts it back; what is told of that."""
        kept = ""
        path = self.folder.file(name)
        if name in ("in", COPY) and os.path.lexists(path) and not os.path.islink(path):
            kept = put_aside(self.folder, name, "replaced")
        if name == "in":
            lead_to(self.folder, live)
        elif name == "lock":
            self._put_lock()
        elif name == COPY:
            self._put_show()
        elif name == "night":
            write_words(self.folder, self.words)
        elif name == "replies":
            os.close(open_file(self.folder.file(name), os.O_WRONLY | os.O_CREAT))
        else:
            self._put_number(name, live if name == "pid" else spare)
        other = f" (what was in its place is kept as {kept})" if kept else ""
        return f"{name}{other}"

    def _put_folder(self) -> bool:
        """Makes the folder where it was gone at the last look too; whether it was made."""
        was_gone = self.is_gone
        self.is_gone = not os.path.lexists(self.folder.path)
        if self.is_gone and was_gone:
            with contextlib.suppress(OSError):
                os.mkdir(self.folder.path)
                self.is_gone = False
                return True
        return False

    def look(self, live: int, spare: int | None) -> str | None:
        """Puts back what is missing now and was at the last look; what was put back, None where
        nothing was. What has no room comes later."""
        self._learn_show()
        is_made = self._put_folder()
        names = ["in", "night", "replies", "lock", COPY, "pid", *(["spare"] if spare else [])]
        missing = [name for name in names if self._is_missing(name, live)]
        done: list[str] = []
        for name in missing:
            if is_made or name in self.missing:
                with contextlib.suppress(OSError):
                    told = self._put(name, live, spare or 0)
                    done += [] if self._is_missing(name, live) else [told]
        self.missing = set(missing)
        if is_made:
            return "the folder of the night was removed, and is made again"
        if not done:
            return None
        return f"gone from the folder of the night, and put back: {', '.join(done)}"
