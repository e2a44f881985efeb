"""The show of a night: its folder has a copy, which all restarts and spares play, whatever becomes
of the file that was named."""

import contextlib
import hashlib
import os
import re
import stat

from cueplayer_tools.keeper.folder import Folder, open_file

# The copy, the one that an update left, and the cue in which the night begins anew.
COPY, NEXT, BEGIN = "show", "show.next", "begin"
# The program reads no more of a show than one byte more than it takes.
_MOST = (1 << 20) + 1
_HEAD = re.compile(rb"! cueplayer record 1: show ([0-9a-f]{64})\n")


def read_show_file(path: str) -> bytes | None:
    """What stands in the file of a show; None where it is none, or cannot be read."""
    try:
        file = open_file(path, os.O_RDONLY)
    except OSError:
        return None
    try:
        content = b""
        is_file = stat.S_ISREG(os.fstat(file).st_mode)
        while is_file and len(content) < _MOST:
            part = os.read(file, _MOST - len(content))
            if not part:
                return content
            content += part
    except OSError:
        pass
    finally:
        os.close(file)
    return None


def put_file(folder: Folder, name: str, content: bytes) -> None:
    """Gives a file of the folder this content: at any moment there is the old one, or the new."""
    path = folder.file(f"{name}.part")
    file = open_file(path, os.O_WRONLY | os.O_CREAT | os.O_TRUNC)
    try:
        with open(file, "wb", closefd=False) as opened:
            opened.write(content)
        os.fsync(file)
    finally:
        os.close(file)
    os.rename(path, folder.file(name))


def is_of_record(folder: Folder, path: str) -> bool:
    """Whether the record is a night of the show in this file."""
    head, content = _HEAD.match(folder.read("record", 0, 128)), read_show_file(path)
    if head is None or content is None:
        return False
    return hashlib.sha256(content).hexdigest().encode() == head[1]


def begin_cue(folder: Folder) -> str | None:
    """The cue in which the night begins anew, nothing before the first one; None where it does
    not."""
    if folder.has_record() or not folder.is_file(BEGIN):
        return None
    return folder.read(BEGIN, 0, 64).decode("ascii", "replace").strip()


def find_show(folder: Folder, named: str) -> str:
    """The file of the show that the night plays: once it has begun its copy, unless the record is
    one of the file that was named; the program tells why that cannot be read."""
    copy = folder.file(COPY)
    is_begun = folder.has_record() or folder.is_file(BEGIN)
    if folder.has_record():
        # Not before: what `live` records comes a moment behind its start.
        with contextlib.suppress(OSError):
            os.unlink(folder.file(BEGIN))
    if is_begun and folder.is_file(COPY):
        if is_of_record(folder, copy) or not is_of_record(folder, named):
            return copy
    return copy if _copy(folder, named) else named


def _copy(folder: Folder, named: str) -> bool:
    """Copies the show; whether that could be."""
    content = read_show_file(named)
    if content is None:
        return False
    try:
        if read_show_file(folder.file(COPY)) != content:
            put_file(folder, COPY, content)
    except OSError:
        # The disk may be full: then the file that was named is played.
        return False
    return True
