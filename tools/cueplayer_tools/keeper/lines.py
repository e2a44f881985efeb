"""The FIFO of a night, by which lines come to its `live`, and its name."""

import contextlib
import os

from cueplayer_tools.keeper.aside import put_aside
from cueplayer_tools.keeper.folder import Folder
from cueplayer_tools.keeper.players import find_live


def lead_to(folder: Folder, live: int) -> None:
    """Has the name lead to the FIFO that this process reads. The file system has no name of it any
    more, and cannot give it one; the system has one for what a process has open."""
    path = folder.file("in")
    with contextlib.suppress(FileNotFoundError):
        os.unlink(f"{path}.part")
    os.symlink(f"/proc/{live}/fd/0", f"{path}.part")
    os.rename(f"{path}.part", path)


def follow(folder: Folder, live: int) -> None:
    """Has the name lead there by this process, where it does by another one."""
    if os.path.islink(folder.file("in")):
        with contextlib.suppress(OSError):
            lead_to(folder, live)


def make_lines(folder: Folder) -> bool:
    """Has a FIFO there: the one that a `live` reads which plays, or else a new one; whether that
    was to be done. OSError where it cannot be."""
    if folder.is_fifo():
        return False
    live = find_live(folder)
    if live is not None:
        if os.path.lexists(folder.file("in")) and not os.path.islink(folder.file("in")):
            put_aside(folder, "in", "replaced")
        lead_to(folder, live)
        return True
    if os.path.islink(folder.file("in")):
        os.unlink(folder.file("in"))
    os.mkfifo(folder.file("in"))
    return True
