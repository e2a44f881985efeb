"""Which processes play a night, stand by, and keep it, by the files of its folder."""

import contextlib
import os
import stat
import time

from cueplayer_tools.keeper.folder import Folder
from cueplayer_tools.keeper.locks import is_locked
from cueplayer_tools.keeper.streams import Failure

# For how long the number of a process that has a lock may still be missing, and how often it is
# looked for, in seconds.
_PATIENCE, _LOOK_EVERY = 0.2, 0.005


def find_number(folder: Folder, name: str) -> int | None:
    """The number of a process that a file has."""
    line = folder.read(name, 0, 64).partition(b"\n")[0].strip()
    return int(line) if line.isdigit() and not line.startswith(b"0") else None


def is_live(folder: Folder, number: int | None) -> bool:
    """Whether this process plays the night, or stands by: its standard input is the FIFO. That may
    have lost its name."""
    if number is None:
        return False
    own, path = f"/proc/{number}/fd/0", folder.file("in")
    try:
        there = os.stat(own)
        if folder.is_fifo():
            return os.path.samestat(there, os.stat(path))
        gone = f"{os.path.realpath(folder.path)}/in (deleted)"
        return stat.S_ISFIFO(there.st_mode) and os.readlink(own) == gone
    except OSError:
        return False


def _check_seen(folder: Folder, numbers: list[int | None]) -> None:
    """Fails where a process reads the FIFO that is not to be seen, as another user's."""
    for number in numbers:
        try:
            os.stat(f"/proc/{number}/fd/0")
        except PermissionError as fault:
            if folder.has_reader():
                raise folder.hidden(f"/proc/{number}") from fault
        except OSError:
            continue
    until = time.monotonic() + _PATIENCE
    # One that has just ended may still be there, and a keeper looks into the FIFO now and then.
    while folder.has_reader():
        if time.monotonic() > until:
            told = f"a process that cannot be seen from here reads {folder.file('in')}"
            raise Failure(f"{told}: be root to see who plays the night in {folder.path}")
        time.sleep(_LOOK_EVERY)


def find_live(folder: Folder) -> int | None:
    """The process that plays the night. The spare plays it where no other does. Failure where
    that cannot be seen."""
    found, standby = find_number(folder, "pid"), find_number(folder, "spare")
    if is_live(folder, found):
        return found
    for name in os.listdir("/proc"):
        if name.isdigit() and int(name) != standby and is_live(folder, int(name)):
            return int(name)
    if is_live(folder, standby):
        return standby
    _check_seen(folder, [found, standby])
    return None


def find_spare(folder: Folder) -> int | None:
    """The process that stands by."""
    found = find_number(folder, "spare")
    return found if is_live(folder, found) and found != find_live(folder) else None


def has_record_open(folder: Folder, number: int, reads: bool = False) -> bool:
    """Whether a process has the record open, or has it open to read."""
    # A file may be closed meanwhile, and the process be another user's.
    with contextlib.suppress(OSError):
        record = os.stat(folder.file("record"))
        for name in os.listdir(f"/proc/{number}/fd"):
            with contextlib.suppress(OSError, ValueError):
                if os.path.samestat(os.stat(f"/proc/{number}/fd/{name}"), record):
                    if not reads or _is_read(number, name):
                        return True
    return False


def _is_read(number: int, name: str) -> bool:
    with open(f"/proc/{number}/fdinfo/{name}", encoding="ascii") as file:
        flags = int(file.read().partition("flags:")[2].split()[0], 8)
    return flags & os.O_ACCMODE != os.O_WRONLY


def reads_record(folder: Folder, number: int) -> bool:
    """Whether a process has the record open to read it, as the script that starts the program has
    not."""
    return has_record_open(folder, number, True)


def find_writer(live: int) -> int | None:
    """The process that writes the record for `live`: it reads the pipe that `live` was given; None
    where none does."""
    try:
        with open(f"/proc/{live}/environ", "rb") as file:
            words = dict(each.partition(b"=")[::2] for each in file.read().split(b"\0"))
        name = os.path.basename(os.fsdecode(words[b"CUEPLAYER_RECORD_PIPE"]))
        pipe = os.stat(f"/proc/{live}/fd/{name}")
    except (OSError, KeyError):
        return None
    for number in filter(str.isdigit, os.listdir("/proc")):
        # It may end meanwhile, or be another user's.
        with contextlib.suppress(OSError):
            if os.path.samestat(os.stat(f"/proc/{number}/fd/0"), pipe):
                return int(number)
    return None


def await_start(folder: Folder) -> None:
    """Waits until processes that were just started play or stand by, or have ended."""
    until = time.monotonic() + _PATIENCE
    for name in ("pid", "spare"):
        number = find_number(folder, name)
        while os.path.exists(f"/proc/{number}/exe") and not is_live(folder, number):
            if time.monotonic() > until:
                return
            time.sleep(_LOOK_EVERY)


def find_keeper(folder: Folder) -> int | None:
    """The process that keeps the night going, once it has written its number."""
    until = time.monotonic() + _PATIENCE
    while is_locked(folder, "lock"):
        found = find_number(folder, "lock")
        if found is not None or time.monotonic() > until:
            return found
        time.sleep(_LOOK_EVERY)
    return None
