"""Locks of a night's files, and the numbers of processes in them."""

import fcntl
import os
import signal

from cueplayer_tools.keeper.folder import Folder, open_file, take_free_lock

# How often an alarm comes again: one that came just before the wait began is not heard.
_ALARM_EVERY = 0.01


def take_lock(file: int, patience: float) -> bool:
    """Takes the lock of an open file, behind those who wait for it already; whether that came
    within so many seconds."""
    waiting = [file]

    def give_up(*_: object) -> None:
        if waiting:
            raise TimeoutError

    if take_free_lock(file):
        return True
    before = signal.signal(signal.SIGALRM, give_up)
    signal.pthread_sigmask(signal.SIG_UNBLOCK, {signal.SIGALRM})
    signal.setitimer(signal.ITIMER_REAL, patience, _ALARM_EVERY)
    try:
        fcntl.flock(file, fcntl.LOCK_EX)
        return True
    except TimeoutError:
        return False
    finally:
        waiting.clear()
        signal.setitimer(signal.ITIMER_REAL, 0)
        signal.signal(signal.SIGALRM, before)


def await_lock(folder: Folder, name: str, patience: float) -> bool:
    """Waits until nobody has the lock of a file; whether that was within so many seconds."""
    try:
        file = open_file(folder.file(name), os.O_RDONLY)
    except OSError:
        return True
    try:
        return take_lock(file, patience)
    finally:
        os.close(file)


def is_locked(folder: Folder, name: str) -> bool:
    """Whether a process has the lock of a file. Of those who only ask none sees another."""
    try:
        file = open_file(folder.file(name), os.O_RDONLY)
    except OSError:
        return False
    try:
        fcntl.flock(file, fcntl.LOCK_SH | fcntl.LOCK_NB)
        return False
    except OSError as fault:
        return isinstance(fault, BlockingIOError)
    finally:
        os.close(file)


def find_holder(path: str) -> int | None:
    """The number of the process that took the lock of a file, which may be gone while another
    holds it; None where nobody has it, or the system does not tell."""
    try:
        found = os.stat(path)
        with open("/proc/locks", encoding="ascii") as file:
            locks = [line.split() for line in file]
    except OSError:
        return None
    place = f"{os.major(found.st_dev):02x}:{os.minor(found.st_dev):02x}:{found.st_ino}"
    # Its number, FLOCK, ADVISORY, WRITE, the process, the file. Who waits for one has an arrow.
    held = (int(words[4]) for words in locks if words[1] == "FLOCK" and words[5] == place)
    return next((number for number in held if number > 0), None)


def write_number(file: int, number: int) -> None:
    """Writes the number of a process over what is in a file: on a full disk there is room for it,
    and only where it is shorter is the file empty for a moment."""
    content = b"%d\n" % number
    if os.fstat(file).st_size > len(content):
        os.ftruncate(file, 0)
    os.pwrite(file, content, 0)
