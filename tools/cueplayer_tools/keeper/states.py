"""What the system tells of a process."""

import os


def state_of(number: int) -> str:
    """The state of a process, as /proc/PID/stat has it; nothing where it is not to be had."""
    try:
        with open(f"/proc/{number}/stat", "rb") as file:
            return file.read().rpartition(b") ")[2][:1].decode("ascii", "replace")
    except OSError:
        return ""


def name_of(number: int) -> str:
    """What the system calls a process; nothing where it is not to be had."""
    try:
        with open(f"/proc/{number}/comm", encoding="ascii", errors="replace") as file:
            return file.read().rstrip("\n")
    except OSError:
        return ""


def time_of(number: int) -> float:
    """How much of a processor it has taken, in seconds; 0 where that is not to be had. One that has
    ended has it up to its status."""
    try:
        with open(f"/proc/{number}/stat", "rb") as file:
            fields = file.read().rpartition(b") ")[2].split()
        return (int(fields[11]) + int(fields[12])) / os.sysconf("SC_CLK_TCK")
    except (OSError, ValueError, IndexError):
        return 0.0
