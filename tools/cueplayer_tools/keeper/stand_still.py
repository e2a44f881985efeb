"""Whether `live` plays, as its keeper sees it: by the growth of its record, and by its process.

A tick is recorded each 25 ms. A record that does not grow is no proof that the light stands: the
disk may be full, or stall, while `live` plays on, and who ended it then would harm the light. So it
stands still only where its process has not run either: that is stopped (T), waits for a disk or
for swapped memory (D), or sleeps and is not woken, and takes no time of a processor.
"""

import time

from cueplayer_tools.keeper.folder import Folder
from cueplayer_tools.keeper.own_record import OwnRecord
from cueplayer_tools.keeper.states import state_of

# How often it is looked at, and for how long it may stand, in seconds: a spare then goes on before
# receivers let go, 2.5 s behind the last packet.
LOOK_EVERY, STANDS = 0.1, 1.0
# One that a signal has stopped goes on by no means of its own.
_STOPPED = 0.5
# A look that comes so late says that the keeper itself stood still, and maybe the whole machine.
_LATE = 0.2
# From when on it is told that ticks were late, and that a record does not grow.
_LATE_TICKS, _BROKEN = 0.5, 0.8


def work_of(number: int) -> bytes:
    """What changes whenever a process runs: the time that it had of a processor. That in
    /proc/PID/stat is in hundredths of a second, and `live` takes three thousandths a second."""
    try:
        with open(f"/proc/{number}/schedstat", "rb") as file:
            return file.read().partition(b" ")[0]
    except OSError:
        pass
    try:
        with open(f"/proc/{number}/status", "rb") as file:
            return file.read().partition(b"\nvoluntary_ctxt_switches:")[2]
    except OSError:
        return b""


class Watch:
    """Looks at a `live` that has begun."""

    def __init__(self, folder: Folder, number: int) -> None:
        self.number, self.record = number, OwnRecord(folder, number)
        # When it was looked at, when the record grew, when the process ran, and when it last ran
        # or waited for a processor.
        self.looked = self.grown = self.moved = self.ran = time.monotonic()
        self.size, self.work = -1, b""
        # For how long ticks were late until this look, in seconds.
        self.late = 0.0
        # Whether a tick was seen at this look.
        self.ticks = False
        # Whether it became shorter, and since when a signal has it stopped.
        self.was_cut = False
        self.stopped: float | None = None

    def look(self) -> None:
        """Notes what is to be seen now."""
        now = time.monotonic()
        # Who stood still itself gives a full second more.
        is_own_stall = now - self.looked > LOOK_EVERY + _LATE
        size, work, state = self.record.size(), work_of(self.number), state_of(self.number)
        has_grown = size != self.size
        self.was_cut = self.was_cut or size < self.size
        self.stopped = None if state != "T" or is_own_stall else self.stopped or now
        has_moved = has_grown or (work != self.work and state not in ("T", "t", "D"))
        self.ticks = has_moved and self.size >= 0
        self.late = now - self.moved if has_moved else 0.0
        if is_own_stall:
            # What was not looked at stands in the record.
            self.late = self.record.longest_pause(self.size) if 0 <= self.size < size else 0.0
        if has_grown or is_own_stall:
            self.grown = now
        if has_moved or is_own_stall:
            self.moved = now
        # A machine that gives it no processor gives the spare none either.
        if has_moved or is_own_stall or state == "R":
            self.ran = now
        self.looked, self.size, self.work = now, size, work

    def stands_still(self) -> bool:
        """Whether neither the record grew nor the process ran for a second, or for half of one
        where it is stopped."""
        patience = STANDS if self.stopped is None else _STOPPED
        return self.looked - max(self.grown, self.ran) >= patience

    def is_broken(self) -> bool:
        """Whether the record does not grow though the process runs."""
        return self.looked - self.grown >= _BROKEN and self.looked - self.ran < _LATE_TICKS

    def was_late(self) -> bool:
        """Whether it has run again only now."""
        return self.late >= _LATE_TICKS

    def close(self) -> None:
        self.record.close()
