"""The spare of a night: the process that stands by, and the next one in its place."""

import contextlib
import os
import re
import signal
import time
from collections.abc import Callable

from cueplayer_tools.keeper.catching_up import CatchingUp
from cueplayer_tools.keeper.endings import Pace
from cueplayer_tools.keeper.folder import Folder
from cueplayer_tools.keeper.locks import find_holder, is_locked
from cueplayer_tools.keeper.players import find_spare, is_live
from cueplayer_tools.keeper.processes import LOOK_EVERY, Process, Starter
from cueplayer_tools.keeper.stand_still import STANDS
from cueplayer_tools.keeper.states import name_of, state_of, time_of
from cueplayer_tools.keeper.waiting import wait_for

_GOES_ON = re.compile(rb"^record: .*, goes on at ", re.MULTILINE)
# For how long a spare may take to go on once nobody else has the record, in seconds; from when on
# it is told that somebody has.
_PATIENCE, _TOLD = 3.0, 1.0
# For how long it may take up a record that is long, in seconds: a start would begin with that anew.
_LONGEST = 120.0
# In so many seconds there is a tick in the record of one that plays.
_SOME_TICKS = 0.2
# What the system says of a process that was stopped or is traced, and how long one may stay so that
# is to go on, in seconds.
_STOPPED, _LONGEST_STOP = ("T", "t"), 0.3
# What a spare that is refused took of a processor is at most this share of the time.
_SHARE = 0.1
# How much of the replies is looked through at once; a line is shorter than what is looked at twice.
_PART, _OVERLAP = 1 << 20, 4096


class Spare:
    """Has a process stand by while `live` plays."""

    def __init__(self, folder: Folder, starter: Starter, tell: Callable[[str], None]) -> None:
        """Takes hold of the one that another keeper has started."""
        self.folder, self.starter, self.tell = folder, starter, tell
        found = find_spare(folder)
        self.process = None if found is None else Process(folder, found, False)
        # Where the replies stood as it was started.
        self.mark = folder.size("replies")
        # What the last spare said if it was refused; None where it was not.
        self.refused: bytes | None = None
        # When the latest was started, and how long the one that refused took for it.
        self.began = self.took = 0.0
        self.pace = Pace()
        # Whether none is to stand by; since when the one that does was seen to be stopped.
        self.is_held = False
        self.stopped: float | None = None

    def keep(self) -> None:
        """Has one stand by. One that went is replaced, and so is one that refused, but not while
        reading the record again and again would take a processor from the light."""
        if self.process is not None:
            self._end_stopped(self.process.number)
            if self.process.has_ended():
                self._end()
            elif self.refused is not None and not self._may_refuse():
                self.refused = None
                self.tell("a spare stands by again")
        elif self._may_start():
            self.pace.count()
            self.began = time.monotonic()
            self.mark = self.folder.size("replies")
            self.process = self.starter.start("spare", "--spare", known=self.refused)

    def _may_start(self) -> bool:
        """Whether another one may be started now."""
        is_due = time.monotonic() >= self.began + self.took / _SHARE
        return is_due and not self.is_held and not self.pace.left()

    def _end_stopped(self, number: int) -> None:
        """Ends it where it has been stopped for a second: it would not go on."""
        now = time.monotonic()
        if state_of(number) not in _STOPPED:
            self.stopped = None
        elif self.stopped is None:
            self.stopped = now
        elif now - self.stopped >= STANDS:
            with contextlib.suppress(OSError):
                os.kill(number, signal.SIGKILL)

    def _may_refuse(self) -> bool:
        """Whether the one that was started may still refuse the record, as the last one did."""
        return time.monotonic() < self.began + 2 * self.took + _PATIENCE

    def _end(self) -> None:
        """Tells how it went while `live` plays."""
        process = self.take()
        if process is None:
            return
        # Its life may have been long, and what it took of a processor short.
        took = time_of(process.number)
        status, number = process.status(), process.number
        if status in range(1, 8):
            self.took = took
            if self.refused is None or process.has_news:
                self.refused = self.folder.read("replies", self.mark, _PART)
                told = "no spare stands by, as the lines above say: if live dies, it is started"
                self.tell(f"{told} again, and may be refused too")
        elif status != 0:
            self.tell(f"the spare (process {number}) is gone: another stands by")

    def _has_told(self) -> bool:
        """Whether it told that it goes on. `live` has written to the same replies up to its
        end."""
        self.mark = self.folder.place_in("replies", self.mark)
        while part := self.folder.read("replies", self.mark, _PART):
            if _GOES_ON.search(part):
                return True
            if len(part) < _PART:
                break
            self.mark += _PART - _OVERLAP
        return False

    def _plays(self, number: int) -> bool:
        """Whether the record grows under its lock: what it told may be gone with the replies."""
        size = self.folder.size("record")
        time.sleep(_SOME_TICKS)
        is_its = find_holder(self.folder.file("record")) == number
        return is_its and self.folder.size("record") > size

    def _is_held_by_another(self, number: int) -> bool:
        """Whether the record's lock is not this spare's. A process that is gone may not be named
        where it left the lock to another."""
        record = self.folder.file("record")
        return is_locked(self.folder, "record") and find_holder(record) != number

    def find_stranger(self, gone: int) -> int | None:
        """A process that has the record's lock, though it neither plays the night nor writes for a
        `live` that is gone: any that may read a file can take its lock."""
        found = find_holder(self.folder.file("record"))
        own = {gone, os.getpid(), *self.starter.writers}
        own |= set() if self.process is None else {self.process.number}
        if found is None or found in own or name_of(found).startswith("record-"):
            return None
        is_there = state_of(found) not in ("", "Z") and not is_live(self.folder, found)
        return found if is_there else None

    def await_light(self, gone: int) -> bool:
        """Waits until it goes on with the night, or has ended as the night has; whether it goes
        on. One that does neither is ended, unless it still takes up the record; but what wrote that
        for a `live` that is gone may wait for the disk, and so does the spare."""
        began = until = time.monotonic()
        is_told = False
        works = CatchingUp(0 if self.process is None else self.process.number)
        while self.process is not None and time.monotonic() < until + _PATIENCE:
            has_ended = self.process.has_ended()
            if works.was_so() and time.monotonic() < began + _LONGEST:
                until = time.monotonic()
            if self._has_told():
                # The next one stands by at once.
                self.pace = Pace()
                return True
            if has_ended or not self._lets_go_on(self.process.number, began):
                break
            if self._is_held_by_another(self.process.number):
                if self.find_stranger(gone) is not None:
                    break
                until = time.monotonic()
                if until - began > _TOLD and not is_told:
                    is_told = True
                    told = "the record is still written for a live that is gone"
                    self.tell(f"{told}: the disk stalls, or is slow; the spare waits for it")
            wait_for(self.process.descriptors(), LOOK_EVERY / 2)
        else:
            if self.process is not None and self._plays(self.process.number):
                return True
        self.put_down()
        return False

    def _lets_go_on(self, number: int, began: float) -> bool:
        """Has it go on where it was stopped; whether it may still do so."""
        if state_of(number) not in _STOPPED:
            return True
        with contextlib.suppress(OSError):
            os.kill(number, signal.SIGCONT)
        return time.monotonic() < began + _LONGEST_STOP

    def put_down(self) -> None:
        """Ends it."""
        if self.process is not None:
            self.process.kill()
            self.process = None

    def take(self) -> Process | None:
        """Hands out the process that goes on: it stands by no more."""
        process, self.process = self.process, None
        return process
