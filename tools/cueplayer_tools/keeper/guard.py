"""What the keeper of a night does about a `live` that runs and does not play, and about a record
that breaks off or loses its name."""

import contextlib
import os
import signal
import time
from collections.abc import Callable

from cueplayer_tools.keeper.consoles import Others
from cueplayer_tools.keeper.folder import Folder
from cueplayer_tools.keeper.folder_again import FolderAgain
from cueplayer_tools.keeper.own_record import FULL, why_not
from cueplayer_tools.keeper.players import find_writer
from cueplayer_tools.keeper.processes import Process, Starter
from cueplayer_tools.keeper.service import Service
from cueplayer_tools.keeper.spare import Spare
from cueplayer_tools.keeper.stand_still import LOOK_EVERY, Watch
from cueplayer_tools.keeper.states import name_of
from cueplayer_tools.keeper.streams import Failure, reason
from cueplayer_tools.keeper.unread import Unread
from cueplayer_tools.keeper.writer_watch import WriterWatch
from cueplayer_tools.keeper.writers import NO_ROOM

# How often it is told at most that ticks were late, if no later than before, in seconds.
_LATE_EVERY = 60.0
# How fast a record grows, in bytes a minute.
_EACH_MINUTE = 33_000


class Guard:
    """Looks at the `live` that plays."""

    def __init__(
        self, folder: Folder, starter: Starter, spare: Spare, folder_again: FolderAgain,
        unread: Unread, tell: Callable[[str], None],
    ) -> None:  # fmt: skip
        self.folder, self.starter, self.spare = folder, starter, spare
        self.folder_again = folder_again
        self.unread, self.tell = unread, tell
        self.watch: Watch | None = None
        self.writers: WriterWatch | None = None
        self.told_late, self.latest = -_LATE_EVERY, 0.0
        # Whether it was told that `live` stands still, that the record does not grow, that it was
        # cut, that it has lost its name, and that its disk is full.
        self.is_still = self.is_broken = self.is_cut = self.is_lost = self.is_full = False
        # Whether lines are missing in a record that does not grow, if `live` dies.
        self.is_stale = False
        # Whether it was told that a look failed.
        self.is_blind = False
        self.others = Others(folder, starter.words)
        self.service = Service()

    def look(self, live: Process, may_end: bool) -> None:
        """Looks at it, as often as once in a tenth of a second; one that stands still is ended
        where that may be. Who sees nothing keeps the night all the same."""
        try:
            self._look(live, may_end)
            self.is_blind = False
        except (OSError, ValueError) as fault:
            if not self.is_blind:
                self.is_blind = True
                why = reason(fault) if isinstance(fault, OSError) else str(fault)
                told = f"cannot see how live (process {live.number}) is: {why}"
                self.tell(f"{told}; if it dies, the night goes on all the same")

    def _look(self, live: Process, may_end: bool) -> None:
        watch = self.watch
        if watch is None or watch.number != live.number:
            self._begin(live.number)
        elif time.monotonic() - watch.looked >= LOOK_EVERY:
            self.starter.reap()
            watch.look()
            if watch.ticks:
                self.service.tick(self._words(watch.number))
            self._judge_name(watch)
            self._judge_files(watch.number)
            if self.writers is not None:
                self.writers.look()
            self._judge_process(watch, may_end)
            self._judge_record(watch)
            self._judge_room(watch)

    def _words(self, number: int) -> str:
        """How the night is, in a few words."""
        spare = self.spare.process
        stands = "no spare stands by" if spare is None else f"a spare stands by ({spare.number})"
        lasting = (
            (self.is_full, "its disk is full"),
            (self.is_broken, "its record does not grow"),
            (self.is_lost, "its record has lost its name"),
            (self.is_cut, "its record was cut"),
        )
        told = [words for is_so, words in lasting if is_so]
        return "; ".join([f"live (process {number}) plays", stands, *told])

    def _begin(self, number: int) -> None:
        """Begins to look at another one."""
        watch = Watch(self.folder, number)
        if self.watch is not None:
            self.watch.close()
        self.watch = watch
        self.writers = WriterWatch(self.starter, number, self.tell)
        self.is_still = self.is_broken = self.is_cut = self.is_lost = self.is_stale = False
        self.spare.is_held = False

    def _judge_process(self, watch: Watch, may_end: bool) -> None:
        live = f"live (process {watch.number})"
        if watch.stands_still() and not self.is_still:
            self.is_still = True
            if may_end:
                self._end(live, watch.number)
            else:
                told = f"{live} stands still, and no spare can go on: `kill -CONT {watch.number}`"
                self.tell(f"{told}, or put back the record or the show")
        elif self.is_still and not watch.stands_still():
            self.is_still = False
            self.tell(f"{live} runs again")
        elif watch.was_late() and self._is_news(watch):
            self.told_late, self.latest = watch.looked, watch.late
            self.tell(f"{live} made no tick for {watch.late:.1f} s: is the machine too busy?")

    def _is_news(self, watch: Watch) -> bool:
        """Whether it is told that ticks were late."""
        return watch.late > self.latest or watch.looked - self.told_late >= _LATE_EVERY

    def _end(self, live: str, number: int) -> None:
        """Ends it, so that the spare goes on. A press that it has not read is not carried out
        when nobody expects it any more."""
        self.tell(f"{live} stands still: it is ended, so that the night goes on")
        taken = os.fsdecode(self.unread.take_all().replace(b"\n", b";"))
        if taken:
            self.tell(f"{live} has not read for a second; taken back: {taken} press again")
        with contextlib.suppress(OSError):
            os.kill(number, signal.SIGKILL)

    def _judge_name(self, watch: Watch) -> None:
        if watch.record.is_named():
            if self.is_lost:
                self.is_lost = self.spare.is_held = False
                self.tell("the record has its name again")
            return
        try:
            told = watch.record.put_back()
        except OSError as fault:
            if not self.is_lost:
                self.is_lost = self.spare.is_held = True
                # It would refuse a record that has another name.
                self.spare.put_down()
                told = f"the record has lost its name, and live (process {watch.number}) plays on"
                self.tell(f"{told}: {why_not(fault)}; no spare stands by")
            return
        self.tell(told)

    def _judge_files(self, live: int) -> None:
        spare = self.spare.process
        told = self.folder_again.look(live, None if spare is None else spare.number)
        if told is not None:
            self.tell(told)
        if (told := self.others.look()) is not None:
            self.tell(told)

    def _judge_record(self, watch: Watch) -> None:
        if watch.was_cut and not self.is_cut:
            self.is_cut = True
            told = "the record was cut, or written over, by something else than live"
            self.tell(f"{told}: if live dies, the night may not go on in it")
        if watch.is_broken() and not self.is_broken:
            self.is_broken = True
            told = f"the record does not grow, and live (process {watch.number}) plays on"
            self.tell(f"{told}: {self._why_broken(watch.number)}")
        elif self.is_broken and watch.looked == watch.grown:
            self.is_broken = self.is_stale = self.spare.is_held = False
            self.tell("the record grows again")

    def _why_broken(self, number: int) -> str:
        """Why a record does not grow, and what is done about it."""
        writer = find_writer(number)
        name = "" if writer is None else name_of(writer)
        if name.startswith(NO_ROOM):
            self.is_stale = True
            why = os.strerror(int(name[len(NO_ROOM) :]))
            return f"{why}; make room: what is missing comes then"
        if writer is not None:
            return "the disk stalls, or is slow; a spare waits for it"
        # It would go on where the record ends, and behind an `end` that is not in it.
        self.is_stale = self.spare.is_held = True
        self.spare.put_down()
        told = "nothing writes it any more, as behind a full disk: no spare stands by"
        return f"{told}; make room, and if live dies, go to its cue"

    def _room(self, watch: Watch) -> int:
        """How many bytes of room the record has on a disk that is full; very many on another."""
        free, kept = watch.record.room()
        return kept if free < FULL else 1 << 30

    def _judge_room(self, watch: Watch) -> None:
        room = self._room(watch)
        if room < 1 << 30 and not self.is_full:
            self.is_full = True
            minutes = room // _EACH_MINUTE
            told = "the disk of the night is full: make room; the record has some for about"
            self.tell(f"{told} {minutes} minutes")
        elif self.is_full and room == 1 << 30:
            self.is_full = False
            self.tell("the disk of the night has room again")

    def age(self, number: int) -> float:
        """How many seconds are missing at the end of the record of a `live` that is gone; 0 where
        it has all lines, as far as is known."""
        watch = self.watch
        if watch is None or watch.number != number or not self.is_stale:
            return 0.0
        return watch.looked - watch.grown

    def let_go_on(self, number: int) -> None:
        """Lets those go on that write for a `live` that is gone, where one was stopped."""
        if self.writers is not None and self.watch is not None and self.watch.number == number:
            self.writers.let_go_on()

    def put_back(self, number: int, make_folder: Callable[[], None]) -> str | None:
        """Has the name of a record lead to it whose `live` is gone; what was done, and None where
        nothing was to be done."""
        watch = self.watch
        if watch is None or watch.number != number or watch.record.is_named():
            return None
        try:
            return watch.record.put_back(make_folder)
        except (OSError, Failure) as fault:
            return f"the record has lost its name: {why_not(fault)}"

    def copy_record(self, number: int) -> str:
        """Has a copy take the place of the record of a `live` that is gone; what was done."""
        if self.watch is None or self.watch.number != number:
            return "the night waits for it"
        try:
            self.watch.record.copy()
        except OSError as fault:
            return f"the night waits for it, and has no copy: {reason(fault)}"
        return "the night goes on in a copy of it"
