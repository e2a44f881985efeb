"""A night that is kept going: its `live` is started again where it dies, unless a spare goes on.

It waits for the end of a process by the descriptor of that process, and for lines that lie unread
by one of the FIFO; where the system has none, it looks every 30 ms. The light does not hang on it:
where it is killed, `live` plays on.
"""

import os
import signal
import time
from typing import NamedTuple

from cueplayer_tools.keeper.anew import begin_anew
from cueplayer_tools.keeper.endings import Ending, Pace, is_same
from cueplayer_tools.keeper.folder import Folder, open_file
from cueplayer_tools.keeper.folder_again import FolderAgain
from cueplayer_tools.keeper.growth import Growth
from cueplayer_tools.keeper.guard import Guard
from cueplayer_tools.keeper.helpers import Helpers
from cueplayer_tools.keeper.lines import follow
from cueplayer_tools.keeper.locks import await_lock, take_lock, write_number
from cueplayer_tools.keeper.own_record import forget_second_name
from cueplayer_tools.keeper.players import find_keeper, find_live
from cueplayer_tools.keeper.processes import Process, Starter, find_policy, set_policy
from cueplayer_tools.keeper.spare import Spare
from cueplayer_tools.keeper.stand_still import LOOK_EVERY
from cueplayer_tools.keeper.streams import Failure
from cueplayer_tools.keeper.unread import Unread
from cueplayer_tools.keeper.update import take_update
from cueplayer_tools.keeper.waiting import wait_for

# How often lines are looked for that `live` has not read.
_LOOK_EVERY = 0.03
# For how long the lock of the record or of the night may be another's.
_LOCK_PATIENCE = 1.0
# How long what a `live` said last may be on the way.
_LAST = 0.2
# How much of what a `live` told from its start on is looked at.
_MOST_TOLD = 1 << 20
_IGNORED = ("SIGINT", "SIGHUP", "SIGQUIT", "SIGTSTP", "SIGTTIN", "SIGTTOU", "SIGPIPE")
# The exit status behind SIGTERM.
_TERMINATED = 143


class _Terminated(BaseException):
    """SIGTERM came: the keeper leaves the night as it is."""


def _leave(*_: object) -> None:
    signal.signal(signal.SIGTERM, signal.SIG_IGN)
    raise _Terminated


class Options(NamedTuple):
    """How a night is kept: whether it is gone on with, as no words were given for it, whether that
    is behind the terminal, and whether it begins anew where its record cannot be taken up."""

    goes_on: bool
    is_behind: bool
    begins: bool


def failure_kept(folder: Folder) -> Failure:
    """That another process keeps the night."""
    return Failure(f"process {find_keeper(folder)} keeps the night in {folder.path} already")


class KeptNight:
    """A night, from the start of its keeper to its end."""

    def __init__(self, folder: Folder, starter: Starter, options: Options) -> None:
        """Goes on with a night, or begins one with words that were just given."""
        self.folder, self.starter, self.options = folder, starter, options
        self.helpers = Helpers(folder, starter)
        self.policy = find_policy()
        self.unread = Unread(folder)
        self.pace = Pace()
        self.growth = Growth(folder.file("in"))
        found = find_live(folder)
        self.spare = Spare(folder, starter, self.tell)
        self.folder_again = FolderAgain(folder, starter.words, starter.lock)
        self.guard = Guard(folder, starter, self.spare, self.folder_again, self.unread, self.tell)
        # Where the replies stood as `live` was started, whether it has begun, and whether there
        # was one that played.
        self.mark = 0
        self.is_begun = self.has_played = found is not None
        # Why `live` did not begin, and what it said then; None and nothing where it did.
        self.trouble: str | None = None
        self.said: bytes | None = None
        told = None if found is not None else take_update(folder, starter.words[0])
        self.live = self._start_live() if found is None else self._adopt(found)
        if told is not None:
            self.tell(told)

    def tell(self, text: str) -> None:
        """Tells what happened, in the replies and on standard error."""
        self.helpers.tell(self.folder.note(text))
        if not self.is_begun:
            self.guard.service.tell(text)

    def _write_number(self, number: int) -> None:
        try:
            file = open_file(self.folder.file("pid"), os.O_RDWR | os.O_CREAT)
        except OSError:
            return
        try:
            write_number(file, number)
        except OSError:
            # The process is found without it.
            pass
        finally:
            os.close(file)

    def _adopt(self, number: int) -> Process:
        """Takes hold of what another keeper has started."""
        self._write_number(number)
        set_policy(number, self.policy)
        return Process(self.folder, number, False)

    def _start_live(self) -> Process:
        if self.folder_again.make_lines():
            self._watch_lines()
        self.mark, self.is_begun = self.folder.size("replies"), False
        self.pace.count()
        return self.starter.start("pid", known=self.said)

    def _take_back(self) -> None:
        lines = self.unread.take_late()
        if lines is not None:
            live = f"live (process {self.live.number})"
            taken = os.fsdecode(lines.replace(b"\n", b";"))
            self.tell(f"{live} has not read for a second; taken back: {taken} press again")

    def _has_begun(self) -> bool:
        if not self.is_begun:
            self.mark = self.folder.place_in("replies", self.mark)
            told = b"\n" + self.folder.read("replies", self.mark, _MOST_TOLD)
            if b"\nend ends the night" in told:
                self._begin()
        return self.is_begun

    def _begin(self) -> None:
        """Notes that `live` plays, and tells it where it did not for a while."""
        self.is_begun = self.has_played = True
        if self.trouble is not None:
            self.tell(f"live (process {self.live.number}) plays again")
        self.trouble = self.said = None
        self.folder_again.forget_show()

    def _wait(self) -> None:
        """Waits until a process has ended, or something was written: then it is looked at 30 ms
        later, however much comes."""
        processes = [each for each in (self.live, self.spare.process) if each is not None]
        ends = [end for each in processes for end in each.descriptors()]
        written = self.growth.descriptors()
        is_told = written and len(ends) == len(processes) and self.unread.since is None
        is_settled = self.spare.refused is not None or self.spare.process is not None
        seconds = LOOK_EVERY if is_told and is_settled else _LOOK_EVERY
        ready = wait_for(ends + written, seconds)
        if ready and not set(ready) & set(ends):
            wait_for(ends, _LOOK_EVERY)
        self.growth.take()

    def _await_live(self) -> tuple[Ending, bool]:
        """Waits until `live` is gone, and either the spare goes on, or what writes the record is
        gone too, which both have locked, up to a second. How it ended, and whether the spare goes
        on."""
        self.unread.forget()
        while not self.live.has_ended():
            self._take_back()
            if self._has_begun():
                self.spare.keep()
                self.guard.look(self.live, self.spare.refused is None or self.options.begins)
            self._wait()
        if self.spare.process is not None:
            follow(self.folder, self.spare.process.number)
        put_back = self.guard.put_back(self.live.number, self._make_folder_again)
        self.guard.let_go_on(self.live.number)
        status = self.live.status()
        if status == 0:
            # The night is over. Without the end in its record the spare would go on.
            self.spare.put_down()
        goes_on = self.spare.await_light(self.live.number)
        if put_back is not None:
            self.tell(put_back)
        if not goes_on:
            self._leave_strangers_lock()
            if self.folder.is_file("record"):
                await_lock(self.folder, "record", _LOCK_PATIENCE)
            if status is not None and 0 < status < 128:
                # What it said last is still on the way to the replies.
                time.sleep(_LAST)
        told = self.folder.read("replies", self.mark, _MOST_TOLD)
        return Ending(self.live.number, status, told, self.is_begun), goes_on

    def _make_folder_again(self) -> None:
        self.folder_again.make()
        self._watch_lines()

    def _watch_lines(self) -> None:
        self.growth.close()
        self.growth = Growth(self.folder.file("in"))

    def _leave_strangers_lock(self) -> None:
        """Goes on in a copy of a record whose lock somebody has who has no business with it."""
        stranger = self.spare.find_stranger(self.live.number)
        if stranger is not None and self.is_begun:
            told = f"process {stranger} has the lock of the record, and does not play"
            copied = self.guard.copy_record(self.live.number)
            self.tell(f"{told}: {copied}; end it")

    def _promote(self, ending: Ending, process: Process) -> None:
        """Makes the spare that goes on the `live` of the night."""
        set_policy(process.number, self.policy)
        goes_on = self._goes_on()
        self.live, self.mark = process, self.spare.mark
        self._write_number(process.number)
        follow(self.folder, process.number)
        self.tell(f"{ending.words()}: the spare (process {process.number}) {goes_on}")

    def _goes_on(self) -> str:
        """Where the night goes on: a record that broke off has not all of it."""
        age = self.guard.age(self.live.number)
        if not age:
            return "goes on where it was"
        return f"goes on where its record ends, {age:.0f} s earlier: look which cue is on"

    def _start_again(self, ending: Ending) -> None:
        """Starts `live` again, at once or a second behind its last start, and tells why, once."""
        if ending.has_begun():
            time.sleep(self.pace.left())
            goes_on = self._goes_on()
            self.live, self.trouble = self._start_live(), None
            self.tell(f"{ending.words()}: it is started again, and {goes_on}")
            return
        is_anew, trouble = self._find_trouble(ending)
        if not is_same(trouble, self.trouble):
            self.tell(trouble)
        self.trouble = trouble
        if not is_anew:
            time.sleep(self.pace.left())
        self.live = self._start_live()

    def _find_trouble(self, ending: Ending) -> tuple[bool, str]:
        """Why `live` did not begin, or with what it begins anew, at once; whether it does."""
        if self.said is not None and not self.live.has_news:
            ending.told = self.said
        reason = ending.has_no_record()
        if reason is not None and self.options.begins:
            return begin_anew(self.folder, self.starter.words[0], reason)
        self.said = ending.told
        return False, ending.trouble()

    def _is_patient(self, ending: Ending) -> bool:
        """Whether a start is tried again though no `live` has played yet. Nobody who has typed
        words sees what is told behind a terminal."""
        begins_anew = self.options.begins and ending.has_no_record() is not None
        waits = self.options.is_behind and ending.wants_card()
        return self.options.goes_on or begins_anew or waits

    def _go_on(self, ending: Ending) -> bool:
        """Starts `live` again, or tells why not: the night is over, or it did not begin with words
        that were just given; whether it was started."""
        self.has_played = self.has_played or ending.has_begun()
        end = ending.end(self.folder.has_ended())
        if end is None and not (self.has_played or self._is_patient(ending)):
            end = ending.refusal(self.folder.has_record())
        if end is not None:
            self.tell(end)
            if self.folder.has_ended():
                forget_second_name(self.folder)
            return False
        self.has_played = True
        self._start_again(ending)
        return True

    def keep(self) -> int:
        """Until the night ends; its status."""
        number = self.live.number
        if self.live.is_own:
            self.tell(f"process {os.getpid()} keeps the night: live is process {number}")
        else:
            own = f"process {os.getpid()} takes hold of the night"
            self.tell(f"{own}: live (process {number}) plays")
        while True:
            ending, goes_on = self._await_live()
            process = self.spare.take()
            if goes_on and process is not None:
                self._promote(ending, process)
            elif not self._go_on(ending):
                self.guard.service.end()
                return ending.status or 0


def keep_night(folder: Folder, starter: Starter, options: Options) -> int:
    """Keeps the night going, in this process, until it ends; its status."""
    # A window that closes, control-C and control-Z are none of its business.
    for name in _IGNORED:
        signal.signal(signal.Signals[name], signal.SIG_IGN)
    lock = open_file(folder.file("lock"), os.O_RDWR | os.O_CREAT)
    if not take_lock(lock, _LOCK_PATIENCE):
        raise failure_kept(folder)
    write_number(lock, os.getpid())
    starter.lock = lock
    signal.signal(signal.SIGTERM, _leave)
    # Whoever starts it may hold that back.
    signal.pthread_sigmask(signal.SIG_UNBLOCK, {signal.SIGTERM})
    helpers: Helpers | None = None
    try:
        night = KeptNight(folder, starter, options)
        helpers = night.helpers
        return night.keep()
    except _Terminated:
        told = f"process {os.getpid()} no longer keeps the night: `start` takes hold of it"
        line = folder.note(told)
        if helpers is not None:
            helpers.tell(line)
        return _TERMINATED
    finally:
        signal.signal(signal.SIGTERM, signal.SIG_IGN)
        if helpers is not None:
            helpers.leave()
