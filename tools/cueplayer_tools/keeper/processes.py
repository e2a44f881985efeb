"""The processes of a night: starting one, waiting for its end by a descriptor, ending it."""

import contextlib
import os
import signal
import time
from collections.abc import Iterator

from cueplayer_tools.keeper.consoles import await_free, cids_in
from cueplayer_tools.keeper.folder import Folder, open_file
from cueplayer_tools.keeper.locks import write_number
from cueplayer_tools.keeper.pipes import Pipes
from cueplayer_tools.keeper.players import is_live
from cueplayer_tools.keeper.relay import Relay
from cueplayer_tools.keeper.show_copy import begin_cue, find_show
from cueplayer_tools.keeper.streams import Failure, reason, write_all
from cueplayer_tools.keeper.waiting import wait_for
from cueplayer_tools.keeper.writers import start_writer, write_record, write_replies

# A policy of real time, and its priority.
Policy = tuple[int, int]
# How often a process is looked at where the system has no descriptor of it, in seconds.
LOOK_EVERY = 0.02
# For how long a process may take to end by itself, and once it was killed.
_PATIENCE, _KILLED = 2.0, 1.0
# How `live` ends where another console has its CID.
_DEVICE_FAULT = 5
# What would have a shell do other things than its script says.
_OF_SHELLS = ("SHELLOPTS", "BASHOPTS", "BASH_ENV", "ENV")


def find_descriptor(number: int) -> int | None:
    """A descriptor that is ready once this process has ended; None where there is none."""
    try:
        return os.pidfd_open(number)
    except (AttributeError, OSError):
        # Neither has each kernel the call, nor each Python.
        return None


def find_policy() -> Policy | None:
    """What this process runs under; None at the usual priority."""
    policy = os.sched_getscheduler(0) & ~os.SCHED_RESET_ON_FORK
    if policy not in (os.SCHED_FIFO, os.SCHED_RR):
        return None
    return policy, os.sched_getparam(0).sched_priority


def set_policy(number: int, policy: Policy | None) -> None:
    """Has a process run under this, where there is one and the system lets it."""
    if policy is not None:
        with contextlib.suppress(OSError):
            os.sched_setscheduler(number, policy[0], os.sched_param(policy[1]))


class Process:
    """A process of the night: one's own, or one that another keeper has started."""

    def __init__(self, folder: Folder, number: int, is_own: bool) -> None:
        self.folder, self.number, self.is_own = folder, number, is_own
        self.descriptor = find_descriptor(number)
        # What it says may be known; once it has ended: whether it said something new.
        self.relay: Relay | None = None
        self.has_news = True

    def descriptors(self) -> list[int]:
        """What is ready once it has ended."""
        return [] if self.descriptor is None else [self.descriptor]

    def has_ended(self) -> bool:
        if self.descriptor is not None:
            return bool(wait_for([self.descriptor], 0.0))
        if self.is_own:
            looks = os.WEXITED | os.WNOHANG | os.WNOWAIT
            return os.waitid(os.P_PID, self.number, looks) is not None
        return not is_live(self.folder, self.number)

    def status(self) -> int | None:
        """Of a process that has ended, as a shell has it: above 128 by a signal. That of another
        keeper's is not known."""
        self.close()
        if self.relay is not None:
            self.has_news = self.relay.has_news()
        if not self.is_own:
            return None
        code = os.waitstatus_to_exitcode(os.waitpid(self.number, 0)[1])
        return code if code >= 0 else 128 - code

    def kill(self) -> None:
        """Ends it, as nothing it can prepare for does. One that waits for a disk may not end."""
        with contextlib.suppress(OSError):
            os.kill(self.number, signal.SIGKILL)
        if self.descriptor is None or wait_for([self.descriptor], _KILLED):
            self.status()
        else:
            self.close()

    def close(self) -> None:
        if self.descriptor is not None:
            os.close(self.descriptor)
            self.descriptor = None


@contextlib.contextmanager
def _without_terminate() -> Iterator[None]:
    """Holds SIGTERM back, so that no child gets it with this process's handler."""
    before = signal.pthread_sigmask(signal.SIG_BLOCK, {signal.SIGTERM})
    try:
        yield
    finally:
        signal.pthread_sigmask(signal.SIG_SETMASK, before)


class Starter:
    """Starts the processes of a night, each in a session of its own, which no terminal's signal
    reaches."""

    def __init__(self, folder: Folder, program: str, words: list[str]) -> None:
        self.folder, self.program, self.words = folder, program, words
        # What no child may keep open.
        self.lock: int | None = None
        # The processes that write for a `live`, until they have ended.
        self.writers: list[int] = []

    def fork(self) -> int:
        """The number of the child, or 0 in it: SIGTERM ends that, and the lock is not its own.
        Where the system has no room for it, that is tried until it has."""
        while (number := self._try_to_fork()) is None:
            time.sleep(LOOK_EVERY)
        return number

    def _try_to_fork(self) -> int | None:
        with _without_terminate():
            try:
                number = os.fork()
            except OSError:
                return None
            if not number:
                signal.signal(signal.SIGTERM, signal.SIG_DFL)
                if self.lock is not None:
                    os.close(self.lock)
            return number

    def _given(self, is_spare: bool) -> list[str]:
        """The words of `live`. A night that has begun is not begun at a cue again, and not by its
        spare."""
        given: list[str] = []
        cue = None if is_spare else begin_cue(self.folder)
        has_place = is_spare or cue is not None or self.folder.has_record()
        is_skipped = False
        for word in self.words:
            if is_skipped:
                is_skipped = False
            elif has_place and word.startswith("--start"):
                is_skipped = "=" not in word
            else:
                given.append(word)
        if cue:
            given += ["--start", cue]
        return [find_show(self.folder, given[0]), *given[1:]]

    def start(self, name: str, *options: str, known: bytes | None = None) -> Process:
        """Starts a process, whose number comes into the file of this name. Where it is known what
        it may say, that does not come into the replies again. A spare takes up the record without
        the priority of real time: that may keep a processor busy for seconds, and `live` is not to
        wait for it."""
        record = ["--record", self.folder.file("record"), "--resume"]
        words = [self.program, "live", *self._given(bool(options)), *options, *record]
        relay = None if known is None else self._start_relay(known)
        pipes = self._open_pipes(not options)
        number = self.fork()
        if not number:
            try:
                self._become(name, words, bool(options), relay, pipes)
            except OSError as fault:
                fault_line = f"cueplayer-night: cannot start {self.program}: {reason(fault)}\n"
                with contextlib.suppress(OSError):
                    write_all(2, os.fsencode(fault_line))
            finally:
                os._exit(127)
        process = Process(self.folder, number, True)
        if pipes is not None:
            pipes.close()
        if relay is not None:
            os.close(relay.source)
            os.close(relay.sink)
            process.relay = relay
        return process

    def _open_pipes(self, may_make: bool) -> Pipes | None:
        """With those who write. None where the system has no room for them: the script that starts
        the program then starts what writes its files."""
        try:
            pipes = Pipes(self.folder, may_make)
        except OSError:
            return None
        # Before `live`: where the keeper is killed in between, no line is without a writer.
        if pipes.record is not None and pipes.file is not None:
            self.write_record(pipes.record[0], pipes.file)
        self.write_replies(pipes.replies[0])
        return pipes

    def write_record(self, source: int, file: int) -> None:
        """Starts a process that writes a record."""
        write = lambda: write_record(self.folder, source, file)
        self.writers.append(start_writer(self.fork, write))

    def write_replies(self, source: int) -> None:
        """Starts a process that writes the replies."""
        write = lambda: write_replies(self.folder, source)
        self.writers.append(start_writer(self.fork, write))

    def reap(self) -> None:
        """Asks for the status of writers that have ended."""
        for number in list(self.writers):
            with contextlib.suppress(OSError):
                if not os.waitpid(number, os.WNOHANG)[0]:
                    continue
            self.writers.remove(number)

    def _start_relay(self, known: bytes) -> Relay | None:
        try:
            relay = Relay(self.folder, known)
        except OSError:
            # Then what is said comes again.
            return None
        relay.number = self.fork()
        if not relay.number:
            try:
                os._exit(relay.carry())
            finally:
                os._exit(1)
        return relay

    def _become(
        self, name: str, words: list[str], is_usual: bool, relay: Relay | None, pipes: Pipes | None
    ) -> None:
        """Makes this child the process."""
        with contextlib.suppress(OSError):
            file = open_file(self.folder.file(name), os.O_RDWR | os.O_CREAT)
            write_number(file, os.getpid())
        os.setsid()
        fifo = os.open(self.folder.file("in"), os.O_RDWR)
        flags = os.O_WRONLY | os.O_APPEND | os.O_CREAT
        replies = os.open(self.folder.file("replies"), flags, 0o666)
        told = replies if relay is None else relay.sink
        for file, place in ((fifo, 0), (replies, 1), (told, 2)):
            os.dup2(file, place)
        if is_usual and find_policy() is not None:
            set_policy(0, (os.SCHED_OTHER, 0))
        if not is_usual:
            self._refuse_second()
        signal.signal(signal.SIGXFSZ, signal.SIG_DFL)
        kept = {key: value for key, value in os.environ.items() if key not in _OF_SHELLS}
        if pipes is not None:
            pipes.become()
            kept |= pipes.environment
            if relay is None:
                kept["CUEPLAYER_ERROR_PIPE"] = kept["CUEPLAYER_OUTPUT_PIPE"]
        os.execve(self.program, words, kept)


    def _refuse_second(self) -> None:
        """Ends this child, as `live` ends by its lock, where another console has its CID."""
        for cid in cids_in(self.words):
            found = await_free(cid, self.folder) if cid else None
            if found is not None:
                told = "another console on this machine sends under this CID: process"
                write_all(2, os.fsencode(f"{told} {found}\n"))
                os._exit(_DEVICE_FAULT)


def _is_gone(number: int) -> bool:
    """Whether a process has ended: one that nobody has asked for its status has no program."""
    try:
        os.stat(f"/proc/{number}/exe")
    except FileNotFoundError:
        return True
    except OSError:
        pass
    return False


def _is_gone_within(number: int, descriptor: int | None, seconds: float) -> bool:
    if descriptor is not None:
        return bool(wait_for([descriptor], seconds))
    until = time.monotonic() + seconds
    while not _is_gone(number):
        if time.monotonic() > until:
            return False
        time.sleep(LOOK_EVERY)
    return True


def await_gone(numbers: list[int]) -> None:
    """Waits for processes that end by themselves, a second at most."""
    until = time.monotonic() + _KILLED
    while any(not _is_gone(each) for each in numbers) and time.monotonic() < until:
        time.sleep(LOOK_EVERY)


def put_down(number: int | None) -> None:
    """Ends a process, and waits for it; after two seconds it is killed."""
    if number is None:
        return
    descriptor = find_descriptor(number)
    try:
        os.kill(number, signal.SIGTERM)
        if not _is_gone_within(number, descriptor, _PATIENCE):
            os.kill(number, signal.SIGKILL)
            _is_gone_within(number, descriptor, _KILLED)
    except ProcessLookupError:
        pass
    except PermissionError as fault:
        told = f"process {number} is another user's: nothing was ended; be that user, or root"
        raise Failure(told) from fault
    finally:
        if descriptor is not None:
            os.close(descriptor)
