"""What a busy machine does to limits of real time: how long it let a process wait that only naps.

A limit of a test is what matters to a user, on a machine that gives the program its processor. A
test that misses it fails only where the machine itself did not stand still for the rest.
"""

import atexit
import contextlib
import functools
import json
import os
import signal
import subprocess
import sys
import threading
import time
from collections.abc import Callable
from typing import NamedTuple

# How long a nap is, and by how much it is overslept on a machine at rest, in seconds.
NAP, USUAL = 0.005, 0.002
# A machine that stands still for so long at once, in milliseconds, may turn what a program does: a
# press that it has not read within a second is taken back.
STANDSTILL = 500.0
# For how long a machine at rest has not stood still, in seconds.
REST = 5.0


class Late(AssertionError):
    """A limit of real time was missed. The runner runs such a test once more."""


class Took(NamedTuple):
    """How long something took, in milliseconds, and the stretch of `time.monotonic()`, in seconds,
    in which that was."""

    ms: float
    since: float
    until: float


def took(since: float, until: float | None = None) -> Took:
    """The stretch between two moments of `time.monotonic()`; until now where one is named."""
    until = time.monotonic() if until is None else until
    return Took(1000 * (until - since), since, until)


def by_clock(since: float, until: float) -> Took:
    """The stretch between two moments of `time.time()`."""
    ahead = time.monotonic() - time.time()
    return took(since + ahead, until + ahead)


class Witness:
    """A process that naps on each processor and notes when it overslept."""

    def __init__(self) -> None:
        words = [sys.executable, "-B", os.path.abspath(__file__)]
        pipe = subprocess.PIPE
        self.process = subprocess.Popen(words, text=True, bufsize=1, stdin=pipe, stdout=pipe)
        # Of each processor the stretches in which the machine stood still.
        self.stalls: dict[str, list[tuple[float, float]]] = {}
        self.asking = threading.Lock()
        self._ask()
        atexit.register(self._close)

    def _ask(self) -> None:
        """Takes what was noted, up to now."""
        self.process.stdin.write("?\n")
        for processor, stalls in json.loads(self.process.stdout.readline()).items():
            known = self.stalls.setdefault(processor, [])
            known += [(since, until) for since, until in stalls]

    def _close(self) -> None:
        with contextlib.suppress(BrokenPipeError):
            self.process.stdin.close()
        self.process.wait()
        self.process.stdout.close()

    def _waits(self, since: float, until: float) -> list[list[float]]:
        """For how many milliseconds of this stretch each processor let the nap wait, each time."""
        with self.asking:
            self._ask()
            return [
                [1000 * max(0.0, min(woke, until) - max(due, since)) for due, woke in stalls]
                for stalls in self.stalls.values()
            ]

    def stall(self, since: float, until: float) -> float:
        """For how many milliseconds of this stretch a processor let the nap wait: of the processor
        that did so the longest."""
        return max((sum(waits) for waits in self._waits(since, until)), default=0.0)

    def longest(self, since: float, until: float) -> float:
        """For how many milliseconds of this stretch a processor let the nap wait at once, at
        most."""
        return max((max(waits, default=0.0) for waits in self._waits(since, until)), default=0.0)


@functools.cache
def witness() -> Witness:
    """The one of this run, from the first call on."""
    return Witness()


class Patience:
    """Waits while the machine stands still, for so many seconds in all."""

    def __init__(self, left: float) -> None:
        self.left = left

    def wait(self, say: Callable[[str], None]) -> None:
        """Waits until the machine has not stood still for a while, and says for how long."""
        began = time.monotonic()
        until = began + self.left
        while (now := time.monotonic()) < until and stands_still(now - REST):
            time.sleep(1.0)
        waited = time.monotonic() - began
        self.left -= waited
        if waited > 1.0:
            say(f"waited {waited:.0f} s for a machine that stood still")


def stands_still(since: float) -> bool:
    """Whether the machine has stood still at once for too long, from this moment on."""
    return witness().longest(since, time.monotonic()) >= STANDSTILL


def in_time(each: Took, limit: float, what: str) -> None:
    """What took so long has a limit, in milliseconds, and beyond it the time in which the machine
    stood still meanwhile."""
    if each.ms < limit:
        return
    stalled = witness().stall(each.since, each.until)
    if each.ms >= limit + stalled:
        told = f"{what}: {each.ms:.0f} ms, and not {limit:.0f}"
        raise Late(f"{told}; the machine stood still for {stalled:.0f} ms of them")


class Naps:
    """The naps on one processor."""

    def __init__(self, processor: int) -> None:
        self.processor, self.count = processor, 0
        self.stalls: list[tuple[float, float]] = []
        threading.Thread(target=self._nap, daemon=True).start()

    def _nap(self) -> None:
        os.sched_setaffinity(0, {self.processor})
        while True:
            due = time.monotonic() + NAP + USUAL
            time.sleep(NAP)
            woke = time.monotonic()
            if woke > due:
                self.stalls.append((due - USUAL, woke))
            self.count += 1

    def new_stalls(self, last: int) -> list[tuple[float, float]]:
        """The stalls since the last look, once so many naps have ended."""
        while self.count < last:
            time.sleep(NAP)
        stalls, self.stalls = self.stalls, []
        return stalls


def main() -> None:
    """Tells at each line of standard input what was noted, until that ends."""
    # Control-C is for the tests, whose end ends this.
    signal.signal(signal.SIGINT, signal.SIG_IGN)
    naps = [Naps(processor) for processor in os.sched_getaffinity(0)]
    for _ in sys.stdin:
        # By then a nap of this moment has ended on each.
        lasts = [each.count + 2 for each in naps]
        pairs = zip(naps, lasts, strict=True)
        noted = {each.processor: each.new_stalls(last) for each, last in pairs}
        print(json.dumps(noted), flush=True)


if __name__ == "__main__":
    main()
