"""What the tests of nights share that `cueplayer-night` keeps and that meet trouble."""

import contextlib
import ctypes
import json
import os
import signal
import unittest
from pathlib import Path

from folders import FolderNightTest
from tooling import wait_for

from cueplayer_tools.keeper.pipes import RECORD
from cueplayer_tools.keeper.states import state_of



class Held:
    """A process that is held as by a debugger. It goes on where the one that holds it ends."""

    SEIZE, INTERRUPT, DETACH = 0x4206, 0x4207, 17

    def __init__(self, number):
        self.number, self.trace = number, ctypes.CDLL(None, use_errno=True).ptrace
        self.trace.argtypes = [ctypes.c_long, ctypes.c_long, ctypes.c_void_p, ctypes.c_void_p]
        if self.trace(self.SEIZE, number, None, None):
            raise unittest.SkipTest(f"no ptrace here: {os.strerror(ctypes.get_errno())}")
        self.trace(self.INTERRUPT, number, None, None)
        wait_for(lambda: state_of(number) == "t", "it stands still")

    def release(self):
        self.trace(self.DETACH, self.number, None, None)


class RefusedTest(FolderNightTest):
    def kill_all(self):
        super().kill_all()
        wait_for(lambda: not self.is_there(self.number("pid")), "live is gone")

    def health(self):
        """What `status --json` prints, whose status is that of its exit."""
        status, out, err = self.run_script("status", "--json")
        self.assertEqual(("", 1), (err, out.count("\n")))
        told = json.loads(out)
        self.assertEqual(status, told["status"])
        return told

    def wait_for_status(self, status):
        return wait_for(lambda: (told := self.health())["status"] == status and told, str(status))

    def damage_head(self, letter=b"?"):
        """Puts a letter in the place of the first one of the record, by which no spare knows it."""
        with open(self.night / "record", "r+b") as file:
            file.write(letter)

    def go(self, *cues):
        for cue in cues:
            self.assertEqual((0, ["ok", f"cue {cue}"]), self.without_moments("go"))

    def wait_for_tries(self, times):
        """Waits until `live` was started so many times more; the numbers of the processes."""
        seen = set()

        def are_there():
            with contextlib.suppress(OSError, ValueError):
                seen.add(int((self.night / "pid").read_text()))
            return len(seen) > times

        wait_for(are_there, f"{times} starts")
        return seen

    def go_on(self, number):
        with contextlib.suppress(ProcessLookupError):
            os.kill(number, signal.SIGCONT)

    def writer(self, pipe=RECORD):
        """The process that writes what `live` gives into this pipe."""
        place = f"/proc/{self.number('pid')}/fd/{pipe}"
        for each in Path("/proc").glob("[0-9]*/fd/0"):
            with contextlib.suppress(OSError):
                if os.path.samefile(each, place):
                    return int(each.parts[2])
        return self.fail("no writer")

    def stall(self, writer):
        """Has it stand still as behind a disk, not as a signal does it; a call lets it go on."""
        held = Held(writer)
        self.addCleanup(held.release)
        return held.release
