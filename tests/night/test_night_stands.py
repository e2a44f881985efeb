"""`cueplayer-night` and a `live` that stands still, or plays on while its record does not grow, and
a spare that takes long."""

import contextlib
import os
import signal
import subprocess
import sys
import time
import unittest

from kept_nights import RefusedTest
from machine import Late, in_time, took
from program import PROGRAM
from tooling import stand_still, wait_for
from wire import SEQUENCE, SLOT_1

from cueplayer_tools.keeper.catching_up import LOOK, CatchingUp

# For how long receivers hold the light, in milliseconds.
HELD = 2500
# By when, in seconds, a `live` that stands still is not ended yet.
SOON = 0.4
STANDS = r"live \(process {}\) stands still: it is ended, so that the night goes on$"


class Stands(RefusedTest):
    def begin_in_cue_1(self):
        """A night in its first cue, with a spare: the numbers of `live`, the spare and the
        keeper."""
        self.begin_night()
        self.go(1)
        self.came_first = self.wait_for_level(128)
        return self.number("pid"), self.spare(), self.number("lock")

    def keep_going(self, number):
        def go_on():
            with contextlib.suppress(ProcessLookupError):
                os.kill(number, signal.SIGCONT)

        self.addCleanup(go_on)
        return go_on

    def stay(self, seconds):
        """Lets so many seconds pass: what must not come has had its time then."""
        until = time.monotonic() + seconds
        wait_for(lambda: time.monotonic() > until, "the time passes")

    def test_spare_goes_on(self):
        """Before receivers let go, in the same stream."""
        live, spare, _ = self.begin_in_cue_1()
        numbers = self.came_first + [each[SEQUENCE] for each in self.came()]
        stopped = time.monotonic()
        stand_still(live)
        numbers += [each[SEQUENCE] for each in self.came(0)]
        self.receiver.settimeout(30)
        first = self.receiver.recv(1500)
        came = time.monotonic()
        self.assertEqual(128, first[SLOT_1])
        in_time(took(stopped, came), HELD, "from a stop to light")
        self.assertNumbered([*numbers, first[SEQUENCE]])
        self.wait_for_reply(STANDS.format(live))
        told = rf"live \(process {live}\) was ended by SIGKILL: the spare \(process {spare}\) "
        self.wait_for_reply(f"{told}goes on where it was$")
        self.assertFalse(self.is_there(live))

    def test_spare_that_was_stopped(self):
        """It is let go on where `live` dies, before receivers let go."""
        live, spare, _ = self.begin_in_cue_1()
        numbers = self.came_first + [each[SEQUENCE] for each in self.came()]
        stand_still(spare)
        killed = time.monotonic()
        os.kill(live, signal.SIGKILL)
        numbers += [each[SEQUENCE] for each in self.came(0)]
        self.receiver.settimeout(30)
        first = self.receiver.recv(1500)
        in_time(took(killed, time.monotonic()), HELD, "from a kill to light")
        self.assertNumbered([*numbers, first[SEQUENCE]])
        self.wait_for_reply(rf".* the spare \(process {spare}\) goes on where it was$")

    def test_keeper_that_stood_still_too(self):
        """It gives `live` half a second more: the whole machine may have stood still."""
        live, _, keeper = self.begin_in_cue_1()
        for number in (live, keeper):
            self.keep_going(number)
        began = time.monotonic()
        stand_still(live)
        # It has seen by then that the record does not grow.
        self.stay(0.2)
        stand_still(keeper)
        if time.monotonic() > began + SOON:
            raise Late("the keeper may have ended it before it was stopped itself")
        self.stay(1)
        os.kill(keeper, signal.SIGCONT)
        self.stay(0.15)
        os.kill(live, signal.SIGCONT)
        self.stay(1.5)
        self.assertEqual((0, ["ok"]), self.without_moments("sub", "1", "H92"))
        self.assertEqual(live, self.number("pid"))
        self.assertNotIn("stands still", self.replies())

    def test_ticks_that_were_late(self):
        """It is told afterwards for how long none came, also where the keeper stood still too, and
        again where that was longer."""
        live, _, keeper = self.begin_in_cue_1()
        for number in (live, keeper):
            self.keep_going(number)
        told = rf"live \(process {live}\) made no tick for (\d+\.\d) s: is the machine too busy\?$"
        for times, seconds in ((1, 1.2), (2, 2.2)):
            stand_still(keeper)
            stand_still(live)
            stopped = time.monotonic()
            self.stay(seconds)
            least = time.monotonic() - stopped
            os.kill(live, signal.SIGCONT)
            self.stay(0.2)
            os.kill(keeper, signal.SIGCONT)
            self.assertGreater(float(self.wait_for_reply(told, times)[-1]), least - 0.1)
        self.assertEqual(live, self.number("pid"))

    def test_record_that_stalls(self):
        """Whoever writes it waits for the disk: `live` plays on, and the spare stands by."""
        live, spare, _ = self.begin_in_cue_1()
        go_on = self.stall(self.writer())
        plays_on = rf"the record does not grow, and live \(process {live}\) plays on: the disk"
        self.wait_for_reply(f"{plays_on} stalls, or is slow; a spare waits for it$")
        self.assertEqual((0, ["ok"]), self.without_moments("sub", "1", "H92"))
        self.wait_for_level(0x92)
        go_on()
        self.wait_for_reply("the record grows again$")
        self.assertTrue(self.is_there(live) and self.is_there(spare))
        self.assertNotIn("stands still", self.replies())

    def test_spare_that_stands_still(self):
        """It would not go on: another takes its place."""
        _, spare, _ = self.begin_in_cue_1()
        stand_still(spare)
        self.wait_for_reply(rf"the spare \(process {spare}\) is gone: another stands by$")
        wait_for(lambda: self.number("spare") != spare, "another spare")


# Stands for the program: where there is a file for it, a spare takes up the record until there is
# another, and then says that it goes on.
BUSY = """#!{python}
import os, signal, sys
words = sys.argv[1:]
if "--spare" in words and os.path.exists("{folder}/busy"):
    record = open(words[words.index("--record") + 1], "rb")
    while not os.path.exists("{folder}/read"):
        pass
    print("record: read, goes on at 0:00:01 of the night", file=sys.stderr, flush=True)
    signal.pause()
os.execv("{program}", ["{program}", *words])
"""
# A spare that does nothing is ended by then, in seconds behind the death of `live`.
IDLE = 3.5


class TakesUp(RefusedTest):
    """A spare whose record is long."""

    def test_is_waited_for(self):
        """`status` says that it is not up to date; where `live` dies it is not ended, as a start
        would read the record anew."""
        words = {"python": sys.executable, "folder": self.folder, "program": PROGRAM}
        stub = self.file("stub", BUSY.format(**words).encode())
        stub.chmod(0o755)
        self.environment["CUEPLAYER"] = str(stub)
        self.begin_night()
        self.spare()
        self.wait_for_status(0)
        self.file("busy", b"")
        first = self.kill("spare")
        wait_for(lambda: self.number("spare") != first, "another spare")

        def works():
            told = self.health()
            return "still takes up the record" in "".join(map(str, told["trouble"])) and told

        told = wait_for(works, "it works")
        self.assertEqual((5, None), (told["status"], told["spare"]))
        spare, live = self.number("spare"), self.kill("pid")
        until = time.monotonic() + IDLE
        wait_for(lambda: time.monotonic() > until, "the time passes")
        self.assertTrue(self.is_there(spare))
        self.file("read", b"")
        died = rf"live \(process {live}\) was ended by SIGKILL: the spare \(process {spare}\) "
        self.wait_for_reply(f"{died}goes on where it was$")


class Works(unittest.TestCase):
    """What works without a rest is told from what rests between two ticks."""

    def looks(self, program):
        """Three looks at a process."""
        child = subprocess.Popen([sys.executable, "-c", program])
        self.addCleanup(child.wait)
        self.addCleanup(child.kill)
        time.sleep(0.5)
        works = CatchingUp(child.pid)
        looks = []
        for _ in range(3):
            self.assertFalse(works.was_so())
            time.sleep(LOOK)
            looks.append(works.was_so())
        return looks

    def test_looks(self):
        self.assertEqual([True] * 3, self.looks("while True: pass"))
        rests = "import time\nwhile True: time.sleep(0.01)"
        self.assertEqual([False] * 3, self.looks(rests))
        self.assertEqual([False] * 3, self.looks("import signal; signal.pause()"))
