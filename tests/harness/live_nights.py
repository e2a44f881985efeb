"""What the tests of `live` share: a night that it plays, and what is heard of it."""

import re
import subprocess
import threading
import time

from machine import Took, in_time
from program import CID, PROGRAM, START, Outcome, messages_in
from wire import OPTIONS, SLOT_1, TERMINATED, ReceiverTest
from worked import S1

MOMENT = re.compile(rb"^\d+ ", re.MULTILINE)
NEVER = 30
# In milliseconds, how much of the ticks of two seconds may be missing; behind what time it is told
# that an input has ended, and what an `end` takes that was typed before.
MISSED, HELD, TURN = 1500, 250, 150


def without_moments(printed):
    """What was printed, without the moments."""
    return MOMENT.sub(b"", printed).decode().splitlines()


class LiveTest(ReceiverTest):
    SHOW = S1
    PROGRAM = PROGRAM
    env: dict[str, str] | None = None
    # When the newest program was started.
    at = 0.0

    def words(self, *options, cid=CID, to=None, holds=False):
        """A night that ends with its input, unless it is to hold the light."""
        ends = [] if holds else ["--end-with-input"]
        return ["live", self.show, "--to", to or self.to, "--cid", cid, *ends, *options]

    def start(self, *options, preexec_fn=None, cid=CID, to=None, holds=False, **pipes):
        """A program that is to play a night; its input and its outputs are pipes, unless others
        are given."""
        pipes = dict.fromkeys(("stdin", "stdout", "stderr"), subprocess.PIPE) | pipes
        self.at = time.monotonic()
        night = subprocess.Popen(
            [self.PROGRAM, *self.words(*options, cid=cid, to=to, holds=holds)],
            env=self.env,
            bufsize=0,
            preexec_fn=preexec_fn,
            **pipes,
        )
        self.addCleanup(
            lambda: [each.close() for each in (night.stdin, night.stdout, night.stderr) if each]
        )
        # Its lock is free for the next one when it is gone.
        self.addCleanup(night.wait)
        self.addCleanup(night.kill)
        return night

    def between(self, first, last):
        """From one moment of the newest night to another: when that was, to a second."""
        return Took(last - first, self.at + first / 1000, self.at + last / 1000 + 1)

    def assertPace(self, ticks, seconds):
        """The ticks of so many seconds came, each 23 ms behind another at least, but for those of
        the times in which the machine stood still."""
        gaps = [b - a for a, b in zip(ticks, ticks[1:])]
        self.assertGreaterEqual(min(gaps), 23)
        missing = 1000 * seconds - 25 * len(ticks)
        in_time(self.between(0, ticks[-1])._replace(ms=missing), MISSED, "ticks that did not come")

    def begin_night(self, *options, **kept):
        """A night that has begun; what it told at its start was read, where standard error is a
        pipe."""
        night = self.start(*options, **kept)
        if night.stderr:
            watch = threading.Timer(NEVER, night.kill)
            watch.start()
            start = b""
            while b"\nend ends " not in start and (line := night.stderr.readline()):
                start += line
            watch.cancel()
            self.assertIsNotNone(START.fullmatch(start), start)
        return night

    def type_in(self, night, *parts, pause=0.1):
        for part in parts:
            night.stdin.write(part)
            night.stdin.flush()
            time.sleep(pause)

    def type_line(self, night, line, reply="ok", *others, pause=0.2):
        """Types a line, and waits for its reply, what is shown behind it, and then for some
        ticks."""
        night.stdin.write(line)
        for shown in (reply, *others):
            self.assertEqual([shown], without_moments(night.stdout.readline()))
        time.sleep(pause)

    def end_night(self, night):
        """How a night ended, once its input is closed."""
        out, err = night.communicate(timeout=30)
        err = messages_in(err)
        return Outcome(night.returncode, out, err)

    def assertTerminated(self, came, is_left=False):
        """The last three datagrams, and no others, carry the end; four before them are dark, of
        levels that are ordinary, unless the night was left."""
        ends = [bool(each[OPTIONS] & TERMINATED) for each in came]
        self.assertEqual([False] * (len(came) - 3) + [True] * 3, ends)
        if not is_left:
            self.assertEqual({0}, {each[SLOT_1] for each in came[-7:]})
