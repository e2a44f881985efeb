"""What the tests of nights in folders share: one that `cueplayer-night` keeps, and its parts."""

import os
import re
import signal
import subprocess
import time
import uuid
from pathlib import Path

from machine import Late
from program import PROGRAM, TOP, Outcome, text
from tooling import PATIENCE, Lines, wait_for
from wire import SEQUENCE, SLOT_1, ReceiverTest

from cueplayer_tools.keeper.pipes import find_writers

NIGHT = TOP / "cueplayer-night"
# What a command tells behind a second in which no `live` took it or answered.
NO_ANSWER = re.compile("no answer within a second|no live plays the night")
SHOW = text(
    "CUE 1",
    "CHAN 1@50",
    "CUE 2",
    "UP 60",
    "CHAN 1@FL",
    "CUE 3",
    "CHAN 1@20",
    "SUB 1",
    "CHAN 1@FL",
    "PATCH 1 1<1@FL",
)


class Keeper:
    """A `cueplayer-night NIGHT start` in the foreground, with what it shows."""

    def __init__(self, test, words, **options):
        pipes = {"stdin": subprocess.DEVNULL, "stdout": subprocess.PIPE, "stderr": subprocess.PIPE}
        options = pipes | options
        self.process = subprocess.Popen(words, text=True, start_new_session=True, **options)
        test.addCleanup(self.process.wait)
        test.addCleanup(self.process.kill)
        self.out = Lines(self.process.stdout) if self.process.stdout else None
        self.err = Lines(self.process.stderr) if self.process.stderr else None


class FolderNightTest(ReceiverTest):
    """With the folder of a night, `self.night`, in which nothing is left running."""

    SHOW = SHOW

    def setUp(self):
        super().setUp()
        self.night = self.folder / "to night"
        self.cid = str(uuid.uuid4())
        self.words = [self.show, "--to", self.to, "--cid", self.cid]
        self.environment = os.environ | {"CUEPLAYER": str(PROGRAM)}
        self.addCleanup(self.put_down)

    def put_down(self):
        """Ends what plays the night and what keeps it."""
        if self.night.is_dir():
            self.run_script("halt")

    def run_script(self, *words, **options):
        """A run of the script over the night."""
        done = subprocess.run(
            [NIGHT, self.night, *map(str, words)],
            capture_output=True,
            text=True,
            env=self.environment,
            timeout=2 * PATIENCE,
            **options,
        )
        return Outcome(done.returncode, done.stdout, done.stderr)

    def command(self, *words):
        """A command that has an answer, which it waits for up to a second."""
        outcome = self.run_script(*words)
        if NO_ANSWER.search(outcome.err):
            raise Late(outcome.err.strip())
        self.assertEqual("", outcome.err)
        return outcome

    def without_moments(self, *words):
        """The status of a command, and its answers without the moments."""
        status, out, _ = self.command(*words)
        return status, re.sub(r"(?m)^\d+ ", "", out).splitlines()

    def keeper(self, *words, **options):
        """A keeper in the foreground."""
        words = [NIGHT, self.night, "start", *map(str, words)]
        return Keeper(self, words, env=self.environment, **options)

    def begin_night(self):
        """A night that has begun, with its keeper behind this terminal."""
        status, out, err = self.run_script("start", *self.words, "--background")
        self.assertEqual((0, ""), (status, err), out)
        self.assertIn("\nend ends the night", out)
        wait_for(lambda: self.came(0.05), "packets")
        return out

    def number(self, name):
        """The process of which the folder tells. The file is empty while it is written."""
        return int(wait_for(lambda: (self.night / name).read_text().strip(), name))

    def spare(self):
        """The process that stands by, once it does: it is no shell any more, and has taken up the
        record, which is short."""

        def is_started():
            try:
                number = self.number("spare")
                program = os.readlink(f"/proc/{number}/exe")
            except (OSError, ValueError):
                return False
            return Path(program).name.startswith(PROGRAM.name) and number

        number = wait_for(is_started, "a spare")
        time.sleep(0.1)
        return number

    def kill(self, name):
        """Ends that process, as nothing it can prepare for does; its number."""
        number = self.number(name)
        os.kill(number, signal.SIGKILL)
        return number

    def kill_all(self):
        """Ends what keeps the night, what stands by, and what plays it; what it wrote is written
        then."""
        self.spare()
        writers = find_writers(self.number("pid"))
        for name in ("lock", "spare", "pid"):
            self.kill(name)
        wait_for(lambda: not any(map(self.is_there, writers)), "its writers end")

    def replies(self):
        replies = self.night / "replies"
        return replies.read_text() if replies.exists() else ""

    def wait_for_reply(self, pattern, times=1):
        find = re.compile(pattern, re.MULTILINE).findall
        return wait_for(lambda: len(found := find(self.replies())) >= times and found, pattern)

    def wait_for_level(self, level):
        """Waits for a packet with this first slot; the numbers of those that came on the way."""
        numbers = []

        def is_there():
            came = self.came(0.03)
            numbers.extend(each[SEQUENCE] for each in came)
            return level in {each[SLOT_1] for each in came}

        wait_for(is_there, f"level {level}")
        return numbers

    def assertNumbered(self, numbers):
        """Each packet has the number behind that of the one before."""
        steps = {(after - before) % 256 for before, after in zip(numbers, numbers[1:])}
        self.assertEqual({1}, steps, numbers)

    def is_there(self, number):
        """Whether the process runs; one that nobody has asked for its status has no program."""
        return Path(f"/proc/{number}/exe").exists()
