"""What the tests of the writer of a record share."""

import os
import re
import signal
import time
from pathlib import Path

from live_outputs import OutputsTest
from program import PROGRAM, TOP

NEVER = 30


class WriterTest(OutputsTest):
    PROGRAM = TOP / "cueplayer"

    def setUp(self):
        super().setUp()
        self.env = os.environ | {"CUEPLAYER": str(PROGRAM)}
        self.record = self.folder / "night of May.play"

    def writers(self, night):
        """The processes that write the files of a night."""
        children = Path(f"/proc/{night.pid}/task/{night.pid}/children").read_text().split()
        return [
            int(each) for each in children if Path(f"/proc/{each}/comm").read_text() == "cat\n"
        ]

    def writer(self, night, file=None):
        """The process that writes a file of a night, the record where none is named."""
        until = time.monotonic() + NEVER
        while time.monotonic() < until:
            for each in self.writers(night):
                if os.path.samefile(f"/proc/{each}/fd/1", file or self.record):
                    self.addCleanup(self.end, each)
                    return each
            time.sleep(0.01)
        self.fail("no writer")

    def end(self, writer):
        try:
            os.kill(writer, signal.SIGKILL)
        except ProcessLookupError:
            pass

    def ends(self, writer):
        """The writer has ended, and so has written all that it will."""
        until = time.monotonic() + NEVER
        while time.monotonic() < until:
            try:
                if Path(f"/proc/{writer}/stat").read_text().rpartition(")")[2].split()[0] == "Z":
                    return
            except (FileNotFoundError, ProcessLookupError):
                return
            time.sleep(0.01)
        self.fail("the writer does not end")

    def assertOwes(self, night, writer, file, line):
        """The program ends while the writer of a file stands still, and a line of standard error
        says how many bytes that writer has still. It then writes as many."""
        before = file.stat().st_size
        self.assertEnds(night)
        message = night.stderr.readline()
        left = re.fullmatch(line, message)
        self.assertIsNotNone(left, message)
        os.kill(writer, signal.SIGCONT)
        self.ends(writer)
        self.assertEqual(before + int(left[1]), file.stat().st_size)
