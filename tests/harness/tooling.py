"""What the tests of `tools/` share: starting a tool, and waiting for what it tells."""

import contextlib
import os
import queue
import re
import signal
import subprocess
import sys
import threading
import time
from pathlib import Path

from program import PROGRAM, TOP

TOOLS = TOP / "tools"
# The tools run the program that is tested.
os.environ["CUEPLAYER"] = str(PROGRAM)
# A busy machine takes its time; nothing here waits so long where all is well.
PATIENCE = 30
sys.path.insert(0, str(TOOLS))


class Lines:
    """The lines of a stream, read as they come, so that its writer never waits."""

    def __init__(self, stream):
        self.came = queue.Queue()
        self.reader = threading.Thread(target=self._read, args=(stream,), daemon=True)
        self.reader.start()

    def _read(self, stream):
        with stream:
            for line in stream:
                self.came.put(line.rstrip("\n"))
        self.came.put(None)

    def next(self, patience=PATIENCE):
        """The next line, or None at the end."""
        return self.came.get(timeout=patience)

    def find(self, pattern):
        """What is found in the next line that begins so; lines before it are passed over."""
        passed = []
        while (line := self.next()) is not None:
            if found := re.match(pattern, line):
                return found
            passed.append(line)
        raise AssertionError(f"{pattern} in {passed}")

    def rest(self):
        """All lines up to the end."""
        return list(iter(self.next, None))


class Started:
    """A tool that runs, with its lines on standard output and standard error."""

    def __init__(self, test, tool, *words, environment=None, **options):
        self.process = subprocess.Popen(
            [sys.executable, TOOLS / tool, *map(str, words)],
            text=True,
            stdout=subprocess.PIPE,
            stderr=subprocess.PIPE,
            env=environment,
            **options,
        )
        self.out = Lines(self.process.stdout)
        self.err = Lines(self.process.stderr)
        test.addCleanup(self.process.wait)
        test.addCleanup(self.process.kill)


def run_tool(tool, *words, **options):
    """Runs a tool to its end."""
    return subprocess.run(
        [sys.executable, TOOLS / tool, *map(str, words)],
        capture_output=True,
        text=True,
        timeout=2 * PATIENCE,
        **options,
    )


def stand_still(pid):
    """Stops a process, and waits until each of its threads stands still."""
    os.kill(pid, signal.SIGSTOP)
    threads = Path(f"/proc/{pid}/task")
    states = lambda: {each.read_text().rpartition(") ")[2][0] for each in threads.glob("*/stat")}
    wait_for(lambda: states() == {"T"}, f"process {pid} stands still")


def open_files(pid):
    """The files that a process has open."""
    found = []
    for each in Path(f"/proc/{pid}/fd").iterdir():
        # One that is closed meanwhile is not there any more.
        with contextlib.suppress(OSError):
            found.append(each.readlink())
    return found


def wait_for(condition, what):
    """Waits until a condition holds, and answers what it answered."""
    until = time.monotonic() + PATIENCE
    while time.monotonic() < until:
        found = condition()
        if found:
            return found
        time.sleep(0.02)
    raise AssertionError(f"not within {PATIENCE} seconds: {what}")
