"""`tests/run` itself: what it counts, and what runs again, over tests of a folder of their own."""

import os
import shutil
import subprocess
import sys
import tempfile
import unittest
from pathlib import Path

from rooms import ROOMS

TESTS = Path(__file__).resolve().parents[1]
PARTS = ("listing", "machine", "program", "rooms", "tally")
SAMPLES = """
'''Samples of tests. They are few.'''
import os, unittest
from pathlib import Path
from machine import Late

class Good(unittest.TestCase):
    '''What is well: test_samples.Good.'''
    def test_first(self):
        '''The first
        of two. It passes.'''
    def test_second(self): pass

class Bad(unittest.TestCase):
    def test_rows(self):
        for row in range(2):
            with self.subTest(row):
                self.assertEqual(2, row)

class Unmade(unittest.TestCase):
    @classmethod
    def setUpClass(cls): raise OSError("no folder")
    def test_never(self): pass

class Dies(unittest.TestCase):
    def test_end(self): os._exit(3)

class Slow(unittest.TestCase):
    def test_late_once(self):
        mark = Path("late")
        if not mark.exists():
            mark.touch()
            raise Late("by a second")

class Without(unittest.TestCase):
    @unittest.skip("no tool")
    def test_tool(self): pass
"""


class Runner(unittest.TestCase):
    def setUp(self) -> None:
        folder = tempfile.TemporaryDirectory()
        self.addCleanup(folder.cleanup)
        self.tests = Path(folder.name, "tests")
        for room in ("harness", *ROOMS):
            (self.tests / room).mkdir(parents=True)
        for name in ("run", "conftest.py"):
            shutil.copy(TESTS / name, self.tests)
        for part in PARTS:
            shutil.copy(TESTS / f"harness/{part}.py", self.tests / "harness")
        (self.tests / "tree/test_samples.py").write_text(SAMPLES)

    def run_tests(self, *words: str) -> tuple[int, list[str]]:
        """The status and the lines of a run."""
        done = subprocess.run(
            [sys.executable, self.tests / "run", *words],
            cwd=self.tests,
            env={**os.environ, "CUEPLAYER": sys.executable},
            capture_output=True,
            text=True,
            timeout=600,
        )
        self.assertEqual("", done.stderr)
        return done.returncode, done.stdout.splitlines()

    def test_counts(self) -> None:
        """In one lane as in more: a class that is not set up and a lane that dies are failures."""
        for lanes in ("2", "3"):
            with self.subTest(lanes):
                (self.tests / "late").unlink(missing_ok=True)
                status, lines = self.run_tests("--lanes", lanes)
                self.assertEqual((1, "3 passed, 3 failed"), (status, lines[-1]))
                self.assertIn("again: test_samples.Slow.test_late_once was late: machine.Late: "
                              "by a second", lines)
                self.assertIn("skipped test_samples.Without.test_tool: no tool", lines)
                self.assertEqual(1, lines.count("ok test_samples.Slow.test_late_once"))
                told = lines[lines.index("what failed:") :]
                self.assertIn("    test_samples.Bad.test_rows", told)
                self.assertIn("        AssertionError: 2 != 0", told)
                self.assertIn("    test_samples.Unmade.test_never", told)
                self.assertIn("        OSError: no folder", told)
                self.assertIn("    test_samples.Dies.test_end", told)

    def test_words(self) -> None:
        self.assertEqual((0, "2 passed, 0 failed"), self.last("Good"))
        self.assertEqual((1, "0 passed, 0 failed"), self.last("nothing of this name"))

    def test_list(self) -> None:
        """Each test has the first sentence about it, its class or its module; none is run."""
        first = "test_samples.Good.test_first: The first of two."
        second = "test_samples.Good.test_second: What is well: test_samples.Good."
        status, lines = self.run_tests("--list")
        self.assertEqual((0, 7), (status, len(lines)))
        self.assertEqual([first, second], [line for line in lines if "Good" in line])
        self.assertIn("test_samples.Dies.test_end: Samples of tests.", lines)
        self.assertEqual((0, [first]), self.run_tests("--list", "OF TWO"))
        self.assertEqual((0, [first, second]), self.run_tests("--list", "first", "well"))
        self.assertEqual((1, []), self.run_tests("--list", "nothing of this name"))

    def test_first(self) -> None:
        """It ends at the first failure, and tells what was well until then."""
        status, lines = self.run_tests("--first", "Bad", "Slow")
        self.assertEqual((1, "0 passed, 1 failed"), (status, lines[-1]))

    def last(self, *words: str) -> tuple[int, str]:
        status, lines = self.run_tests(*words)
        return status, lines[-1]


if __name__ == "__main__":
    unittest.main()
