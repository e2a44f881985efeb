"""What stands between the program and the system's calls: a small library, built from C where that
can be."""

import os
import shutil
import subprocess
import tempfile
import unittest
from pathlib import Path

from program import PROGRAM, FolderTest, Outcome, messages_in

COMPILER = shutil.which("cc")


@unittest.skipUnless(COMPILER, "no C compiler to build the library")
class PreloadTest(FolderTest):
    """With the library that is built from SOURCE."""

    SOURCE: str | None = None

    @classmethod
    def setUpClass(cls):
        folder = tempfile.TemporaryDirectory()
        cls.addClassCleanup(folder.cleanup)
        cls.library = Path(folder.name, "library.so")
        source = Path(__file__).resolve().parent / cls.SOURCE
        subprocess.run([COMPILER, "-shared", "-fPIC", "-o", cls.library, source], check=True)

    def library_environment(self, **variables):
        """The environment of a run with the library, and what it is told."""
        return os.environ | {"LD_PRELOAD": str(self.library)} | variables

    def run_preloaded(self, words, stdin, environment):
        """How a run ends. The input is a file: of a pipe the pieces come as they will."""
        with open(self.file("typed", stdin), "rb") as given:
            done = subprocess.run(
                [PROGRAM, *words], stdin=given, capture_output=True, timeout=60, env=environment
            )
        return Outcome(done.returncode, done.stdout, messages_in(done.stderr))
