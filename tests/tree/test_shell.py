"""The scripts, as shellcheck reads them."""

import re
import shutil
import subprocess
import unittest

from program import TOP

FOLDERS = (".", ".ci", "completion", "dev")


def is_script(path):
    """Whether a file is one of a shell, by its first line or its name."""
    if not path.is_file():
        return False
    return path.suffix == ".bash" or bool(re.match(rb"#!.*\b(ba)?sh\n", path.read_bytes()[:100]))


class Shell(unittest.TestCase):
    @unittest.skipUnless(shutil.which("shellcheck"), "shellcheck is not on PATH")
    def test_shellcheck_has_no_warning(self):
        found = (path for folder in FOLDERS for path in sorted((TOP / folder).iterdir()))
        scripts = [path for path in found if is_script(path)]
        self.assertGreater(len(scripts), 7)
        done = subprocess.run(["shellcheck", *scripts], capture_output=True, text=True, timeout=60)
        self.assertEqual((0, "", ""), (done.returncode, done.stdout, done.stderr))
