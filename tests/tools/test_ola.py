"""A night that is killed and taken up, as another maker's receiver shows it. By hand
`tests/ola_night.py` plays others."""

import os
import shutil
import subprocess
import sys
import unittest

from program import TOP
from wire import own_network

TOOLS = ("olad", "ola_dev_info", "ola_patch", "setpriv")


class OpenLighting(unittest.TestCase):
    def test_restart(self):
        """The daemon of Open Lighting shows what the record means, in order, and is never dark."""
        missing = [each for each in TOOLS if not shutil.which(each)]
        if missing:
            self.skipTest(f"not there: {', '.join(missing)}, of Debian's ola and util-linux")
        if os.geteuid() != 0:
            self.skipTest("only root can start olad in a network of its own, as another user")
        self.show("--kills", "5")
        self.show("--kills", "5", "--spare")

    def show(self, *options):
        words = [*own_network(self), sys.executable, TOP / "tests/ola_night.py", *options]
        done = subprocess.run(words, capture_output=True, text=True, timeout=90)
        print("    " + done.stdout.strip().replace("\n", "\n    "))
        self.assertEqual((0, ""), (done.returncode, done.stderr))
