"""A short one of the long nights: ten times a process is killed or stopped."""

import json
import os
import subprocess
import sys
import unittest

from long_nights import DISK_TURNED, SKIPPED
from machine import Late
from program import TOP

TIMES, NEVER = 10, 600


class LongNights(unittest.TestCase):
    def test_ten_kills_and_stops(self):
        """Each packet is what the record means, none is lost but at a kill, and the longest gap is
        below a second."""
        words = [sys.executable, TOP / "tests/long_nights.py", str(TIMES)]
        done = subprocess.run(words, capture_output=True, text=True, timeout=NEVER, env=os.environ)
        if done.returncode == SKIPPED:
            self.skipTest("no namespaces of networks and mounts here")
        told = json.loads(done.stdout)
        if all("ms without a packet" in each for each in told["wrong"]) and told["wrong"]:
            raise Late(done.stdout)
        self.assertLess(len(told["missed"]), TIMES // 2, told["missed"])
        self.assertEqual((0, []), (done.returncode, told["wrong"]), done.stdout + done.stderr)
        self.assertEqual(TIMES, sum(told["done"].values()) - told["done"].get(DISK_TURNED, 0))
