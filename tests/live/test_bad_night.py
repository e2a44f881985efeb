"""A minute of a night in which much goes wrong. By hand `tests/bad_night.py` plays others."""

import os
import subprocess
import sys
import unittest

from machine import Late
from program import TOP
from wire import own_network

SECONDS = os.environ.get("BAD_NIGHT_SECONDS", "60")


class BadNight(unittest.TestCase):
    def test_bad_night(self):
        """Stalls, floods, slow pages, other sources and a link that goes down, for a minute at
        sixteen universes: no tick and no press is late, no packet is off its place, and the streams
        end."""
        own_network(self)
        words = [sys.executable, TOP / "tests/bad_night.py", "--seconds", SECONDS]
        done = subprocess.run(words, capture_output=True, text=True, timeout=float(SECONDS) + 120)
        print("    " + done.stdout.strip().replace("\n", "\n    "))
        self.assertEqual("", done.stderr)
        if done.returncode == 2:
            raise Late(done.stdout.strip().splitlines()[-1])
        self.assertEqual(0, done.returncode)
