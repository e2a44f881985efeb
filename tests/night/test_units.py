"""The units of systemd: what they start, and what they may do."""

import re
import shutil
import subprocess
import tempfile
import unittest

from folders import NIGHT
from program import TOP
from tooling import PATIENCE, TOOLS

UNITS = {"night": NIGHT, "desk": TOOLS / "desk"}
NO_ANALYZE = "systemd-analyze is not on PATH"
# systemd calls what is exposed less "OK"; a unit that says nothing has 9.6.
MOST_EXPOSED = 3.0


def unit_text(name):
    return (TOP / f"tools/cueplayer-{name}@.service").read_text()


def settings(name):
    return re.findall(r"(?m)^([A-Za-z]+)=(.*)$", unit_text(name))


class Units(unittest.TestCase):
    def test_words(self):
        """What they start and stop are commands over the instance's path."""
        words = [(key, word) for key, word in settings("night") if key.startswith("Exec")]
        start = "/usr/bin/cueplayer-night %f start --if-refused begin"
        self.assertEqual(
            [("ExecStart", start), ("ExecStop", "-/usr/bin/cueplayer-night %f halt")], words
        )
        self.assertIn(("ExecStart", "/usr/bin/cueplayer-desk --night %f"), settings("desk"))

    def test_never_given_up(self):
        """It is tried again each second, but for words that are none; it waits for no network."""
        found = dict(settings("night"))
        self.assertEqual(("0", "1", "on-failure", "2"), tuple(
            found[key] for key in
            ("StartLimitIntervalSec", "RestartSec", "Restart", "RestartPreventExitStatus")
        ))  # fmt: skip
        # 4 is that of a night that has ended.
        self.assertEqual("4 143", found["SuccessExitStatus"])
        self.assertEqual(("process", "continue"), (found["KillMode"], found["OOMPolicy"]))
        for name in UNITS:
            self.assertNotIn("network-online", unit_text(name))

    def test_notified(self):
        """systemd hears that packets leave, and that ticks go on; it gives no start up, and a
        keeper that hears of no tick is begun anew without harm to what plays."""
        found = dict(settings("night"))
        self.assertEqual(("notify", "infinity", "10", "SIGTERM"), tuple(
            found[key] for key in ("Type", "TimeoutStartSec", "WatchdogSec", "WatchdogSignal")
        ))  # fmt: skip
        self.assertIn("143", found["RestartForceExitStatus"])
        # A desk is there also while a night waits for its network card.
        self.assertNotIn("After", dict(settings("desk")))

    def test_user(self):
        """Both run as the user that systemd-sysusers makes."""
        name = re.search(r"(?m)^u (\w+) ", (TOP / "tools/cueplayer.conf").read_text())[1]
        for unit in UNITS:
            self.assertEqual(name, dict(settings(unit))["User"])

    def test_sees_others(self):
        """A night looks for its CID among the processes of all users."""
        for unit in UNITS:
            self.assertNotIn("ProtectProc", dict(settings(unit)))

    def analyze(self, name, *words):
        """What systemd says of an instance that starts what is here."""
        text = unit_text(name).replace(f"/usr/bin/cueplayer-{name}", str(UNITS[name]))
        with tempfile.TemporaryDirectory() as folder:
            file = f"{folder}/cueplayer-{name}@home-ada-tonight.service"
            with open(file, "w", encoding="utf-8") as opened:
                opened.write(text)
            done = subprocess.run(
                ["systemd-analyze", *words, file], capture_output=True, text=True, timeout=PATIENCE
            )
        return done.returncode, done.stdout, done.stderr

    @unittest.skipUnless(shutil.which("systemd-analyze"), NO_ANALYZE)
    def test_verified(self):
        for name in UNITS:
            with self.subTest(name):
                self.assertEqual((0, "", ""), self.analyze(name, "verify"))

    @unittest.skipUnless(shutil.which("systemd-analyze"), NO_ANALYZE)
    def test_hardened(self):
        for name in UNITS:
            with self.subTest(name):
                _, out, err = self.analyze(name, "security", "--offline=true", "--no-pager")
                found = re.search(r"exposure level for \S+: (\d+\.\d)", out)
                if found is None:
                    self.skipTest(f"this systemd does not tell: {err}")
                self.assertLess(float(found[1]), MOST_EXPOSED)
