"""`cueplayer-night` and other users of the machine: they may not hold its locks, and are not told
what they could not know."""

import os
import stat
import subprocess

from folders import NIGHT, FolderNightTest
from tooling import PATIENCE, wait_for

NOBODY = 65_534
# Of a folder that another user left open, the mode and those of its files.
OPEN_FOLDER, OPEN_FILE = 0o755, 0o644


class Users(FolderNightTest):
    def modes(self):
        paths = [self.night, *self.night.iterdir()]
        return {path.name: stat.S_IMODE(path.stat().st_mode) for path in paths}

    def assertClosed(self):
        names = {"night", "show", "record", ".record", "replies", "in", "lock", "pid", "spare"}
        wait_for((self.night / ".record").exists, "the second name of the record")
        self.assertEqual({self.night.name: 0o700} | dict.fromkeys(names, 0o600), self.modes())

    def test_modes(self):
        """Whatever others may do to files of who makes it."""
        before = os.umask(0)
        self.addCleanup(os.umask, before)
        self.begin_night()
        self.spare()
        self.assertClosed()

    def test_night_of_an_older_version(self):
        """Its files are taken from others, and its folder where nothing else is in it."""
        self.assertEqual(0, self.run_script("make", *self.words).status)
        os.chmod(self.night, OPEN_FOLDER)
        for path in self.night.iterdir():
            os.chmod(path, OPEN_FILE)
        self.begin_night()
        self.spare()
        self.assertClosed()
        self.run_script("halt")
        (self.night / "notes").touch(OPEN_FILE)
        os.chmod(self.night, OPEN_FOLDER)
        self.assertEqual(0, self.run_script("start", "--background").status)
        self.assertEqual(OPEN_FOLDER, self.modes()[self.night.name])

    def run_as_nobody(self, *words):
        done = subprocess.run(
            ["setpriv", f"--reuid={NOBODY}", f"--regid={NOBODY}", "--clear-groups",
             NIGHT, self.night, *words],
            capture_output=True, text=True, env=self.environment, timeout=PATIENCE,
        )  # fmt: skip
        return done.returncode, done.stdout, done.stderr

    def begin_for_others(self):
        """A night of root's in a folder that others may enter; skipped where there is none."""
        if os.geteuid() != 0:
            self.skipTest("only root has nights that another user may not see")
        os.chmod(self.folder, OPEN_FOLDER)
        try:
            status, _, _ = self.run_as_nobody("--help")
        except OSError as fault:
            self.skipTest(f"setpriv: {fault}")
        if status not in (0, 1, 2):
            self.skipTest("no other user can run the script")
        self.begin_night()
        self.spare()

    def test_night_of_another_user(self):
        """Each command says that it may not look, and changes nothing."""
        self.begin_for_others()
        told = f"is root's: who plays the night in {self.night} cannot be seen from here"
        for word, expected in (("status", 8), ("halt", 1), ("start", 1), ("go", 1), ("where", 1)):
            for mode in (0o700, OPEN_FOLDER):
                with self.subTest(word, mode=oct(mode)):
                    os.chmod(self.night, mode)
                    status, out, err = self.run_as_nobody(word)
                    self.assertEqual((expected, ""), (status, out))
                    self.assertIn(told, err)
                    self.assertEqual(1, err.count("\n"))
        self.assertEqual((0, ["where next 1 master 255"]), self.without_moments("where"))

    def test_night_of_another_user_with_open_files(self):
        """As an older version left them: the process that plays is not to be seen."""
        self.begin_for_others()
        os.chmod(self.night, 0o777)
        for path in self.night.iterdir():
            os.chmod(path, 0o666)
        live = self.number("pid")
        for word, expected in (("status", 8), ("halt", 1)):
            with self.subTest(word):
                status, out, err = self.run_as_nobody(word)
                self.assertEqual((expected, ""), (status, out))
                self.assertIn(f"/proc/{live} is root's: who plays the night in", err)
        self.assertTrue(wait_for(lambda: self.is_there(live), "live"))
