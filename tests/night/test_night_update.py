"""`cueplayer-night NIGHT update SHOW`: another show for a night that has begun."""

import time

from folders import SHOW, FolderNightTest
from machine import by_clock, in_time
from program import FolderTest, text
from restarts import head
from tooling import PATIENCE
from wire import SLOT_1

from cueplayer_tools.keeper.folder import Folder
from cueplayer_tools.keeper.show_copy import begin_cue, find_show

# Cue 1 is at another level than in the show of the night, and there is no cue 2.
NEW = text("CUE 1", "CHAN 1@20", "CUE 3", "CHAN 1@60", "PATCH 1 1<1@FL")
# For how long receivers hold the light.
HELD = 2500


class Copy(FolderTest):
    """Which file of a show is played, at each moment of a night that begins anew."""

    def test_show(self):
        named = self.file("named.asc", SHOW)
        folder = Folder(str(self.folder))
        copy = self.file("show", NEW)
        begin = self.file("begin", b"1\n")
        # `live` has begun, and its record comes a moment later.
        self.assertEqual((str(copy), "1"), (find_show(folder, str(named)), begin_cue(folder)))
        self.assertEqual(NEW, copy.read_bytes())
        record = self.file("record", head(NEW))
        self.assertIsNone(begin_cue(folder))
        self.assertEqual(str(copy), find_show(folder, str(named)))
        self.assertFalse(begin.exists())
        # The record of an older version has no copy beside it, or one that was damaged.
        record.write_bytes(head(SHOW))
        self.assertEqual(str(copy), find_show(folder, str(named)))
        self.assertEqual(SHOW, copy.read_bytes())
        # A night that has not begun is of the file as it stands.
        record.unlink()
        named.write_bytes(NEW)
        self.assertEqual(str(copy), find_show(folder, str(named)))
        self.assertEqual(NEW, copy.read_bytes())


class Update(FolderNightTest):
    def setUp(self):
        super().setUp()
        self.new = self.file("new.asc", NEW)

    def begin_in_cue_1(self):
        self.begin_night()
        self.assertEqual((0, ["ok", "cue 1"]), self.without_moments("go"))
        self.wait_for_level(128)

    def test_at_the_next_start(self):
        """The night begins in the cue that is on, and no receiver lets go meanwhile."""
        self.begin_in_cue_1()
        status, out, err = self.run_script("update", self.new)
        self.assertEqual((0, ""), (status, err))
        told = "is kept: the night starts again with it at the next `start`"
        self.assertIn(f"{self.new} {told}", out)
        self.assertIn("in cue 1, its masters at full", out)
        self.new.unlink()
        # Until then the show is the one that the night has, also for a spare.
        self.spare()
        self.kill("pid")
        self.assertEqual((0, ["where cue 1 next 2 master 255"]), self.without_moments("where"))
        record = (self.night / "record").read_bytes()
        self.came()
        halted = time.time()
        self.assertEqual(0, self.run_script("halt").status)
        levels = {each[SLOT_1] for each in self.came(0)}
        status, out, _ = self.run_script("start", "--background")
        self.assertEqual(0, status, out)
        self.receiver.settimeout(PATIENCE)
        first = self.receiver.recv(1500)
        came = time.time()
        self.assertIn("the night starts again in cue 1, its masters at full, with the updated", out)
        self.assertEqual({51}, {each[SLOT_1] for each in [first, *self.came()]})
        self.assertLessEqual(levels, {128})
        in_time(by_clock(halted, came), HELD, "from halt to light")
        self.assertEqual((0, ["where cue 1 next 3 master 255"]), self.without_moments("where"))
        (kept,) = self.night.glob("record-updated-*")
        self.assertTrue(kept.read_bytes().startswith(record))
        self.assertEqual(NEW, (self.night / "show").read_bytes())
        self.spare()
        self.kill("pid")
        self.assertEqual((0, ["ok", "cue 3"]), self.without_moments("go"))

    def test_refused(self):
        """A show that has a fault, is none, or lacks the cue that is on: nothing changes."""
        self.begin_in_cue_1()
        self.assertEqual((0, ["ok", "cue 2"]), self.without_moments("go"))
        faulty = self.file("faulty.asc", b"CUE 1\nCHAN 1@x\nPATCH 1 1<1@FL\n")
        for show, told in (
            (self.new, f"cue 2 is on, and {self.new} has no such cue, but 1 and 3: go to a cue"),
            (faulty, "show line 2: "),
            (self.folder / "none", "there is no such file"),
        ):
            with self.subTest(show):
                status, out, err = self.run_script("update", show)
                self.assertEqual((1, ""), (status, out))
                self.assertIn(told, err)
                self.assertTrue(err.endswith("; nothing was changed\n"), err)
                self.assertEqual(1, err.count("\n"))
        self.assertFalse((self.night / "show.next").exists())
        self.assertEqual(2, self.run_script("update").status)

    def test_before_the_night(self):
        self.assertEqual(0, self.run_script("make", *self.words).status)
        status, _, err = self.run_script("update", self.new)
        self.assertEqual(1, status)
        self.assertIn("no night has begun in", err)

    def test_cue_that_went(self):
        """Where the cue that is on at the start is not in it, the night goes on as it was."""
        self.begin_in_cue_1()
        self.assertEqual(0, self.run_script("update", self.new).status)
        self.assertEqual((0, ["ok", "cue 2"]), self.without_moments("go"))
        self.run_script("halt")
        status, out, _ = self.run_script("start", "--background")
        self.assertEqual(0, status, out)
        self.assertIn("cue 2 is on, and the updated show has no such cue: the night goes on", out)
        self.assertEqual((0, ["where cue 2 next 3 master 255"]), self.without_moments("where"))
