"""`cueplayer-night` where a night cannot go on: it is tried again, and told once; or it begins anew
in the cue in which it was."""

import os
import signal
import time
import unittest

from kept_nights import RefusedTest
from program import text
from restarts import head
from tooling import wait_for

from cueplayer_tools.cue_list import Cue, Show
from cueplayer_tools.keeper.last_cue import cue_at_end

AGAIN = "live refused to begin, with status 4: the lines above say why; tried again each second"
FOLLOWED = text(
    "CUE 1", "CHAN 1@50", "CUE 2", "FOLLOWON 1", "CHAN 1@FL", "CUE 3", "CHAN 1@20",
    "CUE 4", "CHAN 1@40", "PATCH 1 1<1@FL",
)  # fmt: skip


class Refused(RefusedTest):
    def damage(self, line=b"garbage\n"):
        """A line in the record that no night gives; the record as it was."""
        record = self.night / "record"
        whole = record.read_bytes()
        record.write_bytes(whole + line + b"9999999 tick\n")
        return whole

    def test_told_once_and_tried_again(self):
        """As long as the record is damaged; once it is put back, the night goes on."""
        self.begin_night()
        self.go(1)
        self.kill_all()
        whole = self.damage()
        status, out, _ = self.run_script("start", "--background")
        self.assertEqual(1, status)
        self.assertIn(f"{AGAIN}: put back the record or the show; to begin in the last cue, ", out)
        self.wait_for_tries(3)
        self.assertEqual(1, self.replies().count(AGAIN))
        self.assertEqual(1, self.replies().count("record: line "))
        self.assertIn(AGAIN, self.run_script("status").out)
        self.came()
        (self.night / "record").write_bytes(whole)
        self.wait_for_reply(r"live \(process \d+\) plays again$")
        self.wait_for_level(128)
        self.assertEqual((0, ["where cue 1 next 2 master 255"]), self.without_moments("where"))
        self.assertEqual(1, self.replies().count(AGAIN))

    def test_spare_that_is_refused(self):
        """It is told once, tried again, and told that one stands by again."""
        self.begin_night()
        self.spare()
        self.damage_head()
        self.kill("spare")
        self.wait_for_reply("no spare stands by, as the lines above say: if live dies, it is ")
        refused = self.number("spare")
        wait_for(lambda: self.number("spare") != refused, "another try")
        self.assertEqual(1, self.replies().count("record: no record of live"))
        self.damage_head(b"!")
        self.wait_for_reply("a spare stands by again$")
        self.assertEqual(1, self.replies().count("no spare stands by"))
        live, spare = self.kill("pid"), self.number("spare")
        told = rf"live \(process {live}\) was ended by SIGKILL: the spare \(process {spare}\) "
        self.wait_for_reply(f"{told}goes on where it was$")

    def test_record_that_is_still_written(self):
        """By what `live` left as it died: the spare waits for it however long, and goes on."""
        self.begin_night()
        self.go(1)
        spare, live, writer = self.spare(), self.number("pid"), self.writer()
        go_on = self.stall(writer)
        killed = time.monotonic()
        os.kill(live, signal.SIGKILL)
        self.wait_for_reply("the record is still written for a live that is gone: the disk stalls")
        # A spare that waits for nobody is ended after three seconds.
        wait_for(lambda: time.monotonic() > killed + 4, "four seconds")
        self.assertTrue(self.is_there(spare))
        self.assertNotIn("goes on where it was", self.replies())
        self.came()
        go_on()
        self.wait_for_reply(rf"the spare \(process {spare}\) goes on where it was$")
        self.wait_for_level(128)
        self.assertEqual(spare, self.number("pid"))


class Anew(RefusedTest):
    SHOW = FOLLOWED

    def test_begins_in_the_last_cue(self):
        """The record that is refused is kept as it is; the follow-on was made."""
        self.begin_night()
        self.go(1, 2)
        self.wait_for_reply(r"^\d+ cue 3$")
        self.kill_all()
        record = self.night / "record"
        with open(record, "ab") as file:
            file.write(b"9999 goto\n")
        damaged = record.read_bytes()
        self.came()
        status, out, _ = self.run_script("start", "--background", "--if-refused", "begin")
        self.assertEqual(0, status, out)
        told = "record: line .*: the night starts again in cue 3, its masters at full"
        self.assertRegex(out, told)
        (kept,) = self.night.glob("record-refused-*")
        self.assertEqual(damaged, kept.read_bytes())
        self.assertIn(kept.name, out)
        self.wait_for_level(51)
        self.assertEqual((0, ["where cue 3 next 4 master 255"]), self.without_moments("where"))
        self.spare()
        self.go(4)
        self.kill("pid")
        self.wait_for_reply("goes on where it was$")
        self.assertEqual((0, ["where cue 4 master 255"]), self.without_moments("where"))

    def test_while_it_is_played(self):
        """A damaged record is found as `live` dies: the light is back before receivers let go."""
        self.words += ["--if-refused", "begin"]
        self.begin_night()
        self.go(1)
        self.spare()
        self.damage_head()
        self.kill("spare")
        self.wait_for_reply("no spare stands by")
        self.wait_for_level(128)
        self.came()
        self.kill("pid")
        self.wait_for_reply("the night starts again in cue 1, its masters at full")
        self.wait_for_level(128)
        self.assertEqual((0, ["where cue 1 next 2 master 255"]), self.without_moments("where"))

    def test_head_that_is_damaged(self):
        """The cue is known from the other lines, or else from the replies."""
        self.begin_night()
        self.go(1, 2)
        self.wait_for_reply(r"^\d+ cue 3$")
        for is_told in (True, False):
            with self.subTest(is_told=is_told):
                self.kill_all()
                record, replies = self.night / "record", self.night / "replies"
                record.write_bytes(b"?" + record.read_bytes()[1:] if is_told else b"?\n")
                if is_told:
                    replies.write_bytes(b"")
                status, out, _ = self.run_script("start", "--background", "--if-refused=begin")
                self.assertEqual(0, status, out)
                self.assertIn("the night starts again in cue 3", out)
                self.spare()

    def test_words(self):
        status, out, err = self.run_script("start", *self.words, "--if-refused", "wait")
        self.assertEqual((2, ""), (status, out))
        self.assertIn("--if-refused wants the word begin", err)


class LastCue(unittest.TestCase):
    """The cue at the end of a record, worked by hand from the rules of its lines."""

    SHOW = Show({1000: Cue(), 2000: Cue(follow=5000), 2500: Cue(follow=1000), 3000: Cue()})

    def assertCue(self, cue, *lines):
        record = head(b"show") + b"".join(line.encode() + b"\n" for line in lines)
        self.assertEqual(cue, cue_at_end(record, self.SHOW))

    def test_moves(self):
        self.assertCue(None, "0 tick", "25 back", "50 goto 7")
        self.assertCue(1000, "0 tick", "10 go", "25 tick")
        self.assertCue(3000, "0 tick", "10 GOTO 3 in 2", "25 go ! at the end")
        self.assertCue(1000, "10 go", "20 go", "30 back")

    def test_follow_ons(self):
        """They are made at their moments, one behind the other, unless a move comes first."""
        self.assertCue(2000, "10 goto 2", "5009 tick")
        self.assertCue(2500, "10 goto 2", "5010 tick")
        self.assertCue(3000, "10 goto 2", "6010 tick")
        self.assertCue(1000, "10 goto 2", "5000 back", "9000 tick")
        self.assertCue(2000, "10 goto 2", "20 end", "9000 tick")

    def test_lines_that_cannot_be_read(self):
        self.assertCue(1000, "10 go", "\x00\xff", "go", "20 go go", "30 goto", "40 tick", "50 ti")
