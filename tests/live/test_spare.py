"""`live --spare`: a second process goes on with a night at once where the first one dies."""

import random
import select
import signal
import time

from restart_nights import HARD, SEED, TRIES, ByTheScript, RestartTest, next_tick
from restarts import PATIENCE, Wrong, head, moments, wait_until
from tooling import stand_still

# In milliseconds: from a kill to the next packet at most.
DARK = 250


class Spare(RestartTest):
    def begin_with_spare(self, *lines, **kept):
        """A night that plays, with a spare that has taken up what is recorded."""
        night = self.night(**kept)
        night.begin()
        night.light(2)
        night.type(b"".join(lines))
        night.light(2)
        night.stands_by()
        return night

    def replace(self, night):
        """The night is killed, the spare goes on, and another stands by."""
        night.kill()
        night.promote()
        night.light()
        night.stands_by()

    def assertGoesOn(self, night):
        night.kill()
        night.promote()
        night.light()
        self.assertEnds(night)

    def assertSilent(self, spare):
        """It ended well, and told nothing."""
        self.assertEqual(0, spare.wait(30))
        self.assertEqual((b"", b""), (spare.stdout.read(), spare.stderr.read()))

    def assertRefused(self, spare, status, told):
        self.assertEqual(status, spare.wait(30))
        self.assertEqual(told, spare.stderr.read().splitlines()[0])

    def test_kills(self):
        """Six processes that were killed, each followed by its spare, are one stream."""
        chance = random.Random(SEED + 5)
        night = self.begin_with_spare(b"go\n")
        for _ in range(5):
            time.sleep(chance.uniform(0.05, 0.3))
            self.replace(night)
            night.type(chance.choice((b"sub 1 %d\n", b"master %d\n")) % chance.randint(30, 100))
            time.sleep(0.2)
        spare = night.spare
        self.assertGoesOn(night)
        self.assertIs(spare, night.processes[-1])
        self.assertTaken(night, dark=DARK)

    def test_what_was_typed(self):
        """Lines that were refused, keys and comments; each line of the record is taken up."""
        night = self.begin_with_spare(HARD)
        night.light(8)
        self.assertGoesOn(night)
        self.assertTaken(night, dark=DARK)

    def test_end(self):
        """Where the night ends, so does its spare, and tells nothing."""
        for line in (b"end\n", b"leave\n"):
            with self.subTest(line):
                night = self.begin_with_spare(b"go\n")
                self.assertEqual(0, night.end(line))
                self.assertSilent(night.spare)

    def test_killed_in_the_end(self):
        """A night that was killed behind its `end` is brought to its end by the spare."""
        night = self.begin_with_spare(b"go\n")
        night.type(b"end\n")
        wait_until(lambda: moments(night.record.read_bytes(), b"end"), "it is recorded")
        night.kill()
        night.promote()
        self.assertEqual(0, night.end_status())
        self.assertOne(night)

    def killed_between_ticks(self, *lines):
        """The same, and its spare stands still."""
        for _ in range(TRIES):
            night = self.begin_with_spare(*lines)
            stand_still(night.spare.pid)
            night.kill()
            night.settle()
            if night.is_at_rest():
                return night
        raise Wrong(f"{TRIES} kills, and none fell between two ticks")

    def test_killed_before_the_packets(self):
        """A tick may be recorded and not carried out, and a line be cut: the line is dropped."""
        night = self.killed_between_ticks(b"go\n")
        last = moments(night.record.read_bytes())[-1]
        with open(night.record, "ab") as record:
            record.write(b"%d tick\n%d goto" % (next_tick(last), next_tick(last) + 1))
        night.spare.send_signal(signal.SIGCONT)
        night.promote()
        night.light()
        self.assertEnds(night)
        # That tick, of each universe.
        self.assertEqual(2, self.assertOne(night).lost)
        self.assertIn(b"its last line was cut", night.outputs()[-1][1])

    def test_no_live_plays(self):
        """Then it goes on at once, as --resume alone does."""
        night = self.killed_night(b"go\n")
        night.stand_by()
        night.promote()
        night.light()
        self.assertEnds(night)
        self.assertOne(night)

    def test_two_spares(self):
        """One goes on, which it tells, and the other stands by for that one."""
        night = self.begin_with_spare(b"go\n")
        spares = [night.spare, night.stands_by()]
        self.addCleanup(lambda: [each.kill() for each in spares])
        errors = [each.stderr for each in spares]
        night.kill()
        select.select(errors, [], [], PATIENCE)
        # The other one would tell it as soon.
        time.sleep(0.3)
        told = select.select(errors, [], [], 0)[0]
        self.assertEqual(1, len(told))
        spares.sort(key=lambda each: each.stderr not in told)
        night.spare = spares[0]
        night.promote()
        night.spare = spares[1]
        night.light(8)
        self.assertGoesOn(night)
        self.assertOne(night)

    def test_stands_still(self):
        """A program that is stopped is not dead: nobody sends in its place."""
        night = self.begin_with_spare(b"go\n")
        stand_still(night.processes[-1].pid)
        night.ear.settle()
        heard = len(night.heard)
        time.sleep(0.4)
        self.assertEqual(heard, len(night.heard))
        night.processes[-1].send_signal(signal.SIGCONT)
        night.light()
        self.assertGoesOn(night)
        self.assertOne(night)

    def test_stands_by_for_long(self):
        """It asks for no lock of its CID meanwhile: a lock is asked for within a second."""
        night = self.begin_with_spare(b"go\n")
        time.sleep(2)
        self.assertIsNone(night.spare.poll())
        self.assertGoesOn(night)
        self.assertOne(night)

    def test_head_that_comes(self):
        """The head of the record may take a second to come."""
        night = self.night()
        night.record.touch()
        night.stands_by()
        time.sleep(0.3)
        night.record.write_bytes(head(self.SHOW) + b"0 tick\n")
        night.promote()
        night.light()
        self.assertEnds(night)

    def test_name_that_comes(self):
        """It sends by the name of the night that it takes up, though the head comes late."""
        night = self.night()
        night.record.touch()
        night.stands_by()
        time.sleep(0.3)
        night.record.write_bytes(head(self.SHOW, name="stage left") + b"0 tick\n")
        night.promote()
        night.light()
        self.assertEnds(night)

    def test_refused(self):
        """A record that is none, or of another night, and a line that no night gives."""
        show = self.SHOW
        for record, told in (
            (b"0 tick\n1 tick\n", b"record: no record of live"),
            (head(b"another") + b"0 tick\n", b"record: another show"),
            (head(show, priority=7) + b"0 tick\n", b"record: another priority"),
            (head(show) + b"0 tick\n0 tick\n", b"record: line 4 is none that live gives"),
        ):
            with self.subTest(told):
                night = self.night()
                night.record.write_bytes(record)
                spare = night.stand_by()
                self.assertEqual(4, spare.wait(30))
                self.assertEqual(told, spare.stderr.read().splitlines()[0])
                self.assertEqual(record, night.record.read_bytes())


class SpareByTheScript(ByTheScript, Spare):
    """What the writer of a program that died has to write yet comes before the spare goes on."""
