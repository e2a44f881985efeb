"""`live --resume`: a night that is killed goes on, as one stream and one record."""

import calendar
import contextlib
import os
import random
import signal
import subprocess
import time
from pathlib import Path

from live_nights import without_moments
from machine import by_clock, in_time
from program import CID, LIVE_NAME, text
from restart_nights import DARK, HARD, OFF, SEED, SHOW, ByTheScript, RestartTest, next_tick
from restarts import HEAD, head, moments, sent_by, wait_until
from tooling import stand_still
from wire import OPTIONS, SEQUENCE, TERMINATED

HOUR = 3600
# How long the long record is. A program that was built without optimization reads some 1,500 lines
# a second: CUEPLAYER_HOURS=0.03 of the environment makes a record of 4,320.
HOURS = float(os.environ.get("CUEPLAYER_HOURS", 12))


class Kills(RestartTest):
    def play(self, night, chance, kills):
        """Moves without end, and kills in the midst of them, some at a night that just begins."""
        night.begin()
        night.light(2)
        night.type(b"go\n")
        for k in range(kills):
            time.sleep(chance.uniform(0, 0.02) if k % 4 == 3 else chance.uniform(0.05, 0.4))
            night.kill()
            night.begin()
            if k % 4 != 2:
                night.light()
                line = chance.choice((b"sub 1 %d\n", b"master %d\n"))
                night.type(line % chance.randint(30, 100))
        night.light()
        self.assertEnds(night)

    def test_kills(self):
        """Eight processes that were killed, and the one that ends the night, are one stream."""
        night = self.night()
        self.play(night, random.Random(SEED), 8)
        self.assertTaken(night)

    def test_another_source(self):
        """The same with a priority, a base, a name, and a CID however it is spelled."""
        name = "M\u00e4in, priority 7, base 3, name x"
        options = ("--priority", "150", "--base", "7", "--name", name)
        night = self.night(*options, cid=CID.upper())
        self.play(night, random.Random(SEED + 1), 2)
        self.assertTaken(night, *options, priority=150, base=7, name=name)

    def test_killed_before_the_packets(self):
        """A tick may be recorded and not carried out: it costs one packet of each universe."""
        night = self.killed_between_ticks(b"go\n")
        last = moments(night.record.read_bytes())[-1]
        with open(night.record, "ab") as record:
            record.write(b"%d tick\n" % next_tick(last))
        self.assertGoesOn(night)
        self.assertEqual(2, self.assertOne(night).lost)

    def test_killed_behind_end(self):
        """A night that had ended in part ends by itself, with the packets that are left."""
        night = self.killed_between_ticks(b"go\n")
        last = moments(night.record.read_bytes())[-1]
        with open(night.record, "ab") as record:
            record.write(b"%d end\n%d tick\n" % (last + 1, next_tick(last)))
        night.begin()
        self.assertEqual(0, night.end_status())
        self.assertEqual(2, self.assertOne(night).lost)
        _, _, behind = night.record.read_bytes().partition(b" end\n")
        self.assertEqual(3, behind.count(b"\n"))

    def test_hard_night(self):
        """Whatever live has recorded is taken up: of floods, of a process that stood still, and of
        lines that were refused or had keys in them."""
        night = self.night()
        night.begin()
        night.light(2)
        for _ in range(5):
            night.type(HARD * 99)
            stand_still(night.processes[-1].pid)
            time.sleep(0.15)
            night.processes[-1].send_signal(signal.SIGCONT)
            time.sleep(0.02)
        night.type(b"goto 2 in 5\n")
        night.light(20)
        night.kill()
        self.assertGoesOn(night)
        self.assertTaken(night)

    def test_what_is_told(self):
        """Nothing is shown again, and no fault is told."""
        night = self.killed_night(b"go\nsub 1 50\n")
        night.begin()
        night.light()
        night.type(b"where\nback\n")
        self.assertEnds(night)
        (first, _), (second, told) = night.outputs()
        self.assertEqual(["ok", "cue 1", "ok"], without_moments(first))
        where = "where cue 1 next 2 master 255 sub 1:128"
        self.assertEqual([where, "refused AtStart", "ok", "ok"], without_moments(second))
        lines = told.splitlines()
        self.assertEqual([b"show:", b"sends:"], [line.split()[0] for line in lines[:2]])
        self.assertTrue(lines[-1].startswith(b"end ends the night, "), lines)
        self.assertNotIn(b"fault", told)

    def test_two_at_once(self):
        """Of processes that would take up one night at the same time one does, and no other."""
        night = self.killed_night(b"go\n")
        several = [night.begin() for _ in range(4)]
        wait_until(lambda: [each.poll() for each in several].count(None) == 1, "one is left")
        there = next(each for each in several if each.poll() is None)
        self.assertLessEqual({each.returncode for each in several if each is not there}, {4, 5})
        night.processes.append(there)
        night.light()
        self.assertEnds(night)
        self.assertTaken(night)

    def test_full_disk(self):
        """Where such a night cannot be recorded, that is told once, and the light goes on."""
        night = self.killed_night(b"go\n")
        size = night.record.stat().st_size + 100
        night.begin(limit=size)
        night.light(40)
        wait_until(lambda: night.record.stat().st_size == size, "the disk is full")
        self.assertEnds(night)
        told = night.outputs()[-1][1].splitlines()
        self.assertEqual(1, told.count(b"record: device fault"), told)
        self.assertTrue(night.heard[-1].packet[OPTIONS] & TERMINATED)

    def test_full_disk_under_a_lock(self):
        """No other process takes up a night that goes on and is recorded no more."""
        night = self.killed_night(b"go\n")
        night.begin(limit=night.record.stat().st_size + 100)
        night.tells(b"record: device fault")
        words = [*night.words, "--resume"]
        second = subprocess.run(
            words, input=b"", capture_output=True, timeout=30, env=night.env
        )
        self.assertEqual(4, second.returncode, second.stderr)
        self.assertRegex(second.stderr, rb"^record: in use\b")
        self.assertEnds(night)


class KillsByTheScript(ByTheScript, Kills):
    """The same where a process of its own writes the record."""

    def writer(self, night):
        """The process that writes the record."""
        for each in Path("/proc").glob("[0-9]*/fd/1"):
            # Other processes come and go meanwhile.
            with contextlib.suppress(OSError):
                if os.path.samefile(each, night.record):
                    return int(each.parts[2])
        return self.fail("no writer")

    def go_on(self, writer):
        try:
            os.kill(writer, signal.SIGCONT)
        except ProcessLookupError:
            pass

    def stalled_night(self):
        """A night whose record waits for its writer, which stands still."""
        night = self.night()
        night.begin()
        night.light(2)
        writer = self.writer(night)
        stand_still(writer)
        self.addCleanup(self.go_on, writer)
        night.type(b"go\n")
        night.light(20)
        return night, writer

    def test_writer_that_stalls(self):
        """A night is not taken up as long as its record is still written, and then whole."""
        night, writer = self.stalled_night()
        before = night.record.read_bytes()
        night.kill(stalls=True)
        night.ear.settle()
        heard = len(night.heard)
        refused = night.begin()
        line = refused.stderr.readline()
        self.assertRegex(line, rb"^record: in use( by process %d)?\n" % writer)
        self.assertEqual((4, before), (refused.wait(30), night.record.read_bytes()))
        self.assertEqual(heard, len(night.heard))
        self.go_on(writer)
        self.assertGoesOn(night)
        self.assertOne(night)

    def test_writer_that_ends_soon(self):
        """A night that is taken up while its record is still written begins when that is whole."""
        night, writer = self.stalled_night()
        night.kill(stalls=True)
        night.begin()
        night.reads(night.processes[-1])
        time.sleep(0.2)
        self.go_on(writer)
        night.light()
        self.assertEnds(night)
        self.assertOne(night)


class Clock(RestartTest):
    """The moments behind a restart, by the time at which FILE was written last."""

    def taken_up(self, night, pause=0.0, shift=None):
        """By how many milliseconds the moments go on in a restart after a pause, and the stretch
        from the time of FILE, which may be shifted by some seconds, to the first packet."""
        time.sleep(pause)
        if shift is not None:
            os.utime(night.record, (time.time() + shift,) * 2)
        before, written = night.record.read_bytes(), night.record.stat().st_mtime
        heard = len(night.heard)
        self.assertGoesOn(night)
        last = moments(before, rb"\w")[-1]
        first = moments(night.record.read_bytes()[len(before) :], rb"tick\n")[0]
        return first - last, by_clock(written, night.heard[heard].at)

    def assertGoesOnBy(self, night, least, shift):
        """The moments of a night whose FILE is so old go on by this time, and by what a restart
        takes."""
        begun = time.time()
        gone_on, _ = self.taken_up(night, shift=shift)
        self.assertGreaterEqual(gone_on, least)
        restart = by_clock(begun, time.time())
        in_time(restart._replace(ms=gone_on - least), DARK, f"behind {least} ms")

    def assertInRealTime(self, gone_on, real):
        # A line may be recorded some time behind its moment.
        stretch = real._replace(ms=abs(gone_on - real.ms), since=real.since - 1)
        in_time(stretch, OFF, "moments are off real time")

    def test_real_time(self):
        """Within seconds they go on with real time: a move goes on as if nothing had happened."""
        for pause in (0, 0.4, 1.2):
            with self.subTest(pause=pause):
                night = self.killed_night(b"go\n")
                self.assertInRealTime(*self.taken_up(night, pause))
                self.assertOne(night)

    def test_an_hour_later(self):
        """Of a longer time ten seconds count."""
        for shift in (-11, -HOUR):
            with self.subTest(shift=shift):
                night = self.killed_night(b"go\n")
                self.assertGoesOnBy(night, 10_000, shift)
                self.assertOne(night)

    def test_clock_that_ran_back(self):
        """Where FILE was written later than now, nothing counts."""
        night = self.killed_night(b"go\n")
        self.assertGoesOnBy(night, 23, HOUR)
        self.assertOne(night)

    def test_clock_that_runs_to_and_fro(self):
        """Twice killed and taken up thrice: one record, one stream."""
        night = self.killed_night(b"go\n")
        for shift in (-HOUR, HOUR, -HOUR):
            os.utime(night.record, (time.time() + shift,) * 2)
            night.begin()
            night.light(8)
            night.type(b"goto %d in 8\n" % (1 + len(night.kills) % 2))
            night.light(8)
            night.kill()
        self.assertGoesOn(night)
        self.assertOne(night)

    def test_follow_on(self):
        """A follow-on that was due meanwhile is made, at its own moment."""
        cues = ("CUE 1", "FOLLOWON 6", "CHAN 1@50", "CUE 2", "UP 4", "CHAN 1@FL")
        night = self.killed_night(b"go\n", show=text(*cues, "PATCH 1 1<1@FL"))
        went = moments(night.record.read_bytes(), b"go")[0]
        self.taken_up(night, shift=-8)
        self.assertOne(night)
        shown = night.outputs()[-1][0].splitlines()
        self.assertEqual(b"%d cue 2" % (went + 6000), shown[0])

    def kept_alive(self, pause):
        """A stage at rest, taken up after a pause: how long after the restart, and after the last
        packet before it, the first one came."""
        night = self.killed_night(
            b"go\n", show=text("CUE 1", "CHAN 1@50", "PATCH 1 1<1@FL"), pause=0.4
        )
        time.sleep(pause)
        begun = time.time()
        self.taken_up(night)
        self.assertOne(night)
        first = next(k for k, each in enumerate(night.heard) if each.at > begun)
        last, came = (night.heard[k].at for k in (first - 1, first))
        return by_clock(begun, came), by_clock(last, came)

    def test_keep_alive(self):
        """A packet that was due meanwhile comes at once, and one that was not when it is due."""
        soon, _ = self.kept_alive(1)
        in_time(soon, DARK, "a packet that was due")
        _, apart = self.kept_alive(0)
        in_time(apart, 800 + DARK, "a packet that was not due")
        in_time(apart._replace(ms=800 - apart.ms), 100, "a packet is early")

    def test_past_the_number_255(self):
        """Numbers go on, after a night of which the record alone is left."""
        night = self.night()
        lines = [(25 * k, b"tick") for k in range(400)]
        lines += [(2480 + 2500 * k, b"goto %d" % (2 - k % 2)) for k in range(3)]
        lines = [b"%d %s\n" % line for line in sorted([*lines, (3, b"go")])]
        night.record.write_bytes(head(SHOW) + b"".join(lines))
        before = len(list(sent_by(SHOW, night.record.read_bytes())))
        self.assertGreater(before, 2 * 256)
        self.assertGoesOn(night)
        meant = [each.packet for each in sent_by(SHOW, night.record.read_bytes())]
        self.assertEqual(meant[before:], [each.packet for each in night.heard])

    def test_after_twelve_hours(self):
        """A long record takes its time, and moments go on with real time all the same. At rest a
        packet came each 800 ms, behind the four of the first ticks."""
        night = self.night()
        ticks = range(0, int(1000 * HOURS * HOUR), 25)
        lines = b"".join(b"%d tick\n" % moment for moment in ticks)
        night.record.write_bytes(head(SHOW) + lines)
        self.assertInRealTime(*self.taken_up(night))
        sent = 4 + (ticks[-1] - 75) // 800
        numbers = [each.packet[SEQUENCE] for each in night.heard[::2]]
        self.assertEqual([k % 256 for k in range(sent, sent + len(numbers))], numbers)


class New(RestartTest):
    """A FILE in which no night stands."""

    def begun_in(self, content, *options, resume=True, **kept):
        """A night that begins in a FILE of this content, none where that is None, and ends."""
        night = self.night(*options, **kept)
        if content is not None:
            night.record.write_bytes(content)
        night.begin(resume=resume)
        night.light(2)
        self.assertEnds(night)
        return night

    def test_no_night(self):
        """Where FILE is not there, or is empty, the night begins, and that is told."""
        for content in (None, b""):
            with self.subTest(content):
                night = self.begun_in(content)
                self.assertOne(night)
                ((_, told),) = night.outputs()
                self.assertIn(b"record: %s is new\n" % bytes(night.record), told)

    def test_head_alone(self):
        """Of a night that was killed before its first line there is the head alone: it goes on."""
        night = self.begun_in(head(SHOW))
        self.assertTrue(night.record.read_bytes().startswith(head(SHOW)))
        self.assertOne(night)

    def test_head(self):
        """The first line says whose the record is, may the night be taken up or not."""
        self.assertHead(CID, "100", "1", resume=False)
        self.assertHead(CID, "100", "1", cid=CID.replace("-", ""))
        options = ("--priority", "7", "--base", "300")
        self.assertHead(CID, "7", "300", *options, cid=f"{{{CID.upper()}}}")
        for name in ("the backup, started last", "n" * 63):
            self.assertHead(CID, "100", "1", "--name", name, name=name)

    def assertHead(self, wanted, priority, base, *options, name=LIVE_NAME, **kept):
        before = time.time()
        night = self.begun_in(None, *options, **kept)
        after = time.time()
        found = HEAD.match(night.record.read_bytes())
        said = [found[key].decode() for key in ("cid", "priority", "base", "name")]
        self.assertEqual([wanted, priority, base, name], said)
        summed = subprocess.run(["sha256sum", night.show], capture_output=True)
        self.assertEqual(summed.stdout.split()[0], found["show"])
        whole, _, thousandths = found["started"].decode().rstrip("Z").partition(".")
        seconds = calendar.timegm(time.strptime(whole, "%Y-%m-%dT%H:%M:%S"))
        started = seconds + int(thousandths) / 1000
        self.assertTrue(before - 0.002 < started < after, (before, started, after))


class NewByTheScript(ByTheScript, New):
    """The same where a process of its own writes the record."""
