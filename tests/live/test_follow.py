"""`live --follow`: a backup carries out the lines of a main's record as they come, under its own
CID, and goes on by itself when the main is silent."""

import fcntl
import os
import re
import subprocess
import sys
import termios
import threading
import time
from pathlib import Path

from backups import BACKUP, LEADS, LONG, PRIORITY, FollowTest
from machine import by_clock, in_time, took
from program import CID, PROGRAM, run
from restart_nights import SHOW, ByTheScript
from restarts import PATIENCE, head, moments, sent_by, universe_of, wait_until
from tooling import open_files
from wire import OPTIONS, SLOT_1, TERMINATED, address_of, receiver_socket

# How long a main may be silent, in milliseconds, and how late the light may come behind that or the
# main's.
SILENCE, LATE = 300, 100
# Bytes that a pipe holds.
PIPE = 65_536
ALONE = rb"\d:\d\d:\d\d the main is silent: goes on by itself"
REFUSED = b": the main leads; take ends the following\n"


def slots_by_place(sent):
    """The slots of packets, by their moment and universe."""
    return {(each.moment, universe_of(each.packet)): each.packet[SLOT_1:] for each in sent}


def filled(reader):
    """How many bytes a pipe holds."""
    return int.from_bytes(fcntl.ioctl(reader, termios.FIONREAD, bytes(4)), sys.byteorder)


def lines_of(record):
    """The lines of a record behind its head."""
    return record.read_bytes().split(b"\n", 2)[2]


class Leads(FollowTest):
    """While the main is there."""

    def test_slots(self):
        """At each tick the slots of both streams are equal, until the end of both."""
        main, backup = self.both(b"go\n")
        backup.light(30)
        main.type(b"sub 1 50\ngo\n")
        backup.light(40)
        self.assertEqual(0, main.end())
        self.assertEqual(0, backup.end_status())
        led = slots_by_place(sent_by(SHOW, main.record.read_bytes()))
        heard = slots_by_place(self.assertStream(backup))
        self.assertLess(60, len(heard))
        self.assertEqual(heard, {place: led[place] for place in heard})
        self.assertEqual(TERMINATED, backup.heard[-1].packet[OPTIONS] & TERMINATED)
        self.assertTold(
            backup,
            rb"record: %b\n" % re.escape(os.fsencode(backup.record)),
            rb"follows: .*, of CID %b, priority 100, at 0:00:\d\d of the night, " % CID.encode(),
            rb"0:00:\d\d the main has ended the night\n",
        )
        # The record of a backup is the main's, but for its head.
        self.assertEqual(1, len({lines_of(each.record) for each in (main, backup)}))

    def test_at_once(self):
        """The record is looked at so often that both lights move as one."""
        main, backup = self.both(b"go\n")
        backup.light(30)
        self.assertEqual((0, 0), (main.end(), backup.end_status()))
        sent = sent_by(SHOW, main.record.read_bytes())
        came = {each.moment: heard.at for each, heard in zip(sent, main.heard)}
        meant = self.assertStream(backup)
        self.assertLess(30, len(meant))
        for each, heard in zip(meant, backup.heard):
            in_time(by_clock(came[each.moment], heard.at), LATE, "a packet behind the main's")

    def test_typed(self):
        """What is typed moves no light; `where` and `help` are answered."""
        main, backup = self.both(b"go\n")
        backup.type(b"go\nend\nwhere\nhelp\n\n  \ntake 2\ngo")
        backup.light(10)
        main.end()
        backup.end_status()
        out, err = self.assertTold(backup)
        refused = [line for line in err.splitlines(True) if line.startswith(b"line refused: ")]
        self.assertEqual(
            [b"line refused: " + word + REFUSED for word in (b"go", b"end", b"take 2")], refused
        )
        self.assertRegex(out, rb"(?m)^\d+ where cue 1 next 2 master 255$")
        self.assertIn(b"take: from now on this console leads", out)
        self.assertEqual(1, backup.record.read_bytes().count(b" go\n"))

    def test_longer_than_its_patience(self):
        """A main whose lines come is followed for longer than it may be silent."""
        main, backup = self.both(b"go\n", silence=1000)
        time.sleep(1.5)
        main.type_commands(b"sub 1 50\n")
        self.follows(main, backup)
        self.assertEqual((0, 0), (main.end(), backup.end_status()))
        self.assertTold(backup, rb"0:00:(?!00)\d\d the main has ended the night\n")
        self.assertEqual(1, len({lines_of(each.record) for each in (main, backup)}))

    def test_lock(self):
        """No other console begins under the CID of a backup that follows."""
        _, backup = self.write_and_follow("0 tick")
        words = ["live", backup.show, "--to", self.to, "--cid", BACKUP]
        second = subprocess.run(
            [PROGRAM, *words], input=b"0 tick\n", capture_output=True, timeout=PATIENCE
        )
        self.assertEqual((5, b"", []), (second.returncode, second.stdout, self.came()))
        self.assertIn(b"another console on this machine sends under this CID", second.stderr)

    def test_old_lines(self):
        """What stood in the record before is taken up, and not sent."""
        record, backup = self.write_and_follow("0 tick", "25 tick", "30 goto 2 in 0", "50 tick")
        time.sleep(0.3)
        self.assertEqual([], backup.heard)
        self.write(record, "75 tick")
        backup.light(2)
        self.assertEqual({75}, {each.moment for each in self.assertStream(backup)})

    def test_old_lines_into_a_record_that_is_late(self):
        """All of what stood there is in the backup's own record, though nobody reads that yet."""
        record, own, show = (self.folder / name for name in ("main.play", "own", "show.asc"))
        line = b"0 master FL ! " + b"x" * 150 + b"\n"
        record.write_bytes(head(SHOW) + b"0 tick\n" + line * 2_000)
        show.write_bytes(SHOW)
        os.mkfifo(own)
        words = ["live", show, "--to", self.to, "--cid", BACKUP, "--record", own]
        words += ["--follow", record, "--patience", LONG, "--priority", str(PRIORITY)]
        reader = os.open(own, os.O_RDONLY | os.O_NONBLOCK)
        pipes = dict.fromkeys(("stdin", "stderr"), subprocess.PIPE)
        backup = subprocess.Popen([PROGRAM, *words], **pipes)
        self.addCleanup(backup.communicate)
        self.addCleanup(backup.kill)
        wait_until(lambda: filled(reader) > PIPE // 2, "the own record is late")
        time.sleep(1)
        os.set_blocking(reader, True)
        kept = []
        reading = threading.Thread(target=lambda: kept.append(open(reader, "rb").read()))
        reading.start()
        told = iter(backup.stderr.readline, b"")
        self.assertTrue(any(each.startswith(LEADS) for each in told))
        backup.kill()
        reading.join(timeout=30)
        self.assertEqual(2_000, kept[0].count(line))

    def test_head_that_comes(self):
        """The head of its record may come while the backup begins."""
        record = self.folder / "main.play"
        record.touch()
        words = ["--follow", record, "--patience", LONG, "--priority", str(PRIORITY)]
        backup = self.night(*words, cid=BACKUP)
        process = backup.begin(resume=False)
        wait_until(lambda: record in open_files(process.pid), "the record is read")
        time.sleep(0.1)
        record.write_bytes(head(SHOW) + b"0 tick\n")
        backup.tells(LEADS)

    def test_cut_line(self):
        """A line waits for its LF, and may be cut off by a main that is taken up."""
        record, backup = self.write_and_follow("0 tick")
        for part in (b"25 ti", b"ck", b"\n30 go"):
            time.sleep(0.1)
            with open(record, "ab", buffering=0) as file:
                file.write(part)
        backup.light(2)
        # The part behind its last LF has been read by then, mostly.
        time.sleep(0.1)
        os.truncate(record, record.read_bytes().rfind(b"\n") + 1)
        self.write(record, "50 tick", "75 tick")
        backup.light(4)
        self.assertEqual(b"0 tick\n25 tick\n50 tick\n75 tick\n", lines_of(backup.record))
        self.assertStream(backup)

    def test_comment(self):
        """A comment says that lines are missing: it is told, and left out."""
        record, backup = self.write_and_follow("0 tick")
        self.write(record, "! 3 lines dropped", "25 tick")
        backup.light(2)
        backup.kill()
        self.assertTold(backup, rb"the main's record: lines are missing, .*: ! 3 lines dropped\n")

    def test_other_line(self):
        """A line that no night gives ends the backup, and is named."""
        for line in ("25 tock", "20 tick", "25 " + "0" * 300, "x" * 5000):
            record, backup = self.write_and_follow("0 tick", "25 tick")
            self.write(record, line)
            self.assertEqual(4, backup.processes[-1].wait(PATIENCE))
            self.assertTold(backup, rb"record: line 5 is none that live gives\n")

    def test_taken_up(self):
        """A main that is killed and taken up within the patience is followed on."""
        main, backup = self.both(b"go\n")
        main.kill()
        main.begin()
        main.light(2)
        main.type(b"master 50\n")
        backup.light(4)
        self.assertEqual(0, main.end())
        self.assertEqual(0, backup.end_status())
        self.assertIn(b" master 50\n", backup.record.read_bytes())
        self.assertStream(backup)

    def test_fifo(self):
        """The record of a main may be a FIFO."""
        pipe = self.folder / "main.pipe"
        os.mkfifo(pipe)
        with open(pipe, "r+b", buffering=0) as file:
            file.write(head(SHOW) + b"0 tick\n")
            backup = self.backup(pipe)
            file.write(b"25 ti")
            time.sleep(0.1)
            file.write(b"ck\n")
            backup.light(2)
        self.assertStream(backup)


class Killed(FollowTest):
    def test_killed(self):
        """In the midst of a fade: the light goes on with no jump, within the patience."""
        main, backup = self.both(b"go\n", silence=SILENCE)
        time.sleep(0.5)
        began = time.monotonic()
        main.kill()
        backup.tells(ALONE)
        backup.light(40)
        self.assertEqual(0, backup.end(b"take\nwhere\nend\n"))
        meant = self.assertStream(backup)
        kill = main.kills[0].at
        # What the main had recorded comes within a tick or two.
        led = moments(main.record.read_bytes())
        first = moments(backup.record.read_bytes())[len(led)]
        # The silence has passed in the night too.
        self.assertLessEqual(SILENCE, first - led[-1])
        after = next(k for k, each in enumerate(meant) if each.moment >= first)
        gap = by_clock(kill, backup.heard[after].at)
        print(f"    {gap.ms:.0f} ms from the kill to the backup's own light")
        in_time(gap, SILENCE + LATE, "from the kill to the backup's own light")
        # The clock goes on: each packet comes at its moment, by the clock of those before the
        # kill.
        zeros = [1000 * each.at - sent.moment for each, sent in zip(backup.heard, meant)]
        in_time(took(began - 1)._replace(ms=max(zeros) - min(zeros)), LATE, "packets are late")
        # Dimmer 1 of cue 1, in a fade of six seconds, never falls and never leaps, up to the seven
        # packets of the end.
        levels = [each.packet[SLOT_1] for each in meant if universe_of(each.packet) == 1][:-7]
        steps = [b - a for a, b in zip(levels, levels[1:])]
        self.assertLessEqual(0, min(steps))
        # A step in milliseconds of the fade.
        in_time(
            gap._replace(ms=6000 * max(steps) / 255), SILENCE + LATE + 50, "a leap of the light"
        )
        out, err = self.assertTold(
            backup,
            rb"0:00:\d\d the main is silent: goes on by itself\n",
            rb"line refused: take: no such command",
        )
        self.assertRegex(out, rb"(?m)^\d+ where cue 1 next 2 master 255$")


class KilledByTheScript(ByTheScript, Killed):
    """A program of its own writes each record."""


class Silent(FollowTest):
    """Where the main leads no more."""

    def test_take(self):
        """`take` ends the following at once, and what is typed behind it counts."""
        main, backup = self.both(b"go\n")
        backup.type(b"back\ntake\ngo\n")
        backup.light(20)
        main.type(b"master 50\n")
        backup.light(4)
        self.assertEqual(0, backup.end())
        self.assertTold(
            backup, rb"line refused: back: ", rb"0:00:\d\d the following was ended: goes on"
        )
        lines = backup.record.read_bytes()
        self.assertEqual(
            (2, 0, 0), tuple(map(lines.count, (b" go\n", b" back\n", b" master 50\n")))
        )
        self.assertStream(backup)
        self.assertEqual(0, main.end())

    def test_part_of_a_line(self):
        """A line is of the moment at which its LF comes."""
        main, backup = self.both(b"go\n", silence=SILENCE)
        backup.type(b"goto 1")
        backup.light(4)
        main.kill()
        backup.tells(ALONE)
        backup.type(b" in 0\n")
        backup.light(4)
        self.assertEqual(0, backup.end())
        self.assertRegex(backup.record.read_bytes(), rb"(?m)^\d+ goto 1 in 0$")
        out, _ = self.assertTold(backup)
        self.assertRegex(out, rb"(?m)^\d+ cue 1$")

    def test_back_again(self):
        """A main that is taken up later is not followed again: priority says whose light
        counts."""
        main, backup = self.both(b"go\n", silence=SILENCE)
        main.kill()
        backup.tells(ALONE)
        main.begin()
        main.light(2)
        main.type(b"master 50\n")
        main.light(4)
        self.assertEqual((0, 0), (main.end(), backup.end()))
        self.assertNotIn(b"master 50", backup.record.read_bytes())
        self.assertStream(backup)
        self.assertEqual({100, PRIORITY}, {each.packet[108] for each in main.heard + backup.heard})

    def test_gone(self):
        """A record that is deleted, that is replaced, or that lost lines ends the following."""
        def replace(name):
            os.replace(self.copy(name), name)

        for lose in (os.remove, replace, lambda name: os.truncate(name, len(head(SHOW)) + 7)):
            record, backup = self.write_and_follow("0 tick", "25 tick")
            lose(record)
            backup.tells(rb"0:00:\d\d the main's record is gone")
            self.assertEqual(0, backup.end())
            self.assertTold(backup, rb"0:00:\d\d the main's record is gone: goes on by itself\n")

    def copy(self, name):
        """A copy of a file."""
        copy = Path(f"{name}.copy")
        copy.write_bytes(name.read_bytes())
        return copy

    def test_input_ended(self):
        """An input that ended while the main led is told when it is of use."""
        main, backup = self.both(b"go\n", silence=SILENCE)
        backup.processes[-1].stdin.close()
        backup.light(4)
        main.kill()
        backup.tells(rb"input ended: the light holds")
        backup.kill()
        self.assertTold(
            backup, rb"0:00:\d\d the main is silent: .*\n(.*\n)*input ended: the light holds"
        )

    def test_own_record(self):
        """Its record is taken up by --resume as any other."""
        main, backup = self.both(b"go\n", silence=SILENCE)
        main.kill()
        backup.tells(ALONE)
        backup.light(20)
        backup.kill()
        words = [str(each) for each in backup.words if each not in ("--follow", main.record)]
        words.remove("--patience")
        words.remove(str(SILENCE))
        backup.words = words
        backup.begin()
        backup.light(4)
        self.assertEqual(0, backup.end())


class Refused(FollowTest):
    def assertRefused(self, record, fault, status=4, cid=BACKUP, patience=200):
        """Nothing is sent, and no record is begun."""
        with receiver_socket() as receiver:
            own = self.folder / "own.play"
            words = [
                "live",
                self.show,
                "--to",
                address_of(receiver),
                "--cid",
                cid,
                "--record",
                own,
            ]
            words += ["--follow", record, "--patience", str(patience)]
            done = subprocess.run(
                [PROGRAM, *words], input=b"take\n", capture_output=True, timeout=PATIENCE
            )
            self.assertEqual((status, b""), (done.returncode, done.stdout), done.stderr)
            self.assertRegex(done.stderr, rb"^" + fault)
            receiver.setblocking(False)
            self.assertRaises(BlockingIOError, receiver.recv, 1500)
            self.assertFalse(own.exists())

    def setUp(self):
        super().setUp()
        self.show = self.folder / "show.asc"
        self.show.write_bytes(SHOW)
        self.record = self.folder / "main.play"

    def test_heads(self):
        for content, fault in (
            (head(SHOW + b"\n"), rb"record: another show\n.*SHA-256"),
            (head(SHOW, base=2), rb"record: another base\n.*give --base 2"),
            (
                head(SHOW, cid=BACKUP),
                rb"record: the same cid as --cid: a backup has a CID of its own\n",
            ),
            (b"0 tick\n", rb"record: no record of live\n"),
            (b"", rb"record: no record of live\n"),
            (head(SHOW)[:-1], rb"record: no record of live\n"),
        ):
            self.record.write_bytes(content)
            self.assertRefused(self.record, fault)
        self.assertRefused(self.folder, rb"record: no record of live\n")
        self.assertRefused(
            self.folder / "none", rb"device fault\n.*none: there is no such file", status=5
        )

    def test_head_that_does_not_come(self):
        """It is waited for as long as the patience says, and no longer."""
        self.record.touch()
        for patience in (300, 1000):
            since = time.monotonic()
            self.assertRefused(self.record, rb"record: no record of live\n", patience=patience)
            waited = took(since)
            self.assertGreaterEqual(waited.ms, patience)
            in_time(waited, patience + 1000, "a refusal")

    def test_main_that_is_over(self):
        """A night that has ended is followed by none: nothing is sent."""
        lines = b"0 tick\n3 end\n25 tick\n50 tick\n75 tick\n"
        self.record.write_bytes(head(SHOW) + lines)
        with receiver_socket() as receiver:
            words = ["live", self.show, "--to", address_of(receiver), "--cid", BACKUP]
            done = subprocess.run(
                [PROGRAM, *words, "--follow", self.record],
                input=b"take\n",
                capture_output=True,
                timeout=PATIENCE,
            )
            self.assertEqual((4, b""), (done.returncode, done.stdout), done.stderr)
            self.assertRegex(done.stderr, rb"(?m)^record: the night has ended$")
            receiver.setblocking(False)
            self.assertRaises(BlockingIOError, receiver.recv, 1500)

    def test_same_cid_of_a_main_that_is_on(self):
        main = self.night()
        main.begin()
        main.light()
        self.assertRefused(main.record, rb"record: the same cid as --cid", cid=CID)

    def test_other_words(self):
        words = ["live", self.show, "--to", "127.0.0.1", "--cid", CID, "--follow", self.record]
        for more in (["--start", "1"], ["--record", "x", "--resume"], ["--patience", "60001"]):
            self.assertEqual(2, run(*words, *more).status)
