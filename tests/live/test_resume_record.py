"""`live --resume`: which records are taken up. A cut one is, up to its last whole line; what is no
record of this night is refused, before anything is sent, and FILE stays as it is."""

import fcntl
import os
import subprocess
import tempfile
import time
from concurrent.futures import ThreadPoolExecutor
from pathlib import Path
from typing import NamedTuple

from program import CID, PROGRAM, run
from restart_nights import SHOW, RestartTest
from restarts import HEAD, head, moments, sent_by, whole_lines
from wire import address_of, datagrams_at, receiver_socket

OTHER = CID[:-1] + "2"
AT_ONCE, CUT = 8, 300
HEAD_LINES = head(SHOW).count(b"\n")
NEVER = 30


def record_of(*lines):
    """A record of these lines."""
    return head(SHOW) + b"".join(line.encode() + b"\n" for line in lines)


class Taken(NamedTuple):
    """What came of a record that was to be taken up: the status of a run that ended, else None;
    what it told; FILE behind it; and the packets that were sent."""

    status: int | None
    told: bytes
    record: bytes
    packets: list


def take_up(content, ticks=3):
    """Takes up a record, under a lock of its own, and kills the night after so many ticks."""
    with tempfile.TemporaryDirectory() as name, receiver_socket() as receiver:
        show, record = Path(name, "show.asc"), Path(name, "night.play")
        show.write_bytes(SHOW)
        record.write_bytes(content)
        words = [PROGRAM, "live", show, "--to", address_of(receiver), "--cid", CID]
        pipe = dict.fromkeys(("stdin", "stdout", "stderr"), subprocess.PIPE)
        environment = os.environ | {"XDG_RUNTIME_DIR": name}
        night = subprocess.Popen([*words, "--record", record, "--resume"], env=environment, **pipe)
        wanted = whole_lines(content).count(b"tick\n") + ticks
        until = time.monotonic() + NEVER
        while night.poll() is None and record.read_bytes().count(b"tick\n") < wanted:
            time.sleep(0.002)
            if time.monotonic() > until:
                break
        status = night.poll()
        night.kill()
        _, told = night.communicate()
        return Taken(status, told, record.read_bytes(), datagrams_at(receiver, 0.02))


class Cuts(RestartTest):
    """A record of which bytes are missing at its end, as behind a loss of power."""

    def assertTakenUp(self, content, taken):
        """What is left of a record was taken up: FILE goes on behind its last whole line, or has a
        new head where that was cut, and what was sent is what comes behind those lines."""
        kept = whole_lines(content)
        self.assertIn(taken.status, (None, 0), taken.told)
        self.assertTrue(taken.record.startswith(kept))
        self.assertTrue(HEAD.match(taken.record))
        before, meant = (list(sent_by(SHOW, each)) for each in (kept, taken.record))
        behind = [each.packet for each in meant[len(before) :]]
        self.assertEqual(behind[: len(taken.packets)], taken.packets)
        # It was killed, and may not have sent what its newest tick means.
        self.assertLessEqual(len(behind) - len(taken.packets), 2)

    def assertOver(self, content, taken):
        """The night has ended: FILE is as it was, and nothing was sent."""
        self.assertEqual(4, taken.status)
        self.assertTrue(taken.told.startswith(b"record: the night has ended\n"), taken.told)
        self.assertEqual((content, []), (taken.record, taken.packets))

    def assertCuts(self, whole, first, last):
        """The record cut at each byte from the first of these places to the last."""
        cuts = [whole[:cut] for cut in range(max(first, 0), last + 1)]
        with ThreadPoolExecutor(AT_ONCE) as pool:
            for content, taken in zip(cuts, pool.map(take_up, cuts)):
                with self.subTest(cut=len(content), tail=content[-30:]):
                    self.assertTakenUp(content, taken)

    def test_last_bytes(self):
        """Of a night with moves, a master and its end. Only the whole of it is refused."""
        night = self.night()
        night.begin()
        night.light(2)
        for line in (b"go\n", b"sub 1 50\n", b"goto 2 in 3\n", b"master 80\n"):
            night.type(line)
            time.sleep(0.1)
        self.assertEnds(night)
        whole = night.record.read_bytes()
        self.assertCuts(whole, len(whole) - CUT, len(whole) - 1)
        self.assertOver(whole, take_up(whole))

    def test_zeros(self):
        """A file system may leave zeros where a line was to be."""
        content = record_of("0 tick", "25 tick", "31 go", "50 tick") + b"7" + bytes(5000)
        self.assertTakenUp(content, take_up(content))

    def test_first_bytes(self):
        """Of a night that had just begun; where the head is cut, it begins."""
        whole = record_of("0 tick", "25 tick", "31 go", "50 tick")
        self.assertCuts(whole, 0, len(whole))


class Refused(RestartTest):
    def setUp(self):
        super().setUp()
        self.record = self.folder / "night of May.play"
        self.record.write_bytes(record_of("0 tick", "25 tick", "31 go", "50 tick", "75 tick"))

    def assertRefused(self, fault, *options, told=(), **kept):
        """The first line tells the fault, and somewhere these words stand; the status is 4,
        nothing is sent, and FILE is as it was."""
        before = self.record.read_bytes(), self.record.stat().st_mtime_ns
        words = self.words("--record", self.record, "--resume", *options, **kept)
        done = subprocess.run([PROGRAM, *words], input=b"go\n", capture_output=True, timeout=NEVER)
        lines = done.stderr.decode().splitlines()
        self.assertEqual((4, b""), (done.returncode, done.stdout), lines)
        self.assertRegex(lines[0], rf"^record: {fault}\b")
        for each in told:
            self.assertIn(str(each), done.stderr.decode())
        self.assertEqual([], self.came())
        self.assertEqual(before, (self.record.read_bytes(), self.record.stat().st_mtime_ns))

    def test_another_night(self):
        """Another show, CID, priority or base than those that are given; both are told."""
        self.assertRefused("another cid", cid=OTHER, told=(CID, OTHER))
        self.assertRefused("another priority", "--priority", "101", told=(100, 101))
        self.assertRefused("another base", "--base", "2", told=(1, 2))
        self.record.write_bytes(head(SHOW, name="another") + b"0 tick\n")
        self.assertRefused("another name", "--name", "the main", told=("the main", "another"))
        self.show.write_bytes(SHOW + b"!")
        self.record.write_bytes(record_of("0 tick"))
        self.assertRefused("another show")

    def test_no_head(self):
        """A record of which the first line is not its head, or none that can be read."""
        whole = self.record.read_bytes()
        _, lines = whole.split(b"\n", 1)
        for content in (
            lines,
            b"\n" + whole,
            b"! a comment\n" + lines,
            b" " + whole,
            whole.replace(b"record 1", b"record 2"),
            whole.replace(b"cid c0ffee", b"cid g0ffee"),
            whole.replace(b"priority 100", b"priority 1000"),
            whole.replace(b"priority 100", b"priority"),
            whole.replace(b"base 1", b"base 99999999999999999999"),
            whole.replace(b", name", b" name"),
            whole.replace(b"\n", b" ", 1),
            whole.replace(b"\n", b"\n\n", 1),
            whole.replace(b"! cid", b"cid"),
            b"\xff" * 300 + b"\n" + lines,
            head(SHOW + b"!")[:80],
            head(SHOW, priority=7)[:150],
            b"0",
            b"\n",
            bytes(1000),
        ):
            with self.subTest(content[:100]):
                self.record.write_bytes(content)
                self.assertRefused("no record of live")

    def test_lines_that_live_does_not_give(self):
        """Ticks are on a grid of 25 ms, or late, and never within 23 ms of another; no moment
        falls; and what is refused is not recorded."""
        for place, *lines in (
            (2, "0 tick", "10 tick"),
            (2, "0 tick", "24 tick"),
            (3, "0 tick", "25 tick", "47 tick"),
            (3, "0 tick", "25 tick", "20 go"),
            (3, "0 tick", "25 tick", "24 tick"),
            (2, "0 tick", "3 jump", "25 tick"),
            (2, "0 tick", "3 where", "25 tick"),
            (2, "0 tick", "goto 1", "25 tick"),
            (2, "0 tick", "tick", "25 tick"),
            (2, "0 tick", "3 go now", "25 tick"),
            (2, "0 tick", "! 12 lines dropped", "25 tick"),
            (2, "0 tick", "", "25 tick"),
            (2, "0 tick", "\0", "25 tick"),
            (2, "0 tick", "3 go ! " + "x" * 200, "25 tick"),
            (3, "0 tick", "3 end", "4 go", "25 tick"),
        ):
            with self.subTest(lines):
                self.record.write_bytes(record_of(*lines))
                self.assertRefused(f"line {HEAD_LINES + place} is none that live gives")

    def test_line_that_is_missing(self):
        """A tick that is due goes before what was typed: so one that was taken out is missed.
        Behind the three ticks of an end nothing comes."""
        typed = ["30 sub 1 1", "50 tick", "51 sub 1 2", "60 sub 1 3", "75 tick"]
        whole = ["0 tick", "25 tick", *typed]
        taken = take_up(record_of(*whole), 1)
        self.assertEqual(None, taken.status, taken.told)
        self.record.write_bytes(record_of(*(line for line in whole if line != "50 tick")))
        self.assertRefused(f"line {HEAD_LINES + 4} is none that live gives")
        for behind in ("100 tick", "80 go"):
            end = ["3 end", "25 tick", "50 tick", "75 tick", behind]
            self.record.write_bytes(record_of("0 tick", *end))
            line = f"line {HEAD_LINES + 6} is none that live gives"
            self.assertRefused(f"({line}|the night has ended)")

    def test_lines_that_live_gives(self):
        """Ticks may be late, as where a machine stood still, and lines be spelled in any way."""
        for lines in (
            ("7 tick",),
            ("0 tick", "61 tick", "84 tick", "107 tick", "130 tick"),
            ("0 tick", "5000 tick", "5025 tick"),
            ("0 tick", "3 GO ! now", "4 Goto  1\tin 0.5", "5 sub 1 H80", "25 tick"),
            ("0 tick", "26 go", "26 tick", "50 tick"),
            ("0 tick", "3 back", "4 group 9 FL", "5 goto 77", "25 tick"),
            ("0 goto 2 in 0", "0 tick", "25 tick"),
            ("0 tick", "3 master 0", "25 tick", "50 tick", "75 tick", "100 tick", "101 end"),
            ("0 tick", "3 master 0", "25 tick", "50 tick"),
            ("0 tick", "3 end", "25 tick", "50 tick"),
        ):
            with self.subTest(lines):
                content = record_of(*lines)
                taken = take_up(content, 1)
                self.assertIn(taken.status, (None, 0), taken.told)
                self.assertTrue(taken.record.startswith(content))
                self.assertGreater(len(moments(taken.record)), len(moments(content)))

    def test_night_that_has_ended(self):
        """By `end` and by `leave`: a record goes on to its end once."""
        for line in (b"end\n", b"leave\n"):
            with self.subTest(line):
                night = self.night()
                night.begin()
                night.light(2)
                self.assertEqual(0, night.end(line))
                self.record.write_bytes(night.record.read_bytes())
                self.assertRefused("the night has ended")

    def test_in_use(self):
        """Another process writes it; its night is not disturbed."""
        night = self.night()
        main = night.begin()
        night.light(2)
        other = os.environ | {"XDG_RUNTIME_DIR": str(self.folder)}
        words = [*night.words, "--resume"]
        done = subprocess.run(words, input=b"end\n", capture_output=True, timeout=NEVER, env=other)
        self.assertEqual((4, b""), (done.returncode, done.stdout), done.stderr)
        self.assertRegex(done.stderr, rb"^record: in use by process %d\b" % main.pid)
        night.type(b"go\n")
        night.light(4)
        self.assertEnds(night)
        self.assertOne(night)

    def test_locked(self):
        """By whatever process, which is told where it can be."""
        with open(self.record, "r+b") as ours:
            fcntl.flock(ours, fcntl.LOCK_EX)
            self.assertRefused(f"in use by process {os.getpid()}")

    def test_fifo(self):
        """It cannot be read again: no night goes on in it, and what lies there stays."""
        written = self.record.read_bytes()
        self.record.unlink()
        os.mkfifo(self.record)
        with open(self.record, "r+b", buffering=0) as pipe:
            pipe.write(written)
            outcome = run(*self.words("--record", self.record, "--resume"), stdin=b"go\n")
            os.set_blocking(pipe.fileno(), False)
            self.assertEqual(written, pipe.read(len(written) + 1))
        self.assertEqual((4, b""), (outcome.status, outcome.out))
        self.assertTrue(outcome.err.startswith(b"record: no record of live\n"), outcome.err)
        self.assertEqual([], self.came())

    def test_without_record(self):
        outcome = run(*self.words("--resume"), stdin=b"go\n")
        self.assertEqual((2, b""), (outcome.status, outcome.out))
        self.assertIn(b"words refused\n", outcome.err)
        self.assertEqual([], self.came())

    def test_without_resume(self):
        """No night is written over another; how it goes on is told."""
        before = self.record.read_bytes()
        words = self.words("--record", self.record)
        done = subprocess.run([PROGRAM, *words], input=b"go\n", capture_output=True, timeout=NEVER)
        self.assertEqual(5, done.returncode)
        self.assertIn(b"--resume goes on with it", done.stderr)
        self.assertEqual((before, []), (self.record.read_bytes(), self.came()))
