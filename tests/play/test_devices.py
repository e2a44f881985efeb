"""Files, pipes and memory: where the show comes from, where the output goes, and what fails."""

import os
import resource
import signal
import subprocess
import tempfile
import time
import unittest
from pathlib import Path

from program import (
    CID,
    DEVICE_FAULT,
    PROGRAM,
    TO_NOBODY,
    FolderTest,
    ProgramTest,
    counts,
    messages_in,
    packet,
    run,
    text,
)
from restarts import moments, wait_until
from tooling import stand_still
from worked import LOOK_ONE as SHOW

LOOK = ("look", "-", "1", "--cid", CID)
LINE = packet(1, {1: 64}).hex().encode() + b"\n"
CHECKED = counts(lines=5, cues=1, dimmers=1)


def ticks_of(record):
    """The moments of the ticks of a record, none where it is not there yet."""
    return moments(record.read_bytes(), rb"tick$") if record.exists() else []


class Files(FolderTest):
    def assertDeviceFault(self, show, **options):
        for words in (["check", show], ["look", show, "1", "--cid", CID]):
            with self.subTest(words):
                self.assertEqual((5, b"", DEVICE_FAULT), run(*words, **options))

    def test_named_file(self):
        file = self.folder / "a show with a name.asc"
        file.write_bytes(SHOW)
        self.assertRuns(["check", file], b"", out=CHECKED)
        self.assertRuns(["look", file, "1", "--cid", CID], b"", out=LINE)
        self.assertRuns(["check", file.name], b"", status=5, err=DEVICE_FAULT)

    def test_missing_file(self):
        self.assertDeviceFault(self.folder / "missing.asc")

    def test_folder(self):
        self.assertDeviceFault(self.folder)

    def test_empty_name(self):
        self.assertDeviceFault("")

    def test_unreadable_file(self):
        """A file that opens and whose first read fails, and one that the system does not open."""
        self.assertDeviceFault("/proc/self/mem")
        file = self.folder / "locked.asc"
        file.write_bytes(SHOW)
        file.chmod(0)
        if not os.access(file, os.R_OK):
            self.assertDeviceFault(file)

    def test_standard_input_that_fails(self):
        folder = os.open(self.folder, os.O_RDONLY)
        self.addCleanup(os.close, folder)
        done = subprocess.run(
            [PROGRAM, "check", "-"], stdin=folder, capture_output=True, timeout=60
        )
        found = (done.returncode, done.stdout, messages_in(done.stderr))
        self.assertEqual((5, b"", DEVICE_FAULT), found)

    def test_input_in_pieces(self):
        """A pipe that gives a few bytes at a time gives the same show."""
        with subprocess.Popen(
            [PROGRAM, *LOOK], stdin=subprocess.PIPE, stdout=subprocess.PIPE
        ) as child:
            for first in range(0, len(SHOW), 7):
                child.stdin.write(SHOW[first : first + 7])
                child.stdin.flush()
            child.stdin.close()
            self.assertEqual(LINE, child.stdout.read())
        self.assertEqual(0, child.returncode)

    def test_endless_input(self):
        """Only one byte more than the longest show is read of what has no end."""
        self.assertDeviceOutcome("/dev/zero", 3, b"show: TooLong\n")

    def assertDeviceOutcome(self, show, status, err):
        self.assertEqual((status, b"", err), run("check", show))

    def test_empty_file(self):
        self.assertRuns(["check", "/dev/null"], b"", out=counts(lines=0))

    def test_faults_in_order(self):
        """The file first, then the show, then its cue."""
        self.assertRuns(["look", self.folder, "7", "--cid", CID], b"", status=5, err=DEVICE_FAULT)
        faulty = text("CUE 1", "CHAN 1")
        err = b"show line 2: HalfPair\n"
        self.assertRuns(["look", "-", "7", "--cid", CID], faulty, status=3, err=err)


class Floods(FolderTest):
    """Input without end, as fast as it is taken; and a night that is held."""

    SHOW = SHOW

    def flood(self, line, job, *words, **options):
        """A run whose input is this line for ever."""
        flood = subprocess.Popen(["yes", line], stdout=subprocess.PIPE)
        words = [PROGRAM, job, self.show, *TO_NOBODY, *words]
        run = subprocess.Popen(words, stdin=flood.stdout, **options)
        flood.stdout.close()
        for child in (flood, run):
            self.addCleanup(child.wait)
            self.addCleanup(child.kill)
        return run

    def test_endless_lines(self):
        """Of `play` line 10,000,001 is the last that is looked at."""
        run = self.flood("", "play", stdout=subprocess.PIPE, stderr=subprocess.PIPE)
        out, err = run.communicate(timeout=60)
        err = messages_in(err)
        self.assertEqual((4, b"", b"line 10000001 refused\n"), (run.returncode, out, err))

    def test_live_goes_on(self):
        """Blank lines, commands and what is none: ticks come nonetheless, 23 ms apart at least."""
        for line in ("", "go", "jump"):
            with self.subTest(line):
                record = self.folder / f"{line}.play"
                night = self.flood(
                    line,
                    "live",
                    "--record",
                    record,
                    stdout=subprocess.DEVNULL,
                    stderr=subprocess.DEVNULL,
                )
                wait_until(lambda: len(ticks_of(record)) > 20, "ticks come")
                night.kill()
                night.wait()
                ticks = ticks_of(record)
                self.assertGreaterEqual(min(b - a for a, b in zip(ticks, ticks[1:])), 23)

    def test_live_is_stopped(self):
        """A night that the system holds for a second goes on: what it missed is not made up
        for."""
        record = self.folder / "night.play"
        words = [PROGRAM, "live", self.show, *TO_NOBODY, "--record", record, "--end-with-input"]
        pipes = {"stdin": subprocess.PIPE, "stdout": subprocess.PIPE, "stderr": subprocess.DEVNULL}
        night = subprocess.Popen(words, **pipes)
        self.addCleanup(night.wait)
        self.addCleanup(night.kill)
        wait_until(lambda: len(ticks_of(record)) > 3, "ticks come")
        stand_still(night.pid)
        time.sleep(1)
        before = len(ticks_of(record))
        night.send_signal(signal.SIGCONT)
        wait_until(lambda: len(ticks_of(record)) > before + 10, "ticks come again")
        out, _ = night.communicate(timeout=60)
        ticks = ticks_of(record)
        gaps = [b - a for a, b in zip(ticks, ticks[1:])]
        self.assertEqual((0, 2), (night.returncode, out.count(b" ok\n")))
        self.assertGreater(max(gaps), 900)
        self.assertGreaterEqual(min(gaps), 23)
        # After the gap there are no more ticks than fit.
        after = ticks[gaps.index(max(gaps)) + 1 :]
        self.assertLessEqual(len(after), (after[-1] - after[0]) // 23 + 1)


class Outputs(ProgramTest):
    def jobs(self):
        """Runs that print, each with its standard input."""
        folder = tempfile.TemporaryDirectory()
        self.addCleanup(folder.cleanup)
        show, script = Path(folder.name, "show.asc"), Path(folder.name, "night.script")
        show.write_bytes(SHOW)
        script.write_bytes(text(f"console 1 100 {CID}", "receiver 1", "0 tick 0", "0 slots 0"))
        return (
            (("check", "-"), SHOW),
            (LOOK, SHOW),
            (("slots", "-", "1"), SHOW),
            (("explain", "-"), b"WHAT\n" + SHOW),
            (("cues", "-"), SHOW),
            (("cues", "-", "--json"), SHOW),
            (("rehearse", show, script), b""),
            (("watch", "1"), b"0 00\n1000\n"),
            (("play", show, *TO_NOBODY), b"0 tick\n"),
        )

    def assertOutputFails(self, **options):
        """Each run says so on standard error, with status 5, where its output is not taken."""
        for words, stdin in self.jobs():
            with self.subTest(words):
                done = subprocess.run(
                    [PROGRAM, *words], input=stdin, stderr=subprocess.PIPE, timeout=60, **options
                )
                self.assertEqual((5, DEVICE_FAULT), (done.returncode, messages_in(done.stderr)))

    def test_full_output(self):
        """An output whose disk is full is a device fault."""
        with open("/dev/full", "wb") as full:
            self.assertOutputFails(stdout=full)

    def test_limit_on_files(self):
        """With the signal of the limit ignored, as ./cueplayer starts the program."""

        def limit():
            signal.signal(signal.SIGXFSZ, signal.SIG_IGN)
            resource.setrlimit(resource.RLIMIT_FSIZE, (0, 0))

        with tempfile.TemporaryFile() as file:
            self.assertOutputFails(stdout=file, preexec_fn=limit)

    def test_broken_pipe(self):
        """A reader that has gone is a fault like any other, and no signal ends the program."""
        reader, writer = os.pipe()
        os.close(reader)
        self.addCleanup(os.close, writer)
        self.assertOutputFails(stdout=writer)

    def test_closed_output(self):
        """Standard output that is closed from the start is a device fault."""
        self.assertOutputFails(preexec_fn=lambda: os.close(1))

    def test_closed_input_of_play(self):
        """Standard input that is closed from the start is a fault of `play`, and nothing that is
        opened takes its place."""
        *_, (words, _) = self.jobs()
        done = subprocess.run(
            [PROGRAM, *words], capture_output=True, timeout=60, preexec_fn=lambda: os.close(0)
        )
        self.assertEqual((5, DEVICE_FAULT), (done.returncode, messages_in(done.stderr)))
        self.assertEqual(b"", done.stdout)

    def test_status_where_nothing_can_be_told(self):
        """Where the text on standard error can't be written the status still tells."""
        for status, words, show in (
            (3, ["check", "-"], b"CUE x"),
            (3, ["look", "-", "2", "--cid", CID], SHOW),
            (5, ["check", ""], b""),
            (2, ["look", "-", "x", "--cid", CID], b""),
        ):
            with self.subTest(words), open("/dev/full", "wb") as full:
                done = subprocess.run(
                    [PROGRAM, *words], input=show, stdout=subprocess.PIPE, stderr=full, timeout=60
                )
                self.assertEqual((status, b""), (done.returncode, done.stdout))


class Memory(unittest.TestCase):
    """Runs under a bound on the address space: done, or `memory` with nothing printed."""

    LIMITS = range(1 << 20, 64 << 20, 256 << 10)

    def outcome(self, words, show, limit):
        """"done", "memory", or "unstarted" where the limit ended the process before `main`."""
        done = subprocess.run(
            [PROGRAM, *words],
            input=show,
            capture_output=True,
            timeout=60,
            preexec_fn=lambda: resource.setrlimit(resource.RLIMIT_AS, (limit, limit)),
        )
        if done.returncode == 127 or done.returncode in (-signal.SIGKILL, -signal.SIGSEGV):
            return "unstarted"
        if done.returncode == 6:
            self.assertEqual((b"", b"memory\n"), (done.stdout, messages_in(done.stderr)))
            return "memory"
        self.assertEqual((0, b""), (done.returncode, messages_in(done.stderr)))
        return "done"

    def test_want_of_memory(self):
        """With more memory a run does not start, then says `memory`, then is done; never else."""
        cues = "".join(f"CUE {n}\nCHAN {n}@FL\n" for n in range(1, 2001)).encode()
        show = (b"PATCH 1 1<1@FL\n" + cues).ljust(1_048_576, b"\n")
        for words in (("check", "-"), ("look", "-", "7", "--cid", CID)):
            outcomes = []
            while "done" not in outcomes[-4:] and len(outcomes) < len(self.LIMITS):
                outcomes.append(self.outcome(words, show, self.LIMITS[len(outcomes)]))
            self.assertIn("done", outcomes, "no limit was enough")
            if "memory" not in outcomes:
                self.skipTest("each limit either ended the process before its start or was enough")
            started = [outcome for outcome in outcomes if outcome != "unstarted"]
            self.assertEqual(sorted(started, reverse=True), started)
            self.assertEqual(outcomes[-len(started) :], started)
