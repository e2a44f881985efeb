"""Standard output and standard error that are files go through writers of their own, as a record
does: `./cueplayer live` starts them. A disk that stalls is a writer that is stopped."""

import os
import re
import resource
import shutil
import signal
import subprocess
import time

from live_nights import without_moments
from program import PROGRAM, messages_in
from tooling import stand_still
from writers import NEVER, WriterTest

BEFORE = b"what stood there\n"
STILL = rb"outputs: (\d+) bytes are still with their writers\n"
WRONG = b"line refused: jump: no such command; help lists the commands\n"


class OutputWriter(WriterTest):
    """Standard output and error in files on a disk that stalls or is full: ticks come in time. So
    they do where a writer, or the program beside it, is killed."""

    def setUp(self):
        super().setUp()
        self.out = self.folder / "replies of May"
        self.err = self.folder / "messages"

    def begun_in_files(self, *options, mode="wb", **kept):
        """A night whose standard output and standard error are files."""
        with open(self.out, mode) as out, open(self.err, mode) as err:
            return self.begin_night(*options, stdout=out, stderr=err, **kept)

    def begun_in_one_file(self, *options, mode="wb"):
        with open(self.out, mode) as both:
            return self.begin_night(*options, stdout=both, stderr=both)

    def refused_there(self, night, file):
        """A line that is refused is told in this file soon."""
        night.stdin.write(b"jump\n")
        until = time.monotonic() + NEVER
        while WRONG not in file.read_bytes():
            self.assertLess(time.monotonic(), until)
            time.sleep(0.01)

    def test_whole_at_the_end(self):
        """When the program has ended, the files have all of it, and nothing is left behind."""
        for mode, before in (("wb", b""), ("ab", BEFORE)):
            for options in ((), ("--record", self.record)):
                with self.subTest(mode=mode, options=options):
                    self.out.write_bytes(BEFORE)
                    self.err.write_bytes(BEFORE)
                    self.record.unlink(missing_ok=True)
                    night = self.begun_in_files(*options, mode=mode)
                    self.light(night, b"sub 1 FL\n", 128)
                    writers = [self.writer(night, self.out), self.writer(night, self.err)]
                    self.refused_there(night, self.err)
                    self.light(night, b"sub 1 0\n", 0)
                    self.assertEnds(night)
                    printed = self.out.read_bytes()
                    self.assertEqual(before, printed[: len(before)])
                    self.assertEqual(["ok"] * 4, without_moments(printed[len(before) :]))
                    self.assertEqual(before + WRONG, messages_in(self.err.read_bytes()))
                    for each in writers:
                        self.ends(each)

    def test_disk_that_stalls(self):
        """The light goes on, without a late tick; when the disk goes on, the files have all of
        it."""
        night = self.begun_in_files("--record", self.record)
        self.light(night, b"sub 1 FL\n", 128)
        writers = [self.writer(night, self.out), self.writer(night, self.err)]
        for each in writers:
            stand_still(each)
        night.stdin.write(b"back\njump\n" * 600)
        self.light(night, b"sub 1 50\n", 64)
        time.sleep(3)
        self.light(night, b"sub 1 0\n", 0)
        self.assertEqual(b"", messages_in(self.err.read_bytes()))
        for each in writers:
            os.kill(each, signal.SIGCONT)
        self.assertEnds(night)
        self.assertTicks(self.record)
        wanted = ["ok", *["refused AtStart"] * 600, *["ok"] * 4]
        self.assertEqual(wanted, without_moments(self.out.read_bytes()))
        self.assertEqual(WRONG * 600, messages_in(self.err.read_bytes()))

    def test_more_than_there_is_room(self):
        """What a disk that stalls for long leaves no room for is dropped, and counted in its
        place."""
        with open(self.out, "wb") as out:
            night = self.begin_night("--record", self.record, stdout=out)
        self.light(night, b"sub 1 FL\n", 128)
        writer = self.writer(night, self.out)
        stand_still(writer)
        count = 7_000
        night.stdin.write(b"back\n" * count)
        self.light(night, b"sub 1 0\n", 0)
        os.kill(writer, signal.SIGCONT)
        self.assertEnds(night)
        self.assertTicks(self.record)
        printed = self.out.read_bytes().splitlines()
        dropped = [int(each.split()[0]) for each in printed if each.endswith(b" replies dropped")]
        self.assertEqual(1, len(dropped))
        self.assertEqual(count + 4, dropped[0] + len(printed) - 1)
        self.assertEqual(b"", night.stderr.read())

    def test_one_file(self):
        """Both in one file have one writer, and stand there in the order in which they came."""
        for mode, before in (("wb", b""), ("ab", BEFORE)):
            with self.subTest(mode):
                self.out.write_bytes(BEFORE)
                night = self.begun_in_one_file(mode=mode)
                self.light(night, b"sub 1 FL\n", 128)
                writer = self.writer(night, self.out)
                self.assertEqual([writer], self.writers(night))
                stand_still(writer)
                night.stdin.write(b"jump\nback\n" * 300)
                self.light(night, b"sub 1 0\n", 0)
                os.kill(writer, signal.SIGCONT)
                self.assertEnds(night)
                printed = messages_in(self.out.read_bytes())
                self.assertEqual(before, printed[: len(before)])
                printed = re.sub(rb"(?m)^\d+ ", b"", printed[len(before) :])
                self.assertEqual(
                    b"ok\n" + (WRONG + b"refused AtStart\n") * 300 + b"ok\n" * 3, printed
                )

    def test_one_of_them(self):
        """Where one of them is no file, only the other has a writer."""
        with open(self.out, "wb") as out:
            night = self.begin_night(stdout=out)
        self.light(night, b"sub 1 FL\n", 128)
        self.assertEqual([self.writer(night, self.out)], self.writers(night))
        night.stdin.write(b"jump\n")
        self.assertEqual(WRONG, night.stderr.readline())
        self.light(night, b"sub 1 0\n", 0)
        self.assertEnds(night)
        self.assertEqual(["ok"] * 4, without_moments(self.out.read_bytes()))
        self.assertEqual(b"", night.stderr.read())

    def test_none_of_them(self):
        """Pipes and the null device have no writer."""
        for stdout in (subprocess.PIPE, subprocess.DEVNULL):
            night = self.begin_night(stdout=stdout)
            self.light(night, b"sub 1 FL\n", 128)
            self.assertEqual([], self.writers(night))
            self.light(night, b"sub 1 0\n", 0)
            self.assertEnds(night)
            self.assertEqual(b"", night.stderr.read())

    def test_pipe_for_no_file(self):
        """The pipe of a writer is for a file: what is none is written as ever."""
        pipe = self.folder / "pipe"
        os.mkfifo(pipe)
        self.PROGRAM = PROGRAM
        self.env = self.env | {"CUEPLAYER_OUTPUT_PIPE": str(pipe)}
        self.assertEqual(["ok"] * 2, without_moments(self.end_night(self.begin_night()).out))

    def test_killed_beside_its_writers(self):
        """What was printed is in the files, though the disk stalled and the program was killed."""
        for signal_number in (signal.SIGKILL, signal.SIGTERM):
            with self.subTest(signal_number):
                night = self.begun_in_files()
                self.light(night, b"sub 1 FL\n", 128)
                writers = [self.writer(night, self.out), self.writer(night, self.err)]
                for each in writers:
                    stand_still(each)
                night.stdin.write(b"jump\n")
                self.light(night, b"sub 1 0\n", 0)
                night.send_signal(signal_number)
                self.assertEqual(-signal_number, night.wait(timeout=NEVER))
                self.came()
                for each in writers:
                    os.kill(each, signal.SIGCONT)
                    self.ends(each)
                self.assertEqual(["ok"] * 2, without_moments(self.out.read_bytes()))
                self.assertEqual(WRONG, messages_in(self.err.read_bytes()))

    def test_writer_that_is_killed(self):
        """A writer of an output that is killed is told, and the night goes on to its end."""
        with open(self.out, "wb") as out:
            night = self.begin_night(stdout=out)
        self.light(night, b"sub 1 FL\n", 128)
        os.kill(self.writer(night, self.out), signal.SIGKILL)
        self.light(night, b"sub 1 50\n", 64)
        self.light(night, b"sub 1 0\n", 0)
        self.assertEnds(night)
        self.assertEqual(b"replies: device fault\n", night.stderr.read())

    def test_disk_that_is_full(self):
        """A full disk is told once, and the night goes on; what there was room for is there."""

        def limit():
            resource.setrlimit(resource.RLIMIT_FSIZE, (4096, 4096))

        with open(self.out, "wb") as out:
            out.write(b"x" * 4095)
            out.flush()
            night = self.begin_night(stdout=out, preexec_fn=limit)
        self.light(night, b"sub 1 FL\n", 128)
        self.light(night, b"sub 1 50\n", 64)
        self.light(night, b"sub 1 0\n", 0)
        self.assertEnds(night)
        self.assertEqual(b"replies: device fault\n", night.stderr.read())
        self.assertEqual(4096, self.out.stat().st_size)

    def test_stalled_to_the_end(self):
        """The program ends within two seconds, and says how much its writer has still, also behind
        what stood in the file before."""
        for mode, stood in (("wb", b""), ("ab", BEFORE * 99)):
            with self.subTest(mode):
                self.out.write_bytes(BEFORE * 99)
                with open(self.out, mode) as out:
                    night = self.begin_night(stdout=out)
                self.light(night, b"sub 1 FL\n", 128)
                writer = self.writer(night, self.out)
                stand_still(writer)
                self.light(night, b"sub 1 0\n", 0)
                self.assertOwes(night, writer, self.out, STILL)
                printed = self.out.read_bytes()
                self.assertEqual(stood, printed[: len(stood)])
                self.assertEqual(["ok"] * 4, without_moments(printed[len(stood) :]))

    def test_refused(self):
        """Why a night does not begin is in the file of standard error when the program has
        ended."""
        for words, status, wanted in (
            (("live", self.show), 2, b""),
            (("live", self.folder, "--to", self.to, "--cid", "1"), 2, b"words refused\n"),
            (self.words()[:1] + [self.folder / "none"] + self.words()[2:], 5, b"device fault\n"),
        ):
            with self.subTest(words), open(self.out, "wb") as out, open(self.err, "wb") as err:
                done = subprocess.run(
                    [self.PROGRAM, *words], env=self.env, stdout=out, stderr=err, timeout=NEVER
                )
                self.assertEqual((status, b""), (done.returncode, self.out.read_bytes()))
                self.assertIn(wanted, messages_in(self.err.read_bytes()))

    def test_without_a_pipe(self):
        """Where no writer can be started that is told, and the program writes the files itself."""
        tools = self.folder / "tools"
        tools.mkdir()
        for name in ("sh", "readlink", "sha256sum", "dd", "rm", "mkfifo", "mktemp"):
            (tools / name).symlink_to(shutil.which(name))
        self.env = self.env | {"PATH": str(tools)}
        night = self.begun_in_files("--record", self.record)
        self.light(night, b"sub 1 FL\n", 128)
        self.assertEnds(night)
        lines = [
            f"cueplayer: no pipe to {name}: a disk that stalls holds up the light\n".encode()
            for name in ("the record", "standard output", "standard error")
        ]
        self.assertEqual(b"".join(lines), messages_in(self.err.read_bytes()))
        self.assertEqual(["ok"] * 3, without_moments(self.out.read_bytes()))
