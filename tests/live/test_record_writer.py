"""A record that is a file goes through a writer of its own, which may wait for the disk:
`./cueplayer` starts it. A disk that stalls is a writer that is stopped."""

import os
import re
import shutil
import signal
import subprocess
import threading
import time

from program import messages_in, run
from tooling import stand_still
from writers import NEVER, WriterTest

STILL = rb"record: (\d+) bytes are still with its writer\n"


def commands(record):
    """The commands of a record, without their moments."""
    words = re.findall(rb"(?m)^\d+ (.+)$", record.read_bytes())
    return [each for each in words if each != b"tick"]


class RecordWriter(WriterTest):
    """A record on a disk that stalls, or whose writer or program is killed: ticks come in time."""

    def test_whole_at_the_end(self):
        """When the program has ended, the record has all of it."""
        for option in (("--record", self.record), (f"--record={self.record}",)):
            with self.subTest(option):
                night = self.begin_night(*option)
                self.light(night, b"sub 1 FL\n", 128)
                self.light(night, b"sub 1 0\n", 0)
                self.assertEnds(night)
                wanted = [b"sub 1 FL", b"sub 1 0", b"master 0", b"end"]
                self.assertEqual(wanted, commands(self.record))
                self.assertTrue(self.record.read_bytes().endswith(b" tick\n"))
                self.assertEqual(b"", night.stderr.read())
                replay = run("play", *self.words(holds=True)[1:], stdin=self.record.read_bytes())
                self.assertEqual((0, b""), (replay.status, replay.err))
                self.assertTerminated(self.came()[-7:])
                self.record.unlink()

    def test_script_that_names_itself(self):
        """CUEPLAYER may name the script: the file that it has made is not removed by the run that
        only sees whether the program starts."""
        self.env["CUEPLAYER"] = str(self.PROGRAM)
        night = self.begin_night("--record", self.record)
        self.light(night, b"sub 1 FL\n", 128)
        self.assertEnds(night)
        self.assertEqual(b"", night.stderr.read())
        self.assertEqual([b"sub 1 FL", b"master 0", b"end"], commands(self.record))

    def test_disk_that_stalls(self):
        """The light goes on, without a late tick; it is told once, and again when all is
        written."""
        night = self.begin_night("--record", self.record, stdout=subprocess.DEVNULL)
        self.light(night, b"sub 1 FL\n", 128)
        writer = self.writer(night)
        stand_still(writer)
        line = b"master FL ! " + b"x" * 150 + b"\n"
        night.stdin.write(line * 600)
        self.assertEqual(b"record: late, and the light goes on\n", night.stderr.readline())
        self.light(night, b"sub 1 50\n", 64)
        time.sleep(3)
        self.light(night, b"sub 1 0\n", 0)
        os.kill(writer, signal.SIGCONT)
        self.assertEqual(b"record: whole again\n", night.stderr.readline())
        self.assertEnds(night)
        self.assertEqual(b"", night.stderr.read())
        self.assertTicks(self.record)
        wanted = [b"sub 1 FL", *[line[:-1]] * 600, b"sub 1 50", b"sub 1 0", b"master 0", b"end"]
        self.assertEqual(wanted, commands(self.record))

    def test_killed_beside_its_writer(self):
        """What was carried out is recorded, though the disk stalled and the program was killed."""
        night = self.begin_night("--record", self.record)
        self.light(night, b"sub 1 FL\n", 128)
        writer = self.writer(night)
        stand_still(writer)
        self.light(night, b"sub 1 50\n", 64)
        self.light(night, b"master 50\n", 32)
        night.kill()
        night.wait()
        os.kill(writer, signal.SIGCONT)
        self.ends(writer)
        self.assertEqual([b"sub 1 FL", b"sub 1 50", b"master 50"], commands(self.record))

    def test_writer_that_is_killed(self):
        """A writer of the record that is killed is told, and the night goes on to its end."""
        night = self.begin_night("--record", self.record)
        self.light(night, b"sub 1 FL\n", 128)
        os.kill(self.writer(night), signal.SIGKILL)
        self.light(night, b"sub 1 50\n", 64)
        self.light(night, b"sub 1 0\n", 0)
        self.assertEnds(night)
        self.assertEqual(b"record: device fault\n", night.stderr.read())
        self.assertEqual(b"sub 1 FL", commands(self.record)[0])

    def test_writer_that_goes_on_at_the_end(self):
        """The end waits for what a writer has still, and tells nothing where all is written within
        two seconds."""
        night = self.begin_night("--record", self.record)
        self.light(night, b"sub 1 FL\n", 128)
        writer = self.writer(night)
        stand_still(writer)
        self.light(night, b"sub 1 0\n", 0)
        goes_on = threading.Timer(1, os.kill, (writer, signal.SIGCONT))
        self.addCleanup(goes_on.cancel)
        goes_on.start()
        self.assertEnds(night)
        wanted = [b"sub 1 FL", b"sub 1 0", b"master 0", b"end"]
        self.assertEqual(wanted, commands(self.record))
        self.assertEqual(b"", night.stderr.read())

    def test_stalled_to_the_end(self):
        """The program ends, and says how much its writer has still."""
        night = self.begin_night("--record", self.record)
        self.light(night, b"sub 1 FL\n", 128)
        writer = self.writer(night)
        stand_still(writer)
        self.light(night, b"sub 1 0\n", 0)
        self.assertOwes(night, writer, self.record, STILL)
        self.assertEqual(b"end", commands(self.record)[-1])

    def test_stalled_to_the_end_of_another(self):
        """The same where the night goes on behind what stood in its record."""
        first = self.begin_night("--record", self.record)
        self.light(first, b"sub 1 FL\n", 128)
        writer = self.writer(first)
        first.kill()
        first.wait()
        self.ends(writer)
        night = self.begin_night("--record", self.record, "--resume")
        self.light(night, b"sub 1 50\n", 64)
        writer = self.writer(night)
        stand_still(writer)
        self.light(night, b"sub 1 0\n", 0)
        self.assertOwes(night, writer, self.record, STILL)

    def test_refused(self):
        """A run that is refused leaves no file, and changes none."""
        for words in (("live", self.show), ("live", self.show, "--to", "x", "--cid", "1")):
            done = subprocess.run(
                [self.PROGRAM, *words, "--record", self.record],
                env=self.env,
                capture_output=True,
                timeout=NEVER,
            )
            self.assertEqual(2, done.returncode)
            self.assertFalse(self.record.exists())
        self.record.write_bytes(b"0 tick\n")
        night = self.start("--record", self.record)
        self.assertEqual(5, night.wait(timeout=NEVER))
        refused = b"device fault\nthe record's file is not empty: --resume goes on with it\n"
        self.assertEqual(refused, night.stderr.read())
        self.assertEqual(b"0 tick\n", self.record.read_bytes())

    def test_without_a_pipe(self):
        """Where no pipe can be made that is told, and the program writes the file itself."""
        tools = self.folder / "tools"
        tools.mkdir()
        for name in ("sh", "readlink", "sha256sum", "cat", "dd", "rm", "mkfifo"):
            (tools / name).symlink_to(shutil.which(name))
        self.env = self.env | {"PATH": str(tools)}
        night = self.start("--record", self.record)
        self.light(night, b"sub 1 FL\n", 128)
        self.assertEnds(night)
        without_pipe = b"cueplayer: no pipe to the record: a disk that stalls holds up the light\n"
        self.assertEqual(without_pipe, messages_in(night.stderr.read()))
        self.assertEqual([b"sub 1 FL", b"master 0", b"end"], commands(self.record))
