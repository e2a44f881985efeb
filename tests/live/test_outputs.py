"""`live`: nothing that is printed or recorded holds up the light, and a night survives all its
outputs."""

import fcntl
import os
import re
import subprocess
import termios
import threading
import time

from live_nights import without_moments
from live_outputs import OutputsTest
from program import PROGRAM, behind_head, run
from tooling import wait_for
from wire import terminal

# Bytes that a pipe holds, and the program behind it.
PIPE, ROOM = 65_536, 65_536


def full_pipe():
    """A pipe, both ends, and what fills it."""
    reader, writer = os.pipe()
    os.set_blocking(writer, False)
    filled = 0
    try:
        while True:
            filled += os.write(writer, b"x" * 4096)
    except BlockingIOError:
        return reader, writer, filled


class Outputs(OutputsTest):
    def test_dead_reader_of_replies(self):
        """A reader of the replies that died is told once, and the night goes on to its end."""
        for is_there in (True, False):
            with self.subTest(is_there=is_there):
                reader, writer = os.pipe()
                if not is_there:
                    os.close(reader)
                night = self.begin_night(stdout=writer)
                os.close(writer)
                self.light(night, b"sub 1 FL\n", 128)
                if is_there:
                    os.close(reader)
                self.light(night, b"sub 1 50\n", 64)
                self.light(night, b"sub 1 0\n", 0)
                self.assertEnds(night)
                self.assertEqual(b"replies: device fault\n", night.stderr.read())

    def test_output_without_room(self):
        """A file that takes nothing is told once; the night goes on."""
        with open("/dev/full", "wb") as full:
            night = self.begin_night(stdout=full)
        self.light(night, b"sub 1 FL\n", 128)
        self.light(night, b"sub 1 0\n", 0)
        self.assertEnds(night)
        self.assertEqual(b"replies: device fault\n", night.stderr.read())

    def test_full_output_that_does_not_block(self):
        """A full output is no fault, whether the pipe blocks or not; what is read later comes
        then."""
        for blocks in (False, True):
            with self.subTest(blocks=blocks):
                reader, writer, filled = full_pipe()
                os.set_blocking(writer, blocks)
                night = self.begin_night(stdout=writer)
                os.close(writer)
                self.light(night, b"sub 1 FL\n", 128)
                self.light(night, b"sub 1 0\n", 0)
                with open(reader, "rb") as replies:
                    replies.read(filled)
                    self.assertEnds(night)
                    self.assertEqual(["ok"] * 4, without_moments(replies.read()))
                self.assertEqual(b"", night.stderr.read())

    def test_reader_that_is_late(self):
        """What is not read yet when the night has ended comes if it is read soon."""
        reader, writer, filled = full_pipe()
        night = self.begin_night(stdout=writer)
        os.close(writer)
        self.light(night, b"sub 1 FL\n", 128)
        night.stdin.write(b"end\n")
        self.assertTerminated(self.came(wait=0.2)[-7:])
        with open(reader, "rb") as replies:
            replies.read(filled)
            self.assertEqual(["ok"] * 3, without_moments(replies.read()))
        self.assertEqual(0, night.wait(timeout=30))

    def test_reader_that_stalls(self):
        """A reader that stalls: what there is no room for is dropped, and in its place stands how
        much that was."""
        record = self.folder / "night.play"
        night = self.begin_night("--record", record)
        count = 30_000
        line = b"back\n"
        writer = threading.Thread(target=night.stdin.write, args=(line * count,))
        writer.start()
        writer.join(timeout=60)
        self.light(night, b"sub 1 FL\n", 128)
        self.light(night, b"sub 1 0\n", 0)
        out = []
        reader = threading.Thread(target=lambda: out.extend(night.stdout))
        reader.start()
        wait_for(lambda: any(b" replies dropped" in line for line in out), "what was dropped")
        self.assertEnds(night)
        reader.join(timeout=30)
        printed = [line.rstrip(b"\n") for line in out]
        notices = [each for each in printed if each.endswith(b" replies dropped")]
        self.assertEqual(1, len(notices), notices)
        dropped = int(notices[0].split()[0])
        self.assertGreater(dropped, 0)
        self.assertEqual(count + 4, dropped + len(printed) - 1)
        place = printed.index(notices[0])
        self.assertGreater(len(b"\n".join(printed[:place])), ROOM)
        self.assertEqual(
            {b"refused AtStart"}, {each.split(b" ", 1)[1] for each in printed[:place]}
        )
        self.assertEqual(["ok", "ok"], without_moments(b"\n".join(printed[-2:])))
        self.assertTicks(record)

    def test_messages_that_nobody_reads(self):
        """Messages that nobody reads: refused lines without end hold up nothing; how many could not
        be told is told."""
        record = self.folder / "night.play"
        night = self.begin_night("--record", record)
        night.stdin.write(b"no such command\n" * 10_000)
        self.light(night, b"sub 1 FL\n", 128)
        self.light(night, b"sub 1 0\n", 0)
        out = []
        reader = threading.Thread(target=lambda: out.append(night.stderr.read()))
        reader.start()
        time.sleep(0.5)
        self.assertEnds(night)
        reader.join(timeout=30)
        told = out[0].splitlines()
        dropped = [int(each.split()[0]) for each in told if each.endswith(b" messages dropped")]
        self.assertEqual(1, len(dropped))
        refused = [each for each in told if each.startswith(b"line refused: no such command: ")]
        self.assertEqual(10_000, sum(dropped) + len(refused))
        self.assertTicks(record)

    def test_terminal_that_is_stopped(self):
        """Control-S holds up what is printed, and not the light."""
        ours, theirs = terminal(self)
        record = self.folder / "night.play"
        night = self.begin_night("--record", record, stdout=theirs, stderr=theirs)
        termios.tcflow(theirs, termios.TCOOFF)
        os.close(theirs)
        night.stdin.write(b"jump\n" * 2_000)
        self.light(night, b"sub 1 FL\n", 128)
        time.sleep(1)
        self.light(night, b"sub 1 0\n", 0)
        self.assertTicks(record)
        night.kill()
        night.wait()
        os.close(ours)

    def test_record_that_nobody_reads(self):
        """A FIFO without a reader: the night begins, and what is read later has all of it."""
        fifo = self.folder / "record"
        os.mkfifo(fifo)
        night = self.begin_night("--record", fifo)
        self.light(night, b"sub 1 FL\n", 128)
        copy = self.folder / "night.play"
        with open(copy, "wb") as kept:
            writer = subprocess.Popen(["cat", fifo], stdout=kept)
        self.addCleanup(writer.kill)
        self.light(night, b"sub 1 0\n", 0)
        self.assertEnds(night)
        self.assertEqual(0, writer.wait(timeout=30))
        self.assertEqual(b"", night.stderr.read())
        self.assertTicks(copy)
        self.assertEqual("tick", behind_head(copy.read_bytes())[0].split()[1])

    def test_record_that_is_late(self):
        """A FIFO whose reader stalls: it is told once, and again when all is read; then it is
        whole, and `play` of it sends what the night sent."""
        fifo = self.folder / "record"
        os.mkfifo(fifo)
        reader = os.open(fifo, os.O_RDONLY | os.O_NONBLOCK)
        night = self.begin_night("--record", fifo)
        fcntl.fcntl(reader, fcntl.F_SETPIPE_SZ, 4096)
        lines = b"master FL ! a comment that makes a line longer than it would have to be\n" * 60
        night.stdin.write(lines)
        self.assertEqual(b"record: late, and the light goes on\n", night.stderr.readline())
        self.light(night, b"sub 1 FL\n", 128)
        os.set_blocking(reader, True)
        kept = []
        reading = threading.Thread(target=lambda: kept.append(open(reader, "rb").read()))
        reading.start()
        self.assertEqual(b"record: whole again\n", night.stderr.readline())
        self.light(night, b"sub 1 0\n", 0)
        self.assertEnds(night)
        reading.join(timeout=30)
        # A pipe of one page may be full once more while it is read.
        told = night.stderr.read().splitlines(keepends=True)
        again = [b"record: late, and the light goes on\n", b"record: whole again\n"]
        self.assertEqual(again * (len(told) // 2), told)
        self.assertEqual(60, kept[0].count(b" master FL "))
        replay = run("play", *self.words(holds=True)[1:], stdin=kept[0])
        self.assertEqual((0, b""), (replay.status, replay.err))
        self.assertTerminated(self.came()[-7:])

    def test_record_with_a_gap(self):
        """Where a record lacks lines, a comment in it says how many, and standard error that they
        do."""
        fifo = self.folder / "record"
        os.mkfifo(fifo)
        reader = os.open(fifo, os.O_RDONLY | os.O_NONBLOCK)
        night = self.begin_night("--record", fifo, stdout=subprocess.DEVNULL)
        line = b"master FL ! " + b"x" * 150 + b"\n"
        night.stdin.write(line * 2_000)
        self.assertEqual(b"record: late, and the light goes on\n", night.stderr.readline())
        self.light(night, b"sub 1 FL\n", 128)
        self.light(night, b"sub 1 0\n", 0)
        os.set_blocking(reader, True)
        kept = []
        reading = threading.Thread(target=lambda: kept.append(open(reader, "rb").read()))
        reading.start()
        told = b"record: goes on, and a comment in it says how many lines are missing\n"
        self.assertEqual(told, night.stderr.readline())
        self.assertEnds(night)
        reading.join(timeout=30)
        missing = [int(n) for n in re.findall(rb"(?m)^! (\d+) lines dropped$", kept[0])]
        self.assertEqual(1, len(missing))
        self.assertGreater(missing[0], 2_000 - kept[0].count(b" master FL "))

    def test_outputs_closed_from_the_start(self):
        """Standard output is asked for before anything is sent; standard error may be closed."""
        words = [PROGRAM, *self.words()]
        for closed, status in (((1,), 5), ((2,), 0), ((1, 2), 5)):
            with self.subTest(closed):
                done = subprocess.run(
                    words,
                    input=b"jump\nend\n",
                    capture_output=True,
                    timeout=30,
                    preexec_fn=lambda: [os.close(each) for each in closed],
                )
                self.assertEqual(status, done.returncode)
                self.assertEqual(7 if status == 0 else 0, len(self.came()[-7:]))
                if closed == (1,):
                    self.assertTrue(done.stderr.startswith(b"device fault\nstandard output: "))

    def test_closed_output_beside_a_missing_show(self):
        """Standard output is asked for before the show is read."""
        words = [PROGRAM, *self.words()]
        words[2] = self.folder / "none.asc"
        done = subprocess.run(
            words, capture_output=True, timeout=30, preexec_fn=lambda: os.close(1)
        )
        self.assertEqual(5, done.returncode)
        self.assertTrue(done.stderr.startswith(b"device fault\nstandard output: "), done.stderr)
