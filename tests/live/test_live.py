"""`live`: a night by the clock. What is typed, what it prints, its record, and its datagrams."""

import collections
import fcntl
import os
import re
import signal
import subprocess
import time
import unittest
from pathlib import Path

from live_nights import HELD, MISSED, NEVER, TURN, LiveTest, without_moments
from machine import in_time, took
from program import CID, LIVE_NAME, PROGRAM, Outcome, behind_head, messages_in, packet, run, text
from tooling import open_files, wait_for
from wire import OPTIONS, SEQUENCE, SLOT_1, TERMINATED
from wire import address_of, datagrams_at, receiver_socket, socket_flags, terminal

OTHER = CID[:-1] + "2"


def ignore_hang_up():
    """For a program whose terminal may go away."""
    signal.signal(signal.SIGHUP, signal.SIG_IGN)


class Live(LiveTest):
    def test_night(self):
        """Commands through a pipe: replies without ticks, numbered datagrams, the end."""
        night = self.begin_night()
        for line in (b"sub 1 FL\n", b"master 50\n", b"sub 1 0\n", b"end\n"):
            self.type_line(night, line)
        status, out, err = self.end_night(night)
        self.assertEqual((0, ["ok"], b""), (status, without_moments(out), err))
        came = self.came()
        self.assertEqual([k % 256 for k in range(len(came))], [each[SEQUENCE] for each in came])
        self.assertTerminated(came)
        shown = [each[SLOT_1] for each in came[:-3]]
        changes = [b for a, b in zip([None] + shown, shown) if a != b]
        # Submaster 1 is 128; the master at 128 of 255 makes it 64.
        self.assertEqual([0, 128, 64, 0], changes)
        self.assertEqual(packet(1, {}, came[-1][SEQUENCE], TERMINATED, name=LIVE_NAME), came[-1])

    def test_closed_input(self):
        """With --end-with-input the end of the input is that of the night; a last line needs no
        LF."""
        for typed, replies in (
            (b"", []),
            (b"go", ["ok", "cue 1"]),
            (b"go\nback\nend", ["ok", "cue 1", "refused AtStart"]),
        ):
            with self.subTest(typed):
                outcome = run(*self.words(), stdin=typed)
                self.assertEqual((0, b""), (outcome.status, outcome.err))
                told = without_moments(outcome.out)
                self.assertEqual([*replies, "ok", "ok"], told)
                self.assertTerminated(self.came())

    def test_input_that_ends_behind_an_end(self):
        """The night ends, and nobody is told that the light holds."""
        for lines in (b"end\n", b"sub 1 FL\nend\n", b"leave\n", b"sub 1 FL\nend"):
            with self.subTest(lines):
                night = self.begin_night(holds=True)
                typed = time.monotonic()
                _, err = night.communicate(lines, timeout=30)
                if err.startswith(b"input ended: the light holds; "):
                    # So long it had not come to the `end`.
                    in_time(took(typed)._replace(ms=HELD), TURN, "an end that was typed")
                    err = b""
                self.assertEqual((0, b""), (night.returncode, err))
                self.came()

    def test_closed_input_holds(self):
        """The end of the input ends no night: the light holds, and it is told once how it ends."""
        night = self.begin_night(holds=True)
        self.type_in(night, b"sub 1 FL")
        night.stdin.close()
        line = night.stderr.readline()
        self.assertTrue(line.startswith(b"input ended: the light holds; SIGTERM "), line)
        self.assertEqual(["ok"], without_moments(night.stdout.readline()))
        shown = []
        until = time.monotonic() + NEVER
        # Behind those of the submaster's tick come others, as long as the light holds.
        while shown.count((128, 0)) < 6:
            shown += [(each[SLOT_1], each[OPTIONS]) for each in self.came()]
            self.assertLess(time.monotonic(), until)
        self.assertIsNone(night.poll())
        self.assertEqual({(128, 0)}, set(shown[shown.index((128, 0)) :]))
        night.terminate()
        self.assertEqual(-signal.SIGTERM, night.wait(timeout=30))
        self.assertEqual((b"", b""), (night.stdout.read(), night.stderr.read()))

    def test_fifo_that_ended(self):
        """With its last writer an input has ended, as is told: what another one writes is not
        read."""
        fifo = self.folder / "typed"
        os.mkfifo(fifo)
        theirs = os.open(fifo, os.O_RDONLY | os.O_NONBLOCK)
        ours = os.open(fifo, os.O_WRONLY)
        os.set_blocking(theirs, True)
        night = self.begin_night(stdin=theirs, holds=True)
        os.close(theirs)
        os.write(ours, b"sub 1 FL\n")
        self.assertEqual(["ok"], without_moments(night.stdout.readline()))
        os.close(ours)
        self.assertTrue(night.stderr.readline().startswith(b"input ended: "))
        ours = os.open(fifo, os.O_WRONLY)
        self.addCleanup(os.close, ours)
        os.write(ours, b"sub 1 0\nend\n")
        time.sleep(0.5)
        self.assertIsNone(night.poll())
        self.assertEqual(128, self.came()[-1][SLOT_1])
        night.terminate()
        self.assertEqual((b"", b""), (night.stdout.read(), night.stderr.read()))

    def test_after_end(self):
        """What is typed after `end` is refused: the lines that end a night come as they are."""
        record = self.folder / "night.play"
        outcome = run(*self.words("--record", record), stdin=b"end\ngo\nmaster FL\nend\nleave\n")
        self.assertEqual(["ok", "ok"], without_moments(outcome.out))
        lines = (b"go", b"master FL", b"end", b"leave")
        refused = b"".join(b"line refused: %s: the night is ending\n" % line for line in lines)
        self.assertEqual((0, refused), (outcome.status, outcome.err))
        given = [line.split(" ", 1)[1] for line in behind_head(record.read_bytes())]
        self.assertEqual(["tick", "master 0", *["tick"] * 4, "end", *["tick"] * 3], given)
        self.came()

    def test_end_is_dark(self):
        """`end` brings the light down as ordinary levels, four packets, and then ends the streams:
        so a receiver that holds the last look of a stream that ended is dark. `leave` ends them
        alone."""
        for word, is_left in ((b"end\n", False), (b"Leave ! to the backup\n", True)):
            with self.subTest(word):
                night = self.begin_night()
                self.type_line(night, b"sub 1 FL\n", pause=0.3)
                night.stdin.write(word)
                self.end_night(night)
                came = self.came()
                self.assertTerminated(came, is_left)
                levels = [each[SLOT_1] for each in came if not each[OPTIONS] & TERMINATED]
                self.assertEqual([128] * 4 if is_left else [0] * 4, levels[-4:])
                self.assertEqual(128, levels[-4 if is_left else -5])

    def test_refused_lines(self):
        """A line that is no command ends nothing, and is told with what can be printed of it."""
        as_typed = [b"jump", b"go now", b"tick", b"5 go", b"sub 1", b"goto 0"]
        as_told = {b"g\0o": b"g?o", b"caf\xc3\xa9": b"caf??", b"x" * 500: b"x" * 200}
        lines = b"\n".join([*as_typed, *as_told])
        outcome = run(*self.words(), stdin=lines + b"\n  ! nothing\n\nGO ! now\n")
        told = [*as_typed, *as_told.values()]
        found = [line.split(b": ")[:2] for line in outcome.err.splitlines()]
        self.assertEqual([[b"line refused", line] for line in told], found)
        self.assertEqual(
            (0, ["ok", "cue 1", "ok", "ok"]), (outcome.status, without_moments(outcome.out))
        )

    def test_bytes_one_by_one(self):
        """Commands that come byte by byte are taken whole."""
        night = self.begin_night()
        self.type_in(night, *(bytes([byte]) for byte in b"sub 1 FL\n"), pause=0.03)
        self.assertEqual(["ok"], without_moments(night.stdout.readline()))
        self.type_in(night, b"en", b"d\n", pause=0.2)
        self.assertEqual(["ok", "ok"], without_moments(self.end_night(night).out))
        came = self.came()
        self.assertEqual({0, 128}, {each[SLOT_1] for each in came[:-3]})

    def test_fade(self):
        """A fade of two seconds is seen in the levels, with every step upwards."""
        self.show.write_bytes(text("CUE 1", "UP 2", "CHAN 1@FL", "PATCH 1 1<1@FL"))
        night = self.begin_night()
        typed = time.monotonic()
        self.type_line(night, b"go\n", "ok", "cue 1", pause=1.0)
        half, stretch = self.came(wait=0), took(typed)
        time.sleep(1.3)
        self.end_night(night)
        came = half + self.came()
        self.assertTerminated(came)
        levels = [each[SLOT_1] for each in came[:-7]]
        self.assertEqual(sorted(levels), levels)
        self.assertEqual((0, 255), (levels[0], levels[-1]))
        missing = 2000 - 25 * len(set(levels))
        in_time(took(typed)._replace(ms=missing), MISSED, "levels that did not come")
        shown = 2000 * half[-1][SLOT_1] / 255
        self.assertLessEqual(shown, stretch.ms + 10)
        in_time(stretch._replace(ms=stretch.ms - shown), 400, "the fade is behind")

    def test_pace(self):
        """Ticks are 23 ms apart at least, and come on a grid of 25 ms as far as the machine lets
        them."""
        record = self.folder / "night.play"
        night = self.begin_night("--record", record)
        time.sleep(2)
        self.end_night(night)
        lines = [line.split() for line in behind_head(record.read_bytes())]
        ticks = [int(moment) for moment, *words in lines if words == ["tick"]]
        gaps = [b - a for a, b in zip(ticks, ticks[1:])]
        print(f"    {len(ticks)} ticks in {ticks[-1]} ms, {min(gaps)} to {max(gaps)} ms apart")
        self.assertPace(ticks, 2)
        moments = [int(moment) for moment, *_ in lines]
        self.assertEqual(sorted(moments), moments)

    def test_long_commands(self):
        """A tick that is due goes before commands that wait, however long each of them takes: here
        each move makes 2,000 others."""
        cues = "".join(f"CUE {n}\nFOLLOWON 0\nCHAN 1@{n % 100}\n" for n in range(1, 2001))
        self.show.write_bytes(b"PATCH 1 1<1@FL\n" + cues.encode())
        record, printed = self.folder / "night.play", self.folder / "replies"
        with open(printed, "wb") as replies:
            night = self.begin_night("--record", record, stdout=replies)
        night.stdin.write(b"goto 1\n" * 580)
        while record.read_bytes().count(b"goto") < 580:
            self.assertIsNone(night.poll())
            time.sleep(0.1)
        self.end_night(night)
        shown = collections.Counter(without_moments(printed.read_bytes()))
        moves = {f"cue {n}": 580 for n in range(1, 2001)}
        self.assertEqual({"ok": 582} | moves, shown)
        lines = [line.split() for line in behind_head(record.read_bytes())]
        due, late = 0, 0
        for moment, *words in lines:
            if words == ["tick"]:
                due, late = max(25 * (int(moment) // 25 + 1), int(moment) + 23), 0
            elif int(moment) >= due:
                # One line, whose turn it is behind a tick that was late itself.
                late += 1
                self.assertEqual(1, late, moment)

    def test_record_replayed(self):
        """`play` of the record sends the same datagrams, byte for byte and in order, and prints
        the same replies."""
        record = self.folder / "night.play"
        night = self.begin_night("--record", record, "--priority", "150", "--base", "7")
        self.type_in(night, b"go\n", b"nonsense\nsub 1 30\n", b"  MASTER H80 ! down\n", b"back\n")
        outcome = self.end_night(night)
        refused = b"line refused: nonsense: no such command; help lists the commands\n"
        self.assertEqual((0, refused), (outcome.status, outcome.err))
        came = self.came()
        source = ("--priority", "150", "--base", "7", "--name", LIVE_NAME)
        words = ["play", *self.words(holds=True)[1:], *source]
        replay = run(*words, stdin=record.read_bytes())
        self.assertEqual((0, b""), (replay.status, replay.err))
        self.assertEqual(came, self.came())
        self.assertEqual(packet(7, {}, 0, priority=150, name=LIVE_NAME), came[0])
        replies = [
            line
            for line in replay.out.splitlines()
            if b" live" not in line and b" ending" not in line
        ]
        shown = outcome.out.splitlines()
        self.assertEqual([line for line in shown if b" cue " not in line], replies)
        self.assertEqual(
            ["cue 1"], without_moments(b"\n".join(line for line in shown if b" cue " in line))
        )

    def test_record_of_another_night(self):
        """A record that is not empty is refused: no night is written over another."""
        record = self.folder / "night.play"
        record.write_bytes(b"0 tick\n")
        outcome = run(*self.words("--record", record), stdin=b"end\n")
        self.assertEqual(Outcome(5, b"", b"device fault\n"), outcome)
        self.assertEqual(b"0 tick\n", record.read_bytes())
        record.write_bytes(b"")
        self.assertEqual(0, run(*self.words("--record", record), stdin=b"end\n").status)
        self.assertEqual(10, len(behind_head(record.read_bytes())))

    def test_record_that_is_replaced(self):
        """No night begins in a file that lost its name, or has another one in its place, while its
        lock was waited for."""
        record = self.folder / "night.play"
        for replaced in (False, True):
            with self.subTest(replaced=replaced), open(record, "wb") as held:
                fcntl.flock(held, fcntl.LOCK_EX)
                night = self.start("--record", record)
                wait_for(lambda: record in open_files(night.pid), "the record is open")
                record.unlink()
                if replaced:
                    record.touch()
                held.close()
                self.assertEqual(Outcome(5, b"", b"device fault\n"), self.end_night(night))
                self.assertEqual([], self.came())

    def test_record_on_a_full_disk(self):
        """A record on a full disk is told once, and the night goes on."""
        outcome = run(*self.words("--record", "/dev/full"), stdin=b"go\nend\n")
        self.assertEqual(
            (0, ["ok", "cue 1", "ok", "ok"]), (outcome.status, without_moments(outcome.out))
        )
        self.assertEqual(b"record: device fault\n", outcome.err)
        self.assertTerminated(self.came())

    def test_terminal(self):
        """A terminal is read as a pipe is; its end of input, control-D, ends a night that ends
        so."""
        ours, theirs = terminal(self)
        night = self.begin_night(stdin=theirs)
        os.close(theirs)
        os.write(ours, b"sub 1 FL\n")
        self.assertEqual(["ok"], without_moments(night.stdout.readline()))
        time.sleep(0.2)
        os.write(ours, b"\x04")
        outcome = self.end_night(night)
        os.close(ours)
        told = without_moments(outcome.out)
        self.assertEqual((0, b"", ["ok", "ok"]), (outcome.status, outcome.err, told))
        self.assertIn(128, [each[SLOT_1] for each in self.came()])

    def test_terminal_that_holds(self):
        """Control-D is answered in words, each time, and the terminal is read on; where it is gone
        the light holds."""
        for ends in (True, False):
            with self.subTest(ends=ends):
                ours, theirs = terminal(self)
                night = self.begin_night(stdin=theirs, holds=True, preexec_fn=ignore_hang_up)
                os.close(theirs)
                for _ in range(2):
                    os.write(ours, b"\x04")
                    self.assertEqual(b"type end to end the night\n", night.stderr.readline())
                os.write(ours, b"sub 1 FL\n")
                self.assertEqual(["ok"], without_moments(night.stdout.readline()))
                if ends:
                    os.write(ours, b"end\n")
                    outcome = self.end_night(night)
                    os.close(ours)
                    self.assertEqual((0, b""), (outcome.status, outcome.err))
                else:
                    os.close(ours)
                    self.assertTrue(
                        night.stderr.readline().startswith(b"input ended: the light holds; ")
                    )
                    time.sleep(0.3)
                    self.assertIsNone(night.poll())
                    night.terminate()
                    self.assertEqual((-signal.SIGTERM, b"", b""), self.end_night(night))

    def test_input_from_a_file(self):
        """A file's lines are there at once, and so is its end."""
        typed = self.folder / "typed"
        typed.write_bytes(b"sub 1 FL\nmaster 50\n" * 1000)
        with open(typed, "rb") as stdin:
            outcome = self.end_night(self.begin_night(stdin=stdin))
        self.assertEqual((0, b""), (outcome.status, outcome.err))
        self.assertEqual(["ok"] * 2002, without_moments(outcome.out))
        self.assertTerminated(self.came())

    def test_lost_packets(self):
        """A tick that lost a packet is printed, and the night ends with their number."""
        outcome = run(*self.words(to="255.255.255.255:9"), stdin=b"go\n")
        lost = re.findall(rb":x(\d+)", outcome.out)
        self.assertTrue(lost)
        self.assertEqual((5, b"lost %d\n" % len(lost)), (outcome.status, outcome.err))
        self.assertEqual([b"ok"] * 3, re.findall(rb"ok$", outcome.out, re.MULTILINE))

    def test_socket_does_not_block(self):
        """A packet that would have to wait is lost, and the night does not wait: so the system
        says of each socket."""
        night = self.begin_night()
        self.type_line(night, b"back\n", "refused AtStart")
        flags = socket_flags(night.pid)
        self.assertTrue(flags)
        self.assertEqual([], [each for each in flags if not each & os.O_NONBLOCK])

    def test_before_the_night(self):
        """A fault of the show, the base or a file comes before anything is sent or recorded, and
        leaves no record."""
        record = self.folder / "night.play"
        self.show.write_bytes(text("CUE x"))
        outcome = run(*self.words("--record", record), stdin=b"go\n")
        self.assertEqual(Outcome(3, b"", b"show line 1: BadNumber\n"), outcome)
        self.assertFalse(record.exists())
        # An empty file that was there stays.
        record.touch()
        outcome = run(*self.words("--record", record), stdin=b"go\n")
        self.assertEqual((3, True), (outcome.status, record.exists()))
        self.show.write_bytes(text("PATCH 1 1<513@FL"))
        outcome = run(*self.words("--base", "63999"), stdin=b"go\n")
        self.assertEqual(Outcome(2, b"", b"base: Universe\n"), outcome)
        self.show.unlink()
        self.assertEqual(Outcome(5, b"", b"device fault\n"), run(*self.words(), stdin=b"go\n"))
        outcome = run(*self.words("--priority", "201"), stdin=b"go\n")
        self.assertEqual(Outcome(2, b"", b"words refused\n"), outcome)
        self.assertEqual([], self.came())

    def test_input_closed_from_the_start(self):
        """Standard input that is closed from the start is a device fault."""
        night = subprocess.run(
            [PROGRAM, *self.words()],
            preexec_fn=lambda: os.close(0),
            capture_output=True,
            timeout=30,
        )
        self.assertEqual((5, b"device fault\n"), (night.returncode, messages_in(night.stderr)))

    def test_two_consoles(self):
        """Two nights into one `listen`: the one of priority 150 leads."""
        pipe = subprocess.PIPE
        listen = subprocess.Popen(
            [PROGRAM, "listen", "127.0.0.1:0", "1", "20"], stdout=pipe, stderr=pipe
        )
        self.addCleanup(listen.communicate)
        self.addCleanup(listen.kill)
        at = listen.stderr.readline().split()[2].decode()
        main = self.begin_night("--priority", "150", to=at)
        self.type_line(main, b"sub 1 50\n")
        backup = self.begin_night("--priority", "100", cid=OTHER, to=at)
        self.type_line(backup, b"sub 1 FL\n")
        # The last of them keep the streams alive.
        printed = listen.communicate(timeout=30)[0].decode().splitlines()
        self.end_night(main)
        self.end_night(backup)
        self.assertEqual(21, len(printed))
        self.assertEqual([], [line for line in printed[:-1] if " taken " not in line])
        # Submaster 1 is 128, and 128 of 255 makes it 64.
        self.assertEqual("slots 1:64", printed[-1])


class Lock(LiveTest):
    """The lock of a CID: two consoles of one CID would disturb each other at every receiver."""

    SPELLINGS = (CID, CID.upper(), CID.replace("-", ""), f"{{{CID}}}", f"urn:uuid:{CID}")

    def test_second_console(self):
        """A second console of a CID, however that is spelled, does not begin: nothing is sent, and
        no record is made."""
        first, record = self.begin_night(), self.folder / "night.play"
        self.type_line(first, b"back\n", "refused AtStart")
        self.came()
        with receiver_socket() as other:
            for cid in self.SPELLINGS:
                with self.subTest(cid):
                    words = self.words("--record", record, cid=cid, to=address_of(other))
                    second = subprocess.run(
                        [PROGRAM, *words], input=b"", capture_output=True, timeout=30
                    )
                    fault, remark = second.stderr.splitlines()
                    self.assertEqual((5, b"device fault"), (second.returncode, fault))
                    self.assertTrue(
                        remark.startswith(b"another console on this machine sends under this CID")
                    )
                    self.assertEqual([], datagrams_at(other))
            self.assertFalse(record.exists())
            outcome = run(*self.words(cid=OTHER, to=address_of(other)), stdin=b"")
            self.assertEqual((0, b""), (outcome.status, outcome.err))
        self.assertEqual((0, b""), (self.end_night(first).status, b""))

    def test_play(self):
        """`play` takes none: it plays beside a night, and a night begins beside it."""
        words = [PROGRAM, "play", self.show, "--to", self.to, "--cid", CID]
        pipe = subprocess.PIPE
        with subprocess.Popen(words, stdin=pipe, stdout=pipe, stderr=pipe) as playing:
            self.addCleanup(playing.kill)
            playing.stdin.write(b"0 tick\n")
            playing.stdin.flush()
            self.assertEqual(b"0 live 1:s0\n", playing.stdout.readline())
            night = self.begin_night()
            self.type_line(night, b"back\n", "refused AtStart")
            out, err = playing.communicate(b"25 tick\n", timeout=30)
            self.assertEqual((0, b"25 live 1:s1\n", b""), (playing.returncode, out, err))
            self.assertEqual(0, run(*words[1:], stdin=b"0 tick\n").status)
            self.assertEqual((0, b""), (self.end_night(night).status, b""))

    def test_console_that_died(self):
        """The lock of a console that died is free at once, also where it was killed."""
        for _ in range(3):
            night = self.begin_night()
            self.type_line(night, b"back\n", "refused AtStart", pause=0)
            night.kill()
            night.wait()

    def test_console_that_is_ending(self):
        """It is waited for: the next one begins when the lock is let go."""
        folder = Path(os.environ["XDG_RUNTIME_DIR"], "cueplayer")
        folder.mkdir(exist_ok=True)
        lock = folder / f"{OTHER.replace('-', '')}.lock"
        with open(lock, "wb") as held:
            fcntl.flock(held, fcntl.LOCK_EX)
            night = self.start(cid=OTHER)
            wait_for(lambda: lock in open_files(night.pid), "the lock is asked for")
            time.sleep(0.2)
            self.assertEqual([], self.came(wait=0))
        self.assertEqual(0, self.end_night(night).status)
        self.assertTerminated(self.came())

    def test_folder_that_is_a_link(self):
        """No lock is made by a link, which another user may have put there."""
        runtime, elsewhere = self.folder / "runtime", self.folder / "elsewhere"
        runtime.mkdir()
        elsewhere.mkdir()
        (runtime / "cueplayer").symlink_to(elsewhere)
        self.assertNoLock(runtime)
        self.assertEqual([], list(elsewhere.iterdir()))

    @unittest.skipUnless(os.geteuid() == 0, "only root can make a folder of another user")
    def test_folder_of_another(self):
        """No lock is made in a folder of another user, who could take it away."""
        folder = self.folder / "runtime" / "cueplayer"
        folder.mkdir(parents=True)
        os.chown(folder, 65534, -1)
        self.assertNoLock(folder.parent)
        self.assertEqual([], list(folder.iterdir()))

    def test_no_folder(self):
        """Where no lock can be made that is told, and the night begins."""
        self.assertNoLock(self.file("no folder", b""))

    def assertNoLock(self, runtime):
        """In this folder of the user's runtime no lock is made. That is told before all else."""
        done = subprocess.run(
            [PROGRAM, *self.words()],
            input=b"",
            capture_output=True,
            timeout=30,
            env={**os.environ, "XDG_RUNTIME_DIR": str(runtime)},
        )
        without_lock = b"cid: no lock can be made, so a second console of this CID would begin\n"
        self.assertEqual((0, without_lock), (done.returncode, messages_in(done.stderr)))
        self.assertTrue(done.stderr.startswith(without_lock), done.stderr)
