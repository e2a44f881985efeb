"""`cueplayer-night` and a record that breaks off: its writer ends, its disk has no room, or its
name goes. The light stays as it is, and nothing is lit behind an end."""

import fcntl
import os
import resource
import shutil
import signal
import threading
import time
from pathlib import Path

from kept_nights import RefusedTest
from machine import Late
from restarts import moments
from tooling import stand_still, wait_for
from wire import SEQUENCE, SLOT_1

from cueplayer_tools.keeper.pipes import RECORD, REPLIES
from cueplayer_tools.keeper.writers import RESERVE

# Of so many deaths a stranger has the lock first behind one.
TRIES = 6
# How long a spare would take to go on, and more.
BEHIND = 1.5
PLAYS_ON = r"the record does not grow, and live \(process \d+\) plays on: "


class RecordTest(RefusedTest):
    def setUp(self):
        super().setUp()
        self.numbers = []

    def begin(self):
        """A night in cue 1, with a spare that has taken that up."""
        self.begin_night()
        self.go(1)
        self.numbers += self.wait_for_level(128)
        self.spare()

    def record(self):
        return (self.night / "record").read_bytes()

    def limit(self, size=None):
        """The record has room for so many bytes, or for all."""
        self.limit_of(self.writer(), resource.RLIM_INFINITY if size is None else size)

    def limit_of(self, writer, size=resource.RLIM_INFINITY):
        resource.prlimit(writer, resource.RLIMIT_FSIZE, (size, resource.RLIM_INFINITY))

    def assertGoesOn(self, level):
        """Where `live` dies, another one goes on in the same stream and the same look."""
        self.numbers += [each[SEQUENCE] for each in self.came()]
        live = self.kill("pid")
        died = rf"live \(process {live}\) (?:was ended by SIGKILL|is gone): "
        self.wait_for_reply(f"{died}.*goes on where it was$")
        self.numbers += self.wait_for_level(level)
        self.wait_for_status(0)

    def assertDark(self):
        """Nothing is sent any more, and nobody would."""
        self.wait_for_reply("the night has ended$")
        self.came()
        until = time.monotonic() + BEHIND
        wait_for(lambda: time.monotonic() > until, "the time passes")
        self.assertEqual([], [each[SLOT_1] for each in self.came()])
        self.assertFalse(self.is_there(self.number("spare")))


class Writers(RecordTest):
    def test_ends(self):
        """Another one goes on with it, and no line is missing."""
        self.begin()
        for pipe, name in ((RECORD, "record"), (REPLIES, "replies")):
            with self.subTest(name):
                writer = self.writer(pipe)
                os.kill(writer, signal.SIGKILL)
                self.wait_for_reply(f"what writes the {name} was ended: another one goes on")
                wait_for(lambda: not self.is_there(writer), "it is gone")
        self.go(2, 3)
        self.numbers += self.wait_for_level(51)
        self.assertEqual(3, len(moments(self.record(), b"go")))
        self.assertGoesOn(51)
        self.assertNumbered(self.numbers)

    def test_ends_without_a_keeper(self):
        """The lines wait in their pipes for the next keeper."""
        self.begin()
        keeper = self.kill("lock")
        wait_for(lambda: not self.is_there(keeper), "the keeper is gone")
        writers = [self.writer(pipe) for pipe in (RECORD, REPLIES)]
        for each in writers:
            os.kill(each, signal.SIGKILL)
        with open(self.night / "in", "wb", buffering=0) as fifo:
            fifo.write(b"go\ngo\n")
        self.numbers += self.wait_for_level(51)
        self.assertEqual(1, len(moments(self.record(), b"go")))
        self.assertEqual(0, self.run_script("start", "--background").status)
        wait_for(lambda: len(moments(self.record(), b"go")) == 3, "the lines are written")
        self.wait_for_reply(r"^\d+ cue 3$")
        self.assertGoesOn(51)

    def test_is_stopped(self):
        """It is not left so, neither while `live` plays nor once that is gone."""
        self.begin()
        writer = self.writer()
        stand_still(writer)
        self.wait_for_reply(rf"what writes the record \(process {writer}\) was stopped: it goes on")
        self.go(2, 3)
        self.numbers += self.wait_for_level(51)
        stand_still(writer)
        self.assertGoesOn(51)


class Room(RecordTest):
    def test_is_kept(self):
        """Behind the end of the record there is some for a disk that is full, up to the end."""
        self.begin()
        found = os.stat(self.night / "record")
        if 512 * found.st_blocks < RESERVE:
            self.skipTest("this file system keeps none")
        self.run_script("end")
        self.wait_for_reply("the night has ended$")
        wait_for(lambda: 512 * os.stat(self.night / "record").st_blocks < RESERVE, "it is free")

    def test_comes_again(self):
        """It is told at once, and since when; then all is written that was missing."""
        self.begin()
        self.limit(len(self.record()) + 5)
        self.assertIn("record", [each["kind"] for each in self.wait_for_status(4)["trouble"]])
        self.wait_for_reply(PLAYS_ON)
        self.assertIsNotNone(self.health()["trouble"][0]["since"])
        self.go(2, 3)
        self.assertEqual(1, len(moments(self.record(), b"go")))
        self.limit()
        self.wait_for_reply("the record grows again$")
        self.assertEqual([], self.wait_for_status(0)["trouble"])
        self.assertEqual(3, len(moments(self.record(), b"go")))
        self.numbers += self.wait_for_level(51)
        self.assertGoesOn(51)
        self.assertNumbered(self.numbers)

    def test_answers_have_none(self):
        """What became of a command is known by the record, and its status is that of the answer."""
        self.begin()
        writer = self.writer(REPLIES)
        self.limit_of(writer, len(self.replies()))
        for line, expected, told in (
            ("go", 0, "cue 2 came"), ("goto 3 in 0", 0, "cue 3 came"), ("goto 3", 0, "cue 3 came"),
            ("go", 1, "go changed nothing"), ("goto 7", 1, "goto 7 changed nothing"),
            ("sub 1 50", 0, "live took it"), ("back", 0, "cue 2 came"),
        ):  # fmt: skip
            with self.subTest(line):
                status, out, err = self.run_script(*line.split())
                self.assertEqual((expected, ""), (status, out))
                self.assertRegex(err, rf": no answer within a second: by the record {told} at \d+;")
        self.assertEqual(1, self.run_script("sub", "1").status)
        told = self.wait_for_status(7)
        self.assertIn("answers cannot be written: File too large", told["trouble"][0]["text"])
        self.limit_of(writer)
        self.wait_for_reply(r"^\d+ cue 2$", 2)
        self.wait_for_status(0)
        self.assertEqual((0, ["where cue 2 next 3 master 255 sub 1:128"]),
                         self.without_moments("where"))

    def test_end_that_has_none(self):
        for word in ("end", "leave"):
            with self.subTest(word):
                self.night = self.folder / f"a night to {word}"
                self.begin()
                self.limit(len(self.record()))
                self.wait_for_reply(PLAYS_ON)
                writer = self.writer()
                self.go(2)
                self.assertEqual(0, self.run_script(word).status)
                self.assertDark()
                self.limit_of(writer)

    def test_end_of_a_live_that_another_keeper_started(self):
        """It does not know how that ended."""
        self.begin()
        keeper = self.kill("lock")
        wait_for(lambda: not self.is_there(keeper), "the keeper is gone")
        self.assertEqual(0, self.run_script("start", "--background").status)
        self.limit(len(self.record()))
        self.wait_for_reply(PLAYS_ON)
        writer, spare = self.writer(), self.number("spare")
        self.assertEqual(0, self.run_script("end").status)
        wait_for(lambda: not self.is_there(spare), "the spare is ended")
        self.came()
        until = time.monotonic() + BEHIND
        wait_for(lambda: time.monotonic() > until, "the time passes")
        self.assertEqual([], self.came())
        self.limit_of(writer)
        self.wait_for_reply("the night has ended")

    def test_death_that_has_none(self):
        """What goes on is told how old the record is, and the commands are given again."""
        self.begin()
        self.limit(len(self.record()))
        self.wait_for_reply(PLAYS_ON)
        self.go(2, 3)
        self.numbers += self.wait_for_level(51)
        self.came()
        self.kill("pid")
        self.wait_for_reply(r"the spare .* goes on where its record ends, \d+ s earlier: look")
        self.wait_for_reply(r"^\d+ cue 3$", 2)
        self.wait_for_level(51)
        self.assertEqual((0, ["where cue 3 master 255"]), self.without_moments("where"))


class Name(RecordTest):
    def wait_for_name(self, node):
        wait_for(lambda: (self.night / "record").exists() and
                 (self.night / "record").stat().st_ino == node, "its name")  # fmt: skip

    def test_goes(self):
        """It is put back at once, as the spare wants it; what was in its place is kept."""
        self.begin()
        record, other = self.night / "record", self.folder / "other"
        node = record.stat().st_ino
        for name, cause, told in (
            ("removed", record.unlink, "the record was gone from its place: "),
            ("renamed", lambda: record.rename(other), "the record was gone from its place: "),
            ("replaced", self.replace, "another file was in the record's place, and is kept as "),
        ):
            with self.subTest(name):
                before = self.replies().count(told)
                cause()
                self.wait_for_name(node)
                self.wait_for_reply(f"{told}.*the record is put back$", before + 1)
                self.assertGoesOn(128)
        (kept,) = self.night.glob("record-replaced-*")
        self.assertNotEqual(node, kept.stat().st_ino)
        self.assertNumbered(self.numbers)

    def replace(self):
        """As an editor does it, of whose copy nobody is told."""
        other = self.night / "copy"
        other.write_bytes(self.record()[:-40])
        other.rename(self.night / "record")

    def test_both_names_go(self):
        """A copy takes its place once `live` is gone; that is told before."""
        self.begin()
        for name in ("record", ".record"):
            (self.night / name).unlink()
        self.wait_for_reply("the record has lost its name, and live .*; no spare stands by$")
        self.assertIn("record", [each["kind"] for each in self.wait_for_status(4)["trouble"]])
        self.go(2, 3)
        self.numbers += self.wait_for_level(51)
        self.kill("pid")
        self.wait_for_reply("the record was gone from its place: the record is put back$")
        self.numbers += self.wait_for_level(51)
        self.assertNumbered(self.numbers)
        self.wait_for_status(0)

    def test_folder_is_moved(self):
        """A link in its place leads to it."""
        self.begin()
        other = self.folder / "elsewhere"
        self.night.rename(other)
        wait_for(self.night.is_symlink, "a link")
        self.wait_for_reply("the folder of the night was moved: .* is a link to .* now$")
        self.go(2, 3)
        self.numbers += self.wait_for_level(51)
        self.assertGoesOn(51)
        self.assertNumbered(self.numbers)

    def test_folder_is_removed(self):
        """It is made again once `live` is gone, and the light goes on."""
        self.begin()
        self.numbers += [each[SEQUENCE] for each in self.came()]
        live = self.number("pid")
        shutil.rmtree(self.night)
        self.show.unlink()
        until = time.monotonic() + BEHIND
        while time.monotonic() < until:
            self.numbers += [each[SEQUENCE] for each in self.came(0.05)]
        self.assertTrue(self.is_there(live))
        os.kill(live, signal.SIGKILL)
        self.wait_for_reply(r"goes on where it was$")
        self.numbers += self.wait_for_level(128)
        self.assertNumbered(self.numbers)
        self.wait_for_status(0)
        status, _, err = self.run_script("start", "--background")
        self.assertEqual(1, status)
        self.assertIn("keeps the night", err)

    def test_is_cut(self):
        self.begin()
        os.truncate(self.night / "record", 40)
        self.wait_for_reply("the record was cut, or written over, by something else than live")
        self.assertIn("record", [each["kind"] for each in self.wait_for_status(4)["trouble"]])

    def test_without_a_keeper(self):
        """That is told by `status`."""
        self.begin()
        keeper = self.kill("lock")
        wait_for(lambda: not self.is_there(keeper), "the keeper is gone")
        (self.night / "record").rename(self.folder / "other")
        told = self.wait_for_status(4)
        self.assertIn("is not the one that live", told["trouble"][0]["text"])
        self.assertEqual(0, self.run_script("start", "--background").status)
        self.wait_for_status(0)


class Strangers(RecordTest):
    def wait_in_lock(self, record):
        """Waits in a thread for the lock of the record, and keeps it."""
        file = record.open("rb")
        self.addCleanup(file.close)
        threading.Thread(target=fcntl.flock, args=(file, fcntl.LOCK_EX), daemon=True).start()
        waits = f"-> FLOCK  ADVISORY  WRITE {os.getpid()} "
        wait_for(lambda: waits in Path("/proc/locks").read_text(), "it waits")

    def test_stray_line(self):
        """No spare would go on behind it: it is taken out, and told."""
        self.begin()
        for each in (b"garbage\n", b"99999999 go\n", b"half a line"):
            with self.subTest(each):
                with open(self.night / "record", "ab") as file:
                    file.write(each)
                told = each.decode().strip()
                self.wait_for_reply(f"taken out of the record, as live has not written it: {told}")
        self.assertNotIn(b"garbage", self.record())
        self.spare()
        self.assertGoesOn(128)

    def test_lock_of_a_stranger(self):
        """Who waits for it has it before the spare: the night goes on in a copy."""
        self.begin()
        record = self.night / "record"
        node = record.stat().st_ino
        self.wait_in_lock(record)
        self.numbers += [each[SEQUENCE] for each in self.came()]
        told = f"process {os.getpid()} has the lock of the record, and does not play: the night "
        told += "goes on in a copy of it; end it\n"
        for times in range(1, 1 + TRIES):
            self.kill("pid")
            self.wait_for_reply("goes on where it was$", times)
            self.numbers += self.wait_for_level(128)
            if told in self.replies():
                break
            self.spare()
        else:
            raise Late("the spare had the lock each time before who waited for it")
        self.assertNumbered(self.numbers)
        self.assertNotEqual(node, record.stat().st_ino)
        self.spare()
        self.assertGoesOn(128)

    def test_lock_of_a_stranger_at_a_start(self):
        """It is named, and tried again until it is gone."""
        self.begin()
        self.run_script("halt")
        with open(self.night / "record", "rb") as file:
            fcntl.flock(file, fcntl.LOCK_EX)
            status, out, _ = self.run_script("start", "--background")
            self.assertEqual(1, status)
            told = f"process {os.getpid()} has the lock of the record: end that one, `kill "
            self.assertIn(told, out)
        self.wait_for_reply(r"live \(process \d+\) plays again$")
        self.wait_for_level(128)
