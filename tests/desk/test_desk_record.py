"""`tools/desk`: each night has a record, and one that broke off goes on, or a new one begins."""

import os
import re
import shlex
import signal
import subprocess
import sys
import time
import unittest
from pathlib import Path
from unittest import mock

from desks import SHOW, DeskTest, Page
from program import FolderTest, behind_head
from tooling import PATIENCE, TOOLS, Lines, Started, run_tool, wait_for
from wire import OPTIONS, TERMINATED, terminal

from cueplayer_tools import asking

from cueplayer_tools.desk import record as desk_record

from cueplayer_tools.line_protocol import Refused
from cueplayer_tools.premiere import night as premiere_night

NAME = re.compile(r"show-\d{4}-\d\d-\d\dT\d{6}(-\d+)?\.play")


class RecordTest(DeskTest):
    def records(self):
        """The records beside the show, the oldest first."""
        found = [each for each in self.show.parent.iterdir() if NAME.fullmatch(each.name)]
        return sorted(found, key=lambda each: each.name)

    def commands(self, record):
        lines = [line.split()[1:] for line in behind_head(record.read_bytes())]
        return [line for line in lines if line != ["tick"]]

    def end(self, desk):
        desk.process.terminate()
        self.assertEqual(0, desk.process.wait(PATIENCE))

    def break_off(self, desk):
        """The desk dies, and then its `live`; the record is whole once its writer has gone."""
        desk.process.kill()
        desk.process.wait()
        os.kill(desk.live, signal.SIGKILL)
        (record,) = self.records()
        wait_for(lambda: desk_record.broke_off(record), "that nobody plays it")
        return record

    def broken_night(self):
        """The record of a night that broke off at cue 1.5."""
        desk, page = self.open_desk()
        page.command("goto 1.5 in 0")
        page.wait(current="1.5", waiting=0)
        self.wait_for_level(255)
        return self.break_off(desk)


class Kept(RecordTest):
    def test_beside_the_show(self):
        """Each night has a new file there, which is told, and leaves those before alone."""
        kept = {}
        for night in range(2):
            desk, page = self.open_desk()
            page.command("go")
            page.wait(current="1", waiting=0)
            (record,) = set(self.records()) - set(kept)
            desk.err.find(f"desk: live: record: {re.escape(str(record))}$")
            self.end(desk)
            self.assertEqual([["go"], ["master", "0"], ["end"]], self.commands(record))
            kept[record] = record.read_bytes()
        self.assertEqual(kept, {each: each.read_bytes() for each in self.records()})

    def test_none(self):
        desk, page = self.open_desk("--no-record")
        desk.err.find("desk: live: record: none; --record FILE keeps one$")
        page.command("go")
        page.wait(current="1")
        self.end(desk)
        self.assertEqual([], self.records())

    def test_refused_night(self):
        """A night that does not begin leaves no record."""
        done = run_tool("desk", self.show, "--to", self.to, "--cid", self.cid, "--priority", 201)
        self.assertEqual((2, []), (done.returncode, self.records()))

    def test_words(self):
        usual = ("--to", self.to, "--cid", self.cid)
        told = "--no-record goes with neither --record nor --resume"
        for words in (("--no-record", "--resume"), ("--no-record", "--record", "x")):
            done = run_tool("desk", self.show, *usual, *words)
            self.assertEqual(2, done.returncode)
            self.assertIn(told, done.stderr)
        for word in ("--resume", "--no-record"):
            done = run_tool("desk", "--night", self.folder, word)
            self.assertIn(f"leave out {word[2:]}", done.stderr)


class BrokenOff(RecordTest):
    def begin(self, *options, to=None):
        """Each desk of a test has one CID, as one that is kept."""
        with mock.patch.object(self, "new_cid", lambda: self.cid):
            return super().begin(*options, to=to)

    def test_resume(self):
        """It goes on in the newest record, where it was, in the same stream."""
        record = self.broken_night()
        desk, page = self.open_desk("--resume")
        goes_on = f"{re.escape(str(record))}, goes on at 0:00:0\\d of the night, cue 1.5"
        desk.err.find(f"desk: live: record: {goes_on}")
        page.wait(current="1.5", next="2")
        page.command("go")
        page.wait(current="2", waiting=0)
        self.end(desk)
        expected = [["goto", "1.5", "in", "0"], ["go"], ["master", "0"], ["end"]]
        self.assertEqual(([record], expected), (self.records(), self.commands(record)))

    def test_taken_up_by_the_page(self):
        """A night that goes on may break off once more: its page takes it up again."""
        self.broken_night()
        desk, page = self.open_desk("--resume")
        page.wait(current="1.5")
        os.kill(desk.live, signal.SIGKILL)
        page.wait(status=-signal.SIGKILL, resumes=True)
        self.assertEqual(204, page.request("POST", "resume", b"now")[0])
        page.wait(status=None, current="1.5", waiting=0)
        found = desk.err.find(r"desk: the night is taken up: live is process (\d+)$")
        self.addCleanup(self.kill, int(found[1]), self.cid)

    def test_cid_of_the_record(self):
        """Who could not keep a CID goes on under that of the record: to nodes it is one source."""
        self.addCleanup(os.environ.pop, "XDG_CONFIG_HOME")
        os.environ["XDG_CONFIG_HOME"] = str(self.file("taken", b""))
        words = (self.show, "--to", self.to)
        desk = Started(self, "desk", *words)
        found = desk.err.find(r"desk: console (\S+), live is process (\d+)")
        cid, desk.live = found[1], int(found[2])
        self.addCleanup(self.kill, desk.live, cid)
        self.came(0.5)
        self.break_off(desk)
        again = Started(self, "desk", *words, "--resume")
        found = again.err.find(r"desk: console (\S+), live is process (\d+)")
        self.addCleanup(self.kill, int(found[2]), cid)
        self.assertEqual(cid, found[1])
        again.err.find("desk: live: record: .*, goes on at ")
        self.end(again)

    def test_desk_alone_died(self):
        """Its `live` plays on: what ends it is told, and how the night goes on then."""
        desk, page = self.open_desk()
        page.command("go")
        self.wait_for_level(128)
        desk.process.kill()
        desk.process.wait()
        done = run_tool("desk", self.show, "--to", self.to, "--cid", self.cid)
        told = f"desk: process {desk.live} plays live under this CID already: "
        told += f"`kill {desk.live}` ends it; "
        told += "then the same command with --resume goes on where it was\n"
        self.assertEqual((1, told), (done.returncode, done.stderr))
        os.kill(desk.live, signal.SIGTERM)
        _, page = self.open_desk("--resume")
        page.wait(current="1", next="1.5")

    def test_nobody_to_ask(self):
        """A new night begins, and the command is told that goes on with the other."""
        record = self.broken_night()
        words = (self.show, "--to", self.to, "--cid", self.cid)
        desk = Started(self, "desk", *words, stdin=subprocess.DEVNULL)
        pattern = (
            rf"desk: a night of this show broke off at \d\d:\d\d: {re.escape(str(record))}; "
            r"this is a new night, and this goes on with the other: (.*)$"
        )
        command = shlex.split(desk.err.find(pattern)[1])
        expected = [TOOLS / "desk", *words, "--record", record, "--resume"]
        self.assertEqual([*map(str, expected)], command)
        Page(self, desk.out.next().removeprefix("desk: ")).wait(placed=True, current=None)
        self.end(desk)
        self.assertEqual(2, len(self.records()))
        again = Started(self, "desk", *command[1:])
        page = Page(self, again.out.next().removeprefix("desk: "))
        page.wait(placed=True, current="1.5")
        self.end(again)

    def test_nothing_to_resume(self):
        """Neither a night that has ended nor one that never was goes on."""
        usual = (self.show, "--to", self.to, "--cid", self.cid)
        none = "nothing to go on with: no record of this show is here; name it by --record"
        done = run_tool("desk", *usual, "--resume")
        self.assertEqual((1, f"desk: {none}\n"), (done.returncode, done.stderr))
        desk, _ = self.open_desk()
        self.end(desk)
        (record,) = self.records()
        done = run_tool("desk", *usual, "--resume")
        ended = f"desk: the night of {record} has ended: leave out --resume\n"
        self.assertEqual((1, ended), (done.returncode, done.stderr))
        # Neither is offered.
        desk, _ = self.open_desk()
        self.end(desk)
        self.assertNotIn("broke off", "\n".join(desk.err.rest()))

    def ask(self, *answers):
        """A desk at a terminal, which is answered so: its process, and all that it says."""
        ours, theirs = terminal(self)
        self.addCleanup(os.close, ours)
        words = (sys.executable, TOOLS / "desk", self.show, "--to", self.to, "--cid", self.cid)
        desk = subprocess.Popen(
            [*map(str, words)], stdin=theirs, stdout=subprocess.PIPE, stderr=theirs, text=True
        )
        self.addCleanup(desk.wait)
        self.addCleanup(desk.kill)
        os.close(theirs)
        told = ""
        for count, answer in enumerate(answers, 1):
            question = "y goes on where it was, n begins a new night: "
            while told.count(question) < count:
                told += os.read(ours, 65_536).decode()
            os.write(ours, answer)
        return desk, told

    def asked_page(self, *answers):
        """The desk and its page, once what was asked is answered."""
        desk, told = self.ask(*answers)
        page = Page(self, Lines(desk.stdout).next().removeprefix("desk: "))
        page.wait(placed=True)
        return desk, page, told

    def test_goes_on(self):
        """At a terminal it is asked, until the answer is a clear one."""
        record = self.broken_night()
        self.came()
        desk, page, told = self.asked_page(b"\n", b"go on\n", b"y\n")
        pattern = rf"desk: a night .* broke off at \d\d:\d\d: {re.escape(str(record))}"
        self.assertRegex(told, pattern)
        page.wait(current="1.5", next="2")
        desk.terminate()
        self.assertEqual((0, [record]), (desk.wait(PATIENCE), self.records()))

    def test_begins_anew(self):
        record = self.broken_night()
        content = record.read_bytes()
        desk, page, _ = self.asked_page(b"n\n")
        page.wait(current=None, next="1")
        desk.terminate()
        self.assertEqual((0, content), (desk.wait(PATIENCE), record.read_bytes()))
        self.assertEqual(2, len(self.records()))

    def test_no_answer(self):
        """Control-D and control-C: nothing begins, and nothing is sent."""
        record = self.broken_night()
        self.came()
        for key in (b"\x04", b"\x03"):
            desk, _ = self.ask(key)
            if key == b"\x03":
                # It is no terminal of its own.
                desk.send_signal(signal.SIGINT)
            self.assertEqual(1, desk.wait(PATIENCE))
        self.assertEqual(([record], []), (self.records(), self.came(0.2)))

    def test_show_that_was_changed(self):
        """Its night cannot go on, which is told; nobody is asked."""
        self.broken_night()
        self.show.write_bytes(SHOW + b"CUE 3\n")
        desk = Started(self, "desk", self.show, "--to", self.to, "--cid", self.cid)
        desk.err.find("desk: a night .*; the show file has changed since, so this is a new night$")
        page = Page(self, desk.out.next().removeprefix("desk: "))
        page.wait(placed=True, current=None)
        self.end(desk)
        self.assertEqual(2, len(self.records()))

    def test_of_another_evening(self):
        """One that broke off long ago is not offered; it goes on if that is asked for."""
        record = self.broken_night()
        long_ago = time.time() - desk_record.SAME_EVENING - 60
        os.utime(record, (long_ago, long_ago))
        desk, page = self.open_desk()
        page.wait(current=None)
        self.end(desk)
        self.assertNotIn("broke off", "\n".join(desk.err.rest()))
        self.assertTrue(self.came()[-1][OPTIONS] & TERMINATED)


class Names(FolderTest):
    SHOW = SHOW

    def setUp(self):
        super().setUp()
        self.addCleanup(os.chdir, Path.cwd())
        os.chdir(self.folder)

    def test_never_written_over(self):
        """Nights of one second have names of their own, whatever stands there."""
        moment = time.struct_time((2026, 11, 30, 19, 30, 5, 0, 334, 0))
        with mock.patch("time.localtime", return_value=moment):
            for expected in ("", "-2", "-3"):
                made = desk_record.new_record("show.asc")
                self.assertEqual(f"show-2026-11-30T193005{expected}.play", made.name)
                made.unlink()
                made.symlink_to("nowhere")

    def test_folder(self):
        """Beside the show; where that is read-only, here; where neither can be written, refused."""
        below = self.folder / "below"
        below.mkdir()
        show = str(below / "show.asc")
        for writable, expected in (((below, self.folder), below), ((self.folder,), self.folder)):
            with mock.patch("os.access", lambda folder, how: folder in writable):
                self.assertEqual(expected, desk_record.folder_beside(show))
        with mock.patch("os.access", return_value=False):
            with self.assertRaisesRegex(Refused, "--record FILE, or leave it out by --no-record"):
                desk_record.new_record(show)
            self.assertIsNone(desk_record.newest_record(show))
            with self.assertRaisesRegex(Refused, "--night FOLDER names one"):
                premiere_night.usual_folder(show)

    def test_background(self):
        """Who would be stopped for reading a terminal asks nobody."""
        with mock.patch("sys.stdin") as stdin, mock.patch("sys.stderr") as stderr:
            stdin.fileno.return_value = 0
            for group, expected in ((os.getpgrp(), True), (os.getpgrp() + 1, False)):
                with mock.patch("os.tcgetpgrp", return_value=group):
                    self.assertEqual(expected, asking.is_at_terminal())
            with mock.patch("os.tcgetpgrp", side_effect=OSError):
                self.assertTrue(asking.is_at_terminal())
            stderr.isatty.return_value = False
            self.assertFalse(asking.is_at_terminal())

    def test_of_this_show(self):
        """Records of others, and other files, are not taken for its own."""
        self.assertIsNone(desk_record.newest_record("show.asc"))
        for name in ("show.play", "my-show-2026-11-30T193005.play", "show-2026-11-30T193005.txt",
                     "show-2-2026-11-30T193005.play", "show-2026-11-30.play"):
            self.file(name, b"0 go\n")
        self.assertIsNone(desk_record.newest_record("show.asc"))
        for seconds in ("05", "04", "06"):
            record = self.file(f"show-2026-11-30T1930{seconds}.play", b"0 go\n")
            os.utime(record, (1000 + int(seconds == "04"), 1000))
        newest = self.folder / "show-2026-11-30T193006.play"
        os.utime(newest, (0, 2000))
        self.assertEqual(newest, desk_record.newest_record("show.asc"))
        self.assertTrue(desk_record.broke_off(newest))
        newest.write_bytes(b"0 go\n5 master 0\n5 end\n5 tick\n30 tick\n55 tick\n")
        self.assertFalse(desk_record.broke_off(newest))


if __name__ == "__main__":
    unittest.main()
