"""`cueplayer premiere`: one command from a show to a night that goes on, and a page to play it."""

import os
import re
import shlex
import shutil
import signal
import socket
import subprocess
import unittest
from unittest import mock

from desks import Page
from doors import Door
from folders import FolderNightTest
from program import TOP, FolderTest, text
from tooling import PATIENCE, Lines, wait_for
from wire import free_port, terminal

from cueplayer_tools.premiere import command as premiere_command

from cueplayer_tools.cue_list import read_show
from cueplayer_tools.line_protocol import Refused
from cueplayer_tools.premiere import night as premiere_night
from cueplayer_tools.premiere.night import Premiere
from cueplayer_tools.premiere.show import Made, is_export

PREMIERE = TOP / "cueplayer"
# An export that says whose it is, and of which nothing is lost.
EXPORT = text(
    "IDENT 3:0", "MANUFACTURER ETC", "CONSOLE EXPRESS", "PATCH 1 1<1@FL", "CUE 1", "TEXT dawn",
    "UP 2", "CHAN 1/FL", "CUE 2", "CHAN 1/20", "ENDDATA",
)  # fmt: skip
# One whose lines below the maker's own may have held light.
LOSSY = TOP / "examples/exports/inside.asc"


class PremiereTest(FolderNightTest):
    def setUp(self):
        super().setUp()
        self.night = self.folder / "show-night"
        self.listen = f"127.0.0.1:{free_port()}"

    def typed(self, *options):
        usual = ("--to", self.to, "--cid", self.cid, "--listen", self.listen)
        return [*map(str, (PREMIERE, "premiere", self.show, *usual, *options))]

    def started(self, *options, **streams):
        """A premiere that runs, with its process and the lines of both outputs."""
        pipes = {"stdin": subprocess.DEVNULL, "stdout": subprocess.PIPE, "stderr": subprocess.PIPE}
        process = subprocess.Popen(
            self.typed(*options), text=True, env=self.environment, **(pipes | streams)
        )
        self.addCleanup(process.wait)
        self.addCleanup(process.kill)
        return process, Lines(process.stdout), process.stderr and Lines(process.stderr)

    def opened(self, *options):
        """A premiere whose page is there: the process, its lines, the open page and the door."""
        process, out, err = self.started(*options)
        page = Page(self, out.find("desk: (http://127.*/)$")[1])
        door = Door(out.find("desk: .* by a PIN: .*")[0])
        page.wait(placed=True)
        return process, (out, err), page, door

    def refused(self, *options):
        """The status of a premiere that does not begin, and what it says."""
        done = subprocess.run(
            self.typed(*options), stdin=subprocess.DEVNULL, capture_output=True, text=True,
            env=self.environment, timeout=2 * PATIENCE,
        )  # fmt: skip
        self.assertEqual(([], False, ""), (self.came(0.05), self.night.exists(), done.stdout))
        return done.returncode, done.stderr

    def leave(self, process):
        process.send_signal(signal.SIGINT)
        self.assertEqual(0, process.wait(PATIENCE))


class Night(PremiereTest):
    def test_an_evening(self):
        """What is sent is said; then a night with a spare and a record, and what to do next."""
        process, (out, err), page, door = self.opened()
        told = f"premiere: 3 cues; sends universes 1 to {self.to}; "
        told += f"the page is at http://{self.listen}/ by a PIN"
        self.assertEqual(told, err.next())
        steps = [out.next() for _ in range(5)]
        opened = f"open http://{self.listen}/ on the tablet; "
        pins = f"PIN {door.play} plays, {door.watch} only watches"
        self.assertEqual(f"page:   {opened}{pins}", steps[0])
        self.assertRegex(steps[1], r"^begin:  GO plays the next cue")
        again = steps[2].removeprefix("if this program dies, the light stays; to come back: ")
        self.assertEqual(self.typed()[1:], shlex.split(again)[1:])
        record, replies = self.night / "record", self.night / "replies"
        self.assertEqual(f"record: {record}; what happened stands in {replies}", steps[4])
        self.spare()
        self.assertEqual(204, door.enter(door.play)[0])
        self.assertEqual(204, door.press(page, "go"))
        page.wait(current="1", waiting=0)
        self.wait_for_level(128)
        self.leave(process)
        pattern = "the night goes on without this desk; .* comes back to it, (.*) ends it$"
        farewell = out.find(pattern)
        self.assertEqual(0, self.run_script("sub", "1", "FL").status)
        self.wait_for_level(255)
        self.assertIn(b" go\n", record.read_bytes())
        ends = steps[3].partition(" or type ")[2]
        self.assertEqual(ends, farewell[1])
        done = subprocess.run(shlex.split(ends), capture_output=True, env=self.environment)
        self.assertEqual(0, done.returncode, done)
        wait_for(lambda: Premiere(self.night).folder.has_ended(), "the end")

    def test_comes_back(self):
        """The same command is one more desk on a night that is played, with the same PINs; where
        all was killed it goes on where it was."""
        process, _, page, door = self.opened()
        page.command("goto 2 in 0")
        page.wait(current="2", waiting=0)
        process.kill()
        process.wait()
        again, (_, err), page, same = self.opened()
        err.find(f"premiere: the night in {re.escape(str(self.night))} is played: ")
        page.wait(current="2")
        self.assertEqual((door.play, door.watch), (same.play, same.watch))
        self.leave(again)
        self.kill_all()
        wait_for(lambda: not Premiere(self.night).is_played(), "that nobody plays")
        third, (_, err), page, _ = self.opened()
        pattern = r"premiere: the night in .* broke off at .*; it sends to (\S+), and goes on"
        self.assertEqual(self.to, err.find(pattern)[1])
        page.wait(current="2", next="3")
        self.leave(third)

    def test_record_that_is_damaged(self):
        """As by a power cut: the same command begins the night in the last cue, and says so."""
        process, _, page, _ = self.opened()
        page.command("goto 2 in 0")
        page.wait(current="2", waiting=0)
        process.kill()
        process.wait()
        self.kill_all()
        wait_for(lambda: not Premiere(self.night).is_played(), "that nobody plays")
        with open(self.night / "record", "ab") as file:
            file.write(bytes(40) + b"\n")
        again, (_, err), page, _ = self.opened()
        told = r".*: the night starts again in cue 2, its masters at full; the record is kept as "
        err.find(told + "record-refused-")
        page.wait(current="2", next="3")
        self.leave(again)

    def test_next_evening(self):
        """Behind an end the same command begins a new night; the old record is kept."""
        process, (out, _), page, _ = self.opened()
        page.command("go")
        page.wait(current="1", waiting=0)
        page.command("end")
        page.wait(status=0)
        self.leave(process)
        out.find(f"the night has ended; its record is {re.escape(str(self.night / 'record'))}$")
        before = (self.night / "record").read_bytes()
        process, _, page, _ = self.opened()
        page.wait(current=None, next="1")
        (kept,) = self.night.glob("record-*")
        self.assertEqual(before, kept.read_bytes())
        self.leave(process)

    def test_page_cannot_be_there(self):
        """Then nothing has begun either."""
        host, port = self.listen.split(":")
        with socket.create_server((host, int(port))):
            told = f"premiere: the page cannot be at {self.listen}: Address already in use; "
            status, err = self.refused()
        self.assertEqual((1, told), (status, err[: len(told)]))

        words = ("--certificate", "/nowhere", "--key", "/nowhere")
        told = "premiere: --certificate /nowhere, --key /nowhere: No such file or directory\n"
        self.assertEqual((1, told), self.refused(*words))

    def test_keeper_that_waits(self):
        """Where nobody plays a night that is kept, that is told, with where to look."""
        night = Premiere(self.night)
        with mock.patch.object(premiere_night, "PATIENCE", 0.1):
            told = f"nobody plays the night yet.*{self.night}/replies"
            with self.assertRaisesRegex(Refused, told):
                night.await_live()

    def test_cid_in_use(self):
        """No second night begins under one CID."""
        process, _, _, _ = self.opened()
        other = self.folder / "other"
        done = subprocess.run(
            self.typed("--night", other, "--listen", f"127.0.0.1:{free_port()}"),
            stdin=subprocess.DEVNULL, capture_output=True, text=True, env=self.environment,
        )  # fmt: skip
        self.assertRegex(done.stderr, r"^premiere: process \d+ plays live under this CID already: ")
        self.assertEqual((1, False), (done.returncode, other.exists()))
        self.leave(process)


class Shows(PremiereTest):
    def test_export(self):
        """It is converted first, into the folder of the night, with its report."""
        self.show.write_bytes(EXPORT)
        process, (_, err), page, _ = self.opened()
        for told in ("read: ", "kept: 2 cues, ", "light: nothing is lost that may have held any"):
            self.assertTrue((line := err.next()).startswith(f"premiere: {told}"), line)
        self.assertEqual("dawn", page.newest["show"]["cues"][0]["name"])
        self.assertEqual("show.asc", page.newest["show"]["title"])
        page.command("go")
        self.wait_for_level(255)
        report = (self.night / "show.report").read_text()
        self.assertIn("table: cue 2: 1 at 20\n", report)
        self.assertEqual(2, len(read_show(str(self.night / "show.asc")).cues))
        self.assertEqual(EXPORT, self.show.read_bytes())
        self.leave(process)

    def test_light_lost(self):
        """Where some was lost nothing begins, and it is named; --anyway plays it."""
        shutil.copy(LOSSY, self.show)
        status, told = self.refused()
        self.assertEqual(3, status)
        self.assertIn("premiere: light: may be missing in 6 places", told)
        self.assertIn("premiere: lines 18, 22: lost: cue 1 comes out dark", told)
        self.assertTrue(told.splitlines()[-1].endswith("--anyway plays it as it is"), told)
        process, _, page, _ = self.opened("--anyway")
        page.command("goto 2 in 0")
        self.wait_for_level(255)
        self.leave(process)

    def test_fault(self):
        """A show that the program refuses is refused in its words."""
        self.show.write_bytes(text("CUE 1", "CHAN 1@FL", "CUE x"))
        remark = "`CUE x`: a number is 1 to 9 digits; a cue's is 0.001 to 9999.999, as 2.5\n"
        self.assertEqual((1, f"premiere: show line 3: BadNumber\n{remark}"), self.refused())
        self.show.unlink()
        told = f"premiere: {self.show}: No such file or directory\n"
        self.assertEqual((1, told), self.refused())

    def test_words(self):
        """Words that are none: nothing has begun."""
        for words, told in (
            (("--to", "x"), "--to: not an IPv4 address: 'x'"),
            (("--listen", "192.0.2.77"), "--listen: no card of this machine has 192.0.2.77"),
            (("--certificate", "x"), "--certificate and --key go together"),
        ):
            status, err = self.refused(*words)
            self.assertEqual(2, status)
            self.assertIn(told, err)
        done = subprocess.run([PREMIERE, "premiere", self.show], capture_output=True, text=True)
        self.assertEqual(2, done.returncode)
        self.assertIn("the following arguments are required: --to", done.stderr)

    def test_live_refuses(self):
        """What `live` refuses is told with its reason, and nothing is left behind that waits."""
        there = r"no card eth77: there are .*"
        for words, told in (
            (("--priority", "201"), "--priority `201`: a priority is a number from 0 to 200"),
            (("--interface", "eth77"), there),
        ):
            done = subprocess.run(
                self.typed(*words), stdin=subprocess.DEVNULL, capture_output=True, text=True,
                env=self.environment, timeout=2 * PATIENCE,
            )  # fmt: skip
            self.assertEqual((1, ""), (done.returncode, done.stdout))
            last = done.stderr.splitlines()[-1]
            self.assertRegex(last, f"^premiere: {told}; nothing was begun$")
            self.assertFalse(Premiere(self.night).is_played())
        self.assertEqual([], self.came(0.05))
        process, _, page, _ = self.opened()
        page.wait(current=None, next="1")
        self.leave(process)

    def test_help(self):
        """It begins with what the command does, and how it is typed."""
        done = subprocess.run([PREMIERE, "premiere", "--help"], capture_output=True, text=True)
        said, example, *_ = done.stdout.split("\n\n")
        self.assertEqual((0, 1), (done.returncode, said.count(". ") + said.count(".\n") + 1))
        self.assertEqual("  cueplayer premiere hamlet.asc --to 239.255.0.0", example)


class Terminal(PremiereTest):
    def ask(self, answer):
        """A premiere at a terminal that is answered so, once it has asked; nothing was sent until
        then."""
        ours, theirs = terminal(self)
        self.addCleanup(os.close, ours)
        process, out, _ = self.started(stdin=theirs, stderr=theirs)
        os.close(theirs)
        told = ""
        while not told.endswith("n sends nothing: "):
            told += os.read(ours, 65_536).decode()
        self.assertEqual([], self.came(0.1))
        os.write(ours, answer)
        return process, out, told

    def test_asked(self):
        """What is sent is said before the first packet, and only a yes begins."""
        for answer in (b"n\n", b"\x04"):
            process, out, told = self.ask(answer)
            self.assertIn(f"sends universes 1 to {self.to}; the page is at", told)
            self.assertEqual((1, []), (process.wait(PATIENCE), out.rest()))
            self.assertEqual((False, []), (self.night.exists(), self.came(0.1)))
        process, out, _ = self.ask(b"y\n")
        out.find("page:   ")
        wait_for(lambda: self.came(0.05), "packets")
        self.leave(process)

    def test_goes_on(self):
        """A night that broke off goes on if that is wanted."""
        process, _, page, _ = self.opened()
        page.command("goto 2 in 0")
        page.wait(current="2", waiting=0)
        self.leave(process)
        self.kill_all()
        wait_for(lambda: not Premiere(self.night).is_played(), "that nobody plays")
        self.came()
        record = (self.night / "record").read_bytes()
        process, _, told = self.ask(b"n\n")
        self.assertRegex(told, rf"broke off at \d{{4}}-.*; it sends to {re.escape(self.to)}")
        self.assertEqual(1, process.wait(PATIENCE))
        self.assertEqual(record, (self.night / "record").read_bytes())
        process, out, _ = self.ask(b"y\n")
        Page(self, out.find("desk: (http://127.*/)$")[1]).wait(current="2")
        self.leave(process)


class Parts(FolderTest):
    def test_exports(self):
        """What names a console is an export; what `convert` has made of one is none any more."""
        self.assertTrue(is_export(EXPORT))
        self.assertTrue(is_export(b"CUE 1\n  $$Show Gala\n"))
        made = b"IDENT 3:0\n! From an export of the Eos family, by convert.\nConsole Eos\n"
        for content in (b"", b"CUE 1 ! CONSOLE EOS\nTEXT my CONSOLE\nCHAN 1@FL\n", made):
            self.assertFalse(is_export(content), content)
        for export in sorted(LOSSY.parent.glob("*.asc")):
            self.assertTrue(is_export(export.read_bytes()), export)

    def test_copy_that_was_changed(self):
        """What somebody mended in the folder is put aside, and never written over."""
        night = Premiere(self.folder / "night")
        show = night.keep_show("a/hamlet.usitt", Made(b"one\n", ["a report"]))
        self.assertEqual((night.path / "hamlet.asc", b"one\n"), (show, show.read_bytes()))
        self.assertEqual("a report\n", show.with_suffix(".report").read_text())
        night.keep_show("hamlet.asc", Made(b"one\n"))
        self.assertEqual([show], list(night.path.glob("*.asc")))
        show.write_bytes(b"mended\n")
        night.keep_show("hamlet.asc", Made(b"two\n"))
        (aside,) = set(night.path.glob("*.asc")) - {show}
        self.assertEqual((b"mended\n", b"two\n"), (aside.read_bytes(), show.read_bytes()))
        self.assertRegex(aside.name, r"^hamlet-\d{4}-\d\d-\d\dT\d{6}\.asc$")

    def test_network(self):
        """The page is on the one network of this machine; of several it is asked."""
        lo, lit, office = ("127.0.0.1", "lo"), ("10.1.1.1", "lit"), ("192.168.0.7", "wlan0")
        public = ("9.9.9.9", "wan")

        def host(*cards):
            with mock.patch.object(premiere_command, "own_addresses", lambda: dict(cards)):
                return premiere_command._page_host()

        self.assertIsNone(host(lo, public))
        self.assertEqual("10.1.1.1", host(lo, lit, public))
        listed = "1: 10.1.1.1 (lit), 2: 192.168.0.7 (wlan0)"
        with mock.patch.object(premiere_command, "is_at_terminal", lambda: False):
            with self.assertRaisesRegex(Refused, re.escape(f"by --listen: {listed}")):
                host(lo, lit, office)
        with mock.patch.object(premiere_command, "is_at_terminal", lambda: True):
            with mock.patch.object(premiere_command, "answer_to", return_value="2") as asked:
                self.assertEqual("192.168.0.7", host(lo, lit, office))
        question = f"premiere: the tablet's network: {listed}; which number? "
        asked.assert_called_once_with(question, ("1", "2"))


if __name__ == "__main__":
    unittest.main()
