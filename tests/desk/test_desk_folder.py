"""`tools/desk --night`, `tools/osc --night`: what takes hold of a night that others keep going."""

import os
import re
import signal
import socket
import time

from desk_folders import DeskFolderTest
from folders import FolderNightTest
from osc_messages import GO, message
from tooling import PATIENCE, Started, run_tool, stand_still, wait_for

from cueplayer_tools.line_protocol import Refused
from cueplayer_tools.night_folder import NightFolder



class Desk(DeskFolderTest):
    def test_takes_hold(self):
        """It shows where the night is, and plays it; what shells do meanwhile is shown too."""
        self.begin_night()
        for line in ("goto 2 in 0", "sub 1 50", "master H40"):
            self.assertEqual(0, self.run_script(*line.split()).status)
        _, page = self.desk()
        page.wait(current="2", next="3", grand=64, masters={"sub 1": 128})
        self.assertEqual(204, page.command("go"))
        page.wait(current="3", next=None)
        self.assertEqual((0, ["ok", "cue 1"]), self.without_moments("goto", "1"))
        page.wait(current="1", next="2")
        self.assertEqual((0, ["ok"]), self.without_moments("sub", "1", "0"))
        page.wait(masters={})

    def test_two_desks(self):
        """Side by side both show what either does; a refusal is told by the one that asked."""
        self.begin_night()
        (_, one), (_, two) = self.desk(), self.desk()
        one.command("go")
        two.wait(current="1", waiting=0)
        two.command("sub 1 FL")
        one.wait(masters={"sub 1": 255}, waiting=0)
        one.command("goto 7")
        wait_for(lambda: "goto 7: refused, NoCue" in one.notices(), "the refusal")
        one.command("goto 2 in 8")
        two.wait(current="2", waiting=0)
        self.assertEqual(8000, one.wait(current="2")["fade"]["whole"])

    def test_desk_is_killed(self):
        """The desk is killed: the light does not notice, and the next desk takes hold of the night
        where it is."""
        self.begin_night()
        desk, page = self.desk()
        page.command("go")
        numbers = self.wait_for_level(128)
        desk.process.kill()
        desk.process.wait()
        self.run_script("sub", "1", "H99")
        numbers += self.wait_for_level(0x99)
        self.assertNumbered(numbers)
        _, again = self.desk()
        again.wait(current="1", next="2", masters={"sub 1": 0x99})

    def test_desk_is_left(self):
        """Control-C and SIGTERM leave the desk alone, at the first press."""
        self.begin_night()
        for name in ("INT", "TERM"):
            desk, _ = self.desk()
            desk.process.send_signal(signal.Signals[f"SIG{name}"])
            self.assertEqual(0, desk.process.wait(PATIENCE))
        self.assertEqual((0, ["ok", "cue 1"]), self.without_moments("go"))

    def test_live_is_killed(self):
        """`live` is killed: the pages tell it, and show the state again; the press after is
        taken."""
        self.begin_night()
        _, page = self.desk()
        page.command("go")
        page.wait(current="1", waiting=0)
        live = self.kill("pid")
        told = f"live (process {live}) was ended by SIGKILL"
        wait_for(lambda: any(told in notice for notice in page.notices()), told)
        page.wait(current="1", next="2", waiting=0, late=False)
        wait_for(lambda: page.command("sub 1 FL") == 204, "a press that is taken")
        page.wait(masters={"sub 1": 255}, waiting=0)
        self.wait_for_level(255)

    def test_replies_are_cut_and_removed(self):
        """As by who rotates them: the page goes on to show what is done."""
        self.begin_night()
        self.spare()
        _, page = self.desk()
        for times, cause in enumerate((lambda path: os.truncate(path, 0), os.unlink), 1):
            with self.subTest(times):
                cause(self.night / "replies")
                self.wait_for_reply(r"^\d+ where ")
                self.assertEqual((0, ["ok", f"cue {times}"]), self.without_moments("go"))
                page.wait(current=f"{times}", waiting=0, late=False)
                wait_for(lambda: page.command("sub 1 FL") == 204, "a press that is taken")
                page.wait(masters={"sub 1": 255}, waiting=0)
                self.assertEqual((0, ["ok"]), self.without_moments("sub", "1", "0"))
                page.wait(masters={})

    def test_press_that_nobody_takes(self):
        """Where no `live` plays a press is refused at once, and what to do is told; with the next
        one the desk goes on."""
        self.begin_night()
        _, page = self.desk()
        self.kill_all()
        wait_for(lambda: not NightFolder(str(self.night)).is_played(), "no reader")
        self.assertEqual(409, page.command("go"))
        start = f"`cueplayer-night {self.night} start`"
        told = f"no live plays the night in {self.night}: {start} goes on with it"
        wait_for(lambda: told in page.notices(), told)
        self.assertEqual(["away"], [each["kind"] for each in page.state["notices"][-1:]])
        page.wait(late=True)
        self.assertEqual(0, self.run_script("start", "--background").status)
        wait_for(lambda: page.command("go") == 204, "a press that is taken")
        page.wait(current="1", waiting=0, status=None, late=False)
        # The night is played again, so that it was not is over.
        wait_for(lambda: told not in page.notices(), "that the desk forgets it")

    def test_all_are_killed(self):
        """Desk, keeper, `live` and its spare: `start` and a new desk bring back what was."""
        self.begin_night()
        desk, page = self.desk()
        page.command("goto 3")
        page.wait(current="3", waiting=0)
        desk.process.kill()
        self.kill_all()
        done = run_tool("desk", "--night", self.night)
        self.assertEqual(1, done.returncode)
        self.assertIn("desk: no live plays the night in", done.stderr)
        self.assertEqual(0, self.run_script("start", "--background").status)
        _, page = self.desk()
        page.wait(current="3", next=None)

    def test_end(self):
        """By the page, and by a shell: each page says that the night is over."""
        for by in ("page", "shell"):
            with self.subTest(by):
                self.begin_night()
                desk, page = self.desk()
                if by == "page":
                    page.command("end")
                else:
                    self.run_script("end")
                page.wait(status=0)
                self.assertEqual("desk: live has ended with status 0", self.last_line(desk))
                self.wait_for_reply("the night has ended")
                desk.process.terminate()
                self.assertEqual(0, desk.process.wait(PATIENCE))

    def last_line(self, desk):
        """The line by which the desk tells that the night has ended."""
        return desk.err.find("desk: live has ended .*")[0]

    def test_end_without_a_keeper(self):
        self.begin_night()
        _, page = self.desk()
        self.kill("lock")
        self.run_script("end")
        page.wait(status=0)

    def test_live_that_stands_still(self):
        """`live` stands still: the keeper ends it; what is not read is taken back, and told."""
        self.begin_night()
        self.spare()
        _, page = self.desk()
        live = self.number("pid")
        stand_still(live)
        self.assertEqual(204, page.command("go"))
        told = f"live (process {live}) has not read for a second; taken back: go;"
        wait_for(lambda: any(told in notice for notice in page.notices()), told)
        page.wait(late=False, waiting=0, current=None, next="1")

    def test_live_that_stands_still_and_nobody_keeps(self):
        """The page says so."""
        self.begin_night()
        _, page = self.desk()
        self.kill("lock")
        live = self.number("pid")
        stand_still(live)
        self.assertEqual(204, page.command("go"))
        page.wait(late=True)
        os.kill(live, signal.SIGCONT)
        page.wait(late=False, waiting=0)

    def test_words(self):
        """It has the words of the night, and takes no others."""
        for words in (["show.asc"], ["--to", "1.2.3.4"], ["--cid", self.cid], ["--base", "2"],
                      ["--priority", "1"], ["--record", "x"]):  # fmt: skip
            done = run_tool("desk", "--night", self.night, *words)
            self.assertEqual(2, done.returncode)
            self.assertIn("--night has the options of its night: leave out ", done.stderr)
        self.assertEqual(2, run_tool("desk", "--to", "1.2.3.4").returncode)
        done = run_tool("desk", "--night", self.night)
        told = f"desk: no night in {self.night}: No such file or directory\n"
        self.assertEqual((1, "", told), (done.returncode, done.stdout, done.stderr))
        self.run_script("make", *self.words)
        done = run_tool("desk", "--night", self.night)
        self.assertEqual(1, done.returncode)
        self.assertIn(f"no live plays the night in {self.night}", done.stderr)


class Osc(DeskFolderTest):
    def osc(self):
        """The tool, and a function that sends to it."""
        osc = Started(self, "osc", "--listen", "127.0.0.1:0", "--night", self.night)
        port = int(re.fullmatch(r"osc: listening at 127\.0\.0\.1:(\d+)", osc.err.next())[1])
        sender = socket.socket(socket.AF_INET, socket.SOCK_DGRAM)
        self.addCleanup(sender.close)
        sender.connect(("127.0.0.1", port))
        return osc, sender.send

    def test_night(self):
        """Its lines go into the night, beside those of a shell; where none plays they are
        refused."""
        self.begin_night()
        osc, send = self.osc()
        send(GO)
        self.wait_for_level(128)
        self.assertEqual((0, ["ok"]), self.without_moments("sub", "1", "H90"))
        send(message("/cueplayer/sub/1", 1.0))
        self.wait_for_level(255)
        self.kill_all()
        wait_for(lambda: not NightFolder(str(self.night)).is_played(), "no reader")
        send(GO)
        self.assertRegex(osc.err.next(), r": go: no live plays the night in .*; nothing was sent$")
        self.run_script("start", "--background")
        send(GO)
        self.wait_for_reply(r"^\d+ cue 2$")
        self.assertIsNone(osc.process.poll())

    def test_desk_with_osc(self):
        self.begin_night()
        _, page = self.desk("--osc", 0)
        host, port = page.newest["show"]["osc"].split(":")
        with socket.socket(socket.AF_INET, socket.SOCK_DGRAM) as sender:
            sender.sendto(GO, (host, int(port)))
        page.wait(current="1")

    def test_no_night(self):
        done = run_tool("osc", "--night", self.night)
        self.assertEqual((1, ""), (done.returncode, done.stdout))
        self.assertIn(f"osc: no live plays the night in {self.night}", done.stderr)


class Folder(FolderNightTest):
    """What the tools read of a folder."""

    def setUp(self):
        super().setUp()
        self.night.mkdir()
        self.read = NightFolder(str(self.night))

    def test_words(self):
        (self.night / "night").write_text(
            f"/a show.asc\n--to=239.255.0.0\n--cid\n{self.cid}\n--end-with-input\n--base\n7\n"
            "--any-route\n--interface\nlit\n--to\n3=10.0.0.7\n--name\nthe main\n--priority=90\n"
        )
        words = self.read.words()
        self.assertEqual(
            ("/a show.asc", ["239.255.0.0", "3=10.0.0.7"], "lit", self.cid, 7, "90"),
            (words.show, words.to, words.interface, str(words.cid), words.base, words.priority),
        )
        (self.night / "night").write_text(f"show\n--to\n1.2.3.4\n--cid\n{self.cid}\n")
        self.assertIsNone(self.read.words().priority)
        for text in ("", "show\n", f"show\n--cid\n{self.cid}\n", "show\n--to\n1.2.3.4\n--cid\nx\n"):
            (self.night / "night").write_text(text)
            with self.assertRaisesRegex(Refused, "not those of a night"):
                self.read.words()

    def test_has_ended(self):
        """With its `end` and the three ticks behind it, and not before."""
        lines = "! cueplayer record 1: show x\n0 tick\n5 go\n7 END ! a/b\n"
        ticks = "25 tick\n50 tick\n75 tick\n"
        for text, expected in (
            ("", False),
            (lines + ticks, True),
            (lines + ticks[:-1], False),
            (lines + "25 tick\n50 tick\n", False),
            (lines + ticks + "100 tick\n", False),
            ("0 go\n" + ticks, False),
        ):
            with self.subTest(text):
                (self.night / "record").write_text(text)
                self.assertEqual(expected, self.read.has_ended())

    def test_give(self):
        """A line goes to a reader at once and whole, or is refused."""
        fifo = self.night / "in"
        with self.assertRaisesRegex(Refused, "no live plays .*; nothing was sent"):
            self.read.give("go")
        os.mkfifo(fifo)
        with self.assertRaisesRegex(Refused, "no live plays .*; nothing was sent"):
            self.read.give("go")
        reader = os.open(fifo, os.O_RDONLY | os.O_NONBLOCK)
        self.addCleanup(os.close, reader)
        self.read.give("go")
        self.assertEqual(b"go\n", os.read(reader, 100))
        self.read.give("back")
        self.assertFalse(self.read.stands_still())
        time.sleep(1.1)
        with self.assertRaisesRegex(Refused, "does not answer"):
            self.read.give("go")
        self.assertTrue(self.read.stands_still())
        self.assertEqual(b"back\n", os.read(reader, 100))
        self.assertFalse(self.read.stands_still())
        self.read.give("go")

    def test_no_fifo(self):
        (self.night / "in").write_text("")
        with self.assertRaisesRegex(Refused, "is not a FIFO"):
            self.read.give("go")
        self.assertEqual("", (self.night / "in").read_text())
