"""`./cueplayer live` at a terminal: lines that can be edited, and answers in a theatre's words."""

import fcntl
import os
import re
import select
import shutil
import struct
import subprocess
import termios
import time
import unittest

from program import TO_NOBODY, TOP, FolderTest
from tooling import PATIENCE
from wire import terminal

from cueplayer_tools.cue_list import Cue, Rate, Record, Show
from cueplayer_tools.terminal.answers import Answers
from cueplayer_tools.terminal.command import show_file
from cueplayer_tools.terminal.editor import EndOfInput, LineEditor
from cueplayer_tools.terminal.phrases import live_line

SHOW = Show(
    {
        1000: Cue("night", Rate(0), Rate(0), 5000),
        2500: Cue("", Rate(4000), Rate(6000, 500)),
        12000: Cue("storm", Rate(4000), Rate(4000)),
    },
    subs={3: Record("fog")},
)


class Editor(unittest.TestCase):
    """Keys as terminals send them (ECMA-48 and xterm's)."""

    def entered(self, *given):
        editor = LineEditor()
        return [line for each in given for line in editor.take(each)], editor

    def test_lines(self):
        self.assertEqual(["go", "master 50"], self.entered(b"go\rmaster 50\n")[0])

    def test_edits(self):
        """Each key does what it does in a shell."""
        for given, line in (
            (b"gp\x7fo\r", "go"),
            (b"o\x1b[Dg\r", "go"),
            (b"xgo\x1b[H\x1b[3~\r", "go"),
            (b"o\x01g\x05!\r", "go!"),
            (b"go back\x17\x15end\r", "end"),
            (b"goto 4 in 3\x17\x177\r", "goto 4 7"),
            (b"lost\x03back\r", "back"),
            (b"g\x1b[Zo\x1b[15~\x1bx\t\r", "go"),
        ):
            with self.subTest(given):
                self.assertEqual([line], self.entered(given)[0])

    def test_before(self):
        """Arrow-up brings the last line back, and arrow-down what was being typed."""
        lines, editor = self.entered(b"go\rsub 3 50\r", b"\x1b[A\r", b"\x1b[A\x1b[A\r")
        self.assertEqual(["go", "sub 3 50", "sub 3 50", "go"], lines)
        editor.take(b"mas\x1b[A")
        self.assertEqual("go", editor.text)
        editor.take(b"\x1b[B")
        self.assertEqual("mas", editor.text)

    def test_pieces(self):
        """A key's sequence and a letter of several bytes may come in pieces."""
        lines, _ = self.entered(b"go\r", b"\x1b", b"[", b"A\r", b"\xc3", b"\xa9\r")
        self.assertEqual(["go", "go", "\u00e9"], lines)

    def test_end_of_input(self):
        """Control-D counts on an empty line alone."""
        lines, _ = self.entered(b"g\x04o\r\x04")
        self.assertEqual("go", lines[0])
        self.assertIsInstance(lines[1], EndOfInput)


class Phrases(unittest.TestCase):
    def test_words(self):
        for typed, line in (
            ("blackout", "master 0"),
            ("Full", "master FL"),
            ("cue 4.5", "goto 4.5"),
            ("CUE 4 in 3", "goto 4 in 3"),
            ("sub 1 50%", "sub 1 50"),
            ("group 2 7 %", "group 2 7"),
            ("master 80%", "master 80"),
            ("go", "go"),
            ("cue", "cue"),
            ("blackout now", "blackout now"),
        ):
            with self.subTest(typed):
                self.assertEqual(line, live_line(typed))


class Told(unittest.TestCase):
    """What people read of the lines that docs/FORMATS.md has of `live`."""

    def told(self, *lines):
        """The answers to lines: `> ` before one that is typed, else one that `live` prints."""
        answers = Answers(SHOW)
        told = []
        for line in lines:
            if line.startswith("> "):
                answers.ask(line[2:])
            else:
                told += answers.tell(line)
        return told

    def test_moves(self):
        first = 'cue 1 "night" up 0 s, the next follows after 5 s'
        self.assertEqual([first], self.told("> go", "7 ok", "7 cue 1"))
        self.assertEqual(["cue 2.5 up 4 s, down 6 s after 0.5 s"], self.told("7 cue 2.5"))
        self.assertEqual(
            ['cue 12 "storm" in 3 s', 'cue 12 "storm" at once', 'cue 12 "storm" up 4 s'],
            self.told(
                "> goto 12 in 3",
                "7 ok",
                "7 cue 12",
                "> goto 12 in 0",
                "9 ok",
                "9 cue 12",
                "> goto 12",
                "11 ok",
                "11 cue 12",
            ),
        )

    def test_masters(self):
        lines = ("> sub 3 50", "1 ok", "> group 4 H03", "2 ok", "> master FL ! all", "3 ok")
        self.assertEqual(
            ['sub 3 "fog" at 50%', "group 4 at 1%", "grand master at 100%"], self.told(*lines)
        )

    def test_refusals(self):
        for line, name, told in (
            ("go", "AtEnd", 'refused: no cue comes after cue 12 "storm"'),
            ("back", "AtStart", 'refused: no cue comes before cue 12 "storm"'),
            ("goto 9", "NoCue", "refused: there is no cue 9"),
            ("sub 9 1", "NoSub", "refused: there is no submaster 9"),
            ("group 9 1", "NoGroup", "refused: there is no group 9"),
        ):
            with self.subTest(name):
                lines = self.told("7 cue 12", f"> {line}", f"8 refused {name}")
                self.assertEqual([told], lines[1:])

    def test_place(self):
        self.assertEqual(
            [
                'cue 1 "night"; GO goes to cue 2.5; grand master at 50%; sub 3 "fog" at 100%; '
                "group 1 at 5%"
            ],
            self.told("> where", "7 where cue 1 next 2.5 master 128 sub 3:255 group 1:12"),
        )
        self.assertEqual(
            ["before the first cue; no cue comes after it; grand master at 0%"],
            self.told("7 where master 0"),
        )

    def test_ends(self):
        """An end is answered twice; what is refused on standard error waits for no answer."""
        self.assertEqual(
            ["the light goes down", "the streams have ended"],
            self.told("> foo", "> end", "7 ok", "> go", "107 ok"),
        )
        self.assertEqual(["the streams have ended"], self.told("> leave", "7 ok"))

    def test_others(self):
        """What has no other words is told as it came."""
        for line in ("3 replies dropped", "go, back    the next cue", "9 oak"):
            self.assertEqual([line], self.told(line))
        lost = "packets lost: they could not be sent to universe 1, 3"
        self.assertEqual([lost], self.told("7 live 1:x5 2:s6 3:x7"))

    def test_show(self):
        """The show is found among the words of `live`."""
        for words in ("show.asc --to x", "--to x show.asc", "--resume --to=x show.asc"):
            self.assertEqual("show.asc", show_file(words.split()))
        self.assertIsNone(show_file(["--to", "x"]))


class Night(FolderTest):
    """A night at a terminal, by the script."""

    def setUp(self):
        super().setUp()
        if not shutil.which("python3"):
            self.skipTest("no python3")
        self.mine, its = terminal(self)
        self.addCleanup(os.close, self.mine)
        fcntl.ioctl(its, termios.TIOCSWINSZ, struct.pack("HHHH", 24, 80, 0, 0))
        self.usual = termios.tcgetattr(its)
        self.its = its
        self.addCleanup(os.close, its)
        self.seen = b""

    def begin(self, *words):
        self.start(*words)
        self.see("end ends the night")

    def start(self, *words):
        show = TOP / "examples/sunrise.asc"
        self.live = subprocess.Popen(
            [TOP / "cueplayer", "live", show, *TO_NOBODY, *words],
            stdin=self.its,
            stdout=self.its,
            stderr=self.its,
            start_new_session=True,
            preexec_fn=lambda: fcntl.ioctl(0, termios.TIOCSCTTY, 0),
            env={**os.environ, "TERM": "xterm"},
        )
        self.addCleanup(self.live.wait)
        self.addCleanup(self.live.terminate)

    def see(self, text, patience=PATIENCE):
        """Waits until a text is on the screen, and answers the screen."""
        end = time.monotonic() + patience
        while text.encode() not in self.seen and select.select(
            [self.mine], [], [], max(end - time.monotonic(), 0)
        )[0]:
            self.seen += os.read(self.mine, 4096)
        self.assertIn(text.encode(), self.seen)
        seen, self.seen = self.seen, b""
        return seen

    def type(self, keys, text):
        os.write(self.mine, keys)
        return self.see(text)

    def test_night(self):
        """A night by words for people, whose record has the words of `live`; the terminal is then
        as it was."""
        record = self.folder / "night.play"
        self.begin("--record", record)
        self.type(b"go\r", 'cue 1 "night" up 0 s, the next follows after 5 s')
        self.type(b"blackout\r", "grand master at 0%")
        self.type(b"full\r", "grand master at 100%")
        self.type(b"cue 3 in 0\r", 'cue 3 "day" at once')
        self.type(b"\x1b[A\x1b[A\r", "grand master at 100%")
        self.type(b"\x03\x1a\x1c\x04", "type end to end the night")
        self.type(b"dance\r", "line refused: dance: no such command")
        self.type(b"help\r", "blackout, full ")
        self.type(b"end\r", "the streams have ended")
        self.assertEqual(0, self.live.wait(30))
        with open(record) as file:
            said = [line.split(" ", 1)[1].strip() for line in file if not line.startswith("!")]
        asked = [line for line in said if line != "tick" and not line.startswith("tick")]
        self.assertEqual(["go", "master 0", "master FL", "goto 3 in 0", "master FL"], asked[:5])
        self.assertEqual(self.usual, termios.tcgetattr(self.its))

    def test_answer_below(self):
        """What is typed stays below an answer that comes meanwhile."""
        self.begin()
        os.write(self.mine, b"go\rmast")
        self.see('cue 2 "dawn"')
        os.write(self.mine, b"er 50\r")
        self.see("grand master at 50%")

    def test_plain(self):
        """The program's own lines, where somebody asks for them."""
        os.environ["CUEPLAYER_TERMINAL"] = "plain"
        self.addCleanup(os.environ.pop, "CUEPLAYER_TERMINAL")
        self.begin()
        seen = self.type(b"go\r", " cue 1")
        self.assertTrue(re.search(rb"\d+ ok\r\n\d+ cue 1", seen), seen)

    def test_fault(self):
        """A night that does not begin has the status and the words of `live`."""
        self.start("--base", "0")
        self.assertEqual(2, self.live.wait(30))
        self.see("words refused")

    def test_killed(self):
        """SIGTERM ends the program, as ever."""
        self.begin()
        self.live.terminate()
        self.assertEqual(128 + 15, self.live.wait(30))


if __name__ == "__main__":
    unittest.main()
