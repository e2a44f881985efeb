"""`live`: why a typed line is refused, and keys that send no text."""

import subprocess

from live_nights import LiveTest, without_moments
from program import behind_head, messages_in
from refusals import NUMBERED, UNKNOWN

LONG = "a line has at most 200 bytes with its moment"
ENDING = "the night is ending"
KEYS = "arrow and function keys do nothing; help lists the commands"
MOMENT = "moments are given by the clock; type the command alone"
GO = "go takes no number; goto 4 goes to a cue"
ALONE = "back, end, leave, where and help stand alone"
GOTO = "goto wants a cue number, and may have a time: goto 4.5, goto 4.5 in 3"
MASTER = "master wants a level: master 50, master FL, master H80"
REASONS = (
    (GO, "go 4", "GO in 3", "go go"),
    (ALONE, "back 1", "end now", "Leave it", "where 1", "help go", "? ?"),
    (GOTO, "goto", "goto x", "goto 0", "goto 1.2345", "goto 4 in", "goto 4 in x", "goto 4 3"),
    (NUMBERED, "sub", "sub 1", "sub x 50", "sub 1 101", "group 1 50 50", "group 65536 FL"),
    (MASTER, "master", "master 101", "master H100", "master 1 2"),
    (MOMENT, "5 go", "0 tick", "12", "123456789012345 go"),
    (UNKNOWN, "jump", "tick", "g o", "1234567890123456 go", "goto4", "cue 4"),
    (LONG, "x" * 200, "go" + " " * 250, "x" * 5000),
)
# What arrows, Home, F1, F5, F12 and a key of the Linux console send, and ESC with a letter.
SENT = (
    "\x1b[A",
    "\x1b[B",
    "\x1b[1~",
    "\x1bOP",
    "\x1b[15~",
    "\x1b[24~",
    "\x1b[1;5C",
    "\x1b[[A",
    "\x1bx",
)


class RefusedLines(LiveTest):
    def type_lines(self, *lines, options=()):
        """What is shown of these lines, and told; all of them come before the end of the night."""
        text = "".join(line + "\n" for line in lines).encode("latin-1")
        words = [self.PROGRAM, *self.words(*options)]
        done = subprocess.run(words, input=text, capture_output=True, timeout=60)
        self.assertEqual(0, done.returncode)
        return without_moments(done.stdout), messages_in(done.stderr).decode().splitlines()

    def test_reasons(self):
        """Each line has the reason that is to help its writer; none is carried out."""
        for reason, *lines in REASONS:
            shown, refused = self.type_lines(*lines)
            self.assertEqual(["ok", "ok"], shown)
            self.assertEqual([f"line refused: {line[:200]}: {reason}" for line in lines], refused)

    def test_after_the_end(self):
        for word in ("end", "leave"):
            _, refused = self.type_lines(word, "go", "go 4", "jump", "end")
            self.assertEqual(
                [f"line refused: {line}: {ENDING}" for line in ("go", "go 4", "jump", "end")],
                refused,
            )

    def test_keys(self):
        """Arrow and function keys are left out of a line, which is taken, and that is told once a
        line."""
        for sent in SENT:
            for line in (f"{sent}go", f"go{sent}", f"g{sent}o", f"{sent}{sent} go {sent}"):
                with self.subTest(line):
                    shown, keys = self.type_lines(line)
                    self.assertEqual(
                        (["ok", "cue 1", "ok", "ok"], ["keys ignored"]), (shown, keys)
                    )

    def test_keys_before_requests(self):
        shown, keys = self.type_lines("\x1b[Awhere", "\x1b[Ahelp")
        self.assertEqual(["keys ignored"] * 2, keys)
        self.assertEqual("where next 1 master 255", shown[0])

    def test_keys_alone(self):
        """A line of nothing but keys is refused."""
        shown, refused = self.type_lines("\x1b[A", "\x1b[A\x1b[B", "\x1b")
        lines = ("?[A", "?[A?[B", "?")
        self.assertEqual([f"line refused: {line}: {KEYS}" for line in lines], refused)
        self.assertEqual(["ok", "ok"], shown)

    def test_keys_in_a_refused_line(self):
        """It has its reason, and no more."""
        self.assertEqual([f"line refused: ?[Ago 4: {GO}"], self.type_lines("\x1b[Ago 4")[1])

    def test_record(self):
        """It has neither refused lines nor keys."""
        record = self.folder / "night.play"
        self.type_lines("\x1b[Ago", "go 4", "jump", options=("--record", record))
        commands = [line.split(" ", 1)[1] for line in behind_head(record.read_bytes())]
        self.assertEqual(["go", "master 0", "end"], [line for line in commands if line != "tick"])
