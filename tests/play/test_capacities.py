"""What a console keeps has one size from its opening to its end: in between the program calls its
allocator not once, neither for a block nor to resize one or to give one back."""

import subprocess
import time
from typing import NamedTuple

from crate_programs import built_programs, program_of
from growths import COMMANDS, MOVING_SHOW, every_line
from preload import COMPILER, PreloadTest
from program import PROGRAM, TO_NOBODY, text

READ, WRITE = 0, 1
# How many reads and writes a run may note.
ROOM = 1 << 16
# Writes, makes the call that its word names, and writes again.
ONE_CALL = """
#include <stdlib.h>
#include <unistd.h>
int main(int count, char **words) {
    void *volatile block = malloc(100);
    write(1, "\\n", 1);
    switch (words[1][0]) {
    case 'm': block = malloc(10); break;
    case 'c': block = calloc(10, 1); break;
    case 'g': block = realloc(block, 1000); break;
    case 's': block = realloc(block, 10); break;
    case 'f': free(block); break;
    }
    write(1, "\\n", 1);
    return 0;
}
"""


class Note(NamedTuple):
    """A read of standard input or a write to standard output, and how many calls were made
    before."""

    file: int
    calls: int


class Capacities(PreloadTest):
    SHOW, SOURCE = MOVING_SHOW, "calls.c"

    def setUp(self):
        super().setUp()
        self.noted = self.file("noted", b"\xff" * 16 * ROOM)

    def environment(self):
        return self.library_environment(COUNTED=str(self.noted))

    def notes(self):
        """The notes of the last run."""
        numbers = memoryview(self.noted.read_bytes()).cast("q")
        notes = [Note(*pair) for pair in zip(numbers[::2], numbers[1::2])]
        notes = [note for note in notes if note.file >= 0]
        self.assertLess(len(notes), ROOM)
        self.noted.write_bytes(b"\xff" * 16 * ROOM)
        return notes

    def run_to_its_end(self, *words, **options):
        done = subprocess.run(
            words, capture_output=True, timeout=60, env=self.environment(), **options
        )
        return done.returncode, done.stdout

    def test_what_is_counted(self):
        """Each call of the allocator: also one that makes a block smaller."""
        source, program = self.file("call.c", ONE_CALL.encode()), self.folder / "call"
        subprocess.run([COMPILER, "-O0", "-w", "-fno-builtin", "-o", program, source], check=True)
        for call in ("malloc", "calloc", "grow", "shrink", "free", "nothing"):
            with self.subTest(call):
                self.run_to_its_end(program, call)
                first, last = self.notes()
                self.assertEqual(call != "nothing", last.calls - first.calls)

    def test_play(self):
        """From the first read of its lines to the last answer."""
        lines = every_line()
        words = [PROGRAM, "play", self.show, *TO_NOBODY]
        with open(self.file("lines", text(*lines)), "rb") as stdin:
            status, out = self.run_to_its_end(*words, stdin=stdin)
        self.assertEqual((4, len(lines) - 1), (status, out.count(b"\n")))
        notes = self.notes()
        opened = notes[0]
        self.assertEqual(READ, opened.file)
        self.assertGreater(opened.calls, 0)
        answers = [note for note in notes if note.file == WRITE]
        self.assertEqual(len(lines) - 1, len(answers))
        self.assertEqual({opened.calls}, {note.calls for note in notes})

    def test_live(self):
        """From the first answer to the last: commands, questions, refused lines, keys, and the
        end."""
        words = ["live", self.show, *TO_NOBODY, "--record", self.folder / "night.play"]
        streams = dict.fromkeys(("stdin", "stdout", "stderr"), subprocess.PIPE)
        night = subprocess.Popen([PROGRAM, *words], bufsize=0, env=self.environment(), **streams)
        self.addCleanup(night.kill)
        typed = (
            *COMMANDS,
            "goto 50",
            "where",
            "help",
            "jump",
            "x" * 300,
            "\x1b[Ago",
            "goto 51 in .2",
        )
        for line in typed:
            night.stdin.write(text(line))
            time.sleep(0.05)
        night.communicate(text("end"), timeout=60)
        self.assertEqual(0, night.returncode)
        answers = [note.calls for note in self.notes() if note.file == WRITE]
        self.assertGreater(len(answers), len(typed))
        self.assertEqual({answers[0]}, set(answers))

    def test_desks(self):
        """By both faders: from the line that stands behind the opening to the one behind the
        end."""
        (place,) = built_programs(self, ["test_desk::night"])
        for test in ("night_of_plain", "night_of_step"):
            with self.subTest(test):
                status, out = self.run_to_its_end(program_of(place), f"tests::night::{test}")
                self.assertEqual((0, [b"open", b"over"]), (status, out.splitlines()[:2]))
                opened, over, *_ = (note for note in self.notes() if note.file == WRITE)
                self.assertGreater(opened.calls, 0)
                self.assertEqual(opened.calls, over.calls)
