"""`live`: the line of each move to a cue, with the moment of the move itself."""

import random
import re
import time
import unittest

import inputs
from expected import live, show as shows
from live_nights import LiveTest
from machine import in_time, took
from nights import Typed, expected_lines, play_nights
from program import text
from worked import S1

NIGHTS, SEED = 500, 40
PAUSES = [0, 0, 0, 0.005, 0.02, 0.05, 0.1, 0.2]
CHAIN = 2000
MOVED = re.compile(r"\d+ cue [\d.]+")
# A command that moves, where it is not refused.
ORDER = re.compile(rb"(?i)\b(go|back|goto)\b")
# What a chain of moves may take, in milliseconds.
LATE = 400


def typed_lines(r):
    """Lines by chance, of which none ends the night: mostly commands, some of them refused."""
    while True:
        words = inputs.command(r)
        if words != ["end"]:
            yield inputs.spelling(r, words, odd=0.01).encode("latin-1") + b"\n"


def typed_night(r):
    """A night of about a second."""
    show = inputs.chained_show(r)
    while isinstance(shows.read(show), str):
        show = inputs.chained_show(r)
    lines = zip(typed_lines(r), range(r.randrange(4, 16)))
    parts = [(r.choice(PAUSES), line) for line, _ in lines]
    # What follows by itself has its time.
    return Typed(show, (*parts, (r.choice([0, 0.1, 0.3]), b"")))


class Reader(unittest.TestCase):
    """The second reader, by what the worked examples of FOLLOWON say."""

    FOLLOWED = S1.replace(b"UP 5\n", b"UP 5\nFOLLOWON 10\n", 1)

    def assertShows(self, show, record, *expected):
        lines = [line.encode() for line in record]
        self.assertEqual(list(expected), live.shown_lines(shows.read(show), lines))

    def test_move_at_a_tick(self):
        self.assertShows(self.FOLLOWED, ["0 go", "11000 tick"], "0 ok", "0 cue 1", "10000 cue 2")

    def test_refused_command(self):
        """It makes no move, also none that is due: the tick behind it does."""
        record = ["0 go", "10000 go", "11000 tick"]
        expected = ("0 ok", "0 cue 1", "10000 refused AtEnd", "10000 cue 2")
        self.assertShows(self.FOLLOWED, record, *expected)

    def test_move_in_between(self):
        """A goto to the current cue is a move, from which the follow-on counts."""
        record = ["0 go", "5000 goto 1", "10000 tick", "14900 tick", "15000 tick"]
        expected = ("0 ok", "0 cue 1", "5000 ok", "5000 cue 1", "15000 cue 2")
        self.assertShows(self.FOLLOWED, record, *expected)

    def test_move_before_the_command(self):
        """What is due at the moment of a command is made first, and stands above its own move."""
        record = ["0 go", "10000 goto 1", "10000 master 50"]
        expected = ("0 ok", "0 cue 1", "10000 ok", "10000 cue 2", "10000 cue 1", "10000 ok")
        self.assertShows(self.FOLLOWED, record, *expected)

    def test_end(self):
        record = ["0 go", "9999 end", "10000 tick"]
        self.assertShows(self.FOLLOWED, record, "0 ok", "0 cue 1", "9999 ok")
        record = ["0 go", "10001 end", "10002 tick"]
        self.assertShows(self.FOLLOWED, record, "0 ok", "0 cue 1", "10001 ok", "10000 cue 2")

    def test_chain(self):
        show = text(*(f"CUE {n}\nFOLLOWON .02" for n in ("1", "1.5", "2.25")), "CUE 13.125")
        expected = ("5 ok", "5 cue 1", "25 cue 1.5", "45 cue 2.25", "65 cue 13.125")
        self.assertShows(show, ["5 go", "25 tick", "200 tick"], *expected)

    def test_where(self):
        night = live.Night(shows.read(self.FOLLOWED))
        self.assertEqual("3 where next 1 master 255", night.where(3))
        for line in (b"4 sub 1 50", b"5 goto 2", b"6 master 0"):
            night.carry_out(line)
        self.assertEqual("7 where cue 2 master 0 sub 1:128", night.where(7))


class CueLines(unittest.TestCase):
    maxDiff = 2000

    def test_nights(self):
        """Random nights: all that is shown is what the second reader says of the record."""
        r = random.Random(SEED)
        moves = orders = 0
        for typed, left in play_nights([typed_night(r) for _ in range(NIGHTS)]):
            with self.subTest(typed):
                self.assertEqual(0, left.status, left.err)
                self.assertEqual(expected_lines(typed.show, left.record, left.shown), left.shown)
            moves += sum(MOVED.fullmatch(line) is not None for line in left.shown)
            orders += sum(ORDER.search(line) is not None for line in left.record)
        print(f"    {moves} moves, by {orders} commands at most, in {NIGHTS} nights")
        self.assertGreater(moves - orders, NIGHTS)


class CueLinesAsTheyCome(LiveTest):
    SHOW = text("CUE 1", "FOLLOWON .5", "CHAN 1@FL", "CUE 4.5", "CHAN 2@FL", "PATCH 1 1<1@FL")

    def test_follow_on(self):
        """Its line comes at the tick that makes the move, with the moment at which it was due."""
        night = self.begin_night()
        night.stdin.write(b"go\n")
        at = int(night.stdout.readline().removesuffix(b" ok\n"))
        self.assertEqual(b"%d cue 1\n" % at, night.stdout.readline())
        self.assertEqual(b"%d cue 4.5\n" % (at + 500), night.stdout.readline())
        night.stdin.write(b"goto 4.5\n")
        again = int(night.stdout.readline().removesuffix(b" ok\n"))
        self.assertGreaterEqual(again, at + 500)
        self.assertEqual(b"%d cue 4.5\n" % again, night.stdout.readline())
        self.assertEqual(0, self.end_night(night).status)

    def test_chain(self):
        """Cues that follow one another at once: each has its line, soon, and no tick waits for
        them."""
        cues = range(1, CHAIN + 1)
        self.show.write_bytes(text(*(f"CUE {n}\nFOLLOWON 0" for n in cues)))
        record = self.folder / "night.play"
        night = self.begin_night("--record", record)
        typed = time.monotonic()
        night.stdin.write(b"go\n")
        at = int(night.stdout.readline().removesuffix(b" ok\n"))
        with open(night.stdout.fileno(), "rb", closefd=False) as shown:
            self.assertEqual(
                [b"%d cue %d\n" % (at, n) for n in cues], [shown.readline() for _ in cues]
            )
        in_time(took(typed), LATE, "a chain of moves")
        self.assertEqual(0, self.end_night(night).status)
        ticks = [
            int(line.split()[0]) for line in record.read_bytes().splitlines() if b" tick" in line
        ]
        for before, after in zip(ticks, ticks[1:]):
            in_time(self.between(before, after), LATE, f"the tick behind {before}")
