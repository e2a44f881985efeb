"""What a desk keeps of the lines of `cueplayer watch`."""

import unittest
import uuid

from program import CID

from cueplayer_tools.desk.watch import MOST_NAMED, Others, Watched

OTHER = CID[:-1] + "2"
THIRD = CID[:-1] + "3"


class Lines(unittest.TestCase):
    """The other sources on a universe, by the lines of `watch`."""

    def setUp(self):
        self.watched = Watched(uuid.UUID(CID))

    def hear(self, *lines):
        return [self.watched.hear(line) for line in lines]

    def test_slots(self):
        """A universe is dark from its first source on; a slots line is the whole of it."""
        self.hear(f"0 3 source a {CID} priority 100", f"0 3 leads a {CID}")
        self.assertEqual({3: bytes(512)}, self.watched.levels.slots)
        self.hear("100 3 slots 1:128 512:9")
        self.assertEqual({3: bytes([128, *bytes(510), 9])}, self.watched.levels.slots)
        self.hear("200 3 slots 2:1")
        self.assertEqual({3: bytes([0, 1, *bytes(510)])}, self.watched.levels.slots)
        self.assertEqual(Others(), self.watched.levels.others)

    def test_sources(self):
        """Others are named by what they say last, wherever they are live, and told apart by their
        priority; our own is not named."""
        self.hear(
            f"0 1 source a {CID} priority 100",
            f"0 1 source priority 7 \N{ACUTE ACCENT} {OTHER} priority 150",
            f"0 2 source b {OTHER} priority 150",
            f"5 1 source  {THIRD} priority 1",
        )
        above = ("b, priority 150, universes 1, 2",)
        below = ("a source without a name, priority 1, universe 1",)
        self.assertEqual(Others(above=above, below=below), self.watched.levels.others)
        self.hear(f"9 1 gone b {OTHER}", f"9 1 ended  {THIRD}", f"9 4 gone b {CID}")
        above = ("b, priority 150, universe 2",)
        self.assertEqual(Others(above=above), self.watched.levels.others)
        self.hear(f"9 2 ended b {OTHER}")
        self.assertEqual(Others(), self.watched.levels.others)

    def test_ranks(self):
        """A source is above, beside or below our own priority, and moves where that changes; of
        many the rest are counted."""
        watched = Watched(uuid.UUID(CID), 120)
        said = {100: "below", 120: "beside", 121: "above"}
        for priority, rank in said.items():
            self.assertTrue(watched.hear(f"0 1 source b {OTHER} priority {priority}"))
            told = {rank: (f"b, priority {priority}, universe 1",)}
            self.assertEqual(Others(**told), watched.levels.others)
        for number in range(10, 10 + MOST_NAMED):
            watched.hear(f"0 1 source x {CID[:-2]}{number} priority 200")
        above = watched.levels.others.above
        self.assertEqual((MOST_NAMED + 1, "and 1 more"), (len(above), above[-1]))

    def test_crowd(self):
        """More sources than are told apart are told for 2.5 seconds."""
        self.assertEqual(
            [True, False], self.hear("1000 1 ignored SourcesFull 3", "2000 1 ignored SourcesFull 1")
        )
        told = Others(crowded=(1,))
        self.assertEqual((False, told), (self.watched.look(4_400), self.watched.levels.others))
        self.assertEqual((True, Others()), (self.watched.look(4_500), self.watched.levels.others))

    def test_other_lines(self):
        """Nothing else changes what is shown."""
        lines = ("", "x", "1 1 ignored Preview 4", f"1 1 lost a {CID} 3", "1 1 slots 1:1 x",
                 f"1 1 source a {CID} priority 100 x", "-1 1 slots", "1 1 slots 1:1\n")
        self.assertEqual([False] * len(lines), self.hear(*lines))

    def test_ended(self):
        """Without the program nothing is received, and nobody is heard."""
        self.hear(
            f"0 1 source a {CID} priority 100",
            f"0 1 source b {OTHER} priority 100",
            "0 1 slots 1:1",
        )
        self.watched.fail("why", [1])
        levels = self.watched.levels
        told = levels.reasons, levels.slots, levels.others
        self.assertEqual(({1: "why"}, {}, Others()), told)
