"""The pipe from the desk to `live`: a line is read whole, or taken back, whenever that is."""

import os
import random
import unittest
from unittest import mock

import tooling  # noqa: F401  (puts the tools on the path)

from cueplayer_tools.desk import input as desk_input
from cueplayer_tools.desk.input import LiveInput
from cueplayer_tools.line_protocol import Refused


class Pipe(unittest.TestCase):
    def setUp(self):
        # Each line is late as soon as it was handed on.
        self.enterContext(mock.patch.object(desk_input, "LATE", -1.0))
        self.input = LiveInput()
        for end in (self.input.theirs, self.input.ours, self.input.back):
            self.addCleanup(os.close, end)

    def read(self, size):
        """What `live` reads, where it reads so many bytes at most."""
        return os.read(self.input.theirs, size) if self.input._unread() else b""

    def test_taken_back(self):
        """All that was not read comes back; a line whose front was read goes on."""
        for line in ("sub 1 H10", "go", "back"):
            self.input.give(line)
        self.assertEqual(b"sub ", self.read(4))
        self.assertEqual(["go", "back"], self.input.take_back())
        self.assertTrue(self.input.stands_still())
        with self.assertRaises(Refused):
            self.input.give("go")
        self.assertEqual([], self.input.take_back())
        self.assertEqual(b"1 H10\n\n", self.read(100))
        self.assertFalse(self.input.stands_still())
        self.assertEqual("sub 1 H10", self.input.take_answered())
        self.input.give("go")
        self.assertEqual(b"go\n", self.read(100))

    def test_where(self):
        """The answer to the last `where` leaves what was handed on behind it."""
        for line in ("go", "where", "back", "where", "sub 1 H10"):
            self.input.give(line)
        self.assertEqual(("go", True), (self.input.oldest(), self.input.is_asked()))
        self.input.forget_asked()
        self.assertEqual(("sub 1 H10", False), (self.input.oldest(), self.input.is_asked()))
        self.assertEqual("sub 1 H10", self.input.take_answered())
        self.assertIsNone(self.input.oldest())

    def test_by_chance(self):
        """Whenever is read and taken back: what is read are the lines that were not taken back."""
        chance = random.Random(38)
        given, taken, read = [], [], b""
        for number in range(3_000):
            match chance.randrange(3):
                case 0:
                    line = f"goto {number + 1}"
                    try:
                        self.input.give(line)
                        given.append(line)
                    except Refused:
                        self.assertTrue(self.input.stands_still())
                case 1:
                    read += self.read(chance.choice((1, 3, 10, 4096)))
                case _:
                    taken += self.input.take_back()
        read += self.read(65_536)
        lines = [line for line in read.decode().split("\n") if line]
        self.assertEqual([line for line in given if line not in set(taken)], lines)
        self.assertEqual(lines, [self.input.take_answered() for _ in lines])
        self.assertIsNone(self.input.take_answered())
        self.assertGreater(len(taken), 100)
        self.assertGreater(len(lines), 100)
