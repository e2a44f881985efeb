"""The commands that the tools hand on."""

import unittest

import tooling  # noqa: F401  (puts the tools on the path)

from cueplayer_tools.line_protocol import Refused, command_line

SPELLED = (
    ("GO", "go"),
    (" goto 1.50 ", "goto 1.5"),
    ("GOTO 13.0 In 0", "goto 13 in 0"),
    ("goto 1 in 0:01.50", "goto 1 in 1.5"),
    ("goto 1 in 99:59.99", "goto 1 in 5999.99"),
    ("goto 1 in 100", "goto 1 in 100"),
    ("sub 01 50", "sub 1 H80"),
    ("group 65535 hF", "group 65535 H0F"),
    ("master fl", "master HFF"),
    ("end", "end"),
)
NO_COMMANDS = (
    *("", "tick", "go now", "0 go", "goto", "goto 1.", "goto 10000", "master", "master H100"),
    *("sub 1", "sub 65536 1", "sub 1 101", "sub \u0661 1", "master \u0661"),
    *(
        "goto 1 in",
        "goto 1 in x",
        "goto 1 to 4",
        "goto 1 in 4 5",
        "goto 1 in 6000",
        "goto 1 in .",
        "goto 1 in 1:60",
    ),
    *(
        "goto 0 in 1",
        "goto 1 in 100:00",
        "goto 1 in 1:005",
        "goto 1 in \u0661",
        "go in 4",
        "goto in 4",
    ),
)


class Commands(unittest.TestCase):
    def test_command_line(self):
        for words, line in SPELLED:
            self.assertEqual(line, command_line(words))
        for words in NO_COMMANDS:
            with self.subTest(words), self.assertRaises(Refused):
                command_line(words)
