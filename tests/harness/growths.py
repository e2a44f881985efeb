"""What the tests share that refuse the growths of memory, one after another."""

import struct

from preload import PreloadTest
from program import text

SHOW = text(
    "IDENT 3:0",
    *(f"PATCH 1 {channel}<{channel}@FL {channel}<{channel + 512}@H80" for channel in range(1, 41)),
    *(
        f"{record} {number}\nCHAN 1@50 2@FL 3@H01"
        for record in ("SUB", "GROUP", "CUE")
        for number in range(1, 41)
    ),
)
COMMANDS = ("go", "back", "goto 2", "sub 1 50", "group 3 FL", "master 50", "sub 200 1", "goto 999")


class Growths(PreloadTest):
    SHOW, SOURCE = SHOW, "refuse.c"

    def setUp(self):
        super().setUp()
        self.counted = self.file("counted", bytes(16))

    def environment(self, growth):
        return self.library_environment(REFUSED=str(growth), COUNTED=str(self.counted))

    def growths(self):
        """How many growths the last run asked for, and how many until its first datagram."""
        return struct.unpack("qq", self.counted.read_bytes())


# Of cue 50 two channels move, which a tick draws alone; of cue 51, which follows, too many for
# that.
MOVING_SHOW = SHOW + text(
    *("CUE 50", "UP 1", "FOLLOWON 2", "CHAN 1@FL 40@FL", "CUE 51", "UP 1"),
    "CHAN " + " ".join(f"{channel}@H80" for channel in range(1, 801)),
)


def every_line():
    """Lines of `play` for that show: every command, refused ones, and the end, with ticks that
    draw all, some and none of the levels. The last line is malformed."""
    lines = ["0 tick", "50 goto 50", *(f"{moment} tick" for moment in range(50, 3500, 50))]
    for n in range(35, 235):
        lines += [f"{100 * n} {COMMANDS[n % len(COMMANDS)]}"]
        lines += [f"{100 * n + later} tick" for later in (0, 0, 25, 50)]
    return [*lines, "23500 end", *(f"{23500 + 25 * n} tick" for n in range(4)), "x"]
