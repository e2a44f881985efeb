"""What the tests share of what `live` writes: outputs that are slow, full, or gone."""

import re
import time

from live_nights import NEVER, LiveTest
from machine import in_time
from wire import SEQUENCE, SLOT_1

# From one tick to the next at most, in milliseconds; what holds up the light does for seconds.
LATE = 400


class OutputsTest(LiveTest):
    def light(self, night, line, level):
        """A command is seen in the light."""
        self.came(wait=0)
        night.stdin.write(line)
        until = time.monotonic() + NEVER
        while time.monotonic() < until:
            if any(each[SLOT_1] == level for each in self.came(wait=0.05)):
                return
        self.fail(f"no light of {level}")

    def assertTicks(self, record):
        """No tick of a record is late."""
        ticks = [int(at) for at in re.findall(rb"^(\d+) tick$", record.read_bytes(), re.MULTILINE)]
        self.assertGreater(len(ticks), 10)
        for before, after in zip(ticks, ticks[1:]):
            in_time(self.between(before, after), LATE, f"the tick behind {before}")

    def assertEnds(self, night):
        """`end` ends it, with all packets that this takes."""
        self.came(wait=0)
        night.stdin.write(b"end\n")
        self.assertEqual(0, night.wait(timeout=30))
        came = self.came()
        self.assertTerminated(came[-7:])
        numbers = [each[SEQUENCE] for each in came]
        self.assertEqual([(numbers[0] + k) % 256 for k in range(len(numbers))], numbers)
