"""What `tools/watch` keeps: a record for `cueplayer watch`, a capture, and a script of a
rehearsal."""

import time
from collections.abc import Callable
from dataclasses import dataclass
from typing import BinaryIO

from cueplayer_tools.addresses import Address
from cueplayer_tools.captures.writing import Frame, capture_frame, capture_head
from cueplayer_tools.line_protocol import Refused, printable

# A script has at most so many receivers, and so many bytes (FORMATS.md, "The scripts of
# rehearse").
MOST_RECEIVERS = 8
LONGEST_SCRIPT = 16_777_216
_UNIVERSE = slice(113, 115)
# The console that a script has to have: it sends nothing.
_CONSOLE = "console 1 100 00000000-0000-4000-8000-000000000001"


@dataclass(frozen=True)
class Came:
    """A datagram, the milliseconds of the watch at which it came, from where and to where."""

    moment: int
    data: bytes
    source: Address
    to: Address


class Kept:
    """A new file, which takes lines until one cannot be written: that is told once."""

    def __init__(self, name: str, head: bytes, tell: Callable[[str], None]) -> None:
        """Refused where the file cannot be made, or is there already."""
        self.name = name
        self.tell = tell
        try:
            # It is open until the watch ends, or a line cannot be written.
            self.file: BinaryIO | None = open(name, "xb")
        except OSError as fault:
            raise Refused(f"{printable(name)}: {fault.strerror}") from fault
        self.size = 0
        self.write(head)

    def write(self, lines: bytes) -> None:
        if self.file is None:
            return
        try:
            self.file.write(lines)
            self.size += len(lines)
        except OSError as fault:
            self._leave(f"{printable(self.name)} ends here: {fault.strerror}")

    def flush(self) -> None:
        """Has the system take what was written."""
        if self.file is None:
            return
        try:
            self.file.flush()
        except OSError as fault:
            self._leave(f"{printable(self.name)} ends here: {fault.strerror}")

    def _leave(self, reason: str) -> None:
        self.tell(reason)
        self.close()

    def close(self) -> None:
        if self.file is None:
            return
        try:
            self.file.close()
        except OSError:
            # It was told where it could not be written.
            pass
        self.file = None


class Record(Kept):
    """The lines as the program got them: `cueplayer watch` of them says the same once more."""

    def __init__(self, name: str, universes: list[int], tell: Callable[[str], None]) -> None:
        head = f"! cueplayer watch {' '.join(map(str, universes))} <FILE\n"
        super().__init__(name, head.encode(), tell)

    def clock(self, moment: int) -> None:
        self.write(b"%d\n" % moment)

    def datagram(self, came: Came) -> None:
        self.write(b"%d %s\n" % (came.moment, came.data.hex().encode()))


class Capture(Kept):
    """The datagrams as a capture, at the time of the day."""

    def __init__(self, name: str, tell: Callable[[str], None]) -> None:
        super().__init__(name, capture_head("cueplayer watch"), tell)

    def clock(self, moment: int) -> None:
        """A capture has no clock."""

    def datagram(self, came: Came) -> None:
        self.write(capture_frame(Frame(time.time_ns() // 1000, came.source, came.to, came.data)))


class Script(Kept):
    """What came, as strays of a rehearsal: its receivers answer as those of the watch."""

    def __init__(self, name: str, universes: list[int], tell: Callable[[str], None]) -> None:
        if len(universes) > MOST_RECEIVERS:
            raise Refused(f"--script: a script has at most {MOST_RECEIVERS} receivers")
        self.receivers = {universe: place for place, universe in enumerate(universes)}
        receivers = "".join(f"receiver {universe}\n" for universe in universes)
        head = f"! cueplayer rehearse SHOW FILE, of any show\n{_CONSOLE}\n{receivers}"
        super().__init__(name, head.encode(), tell)

    def clock(self, moment: int) -> None:
        self._add(b"".join(b"%d slots %d\n" % (moment, r) for r in self.receivers.values()))

    def datagram(self, came: Came) -> None:
        universe = int.from_bytes(came.data[_UNIVERSE], "big")
        # The first receiver ignores what is of no universe here, for the reason that watch counts.
        receiver = self.receivers.get(universe, 0)
        self._add(b"%d stray %d %s\n" % (came.moment, receiver, came.data.hex().encode()))

    def _add(self, lines: bytes) -> None:
        if self.size + len(lines) > LONGEST_SCRIPT:
            if self.file is not None:
                self._leave(f"{printable(self.name)} is full: a script has at most 16 MiB")
            return
        self.write(lines)


AnyKept = Record | Capture | Script
