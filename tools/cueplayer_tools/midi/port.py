"""A raw MIDI device of this machine, as `/dev/snd/midiC1D0`, or a FIFO: what comes there is handed
on as lines.

A device keeps no time of what came. So bytes that were read behind a second in which nobody looked
are passed over: they may be old.
"""

import os
import select
import stat
import time
from collections.abc import Callable

from cueplayer_tools.line_protocol import Refused
from cueplayer_tools.midi.bytes import MidiReader
from cueplayer_tools.midi.show import Wanted, line_of

LATE = 1.0
LOOK_EVERY = 0.1
AGAIN_EVERY = 1.0
MOST_AT_ONCE = 4_096


def open_port(path: str) -> int:
    """A descriptor of the device. A FIFO is opened for writing too, so that it has no end."""
    try:
        kind = os.stat(path).st_mode
        if not stat.S_ISCHR(kind) and not stat.S_ISFIFO(kind):
            raise Refused(f"--midi {path}: neither a device nor a FIFO")
        mode = os.O_RDWR if stat.S_ISFIFO(kind) else os.O_RDONLY
        return os.open(path, mode | os.O_NONBLOCK | os.O_NOCTTY)
    except OSError as fault:
        raise Refused(f"--midi {path}: {fault.strerror}") from fault


class MidiPort:
    """A device that is listened to; where it is pulled out it is looked for."""

    def __init__(self, path: str, wanted: Wanted, tell: Callable[[str, str], None]) -> None:
        """Opens the device; Refused where that cannot be. `tell` gets a text and its kind as of a
        notice, and may not wait."""
        self.path = path
        self.wanted = wanted
        self.tell = tell
        self.device: int | None = open_port(path)
        self.reader = MidiReader()
        self.looked_at = time.monotonic()
        # When a refusal was told last, and how many were not told since.
        self.told_at = -AGAIN_EVERY
        self.untold = 0

    def serve(self, give: Callable[[str], None]) -> None:
        """Hands lines on for ever. `give` may refuse one, and may not wait."""
        while True:
            if self.device is None:
                time.sleep(AGAIN_EVERY)
                self._open_again()
            else:
                ready = select.poll()
                ready.register(self.device, select.POLLIN)
                ready.poll(LOOK_EVERY * 1000)
                self.take(give)

    def take(self, give: Callable[[str], None]) -> None:
        """Hands on what has come."""
        if self.device is None:
            return
        now = time.monotonic()
        is_late, self.looked_at = now - self.looked_at > LATE, now
        try:
            data = os.read(self.device, MOST_AT_ONCE)
        except BlockingIOError:
            return
        except OSError:
            data = b""
        if not data:
            self._lose()
        elif is_late:
            self.reader.forget()
            text = "MIDI: what came was not read within a second, and is skipped: press again"
            self.tell(text, "late")
        else:
            self._hand_on(data, give)

    def _hand_on(self, data: bytes, give: Callable[[str], None]) -> None:
        for message in self.reader.read(data):
            line = ""
            try:
                line = line_of(message, self.wanted) or ""
                if line:
                    give(line)
            except Refused as fault:
                self._refuse(f"{line}: {fault}" if line else str(fault))

    def _refuse(self, text: str) -> None:
        """Tells a refusal a second, and counts the others: a flood is no flood of lines."""
        now = time.monotonic()
        if now - self.told_at < AGAIN_EVERY:
            self.untold += 1
            return
        more = f" ({self.untold} more before)" if self.untold else ""
        self.told_at, self.untold = now, 0
        self.tell(f"MIDI: {text}{more}", "refused")

    def _lose(self) -> None:
        if self.device is not None:
            os.close(self.device)
        self.device = None
        self.reader.forget()
        self.tell(f"MIDI: {self.path} has gone: plug it in again", "fault")

    def _open_again(self) -> None:
        try:
            self.device = open_port(self.path)
        except Refused:
            return
        self.looked_at = time.monotonic()
        self.tell(f"MIDI: {self.path} is back", "good")
