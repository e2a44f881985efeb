"""MIDI 1.0 as it comes from a device, a byte at a time: notes, and system exclusive messages."""

from dataclasses import dataclass

# A message of show control is short; what is longer is passed over.
LONGEST_EXCLUSIVE = 128
_EXCLUSIVE, _END, _REAL_TIME, _STATUS, _SYSTEM = 0xF0, 0xF7, 0xF8, 0x80, 0xF0
_NOTE_ON = 0x90
# The data bytes of a channel message, by its upper four bits, and of a system message.
_CHANNEL_DATA = {0x80: 2, 0x90: 2, 0xA0: 2, 0xB0: 2, 0xC0: 1, 0xD0: 1, 0xE0: 2}
_SYSTEM_DATA = {0xF1: 1, 0xF2: 2, 0xF3: 1}


@dataclass(frozen=True)
class Note:
    """A note that is pressed: 0 to 127, 60 is middle C; channels are 1 to 16."""

    channel: int
    number: int


@dataclass(frozen=True)
class Exclusive:
    """A system exclusive message, without its first byte and its last."""

    data: bytes


class MidiReader:
    """Bytes of one device, in their order."""

    def __init__(self) -> None:
        # The status that data bytes belong to; 0 where they belong to none.
        self.status = 0
        self.data = bytearray()
        # The exclusive message that has not come to its end; None outside of one.
        self.exclusive: bytearray | None = None

    def forget(self) -> None:
        """What came last is not gone on with."""
        self.status, self.exclusive = 0, None
        self.data.clear()

    def read(self, data: bytes) -> list[Note | Exclusive]:
        """What is whole with these bytes."""
        whole = [self._take(each) for each in data]
        return [each for each in whole if each is not None]

    def _take(self, byte: int) -> Note | Exclusive | None:
        if byte >= _REAL_TIME:
            # It may stand within any other message.
            return None
        return self._take_status(byte) if byte >= _STATUS else self._take_data(byte)

    def _take_status(self, byte: int) -> Exclusive | None:
        exclusive, self.exclusive = self.exclusive, None
        # Behind a system message no status goes on.
        self.status = byte if byte < _SYSTEM or byte in _SYSTEM_DATA else 0
        self.data.clear()
        if byte == _EXCLUSIVE:
            self.exclusive = bytearray()
        is_whole = byte == _END and exclusive is not None and len(exclusive) <= LONGEST_EXCLUSIVE
        return Exclusive(bytes(exclusive or b"")) if is_whole else None

    def _take_data(self, byte: int) -> Note | None:
        if self.exclusive is not None:
            if len(self.exclusive) <= LONGEST_EXCLUSIVE:
                self.exclusive.append(byte)
            return None
        if not self.status:
            return None
        self.data.append(byte)
        status, kind = self.status, self.status & 0xF0
        if len(self.data) < _CHANNEL_DATA.get(kind, _SYSTEM_DATA.get(status, 0)):
            return None
        number, strength = self.data[0], self.data[-1]
        self.data.clear()
        if status >= _SYSTEM:
            self.status = 0
        is_pressed = kind == _NOTE_ON and strength > 0
        return Note((status & 0x0F) + 1, number) if is_pressed else None
