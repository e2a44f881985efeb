"""MIDI Show Control 1.0: what a message asks of this console, as a line of `live`."""

import re
from dataclasses import dataclass

from cueplayer_tools.line_protocol import (
    Refused,
    cue_word,
    milliseconds_of,
    thousandths_of,
    time_word,
)
from cueplayer_tools.midi.bytes import Exclusive, Note

# F0 7F DEVICE 02 FORMAT COMMAND .. F7, without the first byte and the last.
_REAL_TIME, _SHOW_CONTROL = 0x7F, 0x02
_ALL_CALL = 0x7F
# Lighting in general, and all kinds of devices.
_FORMATS = (0x01, 0x7F)
_COMMANDS = {
    0x01: "GO", 0x02: "STOP", 0x03: "RESUME", 0x04: "TIMED_GO", 0x05: "LOAD", 0x06: "SET",
    0x07: "FIRE", 0x08: "ALL_OFF", 0x09: "RESTORE", 0x0A: "RESET", 0x0B: "GO_OFF",
}  # fmt: skip
_LIST = "1"
_RATES = (24.0, 25.0, 29.97, 30.0)
_CUE = re.compile(rb"[0-9.]{1,8}")


@dataclass(frozen=True)
class Wanted:
    """What is taken: the number of this device, and the notes that are buttons."""

    device: int = 0
    go: int | None = None
    back: int | None = None


def _cue_in(data: bytes) -> str | None:
    """The cue of `Q_number 00 Q_list 00 Q_path`; None where there is no number."""
    number, *rest = data.split(b"\0")
    if rest and rest[0] not in (b"", _LIST.encode()):
        raise Refused(f"no such cue list: there is only list {_LIST}")
    if not number:
        return None
    if not _CUE.fullmatch(number):
        raise Refused("not a cue number")
    return cue_word(thousandths_of(number.decode("ascii")))


def _time_in(data: bytes) -> str:
    """The time of `hr mn sc fr ff`, as MIDI time code spells it, to the nearest hundredth."""
    if len(data) < 5:
        raise Refused("a time is cut off")
    hours, minutes, seconds, frames, parts = data[:5]
    rate = _RATES[hours >> 5 & 3]
    # Where the bit is set the last byte is no part of a frame.
    part = 0 if frames & 0x20 else parts / 100
    whole = (hours & 0x1F) * 3600 + (minutes & 0x3F) * 60 + (seconds & 0x3F)
    hundredths = round((whole + ((frames & 0x1F) + part) / rate) * 100)
    return time_word(milliseconds_of(f"{hundredths // 100}.{hundredths % 100:02}"))


def _go(data: bytes) -> str:
    cue = _cue_in(data)
    return "go" if cue is None else f"goto {cue}"


def _timed_go(data: bytes) -> str:
    time, cue = _time_in(data), _cue_in(data[5:])
    if cue is None:
        raise Refused("a time needs a cue too")
    return f"goto {cue} in {time}"


_LINES = {"GO": _go, "TIMED_GO": _timed_go}


def _show_line(data: bytes, wanted: Wanted) -> str | None:
    """The line of an exclusive message; None where it is not for this device."""
    if len(data) < 5 or data[0] != _REAL_TIME or data[2] != _SHOW_CONTROL:
        return None
    if data[1] not in (wanted.device, _ALL_CALL) or data[3] not in _FORMATS:
        return None
    name = _COMMANDS.get(data[4])
    if name is None:
        raise Refused(f"show control: no command {data[4]:02X}")
    if name not in _LINES:
        raise Refused(f"show control: {name} has no meaning here")
    try:
        return _LINES[name](data[5:])
    except Refused as fault:
        raise Refused(f"show control: {name}: {fault}") from fault


def line_of(message: Note | Exclusive, wanted: Wanted) -> str | None:
    """The line that a message asks for; None where it asks for nothing here."""
    if isinstance(message, Exclusive):
        return _show_line(message.data, wanted)
    if message.number == wanted.go:
        return "go"
    return "back" if message.number == wanted.back else None
