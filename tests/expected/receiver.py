"""A receiver of one universe (FORMATS.md, "Reading a packet" and "What is printed")."""

from typing import NamedTuple

LOST = 2500
SOURCES = 4
PREVIEW, TERMINATED = 0x80, 0x40


class Data(NamedTuple):
    """The fields of a data packet that a receiver looks at."""

    cid: bytes
    priority: int
    sequence: int
    options: int
    universe: int
    start: int
    slots: bytes


class Record(NamedTuple):
    """What is kept of a source: its packet that was accepted last, and when."""

    moment: int
    data: Data

    def is_there(self, moment):
        return moment - self.moment < LOST

    def is_lit(self, moment):
        return self.is_there(moment) and not self.data.options & TERMINATED


def two(datagram, offset):
    """The number that two bytes spell."""
    return int.from_bytes(datagram[offset : offset + 2], "big")


def has_length(datagram):
    """Whether the three lengths agree with each other and with the datagram."""
    pdus = [two(datagram, offset) for offset in (16, 38, 115)]
    root, framing, dmp = (pdu & 0xFFF for pdu in pdus)
    return (
        all(pdu >> 12 == 7 for pdu in pdus)
        and root >= 110
        and 16 + root <= len(datagram)
        and framing == root - 22
        and dmp == root - 99
    )


def parse(datagram):
    """The data packet at the front of a datagram, or the name of its fault."""
    if len(datagram) < 126:
        return "Short"
    count = two(datagram, 123)
    for name, holds in (
        ("Preamble", datagram[0:4] == bytes.fromhex("00100000")),
        ("Identifier", datagram[4:16] == b"ASC-E1.17\0\0\0"),
        ("RootVector", datagram[18:22] == bytes.fromhex("00000004")),
        ("Length", has_length(datagram)),
        ("FramingVector", datagram[40:44] == bytes.fromhex("00000002")),
        ("Priority", datagram[108] <= 200),
        ("Universe", 1 <= two(datagram, 113) <= 63999),
        ("Dmp", datagram[117:123] == bytes.fromhex("02a100000001")),
        ("Count", 1 <= count <= 513 and count == (two(datagram, 115) & 0xFFF) - 10),
    ):
        if not holds:
            return name
    return Data(
        cid=datagram[22:38],
        priority=datagram[108],
        sequence=datagram[111],
        options=datagram[112],
        universe=two(datagram, 113),
        start=datagram[125],
        slots=datagram[126 : 125 + count],
    )


class Receiver:
    def __init__(self, universe):
        self.universe = universe
        self.records = {}

    def take(self, moment, datagram):
        """The reply to a datagram, as it is printed."""
        data = parse(datagram)
        if isinstance(data, str):
            return "ignored Unreadable " + data
        if data.universe != self.universe:
            return "ignored OtherUniverse"
        if data.options & PREVIEW:
            return "ignored Preview"
        if data.start and not data.options & TERMINATED:
            return "ignored AltStart"
        self.records = {
            cid: record for cid, record in self.records.items() if record.is_there(moment)
        }
        known = self.records.get(data.cid)
        if known and not 1 <= (data.sequence - known.data.sequence) % 256 <= 236:
            return "ignored OutOfSequence"
        if not known and len(self.records) == SOURCES:
            return "ignored SourcesFull"
        self.records[data.cid] = Record(moment, data)
        return f"taken {data.sequence}" + (" terminated" if data.options & TERMINATED else "")

    def slots_line(self, moment):
        lit = [record.data for record in self.records.values() if record.is_lit(moment)]
        first = max((data.priority for data in lit), default=0)
        shown = bytearray(512)
        for data in lit:
            if data.priority == first:
                for place, byte in enumerate(data.slots):
                    shown[place] = max(shown[place], byte)
        shown = shown.rstrip(b"\0")
        return "slots" + "".join(f" {n}:{byte}" for n, byte in enumerate(shown, 1) if byte)
