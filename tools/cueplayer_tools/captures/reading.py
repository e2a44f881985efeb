"""Reading captures: pcap and pcapng, as tcpdump, tshark and Wireshark write them."""

import struct
from collections.abc import Iterator
from dataclasses import dataclass
from typing import BinaryIO

from cueplayer_tools.captures.frames import Datagram, datagram_in
from cueplayer_tools.captures.writing import INTERFACE, MAGIC, PACKET, SECTION
from cueplayer_tools.line_protocol import Refused

# The first four bytes of a pcap file, by its nanoseconds in a unit of its clock.
_PCAP = {0xA1B2C3D4: 1000, 0xA1B23C4D: 1}
_SIMPLE, _OLD_PACKET = 3, 2
_RESOLUTION = 9
_USUAL_UNIT = 1000
# No frame and no block is longer: what says so is no capture.
LONGEST = 1 << 24
NANO = 10**9


class NoCapture(Refused):
    """The file is no capture, or a damaged one."""


@dataclass
class Interface:
    """A card of a capture: its kind of link, and the units of its clock in a second."""

    link: int
    units: int = NANO // _USUAL_UNIT

    def nanoseconds(self, units: int) -> int:
        return units * NANO // self.units


def datagrams(file: BinaryIO) -> Iterator[Datagram]:
    """The datagrams of a capture, in the order in which it has them; a last packet that was not
    written whole is left out. NoCapture where it is none."""
    head = file.read(4)
    for order in "<>":
        (magic,) = struct.unpack(f"{order}I", head.ljust(4, b"\0"))
        if magic in _PCAP:
            return _of_pcap(file, order, _PCAP[magic])
    if head == struct.pack("<I", SECTION):
        return _of_pcapng(file)
    raise NoCapture("not a capture: tshark, tcpdump and Wireshark write pcap and pcapng")


def _of_pcap(file: BinaryIO, order: str, unit: int) -> Iterator[Datagram]:
    head = file.read(20)
    if len(head) < 20:
        return
    link = struct.unpack(f"{order}HHiIII", head)[5] & 0xFFFF
    while len(head := file.read(16)) == 16:
        seconds, units, length, _ = struct.unpack(f"{order}IIII", head)
        if length > LONGEST:
            raise NoCapture("the capture is damaged: it has a packet of more than 16 MiB")
        frame = file.read(length)
        if len(frame) == length and (
            found := datagram_in(link, seconds * NANO + units * unit, frame)
        ):
            yield found


def _of_pcapng(file: BinaryIO) -> Iterator[Datagram]:
    cards: list[Interface] = []
    for kind, body, order in _blocks(file):
        if kind == SECTION:
            cards = []
        elif kind == INTERFACE:
            cards.append(_interface(body, order))
        elif kind == _SIMPLE:
            raise NoCapture("the capture has packets without times: tshark -w writes them")
        elif kind in (PACKET, _OLD_PACKET) and (found := _packet(kind, body, order, cards)):
            yield found


def _blocks(file: BinaryIO) -> Iterator[tuple[int, bytes, str]]:
    """The blocks of a pcapng file, whose first kind was read: each with its kind, and the byte
    order of its section. A last block that was not written whole is left out."""
    kind, order = SECTION, "<"
    while True:
        length, body = file.read(4), b""
        if kind == SECTION:
            body = file.read(4)
            order = _order(body)
        if len(length) < 4:
            return
        (size,) = struct.unpack(f"{order}I", length)
        if not 12 + len(body) <= size <= LONGEST:
            raise NoCapture(f"the capture is damaged: it has a block of {size} bytes")
        rest = file.read(size - 8 - len(body))
        if len(rest) < size - 8 - len(body):
            return
        yield kind, body + rest[:-4], order
        head = file.read(4)
        if len(head) < 4:
            return
        (kind,) = struct.unpack(f"{order}I", head)


def _order(magic: bytes) -> str:
    """The byte order that a section tells."""
    for order in "<>":
        if magic == struct.pack(f"{order}I", MAGIC):
            return order
    raise NoCapture("the capture is damaged: a section tells no byte order")


def _interface(body: bytes, order: str) -> Interface:
    """A card, and the resolution of its clock, where it has one of its own."""
    (link,) = struct.unpack_from(f"{order}H", body.ljust(8, b"\0"))
    at = 8
    while at + 4 <= len(body):
        code, length = struct.unpack_from(f"{order}HH", body, at)
        if code == _RESOLUTION and at + 4 < len(body):
            power = body[at + 4]
            return Interface(link, 1 << (power & 0x7F) if power & 0x80 else 10**power)
        at += 4 + length + -length % 4
    return Interface(link)


def _packet(kind: int, body: bytes, order: str, cards: list[Interface]) -> Datagram | None:
    """The datagram of a block with a packet; None where it has none."""
    if len(body) < 20:
        return None
    number, high, low, length, _ = struct.unpack_from(f"{order}IIIII", body)
    if kind == _OLD_PACKET:
        (number,) = struct.unpack_from(f"{order}H", body)
    if number >= len(cards):
        raise NoCapture(f"the capture is damaged: it has no card {number}, by which a packet came")
    card = cards[number]
    return datagram_in(card.link, card.nanoseconds(high << 32 | low), body[20 : 20 + length])
