"""Captures in the format pcapng: UDP over IPv4 over Ethernet, made of what was sent or heard."""

import socket
import struct
from collections.abc import Iterable
from dataclasses import dataclass

from cueplayer_tools.addresses import Address

SECTION, INTERFACE, PACKET = 0x0A0D0D0A, 1, 6
COMMENT, PROGRAM = 1, 4
ETHERNET = 1
MAGIC = 0x1A2B3C4D
# The station addresses of those that send and those that receive: locally administered ones.
SENDER, RECEIVER = bytes.fromhex("020000000001"), bytes.fromhex("020000000002")
HOPS, UDP = 64, 17
LONGEST_OPTION = 65_535


@dataclass(frozen=True)
class Frame:
    """A datagram: when it was sent, in microseconds, from where and to where, and a remark."""

    moment: int
    source: Address
    to: Address
    data: bytes
    comment: str = ""


def capture_of(frames: Iterable[Frame]) -> bytes:
    """The bytes of a capture."""
    return b"".join([capture_head("cueplayer conform"), *map(capture_frame, frames)])


def capture_head(program: str) -> bytes:
    """How a capture begins that this program writes."""
    head = struct.pack("<IHHq", MAGIC, 1, 0, -1) + _options({PROGRAM: program})
    return _block(SECTION, head) + _block(INTERFACE, struct.pack("<HHI", ETHERNET, 0, 0))


def capture_frame(frame: Frame) -> bytes:
    """A frame as a capture has it behind its head."""
    data = frame_bytes(frame)
    head = struct.pack("<IIIII", 0, *divmod(frame.moment, 1 << 32), len(data), len(data))
    comment = {COMMENT: frame.comment} if frame.comment else {}
    return _block(PACKET, head + _padded(data) + _options(comment))


def _block(kind: int, body: bytes) -> bytes:
    length = struct.pack("<I", len(body) + 12)
    return struct.pack("<I", kind) + length + body + length


def _padded(data: bytes) -> bytes:
    return data + bytes(-len(data) % 4)


def _options(texts: dict[int, str]) -> bytes:
    found = b""
    for code, text in texts.items():
        data = text.encode()[:LONGEST_OPTION]
        found += struct.pack("<HH", code, len(data)) + _padded(data)
    return found + bytes(4) if found else b""


def frame_bytes(frame: Frame) -> bytes:
    """The frame as it is on the cable."""
    source, to = (socket.inet_aton(host) for host, _ in (frame.source, frame.to))
    length = 8 + len(frame.data)
    ports = struct.pack(">HHH", frame.source[1], frame.to[1], length)
    false_head = source + to + struct.pack(">BBH", 0, UDP, length)
    check = _checksum(false_head + ports + bytes(2) + frame.data) or 0xFFFF
    head = struct.pack(">BBHHHBB", 0x45, 0, 20 + length, 0, 0, HOPS, UDP)
    head += struct.pack(">H", _checksum(head + bytes(2) + source + to)) + source + to
    return _station(to) + SENDER + b"\x08\0" + head + ports + struct.pack(">H", check) + frame.data


def _station(to: bytes) -> bytes:
    """The Ethernet address of a group, or of the receiver."""
    if to[0] >> 4 != 14:
        return RECEIVER
    return bytes.fromhex("01005e") + bytes([to[1] & 0x7F]) + to[2:]


def _checksum(data: bytes) -> int:
    """The internet checksum."""
    total: int = sum(struct.unpack(f">{(len(data) + 1) // 2}H", data + bytes(len(data) % 2)))
    while total >> 16:
        total = (total & 0xFFFF) + (total >> 16)
    return 0xFFFF - total
