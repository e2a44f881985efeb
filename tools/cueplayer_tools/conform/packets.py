"""The bytes of E1.31 packets, field by field, so that a case can spoil one of them."""

from dataclasses import dataclass, replace
from typing import Any

IDENTIFIER = b"ASC-E1.17\0\0\0"
PREVIEW, TERMINATED, FORCED = 0x80, 0x40, 0x20
FULL = 512
DISCOVERY_UNIVERSE = 64_214


@dataclass(frozen=True)
class DataPacket:
    """A data packet. Fields that are None are as the standard has them for these slots."""

    cid: bytes
    universe: int
    number: int
    slots: bytes
    priority: int = 100
    options: int = 0
    name: bytes = b"conform"
    synchronization: int = 0
    start_code: int = 0
    preamble: int = 0x0010
    postamble: int = 0
    identifier: bytes = IDENTIFIER
    root_vector: int = 4
    framing_vector: int = 2
    dmp_vector: int = 0x02
    address_type: int = 0xA1
    first_address: int = 0
    increment: int = 1
    root_length: int | None = None
    framing_length: int | None = None
    dmp_length: int | None = None
    count: int | None = None

    def but(self, **fields: Any) -> "DataPacket":
        return replace(self, **fields)

    def to_bytes(self) -> bytes:
        count = len(self.slots) + 1
        return b"".join(
            (
                _two(self.preamble) + _two(self.postamble) + self.identifier,
                _length(self.root_length, 109 + count),
                self.root_vector.to_bytes(4, "big") + self.cid,
                _length(self.framing_length, 87 + count),
                self.framing_vector.to_bytes(4, "big"),
                self.name.ljust(64, b"\0")[:64],
                bytes([self.priority]) + _two(self.synchronization),
                bytes([self.number % 256, self.options]) + _two(self.universe),
                _length(self.dmp_length, 10 + count),
                bytes([self.dmp_vector, self.address_type]),
                _two(self.first_address) + _two(self.increment),
                _two(count if self.count is None else self.count),
                bytes([self.start_code]) + self.slots,
            )
        )


def _two(number: int) -> bytes:
    return number.to_bytes(2, "big")


def _length(given: int | None, right: int) -> bytes:
    """Flags 7 and a length; what is given has its own flags."""
    return _two(0x7000 | right if given is None else given)


def _root(vector: int, cid: bytes, framing: bytes) -> bytes:
    layer = vector.to_bytes(4, "big") + cid + framing
    return _two(0x0010) + _two(0) + IDENTIFIER + _two(0x7000 | len(layer) + 2) + layer


def synchronization_packet(cid: bytes, address: int, number: int) -> bytes:
    """The packet for which data of this synchronization address waits."""
    layer = (1).to_bytes(4, "big") + bytes([number % 256]) + _two(address) + _two(0)
    return _root(8, cid, _two(0x7000 | len(layer) + 2) + layer)


def discovery_packet(cid: bytes, universes: list[int]) -> bytes:
    """The packet that lists the universes of a source."""
    layer = (1).to_bytes(4, "big") + bytes(2) + b"".join(map(_two, universes))
    listed = _two(0x7000 | len(layer) + 2) + layer
    framing = (2).to_bytes(4, "big") + b"conform".ljust(64, b"\0") + bytes(4) + listed
    return _root(8, cid, _two(0x7000 | len(framing) + 2) + framing)


def full_slots(levels: dict[int, int], count: int = FULL) -> bytes:
    """So many slots, at these levels, the others at 0."""
    slots = bytearray(count)
    for slot, level in levels.items():
        slots[slot - 1] = level
    return bytes(slots)
