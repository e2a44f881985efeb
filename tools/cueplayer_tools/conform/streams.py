"""The streams that a source sends: what its datagrams say, by universe."""

from dataclasses import dataclass
from functools import cached_property

from cueplayer_tools.conform.capture import Heard
from cueplayer_tools.conform.packets import IDENTIFIER, TERMINATED

HEADER = 126
EXTENDED = 8
DISCOVERY, SYNCHRONIZATION = 2, 1


def two(data: bytes, offset: int) -> int:
    return int.from_bytes(data[offset : offset + 2], "big")


@dataclass(frozen=True)
class Packet:
    """A datagram that was meant as a data packet, field by field."""

    heard: Heard

    @property
    def moment(self) -> float:
        return self.heard.moment

    @property
    def data(self) -> bytes:
        return self.heard.data

    @property
    def cid(self) -> bytes:
        return self.data[22:38]

    @property
    def name(self) -> bytes:
        return self.data[44:108]

    @property
    def priority(self) -> int:
        return self.data[108]

    @property
    def synchronization(self) -> int:
        return two(self.data, 109)

    @property
    def number(self) -> int:
        return self.data[111]

    @property
    def options(self) -> int:
        return self.data[112]

    @property
    def universe(self) -> int:
        return two(self.data, 113)

    @property
    def count(self) -> int:
        return two(self.data, 123)

    @property
    def start_code(self) -> int:
        return self.data[125]

    @property
    def slots(self) -> bytes:
        return self.data[126:]

    @property
    def is_terminated(self) -> bool:
        return bool(self.options & TERMINATED)

    @property
    def where(self) -> str:
        """The packet, for people."""
        return f"universe {self.universe}, number {self.number}"


@dataclass(frozen=True)
class Stream:
    """The packets of one CID for one universe and one START code, in the order in which they
    came."""

    packets: tuple[Packet, ...]

    @property
    def universe(self) -> int:
        return self.packets[0].universe

    def pairs(self) -> list[tuple[Packet, Packet]]:
        """Each packet and the next."""
        return list(zip(self.packets, self.packets[1:]))


@dataclass(frozen=True)
class Listening:
    """What was heard of a source, from when to when, in seconds."""

    packets: tuple[Packet, ...]
    others: tuple[Heard, ...]
    begun: float
    ended: float

    @cached_property
    def streams(self) -> tuple[Stream, ...]:
        """By CID, universe and START code."""
        found: dict[tuple[bytes, int, int], list[Packet]] = {}
        for packet in self.packets:
            key = packet.cid, packet.universe, packet.start_code
            found.setdefault(key, []).append(packet)
        return tuple(Stream(tuple(packets)) for packets in found.values())

    @cached_property
    def universes(self) -> tuple[Stream, ...]:
        """By CID and universe: numbers go on over all START codes."""
        found: dict[tuple[bytes, int], list[Packet]] = {}
        for packet in self.packets:
            found.setdefault((packet.cid, packet.universe), []).append(packet)
        return tuple(Stream(tuple(packets)) for packets in found.values())

    def extended_packets(self, vector: int) -> list[Heard]:
        """The discovery or the synchronization packets."""
        found = [each for each in self.others if is_extended(each.data)]
        return [each for each in found if int.from_bytes(each.data[40:44], "big") == vector]


def is_extended(data: bytes) -> bool:
    return data[4:16] == IDENTIFIER and int.from_bytes(data[18:22], "big") == EXTENDED


def listening_of(heard: list[Heard], begun: float, ended: float) -> Listening:
    """What was heard, parted into data packets and others. What is long enough for a data packet,
    and is no extended one, is meant as one."""
    packets = [each for each in heard if len(each.data) >= HEADER and not is_extended(each.data)]
    others = [each for each in heard if len(each.data) < HEADER or is_extended(each.data)]
    return Listening(tuple(map(Packet, packets)), tuple(others), begun, ended)
