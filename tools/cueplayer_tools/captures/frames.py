"""The UDP datagram in a frame of a capture, whatever the link."""

import socket
import struct
from dataclasses import dataclass

from cueplayer_tools.addresses import Address

_IPV4_TYPE = 0x0800
# What tags a frame for a virtual network, or two.
_TAGS = (0x8100, 0x88A8)
_UDP = 17
_PART = 0x3FFF


@dataclass(frozen=True)
class Datagram:
    """A datagram of a capture: when it came, in nanoseconds, from where and to where."""

    moment: int
    source: Address
    to: Address
    data: bytes


def _behind_ethernet(frame: bytes) -> bytes | None:
    at = 12
    while (kind := int.from_bytes(frame[at : at + 2], "big")) in _TAGS:
        at += 4
    return frame[at + 2 :] if kind == _IPV4_TYPE else None


def _packet_of(link: int, frame: bytes) -> bytes | None:
    """The IPv4 packet in a frame, by the kind of its link (LINKTYPE_ of tcpdump.org); None where
    there is none, or the link is of another kind."""
    match link:
        case 1:  # Ethernet
            return _behind_ethernet(frame)
        case 101 | 228 | 12 | 14:  # packets alone
            return frame
        case 0 | 108:  # the loopback of BSD
            return frame[4:]
        case 113:  # any card of Linux
            return frame[16:] if frame[14:16] == b"\x08\0" else None
        case 276:  # the same, as tcpdump writes it today
            return frame[20:] if frame[:2] == b"\x08\0" else None
    return None


def datagram_in(link: int, moment: int, frame: bytes) -> Datagram | None:
    """The datagram of UDP over IPv4 that a frame has, whole; None where it has none."""
    packet = _packet_of(link, frame)
    if packet is None or len(packet) < 20 or packet[0] >> 4 != 4 or packet[9] != _UDP:
        return None
    head = 4 * (packet[0] & 15)
    if int.from_bytes(packet[6:8], "big") & _PART or len(packet) < head + 8:
        return None
    source, to, length = struct.unpack_from(">HHH", packet, head)
    data = packet[head + 8 : head + max(length, 8)]
    if len(data) < length - 8:
        return None
    hosts = socket.inet_ntoa(packet[12:16]), socket.inet_ntoa(packet[16:20])
    return Datagram(moment, (hosts[0], source), (hosts[1], to), data)
