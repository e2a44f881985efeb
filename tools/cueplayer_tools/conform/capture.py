"""What comes to a socket, with the moment at which the system received it."""

import select
import socket
import struct
import time
from collections.abc import Callable, Sequence
from dataclasses import dataclass

from cueplayer_tools.line_protocol import Refused

LONGEST = 2048
# The system's names for what comes beside a datagram, which Python has not.
SO_TIMESTAMPNS = 35
IP_PKTINFO = 8


@dataclass(frozen=True)
class Heard:
    """A datagram, when it came in seconds, who sent it, and to which address."""

    moment: float
    data: bytes
    sender: tuple[str, int]
    to: str = ""


def group_of(universe: int) -> str:
    return "239.255.{}.{}".format(*divmod(universe, 256))


def open_listener(host: str, port: int, universes: Sequence[int], card: str) -> socket.socket:
    """A socket at this address, which has joined the groups of these universes at a card."""
    listener = socket.socket(socket.AF_INET, socket.SOCK_DGRAM)
    try:
        listener.setsockopt(socket.SOL_SOCKET, socket.SO_REUSEADDR, 1)
        listener.setsockopt(socket.SOL_SOCKET, socket.SO_RCVBUF, 1 << 22)
        listener.setsockopt(socket.SOL_SOCKET, SO_TIMESTAMPNS, 1)
        listener.setsockopt(socket.IPPROTO_IP, IP_PKTINFO, 1)
        listener.bind((host, port))
        for universe in universes:
            joined = socket.inet_aton(group_of(universe)) + socket.inet_aton(card)
            listener.setsockopt(socket.IPPROTO_IP, socket.IP_ADD_MEMBERSHIP, joined)
    except OSError as fault:
        listener.close()
        raise Refused(f"{host}:{port}: {fault.strerror}") from fault
    return listener


def _receive(listener: socket.socket) -> Heard:
    data, beside, _, sender = listener.recvmsg(LONGEST, 256)
    moment, to = time.time(), ""
    for level, kind, value in beside:
        if level == socket.SOL_SOCKET and kind == SO_TIMESTAMPNS:
            seconds, nanoseconds = struct.unpack("@ll", value)
            moment = seconds + nanoseconds / 1e9
        elif level == socket.IPPROTO_IP and kind == IP_PKTINFO:
            to = socket.inet_ntoa(value[8:12])
    return Heard(moment, data, sender, to)


def hear(
    listener: socket.socket, seconds: float, each: Callable[[float], None] = lambda _: None
) -> list[Heard]:
    """What comes within so many seconds. `each` is told how many have gone by, a hundred
    times a second or more often."""
    found: list[Heard] = []
    begun = time.monotonic()
    while (gone := time.monotonic() - begun) < seconds:
        each(gone)
        if select.select([listener], [], [], min(0.01, seconds - gone))[0]:
            found.append(_receive(listener))
    return found
