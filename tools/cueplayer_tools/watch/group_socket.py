"""The socket of `tools/watch`: streaming ACN of universes, by multicast and by unicast."""

import ipaddress
import socket
import struct
from collections.abc import Iterable

from cueplayer_tools.addresses import Address
from cueplayer_tools.line_protocol import Refused, printable

PORT = 5568
# Where sources list their universes (E1.31-2018, universe discovery).
DISCOVERY = 64_214
# A receiver looks at no more of a datagram.
LONGEST_DATAGRAM = 1_500
# Bytes of receive buffer that are asked for; the system grants what it allows, and to root all.
ROOM = 8 << 20
# Of Linux, not named in `socket`.
_SO_RCVBUFFORCE, _IP_MULTICAST_ALL, _SO_MEMINFO, _DROPS = 33, 49, 55, 8
_COUNTS = struct.Struct("@9I")
# A card's number and two addresses: the last is that to which a datagram was sent.
_PACKET_INFO = struct.Struct("@i4s4s")
_IP_PKTINFO = 8
_ROOM_FOR_ADDRESS = socket.CMSG_SPACE(_PACKET_INFO.size)


def group_of(universe: int) -> str:
    """The multicast group of a universe (E1.31-2018, 9.3.1)."""
    return f"239.255.{universe >> 8}.{universe & 255}"


class Card:
    """A network card by which groups are joined: by its name or its address, or any."""

    def __init__(self, word: str | None) -> None:
        """Refused where this machine has no such card."""
        self.word = word
        self.address, self.index = "0.0.0.0", 0
        if word is None:
            return
        try:
            self.address = str(ipaddress.IPv4Address(word))
        except ValueError:
            self.index = self._index_of(word)
        else:
            self._ask_for_address()

    @staticmethod
    def _index_of(name: str) -> int:
        try:
            return socket.if_nametoindex(name)
        except OSError as fault:
            cards = ", ".join(name for _, name in socket.if_nameindex())
            raise Refused(f"no network card {printable(name)}: there are {cards}") from fault

    def _ask_for_address(self) -> None:
        with socket.socket(socket.AF_INET, socket.SOCK_DGRAM) as asked:
            try:
                asked.bind((self.address, 0))
            except OSError as fault:
                raise Refused(f"no network card has the address {self.address}") from fault

    def request(self, group: str) -> bytes:
        """The system's word for a group at this card."""
        return struct.pack(
            "@4s4si", socket.inet_aton(group), socket.inet_aton(self.address), self.index
        )


class WatchSocket:
    """Datagrams of some universes, and of their discovery, as they come."""

    def __init__(self, universes: Iterable[int], card: Card, port: int = PORT) -> None:
        """Binds the port, beside others that share it, and joins the groups. OSError where that
        fails; `lacking` has why a group could not be joined, the first one."""
        self.socket = socket.socket(socket.AF_INET, socket.SOCK_DGRAM)
        self.port = port
        self.lacking: str | None = None
        self.dropped = 0
        try:
            self._share()
            for universe in (*universes, DISCOVERY):
                self._join(group_of(universe), card)
            self.socket.bind(("", port))
        except BaseException:
            self.socket.close()
            raise

    def _share(self) -> None:
        self.socket.setblocking(False)
        for option in (socket.SO_REUSEADDR, socket.SO_REUSEPORT):
            self.socket.setsockopt(socket.SOL_SOCKET, option, 1)
        try:
            self.socket.setsockopt(socket.SOL_SOCKET, _SO_RCVBUFFORCE, ROOM)
        except OSError:
            self.socket.setsockopt(socket.SOL_SOCKET, socket.SO_RCVBUF, ROOM)
        self.socket.setsockopt(socket.IPPROTO_IP, _IP_PKTINFO, 1)
        # Groups that another program joined, at another card, are not meant.
        self.socket.setsockopt(socket.IPPROTO_IP, _IP_MULTICAST_ALL, 0)

    def _join(self, group: str, card: Card) -> None:
        try:
            self.socket.setsockopt(
                socket.IPPROTO_IP, socket.IP_ADD_MEMBERSHIP, card.request(group)
            )
        except OSError as fault:
            self.lacking = self.lacking or f"cannot join {group}: {fault.strerror}"

    def fileno(self) -> int:
        """For `select.poll`."""
        return self.socket.fileno()

    def close(self) -> None:
        self.socket.close()

    def next(self) -> tuple[bytes, Address, str] | None:
        """The next datagram, its first 1,500 bytes, who sent it, and to which address; None where
        none is there."""
        try:
            data, more, _, sender = self.socket.recvmsg(LONGEST_DATAGRAM, _ROOM_FOR_ADDRESS)
        except OSError:
            # Nothing is there, or the system's reason is of one datagram alone.
            return None
        to = socket.inet_ntoa(more[0][2][-4:]) if more else "0.0.0.0"
        return data, sender, to

    def newly_dropped(self) -> int:
        """How many datagrams found no room since the last look; 0 where the system does not
        say."""
        try:
            counts = self.socket.getsockopt(socket.SOL_SOCKET, _SO_MEMINFO, _COUNTS.size)
            dropped: int = _COUNTS.unpack(counts)[_DROPS]
        except (OSError, struct.error):
            return 0
        new = (dropped - self.dropped) % 2**32
        self.dropped = dropped
        return new
