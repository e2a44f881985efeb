"""The IPv4 addresses of this machine's network cards."""

import array
import fcntl
import ipaddress
import socket
import struct

from cueplayer_tools.addresses import Address

# Of Linux, not named in `socket`: all addresses, each behind the name of its card.
_SIOCGIFCONF = 0x8912
_ENTRY = struct.Struct("@16s4x4s16x")
_MOST_CARDS = 256


def own_addresses() -> dict[str, str]:
    """The card of each address."""
    room = array.array("B", bytes(_MOST_CARDS * _ENTRY.size))
    with socket.socket(socket.AF_INET, socket.SOCK_DGRAM) as asked:
        words = struct.pack("@iP", len(room), room.buffer_info()[0])
        size = struct.unpack_from("@i", fcntl.ioctl(asked, _SIOCGIFCONF, words))[0]
    entries = _ENTRY.iter_unpack(room.tobytes()[: size - size % _ENTRY.size])
    return {
        socket.inet_ntoa(address): card.partition(b"\0")[0].decode("latin-1")
        for card, address in entries
    }


def is_public(host: str) -> bool:
    """Whether the public internet reaches this address, as far as the address says."""
    return ipaddress.IPv4Address(host).is_global


def foreign(address: Address) -> str:
    """Why nothing can be served there, which is no address of this machine; else nothing."""
    host, _ = address
    own = own_addresses()
    if host in own or host.startswith("127."):
        return ""
    there = ", ".join(f"{each} ({card})" for each, card in own.items())
    return f"no card of this machine has {host}: there are {there}"
