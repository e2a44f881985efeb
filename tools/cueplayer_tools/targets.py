"""Where packets go: the words of `--to`, and by which card the groups are heard."""

import argparse
import re
import socket
import struct
from collections.abc import Sequence
from dataclasses import dataclass

from cueplayer_tools.addresses import Address, sending_address

# The host that stands for the group of each universe.
GROUPS = "239.255.0.0"
MOST_UNIVERSES = 63_999
_UNIVERSES = re.compile(r"(\d{1,9})(?:-(\d{1,9}))?", re.ASCII)


@dataclass(frozen=True)
class Target:
    """Where packets go, of these universes, or of all."""

    address: Address
    universes: range | None = None

    def is_groups(self) -> bool:
        """Whether each universe goes to its own multicast group."""
        return self.address[0] == GROUPS


def target(word: str) -> Target:
    """`ADDR[:PORT]`, or that behind the universes that it is for: `U=` or `F-L=`."""
    universes, is_named, address = word.rpartition("=")
    if not is_named:
        return Target(sending_address(address))
    found = _UNIVERSES.fullmatch(universes)
    first = int(found[1]) if found else 0
    last = int(found[2] or first) if found else 0
    if not 1 <= first <= last <= MOST_UNIVERSES:
        raise argparse.ArgumentTypeError(f"not universes: {universes!r}")
    return Target(sending_address(address), range(first, last + 1))


def targets_of(universe: int, targets: Sequence[Target]) -> list[Target]:
    """What is named for a universe, if anything is; else what is named for all."""
    named = [each for each in targets if each.universes and universe in each.universes]
    return named or [each for each in targets if each.universes is None]


def group_of(universe: int) -> str:
    """The multicast group of a universe (E1.31, multicast addressing)."""
    return f"239.255.{universe >> 8}.{universe & 255}"


def membership(group: str, card: str | None) -> bytes:
    """The word by which the system joins a group: at a card, by its name or its address, or at the
    one that the route leads by."""
    if card is None:
        address, number = "0.0.0.0", 0
    elif re.fullmatch(r"[\d.]+", card, re.ASCII):
        address, number = card, 0
    else:
        address, number = "0.0.0.0", socket.if_nametoindex(card)
    return struct.pack("=4s4si", socket.inet_aton(group), socket.inet_aton(address), number)
