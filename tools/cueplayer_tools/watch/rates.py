"""How many packets of each source come in a second, and from which address."""

import uuid

from cueplayer_tools.addresses import Address

# Sources of a second that are told apart, and those whose address is known; strangers may send
# under any number of CIDs.
MOST_SOURCES = 256
MOST_KNOWN = 1_024
SHORTEST_PACKET = 126
_CID, _UNIVERSE = slice(22, 38), slice(113, 115)


class Rates:
    """Packets a second, counted as they come, before anything is known of them."""

    def __init__(self) -> None:
        self.counts: dict[bytes, int] = {}
        self.told: dict[bytes, int] = {}
        self.hosts: dict[bytes, str] = {}
        self.total = 0
        self.total_told = 0

    def add(self, datagram: bytes, sender: Address) -> None:
        self.total += 1
        if len(datagram) < SHORTEST_PACKET:
            return
        key = datagram[_UNIVERSE] + datagram[_CID]
        count = self.counts.get(key, 0)
        if not count and len(self.counts) >= MOST_SOURCES:
            return
        if not count:
            self._know(key, sender)
        self.counts[key] = count + 1

    def _know(self, key: bytes, sender: Address) -> None:
        if len(self.hosts) >= MOST_KNOWN:
            self.hosts.clear()
        self.hosts[key] = sender[0]

    def end_second(self, seconds: float) -> None:
        """What was counted in so many seconds is what is told from now on."""
        self.told = {key: round(count / seconds) for key, count in self.counts.items()}
        self.total_told = round(self.total / seconds)
        self.counts, self.total = {}, 0

    def of(self, universe: int, cid: str) -> tuple[int, str]:
        """Packets of a source in a second, and its address: empty where it is not known."""
        key = universe.to_bytes(2, "big") + uuid.UUID(cid).bytes
        return self.told.get(key, 0), self.hosts.get(key, "")
