"""The packets of one universe of a source (FORMATS.md, "The stream")."""

from typing import NamedTuple

KEPT_ALIVE = 800
TERMINATED = 0x40


class Packet(NamedTuple):
    """Packet k of a universe: its options and its slots that are not 0."""

    k: int
    options: int
    slots: dict


class Stream:
    def __init__(self):
        self.packets = []
        self.frame = None
        self.since_change = 0
        self.sent = 0

    def send(self, options, slots):
        self.packets.append(Packet(len(self.packets), options, slots))
        return self.packets[-1]

    def offer(self, moment, frame):
        """The packet that a tick with this frame sends, or None."""
        self.since_change = 0 if frame != self.frame else self.since_change + 1
        self.frame = frame
        if self.since_change > 3 and moment - self.sent < KEPT_ALIVE:
            return None
        self.sent = moment
        return self.send(0, frame)

    def end(self):
        """The packet with which the stream ends."""
        return self.send(TERMINATED, {})
