"""What senders of Open Sound Control are told back: the cues, the masters and the packets lost.

Who sends `/cueplayer/subscribe` is told all of it at once, and then each change for a minute. It
is told to the address and port that the datagram came from, and to no other.
"""

import socket
import threading
import time

from cueplayer_tools.addresses import Address
from cueplayer_tools.desk.heard import HeardNight
from cueplayer_tools.desk.state import State
from cueplayer_tools.line_protocol import cue_word
from cueplayer_tools.live_lines import FULL
from cueplayer_tools.osc.packets import Argument, pack
from cueplayer_tools.osc.port import SUBSCRIBE

# Seconds for which one who asked is told, and between two times that one is told all.
LEASE = 60.0
ALL_EVERY = 1.0
MOST_SUBSCRIBERS = 32
# Seconds between two rounds: a fader that is moved is told as it moves.
ROUND = 0.025
QUIET = 1.0
Told = dict[str, tuple[Argument, ...]]


def _cue_arguments(state: State, cue: int | None) -> tuple[Argument, ...]:
    """A cue's number as a text, and its label; both empty where there is none."""
    if cue is None:
        return "", ""
    return cue_word(cue), state.show.cues[cue].name if cue in state.show.cues else ""


def told_of(state: State) -> Told:
    """All that is told of a state, by address."""
    told: Told = {
        "/cueplayer/cue": _cue_arguments(state, state.current),
        "/cueplayer/next": _cue_arguments(state, state.following),
        "/cueplayer/master": (state.grand / FULL,),
        "/cueplayer/lost": (state.lost.count,),
    }
    for kind, records in (("sub", state.show.subs), ("group", state.show.groups)):
        for number in records:
            level = state.masters.get(f"{kind} {number}", 0)
            told[f"/cueplayer/{kind}/{number}"] = (level / FULL,)
    return told


class _Subscriber:
    """One who is told, up to a time."""

    def __init__(self, until: float) -> None:
        self.until = until
        self.has: Told = {}
        self.all_at = 0.0


class Feedback:
    """Tells those who asked, by the socket at which they asked."""

    def __init__(self, night: HeardNight, sender: socket.socket) -> None:
        self.night = night
        self.socket = sender
        self.lock = threading.Lock()
        self.subscribers: dict[Address, _Subscriber] = {}

    def ask(self, address: Address, word: str) -> bool:
        """Takes that one subscribes, or leaves; whether there was room."""
        now = time.monotonic()
        with self.lock:
            if word != SUBSCRIBE:
                self.subscribers.pop(address, None)
                return True
            known = self.subscribers.get(address)
            if known is None:
                self._forget(now)
                if len(self.subscribers) >= MOST_SUBSCRIBERS:
                    return False
                known = self.subscribers[address] = _Subscriber(now)
            known.until = now + LEASE
            if now - known.all_at >= ALL_EVERY:
                known.all_at, known.has = now, Told()
        self.night.wake()
        return True

    def _forget(self, now: float) -> None:
        over = [each for each, known in self.subscribers.items() if known.until <= now]
        for address in over:
            del self.subscribers[address]

    def _is_told(self) -> bool:
        """Whether everybody has had something, so that only a change is to be told."""
        with self.lock:
            return all(known.has for known in self.subscribers.values())

    def tell(self) -> None:
        """Tells each subscriber what it does not have."""
        with self.night.changed:
            told = told_of(self.night.state)
        with self.lock:
            self._forget(time.monotonic())
            pairs = list(self.subscribers.items())
        for address, known in pairs:
            changed = {at: words for at, words in told.items() if known.has.get(at) != words}
            known.has = told
            for at, words in changed.items():
                self._send(pack(at, *words), address)

    def _send(self, datagram: bytes, address: Address) -> None:
        try:
            self.socket.sendto(datagram, address)
        except OSError:
            # It has gone, or the network has no room: it asks again, and is told all.
            pass

    def serve(self) -> None:
        """Tells for ever."""
        version = -1
        while True:
            with self.night.changed:
                self.night.changed.wait_for(
                    lambda: self.night.version != version or not self._is_told(), QUIET
                )
                version = self.night.version
            self.tell()
            time.sleep(ROUND)
