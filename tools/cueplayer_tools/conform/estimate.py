"""How long a trial takes: the same trial without a receiver, by a clock that does not wait."""

from collections.abc import Sequence

from cueplayer_tools.conform.peers import Peer, SteppedClock
from cueplayer_tools.conform.trial import Trial
from cueplayer_tools.conform.verdicts import Named
from cueplayer_tools.rehearsal import Slots


class NoPeer:
    """Takes all, and takes as long for each look as another peer does."""

    name, version, keeps_time, moves = "", "", True, True

    def __init__(self, peer: Peer, clock: SteppedClock) -> None:
        self.universes, self.pair, self.clock = peer.universes, peer.pair, clock
        self.look_time, self.looks = peer.look_time, 0
        self.route = peer.route

    def begin(self, universes: Sequence[int]) -> None:
        pass

    def send(self, universe: int, data: bytes, sender: int) -> None:
        pass

    def look(self, universe: int) -> Slots:
        self.clock.moment += int(1000 * self.look_time)
        # Always something new: it is not deaf.
        self.looks += 1
        return {1: self.looks}

    def close(self) -> None:
        pass


def seconds_of(peer: Peer, cases: list[Named], settle: int) -> float:
    """How many seconds these cases take, one after the other in each universe of a peer."""
    clock = SteppedClock()
    Trial(NoPeer(peer, clock), clock, settle).run(cases)
    return clock.moment / 1000
