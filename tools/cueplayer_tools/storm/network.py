"""The network of a storm: what becomes of each packet, by rates and a seed."""

import math
from bisect import bisect_right
from dataclasses import dataclass, field
from random import Random

HELD_BACK = 60


@dataclass(frozen=True)
class Outage:
    """Nothing passes from the first moment up to the other: at the cable of a console, at that of
    the node of a universe, or, where neither is named, at the switch."""

    first: int
    until: int
    console: int | None = None
    universe: int | None = None

    def name(self) -> str:
        if self.console is not None:
            return "cable"
        return "switch" if self.universe is None else "node"


@dataclass(frozen=True)
class Network:
    """Shares are 0 to 1, times in milliseconds."""

    seed: int = 1
    loss: float = 0.0
    # The mean time for which a cable loses everything; 0: packets are lost one by one.
    burst: int = 0
    repeat: float = 0.0
    least_delay: int = 0
    most_delay: int = 0
    # The share of packets that are held back, and for how long.
    reorder: float = 0.0
    held_back: int = HELD_BACK
    outages: tuple[Outage, ...] = ()


@dataclass
class Traffic:
    """What became of the packets that a console sent for a universe."""

    # The moment of each, by its number.
    sent: list[int]
    # Moment and number, ascending: a packet may come twice, or late.
    came: list[tuple[int, int]] = field(default_factory=list)
    # Why a packet never came.
    lost: dict[int, str] = field(default_factory=dict)

    @property
    def repeated(self) -> int:
        return len(self.came) + len(self.lost) - len(self.sent)

    def overtakes(self) -> int:
        """How many came behind one that was sent later, or came before."""
        count, newest = 0, -1
        for _, packet in self.came:
            count += packet <= newest
            newest = max(newest, packet)
        return count


def _bursts(network: Network, console: int, first: int, last: int) -> list[int]:
    """The moments at which a console's cable begins and ceases to lose everything, in turn."""
    chance = Random(f"{network.seed} bursts {console}")
    apart = network.burst * (1 - network.loss) / network.loss
    moment, turns = float(first), []
    while moment <= last:
        for mean in (apart, network.burst):
            moment -= mean * math.log(1.0 - chance.random())
            turns.append(math.ceil(moment))
    return turns


def _outage(network: Network, console: int, universe: int, sent: int, came: int) -> str | None:
    """What keeps a packet from coming at a moment; None where nothing does."""
    for each in network.outages:
        if each.console is not None:
            is_out = each.console == console and each.first <= sent < each.until
        elif each.universe is not None:
            is_out = each.universe == universe and each.first <= came < each.until
        else:
            is_out = sent < each.until and each.first <= came
        if is_out:
            return each.name()
    return None


class Cable:
    """The way of a console's packets."""

    def __init__(self, network: Network, console: int, first: int, last: int) -> None:
        self.network = network
        self.console = console
        is_bursty = network.burst and 0 < network.loss < 1
        self.turns = _bursts(network, console, first, last) if is_bursty else None

    def _delay(self, chance: Random) -> int:
        """How long a packet takes. Each asks for as many numbers, so that networks of one seed
        differ by their rates alone."""
        network = self.network
        wide = network.most_delay - network.least_delay + 1
        delay = network.least_delay + int(chance.random() * wide)
        return delay + network.held_back * (chance.random() < network.reorder)

    def _is_lost(self, moment: int, drawn: float) -> bool:
        if self.turns is None:
            return drawn < self.network.loss
        return bisect_right(self.turns, moment) % 2 == 1

    def carry(self, universe: int, sent: list[int]) -> Traffic:
        """What becomes of packets that are sent for a universe at these moments."""
        chance = Random(f"{self.network.seed} packets {self.console} {universe}")
        traffic = Traffic(sent)
        for packet, moment in enumerate(sent):
            is_lost = self._is_lost(moment, chance.random())
            is_twice = chance.random() < self.network.repeat
            arrivals = [moment + self._delay(chance), moment + self._delay(chance)]
            came = []
            for arrival in arrivals[: 1 + is_twice]:
                out = _outage(self.network, self.console, universe, moment, arrival)
                if out is not None:
                    traffic.lost[packet] = out
                elif not is_lost:
                    came.append((arrival, packet))
            if came:
                traffic.lost.pop(packet, None)
                traffic.came += came
            else:
                traffic.lost.setdefault(packet, "loss")
        traffic.came.sort()
        return traffic
