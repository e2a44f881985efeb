"""What a storm is, worked out anew from docs/ASSURANCE.md and docs/FORMATS.md, slowly: step by
step, with the second reader's consoles and receivers."""

import random
from typing import NamedTuple

import tooling  # noqa: F401  (it puts the library of the tools on the path)

from expected.desk import Desk, command
from expected.receiver import Receiver
from expected.runs import wire
from expected.script import Console

from cueplayer_tools.storm.network import Network, Outage

LOST = 2500
# All that happens in a small storm does so at such moments.
STEP = 5


class Judged(NamedTuple):
    """What became of a universe: times, and the stretches that were other than meant, each with
    its first moment, the moment behind it, how far a slot was off at most, and how long it was
    dark."""

    whole: int
    stretches: list
    in_window: int
    fresh: int
    promised: int
    broken: int


class Player:
    """A console of a storm: what it sends, and what it means at its latest tick."""

    def __init__(self, show, lines, console, cid):
        self.desk = Desk(show, 1)
        self.console = Console(1, console.priority, cid)
        self.lines = [(line.moment + console.late, line.words) for line in lines]
        # The slots at the latest tick, by universe; None where it is no live one.
        self.means = None
        # The moment of each packet, by universe.
        self.sent = {universe: [] for universe in self.desk.streams}

    def play(self, moment):
        """Carries out the lines of a moment."""
        while self.lines and self.lines[0][0] <= moment:
            _, words = self.lines.pop(0)
            if words == ("tick",):
                self.tick(moment)
            else:
                self.desk.order(moment, command([word.encode() for word in words]))

    def tick(self, moment):
        answer = self.desk.tick(moment)
        if isinstance(answer, str):
            return
        ending, offers = answer
        self.means = None if ending else {}
        for universe, packet in offers:
            if packet:
                self.sent[universe].append(moment)
            if not ending:
                ordinal = self.desk.streams[universe][0]
                self.means[universe] = self.desk.frame(ordinal, moment)

    def datagram(self, universe, packet):
        sent = self.desk.streams[universe][1].packets[packet]
        return wire(universe, sent, self.console)


def in_window(came):
    """The window, of the numbers of what came, in order."""
    newest = None
    for k in came:
        if newest is not None and not newest - 19 <= k <= newest + 217:
            return False
        newest = k if newest is None else max(newest, k)
    return True


def since_silence(came, moment):
    """Of what came up to a moment, what came behind the last silence of 2.5 seconds."""
    came = [each for each in came if each[0] <= moment]
    if not came or moment - came[-1][0] >= LOST:
        return []
    silences = [at for at in range(1, len(came)) if came[at][0] - came[at - 1][0] >= LOST]
    return came[silences[-1] :] if silences else came


class Watched:
    """One universe: a receiver, and what is promised of it."""

    def __init__(self, players, universe, came):
        self.players, self.universe = players, universe
        # What comes of each player: moment and number of the packet.
        self.came = came
        self.receiver = Receiver(universe)

        arrivals = [(at, c, k) for c, each in enumerate(came) for at, k in each]
        self.arrivals = sorted(arrivals, reverse=True)

    def take(self, moment):
        """What arrives up to a moment, in its order."""
        while self.arrivals and self.arrivals[-1][0] <= moment:
            at, console, k = self.arrivals.pop()
            self.receiver.take(at, self.players[console].datagram(self.universe, k))

    def shown_slots(self, moment):
        """The slots that are not 0, by their numbers."""
        lit = [each.data for each in self.receiver.records.values() if each.is_lit(moment)]
        first = max((data.priority for data in lit), default=0)
        slots = {}
        for data in lit:
            if data.priority == first:
                for slot, byte in enumerate(data.slots[:8], 1):
                    if byte:
                        slots[slot] = max(slots.get(slot, 0), byte)
        return slots

    def merge(self, players):
        """What these consoles mean together, those of the greatest priority."""
        lit = [each for each in players if each.means is not None]
        first = max((each.console.priority for each in lit), default=0)
        slots = {}
        for each in lit:
            if each.console.priority == first:
                for slot, byte in each.means.get(self.universe, {}).items():
                    slots[slot] = max(slots.get(slot, 0), byte)
        return slots

    def premises(self, moment):
        """Whether all are in the window, and of each that has sent if it is fresh or silent."""
        windows, states = [], {}
        for console, player in enumerate(self.players):
            sent = player.sent[self.universe]
            if not sent:
                continue
            came = since_silence(self.came[console], moment)
            windows.append(in_window([k for _, k in came]))
            newest = [at for at, k in came if k == len(sent) - 1]
            is_fresh = bool(newest) and moment - min(newest) < LOST
            is_silent = not any(moment - at < LOST for at, _ in came)
            states[console] = "fresh" if is_fresh else "silent" if is_silent else None
        return all(windows), states


def off_by(shown, meant):
    slots = {*shown, *meant}
    return max((abs(shown.get(slot, 0) - meant.get(slot, 0)) for slot in slots), default=0)


class Sums:
    """What became of a universe so far."""

    def __init__(self, watched):
        self.watched = watched
        self.stretches = []
        self.window = self.fresh = self.promised = self.broken = 0

    def look(self, moment):
        """Adds a step."""
        watched = self.watched
        shown, meant = watched.shown_slots(moment), watched.merge(watched.players)
        if shown != meant:
            if not self.stretches or self.stretches[-1][1] != moment:
                self.stretches.append([moment, moment, 0, 0])
            stretch = self.stretches[-1]
            stretch[1] = moment + STEP
            stretch[2] = max(stretch[2], off_by(shown, meant))
            stretch[3] += STEP * (not shown)
        has_window, states = watched.premises(moment)
        settled = None not in states.values()
        self.window += STEP * has_window
        self.fresh += STEP * (settled and "fresh" in states.values())
        if has_window and settled:
            self.promised += STEP
            heard = [p for c, p in enumerate(watched.players) if states.get(c) == "fresh"]
            self.broken += STEP * (shown != watched.merge(heard))


def verdicts(players, came, first, last):
    """What becomes of each universe between two moments. `came` has, by console and universe, the
    moment and the number of what came."""
    sums = []
    for universe in sorted({universe for _, universe in came}):
        cables = [came[console, universe] for console in range(len(players))]
        sums.append(Sums(Watched(players, universe, cables)))
    for moment in range(0, last, STEP):
        for player in players:
            player.play(moment)
        for each in sums:
            each.watched.take(moment)
            if moment >= first:
                each.look(moment)
    return [
        Judged(last - first, each.stretches, each.window, each.fresh, each.promised, each.broken)
        for each in sums
    ]


def small_show(chance):
    """A show of three channels in two universes, by chance."""
    lines = []
    for cue in range(1, chance.randint(2, 5)):
        lines.append(f"CUE {cue}")
        lines.append(f"UP {chance.choice(['0', '.1', '.3', '1'])} {chance.choice(['0', '.05'])}")
        lines += [f"DOWN {chance.choice(['0', '.2', '.6'])}"] * chance.randint(0, 1)
        lines += [f"FOLLOWON {chance.choice(['0', '.2', '.5'])}"] * (chance.random() < 0.3)
        for channel in (1, 2, 3):
            level = chance.choice(["FL", "50", "20"])
            lines += [f"CHAN {channel}@{level}"] * (chance.random() < 0.6)
    lines += ["SUB 1", "CHAN 2@FL", "PATCH 1 1<1@FL 2<2@80 3<513@FL 1<514@50"]
    return "\n".join(lines) + "\n"


def small_night(chance):
    """Some commands, and the moment of the last line."""
    last = chance.choice([600, 900, 1500, 3600])
    asked = ["go", "go", "go", "back", "goto 1", "goto 1 in .2"]
    asked += ["sub 1 50", "sub 1 0", "master 50"]
    moments = sorted(chance.randrange(0, last, STEP) for _ in range(chance.randint(1, 6)))
    lines = [f"{moment} {chance.choice(asked)}" for moment in moments]
    lines += [f"{last} end"] * (chance.random() < 0.3)
    return "\n".join(lines) + "\n", last


def small_network(chance, seed, last):
    outages = []
    for _ in range(chance.choice([0, 0, 1, 2])):
        first = chance.randrange(last)
        until = first + chance.choice([100, 600, 3000])
        where = chance.choice([{"console": 0}, {"universe": 1}, {}])
        outages.append(Outage(first, until, **where))
    return Network(
        seed=seed,
        loss=chance.choice([0, 0.05, 0.3, 0.6, 0.9]),
        burst=chance.choice([0, 0, 100, 800]),
        repeat=chance.choice([0, 0.2]),
        most_delay=chance.choice([0, 5, 60, 700]),
        reorder=chance.choice([0, 0.2]),
        held_back=chance.choice([60, 600]),
        outages=tuple(outages),
    )


def arrive_at_looks(traffic):
    """Lets all arrive at moments that are looked at."""
    for each in traffic.values():
        each.came = sorted((-(-moment // STEP) * STEP, k) for moment, k in each.came)


def chance_of(seed):
    return random.Random(f"small storm {seed}")
