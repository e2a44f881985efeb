"""A trial of a receiver: its cases, each in a universe of its own as long as there are universes,
and what was seen of them."""

import heapq
from dataclasses import dataclass, field

from cueplayer_tools.conform.expected import Done
from cueplayer_tools.conform.hearing import Deaf, Hearing
from cueplayer_tools.conform.packets import TERMINATED
from cueplayer_tools.conform.peers import Clock, NetworkFault, Peer, PeerFault
from cueplayer_tools.conform.script import SETTLE, Case, Look, Rule, Script
from cueplayer_tools.conform.verdicts import Named, Played
from cueplayer_tools.rehearsal import Slots

# Behind a case its universe is left alone for so long that every source is lost.
REST = 3000
HALF = 128
# So many packets are told of a receiver that ended.
MOST_SENT = 16


@dataclass(frozen=True)
class Sent:
    """A datagram behind which the receiver has not answered yet, and when it was sent."""

    rule: Rule
    case: Case
    data: bytes
    moment: int


@dataclass(frozen=True)
class Death:
    """How a receiver ended, and what was sent since its last answer."""

    says: str
    sent: tuple[Sent, ...]
    in_play: tuple[Named, ...]

    @property
    def cases(self) -> list[Named]:
        """The cases that may have ended it, the likeliest first."""
        found = [(each.rule, each.case) for each in reversed(self.sent)] or list(self.in_play)
        return [each for place, each in enumerate(found) if each not in found[:place]]


@dataclass
class Lane:
    """A universe, or two, the cases that are yet to be tried there, and the one that is."""

    universes: tuple[int, ...]
    cases: list[Named]
    named: Named | None = None
    script: Script | None = None
    begun: int = 0
    late: int = 0
    done: list[Done] = field(default_factory=list)
    hearing: Hearing = field(default_factory=Hearing)
    # What was sent since its last look that was answered.
    unanswered: list[Sent] = field(default_factory=list)


class Trial:
    """Tries cases on a peer, in all of its universes at a time, each step at its moment. One that
    `is_careful` looks behind each datagram whether the peer still answers."""

    def __init__(
        self, peer: Peer, clock: Clock, settle: int = SETTLE, salt: str = "",
        is_careful: bool = False,
    ) -> None:  # fmt: skip
        self.peer, self.clock, self.settle, self.salt = peer, clock, settle, salt
        self.is_careful = is_careful
        # Also where the peer ends.
        self.played: list[Played] = []
        # What was in play when the peer ended.
        self.cut_off: list[Played] = []
        self.lanes: list[Lane] = []
        self.lane: Lane | None = None
        self.wide: list[Named] = []
        self.hearing = Hearing()
        self.deaf: list[Deaf] = []

    def play(self, cases: list[Named]) -> Death | None:
        """Plays the cases, up to the moment when the peer ends, if it does."""
        try:
            self.run(cases)
        except NetworkFault:
            raise
        except PeerFault as fault:
            return self._death(str(fault))
        finally:
            self.peer.close()
        return None

    def _death(self, says: str) -> Death:
        """How the peer ended, noticed in the lane of the latest step: by what was sent there, or
        in the other lanes."""
        others = [each for lane in self.lanes if lane is not self.lane for each in lane.unanswered]
        found = sorted(others, key=lambda each: each.moment)
        found += self.lane.unanswered if self.lane else []
        in_play = tuple(lane.named for lane in self.lanes if lane.script and lane.named)
        for lane in self.lanes:
            if lane.script and lane.named:
                self.cut_off.append(self._as_played(lane))
        return Death(says, tuple(found[-MOST_SENT:]), in_play)

    def run(self, cases: list[Named]) -> None:
        """Plays the cases, those of two universes last. Nothing is judged meanwhile: steps would
        be late."""
        pair = tuple(self.peer.pair)
        wide = self.wide = [each for each in cases if each[1].is_wide]
        narrow = [each for each in cases if not each[1].is_wide]
        lanes = [Lane((universe,), []) for universe in self.peer.universes]
        # The longest are dealt first, so that all lanes end at about the same time.
        for place, each in enumerate(sorted(narrow, key=lambda each: -each[1].lasts())):
            lanes[place % len(lanes)].cases.append(each)
        self._run([lane for lane in lanes if lane.cases])
        if wide and len(pair) == 2 and not self.hearing.is_over:
            self.clock.wait_until(self.clock.now() + (REST if narrow else 0))
            self.wide = []
            self._run([Lane(pair, wide)])

    def _run(self, lanes: list[Lane]) -> None:
        self.lanes = lanes
        waiting = [(self.clock.now(), place) for place in range(len(lanes))]
        heapq.heapify(waiting)
        while waiting and not self.hearing.is_over:
            moment, place = heapq.heappop(waiting)
            self.clock.wait_until(moment)
            lane = self.lane = lanes[place]
            if lane.script is None:
                self._begin(lane)
            else:
                self._step(lane, self.clock.now() - moment)
            if wait := self._wait(lane):
                heapq.heappush(waiting, (self.clock.now() + wait, place))

    def _wait(self, lane: Lane) -> int:
        """How long it is to the next step of a lane; 0 where nothing is left."""
        assert lane.script is not None
        if len(lane.done) < len(lane.script.steps):
            step = lane.script.steps[len(lane.done)]
            return max(1, step.wait, self.settle if isinstance(step, Look) else 0)
        self._end(lane)
        return REST if lane.cases else 0

    def _begin(self, lane: Lane) -> None:
        self.peer.begin(lane.universes)
        for universe in lane.universes:
            shown = self._looked(lane, universe)
            lane.hearing.begin(universe, shown)
            self.hearing.begin(universe, shown)
        lane.named = lane.cases.pop(0)
        lane.script = lane.named[1].script(lane.universes[0], lane.universes[-1], self.salt)
        lane.done, lane.late = [], 0
        lane.begun = self.clock.now()

    def _looked(self, lane: Lane, universe: int) -> Slots:
        found = self.peer.look(universe)
        lane.unanswered.clear()
        return found

    def _send(self, lane: Lane, place: int, data: bytes, sender: int = 0) -> None:
        assert lane.named is not None
        lane.unanswered.append(Sent(*lane.named, data, self.clock.now()))
        self.peer.send(lane.universes[place], data, sender)

    def _step(self, lane: Lane, late: int) -> None:
        assert lane.script is not None and lane.named is not None
        step = lane.script.steps[len(lane.done)]
        lane.late = max(lane.late, late)
        begun, seen = self.clock.now(), None
        if isinstance(step, Look):
            universe = lane.universes[step.place]
            slots = self._looked(lane, universe)
            seen = tuple(sorted(slots.items()))
            for hearing in (lane.hearing, self.hearing):
                hearing.look(universe, slots, lane.named)
        elif step.only is None:
            self._send(lane, step.place, step.data, step.sender)
            for hearing in (lane.hearing, self.hearing):
                hearing.send(step.data)
        ended = self.clock.now()
        lane.done.append(Done(step, begun - lane.begun, ended - lane.begun, seen))
        if self.is_careful and not isinstance(step, Look):
            self.clock.wait_until(self.clock.now() + self.settle)
            self._looked(lane, lane.universes[0])

    def _end(self, lane: Lane) -> None:
        """Ends the streams of a case, so that the next one finds none of them."""
        assert lane.named is not None and lane.script is not None
        for source in lane.script.sources:
            source.priority = 0
            for place, universe in enumerate(lane.universes):
                packet = source.packet({}, universe=universe)
                self._send(lane, place, packet.to_bytes())
                # Whichever number was the last that it took, one of these is taken.
                for further in (1, 1 + HALF):
                    number = packet.number + further
                    ending = packet.but(number=number, options=TERMINATED)
                    self._send(lane, place, ending.to_bytes())
        played = self._as_played(lane)
        self.played.append(played)
        lane.script = None
        self._listen(lane, played)

    def _as_played(self, lane: Lane) -> Played:
        assert lane.named is not None
        return Played(*lane.named, lane.universes, lane.begun, lane.done, lane.late)

    def _listen(self, lane: Lane, played: Played) -> None:
        """Leaves the cases of a lane that is deaf, or of all."""
        is_deaf = lane.hearing.end(played, self.settle)
        if self.hearing.end(played, self.settle):
            left = [each for one in self.lanes for each in one.cases]
            left += [one.named for one in self.lanes if one.script and one.named]
            self.deaf = [self.hearing.deaf(left + self.wide, self.settle)]
            self.hearing.is_over = True
        elif is_deaf:
            self.deaf.append(lane.hearing.deaf(lane.cases, self.settle))
            lane.cases = []
