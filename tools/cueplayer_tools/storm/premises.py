"""When the premises of the promise hold, by what was sent and what came (docs/ASSURANCE.md).

In the window: each packet that came is at most 19 behind and at most 217 ahead of the newest that
came before it. A silence of 2.5 seconds begins the window anew: then a receiver has nothing of the
console, and takes what comes as one that was just switched on. Fresh: the newest packet that was
sent has come, and came first less than 2.5 seconds ago. Silent: none came less than 2.5 seconds
ago.
"""

from dataclasses import dataclass
from typing import NamedTuple

from cueplayer_tools.storm.network import Traffic
from cueplayer_tools.storm.seen import SILENCE

BEHIND = 19
AHEAD = 217


class Premises(NamedTuple):
    """What holds of a console at a receiver from a moment on."""

    has_sent: bool = False
    in_window: bool = True
    is_fresh: bool = False
    is_silent: bool = True


Held = list[tuple[int, Premises]]


class _Judge:
    """Follows what was sent and what came, in the order in which it did."""

    def __init__(self) -> None:
        self.changes: Held = [(0, Premises())]
        self.sent = 0
        self.newest: int | None = None
        self.in_window = True
        # Until when the newest packet sent is fresh, and from when on the console is silent.
        self.fresh_until: int | None = None
        self.silent_from = 0

    def _at(self, moment: int) -> Premises:
        is_fresh = self.fresh_until is not None and moment < self.fresh_until
        is_silent = moment >= self.silent_from
        return Premises(self.sent > 0, self.in_window or is_silent, is_fresh, is_silent)

    def _note(self, moment: int) -> None:
        premises = self._at(moment)
        if self.changes[-1][0] == moment:
            self.changes[-1] = moment, premises
        elif self.changes[-1][1] != premises:
            self.changes.append((moment, premises))

    def pass_to(self, moment: int) -> None:
        """Time passes, up to a moment."""
        turns = sorted({self.fresh_until or 0, self.silent_from})
        for turn in turns:
            if self.changes[-1][0] < turn < moment:
                self._note(turn)

    def send(self, moment: int) -> None:
        self.pass_to(moment)
        self.sent += 1
        self.fresh_until = None
        self._note(moment)

    def come(self, moment: int, packet: int) -> None:
        self.pass_to(moment)
        if moment >= self.silent_from:
            self.newest, self.in_window, self.fresh_until = None, True, None
        if self.newest is not None:
            is_near = self.newest - BEHIND <= packet <= self.newest + AHEAD
            self.in_window = self.in_window and is_near
        self.newest = packet if self.newest is None else max(self.newest, packet)
        if packet == self.sent - 1 and self.fresh_until is None:
            self.fresh_until = moment + SILENCE
        self.silent_from = moment + SILENCE
        self._note(moment)


def premises_of(traffic: Traffic, last: int) -> Held:
    """What holds of a console at a receiver, up to a moment."""
    judge, at = _Judge(), 0
    for moment, packet in [*traffic.came, (last + 1, -1)]:
        while at < len(traffic.sent) and traffic.sent[at] <= min(moment, last):
            judge.send(traffic.sent[at])
            at += 1
        if moment > last:
            break
        judge.come(moment, packet)
    judge.pass_to(last + 1)
    return judge.changes


@dataclass(frozen=True)
class Together:
    """What holds of all consoles of a universe."""

    in_window: bool
    is_fresh: bool
    hold: bool


def together(premises: list[Premises]) -> Together:
    """Fresh where a console's newest packet has come, and every other's has, or it is silent."""
    sent = [each for each in premises if each.has_sent]
    in_window = all(each.in_window for each in sent)
    settled = all(each.is_fresh or each.is_silent for each in sent)
    is_fresh = settled and any(each.is_fresh for each in sent)
    return Together(in_window, is_fresh, in_window and settled)
