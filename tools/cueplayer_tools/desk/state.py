"""The state of a night as a desk shows it: what `live` has said of it."""

import math
import time
from collections import deque
from dataclasses import dataclass, field

from cueplayer_tools.cue_list import Show
from cueplayer_tools.line_protocol import MOVES, level_byte, milliseconds_of, thousandths_of
from cueplayer_tools.live_lines import FULL, LostPackets, Move, Place
from cueplayer_tools.live_links import Mended, Trouble

NOTICES_KEPT = 20


@dataclass(frozen=True)
class Notice:
    """Something that was told: its number, and when, by `time.monotonic()`. Where it concerns one
    page alone, it has that page's word."""

    number: int
    kind: str
    text: str
    at: float
    page: str = ""


@dataclass
class Lost:
    """How many packets could not be sent, and where the latest was."""

    count: int = 0
    moment: int = 0
    universe: int = 0


@dataclass(frozen=True)
class Span:
    """A time from the latest move on: the moment of that, None where it is not known, and how long
    it is."""

    moment: int | None
    whole: int


@dataclass
class State:
    """What `live` has said so far. Moments are its own, in milliseconds since the start."""

    show: Show
    # Whether it has said which cue is current.
    is_placed: bool = False
    current: int | None = None
    following: int | None = None
    # When the current cue was come to; None where that is not known.
    moved: int | None = None
    # When the last channel arrives; None where there was no move, or its times are not known.
    fade: Span | None = None
    # When the next cue goes by itself; None where it does not.
    follow: Span | None = None
    # The accepted `goto N in TIME` whose move is still to be told: the move, and TIME.
    timed: tuple[Move, int] | None = None
    grand: int = FULL
    # The grand master before it was brought to 0.
    lit_grand: int = FULL
    masters: dict[str, int] = field(default_factory=dict)
    lost: Lost = field(default_factory=Lost)
    # How many lines of the show have no effect, in words.
    skipped: str = ""
    # By which addresses and cards it sends.
    ways: list[str] = field(default_factory=list)
    # What keeps packets from nodes, each with the line that says so.
    troubles: dict[Trouble, str] = field(default_factory=dict)
    notices: deque[Notice] = field(default_factory=lambda: deque(maxlen=NOTICES_KEPT))
    told: int = 0
    # Whether a line has waited for its answer for too long.
    is_late: bool = False
    is_ending: bool = False
    status: int | None = None

    def tell(self, kind: str, text: str, page: str = "") -> None:
        if kind == "osc":
            # One of a flood must not drive out what else was told.
            self.forget("osc")
        self.told += 1
        self.notices.append(Notice(self.told, kind, text, time.monotonic(), page))

    def trouble(self, trouble: Trouble, line: str) -> None:
        """Takes that nodes get nothing; the line that said so first stands."""
        if trouble not in self.troubles:
            self.mend(Mended(trouble.kind, trouble.about))
            self.troubles[trouble] = line

    def mend(self, mended: Mended) -> None:
        """Takes that this is over."""
        self.troubles = {
            each: line
            for each, line in self.troubles.items()
            if each.kind != mended.kind or mended.about not in (None, each.about)
        }

    def accept(self, moment: int, line: str, given: float = math.inf) -> None:
        """Takes a command that the program has accepted, and that was handed on at a time of
        `time.monotonic()`. A move is told by a line of its own."""
        kind, *words = line.split()
        self.timed = None
        if kind in ("sub", "group"):
            self.masters[f"{kind} {words[0]}"] = level_byte(words[1])
        elif kind == "master":
            self._set_grand(level_byte(words[0]))
        elif kind == "end":
            self.is_ending = True
        elif kind in MOVES:
            # What was refused before a move is behind us. A second GO of a double click, which
            # was refused behind the first, has to be seen.
            self.forget("refused", "osc", before=given)
            if len(words) == 3:
                move = Move(moment, thousandths_of(words[0]))
                self.timed = move, milliseconds_of(words[2])

    def move(self, move: Move) -> None:
        """Takes a move, in its own times or its cue's."""
        self.is_placed = True
        self.current, self.following = move.cue, self.show.next_cue(move.cue)
        self.moved = move.moment
        self._follow_from(move.moment)
        if self.timed is not None and self.timed[0] == move:
            whole = self.timed[1]
        elif move.cue in self.show.cues:
            whole = self.show.cues[move.cue].fade
        else:
            self.forget_fade()
            return
        self.fade = Span(move.moment, whole)

    def forget_fade(self) -> None:
        """Which move was the latest, or in which time it is made, is not known any more."""
        self.fade = self.timed = None

    def forget_moves(self) -> None:
        """Moves may have been made that were not told."""
        self.forget_fade()
        self.moved = None
        self._follow_from(None)

    def _follow_from(self, moment: int | None) -> None:
        """Takes when the current cue was come to; None where that is not known."""
        follow = None
        cue = None if self.current is None else self.show.cues.get(self.current)
        if cue is not None and cue.follow is not None and self.following is not None:
            follow = Span(moment, cue.follow)
        self.follow = follow

    def place(self, place: Place) -> None:
        """Takes the whole state anew."""
        is_known = place.cue == self.current
        self.is_placed = True
        self.current, self.following = place.cue, place.following
        if not is_known:
            self.forget_moves()
        self._set_grand(place.grand)
        self.masters = dict(place.masters)

    def lose(self, tick: LostPackets) -> None:
        """Counts the packets that could not be sent at a tick."""
        for universe in tick.universes:
            self.lost = Lost(self.lost.count + 1, tick.moment, universe)

    def _set_grand(self, level: int) -> None:
        self.grand = level
        self.lit_grand = level or self.lit_grand

    def forget(self, *kinds: str, before: float = math.inf) -> None:
        """Forgets what was told of these kinds."""
        kept = [each for each in self.notices if each.kind not in kinds or each.at >= before]
        self.notices = deque(kept, NOTICES_KEPT)
