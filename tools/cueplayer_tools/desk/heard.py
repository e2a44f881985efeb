"""A night that is heard: what `live` prints is kept as the state of the night.

Nothing is taken for done before the program has said so. Each line that is handed on gets one
answer, and answers come in the order of the lines, so the oldest line that waits is the one that
is answered. The current cue is the one of the latest `cue` line. Where an answer is missing, or is
to a line of somebody else, `where` is asked, and its answer is the whole state anew. A line that
the program does not read within a second is taken back.
"""

import re
import threading
import time
from abc import ABC, abstractmethod
from collections.abc import Callable

from cueplayer_tools.cue_list import Show
from cueplayer_tools.desk.input import WHERE, FolderInput, LiveInput
from cueplayer_tools.desk.press import FROM_HERE, GO, MoveGuard, Press
from cueplayer_tools.desk.state import State
from cueplayer_tools.line_protocol import Refused, command_line, printable
from cueplayer_tools.live_lines import (
    Answer,
    DroppedReplies,
    LostPackets,
    Move,
    Place,
    read_live_line,
)
from cueplayer_tools.live_links import Mended, Trouble, read_link_line

# Seconds for which nothing is handed on where answers are missing, unless the state comes before.
UNSURE = 1.0
# What `live` says on standard error as it begins, in this order: no faults.
RECORD = re.compile(r"record: .*")
START_LINES = (
    re.compile(
        r"show: \d+ cues?, .*?(?:; (?P<skipped>\d+ (?:lines? skipped|notes? of weight).*))?",
        re.ASCII,
    ),
    re.compile(r"sends: .*"),
    RECORD,
    re.compile(r"end ends the night.*"),
)
# And in front of the record's line, any number of each: to what it sends, and by which card.
WAY = re.compile(r"target: .*|(?P<way>from .*)|(?P<others>other cards: .*)|no route to .*")
# What a spare says as it goes on with the night: good to know, and no fault.
GOOD = re.compile(r"end ends the night.*|record: .*, goes on at .*|show: \d+ cues?, .*|sends: .*")


class Clock:
    """The moment that it is for `live`, from what it said last."""

    def __init__(self) -> None:
        self.moment = 0
        self.at = time.monotonic()

    def hear(self, moment: int) -> None:
        self.moment, self.at = moment, time.monotonic()

    def now(self) -> int:
        return self.moment + round((time.monotonic() - self.at) * 1000)


class HeardNight(ABC):
    """A night whose `live` runs, and its state."""

    def __init__(
        self,
        show: Show,
        lines: LiveInput | FolderInput,
        tell: Callable[[str], None],
        keep: Callable[[str], None],
    ) -> None:
        """Hands lines on to `lines`. `tell` gets what `live` says on standard error, and `keep`
        each line that it prints; neither may wait."""
        self.input = lines
        self.tell = tell
        self.keep = keep
        self.state = State(show)
        self.clock = Clock()
        self.guard = MoveGuard(double_go=0.0)
        # The number of the state.
        self.version = 0
        self.start_lines = list(START_LINES)
        # Whether `where` is still to be asked.
        self.is_to_ask = True
        # Whether answers are missing, so that nobody knows to which line the next one is; and until
        # when nothing is handed on for that.
        self.is_astray = False
        self.unsure_until = 0.0
        self.changed = threading.Condition()

    @abstractmethod
    def live(self) -> str:
        """The number of its process."""

    @abstractmethod
    def read(self) -> None:
        """Reads what `live` says, from here on."""

    @abstractmethod
    def can_resume(self) -> bool:
        """Whether nothing plays the night, nobody is at work on that, and it can be taken up."""

    @abstractmethod
    def resume(self) -> None:
        """Takes the night up where it was; Refused where that cannot be."""

    @abstractmethod
    def end(self, patience: float) -> int:
        """Leaves the night; the status of the desk."""

    def _take(self, hear: Callable[[str], None], line: str) -> None:
        """Hears a line. A fault here must not end the reading: the program would wait for it."""
        try:
            hear(line)
        except Exception as fault:
            self.state.tell("fault", f"desk: {fault!r} at: {printable(line)}")

    def wake(self) -> None:
        """Has whoever waits for a change look again."""
        with self.changed:
            self.changed.notify_all()

    def _change(self) -> None:
        self.version += 1
        state = self.state
        self.guard.see(self.version, (state.is_placed, state.current, state.following))
        self.changed.notify_all()

    def _hear(self, line: str) -> None:
        """Takes a line of standard output."""
        self.keep(line)
        told = read_live_line(line)
        if isinstance(told, Answer | Place | LostPackets):
            self.clock.hear(told.moment)
        match told:
            case Answer():
                self._take_answer(told)
            case Move():
                self.state.move(told)
                if self._is_in_doubt():
                    self.state.forget_fade()
            case Place():
                self._take_place(told)
            case LostPackets():
                self.state.lose(told)
            case DroppedReplies():
                text = f"{told.count} replies of live were lost; the state is read again"
                self.state.tell("fault", text)
                self._lose_track()

    def _take_answer(self, answer: Answer) -> None:
        asked = self.input.oldest()
        if self.is_astray or asked is None or asked == WHERE:
            self._take_strange_answer(answer)
            return
        given, page = self.input.oldest_moment(), self.input.oldest_page()
        self.input.take_answered()
        if answer.refusal is None:
            self.state.accept(answer.moment, asked, given)
        else:
            self.state.tell("refused", f"{asked}: refused, {answer.refusal}", page)

    def _take_strange_answer(self, answer: Answer) -> None:
        """Takes an answer to a line that is not known: `where` tells what that line did. The end of
        a night has a second answer."""
        if self.state.is_ending:
            return
        if answer.refusal is not None:
            text = f"a line was refused, {answer.refusal}; which one is not known"
            self.state.tell("refused", text)
        if not self._is_in_doubt():
            self._doubt()

    def _take_place(self, place: Place) -> None:
        self.state.place(place)
        if self.is_to_ask:
            return
        if self.is_astray:
            self.input.forget_asked()
        elif self.input.oldest() == WHERE:
            self.input.take_answered()
        else:
            # Somebody else asked.
            return
        self.is_astray = False
        self.unsure_until = 0.0

    def _lose_track(self) -> None:
        """Answers are missing, and nobody knows which, until a `where` is answered that is asked
        from here on: those that are still to come stand before it."""
        self.is_astray = True
        self.state.forget_moves()
        self.unsure_until = time.monotonic() + UNSURE
        self._doubt()

    def _is_in_doubt(self) -> bool:
        """Whether the state may lack what a `where` is to tell."""
        return self.is_to_ask or self.input.is_asked()

    def _doubt(self) -> None:
        self.is_to_ask = True
        self.state.forget_fade()
        self._ask_place()

    def _ask_place(self) -> None:
        """Asks for the whole state, where that is to be done and `live` takes lines."""
        if self._is_over() or not self.is_to_ask:
            return
        try:
            self.input.give(WHERE)
        except Refused:
            # It is asked again, once `live` reads on.
            return
        self.is_to_ask = False

    def _is_over(self) -> bool:
        """Whether `live` takes nothing more: behind an `end` it refuses all lines, and answers
        none."""
        return self.state.status is not None or self.state.is_ending or self.input.has_end()

    def _hear_message(self, line: str) -> None:
        """Takes a line of standard error. What is said as the night begins is no fault, and how to
        end it by typing is not for a desk."""
        text = printable(line, 300)
        begins = self.start_lines[0].fullmatch(line) if self.start_lines else None
        way = WAY.fullmatch(line) if RECORD in self.start_lines[:1] else None
        if begins is not None:
            self._hear_start(begins)
        elif link := read_link_line(line):
            self._hear_link(link, text)
        elif GOOD.fullmatch(line):
            self.state.tell("good", text)
        elif way is None:
            self.state.tell("fault", text)
        else:
            self._hear_way(way)
        if begins is None or self.start_lines:
            self.tell(f"live: {text}")

    def _hear_start(self, line: re.Match[str]) -> None:
        if len(self.start_lines) == len(START_LINES):
            # Another `live` begins, and says anew by which way it sends.
            self.state.ways, self.state.troubles = [], {}
        del self.start_lines[0]
        self.state.skipped = line.groupdict().get("skipped") or self.state.skipped

    def _hear_way(self, line: re.Match[str]) -> None:
        if line["way"]:
            self.state.ways.append(printable(line["way"]))
        elif line["others"]:
            self.state.tell("way", printable(line["others"], 300))

    def _hear_link(self, link: Trouble | Mended, text: str) -> None:
        """Takes what is said of the network or the record: what is wrong stands until it is
        over."""
        if isinstance(link, Trouble):
            self.state.trouble(link, link.text if link.kind == "record" else text)
            return
        self.state.mend(link)
        if link.kind == "record":
            # That lines are missing in it has to be known behind the trouble too.
            self.state.tell("record", text)
        elif link.about is None:
            # The answer comes with all that is still wrong.
            self.is_to_ask = True
            self._ask_place()

    def give(self, text: str, press: Press | None = None) -> None:
        """Hands a command on to `live`, of a page where there is a press; Refused where it is none,
        `live` cannot take it, or it is a move too many."""
        line = command_line(text)
        at = time.monotonic() if press is None else press.at
        with self.changed:
            if self.state.status is not None:
                raise Refused("the night has ended")
            if time.monotonic() < self.unsure_until:
                raise Refused("replies of live were lost, and the state is read: press again")
            if self._is_over():
                raise Refused("the night is ending")
            if line in FROM_HERE and press is not None:
                self.guard.check_page(press, self.input.is_moving())
            if line == GO:
                self.guard.check_go(at)
            self.input.give(line, "" if press is None else press.page)
            if line == GO:
                self.guard.go(at)

    def refuse(self, text: str, kind: str = "refused", page: str = "") -> None:
        """Tells of what was refused before it came to `live`: the page that it concerns, or all."""
        with self.changed:
            self.state.tell(kind, text, page)
            self._change()

    def watch(self) -> None:
        """Sees whether `live` still answers. What it does not read is taken back."""
        with self.changed:
            if self.state.status is not None:
                return
            taken = self.input.take_back()
            for line in taken:
                if line == WHERE:
                    self.is_to_ask = True
                else:
                    text = f"{line}: taken back, live did not read it in a second"
                    self.state.tell("late", text)
            self._ask_place()
            is_late = self.input.is_late() or self.input.stands_still()
            if taken or is_late != self.state.is_late:
                self.state.is_late = is_late
                self._change()
