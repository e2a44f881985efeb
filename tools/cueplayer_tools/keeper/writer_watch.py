"""Those who write the record and the replies of a `live`: one that ends is begun again, and one
that was stopped goes on."""

import contextlib
import os
import signal
import time
from collections.abc import Callable

from cueplayer_tools.keeper.pipes import RECORD, REPLIES, LivePipes
from cueplayer_tools.keeper.processes import Starter
from cueplayer_tools.keeper.states import state_of

_NAMES = {RECORD: "the record", REPLIES: "the replies"}
# For how long one may be missing, as it was just started, or be stopped, in seconds.
_PATIENCE = 0.3


class WriterWatch:
    """Looks at those of a `live` that has pipes to them."""

    def __init__(self, starter: Starter, live: int, tell: Callable[[str], None]) -> None:
        self.starter, self.tell = starter, tell
        self.pipes = LivePipes(live)
        self.numbers: dict[int, int | None] = dict.fromkeys(self.pipes.found)
        # Which of them were there, and since when one is missing or stopped.
        self.seen: set[int] = set()
        self.since: dict[int, float] = {}

    def look(self) -> None:
        """Has each of them write."""
        if not self.numbers:
            # It may not have been a program yet.
            self.pipes = LivePipes(self.pipes.live)
            self.numbers = dict.fromkeys(self.pipes.found)
        for place in self.numbers:
            number = self._find(place)
            if number is not None and state_of(number) != "T":
                self.since.pop(place, None)
                continue
            now = time.monotonic()
            is_gone = number is None and place in self.seen
            if now - self.since.setdefault(place, now) < _PATIENCE and not is_gone:
                continue
            self.since.pop(place)
            self._begin_again(place) if number is None else self._go_on(place, number)

    def _find(self, place: int) -> int | None:
        number = self.numbers[place]
        if number is None or not self.pipes.is_writer(place, number):
            number = self.numbers[place] = self.pipes.find_writer(place)
        if number is not None:
            self.seen.add(place)
        return number

    def _go_on(self, place: int, number: int) -> None:
        with contextlib.suppress(OSError):
            os.kill(number, signal.SIGCONT)
            self.tell(f"what writes {_NAMES[place]} (process {number}) was stopped: it goes on")

    def let_go_on(self) -> None:
        """Has those that were stopped write what is left, at once."""
        for place, number in self.numbers.items():
            if number is not None and state_of(number) == "T":
                if self.pipes.is_writer(place, number):
                    self._go_on(place, number)

    def _begin_again(self, place: int) -> None:
        # `live` may be gone.
        with contextlib.suppress(OSError):
            source = self.pipes.open_end(place)
            try:
                if place == REPLIES:
                    self.starter.write_replies(source)
                else:
                    file = self.pipes.open_file()
                    self.starter.write_record(source, file)
                    os.close(file)
            finally:
                os.close(source)
            # It has its place in a moment.
            self.seen.discard(place)
            self.tell(f"what writes {_NAMES[place]} was ended: another one goes on with it")
