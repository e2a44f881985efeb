"""Whether a spare still takes up the record. It works without a rest then; one that has taken it up
rests between two lines. What it has read is not to be seen from here."""

import time

# How long is looked at, in seconds; how much of that it works at least: of the time in which the
# machine gave it a processor, and in seconds.
LOOK = 0.1
_SHARE, _LEAST = 0.5, 0.01


def _times_of(number: int) -> tuple[float, float]:
    """For how long a process ran, and waited for a processor, in seconds; 0 where that is not to be
    had."""
    try:
        with open(f"/proc/{number}/schedstat", "rb") as file:
            ran, waited, *_ = map(int, file.read().split())
    except (OSError, ValueError):
        return 0.0, 0.0
    return ran / 1e9, waited / 1e9


class CatchingUp:
    """Looks at a process from now on."""

    def __init__(self, number: int) -> None:
        self.number = number
        self._begin()

    def _begin(self) -> None:
        self.since = time.monotonic()
        self.ran, self.waited = _times_of(self.number)

    def left(self) -> float:
        """For how long it is still to be looked at, in seconds."""
        return max(self.since + LOOK - time.monotonic(), 0.0)

    def is_so(self) -> bool:
        """Whether it has worked without a rest since the look began."""
        ran, waited = _times_of(self.number)
        worked = ran - self.ran
        had = time.monotonic() - self.since - (waited - self.waited)
        return worked >= _LEAST and worked >= _SHARE * had

    def was_so(self) -> bool:
        """Whether that was so in a look that is over; then another one begins."""
        if self.left():
            return False
        found = self.is_so()
        self._begin()
        return found
