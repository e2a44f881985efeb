"""Which presses count: none that its page made by an older state, and no GO twice.

GO and BACK go from where the night is, so they count only for the cue that the page showed as next
when they were pressed. A double click is one GO.
"""

from dataclasses import dataclass

from cueplayer_tools.line_protocol import Refused

GO = "go"
# The moves that go from where the night is.
FROM_HERE = (GO, "back")
# Seconds in which a second GO is one too many, where the operator says nothing else.
USUAL_DOUBLE_GO = 0.4


@dataclass(frozen=True)
class Press:
    """A press on a page: when it was made, by `time.monotonic()`, the number of the state that the
    page showed then, and the page's own word."""

    at: float
    seen: int
    page: str = ""


class MoveGuard:
    """Refuses moves that come twice, or from a page that has not seen the latest one."""

    def __init__(self, double_go: float) -> None:
        """A second GO within so many seconds is refused; 0 takes each."""
        self.double_go = double_go
        self.latest_go: float | None = None
        # The number of the state since which the same cue is next, and what is next.
        self.since = 0
        self.shown: object = None

    def see(self, number: int, shown: object) -> None:
        """Takes the state of this number, and what pages show as current and next in it."""
        if shown != self.shown:
            self.since, self.shown = number, shown

    def check_page(self, press: Press, is_moving: bool) -> None:
        """Refuses a move from here whose page showed another cue as next, or while another move
        waits for its answer."""
        if press.seen < self.since:
            raise Refused("another cue is next than when it was pressed: nothing was sent")
        if is_moving:
            raise Refused("a move is on its way: nothing was sent")

    def check_go(self, at: float) -> None:
        """Refuses a GO that was pressed too soon after another, or just before it."""
        if self.latest_go is None or not self.double_go:
            return
        apart = abs(at - self.latest_go)
        if apart < self.double_go:
            after = f"{apart * 1000:.0f} ms after the first"
            raise Refused(f"a second GO {after}: nothing was sent")

    def go(self, at: float) -> None:
        """Takes that a GO was handed on."""
        self.latest_go = at
