"""How a `live` ended, and what is to be made of it."""

import re
import signal
import time

from cueplayer_tools.keeper.states import state_of

# What stands in the replies where `live` was refused for want of its network card or its route,
# which come with the network.
_CARD = re.compile(
    rb"^(?:no card .*there are |[^ \n]+ is down: |[^ \n]+ has no .*address: "
    rb"|the route to [^ \n]+ leads by [^ \n]+, and not by )",
    re.MULTILINE,
)
# Why a record is refused, but for what passes by itself, and for its end.
_RECORD = re.compile(rb"^record: (?!in use|the night has ended|device fault|/)(.*)$", re.MULTILINE)
_BEGUN = b"end ends the night"
# How far starts are apart at least, in seconds: each gets what processor it wants.
_APART = 1.0
_PROCESS = re.compile(r"process \d+")
AGAIN = "tried again each second; `halt` ends that"


class Pace:
    """When the next start of a kind may come: at once, or a second behind the last one."""

    def __init__(self) -> None:
        self.last = -_APART

    def left(self) -> float:
        """For how many seconds the next one is held up."""
        return max(self.last + _APART - time.monotonic(), 0.0)

    def count(self) -> None:
        """Counts one."""
        self.last = time.monotonic()


def is_same(told: str, before: str | None) -> bool:
    """Whether two starts failed for the same reason."""
    return before is not None and _PROCESS.sub("", told) == _PROCESS.sub("", before)


def signal_name(number: int) -> str:
    try:
        return signal.Signals(number).name
    except ValueError:
        return f"SIGRTMIN+{number - signal.SIGRTMIN}"


class Ending:
    """A `live` that has ended: its process, its status where that is known, and what was told
    from its start on."""

    def __init__(self, number: int, status: int | None, told: bytes, has_played: bool) -> None:
        self.number, self.status, self.told = number, status, told
        # Whether its keeper has seen it play: what it told may be gone with its folder.
        self.has_played = has_played

    def words(self) -> str:
        """How it ended."""
        live = f"live (process {self.number})"
        if self.status is None:
            return f"{live} is gone"
        if 128 < self.status < 200:
            return f"{live} was ended by {signal_name(self.status - 128)}"
        return f"{live} ended with status {self.status}"

    def has_told(self, beginning: bytes) -> bool:
        """Whether a line begins so."""
        return b"\n" + beginning in b"\n" + self.told

    def has_begun(self) -> bool:
        """Whether it played: another keeper's did."""
        return self.status is None or self.has_played or self.has_told(_BEGUN)

    def wants_card(self) -> bool:
        """Whether it was refused since its network is not there."""
        return self.status == 2 and _CARD.search(self.told) is not None

    def has_no_record(self) -> str | None:
        """Why the record cannot be taken up, in the program's words; None where it could be."""
        found = _RECORD.search(self.told) if self.status == 4 else None
        return None if found is None else "record: " + found[1].decode("ascii", "replace")

    def end(self, has_ended: bool) -> str | None:
        """That the night is over; None where it is not."""
        if self.status == 4 and self.has_told(b"record: the night has ended"):
            begins = "`start SHOW ..` begins a new one, and keeps this one's record"
            return f"the night has ended; {begins}"
        return "the night has ended" if self.status == 0 or has_ended else None

    def refusal(self, has_record: bool) -> str | None:
        """Why a night that was to begin with words that were just given does not; None where it
        has begun."""
        if self._is_cid():
            return "another live has this CID: end that one, then `start`"
        if self.status in (2, 3, 4):
            told = f"live refused to begin, with status {self.status}"
            return f"{told}: the lines above say why; then `start`"
        if not has_record:
            return f"{self.words()} before the night began: the lines above say why; then `start`"
        return None

    def trouble(self) -> str:
        """Why a night is not gone on with, and what to do while that is tried again."""
        if self.wants_card():
            told = "live waits for its network card: the line above says why"
            return f"{told}; it looks every second"
        if self._is_cid():
            return f"another live has this CID: end that one; {AGAIN}"
        if (holder := self._holder()) is not None:
            told = f"process {holder} has the lock of the record"
            return f"{told}: end that one, `kill {holder}`; {AGAIN}"
        if self.has_told(b"record: in use"):
            told = "the record is still written for a live that is gone"
            return f"{told}: the disk stalls, or is slow; {AGAIN}"
        if self.has_no_record():
            told = f"live refused to begin, with status {self.status}: the lines above say why"
            begins = "to begin in the last cue, `halt`, and `start --if-refused begin`"
            return f"{told}; tried again each second: put back the record or the show; {begins}"
        if self.status in (2, 3, 4):
            told = f"live refused to begin, with status {self.status}"
            return f"{told}: the lines above say why; {AGAIN}"
        return f"{self.words()} before it played: the lines above say why; {AGAIN}"

    def _holder(self) -> int | None:
        """The process that has the lock of the record, where that runs."""
        found = re.search(rb"(?m)^record: in use by process (\d+)", self.told)
        number = None if found is None else int(found[1])
        return number if number is not None and state_of(number) else None

    def _is_cid(self) -> bool:
        return self.has_told(b"another console on this machine sends under this CID")
