"""The cue list of a show, as the program understands it: what `cueplayer cues --json` prints."""

import json
from bisect import bisect_left, bisect_right
from dataclasses import dataclass, field
from functools import cached_property
from typing import Any

from cueplayer_tools.line_protocol import Refused, thousandths_of
from cueplayer_tools.program import run

LONGEST_NAME = 200


@dataclass(frozen=True)
class Rate:
    """A fade's time and the delay before it, in milliseconds."""

    time: int = 0
    delay: int = 0

    @property
    def whole(self) -> int:
        return self.time + self.delay


@dataclass(frozen=True)
class Cue:
    """A cue's name, the rates of what rises and what falls, and when the next cue follows."""

    name: str = ""
    rise: Rate = Rate()
    fall: Rate = Rate()
    follow: int | None = None

    @property
    def fade(self) -> int:
        """When the last channel has arrived, in milliseconds from the move."""
        return max(self.rise.whole, self.fall.whole)


@dataclass(frozen=True)
class Record:
    """A submaster's or group's name."""

    name: str = ""


@dataclass
class Show:
    """A show: cues by thousandths of their number, and the channel of each patched dimmer."""

    cues: dict[int, Cue] = field(default_factory=dict)
    subs: dict[int, Record] = field(default_factory=dict)
    groups: dict[int, Record] = field(default_factory=dict)
    patch: dict[int, int] = field(default_factory=dict)
    # The level byte of a dimmer whose channel is at full.
    full: dict[int, int] = field(default_factory=dict)

    @cached_property
    def order(self) -> list[int]:
        """The cue numbers, ascending."""
        return sorted(self.cues)

    def next_cue(self, cue: int | None) -> int | None:
        """The cue that `go` comes to from this one, or from none."""
        at = bisect_right(self.order, cue or 0)
        return self.order[at] if at < len(self.order) else None

    def previous_cue(self, cue: int | None) -> int | None:
        """The cue that `back` comes to."""
        at = bisect_left(self.order, cue or 0)
        return self.order[at - 1] if at > 0 else None

    def universes(self, base: int) -> list[int]:
        """The numbers on the wire of the universes with a patched dimmer."""
        return sorted({slot_of(dimmer, base)[0] for dimmer in self.patch})

    def slots_of(self, channel: int, base: int) -> list[tuple[int, int]]:
        """The slots that a channel runs, as universe and slot."""
        dimmers = sorted(dimmer for dimmer, runs in self.patch.items() if runs == channel)
        return [slot_of(dimmer, base) for dimmer in dimmers]


def slot_of(dimmer: int, base: int) -> tuple[int, int]:
    """The universe on the wire and the slot of a dimmer."""
    return base + (dimmer - 1) // 512, (dimmer - 1) % 512 + 1


def name_in(label: str) -> str:
    """A label as a name: on one line, printable, and cut. Its characters stand for its bytes."""
    text = label.encode("latin-1")
    try:
        decoded = text.decode("utf-8")
    except UnicodeDecodeError:
        decoded = label
    shown = "".join(letter if letter.isprintable() else " " for letter in decoded)
    return " ".join(shown.split())[:LONGEST_NAME]


def _milliseconds(seconds: float) -> int:
    return round(seconds * 1000)


def _cue(given: dict[str, Any]) -> Cue:
    rise, fall = (
        Rate(_milliseconds(given[name]), _milliseconds(given[f"{name}_delay"]))
        for name in ("up", "down")
    )
    follow = None if given["follow"] is None else _milliseconds(given["follow"])
    return Cue(name_in(given["label"]), rise, fall, follow)


def _records(given: list[dict[str, Any]]) -> dict[int, Record]:
    return {each["number"]: Record(name_in(each["label"])) for each in given}


def show_in(text: str) -> Show:
    """The show of a text that `cues --json` printed."""
    given = json.loads(text)
    return Show(
        {thousandths_of(cue["number"]): _cue(cue) for cue in given["cues"]},
        _records(given["submasters"]),
        _records(given["groups"]),
        {each["dimmer"]: each["channel"] for each in given["patch"]},
        {each["dimmer"]: each["level"] for each in given["patch"]},
    )


def read_show(file: str, given: bytes = b"") -> Show:
    """The show in a file, or on standard input by the name `-`; Refused with the program's own
    words where it has a fault."""
    printed = run("cues", "--json", "--", file, given=given)
    if printed.status:
        raise Refused(printed.told.strip() or f"cues ended with status {printed.status}")
    return show_in(printed.printed)
