"""What `tools/watch` shows of universes: lines of text, made of what is known."""

from collections import Counter
from dataclasses import dataclass, field

from cueplayer_tools.watch.rates import Rates
from cueplayer_tools.watch.state import Universe, Watched
from cueplayer_tools.watch_lines import SLOTS

SOURCES = 4
# Characters of a source's name that are shown.
NAMED = 24
_HEAD = f"  {'source':{NAMED}} {'prio':>4} {'per s':>5} {'lost':>6}  {'from':15}  CID"
_KEYS = "n p, 3u: universe   up down: scroll   17m: mark a slot   f: freeze   q: quit"
# Widths of a row's number and of a slot.
_MARGIN, _CELL = 4, 4
_ROWS_OF = (64, 32, 20, 16, 10, 8)


@dataclass
class View:
    """What is looked at: a universe, from some row of its slots on, and which slots are marked."""

    numbers: list[int]
    at: int = 0
    top: int = 0
    typed: str = ""
    is_frozen: bool = False
    marks: set[tuple[int, int]] = field(default_factory=set)

    @property
    def number(self) -> int:
        return self.numbers[self.at]

    def key(self, key: str) -> bool:
        """Takes a key; whether the screen goes on."""
        if key == "q":
            return False
        if key in ("n", "p"):
            self.at = (self.at + (1 if key == "n" else -1)) % len(self.numbers)
            self.top = 0
        elif key == "f":
            self.is_frozen = not self.is_frozen
        elif key in ("down", "up"):
            self.top = max(self.top + (1 if key == "down" else -1), 0)
        elif key == "m":
            self._mark()
        elif key == "u":
            self._turn_to(int(self.typed or 0))
        self.typed = (self.typed + key)[-5:] if key.isdecimal() else ""
        return True

    def _turn_to(self, number: int) -> None:
        if number in self.numbers:
            self.at, self.top = self.numbers.index(number), 0

    def _mark(self) -> None:
        slot = int(self.typed or 0)
        if 1 <= slot <= SLOTS:
            self.marks ^= {(self.number, slot)}


@dataclass
class Cell:
    """A slot as it is shown: its text, and whether it is marked or has flashed."""

    text: str
    is_marked: bool
    has_flashed: bool


@dataclass
class Picture:
    """The lines of a screen: those of text, and behind them rows of slots, each with its
    number."""

    lines: list[str]
    rows: list[tuple[int, list[Cell]]]
    foot: str


def per_row(width: int) -> int:
    """How many slots stand in a row of so many columns."""
    return next((n for n in _ROWS_OF if _MARGIN + n * _CELL <= width), _ROWS_OF[-1])


def counts_text(ignored: Counter[str]) -> str:
    """What was ignored, and how often."""
    return ", ".join(f"{reason} {count}" for reason, count in sorted(ignored.items())) or "nothing"


def source_lines(universe: Universe, rates: Rates) -> list[str]:
    """A line for each source; `>` stands before who leads."""
    lines = []
    for cid, source in universe.sources.items():
        rate, host = rates.of(universe.number, cid)
        first = ">" if universe.leads(cid) else " "
        numbers = f"{source.priority:4} {rate:5} {source.lost:6}"
        lines.append(f"{first} {source.name[:NAMED]:{NAMED}} {numbers}  {host:15}  {cid}")
    return lines


def time_text(milliseconds: int) -> str:
    """A time in seconds, minutes or hours, rounded down."""
    seconds = milliseconds // 1000
    if seconds < 60:
        return f"{seconds} s"
    return f"{seconds // 60} min" if seconds < 3600 else f"{seconds // 3600} h"


def left_lines(universe: Universe, rates: Rates, moment: int) -> list[str]:
    """A line for each source that has left, the last one first."""
    lines = []
    for cid, left in reversed(universe.left.items()):
        _, host = rates.of(universe.number, cid)
        since = f"{left.word} {time_text(moment - left.moment)} ago"
        lines.append(f"- {left.name[:NAMED]:{NAMED}} {left.priority:4} {since:13} {host:15}  {cid}")
    return lines


def silent_text(watched: Watched) -> str:
    """The universes on which nobody sends."""
    silent = [str(u.number) for u in watched.universes.values() if not u.sources]
    return f"   nobody on {' '.join(silent)}" if silent else ""


def ignored_lines(watched: Watched, universe: Universe, dropped: int) -> list[str]:
    """What did not count, of the universe and of none, and what this machine had no room for."""
    return [
        f"ignored here: {counts_text(universe.ignored)}",
        f"of no universe: {counts_text(watched.ignored)}; dropped by this machine: {dropped}",
    ]


def summary(watched: Watched, rates: Rates, dropped: int) -> list[str]:
    """All universes, for a reader without a screen."""
    lines = []
    for universe in watched.universes.values():
        lines += [f"universe {universe.number}", _HEAD, *source_lines(universe, rates)]
        lines += left_lines(universe, rates, watched.moment)
        lines += [f"ignored here: {counts_text(universe.ignored)}", universe.slots_line(), ""]
    return [*lines, ignored_lines(watched, universe, dropped)[1]]


def picture(
    watched: Watched, rates: Rates, dropped: int, view: View, size: tuple[int, int]
) -> Picture:
    """The universe that is looked at, in so many columns and lines."""
    width, height = size
    universe = watched.universes[view.number]
    frozen = "   FROZEN" if view.is_frozen else ""
    head = f"universe {view.number} ({view.at + 1} of {len(view.numbers)}){frozen}"
    head += f"   {watched.moment / 1000:.1f} s   {rates.total_told} datagrams/s"
    sources = source_lines(universe, rates) + left_lines(universe, rates, watched.moment)
    sources += [""] * (SOURCES - len(sources))
    lines = [head + silent_text(watched), _HEAD, *sources[:SOURCES]]
    lines += ignored_lines(watched, universe, dropped)
    lines.append(f"marked: {marked_text(universe, view)}")
    room = max(height - len(lines) - 1, 1)
    rows = slot_rows(watched, universe, view, per_row(width))
    view.top = min(view.top, max(len(rows) - room, 0))
    typed = f"{view.typed}_   " if view.typed else ""
    shown = [line[:width] for line in lines[: max(height - 2, 1)]]
    return Picture(shown, rows[view.top : view.top + room], (typed + _KEYS)[:width])


def marked_text(universe: Universe, view: View) -> str:
    """The marked slots of a universe and their levels."""
    slots = sorted(slot for number, slot in view.marks if number == universe.number)
    return "  ".join(f"{slot}={universe.slots[slot - 1]}" for slot in slots) or "none"


def slot_rows(
    watched: Watched, universe: Universe, view: View, count: int
) -> list[tuple[int, list[Cell]]]:
    """All slots in rows of so many."""

    def cell(slot: int) -> Cell:
        level = universe.slots[slot - 1]
        text = str(level) if level else "."
        is_marked = (universe.number, slot) in view.marks
        return Cell(text, is_marked, universe.has_flashed(slot, watched.moment))

    firsts = range(1, SLOTS + 1, count)
    return [
        (first, [cell(slot) for slot in range(first, min(first + count, SLOTS + 1))])
        for first in firsts
    ]
