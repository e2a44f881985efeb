"""The records of an export: cues, submasters, groups and the patch, and what is left out."""

from collections.abc import Iterator
from dataclasses import dataclass, field

from cueplayer_tools.convert.exports.text import Line
from cueplayer_tools.line_protocol import cue_word, printable

HIGHEST_CHANNEL = 4096


@dataclass(frozen=True, slots=True)
class Choices:
    """What the operator chose."""

    # The page whose cues are taken.
    cue_list: int | None = None
    # Whether a cue keeps what it does not list; None where the export decides.
    is_tracking: bool | None = None
    # The words behind `$` whose lines stand inside a record, and those that open one of their own.
    inside: frozenset[str] = frozenset()
    outside: frozenset[str] = frozenset()


@dataclass(frozen=True, slots=True)
class Rate:
    """A time and a delay, in milliseconds."""

    time: int
    delay: int = 0


@dataclass(slots=True)
class Part:
    """A part of a cue, and what it says of times; the first stands before all PART lines."""

    name: str
    numbers: list[int] = field(default_factory=list)
    up: Rate | None = None
    down: Rate | None = None
    channels: set[int] = field(default_factory=set)


@dataclass(slots=True)
class Record:
    """What a record of any kind has: levels by channels, its label, and its lines."""

    kind: str
    key: int
    number: int
    levels: dict[int, int] = field(default_factory=dict)
    text: str = ""
    comment: str = ""
    # What the label says beside its own words.
    notes: list[str] = field(default_factory=list)
    # Whether a line stands below its head, and which of those may have held light that was not
    # read.
    has_lines: bool = False
    unread: list[int] = field(default_factory=list)
    # The lines that it has once, by their keywords.
    seen: dict[str, int] = field(default_factory=dict)

    @property
    def name(self) -> str:
        return f"{self.kind} {cue_word(self.key)}"

    @property
    def label(self) -> str:
        own = self.text or self.comment
        return " ".join([own] * bool(own) + [note for note in self.notes if note not in own])


@dataclass(slots=True)
class Cue(Record):
    parts: list[Part] = field(default_factory=lambda: [Part("")])
    follow: int | None = None
    # The cue that GO goes to by its LINK, and the line that says so.
    link: tuple[int, int] | None = None


@dataclass(slots=True)
class Patched:
    channel: int
    level: int
    number: int


@dataclass(frozen=True, slots=True)
class Skipped:
    """A record that is left out, with all lines that belong to it."""

    kind: str
    text: str


@dataclass(slots=True)
class Maker:
    """A record of the maker's own: a line that begins with `$`, and those below it."""

    head: Line
    # The record, or the patch, that it stands in.
    inside: Record | None
    place: str
    numbers: list[int]
    # The lines below it that a record may have, by their keywords; levels without one by "".
    taken: dict[str, list[int]] = field(default_factory=dict)

    @property
    def word(self) -> str:
        return printable(self.head.words[0])

    def take(self, line: Line, keyword: str | None) -> None:
        self.numbers.extend(line.numbers)
        if keyword is not None:
            self.taken.setdefault(keyword, []).extend(line.numbers)


@dataclass
class Export:
    """All records of an export. Numbers are kept in thousandths, of groups and submasters too."""

    cues: dict[int, Cue] = field(default_factory=dict)
    subs: dict[int, Record] = field(default_factory=dict)
    groups: dict[int, Record] = field(default_factory=dict)
    patch: dict[int, Patched] = field(default_factory=dict)
    makers: list[Maker] = field(default_factory=list)
    # The lines on which each channel stands that is above those of a show.
    high: dict[int, list[int]] = field(default_factory=dict)
    has_patch: bool = False

    def note_high(self, line: Line, channel: int) -> None:
        if channel > HIGHEST_CHANNEL:
            self.high.setdefault(channel, []).append(line.number)

    def records(self) -> Iterator[Record]:
        """The cues, the submasters and the groups."""
        yield from self.cues.values()
        yield from self.subs.values()
        yield from self.groups.values()
