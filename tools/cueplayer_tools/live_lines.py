"""What `live` prints, read strictly, a line at a time."""

import re
from dataclasses import dataclass, field

from cueplayer_tools.line_protocol import cue_word, thousandths_of

_CUE = r"(\d{1,4}(?:\.\d{1,3})?)"
_ANSWER = re.compile(r"(\d{1,15}) (?:ok|refused (\w+))", re.ASCII)
_MOVE = re.compile(rf"(\d{{1,15}}) cue {_CUE}", re.ASCII)
_PLACE = re.compile(
    rf"(\d{{1,15}}) where(?: cue {_CUE})?(?: next {_CUE})? master (\d{{1,3}})"
    r"((?: sub \d{1,5}:\d{1,3})*)((?: group \d{1,5}:\d{1,3})*)",
    re.ASCII,
)
_TICK = re.compile(
    r"(\d{1,15}) (?:live|ending \d{1,3})((?: \d{1,5}:(?:[sx]\d{1,3}|-))+)", re.ASCII
)
_LOST = re.compile(r" (\d{1,5}):x", re.ASCII)
_DROPPED = re.compile(r"(\d{1,15}) replies dropped", re.ASCII)
FULL = 255


@dataclass(frozen=True)
class Answer:
    """The answer to a command: None is `ok`, else the name of the refusal. Moments, here and
    below, are in milliseconds since the start of the night."""

    moment: int
    refusal: str | None


@dataclass(frozen=True)
class Move:
    """A move to a cue, given in thousandths, with the moment of the move itself."""

    moment: int
    cue: int


@dataclass(frozen=True)
class Place:
    """The answer to `where`: the current cue, the one that GO comes to, the grand master, and each
    submaster and group above 0, by its words."""

    moment: int
    cue: int | None
    following: int | None
    grand: int
    masters: dict[str, int] = field(default_factory=dict)


@dataclass(frozen=True)
class LostPackets:
    """A tick at which the packets of these universes could not be sent."""

    moment: int
    universes: tuple[int, ...]


@dataclass(frozen=True)
class DroppedReplies:
    """So many lines are missing here."""

    count: int


LiveLine = Answer | Move | Place | LostPackets | DroppedReplies


def read_live_line(line: str) -> LiveLine:
    """The meaning of a line; ValueError where it has none."""
    if found := _ANSWER.fullmatch(line):
        return Answer(int(found[1]), found[2])
    if found := _MOVE.fullmatch(line):
        return Move(int(found[1]), _cue(found[2]))
    if found := _PLACE.fullmatch(line):
        return _place(*found.groups())
    if found := _TICK.fullmatch(line):
        return LostPackets(int(found[1]), tuple(map(int, _LOST.findall(found[2]))))
    if found := _DROPPED.fullmatch(line):
        return DroppedReplies(int(found[1]))
    raise ValueError("no line of live")


def _cue(word: str) -> int:
    cue = thousandths_of(word)
    if cue_word(cue) != word:
        raise ValueError("no cue number as live spells it")
    return cue


def _place(
    moment: str, cue: str | None, following: str | None, grand: str, subs: str, groups: str
) -> Place:
    return Place(
        int(moment),
        None if cue is None else _cue(cue),
        None if following is None else _cue(following),
        _level(grand),
        _masters("sub", subs) | _masters("group", groups),
    )


def _level(word: str) -> int:
    if int(word) > FULL:
        raise ValueError("no level byte")
    return int(word)


def _masters(kind: str, text: str) -> dict[str, int]:
    """The masters of a kind in ` sub 3:128 sub 7:255`, which are above 0 and ascending."""
    pairs = [pair.split(":") for pair in text.split()[1::2]]
    numbers = [int(number) for number, _ in pairs]
    levels = [_level(level) for _, level in pairs]
    if numbers != sorted(set(numbers)) or 0 in levels:
        raise ValueError("no masters as live tells them")
    return {f"{kind} {number}": level for number, level in zip(numbers, levels)}
