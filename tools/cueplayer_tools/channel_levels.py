"""The level of each channel in each cue, as the program shows it: by a copy of the show in which
each channel has a dimmer of its own, at full."""

import re
from pathlib import Path

from cueplayer_tools.cue_list import Show, read_show, slot_of
from cueplayer_tools.line_protocol import Refused
from cueplayer_tools.looks import looks_of, slots_in
from cueplayer_tools.record import words_of

HIGHEST_CHANNEL = 4096
_NUMBER = re.compile(r"(?<![^\s\x1a,;/<=>@])\d{1,9}(?![^\s\x1a,;/<=>@])", re.ASCII)
_A_LINE = 100

Levels = dict[int, int]


def data_lines(content: bytes) -> list[str]:
    """The lines of a show up to its end, a character for each byte."""
    lines = []
    for line in content.decode("latin-1").split("\n"):
        if words_of(line)[:1] and words_of(line)[0].upper() == "ENDDATA":
            break
        lines.append(line)
    return lines


def _channels(lines: list[str]) -> list[int]:
    """Each number that may be a channel's."""
    numbers = {int(word) for line in lines for word in _NUMBER.findall(line)}
    return sorted(number for number in numbers if 1 <= number <= HIGHEST_CHANNEL)


def _copy(lines: list[str], channels: list[int]) -> bytes:
    pairs = [f"{channel}<{dimmer}@FL" for dimmer, channel in enumerate(channels, 1)]
    patch = [
        "PATCH 1 " + " ".join(pairs[first : first + _A_LINE])
        for first in range(0, len(pairs), _A_LINE)
    ]
    return "\n".join([*lines, "CLEAR PATCH", *patch, ""]).encode("latin-1")


def levels_of(content: bytes, show: Show, folder: Path) -> dict[int, Levels]:
    """The channels of each cue that are not at 0; `folder` is for a file that is made here."""
    lines = [line.partition("!")[0] for line in data_lines(content)]
    channels = _channels(lines)
    file = folder / "channels.asc"
    file.write_bytes(_copy(lines, channels))
    copied = read_show(str(file))
    if copied.order != show.order or copied.patch != dict(enumerate(channels, 1)):
        raise Refused("the channels of this show cannot be told, which is a fault of this tool")
    found: dict[int, Levels] = {}
    for cue, look in looks_of(str(file), copied).items():
        slots = {universe: slots_in(text) for universe, text in look.items()}
        found[cue] = {}
        for dimmer, channel in copied.patch.items():
            universe, slot = slot_of(dimmer, 1)
            if level := slots[universe].get(slot, 0):
                found[cue][channel] = level
    return found
