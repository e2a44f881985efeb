"""The times of a cue of an export: parts with times of their own become one cue, whose label says
what they were."""

from cueplayer_tools.convert.exports.records import Cue, Part, Rate
from cueplayer_tools.convert.report import CHANGED, NOT_PLAYED, Report
from cueplayer_tools.line_protocol import time_word
from cueplayer_tools.picture.curves import ranges

# How much of the channels of a part stands in a label.
LONGEST_CHANNELS = 40


def _rate_words(up: Rate | None, down: Rate | None) -> str:
    """The times of a part, as lines say them."""
    rates = [f"{name} {rate_word(rate)}" for name, rate in (("UP", up), ("DOWN", down)) if rate]
    return ", ".join(rates) or "no times"


def rate_word(rate: Rate) -> str:
    return time_word(rate.time) + (f" {time_word(rate.delay)}" if rate.delay else "")


Times = tuple[Rate | None, Rate | None]


def _rates(up: Rate | None, down: Rate | None) -> tuple[Rate, Rate]:
    """How channels rise and fall by these lines."""
    return up or down or Rate(0), down or up or Rate(0)


def _own(part: Part, general: Part) -> Times:
    return part.up or general.up, part.down or general.down


def times_of(cue: Cue, report: Report) -> Times:
    """The times of a cue: those of its parts where they agree, else those of the last lines."""
    parts = cue.parts
    last: Times = (None, None)
    for part in parts:
        last = part.up or last[0], part.down or last[1]
    if len(parts) == 1:
        return last
    lit = [part for part in parts if part.channels] or parts
    own = [_own(part, parts[0]) for part in lit]
    if all(_rates(*each) == _rates(*own[0]) for each in own):
        if _rates(*own[0]) != _rates(*last):
            told = f"{cue.name}: the times of parts without channels are left out"
            report.add(CHANGED, cue.number, told)
        return own[0]
    for part, each in zip(lit, own):
        if _rates(*each) != _rates(*last):
            _note_part(cue, part, each, last, report)
    return last


def _note_part(cue: Cue, part: Part, own: Times, last: Times, report: Report) -> None:
    """Tells of the times of a part that are not played, and puts them into the cue's label."""
    name = f"part {part.name}" if part.name else "its first lines"
    numbers = ranges(sorted(part.channels))
    channels = f"channel{'s' if len(part.channels) > 1 else ''} {numbers}"
    text = (
        f"{cue.name}: {_rate_words(*own)} of {name}"
        f" ({channels if part.channels else 'no channel'}): all channels take {_rate_words(*last)},"
        " and the label says so"
    )
    report.add(NOT_PLAYED, part.numbers or cue.number, text)
    if len(numbers) > LONGEST_CHANNELS:
        numbers = f"{numbers[:LONGEST_CHANNELS]}.."
    cue.notes.append(f"[{name.removeprefix('its ')} ({numbers}): {_rate_words(*own)}]")
