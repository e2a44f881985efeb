"""Whether the cues of an export list whole looks or changes alone, by the levels that they list."""

from dataclasses import dataclass

from cueplayer_tools.convert.exports.records import Cue
from cueplayer_tools.convert.report import CHANGED, Report, cue_names
from cueplayer_tools.line_protocol import count_of

Levels = dict[int, int]


@dataclass(frozen=True)
class Signs:
    """What speaks for changes alone, and what for whole looks."""

    # Levels of 0 for a channel that is lit: to list them has a meaning only among changes.
    outs: int
    # Levels above 0 that a channel has already: only whole looks need them.
    repeats: int

    def words(self) -> str:
        if not (self.outs or self.repeats):
            return "no level speaks for it or against it"
        outs = f"{count_of(self.outs, 'level')} of 0 for a lit channel"
        repeats = f"{self.repeats or 'none'} that repeat{'' if self.repeats > 1 else 's'}"
        return f"{outs} against {repeats} the level before"


def tracking_looks(cues: list[Cue]) -> list[Levels]:
    """The looks of the cues where each keeps the levels of the one before that it does not list."""
    before: Levels = {}
    looks = []
    for cue in cues:
        before = before | cue.levels
        looks.append(before)
    return looks


def signs_of(cues: list[Cue], looks: list[Levels]) -> Signs:
    outs = repeats = 0
    dark: Levels = {}
    for cue, before in zip(cues, [dark, *looks]):
        for channel, byte in cue.levels.items():
            if before.get(channel, 0):
                outs += not byte
                repeats += byte == before[channel]
    return Signs(outs, repeats)


def _light_of(levels: Levels) -> Levels:
    return {channel: byte for channel, byte in levels.items() if byte}


def track(cues: list[Cue], chosen: bool | None, report: Report) -> tuple[bool, str]:
    """Gives each cue what it keeps, where that was chosen, or where the levels speak for it.
    Whether it did; and what speaks for it and against it, where that is in doubt."""
    looks = tracking_looks(cues)
    signs = signs_of(cues, looks)
    fuller = [cue for cue, look in zip(cues, looks) if _light_of(look) != _light_of(cue.levels)]
    is_guessed = chosen is None and bool(fuller) and signs.outs > signs.repeats
    if not (chosen or is_guessed):
        return False, signs.words() if chosen is None and fuller else ""
    by = f"guessed by {signs.words()}; --no-tracking refuses" if is_guessed else "--tracking"
    lit = f"; more light in {cue_names([cue.key for cue in fuller])}" if fuller else ""
    report.add(CHANGED, (), f"each cue keeps the channels that it does not list ({by}){lit}")
    for cue, look in zip(cues, looks):
        cue.levels = look
    return True, ""
