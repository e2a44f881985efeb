"""The slots of each cue of a show, at full and at once, as the program shows them."""

from cueplayer_tools.cue_list import Show
from cueplayer_tools.line_protocol import Refused, cue_word
from cueplayer_tools.program import run
from cueplayer_tools.rehearsal import MOST_RECEIVERS, replies_of

# The slots of a cue, by universe, as the program prints them: `slots 1:255 2:30`.
Look = dict[int, str]
# Ticks so far apart each send a packet of each universe.
APART = 1_000
_CONSOLE = "console 1 100 00000000-0000-4000-8000-0000000000c0"


def _script(cues: list[int], universes: list[int]) -> str:
    lines = [_CONSOLE, *(f"receiver {universe}" for universe in universes)]
    for place, cue in enumerate(cues):
        moment = APART * place
        lines += [f"{moment} do 0 goto {cue_word(cue)} in 0", f"{moment} tick 0"]
        for receiver, universe in enumerate(universes):
            lines += [f"{moment} deliver {receiver} 0 {universe} {place}"]
            lines += [f"{moment} slots {receiver}"]
    return "\n".join(lines) + "\n"


def _show(file: str, cues: list[int], universes: list[int], looks: dict[int, Look]) -> None:
    printed = replies_of(file, _script(cues, universes))
    replies = (line.partition(" ")[2] for line in printed.splitlines())
    shown = (reply for reply in replies if reply.startswith("slots"))
    for cue in cues:
        for universe in universes:
            looks[cue][universe] = next(shown)


def _still_look(file: str, cue: int) -> Look:
    """The slots of one cue, which cannot be held still in a rehearsal."""
    ended = run("slots", "--", file, cue_word(cue))
    if ended.status:
        raise Refused(ended.told.strip())
    lines = ended.printed.splitlines()
    return {int(head.split()[1]): slots for head, slots in zip(lines[::2], lines[1::2])}


def looks_of(file: str, show: Show) -> dict[int, Look]:
    """The looks of all cues of the show in a file, by thousandths of their numbers."""
    universes = show.universes(1)
    looks: dict[int, Look] = {cue: {} for cue in show.order}
    if not universes:
        return looks
    still = [cue for cue in show.order if show.cues[cue].follow != 0]
    for first in range(0, len(universes), MOST_RECEIVERS):
        if still:
            _show(file, still, universes[first : first + MOST_RECEIVERS], looks)
    for cue in show.order:
        if show.cues[cue].follow == 0:
            looks[cue] = _still_look(file, cue)
    return looks


def slots_in(text: str) -> dict[int, int]:
    """The slots of a slots line that are not 0."""
    pairs = (pair.split(":") for pair in text.split()[1:])
    return {int(slot): int(level) for slot, level in pairs}
