"""The patch in few words: which slots each channel runs."""

from cueplayer_tools.cue_list import Show, slot_of
from cueplayer_tools.sheet.changes import percent

# A channel, and its slots: universe, slot, and the level while the channel is at full.
Wired = tuple[int, list[tuple[int, int, int]]]


def _wired(show: Show) -> list[Wired]:
    slots: dict[int, list[tuple[int, int, int]]] = {}
    for dimmer, channel in sorted(show.patch.items()):
        slots.setdefault(channel, []).append((*slot_of(dimmer, 1), show.full[dimmer]))
    return sorted(slots.items())


def _goes_on(run: list[Wired], each: Wired) -> bool:
    """Whether a channel is the next of a run of channels and slots one by one."""
    channel, slots = run[-1]
    if len(slots) != 1 or len(each[1]) != 1:
        return False
    universe, slot, level = slots[0]
    return each == (channel + 1, [(universe, slot + 1, level)])


def _at(level: int) -> str:
    return "" if level == 255 else f" at {percent(level)}"


def _words(run: list[Wired]) -> str:
    channel, slots = run[0]
    if len(run) == 1:
        told = ", ".join(f"{universe}/{slot}{_at(level)}" for universe, slot, level in slots)
        return f"{channel}: {told}"
    universe, slot, level = slots[0]
    return f"{channel}-{run[-1][0]}: {universe}/{slot}-{slot + len(run) - 1}{_at(level)}"


def patch_words(show: Show) -> list[str]:
    """Each channel with its slots; channels and slots that go on one by one stand together."""
    runs: list[list[Wired]] = []
    for each in _wired(show):
        if runs and _goes_on(runs[-1], each):
            runs[-1].append(each)
        else:
            runs.append([each])
    return [_words(run) for run in runs]
