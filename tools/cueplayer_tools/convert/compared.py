"""How a converted show compares with what the program makes of the export as it stands."""

from concurrent.futures import ThreadPoolExecutor

from cueplayer_tools.convert.report import cue_names
from cueplayer_tools.cue_list import Show, read_show
from cueplayer_tools.line_protocol import Refused, count_of
from cueplayer_tools.looks import looks_of


def differences(before: str, after: str, is_lossless: bool) -> list[str]:
    """How the cues of two shows differ."""
    try:
        old = read_show(before)
    except Refused as refusal:
        told = str(refusal).splitlines()[0]
        return [f"not compared: the program refuses the file as it stands: {told}"]
    if not old.cues:
        return ["not compared: the program finds no cue in the file as it stands"]
    new = read_show(after)
    both = [cue for cue in old.order if cue in new.cues]
    lines: list[str] = []
    for numbers, where in (
        ([cue for cue in new.order if cue not in old.cues], "only in the converted show"),
        ([cue for cue in old.order if cue not in new.cues], "only in the file as it stands"),
    ):
        if numbers:
            lines.append(f"compared: {where}: {cue_names(numbers)}")
    others = _other_looks(before, old, after, new, both)
    if others:
        return lines + others
    cues = count_of(len(both), "cue")
    same = f"compared: {cues}, with the slots and times of the file as it stands"
    return [*lines, same if is_lossless else f"{same}, where what is lost above is missing too"]


def _other_looks(before: str, old: Show, after: str, new: Show, both: list[int]) -> list[str]:
    """The cues that light other slots, or that go in other times."""
    with ThreadPoolExecutor() as pool:
        looks, others = pool.map(looks_of, (before, after), (old, new))
    empty = "slots"
    universes = set(old.universes(1)) | set(new.universes(1))
    lit = [
        cue
        for cue in both
        if any(looks[cue].get(at, empty) != others[cue].get(at, empty) for at in universes)
    ]
    times = [cue for cue in both if _times(old, cue) != _times(new, cue)]
    return [
        f"compared: {what} than the program makes of the file as it stands: {cue_names(numbers)}"
        for numbers, what in ((lit, "other slots"), (times, "other times"))
        if numbers
    ]


def _times(show: Show, cue: int) -> tuple[object, ...]:
    found = show.cues[cue]
    return found.rise, found.fall, found.follow
