"""Tries the edits of a crate: those of different functions together, and the rest alone."""

import tempfile
from collections.abc import Iterator
from typing import NamedTuple

from wrong_bodies.edit import Edit
from wrong_bodies.trial import Trial, asked
from wrong_bodies.verdict import JUDGED, Kind, Verdict, judge

# What a batch cannot show, so that it is halved.
NO_VERDICT = (Kind.UNFIT, Kind.UNCLEAR)


class Tried(NamedTuple):
    """What came of a crate's edits, and what it took."""

    verdicts: dict[Edit, Verdict]
    checks: int
    seconds: float


def batches(edits: list[Edit]) -> list[list[Edit]]:
    """The edits that change only bodies, in batches that change each function at most once."""
    found: list[list[Edit]] = []
    for edit in edits:
        if not edit.bodies:
            continue
        free = (
            batch for batch in found if not any(edit.functions & each.functions for each in batch)
        )
        batch = next(free, None)
        if batch is None:
            found.append([edit])
        else:
            batch.append(edit)
    return found


def is_proved(said: str) -> bool:
    """Whether a check proved all that it was asked for."""
    last = said.rstrip("\n").rpartition("\n")[2]
    counts = dict(word.partition("=")[::2] for word in last.split())
    if not last.startswith(JUDGED):
        return False
    return counts.get("logic") == "proved" or counts.get("only", "") == counts.get("proved")


def try_together(trial: Trial, edits: list[Edit]) -> Iterator[tuple[Edit, Verdict]]:
    """What batches show refused. One that gets no verdict is halved."""
    queue = batches(edits)
    while queue:
        batch = queue.pop()
        said = trial.check(batch, asked(batch))
        verdicts = {edit: judge(edit, said) for edit in batch}
        if len(batch) > 1 and all(it.kind in NO_VERDICT for it in verdicts.values()):
            queue += [batch[: len(batch) // 2], batch[len(batch) // 2 :]]
            continue
        yield from verdicts.items()


def try_alone(trial: Trial, edit: Edit) -> Verdict:
    """The verdict on an edit by itself, and by the whole crate where its function is proved."""
    verdict = judge(edit, trial.check([edit], asked([edit])))
    if edit.bodies and verdict.kind in (Kind.PROVED, Kind.UNCLEAR):
        verdict = judge(edit, trial.check([edit], set()))
    return verdict


def try_edits(crate: str, edits: list[Edit]) -> Tried:
    """Tries the edits of a crate over one folder of kept work."""
    verdicts = {edit: Verdict(Kind.UNFIT, edit.fault) for edit in edits if edit.fault}
    fit = [edit for edit in edits if not edit.fault]
    with tempfile.TemporaryDirectory(prefix="edits-kept-") as kept:
        trial = Trial(crate, kept)
        said = trial.check([], asked(fit))
        if not is_proved(said):
            last = said.rstrip("\n").rpartition("\n")[2]
            why = f"{crate} is not proved without it (is `rt ci` done?): {last}"
            return Tried({edit: Verdict(Kind.UNCLEAR, why) for edit in edits}, 1, trial.seconds)
        for edit, verdict in try_together(trial, fit):
            if verdict.kind is Kind.REFUSED:
                verdicts[edit] = verdict
        for edit in fit:
            if edit not in verdicts:
                verdicts[edit] = try_alone(trial, edit)
        return Tried(verdicts, trial.checks, trial.seconds)
