"""What a check says of an edit.

An edit is refused where a function that it changes has a goal that is not proved, or a written
answer that fits no more. An answer fails also where it names what the edit took away; that shows
nothing of the contract, and neither does a function whose callee is not proved.
"""

import re
from collections.abc import Set
from enum import Enum
from typing import NamedTuple

from wrong_bodies.edit import Edit

# The last line of a check that came to its end.
JUDGED = ("only=", "logic=")
# What an answer says that names something which is not there.
GONE = re.compile(r"has no field|is not in scope|has no `|was not admitted")
AT_PROOF = re.compile(r"^(?:\./)?proofs/(\S+)/[^/]+:\d+:\d+: error: (.*)")
FUNCTION = re.compile(r"^fn (\S+): (.*)")
# What is not proved, and is no function that waits for another one.
WAITS = r"(?!fn .*: no proof: it (?:calls|waits))"
OTHER = re.compile(rf"(?m)^{WAITS}\w+ (\S+): (not proved|no proof).*")
PROVED = ("proved", "assumed")


class Kind(Enum):
    """What came of an edit. All but the first are a fault of the edit, or of a contract."""

    REFUSED = "refused"
    PROVED = "proved"
    ONLY_A_NAME = "only a name"
    UNFIT = "does not apply or compile"
    UNCLEAR = "no verdict"


class Verdict(NamedTuple):
    """What came of an edit, and of whom: the function and the goal, or the reason."""

    kind: Kind
    why: str


class Refusal(NamedTuple):
    """A proof file that is refused: the folder of its function, and why."""

    folder: str
    why: str


def names_of(function: str) -> str:
    """The names of a function and of its closures: one of a::T::f is a::fn::T::f::NAME."""
    scope, _, last = function.rpartition("::")
    outer, _, kind = scope.rpartition("::")
    return rf"{function}|{outer}::fn::{kind}::{last}::.*|{scope}::fn::{last}::.*"


def own_lines(said: str, functions: Set[str]) -> list[tuple[str, str]]:
    """Each function among these and its state, or of all functions where none are given."""
    own = re.compile("|".join(sorted(map(names_of, functions))) or ".*")
    found = [match for match in map(FUNCTION.match, said.splitlines()) if match]
    return [(match[1], match[2]) for match in found if own.fullmatch(match[1])]


def goal_of(said: str, function: str, state: str) -> str:
    """The goal of a function that is not proved, as far as the check names it."""
    if goal := re.search(r"did not prove `([^`]+)`", state):
        return goal[1]
    notes = said.partition(f"\nfn {function}: ")[0].rpartition("\nfn ")[2]
    if goal := re.search(r"it is not proved that .*?\(`([^`]+)`\)", notes):
        return goal[1]
    return ""


def refusals(said: str, functions: list[str]) -> list[Refusal]:
    """The errors in the proof files of these functions: that of a::T::f is in proofs/T/f/."""
    folders = {name.partition("::")[2].replace("::", "/") for name in functions}
    found = [match for match in map(AT_PROOF.match, said.splitlines()) if match]
    return [Refusal(match[1], match[2]) for match in found if match[1] in folders]


def judge(edit: Edit, said: str) -> Verdict:
    """The verdict on an edit by the functions that it changes, or by all where it changes more."""
    lines = said.rstrip("\n").split("\n")
    if not lines[-1].startswith(JUDGED):
        error = next((line for line in lines if "error" in line), lines[-1])
        kind = Kind.UNCLEAR if lines[-1].startswith("no verdict") else Kind.UNFIT
        return Verdict(kind, error)
    states = own_lines(said, edit.functions)
    left = [(name, state) for name, state in states if not state.startswith(PROVED)]
    if not states:
        return Verdict(Kind.UNCLEAR, "the check names no function of it")
    wrong = refusals(said, [name for name, _ in left])
    for refusal in wrong:
        if not GONE.search(refusal.why):
            answer = re.match(r"`([^`]+)`", refusal.why)
            function = f"{edit.crate}::{refusal.folder.replace('/', '::')}"
            return Verdict(Kind.REFUSED, f"{function} {answer[1] if answer else ''}".strip())
    if wrong:
        return Verdict(Kind.ONLY_A_NAME, wrong[0].why)
    for name, state in left:
        if goal := goal_of(said, name, state):
            return Verdict(Kind.REFUSED, f"{name} {goal}")
    if left:
        return Verdict(Kind.UNCLEAR, ": ".join(left[0]))
    other = OTHER.search(said)
    return Verdict(Kind.PROVED, f"refused elsewhere: {other[0][:200]}" if other else "")
