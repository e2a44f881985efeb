"""What is other than it was: a result beside an earlier one of the same receiver or source."""

from dataclasses import dataclass

from cueplayer_tools.conform.report import Finding, Result
from cueplayer_tools.conform.verdicts import CHOICE, SEEN
from cueplayer_tools.line_protocol import Refused


@dataclass(frozen=True)
class Difference:
    """A case that came to something else than before."""

    rule: str
    case: str
    now: str
    before: str

    def line(self) -> str:
        return f"{self.rule}, {self.case}: {self.now}; before: {self.before}"


def _text(found: Finding) -> str:
    """The verdict, with what was chosen or seen."""
    told = found.verdict in (CHOICE, SEEN)
    return f"{found.verdict}: {found.says}" if told else found.verdict


def baseline_in(results: list[Result], result: Result, file: str) -> Result:
    """The one that a result is held against."""
    of_kind = [each for each in results if each.kind == result.kind]
    fit = [each for each in of_kind if each.peer == result.peer] or of_kind
    if len(fit) != 1:
        raise Refused(f"{file}: {len(fit)} results may be of this {result.kind}; keep one")
    return fit[0]


def differences(result: Result, before: Result) -> tuple[Difference, ...]:
    """The cases of both that came to something else, in their order."""
    known = {(rule.rule, case.case): _text(case) for rule in before.rules for case in rule.cases}
    found = []
    for rule in result.rules:
        for case in rule.cases:
            was, now = known.get((rule.rule, case.case)), _text(case)
            if was not in (None, now):
                found.append(Difference(rule.rule, case.case, now, str(was)))
    return tuple(found)
