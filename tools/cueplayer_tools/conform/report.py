"""What a trial came to, for people and as JSON."""

from collections.abc import Iterable
from dataclasses import dataclass, field
from typing import Any

from cueplayer_tools.conform import diagnoses
from cueplayer_tools.conform.diagnoses import DARK, ENDED, IS_DEAF, Diagnosis, slots_text
from cueplayer_tools.conform.verdicts import BROKEN, CHOICE, KEPT, NOT_TRIED, SEEN, Verdict

CLAUSES = "E1.31"
COUNTED = (KEPT, BROKEN, CHOICE, SEEN, NOT_TRIED)
# A rule is what the first of these is that one of its cases is.
ORDER = (BROKEN, CHOICE, KEPT, SEEN, NOT_TRIED)


@dataclass(frozen=True)
class Finding:
    """What one case came to, in words."""

    case: str
    verdict: str
    says: str = ""
    tries: int = 1


@dataclass(frozen=True)
class RuleFound:
    """A rule, and what its cases came to."""

    rule: str
    clause: str
    asks: str
    cases: tuple[Finding, ...]

    @property
    def verdict(self) -> str:
        return min((each.verdict for each in self.cases), key=ORDER.index)

    def says(self) -> str:
        """What there is to say of the cases that made the verdict."""
        told = [each for each in self.cases if each.verdict == self.verdict and each.says]
        if len({each.says for each in told}) == 1:
            return told[0].says
        return "; ".join(f"{each.case}: {each.says}" for each in told)


@dataclass(frozen=True)
class Result:
    """A trial of a peer."""

    kind: str
    peer: str
    version: str
    date: str
    by: str
    rules: tuple[RuleFound, ...] = field(default=())
    diagnoses: tuple[Diagnosis, ...] = field(default=())

    @property
    def title(self) -> str:
        """The peer, with its version where that is known."""
        return self.peer if self.version == "unknown" else f"{self.peer} {self.version}"

    @property
    def is_broken(self) -> bool:
        """Whether a rule is, or the receiver as a whole."""
        return any(each.verdict == BROKEN for each in self.rules) or any(
            each.what in (ENDED, IS_DEAF) for each in self.diagnoses
        )

    @property
    def is_tried(self) -> bool:
        return any(each.verdict != NOT_TRIED for each in self.rules) and not any(
            each.what == DARK for each in self.diagnoses
        )

    def count_text(self) -> str:
        """How many rules there are, and how many came to what."""
        verdicts = [each.verdict for each in self.rules]
        counts = ((verdicts.count(verdict), verdict) for verdict in COUNTED)
        named = (f"{count} {_plural(verdict, count)}" for count, verdict in counts if count)
        rules = f"{len(verdicts)} rule" + ("s" if len(verdicts) != 1 else "")
        return f"{rules}: {', '.join(named)}"


def _plural(verdict: str, count: int) -> str:
    return verdict + ("s" if verdict == CHOICE and count > 1 else "")


def finding_of(verdict: Verdict) -> Finding:
    """The words of a verdict."""
    says = verdict.choice
    if verdict.verdict == BROKEN and (verdict.expected or verdict.seen):
        right, seen = slots_text(verdict.expected), slots_text(verdict.seen)
        says = f"{verdict.about}: {seen}; right is {right}"
    elif verdict.verdict in (BROKEN, NOT_TRIED):
        says = verdict.about
    elif verdict.about:
        says = f"{verdict.choice} ({slots_text(verdict.seen)})"
    return Finding(verdict.case.name, verdict.verdict, says, verdict.tries)


def rules_found(verdicts: Iterable[Verdict]) -> tuple[RuleFound, ...]:
    """The verdicts by rule, in their order."""
    found: dict[str, list[Verdict]] = {}
    for verdict in verdicts:
        found.setdefault(verdict.rule.name, []).append(verdict)
    return tuple(
        RuleFound(name, each[0].rule.clause, each[0].rule.asks, tuple(map(finding_of, each)))
        for name, each in found.items()
    )


def as_json(result: Result) -> dict[str, object]:
    """A result as an object of JSON."""
    return {
        "kind": result.kind,
        "peer": result.peer,
        "version": result.version,
        "date": result.date,
        "by": result.by,
        "rules": [
            {
                "rule": each.rule,
                "clause": each.clause,
                "asks": each.asks,
                "verdict": each.verdict,
                "cases": [
                    {
                        "case": case.case,
                        "verdict": case.verdict,
                        "says": case.says,
                        "tries": case.tries,
                    }
                    for case in each.cases
                ],
            }
            for each in result.rules
        ],
        "diagnoses": [each.as_json() for each in result.diagnoses],
    }


def from_json(said: dict[str, Any]) -> Result:
    """The result that `as_json` made an object of."""
    rules = tuple(
        RuleFound(
            rule["rule"],
            rule["clause"],
            rule["asks"],
            tuple(Finding(*(case[key] for key in ("case", "verdict", "says", "tries")))
                  for case in rule["cases"]),
        )
        for rule in said["rules"]
    )
    told = tuple(map(diagnoses.from_json, said.get("diagnoses", ())))
    return Result(
        said["kind"], said["peer"], said["version"], said["date"], said["by"], rules, told
    )  # fmt: skip


def table(result: Result) -> str:
    """A line for each rule, and how many came to what."""
    widest = max(len("rule"), *(len(each.rule) for each in result.rules))
    clause = max(len(CLAUSES), *(len(each.clause) for each in result.rules))
    lines = [f"{result.kind}: {result.title}, {result.date}, by {result.by}", ""]
    lines += [f" {'rule':{widest}}  {CLAUSES:{clause}}  result"]
    for each in result.rules:
        says = each.says()
        told = f"{each.verdict}: {says}" if says else each.verdict
        lines.append(f" {each.rule:{widest}}  {each.clause:{clause}}  {told}")
    remarks = [line for each in result.diagnoses for line in each.lines()]
    return "\n".join([*lines, "", *remarks, result.count_text()])
