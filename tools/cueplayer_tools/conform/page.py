"""docs/CONFORMANCE.md, made of the results of trials."""

from collections.abc import Iterator
from pathlib import Path

from cueplayer_tools.conform.report import Result, RuleFound
from cueplayer_tools.conform.verdicts import BROKEN, CHOICE, KEPT, NOT_TRIED, SEEN
from cueplayer_tools.line_protocol import Refused

KINDS = ("receiver", "source")
# The page without its results, which stand in place of comments.
FRAME = Path(__file__).with_name("page.md")


def _cell(found: RuleFound | None) -> str:
    """What one peer makes of a rule."""
    if found is None:
        return ""
    if found.verdict == BROKEN:
        return "**broken**"
    if found.verdict in (KEPT, NOT_TRIED):
        return found.verdict
    if found.verdict == SEEN:
        return found.says()
    chosen = {each.says for each in found.cases if each.verdict == CHOICE}
    return f"*{chosen.pop()}*" if len(chosen) == 1 else "*choices*"


def _table(results: list[Result]) -> Iterator[str]:
    """A row for each rule, and a column for each peer."""
    yield " | ".join(["| Rule", "Clause", *(each.title for each in results)]) + " |"
    yield "|" + "---|" * (2 + len(results))
    found = [{each.rule: each for each in result.rules} for result in results]
    for rule in results[0].rules:
        cells = (_cell(each.get(rule.rule)) for each in found)
        yield " | ".join([f"| {rule.asks}", rule.clause, *cells]) + " |"


def _by_text(rule: RuleFound, verdict: str) -> dict[str, str]:
    """The cases of a rule that came to a verdict, by what there is to say of them."""
    found: dict[str, list[str]] = {}
    for case in rule.cases:
        if case.verdict == verdict:
            found.setdefault(case.says, []).append(case.case)
    return {says: ", ".join(cases) for says, cases in found.items()}


def _remarks(result: Result) -> Iterator[str]:
    """What the table has no room for: how the first case broke a rule, what was not tried, and
    choices that differ."""
    missing: dict[str, list[str]] = {}
    for rule in result.rules:
        if wrong := list(_by_text(rule, BROKEN)):
            more = f" ({len(wrong) - 1} more)" if wrong[1:] else ""
            yield f"- **{rule.rule}**: {wrong[0]}{more}."
        for says in _by_text(rule, NOT_TRIED):
            missing.setdefault(says, []).append(rule.rule)
        chosen = _by_text(rule, CHOICE)
        if len(chosen) > 1:
            told = (f"{cases}: {says}" for says, cases in chosen.items())
            yield f"- {rule.rule}: {'; '.join(told)}."
    for says, rules in missing.items():
        yield f"- not tried: {', '.join(rules)}: {says}."


def _results(results: list[Result]) -> str:
    dates = sorted({result.date for result in results})
    tried = f"Tried on {', '.join(dates)}, with {results[0].by}."
    return "\n".join([tried, "", *_table(results)])


def _all_remarks(kind: str, results: list[Result]) -> str:
    lines = []
    for result in results:
        if remarks := list(_remarks(result)):
            head = f"### {result.title} as a {kind}"
            lines += [head, "", result.count_text() + ".", "", *remarks, ""]
    return "\n".join(lines).rstrip("\n")


def page(results: list[Result]) -> str:
    """The page of these results; Refused where there are none of receivers, or none of sources."""
    text = FRAME.read_text()
    for kind in KINDS:
        chosen = [result for result in results if result.kind == kind]
        if not chosen:
            raise Refused(f"no results of a {kind}")
        text = text.replace(f"<!-- {kind} -->", _results(chosen))
        text = text.replace(f"<!-- {kind} remarks -->", _all_remarks(kind, chosen))
    return text
