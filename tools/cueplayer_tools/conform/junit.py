"""A result as JUnit XML, which tools of continuous integration read."""

from xml.etree import ElementTree

from cueplayer_tools.conform.baseline import Difference
from cueplayer_tools.conform.report import Finding, Result, RuleFound
from cueplayer_tools.conform.verdicts import BROKEN, KEPT, NOT_TRIED

Element = ElementTree.Element


def _case(suite: Element, kind: str, rule: RuleFound, case: Finding, differs: str) -> None:
    """A case; what is other than in the baseline fails too."""
    named = {"classname": f"{kind}.{rule.rule}", "name": case.case}
    found = ElementTree.SubElement(suite, "testcase", named)
    if case.verdict == BROKEN or differs:
        message = case.says if case.verdict == BROKEN else differs
        failure = ElementTree.SubElement(found, "failure", {"message": message})
        failure.text = f"E1.31, {rule.clause}: {rule.asks}"
    elif case.verdict == NOT_TRIED:
        ElementTree.SubElement(found, "skipped", {"message": case.says})
    elif case.verdict != KEPT:
        ElementTree.SubElement(found, "system-out").text = f"{case.verdict}: {case.says}"


def junit(result: Result, differences: tuple[Difference, ...] = ()) -> str:
    """The text of the file."""
    differs = {(each.rule, each.case): f"{each.now}; before: {each.before}" for each in differences}
    named = {"name": f"conform {result.kind} {result.title}", "timestamp": result.date}
    top = ElementTree.Element("testsuites")
    suite = ElementTree.SubElement(top, "testsuite", named)
    for rule in result.rules:
        for case in rule.cases:
            other = differs.get((rule.rule, case.case), "")
            _case(suite, result.kind, rule, case, other)
    for each in result.diagnoses:
        found = {"classname": result.kind, "name": each.what}
        whole = ElementTree.SubElement(suite, "testcase", found)
        error = ElementTree.SubElement(whole, "error", {"message": each.says})
        error.text = "\n".join(each.lines()[1:])
    for name, tag in (("tests", "testcase"), ("failures", "failure"), ("errors", "error"),
                      ("skipped", "skipped")):  # fmt: skip
        suite.set(name, str(len(list(suite.iter(tag)))))
    ElementTree.indent(top)
    return ElementTree.tostring(top, encoding="unicode", xml_declaration=True) + "\n"
