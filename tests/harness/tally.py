"""What came of tests as pytest ran them: a line each, and the counts at the end."""

from collections.abc import Callable
from pathlib import Path

import pytest

# How many of the longest tests are told, and how much of a reason at the end.
LONGEST, MOST_OF_A_REASON = 10, 300


def name_of(nodeid: str) -> str:
    """The name of a test, as unittest gives it: `test_play.Rows.test_empty_show`."""
    file, *inner = nodeid.partition("@")[0].split("::")
    return ".".join([Path(file).stem, *inner])


def reason_of(report: pytest.CollectReport | pytest.TestReport) -> str:
    """The first line of why a test failed, or was skipped."""
    if isinstance(report.longrepr, tuple):
        return str(report.longrepr[2]).removeprefix("Skipped: ")
    crash = getattr(report.longrepr, "reprcrash", None)
    text = crash.message if crash is not None else str(report.longrepr)
    return text.strip().partition("\n")[0]


def print_at_once(line: str) -> None:
    print(line, flush=True)


class Tally:
    """A plugin of the process that hands out the tests. It sums up one round or more."""

    def __init__(self, say: Callable[[str], None] = print_at_once) -> None:
        self.say = say
        self.passed: set[str] = set()
        # What failed, with the reason; the tests that run again; how long each took.
        self.failed: dict[str, str] = {}
        self.again: list[str] = []
        self.times: dict[str, float] = {}

    def pytest_runtest_logreport(self, report: pytest.TestReport) -> None:
        name = name_of(report.nodeid)
        self.times[name] = self.times.get(name, 0.0) + report.duration
        if report.outcome == "again":
            self.again.append(name)
            self.say(f"again: {name} {report.excuse}: {reason_of(report)}")
        elif report.failed:
            self.fail(name, report)
        elif report.skipped:
            self.say(f"skipped {name}: {reason_of(report)}")
        elif report.when == "call":
            self.passed.add(name)
            self.say(f"ok {name}")

    def pytest_collectreport(self, report: pytest.CollectReport) -> None:
        if report.failed:
            self.fail(name_of(report.nodeid), report)

    def fail(self, name: str, report: pytest.CollectReport | pytest.TestReport) -> None:
        self.failed[name] = reason_of(report)
        self.say(f"FAILED {name}: {report.longreprtext}".rstrip().replace("\n", "\n    "))

    def next_round(self) -> list[str]:
        """The tests that run again, which are not counted yet."""
        names, self.again = [name for name in self.again if name not in self.failed], []
        return names

    def tell(self) -> int:
        """What took longest, again what failed, and the counts; 1 where a test failed, or none
        passed."""
        self.say("the longest tests:")
        for name, seconds in sorted(self.times.items(), key=lambda each: -each[1])[:LONGEST]:
            self.say(f"    {seconds:.1f} s {name}")
        if self.failed:
            self.say("what failed:")
        for name, reason in self.failed.items():
            self.say(f"    {name}\n        {reason[:MOST_OF_A_REASON]}")
        passed = self.passed - self.failed.keys()
        self.say(f"{len(passed)} passed, {len(self.failed)} failed")
        return 1 if self.failed or not passed else 0
