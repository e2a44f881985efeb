"""What pytest is told about these tests: where the harness is, which tests share a lane, and which
of them run again because the machine was late."""

import signal
import sys
import time
from collections.abc import Generator
from pathlib import Path
from typing import Any

import pytest

sys.dont_write_bytecode = True
sys.path.insert(0, str(Path(__file__).resolve().parent / "harness"))

# The harness is on the path from here on.
from machine import Late, Patience, stands_still  # noqa: E402
from rooms import put_on_path  # noqa: E402
from tally import name_of  # noqa: E402

# Those that take longest begin first, so that none is left over at the end.
LONG = (
    "test_failing_calls",
    "test_refused_growths",
    "test_bad_night",
    "test_long_night",
    "test_restart",
    "test_hostile",
)
# In how many rounds a test may run, and for how many seconds a lane waits for the machine in all.
ROUNDS, MOST_WAIT = 4, 600.0

put_on_path()
patience = Patience(MOST_WAIT)
began = pytest.StashKey[float]()


def take_signals() -> None:
    """A shell lets what it runs in the background ignore control-C, and `nohup` that a terminal is
    gone; what is tested must not. What has a handler here has none in a program started."""
    signal.signal(signal.SIGINT, signal.default_int_handler)
    if signal.getsignal(signal.SIGHUP) is signal.SIG_IGN:
        signal.signal(signal.SIGHUP, lambda *_: None)


def lane_of(item: pytest.Item) -> str:
    """Tests of one class run in one lane, one after the other; and so do all that may open a
    browser, so that no two browsers take the processors from each other."""
    if hasattr(sys.modules[Path(item.path).stem], "CHROMIUM"):
        return "browser"
    return name_of(item.nodeid).rpartition(".")[0]


def rank(item: pytest.Item) -> int:
    if hasattr(sys.modules[Path(item.path).stem], "CHROMIUM"):
        return -1
    module = Path(item.path).stem
    return LONG.index(module) if module in LONG else len(LONG)


def pytest_addoption(parser: pytest.Parser) -> None:
    group = parser.getgroup("cueplayer")
    group.addoption("--word", action="append", default=[], help="a word of the names that are run")
    group.addoption("--name", action="append", default=[], help="the name of a test that is run")
    group.addoption("--round", type=int, default=1, help="how often these tests run by now")


def pytest_configure(config: pytest.Config) -> None:
    config.addinivalue_line("markers", "xdist_group(name): the lane of a test")
    take_signals()


@pytest.hookimpl(tryfirst=True)
def pytest_collection_modifyitems(config: pytest.Config, items: list[pytest.Item]) -> None:
    words: list[str] = config.getoption("word")
    names: list[str] = config.getoption("name")
    if words:
        items[:] = [
            item for item in items if any(word in f"{name_of(item.nodeid)}." for word in words)
        ]
    if names:
        items[:] = [item for item in items if name_of(item.nodeid) in names]
    items.sort(key=rank)
    for item in items:
        item.add_marker(pytest.mark.xdist_group(lane_of(item)))


def tell_waiting(line: str) -> None:
    """A lane has no standard output of its own."""
    print(line, file=sys.stderr, flush=True)


def pytest_runtest_setup(item: pytest.Item) -> None:
    patience.wait(tell_waiting)
    item.stash[began] = time.monotonic()


@pytest.hookimpl(hookwrapper=True)
def pytest_runtest_makereport(
    item: pytest.Item, call: pytest.CallInfo[None]
) -> Generator[None, Any, None]:
    """A test that only missed a limit of real time runs once more, when no other does; one that
    failed while the machine stood still, up to three times."""
    outcome = yield
    report = outcome.get_result()
    if not report.failed or call.excinfo is None:
        return
    turn: int = item.config.getoption("round")
    if call.excinfo.errisinstance(Late):
        excuse = "was late" if turn == 1 else ""
    elif turn < ROUNDS and stands_still(item.stash.get(began, call.start)):
        excuse = "failed while the machine stood still"
    else:
        excuse = ""
    if excuse:
        report.outcome = "again"
        report.excuse = excuse
