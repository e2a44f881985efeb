"""Where the tests are: a folder for each subject, whose modules find the harness and each other's
names by the path."""

import sys
import unittest
from collections.abc import Iterator
from pathlib import Path

TESTS = Path(__file__).resolve().parents[1]
ROOMS = ("play", "live", "night", "desk", "tools", "tree")


def folders() -> list[str]:
    """Where Python looks for what a test imports."""
    return [str(TESTS / name) for name in ("", "harness", *ROOMS)]


def put_on_path() -> None:
    sys.path[:0] = [folder for folder in folders() if folder not in sys.path]


def tests_in(suite: unittest.TestSuite) -> Iterator[unittest.TestCase]:
    """The tests of a suite and of the suites inside it."""
    for part in suite:
        if isinstance(part, unittest.TestSuite):
            yield from tests_in(part)
        else:
            yield part


def discovered() -> Iterator[unittest.TestCase]:
    """All tests, room by room."""
    for room in ROOMS:
        folder = str(TESTS / room)
        yield from tests_in(unittest.TestLoader().discover(folder, top_level_dir=folder))
