"""What each test tries, in a line: `tests/run --list`."""

import inspect
import re
import sys
import unittest
from collections.abc import Iterable

SENTENCE = re.compile(r".*?[.!?](?=\s|$)|.+", re.S)


def first_sentence(doc: str | None) -> str:
    """The first sentence of a docstring, in one line."""
    found = SENTENCE.match(inspect.cleandoc(doc or ""))
    return " ".join(found[0].split()) if found else ""


def about(test: unittest.TestCase) -> str:
    """What a test tries: as it says itself, else its class, else its module."""
    kind = type(test)
    places = (getattr(test, test._testMethodName, None), kind, sys.modules[kind.__module__])
    return next(filter(None, (first_sentence(own_doc(place)) for place in places)), "")


def own_doc(place: object) -> str | None:
    """The docstring of a test, a class or a module, and not what a class inherits."""
    return place.__dict__.get("__doc__") if isinstance(place, type) else place.__doc__


def listed(tests: Iterable[unittest.TestCase], words: list[str]) -> list[str]:
    """A line for each of these tests that has one of the words, in its name or in what it tries;
    for each, where there is no word."""
    lines = sorted({f"{test.id()}: {about(test)}" for test in tests})
    wanted = [word.lower() for word in words]
    return [line for line in lines if not wanted or any(word in line.lower() for word in wanted)]
