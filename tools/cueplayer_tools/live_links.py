"""What `live` says of cards, cables, routes and its record on standard error, read a line at a
time."""

import re
from dataclasses import dataclass

_MOMENT = re.compile(r"\d+:\d\d:\d\d ", re.ASCII)
# Of each kind of trouble how it begins, and how it is over; the group names what is meant.
_BEGINS = (
    ("link", re.compile(r"no link (\S+): .*")),
    ("link", re.compile(r"(\S+) is down: .*")),
    ("address", re.compile(r"(\S+) has lost \S+: .*")),
    ("route", re.compile(r"the route to (\S+) leads by \S+: .*")),
    ("route", re.compile(r"no route to (\S+): .*")),
    ("answer", re.compile(r"no answer from (\S+): .*")),
)
_ENDS = (
    ("link", re.compile(r"link (\S+)")),
    ("address", re.compile(r"(\S+) has \S+")),
    ("route", re.compile(r"the route to (\S+) leads by \S+")),
    ("answer", re.compile(r"(\S+) answers")),
)
# Of the record: what is said of it, and what that means for who plays.
_RECORD = {
    "record: device fault": "the record cannot be written any more: the light goes on, but this "
    "night cannot be taken up from here; look whether the disk is full",
    "record: late, and the light goes on": "the record waits for its disk: the light goes on",
}
_RECORD_ENDS = (
    "record: whole again",
    "record: goes on, and a comment in it says how many lines are missing",
)
_FIRST_ROUTE = re.compile(r"from \S+ .*")


@dataclass(frozen=True)
class Trouble:
    """What is wrong, and of which card, route or node, or of the record."""

    kind: str
    about: str
    text: str


@dataclass(frozen=True)
class Mended:
    """It is over. Where a night that began without a network gets one, that is of all routes."""

    kind: str
    about: str | None


def read_link_line(line: str) -> Trouble | Mended | None:
    """The meaning of a line; None where it says nothing of the network or the record."""
    if line in _RECORD:
        return Trouble("record", "", _RECORD[line])
    if line in _RECORD_ENDS:
        return Mended("record", None)
    moment = _MOMENT.match(line)
    text = line[moment.end() :] if moment else line
    for kind, pattern in _BEGINS:
        if found := pattern.fullmatch(text):
            return Trouble(kind, found[1], text)
    if moment is None:
        return None
    for kind, pattern in _ENDS:
        if found := pattern.fullmatch(text):
            return Mended(kind, found[1])
    return Mended("route", None) if _FIRST_ROUTE.fullmatch(text) else None
