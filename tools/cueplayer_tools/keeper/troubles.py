"""What went wrong in a night, by its replies: what still lasts, and what happened last.

A line that tells of trouble is paired with the one that tells that it is over.
"""

import os
import re
from typing import NamedTuple

from cueplayer_tools.keeper.folder import Folder

LIGHT, RECORD, SPARE, KEEPER, OTHER = "light", "record", "spare", "keeper", "other"
_RESTART = re.compile(rb"night: .* goes on where (?:it was|its record ends)")
# What tells of no trouble: answers, and what is said at a start.
_USUAL = re.compile(
    rb"[0-9]+ (?:ok|refused|cue|where|live)\b|line refused: |keys ignored"
    rb"|show: [0-9]+ cue|sends: |target: |from |other cards: |record: /|end ends the night"
    rb"|night: .* (?:keeps the night:|takes hold of the night|the night has ended)"
)
_MOST_EVENTS = 5
# Packets that were lost so lately, in milliseconds of the night, are still lost: at rest one comes
# each 800.
LATELY = 2000
_SINCE = re.compile(rb"night: (\d{4}-\d\d-\d\d \d\d:\d\d:\d\d) (.*)|(\d+:\d\d:\d\d) (.*)|(.*)")
# What lasts from a line on: what it is about, what it is called, and the line. {} is what both
# lines name.
_OPENS = [
    (LIGHT, "link", rb"no link (\S+): nodes get nothing"),
    (LIGHT, "link", rb"(\S+) is down: nodes get nothing"),
    (LIGHT, "address", rb"(\S+) has lost \S+: nodes get nothing"),
    (LIGHT, "route", rb"the route to (\S+) leads by \S+: nodes get nothing"),
    (LIGHT, "route", rb"no route to (\S+): nodes get nothing"),
    (OTHER, "answer", rb"no answer from (\S+): nothing has that address"),
    (RECORD, "file", rb"record: device fault()$"),
    (RECORD, "late", rb"record: late, and the light goes on()$"),
    (RECORD, "lines", rb"record: goes on, and a comment in it says how many lines are missing()$"),
    (OTHER, "replies", rb"(?:replies|messages): device fault()$"),
    (LIGHT, "start", rb"live waits for its network card()|live refused to begin()"),
    (LIGHT, "start", rb"live \(process \d+\) .* before it played()|another live has this CID()"),
    (LIGHT, "start", rb"the record is still written for a live that is gone()"),
    (LIGHT, "start", rb"process \d+ has the lock of the record(): end that one"),
    (LIGHT, "start", rb".*: cannot put .* aside: ()"),
    (LIGHT, "cid", rb"another console sends under this CID()"),
    (LIGHT, "still", rb"live \(process \d+\) stands still()"),
    (RECORD, "grows", rb"the record does not grow, and live()"),
    (RECORD, "name", rb"the record has lost its name()"),
    (RECORD, "cut", rb"the record was cut, or written over()"),
    (RECORD, "room", rb"the disk of the night is full()"),
    (SPARE, "spare", rb"no spare stands by, as the lines above say()"),
    (OTHER, "update", rb"the updated show is not played: ()|cue \S+ is on, and the updated show()"),
]
_CLOSES = [
    ("link", rb"link (\S+)$"),
    ("address", rb"(\S+) has \d\S*$"),
    ("route", rb"the route to (\S+) leads by \S+$"),
    ("answer", rb"(\S+) answers$"),
    ("late", rb"record: (?:whole again|goes on, )()"),
    ("still", rb"live \(process \d+\) (?:runs again|plays again)()|live .* goes on where it()"),
    ("cid", rb"no other console sends under this CID any more()"),
    ("grows", rb"the record grows again()$"),
    ("name", rb"the record has its name again()$|.*the record is put back()$"),
    ("room", rb"the disk of the night has room again()$"),
    ("spare", rb"a spare stands by again()$"),
]
_OPENING = [(kind, name, re.compile(form)) for kind, name, form in _OPENS]
_CLOSING = [(name, re.compile(form)) for name, form in _CLOSES]
# The first line of a `live`, and its last one before it plays; the first of a keeper; a card that a
# route was found by.
_FIRST, _PLAYS = re.compile(rb"show: \d+ cue"), re.compile(rb"end ends the night")
_KEEPS = re.compile(rb"process \d+ (?:keeps the night:|takes hold of the night)")
_FROM = re.compile(rb"from \S+ \(")
_LOST = re.compile(rb"(\d{1,15}) (?:live|ending \d+) .*:x")
_Key = tuple[str, bytes]


class Trouble(NamedTuple):
    """What is wrong: what it is about, since when, as a date and a time or as a moment of the
    night, where that is known, and the line that told it."""

    kind: str
    since: str | None
    text: str


def _name_in(found: re.Match[bytes]) -> bytes:
    return next((group for group in found.groups() if group), b"")


class Story:
    """What the replies of a night tell, line by line."""

    def __init__(self) -> None:
        self.restarts = 0
        self.events: list[str] = []
        self.open: dict[_Key, Trouble] = {}
        # The latest tick at which a packet was lost, in milliseconds of the night.
        self.lost: int | None = None

    def _forget(self, *names: str) -> None:
        self.open = {key: told for key, told in self.open.items() if key[0] not in names}

    def take(self, line: bytes) -> None:
        """Takes a line without its end."""
        self.restarts += _RESTART.match(line) is not None
        if not _USUAL.match(line):
            self.events = [*self.events[1 - _MOST_EVENTS :], os.fsdecode(line)]
        if lost := _LOST.match(line):
            self.lost = int(lost[1])
        found = _SINCE.fullmatch(line)
        if found is None:
            return
        since, text = found[1] or found[3], found[2] or found[4] or found[5] or b""
        self._close(line, text)
        for kind, name, form in _OPENING:
            if opened := form.match(text):
                told = None if since is None else since.decode()
                if found[3] is not None:
                    told = f"{told} of the night"
                key = (name, _name_in(opened))
                self.open.setdefault(key, Trouble(kind, told, os.fsdecode(text)))
                return

    def _close(self, line: bytes, text: bytes) -> None:
        """Forgets what is over by this line."""
        if _FIRST.match(line):
            # What it finds wrong it tells anew.
            self._forget("link", "address", "route", "answer", "file", "late", "replies")
            self._forget("grows", "name")
            self.lost = None
        if _PLAYS.match(line):
            self._forget("start", "still")
        if _KEEPS.match(text):
            self._forget("start", "still", "spare", "grows", "update", "name", "cut", "room", "cid")
        if _FROM.match(text):
            self._forget("route")
        if b"; the record is kept as record-" in text or b"its record is kept as record-" in text:
            self._forget("lines", "spare", "update", "cut", "name")
        for name, form in _CLOSING:
            if closed := form.match(text):
                self.open.pop((name, _name_in(closed)), None)


def read_story(folder: Folder) -> Story:
    """What the replies tell, as far as they can be read."""
    story = Story()
    try:
        opener = lambda path, flags: os.open(path, flags | os.O_NONBLOCK)
        with open(folder.file("replies"), "rb", opener=opener) as file:
            for line in file:
                story.take(line.rstrip(b"\n"))
    except OSError:
        pass
    return story
