"""How a night is, as far as a look can tell: who plays and keeps it, and what is wrong.

What leaves the machine is not seen here. That `live` sends is told from its record, in which each
tick stands before it is carried out, and from its own lines on cards, routes and lost packets.
"""

import contextlib
import os
import re
import time

from cueplayer_tools.keeper.catching_up import CatchingUp
from cueplayer_tools.keeper.commands import ask
from cueplayer_tools.keeper.consoles import await_free, cids_in, told_of
from cueplayer_tools.keeper.folder import Folder
from cueplayer_tools.keeper.own_record import FULL
from cueplayer_tools.keeper.pipes import REPLIES, LivePipes
from cueplayer_tools.keeper.players import (
    find_keeper,
    find_live,
    find_spare,
    has_record_open,
    reads_record,
)
from cueplayer_tools.keeper.stand_still import work_of
from cueplayer_tools.keeper.states import name_of, state_of
from cueplayer_tools.keeper.streams import Failure
from cueplayer_tools.keeper.troubles import (
    KEEPER,
    LATELY,
    LIGHT,
    OTHER,
    RECORD,
    SPARE,
    Trouble,
    read_story,
)
from cueplayer_tools.keeper.writers import NO_ANSWERS

# The exit status of each kind of trouble, the worst first.
STATUSES = {LIGHT: 3, RECORD: 4, SPARE: 5, KEEPER: 6, OTHER: 7}
STOPPED = 1
_HEAD = 4096
_STARTED = re.compile(rb"! .*started (.*)")
_PLACE = re.compile(r"(\d+) where(?: cue (\S+))?(?: next (\S+))? master (\d+)(?: .*)?")
# For how long the record may not grow, and how often it is looked at, in seconds.
_PATIENCE, _LOOK_EVERY = 1.0, 0.02


class Health:
    """What was seen of a night in a look of a second at most."""

    def __init__(self, folder: Folder) -> None:
        self.folder = folder
        self.live = find_live(folder)
        self.since = None if self.live is None else _written(folder, "pid")
        self.keeper, self.spare = find_keeper(folder), find_spare(folder)
        self.has_ended = self.live is None and folder.has_ended()
        self.began = _start_of(folder)
        # What is found by looking, before what the replies tell.
        self.trouble: list[Trouble] = []
        self.place: str | None = None
        if self.live is not None:
            works = CatchingUp(self.spare or 0)
            self._look_at_live(self.live)
            self._look_at_spare(works)
            self._look_at_keeper()
        story = read_story(folder)
        self.restarts, self.events = story.restarts, story.events
        if self.live is not None and story.lost is not None and self._is_lately(story.lost):
            told = "packets are lost: the replies say of which universes"
            self.trouble.append(Trouble(LIGHT, None, told))
        told_kinds = {each.kind for each in story.open.values()}
        if SPARE in told_kinds or RECORD in told_kinds:
            # The lines say why.
            self.trouble = [each for each in self.trouble if each.kind not in told_kinds]
        self.trouble += [] if self.has_ended else story.open.values()
        if self.live is not None:
            self._look_for_others()

    def _look_at_live(self, live: int) -> None:
        """Looks whether it plays: whether its record grows, and whether it answers."""
        size, work = self.folder.size("record"), work_of(live)
        until = time.monotonic() + _PATIENCE
        # Without a FIFO nobody is asked.
        with contextlib.suppress(Failure):
            self.place = ask(self.folder, "where")
        while self.folder.size("record") == size and time.monotonic() < until:
            time.sleep(_LOOK_EVERY)
        named, since = f"live (process {live})", _written(self.folder, "record")
        if not has_record_open(self.folder, live):
            told = f"the record is not the one that {named} writes: that has lost its name"
            self.trouble.append(Trouble(RECORD, None, told))
        elif self.folder.size("record") == size:
            if not state_of(live):
                self.trouble.append(Trouble(LIGHT, since, f"{named} has just ended"))
            elif state_of(live) in ("T", "t", "D") or work_of(live) == work:
                self.trouble.append(Trouble(LIGHT, since, f"{named} stands still"))
            else:
                told = f"the record does not grow, and {named} plays on"
                self.trouble.append(Trouble(RECORD, since, told))
        elif free_room(self.folder) < FULL:
            told = "the disk of the night is full: make room"
            self.trouble.append(Trouble(RECORD, None, told))
        elif self.place is None and not self.folder.is_fifo():
            gone = f"{self.folder.file('in')} is gone: `start` puts it back"
            told = f"no line comes to {named}, as {gone}"
            self.trouble.append(Trouble(OTHER, None, told))
        elif self.place is None and state_of(live):
            told = why_unanswered(live) or f"{named} does not answer"
            self.trouble.append(Trouble(OTHER, None, told))

    def _look_at_spare(self, works: CatchingUp) -> None:
        if self.spare is None:
            self.trouble.append(Trouble(SPARE, None, "no spare stands by"))
            return
        named, since = f"the spare (process {self.spare})", None
        time.sleep(works.left())
        if state_of(self.spare) in ("T", "t") or not reads_record(self.folder, self.spare):
            told = f"{named} does not read the record: it is just started, or stands still"
        elif works.is_so():
            since = _written(self.folder, "spare")
            told = f"{named} still takes up the record: if live dies now, the light waits for that"
        else:
            return
        self.trouble.append(Trouble(SPARE, since, told))
        self.spare = None

    def _look_at_keeper(self) -> None:
        start = f"`cueplayer-night {self.folder.path} start` takes hold of it"
        if self.keeper is None:
            self.trouble.append(Trouble(KEEPER, None, f"nothing keeps it going: {start}"))
        elif state_of(self.keeper) in ("T", "t"):
            told = f"what keeps it going (process {self.keeper}) stands still"
            self.trouble.append(Trouble(KEEPER, None, f"{told}: `kill -CONT {self.keeper}`"))

    def _look_for_others(self) -> None:
        """Looks whether another console has the CID: a keeper that would tell it may be gone."""
        for cid in cids_in(self.folder.words())[:1]:
            found = await_free(cid, self.folder)
            told = "" if found is None else told_of(found)
            if told and told not in [each.text for each in self.trouble]:
                self.trouble.append(Trouble(LIGHT, None, told))

    def _is_lately(self, moment: int) -> bool:
        found = _PLACE.fullmatch(self.place or "")
        return found is not None and int(found[1]) - moment < LATELY

    def status(self) -> int:
        """The exit status: 0 where all is well, else that of the worst."""
        if self.live is None:
            return STOPPED
        return min((STATUSES[each.kind] for each in self.trouble), default=0)

    def as_json(self) -> dict[str, object]:
        """For a program that watches nights."""
        found = _PLACE.fullmatch(self.place or "")
        place = None
        if found is not None:
            cue, following, master = found[2], found[3], int(found[4])
            place = {"moment": int(found[1]), "cue": cue, "next": following, "master": master}
        state = "played" if self.live is not None else "ended" if self.has_ended else "stopped"
        return {
            "night": self.folder.path,
            "state": state,
            "status": self.status(),
            "live": self.live,
            "since": self.since,
            "keeper": self.keeper,
            "spare": self.spare,
            "began": self.began,
            "restarts": self.restarts,
            "where": place,
            "trouble": [each._asdict() for each in self.trouble],
            "last": self.events,
        }


def why_unanswered(live: int) -> str | None:
    """Why no answers come; None where they would be written."""
    writer = LivePipes(live).find_writer(REPLIES)
    name = "" if writer is None else name_of(writer)
    if not name.startswith(NO_ANSWERS):
        return None
    why = os.strerror(int(name[len(NO_ANSWERS) :]))
    return f"answers cannot be written: {why}; make room: commands are carried out all the same"


def free_room(folder: Folder) -> int:
    """How many bytes are free on the disk of a night."""
    try:
        disk = os.statvfs(folder.path)
    except OSError:
        return FULL
    return disk.f_bavail * disk.f_frsize


def _written(folder: Folder, name: str) -> str | None:
    """When a file was written last."""
    try:
        written = os.stat(folder.file(name)).st_mtime
    except OSError:
        return None
    return time.strftime("%Y-%m-%d %H:%M:%S", time.localtime(written))


def _start_of(folder: Folder) -> str | None:
    """When the night began, by the second line of its record."""
    lines = folder.read("record", 0, _HEAD).split(b"\n")
    found = _STARTED.match(lines[1]) if len(lines) > 1 else None
    return None if found is None else found[1].decode("ascii", "replace")
