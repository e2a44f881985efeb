"""A night that `cueplayer-night` keeps going in a folder, as a desk takes hold of it.

Lines go into the folder's FIFO, beside those of other desks and of shells, and what comes of all of
them is read in its replies, from where they stand as the desk begins: `where` tells the rest. The
desk may go, and come again, and the light does not notice.
"""

import os
import threading
import time
from collections.abc import Callable

from cueplayer_tools.cue_list import Show
from cueplayer_tools.desk.heard import START_LINES, HeardNight
from cueplayer_tools.desk.input import FolderInput
from cueplayer_tools.line_protocol import Refused, printable
from cueplayer_tools.live_lines import read_live_line
from cueplayer_tools.night_folder import NightFolder

READ_EVERY = 0.02
# What whoever keeps the night says: `night:`, the date, the time, and this.
_KEEPER = "night: "
# Nothing is wrong where it says this.
_TAKES_HOLD = " takes hold of the night"
_BEGINS = " keeps the night: live is process "
_ENDS = " the night has ended"


class FolderNight(HeardNight):
    """The night in a folder, and its state."""

    def __init__(self, show: Show, folder: NightFolder, tell: Callable[[str], None]) -> None:
        """Takes hold of a night that is played; `tell` gets what is said beside the answers, and
        may not wait. Refused where none is."""
        super().__init__(show, FolderInput(folder), tell, lambda line: None)
        self.folder = folder
        self.start_lines = []
        # Whether it was told that no `live` is there, and whether somebody would start one.
        self.is_away_told = False
        self.is_kept = True
        if not folder.is_played():
            raise Refused(folder.refusal())
        self.replies = folder.replies.open("rb")
        self.replies.seek(0, 2)
        self._ask_place()

    def live(self) -> str:
        """The number of its process."""
        return self.folder.live()

    def read(self) -> None:
        """Reads the replies, from here on."""
        threading.Thread(target=self._follow, daemon=True).start()

    def _follow(self) -> None:
        """Reads lines as they are appended; one that has not come whole waits."""
        rest = b""
        while True:
            *lines, rest = (rest + self.replies.read()).split(b"\n")
            for line in lines:
                with self.changed:
                    self._take(self._hear_line, line.decode("latin-1"))
                    self._change()
            if not lines:
                rest = b"" if self._finds_others() else rest
                time.sleep(READ_EVERY)

    def _finds_others(self) -> bool:
        """Whether the replies were cut, or others have their name: those are read from their
        beginning, and the state anew. Behind the end of the night they are those of the next."""
        if self.state.status is not None:
            return False
        try:
            own, there = os.fstat(self.replies.fileno()), os.stat(self.folder.replies)
            is_cut = own.st_size < self.replies.tell()
            if os.path.samestat(own, there) and not is_cut:
                return False
            others = self.folder.replies.open("rb")
        except OSError:
            return False
        self.replies.close()
        self.replies = others
        with self.changed:
            self._lose_track()
            self._change()
        return True

    def _hear_line(self, line: str) -> None:
        """Takes a line of either output of `live`, or of whoever keeps the night."""
        if line.startswith(_KEEPER):
            self._hear_keeper(line)
            return
        try:
            read_live_line(line)
        except ValueError:
            if line:
                self._hear_message(line)
            return
        self._hear(line)

    def _hear_keeper(self, line: str) -> None:
        text = printable(line, 300)
        self.tell(text)
        if _ENDS in line:
            self.state.status = 0
        elif _TAKES_HOLD not in line:
            # Another `live` plays, or one that has not read its lines: answers are missing.
            self.start_lines = list(START_LINES)
            if _BEGINS not in line:
                self.state.tell("fault", text)
            self._lose_track()

    def watch(self) -> None:
        """Sees whether `live` still plays and answers."""
        super().watch()
        with self.changed:
            was_told, was_kept = self.is_away_told, self.is_kept
            self.is_away_told = self.state.status is None and self.folder.is_away()
            self.is_kept = not self.is_away_told or self.folder.is_kept()
            if (was_told, was_kept) == (self.is_away_told, self.is_kept):
                return
            if not self.is_away_told:
                # The night is played again.
                self.state.forget("away")
            self._change()
            if was_told or not self.is_away_told:
                return
            if self.folder.has_ended():
                self.state.status = 0
            else:
                self.state.tell("away", self.folder.refusal())
            self._change()

    def can_resume(self) -> bool:
        """Whether no `live` is there, and nobody starts one."""
        return self.state.status is None and self.is_away_told and not self.is_kept

    def resume(self) -> None:
        """Goes on with the night in its folder."""
        if not self.can_resume():
            raise Refused("somebody keeps the night: nothing was done")
        self.folder.start()

    def end(self, patience: float) -> int:
        """Leaves the night as it is."""
        return 0
