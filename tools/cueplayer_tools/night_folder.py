"""The folder of a night that `cueplayer-night` keeps going: its words, its FIFO and its replies.

The FIFO has a reader as long as `live` plays. It is opened for each line and never waited for, so
a line is handed on now or never, and whole: one write.
"""

import argparse
import fcntl
import os
import stat
import struct
import subprocess
import termios
import time
import uuid
from pathlib import Path

from cueplayer_tools.keeper.folder import Folder
from cueplayer_tools.keeper.locks import is_locked
from cueplayer_tools.keeper.show_copy import COPY
from cueplayer_tools.keeper.streams import Failure
from cueplayer_tools.line_protocol import Refused, printable
from cueplayer_tools.program import keeper

# Seconds for which a line may lie unread, and `live` be away: it is started again at once.
LATE = 1.0
# The options of `live` that have no value.
FLAGS = ("--any-route", "--end-with-input")


def _options_in(words: list[str]) -> dict[str, list[str]]:
    """The values of options, which are joined to them by `=` or stand behind them."""
    options: dict[str, list[str]] = {}
    rest = iter(words)
    for word in rest:
        name, is_joined, value = word.partition("=")
        if word not in FLAGS:
            options.setdefault(name, []).append(value if is_joined else next(rest, ""))
    return options


class NightFolder:
    """A folder in which a night is played, or was."""

    def __init__(self, path: str) -> None:
        self.path = Path(path)
        self.folder = Folder(path)
        self.fifo = self.path / "in"
        self.replies = self.path / "replies"
        # Since when there was always something unread at a look, and since when no `live` was
        # there; None where that was not so.
        self.unread_since: float | None = None
        self.away_since: float | None = None

    def words(self) -> argparse.Namespace:
        """What `live` plays: the show and its name, where to and by which card, the CID, the base
        and the priority; Refused where the folder does not say."""
        try:
            show, *words = (self.path / "night").read_text("utf-8").split("\n")[:-1]
            options = _options_in(words)
            (cid,) = map(uuid.UUID, options["--cid"])
            (base,) = map(int, options.get("--base", ["1"]))
            cards: list[str | None] = [*options.get("--interface", [])]
            (card,) = cards or [None]
            priorities: list[str | None] = [*options.get("--priority", [])]
            (priority,) = priorities or [None]
            copy = self.path / COPY
            return argparse.Namespace(
                # The file that was named may have been edited.
                show=str(copy) if self.folder.has_record() and copy.is_file() else show,
                called=Path(show).name,
                cid=cid,
                base=base,
                to=options["--to"],
                interface=card,
                priority=priority,
            )
        except OSError as fault:
            raise Refused(f"no night in {self.path}: {fault.strerror}") from fault
        except (KeyError, ValueError) as fault:
            raise Refused(f"the words in {self.path}/night are not those of a night") from fault

    def live(self) -> str:
        """The number of the process that plays, as the folder has it."""
        try:
            return printable((self.path / "pid").read_text("ascii").strip())
        except (OSError, ValueError):
            return "unknown"

    def is_played(self) -> bool:
        """Whether a `live` reads the FIFO."""
        try:
            os.close(self._open_file())
        except Refused:
            return False
        return True

    def is_away(self) -> bool:
        """Whether at each look for a second no `live` was there."""
        now = time.monotonic()
        if self.is_played():
            self.away_since = None
        elif self.away_since is None:
            self.away_since = now
        return self.away_since is not None and now - self.away_since > LATE

    def is_kept(self) -> bool:
        """Whether somebody keeps the night, and starts `live` again."""
        return is_locked(self.folder, "lock")

    def start(self) -> None:
        """Goes on with the night, as `start` does; Refused with what that says."""
        words = [keeper(), str(self.path), "start", "--background"]
        done = subprocess.run(
            words,
            stdin=subprocess.DEVNULL,
            stdout=subprocess.PIPE,
            stderr=subprocess.STDOUT,
            start_new_session=True,
            check=False,
        )
        if done.returncode:
            raise Refused(printable(done.stdout.strip().rpartition(b"\n")[2], 300))

    def has_ended(self) -> bool:
        """Whether the record ends with its `end` and the three ticks behind it."""
        return self.folder.has_ended()

    def refusal(self) -> str:
        """Why no line is taken, and what to do."""
        try:
            self.folder.check_seen(1, "night", "in", "replies")
        except Failure as failure:
            return str(failure)
        start = f"`cueplayer-night {self.path} start`"
        return f"no live plays the night in {self.path}: {start} goes on with it"

    def give(self, line: str) -> None:
        """Hands a line on, or refuses it: it is never handed on later."""
        pipe = self._open_file()
        try:
            if self._stands_still(pipe):
                raise Refused("live does not answer: nothing was sent")
            os.write(pipe, line.encode() + b"\n")
        except (BlockingIOError, BrokenPipeError) as fault:
            raise Refused("live takes no line now: nothing was sent") from fault
        finally:
            os.close(pipe)

    def stands_still(self) -> bool:
        """Whether lines were unread at each look for a second."""
        try:
            pipe = self._open_file()
        except Refused:
            return False
        try:
            return self._stands_still(pipe)
        finally:
            os.close(pipe)

    def _open_file(self) -> int:
        try:
            pipe = os.open(self.fifo, os.O_WRONLY | os.O_NONBLOCK)
        except OSError as fault:
            raise Refused(f"{self.refusal()}; nothing was sent") from fault
        if stat.S_ISFIFO(os.fstat(pipe).st_mode):
            return pipe
        os.close(pipe)
        raise Refused(f"{self.fifo} is not a FIFO: nothing was sent")

    def _stands_still(self, pipe: int) -> bool:
        unread = struct.unpack("@i", fcntl.ioctl(pipe, termios.FIONREAD, bytes(4)))[0]
        now = time.monotonic()
        if not unread:
            self.unread_since = None
        elif self.unread_since is None:
            self.unread_since = now
        return self.unread_since is not None and now - self.unread_since > LATE
