"""Commands of a night: a line for its `live`, and the answer to it."""

import os
import time
from collections.abc import Iterator

from cueplayer_tools.keeper.folder import Folder, open_file, take_free_lock
from cueplayer_tools.keeper.streams import Failure, complain, has_control, refusal, show

_LONGEST = 180
_MOVES = ("go", "back", "goto")
_ENDS = ("end", "leave")
# For how long a `live` may be away, an answer be missing, and another command have its turn, in
# seconds; how often it is looked whether `live` is there, and whether it has answered: for so short
# a wait a descriptor would cost more than it saves.
_PATIENCE, _LOOK_EVERY, _READ_EVERY = 1.0, 0.02, 0.005
_MOST = 65_536


def _give_soon(folder: Folder, line: str) -> bool:
    """Hands a line to a `live`, which may just be started again; whether one took it."""
    until = time.monotonic() + _PATIENCE
    while not folder.give(line):
        if time.monotonic() > until:
            return False
        time.sleep(_LOOK_EVERY)
    return True


def _is_refusal(line: bytes) -> bool:
    """Whether a line refuses a command."""
    return line.startswith(b"line refused: ") or line[:1].isdigit() and b" refused " in line


def _is_answer(word: str, line: bytes) -> bool:
    """Whether a line of the replies belongs to the answer of this command. Others ask `where`
    too."""
    has_moment = line[:1].isdigit()
    if word == "where":
        return has_moment and b" where " in line or line.startswith(b"line refused: ")
    if _is_refusal(line) or has_moment and line.endswith(b" ok"):
        return True
    if word in _MOVES:
        return has_moment and b" cue " in line
    return word in _ENDS and line.startswith(b"night: ") and b" the night has ended" in line


def _lines_behind(folder: Folder, start: int, until: float) -> Iterator[bytes]:
    """The lines that come into the replies behind so many bytes, until then."""
    rest = b""
    while time.monotonic() < until:
        start = folder.place_in("replies", start)
        part = folder.read("replies", start, _MOST)
        start += len(part)
        *lines, rest = (rest + part).split(b"\n")
        yield from lines
        if not part:
            time.sleep(_READ_EVERY)


def _print_answer(folder: Folder, line: str, start: int, recorded: int) -> int:
    """Prints the answer to a command from what comes, up to the cue of a move, or to the end of a
    night; its status. Where none comes, the record may have the command."""
    status, word = None, line.partition(" ")[0]
    for each in _lines_behind(folder, start, time.monotonic() + _PATIENCE):
        if not _is_answer(word, each):
            continue
        show(each + b"\n")
        if _is_refusal(each):
            return 1
        status = 0
        if word not in _MOVES + _ENDS or not each.endswith(b" ok"):
            return status
    if status is None:
        # What few commands want, the others need not read.
        from cueplayer_tools.keeper.taken import tell_taken

        status = tell_taken(folder, line, recorded)
    if status is None:
        complain("no answer within a second: `where` says what was carried out")
        return 1
    return status


def _await_turn(turn: int) -> None:
    """Waits a second at most until other commands have had their turn."""
    if not take_free_lock(turn):
        # Few commands wait, and the others need not read how.
        from cueplayer_tools.keeper.locks import take_lock

        take_lock(turn, _PATIENCE)


def _try_turn(folder: Folder) -> int | None:
    """A file for turns; None where there is no night."""
    try:
        turn = open_file(folder.file("night"), os.O_RDONLY)
    except OSError:
        return None
    if folder.is_fifo() and folder.is_file("replies"):
        return turn
    os.close(turn)
    return None


def _open_turn(folder: Folder) -> int:
    """A file for turns; Failure where there is no night. What somebody has just taken out of the
    folder of one is put back in a moment."""
    until = time.monotonic() + _PATIENCE
    while (turn := _try_turn(folder)) is None:
        if time.monotonic() > until or not os.path.isdir(folder.path):
            raise Failure(f"no night in {folder.path}")
        time.sleep(_LOOK_EVERY)
    return turn


def ask(folder: Folder, line: str) -> str | None:
    """The answer to a line that has one alone; None where none comes within a second."""
    turn = _open_turn(folder)
    try:
        _await_turn(turn)
        start = folder.size("replies")
        if folder.give(line):
            for each in _lines_behind(folder, start, time.monotonic() + _PATIENCE):
                if _is_answer(line, each):
                    return each.decode("ascii", "replace")
    finally:
        os.close(turn)
    return None


def command_night(folder: Folder, line: str) -> int:
    """Hands a command on, and prints its answer; its status. Commands of shells take turns, so
    that each prints its own."""
    if len(os.fsencode(line)) > _LONGEST or has_control(line):
        raise refusal(f"a line has at most {_LONGEST} bytes")
    turn = _open_turn(folder)
    try:
        _await_turn(turn)
        start, recorded = folder.size("replies"), folder.size("record")
        if _give_soon(folder, line):
            return _print_answer(folder, line, start, recorded)
    finally:
        os.close(turn)
    told = f"no live plays the night in {folder.path}: nothing was sent"
    complain(f"{told}; `start` goes on with it")
    return 1
