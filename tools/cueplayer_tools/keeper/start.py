"""Begins a night, or goes on with it: here, or behind this terminal."""

import os
import re
import time

from cueplayer_tools.keeper.folder import Folder
from cueplayer_tools.keeper.growth import Growth
from cueplayer_tools.keeper.locks import await_lock
from cueplayer_tools.keeper.new_folder import live_words, make_files, make_folder
from cueplayer_tools.keeper.night import Options, failure_kept, keep_night
from cueplayer_tools.keeper.processes import Process, Starter
from cueplayer_tools.keeper.streams import Failure, complain, refusal, show

# What says that a night behind this terminal has begun, or will by itself.
_BEGUN = re.compile(
    rb"^end ends the night|^night: .* (?:takes hold of the night|waits for its network card)",
    re.MULTILINE,
)
_REFUSED = re.compile(rb"^night: .* tried again each second", re.MULTILINE)
# For how long it may take to begin, and the lock be that of a keeper that is about to go.
_PATIENCE, _LOCK_PATIENCE = 5.0, 1.0
_MOST = 1 << 20


def _start_behind(folder: Folder, starter: Starter, options: Options) -> int:
    """Starts a keeper behind this terminal, and tells what came of it: 1 where it is still
    tried."""
    if not await_lock(folder, "lock", _LOCK_PATIENCE):
        raise failure_kept(folder)
    start = folder.size("replies")
    growth = Growth(folder.file("replies"))
    number = starter.fork()
    if not number:
        _become_keeper(folder, starter, options)
    keeper = Process(folder, number, True)
    until = time.monotonic() + _PATIENCE
    status = 0
    while not keeper.has_ended() and (left := until - time.monotonic()) > 0:
        told = folder.read("replies", start, _MOST)
        status = 1 if _REFUSED.search(told) and not _BEGUN.search(told) else 0
        if status or _BEGUN.search(told):
            break
        growth.wait(left, *keeper.descriptors())
    show(folder.read("replies", start, _MOST))
    return (keeper.status() or 0) if keeper.has_ended() else status


def _become_keeper(folder: Folder, starter: Starter, options: Options) -> None:
    """Keeps the night in this process, which has no terminal, and ends."""
    status = 1
    try:
        os.setsid()
        nothing = os.open(os.devnull, os.O_RDWR)
        for stream in (0, 1, 2):
            os.dup2(nothing, stream)
        status = keep_night(folder, starter, options)
    except Failure as failure:
        complain(str(failure))
    finally:
        os._exit(status)


def _without_options(given: list[str]) -> tuple[list[str], bool, bool]:
    """The words of `live`, whether the night is kept behind this terminal, and whether it begins
    anew where its record is refused."""
    words: list[str] = []
    begins = False
    rest = iter(given)
    for word in rest:
        name, _, value = word.partition("=")
        if name == "--if-refused":
            if (value or next(rest, "")) != "begin":
                raise refusal("--if-refused wants the word begin")
            begins = True
        elif word != "--background":
            words.append(word)
    return words, "--background" in given, begins


def start_night(folder: Folder, given: list[str], program: str) -> int:
    """Begins a night with these words, or goes on with the one of the folder; its status."""
    words, is_behind, begins = _without_options(given)
    if words:
        make_folder(folder, live_words(words))
    if not folder.is_file("night"):
        told = f"no night in {folder.path}: `start SHOW --to TARGET --cid UUID` begins one"
        raise Failure(told)
    make_files(folder)
    starter = Starter(folder, program, folder.words())
    options = Options(not words, is_behind, begins)
    if is_behind:
        return _start_behind(folder, starter, options)
    return keep_night(folder, starter, options)
