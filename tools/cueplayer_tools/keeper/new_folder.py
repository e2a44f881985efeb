"""Makes the folder of a night, with the words of `live`."""

import contextlib
import os
import stat
import time

from cueplayer_tools.keeper.folder import Folder, whole_path
from cueplayer_tools.keeper.lines import make_lines
from cueplayer_tools.keeper.locks import await_lock, is_locked
from cueplayer_tools.keeper.own_record import SECOND, forget_second_name
from cueplayer_tools.keeper.players import find_live
from cueplayer_tools.keeper.show_copy import BEGIN, NEXT
from cueplayer_tools.keeper.streams import Failure, has_control, reason, refusal

# The files of a night, and what those begin with that were kept.
_NAMES = ("night", "in", "replies", "lock", "pid", "spare", "record", "show", "show.next", "begin")
_OURS = (*_NAMES, SECOND)
# For how long a keeper may take to go once its night has ended, in seconds.
_PATIENCE = 1.0


def _check(word: str) -> None:
    """Refuses a word that is none of a night in a folder."""
    if word in ("--record", "--resume", "--spare") or word.startswith("--record="):
        raise refusal(f"leave out {word}: the folder has the record")
    if word.partition("=")[0] in ("--follow", "--patience"):
        raise refusal(f"leave out {word}: a night in a folder goes on in its own record")
    if word in ("-h", "--help"):
        raise refusal(f"no {word} here")
    if has_control(word):
        raise refusal("a word has a control character")


def live_words(given: list[str]) -> list[str]:
    """The words of `live` from a command line, with the show's whole path: they are read from
    other folders too."""
    if not given or not given[0] or given[0].startswith("-"):
        raise refusal("name the SHOW first")
    words = [whole_path(given[0]), *given[1:]]
    for word in words:
        _check(word)
    return words


def _put_aside(folder: Folder) -> None:
    """The record and the replies of a night that has ended are kept under names of their own."""
    written = time.localtime(os.stat(folder.file("record")).st_mtime)
    when = time.strftime("%Y-%m-%dT%H%M%S", written)
    forget_second_name(folder)
    for name in ("record", "replies"):
        if os.path.exists(folder.file(name)):
            try:
                os.rename(folder.file(name), folder.file(f"{name}-{when}"))
            except OSError as fault:
                told = f"cannot put {folder.file(name)} aside: {reason(fault)}"
                raise Failure(told) from fault


def _write(path: str, content: bytes) -> None:
    with open(path, "wb") as file:
        file.write(content)


def write_words(folder: Folder, words: list[str]) -> None:
    """Gives a folder the words of `live`, at once."""
    _write(folder.file("night.new"), b"".join(os.fsencode(word) + b"\n" for word in words))
    os.rename(folder.file("night.new"), folder.file("night"))


def make_folder(folder: Folder, words: list[str]) -> None:
    """Makes what is in a folder, and gives it these words. A night that has begun keeps its
    own."""
    if not os.path.isdir(folder.path):
        try:
            os.mkdir(folder.path)
        except OSError as fault:
            raise Failure(f"cannot make the folder {folder.path}: {reason(fault)}") from fault
    has_ended = folder.has_ended()
    if has_ended:
        # Who has kept a night that ended is about to go.
        await_lock(folder, "lock", _PATIENCE)
    if is_locked(folder, "lock") or find_live(folder) is not None:
        raise Failure(f"the night in {folder.path} is played already")
    if has_ended:
        _put_aside(folder)
    elif folder.has_record() and folder.words() != words:
        told = f"the night in {folder.path} has begun with other words"
        raise Failure(f"{told}: `start` alone goes on with it")
    try:
        write_words(folder, words)
    except OSError as fault:
        raise Failure(f"cannot write {folder.file('night')}: {reason(fault)}") from fault
    make_files(folder)
    for name in () if folder.has_record() else (BEGIN, NEXT):
        with contextlib.suppress(FileNotFoundError):
            os.unlink(folder.file(name))
    # What was said of words that were refused is not of this night.
    if not folder.has_record():
        _write(folder.file("replies"), b"")


def _close(folder: Folder) -> None:
    """Takes the files of a night from others, as an older version left them, and the folder where
    it has nothing else."""
    names = os.listdir(folder.path)
    ours = [name for name in names if name.partition("-")[0] in _OURS]
    for name in ours if len(ours) < len(names) else [*ours, ""]:
        path = folder.file(name)
        mode = stat.S_IMODE(os.lstat(path).st_mode)
        is_link = os.path.islink(path)
        if mode & 0o077 and not is_link and os.lstat(path).st_uid == os.geteuid():
            os.chmod(path, mode & 0o700)


def make_files(folder: Folder) -> None:
    """Makes the files that a night is played by. They are nobody else's."""
    try:
        make_lines(folder)
    except OSError as fault:
        raise Failure(f"cannot make the FIFO {folder.file('in')}: {reason(fault)}") from fault
    try:
        for name in ("replies", "lock"):
            with open(folder.file(name), "ab"):
                pass
        _close(folder)
    except OSError as fault:
        raise Failure(f"cannot write in {folder.path}: {reason(fault)}") from fault
