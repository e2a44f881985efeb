"""The record of a desk's night: a new one beside the show, or the one of a night that broke off."""

import argparse
import atexit
import contextlib
import hashlib
import os
import re
import shlex
import time
import uuid
from collections.abc import Callable
from pathlib import Path

from cueplayer_tools.asking import is_at_terminal, says_yes
from cueplayer_tools.keeper.folder import Folder, has_end
from cueplayer_tools.keeper.locks import is_locked
from cueplayer_tools.line_protocol import Refused, printable

_HEAD = re.compile(r"! cueplayer record 1: show ([0-9a-f]{64})\n! cid ([0-9a-f-]{36}), .*\n")
_WHEN = r"-\d{4}-\d\d-\d\dT\d{6}(?:-\d+)?\.play"
_MOST = 4096
# A night that broke off longer ago is not this evening's.
SAME_EVENING = 12 * 3600.0
MOST_NAMES = 100


def _named(path: Path) -> str:
    return printable(str(path), 300)


def folder_beside(show: str) -> Path | None:
    """Where a night's files go: beside its show, or here where nothing can be written there; None
    where nothing can be written here either."""
    for folder in (Path(show).absolute().parent, Path.cwd()):
        if os.access(folder, os.W_OK | os.X_OK):
            return folder
    return None


def new_record(show: str) -> Path:
    """A new file that has no byte yet, named by the date and the time: nobody else begins a night
    in it."""
    folder = folder_beside(show)
    if folder is None:
        told = "no record can be kept beside the show, nor here"
        raise Refused(f"{told}: name one by --record FILE, or leave it out by --no-record")
    name = f"{Path(show).stem}-{time.strftime('%Y-%m-%dT%H%M%S', time.localtime())}"
    for number in range(1, MOST_NAMES):
        file = folder / (f"{name}.play" if number == 1 else f"{name}-{number}.play")
        with contextlib.suppress(FileExistsError):
            _make(file)
            return file
    raise Refused(f"{MOST_NAMES} records began in this second: name one by --record FILE")


def _make(file: Path) -> None:
    """Makes a file, which goes again where no night begins in it."""
    try:
        os.close(os.open(file, os.O_WRONLY | os.O_CREAT | os.O_EXCL, 0o666))
    except FileExistsError:
        raise
    except OSError as fault:
        told = f"{_named(file)}: {fault.strerror}"
        raise Refused(f"{told}: name a record by --record FILE, or leave it out") from fault
    atexit.register(_forget_unused, file)


def _is_begun(file: Path) -> bool:
    """Whether it has a byte."""
    with contextlib.suppress(OSError):
        return file.is_file() and file.stat().st_size > 0
    return False


def _forget_unused(file: Path) -> None:
    with contextlib.suppress(OSError):
        if not _is_begun(file):
            file.unlink()


def newest_record(show: str) -> Path | None:
    """The one of this show that was written last, if there is any."""
    folder, name = folder_beside(show), re.compile(re.escape(Path(show).stem) + _WHEN)
    files = () if folder is None else folder.iterdir()
    found = [each for each in files if name.fullmatch(each.name) and _is_begun(each)]
    return max(found, key=_age_and_name) if found else None


def _age_and_name(file: Path) -> tuple[float, str]:
    return file.stat().st_mtime, file.name


def _is_played(file: Path) -> bool:
    return is_locked(Folder(str(file.parent)), file.name)


def broke_off(file: Path) -> bool:
    """Whether the night of a record has begun, has not ended, and nobody plays it."""
    folder = Folder(str(file.parent))
    start = max(folder.size(file.name) - _MOST, 0)
    tail = folder.read(file.name, start, _MOST)
    return bool(tail) and not has_end(tail) and not _is_played(file)


def _head_of(file: Path) -> tuple[str | None, uuid.UUID | None]:
    """The checksum of the show in a record's head, and the CID."""
    head = Folder(str(file.parent)).read(file.name, 0, _MOST).decode("latin-1")
    found = _HEAD.match(head)
    return (None, None) if found is None else (found[1], uuid.UUID(found[2]))


def _is_of_this_evening(file: Path) -> bool:
    return abs(time.time() - file.stat().st_mtime) < SAME_EVENING


def _offer(words: argparse.Namespace, file: Path, tell: Callable[[str], None]) -> bool:
    """Whether the night that broke off is to go on, instead of a new one: asked at a terminal, and
    else told how."""
    when = time.strftime("%H:%M", time.localtime(file.stat().st_mtime))
    told = f"a night of this show broke off at {when}: {_named(file)}"
    if _head_of(file)[0] != hashlib.sha256(Path(words.show).read_bytes()).hexdigest():
        tell(f"{told}; the show file has changed since, so this is a new night")
        return False
    if is_at_terminal():
        return says_yes(f"desk: {told}\ndesk: y goes on where it was, n begins a new night: ")
    command = shlex.join([*words.command, "--record", str(file), "--resume"])
    told = f"{told}; this is a new night, and this goes on with the other"
    tell(f"{told}: {printable(command, 2000)}")
    return False


def _record_to_resume(show: str) -> Path:
    """The newest record of a show, whose night has not ended."""
    newest = newest_record(show)
    if newest is None:
        raise Refused("nothing to go on with: no record of this show is here; name it by --record")
    if not (broke_off(newest) or _is_played(newest)):
        raise Refused(f"the night of {_named(newest)} has ended: leave out --resume")
    return newest


def _offered(words: argparse.Namespace, tell: Callable[[str], None]) -> Path | None:
    """The record of a night that broke off this evening and is to go on, if there is one."""
    newest = newest_record(words.show)
    if newest is None or not _is_of_this_evening(newest) or not broke_off(newest):
        return None
    return newest if _offer(words, newest, tell) else None


def choose_record(words: argparse.Namespace, tell: Callable[[str], None]) -> None:
    """Gives the words of a new night its record, and its CID where it goes on."""
    if words.no_record:
        return
    file = None if words.record is None else Path(words.record)
    if words.resume:
        file = file or _record_to_resume(words.show)
    elif file is None:
        file = _offered(words, tell)
        words.resume = file is not None or None
    if words.resume and file is not None:
        words.cid = words.cid or _head_of(file)[1]
    words.record = str(file or new_record(words.show))


def played_record(words: argparse.Namespace) -> str:
    """What to do once a `live` has ended that no desk has any more, and that has such a record."""
    if words.no_record:
        return ""
    given = None if words.record is None else Path(words.record)
    files = [each for each in (given, newest_record(words.show)) if each and each.is_file()]
    if not any(map(_is_played, files)):
        return ""
    return "; then the same command with --resume goes on where it was"
