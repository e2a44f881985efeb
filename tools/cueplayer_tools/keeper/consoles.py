"""Whether another console of this machine sends under a CID, whoever has begun it and how.

Receivers take two consoles of one CID for one source, and the light goes to and fro between them.
`live` has a lock for that, in a folder that hangs on how it was begun: a unit, a timer and a login
have one each. So each folder is looked into, and each process that can be seen.
"""

import glob
import os
import time

from cueplayer_tools.keeper.folder import Folder
from cueplayer_tools.keeper.locks import find_holder
from cueplayer_tools.keeper.players import is_live

# A console that ends may take so many seconds to let go.
PATIENCE = 1.0
# How often it is looked, while a night is played, for another console, in seconds.
_EVERY = 5.0
_LOOK_EVERY = 0.05
# Where `live` has the lock of a CID, as docs/FORMATS.md has it, and where the units have it.
_FOLDERS = ("/run/user/*/cueplayer", "/tmp/cueplayer-*", "/run/cueplayer/cueplayer")
_LONGEST = 1 << 17


def cids_in(words: list[str]) -> list[str]:
    """The CIDs among the words of `live`."""
    options = [word.partition("=") for word in words]
    behind = zip(options, [*words[1:], ""])
    return [value or after for (name, _, value), after in behind if name == "--cid"]


def lock_files(cid: str) -> list[str]:
    """The files that may be the lock of a CID, of those that can be seen."""
    named = os.environ.get("XDG_RUNTIME_DIR")
    own = [] if not named else [os.path.join(named, "cueplayer")]
    folders = own + [each for pattern in _FOLDERS for each in glob.glob(pattern)]
    return [os.path.join(each, f"{cid.replace('-', '').lower()}.lock") for each in folders]


def _network(number: int | str) -> str:
    """Which network a process is in; nothing where that is not to be seen."""
    try:
        return os.readlink(f"/proc/{number}/ns/net")
    except OSError:
        return ""


def _plays(number: str, cid: str) -> bool:
    """Whether a process is a `live` of this CID, in this network as far as can be seen."""
    try:
        with open(f"/proc/{number}/cmdline", "rb") as file:
            words = file.read(_LONGEST).split(b"\0")
    except OSError:
        return False
    # The program, or the script that starts it.
    if b"live" not in words[1:3]:
        return False
    cids = cids_in([each.decode("latin-1") for each in words])
    is_one = any(each.lower() == cid.lower() for each in cids)
    return is_one and _network(number) in ("", _network("self"))


def find_console(cid: str, folder: Folder | None = None) -> int | None:
    """The number of a process that plays under a CID, and not the night of this folder; None where
    none is seen."""
    found = [find_holder(path) for path in lock_files(cid)]
    found += [int(name) for name in os.listdir("/proc") if name.isdigit() and _plays(name, cid)]
    others = (each for each in found if each is not None)
    return next((each for each in others if folder is None or not is_live(folder, each)), None)


def await_free(cid: str, folder: Folder | None = None) -> int | None:
    """The number of a process that goes on to play under a CID; None where none does."""
    until = time.monotonic() + PATIENCE
    while (found := find_console(cid, folder)) is not None and time.monotonic() < until:
        time.sleep(_LOOK_EVERY)
    return found


def told_of(number: int) -> str:
    """What is told of another console."""
    told = "another console sends under this CID, and the light goes to and fro"
    return f"{told}: end process {number}, `kill {number}`"


class Others:
    """Whether another console plays under the CID of a night while that is played: a `live` that is
    started by hand looks into one folder alone."""

    def __init__(self, folder: Folder, words: list[str]) -> None:
        self.folder, self.cids = folder, cids_in(words)
        self.looked = time.monotonic()
        # Which one was seen at the last look, and whether that was told.
        self.seen: int | None = None
        self.is_told = False

    def look(self) -> str | None:
        """What is told of it now; None where that is nothing. One that is about to end is not."""
        if time.monotonic() - self.looked < _EVERY:
            return None
        self.looked = time.monotonic()
        found = find_console(self.cids[0], self.folder) if self.cids else None
        was_seen, self.seen = self.seen is not None, found
        if found is not None and was_seen and not self.is_told:
            self.is_told = True
            return told_of(found)
        if found is None and self.is_told:
            self.is_told = False
            return "no other console sends under this CID any more"
        return None
