"""A night that begins anew: in the cue in which it was, where its record cannot be taken up."""

import contextlib
import os

from cueplayer_tools.keeper.aside import put_aside
from cueplayer_tools.keeper.endings import AGAIN
from cueplayer_tools.keeper.folder import Folder
from cueplayer_tools.keeper.last_cue import find_last_cue
from cueplayer_tools.keeper.show_copy import BEGIN, find_show, put_file
from cueplayer_tools.keeper.streams import reason


def place_of(cue: str | None) -> str:
    return "before its first cue" if cue is None else f"in cue {cue}, its masters at full"


def begin_anew(folder: Folder, named: str, told: str) -> tuple[bool, str]:
    """Keeps a record that cannot be taken up under another name, so that the next start begins the
    night in the cue in which it was, also where this is cut off; whether that was done, and what
    is told of it."""
    cue = find_last_cue(folder, find_show(folder, named))
    try:
        put_file(folder, BEGIN, os.fsencode(f"{cue or ''}\n"))
        kept = put_aside(folder, "record", "refused")
    except OSError as fault:
        with contextlib.suppress(OSError):
            os.unlink(folder.file(BEGIN))
        return False, f"{told}: cannot put {folder.file('record')} aside: {reason(fault)}; {AGAIN}"
    return True, f"{told}: the night starts again {place_of(cue)}; the record is kept as {kept}"
