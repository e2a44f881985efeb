"""Another show for a night that has begun: it is checked at once, and counts from the next `start`.

The program takes up a record with the show of that record alone. So the night starts again in the
cue in which it is then: receivers hold the light from `halt` to `start`.
"""

import os
import subprocess

from cueplayer_tools.cue_list import read_show
from cueplayer_tools.keeper.anew import place_of
from cueplayer_tools.keeper.aside import put_aside
from cueplayer_tools.keeper.folder import Folder, whole_path
from cueplayer_tools.keeper.last_cue import find_cue
from cueplayer_tools.keeper.show_copy import BEGIN, COPY, NEXT, find_show, put_file, read_show_file
from cueplayer_tools.keeper.streams import Failure, reason, refusal, show_line
from cueplayer_tools.line_protocol import Refused, cue_word

_UNCHANGED = "nothing was changed"


def _checked(program: str, path: str) -> bytes:
    """What stands in the file of a show that has no fault."""
    content = read_show_file(path)
    done = subprocess.run([program, "check", "--", path], capture_output=True, check=False)
    if content is None or done.returncode:
        told = done.stderr.decode("ascii", "replace").strip().replace("\n", "; ")
        raise Failure(f"{path}: {told or 'no file'}; {_UNCHANGED}")
    return content


def update_night(folder: Folder, given: list[str], program: str) -> int:
    """Checks another show, and keeps it for the next start; its status."""
    if len(given) != 1 or not given[0] or given[0].startswith("-"):
        raise refusal("update wants a SHOW")
    if not folder.is_file("night"):
        raise Failure(f"no night in {folder.path}")
    path = whole_path(given[0])
    content = _checked(program, path)
    if folder.has_ended() or not folder.has_record():
        told = f"no night has begun in {folder.path}: `start SHOW ..` begins one with this show"
        raise Failure(f"{told}; {_UNCHANGED}")
    cue = find_cue(folder, find_show(folder, folder.words()[0]))
    cues = read_show(path)
    if cue is not None and cue not in cues.cues:
        about = [cues.previous_cue(cue), cues.next_cue(cue)]
        there = " and ".join(cue_word(each) for each in about if each is not None) or "none"
        told = f"cue {cue_word(cue)} is on, and {path} has no such cue, but {there}"
        raise Failure(f"{told}: go to a cue that both have, and update again; {_UNCHANGED}")
    try:
        put_file(folder, NEXT, content)
    except OSError as fault:
        told = f"cannot write {folder.file(NEXT)}: {reason(fault)}; {_UNCHANGED}"
        raise Failure(told) from fault
    place = place_of(None if cue is None else cue_word(cue))
    begins = f"the night starts again with it at the next `start`, {place} if that is on then"
    show_line(f"{path} is kept: {begins}; `halt`, `start` and a restart of the desks do that now")
    return 0


def take_update(folder: Folder, named: str) -> str | None:
    """Begins the night anew with the show that an update left, where no `live` plays; what is told
    of it, None where there is none. If this is cut off, the next start does what is left of it."""
    path = folder.file(NEXT)
    if not folder.is_file(NEXT) or folder.has_ended():
        return None
    try:
        if not folder.has_record():
            os.rename(path, folder.file(COPY))
            return None
        cue = find_cue(folder, find_show(folder, named))
        word = "" if cue is None else cue_word(cue)
        if cue is not None and cue not in read_show(path).cues:
            told = f"cue {word} is on, and the updated show has no such cue"
            return f"{told}: the night goes on with the show that it had; `update` it again"
        put_file(folder, BEGIN, os.fsencode(f"{word}\n"))
        kept = put_aside(folder, "record", "updated")
        os.rename(path, folder.file(COPY))
    except (OSError, Refused) as fault:
        why = reason(fault) if isinstance(fault, OSError) else str(fault)
        return f"the updated show is not played: {why}; the night goes on as it was"
    place = place_of(word or None)
    return f"the night starts again {place}, with the updated show; its record is kept as {kept}"
