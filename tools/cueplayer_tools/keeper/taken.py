"""What became of a command without an answer, as where the disk has no room for one: the record has
it before it is carried out, and room of its own."""

import contextlib

from cueplayer_tools.cue_list import read_show
from cueplayer_tools.keeper.folder import Folder
from cueplayer_tools.keeper.last_cue import cue_at_end
from cueplayer_tools.keeper.show_copy import COPY
from cueplayer_tools.keeper.streams import complain
from cueplayer_tools.line_protocol import MOVES, Refused, cue_word, thousandths_of
from cueplayer_tools.record import Given, given_in, words_of

_MOST = 1 << 30


def _find(record: bytes, line: str, start: int) -> tuple[Given, int, int] | None:
    """The last line behind so many bytes that asks for the same, and where it begins and ends."""
    wanted = given_in(["0", *words_of("end" if line == "leave" else line)])
    end = record.rfind(b"\n") + 1
    for part in reversed(record[start:end].split(b"\n")[:-1]):
        begin = end - len(part) - 1
        given = given_in(words_of(part.decode("latin-1")))
        if given is not None and wanted is not None and given.words == wanted.words:
            return given, begin, end
        end = begin
    return None


def _came_to(folder: Folder, record: bytes, found: tuple[Given, int, int]) -> tuple[bool, str]:
    """Whether a move was made, and the cue that it came to. Refused where that cannot be known."""
    given, begin, end = found
    show = read_show(folder.file(COPY))
    before, after = cue_at_end(record[:begin], show), cue_at_end(record[:end], show)
    is_there = given.words[0] == "goto" and thousandths_of(given.words[1]) == after
    is_made = after is not None and (after != before or is_there)
    return is_made, "" if after is None else cue_word(after)


def tell_taken(folder: Folder, line: str, start: int) -> int | None:
    """Tells what the record, behind so many bytes, says of a command; its status, and None where it
    says nothing."""
    record = folder.read("record", 0, _MOST)
    found = _find(record, line, start)
    if found is None:
        return None
    is_made, told = True, "live took it"
    if found[0].words[0] in MOVES:
        with contextlib.suppress(Refused, OSError):
            is_made, cue = _came_to(folder, record, found)
            told = f"cue {cue} came" if is_made else f"{line} changed nothing"
    record_says = f"by the record {told} at {found[0].moment}"
    complain(f"no answer within a second: {record_says}; `status` says what is wrong")
    return 0 if is_made else 1
