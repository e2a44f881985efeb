"""Whether an export is whole: its first line, its last one, and what stands outside of them."""

from cueplayer_tools.convert.exports.text import Line, comments_of, decode, lines_of
from cueplayer_tools.convert.exports.words import KINDS, held_levels
from cueplayer_tools.convert.report import CHANGED, DOUBT, LOST, Report, line_text

MOST_HEADS = 20
_ADD = "if the export is whole, add the line and convert it again"


def _head(line: Line) -> str:
    """What a CUE, SUB or GROUP line opens."""
    return line_text(f"{KINDS[line.first]} {' '.join(line.words[1:2])}".strip())


def _tell_behind(lines: list[Line], report: Report) -> None:
    """Tells of the lines behind ENDDATA."""
    behind = [line for line in lines if line.first != "ENDDATA"]
    if not behind:
        return
    numbers = [number for line in behind for number in line.numbers]
    heads = [_head(line) for line in behind if line.first in KINDS]
    more = f" and {len(heads) - MOST_HEADS} more" if len(heads) > MOST_HEADS else ""
    named = f": {', '.join(heads[:MOST_HEADS])}{more}" if heads else ""
    report.add_of_file(LOST, numbers, f"lines behind ENDDATA{named}")


def _tell_cut(lines: list[Line], report: Report) -> None:
    """Tells of a missing ENDDATA: where the export may have been cut."""
    last = next((line for line in reversed(lines) if line.first in KINDS), None)
    within = f", in {_head(last)}" if last else ""
    where = f"behind line {lines[-1].numbers[-1]}{within}"
    report.add_of_file(LOST, (), f"no ENDDATA line: the export may be cut {where}; {_ADD}")


def text_of(content: bytes, report: Report) -> str:
    """The text of an export."""
    text, changes = decode(content)
    for change in changes:
        report.add(CHANGED, (), change)
    for number, comment in comments_of(text):
        held = held_levels(comment)
        if held:
            told = f"a comment holds {line_text(held)}: is a line end missing?"
            report.add(DOUBT, number, told)
    return text


def lines_in(text: str, report: Report) -> tuple[list[Line], bool]:
    """The lines of an export up to ENDDATA, and whether that is there."""
    found = list(lines_of(text))
    ends = [at for at, line in enumerate(found) if line.first == "ENDDATA"]
    lines = found[: ends[0] + 1] if ends else found
    if ends:
        _tell_behind(found[ends[0] + 1 :], report)
    elif lines:
        _tell_cut(lines, report)
    if lines and all(line.first != "IDENT" for line in lines):
        where = "the beginning of the export may be missing"
        report.add_of_file(LOST, (), f"no IDENT line: {where}; {_ADD}")
    return lines, bool(ends)
