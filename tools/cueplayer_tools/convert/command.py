"""`tools/convert`: makes a show file of another console's export, and reports what became of it."""

import argparse
import sys
import tempfile
from pathlib import Path

from cueplayer_tools.convert.compared import differences
from cueplayer_tools.convert.conversion import Conversion, convert
from cueplayer_tools.convert.exports.forms import whole
from cueplayer_tools.convert.exports.records import Choices
from cueplayer_tools.convert.report import DOUBT, LOST
from cueplayer_tools.convert.table import table_file, table_lines, write_table
from cueplayer_tools.files import read_whole, write_out
from cueplayer_tools.line_protocol import Refused, count_of, printable
from cueplayer_tools.program import run
from cueplayer_tools.tool_parser import ToolParser

ABOUT = "Makes a show file of another console's export, and reports what became of it."
EXAMPLES = ("tools/convert hamlet.export.asc > hamlet.asc",)
STATUS = """Status 0: nothing was lost that may have held light. 3: something was, and the report
names it. 1: no show was written, and standard error says why."""

# A file that is longer than this is no export of a show.
LONGEST_EXPORT = 67_108_864
# A show was written, and what may have held light was lost.
LIGHT_LOST = 3
UNTRIED = (
    "no real console's export has been tried: hold the table below against the console's printout"
)
TRACKING = (
    "if this export lists only changes, what a cue leaves as it was goes dark: then convert it with"
    " --tracking"
)


def page_number(word: str) -> int:
    number = whole(word)
    if number is None or number > 999_999_999:
        raise argparse.ArgumentTypeError(f"not a number: {word!r}")
    return number


def makers_word(word: str) -> str:
    """A maker's word as it is compared: without its `$`, which a shell would take, in capitals."""
    return word.removeprefix("$").upper()


def content_of(file: str) -> bytes:
    content = read_whole(file, LONGEST_EXPORT + 1)
    if len(content) > LONGEST_EXPORT:
        raise Refused(f"{file}: more than {LONGEST_EXPORT:,} bytes")
    return content


def _notes(show: str) -> list[str]:
    """What the program itself says of the converted show; Refused where it does not take it."""
    ended = run("explain", "--", show)
    if ended.status:
        told = ended.told.splitlines()[:1] or [f"status {ended.status}"]
        raise Refused(f"the converted show is refused, which is a fault of this tool: {told[0]}")
    return [f"explain: {line}" for line in ended.printed.splitlines()]


def _head(name: str, conversion: Conversion) -> list[str]:
    """What was read, as whose export, what there is now, and whether light may be missing."""
    by = conversion.told_by
    told = f" (line {by.number}: {printable(by.said.strip())})" if by else ""
    counts = ", ".join(count_of(count, what) for what, count in conversion.counts.items())
    lost = conversion.report.count(LOST)
    light = f"may be missing in {count_of(lost, 'place')}: put back what is lost below"
    return [
        f"read: {printable(name)}: {conversion.lines} lines of {conversion.style.name}{told}",
        f"kept: {counts}",
        f"light: {light if lost else 'nothing is lost that may have held any'}",
    ]


def _doubts(conversion: Conversion) -> list[str]:
    """What is in doubt of the export as a whole."""
    signs = f"a cue is a whole look here ({conversion.tracking}); {TRACKING}"
    doubts = [conversion.style.hint, signs if conversion.tracking else "", UNTRIED]
    return [f"{DOUBT}: {doubt}" for doubt in doubts if doubt]


def report_of(name: str, content: bytes, conversion: Conversion) -> list[str]:
    """All that is told of a conversion; Refused where the program does not take its show."""
    with tempfile.TemporaryDirectory() as folder:
        before, after = Path(folder) / "before.asc", Path(folder) / "after.asc"
        before.write_bytes(content)
        after.write_bytes(conversion.show)
        notes = _notes(str(after))
        compared = differences(str(before), str(after), not conversion.report.has(LOST))
    found = conversion.report.lines()
    doubts = _doubts(conversion)
    return [
        *_head(name, conversion), *found, *notes, *compared, *doubts, *table_lines(conversion)
    ]  # fmt: skip


def _parser() -> argparse.ArgumentParser:
    parser = ToolParser("convert", ABOUT, EXAMPLES, STATUS)
    add = parser.add_argument
    add("file", metavar="FILE", help="the export; - is standard input")
    page = "takes the cues of page N, which some consoles use for the cue list"
    add("--list", metavar="N", type=page_number, help=page)
    tracking = "each cue keeps the levels of the cue before that it does not list"
    add("--tracking", action="store_true", default=None, help=tracking)
    whole_looks = "each cue is a whole look; by default the levels of the export decide"
    add("--no-tracking", dest="tracking", action="store_false", help=whole_looks)
    inside = "lines that begin with $WORD stand inside a cue, which goes on below them"
    add("--inside", metavar="WORD", type=makers_word, action="append", default=[], help=inside)
    outside = "lines that begin with $WORD open a record of the maker's own"
    add("--outside", metavar="WORD", type=makers_word, action="append", default=[], help=outside)
    table = "writes the channels of each cue in percent, as .csv or, to print, as .html"
    add("--table", metavar="TABLE", type=table_file, action="append", default=[], help=table)
    return parser


def main(words: list[str]) -> int:
    """Runs the tool with these words, and answers its exit status."""
    chosen = _parser().parse_args(words)
    inside, outside = frozenset(chosen.inside), frozenset(chosen.outside)
    try:
        content = content_of(chosen.file)
        conversion = convert(content, Choices(chosen.list, chosen.tracking, inside, outside))
        name = "standard input" if chosen.file == "-" else chosen.file
        print("\n".join(report_of(name, content, conversion)), file=sys.stderr)
        for file in chosen.table:
            write_table(file, conversion, Path(name).name)
        write_out(conversion.show)
    except Refused as refusal:
        print(f"convert: {printable(str(refusal), 300)}", file=sys.stderr)
        return 1
    return LIGHT_LOST if conversion.report.has(LOST) else 0
