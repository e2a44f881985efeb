"""`tools/sheet`: makes a cue sheet for the stage manager's book, one HTML page to print."""

import argparse
import hashlib
import sys
import tempfile
from pathlib import Path

from cueplayer_tools.channel_levels import levels_of
from cueplayer_tools.cue_list import read_show
from cueplayer_tools.files import read_whole, write_out
from cueplayer_tools.line_protocol import Refused, count_of
from cueplayer_tools.looks import looks_of
from cueplayer_tools.sheet.notes import notes_of
from cueplayer_tools.sheet.page import Sheet, page_of
from cueplayer_tools.tool_parser import ToolParser

ABOUT = "Makes a cue sheet for the stage manager's book, one HTML page to print."
EXAMPLES = ("tools/sheet hamlet.asc > hamlet.html",)

# One byte more than the longest show, so that the program refuses what is longer.
MOST_READ = 1_048_577


def sheet_of(content: bytes, name: str, title: str | None) -> Sheet:
    """The sheet of a show; Refused in the program's own words where it has a fault."""
    with tempfile.TemporaryDirectory() as folder:
        file = Path(folder) / "show.asc"
        file.write_bytes(content)
        show = read_show(str(file))
        looks = looks_of(str(file), show)
        levels = levels_of(content, show, Path(folder))
    digest = hashlib.sha256(content).hexdigest()
    origin = f"{name}: {count_of(len(show.cues), 'cue')}, SHA-256 {digest}"
    return Sheet(title or Path(name).name, origin, show, looks, levels, notes_of(content))


def _parser() -> argparse.ArgumentParser:
    parser = ToolParser("sheet", ABOUT, EXAMPLES)
    parser.add_argument("show", metavar="SHOW", help="a show file; - is standard input")
    title = "the name of the show; by default that of the file"
    parser.add_argument("--title", metavar="TEXT", help=title)
    return parser


def main(words: list[str]) -> int:
    """Runs the tool with these words, and answers its exit status."""
    chosen = _parser().parse_args(words)
    name = "standard input" if chosen.show == "-" else Path(chosen.show).name
    try:
        sheet = sheet_of(read_whole(chosen.show, MOST_READ), name, chosen.title)
        write_out(page_of(sheet).encode("utf-8", errors="replace"))
    except Refused as refusal:
        print(f"sheet: {refusal}", file=sys.stderr)
        return 1
    return 0
