"""A table of what each cue lights, to hold against the old console's printout: cue, channel and
percent, by the console's own channels."""

import argparse
import csv
import io
from collections.abc import Callable, Iterator
from html import escape
from pathlib import Path

from cueplayer_tools.convert.conversion import Conversion
from cueplayer_tools.convert.exports.records import Cue
from cueplayer_tools.cue_list import name_in
from cueplayer_tools.line_protocol import Refused, cue_word
from cueplayer_tools.picture.curves import ranges
from cueplayer_tools.sheet.changes import percent
from cueplayer_tools.sheet.page import document_of

Levels = list[tuple[int, int]]
TITLE = "each cue's channels in percent, to hold against the console's printout"
_ABOUT = (
    "The channels of each cue with their levels in percent, by the numbers that the console gives"
    " them. Tick a cue once it agrees with the console's printout."
)
_HEADS = (("Cue", "number"), ("Label", "name"), ("Channels", "held"), ("Agrees", "number"))


def _levels(conversion: Conversion, cue: Cue) -> Levels:
    """The channels that a cue lights, by their numbers in the export."""
    named = conversion.channels
    lit = ((named.get(channel, channel), byte) for channel, byte in cue.levels.items() if byte)
    return sorted(lit)


def _groups(levels: Levels) -> list[str]:
    """Channels of one level together, in the order of the first of them."""
    together: dict[int, list[int]] = {}
    for channel, byte in levels:
        together.setdefault(byte, []).append(channel)
    return [f"{ranges(channels)} at {percent(byte)}" for byte, channels in together.items()]


def _rows(conversion: Conversion) -> Iterator[tuple[Cue, Levels]]:
    for cue in conversion.cues:
        yield cue, _levels(conversion, cue)


def table_lines(conversion: Conversion) -> list[str]:
    """The table as lines of the report, one a cue."""
    rows = [
        f"table: cue {cue_word(cue.key)}: {'; '.join(_groups(levels)) or 'dark'}"
        for cue, levels in _rows(conversion)
    ]
    return [f"table: {TITLE}", *rows] if rows else []


def table_csv(conversion: Conversion, _: str) -> str:
    """The table with a row for each channel of a cue; a dark cue has a row without one."""
    out = io.StringIO()
    writer = csv.writer(out, lineterminator="\n")
    writer.writerow(("cue", "channel", "percent"))
    for cue, levels in _rows(conversion):
        for channel, byte in levels:
            writer.writerow((cue_word(cue.key), channel, percent(byte).replace("full", "100")))
        if not levels:
            writer.writerow((cue_word(cue.key), "", 0))
    return out.getvalue()


def table_page(conversion: Conversion, name: str) -> str:
    """The table as a page to print."""
    head = "".join(f'<th class="{kind}">{text}</th>' for text, kind in _HEADS)
    rows = [
        f'<tr><td class="cue">{cue_word(cue.key)}</td>'
        f'<td class="label">{escape(name_in(cue.label))}</td>'
        f"<td>{escape('; '.join(_groups(levels)) or 'dark')}</td><td></td></tr>"
        for cue, levels in _rows(conversion)
    ]
    top = f'<table class="cues"><thead><tr>{head}</tr></thead><tbody>'
    return document_of(name, f"{name}, as converted", _ABOUT, [top, *rows, "</tbody></table>"])


_FORMS: dict[str, Callable[[Conversion, str], str]] = {".csv": table_csv, ".html": table_page}


def table_file(word: str) -> Path:
    """A file that a table can be written to, by the form that its name ends with."""
    if Path(word).suffix.lower() not in _FORMS:
        forms = " or ".join(_FORMS)
        raise argparse.ArgumentTypeError(f"not a name that ends with {forms}: {word!r}")
    return Path(word)


def write_table(file: Path, conversion: Conversion, name: str) -> None:
    """Writes the table to a file; Refused where that cannot be done."""
    text = _FORMS[file.suffix.lower()](conversion, name)
    try:
        file.write_text(text, encoding="utf-8", errors="replace")
    except OSError as fault:
        raise Refused(f"{file}: {fault.strerror}") from fault
