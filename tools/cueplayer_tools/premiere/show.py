"""The show of a premiere: a show file as it is, or what `convert` makes of another console's
export."""

import re
from collections.abc import Callable
from dataclasses import dataclass, field

from cueplayer_tools.convert.command import content_of, report_of
from cueplayer_tools.convert.conversion import convert
from cueplayer_tools.convert.exports.records import Choices
from cueplayer_tools.convert.report import LOST
from cueplayer_tools.line_protocol import Refused, printable
from cueplayer_tools.program import run

# A console's export names its console, or has records of the maker's own. What `convert` has made
# says so, and is not converted again: somebody may have mended it by hand.
_EXPORT = re.compile(rb"(?im)^[ \t]*(?:CONSOLE|MANUFACTURER|\$\$?[a-z]+)[ \t]")
_CONVERTED = re.compile(rb"(?m)^! From an export of .*, by convert\.")
# Lines of the report that are shown; the whole of it stands in its file.
MOST_SHOWN = 12
_HEADS = ("read: ", "kept: ", "light: ")


class LightLost(Refused):
    """What may have held light was lost in a conversion."""


@dataclass(frozen=True)
class Made:
    """A show file's content, and the report of its conversion."""

    content: bytes
    report: list[str] = field(default_factory=list)


def is_export(content: bytes) -> bool:
    """Whether this comes from another console, as it is."""
    return bool(_EXPORT.search(content)) and not _CONVERTED.search(content)


def _converted(file: str, content: bytes, is_anyway: bool, tell: Callable[[str], None]) -> Made:
    conversion = convert(content, Choices())
    report = report_of(file, content, conversion)
    shown = [line for line in report if line.startswith(_HEADS) or f": {LOST}: " in line]
    for line in shown[:MOST_SHOWN]:
        tell(printable(line, 300))
    if len(shown) > MOST_SHOWN:
        tell(f"and {len(shown) - MOST_SHOWN} lines more, as `tools/convert` tells them")
    lost = conversion.report.count(LOST)
    if lost and not is_anyway:
        raise LightLost(
            "light may be missing, and nothing was begun: put it back in what `tools/convert` "
            "makes of the export, and play that; --anyway plays it as it is"
        )
    return Made(conversion.show, report)


def made_show(file: str, is_anyway: bool, tell: Callable[[str], None]) -> Made:
    """The show to play; Refused where it has a fault, LightLost where an export has lost some.
    `tell` gets what the operator has to know."""
    content = content_of(file)
    if is_export(content):
        return _converted(file, content, is_anyway, tell)
    checked = run("check", "--", file)
    if checked.status:
        raise Refused(checked.told.strip() or f"check ended with status {checked.status}")
    notes = run("explain", "--", file).printed.splitlines()
    for line in notes[:MOST_SHOWN]:
        tell(printable(line, 300))
    if len(notes) > MOST_SHOWN:
        tell(f"and {len(notes) - MOST_SHOWN} notes more: `cueplayer explain` has them")
    return Made(content)
