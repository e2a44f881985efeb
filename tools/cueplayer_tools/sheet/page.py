"""The page of a printed cue sheet: one HTML file that loads nothing and has no scripts."""

from dataclasses import dataclass
from html import escape

from cueplayer_tools.channel_levels import Levels
from cueplayer_tools.cue_list import Rate, Record, Show
from cueplayer_tools.line_protocol import cue_word
from cueplayer_tools.looks import Look
from cueplayer_tools.picture.axis import clock
from cueplayer_tools.sheet.changes import change_lines, changes, patched_levels, patched_lines
from cueplayer_tools.sheet.notes import Notes, page_in
from cueplayer_tools.sheet.patch import patch_words

_STYLE = """
@page{margin:15mm 12mm}
:root{color-scheme:light}
body{font:10pt/1.3 system-ui,sans-serif;color:#000;background:#fff;margin:0 auto;max-width:190mm}
h1{font-size:16pt;margin:0 0 1mm;overflow-wrap:anywhere}
h2{font-size:12pt;margin:6mm 0 2mm;break-after:avoid}
p{margin:0 0 3mm;overflow-wrap:anywhere}.faint{color:#555;font-size:8.5pt}
table{width:100%;border-collapse:collapse}thead{display:table-header-group}
tr{break-inside:avoid}
th{text-align:left;font-size:8.5pt;border-bottom:1.5pt solid #000;padding:1mm 2mm}
td{vertical-align:baseline;border-bottom:.5pt solid #999;padding:1.5mm 2mm}
.cues{table-layout:fixed}th,td{box-sizing:border-box}.cues td{overflow-wrap:anywhere}
.number{width:13%}.name{width:22%}.time{width:10.5%}.what{width:26%;font-size:8.5pt}
.page{width:6%}.call{width:12%}.held{width:52%}
.cue{font-size:13pt;font-weight:700;white-space:nowrap}.label{font-weight:600}
.follows{border-left:3pt solid #000}.small{font-size:8.5pt;font-weight:400}
.kind{font-weight:700}.records{width:auto}
@media screen{body{padding:10mm}}
"""
_LEVELS = (
    "What changes against the cue above: channels, in percent. Where the patch gives dimmers"
    " another level, that of the brightest stands behind it."
)
_UNPATCHED = "No dimmer is patched: no cue lights anything."
# The columns, and their kinds. In the last, and where no page is named, the stage manager writes.
_HEADS = (
    ("Cue", "number"),
    ("Page", "page"),
    ("Label", "name"),
    ("Up", "time"),
    ("Down", "time"),
    ("What changes", "what"),
    ("Called at", "call"),
)
_POLICY = "default-src 'none'; style-src 'unsafe-inline'"


@dataclass(frozen=True)
class Sheet:
    """All that a cue sheet shows."""

    title: str
    # Which file it is of, in words.
    origin: str
    show: Show
    looks: dict[int, Look]
    # Of each cue, the channels that are not at 0, and what the show says beside its label.
    levels: dict[int, Levels]
    notes: Notes


def _rate(rate: Rate) -> str:
    """A time, and below it the delay before it."""
    delay = f'<div class="small">after {clock(rate.delay)}</div>' if rate.delay else ""
    return f"{clock(rate.time)}{delay}"


def _follow_ons(sheet: Sheet) -> dict[int, tuple[int, int]]:
    """The cues that go by themselves: behind which cue, and how long after it."""
    found = {}
    for number in sheet.show.order:
        follow, following = sheet.show.cues[number].follow, sheet.show.next_cue(number)
        if follow is not None and following is not None:
            found[following] = number, follow
    return found


def _row(sheet: Sheet, number: int, by: tuple[int, int] | None, what: str) -> str:
    kind, by_itself = "", ""
    if by is not None:
        kind = ' class="follows"'
        told_by = f"by itself, {clock(by[1])} after cue {cue_word(by[0])}"
        by_itself = f'<div class="small">{told_by}</div>'
    cue, notes = sheet.show.cues[number], sheet.notes.get(number, [])
    told = [note for note in dict.fromkeys(notes) if note != cue.name]
    small = "".join(f'<div class="small">{escape(note)}</div>' for note in told)
    return (
        f'<tr{kind}><td><span class="cue">{cue_word(number)}</span>{by_itself}</td>'
        f"<td>{escape(page_in(cue.name, notes))}</td>"
        f'<td class="label">{escape(cue.name)}{small}</td>'
        f'<td class="time">{_rate(cue.rise)}</td><td class="time">{_rate(cue.fall)}</td>'
        f'<td class="what">{what}</td><td></td></tr>'
    )


def _what(sheet: Sheet, number: int, before: Levels) -> str:
    """What a cue changes against the levels before it."""
    found = changes(before, sheet.levels[number])
    lines = change_lines(found)
    if sheet.show.patch:
        lines += patched_lines(found, patched_levels(sheet.show, sheet.looks[number]))
    text = "".join(f'<div><span class="kind">{kind}</span> {what}</div>' for kind, what in lines)
    return text or '<span class="faint">nothing</span>'


def _cues(sheet: Sheet) -> list[str]:
    followed, rows = _follow_ons(sheet), []
    before: Levels = {}
    for number in sheet.show.order:
        rows.append(_row(sheet, number, followed.get(number), _what(sheet, number, before)))
        before = sheet.levels[number]
    head = "".join(f'<th class="{kind}">{name}</th>' for name, kind in _HEADS)
    top = f'<table class="cues"><thead><tr>{head}</tr></thead><tbody>'
    return [top, *rows, "</tbody></table>"]


def _records(name: str, records: dict[int, Record]) -> list[str]:
    if not records:
        return []
    rows = [
        f'<tr><td class="cue">{number}</td><td class="label">{escape(record.name)}</td></tr>'
        for number, record in sorted(records.items())
    ]
    return [f"<h2>{name}</h2>", '<table class="records"><tbody>', *rows, "</tbody></table>"]


def _patch(show: Show) -> list[str]:
    if not show.patch:
        return []
    told = "Channels, each with its slots: universe/slot, from universe 1, and the level at full."
    words = "; ".join(each.replace(" ", "\N{NO-BREAK SPACE}") for each in patch_words(show))
    return ["<h2>Patch</h2>", f'<p class="faint">{told}</p>', f"<p>{words}</p>"]


def document_of(title: str, origin: str, explained: str, body: list[str]) -> str:
    """A page to print, as a file: its title, what it is of, what it shows, and that."""
    return "\n".join(
        [
            "<!DOCTYPE html>",
            '<html lang="en"><head><meta charset="utf-8">',
            f'<meta http-equiv="Content-Security-Policy" content="{_POLICY}">',
            '<meta name="viewport" content="width=device-width, initial-scale=1">',
            f"<title>{escape(title)}</title>",
            f"<style>{_STYLE}</style></head><body>",
            f"<h1>{escape(title)}</h1>",
            f'<p class="faint">{escape(origin)}</p>',
            f"<p>{explained}</p>",
            *body,
            "</body></html>",
            "",
        ]
    )


def page_of(sheet: Sheet) -> str:
    """The page of a cue sheet."""
    explained = f"Cues in the order of GO. {_LEVELS if sheet.show.patch else _UNPATCHED}"
    body = [
        *_cues(sheet),
        *_records("Submasters", sheet.show.subs),
        *_records("Groups", sheet.show.groups),
        *_patch(sheet.show),
    ]
    return document_of(sheet.title, sheet.origin, explained, body)
