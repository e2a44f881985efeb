"""A show of the profile from another console's export: numbers that fit, one look a cue, a report.

The text that is written is a show file in one form, whatever the form of the export."""

from collections.abc import Iterable
from dataclasses import dataclass

from cueplayer_tools.convert.report import (
    CHANGED, DOUBT, LEFT_OUT, LOST, NOT_PLAYED, Report, line_text,
)  # fmt: skip
from cueplayer_tools.convert.times import Times, times_of
from cueplayer_tools.convert.tracking import track
from cueplayer_tools.convert.writer import Writer
from cueplayer_tools.convert.exports.bounds import lines_in, text_of
from cueplayer_tools.convert.exports.makers import tell_makers
from cueplayer_tools.convert.exports.reader import Reader, page_of
from cueplayer_tools.convert.exports.records import HIGHEST_CHANNEL, Choices, Cue, Export, Record
from cueplayer_tools.convert.exports.styles import Style, style_of
from cueplayer_tools.convert.exports.text import Line
from cueplayer_tools.line_protocol import Refused, cue_word

MOST_SUBS = 100
MOST_GROUPS = 500
MOST_CUES = 2_000
LONGEST_SHOW = 1_048_576
WIDTH = 96


@dataclass
class Conversion:
    """The show of an export, and what is to be told of it."""

    style: Style
    # The line that tells the style.
    told_by: Line | None
    lines: int
    report: Report
    show: bytes
    # What the show has: cues, submasters, groups and dimmers.
    counts: dict[str, int]
    # The cues, and the channels of the export by those that they became.
    cues: list[Cue]
    channels: dict[int, int]
    # What speaks for tracking and against it, where that is in doubt.
    tracking: str


def _pages(lines: list[Line], cue_list: int | None) -> dict[str, int]:
    """The page of each kind of record that is taken: 1, or the only one that there is."""
    found: dict[str, set[int]] = {word: set() for word in ("CUE", "SUB", "GROUP", "PATCH")}
    for line in lines:
        if line.first in ("CUE", "SUB", "GROUP"):
            found[line.first].add(page_of(line))
    pages = {word: min(each) if len(each) == 1 else 1 for word, each in found.items()}
    return pages if cue_list is None else pages | {"CUE": cue_list}


def read_export(lines: list[Line], report: Report, choices: Choices) -> Export:
    """The records of an export, as they are numbered there."""
    pages = _pages(lines, choices.cue_list)
    reader = Reader(report, pages, choices)
    for line in lines:
        reader.take(line)
    tell_makers(reader.export, choices, report)
    for word, page in pages.items():
        if page != 1:
            numbers = [line.number for line in lines if line.first == word]
            report.add(CHANGED, numbers, f"page {page} of {word} to page 1")
    return reader.export


def free_numbers(wanted: Iterable[int], used: Iterable[int], highest: int) -> dict[int, int]:
    """A number in range for each, that nothing else uses: those behind the greatest first."""
    taken = set(used)
    top = max(taken, default=0)
    free = [n for n in range(top + 1, highest + 1)] + [n for n in range(1, top) if n not in taken]
    return dict(zip(sorted(wanted), free))


def _masters(
    records: dict[int, Record], kind: str, highest: int, report: Report
) -> list[tuple[int, Record]]:
    """The submasters or groups by the numbers that they have in the show."""
    used, odd = {}, []
    for key, record in records.items():
        if not record.levels:
            is_bare = not record.has_lines
            text = f"{kind}s without channels" if is_bare else f"{record.name} has no channel"
            report.add(LEFT_OUT if is_bare else DOUBT, record.number, text)
        elif key % 1000 or not 1 <= key // 1000 <= highest:
            odd.append(key)
        else:
            used[key // 1000] = record
    found = free_numbers(odd, used, highest)
    for key in odd:
        record = records[key]
        if key in found:
            used[found[key]] = record
            report.add(CHANGED, record.number, f"{record.name} to {kind} {found[key]}")
        else:
            report.add(LOST, record.number, f"{record.name}: no number is free")
    return sorted(used.items())


def _new_channels(export: Export, report: Report) -> dict[int, int]:
    """The number in the show of each channel above its range; none of one that is left out."""
    patched = {each.channel for each in export.patch.values()}
    used = set(patched)
    used.update(*(record.levels for record in export.records()))
    wanted = [each for each in export.high if each in used]
    wanted = [each for each in wanted if each in patched or not export.has_patch]
    found = free_numbers(wanted, (n for n in used if n <= HIGHEST_CHANNEL), HIGHEST_CHANNEL)
    for channel, numbers in export.high.items():
        if channel in found:
            report.add(CHANGED, numbers, f"channel {channel} to channel {found[channel]}")
        elif channel in wanted:
            report.add(LOST, numbers, f"channel {channel}: no number is free")
        else:
            text = f"channel {channel} is left out: no dimmer is patched to it"
            report.add(DOUBT, numbers, text)
    return found


def _renumber(export: Export, report: Report) -> dict[int, int]:
    """Gives channels above the range numbers that fit, or leaves them out."""
    if not export.high:
        return {}
    new = _new_channels(export, report)
    for record in export.records():
        record.levels = {
            new.get(channel, channel): byte
            for channel, byte in record.levels.items()
            if channel <= HIGHEST_CHANNEL or channel in new
        }
    for dimmer, each in list(export.patch.items()):
        if each.channel in new:
            each.channel = new[each.channel]
        elif each.channel > HIGHEST_CHANNEL:
            del export.patch[dimmer]
    return {number: channel for channel, number in new.items()}


def _note_bare(bare: list[Cue], is_tracking: bool, report: Report) -> None:
    """Tells of the cues that list no channel: by lines that were not read, or as blackouts do."""
    for cue in bare:
        if cue.unread:
            comes = "changes nothing" if is_tracking else "comes out dark"
            text = f"{cue.name} {comes}, though lines stand below it"
            report.add(LOST, [cue.number, *cue.unread], text)
    rest = [cue for cue in bare if not cue.unread]
    if rest:
        words = ", ".join(cue_word(cue.key) for cue in rest)
        text = f"cues {words} list" if len(rest) > 1 else f"cue {words} lists"
        means = "it changes nothing" if is_tracking else "right for a blackout"
        report.add(DOUBT, [cue.number for cue in rest], f"{text} no channel: {means}")


def _links(cues: list[Cue], report: Report) -> dict[int, int]:
    """The links that GO does not follow: those to another cue than the next."""
    kept = {}
    nexts = [cue.key for cue in cues[1:]] + [0]
    for cue, following in zip(cues, nexts):
        if cue.link is None:
            continue
        to, number = cue.link
        if to == following:
            report.add(LEFT_OUT, number, "LINK to the next cue")
            continue
        goes = f"GO goes to {cue_word(following)}" if following else "GO goes nowhere"
        link = f"LINK {cue_word(to)}"
        report.add(NOT_PLAYED, number, f"{link} of {cue.name}: {goes}, and the label says so")
        cue.notes.append(f"[{link}]")
        kept[cue.key] = to
    return kept


@dataclass
class Parts:
    """What is written of an export: its records by the numbers that they have in the show."""

    cues: list[Cue]
    times: dict[int, Times]
    links: dict[int, int]
    subs: list[tuple[int, Record]]
    groups: list[tuple[int, Record]]
    # Whether the export has its last line: one that may be cut makes a show without it.
    is_ended: bool


def _file_bytes(head: list[str], export: Export, parts: Parts, width: int) -> bytes:
    writer = Writer(width)
    writer.lines = ["IDENT 3:0", *head]
    if export.patch:
        writer.patch(export)
    for word, records in (("SUB", parts.subs), ("GROUP", parts.groups)):
        for number, record in records:
            writer.head(word, str(number), record)
            writer.levels(record.levels)
    for cue in parts.cues:
        writer.cue(cue, parts.times[cue.key], parts.links.get(cue.key))
    writer.lines += ["", "ENDDATA"] * parts.is_ended + [""]
    return "\n".join(writer.lines).encode("latin-1")


def _parts(export: Export, report: Report, cues: list[Cue], is_ended: bool) -> Parts:
    links = _links(cues, report)
    return Parts(
        cues,
        {cue.key: times_of(cue, report) for cue in cues},
        links,
        _masters(export.subs, "submaster", MOST_SUBS, report),
        _masters(export.groups, "group", MOST_GROUPS, report),
        is_ended,
    )


def _show_of(head: list[str], export: Export, parts: Parts) -> bytes:
    """The show as a file; Refused where it has no room in one."""
    if not (parts.cues or parts.subs or parts.groups or export.patch):
        raise Refused("no cue, submaster, group or patch was found: is this an export?")
    if len(parts.cues) > MOST_CUES:
        raise Refused(f"{len(parts.cues):,} cues, and a show has at most {MOST_CUES:,}")
    for width in (WIDTH, 0):
        show = _file_bytes(head, export, parts, width)
        if len(show) <= LONGEST_SHOW:
            return show
    raise Refused(f"the show has {len(show):,} bytes, and may have {LONGEST_SHOW:,}")


def _head(style: Style, lines: list[Line], report: Report) -> list[str]:
    """The first lines of the show: where it is from, and whether light may be missing."""
    lost = ", and what may have held light was lost: see its report" if report.has(LOST) else ""
    origin = (line.words for line in lines if line.first in ("MANUFACTURER", "CONSOLE"))
    return [
        f"! From an export of {style.name}, by convert{lost}.",
        *(line_text(" ".join(words)) for words in origin),
    ]


def convert(content: bytes, choices: Choices = Choices()) -> Conversion:
    """The show of an export; Refused where there is none that the program would take."""
    report = Report()
    text = text_of(content, report)
    lines, is_ended = lines_in(text, report)
    style, told_by = style_of(lines)
    export = read_export(lines, report, choices)
    channels = _renumber(export, report)
    cues = [export.cues[key] for key in sorted(export.cues)]
    bare = [cue for cue in cues if not cue.levels]
    is_tracking, doubt = track(cues, choices.is_tracking, report)
    _note_bare(bare, is_tracking, report)
    parts = _parts(export, report, cues, is_ended)
    show = _show_of(_head(style, lines, report), export, parts)
    counts = {
        "cue": len(parts.cues),
        "submaster": len(parts.subs),
        "group": len(parts.groups),
        "patched dimmer": len(export.patch),
    }
    count = text.count("\n") + (text[-1:] not in ("", "\n"))
    return Conversion(
        style, told_by, count, report, show, counts, cues, channels, doubt
    )
