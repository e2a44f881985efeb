"""What becomes of the records of a maker's own, which begin with `$`: they are left out, and lost
where a record of the export has less light without them."""

from collections.abc import Iterable

from cueplayer_tools.convert.exports import forms
from cueplayer_tools.convert.exports.records import Choices, Export, Maker
from cueplayer_tools.convert.report import LEFT_OUT, LOST, Report
from cueplayer_tools.line_protocol import count_of, cue_word
from cueplayer_tools.picture.curves import ranges

# What the records of these names hold, and where a show has the same.
_TABLES = {"CUE": "cues", "SUB": "subs", "GROUP": "groups", "PATCH": "patch"}
_NAMES = {"cues": "cue", "subs": "submaster", "groups": "group"}
# The lines of a record whose loss changes its light, and when; of the patch levels alone.
_LIT = ("CHAN", "UP", "DOWN", "FOLLOWON", "LINK", "")
_LIT_OF_OTHERS = ("",)


def tell_makers(export: Export, choices: Choices, report: Report) -> None:
    """Tells what became of each of them."""
    for maker in export.makers:
        _tell(maker, export, choices, report)


def _tell(maker: Maker, export: Export, choices: Choices, report: Report) -> None:
    word, name = maker.word, maker.head.first[1:]
    lit = _LIT if maker.inside is not None else _LIT_OF_OTHERS
    taken = [keyword for keyword in lit if keyword in maker.taken]
    if name in choices.outside:
        report.add(LEFT_OUT, maker.numbers, f"{word} records, of the maker's own (--outside)")
    elif maker.place and taken:
        _tell_taken(maker, taken, report)
    elif "CHAN" in maker.taken or "" in maker.taken:
        text = f"{word} records, of the maker's own, with the levels below them"
        report.add(LOST, maker.numbers, f"{text}: {_outside_option(maker)}")
    else:
        table = next((each for start, each in _TABLES.items() if name.startswith(start)), None)
        kind, text = _loss_by_name(maker, export, table) if table else (LEFT_OUT, "")
        report.add(kind, maker.numbers, f"{word} records, of the maker's own{text}")


def _outside_option(maker: Maker) -> str:
    """How to say that a record is the maker's."""
    return f"if they are no light of the show, convert with --outside {maker.word.lstrip('$')}"


def _tell_taken(maker: Maker, taken: list[str], report: Report) -> None:
    """Tells of the lines of a record that stand below a line with `$`."""
    numbers = [number for keyword in taken for number in maker.taken[keyword]]
    if maker.inside is not None:
        maker.inside.unread += [n for word in ("CHAN", "") for n in maker.taken.get(word, ())]
    lines = ", ".join(keyword or "levels" for keyword in taken)
    option = maker.word.lstrip("$")
    text = (
        f"{maker.place}: {lines} below {maker.word} (line {maker.head.number}): if they belong to"
        f" {maker.place}, convert with --inside {option}, else with --outside {option}"
    )
    report.add(LOST, numbers, text)
    rest = sorted(set(maker.numbers) - set(numbers))
    report.add(LEFT_OUT, rest, f"{maker.word} records, of the maker's own")


def _loss_by_name(maker: Maker, export: Export, table: str) -> tuple[str, str]:
    """Whether the show has, from other lines, what a record by its name may hold."""
    if table == "patch":
        return _loss_of_patch(export)
    records = getattr(export, table)
    words = maker.head.words
    is_one = maker.head.first[1:].removesuffix("S") in _TABLES and len(words) > 1
    key = forms.thousandths(words[1]) if is_one else None
    if key is not None and key not in records:
        return LOST, f": no other line has {_NAMES[table]} {cue_word(key)}"
    if not records:
        return LOST, f": no other line has a {_NAMES[table]}"
    return LEFT_OUT, f"; kept by other lines: {count_of(len(records), _NAMES[table])}"


def _loss_of_patch(export: Export) -> tuple[str, str]:
    if not export.patch:
        return LOST, ": no PATCH line has a dimmer"
    patched = {each.channel for each in export.patch.values()}
    bare = _channels(export) - patched
    if bare:
        channels = f"channel{'s' if len(bare) > 1 else ''} {ranges(sorted(bare))}"
        return LOST, f": no PATCH line has a dimmer for {channels}"
    return LEFT_OUT, f"; kept by PATCH lines: {count_of(len(export.patch), 'dimmer')}"


def _channels(export: Export) -> set[int]:
    """The channels with a level."""
    found: Iterable[dict[int, int]] = (record.levels for record in export.records())
    return {channel for levels in found for channel, byte in levels.items() if byte}
