"""The records of another console's export, read freely, with the lines that they stand on.

What is read is what the profile of show files reads, in its words; more freely are read the things
that other consoles are known to write otherwise. What cannot be read is told, and left out: as lost
where it may have held light."""

from collections.abc import Callable

from cueplayer_tools.convert.exports import forms
from cueplayer_tools.convert.report import CHANGED, DOUBT, LEFT_OUT, LOST, Report, line_text
from cueplayer_tools.convert.exports.lines import RecordLines, label_in, note_list
from cueplayer_tools.convert.exports.records import (
    Choices, Cue, Export, Maker, Part, Patched, Record, Skipped,
)  # fmt: skip
from cueplayer_tools.convert.exports.text import Line
from cueplayer_tools.convert.exports.values import Values, has_page
from cueplayer_tools.convert.exports.words import (
    KINDS, PRIMARY, SECONDARY, has_joined_line, has_levels, held_levels, is_value, meaning_of,
)  # fmt: skip
from cueplayer_tools.line_protocol import count_of, cue_word, printable

_TABLES = {
    "ALL": ("cues", "subs", "groups", "patch"),
    "CUE": ("cues",),
    "CUES": ("cues",),
    "GROUP": ("groups",),
    "GROUPS": ("groups",),
    "SUB": ("subs",),
    "SUBS": ("subs",),
    "PATCH": ("patch",),
}
_NAMES = {"cues": "cue", "subs": "submaster", "groups": "group", "patch": "patched dimmer"}
THE_PATCH = "the patch"


def page_of(line: Line) -> int:
    """The page of a CUE, SUB or GROUP line; 1 where none is named."""
    page = forms.whole(line.words[2]) if len(line.words) > 2 else None
    return 1 if page is None else page


class Reader:
    """Takes the lines of an export one after the other."""

    def __init__(self, report: Report, pages: dict[str, int], choices: Choices) -> None:
        self.report = report
        self.pages = pages
        self.choices = choices
        self.export = Export()
        self.values = Values(report)
        self.lines = RecordLines(report, self.export, self.values)
        self.owner: Record | Skipped | Maker | None = None
        # What the lines belong to by the primary line above them, whatever `$` lines stand there.
        self.record: Record | None = None
        self.place = ""
        # The number of the last record of each kind.
        self.last: dict[str, int] = {}
        self.primary: dict[str, Callable[[Line], None]] = {
            "CLEAR": self._clear,
            "IDENT": self._ident,
            "PATCH": self._patch,
            "CUE": self._open,
            "SUB": self._open,
            "GROUP": self._open,
        }

    def take(self, line: Line) -> None:
        """Takes a line with words."""
        first = line.first
        if line.is_behind_cr:
            self.report.add(CHANGED, line.numbers, "a CR inside a line, read as a line end")
        if first in PRIMARY:
            self.owner, self.record, self.place = None, None, ""
            self.primary.get(first, self._note_words)(line)
            return
        if self.record is not None:
            self.record.has_lines = True
        if first.startswith("$"):
            self._take_makers(line)
        elif isinstance(self.owner, Maker):
            self.owner.take(line, self._keyword(line))
        elif isinstance(self.owner, Skipped) and (first in SECONDARY or is_value(first)):
            self.report.add(self.owner.kind, line.numbers, self.owner.text)
        elif first not in SECONDARY:
            self._unknown(line)
        elif isinstance(self.owner, Record):
            self.lines.take(line, self.owner)
        else:
            self.report.add(LOST, line.numbers, f"{first} lines that belong to no record")

    def _take_makers(self, line: Line) -> None:
        """A line of the maker's own: by itself, or one that opens a record."""
        self._note_held(line)
        is_inside = line.first[1:] in self.choices.inside
        if not line.first.startswith("$$") and not is_inside:
            self.owner = Maker(line, self.record, self.place, list(line.numbers))
            self.export.makers.append(self.owner)
        elif isinstance(self.owner, Maker):
            self.owner.take(line, None)
        elif is_inside:
            text = f"{printable(line.words[0])}: the record above it goes on (--inside)"
            self.report.add(CHANGED, line.numbers, text)
        else:
            text = f"{printable(line.words[0])}, of the maker's own"
            self.report.add(LEFT_OUT, line.numbers, text)

    def _note_held(self, line: Line) -> None:
        """Tells of levels on a line of the maker's own, in a record: a line end may be missing."""
        held = held_levels(line.said)
        if held and self.place:
            text = f"{self.place}: {printable(line.words[0])} holds {line_text(held)}"
            self.report.add(LOST, line.numbers, f"{text}: is a line end missing?")
            if self.record is not None:
                self.record.unread.extend(line.numbers)

    def _keyword(self, line: Line) -> str | None:
        """Which line of a record a line below a maker's is; "" where it is levels alone."""
        if line.first in SECONDARY:
            return line.first
        if has_levels(line.said) or self.record is not None and is_value(line.first):
            return ""
        meant = meaning_of(line.first)
        return "CHAN" if self.place and meant and "CHAN" in meant.keywords else None

    def _unknown(self, line: Line) -> None:
        """A line that begins with no keyword."""
        meant = meaning_of(line.first)
        said = line_text(line.said)
        at = f"{self.place}: " if self.place else ""
        is_lit = is_value(line.first) or has_levels(line.said)
        if meant is None and not is_lit:
            self._leave_out(line)
            return
        if self.record is not None:
            self.record.unread.extend(line.numbers)
        kind = LOST if is_lit or (meant and meant.is_lit) else DOUBT
        text = f"{at}{said}: left out"
        if meant is None:
            text += ", since it begins with no keyword"
        else:
            text += f" ({', '.join(meant.keywords)}?)"
            if not KINDS.keys().isdisjoint(meant.keywords):
                text += f"; the lines after it went to {self.place or 'no record'}"
        self.report.add(kind, line.numbers, text)

    def _leave_out(self, line: Line) -> None:
        """A line with an unknown keyword: inside a record it may say something of its light."""
        if self.record is None:
            self.report.add(LEFT_OUT, line.numbers, f"unknown keyword {printable(line.words[0])}")
        else:
            text = f"{self.record.name}: unknown keyword {printable(line.words[0])}: left out"
            self.report.add(DOUBT, line.numbers, text)

    def _note_words(self, line: Line, count: int = 1) -> None:
        """What stands behind so many words of a line without levels: another line, where a line
        end is missing."""
        if has_joined_line(" ".join(line.said.split()[count:])):
            text = f"{line_text(line.said)}: is a line end missing?"
            self.report.add(LOST, line.numbers, text)

    def _ident(self, line: Line) -> None:
        self._note_words(line)
        if line.words[1:2] != ["3:0"]:
            text = f"{line_text(line.said)} to IDENT 3:0: read as of that version"
            self.report.add(DOUBT, line.numbers, text)

    def _clear(self, line: Line) -> None:
        self._note_words(line, 2)
        tables = _TABLES.get(line.words[1].upper()) if len(line.words) == 2 else None
        if tables is None:
            self.report.add(LEFT_OUT, line.numbers, f"{line_text(line.said)}: clears no table")
        for table in tables or ():
            records = getattr(self.export, table)
            if records:
                text = f"{count_of(len(records), _NAMES[table])} above {line_text(line.said)}"
                numbers = [each.number for each in records.values()]
                self.report.add(LOST, [*numbers, line.number], text)
            records.clear()

    def _open(self, line: Line) -> None:
        kind = KINDS[line.first]
        read = forms.cue_number if kind == "cue" else forms.thousandths
        key = read(line.words[1]) if len(line.words) > 1 else None
        self.place = f"{kind} {printable(' '.join(line.words[1:2])) or '?'}"
        if key is None:
            self._skip(line, LOST, f"{line_text(line.said)}: not a {kind} number")
            return
        page = page_of(line)
        if page != self.pages[line.first]:
            self._skip_page(line, kind, page)
            return
        table = getattr(self.export, {"CUE": "cues", "SUB": "subs", "GROUP": "groups"}[line.first])
        owner: Record
        if key in table:
            owner = table[key]
            text = f"{owner.name} is opened again: its lines count together"
            self.report.add(DOUBT, [owner.number, line.number], text)
            owner.seen.clear()
        else:
            owner = table[key] = (Cue if kind == "cue" else Record)(kind, key, line.number)
        self.owner = self.record = owner
        self.place = owner.name
        self._note_head(line, owner)
        owner.comment = label_in(line.comment) or owner.comment
        self._name(line, owner)
        if isinstance(owner, Cue) and len(owner.parts) > 1:
            owner.parts.append(Part(""))

    def _skip_page(self, line: Line, kind: str, page: int) -> None:
        """A record of a page that is not taken: lost, unless the page was chosen."""
        if line.first == "CUE" and self.choices.cue_list is not None:
            self.place = ""
            self._skip(line, LEFT_OUT, f"cues of page {page} (--list {self.choices.cue_list})")
        else:
            self._skip(line, LOST, f"{kind}s of page {page}")

    def _note_head(self, line: Line, owner: Record) -> None:
        """Tells of a number out of order, and of one that is spelled otherwise than here."""
        last = self.last.get(owner.kind, 0)
        if owner.key < last and owner.number == line.number:
            text = f"{owner.name} stands below {owner.kind} {cue_word(last)}: is its number cut?"
            self.report.add(DOUBT, line.numbers, text)
        self.last[owner.kind] = owner.key
        word = line.words[1]
        is_cue = isinstance(owner, Cue)
        is_plain = (forms.is_plain_cue_number if is_cue else forms.is_plain_number)(word)
        if not is_plain and (is_cue or not owner.key % 1000):
            self.report.respell(line.number, word, cue_word(owner.key))

    def _name(self, line: Line, owner: Record) -> None:
        """What stands behind the number and the page: a name in quotation marks, or lost words."""
        rest = line.words[2 if len(line.words) > 2 and forms.whole(line.words[2]) is None else 3 :]
        name = label_in(line.said.partition('"')[2])
        is_named = bool(rest and rest[0].startswith('"') and name)
        if is_named:
            owner.text = name
            self.report.add(CHANGED, line.numbers, f"{line_text(line.said)}: the name is the label")
        if rest and not is_named or held_levels(name):
            text = f"words after {line.first} {line.words[1]}: {line_text(' '.join(rest))}"
            self.report.add(LOST, line.numbers, text)
            owner.unread.extend(line.numbers)

    def _skip(self, line: Line, kind: str, text: str) -> None:
        self.owner = Skipped(kind, text)
        self.report.add(kind, line.numbers, text)

    def _patch(self, line: Line) -> None:
        page = forms.whole(line.words[1]) if len(line.words) > 1 else 1
        if len(line.words) == 1 or not has_page(line):
            self.report.add(CHANGED, line.numbers, "PATCH without a page: page 1")
            page = 1
        elif page is not None and not forms.is_plain_number(line.words[1]):
            self.report.respell(line.number, line.words[1], str(page))
        if page != self.pages["PATCH"]:
            no_page = f"{line_text(line.said)}: no page"
            named = f"patch of page {page}" if page is not None else no_page
            self._skip(line, LOST, named)
            return
        self.export.has_patch = True
        self.place = THE_PATCH
        note_list(line, self.place, self.report)
        self.values.owner = ""
        for channel, dimmer, byte in self.values.triples(line):
            self._patch_one(line, dimmer, Patched(channel, byte, line.number))

    def _patch_one(self, line: Line, dimmer: int, patched: Patched) -> None:
        if not patched.channel:
            self.export.patch.pop(dimmer, None)
            return
        before = self.export.patch.get(dimmer)
        if before is not None and before.channel != patched.channel:
            first, last = before.channel, patched.channel
            text = f"dimmer {dimmer}: patched to channel {first}, and then to {last}"
            self.report.add(DOUBT, [before.number, line.number], text)
        self.export.patch[dimmer] = patched
        self.export.note_high(line, patched.channel)
