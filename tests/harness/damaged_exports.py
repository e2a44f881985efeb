"""Whole exports made by chance, what a bad disk or a cut copy does to their lines, and which of the
damage leaves a trace in the text.

A trace is what no whole export has: a line that is not as its keyword wants it, a record that is
opened twice or below a greater number, a line or a channel that stands twice in a record which has
it once, a record with lines and no channel, a line that belongs to no record, a `$` line above the
lines of a record, a missing first or last line, lines behind the last one.

None is: a line that is missing whole, or cut where it may end; a level or number that lost its last
digit. A label or comment may say anything but levels, and so may the lines of a maker's record that
stands in no other."""

import re
from typing import NamedTuple

PAIR = rb"[0-9]{1,4}[@/](FL|H[0-9A-F]{1,2}|100|[0-9]{1,2})"
TIME = rb"[0-9]{1,4}(\.[0-9]{1,2})?"
NUMBER = rb"[0-9]{1,4}(\.[0-9]{1,3})?"
# How a line looks behind its keyword.
FORMS = {
    b"CHAN": rb"(?:[ ,]+" + PAIR + rb")+",
    b"PATCH": rb" 1(?: [0-9]{1,4}<[0-9]{1,4}@(FL|[0-9]{1,2}))+",
    b"CUE": rb" " + NUMBER,
    b"SUB": rb" [0-9]{1,3}",
    b"GROUP": rb" [0-9]{1,3}",
    b"UP": rb" " + TIME + rb"( " + TIME + rb")?",
    b"DOWN": rb" " + TIME + rb"( " + TIME + rb")?",
    b"FOLLOWON": rb" " + TIME,
    b"TEXT": rb"(?!.*CHAN ?[0-9]+[@/]).*",
    b"IDENT": rb" 3:0",
    b"CLEAR": rb" ALL",
    b"CONSOLE": rb"[ a-z]*",
    b"MANUFACTURER": rb"[ a-z]*",
    b"ENDDATA": rb"",
}
# A line of levels, wherever it stands.
LEVELS_IN = rb"[0-9] ?[<@] ?[0-9FH]|CHAN ?[0-9]+/"
SECONDARY = (b"CHAN", b"UP", b"DOWN", b"FOLLOWON", b"TEXT")
HEADS = {b"CUE": "cue", b"SUB": "submaster", b"GROUP": "group"}
OTHERS = (b"IDENT", b"CLEAR", b"CONSOLE", b"MANUFACTURER", b"ENDDATA", b"PATCH")
ONCE = (b"TEXT", b"UP", b"DOWN", b"FOLLOWON")
LEVELS = ["FL", "FL", "5", "7", "10", "33", "50", "80", "100", "H80", "HC4"]
WORDS = "dawn street rain lamp storm door night waltz chorus stairs".split()
MAKERS = [b"$TEXT note", b"$NOTE", b"  $Param 1 2", b"$EFFECT 1", b"$Cue 3", b"$", b"$Patch 1 1"]


class Row(NamedTuple):
    """A line of an export, and of which records it was: by their names, of the patch by its
    line."""

    owners: tuple
    line: bytes


class Maker:
    """Makes an export: a whole one, each cue a whole look."""

    def __init__(self, r):
        self.r = r
        self.rows = []
        self.mark = r.choice("@@/")
        self.comma = r.choice("  ,")
        self.indent = r.choice(["", "  "])
        self.is_spaced = r.random() < 0.5
        self.channels = r.randrange(8, 40)

    def add(self, owner, line):
        self.rows.append(Row((owner,), line.encode()))

    def levels(self, owner):
        chosen = sorted(self.r.sample(range(1, self.channels + 1), self.r.randrange(2, 8)))
        items = [f"{channel}{self.mark}{self.r.choice(LEVELS)}" for channel in chosen]
        at = self.r.randrange(1, len(items) + 1)
        for part in filter(None, (items[:at], items[at:])):
            self.add(owner, f"{self.indent}CHAN {self.comma.join(part)}")

    def head(self, word, number):
        owner = f"{HEADS[word.encode()]} {number}"
        if self.is_spaced:
            self.add(None, "")
        label = " ".join(self.r.sample(WORDS, 2))
        by_comment = self.r.random() < 0.2
        self.add(owner, f"{word} {number}" + f" ! {label}" * by_comment)
        if not by_comment:
            self.add(owner, f"{self.indent}TEXT {label}")
        return owner

    def patch(self):
        for first in range(1, self.channels + 1, 4):
            last = min(first + 4, self.channels + 1)
            items = [f"{n}<{n}@{self.r.choice(['FL', 'FL', '80'])}" for n in range(first, last)]
            self.add(("patch", first), f"PATCH 1 {' '.join(items)}")

    def cue(self, number):
        owner = self.head("CUE", number)
        for word, chance in (("UP", 0.9), ("DOWN", 0.6), ("FOLLOWON", 0.2)):
            if self.r.random() < chance:
                self.add(owner, f"{self.indent}{word} {self.r.choice(['3', '5', '12.5', '60'])}")
        if self.r.random() < 0.2:
            self.add(owner, f"{self.indent}$$Note x")
        if self.r.random() < 0.95:
            self.levels(owner)

    def export(self):
        head = ("IDENT 3:0", "MANUFACTURER example", "CONSOLE example", "$$Format 3", "CLEAR ALL")
        for line in head:
            self.add(None, line)
        if self.r.random() < 0.5:
            self.add(None, "$PROFILE 1")
            self.add(None, "$$POINTS 0/0 50/60 100/100")
        self.patch()
        for word, most in (("GROUP", 3), ("SUB", 3)):
            for number in sorted(self.r.sample((1, 2, 3, 7, 10, 12, 24), self.r.randrange(most))):
                self.levels(self.head(word, number))
        numbers = [1, 2, 2.5, 3, 4, 5, 7, 10, 11, 12, 25, 100]
        for number in sorted(self.r.sample(numbers, self.r.randrange(3, 10))):
            self.cue(number)
        self.add(None, "ENDDATA")
        return self.rows


def content_of(rows):
    return b"\n".join(row.line for row in rows) + b"\n"


def lines_of(rows):
    """The rows as lines of the text: rows that are joined by a CR are one line as well."""
    return list(enumerate(rows, 1))


# What befalls the rows, each with the place where it does.
def cut_at_end(r, rows, at):
    line = rows[at].line
    rows[at] = rows[at]._replace(line=line[: r.randrange(len(line) + 1)])


def cut_at_front(r, rows, at):
    line = rows[at].line
    rows[at] = rows[at]._replace(line=line[r.randrange(len(line) + 1) :])


def drop(r, rows, at):
    del rows[at : at + r.choice((1, 1, 1, 2, 4))]


def double(_, rows, at):
    rows.insert(at, rows[at])


def copy_elsewhere(r, rows, at):
    rows.insert(r.randrange(len(rows) + 1), rows[at])


def put_in_makers_line(r, rows, at):
    rows.insert(at, Row((None,), r.choice(MAKERS)))


def drop_end(_, rows, at):
    rows[:] = [row for row in rows if row.line != b"ENDDATA"]


def cut_file(r, rows, at):
    del rows[at + 1 :]
    cut_at_end(r, rows, at)


def cut_head(r, rows, at):
    del rows[: at // 2]


def join(r, rows, at):
    if at + 1 < len(rows):
        one, other = rows[at : at + 2]
        line = one.line + r.choice((b"", b" ", b"\r")) + other.line
        rows[at : at + 2] = [Row(one.owners + other.owners, line)]


DAMAGE = (
    cut_at_end, cut_at_end, cut_at_end, cut_at_front, drop, drop, drop, double, copy_elsewhere,
    put_in_makers_line, put_in_makers_line, drop_end, cut_file, cut_head, join,
)  # fmt: skip


def damage(r, rows):
    """The rows with some damage, and what it was."""
    found, told = list(rows), []
    for _ in range(r.choice((1, 1, 1, 2, 3))):
        if found:
            change = r.choice(DAMAGE)
            change(r, found, r.randrange(len(found)))
            told.append(change.__name__)
    return found, told


class Block:
    """A record as it stands in a text: its name, and its lines with their numbers."""

    def __init__(self, name, key):
        self.name, self.key, self.lines = name, key, []

    @property
    def numbers(self):
        return {number for number, _ in self.lines}


def keyword(line):
    found = re.match(rb"[ ,]*([A-Za-z$]*)", line)
    return found[1].upper()


def blocks_of(rows):
    """The records of a text one after the other, and the numbers of the lines behind ENDDATA."""
    found, behind, is_ended = [Block(None, None)], set(), False
    for number, row in lines_of(rows):
        word = keyword(row.line)
        if is_ended:
            behind.add(number)
            continue
        if word in HEADS:
            spelled = re.match(rb"[ ]*[A-Za-z]+ +([.0-9]*)", row.line)
            key = float(spelled[1] or 0) if spelled and spelled[1] != b"." else 0
            found.append(Block(f"{HEADS[word]} {key:g}", (word, key)))
        elif word in OTHERS:
            found.append(Block(None, None))
            is_ended = word == b"ENDDATA"
        found[-1].lines.append((number, row.line))
    return found, behind


def is_clean(line):
    """Whether a line is as its keyword wants it."""
    said, _, comment = line.partition(b"!")
    if re.search(rb"CHAN ?[0-9]+[@/]", comment) or b"\r" in line:
        return False
    word = keyword(said)
    if word.startswith(b"$") or not said.strip():
        return not re.search(rb"CHAN ?[0-9]+[@/]", said)
    behind = said.strip()[len(word) :]
    return word in FORMS and re.fullmatch(FORMS[word], behind) is not None


def has_trace(block, earlier):
    """Whether a record shows that its text is damaged; `earlier` has the keys of those above."""
    lines = [line for _, line in block.lines if line.partition(b"!")[0].strip()]
    words = [keyword(line) for line in lines]
    makers = [at for at, word in enumerate(words) if re.match(rb"\$(?!\$)", word)]
    below = makers[0] if makers else len(words)
    if block.key is None:
        foreign = [line for line in lines[below:] if re.search(LEVELS_IN, line)]
        own = [line for line in lines[:below] if not is_clean(line)]
        return bool(own or foreign) or not {*words[:below]}.isdisjoint(SECONDARY)
    if any(word[:1] != b"$" for word in words[below:]):
        return True
    if not all(is_clean(line) for _, line in block.lines):
        return True
    if any(words.count(word) > 1 for word in ONCE):
        return True
    if any(key[0] == block.key[0] and key[1] >= block.key[1] for key in earlier):
        return True
    if b"CHAN" not in words and (block.key[0] == b"CUE" or len(words) > 1):
        return True
    chans = b" ".join(line for line, word in zip(lines, words) if word == b"CHAN")
    channels = re.findall(rb"([0-9]+)[@/]", chans)
    return len({*map(int, channels)}) < len(channels)
