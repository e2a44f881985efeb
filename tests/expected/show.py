"""The show that a text means, or its first fault (PROFILE.md)."""

from dataclasses import dataclass, field

from .words import cue_number, level, lines_of, number, time, words_of

LONGEST = 1_048_576
PRIMARY = set(b"CLEAR CONSOLE CUE ENDDATA GROUP IDENT MANUFACTURER PATCH SET SUB".split())
# The lines that time a cue, and how many times each of them takes.
TIMED = {b"UP": 2, b"DOWN": 2, b"FOLLOWON": 1}
SECONDARY = set(b"CHAN LINK PART TEXT".split()) | set(TIMED)
# The faults of a line, the one that is answered first where a line has several.
FAULTS = (
    "Ident", "MissingNumber", "BadNumber", "BadLevel", "BadTime", "HalfPair", "HalfTriple",
    "Limit",
)  # fmt: skip
MAKER, NOBODY = "maker", "nobody"
# No label begins or ends with one of these.
EDGES = b" \t\r\x1a,;/<=>@\""


class LineFault(Exception):
    """The fault of a line."""

    @staticmethod
    def check(faults):
        """The first of a line's faults decides."""
        if faults:
            raise LineFault(min(faults, key=FAULTS.index))


@dataclass
class Cue:
    levels: dict = field(default_factory=dict)
    # By their keyword, what the lines that time it give.
    times: dict = field(default_factory=dict)

    def rate(self, keyword):
        """Time and delay of an UP or DOWN line, or None."""
        given = self.times.get(keyword)
        return given and (given[0], given[1] if given[1:] else 0)

    @property
    def up(self):
        return self.rate(b"UP")

    @property
    def down(self):
        return self.rate(b"DOWN")

    @property
    def follow(self):
        return self.times.get(b"FOLLOWON", [None])[0]

    def rises(self):
        """Time and delay of what rises."""
        return self.up or self.down or (0, 0)

    def falls(self):
        return self.down or self.up or (0, 0)


class Show:
    def __init__(self):
        self.cues, self.subs, self.groups, self.patch = {}, {}, {}, {}
        # What labels the records of a table, by their numbers: the last TEXT and the last comment.
        self.texts, self.comments = ({"cues": {}, "subs": {}, "groups": {}} for _ in range(2))
        self.lines = self.skipped = 0

    def label(self, table, n):
        return self.texts[table].get(n) or self.comments[table].get(n, b"")

    def universes(self):
        """The show's universes that have a patched dimmer, from 0, ascending."""
        return sorted({(dimmer - 1) // 512 for dimmer in self.patch})


class Reader:
    """Takes the lines of a text one after the other."""

    def __init__(self):
        self.show = Show()
        self.owner = NOBODY
        # The table and the number of the owner, and the line that is read.
        self.named = None
        self.line = b""

    def take(self, words, line):
        """Takes a line with words; False where it is skipped."""
        first = words[0].upper()
        self.line = line
        if first in PRIMARY:
            self.owner = NOBODY
            return self.primary(first, words)
        if self.owner is MAKER:
            return False
        if first.startswith(b"$"):
            if not first.startswith(b"$$"):
                self.owner = MAKER
            return False
        if first not in SECONDARY or self.owner is NOBODY:
            return False
        self.secondary(first, words)
        return True

    def primary(self, first, words):
        if first == b"IDENT":
            LineFault.check(["Ident"] if words[1:2] != [b"3:0"] else [])
        elif first == b"CLEAR":
            return self.clear(words)
        elif first == b"PATCH":
            return self.patch(words)
        elif first in (b"CUE", b"SUB", b"GROUP"):
            return self.open(first, words)
        return True

    def clear(self, words):
        tables = {
            b"ALL": ("cues", "groups", "subs", "patch"),
            b"CUE": ("cues",), b"CUES": ("cues",),
            b"GROUP": ("groups",), b"GROUPS": ("groups",),
            b"SUB": ("subs",), b"SUBS": ("subs",),
            b"PATCH": ("patch",),
        }  # fmt: skip
        emptied = tables.get(words[1].upper()) if len(words) == 2 else None
        for table in emptied or ():
            getattr(self.show, table).clear()
            self.show.texts.get(table, {}).clear()
            self.show.comments.get(table, {}).clear()
        return emptied is not None

    def open(self, first, words):
        """A CUE, SUB or GROUP line."""
        LineFault.check([] if words[1:] else ["MissingNumber"])
        n = cue_number(words[1]) if first == b"CUE" else number(words[1])
        page = number(words[2]) if words[2:] else 1
        LineFault.check(["BadNumber"] if n is None or page is None else [])
        if first != b"CUE":
            LineFault.check([] if 1 <= n <= {b"SUB": 100, b"GROUP": 500}[first] else ["Limit"])
        if page != 1:
            return False
        name = first.decode().lower() + "s"
        table = getattr(self.show, name)
        if first == b"CUE" and n not in table:
            LineFault.check([] if len(table) < 2000 else ["Limit"])
        self.owner = table.setdefault(n, Cue() if first == b"CUE" else {})
        self.named = name, n
        self.label(self.show.comments, self.line.partition(b"!")[2])
        return True

    def label(self, labels, part):
        """Labels the owner with a part of the line, unless nothing of it is left."""
        table, n = self.named
        if part.strip(EDGES):
            labels[table][n] = part.strip(EDGES)

    def patch(self, words):
        LineFault.check([] if words[1:] else ["MissingNumber"])
        page = number(words[1])
        LineFault.check([] if page is not None else ["BadNumber"])
        if page != 1:
            return False
        triples = self.values(
            words[2:], (number, number, level), "HalfTriple", (range(4097), range(1, 8193))
        )
        for channel, dimmer, byte in triples:
            if channel:
                self.show.patch[dimmer] = (channel, byte)
            else:
                self.show.patch.pop(dimmer, None)
        return True

    def values(self, words, forms, half, ranges):
        """Words in their roles, so many at a time; the first fault of them decides."""
        faults, values = [], []
        for place, word in enumerate(words):
            role = place % len(forms)
            value = forms[role](word)
            if value is None:
                faults.append("BadLevel" if forms[role] is level else "BadNumber")
            elif role < len(ranges) and value not in ranges[role]:
                faults.append("Limit")
            values.append(value)
        if len(words) % len(forms):
            faults.append(half)
        LineFault.check(faults)
        return zip(*[iter(values)] * len(forms))

    def secondary(self, first, words):
        is_cue = isinstance(self.owner, Cue)
        if first == b"CHAN":
            pairs = self.values(words[1:], (number, level), "HalfPair", (range(1, 4097),))
            (self.owner.levels if is_cue else self.owner).update(pairs)
        elif first in TIMED and is_cue:
            self.owner.times[first] = self.times(words[1 : 1 + TIMED[first]])
        elif first == b"TEXT":
            said = self.line.partition(b"!")[0].strip(EDGES)
            self.label(self.show.texts, said[len(first) :])

    def times(self, words):
        """The times of a line of a cue; the first must be there."""
        LineFault.check([] if words else ["MissingNumber"])
        values = [time(word) for word in words]
        LineFault.check(["BadTime"] if None in values else [])
        return values


def read(text):
    """The show that a text means, or the text that names its fault."""
    if len(text) > LONGEST:
        return "show: TooLong"
    reader = Reader()
    for line in lines_of(text):
        reader.show.lines += 1
        words = words_of(line)
        if not words:
            continue
        if words[0].upper() == b"ENDDATA":
            break
        try:
            reader.show.skipped += not reader.take(words, line)
        except LineFault as fault:
            return f"show line {reader.show.lines}: {fault}"
    return reader.show
