"""`tools/convert` on exports that were damaged: whatever light differs between the export as it was
and the show is named in the report, or the damaged text shows no trace of it.

`CONVERT_DAMAGED=3000 tests/run test_convert_damage` tries so many."""

import os
import random
import re
import unittest

import damaged_exports as exports
from conversions import conversion_of
from expected import show as shows

from cueplayer_tools.convert.report import CHANGED, DOUBT, LOST, NOT_PLAYED
from cueplayer_tools.line_protocol import Refused

# How many damaged exports are converted. The gate takes a few.
CASES = int(os.environ.get("CONVERT_DAMAGED", "400"))
NAMING = (LOST, NOT_PLAYED, DOUBT, CHANGED)


def light_of(show):
    """What a show lights: the levels of its cues, submasters and groups, and each dimmer."""
    lit = lambda levels: {channel: byte for channel, byte in levels.items() if byte}
    found = {f"cue {n / 1000:g}": lit(cue.levels) for n, cue in show.cues.items()}
    for kind, table in (("submaster", show.subs), ("group", show.groups)):
        found |= {f"{kind} {n}": lit(levels) for n, levels in table.items() if levels}
    return found | {("dimmer", n): patched for n, patched in show.patch.items()}


class Case:
    """A damaged export: what of its light differs, and what the report names."""

    def __init__(self, rows, damaged):
        self.rows = damaged
        self.content = exports.content_of(damaged)
        self.found = conversion_of(self.content)
        self.before = light_of(shows.read(exports.content_of(rows)))
        self.after = light_of(shows.read(self.found.show))
        self.blocks, self.behind = exports.blocks_of(damaged)
        is_there = lambda word: re.search(rf"(?m)(^|\r) *{word}".encode(), self.content)
        self.missing = [word for word in ("IDENT", "ENDDATA") if not is_there(word)]

    def differences(self):
        both = self.before.keys() | self.after.keys()
        return [key for key in both if self.before.get(key) != self.after.get(key)]

    def places(self, key):
        """The lines that were of this, those that now are, and the records that they stand in."""
        owner = ("patch", (key[1] - 1) // 4 * 4 + 1) if key[0] == "dimmer" else key
        numbers = {number for number, row in exports.lines_of(self.rows) if owner in row.owners}
        blocks = [
            block for block in self.blocks if block.name == key or block.numbers & numbers
        ]
        return numbers.union(*(block.numbers for block in blocks)), blocks

    def is_named(self, key, numbers):
        """Whether the report names it: by a line, by its name, or, where no line is left of it, by
        what is missing of the file."""
        for (kind, text), lines in self.found.report.found.items():
            if kind not in NAMING:
                continue
            is_of_file = not numbers and text in self.found.report.of_file
            if is_of_file or numbers & set(lines) or self.is_in(key, text):
                return True
        return bool(numbers & set(self.found.report.respelled))

    def is_in(self, key, text):
        """Whether a text names a cue, submaster or group, alone or among others of its kind."""
        if key[0] == "dimmer":
            return False
        kind, number = key.split()
        return re.search(rf"\b{kind}s? ([0-9.]+, )*{re.escape(number)}(?![.0-9])", text) is not None

    def has_trace(self, numbers, blocks):
        if numbers & self.behind:
            return True
        if not numbers:
            return bool(self.missing or self.behind)
        place = {id(block): at for at, block in enumerate(self.blocks)}
        return any(
            exports.has_trace(
                block, [each.key for each in self.blocks[: place[id(block)]] if each.key]
            )
            for block in blocks
        )


class Damage(unittest.TestCase):
    def test_whole_exports(self):
        """Of those nothing is told but blackouts, and they mean what they say."""
        for seed in range(40):
            rows = exports.Maker(random.Random(seed)).export()
            content = exports.content_of(rows)
            found = conversion_of(content)
            told = [text for kind, text in found.report.found if kind in NAMING]
            self.assertEqual([], [text for text in told if "for a blackout" not in text])
            self.assertEqual(light_of(shows.read(content)), light_of(shows.read(found.show)))

    def cases(self):
        for seed in range(CASES):
            r = random.Random(f"damage {seed}")
            rows = exports.Maker(r).export()
            damaged, told = exports.damage(r, rows)
            try:
                yield seed, told, Case(rows, damaged)
            except Refused:
                yield seed, told, None

    def test_damaged_exports(self):
        """Each difference is named, or has no trace; where a line is missing at an end, that is
        told."""
        count = {"named": 0, "without a trace": 0, "refused": 0}
        for seed, told, case in self.cases():
            if case is None:
                count["refused"] += 1
                continue
            for word in case.missing:
                lost = [text for kind, text in case.found.report.found if kind == LOST]
                self.assertTrue(any(text.startswith(f"no {word} line") for text in lost))
            for key in case.differences():
                with self.subTest(seed=seed, damage=told, key=key):
                    numbers, blocks = case.places(key)
                    is_named = case.is_named(key, numbers)
                    count["named" if is_named else "without a trace"] += 1
                    is_silent = not is_named and case.has_trace(numbers, blocks)
                    self.assertFalse(is_silent, case.found.report.lines())
        print(f"{CASES} damaged exports: {count}")
        self.assertGreater(count["named"], CASES // 2)
        self.assertGreater(count["without a trace"], 0)


if __name__ == "__main__":
    unittest.main()
