"""`tools/convert`: what it writes is always accepted, means what the export says as far as a show
can say it, and whatever it changes is told."""

import io
import os
import random
import re
import resource
import subprocess
import sys
import time
import unittest
from unittest import mock

import changes
from conversions import BOUNDS, ConvertTest
from expected import show as shows
from program import TOP, text
from tooling import TOOLS, run_tool

from cueplayer_tools.convert import command as convert_command
from cueplayer_tools.convert.conversion import convert
from cueplayer_tools.convert.report import CHANGED, LEFT_OUT
from cueplayer_tools.line_protocol import Refused

EXPORTS = TOP / "examples/exports"
STYLES = {
    "eos": "the Eos family",
    "express": "Express and Obsession",
    "strand": "Strand",
    "magicq": "MagicQ",
    "hog": "Hog",
}
# How many changed files of each style are converted. The gate takes a few.
CASES = int(os.environ.get("CONVERT_CASES", "40"))
SEED = 1
PATCH = "PATCH 1 1<1@FL 2<2@FL 3<3@FL"


class Styles(ConvertTest):
    def test_told_by_console(self):
        """Each example is of its style, by its CONSOLE line."""
        for name, style in STYLES.items():
            with self.subTest(name):
                found, _ = self.convert((EXPORTS / f"{name}.asc").read_bytes())
                self.assertEqual((style, "CONSOLE"), (found.style.name, found.told_by.first))

    def test_told_otherwise(self):
        """By MANUFACTURER, and by a line of the maker's own where neither tells; and by
        nothing."""
        for lines, style in (
            (("MANUFACTURER Strand", "$$From Hog"), "Strand"),
            (("CONSOLE ours", "$$Software Obsession 5.2"), "Express and Obsession"),
            (("MANUFACTURER ETC", "CONSOLE Ion"), "the Eos family"),
            (("MANUFACTURER ChamSys", "CONSOLE Hog"), "Hog"),
            (("CUE 1",), "a console that it does not name"),
        ):
            with self.subTest(lines):
                self.assertEqual(style, convert(text(*lines, "CUE 1")).style.name)


class Examples(ConvertTest):
    """What stands in examples/exports, and beside each export what is told of it."""

    def test_reports(self):
        """Each has the report that stands beside it, and status 3 where something is lost. What the
        program explains is tested elsewhere."""
        own = lambda report: [
            line for line in report.splitlines() if not line.startswith("explain: ")
        ]
        for file in sorted(EXPORTS.glob("*.asc")):
            with self.subTest(file.name):
                done = run_tool("convert", file.relative_to(TOP), cwd=TOP)
                told = file.with_suffix(".report").read_text()
                self.assertEqual(3 if ": lost: " in told else 0, done.returncode)
                self.assertEqual(own(told), own(done.stderr))

    def test_shown_lines(self):
        """What the page for operators shows of a report stands in that report."""
        page = (TOP / "docs/OPERATING.md").read_text()
        part = page.partition("## A show from another console")[2].partition("\n## ")[0]
        command, shown = (
            block.splitlines() for block in re.findall(r"(?ms)^```\n(.*?)^```$", part)
        )
        self.assertEqual(
            ["tools/convert examples/exports/eos.asc >show.asc 2>show.report"], command
        )
        self.assertEqual(3, len(shown))
        self.assertLessEqual(set(shown), set((EXPORTS / "eos.report").read_text().splitlines()))

    def looks(self, name):
        """The show of an example, and the levels of its cues by their numbers."""
        _, show = self.convert((EXPORTS / f"{name}.asc").read_bytes())
        return show, {number / 1000: cue.levels for number, cue in show.cues.items()}

    def test_eos(self):
        """An export of which the program refuses line after line: all light is there."""
        show, looks = self.looks("eos")
        # House lights 9001 and 9002 are channels behind the last one that is in use, 21.
        expected = {
            1: {22: 128, 23: 128},
            2: {11: 128, 12: 128},
            3: {},
            4: {1: 255, 2: 255, 3: 204, 4: 204, 21: 64},
            5: {1: 128, 2: 128, 21: 128},
            10: {11: 255, 12: 255, 21: 255},
        }
        self.assertEqual(expected, looks)
        dimmers = {n: (n, 255) for n in (1, 2, 3, 4, 11, 12)}
        self.assertEqual(dimmers | {21: (21, 204), 101: (22, 255), 102: (23, 255)}, show.patch)
        self.assertEqual({1: {1: 255, 2: 255, 3: 255, 4: 255}, 2: {22: 255, 23: 255}}, show.subs)
        self.assertEqual([1, 2, 3], sorted(show.groups))
        times = {n: (cue.rises(), cue.falls(), cue.follow) for n, cue in show.cues.items()}
        self.assertEqual(((3000, 0), (3000, 0), None), times[1000])
        self.assertEqual(((5000, 0), (2500, 1260), 10000), times[2000])
        self.assertEqual(((60000, 10000), (60000, 10000), None), times[4000])
        self.assertEqual(((4000, 0), (4000, 0), None), times[5000])
        self.assertEqual(((90000, 0), (90000, 0), None), times[10000])
        labels = [show.label("cues", n) for n in sorted(show.cues)]
        first = [b"House to half", b"Preset, curtain warmers", b"Blackout"]
        first += [b"Bahnhof [LINK 10] [part 1 (1-4): UP 5]"]
        self.assertEqual([*first, b"", b"Epilogue"], labels)

    def test_express(self):
        _, looks = self.looks("express")
        expected = {
            1: {1: 128, 2: 128, 3: 255, 4: 115, 5: 85},
            2: {6: 255, 7: 255},
            2.5: {9: 255, 10: 255},
            3: {1: 255, 2: 255},
        }
        self.assertEqual(expected, looks)

    def test_strand(self):
        show, looks = self.looks("strand")
        expected = {
            1: {1: 179, 2: 179, 3: 179, 4: 140, 5: 140},
            2: {1: 26, 6: 255, 7: 255, 8: 255},
            4: {5: 255},
        }
        self.assertEqual(expected, looks)
        self.assertEqual([*range(1, 9)], sorted(show.patch))

    def test_magicq(self):
        show, looks = self.looks("magicq")
        expected = {1: {1: 128, 2: 128}, 2: {1: 255, 3: 255, 101: 127}, 3: {102: 255, 103: 255}}
        self.assertEqual(expected, looks)
        self.assertEqual(
            ((6130, 0), (3010, 0)), (show.cues[2000].rises(), show.cues[2000].falls())
        )

    def test_hog(self):
        _, looks = self.looks("hog")
        self.assertEqual({1: {1: 77, 2: 77}, 2: {3: 255}}, looks)

    def test_slips(self):
        """What a show file passes in silence is told, and means what it means to the program."""
        content = (EXPORTS / "slips.asc").read_bytes()
        found, show = self.convert(content)
        meant = shows.read(content)
        self.assertEqual((meant.cues, meant.patch), (show.cues, show.patch))
        told = "\n".join(found.report.lines())
        for part in (
            "line 4: in doubt: dimmer 3: patched to channel 3, and then to 2",
            "line 7: in doubt: UP 0,5 is a time and a delay: is the comma a point?",
            "lines 6, 10: in doubt: cue 5 is opened again: its lines count together",
            "line 16: lost: cue 6: CEU 7: left out (CUE?); the lines after it went to cue 6",
        ):
            self.assertIn(part, told)


class Encodings(ConvertTest):
    LINES = ("IDENT 3:0", "CUE 1", "TEXT Caf\xe9", "CHAN 1@FL", PATCH, "ENDDATA")
    MEANT = {1: 255}

    def assertReads(self, content, label, *told):
        found, show = self.convert(content)
        self.assertEqual(self.MEANT, show.cues[1000].levels)
        self.assertEqual(label, show.label("cues", 1000))
        self.assertEqual([f"changed: {each}" for each in told], found.report.lines())

    def test_utf_16(self):
        lines = "".join(line + "\r\n" for line in self.LINES)
        for encoding, mark in (
            ("utf-16-le", b"\xff\xfe"), ("utf-16-be", b"\xfe\xff"), ("utf-16-le", b""),
            ("utf-16-be", b""),
        ):  # fmt: skip
            with self.subTest(encoding=encoding, mark=mark):
                content = mark + lines.encode(encoding)
                self.assertReads(content, "Caf\xe9".encode(), "UTF-16, written as UTF-8")

    def test_mark_of_utf_8(self):
        content = b"\xef\xbb\xbf" + text(*self.LINES)
        self.assertReads(content, b"Caf\xe9", "the byte order mark of UTF-8")

    def test_line_ends(self):
        """Of old Macs, also with one LF at the end; those of DOS need no word."""
        mac = "the line ends of old Macs, CR alone"
        content = "\r".join(self.LINES).encode("latin-1")
        for end, told in ((b"", [mac]), (b"\r", [mac]), (b"\n", [mac])):
            self.assertReads(content + end, b"Caf\xe9", *told)
        for end in ("\n", "\r\n", "\r\r\n"):
            self.assertReads((end.join(self.LINES) + end).encode("latin-1"), b"Caf\xe9")

    def test_bytes_of_labels(self):
        """Any bytes of a label stay; the program shows the same label of both."""
        label = bytes(byte for byte in range(1, 256) if byte not in b"\n!").strip(shows.EDGES)
        content = b"CUE 1\nTEXT " + label + b"\nCUE 2 ! wow! " + label + b"\n"
        _, show = self.convert(content)
        self.assertEqual(label, show.label("cues", 1000))
        self.assertEqual(b"wow! " + label, show.label("cues", 2000))


class Words(ConvertTest):
    """The tool as it is called."""

    def test_help(self):
        done = run_tool("convert", "--help")
        self.assertEqual((0, ""), (done.returncode, done.stderr))
        self.assertIn("--tracking", done.stdout)

    def test_standard_input_and_output(self):
        """The show on standard output, byte for byte, and all that is told on standard error."""
        content = text("CUE 1", "TEXT \xe9", "UP 3.000", *BOUNDS)
        done = subprocess.run(
            [sys.executable, TOOLS / "convert", "-"], input=content, capture_output=True
        )
        self.assertEqual((0, convert(content).show), (done.returncode, done.stdout))
        told = done.stderr.decode().splitlines()
        self.assertEqual(
            "read: standard input: 5 lines of a console that it does not name", told[0]
        )
        self.assertIn("kept: 1 cue, 0 submasters, 0 groups, 0 patched dimmers", told)
        self.assertIn("explain: note: no dimmer is patched: no universe is sent", told)
        refused = "not compared: the program refuses the file as it stands: show line 3: BadTime"
        self.assertIn(refused, told)

    def comparison_lines(self, *lines, words=(), status=0):
        done, told = self.run_tool(text(*lines, *BOUNDS), *words)
        self.assertEqual(status, done.returncode)
        return [line for line in told if "compared" in line]

    def test_compared(self):
        """The slots of each cue, as the program shows both files; a cue that goes on at once
        too."""
        show = (
            "CUE 1",
            "CHAN 1@FL",
            "FOLLOWON 0",
            "CUE 2",
            "CHAN 2@50",
            "UP 5",
            "CUE 3",
            "FOLLOWON 0",
        )
        same = "compared: 3 cues, with the slots and times of the file as it stands"
        universes = "PATCH 1 " + " ".join(f"1<{512 * n + 1}@FL" for n in range(16))
        for more in ((PATCH,), (), (universes,)):
            self.assertEqual([same], self.comparison_lines(*show, *more))
        other = "than the program makes of the file as it stands"
        found = self.comparison_lines(*show, "PATCH 1", "1<1@FL 2<2@FL")
        self.assertEqual([f"compared: other slots {other}: cues 1, 2"], found)
        found = self.comparison_lines("CUE 1", "UP 5", "CHAN 1@FL", "PART 2", "UP 9")
        self.assertEqual([f"compared: other times {other}: cue 1"], found)
        one = same.replace("3 cues", "1 cue")
        found = self.comparison_lines("\xef\xbb\xbfCUE 1", "CUE 2")
        self.assertEqual(["compared: only in the converted show: cue 1", one], found)
        found = self.comparison_lines("CUE 1", "CUE 2", "CUE 2 3", words=["--list", "3"])
        self.assertEqual(["compared: only in the file as it stands: cue 1", one], found)
        none = "not compared: the program finds no cue in the file as it stands"
        self.assertEqual([none], self.comparison_lines("CUE 1 2"))
        found = self.comparison_lines("CUE 1", "CHAN 1@FL", "$X", "CHAN 2@FL", PATCH, status=3)
        self.assertEqual([f"{one}, where what is lost above is missing too"], found)

    def test_refused(self):
        """What is no export, or no show could hold: nothing is written, and why is told."""
        page = b"<html><body>CUE 1</body></html>\n"
        picture = b"\x89PNG\r\n\x1a\n\0\0\0\rIHDR" + bytes(range(256)) * 40
        cues = text(*(f"CUE {n}" for n in range(1, 2002)))
        label = "x" * 2000
        long = text(*(f"CUE {n} ! {label}" for n in range(1, 600)))
        none = r"no cue, submaster, group or patch was found: is this an export\?"
        for content, told in (
            (b"", none),
            (page, none),
            (picture, none),
            (cues, "2,001 cues, and a show has at most 2,000"),
            (long, r"the show has [\d,]+ bytes, and may have 1,048,576"),
        ):
            with self.subTest(content[:20]):
                done = run_tool("convert", self.file("given", content))
                self.assertEqual((1, ""), (done.returncode, done.stdout))
                self.assertRegex(done.stderr, rf"^convert: {told}\n$")
        done = run_tool("convert", self.folder / "none")
        self.assertEqual((1, ""), (done.returncode, done.stdout))
        self.assertIn("No such file or directory", done.stderr)
        self.assertEqual(2, run_tool("convert", "--list", "x", "-").returncode)

    def test_full_disk(self):
        """A show that cannot be written is told, with its reason alone."""
        file = self.file("given", text("CUE 1"))
        for tool in ("convert", "sheet"):
            with open("/dev/full", "wb") as full:
                words = [sys.executable, TOOLS / tool, file]
                done = subprocess.run(words, stdout=full, stderr=subprocess.PIPE, text=True)
            told = f"{tool}: standard output: No space left on device"
            self.assertEqual((1, told), (done.returncode, done.stderr.splitlines()[-1]))

    def test_result_that_is_refused(self):
        """What the program does not take is never written."""
        file = self.file("given", text("CUE 1"))
        faulty = convert(file.read_bytes())
        faulty.show = text("CUE x")
        out, err = io.StringIO(), io.StringIO()
        with mock.patch.object(convert_command, "convert", return_value=faulty):
            with mock.patch("sys.stdout", out), mock.patch("sys.stderr", err):
                self.assertEqual(1, convert_command.main([str(file)]))
        self.assertEqual("", out.getvalue())
        self.assertIn(
            "refused, which is a fault of this tool: show line 1: BadNumber", err.getvalue()
        )

    def test_long_report_is_cut(self):
        """Of a file of noise no end is told."""
        found, _ = self.convert("CUE 1", *(f"CHAN 1@FL x{n}@5" for n in range(1500)))
        lines = found.report.lines()
        self.assertEqual((1002, "lost: 500 more of this kind"), (len(lines), lines[-2]))


class Time(ConvertTest):
    def megabyte(self):
        r = random.Random(SEED)
        lines = [
            "IDENT 3:0",
            "CONSOLE Eos",
            "PATCH 1 " + " ".join(f"{n}<{n}@FL" for n in range(1, 513)),
        ]
        while len(lines) < 3300:
            lines += [f"CUE {len(lines)}", "UP 3.000", f"TEXT cue {len(lines)}"]
            levels = ("FL", "50", "H80", "33%")
            lines += [
                "CHAN " + " ".join(f"{r.randrange(1, 600)}@{r.choice(levels)}" for _ in range(90))
            ] * 3
        return text(*lines)[: 1 << 20]

    def test_a_megabyte(self):
        """It is converted within a second where nothing else runs, and in three of a slow
        machine."""
        content = self.megabyte()
        self.assertEqual(1 << 20, len(content))
        began = time.process_time()
        convert(content)
        self.assertLess(time.process_time() - began, 3.0)

    def test_whole_run(self):
        """And with all that the program says of it within five."""
        file = self.file("given", self.megabyte())
        before = resource.getrusage(resource.RUSAGE_CHILDREN)
        # A line is cut at its end, and no ENDDATA is there.
        self.assertEqual(3, run_tool("convert", file).returncode)
        after = resource.getrusage(resource.RUSAGE_CHILDREN)
        self.assertLess(after.ru_utime - before.ru_utime, 5.0)

    def test_noise(self):
        """Nothing makes it slow: long lines, blanks, marks, parts and continuation lines."""
        for content in (
            b"CUE 1\nCHAN" + b" " * (1 << 20),
            b"CUE 1\nCHAN 1@" + b" 2@" * 20_000,
            b"CUE 1\nCHAN\n" + b"1@x\n" * 15_000,
            b"CUE 1\n" + b"PART 1\n" * 15_000,
            b"CUE 1\nPATCH 1\n" + b"1<x\n" * 15_000,
            b"CUE 1\nUP " + b"5" * (1 << 20),
            b"CUE 1\nTEXT " + b'",' * (1 << 19) + b"x",
            b"GROUP 1.1\nCHAN 1@5\n" * 10_000,
            b"\r" * (1 << 17) + b"CUE 1",
        ):
            with self.subTest(content[:24]):
                began = time.process_time()
                convert(content)
                self.assertLess(time.process_time() - began, 3.0)


# Lines that exports may have, and that a show file does not take as they stand.
ODD = (
    b'Cue 5 "name"', b"Cue 1.2345", b"Cue 3 2", b"CUE", b"CUE 12000", b"Chan 1@", b"chan 4@FL x@5",
    b"CHAN 1 FL 2", b"Part 3", b"PART", b"Link 9", b"LINK x", b"Patch 1<1", b"PATCH 1",
    b"PATCH 2 1<1@FL",
    b"PATCH 1 9001<7@FL", b"$Cue 1", b"$$x y", b"Up 1:2:3", b"UP 3.000 .125", b"DOWN M", b"UP",
    b"7<9@FL",
    b"  4@FL 5@50", b"Group 1.25", b"Group 900", b"Sub 0", b"SUB 101 2", b"Chan 4097@FL",
    b"FOLLOWON",
    b"CHAN 9001@H80 0@5", b"FOLLOWON 99999", b"CLEAR CUES", b"CLEAR ALL", b"CLEAR x", b"TEXT x",
    b"TEXT",
    b"IDENT 3.0", b"ENDDATA", b"CEU 7", b"UP 0,5",
)  # fmt: skip


class Hostile(ConvertTest):
    """Changed files of each style. `CONVERT_CASES=5000 tests/run test_convert` takes so many of
    each."""

    def cases(self, base, count):
        r = random.Random(SEED)
        for _ in range(count):
            lines = base.split(b"\n")
            for _ in range(r.choice((0, 0, 1, 2, 5))):
                lines.insert(r.randrange(len(lines)), r.choice(ODD))
            yield changes.with_changes(
                r, b"\n".join(lines), changes.OF_TEXTS, r.choice((0, 1, 2, 8, 20))
            )

    def meaning(self, show):
        """All that a show means, but for submasters and groups that hold nothing."""
        cues = {
            n: (cue.levels, cue.rises(), cue.falls(), cue.follow) for n, cue in show.cues.items()
        }
        masters = [
            {n: each for n, each in table.items() if each} for table in (show.subs, show.groups)
        ]
        return cues, show.patch, masters

    def labels(self, show):
        """The labels of cues, as far as no part has a label of its own."""
        return {n: show.label("cues", n) for n in show.cues}

    def assertConverts(self, content):
        """What is written is accepted, means what the export means as a show file where nothing is
        told to be changed, whatever is lost in both, and is converted to itself. Whether it was so
        compared, None where nothing was written."""
        try:
            found, show = self.convert(content)
        except Refused:
            return None
        again = convert(found.show)
        self.assertEqual(found.show.split(b"\n")[2:], again.show.split(b"\n")[2:])
        self.assertFalse(again.report.has(CHANGED, LEFT_OUT), again.report.lines())
        meant = shows.read(content)
        if isinstance(meant, str) or found.report.has(CHANGED):
            return False
        self.assertEqual(self.meaning(meant), self.meaning(show))
        if b"part" not in content.lower() and b"link" not in content.lower():
            self.assertEqual(self.labels(meant), self.labels(show))
        return True

    def test_changed_files(self):
        bases = {name: (EXPORTS / f"{name}.asc").read_bytes() for name in STYLES}
        # Of a show more is accepted as it stands, so that what it means can be compared.
        bases["show"] = (TOP / "examples/small-play.asc").read_bytes()
        compared = 0
        for name, base in bases.items():
            written, count = 0, 4 * CASES if name == "show" else CASES
            for place, content in enumerate(self.cases(base, count)):
                with self.subTest(f"{name} {place}"):
                    result = self.assertConverts(content)
                    written += result is not None
                    compared += result is True
            self.assertGreater(written, count // 2, name)
        self.assertGreater(compared, CASES // 2)

    def test_noise(self):
        """Bytes by chance: an answer or a refusal."""
        r = random.Random(SEED)
        for _ in range(CASES):
            self.assertConverts(
                bytes(r.choices(b"CUE CHAN 1@FL<2 \n\r\0!$\xff.,:", k=r.randrange(200)))
            )


if __name__ == "__main__":
    unittest.main()
