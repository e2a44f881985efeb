"""The manual pages, against the help of the program and of the tools, and against docs/FORMATS.md
and docs/PROFILE.md."""

import hashlib
import re
import shutil
import subprocess
import unittest

from jobs import jobs
from program import TOP
from tooling import run_tool

PAGES = {path.name: path for path in sorted((TOP / "man").iterdir())}
TOOLS = ("conform", "convert", "desk", "osc", "picture", "premiere", "sheet", "storm", "watch")
# Tools of several kinds, each with a help of its own.
KINDS = {
    "conform": ("receiver", "source", "vectors", "page"),
    "picture": ("night", "rehearsal", "storm"),
}
FORMATS = (TOP / "docs/FORMATS.md").read_text()
PROFILE = (TOP / "docs/PROFILE.md").read_text()

# The Apache License, Version 2.0, as https://www.apache.org/licenses/LICENSE-2.0.txt has it.
APACHE_2 = "cfc7749b96f63bd31c3c42b5c471bf756814053e847c10f3eb003417bc523d30"


def page_text(source):
    """The text that a page's source shows, a line for each of its lines: no macros and no
    fonts."""
    lines = []
    for line in source.splitlines():
        macro, _, rest = line.partition(" ")
        if line.startswith('.\\"'):
            continue
        if macro in (".B", ".I", ".SH", ".SS", ".BR", ".BI", ".IB", ".IR", ".RB", ".RI"):
            words = [quoted or bare for quoted, bare in re.findall(r'"([^"]*)"|(\S+)', rest)]
            line = ("" if len(macro) == 3 and macro[1] != "S" else " ").join(words)
        elif line.startswith("."):
            line = ""
        line = re.sub(r"\\f[BIPR]", "", line)
        lines.append(line.replace("\\-", "-").replace("\\e", "\\"))
    return "\n".join(lines)


def parts(source, macro):
    """The parts of a source that begin with this macro, by their headings."""
    found = re.split(rf"(?m)^\.{macro} (.*)\n", source)[1:]
    return {page_text(head).strip('"'): body for head, body in zip(found[::2], found[1::2])}


def tags(source):
    """The tags of a source's paragraphs, as they are shown, each with its text."""
    found = re.split(r"(?m)^\.TP\n(.*)\n", source)[1:]
    return {
        page_text(tag): " ".join(page_text(body).split())
        for tag, body in zip(found[::2], found[1::2])
    }


def sections(name):
    return parts(PAGES[name].read_text(), "SH")


def rows(document, heading):
    """The cells of the first table below a heading, without the table's own head and without
    marks."""
    below = re.split(rf"(?m)^#+ {re.escape(heading)}\n", document)[1]
    table = re.search(r"(?m)(?:^\|.*\n)+", below)[0].splitlines()[2:]
    return [
        [cell.strip().replace("`", "") for cell in row.strip("|").split(" | ")] for row in table
    ]


def names_in(document):
    """Each name that stands first in a row of a table of names or faults."""
    found = []
    head = r"(?m)^\| (?:No\. \| )?(?:Name|Fault|Reply) \|.*\n\|.*\n"
    for table in re.findall(head + r"((?:\|.*\n)+)", document):
        for row in table.splitlines():
            cell = re.sub(r"^\| (?:\d+ \| )?", "", row).partition(" | ")[0]
            found += re.findall(r"\b[A-Z][A-Za-z]*[a-z]\b", cell)
    return found


class Manual(unittest.TestCase):
    def assertQuiet(self, *words):
        """The words, called with each page, end well and have nothing to say on standard error."""
        for page in PAGES.values():
            with self.subTest(page.name):
                done = subprocess.run([*words, page], capture_output=True, text=True, timeout=60)
                self.assertEqual((0, ""), (done.returncode, done.stderr))
                yield done.stdout

    @unittest.skipUnless(shutil.which("groff"), "groff is not on PATH")
    def test_groff_has_no_warning(self):
        for out in self.assertQuiet("groff", "-man", "-Tutf8", "-ww"):
            self.assertIn("Theatre Cue Player", out)

    @unittest.skipUnless(shutil.which("man"), "man is not on PATH")
    def test_man_has_no_warning(self):
        for out in self.assertQuiet("man", "--warnings", "-l"):
            self.assertIn("Theatre Cue Player", out)

    @unittest.skipUnless(shutil.which("mandoc"), "mandoc is not on PATH")
    def test_mandoc_has_no_warning(self):
        self.assertEqual(
            [""] * len(PAGES), list(self.assertQuiet("mandoc", "-Tlint", "-Wwarning"))
        )

    def test_jobs_and_options(self):
        """Each job of the help has its part, with exactly its options, each with the name of its
        value."""
        found = parts(sections("cueplayer.1")["JOBS"], "SS")
        self.assertEqual(sorted(jobs()), sorted(found))
        for name, job in jobs().items():
            with self.subTest(name):
                options = [f"{option} {value}".strip() for option, value in job.options.items()]
                self.assertEqual(options, list(tags(found[name])))

    def test_options_alone(self):
        options = tags(sections("cueplayer.1")["OPTIONS"])
        self.assertEqual(["-h, --help", "--version"], list(options))

    def test_no_other_option(self):
        """No option stands anywhere in the page that no job has."""
        known = {option for job in jobs().values() for option in job.options} | {
            "--help",
            "--version",
        }
        page = page_text(PAGES["cueplayer.1"].read_text())
        self.assertEqual(known, set(re.findall(r"(?<![\w-])--[a-z][a-z-]*", page)))

    def test_words(self):
        """Each word and each value of the help is explained, and no other."""
        wanted = {
            word for job in jobs().values() for word in (*job.arguments, *job.options.values())
        } - {""}
        self.assertEqual(wanted, set(tags(sections("cueplayer.1")["WORDS"])))

    def test_tools(self):
        """Each tool has a page, with exactly the options of its help."""
        others = {"cueplayer.1", "cueplayer-night.1", "cueplayer-show.5"}
        self.assertEqual({*others, *(f"cueplayer-{tool}.1" for tool in TOOLS)}, set(PAGES))
        for tool in TOOLS:
            with self.subTest(tool):
                kinds = KINDS.get(tool, ("",))
                helps = [run_tool(tool, *kind.split(), "--help").stdout for kind in kinds]
                known = set(re.findall(r"(?<![\w-])--[a-z-]+", "\n".join(helps)))
                options = sections(f"cueplayer-{tool}.1")["OPTIONS"]
                self.assertEqual(known, set(re.findall(r"(?<![\w-])--[a-z-]+", page_text(options))))

    def test_help_of_tools(self):
        """It begins with a sentence in a paragraph, and an example of the tool."""
        for tool in TOOLS:
            with self.subTest(tool):
                told = run_tool(tool, "--help").stdout
                self.assertRegex(told, rf"\A[A-Z][^\n]+(\n[^\n]+)?\.\n\n  .*{tool} .*\n")
                self.assertLess(told.index(f"{tool} "), told.index("\nusage: "))

    def test_night(self):
        """Each command of the script's help has its part."""
        done = subprocess.run([TOP / "cueplayer-night", "--help"], capture_output=True, text=True)
        below = done.stdout.partition("begins the\n")[2].partition("\nStatus 0")[0]
        listed = re.findall(r"(?m)^  ([a-z]\S.*?)(?:  |$)", below)
        names = set(re.findall(r"\b[a-z]{2,}\b", " ".join(listed))) - {"in"}
        found = " ".join(tags(sections("cueplayer-night.1")["COMMANDS"]))
        self.assertEqual(names | {"stop"}, set(re.findall(r"\b[a-z]{2,}\b", found)))

    def test_exit_statuses(self):
        statuses = [status for status, *_ in rows(FORMATS, "Exit statuses")]
        found = tags(sections("cueplayer.1")["EXIT STATUS"])
        self.assertEqual(statuses, [tag for tag in found if tag.isdigit()])

    def test_names_of_faults_and_refusals(self):
        """Each name of the page on formats stands in the page of the program."""
        page = set(re.findall(r"\w+", page_text(PAGES["cueplayer.1"].read_text())))
        names = names_in(FORMATS)
        self.assertIn("OutOfSequence", names)
        self.assertLessEqual(set(names), page)

    def test_faults_of_a_show(self):
        """The same, in their order, and none besides."""
        names = names_in(PROFILE)
        self.assertEqual("TooLong", names[0])
        self.assertEqual(names, list(tags(sections("cueplayer-show.5")["FAULTS"])))

    def test_limits_of_a_show(self):
        limits = {what: value.rstrip(".") for what, value in rows(PROFILE, "Limits")}
        self.assertEqual(limits, tags(sections("cueplayer-show.5")["LIMITS"]))

    def test_records_and_keywords(self):
        """Each record of the profile has its part, and each keyword stands in the page."""
        records = PROFILE.partition("## Records\n")[2].partition("\n## ")[0]
        records = re.findall(r"(?m)^### (.*)$", records)
        self.assertIn("CUE", records)
        self.assertLessEqual(
            set(records), set(parts(sections("cueplayer-show.5")["RECORDS"], "SS"))
        )
        listed = re.search(r"(?m)^\*Primary\* keywords.*$", PROFILE)[0]
        keywords = set(re.findall(r"\b[A-Z]{2,}\b", listed))
        page = page_text(PAGES["cueplayer-show.5"].read_text())
        self.assertLessEqual(keywords, set(re.findall(r"\b[A-Z]{2,}\b", page)))

    def test_synopsis_is_a_show(self):
        """The show at the head of the page is that of the profile, but for a comment, and is
        checked."""
        lines = page_text(sections("cueplayer-show.5")["SYNOPSIS"]).strip("\n").split("\n")
        profile = re.search(r"(?s)```\n(IDENT.*?)```", PROFILE)[1]
        wanted = [line.partition("!")[0].rstrip() for line in profile.splitlines()]
        self.assertEqual(wanted, [line.partition("!")[0].rstrip() for line in lines])


class License(unittest.TestCase):
    def test_license_is_the_standard_text(self):
        found = hashlib.sha256((TOP / "LICENSE").read_bytes()).hexdigest()
        self.assertEqual(APACHE_2, found)
