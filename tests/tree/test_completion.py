"""The completion for bash, called as Readline calls it, against what the program's help names."""

import functools
import os
import re
import subprocess
import tempfile
import unittest
from pathlib import Path

from jobs import jobs
from program import TOP

COMPLETION = TOP / "completion/cueplayer.bash"
NIGHT = TOP / "completion/cueplayer-night.bash"

# Sources the completion and calls its function for the words given, the last being the current
# one.
CALL = """
set -u
source "$1"
shift
COMP_WORDS=("$@") COMP_CWORD=$(($# - 1))
function=$(complete -p "$1")
function=${function#*-F }
"${function%% *}"
((${#COMPREPLY[@]} == 0)) || printf '%s\\n' "${COMPREPLY[@]}"
"""


@functools.cache
def premiere():
    """The options of `premiere`, by its help."""
    words = [TOP / "cueplayer", "premiere", "--help"]
    told = subprocess.run(words, capture_output=True, text=True).stdout.partition("\nusage:")[2]
    return set(re.findall(r"(?<![\w-])--[a-z-]+", told))


class CompletionTest(unittest.TestCase):
    SCRIPT = COMPLETION

    def setUp(self):
        folder = tempfile.TemporaryDirectory()
        self.addCleanup(folder.cleanup)
        self.folder = Path(folder.name)
        for name in ("night.asc", "nine shows.asc"):
            (self.folder / name).write_text("")

    def complete(self, *words):
        """What may stand for the last word, sorted."""
        done = subprocess.run(
            ["bash", "--norc", "-c", CALL, "bash", self.SCRIPT, self.SCRIPT.stem, *words],
            cwd=self.folder,
            capture_output=True,
            text=True,
            timeout=60,
        )
        self.assertEqual("", done.stderr)
        return sorted(done.stdout.splitlines())

    def assertCompletes(self, words, *expected):
        self.assertEqual(sorted(expected), self.complete(*words), words)


class Completion(CompletionTest):
    def test_jobs(self):
        """Those of the program's help, and the word help."""
        self.assertCompletes([""], *jobs(), "premiere", "help")
        self.assertCompletes(["help", ""], *jobs())
        self.assertCompletes(["li"], "listen", "live")
        self.assertCompletes(["help", "look", ""])
        self.assertCompletes(["nonsense"])

    def test_options(self):
        """Of each job those of its help, none but --to twice; before a job, the two that stand
        alone."""
        self.assertCompletes(["-"], "--help", "--version")
        for name, job in jobs().items():
            with self.subTest(name):
                self.assertCompletes([name, "--"], "--help", *job.options)
                for option in job.options:
                    others = set(job.options) - {option} | set(job.options) & {"--to"}
                    self.assertCompletes([name, option, "x", "-"], "--help", *others)
                    if job.options[option]:
                        self.assertCompletes([name, option, "=", "x", "-"], "--help", *others)

    def test_files(self):
        """Where the help has a word that names a file, there are files, and nothing elsewhere."""
        for name, job in jobs().items():
            before = [name]
            for argument in job.arguments:
                with self.subTest(f"{name} {argument}"):
                    files = (
                        ["night.asc", "nine shows.asc"] if argument in ("SHOW", "SCRIPT") else []
                    )
                    self.assertCompletes([*before, "ni"], *files)
                    before.append("x")
            with self.subTest(f"{name}, all words given"):
                self.assertCompletes([*before, "ni"])

    def test_values_of_options(self):
        for name, job in jobs().items():
            for option, value in job.options.items():
                if not value:
                    continue
                with self.subTest(f"{name} {option}"):
                    files = ["night.asc"] if value == "FILE" else []
                    self.assertCompletes([name, option, "nig"], *files)
                    self.assertCompletes([name, option, "=", "nig"], *files)
                    groups = ["239.255.0.0"] if value == "TARGET" else []
                    self.assertCompletes([name, option, "2"], *groups)
                    if value == "CARD":
                        self.assertCompletes([name, option, ""], *os.listdir("/sys/class/net"))

    def test_words_that_readline_parts(self):
        """An address with a port is one word, and so is a UUID behind `urn:uuid:`."""
        self.assertCompletes(["live", "--to", "127.0.0.1", ":", "5568", "nig"], "night.asc")
        self.assertCompletes(["live", "--to", "3", "=", "127.0.0.1", "nig"], "night.asc")
        self.assertCompletes(["live", "--to", "3", "=", "2"], "239.255.0.0")
        self.assertCompletes(["live", "--to", "=", "1-8", "=", "2"], "239.255.0.0")
        self.assertCompletes(["live", "--cid", "urn", ":", "uuid", ":", "x", "nig"], "night.asc")
        self.assertCompletes(["live", "--record", "=", ""], "night.asc", "nine shows.asc")
        self.assertCompletes(["live", "--record", "="], "night.asc", "nine shows.asc")

    def test_premiere(self):
        """The options of its help; a file first, and behind an option what that takes."""
        self.assertCompletes(["pr"], "premiere")
        self.assertCompletes(["premiere", "ni"], "night.asc", "nine shows.asc")
        self.assertCompletes(["premiere", "night.asc", "ni"])
        self.assertCompletes(["premiere", "night.asc", "--"], *premiere())
        self.assertCompletes(["premiere", "night.asc", "--to", "2"], "239.255.0.0")
        self.assertCompletes(["premiere", "night.asc", "--listen", "n"])
        self.assertCompletes(["premiere", "--key", "nig"], "night.asc")
        (self.folder / "nights").mkdir()
        self.assertCompletes(["premiere", "--night", "ni"], "nights")
        left = premiere() - {"--anyway"}
        self.assertCompletes(["premiere", "--anyway", "night.asc", "--"], *left)

    def test_no_options_behind_two_dashes(self):
        (self.folder / "--cid").write_text("")
        self.assertCompletes(["look", "--", "--"], "--cid")

    def test_names_only_what_the_program_has(self):
        """No job and no option stands in the completion that no help names."""
        text = re.sub(r"(?m)^\s*#.*$", "", COMPLETION.read_text())
        options = {option for job in jobs().values() for option in job.options} | premiere()
        self.assertEqual(
            options | {"--help", "--version"}, set(re.findall(r"(?<![\w-])--[a-z][a-z-]*", text))
        )
        cases = {
            name
            for line in re.findall(r"(?m)^ +([a-z |]+)\) echo", text)
            for name in line.split(" | ")
        }
        self.assertLessEqual(cases, set(jobs()))


class Night(CompletionTest):
    SCRIPT = NIGHT

    def test_folder(self):
        (self.folder / "nights").mkdir()
        self.assertCompletes(["ni"], "nights")
        self.assertCompletes(["-"], "--help")

    def test_commands(self):
        """Those of its help."""
        done = subprocess.run([TOP / "cueplayer-night", "--help"], capture_output=True, text=True)
        commands = self.complete("nights", "")
        for command in commands:
            self.assertRegex(done.stdout, rf"\b{command}\b")
        self.assertCompletes(["nights", "st"], "start", "status", "stop")
        self.assertCompletes(["nights", "go", ""])

    def test_start(self):
        """The show, and the options of `live` that the folder does not give."""
        options = {*jobs()["live"].options, "--background", "--if-refused"}
        options -= {"--record", "--resume", "--spare", "--follow", "--patience"}
        self.assertCompletes(["nights", "start", "ni"], "night.asc", "nine shows.asc")
        self.assertCompletes(["nights", "start", "x", ""])
        self.assertCompletes(["nights", "start", "x", "--"], *options)
        own = {"--background", "--if-refused"}
        self.assertCompletes(["nights", "make", "x", "--"], *(options - own))
        self.assertCompletes(["nights", "start", "x", "--to", ""], "239.255.0.0")
        self.assertCompletes(["nights", "start", "x", "--cid", "n"])
        self.assertCompletes(["nights", "start", "x", "--to", "y", "--"], *options)
        self.assertCompletes(
            ["nights", "start", "x", "--name", "y", "--"], *(options - {"--name"})
        )
        self.assertCompletes(
            ["nights", "start", "x", "--interface", ""], *os.listdir("/sys/class/net")
        )
