"""What `dev/pages` writes: no page is stale, and its table of the command line is the
program's."""

import re
import sys
import unittest

from jobs import help_of, jobs
from program import TOP

sys.path.insert(0, str(TOP / "dev"))

from generators import command_line  # noqa: E402  (dev/ is on the path from here on)
from generators.marks import MarksMissing, with_block  # noqa: E402
from generators.pages import pages  # noqa: E402


class Pages(unittest.TestCase):
    maxDiff = None

    def test_no_page_is_stale(self):
        for path, text in pages().items():
            with self.subTest(path.name):
                told = "dev/pages writes it anew"
                self.assertEqual(text.splitlines(), path.read_text().splitlines(), told)

    def test_a_block_without_marks(self):
        """What stands outside of a block stays; a text without the marks is refused."""
        text = "a\n# dev/pages writes the b from c.\nold\n# end of the b\nd\n"
        self.assertEqual(text.replace("old", "new"), with_block("x", "the b", "new\n", text))
        for cut in ("# dev/pages writes the b from c.\n", "# end of the b\n"):
            with self.assertRaises(MarksMissing) as raised:
                with_block("x.md", "the b", "", text.replace(cut, ""))
            self.assertIn("x.md has no lines", str(raised.exception))


class Table(unittest.TestCase):
    """The table that is read from the source, against the help that the program prints."""

    def test_jobs(self):
        listed = help_of().partition("Commands:\n")[2].partition("\n\n")[0]
        told = re.findall(r"(?m)^  (\w+) +(.*)$", listed)
        self.assertEqual(told[:-1], [(job.name, job.about) for job in command_line.jobs()])

    def test_arguments(self):
        for job in command_line.jobs():
            with self.subTest(job.name):
                of_help = jobs()[job.name]
                self.assertEqual(of_help.arguments, [word.value for word in job.words()])
                options = {option.option: option.value for option in job.options()}
                self.assertEqual(of_help.options, options)
                text = help_of(job.name)
                self.assertTrue(text.startswith(job.about + "\n"))
                self.assertIn(f"\n{job.example}\n", text)
                for argument in job.arguments:
                    self.assertIn(f"  {argument.text}\n", text)

    def test_usage(self):
        """Which words and options have to be there."""
        for job in command_line.jobs():
            with self.subTest(job.name):
                usage = re.search(r"(?m)^Usage: cueplayer \w+ (.*)$", help_of(job.name))[1]
                needed = [part for part in job.synopsis()[1:] if not part.startswith("[")]
                told = re.sub(r"\[OPTIONS\]|[<>]|\.\.\.", "", usage).split()
                wanted = " ".join(needed).replace("..", "").split()
                self.assertEqual(sorted(wanted), sorted(told))
