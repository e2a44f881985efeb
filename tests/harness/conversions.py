"""What the tests of `tools/convert` share: a conversion, accepted by the program, beside what the
second reader reads in its show."""

from expected import show as shows
from program import FolderTest, run, text
from tooling import run_tool

from cueplayer_tools.convert.conversion import convert
from cueplayer_tools.convert.exports.records import Choices

# What an export has besides: here behind the lines of a test, so that they keep their numbers.
BOUNDS = ("IDENT 3:0", "ENDDATA")
NO_END = "no ENDDATA line: the export may be cut behind "
NO_HEAD = "no IDENT line: the beginning of the export may be missing"
ADD = "; if the export is whole, add the line and convert it again"


def conversion_of(content, **words):
    """The conversion of an export, with these choices."""
    return convert(content, Choices(**words))


class ConvertTest(FolderTest):
    def convert(self, *lines, **words):
        """The conversion of these lines of a whole export, or of an export as it stands, accepted
        by the program, and the show by the second reader."""
        content = lines[0] if isinstance(lines[0], bytes) else text(*lines, *BOUNDS)
        found = conversion_of(content, **words)
        outcome = run("check", "-", stdin=found.show)
        self.assertEqual((0, b""), (outcome.status, outcome.err), found.show)
        return found, shows.read(found.show)

    def assertTold(self, found, *expected):
        """All that is told is this, the worst first."""
        self.assertEqual(list(expected), found.report.lines())

    def run_tool(self, content, *words):
        """The tool with an export in a file, and the lines that it reports."""
        done = run_tool("convert", self.file("given.asc", content), *words)
        return done, done.stderr.splitlines()
