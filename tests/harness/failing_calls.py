"""What the tests share in which calls of the system fail, one after another."""

from preload import PreloadTest
from program import CID, text
from wire import ReceiverTest
from worked import S1


class FailingCalls(ReceiverTest, PreloadTest):
    SHOW, SOURCE = S1, "fail.c"

    def environment(self, *failures):
        """`failures`: a call's name, the first and the last of its calls that fail, and the
        error."""
        words = " ".join(f"{call} {first} {last} {error}" for call, first, last, error in failures)
        return self.library_environment(FAILS=words)

    def run_failing(self, words, stdin, *failures):
        """How a run ends; its input is a file."""
        return self.run_preloaded(words, stdin, self.environment(*failures))

    def plays(self, lines, *failures):
        """How `play` ends, and what came of its packets."""
        words = ["play", self.show, "--to", self.to, "--cid", CID]
        return self.run_failing(words, text(*lines), *failures), self.came()
