"""The public calls of the crates, as their sources have them: each has a clause, and says when it
refuses. And `dev/calls`, which prints them."""

import re
import subprocess
import sys
import unittest

from program import TOP

sys.path.insert(0, str(TOP / "dev"))

from generators.calls import ERRORS, Call, all_calls, crates  # noqa: E402  (dev/ is on the path)

# A fault that says no more than that the call failed.
FAILED = re.compile(r"-> Result<[^>]*, LinkFault>")
# Whose documentation says it without a chapter on errors.
SAID_OTHERWISE = ("parse", "read_words")


def says_when_it_refuses(call: Call) -> bool:
    """What answers a fault has a chapter on errors; what answers an option says what it is. The
    `next` of an iterator has that from its trait."""
    if "-> Result<" in call.said and not FAILED.search(call.said):
        return bool(ERRORS.search(call.doc)) or call.name() in SAID_OTHERWISE
    return bool(call.refuses()) or "next_gives" in call.clauses


def told(*names: str) -> subprocess.CompletedProcess[str]:
    words = [str(TOP / "dev/calls"), *names]
    return subprocess.run(words, capture_output=True, text=True, timeout=60)


class Calls(unittest.TestCase):
    def test_clauses(self) -> None:
        """Each call has a clause, unless it changes and answers nothing, as one that only waits."""
        calls = [call for found in all_calls().values() for call in found]
        self.assertGreater(len(calls), 500)
        for call in calls:
            with self.subTest(call.said):
                self.assertTrue(call.clauses or not call.does_something())

    def test_refusals(self) -> None:
        """Of each call that can refuse, the source says when."""
        for crate, calls in all_calls().items():
            for call in filter(Call.can_refuse, calls):
                with self.subTest(crate, call=call.said):
                    self.assertTrue(says_when_it_refuses(call))


class Printed(unittest.TestCase):
    def test_crates(self) -> None:
        """Without a crate it lists each of them, with what it is for."""
        rows = [line.split(maxsplit=1) for line in told().stdout.splitlines()]
        self.assertEqual(crates(), [row[0] for row in rows])
        self.assertTrue(all(row[1].endswith(".") for row in rows))

    def test_calls(self) -> None:
        """Of a crate it prints each call, with its conditions, clauses, growth and refusals."""
        text = told("show_reader").stdout
        self.assertIn(
            "\nread_show(alloc: Global, text: &[u8]) -> Result<Loaded, ShowFault>\n"
            "    ensures  faultless show lines skipped fault sure too_long\n"
            "    memory   may grow\n"
            "    refuses  ",
            text,
        )
        self.assertIn("\nlimits_law()\n    ensures  ensures\n", text)

    def test_no_calls(self) -> None:
        """A crate without any, one whose devices do not tell, and none of this name."""
        self.assertIn("It has no public call.\n", told("timings").stdout)
        self.assertIn("do not tell", told("system_devices").stdout)
        refused = told("nowhere")
        self.assertEqual((2, "dev/calls: no crate nowhere\n"), (refused.returncode, refused.stderr))


if __name__ == "__main__":
    unittest.main()
