"""The wrong programs: each can be made, and the tests that have to catch it are there.
`dev/wrong-programs` builds them, and runs these tests on them."""

import importlib
import sys
import unittest
from collections import Counter

from program import TOP

sys.path.insert(0, str(TOP / "dev"))

from generators.wrong_programs import FOLDER, edited_files, wrong_programs  # noqa: E402

# The crates of which no contract says more than that they are safe and end.
SHELL = ("system_devices/src/", "cueplayer/src/")
# No contract says that there is memory: what always answers Memory is proved, in any crate.
PROVED = "always_memory"


def find(name: str) -> type | object:
    """What has this name: a module of tests, a class in it or a test in that."""
    module, *parts = name.split(".")
    thing: object = importlib.import_module(module)
    for part in parts:
        thing = getattr(thing, part)
    return thing


class WrongPrograms(unittest.TestCase):
    def test_each_applies(self) -> None:
        """Each old text stands in its file once, and another one comes in its place."""
        self.assertTrue(wrong_programs())
        for program in wrong_programs():
            with self.subTest(program.name):
                self.assertTrue(edited_files(program, TOP / "crates"))
                is_shell = all(edit.file.startswith(SHELL) for edit in program.edits)
                self.assertEqual("" if is_shell else PROVED, program.wrong_body)

    def test_tests_are_there(self) -> None:
        for program in wrong_programs():
            with self.subTest(program.name):
                self.assertTrue(program.tests)
                for name in program.tests:
                    self.assertTrue(name.startswith("test_"))
                    self.assertTrue(find(name))

    def test_no_two_are_the_same(self) -> None:
        """Each tells in words of its own what is wrong, and has edits of its own."""
        programs = wrong_programs()
        for values in (
            [program.wrong for program in programs],
            [str(program.edits) for program in programs],
        ):
            self.assertEqual([], [value for value, count in Counter(values).items() if count > 1])
        self.assertTrue(all(program.wrong and "|" not in program.wrong for program in programs))

    def test_no_other_file(self) -> None:
        names = {path.name for path in FOLDER.iterdir()}
        self.assertEqual({f"{program.name}.edit" for program in wrong_programs()}, names)


if __name__ == "__main__":
    unittest.main()
