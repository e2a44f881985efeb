"""`./build`, which proves and builds the program and refreshes dist/, with a prover's stand-in."""

import os
import re
import shutil
import signal
import time
import unittest
from pathlib import Path

from copied_layout import PROVER, CopiedLayout

# What is built has to be a program of Linux: `strip` takes no script. These stand for two.
ONE, OTHER = shutil.which("true"), shutil.which("cat")

CRATES = ("cueplayer", "low", "middle", "show")
FIRST = "proving and building cueplayer: "
LAST = "dist/ has the program: ./cueplayer runs it"


def proof_output(*crates: str) -> str:
    """What `rt ci` prints of crates that it proved, among lines of their own."""
    return "".join(
        f"echo '== {name}'; echo 'fn {name}::f: proved'; echo 'rt: {name} proved'\n"
        for name in crates
    )


def kept_output(crate: str) -> str:
    """What it prints of one that an earlier run proved."""
    return f"echo 'rt: {crate} is kept: an earlier run on this machine proved the same'\n"


def kit_named(name: str) -> str:
    """The prover of a kit with this name."""
    return PROVER.replace("kit of a test", name)


# Leaves the number of its process where the tests look for it, and takes long.
GOES_ON = 'echo $$ >"$PROVER_TOP/number"\nexec sleep 60\n'


@unittest.skipUnless(shutil.which("strip"), "strip, of binutils, is not on PATH")
class Building(CopiedLayout):
    def setUp(self):
        super().setUp()
        shutil.copy(ONE, self.top / "made")
        self.before = self.dist_files()

    def dist_files(self) -> dict[str, bytes]:
        return {path.name: path.read_bytes() for path in (self.top / "dist").iterdir()}

    def provenance_fields(self) -> dict[str, str]:
        """What PROVENANCE says."""
        return dict(line.split(": ", 1) for line in self.provenance.read_text().splitlines())

    def messages(self, err: str) -> list[str]:
        """The lines of standard error, without the times."""
        return [re.sub(r", \d+:\d\d$", "", line) for line in err.splitlines()]

    def assertBuilds(self, *lines: str):
        """It tells these lines between its first and its last, and dist/ has what was built."""
        status, out, err = self.run_script("build")
        first, *rest, last = self.messages(err)
        self.assertEqual((0, "", [*lines], LAST), (status, out, rest, last), err)
        self.assertTrue(first.startswith(FIRST))
        self.assertNothingLeft()

    def assertNothingLeft(self):
        """Neither a copy, nor a half of dist/, nor anything in the tree."""
        self.assertEqual([], list((self.top / "tmp").iterdir()))
        self.assertEqual(["PROVENANCE", "cueplayer"], sorted(self.dist_files()))
        self.assertFalse(self.built.exists())

    def assertFails(self, *telling: str):
        """It ends with status 1 and tells why, and dist/ is as it was."""
        status, out, err = self.run_script("build")
        self.assertEqual((1, ""), (status, out))
        for line in telling:
            self.assertIn(line, err)
        self.assertEqual(self.before, self.dist_files())
        return err

    def assertInterrupted(self, interruption: signal.Signals):
        started = self.start("build")
        number = self.wait_for(self.number)
        started.send_signal(interruption)
        started.communicate(timeout=60)
        self.assertEqual(128 + interruption, started.returncode)
        self.wait_for(lambda: not Path(f"/proc/{number}").exists())
        self.assertEqual(self.before, self.dist_files())
        self.assertNothingLeft()
        (self.top / "number").unlink()

    def number(self) -> int:
        """The number of the prover's process; 0 where it has not started yet."""
        file = self.top / "number"
        return int(file.read_text().strip() or 0) if file.exists() else 0

    def test_builds(self):
        """The program of dist/ is the one that was built, and PROVENANCE says what it was made
        of."""
        self.assertBuilds()
        said = self.provenance_fields()
        self.assertEqual(["version", "toolchain", "sources", "program", "built"], list(said))
        self.assertEqual("kit of a test", said["toolchain"])
        self.assertEqual(self.sources(), said["sources"])
        self.assertRegex(said["built"], r"^\d{4}-\d\d-\d\dT\d\d:\d\d:\d\dZ$")
        status, out, _ = self.run_script("cueplayer", "--version")
        self.assertEqual(0, status)
        self.assertIn(f"program: sha256 {said['program']}\nsources: those of the program\n", out)

    def test_a_line_for_each_crate(self):
        """Proved or kept, as it comes, with the time so far."""
        self.write(
            "proving",
            proof_output("low")
            + kept_output("show")
            + "sleep 1.1\n"
            + proof_output("middle", "cueplayer"),
        )
        lines = [
            "   1 of 4  low",
            "   2 of 4  show",
            "   3 of 4  middle",
            "   4 of 4  cueplayer",
        ]
        self.assertBuilds(*lines)
        _, _, err = self.run_script("build")
        self.assertRegex(err.splitlines()[3], r"^   3 of 4  middle, 0:0[1-9]$")

    def test_proves_its_own_crates_alone(self):
        """On a copy, in which the crates of tests and the edits are not; and not as the gate
        does."""
        (self.top / "crates/low/must-fail").mkdir()
        (self.top / "crates/low/must-fail/x.edit").write_text("")
        listing = (
            'find . -name "*.edit" -o -mindepth 2 -maxdepth 2 -path "./crates/*" |'
            ' sort >"$PROVER_TOP/found"\n'
        )
        self.write(
            "proving",
            listing + 'cp crates.txt "$PROVER_TOP/lines"\necho "${CI-no CI}" >"$PROVER_TOP/ci"\n',
        )
        status, _, err = self.run_script("build", more={"CI": "true"})
        self.assertEqual(0, status, err)
        found = (self.top / "found").read_text().split()
        self.assertEqual([f"./crates/{name}" for name in CRATES], found)
        named = [line.split(":")[0] for line in (self.top / "lines").read_text().splitlines()]
        self.assertEqual(sorted(CRATES), sorted(named))
        self.assertEqual("no CI\n", (self.top / "ci").read_text())
        self.assertNotEqual(f"{self.top}\n", (self.top / "place").read_text())
        self.assertEqual(["rt ci", "rt version"], self.requests())

    def test_same_again(self):
        """Where nothing differs dist/ stays, the date too."""
        self.assertBuilds()
        before = self.dist_files()
        time.sleep(1.1)
        self.assertBuilds()
        self.assertEqual(before, self.dist_files())

    def test_refreshes(self):
        """Another program or other sources; who runs the old program has it whole."""
        self.assertBuilds()
        with self.program.open("rb") as old:
            program = old.read()
            shutil.copy(OTHER, self.top / "made")
            self.source.write_text("other")
            self.assertBuilds()
            old.seek(0)
            self.assertEqual(program, old.read())
        self.assertNotEqual(program, self.program.read_bytes())
        self.assertEqual(self.sources(), self.provenance_fields()["sources"])

    def test_first_build(self):
        shutil.rmtree(self.top / "dist")
        self.assertBuilds()

    def test_sources_that_change_meanwhile(self):
        """What is told of the sources holds of those that were proved."""
        before = self.sources()
        self.write("proving", 'echo other >"$PROVER_TOP/crates/low/src/lib.rt"\n')
        self.assertBuilds()
        self.assertEqual(before, self.provenance_fields()["sources"])
        self.assertNotEqual(before, self.sources())

    def test_what_is_not_proved(self):
        """Its lines are told, without those of what is proved."""
        faulty = "echo '== middle'; echo 'fn middle::g: proved'; echo 'fn middle::f: not proved'\n"
        fails = faulty + "echo 'rt: middle NOT PROVED'; exit 1\n"
        self.write("proving", proof_output("low") + fails)
        err = self.assertFails(
            "fn middle::f: not proved", "rt: middle NOT PROVED", "build: not proved, so"
        )
        self.assertNotIn("fn middle::g: proved", err)
        self.assertNothingLeft()

    def test_prover_that_leaves_no_program(self):
        self.write("bin/rt", "#!/bin/sh\necho all is well\n")
        self.assertFails("rt ci succeeded, but there is no program at")

    def test_interruptions(self):
        """Neither half a program is left, nor a temporary file, nor the prover; and it can be done
        again."""
        self.write("proving", proof_output("low") + GOES_ON)
        for interruption in (signal.SIGTERM, signal.SIGINT, signal.SIGHUP):
            with self.subTest(interruption):
                self.assertInterrupted(interruption)
        self.write("proving", "")
        self.assertBuilds()

    def test_builds_at_once(self):
        """One works, the others wait and tell so."""
        self.write(
            "proving",
            'echo begin >>"$PROVER_TOP/turns"; sleep 0.5; echo end >>"$PROVER_TOP/turns"\n',
        )
        builds = [self.start("build") for _ in range(3)]
        told = [build.communicate(timeout=60)[1] for build in builds]
        self.assertEqual([0, 0, 0], [build.returncode for build in builds])
        self.assertEqual(2, sum("another build is at work" in err for err in told))
        self.assertEqual(["begin", "end"] * 3, (self.top / "turns").read_text().split())

    def test_without_prover(self):
        bare = self.top / "bare"
        bare.mkdir()
        for tool in ("bash", "readlink"):
            (bare / tool).symlink_to(shutil.which(tool))
        status, out, err = self.run_script("build", path=str(bare))
        told = "build: rt, the prover, is not on PATH; ./cueplayer runs without it\n"
        self.assertEqual((1, "", told), (status, out, err))

    @unittest.skipUnless(os.geteuid() == 0, "only root can be somebody else")
    @unittest.skipUnless(os.stat(os.devnull).st_mode & 0o002, f"{os.devnull} is not everybody's")
    def test_read_only(self):
        os.chmod(self.above, 0o755)
        (self.top / "tmp").mkdir()
        status, _, err = self.run_script("build", user=65534, group=65534, extra_groups=[])
        self.assertEqual((1, f"build: {self.top}/dist is not writable\n"), (status, err))

    def test_words(self):
        status, out, err = self.run_script("build", "now")
        self.assertEqual((2, "", "usage: ./build\n"), (status, out, err))


class OddFolderBuilding(Building):
    """The same, in a folder whose name a shell might stumble over."""

    NAME = " -it's \"a\"\n$(exit 1)*\n"


@unittest.skipUnless(shutil.which("strip"), "strip, of binutils, is not on PATH")
class Gate(CopiedLayout):
    """`.ci/run`, with a dist/ that is what it builds."""

    def setUp(self):
        super().setUp()
        shutil.copy(ONE, self.top / "made")
        self.assertEqual(0, self.run_script("build")[0])

    def assertCloses(self, status, line, telling=""):
        """It ends with this status and this last line, and tells this on standard error."""
        got, out, err = self.run_script(".ci/run")
        self.assertEqual((status, line), (got, out.splitlines()[-1]), err)
        self.assertIn(telling, err)

    def test_sums_all_runs(self):
        """The comparison of dist/ counts as one."""
        self.assertCloses(0, "17 passed, 0 failed")

    def test_fails_with_either_run(self):
        self.write("tests/run", "#!/bin/sh\necho '2 passed, 2 failed'\nexit 1\n")
        self.assertCloses(1, "15 passed, 2 failed")
        self.write("tests/run", "#!/bin/sh\nexit 1\n")
        self.assertCloses(1, "13 passed, 1 failed")
        self.write(
            "bin/rt", PROVER.replace("7 passed, 0 failed", "6 passed, 1 failed") + "exit 1\n"
        )
        self.write("tests/run", "#!/bin/sh\necho '4 passed, 0 failed'\n")
        self.assertCloses(1, "16 passed, 1 failed")

    def test_fails_with_an_edit(self):
        """One that is not refused, or a wrong program that nothing catches."""
        self.write("dev/edits", "#!/bin/sh\necho '2 passed, 1 failed'\nexit 1\n")
        self.assertCloses(1, "16 passed, 1 failed")
        self.write("dev/wrong-programs", "#!/bin/sh\necho '1 passed, 1 failed'\nexit 1\n")
        self.assertCloses(1, "15 passed, 2 failed")

    def test_draws_by_another_word_each_time(self):
        """No author of a change knows which crates' edits are tried in any case."""
        words = [
            re.search(r"(?m)^edits: --held --draw ([0-9a-f]{16})$", self.run_script(".ci/run")[1])
            for _ in range(2)
        ]
        self.assertTrue(all(words))
        self.assertNotEqual(*(word[1] for word in words))

    def test_without_a_program(self):
        """A program that an earlier run left is not taken for one that this run proved."""
        shutil.copy(self.top / "made", self.write("crates/cueplayer/out/cueplayer", ""))
        self.write("bin/rt", "#!/bin/sh\necho '6 passed, 1 failed'\nexit 1\n")
        self.assertCloses(1, "6 passed, 2 failed")

    def test_compares_what_is_shipped(self):
        """Any difference fails it, and one line says which, and which command mends it."""
        told = "dist/ is not what was proved and built here ({}): ./build refreshes it"
        changes = (
            ("its program", lambda: self.program.write_bytes(b"another")),
            ("its program", self.program.unlink),
            ("program", lambda: shutil.copy(OTHER, self.top / "made")),
            ("sources", lambda: self.source.write_text("other")),
            (
                "sources",
                lambda: self.provenance.write_text(
                    re.sub("sources: .*", "sources: x", self.provenance.read_text())
                ),
            ),
            ("toolchain", lambda: self.write("bin/rt", kit_named("kit-2 logic 0f"))),
            ("version", lambda: (self.top / "VERSION").write_text("2.0.0\n")),
            ("version, toolchain, sources, program", self.provenance.unlink),
        )
        for name, change in changes:
            with self.subTest(name):
                change()
                self.assertCloses(1, "16 passed, 1 failed", told.format(name))
                self.assertEqual(0, self.run_script("build")[0])
                self.assertCloses(0, "17 passed, 0 failed")

    def test_kits_of_one_logic(self):
        """Another kit of the same logic builds the same: PROVENANCE keeps the name of the first."""
        self.write("bin/rt", kit_named("kit-1 logic 0e"))
        self.assertEqual(0, self.run_script("build")[0])
        before = self.provenance.read_text()
        self.assertIn("\ntoolchain: kit-1 logic 0e\n", before)
        self.write("bin/rt", kit_named("kit-2 logic 0e"))
        self.assertCloses(0, "17 passed, 0 failed")
        self.assertEqual(0, self.run_script("build")[0])
        self.assertEqual(before, self.provenance.read_text())

    def test_tests_what_is_shipped(self):
        """The tests run the program of dist/; where that is another, they run the one that was
        built."""
        self.write("tests/run", '#!/bin/sh\necho "${CUEPLAYER-dist}"\necho "4 passed, 0 failed"\n')
        self.assertIn("\ndist\n", self.run_script(".ci/run")[1])
        self.program.unlink()
        self.assertIn(f"\n{self.built}\n", self.run_script(".ci/run")[1])

    def test_without_prover(self):
        bare = self.top / "bare"
        bare.mkdir()
        for tool in ("bash", "dirname"):
            (bare / tool).symlink_to(shutil.which(tool))
        status, _, err = self.run_script(".ci/run", path=str(bare))
        self.assertEqual(1, status)
        self.assertIn("rt is not on PATH", err)
