"""`./cueplayer`, which starts the program of dist/, and `--version`, in a copy of the layout."""

import os
import shutil
import subprocess
import time
import unittest

from copied_layout import MADE, SHOWN, CopiedLayout, sum_of
from machine import in_time, took
from program import TOP

WORDS = ("look", "-", "1")
# No more than the head of a program of Linux, which no system starts; it asks for this C library.
HEAD = b"\x7fELF\2\1\1\0 GLIBC_2.2.5 GLIBC_2.34 GLIBC_2.17 "
AS_OTHER = {"user": 65534, "group": 65534, "extra_groups": []} if os.geteuid() == 0 else {}


class Starting(CopiedLayout):
    def assertStarts(self, script="cueplayer", **options):
        """The program runs with its words and input, and nothing else is printed."""
        self.assertEqual(SHOWN, self.run_script(script, *WORDS, **options))
        self.assertEqual([], self.requests())

    def assertFails(self, telling, script="cueplayer", **options):
        """One line on standard error says why no program is started."""
        status, out, err = self.run_script(script, *WORDS, **options)
        self.assertEqual((1, ""), (status, out), err)
        self.assertEqual(1, err.count("\n"), err)
        self.assertIn(telling.replace("\n", "?"), err)
        self.assertTrue(err.startswith("cueplayer: "), err)

    def replace(self, name, text):
        """Puts a command before the system's own on the PATH."""
        self.write(f"bin/{name}", f"#!/bin/sh\n{text}\n")

    def test_starts(self):
        self.assertStarts()

    def test_starts_from_elsewhere(self):
        """By an absolute link, by a chain of links, and by a relative one from its own folder."""
        absolute = self.above / "absolute"
        absolute.symlink_to(self.top / "cueplayer")
        chain = self.above / "chain"
        chain.symlink_to("absolute")
        for script in (absolute, chain):
            self.assertStarts(script)
        self.assertStarts(cwd="/")
        self.write("start", "#!/bin/sh\nexec cueplayer \"$@\"\n")
        self.assertStarts("start", path=f"{self.top}:{os.environ['PATH']}")

    def test_starts_at_once(self):
        """The script takes less than 30 ms; the best of some runs, since others use the machine
        too."""
        self.ship("#!/bin/sh\n")
        runs = []
        for _ in range(20):
            begun = time.monotonic()
            self.assertEqual((0, "", ""), self.run_script("cueplayer"))
            runs.append(took(begun))
        in_time(min(runs), 30, "the script")

    def test_shells(self):
        for shell in ("dash", "bash --posix", "busybox sh"):
            with self.subTest(shell):
                if not shutil.which(shell.split()[0]):
                    self.skipTest(f"{shell} is not on PATH")
                self.write("start", f'#!/bin/sh\nexec {shell} "$@"\n')
                found = self.run_script("start", self.top / "cueplayer", *WORDS)
                self.assertEqual(SHOWN, found)

    def test_named_program(self):
        """CUEPLAYER names another; where it names the script itself, that runs the one of
        dist/."""
        other = self.write("other", MADE.replace("words", "other words"))
        status, out, _ = self.run_script("cueplayer", *WORDS, more={"CUEPLAYER": str(other)})
        self.assertEqual((3, "other words: look - 1\na show\n"), (status, out))
        self.assertStarts(more={"CUEPLAYER": str(self.top / "cueplayer")})
        for name in (self.top / "nothing", self.top, self.top / "crates.txt"):
            self.assertFails("is not a program", more={"CUEPLAYER": str(name)})

    def test_limit_on_files_is_no_signal(self):
        self.ship('#!/bin/sh\n[ "$1" = --help ] || grep SigIgn /proc/self/status\n')
        _, out, _ = self.run_script("cueplayer", "look")
        self.assertTrue(int(out.split()[1], 16) >> 24 & 1, out)

    def test_changed_sources(self):
        """They are of no concern to who plays."""
        self.source.write_text("other")
        self.assertStarts()

    def test_no_provenance(self):
        """The light comes first: the program is started, and --version tells."""
        self.provenance.unlink()
        self.assertStarts()
        self.provenance.write_text("program: 12\nnonsense\n")
        self.assertStarts()

    def test_provenance_of_another_program(self):
        self.ship(MADE, program=sum_of(b"another"))
        self.assertFails("is damaged, or dist/PROVENANCE is")

    def test_no_program(self):
        self.program.unlink()
        self.assertFails(
            f"there is no program at {self.program}: git checkout dist brings it back"
        )
        shutil.rmtree(self.top / "dist")
        self.assertFails("there is no program at")

    def test_folder_in_place_of_the_program(self):
        self.program.unlink()
        self.program.mkdir()
        self.assertFails("is not a file")

    def test_truncated_program(self):
        for length in (0, 1, len(MADE) - 1):
            with self.subTest(length):
                self.ship(MADE)
                self.program.write_bytes(MADE.encode()[:length])
                self.assertFails("is damaged")

    def test_program_that_is_not_executable(self):
        self.ship(HEAD)
        self.program.chmod(0o644)
        self.assertFails(
            f"is not executable: chmod +x it; if that does not help, copy {self.top} to a disk"
        )

    @unittest.skipUnless(AS_OTHER, "only root can be somebody else")
    def test_program_that_cannot_be_read(self):
        os.chmod(self.above, 0o755)
        self.program.chmod(0o700)
        (self.top / "tmp").mkdir()
        self.assertFails("cannot be read", **AS_OTHER)

    def test_no_program_of_linux(self):
        self.ship(b"MZ\x90\0 a program of another system")
        self.assertFails("is not a Linux program")

    def test_another_processor(self):
        self.ship(HEAD)
        self.replace("uname", '[ "$1" = -m ] && echo aarch64 || echo Linux')
        self.assertFails("this processor is aarch64: the program needs x86-64")

    def test_another_system(self):
        self.ship(HEAD)
        self.replace("uname", '[ "$1" = -m ] && echo x86_64 || echo FreeBSD')
        self.assertFails("this is FreeBSD: the program needs Linux on x86-64")

    def test_older_library(self):
        self.ship(HEAD)
        for library in ("glibc 2.31", "glibc 2.9", "glibc 2.33"):
            with self.subTest(library):
                self.replace("getconf", f"echo {library}")
                self.assertFails(
                    f"this machine has {library}: the program needs glibc 2.34 or newer"
                )
        self.replace("getconf", "exit 1")
        self.assertFails("this machine has no glibc: the program needs glibc 2.34 or newer")

    def test_program_that_does_not_start(self):
        """Whatever else keeps it from it: the system's own words."""
        self.ship(HEAD)
        for library in ("glibc 2.34", "glibc 2.36", "glibc 2.100"):
            with self.subTest(library):
                self.replace("getconf", f"echo {library}")
                self.assertFails("the system does not start")

    @unittest.skipUnless(AS_OTHER, "only root can be somebody else")
    def test_read_only(self):
        """Nothing is written: the copy may belong to somebody else, and have no write bit."""
        os.chmod(self.above, 0o755)
        (self.top / "tmp").mkdir()
        for folder, _, names in os.walk(self.top):
            os.chmod(folder, 0o555)
            for name in names:
                os.chmod(os.path.join(folder, name), 0o555)
        self.assertStarts(**AS_OTHER)
        status, out, err = self.run_script("cueplayer", "--version", **AS_OTHER)
        self.assertEqual((0, ""), (status, err))
        self.assertIn("sources: those of the program\n", out)
        os.chmod(self.top, 0o755)


class OddFolders(Starting):
    """The same, each in a folder whose name a shell might stumble over."""

    NAME = b" -it's \"a\"\n\xe9$(exit 1)*\n"


class Version(CopiedLayout):
    def version(self, **options):
        status, out, err = self.run_script("cueplayer", "--version", **options)
        self.assertEqual((0, ""), (status, err))
        return out.splitlines()

    def git(self, *words, folder=None):
        name = ["-c", "user.name=a", "-c", "user.email=a@b", "-c", "commit.gpgsign=false"]
        done = subprocess.run(
            ["git", *name, *words],
            cwd=folder or self.top,
            env={"PATH": os.environ["PATH"], "HOME": str(self.top)},
            capture_output=True,
            text=True,
            check=True,
        )
        return done.stdout.strip()

    def test_whole(self):
        """Its version, commit, toolchain, date and checksum, and whether the sources are the
        program's."""
        wanted = [
            "cueplayer 1.0.0",
            "commit: unknown",
            "toolchain: kit of a test",
            "built: 2026-11-26T10:20:30Z",
            f"program: sha256 {sum_of(MADE.encode())}",
            "sources: those of the program",
        ]
        self.assertEqual(wanted, self.version())
        self.assertEqual([], self.requests())

    def test_only_alone(self):
        self.assertEqual(
            (3, "words: --version x\na show\n", ""), self.run_script("cueplayer", "--version", "x")
        )

    def test_changed_sources(self):
        """In the program's crates, or in the lines of crates.txt that name them, and nowhere
        else."""
        told = "sources: changed since the program was built; ./build builds it from them"
        for name, content, is_changed in (
            ("crates/aside/src/lib.rt", "other", False),
            ("crates/cueplayer/out/x", "other", False),
            ("crates.txt", (self.top / "crates.txt").read_text() + "more: low\n", False),
            ("crates/low/specs/More.antt", "other", True),
            ("crates/show/src/lib.rt", "other", True),
            ("HANDLES", "other", True),
            ("crates.txt", (self.top / "crates.txt").read_text().replace(" show", ""), True),
        ):
            with self.subTest(name):
                self.ship(MADE)
                self.write(name, content)
                self.assertEqual(
                    told if is_changed else "sources: those of the program", self.version()[5]
                )

    def test_without_sources(self):
        shutil.rmtree(self.top / "crates")
        self.assertRegex(self.version()[5], "^sources: sha256 [0-9a-f]{64}; they are not here$")

    def test_damage(self):
        self.program.write_text(MADE + "#")
        self.assertEqual(
            "program: damaged: its checksum is not the one in dist/PROVENANCE", self.version()[4]
        )
        self.provenance.unlink()
        version, _, toolchain, _, program, sources = self.version()
        self.assertEqual(
            "cueplayer of an unknown version: dist/PROVENANCE is missing or damaged", version
        )
        self.assertEqual("toolchain: unknown", toolchain)
        self.assertEqual(
            f"program: sha256 {sum_of(self.program.read_bytes())}: dist/PROVENANCE does not "
            f"say what it should be",
            program,
        )
        self.assertEqual("sources: unknown whether they are those of the program", sources)

    def test_named_program(self):
        told = "program: /x, which CUEPLAYER names: nothing is known about it"
        self.assertEqual(told, self.version(more={"CUEPLAYER": "/x"})[-1])

    def test_packed_commit(self):
        (self.top / "dist/COMMIT").write_text("1234abc\n")
        self.assertEqual("commit: 1234abc", self.version()[1])

    @unittest.skipUnless(shutil.which("git"), "git is not on PATH")
    def test_commit(self):
        """With -dirty behind it where a file differs from it."""
        (self.top / ".gitignore").write_text("out/\ntmp/\nlog\nplace\n")
        self.git("init", "-q")
        self.git("add", "-A")
        self.git("commit", "-q", "-m", "all")
        self.git("tag", "-a", "-m", "a tag", "v9")
        commit = self.git("rev-parse", "--short", "HEAD")
        self.assertEqual(f"commit: {commit}", self.version()[1])
        self.source.write_text("other")
        self.assertEqual(f"commit: {commit}-dirty", self.version()[1])

    @unittest.skipUnless(shutil.which("git"), "git is not on PATH")
    def test_within_another_project(self):
        """The commit of a tree around this one is not this one's."""
        self.git("init", "-q", folder=self.above)
        (self.above / "file").write_text("")
        self.git("add", "file", folder=self.above)
        self.git("commit", "-q", "-m", "one", folder=self.above)
        self.assertEqual("commit: unknown", self.version()[1])


class OddFolderVersion(Version):
    NAME = OddFolders.NAME


class Shipped(unittest.TestCase):
    """What is in dist/ of this tree."""

    def test_version_is_said_once(self):
        """The newest version in CHANGELOG is the one that VERSION says, and so is PROVENANCE's."""
        version = (TOP / "VERSION").read_text().strip()
        self.assertRegex(version, r"^\d+\.\d+\.\d+$")
        changelog = (TOP / "CHANGELOG.md").read_text()
        released = changelog.replace("\n## Unreleased\n", "\n", 1).partition("\n## ")[2]
        self.assertRegex(released, rf"^{version} \(\d{{4}}-\d\d-\d\d\)\n")
        self.assertIn(f"version: {version}\n", (TOP / "dist/PROVENANCE").read_text())

    def test_logic_is_that_of_the_program(self):
        """README and CONTRIBUTING name the logic of the toolchain that built the program."""
        lines = (TOP / "dist/PROVENANCE").read_text().splitlines()
        toolchain = dict(line.split(": ", 1) for line in lines)["toolchain"]
        _, is_named, logic = toolchain.partition(" logic ")
        self.assertTrue(is_named and logic, toolchain)
        for page in ("README.md", "CONTRIBUTING.md"):
            self.assertIn(f"`logic {logic}`", (TOP / page).read_text(), page)
