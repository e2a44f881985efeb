"""`dev/package`: the packages of this tree's dist/, unpacked, installed, played from, and
removed."""

import gzip
import hashlib
import os
import re
import shutil
import subprocess
import tempfile
import unittest
from pathlib import Path

from program import CID, SHIPPED, TOP

TOOLS = ("conform", "convert", "desk", "osc", "picture", "premiere", "sheet", "storm", "watch")
# What the package is made of besides dist/.
PARTS = (
    *("cueplayer", "cueplayer-night", "install", "manifest", "VERSION", "HANDLES", "crates.txt"),
    *("README.md", "CHANGELOG.md", "LICENSE"),
)
FOLDERS = ("dist", "dev", "tools", "man", "completion", "docs", "examples")
LINTIAN = shutil.which("lintian")
ROOT = os.geteuid() == 0


def run(*words, **options):
    done = subprocess.run(
        words, capture_output=True, text=True, timeout=120, check=False, **options
    )
    return done.returncode, done.stdout, done.stderr


def files(folder: Path) -> set[str]:
    return {str(path.relative_to(folder)) for path in folder.rglob("*") if not path.is_dir()}


def is_packable() -> str | None:
    """Why no package can be made here; None where it can."""
    for tool in ("bash", "dpkg-deb", "tar", "gzip", "awk"):
        if not shutil.which(tool):
            return f"{tool} is not on PATH"
    if not SHIPPED.is_file() or SHIPPED.read_bytes()[:4] != b"\x7fELF":
        return "dist/ has no program"
    told = run(TOP / "cueplayer", "--version", env={"PATH": os.environ["PATH"]})[1]
    return (
        None
        if "\nsources: those of the program\n" in told
        else "dist/ is not what these sources make"
    )


class Package(unittest.TestCase):
    def setUp(self):
        folder = tempfile.TemporaryDirectory()
        self.addCleanup(folder.cleanup)
        self.folder = Path(folder.name)
        self.environment = {"PATH": os.environ["PATH"], "HOME": folder.name}

    def assertRuns(self, *words, status=0, **options):
        got, out, err = run(*words, env=self.environment, **options)
        self.assertEqual(status, got, out + err)
        return out

    def make(self, top: Path, name: str) -> Path:
        made = self.folder / name
        out = self.assertRuns(top / "dev/package", made)
        self.assertEqual({str(made / file) for file in files(made)}, set(out.splitlines()))
        return made

    def copy(self, name: str) -> Path:
        """The tree elsewhere, without git, with other times and, as by another umask, other
        modes."""
        top = self.folder / name
        top.mkdir()
        for part in PARTS:
            shutil.copyfile(TOP / part, top / part)
            (top / part).chmod((TOP / part).stat().st_mode | 0o020)
        for part in FOLDERS:
            shutil.copytree(TOP / part, top / part, copy_function=shutil.copy)
        for crate in (TOP / "crates").iterdir():
            for part in ("src", "specs", "proofs"):
                if (crate / part).is_dir():
                    shutil.copytree(crate / part, top / "crates" / crate.name / part)
        return top

    def assertPlays(self, program: Path):
        """The program plays the example of the README's first lines."""
        to = ("--to", "127.0.0.1", "--cid", CID)
        lines = (TOP / "examples/one-dimmer.play").read_text()
        out = self.assertRuns(program, "play", TOP / "examples/one-dimmer.asc", *to, input=lines)
        self.assertTrue(out.startswith("0 live 1:s0\n1000 ok\n"), out)


@unittest.skipIf(is_packable(), is_packable())
class Made(Package):
    def test_same_bytes(self):
        """Whoever makes them of the same tree, elsewhere and at another time, gets the same; each
        has the sum that SHA256SUMS says."""
        one, other = self.make(self.copy("one"), "made"), self.make(
            self.copy("a second one"), "made again"
        )
        self.assertEqual(3, len(files(one)))
        self.assertEqual(files(one), files(other))
        for name in files(one):
            self.assertEqual((one / name).read_bytes(), (other / name).read_bytes(), name)
        for line in (one / "SHA256SUMS").read_text().splitlines():
            wanted, name = line.split("  ")
            self.assertEqual(wanted, hashlib.sha256((one / name).read_bytes()).hexdigest())

    def test_other_sources(self):
        """Nothing is packed of a tree whose dist/ is not what its sources make."""
        top = self.copy("one")
        (top / "crates/show_core/src/lib.rt").write_text("other")
        status, out, err = run(top / "dev/package", self.folder / "made", env=self.environment)
        told = "package: dist/ is not what these sources make: ./build first\n"
        self.assertEqual((1, "", told), (status, out, err))
        self.assertFalse((self.folder / "made").exists())

    def test_tar(self):
        """It plays from where it is unpacked, and installs itself."""
        made = self.make(TOP, "made")
        (archive,) = made.glob("*.tar.gz")
        self.assertRuns("tar", "-C", self.folder, "-xf", archive)
        top = self.folder / archive.name.removesuffix(".tar.gz")
        self.assertPlays(top / "cueplayer")
        version = self.assertRuns(top / "cueplayer", "--version")
        self.assertIn(f"cueplayer {(TOP / 'VERSION').read_text()}", version)
        self.assertIn("; they are not here\n", version)
        prefix = self.folder / "prefix"
        self.assertRuns(top / "install", prefix)
        self.assertPlays(prefix / "bin/cueplayer")
        self.assertRuns(top / "install", "--remove", prefix)
        self.assertFalse(prefix.exists())

    def test_deb(self):
        """It is installed into a root of its own, plays from there, and leaves nothing behind."""
        made = self.make(TOP, "made")
        (package,) = made.glob("*.deb")
        root, base = self.folder / "root", self.folder / "root/var/lib/dpkg"
        for folder in ("info", "updates", "triggers"):
            (base / folder).mkdir(parents=True)
        for name in ("status", "available"):
            (base / name).write_text("")
        before = files(root)
        dpkg = ["dpkg", f"--root={root}", "--force-depends", f"--log={self.folder}/log"]
        dpkg += [] if ROOT else ["--force-not-root"]
        if not ROOT and not shutil.which("fakeroot"):
            self.skipTest("neither root, nor is fakeroot on PATH")
        dpkg = dpkg if ROOT else ["fakeroot", *dpkg]
        self.assertRuns(*dpkg, "--install", package)
        self.assertPlays(root / "usr/bin/cueplayer")
        self.assertIn("commit: ", self.assertRuns(root / "usr/bin/cueplayer", "--version"))
        for tool in ("night", *TOOLS):
            self.assertIn("usage: ", self.assertRuns(root / f"usr/bin/cueplayer-{tool}", "--help"))
        self.assertRuns(*dpkg, "--purge", "cueplayer")
        left = {name for name in files(root) - before if not name.startswith("var/lib/dpkg/")}
        self.assertEqual(set(), left)
        self.assertFalse((root / "usr").exists())

    def test_contents(self):
        """A manual page for each program, completion, documents, examples and the units of
        systemd."""
        (package,) = self.make(TOP, "made").glob("*.deb")
        root = self.folder / "root"
        self.assertRuns("dpkg-deb", "--extract", package, root)
        found = files(root)
        names = ["cueplayer", *(f"cueplayer-{tool}" for tool in ("night", *TOOLS))]
        wanted = {f"usr/bin/{name}" for name in names} | {
            f"usr/share/man/man1/{name}.1.gz" for name in names
        }
        wanted |= {
            f"usr/share/doc/cueplayer/{name}"
            for name in ("README.md", "copyright", "changelog.gz")
        }
        wanted |= {f"usr/share/doc/cueplayer/examples/{name}" for name in files(TOP / "examples")}
        wanted |= {
            f"usr/share/doc/cueplayer/docs/{path.name}" for path in (TOP / "docs").iterdir()
        }
        wanted |= {
            f"usr/share/bash-completion/completions/cueplayer{part}" for part in ("", "-night")
        }
        units = ("sacn-join", "cueplayer-night", "cueplayer-desk")
        wanted |= {f"usr/lib/systemd/system/{unit}@.service" for unit in units}
        wanted |= {"usr/lib/sysusers.d/cueplayer.conf"}
        wanted |= {"usr/share/man/man5/cueplayer-show.5.gz"}
        self.assertEqual(set(), wanted - found)
        self.assertEqual(
            SHIPPED.read_bytes(), (root / "usr/lib/cueplayer/dist/cueplayer").read_bytes()
        )
        for name in found:
            if name.endswith(".gz"):
                gzip.decompress((root / name).read_bytes())
        control = self.assertRuns("dpkg-deb", "--field", package)
        self.assertRegex(control, r"(?m)^Depends: libc6 \(>= 2\.\d+\), python3")
        self.assertEqual(
            (TOP / "VERSION").read_text().strip() + "-1",
            re.search("(?m)^Version: (.*)$", control)[1],
        )

    @unittest.skipUnless(LINTIAN, "lintian is not on PATH")
    def test_lintian_finds_no_error(self):
        (package,) = self.make(TOP, "made").glob("*.deb")
        _, out, err = run(LINTIAN, "--tag-display-limit", "0", package, env=self.environment)
        self.assertEqual([], [line for line in (out + err).splitlines() if line.startswith("E: ")])

    def test_words(self):
        for words in (["--bogus"], ["a", "b"], [""]):
            status, out, err = run(TOP / "dev/package", *words, env=self.environment)
            self.assertEqual((2, "", "usage: dev/package [FOLDER]\n"), (status, out, err))
