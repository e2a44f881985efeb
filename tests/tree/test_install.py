"""`./install`, in a copy of the layout, below prefixes of its own."""

import functools
import os
import resource
import shutil
import stat
import sys
import tempfile
from pathlib import Path

from copied_layout import MADE, SHOWN, CopiedLayout
from program import PROGRAM, TOP
from tooling import run_tool

OTHER = MADE + "# a later one\n"
TOOLS = ("conform", "convert", "desk", "osc", "picture", "premiere", "sheet", "storm", "watch")
SCRIPTS = ("cueplayer", "cueplayer-night")
# What of the tree is copied beside the program.
NAMES = ("cueplayer-night", "install", "manifest", "README.md", "CHANGELOG.md", "LICENSE")
STARTERS = tuple(f"bin/{name}" for name in (*SCRIPTS, *(f"cueplayer-{tool}" for tool in TOOLS)))
LIST = "lib/cueplayer/installed"
UNITS = ("cueplayer-night@", "cueplayer-desk@", "sacn-join@")
# Written anew: where it was installed from, what was installed, and what starts it.
MADE_ANEW = ("lib/cueplayer/dist/COMMIT", LIST, *STARTERS)


def sources(top):
    """The file of the tree that each installed one is a copy of, by its path below the prefix."""
    found = {
        f"lib/cueplayer/{name}": name for name in (*SCRIPTS, "dist/cueplayer", "dist/PROVENANCE")
    }
    found |= {f"lib/cueplayer/tools/{tool}": f"tools/{tool}" for tool in (*TOOLS, "terminal")}
    for name in SCRIPTS:
        found[f"share/bash-completion/completions/{name}"] = f"completion/{name}.bash"
    found |= {
        f"share/doc/cueplayer/{name}": name for name in ("README.md", "CHANGELOG.md", "LICENSE")
    }
    for page in (top / "man").iterdir():
        found[f"share/man/man{page.suffix[1:]}/{page.name}"] = f"man/{page.name}"
    folders = {
        "docs": "share/doc/cueplayer/docs",
        "examples": "share/doc/cueplayer/examples",
        "tools/cueplayer_tools": "lib/cueplayer/tools/cueplayer_tools",
    }
    for folder, place in folders.items():
        for path in (top / folder).rglob("*"):
            if path.is_file() and "__pycache__" not in path.parts:
                found[f"{place}/{path.relative_to(top / folder)}"] = str(path.relative_to(top))
    return found


def tree(folder):
    """All files, links and folders below a folder, with what is in them."""
    found = {}
    for path in sorted(folder.rglob("*")):
        within = (
            os.readlink(path)
            if path.is_symlink()
            else path.read_bytes()
            if path.is_file()
            else None
        )
        found[str(path.relative_to(folder))] = within
    return found


def files(folder):
    return sorted(str(path.relative_to(folder)) for path in folder.rglob("*") if not path.is_dir())


class Install(CopiedLayout):
    def setUp(self):
        super().setUp()
        for name in NAMES:
            shutil.copy(TOP / name, self.top / name)
        without = shutil.ignore_patterns("__pycache__")
        for folder in ("man", "completion", "docs", "examples", "tools"):
            shutil.copytree(TOP / folder, self.top / folder, ignore=without)
        self.home = self.top / "home"
        self.home.mkdir()
        self.prefix = self.top / "it's \"a\" prefix"

    def install(self, *words, **options):
        """A run that has to end well; what it printed."""
        status, out, err = self.run_script("install", *words, **options)
        self.assertEqual(0, status, err)
        return out

    def assertFails(self, *words, telling, status=1, **options):
        """A run that ends so, tells why, and changes nothing below the prefix and the home."""
        before = [tree(folder) for folder in (self.prefix, self.home)]
        got, out, err = self.run_script("install", *words, **options)
        self.assertEqual((status, ""), (got, out))
        self.assertIn(telling, err)
        self.assertEqual(before, [tree(folder) for folder in (self.prefix, self.home)])

    def run_installed(self, *words, at=None, **options):
        self.write("start", '#!/bin/sh\nexec "$@"\n')
        return self.run_script("start", at or self.prefix / "bin/cueplayer", *words, **options)

    def files(self):
        """All that an install puts below the prefix."""
        return sorted([*sources(self.top), *MADE_ANEW])

    def assertWhole(self):
        """All is installed: each file as its source is, with its mode, and nothing else."""
        self.assertEqual(self.files(), files(self.prefix))
        for name, source in sources(self.top).items():
            file, wanted = self.prefix / name, self.top / source
            self.assertEqual(wanted.read_bytes(), file.read_bytes(), name)
            mode = 0o755 if wanted.stat().st_mode & 0o100 else 0o644
            self.assertEqual(mode, stat.S_IMODE(file.stat().st_mode), name)
        self.assertEqual(SHOWN, self.run_installed("look", "-", "1"))

    def test_installs(self):
        """The program runs as it does here; nothing but its files is there, and nothing is
        built."""
        out = self.install(self.prefix)
        self.assertEqual([], self.requests())
        self.assertWhole()
        for name in STARTERS:
            self.assertIn(f"installed {self.prefix / name}\n", out)
        self.assertIn("is not on PATH", out)

    def test_units(self):
        """They name the programs of the prefix, which a unit can name; --remove takes them too."""
        plain = tempfile.TemporaryDirectory()
        self.addCleanup(plain.cleanup)
        prefix = Path(plain.name, "prefix")
        out = self.install("--units", prefix)
        self.assertIn("systemd-sysusers; systemctl daemon-reload", out)
        odd, self.prefix = self.prefix, prefix
        units = {f"lib/systemd/system/{name}.service": f"tools/{name}.service" for name in UNITS}
        self.assertEqual(
            sorted([*self.files(), *units, "lib/sysusers.d/cueplayer.conf"]), files(prefix)
        )
        for name, source in units.items():
            wanted = (self.top / source).read_text().replace("=/usr/bin/", f"={prefix}/bin/")
            wanted = wanted.replace("=-/usr/bin/", f"=-{prefix}/bin/")
            self.assertEqual(wanted, (prefix / name).read_text())
        self.install(prefix)
        self.assertEqual(self.files(), files(prefix))
        self.install("--units", prefix)
        self.install("--remove", prefix)
        self.assertFalse(prefix.exists())
        self.prefix = odd
        self.assertFails("--units", odd, telling="name a folder of plain letters")

    def test_tools(self):
        """Each starts, tells its use, and leaves nothing behind; without Python it says so."""
        self.install(self.prefix)
        for tool in ("night", *TOOLS):
            with self.subTest(tool):
                starter = self.prefix / f"bin/cueplayer-{tool}"
                path = f"{os.path.dirname(sys.executable)}:{os.environ['PATH']}"
                status, out, err = self.run_installed("--help", at=starter, path=path)
                self.assertEqual((0, ""), (status, err))
                self.assertIn("usage: ", out)
                bare = self.top / "bare"
                bare.mkdir(exist_ok=True)
                for name in ("sh", "readlink"):
                    if not (bare / name).exists():
                        (bare / name).symlink_to(shutil.which(name))
                told = (
                    f"cueplayer-{tool}: python3 is not on PATH, and this tool needs it, "
                    f"3.10 or newer\n"
                )
                self.assertEqual(
                    (1, "", told), self.run_installed("--help", at=starter, path=str(bare))
                )
        self.assertEqual(self.files(), files(self.prefix))

    def test_tools_find_the_program(self):
        """The one that is installed beside them, whatever is on the PATH."""
        if not PROGRAM.is_file():
            self.skipTest(f"no program at {PROGRAM}")
        self.ship(PROGRAM.read_bytes())
        self.install(self.prefix)
        shutil.rmtree(self.top / "crates")
        words = ("night", TOP / "examples/small-play.asc", TOP / "examples/small-play.play")
        wanted = run_tool("picture", *words).stdout
        starter = self.prefix / "bin/cueplayer-picture"
        path = f"{os.path.dirname(sys.executable)}:{os.environ['PATH']}"
        status, out, err = self.run_installed(*words, at=starter, path=path)
        self.assertEqual((0, ""), (status, err))
        self.assertEqual(wanted, out)

    def test_on_the_path(self):
        path = f"{self.top}/bin:{self.prefix}/bin:{os.environ['PATH']}"
        self.assertNotIn("is not on PATH", self.install(self.prefix, path=path))

    def test_home_where_no_prefix_is_named(self):
        self.prefix = self.home / ".local"
        self.install()
        self.assertWhole()
        self.install("--remove")
        self.assertEqual({}, tree(self.home))

    def test_prefix_from_here(self):
        self.prefix = self.home / "here"
        self.install("here/", cwd=self.home)
        self.assertWhole()
        self.install("--remove", "here", cwd=self.home)
        self.assertEqual({}, tree(self.home))

    def test_version_is_kept(self):
        """It is that of the moment of installation, and the sources are not there."""
        (self.top / "dist/COMMIT").write_text("1234abc\n")
        self.install(self.prefix)
        status, here, err = self.run_script("cueplayer", "--version")
        self.assertEqual((0, ""), (status, err))
        self.assertIn("commit: 1234abc\n", here)
        for name in ("crates", "cueplayer", "dist"):
            at = self.top / name
            shutil.rmtree(at) if at.is_dir() else at.unlink()
        status, there, err = self.run_installed("--version")
        self.assertEqual((0, ""), (status, err))
        self.assertEqual(here.splitlines()[:5], there.splitlines()[:5])
        self.assertIn("they are not here", there.splitlines()[5])

    def test_by_a_link_and_moved(self):
        self.install(self.prefix)
        link = self.home / "player"
        link.symlink_to(self.prefix / "bin/cueplayer")
        self.assertEqual((3, "words: a\na show\n", ""), self.run_installed("a", at=link))
        moved = self.prefix.rename(self.home / "moved")
        self.assertEqual(
            (3, "words: a\na show\n", ""), self.run_installed("a", at=moved / "bin/cueplayer")
        )

    def test_folder_of_programs_that_is_a_link(self):
        """As where ~/.local/bin is a link to ~/bin: what is installed starts, and goes again."""
        (self.home / "bin").mkdir()
        self.prefix.mkdir()
        (self.prefix / "bin").symlink_to(self.home / "bin")
        self.install(self.prefix)
        self.assertEqual((3, "words: a\na show\n", ""), self.run_installed("a"))
        status, out, _ = self.run_installed("--help", at=self.home / "bin/cueplayer-osc")
        self.assertEqual(0, status)
        self.assertIn("--listen", out)
        self.install("--remove", self.prefix)
        self.assertEqual([], list((self.home / "bin").iterdir()))

    def test_for_a_package(self):
        """DESTDIR: all goes below it, and is where the prefix says once it is unpacked."""
        stage = self.home / "stage"
        self.prefix = stage / "opt/cueplayer"
        self.install("/opt/cueplayer", more={"DESTDIR": str(stage)})
        self.assertWhole()
        for name in STARTERS:
            self.assertNotIn(str(stage), (self.prefix / name).read_text())

    def test_older_version(self):
        """What it had and this one has not goes, unless it was changed."""
        for name in ("old.md", "older.md"):
            (self.top / "docs" / name).write_text("old")
        self.install(self.prefix)
        for name in ("old.md", "older.md"):
            (self.top / "docs" / name).unlink()
        (self.prefix / "share/doc/cueplayer/docs/older.md").write_text("mine")
        self.install(self.prefix)
        self.assertEqual(
            sorted([*self.files(), "share/doc/cueplayer/docs/older.md"]), files(self.prefix)
        )

    def test_limit_on_files_is_no_signal(self):
        self.ship(
            '#!/bin/sh\n[ "$1" = check ] || [ "$1" = --help ] || grep SigIgn /proc/self/status\n'
        )
        self.install(self.prefix)
        _, out, _ = self.run_installed("look")
        self.assertTrue(int(out.split()[1], 16) >> 24 & 1, out)

    def test_removes_what_it_installed(self):
        """Folders that were there stay, and so does what others put in; folders that it made
        go."""
        (self.prefix / "bin").mkdir(parents=True)
        (self.prefix / "bin/other").write_text("other")
        (self.prefix / "share/man/man1").mkdir(parents=True)
        before = tree(self.prefix)
        self.install(self.prefix)
        self.install(self.prefix)
        out = self.install("--remove", self.prefix)
        self.assertEqual(before, tree(self.prefix))
        for name in STARTERS:
            self.assertIn(f"removed {self.prefix / name}\n", out)
        self.assertFails("--remove", self.prefix, telling="nothing is installed in")

    def test_removes_the_prefix_that_it_made(self):
        self.install(self.prefix)
        self.install("--remove", self.prefix)
        self.assertFalse(self.prefix.exists())

    def test_folder_with_another_s_file_stays(self):
        self.install(self.prefix)
        other = self.prefix / "share/man/man1/other.1"
        other.write_text("other")
        self.install("--remove", self.prefix)
        self.assertEqual(["share/man/man1/other.1"], files(self.prefix))

    def test_installs_anew(self):
        """Each file is replaced by a new one: who reads or runs the old one has it whole."""
        self.install(self.prefix)
        file = self.prefix / "lib/cueplayer/dist/cueplayer"
        with file.open() as old:
            self.ship(OTHER)
            self.install(self.prefix)
            self.assertEqual(MADE, old.read())
        self.assertWhole()
        self.install("--remove", self.prefix)
        self.assertFalse(self.prefix.exists())

    def test_file_of_another(self):
        """It is not replaced: a file, a link, be it to the same, or a folder."""
        for name in (
            "lib/cueplayer/dist/cueplayer",
            "share/man/man1/cueplayer-osc.1",
            LIST,
            *STARTERS[:2],
        ):
            file = self.prefix / name
            for kind in ("file", "link", "folder"):
                if (name, kind) == (LIST, "file"):
                    continue
                with self.subTest(f"{name}, a {kind}"):
                    file.parent.mkdir(parents=True)
                    if kind == "file":
                        file.write_text("other")
                    elif kind == "link":
                        file.symlink_to(self.program)
                    else:
                        file.mkdir()
                    self.assertFails(self.prefix, telling=f"{file} exists")
                    shutil.rmtree(self.prefix)

    def test_file_that_was_changed(self):
        """It is the user's from then on: neither replaced nor taken away."""
        self.install(self.prefix)
        for name in ("lib/cueplayer/dist/cueplayer", "lib/cueplayer/tools/osc", *STARTERS[:2]):
            with self.subTest(name):
                file = self.prefix / name
                with file.open("a") as changed:
                    changed.write("# mine\n")
                text = file.read_text()
                self.assertFails(self.prefix, telling=f"{file} exists")
                status, _, err = self.run_script("install", "--remove", self.prefix)
                self.assertEqual(0, status)
                self.assertIn(f"{file} was changed since it was installed, and stays", err)
                self.assertEqual([name], files(self.prefix))
                self.assertEqual(text, file.read_text())
                file.unlink()
                self.install(self.prefix)

    def test_folder_that_is_not_writable(self):
        """Told before anything is written or taken away."""
        os.chmod(self.top.parent, 0o755)
        as_other = {"user": 65534, "group": 65534, "extra_groups": []} if os.geteuid() == 0 else {}
        self.prefix.mkdir()
        (self.top / "tmp").mkdir()
        os.chmod(self.top / "tmp", 0o777)
        os.chmod(self.prefix, 0o555)
        try:
            self.assertFails(self.prefix, telling=f"{self.prefix} is not writable", **as_other)
            os.chmod(self.prefix, 0o755)
            self.install(self.prefix)
            os.chmod(self.prefix / "bin", 0o555)
            self.assertFails(self.prefix, telling="is not writable", **as_other)
            self.assertFails("--remove", self.prefix, telling="is not writable", **as_other)
        finally:
            for folder in (self.prefix, self.prefix / "bin"):
                if folder.exists():
                    os.chmod(folder, 0o755)

    def test_no_folder(self):
        self.assertFails(self.prefix / "a/b", telling=f"there is no folder {self.prefix}/a")
        self.prefix.write_text("")
        self.run_script("install", self.prefix)
        status, _, err = self.run_script("install", self.prefix)
        self.assertEqual(1, status)
        self.assertIn(f"{self.prefix} is not a folder", err)

    def test_no_program(self):
        """One that is gone or damaged is not installed."""
        self.program.write_text(OTHER)
        self.assertFails(self.prefix, telling="there is no program to install")
        self.program.unlink()
        self.assertFails(self.prefix, telling="there is no program to install")
        self.assertFalse(self.prefix.exists())

    def test_file_that_cannot_be_written(self):
        """What was written goes again, and the folders that were made for it."""
        self.install(self.home / "elsewhere")
        limit = functools.partial(resource.setrlimit, resource.RLIMIT_FSIZE, (1024, 1024))
        self.assertFails(self.prefix, telling="cannot write in", preexec_fn=limit)
        self.assertFalse(self.prefix.exists())

    def test_install_that_is_cut_off(self):
        """At each file: it can be taken away, and it can be done again, also over an older one."""
        self.leave_few()
        count_of_files = len(self.files())
        for count in (1, 2, 20, count_of_files, count_of_files + 1):
            for is_first in (True, False):
                with self.subTest(
                    f"the renaming of number {count} fails, first install: {is_first}"
                ):
                    self.cut_off_at(count, is_first)
                    self.assertLessEqual(set(files(self.prefix)), set(self.files()))
                    if self.prefix.exists():
                        self.install("--remove", self.prefix)
                    self.assertFalse(self.prefix.exists())
                    self.cut_off_at(count, is_first)
                    self.install(self.prefix)
                    self.assertWhole()
                    self.install("--remove", self.prefix)
                    self.assertFalse(self.prefix.exists())

    def leave_few(self):
        """Leaves a file or two of each folder: an install of all takes a second."""
        kept = ("one-dimmer.asc", "words.py", "cueplayer.1", "cueplayer-show.5", "PROFILE.md")
        for folder in ("docs", "examples", "man", "tools/cueplayer_tools"):
            for path in (self.top / folder).rglob("*"):
                if path.is_file() and path.name not in kept:
                    path.unlink()

    def cut_off_at(self, count, is_first):
        """A run whose renaming fails from the one of this number on, as a first install or a
        second."""
        if not is_first:
            self.ship(MADE)
            self.install(self.prefix)
        self.ship(OTHER)
        counted = self.top / "counted"
        counted.write_text("")
        self.write(
            "cut/mv",
            f'#!/bin/sh\necho >>"{counted}"\n'
            f'[ "$(wc -l <"{counted}")" -lt {count} ] && exec {shutil.which("mv")} "$@"\nexit 1\n',
        )
        path = f"{self.top}/cut:{self.top}/bin:{os.environ['PATH']}"
        status, _, err = self.run_script("install", self.prefix, path=path)
        self.assertEqual(1, status)
        self.assertIn("cannot write", err)

    def test_words(self):
        for words in (
            ["--bogus"],
            ["--remove", "--bogus"],
            ["a", "b"],
            ["--remove", "a", "b"],
            [""],
        ):
            with self.subTest(words):
                self.assertFails(*words, telling="usage: ./install [PREFIX]", status=2)
        for word in ("--help", "-h"):
            out = self.install(word)
            self.assertIn("usage: ./install [PREFIX]", out)
        self.assertEqual({}, tree(self.home))
