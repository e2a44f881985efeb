"""`cueplayer-night` under other settings of a user or a machine: none of them changes what it
does."""

import os
import re
import shutil
import signal
import subprocess
import sys
from concurrent.futures import ThreadPoolExecutor
from pathlib import Path

from folders import NIGHT, FolderNightTest
from languages import make_language
from tooling import PATIENCE, wait_for

# How many commands come, and how many of them at once: of a clock that is read wrong at some
# moments one would tell.
COMMANDS, AT_ONCE = 60, 8
# What `./cueplayer` itself runs, with a writer for each file.
OF_THE_LAUNCHER = (
    *("sh", "readlink", "sha256sum", "tr", "cat", "mktemp", "mkfifo", "rm", "sleep", "sync"),
    *("grep", "sed", "sort", "tail", "head", "uname", "getconf"),
)
# Stands for the program. The spare goes on where it should not: some time behind a night that has
# ended well, in whose record that does not stand.
SPARE_STUB = """#!/bin/sh
[ "$1" = live ] || exit 0
case "$*" in
    *--spare*)
        while kill -0 "$(cat "{night}/pid")"; do sleep 0.05; done
        sleep 0.5
        echo "record: {night}/record, goes on at 0:00:01 of the night" >&2
        exec sleep 60
        ;;
esac
while [ "$1" != --record ]; do shift; done
echo "! cueplayer record 1: show x" >>"$2"
echo "end ends the night" >&2
while ! [ -e "{night}/over" ]; do sleep 0.05; done
"""


class SurroundingsTest(FolderNightTest):
    def setUp(self):
        super().setUp()
        # A python3 that is a script of a shell would heed what is set here.
        interpreter = os.path.dirname(os.path.realpath(sys.executable))
        self.environment["PATH"] = f"{interpreter}:{os.environ['PATH']}"

    def only(self, *names):
        """A PATH on which these tools are, and Python."""
        tools = self.folder / f"tools {len(names)}"
        tools.mkdir()
        (tools / "python3").symlink_to(os.path.realpath(sys.executable))
        for name in names:
            (tools / name).symlink_to(shutil.which(name))
        return {"PATH": str(tools)}

    def wait_for_spare(self):
        """Waits until a spare stands by, as it says."""
        told = "\na spare stands by: process "
        wait_for(lambda: told in self.run_script("status").out, "a spare")

    def assertGoesOn(self):
        """A night begins, is played, goes on where `live` and then all are killed, and is
        halted."""
        self.begin_night()
        self.assertEqual((0, ["ok", "cue 1"]), self.without_moments("go"))
        numbers = self.wait_for_level(128)
        spare = self.spare()
        live = self.kill("pid")
        told = rf"live \(process {live}\) was ended by SIGKILL: the spare \(process {spare}\) "
        self.wait_for_reply(f"{told}goes on where it was$")
        wait_for(lambda: self.number("spare") != spare, "another spare")
        for number in (self.spare(), self.number("pid")):
            os.kill(number, signal.SIGKILL)
        self.wait_for_reply("it is started again, and goes on where it was$")
        self.assertEqual((0, ["ok"]), self.without_moments("sub", "1", "H92"))
        self.assertNumbered(numbers + self.wait_for_level(0x92))
        self.wait_for_spare()
        status, out, err = self.run_script("status")
        self.assertEqual((0, ""), (status, err))
        self.assertIn(f"\nkept going by process {self.number('lock')}\n", out)
        self.assertIn("\nrestarts: 2\n", out)
        self.assertEqual(0, self.run_script("halt").status)


class Settings(SurroundingsTest):
    """Locales, options of shells and of Python, tools that are missing, and closed streams."""

    def test_decimal_comma(self):
        """Each command is answered, and the night goes on."""
        language = make_language(str(self.folder))
        if not language:
            self.skipTest("this machine makes no language with a decimal comma")
        self.environment |= language
        self.begin_night()
        with ThreadPoolExecutor(AT_ONCE) as pool:
            runs = list(pool.map(lambda _: self.run_script("sub", "1", "50"), range(COMMANDS)))
        self.assertEqual([], [each for each in runs if (each.status, each.err) != (0, "")])
        self.assertEqual(0, self.run_script("halt").status)
        self.night = self.folder / "another"
        self.assertGoesOn()

    def test_options_of_shells(self):
        """Those of whoever starts it."""
        self.environment["SHELLOPTS"] = "noclobber:errexit"
        self.environment["IFS"] = "/0"
        self.assertGoesOn()

    def test_file_of_shells(self):
        """What a shell of theirs would run first."""
        first = self.file("first", b"exit 9\n")
        self.environment["BASH_ENV"] = self.environment["ENV"] = str(first)
        self.assertGoesOn()

    def test_options_of_python(self):
        """A module of somebody's does not come in the place of Python's own."""
        for name in ("os", "signal", "select"):
            self.file(f"{name}.py", b"raise SystemExit(9)\n")
        self.environment["PYTHONPATH"] = str(self.folder)
        self.environment["PYTHONINSPECT"] = "1"
        self.assertEqual(1, self.run_script("status").status)
        self.assertGoesOn()

    def test_no_tool_but_those_of_the_launcher(self):
        """Neither flock nor setsid, chrt, dd, date or another."""
        self.environment |= self.only(*OF_THE_LAUNCHER)
        self.assertGoesOn()

    def test_no_tool(self):
        """Commands need none at all."""
        self.begin_night()
        self.wait_for_spare()
        live, keeper = self.number("pid"), self.number("lock")
        self.environment |= self.only()
        self.assertEqual((0, ["ok", "cue 1"]), self.without_moments("go"))
        status, out, err = self.run_script("status")
        self.assertEqual((0, ""), (status, err))
        self.assertIn(f"live is process {live}, since ", out)
        self.assertIn(f"\nkept going by process {keeper}\n", out)
        self.assertEqual(0, self.run_script("halt").status)
        self.assertFalse(self.is_there(live) or self.is_there(keeper))
        told = self.run_script("status")
        self.assertEqual((1, ""), (told.status, told.err))
        self.assertNotIn("kept going", told.out)

    def test_closed_streams(self):
        """No file of the night takes the place of a standard stream that is closed."""
        closed = ["sh", "-c", 'exec "$@" <&- >&- 2>&-', "sh", NIGHT, self.night]
        words = [*closed, "start", *map(str, self.words)]
        keeper = subprocess.Popen(words, env=self.environment)
        self.addCleanup(keeper.wait)
        self.addCleanup(keeper.kill)
        self.wait_for_reply("^end ends the night")
        done = subprocess.run([*closed, "go"], env=self.environment, timeout=PATIENCE)
        self.assertEqual(0, done.returncode)
        self.wait_for_level(128)
        self.assertEqual(f"{keeper.pid}\n", (self.night / "lock").read_text())
        words = "".join(f"{word}\n" for word in self.words)
        self.assertEqual(words, (self.night / "night").read_text())


class Files(SurroundingsTest):
    """FIFOs in the place of a night's files: nobody waits for them."""

    def test_record_that_is_a_fifo(self):
        """Nobody waits for who would write there."""
        self.assertEqual(0, self.run_script("make", *self.words).status)
        os.mkfifo(self.night / "record")
        told = self.run_script("status")
        self.assertEqual((1, ""), (told.status, told.err))
        self.assertIn("no live plays the night: `cueplayer-night", told.out)
        self.assertEqual(1, self.run_script("go").status)

    def test_other_files_that_are_fifos(self):
        for name in ("replies", "lock", "pid", "spare", "show", "show.next", "begin"):
            with self.subTest(name):
                self.night = self.folder / f"a night with {name}"
                self.assertEqual(0, self.run_script("make", *self.words).status)
                (self.night / name).unlink(missing_ok=True)
                os.mkfifo(self.night / name)
                told = self.run_script("status")
                self.assertEqual((1, ""), (told.status, told.err))
                self.assertEqual(1, self.run_script("go").status)

    def test_watch_before_the_night(self):
        """It waits for the replies, shows them as they come, and those of the next night."""
        words = [NIGHT, self.night, "watch"]
        pipe = subprocess.PIPE
        watch = subprocess.Popen(words, stdout=pipe, stderr=pipe, text=True, env=self.environment)
        self.addCleanup(watch.communicate)
        self.addCleanup(watch.kill)
        self.assertIn(f"cannot read {self.night}/replies: ", watch.stderr.readline())
        self.assertEqual(0, self.run_script("make", *self.words).status)
        replies = self.night / "replies"
        replies.write_text("one\n")
        self.assertEqual("one\n", watch.stdout.readline())
        replies.rename(self.night / "replies-before")
        replies.write_text("two\n")
        self.assertEqual("two\n", watch.stdout.readline())
        watch.send_signal(signal.SIGINT)
        self.assertEqual(-signal.SIGINT, watch.wait(PATIENCE))


class Deaths(SurroundingsTest):
    def test_three_in_a_minute(self):
        """The spares that are started do not count among the restarts: none is held up."""
        self.begin_night()
        self.assertEqual((0, ["ok", "cue 1"]), self.without_moments("go"))
        numbers = self.wait_for_level(128)
        for times in (1, 2, 3):
            for number in (self.spare(), self.number("pid")):
                os.kill(number, signal.SIGKILL)
            self.wait_for_reply("it is started again, and goes on where it was$", times)
            self.assertEqual((0, ["ok"]), self.without_moments("sub", "1", f"H{199 + times:02X}"))
            numbers += self.wait_for_level(199 + times)
            wait_for(lambda: self.is_there(self.number("spare")), "another spare")
        self.assertNumbered(numbers)
        self.assertNotIn("restarts in a minute", self.replies())

    def test_spare_of_a_night_that_is_over(self):
        """Where `live` ends well the night is over, though its record does not say so."""
        stub = self.file("stub", SPARE_STUB.format(night=self.night).encode())
        stub.chmod(0o755)
        self.environment["CUEPLAYER"] = str(stub)
        keeper = self.keeper(*self.words)
        spare = wait_for(lambda: (self.night / "spare").exists() and self.number("spare"), "it")
        wait_for(lambda: "sleep" in self.children(spare), "it waits")
        (self.night / "over").touch()
        self.assertEqual(0, keeper.process.wait(PATIENCE))
        self.assertFalse(self.is_there(spare))
        self.assertNotIn("goes on where it was", self.replies())
        self.assertTrue(re.search("(?m)^night: .* the night has ended$", self.replies()))

    def children(self, number):
        """The programs that a process has started."""
        place = Path(f"/proc/{number}/task/{number}/children")
        found = []
        for each in place.read_text().split():
            try:
                found.append(Path(f"/proc/{each}/comm").read_text().strip())
            except OSError:
                pass
        return found
