"""`cueplayer-night`: a night that goes on, whatever of it is killed."""

import os
import random
import re
import signal
import subprocess
import threading
import time

from folders import NIGHT, FolderNightTest
from program import PROGRAM
from tooling import PATIENCE, run_tool, stand_still, wait_for
from wire import SEQUENCE, terminal

# Stands for the program: begins a record, says that it began, and ends with the status in a file,
# whose lines are for one start each, the last for all that follow.
STUB = """#!/bin/sh
[ "$1" = live ] || exit 0
while [ "$1" != --record ]; do shift; done
echo begun >>"{folder}/began"
[ -e "{folder}/unbegun" ] || echo "! cueplayer record 1: show x" >>"$2"
[ ! -e "{folder}/ends" ] || printf '%s\\n' '0 end' '1 tick' '2 tick' '3 tick' >>"$2"
cat "{folder}/says" >&2
status=$(head -n "$(wc -l <"{folder}/began")" "{folder}/status" | tail -n 1)
[ "$status" -lt 128 ] || kill -s "$((status - 128))" $$
exit "$status"
"""
GO_ON = "it is started again, and goes on where it was"
SPARE_GOES_ON = r"the spare \(process (\d+)\) goes on where it was"


class Goes(FolderNightTest):
    def test_folder(self):
        """What is in it, and the words of `live`, with the whole path of the show."""
        self.begin_night()
        self.spare()
        wait_for((self.night / ".record").exists, "the second name of the record")
        names = {path.name for path in self.night.iterdir()}
        files = {"night", "show", "record", ".record", "replies", "in", "lock", "pid"}
        self.assertEqual(files | {"spare"}, names)
        words = "\n".join(map(str, self.words)) + "\n"
        self.assertEqual(words, (self.night / "night").read_text())
        self.assertTrue((self.night / "in").is_fifo())
        self.assertTrue(self.is_there(self.number("pid")))
        self.assertTrue(self.is_there(self.number("lock")))

    def test_commands(self):
        """Each prints its own answer, and ends by it."""
        self.begin_night()
        for words, expected in (
            (["go"], (0, ["ok", "cue 1"])),
            (["goto", "3", "in", "0"], (0, ["ok", "cue 3"])),
            (["go"], (1, ["refused AtEnd"])),
            (["back"], (0, ["ok", "cue 2"])),
            (["goto", "7"], (1, ["refused NoCue"])),
            (["sub", "1", "50"], (0, ["ok"])),
            (["master", "H40"], (0, ["ok"])),
            (["where"], (0, ["where cue 2 next 3 master 64 sub 1:128"])),
            (["sub", "1"], (1, [self.refusal_of("sub 1")])),
        ):
            with self.subTest(words):
                self.assertEqual(expected, self.without_moments(*words))
        self.assertEqual(2, self.run_script("jump").status)
        self.assertEqual(2, self.run_script("go", "x" * 200).status)
        self.assertEqual(2, self.run_script("go\nend").status)

    def refusal_of(self, line):
        reason = "sub and group want a number and a level: sub 3 50, group 1 FL"
        return f"line refused: {line}: {reason}"

    def test_end(self):
        """It ends the keeper too, with the status of `live`; a new night keeps the old record."""
        keeper = self.keeper(*self.words)
        keeper.out.find("end ends the night")
        self.assertEqual((0, ["ok", "cue 1"]), self.without_moments("go"))
        status, out, _ = self.run_script("end")
        self.assertEqual(0, status)
        self.assertRegex(out, r"^\d+ ok\n\d+ ok\n")
        self.assertEqual(0, keeper.process.wait(PATIENCE))
        told = self.run_script("status")
        self.assertEqual((1, "the night has ended"), (told.status, told.out.splitlines()[0]))
        record = (self.night / "record").read_text()
        again = self.run_script("start")
        self.assertEqual(4, again.status)
        self.assertIn("`start SHOW ..` begins a new one", again.out)
        self.assertIn("nothing was sent", self.run_script("go").err)
        self.begin_night()
        (old,) = self.night.glob("record-*")
        self.assertEqual(record, old.read_text())
        self.assertEqual((0, ["where next 1 master 255"]), self.without_moments("where"))

    def test_live_is_killed(self):
        """`live` is killed, twice: the spare goes on with its stream, at the same cue, at once."""
        self.begin_night()
        self.assertEqual((0, ["ok", "cue 1"]), self.without_moments("go"))
        numbers = self.wait_for_level(128)
        for times in (1, 2):
            spare = self.spare()
            told = f"\na spare stands by: process {spare}\n"
            wait_for(lambda: told in self.run_script("status").out, told)
            numbers += [each[SEQUENCE] for each in self.came()]
            killed = self.kill("pid")
            self.assertEqual((0, ["ok"]), self.without_moments("sub", "1", f"H{199 + times:02X}"))
            numbers += self.wait_for_level(199 + times)
            told = rf"live \(process {killed}\) was ended by SIGKILL: {SPARE_GOES_ON}$"
            self.assertEqual([str(spare)], self.wait_for_reply(told))
            self.assertEqual(spare, self.number("pid"))
        self.assertNumbered(numbers)
        masters = ["where cue 1 next 2 master 255 sub 1:201"]
        self.assertEqual((0, masters), self.without_moments("where"))
        told = self.run_script("status")
        self.assertIn("\nrestarts: 2\n", told.out)
        self.assertIn(f"live (process {killed}) was ended by SIGKILL", told.out)

    def test_live_and_the_spare_are_killed(self):
        """Then `live` is started again. A spare alone is replaced."""
        self.begin_night()
        self.assertEqual((0, ["ok", "cue 1"]), self.without_moments("go"))
        numbers = self.wait_for_level(128)
        first = self.spare()
        os.kill(first, signal.SIGKILL)
        self.wait_for_reply(rf"the spare \(process {first}\) is gone: another stands by$")
        wait_for(lambda: self.number("spare") != first, "another spare")
        second, live, keeper = self.spare(), self.number("pid"), self.number("lock")
        # No third spare begins between the two.
        os.kill(keeper, signal.SIGSTOP)
        for number in (second, live):
            os.kill(number, signal.SIGKILL)
        os.kill(keeper, signal.SIGCONT)
        numbers += self.wait_for_level(128)
        self.wait_for_reply(rf"live \(process {live}\) was ended by SIGKILL: {GO_ON}$")
        self.assertEqual((0, ["ok"]), self.without_moments("sub", "1", "H92"))
        self.assertNumbered(numbers + self.wait_for_level(0x92))

    def test_keeper_and_live_are_killed(self):
        """The spare needs nobody; the next keeper takes hold of it, and starts another."""
        self.begin_night()
        self.assertEqual((0, ["ok", "cue 1"]), self.without_moments("go"))
        numbers = self.wait_for_level(128)
        spare, live = self.spare(), self.number("pid")
        self.kill("lock")
        os.kill(live, signal.SIGKILL)
        self.assertEqual((0, ["ok"]), self.without_moments("sub", "1", "H92"))
        self.assertNumbered(numbers + self.wait_for_level(0x92))
        self.assertIn(f"live is process {spare}", self.run_script("status").out)
        _, out, _ = self.run_script("start", "--background")
        self.assertIn(f"takes hold of the night: live (process {spare}) plays", out)
        self.assertEqual(spare, self.number("pid"))
        wait_for(lambda: self.number("spare") != spare, "another spare")
        self.spare()

    def test_spare_of_another_keeper(self):
        """A keeper takes hold of the spare too, and makes it the `live` of the night."""
        self.begin_night()
        spare = self.spare()
        self.kill("lock")
        self.run_script("start", "--background")
        live = self.kill("pid")
        told = rf"live \(process {live}\) is gone: {SPARE_GOES_ON}$"
        self.assertEqual([str(spare)], self.wait_for_reply(told))
        self.assertEqual((0, ["ok", "cue 1"]), self.without_moments("go"))
        self.assertEqual(0, self.run_script("end").status)
        self.wait_for_reply("the night has ended$")

    def test_show_that_is_edited(self):
        """Spares and restarts play the copy that the night began with."""
        self.begin_night()
        self.assertEqual((0, ["ok", "cue 1"]), self.without_moments("go"))
        spare, show = self.spare(), self.show.read_bytes()
        self.assertEqual(show, (self.night / "show").read_bytes())
        self.show.write_bytes(b"CUE 1\n")
        self.kill("spare")
        wait_for(lambda: self.number("spare") != spare, "another spare")
        self.kill_all()
        self.show.unlink()
        status, out, _ = self.run_script("start", "--background")
        self.assertEqual(0, status, out)
        self.assertEqual((0, ["ok", "cue 2"]), self.without_moments("go"))
        self.assertNotIn("another show", self.replies())

    def test_no_spare_of_another_show(self):
        """That is told once, and so is that a night is not gone on with, which is tried again. A
        keeper that never saw the show of the record cannot put it back."""
        self.begin_night()
        self.spare()
        keeper = self.kill("lock")
        wait_for(lambda: not self.is_there(keeper), "the keeper is gone")
        show = (self.night / "show").read_bytes()
        for file in (self.night / "show", self.show):
            file.write_bytes(b"CUE 1\n")
        self.assertEqual(0, self.run_script("start", "--background").status)
        self.kill("spare")
        self.wait_for_reply("record: another show")
        self.wait_for_reply("no spare stands by, as the lines above say")
        live = self.number("pid")
        self.assertNotIn("a spare stands by", self.run_script("status").out)
        self.assertEqual(1, self.replies().count("record: another show"))
        os.kill(live, signal.SIGKILL)
        self.wait_for_reply("live refused to begin, with status 4")
        self.assertEqual(1, self.replies().count("no spare stands by"))
        # The spare said so, and then `live`.
        self.assertEqual(2, self.replies().count("record: another show"))
        (self.night / "show").write_bytes(show)
        self.wait_for_reply("plays again$")
        self.assertEqual(2, self.replies().count("record: another show"))

    def test_keeper_is_killed(self):
        """The keeper is killed: `live` plays on and is commanded; the next keeper takes hold of it,
        and restarts it."""
        self.begin_night()
        live, keeper = self.number("pid"), self.kill("lock")
        wait_for(lambda: not self.is_there(keeper), "the keeper is gone")
        self.assertEqual((0, ["ok", "cue 1"]), self.without_moments("go"))
        self.wait_for_level(128)
        self.assertIn("nothing keeps it going", self.run_script("status").out)
        status, out, err = self.run_script("start", "--background")
        self.assertEqual((0, ""), (status, err))
        self.assertIn(f"takes hold of the night: live (process {live}) plays", out)
        self.assertEqual(live, self.number("pid"))
        self.came()
        self.kill("pid")
        self.wait_for_reply(rf"live \(process {live}\) is gone: {SPARE_GOES_ON}$")
        self.assertEqual((0, ["ok", "cue 2"]), self.without_moments("go"))
        self.assertEqual(0, self.run_script("end").status)
        self.wait_for_reply("the night has ended$")

    def test_end_of_a_night_of_another_keeper(self):
        """A keeper that took hold of `live` knows that its night has ended, and ends well."""
        self.begin_night()
        self.kill("lock")
        keeper = self.keeper()
        keeper.out.find("night: .* takes hold")
        self.assertEqual(0, self.run_script("end").status)
        self.assertEqual(0, keeper.process.wait(PATIENCE))
        self.wait_for_reply("the night has ended")

    def test_number_of_live_is_lost(self):
        """A keeper finds `live` by its standard input, where the folder names another process."""
        self.begin_night()
        live, _ = self.number("pid"), self.kill("lock")
        (self.night / "pid").write_text(f"{os.getpid()}\n")
        _, out, _ = self.run_script("start", "--background")
        self.assertIn(f"takes hold of the night: live (process {live}) plays", out)

    def test_all_are_killed(self):
        """`live`, its spare and its keeper are killed: the light goes, and `start` alone brings it
        back as it was, in the same stream."""
        self.begin_night()
        self.without_moments("go")
        numbers = self.wait_for_level(128)
        self.spare()
        for name in ("lock", "spare", "pid"):
            self.kill(name)
        numbers += [each[SEQUENCE] for each in self.came()]
        told = self.run_script("status")
        self.assertEqual(1, told.status)
        self.assertIn("no live plays the night: `cueplayer-night", told.out)
        self.assertEqual(1, self.run_script("go").status)
        self.assertEqual(0, self.run_script("start", "--background").status)
        numbers += self.wait_for_level(128)
        self.assertNumbered(numbers)
        self.assertEqual((0, ["where cue 1 next 2 master 255"]), self.without_moments("where"))

    def test_signals(self):
        """Those of a terminal change nothing; SIGTERM ends the keeper alone."""
        keeper = self.keeper(*self.words)
        keeper.out.find("end ends the night")
        live = self.number("pid")
        ignored = ("INT", "HUP", "QUIT", "TSTP")
        for name in ignored:
            os.killpg(keeper.process.pid, signal.Signals[f"SIG{name}"])
        self.assertEqual((0, ["ok", "cue 1"]), self.without_moments("go"))
        self.assertIsNone(keeper.process.poll())
        keeper.process.terminate()
        self.assertEqual(143, keeper.process.wait(PATIENCE))
        self.assertEqual((0, ["where cue 1 next 2 master 255"]), self.without_moments("where"))
        self.assertEqual(live, self.number("pid"))

    def test_halt(self):
        """Nothing plays any more, and the night is not over."""
        self.begin_night()
        self.without_moments("go")
        numbers = self.number("pid"), self.number("lock"), self.spare()
        self.assertEqual(0, self.run_script("halt").status)
        self.assertEqual([False, False, False], [self.is_there(number) for number in numbers])
        self.assertEqual(1, self.run_script("halt").status)
        self.assertEqual(0, self.run_script("start", "--background").status)
        self.assertEqual((0, ["ok", "cue 2"]), self.without_moments("go"))

    def test_begins_at_a_cue(self):
        """At the first start alone: after a crash the night is where it was."""
        self.words += ["--start", "3"]
        self.begin_night()
        self.assertEqual((0, ["ok", "cue 2"]), self.without_moments("back"))
        self.kill("pid")
        self.assertEqual((0, ["where cue 2 next 3 master 255"]), self.without_moments("where"))

    def test_second_keeper(self):
        self.begin_night()
        keeps = f"process {self.number('lock')} keeps the night in {self.night} already"
        told = f"cueplayer-night: {keeps}\n"
        for words in ([], ["--background"]):
            self.assertEqual((1, "", told), self.run_script("start", *words))
        told = f"cueplayer-night: the night in {self.night} is played already\n"
        self.assertEqual((1, "", told), self.run_script("start", *self.words))

    def test_other_words(self):
        """A night that has begun keeps its words; before that it takes others."""
        self.assertEqual(0, self.run_script("make", self.show, "--to", "127.0.0.1:9").status)
        self.begin_night()
        self.run_script("halt")
        status, _, err = self.run_script("start", *self.words, "--priority", "50")
        self.assertEqual(1, status)
        self.assertIn("has begun with other words: `start` alone goes on with it", err)
        self.assertEqual(0, self.run_script("start", *self.words, "--background").status)

    def test_same_cid(self):
        """Another `live` of the CID plays: that is told, and not tried again."""
        self.begin_night()
        one, self.night = self.night, self.folder / "another"
        status, out, _ = self.run_script("start", *self.words)
        self.assertEqual(5, status)
        self.assertIn("another console on this machine sends under this CID", out)
        self.assertIn("another live has this CID: end that one, then `start`", out)
        self.assertNotIn(GO_ON, out)
        self.night = one

    def test_same_cid_elsewhere(self):
        """Each folder is asked that may have its lock, and a process that has none is seen: as of
        one that was begun by a login, and another by a unit or a timer."""
        for name in ("runtime", "another runtime"):
            (self.folder / name).mkdir()
        self.environment["XDG_RUNTIME_DIR"] = str(self.folder / "runtime")
        self.begin_night()
        live = self.number("pid")
        one, self.night = self.night, self.folder / "another"
        self.environment["XDG_RUNTIME_DIR"] = str(self.folder / "another runtime")
        status, out, _ = self.run_script("start", *self.words)
        self.assertEqual(5, status)
        told = f"another console on this machine sends under this CID: process {live}\n"
        self.assertIn(told, out)
        desk = run_tool("desk", *self.words, env=self.environment)
        self.assertEqual(1, desk.returncode)
        self.assertIn(f"process {live} plays live under this CID already", desk.stderr)
        self.night = one
        self.kill_all()
        self.assertEqual(0, self.run_script("start", "--background").status)

    def test_same_cid_later(self):
        """A `live` that is started by hand asks one folder alone: that is told, and gone from
        `status` once it has ended."""
        self.begin_night()
        self.spare()
        (self.folder / "runtime").mkdir()
        environment = self.environment | {"XDG_RUNTIME_DIR": str(self.folder / "runtime")}
        pipe = subprocess.PIPE
        words = [PROGRAM, "live", *self.words]
        other = subprocess.Popen(words, stdin=pipe, stdout=pipe, stderr=pipe, env=environment)
        self.addCleanup(other.communicate)
        self.addCleanup(other.kill)
        told = f"end process {other.pid}, `kill {other.pid}`"
        wait_for(lambda: self.run_script("status").status == 3, "status 3")
        self.assertIn(told, self.run_script("status").out)
        self.wait_for_reply(f"another console sends under this CID, .*: {told}$")
        status = self.run_script("status")
        self.assertEqual(3, status.status)
        self.assertRegex(status.out, f"(?m)^trouble since .*{told}$")
        self.assertEqual(1, status.out.count("\ntrouble"))
        other.kill()
        self.wait_for_reply("no other console sends under this CID any more$")
        self.assertEqual(0, self.run_script("status").status)

    def test_line_that_is_not_read(self):
        """A line that `live` does not read is taken back after a second, and told: nothing is
        carried out later."""
        self.begin_night()
        self.spare()
        live = self.number("pid")
        stand_still(live)
        status, out, err = self.run_script("go")
        self.assertEqual((1, ""), (status, out))
        self.assertIn("no answer within a second", err)
        self.wait_for_reply(
            rf"live \(process {live}\) has not read for a second; taken back: go; "
        )
        self.wait_for_reply(SPARE_GOES_ON)
        self.assertEqual((0, ["where next 1 master 255"]), self.without_moments("where"))

    def test_many_writers(self):
        """Nine writers at once: the lines of many come whole, each once."""
        self.begin_night()
        turns = [range(first, 256, 8) for first in range(8)]

        def write(levels):
            for level in levels:
                with open(self.night / "in", "w", encoding="ascii") as fifo:
                    fifo.write(f"sub 1 H{level:02X} ! from one of many, at some length\n")

        writers = [threading.Thread(target=write, args=(levels,)) for levels in turns]
        shell = threading.Thread(
            target=lambda: [self.run_script("group", "9", "FL") for _ in range(5)]
        )
        for writer in (*writers, shell):
            writer.start()
        for writer in (*writers, shell):
            writer.join()
        form = r"(?m)^\d+ sub 1 H(\w\w) ! from one of many, at some length$"
        lines = re.findall(form, (self.night / "record").read_text())
        self.assertEqual(sorted(f"{level:02X}" for level in range(256)), sorted(lines))
        self.assertEqual(5, self.replies().count("refused NoGroup"))
        self.assertNotIn("line refused", self.replies())

    def test_terminal(self):
        """Lines may be typed where it runs; control-C, control-D, a closed window end nothing."""
        ours, its = terminal(self)
        keeper = self.keeper(
            *self.words, stdin=its, stdout=its, stderr=its, preexec_fn=take_terminal
        )
        os.close(its)
        shown = bytearray()

        def has(what):
            try:
                shown.extend(os.read(ours, 65_536))
            except OSError:
                return False
            return re.search(what, shown)

        wait_for(lambda: has(rb"end ends the night"), "the start")
        os.write(ours, b"go\n")
        wait_for(lambda: has(rb"\d+ ok\r\n\d+ cue 1\r\n"), "the answer")
        os.write(ours, b"\x03\x1a\x04")
        wait_for(lambda: has(b"type end to end the night"), "control-D")
        os.write(ours, b"sub 1 H90\n")
        self.wait_for_level(0x90)
        os.close(ours)
        self.assertEqual((0, ["ok"]), self.without_moments("sub", "1", "H91"))
        self.wait_for_level(0x91)
        self.assertIsNone(keeper.process.poll())
        self.kill("pid")
        self.assertEqual((0, ["ok"]), self.without_moments("sub", "1", "H92"))
        self.wait_for_level(0x92)


class ByChance(FolderNightTest):
    """Whatever is killed while commands come: each that was accepted is carried out once, and the
    stream goes on."""

    TURNS = 60
    # Of five restarts in a minute the sixth would wait.
    MOST_KILLS = 5

    def setUp(self):
        super().setUp()
        numbers = range(1, 1 + self.TURNS)
        cues = "".join(f"CUE {number}\nUP 2\nCHAN 1@{number}\n" for number in numbers)
        self.show.write_bytes(f"{cues}PATCH 1 1<1@FL\n".encode())
        self.kills = 0

    def test_kills(self):
        self.begin_night()
        chance, gone, numbers = random.Random(41), 0, []
        for _ in range(self.TURNS):
            match chance.randrange(4):
                case 0:
                    self.kill_keeper()
                case 1:
                    self.run_script("start", "--background")
                case 2:
                    self.kill_live()
                case _:
                    self.assertEqual(0, self.command("go").status)
                    gone += 1
            time.sleep(chance.uniform(0, 0.2))
            numbers += [each[SEQUENCE] for each in self.came(0)]
        self.assertGreater(gone, 5)
        self.assertEqual(self.MOST_KILLS, self.kills)
        place = f"where cue {gone} next {gone + 1} master 255"
        self.assertEqual((0, [place]), self.without_moments("where"))
        self.assertNumbered(numbers + [each[SEQUENCE] for each in self.came()])

    def kill_keeper(self):
        if self.is_there(self.number("lock")):
            keeper = self.kill("lock")
            wait_for(lambda: not self.is_there(keeper), "the keeper is gone")

    def live(self):
        """The process that plays the night, once a keeper has written which one that is."""

        def process():
            text = (self.night / "pid").read_text().strip()
            return text and self.is_there(int(text)) and int(text)

        if not process() and not self.is_there(self.number("lock")):
            self.assertEqual(0, self.run_script("start", "--background").status)
        return wait_for(process, "the live that plays")

    def kill_live(self):
        """Where nothing would start it again, something is begun that does."""
        if self.kills < self.MOST_KILLS:
            self.kills += 1
            live = self.live()
            os.kill(live, signal.SIGKILL)
            wait_for(lambda: not self.is_there(live), "live is gone")
            if not self.is_there(self.number("lock")):
                self.assertEqual(0, self.run_script("start", "--background").status)


def take_terminal():
    """Makes standard input the terminal of this session."""
    os.close(os.open(os.ttyname(0), os.O_RDWR))


class Stubbed(FolderNightTest):
    """How a `live` that is not one ends, and what is made of it."""

    def setUp(self):
        super().setUp()
        stub = self.file("stub", STUB.format(folder=self.folder).encode())
        stub.chmod(0o755)
        self.environment["CUEPLAYER"] = str(stub)
        self.says("a word on standard error")

    def says(self, *lines):
        self.file("says", "".join(f"{line}\n" for line in lines).encode())

    def began(self):
        return len((self.folder / "began").read_text().splitlines())

    def test_refused(self):
        """Status 2, 3 and 4, and what ends before it begins: told, with what to do, and left."""
        for status in (2, 3, 4):
            with self.subTest(status):
                self.file("status", b"%d\n" % status)
                self.file("began", b"")
                done = self.run_script("start", *self.words)
                self.assertEqual((status, 1), (done.status, self.began()))
                self.assertIn(f"refused to begin, with status {status}: the lines above", done.err)
        self.night = self.folder / "another"
        self.file("unbegun", b"")
        for status in (1, 5, 6):
            with self.subTest(status):
                self.file("status", b"%d\n" % status)
                self.file("began", b"")
                done = self.run_script("start", *self.words)
                self.assertEqual((status, 1), (done.status, self.began()))
                told = f"ended with status {status} before the night began"
                self.assertIn(told, done.out)

    def test_told_on_standard_error(self):
        """What happened comes there and in the replies; where both outputs are one, once."""
        self.file("status", b"3\n")
        done = self.run_script("start", *self.words)
        self.assertEqual(1, done.err.count("refused to begin"))
        self.assertEqual(1, self.replies().count("refused to begin"))
        self.night = self.folder / "another"
        with open(self.folder / "log", "wb") as log:
            words = [NIGHT, self.night, "start", *self.words]
            subprocess.run(words, stdout=log, stderr=log, env=self.environment, timeout=PATIENCE)
        self.assertEqual(1, (self.folder / "log").read_text().count("refused to begin"))

    def test_each_second(self):
        """What does not begin is tried for ever, no more often than each second, and told once."""
        for status, said in ((2, "refused to begin, with status 2"), (3, "with status 3"),
                             (5, "ended with status 5 before it played"),
                             (134, "was ended by SIGABRT before it played")):  # fmt: skip
            with self.subTest(status):
                self.night = self.folder / f"night {status}"
                self.assertEqual(0, self.run_script("make", *self.words).status)
                self.file("status", b"%d\n" % status)
                self.file("began", b"")
                began = time.monotonic()
                keeper = self.keeper()
                wait_for(lambda: self.began() > 3, "four starts")
                self.assertGreater(time.monotonic() - began, 2.9)
                self.assertIsNone(keeper.process.poll())
                told = "the lines above say why; tried again each second; `halt` ends that"
                self.assertEqual(1, len(self.wait_for_reply(rf"live .*{said}: {told}$")))
                self.assertEqual(1, self.replies().count("a word on standard error"))
                self.assertIn(told, self.run_script("status").out)
                self.assertEqual(0, self.run_script("halt").status)

    def test_record_in_use(self):
        """Where the record of one that died is still written, it is tried again; at first not."""
        self.says("record: in use by process 7")
        self.file("status", b"4\n")
        self.assertEqual(4, self.run_script("start", *self.words).status)
        self.night = self.folder / "another"
        self.file("began", b"")
        self.file("status", b"134\n4\n4\n0\n")
        self.assertEqual(0, self.run_script("start", *self.words).status)
        self.assertEqual(4, self.began())

    def test_no_card(self):
        """Where the network is not there yet, `start` alone waits for it; new words are
        refused."""
        self.file("status", b"2\n")
        for said in (
            "no card lit: there are lo (127.0.0.1)",
            "lit is down: ip link set lit up; there are lo (127.0.0.1)",
            "lit has no link and no address: check the cable; there are lo (127.0.0.1)",
            "no card that is up is known to have 10.0.0.2: lit is down; ip link set lit up; "
            "there are lo",
            "the route to 10.0.0.7 leads by off, and not by lit: --any-route sends by it",
        ):
            with self.subTest(said):
                self.says("words refused", said)
                self.file("began", b"")
                self.night = self.folder / said.partition(":")[0]
                done = self.run_script("start", *self.words)
                self.assertEqual((2, 1), (done.status, self.began()))
                keeper = self.keeper()
                keeper.out.find(".*live waits for its network card")
                self.assertIn(said, self.run_script("status").out)
                # It would try again while the next one begins.
                self.assertEqual(0, self.run_script("halt").status)
                keeper.process.wait(PATIENCE)

    def test_card_that_comes(self):
        """It is told once, and what comes of it is that of any other night."""
        self.file("status", b"134\n2\n0\n")
        self.says("words refused", "no card lit: there are lo (127.0.0.1)")
        done = self.run_script("start", *self.words)
        self.assertEqual((0, 3), (done.status, self.began()))
        self.assertEqual(1, done.err.count("waits for its network card"))

    def test_packets_lost(self):
        """A night that ended with packets lost is over, with the status of `live`."""
        self.says("lost 7")
        self.file("status", b"5\n")
        self.file("ends", b"")
        done = self.run_script("start", *self.words)
        self.assertEqual((5, 1), (done.status, self.began()))
        self.assertIn("the night has ended", done.out)


class Words(FolderNightTest):
    def test_help(self):
        for word in ("--help", "-h", "help"):
            done = subprocess.run([NIGHT, word], capture_output=True, text=True)
            self.assertEqual((0, ""), (done.returncode, done.stderr))
            self.assertIn("usage: cueplayer-night NIGHT start SHOW", done.stdout)

    def test_refused(self):
        """With status 2, one line, and nothing made."""
        for words in ([], ["jump"], ["start", "--to", "1.2.3.4"], ["make"], ["make", ""],
                      ["start", "show", "--record", "x"], ["start", "show", "--record=x"],
                      ["start", "show", "--resume"], ["start", "show", "--help"],
                      ["start", "show", "--to", "a\nb"]):  # fmt: skip
            with self.subTest(words):
                status, out, err = self.run_script(*words)
                self.assertEqual((2, ""), (status, out))
                self.assertRegex(err, r"\Acueplayer-night: .*; --help lists the commands\n\Z")
                self.assertFalse(self.night.exists())
        for words in ([], [""], ["--bogus"]):
            self.assertEqual(2, subprocess.run([NIGHT, *words], capture_output=True).returncode)

    def test_no_night(self):
        for words in (["start"], ["go"], ["status"], ["halt"]):
            with self.subTest(words):
                status, out, err = self.run_script(*words)
                self.assertEqual((1, ""), (status, out))
                self.assertRegex(err, r"\Acueplayer-night: no.*\n\Z")

    def test_make(self):
        """The folder is there, and nothing plays."""
        self.assertEqual((0, "", ""), self.run_script("make", *self.words))
        names = {path.name for path in self.night.iterdir()}
        self.assertEqual({"night", "in", "lock", "replies"}, names)
        self.assertEqual(1, self.run_script("status").status)
        self.assertIn("nothing was sent; `start` goes on with it", self.run_script("go").err)
