"""What programs read of `check`, `look`, `play`, `rehearse` and `listen`: of each fault exactly its
line on standard error, and nothing where a run ended well."""

import os
import pty
import socket
import subprocess
import sys
from pathlib import Path

from listeners import Listener, is_bound
from preload import PreloadTest
from program import (
    CID,
    PROGRAM,
    TO_NOBODY,
    TOP,
    FolderTest,
    Outcome,
    counts,
    packet,
    slots_in,
    text,
)
from restarts import wait_until
from wire import address_of, datagrams_at, free_port, receiver_socket
from worked import S1, above, listen_example, plays, rehearsals, tables, with_examples

PLAIN = {name: value for name, value in os.environ.items() if name != "CUEPLAYER_REMARKS"}
PNG = b"\x89PNG\r\n\x1a\n"
BAD_SHOW = text("CUE 1", "CHAN 1@101")
HIGH = text("CUE 1", "PATCH 1 1<513@FL")
DEVICE, UNFIT = b"device fault\n", b"words refused\n"


def run(*words, stdin=b"", env=PLAIN, **options):
    """How a run ends, with all that it writes; standard error is a pipe."""
    done = subprocess.run(
        [PROGRAM, *words], input=stdin, capture_output=True, timeout=300, env=env, **options
    )
    return Outcome(done.returncode, done.stdout, done.stderr)


def looks_of(shown):
    """The packets of a look, by what `slots` shows of it."""
    universes = [int(line.split()[1]) for line in shown[::2]]
    return text(*(packet(*each).hex() for each in zip(universes, map(slots_in, shown[1::2]))))


class TextsTest(FolderTest):
    def assertTells(self, words, stdin=b"", status=0, out=b"", err=b"", **options):
        """A run ends so, and writes exactly this."""
        self.assertEqual(Outcome(status, out, err), run(*words, stdin=stdin, **options), words)


@with_examples("show", "answer")
@with_examples("show", "cue", "shown")
@with_examples("line", "printed", "slots")
@with_examples("line", "reply")
@with_examples("script", "answer")
@with_examples("datagram", "reply")
class Rows(TextsTest):
    """Each worked example."""

    def assertExample(self, name):
        for each in tables(name):
            if each.columns == ("show", "answer"):
                for row in each.rows:
                    for show in row.texts("show"):
                        self.assertAnswers(above(name) + show, row.cells["answer"])
            elif each.columns == ("show", "cue", "shown"):
                for row in each.rows:
                    for show in row.texts("show"):
                        self.assertShows(above(name) + show, row)
            elif each.columns == ("datagram", "reply"):
                self.assertHears(*listen_example(name))
        for play in plays(name):
            self.assertPlays(play)
        for rehearsal in rehearsals(name):
            self.assertRehearses(rehearsal)

    def assertAnswers(self, show, answer):
        if answer.startswith("show"):
            for words in (["check", "-"], ["look", "-", "1", "--cid", CID]):
                self.assertTells(words, show, status=3, err=text(answer))
        else:
            words = answer.split()
            self.assertTells(
                ["check", "-"], show, out=counts(**dict(zip(words[::2], words[1::2])))
            )

    def assertShows(self, show, row):
        words, shown = ["look", "-", row.cells["cue"], "--cid", CID], row.words("shown")
        if shown == ["show: NoCue"]:
            self.assertTells(words, show, status=3, err=b"show: NoCue\n")
        elif shown == ["no dimmer is patched"]:
            self.assertTells(words, show)
        else:
            self.assertTells(words, show, out=looks_of(shown))

    def assertPlays(self, play):
        with receiver_socket() as receiver:
            to = ("--to", address_of(receiver), "--cid", CID)
            words = ["play", self.file("show.asc", play.show), *to, *play.options]
            self.assertTells(words, play.stdin, play.status, play.out, play.err)
            self.assertEqual(play.packets, datagrams_at(receiver))

    def assertRehearses(self, rehearsal):
        show = self.file("show.asc", rehearsal.show)
        words = ["rehearse", show, self.file("night.script", rehearsal.script)]
        self.assertTells(words, b"", rehearsal.status, rehearsal.out, rehearsal.err)

    def assertHears(self, datagrams, out):
        listener = Listener(count=len(datagrams), env=PLAIN)
        self.addCleanup(listener.abandon)
        listener.send(*datagrams)
        told, err = listener.child.communicate(timeout=30)
        self.assertEqual((0, out, b""), (listener.child.returncode, told, err))


class Texts(TextsTest):
    """Each text of the table of exit statuses, and where there is none."""

    SHOW = S1

    def test_words(self):
        for words in (
            ["look", "-", "x", "--cid", CID],
            ["look", "-", "1", "--cid", "c0ffee"],
            ["check", b"\xff"],
            ["play", self.show, *TO_NOBODY, "--priority", "201"],
            ["listen", "::1", "1", "1"],
        ):
            self.assertTells(words, status=2, err=UNFIT)

    def test_shows(self):
        self.assertTells(["check", "-"], b"!" * 1_048_577, 3, err=b"show: TooLong\n")
        line_2 = b"show line 2: BadLevel\n"
        bad = self.file("bad.asc", BAD_SHOW)
        script = self.file("night.script", b"")
        for words in (
            ["check", bad],
            ["check", bad, "--strict"],
            ["look", bad, "1", "--cid", CID],
            ["play", bad, *TO_NOBODY],
            ["rehearse", bad, script],
        ):
            self.assertTells(words, status=3, err=line_2)
        self.assertTells(["look", self.show, "7", "--cid", CID], status=3, err=b"show: NoCue\n")

    def test_lines(self):
        words = ["play", self.show, *TO_NOBODY]
        self.assertTells(words, b"0 go\n5 jump\n", 4, b"0 ok\n", b"line 2 refused\n")
        for script, err in (
            (b"!" * 16_777_217, b"script: TooLong\n"),
            (b"", b"setup: Consoles\n"),
            (b"jump\n", b"line 1 refused\n"),
        ):
            words = ["rehearse", self.show, self.file("night.script", script)]
            self.assertTells(words, status=4, err=err)

    def test_devices(self):
        missing = self.folder / "missing"
        for words in (
            ["check", missing],
            ["look", self.folder, "1", "--cid", CID],
            ["play", missing, *TO_NOBODY],
            ["rehearse", self.show, missing],
        ):
            self.assertTells(words, status=5, err=DEVICE)
        with receiver_socket() as held:
            self.assertTells(["listen", address_of(held), "1", "1"], status=5, err=DEVICE)
        words = ["play", self.show, "--to", "255.255.255.255", "--cid", CID]
        self.assertTells(words, b"0 tick\n", 5, b"0 live 1:x0\n", b"lost 1\n")

    def test_output(self):
        with open("/dev/full", "wb") as full:
            done = subprocess.run(
                [PROGRAM, "check", self.show], stdout=full, stderr=subprocess.PIPE, env=PLAIN
            )
        self.assertEqual((5, DEVICE), (done.returncode, done.stderr))

    def test_nothing_is_told_of_a_good_end(self):
        no_patch = text("CUE 1", "CHAN 1@FL")
        self.assertTells(["look", "-", "1", "--cid", CID], no_patch)
        picture = self.file("picture", PNG)
        out = counts(lines=2, skipped=1)
        self.assertTells(["check", picture], out=out)
        words = ["play", picture, *TO_NOBODY]
        self.assertTells(words, b"0 go\n", out=b"0 refused AtEnd\n")

    def test_other_subcommands_keep_their_remarks(self):
        """No program goes by their texts."""
        told = b"show: NoCue\nthe show has no cue of this number\n"
        self.assertTells(["slots", self.show, "7"], status=3, err=told)
        told = b"words refused\nUNIVERSE `0`: a universe is a number from 1 to 63999\n"
        self.assertTells(["watch", "0"], status=2, err=told)


class Memory(PreloadTest):
    SOURCE = "refuse.c"
    SHOW = S1

    def test_memory(self):
        env = PLAIN | {"LD_PRELOAD": str(self.library), "REFUSED": "1"}
        self.assertEqual(Outcome(6, b"", b"memory\n"), run("check", self.show, env=env))


class Remarks(TextsTest):
    """What is told beside these texts, where it is asked for: behind them."""

    SHOW = S1
    NO_CUE = b"show: NoCue\n", b"the show has no cue of this number\n"

    def look(self, variable):
        env = PLAIN | {"CUEPLAYER_REMARKS": variable}
        return run("look", self.show, "7", "--cid", CID, env=env)

    def test_variable(self):
        self.assertEqual(Outcome(3, b"", b"".join(self.NO_CUE)), self.look("1"))
        for other in ("", "0", "11", "yes", "1" * 300):
            self.assertEqual(Outcome(3, b"", self.NO_CUE[0]), self.look(other), other)

    def test_terminal(self):
        mine, theirs = pty.openpty()
        self.addCleanup(os.close, mine)
        words = [PROGRAM, "look", self.show, "7", "--cid", CID]
        done = subprocess.run(words, stderr=theirs, stdout=subprocess.PIPE, env=PLAIN, timeout=60)
        os.close(theirs)
        told = os.read(mine, 1000).replace(b"\r\n", b"\n")
        self.assertEqual((3, b"".join(self.NO_CUE)), (done.returncode, told))

    def test_tools(self):
        """What a tool starts has its remarks: the tool reads them, and hands them on."""
        words = "look", str(self.show), "7", "--cid", CID
        code = f"from cueplayer_tools.program import run; print(run(*{words}).told, end='')"
        done = subprocess.run(
            [sys.executable, "-B", "-c", code],
            capture_output=True,
            env=PLAIN,
            cwd=TOP / "tools",
            timeout=60,
        )
        self.assertEqual((b"".join(self.NO_CUE), b""), (done.stdout, done.stderr))

    def test_fault_comes_first(self):
        """Also where what the file of a show seems to be is known before."""
        picture = self.file("picture", PNG)
        for words, stdin, status, line in (
            (["check", picture, "--strict"], b"", 3, b"show: Doubtful"),
            (["play", picture, *TO_NOBODY], b"jump\n", 4, b"line 1 refused"),
        ):
            env = PLAIN | {"CUEPLAYER_REMARKS": "1"}
            found = run(*words, stdin=stdin, env=env)
            fault, *remarks = found.err.splitlines()
            self.assertEqual((status, line, 1), (found.status, fault, len(remarks)))


class Refusals(TextsTest):
    """What `play` refuses, in which order; it asks for nothing else."""

    def test_show_comes_first(self):
        """A bad show, and then a bad base, whatever else stands in the way."""
        for show, options, status, err in (
            (BAD_SHOW, ["--base", "63999"], 3, b"show line 2: BadLevel\n"),
            (HIGH, ["--base", "63999"], 2, b"base: Universe\n"),
        ):
            show = self.file("show.asc", show)
            for more in (
                [],
                ["--interface", "no such card"],
                ["--to", "255.255.255.255"],
                ["--to", "9=127.0.0.1"],
            ):
                words = ["play", show, *TO_NOBODY, *options, *more]
                self.assertTells(words, b"x\n", status, err=err)
            words = ["play", show, *TO_NOBODY, *options]
            self.assertTells(words, None, status, err=err, preexec_fn=lambda: os.close(0))
            self.assertTells(words, b"", status, preexec_fn=lambda: os.close(2))

    def test_several_at_once(self):
        """With one CID."""
        show = self.file("show.asc", S1)
        with receiver_socket() as receiver:
            pipe = subprocess.PIPE
            words = [PROGRAM, "play", show, "--to", address_of(receiver), "--cid", CID]
            children = [
                subprocess.Popen(words, stdin=pipe, stdout=pipe, stderr=pipe, env=PLAIN)
                for _ in range(3)
            ]
            for child in children:
                self.addCleanup(child.kill)
                child.stdin.write(b"0 tick\n")
                child.stdin.flush()
                self.assertEqual(b"0 live 1:s0\n", child.stdout.readline())
            for child in children:
                out, err = child.communicate(timeout=60)
                self.assertEqual((0, b"", b""), (child.returncode, out, err))
            self.assertEqual([packet(1, {})] * 3, datagrams_at(receiver))


class Descriptors(TextsTest):
    """No socket gets the descriptor of a closed standard stream."""

    SHOW = S1

    def held(self, *closed):
        """What the first three descriptors of a `play` are that starts without some, and the
        least that is a socket's."""
        pipe = subprocess.PIPE
        words = [PROGRAM, "play", self.show, *TO_NOBODY]

        def close():
            for descriptor in closed:
                os.close(descriptor)

        child = subprocess.Popen(words, stdin=pipe, stdout=pipe, env=PLAIN, preexec_fn=close)
        self.addCleanup(child.wait)
        self.addCleanup(child.kill)
        child.stdin.write(b"0 tick\n")
        child.stdin.flush()
        self.assertEqual(b"0 live 1:s0\n", child.stdout.readline())
        folder = Path(f"/proc/{child.pid}/fd")
        names = {int(each.name): os.readlink(each) for each in folder.iterdir()}
        child.communicate(timeout=60)
        self.assertEqual(0, child.returncode)
        sockets = [number for number, name in names.items() if name.startswith("socket:")]
        return names[2], min(sockets)

    def test_closed_error(self):
        name, least = self.held(2)
        self.assertEqual("/dev/null", name)
        self.assertGreater(least, 2)

    def test_closed_output_and_input(self):
        """They fail as they are asked for: nothing is sent, and nothing is printed."""
        for closed in ([0], [1], [0, 1], [0, 1, 2]):
            with receiver_socket() as receiver:
                words = ["play", self.show, "--to", address_of(receiver), "--cid", CID]
                found = run(
                    *words,
                    stdin=b"0 go\n",
                    preexec_fn=lambda closed=closed: [os.close(each) for each in closed],
                )
                err = b"" if 2 in closed else DEVICE
                self.assertEqual(Outcome(5, b"", err), found, closed)
                self.assertEqual([], datagrams_at(receiver, 0.01))

    def test_listen(self):
        """A closed standard error is no fault of `listen` either."""
        at = "127.0.0.1", free_port()
        words = [PROGRAM, "listen", "{}:{}".format(*at), "1", "1"]
        child = subprocess.Popen(
            words, stdout=subprocess.PIPE, env=PLAIN, preexec_fn=lambda: os.close(2)
        )
        self.addCleanup(child.kill)
        wait_until(lambda: is_bound(*at), "a socket is bound")
        self.assertEqual("/dev/null", os.readlink(f"/proc/{child.pid}/fd/2"))
        with socket.socket(socket.AF_INET, socket.SOCK_DGRAM) as sender:
            sender.sendto(b"", at)
        out, _ = child.communicate(timeout=60)
        self.assertEqual((0, b"1 ignored Unreadable Short\nslots\n"), (child.returncode, out))
