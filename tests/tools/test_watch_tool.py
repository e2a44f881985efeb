"""`tools/watch`: who sends what, at a terminal and elsewhere, on a network of the test's own."""

import os
import random
import re
import resource
import select
import shutil
import signal
import socket
import struct
import subprocess
import sys
import termios
import time
import unittest
from collections import Counter
from contextlib import ExitStack
from fcntl import ioctl
from functools import partial
from itertools import count
from pathlib import Path
from unittest import mock

import inputs
from expected import watch as expected
from floods import Burst
from networks import LIT, PORT, Machine, NetworkTest, Venue
from program import CID, TOP, FolderTest, packet, run, text
from tooling import PATIENCE, TOOLS, Lines, run_tool, stand_still, wait_for
from wire import own_network, terminal

from cueplayer_tools.line_protocol import Refused
from cueplayer_tools.watch.files import Came, Record, Script
from cueplayer_tools.watch.rates import Rates
from cueplayer_tools.watch.state import Watched
from cueplayer_tools.watch.view import left_lines, silent_text, time_text
from cueplayer_tools.watch.words import universes_of

NIGHTS, IN_A_SCRIPT, SEED = 1_000, 100, 1
ON_TRIAL = [1, 2, 7, 63999]
NOBODY = ("0.0.0.0", 0)
TENTH = 100
OTHER = CID[:-1] + "2"
# Bytes that a disk has room for.
LIMIT = 4096
# Seconds of the flood, and kilobytes that it may add to what the tool holds.
SECONDS, GROWTH = 1.5, 24_000


class Universes(unittest.TestCase):
    def test_universes(self):
        self.assertEqual([1], universes_of(["1"]))
        self.assertEqual([3, 4, 5, 1], universes_of(["3-5", "1"]))
        self.assertEqual(list(range(1, 17)), universes_of(["1-16"]))
        for words in (
            ["0"],
            ["64000"],
            ["1-17"],
            ["1", "1"],
            ["2-1"],
            ["x"],
            ["1-63999"],
            ["-1"],
            ["²"],
        ):
            with self.subTest(words), self.assertRaises(Refused):
                universes_of(words)


class Kept(FolderTest):
    """The record and the script of a watch, beside each other."""

    def night(self, r, files, moment):
        """Datagrams by chance, given as the tool gives them; the moment behind them."""
        numbers = {}
        sources = r.sample(inputs.CIDS, r.choice([1, 2, 4, 6]))
        for _ in range(r.choice([5, 20, 40])):
            before, moment = moment, moment + r.choice(inputs.PASSED)
            if before // TENTH != moment // TENTH:
                for each in files:
                    each.clock(moment)
            datagram = inputs.watched_datagram(r, r.choice(sources), numbers, ON_TRIAL) or b"\0"
            for each in files:
                each.datagram(Came(moment, datagram, NOBODY, NOBODY))
        return moment + 2_600

    def rehearse(self, script):
        """What each receiver answered, by its universe: its slots at each look, and what it
        ignored."""
        lines = script.decode().splitlines()
        done = run("rehearse", self.file("a.asc", text("CUE 1")), self.file("a.script", script))
        self.assertEqual((0, b""), (done.status, done.err))
        slots, ignored = {}, Counter()
        for reply in done.out.decode().splitlines():
            number, _, answer = reply.partition(" ")
            if number == "end":
                continue
            moment, event, receiver = lines[int(number) - 1].split()[:3]
            universe = ON_TRIAL[int(receiver)]
            if event == "slots":
                slots[int(moment), universe] = answer
            elif answer.startswith("ignored "):
                ignored[universe, answer.removeprefix("ignored ")] += 1
        return slots, ignored

    def assertAgree(self, record, script):
        slots, ignored = self.rehearse(script)
        words = ["watch", *map(str, ON_TRIAL)]
        done = run(*words, stdin=record)
        self.assertEqual((0, b""), (done.status, done.err))
        told, refused = expected.watch(record, ON_TRIAL)
        self.assertEqual((text(*told), None), (done.out, refused))
        watched = Watched(ON_TRIAL)
        printed = done.out.decode().splitlines()
        for moment in sorted({moment for moment, _ in slots}):
            while printed and int(printed[0].split()[0]) <= moment:
                watched.take(printed.pop(0))
            for number, universe in watched.universes.items():
                self.assertEqual(slots[moment, number], universe.slots_line(), (moment, number))
        for number, universe in watched.universes.items():
            for reason in ("OutOfSequence", "SourcesFull", "Preview"):
                self.assertEqual(
                    ignored[number, reason], universe.ignored[reason], (number, reason)
                )

    def test_script_answers_as_the_watch(self):
        r = random.Random(SEED)
        for turn in range(NIGHTS // IN_A_SCRIPT):
            names = [str(self.folder / f"{turn}.{kind}") for kind in ("lines", "script")]
            files = [Record(names[0], ON_TRIAL, self.fail), Script(names[1], ON_TRIAL, self.fail)]
            moment = 0
            for _ in range(IN_A_SCRIPT):
                moment = self.night(r, files, moment)
            for each in files:
                each.clock(moment)
                each.close()
            self.assertAgree(*(open(name, "rb").read() for name in names))

    def test_full_script(self):
        """A script ends before it would be too long, and is told so once."""
        told, name = [], str(self.folder / "short.script")
        with mock.patch("cueplayer_tools.watch.files.LONGEST_SCRIPT", 4000):
            script = Script(name, ON_TRIAL, told.append)
            for number in range(5):
                script.clock(100 * number)
                came = Came(100 * number, packet(1, {1: 1}, number), NOBODY, NOBODY)
                script.datagram(came)
            script.close()
        self.assertEqual(1, len(told))
        self.assertRegex(told[0], r"short\.script is full: a script has at most 16 MiB$")
        with open(name, "rb") as kept:
            slots, _ = self.rehearse(kept.read())
        self.assertEqual("slots 1:1", slots[200, 1])

    def test_files_that_are_there(self):
        """A file is never written over, and a script has at most eight receivers."""
        name = str(self.file("there", b"kept"))
        for words in (["--record", name], ["--script", name]):
            done = run_tool("watch", "1", "--port", "0", "--interface", "lo", *words)
            self.assertEqual(2, done.returncode)
            self.assertIn("File exists", done.stderr)
        done = run_tool("watch", "1-9", "--port", "0", "--interface", "lo", "--script", name + "2")
        told = "watch: --script: a script has at most 8 receivers\n"
        self.assertEqual((2, told), (done.returncode, done.stderr))


class State(unittest.TestCase):
    """What is known, by lines of `watch`."""

    def test_flash(self):
        """A slot that changes and comes back within a second; one that comes back later is
        none."""
        watched = Watched([1])
        told = [watched.take(f"{moment} 1 slots{slots}") for moment, slots in (
            (100, " 1:5 2:9"), (1000, " 1:255 2:9"), (2000, " 1:5 2:9"), (3000, " 1:5"),
            (4001, " 1:5 2:9"),
        )]  # fmt: skip
        self.assertEqual([[], [], ["2000 1 flash 1"], [], []], told)
        self.assertTrue(watched.universes[1].has_flashed(1, 4999))
        self.assertFalse(watched.universes[1].has_flashed(1, 5000))

    def test_sources(self):
        watched = Watched([1])
        for line in (f"5 1 source main a {CID} priority 100", f"5 1 source  {OTHER} priority 101",
                     f"6 1 lost main a {CID} 3", f"7 1 lost main a {CID} 4",
                     "8 0 ignored Unreadable Short 2", "9 1 ignored OutOfSequence 2",
                     "9 1 ignored OutOfSequence 3"):  # fmt: skip
            watched.take(line)
        universe = watched.universes[1]
        self.assertEqual(("main a", 100, 7), tuple(vars(universe.sources[CID]).values()))
        self.assertEqual([False, True], [universe.leads(cid) for cid in (CID, OTHER)])
        self.assertEqual(
            (2, 5), (watched.ignored["Unreadable Short"], universe.ignored["OutOfSequence"])
        )
        watched.take(f"9 1 ended  {OTHER}")
        self.assertEqual([CID], list(universe.sources))
        self.assertTrue(universe.leads(CID))

    def test_sources_that_have_left(self):
        """The last four are named, the latest first, until they come again; and so is a universe
        without any."""
        watched = Watched([1, 2])
        cids = [f"{CID[:-1]}{n}" for n in range(6)]
        for n, cid in enumerate(cids):
            watched.take(f"{n} 1 source main {n} {cid} priority 100")
            watched.take(f"{1000 * n} 1 {'ended' if n % 2 else 'gone'} main {n} {cid}")
        watched.take(f"3700000 1 gone main 9 {OTHER[:-1]}f")
        told = left_lines(watched.universes[1], Rates(), watched.moment)
        self.assertEqual(
            [f"- {f'main {n}':24}  100 {f'{word} 1 h ago':13} {'':15}  {cids[n]}"
             for n, word in ((5, "ended"), (4, "gone"), (3, "ended"), (2, "gone"))],
            told,
        )  # fmt: skip
        self.assertEqual("   nobody on 1 2", silent_text(watched))
        watched.take(f"3700000 1 source main 3 {cids[3]} priority 100")
        self.assertNotIn(
            cids[3], " ".join(left_lines(watched.universes[1], Rates(), watched.moment))
        )
        self.assertEqual("   nobody on 2", silent_text(watched))
        self.assertEqual(
            ["0 s", "59 s", "1 min", "59 min", "1 h"],
            [time_text(t) for t in (999, 59_999, 60_000, 3_599_999, 3_600_000)],
        )


class ToolTest(NetworkTest, FolderTest):
    """With a machine of the test's own, on which the tool and a sender run."""

    def setUp(self):
        super().setUp()
        kept = ExitStack()
        self.addCleanup(kept.close)
        self.machine = Machine(kept)
        self.machine.ip("link set lo multicast on", "route add 239.0.0.0/8 dev lo")
        self.sender = self.machine.within(lambda: socket.socket(socket.AF_INET, socket.SOCK_DGRAM))
        self.addCleanup(self.sender.close)

    def start(self, machine, *words, **options):
        """The tool on a machine, once it has its socket."""
        before = sockets(machine)
        words = machine.words(sys.executable, TOOLS / "watch", *words)
        child = subprocess.Popen(words, **options)
        self.addCleanup(child.wait)
        self.addCleanup(child.kill)
        wait_for(
            lambda: sockets(machine) > before or child.poll() is not None,
            "the tool has its socket",
        )
        return child

    def lines(self, *words, **options):
        """The tool without a screen: the process, and its lines as they come."""
        pipes = dict.fromkeys(("stdout", "stderr"), subprocess.PIPE)
        child = self.start(self.machine, *words, text=True, **pipes, **options)
        return child, Lines(child.stdout), Lines(child.stderr)

    def send(self, *datagrams, to="239.255.0.1"):
        for datagram in datagrams:
            self.sender.sendto(datagram, (to, PORT))


def sockets(machine):
    """How many sockets of a machine are at the port of streaming ACN."""
    return machine.within(Path("/proc/thread-self/net/udp").read_text).count(":15C0 ")


def interrupt(machine, child):
    """Control-C for the tool, once it has taken what has come."""
    taken = re.compile(r":15C0 \S+ \S+ \w+:00000000 ")

    def is_taken():
        text = machine.within(Path("/proc/thread-self/net/udp").read_text)
        return len(taken.findall(text)) == text.count(":15C0 ")

    wait_for(is_taken, "the tool has taken what has come")
    child.send_signal(signal.SIGINT)


class InLines(ToolTest):
    """The tool where standard output is no terminal."""

    def test_lines(self):
        """What the program says, as it says it; control-C prints the last slots."""
        child, out, err = self.lines("1", "2")
        self.send(packet(1, {1: 64}), packet(2, {5: 9}))
        self.assertTrue(out.find(rf"\d+ 1 leads cueplayer {CID}$"))
        self.send(packet(2, {5: 9}, 1), to="127.0.0.1")
        self.assertTrue(out.find(r"\d+ 1 slots 1:64$"))
        child.send_signal(signal.SIGINT)
        rest = out.rest()
        self.assertEqual((0, []), (child.wait(PATIENCE), err.rest()))
        self.assertEqual(
            ["1 slots 1:64", "2 slots 5:9"], [line.partition(" ")[2] for line in rest[-2:]]
        )

    def test_other_groups(self):
        """A group that another program of the machine has joined is not meant."""
        with self.machine.within(
            lambda: socket.socket(socket.AF_INET, socket.SOCK_DGRAM)
        ) as other:
            group = socket.inet_aton("239.255.0.3") + socket.inet_aton("127.0.0.1")
            other.setsockopt(socket.IPPROTO_IP, socket.IP_ADD_MEMBERSHIP, group)
            child, out, _ = self.lines("1", "--interface", "lo")
            self.send(packet(3, {1: 1}), to="239.255.0.3")
            self.send(packet(1, {1: 2}))
            self.assertTrue(out.find(r"\d+ 1 slots 1:2$"))
            child.send_signal(signal.SIGINT)
            self.assertNotIn("OtherUniverse", " ".join(out.rest()))

    def test_two_at_once(self):
        """Two watches hear the same group."""
        each = [self.lines("1"), self.lines("1", "--interface", "127.0.0.1")]
        self.send(packet(1, {7: 7}))
        for _, out, _ in each:
            self.assertTrue(out.find(r"\d+ 1 slots 7:7$"))

    def test_what_is_no_level(self):
        """Discovery, synchronization and priorities of slots, named as what they are."""
        per_address = bytearray(packet(1, {1: 100}))
        per_address[125] = 0xDD
        extended = [bytearray(packet(1, {})) for _ in range(2)]
        for each, kind in zip(extended, (1, 2)):
            each[21], each[43] = 8, kind
        child, out, _ = self.lines("1")
        self.send(per_address, *extended, b"", b"\x1b[2J")
        self.send(extended[1], to="239.255.250.214")
        found = {}
        while len(found) < 4:
            line = out.find(r"\d+ (\d+ ignored .*) (\d+)$")
            found[line[1]] = found.get(line[1], 0) + int(line[2])
        self.assertEqual({
            "1 ignored PerAddressPriority": 1, "0 ignored Synchronization": 1,
            "0 ignored Discovery": 2,
            "0 ignored Unreadable Short": 2,
        }, found)  # fmt: skip

    def test_once(self):
        """Who sends what, after some time or control-C."""
        done = run_tool("watch", "1", "--port", "0", "--interface", "lo", "--once", "0.2")
        self.assertEqual((0, "universe 1"), (done.returncode, done.stdout.splitlines()[0]))
        child, out, err = self.lines("1", "2", "--once", "600")
        for number in range(20):
            self.send(packet(1, {1: 64}, 2 * number, name="main"))
            self.send(packet(1, {1: 9}, number, priority=99, cid=OTHER))
        interrupt(self.machine, child)
        told = out.rest()
        self.assertEqual((0, []), (child.wait(PATIENCE), err.rest()))
        sources = "\n".join(told)
        self.assertRegex(sources, rf"(?m)^> main +100 +[1-9]\d* +19  \S+ +{CID}$")
        self.assertRegex(sources, rf"(?m)^  cueplayer +99 +[1-9]\d* +0  \S+ +{OTHER}$")
        self.assertIn("slots 1:64", told)
        self.assertIn("of no universe: nothing; dropped by this machine: 0", told)

    def test_record(self):
        """The program says of the record what it said of the night."""
        name = str(self.folder / "night.lines")
        child, out, _ = self.lines("1", "2", "--record", name)
        self.send(packet(1, {1: 64}), packet(2, {1: 3}), b"", packet(1, {1: 65}, 3))
        told = [out.find(r".* 1 slots 1:65$").string]
        child.send_signal(signal.SIGINT)
        child.wait(PATIENCE)
        with open(name, "rb") as record:
            lines = record.read()
        self.assertEqual(b"! cueplayer watch 1 2 <FILE\n", lines[:28])
        said = run("watch", "1", "2", stdin=lines)
        self.assertEqual(0, said.status)
        self.assertIn(told[0], said.out.decode().splitlines())

    def test_record_on_a_full_disk(self):
        """It is told once where the record ends, and the watch goes on."""
        name = str(self.folder / "night.lines")
        limit = partial(resource.setrlimit, resource.RLIMIT_FSIZE, (LIMIT, LIMIT))
        child, out, err = self.lines("1", "--record", name, preexec_fn=limit)
        for number in range(10):
            self.send(packet(1, {1: 1}, number))
        self.assertTrue(err.find(r"watch: .*night\.lines ends here: File too large$"))
        self.send(packet(1, {1: 2}, 10))
        self.assertTrue(out.find(r"\d+ 1 slots 1:2$"))
        child.send_signal(signal.SIGINT)
        self.assertEqual((0, []), (child.wait(PATIENCE), err.rest()))
        self.assertEqual(LIMIT, os.path.getsize(name))

    def test_dropped(self):
        """What the machine had no room for while the tool stood still is told."""
        child, out, _ = self.lines("1")
        stand_still(child.pid)
        burst = Burst([(packet(1, {}), ("239.255.0.1", PORT))] * 1000)
        for _ in range(20):
            burst.send(self.sender, 0, len(burst))
        child.send_signal(signal.SIGCONT)
        self.assertTrue(out.find(r"\d+ 0 dropped [1-9]\d*$"))

    def test_what_cannot_be_watched(self):
        for words, told in (
            (["1", "--interface", "none9"], "watch: no network card none9: there are lo"),
            (
                ["1", "--interface", "192.0.2.1"],
                "watch: no network card has the address 192.0.2.1",
            ),
            (["0"], "watch: a universe is a number from 1 to 63999: 0"),
        ):
            with self.subTest(words):
                done = subprocess.run(
                    self.machine.words(sys.executable, TOOLS / "watch", *words),
                    capture_output=True, text=True, timeout=PATIENCE,
                )  # fmt: skip
                self.assertEqual((2, told + "\n"), (done.returncode, done.stderr))

    def test_no_card(self):
        """Where no route leads to the groups, what is sent to the machine is watched all the
        same."""
        with ExitStack() as kept:
            machine = Machine(kept)
            child = self.start(machine, "1", stdout=subprocess.PIPE, stderr=subprocess.PIPE)
            with machine.within(
                lambda: socket.socket(socket.AF_INET, socket.SOCK_DGRAM)
            ) as sender:
                sender.sendto(packet(1, {1: 7}), ("127.0.0.1", PORT))
            interrupt(machine, child)
            out, err = child.communicate(timeout=PATIENCE)
        self.assertEqual(
            "watch: cannot join 239.255.0.1: No such device; only unicast is heard: name a "
            "network card by "
            "--interface\n", err.decode())  # fmt: skip
        self.assertIn("slots 1:7", out.decode())

    def test_reader_that_has_gone(self):
        """The tool ends, and has nothing to say."""
        reader, writer = os.pipe()
        child = self.start(self.machine, "1", stdout=writer, stderr=subprocess.PIPE)
        os.close(writer)
        os.close(reader)
        self.send(*(packet(1, {1: n}, n) for n in range(3)))
        self.assertEqual(b"", child.communicate(timeout=PATIENCE)[1])
        self.assertEqual(0, child.returncode)

    def test_program_that_ends(self):
        """A program behind the tool that is killed is told, and the tool ends."""
        child, out, err = self.lines("1")
        (running,) = open(f"/proc/{child.pid}/task/{child.pid}/children").read().split()
        os.kill(int(running), signal.SIGKILL)
        self.assertEqual(1, child.wait(PATIENCE))
        self.assertIn("watch: cueplayer watch ended by itself", err.rest()[-1])


class TerminalTest(ToolTest):
    """With a terminal."""

    def setUp(self):
        super().setUp()
        self.master, slave = terminal(self)
        self.addCleanup(os.close, self.master)
        ioctl(slave, termios.TIOCSWINSZ, struct.pack("4H", 24, 100, 0, 0))
        self.before = termios.tcgetattr(slave)
        self.slave = slave
        self.addCleanup(os.close, slave)
        self.shown = ""

    def begin(self, *words):
        child = self.start(
            self.machine, *words, stdin=self.slave, stdout=self.slave, stderr=self.slave
        )
        self.wait_for("q: quit")
        return child

    def look(self):
        """The latest whole picture, without what styles it."""
        while select.select([self.master], [], [], 0)[0]:
            self.shown += os.read(self.master, 1 << 16).decode("latin-1")
        frames = self.shown.split("\x1b[H")
        self.shown = "\x1b[H".join(frames[-2:])
        whole = frames[-1] if frames[-1].endswith("\x1b[J") or len(frames) < 2 else frames[-2]
        return re.sub(r"\x1b\[[?0-9]*[a-zA-Z]|\r", "", whole)

    def wait_for(self, text):
        return wait_for(
            lambda: text in (picture := self.look()) and picture, f"the screen shows {text!r}"
        )

    def key(self, *keys):
        for key in keys:
            os.write(self.master, key.encode())

    def wait_for_end(self, text):
        """Waits until this stands behind the last picture."""
        wait_for(
            lambda: self.look() is not None and text in self.shown.rpartition("\x1b[?1049l")[2],
            text,
        )


def seconds_shown(picture):
    """The time in the first line of a screen."""
    return float(re.search(r"   (\d+\.\d) s ", picture)[1])


class Screen(TerminalTest):
    """The tool at a terminal."""

    def test_screen(self):
        child = self.begin("1", "2")
        self.assertIn("universe 1 (1 of 2)", self.look())
        self.send(
            packet(1, {1: 64, 20: 255}, name="main"), packet(2, {512: 7}, cid=OTHER, priority=150)
        )
        picture = self.wait_for("64")
        self.assertRegex(picture, rf"(?m)^> main +100 .* {CID}")
        self.assertRegex(picture, r"(?m)^  1  64 +\. .* 255 *$")
        self.key("2", "0")
        self.assertRegex(self.wait_for("20_"), r"(?m)^20_   n p, 3u: universe ")
        self.key("m")
        self.wait_for("marked: 20=255")
        self.key("2", "u")
        picture = self.wait_for("universe 2 (2 of 2)")
        self.assertRegex(picture, r"(?m)^> cueplayer +150 ")
        self.assertNotIn("=255", picture)
        self.assertNotIn("  7 ", picture)
        self.key(*["\x1b[B"] * 40)
        self.wait_for("  7 ")
        self.key("p", "f")
        self.wait_for("FROZEN")
        self.send(packet(1, {1: 65}, 1))
        self.key("n")
        self.wait_for("universe 2 (2 of 2)   FROZEN")
        self.key("p")
        self.assertRegex(self.wait_for("universe 1 (1 of 2)   FROZEN"), r"(?m)^  1  64 ")
        self.key("f")
        self.assertNotIn("FROZEN", self.wait_for(" 65 "))
        self.key("q")
        self.assertEqual(0, child.wait(PATIENCE))
        self.wait_for_end("1 slots 1:65")
        self.assertEqual(self.before, termios.tcgetattr(self.slave))

    def test_source_that_falls_silent(self):
        """A source that falls silent stays on the screen, with how long it is gone, and universes
        without a source are named."""
        self.begin("1", "2")
        self.wait_for("nobody on 1 2")
        self.send(
            packet(1, {1: 64}, name="main"),
            packet(1, {1: 65}, priority=99, cid=OTHER, name="backup"),
        )
        self.wait_for("nobody on 2")
        self.send(packet(1, {1: 65}, 1, priority=99, cid=OTHER, name="backup", options=0x40))
        self.assertRegex(
            self.wait_for("- backup"), rf"(?m)^- backup +99 ended \d s ago +\S+ +{OTHER}$"
        )
        self.assertRegex(self.wait_for("- main"), rf"(?m)^- main +100 gone \d s ago +\S+ +{CID}$")
        self.wait_for("nobody on 1 2")
        self.send(packet(1, {1: 64}, 1, name="main"))
        self.assertNotIn("- main", self.wait_for("> main"))

    def test_flash_is_marked(self):
        self.begin("1")
        for number, level in enumerate((5, 255, 5)):
            self.send(packet(1, {3: level}, number))
            self.wait_for(f"{level:3}")
        self.wait_for("5*")

    def test_clock_goes_on(self):
        """Where nothing changes, the time does, and the mark of a flash goes after three
        seconds."""
        self.begin("1")
        for number, level in enumerate((5, 255, 5)):
            self.send(packet(1, {3: level}, number))
            self.wait_for(f"{level:3}")
        began = seconds_shown(self.wait_for("  5*"))
        numbers = count(3)

        def without_mark():
            self.send(packet(1, {3: 5}, next(numbers) % 256))
            return "  5 " in (picture := self.look()) and picture

        self.assertGreater(seconds_shown(wait_for(without_mark, "the mark goes")), began + 2.5)

    def test_control_c(self):
        """The terminal is as it was, and the last slots stand on it."""
        child = self.begin("1")
        self.send(packet(1, {1: 64}))
        self.wait_for(" 64")
        child.send_signal(signal.SIGINT)
        self.assertEqual(0, child.wait(PATIENCE))
        self.wait_for_end("1 slots 1:64")
        self.assertEqual(self.before, termios.tcgetattr(self.slave))

    def test_names_do_no_harm(self):
        """A name that would write to the terminal is shown with a ? for each such byte."""
        self.begin("1")
        sent = bytearray(packet(1, {1: 64}))
        sent[44:60] = b"\x1b]0;bad\x07\x1b[2J\x9b5m"[:16].ljust(16, b"\0")
        self.send(sent)
        self.wait_for("?]0;bad??[2J?5m")
        for hostile in ("\x1b]0", "\x07", "\x9b", "\x1b[2J"):
            self.assertNotIn(hostile, self.shown)

    def test_narrow(self):
        """Whatever size the terminal has, a line is no longer than it."""
        for rows, columns in ((24, 80), (5, 20), (60, 300), (1, 1)):
            ioctl(self.slave, termios.TIOCSWINSZ, struct.pack("4H", rows, columns, 0, 0))
            child = self.start(
                self.machine, "1", stdin=self.slave, stdout=self.slave, stderr=self.slave
            )
            self.key("n", "\x1b[B", "9", "m")
            self.wait_for("u")
            self.key("q")
            self.assertEqual(0, child.wait(PATIENCE))
            self.shown = ""


class Flood(TerminalTest):
    """Four sources and strangers, as fast as a sender sends, for a second or two."""

    def test_flood(self):
        """Four sources and strangers of 200 CIDs as fast as they can be sent: the screen goes on,
        memory is bounded, and what the system dropped is told."""
        child = self.begin("1", "2")
        self.send(packet(1, {1: 64}))
        self.wait_for(" 64")
        sources = [f"{CID[:-2]}{n:02x}" for n in range(200)]
        made = [packet(1, {2: n}, n, cid=cid) for n in range(256) for cid in sources[:4]]
        made += [packet(9, {1: 1}, cid=cid) for cid in sources]
        made += [packet(1, {3: 3}, cid=cid) for cid in sources]
        made += [os.urandom(n) for n in range(200)] + [packet(1, {})[:n] for n in range(0, 638, 7)]
        burst = Burst([(each, ("239.255.0.1", PORT)) for each in made])
        before, frames, sent = memory(child.pid), 0, 0
        until = time.monotonic() + SECONDS
        while time.monotonic() < until:
            burst.send(self.sender, 0, len(burst))
            sent += len(burst)
            while select.select([self.master], [], [], 0)[0]:
                frames += os.read(self.master, 1 << 16).count(b"\x1b[H")
        print(f"    {sent / SECONDS:,.0f} datagrams a second, {frames} pictures")
        self.assertGreater(frames, 2)
        self.send(packet(1, {9: 99}, 200, priority=200, cid=OTHER))
        self.assertLess(memory(child.pid), before + GROWTH)
        self.key("q")
        self.assertEqual(0, child.wait(PATIENCE))


def memory(pid):
    """Kilobytes that a process and those that it started hold."""
    status = open(f"/proc/{pid}/status").read()
    held = int(re.search(r"VmRSS:\s+(\d+)", status)[1])
    children = open(f"/proc/{pid}/task/{pid}/children").read().split()
    return held + sum(map(memory, children))


class OnTheStage(ToolTest):
    """A console and nodes, each a machine of its own with cables between them."""

    def test_card_of_the_nodes(self):
        """What `play` sends to the groups by a card is seen behind that card, and not
        elsewhere."""
        with ExitStack() as kept:
            venue = Venue(kept)
            for node in (venue.stage, venue.office):
                node.refuse()
            show = self.file("a.asc", text("CUE 1", "UP 0", "CHAN 1@H80", "PATCH 1 1<1@FL"))
            pipes = dict.fromkeys(("stdout", "stderr"), subprocess.PIPE)
            words = ["1", "--interface", "port", "--once", "600"]
            stage, office = (
                self.start(node, *words, text=True, **pipes)
                for node in (venue.stage, venue.office)
            )
            play = [
                "play",
                show,
                "--to",
                "239.255.0.0",
                "--cid",
                CID,
                "--interface",
                "lit",
                "--any-route",
            ]
            lines = b"0 go\n" + b"".join(b"%d tick\n" % moment for moment in range(0, 200, 25))
            self.assertEqual(0, venue.run(*play, stdin=lines).returncode)
            for node, child in ((venue.stage, stage), (venue.office, office)):
                interrupt(node, child)
            seen, unseen = (child.communicate(timeout=PATIENCE)[0] for child in (stage, office))
            self.assertRegex(seen, rf"(?m)^> cueplayer +100 +\d+ +0  {re.escape(LIT)} +{CID}$")
            self.assertIn("\nslots 1:128\n", seen)
            self.assertIn("\nslots\n", unseen)
            self.assertNotIn(CID, unseen)


class Others(unittest.TestCase):
    """What the programs of other makers send."""

    def source_lines(self, peer, *tools):
        """The source and a level of it, as the tool told them."""
        if missing := [each for each in (*tools, "ip") if not shutil.which(each)]:
            self.skipTest(f"not there: {', '.join(missing)}")
        if os.geteuid() != 0:
            self.skipTest("only root can give it a network of its own")
        words = [*own_network(self), sys.executable, TOP / "tests/watched_peer.py", peer]
        done = subprocess.run(words, capture_output=True, text=True, timeout=4 * PATIENCE)
        self.assertEqual((0, ""), (done.returncode, done.stderr))
        return done.stdout.splitlines()

    def test_open_lighting(self):
        source, slots = self.source_lines("ola", "olad", "ola_dev_info", "ola_patch", "setpriv")
        self.assertRegex(source, r"^\d+ 1 source .*OLA.* [0-9a-f-]{36} priority 100$")
        self.assertRegex(slots, r"^\d+ 1 slots 1:200$")

    def test_qlcplus(self):
        source, slots = self.source_lines("qlcplus", "qlcplus")
        self.assertRegex(
            source, r"^\d+ 1001 source Q Light Controller.* [0-9a-f-]{36} priority 100$"
        )
        self.assertRegex(slots, r"^\d+ 1001 slots 1:200$")
