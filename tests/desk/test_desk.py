"""`tools/desk`: its page over HTTP, and the light that it moves."""

import contextlib
import itertools
import json
import os
import random
import re
import signal
import socket
import subprocess
import sys
import time
import unittest
import uuid
from pathlib import Path
from unittest import mock

from bad_night import children
from desks import NO_WATCH, SHOW, DeskTest, Page, watches
from machine import in_time, took
from osc_messages import GREATEST_DOUBLE, message
from program import CID, behind_head, packet, text
from tooling import PATIENCE, TOOLS, Started, run_tool, wait_for
from wire import OPTIONS, TERMINATED, free_port, own_network

from cueplayer_tools.cue_list import read_show
from cueplayer_tools.desk import night as desk_night
from cueplayer_tools.live_lines import read_live_line
from cueplayer_tools.teller import Teller


class Playback(DeskTest):
    def test_go_moves_light(self):
        _, page = self.open_desk()
        self.assertEqual(204, page.command("go"))
        page.wait(current="1", next="1.5", waiting=0)
        self.wait_for_level(128)

    def test_state(self):
        """All of it comes from what `live` answers, in its own words."""
        _, page = self.open_desk()
        kinds = ("number", "name", "up", "down")
        cues = [tuple(cue[kind] for kind in kinds) for cue in page.newest["show"]["cues"]]
        cut, up, down = ({"time": time, "delay": delay} for time, delay in
                         ((0, 0), (2000, 1000), (1000, 0)))
        names = ("one", "half past", "two <b>s")
        expected = [
            ("1", names[0], cut, cut),
            ("1.5", names[1], up, down),
            ("2", names[2], cut, cut),
        ]
        self.assertEqual(expected, cues)
        faders = [{"line": "sub 1", "name": "all"}, {"line": "group 3", "name": ""}]
        self.assertEqual(faders, page.newest["show"]["faders"])
        page.wait(current=None, next="1", fade=None, grand=255, masters={})
        page.command("goto 1.50")
        state = page.wait(current="1.5", next="2")
        self.assertEqual(3000, state["fade"]["whole"])
        self.assertLess(state["fade"]["elapsed"], 3000)
        page.command("go")
        page.wait(current="2", next=None)
        page.command("BACK")
        page.wait(current="1.5", next="2")
        page.command("goto 2 in 0:08")
        self.assertEqual(8000, page.wait(current="2", next=None)["fade"]["whole"])
        for line in ("sub 1 50", "group 3 FL", "master H40", "master 0"):
            page.command(line)
        page.wait(masters={"sub 1": 128, "group 3": 255}, grand=0, lit_grand=64)

    def test_refused(self):
        """What `live` refuses is told to all pages, until a move is accepted."""
        _, page = self.open_desk()
        for line in ("back", "goto 7", "sub 9 FL"):
            self.assertEqual(204, page.command(line))
        told = ["back: refused, AtStart", "goto 7: refused, NoCue", "sub 9 HFF: refused, NoSub"]
        wait_for(lambda: page.notices() == told, told)
        page.wait(current=None)
        page.command("go")
        page.wait(current="1", notices=[])

    def test_no_command(self):
        """What is no command never comes to `live`, and is told."""
        _, page = self.open_desk()
        for line in ("jump", "tick", "go\ngo", "5 go", "goto 0", "sub 1 101", "", "go ! \xe9"):
            self.assertEqual(409, page.command(line), line)
        page.command("go")
        page.wait(current="1")
        self.assertEqual((), tuple(page.notices()))
        self.assertEqual(409, page.command("x" * 200))
        wait_for(lambda: page.notices(), "a notice")
        self.assertEqual("x" * 40 + "..: not a command: " + "x" * 80 + "..", page.notices()[0])

    def test_two_pages(self):
        """Two pages show the same, and one that is opened again shows it at once."""
        _, address = self.begin()
        one, two = Page(self, address), Page(self, address)
        one.wait(placed=True)
        one.command("go")
        two.wait(current="1")
        two.command("sub 1 FL")
        one.wait(current="1", masters={"sub 1": 255})
        one.close()
        two.command("go")
        again = Page(self, address)
        again.wait(current="1.5", masters={"sub 1": 255})

    def test_page_that_never_reads(self):
        """A page that never reads delays neither the light nor other pages."""
        _, address = self.begin()
        page = Page(self, address)
        host, port = page.host.split(":")
        with socket.create_connection((host, int(port))) as lazy:
            lazy.setsockopt(socket.SOL_SOCKET, socket.SO_RCVBUF, 1024)
            lazy.sendall(f"GET {page.path}events HTTP/1.1\r\nHost: {page.host}\r\n\r\n".encode())
            for turn in range(300):
                self.assertEqual(204, page.command(f"sub 1 H{turn % 256:02X}"))
            page.wait(masters={"sub 1": 299 - 256})
            page.command("go")
            page.wait(current="1")

    def test_lost_packets(self):
        _, page = self.open_desk(to="255.255.255.255:9")
        wait_for(lambda: page.state.get("lost", {}).get("count", 0) > 2, "lost packets")
        self.assertEqual(1, page.state["lost"]["universe"])
        page.command("go")
        page.wait(current="1")

    def test_follow_on(self):
        """A cue that follows by itself is current when its time is over, and not before."""
        lines = ("CUE 1", "FOLLOWON 3", "CUE 2", "UP 3", "CHAN 1@FL", "PATCH 1 1<1@FL")
        self.show.write_bytes(text(*lines))
        _, page = self.open_desk()
        pressed = time.monotonic()
        page.command("go")
        follow = page.wait(current="1", next="2")["follow"]
        self.assertEqual(3000, follow["whole"])
        self.assertLess(follow["elapsed"], 3000)
        time.sleep(1)
        current = page.state["current"]
        if took(pressed).ms < 3000:
            self.assertEqual("1", current)
        fade = page.wait(current="2", next=None, follow=None)["fade"]
        self.assertGreaterEqual(took(pressed).ms, 3000)
        self.assertEqual(3000, fade["whole"])
        self.wait_for_level(255)

    def test_lines_of_another(self):
        """What somebody else hands to the same `live` is shown, as if it had been pressed here."""
        desk, page = self.open_desk()
        page.command("sub 1 10")
        page.wait(masters={"sub 1": 26})
        with open(f"/proc/{desk.live}/fd/0", "wb", buffering=0) as other:
            other.write(b"sub 1 0\ngroup 3 50\nmaster H40\ngoto 1.5\n")
        page.wait(current="1.5", next="2", masters={"group 3": 128}, grand=64, lit_grand=64)
        page.command("go")
        page.wait(current="2", notices=[], late=False)


class Ends(DeskTest):
    def test_end(self):
        """`end` tells receivers, and the page says that the night has ended."""
        desk, page = self.open_desk()
        page.command("end")
        page.wait(ending=True, status=0)
        ends = [bool(each[OPTIONS] & TERMINATED) for each in self.came()]
        self.assertEqual([False, True, True, True], ends[-4:])
        self.assertEqual(409, page.command("go"))
        desk.err.find("desk: live has ended with status 0$")
        again = Page(self, page.origin + page.path)
        again.wait(status=0)
        desk.process.send_signal(signal.SIGINT)
        self.assertEqual(0, desk.process.wait(PATIENCE))

    def test_live_that_dies(self):
        """The page says so at once."""
        desk, page = self.open_desk()
        os.kill(desk.live, signal.SIGKILL)
        before = time.monotonic()
        page.wait(status=-signal.SIGKILL)
        in_time(took(before), 10_000, "the page")

    def test_control_c(self):
        """At the first the night goes on; the second ends it, and tells receivers."""
        desk, page = self.open_desk()
        desk.process.send_signal(signal.SIGINT)
        desk.err.find("desk: the night goes on")
        page.command("go")
        page.wait(current="1")
        desk.process.send_signal(signal.SIGHUP)
        page.command("go")
        page.wait(current="1.5")
        desk.process.send_signal(signal.SIGINT)
        try:
            desk.process.wait(1.5)
        except Exception:  # the first press was too long ago, as on a busy machine
            desk.process.send_signal(signal.SIGINT)
        self.assertEqual(0, desk.process.wait(PATIENCE))
        self.assertTrue(self.came()[-1][OPTIONS] & TERMINATED)

    def test_presses_while_it_ends(self):
        """However often control-C is pressed, the desk leaves with the status of the night."""
        desk, _ = self.open_desk()
        until = time.monotonic() + PATIENCE
        while desk.process.poll() is None and time.monotonic() < until:
            desk.process.send_signal(signal.SIGINT)
            time.sleep(0.001)
        self.assertEqual(0, desk.process.wait(PATIENCE))
        self.assertTrue(self.came()[-1][OPTIONS] & TERMINATED)

    def test_terminated(self):
        desk, _ = self.open_desk()
        desk.process.terminate()
        self.assertEqual(0, desk.process.wait(PATIENCE))
        self.assertTrue(self.came()[-1][OPTIONS] & TERMINATED)

    def test_desk_that_dies(self):
        """A desk that is killed: the light stays as it is, and nobody sends beside it under its
        name."""
        desk, page = self.open_desk()
        page.command("sub 1 50")
        self.wait_for_level(128)
        live = desk.live
        desk.process.kill()
        desk.process.wait()
        time.sleep(0.3)
        self.came()
        self.assertEqual({128}, wait_for(self.shown_levels, "light"))
        again = run_tool("desk", self.show, "--to", self.to, "--cid", self.cid.upper())
        told = f"desk: process {live} plays live under this CID already: `kill {live}` ends it; "
        told += "then the same command with --resume goes on where it was\n"
        self.assertEqual((1, told), (again.returncode, again.stderr))

    def test_before_the_night(self):
        """What cannot begin is told, with the status of `live` where it has one."""
        def run_desk(*words):
            done = run_tool("desk", *words)
            return done.returncode, re.sub("desk: console .*\n", "", done.stderr)

        usual = ("--to", self.to, "--cid", self.cid)
        over = "desk: live has ended with status 2\n"
        remark = "desk: live: --priority `201`: a priority is a number from 0 to 200\n"
        self.assertEqual((2, "desk: live: words refused\n" + remark + over),
                         run_desk(self.show, *usual, "--priority", 201))
        self.assertEqual((1, "desk: not an IPv4 address: 'x'\n"), run_desk(self.show, "--to", "x"))
        with socket.create_server(("127.0.0.1", 0)) as taken:
            port = taken.getsockname()[1]
            self.assertEqual((1, "desk: cannot start: Address already in use\n"),
                             run_desk(self.show, *usual, "--port", port))
        self.show.write_bytes(text("PATCH 1 1<513@FL"))
        remark = "desk: live: the base, and the show's universes after it, are 1 to 63999\n"
        self.assertEqual((2, "desk: live: base: Universe\n" + remark + over),
                         run_desk(self.show, *usual, "--base", 63999))
        self.show.write_bytes(text("CUE x"))
        remark = "`CUE x`: a number is 1 to 9 digits; a cue's is 0.001 to 9999.999, as 2.5\n"
        told = "desk: show line 1: BadNumber\n" + remark
        self.assertEqual((1, told), run_desk(self.show, *usual))
        self.assertEqual(set(), self.shown_levels())

    def test_record(self):
        """The record is that of `live`, and so is what is kept of its replies."""
        record, replies = self.folder / "night.play", self.folder / "night.replies"
        desk, page = self.open_desk("--record", record, "--replies", replies)
        page.command("back")
        wait_for(page.notices, "the refusal")
        page.command("go")
        page.wait(current="1")
        desk.process.terminate()
        desk.process.wait(PATIENCE)
        lines = [line.split()[1:] for line in behind_head(record.read_bytes())]
        commands = [line for line in lines if line != ["tick"]]
        self.assertEqual([["back"], ["go"], ["master", "0"], ["end"]], commands)
        told = [line.partition(" ")[2] for line in replies.read_text().splitlines()]
        # The end of a night has two replies.
        moved = ["where next 1 master 255", "refused AtStart", "ok", "cue 1"]
        self.assertEqual([*moved, "ok", "ok"], told)
        again = run_tool("desk", self.show, "--to", self.to, "--replies", replies)
        self.assertEqual(2, again.returncode)


class Beside(DeskTest):
    def test_osc(self):
        """Open Sound Control goes to the same night; what is refused of it is told by the page."""
        _, page = self.open_desk("--osc", 0)
        host, port = page.newest["show"]["osc"].split(":")
        with socket.socket(socket.AF_INET, socket.SOCK_DGRAM) as sender:
            sender.connect((host, int(port)))
            sender.send(message("/cueplayer/go", 1.0))
            sender.send(message("/cueplayer/go", 0.0))
            page.wait(current="1")
            sender.send(message("/cueplayer/sub/1", 0.5))
            page.wait(masters={"sub 1": 128})
            sender.send(message("/other"))
            told = f"OSC: refused from {host}:{sender.getsockname()[1]}: /other: no such address"
            wait_for(lambda: page.notices() == [told], "a notice")

    @unittest.skipUnless(watches(), NO_WATCH)
    def test_levels(self):
        """Where nobody else receives at the address the grid does, and it shows what a receiver
        shows: the source of the greatest priority, as long as it is heard."""
        to = f"127.0.0.1:{free_port()}"
        _, page = self.open_desk("--grid", to=to)
        page.command("sub 1 50")
        own, other = ((bytes([level]) + bytes(511)).hex() for level in (128, 7))
        slots = lambda: page.newest.get("levels", {}).get("slots")
        wait_for(lambda: slots() == {"1": own}, "levels")
        with socket.socket(socket.AF_INET, socket.SOCK_DGRAM) as sender:
            strange = packet(1, {1: 7}, priority=150, cid=CID[:-1] + "2")
            sender.sendto(strange, ("127.0.0.1", int(to.split(":")[1])))
        told = ["cueplayer, priority 150, universe 1"]
        wait_for(lambda: page.newest["levels"]["others"]["above"] == told, "the other source")
        wait_for(lambda: slots() == {"1": other}, "the levels of the other source")
        wait_for(lambda: slots() == {"1": own}, "our own once it is silent")
        self.assertEqual([], page.newest["levels"]["others"]["above"])

    @unittest.skipUnless(watches(), NO_WATCH)
    def test_other_sources(self):
        """Other sources are named as long as they are heard; where more come than a receiver has
        room for, that is said."""
        to = f"127.0.0.1:{free_port()}"
        _, page = self.open_desk("--grid", to=to)
        host, port = to.split(":")
        with socket.socket(socket.AF_INET, socket.SOCK_DGRAM) as other:
            other.connect((host, int(port)))

            def send(number, sequence=0, options=0):
                cid = f"{CID[:-2]}{number}"
                other.send(packet(1, {}, sequence, priority=number, cid=cid, options=options))

            def is_told(*names):
                below = page.newest.get("levels", {}).get("others", {}).get("below")
                return below == [f"cueplayer, priority {name}, universe 1" for name in names]

            for number in (10, 11, 12):
                send(number)
            wait_for(lambda: is_told(10, 11, 12), "three sources")
            send(13)
            wait_for(lambda: page.newest["levels"]["others"]["crowded"] == [1], "the crowd")
            numbers = itertools.count(1)
            wait_for(lambda: send(11, next(numbers) % 256) or is_told(11), "the one that goes on")
            send(11, next(numbers) % 256, TERMINATED)
            wait_for(is_told, "no other source")

    @unittest.skipUnless(watches(), NO_WATCH)
    def test_own_priority(self):
        """A source is above, beside or below the priority that the night has."""
        for priority, rank in ((90, "above"), (100, "beside"), (110, "below")):
            to = f"127.0.0.1:{free_port()}"
            _, page = self.open_desk("--grid", "--priority", priority, to=to)
            with socket.socket(socket.AF_INET, socket.SOCK_DGRAM) as other:
                other.connect(("127.0.0.1", int(to.split(":")[1])))

                def others():
                    other.send(packet(1, {}, cid=CID[:-1] + "2"))
                    told = page.newest.get("levels", {}).get("others", {})
                    return {name: named for name, named in told.items() if named}

                told = {rank: ["cueplayer, priority 100, universe 1"]}
                wait_for(lambda: others() == told, told)

    @unittest.skipUnless(watches(), NO_WATCH)
    def test_watch_that_ends(self):
        """`watch` is killed: the page says that the levels are not received; the light goes on."""
        to = f"127.0.0.1:{free_port()}"
        desk, page = self.open_desk("--grid", to=to)
        wait_for(lambda: page.newest.get("levels", {}).get("slots"), "levels")
        killed = [Path(f"/proc/{pid}/cmdline") for pid in children(desk.process.pid)]
        for words in killed:
            if b"watch" in words.read_bytes().split(b"\0"):
                os.kill(int(words.parent.name), signal.SIGKILL)
        told = {"1": "the levels cannot be read: watch has ended"}
        wait_for(lambda: page.newest["levels"]["reasons"] == told, told)
        page.command("go")
        page.wait(current="1")

    def test_osc_that_cannot_be_read(self):
        """Nothing that a datagram holds ends the taking of others."""
        _, page = self.open_desk("--osc", 0)
        host, port = page.newest["show"]["osc"].split(":")
        with socket.socket(socket.AF_INET, socket.SOCK_DGRAM) as sender:
            sender.connect((host, int(port)))
            sender.send(GREATEST_DOUBLE)
            wait_for(page.notices, "a notice")
            self.assertIn("/cueplayer/goto: not a cue number: 1e+308", page.notices()[0])
            sender.send(message("/cueplayer/go"))
            page.wait(current="1")

    def test_levels_not_received(self):
        """Nothing is taken from the receiver that the light is for."""
        for options, reason in (((), "they are sent to one receiver alone"),
                                (("--grid",), "Address already in use")):
            _, page = self.open_desk(*options)
            wait_for(lambda: page.newest.get("levels"), "levels")
            others = {"above": [], "beside": [], "below": [], "crowded": []}
            told = {"reasons": {"1": reason}, "slots": {}, "others": others}
            self.assertEqual(told, page.newest["levels"])
            page.command("sub 1 FL")
            self.wait_for_level(255)


class Outputs(DeskTest):
    def full_pipe(self):
        """A pipe that takes nothing more, until it is read."""
        reader, writer = os.pipe()
        os.set_blocking(writer, False)
        with contextlib.suppress(BlockingIOError):
            while True:
                os.write(writer, bytes(4096))
        os.set_blocking(writer, True)
        return os.fdopen(reader, "rb"), os.fdopen(writer, "wb")

    def test_outputs_that_nobody_reads(self):
        """The night begins and is played though nothing can be told; it is told once it can be."""
        reader, writer = self.full_pipe()
        words = [sys.executable, TOOLS / "desk", self.show, "--to", self.to, "--cid", self.cid]
        desk = subprocess.Popen(words, stdout=writer, stderr=writer)
        self.addCleanup(desk.wait)
        self.addCleanup(desk.kill)
        with reader, writer:
            wait_for(lambda: self.came(0.05), "packets")
            told = b""
            while b"/\n" not in told:
                told += os.read(reader.fileno(), 65_536)
            address = re.search(r"desk: (\S+/)\n", told.decode("latin-1"))[1]
            page = Page(self, address)
            page.wait(placed=True)
            page.command("go")
            page.wait(current="1")
            desk.terminate()
            # Killed before its night has ended it would leave a `live` behind.
            self.assertEqual(0, desk.wait(PATIENCE))

    def test_end_that_nobody_reads(self):
        """A desk that can tell nothing ends its night all the same, with its status."""
        reader, writer = self.full_pipe()
        words = [sys.executable, TOOLS / "desk", self.show, "--to", self.to, "--cid", self.cid]
        with reader, writer:
            desk = subprocess.Popen(words, stdout=writer, stderr=writer)
            self.addCleanup(desk.kill)
            wait_for(lambda: self.came(0.05), "packets")
            desk.terminate()
            self.assertEqual(0, desk.wait(PATIENCE))
        self.assertTrue(self.came()[-1][OPTIONS] & TERMINATED)

    def test_told_too_much(self):
        """What finds no room is counted, and told once somebody reads again."""
        reader, writer = self.full_pipe()
        with reader, os.fdopen(os.dup(writer.fileno()), "w") as stream, writer:
            tell = Teller(stream, "desk: ", most=10)
            for number in range(50):
                tell(f"line {number}")
            self.assertLessEqual(tell.lines.qsize(), 10)
            told = b""
            while b"dropped" not in told:
                told += os.read(reader.fileno(), 65_536)
            tell.leave()
            lines = told.decode("latin-1").replace("\0", "").splitlines()
            dropped = [re.match(r"desk: (\d+) lines dropped", line) for line in lines]
            kept = [line for line in lines if re.match(r"desk: line \d+$", line)]
            counted = sum(int(found[1]) for found in dropped if found)
            self.assertLessEqual(len(kept) + counted, 50)
            self.assertGreaterEqual(counted, 39)


class Replies(DeskTest):
    """The state that a desk keeps, held against what `where` answers."""

    def night(self):
        words = [str(self.show), "--to", self.to, "--cid", self.cid]
        show, ignore = read_show(words[0]), lambda line: None
        night = desk_night.Night(show, words, ignore, ignore)
        night.read()
        self.addCleanup(night.end, PATIENCE)
        wait_for(lambda: night.state.is_placed, "the state")
        return night

    def second_input(self, night):
        """What somebody else types into the same `live`."""
        return open(f"/proc/{night.process.pid}/fd/0", "wb", buffering=0)

    def state(self, night):
        state = night.state
        lit = {words: level for words, level in state.masters.items() if level}
        return state.current, state.following, state.grand, lit

    def place(self, line):
        place = read_live_line(line)
        return place.cue, place.following, place.grand, place.masters

    def answers_of(self, night):
        """The answers of `live` from here on: those to commands, and those to `where`, each behind
        what the desk had before it came."""
        answers, places = [], []

        def keep(line):
            if " where " in line:
                places.append((self.state(night), self.place(line)))
            elif re.search(" (ok|refused .*)$", line):
                answers.append(line)

        night.keep = keep
        return answers, places

    def line(self, chance):
        level = f"H{chance.choice((0, 1, 128, 255)):02X}"
        cue = chance.choice(("1", "1.5", "2", "7"))
        masters = (f"sub {chance.choice((1, 9))} {level}", f"group 3 {level}", f"master {level}")
        return chance.choice(("go", "go", "back", f"goto {cue}", f"goto {cue} in 0.1", *masters))

    def test_by_chance(self):
        """Of whatever is pressed at the desk it has, at every `where`, just what that answers."""
        self.show.write_bytes(SHOW.replace(b"UP 2 1\n", b"UP 2 1\nFOLLOWON 0.03\n"))
        night, chance = self.night(), random.Random(40)
        _, places = self.answers_of(night)
        with self.second_input(night) as other:
            for _ in range(400):
                night.give(self.line(chance))
                if chance.randrange(3) == 0:
                    time.sleep(chance.choice((0.002, 0.02, 0.05)))
                other.write(b"where\n")
            wait_for(lambda: len(places) == 400, "the answers")
        for shown, told in places:
            self.assertEqual(told, shown)
        self.assertLessEqual({1000, 1500, 2000}, {told[0] for _, told in places})
        self.assertFalse(night.input.waiting)

    def test_others_by_chance(self):
        """Whoever else types meanwhile, it has what `where` answers once all lines are answered."""
        night, chance, lines = self.night(), random.Random(41), 0
        answers, places = self.answers_of(night)

        def is_settled():
            with night.changed:
                is_known = not night.input.waiting and not night.is_to_ask
                return is_known and len(answers) == lines

        with self.second_input(night) as other:
            for turn in range(50):
                for _ in range(chance.randrange(12)):
                    lines += 1
                    if chance.randrange(2):
                        night.give(self.line(chance))
                    else:
                        other.write(f"{self.line(chance)}\n".encode())
                wait_for(is_settled, "all answers")
                before = len(places)
                other.write(b"where\n")
                wait_for(lambda: len(places) > before, "where")
                shown, told = places[-1]
                self.assertEqual(told, shown, turn)

    def test_replies_dropped(self):
        """A desk that stood still until answers were dropped shows the right state again."""
        with mock.patch.object(desk_night, "PIPE_ROOM", 4096):
            night = self.night()
        with night.changed, self.second_input(night) as other:
            for number in range(20_000):
                other.write(f"sub 1 H{number % 256:02X}\n".encode())
            other.write(b"goto 1.5 in 0\ngroup 3 50\nmaster H40\n")
            self.wait_for_level(64)
        expected = (1500, 2000, 64, {"sub 1": 19_999 % 256, "group 3": 128})
        wait_for(lambda: self.state(night) == expected, expected)
        lost = r"^\d{4,} replies of live were lost; the state is read again$"
        self.assertRegex(night.state.notices[0].text, lost)
        night.give("go")
        wait_for(lambda: night.state.current == 2000, "the cue after")
        self.assertEqual(0, night.end(PATIENCE))


class Cid(DeskTest):
    def console(self, home):
        """The CID of a desk that is not given one, and what it tells before."""
        environment = {**os.environ, "XDG_CONFIG_HOME": str(home)}
        desk = Started(self, "desk", self.show, "--to", self.to, environment=environment)
        told = []
        while (found := re.match(r"desk: console (\S+), live", line := desk.err.next())) is None:
            told.append(line)
        desk.process.terminate()
        self.assertEqual(0, desk.process.wait(PATIENCE))
        return found[1], told

    def test_kept(self):
        """The first night makes it, and each one after has the same."""
        cid, told = self.console(self.folder)
        kept = self.folder / "cueplayer" / "cid"
        self.assertEqual(([], f"{cid}\n"), (told, kept.read_text()))
        self.assertEqual(0o644, kept.stat().st_mode & 0o777)
        self.assertEqual((cid, []), self.console(self.folder))
        self.assertEqual([kept], list(kept.parent.iterdir()))
        self.assertIn(uuid.UUID(cid).bytes, {each[22:38] for each in self.came()})
        kept.write_text(CID.upper())
        self.assertEqual((CID, []), self.console(self.folder))

    def test_cannot_be_kept(self):
        """The CID cannot be kept: where there is no room for it, or something else is there, that
        is told in one line."""
        home = self.file("home", b"")
        cid, told = self.console(home)
        why = f"desk: cannot keep a CID in {home}/cueplayer/cid: Not a directory; "
        self.assertEqual([f"{why}this night has one of its own: --cid {cid}"], told)
        (self.folder / "cueplayer").mkdir()
        kept = self.file("cueplayer/cid", b"x\n")
        cid, told = self.console(self.folder)
        why = f"desk: cannot read a CID in {kept}: it has no UUID; "
        self.assertEqual([f"{why}this night has one of its own: --cid {cid}"], told)
        self.assertEqual("x\n", kept.read_text())


class Multicast(DeskTest):
    @unittest.skipUnless(watches(), NO_WATCH)
    def test_levels(self):
        """At `--to 239.255.0.0` the levels of each universe come to the grid by its own group."""
        script = 'ip link set lo up multicast on && ip route add 239.0.0.0/8 dev lo && exec "$@"'
        words = [
            *own_network(self),
            "sh",
            "-c",
            script,
            "sh",
            sys.executable,
            "-c",
            SEEN,
            TOOLS / "desk",
        ]
        words += [self.show, "--to", "239.255.0.0", "--cid", str(uuid.uuid4()), "--base", "300"]
        done = subprocess.run(words, capture_output=True, text=True, timeout=2 * PATIENCE)
        levels = bytes([128]) + bytes(511)
        came = [json.loads(line) for line in done.stdout.splitlines()]
        self.assertIn({"300": levels.hex()}, came)


# Runs in a network of its own: a desk, its page, a submaster at half, and the levels until then.
SEEN = """
import http.client, json, subprocess, sys
desk = subprocess.Popen([sys.executable, *sys.argv[1:]], stdout=subprocess.PIPE, text=True)
_, _, host, path = desk.stdout.readline().strip().split("/", 3)
page = http.client.HTTPConnection(host, timeout=20)
page.request("GET", "/" + path + "events")
events = page.getresponse()
now = next(line for line in events if line.startswith(b"id: "))[4:].strip().decode()
other = http.client.HTTPConnection(host, timeout=20)
own = {"Origin": "http://" + host, "Desk-Time": now, "Desk-State": "0"}
other.request("POST", "/" + path + "command", "sub 1 50", own)
other.getresponse().read()
for line in events:
    if line.startswith(b"data: ") and b'"slots"' in line:
        slots = json.loads(line[6:])["slots"]
        print(json.dumps(slots))
        if any(levels.startswith("80") for levels in slots.values()):
            break
desk.terminate()
desk.wait()
"""
