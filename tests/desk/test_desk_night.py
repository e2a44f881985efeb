"""What `tools/desk` makes of what `live` prints: nothing is shown that was not told."""

import os
import signal
import time
import unittest
from unittest import mock

from desks import SHOW
from program import FolderTest, text
from tooling import Lines, stand_still, wait_for

from cueplayer_tools.cue_list import read_show
from cueplayer_tools.desk import input as desk_input
from cueplayer_tools.desk.heard import START_LINES
from cueplayer_tools.desk.night import Night
from cueplayer_tools.desk.state import State
from cueplayer_tools.line_protocol import Refused
from cueplayer_tools.live_lines import (
    Answer,
    DroppedReplies,
    LostPackets,
    Move,
    Place,
    read_live_line,
)

# Stands for `live`: prints what is written to two pipes, and writes to a third what it reads.
STUB = b"""#!/bin/sh
cat <"$FOLDER/printed" &
cat <"$FOLDER/told" >&2 &
exec cat >"$FOLDER/given"
"""
FOLLOWED = text("CUE 1", "FOLLOWON 0.5", "CUE 2", "UP 3", "CUE 3", "PATCH 1 1<1@FL")


class StubTest(FolderTest):
    """A desk's night over a program that says what the test has it say."""

    def begin(self, show=SHOW):
        """A night whose program has read nothing."""
        self.told = []
        stub = self.file("stub", STUB)
        stub.chmod(0o755)
        for name in ("printed", "told", "given"):
            os.mkfifo(self.folder / name)
        read = read_show("-", show)
        with mock.patch.dict(os.environ, CUEPLAYER=str(stub), FOLDER=str(self.folder)):
            self.night = Night(read, [], self.told.append, lambda line: None)
        self.night.read()
        self.addCleanup(self.night.process.wait)
        self.addCleanup(self.night.process.kill)
        self.printed, self.messages = (
            open(self.folder / name, "w", buffering=1) for name in ("printed", "told")
        )
        self.addCleanup(self.printed.close)
        self.addCleanup(self.messages.close)

    def read(self):
        """Has the program read what is handed to it, from here on."""
        self.given = Lines(open(self.folder / "given"))

    def begin_night(self, show=SHOW, place="0 where next 1 master 255"):
        """A night whose `where` is answered."""
        self.begin(show)
        self.read()
        self.expect("where")
        self.say(place)

    def say(self, *lines):
        """Prints lines, and waits until the desk has taken them."""
        before = self.night.version
        self.printed.write("".join(line + "\n" for line in lines))
        wait_for(lambda: self.night.version >= before + len(lines), lines)

    def expect(self, *lines):
        """These are the next lines that the desk hands on."""
        self.assertEqual(list(lines), [self.given.next() for _ in lines])

    def give(self, line):
        self.night.give(line)
        self.expect(line)

    def assertShows(self, current, following, fade=None, **state):
        """The cues in thousandths, the whole of the fade, and other values of the state."""
        found = self.night.state
        whole = found.fade and found.fade.whole
        self.assertEqual((current, following, fade), (found.current, found.following, whole))
        for name, value in state.items():
            self.assertEqual(value, getattr(found, name), name)

    def notices(self):
        return [notice.text for notice in self.night.state.notices]


class Places(StubTest):
    def test_begin(self):
        """The whole state is asked for at the start, and nothing is said before it is known."""
        self.begin()
        self.read()
        self.expect("where")
        self.assertShows(None, None, is_placed=False)
        self.say("12 where cue 1.5 next 2 master 64 sub 1:128 group 3:12")
        masters = {"sub 1": 128, "group 3": 12}
        self.assertShows(1500, 2000, is_placed=True, grand=64, lit_grand=64, masters=masters)
        self.give("go")
        self.say("20 ok", "20 cue 2")
        self.assertShows(2000, None, 0, masters=masters)
        self.assertEqual([], self.notices())

    def test_follow_on(self):
        """A cue that follows by itself is current once that is told."""
        self.begin_night(FOLLOWED)
        self.give("go")
        self.say("100 ok", "100 cue 1")
        for _ in range(20):
            self.night.watch()
            time.sleep(0.05)
        self.assertShows(1000, 2000, 0)
        self.say("600 cue 2")
        self.assertShows(2000, 3000, 3000)
        self.assertEqual(600, self.night.state.fade.moment)

    def test_answer_is_no_move(self):
        """What is accepted moves nothing by itself."""
        self.begin_night()
        self.give("go")
        self.say("5 ok")
        self.assertShows(None, 1000)
        self.say("5 cue 1.5")
        self.assertShows(1500, 2000, 3000)

    def test_time_of_a_move(self):
        """`goto N in TIME` takes its time, and so does no other move: none that was due before it,
        and none behind it."""
        self.begin_night(FOLLOWED)
        for line, said, fades in (
            ("goto 2 in 8", ("700 ok", "500 cue 2", "600 cue 3", "700 cue 2"), (3000, 0, 8000)),
            ("goto 2", ("700 ok", "700 cue 2"), (3000,)),
            ("goto 2", ("800 ok", "800 cue 2"), (3000,)),
            ("goto 1 in 5", ("900 ok", "900 cue 1"), (5000,)),
            ("sub 1 HFF", ("1500 ok", "1400 cue 2"), (3000,)),
        ):
            self.give(line)
            answer, *moves = said
            self.say(answer)
            for move, fade in zip(moves, fades, strict=True):
                self.say(move)
                self.assertEqual(fade, self.night.state.fade.whole)


class MissingReplies(StubTest):
    """`live` says that replies were dropped: the state is read again."""

    LOST = "2 replies of live were lost; the state is read again"

    def test_replies_dropped(self):
        """Where answers are missing, none is taken for that of another line, and nothing is handed
        on, until the state is read again."""
        self.begin_night()
        self.give("go")
        self.say("100 ok", "100 cue 1")
        for line in ("go", "sub 1 HFF", "goto 7"):
            self.give(line)
        self.say("2 replies dropped")
        self.expect("where")
        with self.assertRaisesRegex(Refused, "press again"):
            self.night.give("go")
        self.say("300 ok", "310 refused NoCue", "320 where cue 1.5 next 2 master 255 sub 1:255")
        self.assertShows(1500, 2000, None, masters={"sub 1": 255})
        unknown = "a line was refused, NoCue; which one is not known"
        self.assertEqual([self.LOST, unknown], self.notices())
        self.give("goto 2")
        self.say("400 ok", "400 cue 2")
        self.assertShows(2000, None, 0)
        self.assertFalse(self.night.input.waiting)

    def test_move_dropped(self):
        """A move that was not told is shown once the state is read again; its fade is not known."""
        self.begin_night()
        self.give("goto 1.5")
        self.say("100 ok", "100 cue 1.5")
        self.assertShows(1500, 2000, 3000)
        self.say("2 replies dropped")
        self.assertShows(1500, 2000, None)
        self.expect("where")
        self.say("150 cue 2", "200 where cue 2 master 255")
        self.assertShows(2000, None, None)

    def test_dropped_again(self):
        """Also the answer to `where` may be missing. Whichever comes, the state is right."""
        self.begin_night()
        self.say("2 replies dropped")
        self.expect("where")
        self.say("2 replies dropped")
        self.expect("where")
        self.say("300 where cue 1 next 1.5 master 255")
        self.assertShows(1000, 1500)
        self.give("sub 1 HFF")
        self.say("310 where cue 1 next 1.5 master 255", "320 ok")
        self.assertShows(1000, 1500, masters={"sub 1": 255})
        self.assertFalse(self.night.input.waiting)

    def test_unread(self):
        """What the program had not read as replies were lost is taken back like all else."""
        self.begin_night()
        stand_still(self.night.process.pid)
        self.night.give("go")
        self.say("2 replies dropped")
        with mock.patch.object(desk_input, "LATE", -1.0):
            self.night.watch()
        os.kill(self.night.process.pid, signal.SIGCONT)
        taken = "go: taken back, live did not read it in a second"
        self.assertEqual([self.LOST, taken], self.notices())
        self.expect("")
        self.night.watch()
        self.expect("where")
        self.say("300 where next 1 master 255")
        self.assertFalse(self.night.input.waiting)

    def test_end_while_unsure(self):
        """Lost replies hold up presses for a second, but no end of the night."""
        self.begin_night()
        self.say("2 replies dropped")
        self.expect("where")
        self.night.end(1.0)
        self.expect("end")


class OtherLines(StubTest):
    """Somebody else hands lines to the same `live`: the page shows what they did."""

    def test_answer_to_another(self):
        """An answer to a line that was not handed on here has the state read again."""
        self.begin_night()
        self.say("100 ok")
        self.expect("where")
        self.say("120 where next 1 master 255 group 3:9")
        self.assertShows(None, 1000, masters={"group 3": 9})
        self.say("130 refused NoCue")
        self.expect("where")
        self.assertEqual(["a line was refused, NoCue; which one is not known"], self.notices())

    def test_answer_to_another_first(self):
        """Where it is taken for that of a line of one's own, the state is right soon after."""
        self.begin_night()
        self.give("sub 1 HFF")
        self.say("100 ok", "100 refused NoSub")
        self.expect("where")
        self.say("120 where next 1 master 7")
        self.assertShows(None, 1000, masters={}, grand=7)

    def test_place_for_another(self):
        """The answer to somebody else's `where` is none to a line of one's own."""
        self.begin_night()
        self.give("sub 1 HFF")
        self.say("100 where next 1 master 255", "110 ok")
        self.assertShows(None, 1000, masters={"sub 1": 255})
        self.assertFalse(self.night.input.waiting)
        self.give("goto 1.5")
        self.say("200 ok", "200 cue 1.5", "210 where cue 1.5 next 2 master 255 sub 1:255")
        self.assertShows(1500, 2000, 3000, masters={"sub 1": 255})
        self.say("220 where cue 1 next 1.5 master 255")
        self.assertShows(1000, 1500, None, masters={})

    def test_end(self):
        """The end of a night has two answers, and nothing is asked behind it."""
        self.begin_night()
        self.give("goto 1.5")
        self.say("50 ok", "50 cue 1.5")
        self.give("end")
        self.say("100 ok", "200 ok")
        self.night.watch()
        self.assertShows(1500, 2000, 3000, is_ending=True)
        self.assertFalse(self.night.input.waiting)
        self.assertEqual([], self.notices())

    def test_unknown_line(self):
        """What is no line of `live` is told, and what comes behind it is read."""
        self.begin_night()
        self.say("100 cue 1.50", "100 cue 1")
        self.assertShows(1000, 1500, 0)
        told = "desk: ValueError('no cue number as live spells it') at: 100 cue 1.50"
        self.assertEqual([told], self.notices())

    def test_where_taken_back(self):
        """A `where` that was not read is no press: it is asked again, and nobody is told."""
        self.begin()
        with mock.patch.object(desk_input, "LATE", -1.0):
            self.night.watch()
        self.assertTrue(self.night.state.is_late)
        with self.assertRaisesRegex(Refused, "does not answer"):
            self.night.give("go")
        self.read()
        self.expect("")
        self.night.watch()
        self.expect("where")
        self.say("100 where next 1 master 255")
        self.night.watch()
        self.assertShows(None, 1000, is_late=False)
        self.assertEqual([], self.notices())


class MessageTest(StubTest):
    def hear(self, *lines):
        before = self.night.version
        self.messages.write("".join(line + "\n" for line in lines))
        wait_for(lambda: self.night.version >= before + len(lines), lines)


class Messages(MessageTest):
    SKIPPED = "show: 3 cues, 1 submaster, 1 group, 1 dimmer; 3 lines skipped: see cueplayer explain"
    SENDS = "sends: universe 1 to 127.0.0.1:5568, priority 100, CID x, name cueplayer booth"

    def test_start(self):
        """What the program says as it begins is for the terminal; the page has what is skipped."""
        self.begin_night()
        typed = "end ends the night, leave leaves the light to others; control-C does nothing"
        kept = [self.SKIPPED, self.SENDS, "record: night.play"]
        self.hear(*kept, typed)
        self.assertEqual([f"live: {line}" for line in kept], self.told)
        self.assertEqual([], self.notices())
        self.assertEqual("3 lines skipped: see cueplayer explain", self.night.state.skipped)

    def test_nothing_skipped(self):
        self.begin_night()
        self.hear("show: 1 cue, 0 submasters, 0 groups, 1 dimmer", self.SENDS)
        self.assertEqual(([], ""), (self.notices(), self.night.state.skipped))

    def test_faults(self):
        """All else is told on the page as it is, also where it begins like a line of the start."""
        self.begin_night()
        faults = [
            "show: TooLong", self.SENDS, "record: 3 bytes are still with its writer",
            "line refused: go 4: go takes no number; goto 4 goes to a cue",
        ]  # fmt: skip
        self.hear(*faults)
        self.assertEqual((faults, ""), (self.notices(), self.night.state.skipped))
        self.hear(self.SKIPPED, self.SENDS, "record: none; --record FILE keeps one", faults[2])
        self.assertEqual([*faults, faults[2]], self.notices())

    def test_good_news(self):
        """What a spare says as it goes on with the night is no fault."""
        self.begin_night()
        typed = "end ends the night, leave leaves the light to others; control-C does nothing"
        self.hear(self.SKIPPED, self.SENDS, "record: night.play", typed)
        good = [self.SKIPPED, self.SENDS, "record: night.play, goes on at 0:12:05", typed]
        fault = "record: 3 bytes are still with its writer"
        self.hear(*good, fault)
        told = [(each.kind, each.text) for each in self.night.state.notices]
        self.assertEqual([*(("good", text) for text in good), ("fault", fault)], told)

    def test_record(self):
        """A record that cannot be written, or is late, is a trouble in words until it is over."""
        self.begin_night()
        self.hear(self.SKIPPED, self.SENDS, "record: night.play")
        self.hear("record: late, and the light goes on")
        (late,) = self.night.state.troubles.values()
        self.assertEqual("the record waits for its disk: the light goes on", late)
        missing = "record: goes on, and a comment in it says how many lines are missing"
        self.hear(missing)
        self.assertEqual(({}, [missing]), (self.night.state.troubles, self.notices()))
        self.hear("record: late, and the light goes on", "record: device fault")
        (fault,) = self.night.state.troubles.values()
        self.assertTrue(fault.startswith("the record cannot be written any more"))


class Links(MessageTest):
    """What is said of the network: what is wrong stands until it is over."""

    START = ("show: 1 cue, 0 submasters, 0 groups, 1 dimmer", "sends: universe 1 to 2 targets, ..")
    RECORD = "record: none; --record FILE keeps one"

    def assertTroubles(self, *lines):
        self.assertEqual(list(lines), list(self.night.state.troubles.values()))

    def test_start(self):
        """By which cards it sends; which others there are is told on the page, and no more than
        that."""
        self.begin_night()
        others = "other cards: lit (10.101.2.10); --interface lit sends by it"
        ways = ["from 10.101.1.10 (eth0), the default route", "from 127.0.0.1 (lo)"]
        targets = ["target: 239.255.0.0:5568 (multicast)", "target: universe 3 to 127.0.0.1:5568"]
        self.hear(*self.START, *targets, *ways, others, self.RECORD)
        self.assertEqual((ways, [others]), (self.night.state.ways, self.notices()))
        lines = [*self.START, *targets, *ways, others, self.RECORD]
        self.assertEqual([f"live: {line}" for line in lines], self.told)
        # Behind the start such a line is none of it.
        self.hear("end ends the night", ways[0])
        self.assertEqual((ways, [others, ways[0]]), (self.night.state.ways, self.notices()))

    def test_over(self):
        """Each kind, and the line by which it is over; none is a notice."""
        self.begin_night()
        for trouble, over in (
            ("no link lit: nodes get nothing; check the cable", "link lit"),
            ("lit is down: nodes get nothing; ip link set lit up", "link lit"),
            ("lit has lost 10.101.2.10: nodes get nothing", "lit has 10.101.2.10"),
            (
                "the route to 10.0.0.7 leads by office: nodes get nothing; check ip route get "
                "10.0.0.7",
                "the route to 10.0.0.7 leads by lit",
            ),
            (
                "no route to 10.0.0.7: nodes get nothing until there is one",
                "the route to 10.0.0.7 leads by lit",
            ),
            (
                "no answer from 10.0.0.7: nothing has that address; check the node and --to",
                "10.0.0.7 answers",
            ),
        ):
            with self.subTest(trouble):
                self.hear(f"0:12:05 {trouble}")
                self.assertTroubles(f"0:12:05 {trouble}")
                self.hear("0:12:06 link office", "0:12:06 10.0.0.8 answers", f"123:59:59 {over}")
                self.assertTroubles()
        self.assertEqual([], self.notices())

    def test_several(self):
        """Each stands by itself. What a `where` tells again is no new one, and another of the same
        card takes the place of the one before."""
        self.begin_night()
        self.hear(
            "0:00:01 no link lit: a", "0:00:02 no link off: a", "0:00:03 lit has lost 10.0.0.1: b"
        )
        told = [
            "0:00:01 no link lit: a",
            "0:00:02 no link off: a",
            "0:00:03 lit has lost 10.0.0.1: b",
        ]
        self.assertTroubles(*told)
        self.hear("0:00:09 no link lit: a", "0:00:09 no link off: a")
        self.assertTroubles(*told)
        self.hear("0:00:10 lit is down: c")
        self.assertTroubles(*told[1:], "0:00:10 lit is down: c")
        self.hear("0:00:11 link lit", "0:00:11 link off")
        self.assertTroubles(told[2])

    def test_first_route(self):
        """A night that begins without a network: once it has one, what is still wrong is asked."""
        self.begin_night()
        hosts = ("239.255.0.0", "10.0.0.7")
        without = [f"no route to {host}: nodes get nothing until there is one" for host in hosts]
        self.hear(*self.START, *without, self.RECORD, "end ends the night")
        self.assertTroubles(*without)
        self.hear("0:00:07 from 10.101.1.10 (eth0), the default route")
        self.assertTroubles()
        self.expect("where")
        self.hear(f"0:00:07 {without[1]}")
        self.say("7010 where next 1 master 255")
        self.assertTroubles(f"0:00:07 {without[1]}")
        self.assertEqual([], self.notices())

    def test_another_live(self):
        """One that begins in the place of another says anew what is wrong."""
        self.begin_night()
        self.hear(*self.START, "from 10.0.0.1 (lit)", self.RECORD, "end ends the night")
        self.hear("0:00:01 no link lit: a")
        with self.night.changed:
            self.night.start_lines = list(START_LINES)
        self.hear(*self.START, "from 10.0.0.2 (off)", self.RECORD, "end ends the night")
        self.assertEqual(["from 10.0.0.2 (off)"], self.night.state.ways)
        self.assertTroubles()

    def test_no_such_line(self):
        """What only looks like one is a fault like any other."""
        self.begin_night()
        faults = ["link lit", "0:00:01 link", "0:00:01 lit is up", "0:0:01 link lit", "1 link lit"]
        self.hear("0:00:01 no link lit: a", *faults)
        self.assertTroubles("0:00:01 no link lit: a")
        self.assertEqual(faults, self.notices())


class LiveLines(unittest.TestCase):
    def test_read(self):
        masters = {"sub 3": 128, "sub 7": 255, "group 1": 12}
        for line, expected in (
            ("0 ok", Answer(0, None)),
            ("12 refused NoCue", Answer(12, "NoCue")),
            ("5 cue 4", Move(5, 4000)),
            ("5 cue 13.25", Move(5, 13250)),
            ("5 cue 0.005", Move(5, 5)),
            ("7 where master 0", Place(7, None, None, 0)),
            ("7 where next 1 master 255", Place(7, None, 1000, 255)),
            ("7 where cue 9999.999 master 255", Place(7, 9_999_999, None, 255)),
            (
                "7 where cue 4 next 5 master 255 sub 3:128 sub 7:255 group 1:12",
                Place(7, 4000, 5000, 255, masters),
            ),
            ("9 live 1:x5 2:s6 3:- 4:x255", LostPackets(9, (1, 4))),
            ("9 ending 2 1:x1", LostPackets(9, (1,))),
            ("12 replies dropped", DroppedReplies(12)),
        ):
            self.assertEqual(expected, read_live_line(line), line)

    def test_no_lines(self):
        """What has another form is no line of `live`, and no part of it is believed."""
        place = "7 where cue 4 next 5 master 255"
        for line in (
            *("", "ok", "x ok", "5 ok ", "5 OK", "-1 ok", "\u0661 ok", "5 refused", "5 cue"),
            *("5 cue 4.0", "5 cue 04", "5 cue 0", "5 cue 10000", "5 cue .5", "5 cue 4 5"),
            *("7 where", "7 where cue 4 next 5", "7 where next 5 cue 4 master 255"),
            *("7 where master 256", "7 where cue none master 0", "7 where cue 4.10 master 0"),
            *(f"{place} sub 3:0", f"{place} sub 3:256", f"{place} sub 7:1 sub 3:1"),
            *(f"{place} sub 3:1 sub 3:1", f"{place} group 1:1 sub 1:1", f"{place} sub 3"),
            *("5 live", "5 live 1:y5", "5 replies", "go, back  the next cue, the one before"),
        ):
            with self.subTest(line), self.assertRaises(ValueError):
                read_live_line(line)


class Notices(unittest.TestCase):
    def test_flood(self):
        """What is refused of Open Sound Control drives out nothing but its like."""
        state = State(read_show("-", SHOW))
        state.tell("fault", "kept")
        for number in range(100):
            state.tell("osc", f"OSC: {number}")
        self.assertEqual(["kept", "OSC: 99"], [notice.text for notice in state.notices])
        state.accept(0, "go")
        self.assertEqual(["kept"], [notice.text for notice in state.notices])
