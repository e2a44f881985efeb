"""`tools/picture`: its levels are the program's, and its pictures stand on their own."""

import re
import shlex
import subprocess
import time
import unittest
import uuid
import xml.etree.ElementTree as xml

from program import CID, PROGRAM, TOP, FolderTest, run, text
from tooling import run_tool
from wire import SEQUENCE, SLOT_1, address_of, datagrams_at, receiver_socket
from worked import S1, plays

from cueplayer_tools import cue_list, night, record, rehearsal
from cueplayer_tools.line_protocol import Refused, cue_word
from cueplayer_tools.picture.axis import clock
from cueplayer_tools.picture.curves import ranges

EXAMPLES = TOP / "examples"
EVENING = (
    "night", EXAMPLES / "small-play.asc", EXAMPLES / "small-play.play", "--every", 100,
    *(word for channel in (1, 7, 10, 23, 31) for word in ("--channel", channel)),
    "--title", "A short evening",
)
PIPES = {"stdin": subprocess.PIPE, "stdout": subprocess.PIPE, "stderr": subprocess.DEVNULL}
BACKUP = (
    "rehearsal", EXAMPLES / "one-dimmer.asc", EXAMPLES / "backup-console.script",
    "--title", "A backup console takes over",
)


class PictureTest(FolderTest):
    def night(self, lines, content=S1, universes=(1,), base=1):
        """The night of these lines."""
        given = record.read_record("\n".join(lines) + "\n")
        return night.night_of(self.file("show.asc", content), given, list(universes), base)

    def draw(self, *words):
        """A picture, which is sound XML and loads nothing."""
        done = run_tool("picture", *words)
        self.assertEqual((0, ""), (done.returncode, done.stderr))
        drawn = xml.fromstring(done.stdout)
        self.assertEqual("{http://www.w3.org/2000/svg}svg", drawn.tag)
        for part in drawn.iter():
            self.assertNotIn(part.tag.rpartition("}")[2], ("script", "image", "use", "a"))
        self.assertEqual(["http://www.w3.org/2000/svg"], re.findall(r"\w+://[^\"]*", done.stdout))
        return done.stdout, [part.text for part in drawn.iter() if part.tag.endswith("}text")]


class Levels(PictureTest):
    def test_rows(self):
        """The levels of worked plays, at their ticks, also of other universes."""
        rows = (("five_second_fade", 1, [1]), ("goto_mid_fade", 7, [1, 2]), ("goto_in", 1, [1, 2]))
        for name, base, slots in rows:
            (play,) = plays(name)
            lines = play.stdin.decode().splitlines()
            found = self.night(lines, universes=[base], base=base)
            self.assertEqual(
                [int(line.split()[0]) for line in lines if "tick" in line], found.moments
            )
            levels = {
                (base, slot): [sent[SLOT_1 + slot - 1] for sent in play.packets] for slot in slots
            }
            self.assertEqual(levels, found.curves)

    def test_keep_alive(self):
        """Where a tick sends nothing the receiver keeps what it has; after a long silence too."""
        lines = ["0 sub 1 FL", *(f"{moment} tick" for moment in (*range(0, 500, 25), 60000))]
        self.assertEqual({(1, 1): [128] * 21}, self.night(lines).curves)

    def test_refused_and_end(self):
        """Refused commands are told by name, refused ticks show nothing, the end is dark."""
        lines = ["0 sub 1 FL", "0 tick", "5 tick", "25 back", "30 sub 2 FL", "40 end", "50 tick",
                 "75 tick", "100 tick", "125 tick"]
        found = self.night(lines)
        self.assertEqual([0, 50, 75, 100], found.moments)
        self.assertEqual({(1, 1): [128, 0, 0, 0]}, found.curves)
        self.assertEqual([None, "AtStart", "NoSub", None], [each.refused for each in found.asked])

    def test_more_universes_than_receivers(self):
        dimmers = range(1, 16 * 512, 512)
        patch = "PATCH 1 " + " ".join(f"1<{dimmer}@FL" for dimmer in dimmers)
        content = text("CUE 1", "CHAN 1@50", patch)
        found = self.night(["0 go", "0 tick"], content, range(3, 19), 3)
        self.assertEqual({(universe, 1): [128] for universe in range(3, 19)}, found.curves)

    def test_live_record(self):
        """Of a live night the levels are those that reached a socket, at each tick."""
        with receiver_socket() as receiver:
            to = address_of(receiver)
            content = text("CUE 1", "UP 1", "CHAN 1@FL", "PATCH 1 1<1@FL")
            file, kept = self.file("show.asc", content), self.folder / "night.play"
            words = ["live", file, "--to", to, "--cid", CID, "--record", kept, "--end-with-input"]
            live = subprocess.Popen([PROGRAM, *words], **PIPES)
            self.addCleanup(live.kill)
            for line in (b"back\n", b"go\n", b"master 70\n"):
                live.stdin.write(line)
                live.stdin.flush()
                time.sleep(0.3)
            live.communicate(timeout=30)
            came = datagrams_at(receiver)
        given = record.read_record(kept.read_text())
        found = night.night_of(file, given, [1], 1)
        shown = iter(came)
        levels, level = [], 0
        for line in run(*["play", *words[1:6]], stdin=kept.read_bytes()).out.decode().splitlines():
            if " live " in line or " ending " in line:
                sent = re.search(r"1:s(\d+)", line)
                if sent:
                    datagram = next(shown)
                    self.assertEqual(int(sent[1]), datagram[SEQUENCE])
                    level = datagram[SLOT_1]
                levels.append(level)
        self.assertEqual(levels, found.curve((1, 1)))
        self.assertGreater(len(set(levels)), 5)

    def test_thinned(self):
        """Of many ticks some are left away, none beside a move; what is left is unchanged."""
        ticks = [record.Given(moment, ("tick",)) for moment in range(0, 60000, 25)]
        commands = [record.Given(moment, ("go",)) for moment in (10, 20010)]
        given = sorted(ticks + commands, key=lambda line: line.moment)
        thin = night.thin_ticks(given, 0, 60000)
        self.assertTrue(200 < len(thin) < 500, len(thin))
        self.assertLessEqual(set(commands), set(thin))
        for moment in (0, 25, 20000, 20025, 59975):
            self.assertIn(record.Given(moment, ("tick",)), thin)
        file = self.file("show.asc", S1)
        whole, part = (night.night_of(file, lines, [1], 1) for lines in (given, thin))
        at = {moment: place for place, moment in enumerate(whole.moments)}
        for slot in ((1, 1), (1, 2)):
            kept = [whole.curve(slot)[at[moment]] for moment in part.moments]
            self.assertEqual(kept, part.curve(slot))

    def test_filled(self):
        """Ticks of our own stand only where there are none, and never too close to another."""
        given = record.read_record("10 go\n500 tick\n900 back\n")
        moments = [line.moment for line in night.fill_ticks(given, 100) if line.is_tick]
        self.assertEqual([10, 110, 210, 310, 410, 500, 600, 700, 800, 900], moments)


class Moves(PictureTest):
    """Which cues a record came to: it has no `cue` lines."""

    def moves(self, *lines, then, last=0):
        """The moves of accepted commands in a show of three cues; the first has these lines."""
        found = night.Night([last])
        found.asked = [night.Asked(moment, tuple(words.split()), None) for moment, words in then]
        show = cue_list.read_show("-", text("CUE 1", *lines, "CUE 2", "CUE 3"))
        return [(move.moment, move.cue // 1000) for move in night.moves_of(show, found)]

    def test_moves(self):
        made = ((0, "go"), (1, "go"), (2, "back"), (3, "goto 3"), (4, "sub 1 5"))
        self.assertEqual([(0, 1), (1, 2), (2, 1), (3, 3)], self.moves(then=made))
        self.assertEqual([(7, 1), (7, 1)], self.moves(then=((7, "goto 1 in 4"), (7, "goto 1"))))

    def test_refused(self):
        found = night.Night([0], asked=[night.Asked(0, ("goto", "2"), "NoCue")])
        self.assertEqual([], night.moves_of(cue_list.Show(), found))

    def test_follow_on(self):
        """A cue that follows by itself does so at its moment, unless another move comes first."""
        go = (0, "go")
        for then, last, expected in (
            ([go], 9999, [(0, 1)]),
            ([go], 10000, [(0, 1), (10000, 2)]),
            ([go, (5000, "goto 1"), (14999, "sub 1 5")], 0, [(0, 1), (5000, 1)]),
            ([go, (5000, "goto 1")], 15000, [(0, 1), (5000, 1), (15000, 2)]),
            ([go, (10000, "go")], 0, [(0, 1), (10000, 2), (10000, 3)]),
            ([go, (10000, "back")], 0, [(0, 1), (10000, 2), (10000, 1)]),
            ([go, (5000, "end")], 99999, [(0, 1)]),
        ):
            self.assertEqual(expected, self.moves("FOLLOWON 10", then=then, last=last), then)

    def test_as_live_tells_them(self):
        """The moves of a live night's record are those that `live` told meanwhile."""
        follows = ("FOLLOWON .3", "CUE 2.5", "FOLLOWON 0", "CUE 3", "FOLLOWON .2", "CUE 4")
        file = self.file("show.asc", text("CUE 1", *follows, "PATCH 1 1<1@FL"))
        kept = self.folder / "night.play"
        words = ["live", file, "--to", "127.0.0.1:9", "--cid", str(uuid.uuid4()), "--record", kept]
        live = subprocess.Popen([PROGRAM, *words], text=True, **PIPES)
        self.addCleanup(live.kill)
        for line in ("go", "goto 1", "goto 2.5 in 8", "back", "go", "goto 9", "goto 4", "back"):
            live.stdin.write(f"{line}\n")
            live.stdin.flush()
            time.sleep(0.4)
        printed = live.communicate("goto 1\ngoto 1\nend\n", timeout=30)[0]
        lines = re.finditer(r"(?m)^(\d+) cue (\S+)$", printed)
        told = [(int(line[1]), line[2]) for line in lines]
        found = night.night_of(file, record.read_record(kept.read_text()), [1], 1)
        moves = night.moves_of(cue_list.read_show(file), found)
        self.assertEqual(told, [(move.moment, cue_word(move.cue)) for move in moves])
        self.assertGreater(len(told), 15)


class Pictures(PictureTest):
    def test_evening_is_told(self):
        """The lines of the evening say how its picture is drawn."""
        told = re.sub(r"\\\n!", "", (EXAMPLES / "small-play.play").read_text())
        words = shlex.split(re.search(r"tools/picture (.*)", told)[1])
        self.assertEqual([str(word).removeprefix(f"{TOP}/") for word in EVENING], words)

    def test_examples(self):
        """The pictures of examples/, byte for byte."""
        for name, words in (("small-play.svg", EVENING), ("backup-console.svg", BACKUP)):
            with self.subTest(name):
                drawn, _ = self.draw(*words)
                self.assertEqual((EXAMPLES / name).read_text(), drawn)

    def test_evening(self):
        """Cues by their names, masters, a refused command; both kinds of background."""
        drawn, texts = self.draw(*EVENING)
        for told in ("A short evening", "0.5 preset: the audience comes in", "4 curtain call",
                     "go: AtEnd", "master", "sub 2 work light", "channel 31 (3:1-2)"):
            self.assertIn(told, texts)
        self.assertIn("prefers-color-scheme:dark", drawn)
        self.assertIn("@media print", drawn)

    def test_backup(self):
        """The lost packets of the example; its printed replies alone give the same but for what
        they were not asked."""
        for replies in ((), ("--replies", EXAMPLES / "backup-console.replies")):
            _, texts = self.draw(*BACKUP, *replies)
            self.assertIn("2 of 6 lost", texts)
            self.assertIn("0 of 5 lost", texts)

    def test_questions_change_nothing(self):
        script = (EXAMPLES / "backup-console.script").read_text()
        asked = rehearsal.with_questions(script, list(range(0, 7000, 10)))
        own = rehearsal.rehearse(EXAMPLES / "one-dimmer.asc", script)
        more = rehearsal.rehearse(EXAMPLES / "one-dimmer.asc", asked)
        self.assertGreater(len(more.events), len(own.events) + 600)
        rest = iter(more.events)
        self.assertTrue(all(any(event == each for each in rest) for event in own.events))
        self.assertEqual(own.last, more.last)

    def test_lost_packets(self):
        """What `live` printed tells which packets were lost."""
        file = self.file("show.asc", S1)
        kept = self.file("night.play", b"0 go\n0 tick\n2000 tick\n4000 tick\n")
        printed = self.file("printed", b"0 ok\n2000 live 1:x1\n4000 live 1:x2\n")
        drawn, texts = self.draw("night", file, kept, "--replies", printed)
        self.assertEqual("2", texts[texts.index("lost packets") + 1])
        self.assertIn("2 packets were lost", drawn)
        self.assertNotIn("lost packets", self.draw("night", file, kept)[1])

    def test_names_are_text(self):
        """What a show is called by is never markup."""
        file = self.file("show.asc", text('CUE 1 ! a <b>&" sign', "CHAN 1@FL", "PATCH 1 1<1@FL"))
        kept = self.file("night.play", b"0 go\n0 tick\n25 tick\n")
        _, texts = self.draw("night", file, kept, "--title", "</svg>")
        self.assertIn('1 a <b>&" sign', texts)
        self.assertIn("</svg>", texts)

    def test_part_of_a_night(self):
        """Commands before the part count, and are not drawn."""
        file = self.file("show.asc", S1)
        kept = self.file("night.play", b"0 go\n0 tick\n6000 tick\n6025 tick\n7000 go\n")
        part = ("--from", 6000, "--until", 6500, "--slot", "1:1")
        _, texts = self.draw("night", file, kept, *part)
        self.assertNotIn("1", texts[texts.index("night.play") :])
        self.assertIn("1:1", texts)

    def test_refused(self):
        file, kept = self.file("show.asc", S1), self.file("night.play", b"0 go\n0 tick\n5 ti")
        self.assertEqual(0, run_tool("picture", "night", file, kept).returncode)
        cases = (
            (b"", "the record has no lines"),
            (b"0 go\n5 jump\n0 tick\n", "record: line 2 refused"),
            (b"0 go\n", "no tick is in this part of the night: nothing was shown"),
        )
        for content, told in cases:
            kept.write_bytes(content)
            done = run_tool("picture", "night", file, kept)
            self.assertEqual((1, "", f"picture: {told}\n"), tuple(vars(done).values())[1:])
        done = run_tool("picture", "night", file, kept, "--channel", 9)
        self.assertEqual((1, "picture: no tick"), (done.returncode, done.stderr[:16]))
        kept.write_bytes(b"0 tick\n")
        done = run_tool("picture", "night", file, kept, "--channel", 9)
        self.assertEqual(
            (1, "picture: channel 9 runs no dimmer\n"), (done.returncode, done.stderr)
        )
        file.write_bytes(text("CUE x"))
        done = run_tool("picture", "night", file, kept)
        self.assertEqual(
            (1, "picture: show line 1: BadNumber"), (done.returncode, done.stderr.splitlines()[0])
        )

    def test_other_replies(self):
        """Replies of another script are refused, and so is a script that the program refuses."""
        own = (EXAMPLES / "backup-console.replies").read_bytes()
        for content in (b"", own[: len(own) // 2], own + b"99 ok\n", b"\n" + own, b"no replies"):
            done = run_tool("picture", *BACKUP, "--replies", self.file("replies", content))
            told = "picture: the replies are not those of this script\n"
            self.assertEqual((1, "", told), (done.returncode, done.stdout, done.stderr))
        script = self.file("night.script", b"receiver 1\n0 slots\n")
        done = run_tool("picture", "rehearsal", EXAMPLES / "one-dimmer.asc", script)
        self.assertEqual("picture: rehearse: line 2 refused", done.stderr.splitlines()[0])

    def test_bare_rehearsals(self):
        """Without events, without receivers, and with datagrams of no console."""
        console = f"console 1 100 {CID}\n"
        strays = "receiver 7\n5 stray 0\n9 stray 0 00\n9 slots 0\n9 deliver 0 0 1 5\n"
        for lines in ("", "0 tick 0\n", strays):
            script = self.file("night.script", (console + lines).encode())
            self.draw("rehearsal", EXAMPLES / "one-dimmer.asc", script)


class Shows(PictureTest):
    def test_names(self):
        """A cue is called by its TEXT line, else by the comment of its line."""
        found = cue_list.read_show(
            "-",
            text(
                "IDENT 3:0", "CUE 1 ! one", "UP 1:30.5 2", "CUE 2", 'TEXT "two, or  so" ! no',
                "CUE .5 1 ! \xe9", "DOWN 4", "SUB 3 ! three", "GROUP 4", "TEXT four",
                "CUE 9 2 ! foreign", "TEXT foreign", "$MAKER", "CUE 7", "UP .5", "DOWN 1 .25",
                "PATCH 1 1<1@FL 2<600@FL 2<2@FL 0<2@FL", "TEXT of none", "ENDDATA", "CUE 8",
            ),
        )  # fmt: skip
        names = {number: cue.name for number, cue in found.cues.items()}
        self.assertEqual({1000: "one", 2000: "two, or so", 500: "\xe9", 7000: ""}, names)
        self.assertEqual({3: cue_list.Record("three")}, found.subs)
        self.assertEqual({4: cue_list.Record("four")}, found.groups)
        fades = {number: cue.fade for number, cue in found.cues.items()}
        self.assertEqual({1000: 92500, 2000: 0, 500: 4000, 7000: 1250}, fades)
        self.assertEqual({1: 1, 600: 2}, found.patch)
        self.assertEqual([(3, 88)], found.slots_of(2, 2))

    def test_cleared(self):
        lines = ("CUE 1", "SUB 1", "GROUP 1", "PATCH 1 1<1@FL")
        for word, left in (("ALL", "0000"), ("CUE", "0111"), ("SUBS", "1011"), ("PATCH", "1110")):
            found = cue_list.read_show("-", text(*lines, f"CLEAR {word}"))
            tables = (found.cues, found.subs, found.groups, found.patch)
            self.assertEqual(left, "".join(str(len(table)) for table in tables))

    def test_examples_as_the_program_reads_them(self):
        for file in EXAMPLES.glob("*.asc"):
            self.assertTrue(cue_list.read_show(str(file)).cues)

    def test_faults(self):
        with self.assertRaisesRegex(Refused, "device fault"):
            cue_list.read_show(str(self.folder / "none"))


class Texts(unittest.TestCase):
    def test_clock(self):
        cases = ((0, "0 s"), (500, "0.5 s"), (59990, "59.99 s"), (60000, "1:00"))
        for moment, told in (*cases, (3661000, "1:01:01")):
            self.assertEqual(told, clock(moment))

    def test_ranges(self):
        self.assertEqual("1-3, 7, 9-10", ranges([1, 2, 3, 7, 9, 10]))
