"""`tools/storm`: its answers against a slow computation with the second reader, and its words."""

import io
import json
import os
import re
import shlex
import stat
import subprocess
import unittest
import xml.etree.ElementTree as xml
from contextlib import redirect_stderr, redirect_stdout

from expected import show as shows
from program import PROGRAM, TOP, FolderTest, text
from storms import (
    Player,
    arrive_at_looks,
    chance_of,
    small_network,
    small_night,
    small_show,
    verdicts,
)
from tooling import run_tool

from cueplayer_tools.storm import command as storm_command

from cueplayer_tools.cue_list import read_show
from cueplayer_tools.record import read_record
from cueplayer_tools.storm import seen as storm_seen
from cueplayer_tools.storm.network import Cable, Network, Outage, Traffic
from cueplayer_tools.storm.night import Console, cid_of, plan_of, with_ticks
from cueplayer_tools.storm.premises import premises_of, together
from cueplayer_tools.storm.report import data
from cueplayer_tools.storm.sweep import blown, carry
from cueplayer_tools.storm.verdict import storm_of

# So many nights, each in so many networks.
NIGHTS, NETWORKS = 25, 8
EXAMPLES = TOP / "examples"
OPERATING = (TOP / "docs/OPERATING.md").read_text()
# Two lamps, a universe each, that are cut between half and full.
LAMPS = text("CUE 1", "CHAN 1@50 2@50", "CUE 2", "CHAN 1@FL 2@FL", "PATCH 1 1<1@FL 2<513@FL")
# Its packets: at 0, 25, 50 and 75 ms, and then each 800 ms.
CUT = b"0 goto 2 in 0\n6000 master FL\n"


class StormTest(FolderTest):
    def plan(self, content, lines, every=25):
        file = self.file("show.asc", content)
        show = read_show(str(file))
        return plan_of(str(file), with_ticks(read_record(lines), show, every), show, 1)

    def run_storm(self, *words):
        """Runs the tool in this process: its status, and what it wrote."""
        out, err = io.StringIO(), io.StringIO()
        with redirect_stdout(out), redirect_stderr(err):
            try:
                status = storm_command.main(list(map(str, words)))
            except SystemExit as ended:
                status = ended.code
        return status, out.getvalue(), err.getvalue()

    def storm(self, *words):
        """What the tool prints."""
        status, out, err = self.run_storm(*words)
        self.assertEqual((0, ""), (status, err))
        return out

    def data(self, *words):
        """The same as data."""
        return json.loads(self.storm(*words, "--json"))


class SmallStorms(StormTest):
    """Storms of a few seconds, by chance, against the slow computation."""

    def assertJudged(self, plan, given, show, consoles, network):
        traffic = carry(plan, consoles, network)
        arrive_at_looks(traffic)
        storm = storm_of(plan, consoles, traffic, network)
        cids = [bytes.fromhex(cid_of(at).replace("-", "")) for at in range(len(consoles))]
        players = [Player(show, given, each, cid) for each, cid in zip(consoles, cids)]
        came = {key: each.came for key, each in traffic.items()}
        wanted = verdicts(players, came, storm.first, storm.last)
        for found, judgement in zip(storm.verdicts, wanted, strict=True):
            stretches = [[each.first, each.until, each.off, each.dark] for each in found.stretches]
            times = (found.in_window, found.is_fresh, found.held)
            self.assertEqual(judgement, (found.whole, stretches, *times, 0), network)
            self.assertEqual([], found.faults)
            for at, player in enumerate(players):
                sent = traffic[at, found.universe].sent
                self.assertEqual(player.sent[found.universe], [k for k in sent if k < storm.last])
        return storm

    def test_small_storms(self):
        """What was shown, meant and promised, to the step; and no promise is broken."""
        kinds = {"wrong": 0, "dark": 0, "outside": 0, "ended": 0, "merged": 0}
        for night in range(NIGHTS):
            chance = chance_of(night)
            content = small_show(chance).encode()
            lines, last = small_night(chance)
            file = self.file("show.asc", content)
            given = with_ticks(read_record(lines), read_show(str(file)), 25)
            given = [line for line in given if line.moment <= last + 500]
            plan = plan_of(str(file), given, read_show(str(file)), 1)
            for seed in range(NETWORKS):
                network = small_network(chance, seed, last)
                late = [5 * chance.randrange(5) for _ in range(chance.randint(1, 3))]
                consoles = [Console(chance.choice([100, 150]), each) for each in late]
                storm = self.assertJudged(plan, given, shows.read(content), consoles, network)
                kinds["wrong"] += any(each.wrong for each in storm.verdicts)
                kinds["dark"] += any(each.dark for each in storm.verdicts)
                kinds["outside"] += any(each.in_window < each.whole for each in storm.verdicts)
                kinds["ended"] += plan.ended is not None
                kinds["merged"] += len(consoles) > 1
        self.assertGreater(min(kinds.values()), 4, kinds)

    def test_parts(self):
        """A night that is rehearsed in many parts is the same night."""
        lines = "0 go\n700 goto 2 in .5\n1500 sub 1 80\n4000 goto 1\n4100 end\n"
        # More universes than a rehearsal has receivers.
        patch = " ".join(f"1<{dimmer}@FL 2<{dimmer + 1}@70" for dimmer in range(1, 5000, 512))
        cues = ("CUE 1", "UP 1", "CHAN 1@FL", "SUB 1", "CHAN 2@FL", "CUE 2", "CHAN 2@70")
        plan = self.plan(text(*cues, f"PATCH 1 {patch}"), lines)
        consoles = [Console(100), Console(150, 10)]
        outages = (Outage(900, 3600, console=1), Outage(2000, 2300))
        network = Network(3, 0.2, 60, 0.1, 0, 30, 0.1, outages=outages)
        whole = blown(plan, consoles, network)
        most = storm_seen.MOST_DELIVERIES
        self.addCleanup(setattr, storm_seen, "MOST_DELIVERIES", most)
        kept = []
        storm_seen.MOST_DELIVERIES = 20
        parts = blown(plan, consoles, network, kept.append)
        self.assertGreater(len(kept), 20)
        self.assertEqual(list(range(1, 11)), [each.universe for each in whole.verdicts])
        self.assertEqual((whole.seen, data(whole)), (parts.seen, data(parts)))


class Premises(unittest.TestCase):
    def premises_at(self, sent, came, moment):
        """What holds of a console at a moment: in the window, fresh, silent."""
        changes = premises_of(Traffic(sent, came), moment)
        return tuple(changes[-1][1])[1:]

    def test_window(self):
        """19 behind and 217 ahead are in, one more is out, and a silence begins it anew."""
        sent = list(range(0, 23 * 300, 23))
        for came, inside in (
            ([(460, 20), (461, 1)], True),
            ([(460, 20), (461, 0)], False),
            ([(0, 0), (2499, 217)], True),
            ([(0, 0), (2499, 218)], False),
            ([(0, 0), (2500, 218)], True),
        ):
            self.assertEqual(inside, self.premises_at(sent, came, came[-1][0])[0], came)
        out = [(460, 20), (461, 0)]
        insides = tuple(self.premises_at([0], out, at)[0] for at in (2960, 2961))
        self.assertEqual((False, True), insides)

    def test_fresh(self):
        """From when the newest packet sent comes first, until it is 2.5 seconds old."""
        sent, came = [0, 25], [(10, 0), (40, 1), (900, 1)]
        moments = (9, 10, 24, 25, 39, 40, 2539, 2540, 3399, 3400)
        by_then = {at: [each for each in came if each[0] <= at] for at in moments}
        found = {at: self.premises_at(sent, by_then[at], at)[1:] for at in moments}
        fresh = {10, 24, 40, 2539}
        silent = {9, 3400}
        self.assertEqual({at: (at in fresh, at in silent) for at in found}, found)

    def test_together(self):
        """A console that sent nothing yet counts for nothing."""
        unsent, fresh = premises_of(Traffic([9], [(9, 0)]), 9)
        self.assertEqual((True, False, True), tuple(vars(together([unsent[1]])).values()))
        self.assertEqual((True, True, True), tuple(vars(together([unsent[1], fresh[1]])).values()))
        late = fresh[1]._replace(is_fresh=False)
        self.assertEqual((True, False, False), tuple(vars(together([late, fresh[1]])).values()))


class Networks(unittest.TestCase):
    SENT = list(range(0, 250_000, 25))

    def carry(self, universe=1, console=0, **words):
        """What a network makes of ten thousand packets."""
        cable = Cable(Network(**words), console, 0, self.SENT[-1])
        return cable.carry(universe, self.SENT)

    def test_same_seed(self):
        words = {"loss": 0.1, "repeat": 0.1, "most_delay": 30, "reorder": 0.1}
        one, same = self.carry(**words), self.carry(**words)
        self.assertEqual((one.came, one.lost), (same.came, same.lost))
        for other in ({"seed": 2}, {"universe": 2}, {"console": 1}):
            self.assertNotEqual(one.lost, self.carry(**words, **other).lost)

    def test_rates(self):
        """As much is lost, repeated and held back as was asked for, and nothing else happens."""
        still = self.carry()
        self.assertEqual([(moment, k) for k, moment in enumerate(self.SENT)], still.came)
        self.assertEqual(({}, 0, 0), (still.lost, still.repeated, still.overtakes()))
        lost = self.carry(loss=0.05)
        self.assertAlmostEqual(500, len(lost.lost), delta=100)
        self.assertEqual({k for _, k in lost.came} | set(lost.lost), set(range(10_000)))
        self.assertAlmostEqual(1000, self.carry(repeat=0.1).repeated, delta=150)
        late = self.carry(least_delay=2, most_delay=6).came
        self.assertEqual({2, 3, 4, 5, 6}, {moment - self.SENT[k] for moment, k in late})
        held = self.carry(reorder=0.1, held_back=60)
        self.assertAlmostEqual(1000, held.overtakes(), delta=150)
        self.assertEqual({0, 60}, {moment - self.SENT[k] for moment, k in held.came})
        self.assertEqual(10_000, len(self.carry(loss=1.0).lost))

    def test_more_loss(self):
        """What is lost at a rate is lost at each higher one, and what comes stays as it is."""
        words = {"repeat": 0.1, "most_delay": 30}
        few, more = (self.carry(loss=loss, **words) for loss in (0.05, 0.2))
        self.assertLess(set(few.lost), set(more.lost))
        self.assertLess(set(more.came), set(few.came))

    def test_bursts(self):
        """As much is lost, but many in a row."""
        traffic = self.carry(loss=0.1, burst=200)
        self.assertAlmostEqual(1000, len(traffic.lost), delta=300)
        begin = sum(k - 1 not in traffic.lost for k in traffic.lost)
        self.assertAlmostEqual(8, len(traffic.lost) / begin, delta=2)

    def test_outages(self):
        """Nothing passes from the first moment on, and all from the other on."""
        for outage, console, universe, lost in (
            (Outage(100, 200, console=1), 1, 5, range(4, 8)),
            (Outage(100, 200, universe=5), 1, 5, range(4, 8)),
            (Outage(100, 200), 1, 5, range(4, 8)),
            (Outage(100, 200, console=1), 0, 5, ()),
            (Outage(100, 200, universe=5), 1, 6, ()),
        ):
            traffic = self.carry(universe, console, outages=(outage,))
            self.assertEqual(dict.fromkeys(lost, outage.name()), traffic.lost)
        delayed = {"least_delay": 30, "most_delay": 30}
        node, switch = (
            self.carry(outages=(outage,), **delayed)
            for outage in (Outage(100, 200, universe=1), Outage(100, 200))
        )
        self.assertEqual(list(range(3, 7)), list(node.lost))
        self.assertEqual(list(range(3, 8)), list(switch.lost))


class Words(StormTest):
    """The tool itself."""

    def night(self, lines=CUT, content=LAMPS):
        return self.file("show.asc", content), self.file("night.play", lines)

    def test_repeats_and_keep_alive(self):
        """A cut whose packets are lost is wrong until the next one: 25 ms, or to the
        keep-alive."""
        lengths = (25, 50, 75, 100, 500, 1000, 2500)
        for until, wrong in ((1, 25), (26, 50), (76, 875), (876, 1675), (1676, 2475)):
            found = self.data(*self.night(), "--switch", f"0-{until}")
            for each in found["universes"]:
                sums = [each[name] for name in ("wrong", "dark", "longest", "off", "held")]
                self.assertEqual([wrong, wrong, wrong, 255, 0], sums)
                counts = {str(length): int(wrong >= length) for length in lengths}
                self.assertEqual(counts, each["at_least"])

    def test_nothing_comes(self):
        """Then all is dark, as it is promised: each console is silent."""
        for words in (("--loss", 100), ("--switch", "0-99999")):
            for each in self.data(*self.night(), *words)["universes"]:
                times = [each[name] for name in ("time", "wrong", "dark", "longest", "promised")]
                self.assertEqual(([7000] * 5, 0), (times, each["fresh"]))

    def test_dark(self):
        """Where three keep-alives in a row are lost, it is dark until the fourth comes."""
        found = self.data(*self.night(), "--node", "2:800-3200")
        first, second = found["universes"]
        self.assertEqual((0, 0), (first["wrong"], second["held"]))
        dark = {"universe": 2, "from": 2575, "until": 3275, "dark": 700}
        dark |= {"off": 255, "slot": 1, "level": 0, "meant": 255}
        dark |= {"packets": ["console 0: 4-6 lost at the node"]}
        self.assertEqual([dark], found["worst"])
        times = [second[name] for name in ("time", "in_window", "fresh")]
        self.assertEqual([7000, 7000, 7000 - 2400], times)

    def test_backup(self):
        """The look of a main whose cable is out stands for 2.5 seconds; then the backup leads."""
        lines = b"0 goto 2 in 0\n1000 goto 1 in 0\n8000 master FL\n"
        consoles = ("--console", 150, "--console", "100+5")
        found = self.data(*self.night(lines), *consoles, "--cable", "0:900-8000")
        for each in found["universes"]:
            self.assertEqual((875 + 2500 - 1000, 127), (each["wrong"], each["off"]))
            self.assertEqual((0, each["time"]), (each["dark"], each["in_window"]))

    def test_same_twice(self):
        words = (*self.night(), "--loss", 20, "--delay", "1-30", "--repeat", 5)
        words += ("--reorder", "5:90")
        self.assertEqual(self.storm(*words), self.storm(*words))
        self.assertNotEqual(self.storm(*words), self.storm(*words, "--seed", 2))

    def test_report(self):
        """The table, the worst moments, and what was promised."""
        told = self.storm(*self.night(), "--switch", "0-26", "--cable", "0:3000-3100")
        self.assertIn("night.play, 0:07.", told)
        outages = "switch out 0:00.000 to 0:00.026, cable 0 out 0:03.000 to 0:03.100"
        self.assertIn(f"loss 0 %, {outages}, seed 1\n", told)
        self.assertRegex(told, r"(?m)^ +1  50 ms  0\.\d+ %    50 ms       255  50 ms  0 ms$")
        self.assertIn("  1. 0:00.000 universe 1 dark for 50 ms: slot 1 at 0, meant 255\n"
                      "     console 0: 0-1 lost at the switch\n", told)  # fmt: skip
        self.assertRegex(told, r"promise broken\n +1 .* 0 ms\n")

    def test_scripts(self):
        """What was rehearsed is kept, and is a script."""
        folder = self.folder / "kept"
        show, lines = self.night()
        self.storm(show, lines, "--loss", 10, "--scripts", folder)
        (script,) = folder.iterdir()
        done = run_tool("picture", "rehearsal", show, script)
        self.assertEqual((0, ""), (done.returncode, done.stderr))

    def test_sweep(self):
        night = self.night(b"0 goto 2 in 5\n6000 goto 1 in 0\n")
        words = (*night, "--sweep", "0,10,50", "--nights", 2)
        none, few, many = self.data(*words)
        self.assertEqual((0, 0), (none["wrong"], none["longest"]))
        self.assertTrue(0 < few["wrong"] < many["wrong"])
        self.assertEqual([none["time"]] * 2, [few["time"], many["time"]])
        table = self.storm(*words).splitlines()
        rates = [re.split("  +", line.strip())[:3] for line in table]
        self.assertEqual(["loss", "seeds", "time"], rates[0])
        wanted = [[f"{rate} %", "2", "median"] for rate in (0, 10, 50)]
        self.assertEqual(wanted, rates[2::3])
        others = [row[0] for row in rates[1:] if row[0] not in ("0 %", "10 %", "50 %")]
        self.assertEqual(["least", "most"] * 3, others)
        alone = self.storm(*night, "--sweep", "10").splitlines()[1].split("  ")
        self.assertIn("alone", [cell.strip() for cell in alone])

    def test_spread(self):
        """Of each number the least, the median and the most over the seeds are those of the storms
        that each seed draws by itself."""
        night = self.night(b"0 goto 2 in 5\n6000 goto 1 in 0\n")
        words = (*night, "--loss", 30, "--delay", "0-40")
        drawn = [self.data(*words, "--seed", seed) for seed in range(7, 12)]
        wrong = sorted(sum(each["wrong"] for each in one["universes"]) for one in drawn)
        longest = sorted(max(each["longest"] for each in one["universes"]) for one in drawn)
        over = self.data(*words, "--seed", 7, "--nights", 5)
        self.assertEqual(drawn[0]["universes"], over["universes"])
        over = over["seeds"]
        self.assertEqual((5, sum(wrong)), (over["seeds"], over["wrong"]))
        for place, name in ((0, "least"), (2, "median"), (4, "most")):
            found = over[name]
            self.assertEqual((wrong[place], longest[place]), (found["wrong"], found["longest"]))
        self.assertLess(wrong[0], wrong[4])
        (rate,) = self.data(*words, "--seed", 7, "--nights", 5, "--sweep", 30)
        self.assertEqual(over, rate)
        table = self.storm(*words, "--seed", 7, "--nights", 5).splitlines()[-3:]
        fronts = [re.split("  +", row.strip())[0] for row in table]
        self.assertEqual(["least", "30 %", "most"], fronts)

    def test_record(self):
        """The ticks of a record are those of the night."""
        head = b"! cueplayer record 1: show 00\n! cid x\n"
        ticks = b"".join(b"%d tick\n" % moment for moment in range(0, 3000, 30))
        found = self.data(*self.night(head + b"0 goto 2\n" + ticks), "--switch", "0-1")
        times = [(each["wrong"], each["time"]) for each in found["universes"]]
        self.assertEqual([(30, 2970)] * 2, times)

    def test_part_of_a_night(self):
        words = ("--from", 1000, "--until", 2000)
        found = self.data(*self.night(b"0 goto 2 in 0\n6000 go\n"), *words)
        self.assertEqual([1000, 1000], [each["time"] for each in found["universes"]])

    def test_refused(self):
        show, lines = self.night()
        empty, bad = self.file("empty", b"! nothing\n"), self.file("bad", b"0 jump\n1 go\n")
        dark = self.file("dark.asc", text("CUE 1", "CHAN 1@FL"))
        for words, told in (
            ((show, empty), "the night has no lines"),
            ((show, bad), "record: line 1 refused"),
            ((show, self.folder / "none"), f"{self.folder}/none: No such file or directory"),
            ((dark, lines), "the night sends nothing: no tick is in it, or no dimmer is patched"),
            ((show, lines, *["--console", 100] * 5), "a rehearsal has 4 consoles at most"),
            ((show, lines, "--cable", "1:0-9"), "no console 1: the last one is 0"),
            ((show, lines, "--node", "3:0-9"), "universe 3 is not sent"),
            ((show, lines, "--scripts", empty), f"{empty}: File exists"),
        ):
            self.assertEqual((2, "", f"storm: {told}\n"), self.run_storm(*words))
        for words in (("--loss", 101), ("--loss", "x"), ("--delay", "9-3"), ("--cable", "1-2"),
                      ("--switch", "5-5"), ("--console", 201), ("--sweep", "1,"),
                      ("--reorder", "5:x")):  # fmt: skip
            status, out, err = self.run_storm(show, lines, *words)
            self.assertEqual((2, ""), (status, out), words)
            self.assertIn("usage: storm", err)

    def test_broken_promise(self):
        """A program whose receiver shows another level is found out, with the packets."""
        show, lines = self.night()
        liar = self.file("liar", f"""#!/bin/sh
[ "$1" = rehearse ] || exec {PROGRAM} "$@"
echo x >>"$0.count"
[ "$(wc -l <"$0.count")" = 4 ] || exec {PROGRAM} "$@"
{PROGRAM} "$@" | sed 's/ slots 1:128$/ slots 1:129/'
""".encode())  # fmt: skip
        liar.chmod(liar.stat().st_mode | stat.S_IXUSR)
        lines = self.file("other.play", b"0 goto 2 in 0\n1000 goto 1 in 0\n1500 goto 2 in 0\n")
        done = run_tool("storm", show, lines, env={**os.environ, "CUEPLAYER": str(liar)})
        self.assertEqual(1, done.returncode)
        self.assertRegex(done.stdout, r"\n +1 .* 500 ms\n +2 .* 500 ms\n$")
        for universe in (1, 2):
            where = f"FAULT 0:01.000 universe {universe} for 500 ms"
            newest = "console 0: newest 5, sent at 1000, came at 1000"
            wanted = f"{where}: slot 1 at 129, promised 128\n     {newest}\n"
            self.assertIn(wanted, done.stderr)
        self.assertIn("storm: a receiver showed other slots than promised", done.stderr)

    def test_hour(self):
        """An hour of two universes with a fade each minute."""
        show, night = self.file("show.asc", LAMPS), self.folder / "hour.play"
        moves = [f"{60_000 * at} goto {at % 2 + 1} in 5\n" for at in range(61)]
        night.write_text("".join(moves))
        began = sum(os.times()[:4])
        self.storm(show, night, "--loss", 5, "--delay", "1-8")
        # Of processor time: its own, and that of the program.
        self.assertLess(sum(os.times()[:4]) - began, 60)


class Pages(StormTest):
    """What docs/OPERATING.md tells."""

    def test_report(self):
        show, lines = EXAMPLES / "small-play.asc", EXAMPLES / "small-play.play"
        told = re.search(r"(?s)```\n(small-play\.play, .*?)```", OPERATING)[1]
        done = run_tool("storm", show, lines, "--loss", 5)
        self.assertEqual((0, ""), (done.returncode, done.stderr))
        self.assertEqual(told, done.stdout[: len(told)])

    def test_how_long(self):
        """A row of the table, by the lines that the page tells."""
        page = OPERATING.partition("### How long a wrong level stands\n")[2]
        commands = re.search(r"(?s)```\n(.*?)tools/storm", page)[1]
        subprocess.run(["bash", "-c", commands], cwd=self.folder, check=True)
        files = [self.folder / name for name in ("lamps.asc", "still.play")]
        (rate,) = self.data(*files, "--sweep", 10, "--nights", 10)
        times = r"(\d+) \((\d+) to (\d+)\) times"
        row = re.search(rf"(?m)^\| 10 %, one by one \|.*\| {times} \| ([\d.]+) s \|$", page)
        darks = [rate[name]["darks"] for name in ("median", "least", "most")]
        self.assertEqual([int(each) for each in row.groups()[:3]], darks)
        self.assertEqual(float(row[4]), rate["longest"] / 1000)


class Pictures(StormTest):
    def draw(self, *words):
        done = run_tool("picture", "storm", *words)
        self.assertEqual((0, ""), (done.returncode, done.stderr))
        drawn = xml.fromstring(done.stdout)
        texts = [part.text or "" for part in drawn.iter() if part.tag.endswith("}text")]
        return done.stdout, texts

    def command_in(self, page, tool):
        """The words of a command that a page tells, its files below the repository."""
        words = re.sub(r"\\\n!?", "", page)
        words = shlex.split(re.search(rf"tools/{tool} (.*)", words)[1])
        return [TOP / word if (TOP / word).is_file() else word for word in words]

    def test_fade(self):
        """The picture of the documents, byte for byte, as the lines of the fade tell."""
        words = self.command_in((EXAMPLES / "fade.play").read_text(), "picture storm")
        drawn, texts = self.draw(*words)
        self.assertEqual((TOP / "docs/storm.svg").read_text(), drawn)
        self.assertIn("The same fade at 0, 5 and 30 percent loss", texts)
        lost = [re.fullmatch(r"(\d+) of 71 lost", each) for each in texts]
        counts = [int(each[1]) for each in lost if each]
        self.assertTrue(0 == counts[0] < counts[1] < counts[2], counts)
        said = drawn.partition("</desc>")[0]
        wrong = re.findall(r"other than meant for (\d+) ms of 2400 ms", said)
        self.assertTrue(0 == int(wrong[0]) < int(wrong[1]) < int(wrong[2]), wrong)

    def test_loss(self):
        """The picture of a sweep, byte for byte, as the page tells it."""
        page = OPERATING.partition("With `--sweep` it draws")[2].partition(" >loss.svg")[0]
        drawn, texts = self.draw(*self.command_in(page, "picture storm"))
        self.assertEqual((TOP / "docs/loss.svg").read_text(), drawn)
        self.assertIn("never", texts)

    def test_slots(self):
        """Those that are named, else the brightest; and of a universe that is not sent none."""
        show = self.file("show.asc", LAMPS)
        lines = self.file("night.play", CUT)
        _, texts = self.draw(show, lines, "--loss", 5)
        self.assertLessEqual({"1:1", "2:1", "universe 1 wrong", "universe 2 wrong"}, set(texts))
        _, texts = self.draw(show, lines, "--slot", "2:1", "--console", 100, "--console", 90)
        self.assertIn("console 1", texts)
        self.assertNotIn("universe 1 wrong", texts)
        done = run_tool("picture", "storm", show, lines, "--slot", "3:1")
        told = (done.returncode, done.stdout, done.stderr)
        self.assertEqual((1, "", "picture: universe 3 is not sent\n"), told)

    def test_sweep(self):
        show = self.file("show.asc", LAMPS)
        lines = self.file("night.play", CUT)
        _, texts = self.draw(show, lines, "--sweep", "0,50", "--nights", 2, "--burst", 90)
        self.assertIn("packets lost in bursts of 90 ms, seed 1, 2 nights each", texts)
        self.assertLessEqual({"0 %", "50 %", "never", "wrong", "of it dark"}, set(texts))
