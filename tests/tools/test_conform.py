"""`tools/conform`: small receivers and sources that break one rule each are caught by that rule,
ours break none, and docs/CONFORMANCE.md is what the tool makes of its results."""

import contextlib
import io
import json
import os
import shutil
import subprocess
import sys
import time
import unittest

import small_nodes
import small_receivers
import small_sources
from conforming import CASES, InMemory, broken_cases, choices, serve, verdicts
from expected.receiver import Receiver
from machine import Late, witness
from program import TOP, FolderTest, slots_in
from small_receivers import Small
from tooling import run_tool
from wire import own_network

from cueplayer_tools.conform.command import main
from cueplayer_tools.conform.expected import slots_of
from cueplayer_tools.conform.peers import SteppedClock
from cueplayer_tools.conform.report import rules_found
from cueplayer_tools.conform.rounds import Setting, try_all
from cueplayer_tools.conform.rules import RULES
from cueplayer_tools.conform.source_rules import RULES as SOURCE_RULES
from cueplayer_tools.conform.source_rules import judged_source
from cueplayer_tools.conform.streams import listening_of

# A machine that stood still for so long, in milliseconds, may have held up a source.
STALLED = 20
PAGE, RESULTS = TOP / "docs/CONFORMANCE.md", TOP / "docs/conformance.json"
# The choices of our own receiver.
OURS = {
    "look at loss": {"goes dark"},
    "numbers after a loss": {"takes any number"},
    "termination": {"goes dark"},
    "after a termination": {"takes it", "ignores it", "shows it at once"},
    "synchronization": {"shows it at once"},
    "priority beyond": {"ignores the packet"},
    "merge": {"the highest level of each slot"},
    "number of sources": {"4 sources"},
    "fewer slots than before": {"the others are 0"},
    "post-amble size": {"ignores it"},
    "flags and lengths": {"ignores it"},
    "bytes after the packet": {"ignores the bytes"},
}


class SecondReader(Receiver):
    """The tests' own reading of FORMATS."""

    shared = None

    def take(self, moment, data, sender):
        super().take(moment, data)

    def look(self, moment):
        return slots_in(self.slots_line(moment))


class Holds(Small):
    """Keeps what it showed last when no source is left."""

    last: dict[int, int] = {}

    def take(self, moment, data, sender):
        super().take(moment, data, sender)
        self.look(moment)

    def look(self, moment):
        shown = super().look(moment)
        if any(not one.is_over for one in self.sources.values()):
            self.last = shown
        return self.last


class ShowsTheNewest(Small):
    """Of sources of one priority it shows the one that sent last, and of slots it keeps what no
    packet brings."""

    def take(self, moment, data, sender):
        before = dict(self.sources)
        super().take(moment, data, sender)
        for key in [key for key, one in self.sources.items() if before.get(key) is not one]:
            self.sources[key] = self.sources.pop(key)

    def slots_in(self, data, last):
        slots = data[126 : 126 + int.from_bytes(data[123:125], "big") - 1]
        return slots + (last.slots if last else bytes(512))[len(slots) :]

    def look(self, moment):
        self.forget(moment)
        first = max((one.priority for one in self.sources.values() if not one.is_over), default=0)
        lit = [one for one in self.sources.values() if one.priority == first and not one.is_over]
        shown = lit[-1].slots if lit else bytes(512)
        return {slot: level for slot, level in enumerate(shown, 1) if level}


class Receivers(unittest.TestCase):
    def test_sound_ones(self):
        """A small receiver that keeps to the rules breaks none, and the second reader makes our
        choices."""
        self.assertEqual({}, broken_cases(verdicts(Small)))
        found = verdicts(SecondReader)
        self.assertEqual({}, broken_cases(found))
        self.assertEqual(OURS, choices(found))

    def test_broken_ones(self):
        """Each is caught by cases of the rule that it breaks, and by no other that it need not
        break; each case catches one."""
        catching = {name: set() for name in CASES}
        for kind in small_nodes.BREAKING:
            with self.subTest(kind.__name__):
                caught = set(kind.caught) or CASES[kind.rule]
                wanted = {kind.rule: caught, **kind.also}
                self.assertEqual(wanted, broken_cases(verdicts(kind)))
                catching[kind.rule] |= caught
        self.assertGreaterEqual(len(small_nodes.BREAKING), 20)
        for rule in RULES:
            judged = {case.name for case in rule.cases if not case.is_open}
            if rule.name != "number of slots":
                self.assertEqual(judged, catching[rule.name], rule.name)

    def test_choices(self):
        """What the standard leaves open is no fault."""
        found = verdicts(Holds)
        self.assertEqual({}, broken_cases(found))
        told = choices(found)
        self.assertEqual({"holds the last look"}, told["look at loss"] | told["termination"])
        found = verdicts(ShowsTheNewest)
        self.assertEqual({}, broken_cases(found))
        told = choices(found)
        self.assertEqual({"the last packet"}, told["merge"])
        self.assertEqual({"the newest source alone"}, told["number of sources"])
        kept = {"keeps the slots that it does not have"}
        self.assertEqual(kept, told["fewer slots than before"])

    def test_one_universe(self):
        """One after the other, in one universe, by a receiver that is never begun anew: what one
        case leaves behind does not touch the next one."""
        for kind in (Small, Holds, ShowsTheNewest):
            kept = kind(7)
            found = verdicts(lambda _, one=kept: one, universes=(7,))
            self.assertEqual({}, broken_cases(found))
            self.assertEqual(choices(verdicts(kind)), choices(found))

    def test_busy_machine(self):
        """Steps that come late prove nothing."""

        class Slow(Small):
            def look(self, moment):
                clock.moment += 500
                return super().look(moment)

        clock = SteppedClock()
        setting = Setting(lambda: InMemory(Slow, clock, range(1, 4)), clock)
        rules = tuple(rule for rule in RULES if rule.name == "START code")
        found = try_all(setting, rules).verdicts
        self.assertEqual({3}, {each.tries for each in found if each.verdict == "not tried"})
        self.assertEqual({}, broken_cases(found))

    def test_every_rule_has_a_case(self):
        names = [rule.name for rule in RULES]
        self.assertEqual(len(names), len(set(names)))
        for rule in RULES:
            self.assertEqual(len(rule.cases), len(CASES[rule.name]), rule.name)


class Sources(unittest.TestCase):
    def judge(self, datagrams):
        """What each rule says of a source that fell silent before the listening ended."""
        datagrams = sorted(datagrams, key=lambda one: one.moment)
        last = datagrams[-1].moment
        return {each.rule: each for each in judged_source(listening_of(datagrams, 0.0, last + 3))}

    def broken_rules(self, datagrams):
        return {name for name, each in self.judge(datagrams).items() if each.verdict == "broken"}

    def test_sound_ones(self):
        for datagrams in (small_sources.datagrams(), small_sources.both()):
            self.assertEqual(set(), self.broken_rules(datagrams))

    def test_broken_ones(self):
        """Each breaks its rule and no other, and each rule that can be broken is."""
        for place, (rule, datagrams) in enumerate(small_sources.BREAKING):
            with self.subTest(rule, place=place):
                self.assertEqual({rule}, self.broken_rules(datagrams))
        able = {rule.name for rule in SOURCE_RULES if rule.faults}
        self.assertEqual(able, {rule for rule, _ in small_sources.BREAKING})

    def test_seen(self):
        """What is no matter of a rule is told."""
        datagrams = small_sources.datagrams(priority=150)
        datagrams = small_sources.at(datagrams, (2, 3), 125, b"\xdd")
        found = self.judge(datagrams)
        self.assertEqual("150", found["priorities sent"].says())
        self.assertIn("per-address priority", found["START codes"].says())
        self.assertEqual("seen", found["universe discovery"].verdict)
        still = small_sources.datagrams()[:-3]
        ended = still[-1].moment + 0.1
        found = {each.rule: each for each in judged_source(listening_of(still, 0.0, ended))}
        self.assertEqual("not tried", found["termination"].verdict)


class Tool(FolderTest):
    def result(self, *words):
        """What a run finds; its status is 1 where a rule is broken."""
        done = run_tool("conform", *words, "--json")
        self.assertIn(done.returncode, (0, 1), done.stderr)
        result = json.loads(done.stdout)
        broken = any(rule["verdict"] == "broken" for rule in result["rules"])
        self.assertEqual(int(broken), done.returncode)
        return result

    def assertKept(self, result, *verdicts):
        found = {rule["verdict"] for rule in result["rules"]}
        self.assertLessEqual(found, {"kept", *verdicts}, result)

    def test_own_receiver(self):
        """`listen` breaks no rule, and makes the choices that the pages tell."""
        result = self.result("receiver", "cueplayer")
        self.assertKept(result, "choice", "not tried")
        told = {}
        for rule in result["rules"]:
            chosen = {case["says"] for case in rule["cases"] if case["verdict"] == "choice"}
            told |= {rule["rule"]: chosen} if chosen else {}
        late = {"look at loss", "numbers after a loss"}
        self.assertEqual({name: each for name, each in OURS.items() if name not in late}, told)

    def test_own_source(self):
        """`live` breaks no rule."""
        began = time.monotonic()
        result = self.result("source", "cueplayer", "--seconds", 6)
        broken = [rule["rule"] for rule in result["rules"] if rule["verdict"] == "broken"]
        stalled = witness().stall(began, time.monotonic())
        if broken and stalled > STALLED:
            raise Late(f"broken: {broken}; the machine stood still for {stalled:.0f} ms")
        self.assertKept(result, "seen")

    def test_command(self):
        """A receiver of the user's, over UDP and in real time."""
        with serve(small_receivers.ShowsPreviews, range(1, 6), self.folder) as words:
            chosen = ("--settle", 600, "--rule", "preview", "--rule", "numbering")
            result = self.result("receiver", *words, *chosen)
        found = {rule["rule"]: rule["verdict"] for rule in result["rules"]}
        if "not tried" in found.values():
            self.skipTest("this machine is too busy")
        self.assertEqual({"numbering": "kept", "preview": "broken"}, found)

    def test_second_address(self):
        """A source that moves to another address of loopback."""
        with serve(small_receivers.KnowsSourcesByAddress, range(1, 3), self.folder) as words:
            result = self.result("receiver", *words, "--settle", 600, "--rule", "CID")
        found = {case["case"]: case["verdict"] for case in result["rules"][0]["cases"]}
        if "not tried" in found.values():
            self.skipTest("this machine is too busy")
        self.assertEqual({"another port": "kept", "another address": "broken"}, found)

    def test_table(self):
        """For people: a line for each rule, and how many came to what."""
        done = run_tool("conform", "receiver", "cueplayer", "--rule", "CID", "--rule", "merge")
        self.assertEqual((0, ""), (done.returncode, done.stderr))
        lines = done.stdout.splitlines()
        self.assertRegex(
            lines[0], r"^receiver: cueplayer listen \d+\.\d+\.\d+, \d{4}-\d\d-\d\d, by cueplayer"
        )
        self.assertIn(" merge  6.2.3  choice: the highest level of each slot", lines)
        self.assertIn(" CID    5.6    kept", lines)
        self.assertEqual("2 rules: 1 kept, 1 choice", lines[-1])

    def test_words(self):
        """What is refused, and what cannot be tried, is told with status 2."""
        for words, telling in (
            ((), "receiver|source|vectors|page"),
            (("receiver",), "name a peer"),
            (("receiver", "ola", "--command", "x"), "name a peer"),
            (("receiver", "nobody"), "nobody"),
            (("source",), "where to listen"),
            (("receiver", "--command", "true", "--to", "300.0.0.1"), "not an IPv4 address"),
            (("receiver", "--command", "true", "--universes", "5-2"), "not a universe"),
            (("receiver", "--command", "echo dark"), "no slots line"),
            (
                ("receiver", "--command", "echo slots", "--card", "192.0.2.1"),
                "no card has 192.0.2.1",
            ),
            (("receiver", "--command", "no-such-command"), "No such file"),
            (("source", "--at", "192.0.2.1"), "192.0.2.1"),
            (("source", "--at", "127.0.0.1:0", "--seconds", "1"), "no data packet came"),
            (("page", "no-such-file"), "No such file"),
            (("page", __file__), "no results"),
        ):
            with self.subTest(words):
                out, err = io.StringIO(), io.StringIO()
                with contextlib.redirect_stdout(out), contextlib.redirect_stderr(err):
                    try:
                        status = main(list(words))
                    except SystemExit as end:
                        status = end.code
                self.assertEqual((2, ""), (status, out.getvalue()))
                self.assertIn(telling, err.getvalue())


class Others(unittest.TestCase):
    """A few rules, of the programs of other makers."""

    def verdicts(self, peer, *tools):
        missing = [each for each in tools if not shutil.which(each)]
        if missing:
            self.skipTest(f"not there: {', '.join(missing)}")
        if os.geteuid() != 0:
            self.skipTest("only root can give it a network of its own")
        own_network(self)
        chosen = (word for name in ("preview", "numbering", "CID") for word in ("--rule", name))
        done = run_tool("conform", "receiver", peer, *chosen, "--json")
        self.assertIn(done.returncode, (0, 1), done.stderr)
        return {rule["rule"]: rule["verdict"] for rule in json.loads(done.stdout)["rules"]}

    def test_open_lighting_as_another_root(self):
        """Also where root is one of a user namespace, which knows no other user."""
        if not shutil.which("olad") or not shutil.which("ola_patch"):
            self.skipTest("no OLA is there")
        own_network(self)
        words = ("--user", "--map-root-user", "--net", sys.executable, TOP / "tools/conform")
        words += ("receiver", "ola", "--rule", "preview")
        done = subprocess.run(["unshare", *words], capture_output=True, text=True, timeout=120)
        if "cannot make a network of its own" in done.stderr:
            self.skipTest(done.stderr)
        self.assertEqual("", done.stderr)
        self.assertIn("preview", done.stdout)

    def test_open_lighting(self):
        tools = ("olad", "ola_dev_info", "ola_patch", "setpriv", "unshare", "ip")
        found = self.verdicts("ola", *tools)
        self.assertEqual({"preview", "numbering", "CID"}, set(found))
        # On a busy machine a case may come late, and is not judged.
        self.assertNotIn("broken", found.values())

    def test_qlcplus(self):
        found = self.verdicts("qlcplus", "qlcplus", "unshare", "ip")
        self.assertEqual({"preview", "numbering", "CID"}, set(found))
        self.assertNotEqual("broken", found["CID"])


class Page(unittest.TestCase):
    def test_made_by_the_tool(self):
        done = run_tool("conform", "page", RESULTS)
        self.assertEqual((0, "", PAGE.read_text()), (done.returncode, done.stderr, done.stdout))

    def test_of_these_rules(self):
        """The results are of the rules and the cases that there are."""
        receivers = [(rule.name, rule.clause, rule.asks) for rule in RULES]
        sources = [(rule.name, rule.clause, rule.asks) for rule in SOURCE_RULES]
        reader, text = json.JSONDecoder(), RESULTS.read_text().strip()
        found = []
        while text:
            result, end = reader.raw_decode(text)
            text = text[end:].lstrip()
            rules = [(rule["rule"], rule["clause"], rule["asks"]) for rule in result["rules"]]
            self.assertEqual(receivers if result["kind"] == "receiver" else sources, rules)
            for rule in result["rules"] if result["kind"] == "receiver" else ():
                self.assertEqual(CASES[rule["rule"]], {case["case"] for case in rule["cases"]})
            found.append((result["kind"], result["peer"].split()[0], result["version"]))
        peers = [("OLA", "0.10.9"), ("QLC+", "4.12.6")]
        for kind in ("receiver", "source"):
            self.assertLessEqual({(kind, *peer) for peer in peers}, set(found))
            self.assertIn("cueplayer", [peer for each, peer, _ in found if each == kind])


class SlotsLines(unittest.TestCase):
    def test_read(self):
        self.assertEqual({1: 64, 512: 1}, slots_of("slots 1:64 512:1"))
        self.assertEqual({}, slots_of("slots"))

    def test_verdict_of_a_rule(self):
        """It is the worst of its cases."""
        found = {
            each.rule: each.verdict for each in rules_found(verdicts(small_receivers.TakesRepeats))
        }
        self.assertEqual("broken", found["numbering"])
        self.assertEqual("kept", found["numbering wrap"])
        self.assertEqual("choice", found["merge"])
