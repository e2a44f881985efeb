"""`tools/conform`, of a receiver that ends or hears no more: what was found before is kept, and
what ended it is told."""

import json
import unittest
from pathlib import Path

from conforming import CASES, InMemory, broken_cases, rules_named, serve, tried
from program import FolderTest
from small_nodes import BREAKING, DeafAfterSources
from small_receivers import Small, StopsAtCutDatagrams
from tooling import run_tool

from cueplayer_tools.conform.diagnoses import diagnoses_of
from cueplayer_tools.conform.peers import NetworkFault, PeerFault, SteppedClock
from cueplayer_tools.conform.rounds import Setting, try_all
from cueplayer_tools.line_protocol import Refused

CUT = ("cut datagrams", "in the header")
# A datagram of so many bytes ends the receivers here: one of those that the case above sends.
FATAL = 16
CHOSEN = ("cut datagrams", "preview", "START code")


class Dies(Small):
    """Answers no more once such a datagram came."""

    is_dead = False

    def take(self, moment, data, sender):
        self.is_dead = self.is_dead or len(data) == FATAL
        if not self.is_dead:
            super().take(moment, data, sender)

    def look(self, moment):
        if self.is_dead:
            raise PeerFault("it gives no answer")
        return super().look(moment)


def told_of(found):
    return [(each.what, each.says) for each in diagnoses_of(found)]


class Ended(unittest.TestCase):
    def test_comes_back(self):
        """The case that ends it is broken, by one packet, and the others are as of a receiver
        that does not end."""
        sound = tried(Small, rules_named(*CHOSEN))
        for universes in (range(1, 12), (1,)):
            found = tried(Dies, rules_named(*CHOSEN), universes=universes)
            self.assertEqual({CUT[0]: {CUT[1]}}, broken_cases(found.verdicts))
            for verdict, right in zip(found.verdicts, sound.verdicts, strict=True):
                if verdict.rule.name != CUT[0]:
                    self.assertEqual(right, verdict)
            (death,) = found.deaths
            self.assertEqual([FATAL], [len(each.data) for each in death.sent])
            says = f"it gives no answer; by the packet of {CUT[0]}, {CUT[1]}"
            self.assertEqual([("ended", says)], told_of(found))

    def test_stays_away(self):
        """What was found before is kept, and the packets that may have ended it are told."""
        clock, begun = SteppedClock(), []

        def start():
            if begun:
                raise PeerFault("nobody is there")
            begun.append(InMemory(Dies, clock, (1,)))
            return begun[0]

        found = try_all(Setting(start, clock), rules_named(*CHOSEN, "source stays"))
        verdicts = {(each.rule.name, each.case.name): each for each in found.verdicts}
        self.assertEqual("kept", verdicts["source stays", "1.5 s apart"].verdict)
        self.assertEqual("broken", verdicts[CUT].verdict)
        self.assertEqual("not tried", verdicts["START code", "dd"].verdict)
        (death,) = found.deaths
        self.assertIn(FATAL, [len(each.data) for each in death.sent])
        self.assertIn("does not come back: nobody is there", found.stopped)

    def test_cannot_send(self):
        """Where this machine cannot send any more, what was found is kept; at once, it is told."""

        class CutOff(InMemory):
            left = 0

            def send(self, universe, data, sender):
                self.left -= 1
                if self.left < 0:
                    raise NetworkFault("127.0.0.1:5568: Network is unreachable")
                super().send(universe, data, sender)

        clock = SteppedClock()

        def start(left=12):
            peer = CutOff(Small, clock, (1,))
            peer.left = left
            return peer

        found = try_all(Setting(start, clock), rules_named("source stays", "preview"))
        self.assertEqual({"kept", "not tried"}, {each.verdict for each in found.verdicts})
        self.assertEqual([("stopped", "127.0.0.1:5568: Network is unreachable")], told_of(found))
        with self.assertRaises(Refused):
            try_all(Setting(lambda: start(0), clock), rules_named("preview"))

    def test_several_suspects(self):
        """Where two cases were in play, each is tried alone."""

        clock = SteppedClock()

        def start():
            """A node of two universes, whose end shows only after a while, and in both."""
            ends = []

            class DiesLate(Small):
                def take(self, moment, data, sender):
                    ends.extend([moment + 150] if len(data) == FATAL else [])
                    super().take(moment, data, sender)

                def look(self, moment):
                    if ends and moment >= ends[0]:
                        raise PeerFault("it gives no answer")
                    return super().look(moment)

            return InMemory(DiesLate, clock, (1, 2))

        found = try_all(Setting(start, clock), rules_named(*CHOSEN))
        self.assertEqual({CUT[0]: {CUT[1]}}, broken_cases(found.verdicts))
        self.assertEqual([CUT], [(r.name, c.name) for d in found.deaths for r, c in d.cases])

    def test_ends_always(self):
        """One that ends at each case is not begun for ever."""

        class DiesAtOnce(Dies):
            def take(self, moment, data, sender):
                self.is_dead = True

        found = tried(DiesAtOnce, universes=(1,))
        self.assertEqual(5, len(found.deaths))
        self.assertEqual("it ended 5 times", found.stopped)
        self.assertEqual(5, sum(each.verdict == "broken" for each in found.verdicts))
        self.assertEqual(sum(map(len, CASES.values())), len(found.verdicts))


class Deaf(unittest.TestCase):
    def test_nothing_shown(self):
        class Dark(Small):
            def look(self, moment):
                return {}

        for universes in ((1,), range(1, 101)):
            found = tried(Dark, universes=universes)
            self.assertEqual({"not tried"}, {each.verdict for each in found.verdicts})
            (what, says), = told_of(found)
            self.assertEqual("nothing was ever shown", what)
            self.assertIn("check --to", says)
        # Also where there are few cases.
        (what, _), = told_of(tried(Dark, rules_named("merge")))
        self.assertEqual("nothing was ever shown", what)

    def test_always_the_same(self):
        """As where another console holds the universe."""

        class Still(Small):
            def look(self, moment):
                return {5: 9}

        (what, says), = told_of(tried(Still, universes=(7,)))
        self.assertEqual("still", what)
        self.assertIn("universe 7 always shows slots 5:9", says)

    def test_deaf_after_sources(self):
        """A table of sources that is full for ever, and a receiver that stops in a case: the rules
        behind that are not judged."""
        for kind, rule, says in (
            (DeafAfterSources, "lost sources", "after 13 to 16 sources universe 7"),
            (StopsAtCutDatagrams, "cut datagrams", "from cut datagrams, in the header on"),
        ):
            one = kind(7)
            found = tried(lambda _, one=one: one, universes=(7,))
            self.assertEqual([rule], list(broken_cases(found.verdicts)))
            self.assertIn("not tried", {each.verdict for each in found.verdicts})
            ((what, told),) = told_of(found)
            self.assertEqual("deaf", what)
            self.assertIn(says, told)

    def test_no_other_is_deaf(self):
        """A receiver that breaks other rules is judged by them, in one universe too."""
        for kind in BREAKING:
            if kind not in (DeafAfterSources, StopsAtCutDatagrams):
                with self.subTest(kind.__name__):
                    one = kind(7)
                    found = tried(lambda _, one=one: one, universes=(7,))
                    self.assertEqual([], told_of(found))


class Tool(FolderTest):
    def node(self, comes_back, universes=range(1, 2)):
        """What the tool says of a receiver over UDP that ends, with status 1."""
        kept, self.capture = self.folder / "kept", self.folder / "sent.pcapng"
        rules = [word for name in CHOSEN[:2] for word in ("--rule", name)]
        with serve(Dies, universes, self.folder, comes_back) as words:
            done = run_tool(
                "conform", "receiver", *words, *rules, "--json", "--keep", kept,
                "--pcap", self.capture,
                "--settle", 600, "--patience", 30 if comes_back else 0,
            )  # fmt: skip
        self.assertEqual(1, done.returncode, done.stderr)
        return json.loads(done.stdout)

    def assertFiles(self, packets):
        for each in packets:
            self.assertEqual(CUT, (each["rule"], each["case"]))
            data = bytes.fromhex(each["hex"])
            self.assertEqual(data, Path(each["file"]).read_bytes())
            self.assertIn(data, self.capture.read_bytes())

    def test_stays_away(self):
        result = self.node(0)
        verdicts = {each["rule"]: each["verdict"] for each in result["rules"]}
        self.assertEqual(set(CHOSEN[:2]), set(verdicts))
        self.assertEqual("broken", verdicts[CUT[0]])
        ended, stopped = result["diagnoses"]
        self.assertEqual(("ended", "stopped"), (ended["what"], stopped["what"]))
        self.assertIn(FATAL, [len(each["hex"]) // 2 for each in ended["packets"]])
        self.assertFiles(ended["packets"])

    def test_which_is_not_known(self):
        """Where several cases were in play and it stays away, none is judged."""
        result = self.node(0, range(1, 4))
        self.assertEqual({"not tried"}, {each["verdict"] for each in result["rules"]})
        self.assertEqual("ended", result["diagnoses"][0]["what"])
        packets = result["diagnoses"][0]["packets"]
        self.assertIn(CUT, [(each["rule"], each["case"]) for each in packets])
        self.assertIn(FATAL, [len(each["hex"]) // 2 for each in packets])

    def test_comes_back(self):
        """Then it is one packet, and the other rules are tried."""
        result = self.node(2.0)
        self.assertEqual([CUT[0]], [e["rule"] for e in result["rules"] if e["verdict"] == "broken"])
        (ended,) = result["diagnoses"]
        (packet,) = ended["packets"]
        self.assertEqual(FATAL, len(packet["hex"]) // 2)
        self.assertFiles(ended["packets"])

    def test_nothing_shown(self):
        """Status 2: nothing was tried."""
        words = ("--command", "echo slots", "--rule", "merge")
        done = run_tool("conform", "receiver", *words)
        self.assertEqual(2, done.returncode)
        self.assertIn("nothing was ever shown: universe 1; check --to", done.stdout)


