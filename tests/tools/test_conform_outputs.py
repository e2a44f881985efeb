"""What `tools/conform` writes: captures, as tshark reads them; JUnit XML; what is other than in a
baseline; and how long it says that it takes."""

import json
import unittest
from xml.etree import ElementTree

import small_receivers
from conforming import InMemory, read_by_tshark, rules_named, serve, tried
from program import FolderTest
from small_receivers import Small
from tooling import run_tool

from cueplayer_tools.captures.writing import Frame, capture_of
from cueplayer_tools.conform.baseline import baseline_in, differences
from cueplayer_tools.conform.captured import write_captures
from cueplayer_tools.conform.diagnoses import diagnoses_of
from cueplayer_tools.conform.estimate import seconds_of
from cueplayer_tools.conform.junit import junit
from cueplayer_tools.conform.peers import SteppedClock
from cueplayer_tools.conform.report import Finding, Result, RuleFound, rules_found
from cueplayer_tools.conform.script import Datagram, Look
from cueplayer_tools.conform.trial import REST, Trial
from cueplayer_tools.line_protocol import Refused

# Of a checksum, as tshark names it.
GOOD = "1"


def result_of(kind, *names, **options):
    """What a trial of a small receiver comes to."""
    found = tried(kind, rules_named(*names), **options)
    rules, told = rules_found(found.verdicts), diagnoses_of(found)
    return Result("receiver", "small", "1", "2026-11-30", "test", rules, told)


class Captures(FolderTest):
    def test_frames(self):
        """Payloads of all lengths around a multiple of four, to one host and to a group."""
        one, group = ("10.0.0.7", 5568), ("239.255.128.9", 5568)
        told = ((one, "none"), (one, ""), (group, "B\xfchne"), (one, ""))
        begun = 1_700_000_000_000_000
        frames = [
            Frame(begun + 250 * n, ("10.0.0.5", 40_000 + n), to, bytes(range(n)), remark)
            for n, (to, remark) in enumerate(told)
        ]
        file = self.folder / "x.pcapng"
        file.write_bytes(capture_of(frames))
        found = read_by_tshark(self, file)
        self.assertEqual(len(frames), len(found))
        for frame, each in zip(frames, found, strict=True):
            self.assertEqual(f"{frame.moment / 1e6:.6f}", each["frame.time_epoch"][:17])
            self.assertEqual(frame.source, (each["ip.src"], int(each["udp.srcport"])))
            self.assertEqual(frame.to, (each["ip.dst"], int(each["udp.dstport"])))
            self.assertEqual(frame.data.hex(), each["udp.payload"])
            self.assertEqual(frame.comment, each["frame.comment"])
            self.assertEqual(GOOD, each["ip.checksum.status"])
            self.assertEqual(GOOD, each["udp.checksum.status"])
        # RFC 1112, 6.4: the low 23 bits of the group.
        self.assertEqual("01:00:5e:7f:80:09", found[2]["eth.dst"])

    def test_cases(self):
        """Each case has a file; all in one have the same frames, by their moments."""
        found = tried(small_receivers.KnowsSourcesByAddress, rules_named("CID", "cut datagrams"))
        route = InMemory(Small, SteppedClock()).route
        folder, file = self.folder / "cases", self.folder / "all.pcapng"
        for name in (folder, file):
            write_captures(str(name), found.played, route, 0)
        names = {"cid-another-address", "cid-another-address-2", "cid-another-port"}
        names.add("cut-datagrams-in-the-header")
        self.assertEqual(names, {each.stem for each in folder.iterdir()})
        frames = read_by_tshark(self, folder / "cid-another-address.pcapng")
        self.assertEqual(["127.0.0.1", "127.0.0.2", "127.0.0.1"], [f["ip.src"] for f in frames])
        self.assertIn("CID, another address (5.6)", frames[0]["frame.comment"])
        self.assertIn("then slots 1:50: a source that sends from", frames[1]["frame.comment"])
        sent = [
            done.step.data.hex()
            for played in sorted(found.played, key=lambda each: each.begun)
            for done in played.done
            if isinstance(done.step, Datagram)
        ]
        together = read_by_tshark(self, file)
        self.assertEqual(sorted(sent), sorted(frame["udp.payload"] for frame in together))
        times = [float(frame["frame.time_epoch"]) for frame in together]
        self.assertEqual(sorted(times), times)

    def test_what_came(self):
        """The capture has what came to a receiver, byte for byte."""
        came = []

        class Notes(Small):
            def take(self, moment, data, sender):
                came.append((sender[0], data.hex()))
                super().take(moment, data, sender)

        file = self.folder / "all.pcapng"
        with serve(Notes, range(1, 2), self.folder) as words:
            run_tool("conform", "receiver", *words, "--rule", "CID", "--pcap", file)
        frames = read_by_tshark(self, file)
        sent = [(frame["ip.src"], frame["udp.payload"]) for frame in frames]
        # Those that end the streams of a case are none of its steps.
        self.assertLessEqual(set(sent), set(came))
        self.assertGreaterEqual(len(sent), 6)

    def test_heard(self):
        """What was heard of a source."""
        file = self.folder / "source.pcapng"
        words = ("source", "cueplayer", "--seconds", 4, "--pcap", file)
        done = run_tool("conform", *words)
        self.assertIn(done.returncode, (0, 1), done.stderr)
        frames = read_by_tshark(self, file)
        self.assertGreater(len(frames), 10)
        self.assertEqual({638}, {len(frame["udp.payload"]) // 2 for frame in frames})


class Junit(unittest.TestCase):
    def suite(self, result, *others):
        return ElementTree.fromstring(junit(result, *others).encode()).find("testsuite")

    def test_verdicts(self):
        """A failure for each case that is broken, and what was not tried is skipped."""
        names = ("CID", "merge", "universes of a source", "preview")
        suite = self.suite(result_of(small_receivers.ShowsPreviews, *names, universes=(1,)))
        self.assertEqual("receiver.merge", suite[2].get("classname"))
        failed = {each.get("name") for each in suite if each.find("failure") is not None}
        self.assertEqual({"a source of previews", "between"}, failed)
        skipped = [each.get("name") for each in suite if each.find("skipped") is not None]
        self.assertEqual(6, len(skipped))
        counts = [suite.get(name) for name in ("tests", "failures", "errors", "skipped")]
        self.assertEqual(["12", "2", "0", "6"], counts)

    def test_diagnoses(self):
        class Dark(Small):
            def look(self, moment):
                return {}

        suite = self.suite(result_of(Dark, "preview", universes=(1,)))
        (error,) = suite.iter("error")
        self.assertIn("check --to", error.get("message"))

    def test_differences(self):
        """What is other than in the baseline fails."""
        result = result_of(Small, "merge")
        before = result_of(small_receivers.MergesAllPriorities, "merge")
        self.assertEqual((), differences(result, before))
        rule = RuleFound("merge", "6.2.3", "", (Finding("two sources", "choice", "another"),))
        before = Result("receiver", "small", "1", "", "", (rule,))
        (found,) = differences(result, before)
        self.assertEqual(("choice: the highest level of each slot", "choice: another"),
                         (found.now, found.before))  # fmt: skip
        (failure,) = self.suite(result, (found,)).iter("failure")
        self.assertIn("before: choice: another", failure.get("message"))


class Baseline(FolderTest):
    def test_tool(self):
        """Status 3 where a choice is another than before, and 0 where none is."""
        words = ("receiver", "cueplayer", "--rule", "merge", "--rule", "CID", "--json")
        first = run_tool("conform", *words)
        self.assertEqual(0, first.returncode, first.stderr)
        file = self.folder / "before.json"
        file.write_text(first.stdout)
        same = run_tool("conform", *words, "--baseline", file)
        self.assertEqual((0, []), (same.returncode, json.loads(same.stdout)["differs"]))
        file.write_text(first.stdout.replace("the highest level of each slot", "the last packet"))
        other = run_tool("conform", *words, "--baseline", file)
        self.assertEqual(3, other.returncode, other.stderr)
        now, before = "choice: the highest level of each slot", "choice: the last packet"
        told = {"rule": "merge", "case": "two sources", "now": now, "before": before}
        self.assertEqual([told], json.loads(other.stdout)["differs"])
        other = run_tool("conform", *words[:-1], "--baseline", file)
        told = f"other than before: merge, two sources: {now}; before: {before}"
        self.assertEqual(told, other.stdout.splitlines()[-1])

    def test_whose(self):
        """A file of several results has one of this peer, or is refused."""
        one, other = (Result("receiver", name, "1", "", "") for name in ("a", "b"))
        self.assertEqual(other, baseline_in([one, other], other, "x"))
        self.assertEqual(one, baseline_in([one], other, "x"))
        with self.assertRaises(Refused):
            baseline_in([one, other], Result("receiver", "c", "1", "", ""), "x")


class HowLong(FolderTest):
    def test_estimate(self):
        """In one universe: all steps, the rests between the cases, and the time of each look, of
        which each case begins with one."""
        clock = SteppedClock()
        peer = InMemory(Small, clock, (1,))
        peer.look_time = 0.25
        cases = [(rule, case) for rule in rules_named("CID", "preview") for case in rule.cases]
        steps = [step for _, case in cases for step in case.script(1).steps]
        looks = len(cases) + sum(isinstance(step, Look) for step in steps)
        waits = sum(step.wait for step in steps) + REST * (len(cases) - 1)
        self.assertEqual(waits / 1000 + 0.25 * looks, seconds_of(peer, cases, 200))

    def test_is_what_it_takes(self):
        """The same as of a trial by the same clock, in several universes."""
        clock = SteppedClock()
        peer = InMemory(Small, clock, (1, 2, 3))
        cases = [(rule, case) for rule in rules_named("numbering", "CID", "priority")
                 for case in rule.cases]  # fmt: skip
        told = seconds_of(peer, cases, 200)
        Trial(peer, clock).run(cases)
        self.assertEqual(clock.now() / 1000, told)
