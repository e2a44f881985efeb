"""`tools/conform vectors`: the tests' own reader shows what they say is right, they find the small
receivers that break a rule, and they are the same each time."""

import json
import os
import unittest

import small_nodes
from conforming import CASES, InMemory, read_by_tshark
from expected.receiver import Receiver
from program import CID, FolderTest, packet, slots_in
from small_receivers import Small
from tooling import run_tool

from cueplayer_tools.conform.vectors import APART, vectors_json

VECTORS = json.loads(vectors_json("test"))["cases"]


def levels(slots):
    """The slots of an answer, by their numbers."""
    return {int(slot): level for slot, level in slots.items()}


def broken_cases(kind):
    """The cases in which a small receiver shows at a look what no answer has."""
    found = {}
    for vector in VECTORS:
        receivers = small_nodes.node(kind, vector["universes"])
        left = vector["answers"]
        for place, step in enumerate(vector["steps"]):
            universe = step["universe"]
            if "look" in step:
                shown = receivers[universe].look(step["at"])
                after = ((each, each["slots"][place][str(universe)]) for each in left)
                left = [each for each, slots in after if levels(slots) == shown]
                continue
            for receiver in receivers.values():
                sender = InMemory.senders[step["from"]]
                receiver.take(step["at"], bytes.fromhex(step["hex"]), sender)
        if not left and not vector["open"]:
            found.setdefault(vector["rule"], set()).add(vector["case"])
    return found


class Vectors(unittest.TestCase):
    def test_all_cases(self):
        found = {}
        for vector in VECTORS:
            found.setdefault(vector["rule"], set()).add(vector["case"])
            for answer in vector["answers"]:
                self.assertEqual(len(vector["steps"]), len(answer["slots"]))
        self.assertEqual(CASES, found)

    def test_second_reader(self):
        """The first answer is that of the reader of the tests, after each step."""
        for vector in VECTORS:
            receivers = {universe: Receiver(universe) for universe in vector["universes"]}
            for step, slots in zip(vector["steps"], vector["answers"][0]["slots"], strict=True):
                for universe, receiver in receivers.items():
                    if "hex" in step:
                        receiver.take(step["at"], bytes.fromhex(step["hex"]))
                    shown = slots_in(receiver.slots_line(step["at"]))
                    named = (vector["rule"], vector["case"], step["at"])
                    self.assertEqual(shown, levels(slots[str(universe)]), named)

    def test_one_by_hand(self):
        """By the standard: a number that comes again, 10 ms after the look, changes nothing."""
        vector = next(each for each in VECTORS if each["case"] == "30 then 30")
        self.assertEqual(("6.7.2", False), (vector["clause"], vector["open"]))
        first, look, again, last = vector["steps"]
        self.assertEqual([10, 210, 220, 420], [each["at"] for each in vector["steps"]])
        cid = bytes.fromhex(first["hex"])[22:38]
        for step, level in ((first, 10), (again, 20)):
            wanted = bytearray(packet(1, {1: level}, 30))
            wanted[22:38], wanted[44:108] = cid, b"conform".ljust(64, b"\0")
            self.assertEqual(wanted.hex(), step["hex"])
        self.assertNotEqual(CID, cid)
        self.assertEqual([{"1": {"1": 10}}] * 4, vector["answers"][0]["slots"])
        self.assertEqual([""], [each["choice"] for each in vector["answers"]])

    def test_choices(self):
        vector = next(each for each in VECTORS if each["rule"] == "look at loss")
        choices = {each["choice"]: each["slots"][-1] for each in vector["answers"]}
        wanted = {"goes dark": {"1": {}}, "holds the last look": {"1": {"1": 10}}}
        self.assertEqual(wanted, choices)

    def test_find_faults(self):
        """By the vectors alone each small receiver is found, and one that keeps to the rules
        breaks none."""
        self.assertEqual({}, broken_cases(Small))
        for kind in small_nodes.BREAKING:
            with self.subTest(kind.__name__):
                caught = set(kind.caught) or CASES[kind.rule]
                self.assertEqual({kind.rule: caught, **kind.also}, broken_cases(kind))


class Files(FolderTest):
    def write(self, name, seed):
        files = [self.folder / f"{name}{suffix}" for suffix in (".json", ".pcapng")]
        words = ("vectors", "--json", files[0], "--pcap", files[1])
        environment = dict(os.environ, PYTHONHASHSEED=str(seed), LANG=("C", "de_DE.UTF-8")[seed])
        done = run_tool("conform", *words, env=environment, cwd=self.folder)
        self.assertEqual((0, "", ""), (done.returncode, done.stdout, done.stderr))
        return [file.read_bytes() for file in files]

    def test_same_each_time(self):
        self.assertEqual(self.write("one", 0), self.write("other", 1))

    def test_capture(self):
        """All datagrams, one case after the other, each to the group of its universe."""
        self.write("one", 0)
        frames = read_by_tshark(self, self.folder / "one.pcapng")
        sent, begun = [], 0
        for vector in VECTORS:
            for step in vector["steps"]:
                if "hex" in step:
                    group = f"239.255.0.{step['universe']}"
                    sent.append((begun + step["at"], group, step["hex"], vector["rule"]))
            begun += vector["steps"][-1]["at"] + APART
        self.assertEqual(len(sent), len(frames))
        for (at, group, data, rule), frame in zip(sent, frames, strict=True):
            self.assertEqual(f"{at / 1000:.3f}000000", frame["frame.time_epoch"])
            self.assertEqual((group, data), (frame["ip.dst"], frame["udp.payload"]))
            self.assertTrue(frame["frame.comment"].startswith(rule + ", "))
        late = [frame["frame.comment"] for frame in frames if "later" in frame["frame.comment"]]
        self.assertIn("source stays, 2.0 s (6.7.1): slots 1:10; 2000 ms later slots 1:10", late)

    def test_words(self):
        done = run_tool("conform", "vectors")
        self.assertEqual(2, done.returncode)
        self.assertIn("name a file", done.stderr)
        done = run_tool("conform", "vectors", "--json", "/dev/null/x")
        self.assertEqual(2, done.returncode)
        self.assertIn("/dev/null/x: Not a directory", done.stderr)
