"""`cueplayer-night NIGHT status`: whether a night is well, and what is wrong with it, each with an
exit status of its own."""

import os
import re
import signal
import unittest

from kept_nights import RefusedTest
from program import TOP
from tooling import stand_still, wait_for

from cueplayer_tools.keeper.health import STATUSES
from cueplayer_tools.keeper.troubles import Story

AT = "night: 2026-11-30 20:15:07 "
SINCE = "2026-11-30 20:15:07"
START = ("show: 3 cues, 1 submaster, 0 groups, 1 dimmer", "end ends the night, leave leaves")
SHOW = "no spare stands by, as the lines above say: if live dies, it is started again"
GROWS = "the record does not grow, and live (process 7) plays on: the disk stalls, or is slow"
STILL = "live (process 7) stands still: it is ended, so that the night goes on"
CONSOLE = "another console sends under this CID, and the light goes to and fro: end process 9"
SPARE_GOES_ON = "live (process 7) was ended by SIGKILL: the spare (process 8) goes on where it was"
NO_LINK = "no link eth0: nodes get nothing; check the cable"
ROUTE = "the route to 10.0.0.7 leads by office: nodes get nothing; check ip route get 10.0.0.7"
REFUSED = "live refused to begin, with status 4: the lines above say why; tried again each second"
# What is told of a trouble, its kind and since when, and what is told when it is over.
PAIRS = (
    (f"0:12:05 {NO_LINK}", "light", "0:12:05 of the night", "0:12:09 link eth0"),
    ("0:12:05 eth0 is down: nodes get nothing; ip link set eth0 up", "light",
     "0:12:05 of the night", "0:12:09 link eth0"),
    ("0:12:05 eth0 has lost 10.101.1.10: nodes get nothing", "light", "0:12:05 of the night",
     "0:12:09 eth0 has 10.101.1.10"),
    (f"1:02:03 {ROUTE}", "light", "1:02:03 of the night",
     "1:02:04 the route to 10.0.0.7 leads by eth0"),
    ("no route to 239.255.0.0: nodes get nothing until there is one", "light", None,
     "0:00:09 from 10.101.1.10 (eth0), the default route"),
    ("0:12:05 no answer from 10.0.0.7: nothing has that address; check the node and --to", "other",
     "0:12:05 of the night", "0:12:09 10.0.0.7 answers"),
    ("record: late, and the light goes on", "record", None, "record: whole again"),
    ("record: device fault", "record", None, START[0]),
    (f"{AT}{GROWS}", "record", SINCE, f"{AT}the record grows again"),
    (f"{AT}{CONSOLE}", "light", SINCE, f"{AT}no other console sends under this CID any more"),
    (f"{AT}{SHOW}", "spare", SINCE, f"{AT}a spare stands by again"),
    (f"{AT}{STILL}", "light", SINCE, f"{AT}{SPARE_GOES_ON}"),
    (f"{AT}{REFUSED}", "light", SINCE, START[1]),
    (f"{AT}live (process 7) was ended by SIGABRT before it played: the lines above", "light",
     SINCE, START[1]),
    (f"{AT}live waits for its network card: the line above says why", "light", SINCE, START[1]),
)  # fmt: skip


class Told(unittest.TestCase):
    """What replies tell, by the lines that FORMATS and OPERATING have."""

    def story(self, *lines):
        story = Story()
        for line in lines:
            story.take(line.encode())
        return story

    def test_trouble_and_its_end(self):
        for line, kind, since, over in PAIRS:
            with self.subTest(line):
                (trouble,) = self.story(*START, line, "5 ok").open.values()
                self.assertEqual((kind, since), (trouble.kind, trouble.since))
                self.assertTrue(line.endswith(trouble.text))
                self.assertEqual({}, self.story(*START, line, "5 ok", over).open)

    def test_since_the_first_line(self):
        """`where` repeats what is wrong; another card's cable is not this one's."""
        story = self.story(f"0:12:05 {NO_LINK}", f"0:13:00 {NO_LINK}", "0:14:00 link eth1")
        self.assertEqual(["0:12:05 of the night"], [each.since for each in story.open.values()])

    def test_what_happened(self):
        """A death of `live` is no trouble any more, and is told among what happened last."""
        story = self.story(*START, "3 ok", "3 cue 1", f"{AT}{SPARE_GOES_ON}")
        self.assertEqual((1, {}), (story.restarts, story.open))
        self.assertEqual([f"{AT}{SPARE_GOES_ON}"], story.events)

    def test_lost_packets(self):
        self.assertEqual(9000, self.story("8000 live 1:x7", "9000 live 1:s8 2:x9").lost)
        self.assertIsNone(self.story("8000 live 1:s7 2:-").lost)


class Status(RefusedTest):
    def begin_well(self):
        self.begin_night()
        self.go(1)
        self.spare()
        return self.wait_for_status(0)

    def assertTrouble(self, told, kind, text):
        self.assertEqual([kind], [each["kind"] for each in told["trouble"]])
        self.assertRegex(told["trouble"][0]["text"], text)
        status, out, _ = self.run_script("status")
        self.assertEqual(told["status"], status)
        self.assertRegex(out, rf"(?m)^trouble(?: since [0-9 :-]+(?: of the night)?)?: .*{text}")

    def test_well(self):
        told = self.begin_well()
        self.assertEqual(
            [self.number(name) for name in ("pid", "lock", "spare")],
            [told[name] for name in ("live", "keeper", "spare")],
        )
        self.assertEqual((str(self.night), "played", 0, []),
                         tuple(told[name] for name in ("night", "state", "restarts", "trouble")))
        self.assertGreater(told["where"].pop("moment"), 0)
        self.assertEqual({"cue": "1", "next": "2", "master": 255}, told["where"])
        self.kill("pid")
        self.wait_for_reply("goes on where it was$")
        self.spare()
        told = self.wait_for_status(0)
        self.assertEqual((1, []), (told["restarts"], told["trouble"]))
        self.assertRegex(told["last"][-1], "goes on where it was$")
        self.assertEqual(2, self.run_script("status", "--yaml").status)

    def test_each_member_is_described(self):
        told = self.begin_well()
        page = (TOP / "man/cueplayer-night.1").read_text()
        for name in (*told, "kind", "text", *told["where"], *STATUSES):
            self.assertRegex(page, rf"\b{re.escape(name)}\b")
        text = (TOP / "docs/OPERATING.md").read_text()
        for status in STATUSES.values():
            self.assertIn(f"\n| {status} |", text)

    def test_nothing_plays(self):
        self.begin_well()
        self.assertEqual(0, self.run_script("halt").status)
        told = self.health()
        self.assertEqual((1, "stopped", None), (told["status"], told["state"], told["live"]))
        self.assertEqual(0, self.run_script("start", "--background").status)
        self.run_script("end")
        told = wait_for(lambda: (now := self.health())["state"] == "ended" and now, "the end")
        self.assertEqual((1, []), (told["status"], told["trouble"]))

    def test_live_stands_still(self):
        self.begin_well()
        self.kill("lock")
        stand_still(self.number("pid"))
        told = self.health()
        self.assertEqual((3, ["light", "keeper"]),
                         (told["status"], [each["kind"] for each in told["trouble"]]))
        self.assertIn("stands still", told["trouble"][0]["text"])
        self.assertRegex(told["trouble"][0]["since"], r"^\d{4}-\d\d-\d\d \d\d:\d\d:\d\d$")
        os.kill(self.number("pid"), signal.SIGCONT)

    def test_record_breaks_off_and_stalls(self):
        """It is told since when; a record that grows again is no trouble."""
        self.begin_well()
        go_on = self.stall(self.writer())
        self.wait_for_reply("the record does not grow")
        told = self.health()
        self.assertEqual(4, told["status"])
        self.assertTrouble(told, "record", "the record does not grow, and live .* plays on")
        self.assertRegex(told["trouble"][0]["since"], r"^\d{4}-\d\d-\d\d \d\d:\d\d:\d\d$")
        go_on()
        self.wait_for_reply("the record grows again$")
        self.assertEqual([], self.wait_for_status(0)["trouble"])

    def test_no_spare(self):
        self.begin_well()
        spare, keeper = self.number("spare"), self.number("lock")
        self.addCleanup(self.go_on, keeper)
        # It would have another one stand by.
        stand_still(keeper)
        stand_still(spare)
        told = self.health()
        self.assertEqual((5, ["spare", "keeper"]),
                         (told["status"], [each["kind"] for each in told["trouble"]]))
        self.assertIn(f"the spare (process {spare}) does not read", told["trouble"][0]["text"])
        for number in (spare, keeper):
            os.kill(number, signal.SIGCONT)
        self.damage_head()
        self.kill("spare")
        self.wait_for_reply("no spare stands by, as the lines above say")
        told = self.health()
        self.assertEqual(5, told["status"])
        self.assertTrouble(told, "spare", "no spare stands by, as the lines above say")

    def test_nobody_keeps(self):
        self.begin_well()
        keeper = self.kill("lock")
        wait_for(lambda: not self.is_there(keeper), "the keeper is gone")
        # What it was just starting is a copy of it for a moment.
        wait_for(lambda: self.health()["keeper"] is None, "nobody keeps the night")
        told = self.health()
        self.assertEqual((6, None), (told["status"], told["keeper"]))
        self.assertTrouble(told, "keeper", "nothing keeps it going: .* takes hold of it")
