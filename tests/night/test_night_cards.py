"""`cueplayer-night NIGHT status` and the network: it ends with 0 only where packets leave."""

import json
import os
import subprocess
import time
import uuid
from contextlib import ExitStack

from folders import NIGHT, SHOW
from networks import NetworkTest, Venue
from program import PROGRAM, FolderTest
from tooling import PATIENCE, wait_for

MULTICAST = "239.255.0.0"
# A stage that stands still has a packet in 0.8 seconds.
DURING = 1.2
NO_LINK = "no link lit: nodes get nothing; check the cable"
DOWN = "lit is down: nodes get nothing; ip link set lit up"


class Cards(NetworkTest, FolderTest):
    """A night by the card `lit`, and a node behind it."""

    SHOW = SHOW

    def setUp(self):
        super().setUp()
        self.kept = ExitStack()
        self.addCleanup(self.kept.close)
        self.venue = Venue(self.kept)
        self.night = self.folder / "tonight"
        self.addCleanup(self.run_script, "halt")
        words = ("--to", MULTICAST, "--interface", "lit", "--cid", uuid.uuid4(), "--background")
        done = self.run_script("start", self.show, *words)
        self.assertEqual(0, done.returncode, done.stdout + done.stderr)

    def run_script(self, *words):
        there = self.venue.console.words(NIGHT, self.night, *words)
        environment = os.environ | {"CUEPLAYER": str(PROGRAM)}
        return subprocess.run(
            there, capture_output=True, text=True, env=environment, timeout=2 * PATIENCE
        )

    def health(self):
        told = json.loads(self.run_script("status", "--json").stdout)
        return told["status"], [(each["kind"], each["text"]) for each in told["trouble"]]

    def wait_for_health(self, expected, *trouble):
        """Waits until `status` ends so, with this trouble; with none at all where all is well."""

        def is_so():
            status, told = self.health()
            return status == expected and set(trouble) <= set(told) and (status or not told)

        wait_for(is_so, f"status {expected}, {trouble}")

    def assertHeard(self, is_heard):
        """Whether anything comes to the node within the time in which a still stage sends."""
        self.venue.stage.came(0)
        time.sleep(DURING)
        self.assertEqual(is_heard, bool(self.venue.stage.came(0)))

    def test_cable(self):
        """Out, the trouble stands there with its moment; in again, it is gone."""
        self.wait_for_health(0)
        self.assertHeard(True)
        for line, again, told in (
            ("link set port down", "link set port up", NO_LINK),
            ("link set lit down", "link set lit up", DOWN),
        ):
            with self.subTest(told):
                machine = self.venue.stage if "port" in line else self.venue.console
                machine.ip(line)
                self.wait_for_health(3, ("light", told))
                self.assertHeard(False)
                out = self.run_script("status").stdout
                self.assertRegex(out, rf"(?m)^trouble since \d+:\d\d:\d\d of the night: {told}$")
                machine.ip(again)
                self.wait_for_health(0)
                self.assertHeard(True)
