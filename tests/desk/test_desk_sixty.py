"""An evening of sixty cues by touch alone, on two tablets of two networks: with a cable that is
pulled, a `live` that is killed, and a stranger above us. No press is lost, late or double."""

import contextlib
import os
import signal
import socket
import subprocess
import threading
import time
import unittest
import uuid
from contextlib import ExitStack

from browser import CHROMIUM, MISSING, Browser
from desk_cards import MULTICAST, DeskCardsTest
from doors import Door
from folders import NIGHT
from networks import EVERYDAY, LIT, PORT, Venue
from program import packet, text
from tooling import PATIENCE, wait_for

SIXTY = 60
SHOW = text(
    *(line for n in range(1, SIXTY + 1) for line in (f"CUE {n}", "UP 0.1", f"CHAN 1@H{n:02X}")),
    "PATCH 1 1<1@FL",
)
SIZE = {"width": 768, "height": 1024}
CURRENT = "document.getElementById('current').textContent.split(' ')[0]"
# Seconds that a page leaves between two presses of GO.
APART = 0.45
STRANGER = "c0ffee00-0000-4000-8000-00000000e1aa"
ALIVE = "!document.body.classList.contains('is-dead')"


def part(name):
    return f"document.getElementById('{name}')"


@unittest.skipUnless(CHROMIUM, MISSING)
class Sixty(DeskCardsTest):
    SHOW = SHOW

    def begin(self, kept):
        """A night that is kept, with a desk and a tablet on each network."""
        self.venue, self.night = Venue(kept), self.folder / "sixty"
        kept.callback(self.script, "halt")
        self.way = ("--to", MULTICAST, "--interface", "lit", "--cid", str(uuid.uuid4()))
        begun = self.script("start", self.show, *self.way, "--background")
        self.assertEqual(0, begun.returncode, begun.stderr)
        nodes = ((self.venue.stage, LIT), (self.venue.office, EVERYDAY))
        self.tablets = [self.tablet(kept, node, address) for node, address in nodes]
        self.gone = 0.0
        self.asked = []

    def script(self, *words):
        words = self.venue.console.words(NIGHT, self.night, *words)
        return subprocess.run(words, capture_output=True, text=True, timeout=2 * PATIENCE)

    def tablet(self, kept, node, address):
        """The page of a desk of its own, where the PIN was typed."""
        words = ("--night", self.night, "--listen", f"{address}:8090")
        out, _ = self.begin_desk(kept, self.venue, *words)
        out.next()
        door = Door(out.next())
        page = Browser(self, node.words()).open_page(f"{door.origin}/", **SIZE)
        page.call("Emulation.setTouchEmulationEnabled", enabled=True)
        page.wait("document.activeElement.id === 'pin'")
        page.call("Input.insertText", text=door.play)
        page.tap(part("enter"))
        page.wait(f"{part('next')}.textContent.startsWith('1 ') || {CURRENT} !== ''")
        page.wait(ALIVE)
        return page

    def wait_for_cue(self, number, *tablets):
        """All tablets, or these, show a cue as the current one."""
        for each in tablets or self.tablets:
            try:
                each.wait(f"{ALIVE} && {CURRENT} === '{number}'")
            except AssertionError as fault:
                shown = each.value("document.body.innerText")
                raise AssertionError(f"the page shows {shown[:800]!r}") from fault

    def press(self, at, name, line):
        """A tap on a button of a tablet, once; that line is asked for by it."""
        time.sleep(max(self.gone + APART - time.monotonic(), 0))
        self.asked.append(line)
        self.tablets[at].tap(part(name))
        self.gone = time.monotonic()

    def go(self, at, number):
        self.press(at, "go", "go")
        self.wait_for_cue(number)

    def test_sixty(self):
        with ExitStack() as kept:
            self.begin(kept)
            for number in range(1, SIXTY + 1):
                happens = {10: self.hurry, 20: self.pull, 35: self.kill, 48: self.stranger}
                if number in happens:
                    happens[number](number)
                else:
                    self.go(number % 2, number)
            self.end()
            self.check()

    def hurry(self, number):
        """Two presses at once are one GO; BACK takes it back."""
        time.sleep(APART)
        self.asked.append("go")
        self.tablets[0].value(f"{part('go')}.click(), {part('go')}.click()")
        self.wait_for_cue(number)
        self.press(1, "back", "back")
        self.wait_for_cue(number - 1)
        self.go(1, number)

    def pull(self, number):
        """The stage's cable is out: its tablet is dark, the other one plays, and what was pressed
        meanwhile does nothing later."""
        self.venue.stage.ip("link set port down")
        self.tablets[1].wait("document.body.innerText.includes('No link lit')")
        self.press(1, "go", "go")
        self.wait_for_cue(number, self.tablets[1])
        self.tablets[0].tap(part("go"))
        time.sleep(1)
        self.venue.stage.ip("link set port up")
        self.wait_for_cue(number)
        time.sleep(1)
        self.wait_for_cue(number)

    def kill(self, number):
        """`live` is killed: the spare has the light at once, and the next press counts."""
        pid = int(self.status("live is process "))
        os.kill(pid, signal.SIGKILL)
        wait_for(lambda: self.status("live is process ") not in ("", str(pid)), "the spare")
        self.wait_for_cue(number - 1)
        self.go(number % 2, number)

    def status(self, told):
        """The first word behind what `status` tells so."""
        printed = self.script("status").stdout
        return printed.partition(told)[2].split(" ")[0].split("\n")[0].strip(",.;")

    def stranger(self, number):
        """Somebody sends above us: both pages say whose light is seen, and GO goes on."""
        over = threading.Event()

        def send():
            with socket.socket(socket.AF_INET, socket.SOCK_DGRAM) as other:
                other.bind((self.venue.stage.address, 0))
                sent = 0
                while not over.wait(0.1):
                    data = packet(1, {1: 255}, sent % 256, priority=200, cid=STRANGER)
                    with contextlib.suppress(OSError):
                        other.sendto(data, ("239.255.0.1", PORT))
                    sent += 1

        thread = threading.Thread(target=self.venue.stage.within, args=(send,))
        thread.start()
        try:
            for each in self.tablets:
                each.wait("document.body.innerText.includes('Not our light')")
            self.go(number % 2, number)
        finally:
            over.set()
            thread.join()

    def end(self):
        page = self.tablets[1]
        page.tap("document.querySelector('[data-to=more]')")
        page.touch(part("end"))
        for each in self.tablets:
            each.wait(f"{part('worst-text')}.innerText.includes('The night has ended')")
        page.lift()

    def check(self):
        """The record has each press, once and in order, and nothing else."""
        lines = (self.night / "record").read_text().splitlines()
        played = [line.split(" ", 1)[1] for line in lines if not line.startswith("!")]
        asked = [line for line in played if not line.startswith("tick")]
        self.assertEqual(self.asked, asked[: len(self.asked)])
        self.assertEqual(["master 0", "end"], asked[len(self.asked) :])


if __name__ == "__main__":
    unittest.main()
