"""An evening of the examples, played from a tablet on another machine by the PIN; its record,
played again, sends the same datagrams."""

import unittest
import uuid
from contextlib import ExitStack

from browser import CHROMIUM, MISSING, Browser
from desk_cards import MULTICAST, DeskCardsTest
from desk_pictures import SMALL_PLAY
from doors import Door
from networks import LIT, Venue
from program import LIVE_NAME
from tooling import wait_for

# A tablet, held upright.
SIZE = {"width": 768, "height": 1024}
CURRENT = "document.getElementById('current').textContent.split(' ')[0]"


def part(name):
    return f"document.getElementById('{name}')"


def cue(at):
    """The button of a cue, from 0."""
    return f"document.querySelectorAll('#cues button')[{at}]"


@unittest.skipUnless(CHROMIUM, MISSING)
class Evening(DeskCardsTest):
    def begin(self, kept):
        """A desk on the console's machine, and its page on the tablet, where the PIN was typed."""
        self.show.write_bytes(SMALL_PLAY.read_bytes())
        self.venue, self.cid = Venue(kept), str(uuid.uuid4())
        self.record = self.folder / "evening.play"
        self.way = ("--to", MULTICAST, "--interface", "lit", "--cid", self.cid)
        words = (self.show, *self.way, "--record", self.record, "--listen", f"{LIT}:8090")
        out, _ = self.begin_desk(kept, self.venue, *words)
        out.next()
        door = Door(out.next())
        self.browser = Browser(self, self.venue.stage.words())
        self.page = self.browser.open_page(f"{door.origin}/", **SIZE)
        self.page.call("Emulation.setTouchEmulationEnabled", enabled=True)
        self.page.wait("document.activeElement.id === 'pin'")
        self.page.call("Input.insertText", text=door.play)
        self.page.tap(part("enter"))
        self.page.wait(f"{part('next')}.textContent.startsWith('0.5 ')")
        self.page.wait("!document.body.classList.contains('is-dead')")
        self.came = []

    def wait_for_cue(self, number):
        self.page.wait(f"{CURRENT} === '{number}'")
        self.came += self.venue.stage.came(0.02)

    def go(self, number):
        """Taps on GO, half a second behind the last one at least."""

        def is_there():
            if self.page.value(f"{CURRENT} === '{number}'"):
                return True
            if self.page.value("performance.now() - (window.tapped ?? -1000) > 500"):
                self.page.value("window.tapped = performance.now()")
                self.page.tap(part("go"))
            return False

        wait_for(is_there, f"cue {number}")
        self.wait_for_cue(number)

    def play(self):
        """GO, a fader, a cue that is chosen, one at once by a finger that stays, BACK, BLACKOUT,
        and GO to the end."""
        for number in ("0.5", "1", "1.5"):
            self.go(number)
        self.page.tap("document.querySelector('[data-to=masters]')")
        self.page.value(f"{part('sub-1')}.focus()")
        for _ in range(5):
            self.page.press("ArrowRight")
        self.page.wait("page.state.masters['sub 1'] === 5")
        self.page.tap("document.querySelector('[data-to=play]')")
        self.page.tap(cue(5))
        self.page.wait(f"{part('goto')}.textContent.startsWith('Go to 4 ')")
        self.page.touch(part("goto"))
        self.wait_for_cue("4")
        self.page.lift()
        self.page.tap(cue(4))
        self.page.wait(f"{part('goto')}.textContent.startsWith('Go to 3 ')")
        self.page.tap(part("goto"))
        self.wait_for_cue("3")
        self.page.tap(part("back"))
        self.wait_for_cue("2")
        for level in (0, 255):
            self.page.touch(part("blackout"))
            self.page.wait(f"page.state.grand === {level}")
            self.page.lift()
        for number in ("3", "4", "5"):
            self.go(number)

    def end(self):
        self.page.tap("document.querySelector('[data-to=more]')")
        self.page.touch(part("end"))
        self.page.wait(f"{part('worst-text')}.innerText.includes('The night has ended')")
        self.page.lift()
        self.came += self.venue.stage.came()

    def test_evening(self):
        with ExitStack() as kept:
            self.begin(kept)
            self.play()
            self.end()
            # A browser says that one header has no meaning where nothing is encrypted.
            faults = [each for each in self.browser.faults if "Opener-Policy" not in str(each)]
            self.assertEqual([], faults)
            record = self.record.read_bytes()
            for line in (b" goto 4 in 0\n", b" goto 3\n", b" back\n", b" master H00\n"):
                self.assertEqual(1, record.count(line), line)
            again = self.venue.run("play", self.show, *self.way, "--name", LIVE_NAME, stdin=record)
            self.assertEqual(0, again.returncode, again.stderr)
            came = self.venue.stage.came()
        # Three universes, from the first cue to the packets that end each stream.
        self.assertEqual({1, 2, 3}, {each.packet[114] for each in self.came})
        self.assertGreater(len(self.came), 3 * 12)
        self.assertEqual(self.came, came)


if __name__ == "__main__":
    unittest.main()
