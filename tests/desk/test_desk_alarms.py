"""What the desk's page says of what is wrong: one line at the top, the worst first; and of what was
refused, at the buttons."""

import os
import signal
import socket
import unittest

from browser import CHROMIUM, MISSING, Browser
from desk_browser import DeskBrowserTest, part, resize
from desks import NO_WATCH, SHOW, watches
from program import CID, packet, text
from tooling import wait_for
from wire import address_of, receiver_socket

NO_LINK = "0:12:05 no link lit: nodes get nothing; check the cable"
ROWS = "[...document.querySelectorAll('#alarms .alarm')]"
STRIP = "[byId('strip').dataset.worst, byId('worst-text').innerText, byId('worst-more').innerText]"
OPEN = "document.getElementById('worst-open')"


@unittest.skipUnless(CHROMIUM, MISSING)
class Strip(DeskBrowserTest):
    def wait_for_rows(self, page, count):
        page.wait(f"{ROWS}.length === {count}")

    def wait_for_strip(self, page, rank, words, more=""):
        """Waits until the strip says this; a rank of None is that nothing is wrong."""
        told = [rank, words, more]
        wait_for(lambda: page.value(STRIP) == told, told)

    def test_network(self):
        """The page says by which card the night is sent; what keeps packets from nodes stands there
        until it is over, also behind a move, and cannot be dismissed."""
        desk, page, state = self.shown_page()
        page.wait("document.getElementById('ways').textContent === 'from 127.0.0.1 (lo)'")
        self.tell(desk, NO_LINK, "0:12:05 no link off: x")
        self.wait_for_rows(page, 2)
        self.wait_for_strip(
            page, "red", "No link lit: nodes get nothing; check the cable", "+1 more"
        )
        page.press(" ", "Space", " ")
        self.wait_for_cue(page, state, "1")
        page.click(OPEN)
        told = ["No link lit: nodes get nothing; check the cable", "No link off: x"]
        self.assertEqual(told, page.value(f"{ROWS}.map((row) => row.innerText.trim())"))
        shown = "getComputedStyle(row.querySelector('button')).visibility === 'visible'"
        self.assertEqual(0, page.value(f"{ROWS}.filter((row) => {shown}).length"))
        page.click(OPEN)
        self.tell(desk, "0:12:11 link lit")
        self.wait_for_strip(page, "red", "No link off: x")
        self.tell(desk, "0:12:11 link off")
        page.wait(f"{part('worst')}.hidden")
        self.assertNoFaults()

    def test_ranks(self):
        """Red stands before amber, and amber before grey, whenever it came; what is grey, and what
        was lost for the last time ten seconds ago, goes by itself."""
        desk, page, state = self.shown_page()
        good = "end ends the night, leave leaves the light to others"
        self.tell(desk, good)
        self.wait_for_strip(page, "grey", "E" + good[1:])
        self.tell(desk, "record: late, and the light goes on")
        late = "The record waits for its disk: the light goes on"
        self.wait_for_strip(page, "amber", late, "+1 more")
        self.tell(desk, NO_LINK)
        self.wait_for_strip(
            page, "red", "No link lit: nodes get nothing; check the cable", "+2 more"
        )
        page.value("heardAt.forEach((at, number) => heardAt.set(number, at - GREY_FOR))")
        self.tell(desk, "0:12:11 link lit")
        self.wait_for_strip(page, "amber", late)
        self.tell(desk, "record: whole again")
        lost = "showState({ ...page.state, lost: { count: 3, universe: 2, moment: 0, ago: AGO } })"
        page.wait("page.state.troubles.length === 0")
        page.value("heardAt.forEach((at, number) => heardAt.set(number, at - GREY_FOR))")
        page.value(lost.replace("AGO", "0"))
        self.wait_for_strip(page, "amber", "Packets of universe 2 could not be sent")
        page.value(lost.replace("AGO", "LOST_FOR"))
        page.wait(f"{part('worst')}.hidden")

    def test_dismiss(self):
        """While the list is open no row moves: a finger that taps twice, and once more below, does
        nothing else. What was dismissed is gone once the list is closed."""
        desk, page, state = self.shown_page()
        resize(page, 390, 844)
        for at in range(3):
            self.tell(desk, f"something odd {at}")
        self.wait_for_rows(page, 3)
        page.tap(OPEN)
        places = f"{ROWS}.map((row) => row.querySelector('button').getBoundingClientRect().y)"
        before = page.value(places)
        for at in (0, 0, 1):
            page.tap(f"{ROWS}[{at}].querySelector('button')")
        page.wait(f"{ROWS}.filter((row) => row.matches('.is-over')).length === 2")
        self.assertEqual(before, page.value(places))
        page.tap(f"{ROWS}[2].querySelector('button')")
        page.wait(f"{part('worst-text')}.textContent === 'Nothing is wrong any more'")
        self.assertEqual(before, page.value(places))
        page.tap(OPEN)
        page.wait(f"{ROWS}.length === 0 && {part('worst')}.hidden")
        self.assertEqual((255, None), (state.state["grand"], state.state["current"]))
        self.tell(desk, "something odd 0")
        self.wait_for_strip(page, "amber", "Something odd 0")
        self.assertNoFaults()

    @unittest.skipUnless(watches(), NO_WATCH)
    def test_sources(self):
        """A source above our priority is red, since its light is seen; one beside us is amber; one
        below us, as a backup is, is no trouble, and Levels names it."""
        with receiver_socket() as free:
            to = address_of(free)
        _, address = self.begin("--grid", to=to)
        self.browser = Browser(self)
        page = self.opened_page(address)
        not_ours = "Not our light: the stage shows that of House, priority 150, universe 1"
        beside = "Another source has our priority, so lamps show the higher level: House, "
        below = "Also heard, below this night: House, priority 90, universe 1"
        with socket.socket(socket.AF_INET, socket.SOCK_DGRAM) as other:
            other.connect(("127.0.0.1", int(to.split(":")[1])))

            def is_told(priority, told):
                other.send(packet(1, {1: 7}, priority=priority, cid=CID[:-1] + "2", name="House"))
                return page.value(STRIP)[:2] == told

            wait_for(lambda: is_told(150, ["red", not_ours]), "the source above")
            told = ["amber", beside + "priority 100, universe 1"]
            wait_for(lambda: is_told(100, told), "the source beside")
            wait_for(lambda: is_told(90, ["calm", ""]), "the source below")
            self.assertEqual(below, page.text("below"))
            page.wait(f"{part('below')}.textContent === ''")
        self.assertNoFaults()

    def test_live_that_dies(self):
        """It is told at once, in red, and presses do nothing."""
        desk, page, state = self.shown_page()
        os.kill(desk.live, signal.SIGKILL)
        self.wait_for_strip(page, "red", "Nobody plays the light: live ended with status -9")
        page.wait("document.body.classList.contains('is-dead')")
        page.press(" ", "Space", " ")
        self.assertIsNone(state.wait(status=-9)["current"])

    def test_desk_that_dies(self):
        desk, page, _ = self.shown_page()
        desk.process.kill()
        told = "No word from the desk: what is shown is old, and presses do nothing"
        self.wait_for_strip(page, "red", told)

    def test_lines_of_another(self):
        """A page shows what somebody else hands to the same `live`; in which time is not known."""
        self.show.write_bytes(text("FOO") + SHOW)
        desk, page, _ = self.shown_page()
        skipped = "1 line skipped: see cueplayer explain"
        page.wait(f"document.getElementById('skipped').textContent === '{skipped}'")
        with open(f"/proc/{desk.live}/fd/0", "wb", buffering=0) as other:
            other.write(b"goto 1.5 in 20\nsub 1 50\n")
        page.wait("document.getElementById('current').textContent === '1.5 half past'")
        page.wait("document.getElementById('next').textContent === '2 two <b>s'")
        page.wait("document.getElementById('fade-text').textContent === 'not known'")
        page.wait("document.getElementById('sub-1').value === '128'")
        page.press("Backspace")
        page.wait("document.getElementById('current').textContent === '1 one'")
        page.wait("document.getElementById('fade-text').textContent === ''")
        self.assertEqual("", page.text("alarms"))
        self.assertNoFaults()


@unittest.skipUnless(CHROMIUM, MISSING)
class Refusals(DeskBrowserTest):
    def test_said(self):
        """What is refused is said in words at the buttons of the page that pressed, and counted; it
        goes by itself, and no other page has it, nor one that is opened later."""
        _, page, state = self.shown_page()
        address = f"{state.origin}{state.path}"
        other = self.opened_page(address)
        page.press("Backspace")
        page.wait(f"{part('said')}.textContent === 'BACK did nothing: there is no cue before'")
        page.press("Backspace")
        page.wait(f"{part('said')}.textContent.endsWith(' (2 times)')")
        wait_for(lambda: len(state.notices()) == 2, "both are told")
        later = self.opened_page(address)
        for each in (other, later):
            each.wait("page.state.notices.length === 2")
            self.assertEqual("", each.text("said"))
        self.assertTrue(page.value(f"{part('worst')}.hidden"))
        page.value("said.until = performance.now()")
        page.wait(f"!{part('said')}.classList.contains('is-some')")
        page.wait(f"{part('said')}.textContent === ''")

    def test_move(self):
        """A move has answered what was refused before it."""
        _, page, state = self.shown_page()
        page.press("Backspace")
        page.wait(f"{part('said')}.classList.contains('is-some')")
        page.press(" ", "Space", " ")
        state.wait(current="1")
        page.wait(f"!{part('said')}.classList.contains('is-some')")

    def test_last_cue(self):
        """GO names the cue that it goes to; at the last one it is grey, and a GO is answered."""
        _, page, state = self.shown_page()
        self.assertEqual("1", page.text("go-to"))
        state.command("goto 2 in 0")
        page.wait(f"{part('go-to')}.textContent === 'no cue follows'")
        self.assertTrue(page.value(f"{part('go')}.classList.contains('is-last')"))
        page.click(part("go"))
        page.wait(f"{part('said')}.textContent === 'GO did nothing: this is the last cue'")
        self.assertNoFaults()

    def test_commands_of_others(self):
        """What was refused to nobody's page, as to a program that handed it on, is said on each."""
        _, page, state = self.shown_page()
        state.command("goto 99")
        page.wait(f"{part('said')}.textContent === 'Go to 99 did nothing: there is no such cue'")


if __name__ == "__main__":
    unittest.main()
