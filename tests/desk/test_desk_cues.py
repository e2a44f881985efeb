"""The cue list of the desk's page: taps, looks that are shown blind, the search, and the times."""

import json
import unittest
from unittest import mock

from browser import CHROMIUM, MISSING
from desk_browser import DeskBrowserTest, cue_button, part, resize, view
from desks import NO_WATCH, DeskTest, watches
from doors import DoorTest
from program import text
from tooling import wait_for

from cueplayer_tools.cue_list import read_show
from cueplayer_tools.desk import looks as desk_looks
from cueplayer_tools.desk.looks import BlindLooks


@unittest.skipUnless(CHROMIUM, MISSING)
class CueList(DeskBrowserTest):
    def test_cue_list(self):
        """A tap selects a cue and moves nothing; a second control goes there. So by keys alone."""
        _, page, state = self.shown_page()
        page.click(cue_button(2))
        page.wait("document.getElementById('goto').textContent === 'Go to 2 two <b>s'")
        page.wait(f"{cue_button(2)}.getAttribute('aria-pressed') === 'true'")
        for _ in range(2):
            page.click(cue_button(2))
        self.assertIsNone(state.state["current"])
        page.click("document.getElementById('goto')")
        state.wait(current="2")
        page.wait("document.querySelector('[aria-current]')?.innerText.includes('two <b>s')")
        page.wait("document.getElementById('goto').getAttribute('aria-disabled') === 'true'")
        page.value(f"{cue_button(0)}.focus()")
        page.press("ArrowDown")
        page.press("Enter", "Enter", "\r")
        self.assertEqual("2", state.state["current"])
        page.value("document.getElementById('goto').focus()")
        page.press("Enter", "Enter", "\r")
        state.wait(current="1.5")
        reached = page.value("document.querySelectorAll('#cues [tabindex=\"0\"]').length")
        self.assertEqual(1, reached)
        state.command("sub 1 FL")
        self.assertEqual([], state.wait(masters={"sub 1": 255})["notices"])
        self.assertNoFaults()

    def double_tap(self, page, on=True):
        """Sets that a double tap goes to a cue, or that it does not."""
        view(page, "more")
        page.click("document.getElementById('double-tap')")
        is_on = "document.getElementById('double-tap').getAttribute('aria-pressed')"
        page.wait(f"{is_on} === '{str(on).lower()}'")
        view(page, "play")

    def test_double_tap(self):
        """Where it is set so, a second tap on a cue goes there, and two slow ones do not; the page
        keeps that."""
        _, page, state = self.shown_page()
        self.double_tap(page)
        page.click(cue_button(2))
        page.click(cue_button(2))
        state.wait(current="2")
        page.value("window.isOld = true")
        page.call("Page.reload")
        page.wait("!window.isOld && byId('current').textContent === '2 two <b>s'")
        page.click(cue_button(1), shift=True)
        page.click(cue_button(1), shift=True)
        self.assertEqual(0, state.wait(current="1.5")["fade"]["whole"])
        page.click(cue_button(2))
        page.click(cue_button(0))
        page.wait("document.getElementById('goto').textContent === 'Go to 1 one'")
        self.assertEqual("1.5", state.state["current"])
        self.double_tap(page, on=False)
        page.click(cue_button(2))
        page.click(cue_button(2))
        page.wait("document.getElementById('goto').textContent === 'Go to 2 two <b>s'")
        self.assertEqual("1.5", state.state["current"])

    def test_at_once(self):
        """With Shift held, or held down for a while, the control goes to a cue in time 0; the bar
        shows that nothing is left."""
        _, page, state = self.shown_page()
        page.click(cue_button(1))
        page.click("document.getElementById('goto')", shift=True)
        self.assertEqual(0, state.wait(current="1.5")["fade"]["whole"])
        self.wait_for_level(255)
        page.click(cue_button(0))
        page.click("document.getElementById('goto')")
        state.wait(current="1")
        page.click(cue_button(1))
        page.value("document.getElementById('goto').focus()")
        page.press("Enter", "Enter", "\r", shift=True)
        self.assertEqual(0, state.wait(current="1.5")["fade"]["whole"])
        state.command("goto 1")
        state.wait(current="1", waiting=0)
        page.click(cue_button(1))
        page.hold("document.getElementById('goto')")
        self.assertEqual(0, state.wait(current="1.5")["fade"]["whole"])
        page.let_go()
        state.command("sub 1 FL")
        self.assertEqual(0, state.wait(masters={"sub 1": 255})["fade"]["whole"])
        self.assertNoFaults()


@unittest.skipUnless(CHROMIUM, MISSING)
class Times(DeskBrowserTest):
    def test_times(self):
        """Times up and down are told apart, and delays from times; what follows is said."""
        lines = ("CUE 1", "UP 1:30 2.5", "DOWN 4", "FOLLOWON 3", "CUE 2", "UP 5", "DOWN 5", "CUE 3",
                 "FOLLOWON 2", "CHAN 1@FL", "PATCH 1 1<1@FL")
        self.show.write_bytes(text(*lines))
        _, page, _ = self.shown_page()
        told = [
            page.value(f"[...{cue_button(at)}.children].map((each) => each.textContent).join('|')")
            for at in range(3)
        ]
        self.assertEqual(["1||↑ 1:30 after 2.5 s  ↓ 4 s|→ 2 after 3 s", "2||5 s|", "3||0 s|"], told)
        names = [page.value(f"{cue_button(at)}.getAttribute('aria-label')") for at in range(3)]
        first = "Cue 1, up 1:30 after 2.5 s, down 4 s, 2 follows after 3 s"
        self.assertEqual([first, "Cue 2, up and down 5 s", "Cue 3, up and down 0 s"], names)

    def test_follow_on(self):
        """The cue that follows by itself is marked when it goes."""
        lines = ("CUE 1 ! one", "FOLLOWON 3", "CUE 2 ! two", "UP 4", "CHAN 1@FL", "PATCH 1 1<1@FL")
        self.show.write_bytes(text(*lines))
        _, page, _ = self.shown_page()
        page.press(" ", "Space", " ")
        page.wait("document.getElementById('current').textContent === '1 one'")
        page.wait("/^2 in [0-2]\\.\\d s$/.test(document.getElementById('follow').textContent)")
        page.wait("document.getElementById('follow-bar').value < 0.9")
        page.wait("document.querySelector('[aria-current]').innerText.includes('two')")
        page.wait("document.getElementById('follow').textContent === ''")
        self.assertEqual(("2 two", "none"), (page.text("current"), page.text("next")))
        page.wait("document.getElementById('fade-text').textContent.endsWith(' s left')")

    def test_clocks(self):
        """The time of day, the time since the move, and what is left of the fade; a page that hears
        nothing counts nothing."""
        self.show.write_bytes(text("CUE 1", "UP 90", "CUE 2", "CHAN 1@FL", "PATCH 1 1<1@FL"))
        desk, page, _ = self.shown_page()
        self.assertEqual("–:––", page.text("since"))
        page.press(" ", "Space", " ")
        page.wait("/^0:0[1-9]$/.test(document.getElementById('since').textContent)")
        page.wait("/^1:2\\d left$/.test(document.getElementById('fade-text').textContent)")
        page.wait("/^\\d\\d:\\d\\d:\\d\\d$/.test(document.getElementById('clock').textContent)")
        desk.process.kill()
        page.wait("document.getElementById('since').textContent === '–:––'")
        self.assertEqual("", page.text("fade-text"))

    def test_long_labels(self):
        """They are said whole: the letters give way, those of the cue that is on before those of
        the next one."""
        name = "which is so long that it has no room in the letters of a short one " * 2
        self.show.write_bytes(text(f"CUE 1 ! {name}", f"CUE 2 ! {name}", "CUE 3 ! short"))
        _, page, state = self.shown_page()
        page.press(" ", "Space", " ")
        self.wait_for_cue(page, state, "1")
        for width, height in ((1280, 800), (768, 1024), (390, 844)):
            resize(page, width, height)
            view(page, "large")
            page.wait("byId('now').scrollHeight <= byId('now').clientHeight")
            sizes = [
                page.value(f"parseFloat(getComputedStyle({part(name)}).fontSize)")
                for name in ("next", "current")
            ]
            self.assertGreater(*sizes)
        self.assertEqual(("1 " + name.strip(), "2 " + name.strip()),
                         (page.text("current"), page.text("next")))


# What the finder shows, and the keys of its pad that say a word.
LISTED = """[...document.querySelectorAll('#cues li:not([hidden]) .number')]
  .map((each) => each.textContent)"""


@unittest.skipUnless(CHROMIUM, MISSING)
class Finder(DeskBrowserTest):
    SHOW = text(
        *(line for at in range(1, 41) for line in (f"CUE {at} ! scene {at}", "CHAN 1@50")),
        "CUE 21.5 ! the Düsseldorf storm",
        "CHAN 2@FL",
        "PATCH 1 1<1@FL 2<2@FL",
    )

    def tap_key(self, page, word):
        keys = "[...document.querySelectorAll('#pad button')]"
        page.tap(f"{keys}.find((key) => key.textContent === '{word}' && key.offsetParent)")

    def test_pad(self):
        """A finger finds a cue by its number or by letters of its label, and no keyboard comes;
        `Go to` goes there, and GO stays GO."""
        _, page, state = self.shown_page()
        resize(page, 768, 1024)
        page.tap(part("find"))
        for digit in "21":
            self.tap_key(page, digit)
        self.assertEqual(["21", "21.5"], page.value(LISTED))
        self.assertEqual("Go to 21 scene 21", page.text("goto"))
        self.assertEqual("none", page.value(f"{part('find-text')}.inputMode"))
        self.tap_key(page, "⌫")
        self.assertEqual(["2", *map(str, range(20, 22)), "21.5", *map(str, range(22, 30))],
                         page.value(LISTED))
        self.tap_key(page, "⌫")
        self.tap_key(page, "abc")
        for letter in "DUS":
            self.tap_key(page, letter)
        self.assertEqual(["21.5"], page.value(LISTED))
        page.tap(part("go"))
        state.wait(current="1", waiting=0)
        self.assertEqual("Go to 21.5 the Düsseldorf storm", page.text("goto"))
        page.wait("page.state.current === '1'")
        page.tap(part("goto"))
        state.wait(current="21.5")
        page.wait(f"{part('finder')}.hidden")
        self.assertNoFaults()

    def test_keys(self):
        """Digits find a cue wherever the focus is. Enter shows it blind and moves nothing; Enter
        again goes there. Space is GO meanwhile, and Backspace takes a digit back."""
        _, page, state = self.shown_page()
        for digit in "304":
            page.press(digit, f"Digit{digit}", digit)
        page.wait(f"{part('find-text')}.value === '304'")
        page.press("Backspace")
        page.wait(f"{part('goto')}.textContent === 'Go to 30 scene 30'")
        page.press(" ", "Space", " ")
        self.assertEqual([], state.wait(current="1", waiting=0)["notices"])
        page.press("Enter", "Enter", "\r")
        page.wait(f"{part('blind-cue')}.textContent === 'Blind: 30 scene 30'")
        self.assertEqual("1", state.state["current"])
        page.press("Enter", "Enter", "\r")
        state.wait(current="30", waiting=0)
        page.press("4", "Digit4", "4")
        page.press("Escape")
        page.wait(f"{part('finder')}.hidden")
        page.wait("page.state.current === '30'")
        page.press("Backspace")
        state.wait(current="29")
        self.assertNoFaults()

    def test_left(self):
        """Another view closes it, so that digits find again, and Backspace is BACK."""
        _, page, state = self.shown_page()
        page.press("4", "Digit4", "4")
        page.wait(f"!{part('finder')}.hidden")
        view(page, "masters")
        page.wait(f"{part('finder')}.hidden")
        page.press(" ", "Space", " ")
        page.press("2", "Digit2", "2")
        page.wait("document.body.dataset.view === 'play'")
        page.wait(f"{part('find-text')}.value === '2'")


class Looks(DeskTest):
    SHOW = text("CUE 1", "CHAN 1@50 2@FL", "CUE 2.5", "CHAN 1@FL", "PATCH 1 1<1@FL 2<514@50")

    def look(self, page, cue):
        status, told, _ = page.request("GET", f"look/{cue}")
        return status, told.decode().strip()

    def test_look(self):
        """Each universe of a cue at full, on the wire's numbers; the night does not move."""
        _, page = self.open_desk("--base", 7)
        wait_for(lambda: self.look(page, "1")[0] == 200, "the looks")
        dark = bytes(512)
        for cue, first, second in (("1", b"\x80", b"\0\x80"), ("2.5", b"\xff", b"")):
            slots = {"7": first + dark[len(first):], "8": second + dark[len(second):]}
            hexadecimal = {universe: levels.hex() for universe, levels in slots.items()}
            self.assertEqual(hexadecimal, json.loads(self.look(page, cue)[1]))
        for cue in ("3", "", "1/2", "..%2f1"):
            self.assertEqual((404, "there is no such cue"), self.look(page, cue), cue)
        self.assertIsNone(page.state["current"])

    def test_not_read(self):
        """Where looks are missing the reason is said."""
        show = read_show(str(self.show))
        gone = BlindLooks(str(self.folder / "none.asc"), show, 1)
        wait_for(lambda: gone.reason.startswith("the looks cannot be read: "), "the reason")
        with mock.patch.object(desk_looks, "MOST_UNIVERSES", 3):
            large = BlindLooks(str(self.show), show, 1)
            wait_for(lambda: large.reason.startswith("the show has too many cues"), "the reason")
        self.assertIsNone(large.look("1"))


class LooksOfGuests(DoorTest):
    def test_guests(self):
        """Who watches sees a cue blind too, and who has shown no PIN does not."""
        _, page, door = self.open_desk()
        self.assertEqual(401, door.request("GET", "/look/1")[0])
        self.assertEqual(204, door.enter(door.watch)[0])
        wait_for(lambda: door.request("GET", "/look/1")[0] == 200, "the looks")


@unittest.skipUnless(CHROMIUM, MISSING)
class Blind(DeskBrowserTest):
    SHOW = text(
        "CUE 1 ! one", "UP 2", "DOWN 2", "CHAN 1@50 2@FL",
        "CUE 2 ! two", "CHAN 1@FL",
        "CUE 3 ! dark", "CHAN 1@00",
        "PATCH 1 1<1@FL 2<2@50 3<3@FL",
    )  # fmt: skip

    def shown_cells(self, page, element):
        return page.value(f"[...{part(element)}.children].map((cell) => cell.innerText)")

    def test_blind(self):
        """A tapped cue is shown in percent of its channels, a dimmer that the patch holds at half
        like the others; the night does not move, and `Close` lets it go."""
        _, page, state = self.shown_page()
        wait_for(lambda: state.request("GET", "look/1")[0] == 200, "the looks")
        page.click(cue_button(0))
        page.wait(f"{part('blind-channels')}.children.length === 2")
        self.assertEqual("Blind: 1 one", page.text("blind-cue"))
        self.assertEqual("up and down 2 s", page.text("blind-times"))
        cells = [cell.split() for cell in self.shown_cells(page, "blind-channels")]
        self.assertEqual([["1", "50"], ["2", "100"]], cells)
        page.click(cue_button(2))
        page.wait(f"{part('blind-times')}.textContent.endsWith('; dark')")
        page.click(part("leave"))
        page.wait(f"{part('blind')}.hidden")
        self.assertIsNone(state.state["current"])
        self.assertEqual([], state.notices())
        self.assertNoFaults()

    @unittest.skipUnless(watches(), NO_WATCH)
    def test_against_now(self):
        """Where levels are received, an arrow says whether a channel would be more or less; Levels
        has the channels in percent, and by a tap the slots."""
        self.receiver.close()
        _, page, state = self.shown_page("--grid")
        state.command("goto 2 in 0")
        page.wait(f"{part('lit-channels')}.textContent === '1 of 3 channels lit'")
        page.click(cue_button(0))
        page.wait(f"{part('blind-channels')}.children.length === 2")
        cells = [cell.split() for cell in self.shown_cells(page, "blind-channels")]
        self.assertEqual([["1", "50", "▼"], ["2", "100", "▲"]], cells)
        view(page, "levels")
        cells = [cell.split() for cell in self.shown_cells(page, "channels")]
        self.assertEqual([["1", "100"], ["2", "0"], ["3", "0"]], cells)
        page.click(part("only-lit"))
        page.wait(f"{part('channels')}.children.length === 1")
        self.assertEqual(0, page.value(f"{part('grid')}.getBoundingClientRect().height"))
        page.click("document.querySelector('button[data-shows=slots]')")
        page.wait(f"{part('lit')}.innerText === '1 slots lit'")
        self.assertEqual("1\n255", page.value(f"{part('grid')}.firstChild.innerText"))
        self.assertNoFaults()

    def test_not_received(self):
        """Elsewhere it says why there are no levels."""
        _, page, _ = self.shown_page()
        view(page, "levels")
        page.wait(f"{part('lit-channels')}.innerText.includes('not received here: they are sent')")
        page.click("document.querySelector('button[data-shows=slots]')")
        page.wait(f"{part('lit')}.innerText.includes('not received here')")
        self.assertEqual(0, page.value(f"{part('grid')}.getBoundingClientRect().height"))


if __name__ == "__main__":
    unittest.main()
