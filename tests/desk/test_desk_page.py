"""The page of `tools/desk` in a real browser, headless."""

import json
import os
import signal
import time
import unittest

from browser import CHROMIUM, MISSING, Browser
from desk_browser import HIDDEN, SIZES, VIEWS, DeskBrowserTest, resize, view
from desks import Page
from machine import in_time, took
from program import LIVE_NAME, TOP, run, text
from tooling import stand_still, wait_for


# The size of GO, and what is too small to be read or tapped in the dark.
GO_SIZE = """(() => {
  const { width, height } = document.getElementById("go").getBoundingClientRect();
  return [width, height];
})()"""
SMALL = """(() => {
  const isShown = (part) => part.getClientRects().length > 0;
  const hasLetters = (part) => [...part.childNodes]
    .some((node) => node.nodeType === Node.TEXT_NODE && node.textContent.trim());
  const letters = [...document.querySelectorAll("body *")].filter((part) => isShown(part)
    && hasLetters(part) && parseFloat(getComputedStyle(part).fontSize) < 16);
  const buttons = [...document.querySelectorAll("nav button, .view button, #dock button")]
    .filter((part) => isShown(part) && part.getBoundingClientRect().height < 39.5);
  return [...letters, ...buttons].map((part) => part.id || part.textContent);
})()"""


@unittest.skipUnless(CHROMIUM, MISSING)
class DeskPage(DeskBrowserTest):
    def test_go_moves_light(self):
        """By the space bar wherever the focus is, by the button, and by Enter."""
        _, page, state = self.shown_page()
        page.press(" ", "Space", " ")
        self.wait_for_cue(page, state, "1")
        self.wait_for_level(128)
        page.value("document.getElementById('back').focus()")
        page.press(" ", "Space", " ")
        self.wait_for_cue(page, state, "1.5")
        page.wait("document.getElementById('current').textContent === '1.5 half past'")
        page.press("Backspace")
        self.wait_for_cue(page, state, "1")
        page.click("document.getElementById('go')")
        self.wait_for_cue(page, state, "1.5")
        page.value("document.getElementById('go').focus()")
        page.press("Enter", "Enter", "\r")
        self.wait_for_cue(page, state, "2")
        self.wait_for_level(51)
        page.wait("document.title === '2 two <b>s'")
        self.assertNoFaults()

    def test_evening(self):
        """An evening of the examples, from the first GO to End; its record, played, sends the same
        datagrams."""
        self.show.write_bytes((TOP / "examples/small-play.asc").read_bytes())
        record = self.folder / "evening.play"
        _, address = self.begin("--record", record)
        self.browser = Browser(self)
        page, state = self.browser.open_page(address), Page(self, address)
        page.wait("!document.body.classList.contains('is-dead')")
        came = []
        for cue in ("0.5", "1", "1.5", "2", "3", "4", "5"):
            page.press(" ", "Space", " ")
            self.wait_for_cue(page, state, cue)
            came += self.came(0.02)
        page.press("Backspace")
        self.wait_for_cue(page, state, "4")
        view(page, "more")
        page.hold("document.getElementById('end')")
        state.wait(status=0)
        came += self.came()
        words = ["play", self.show, "--to", self.to, "--cid", self.cid, "--name", LIVE_NAME]
        replay = run(*words, stdin=record.read_bytes())
        self.assertEqual((0, b""), (replay.status, replay.err))
        self.assertEqual(came, self.came())
        self.assertGreater(len(came), 3 * 7)
        self.assertNoFaults()

    def test_faders_by_keys(self):
        """The arrows move a fader; what another page sets comes to rest on it too."""
        _, page, state = self.shown_page()
        view(page, "masters")
        page.value("document.getElementById('sub-1').focus()")
        for _ in range(3):
            page.press("ArrowRight")
        state.wait(masters={"sub 1": 3})
        self.wait_for_level(3)
        page.wait("document.querySelectorAll('.fader .share')[1].textContent === '1 %'")
        state.command("sub 1 FL")
        page.wait("document.getElementById('sub-1').value === '255'")
        self.assertNoFaults()

    def test_closed_and_opened_again(self):
        _, page, state = self.shown_page()
        page.press(" ", "Space", " ")
        state.wait(current="1")
        page.close()
        again = self.browser.open_page(f"{state.origin}{state.path}")
        again.wait("document.getElementById('current').textContent === '1 one'")
        other = self.browser.open_page(f"{state.origin}{state.path}")
        other.wait("document.getElementById('current').textContent === '1 one'")
        other.press(" ", "Space", " ")
        state.wait(current="1.5")
        again.wait("document.getElementById('current').textContent === '1.5 half past'")

    def test_press_without_an_answer(self):
        """A press without an answer is told after a second, and never carried out."""
        desk, page, state = self.shown_page()
        stand_still(desk.process.pid)
        page.press(" ", "Space", " ")
        told = "go: nothing was sent: no answer within a second; press again"
        # A machine that is so busy that the press comes to the page late finds the page dead.
        page.wait(f"byId('said').textContent.includes('{told}') || "
                  "byId('worst-text').textContent.startsWith('No word from the desk')")
        os.kill(desk.process.pid, signal.SIGCONT)
        page.wait("!document.body.classList.contains('is-dead')")
        state.command("sub 1 FL")
        self.assertIsNone(state.wait(masters={"sub 1": 255})["current"])
        page.press(" ", "Space", " ")
        state.wait(current="1")
        page.wait("document.getElementById('worst').hidden")

    def test_page_that_is_busy(self):
        """A press is as old as its event: it is told, and not carried out after the page's rest."""
        _, page, state = self.shown_page()
        page.call("Page.bringToFront")
        page.value("document.addEventListener('keydown', (event) => {"
                   "window.age = performance.now() - event.timeStamp; }, true)")
        busy = "const until = performance.now() + 1400; while (performance.now() < until);"
        key = {"key": " ", "code": "Space", "windowsVirtualKeyCode": 32, "text": " "}

        def is_late():
            """Presses while the page is busy; whether the press was in time for that."""
            page.value(f"window.age = 0; setTimeout(() => {{ {busy} }}, 0)")
            page.call("Input.dispatchKeyEvent", type="keyDown", **key)
            page.call("Input.dispatchKeyEvent", type="keyUp", **key)
            return wait_for(lambda: page.value("window.age"), "the press") > 1000

        def is_told():
            before = state.state["current"]
            told = is_late() and "this page was busy for a second" in page.text("said")
            return told and state.state["current"] == before

        wait_for(is_told, "a press that came late, and was told")
        current = state.state["current"]
        state.command("sub 1 FL")
        self.assertEqual(current, state.wait(masters={"sub 1": 255})["current"])

    def test_double_click(self):
        """Two clicks on GO are one GO."""
        _, page, state = self.shown_page("--double-go", 10_000)
        for _ in range(2):
            page.click("document.getElementById('go')")
        state.wait(current="1", waiting=0)
        wait_for(state.notices, "the second is told")
        self.assertRegex(state.notices()[0], "^go: (a second GO|another cue|a move is on its way)")
        page.wait("document.getElementById('said').innerText.includes('nothing was sent')")
        state.command("sub 1 FL")
        self.assertEqual("1", state.wait(masters={"sub 1": 255})["current"])

    def test_held_key(self):
        """A key that is held down is one press."""
        _, page, state = self.shown_page()
        page.call("Page.bringToFront")
        key = {"key": " ", "code": "Space", "windowsVirtualKeyCode": 32, "text": " "}
        page.call("Input.dispatchKeyEvent", type="keyDown", **key)
        for _ in range(20):
            page.call("Input.dispatchKeyEvent", type="keyDown", autoRepeat=True, **key)
        page.call("Input.dispatchKeyEvent", type="keyUp", **key)
        state.wait(current="1", waiting=0)
        state.command("sub 1 FL")
        self.assertEqual("1", state.wait(masters={"sub 1": 255})["current"])
        self.assertEqual([], state.notices())

    def test_silent_desk(self):
        """Two seconds after the last word the buttons are grey, and presses do nothing, then or
        later."""
        desk, page, state = self.shown_page()
        stand_still(desk.process.pid)
        page.wait("document.getElementById('go').getAttribute('aria-disabled') === 'true'")
        page.press(" ", "Space", " ")
        page.click("document.getElementById('go')")
        os.kill(desk.process.pid, signal.SIGCONT)
        page.wait("document.getElementById('go').getAttribute('aria-disabled') === 'false'")
        state.command("sub 1 FL")
        self.assertIsNone(state.wait(masters={"sub 1": 255})["current"])
        self.assertEqual([], state.notices())

    def test_many_pages(self):
        """Four pages of a browser listen, so that presses have a way; a fifth is told."""
        _, first, state = self.shown_page()
        address = f"{state.origin}{state.path}"
        others = [self.browser.open_page(address) for _ in range(3)]
        for page in others:
            page.wait("!document.body.classList.contains('is-dead')")
        more = [self.browser.open_page(address) for _ in range(2)]
        for page in more:
            page.wait("document.getElementById('worst-text').innerText.startsWith('4 pages of')")
            page.wait("document.getElementById('link').textContent === 'One page too many'")
            self.assertTrue(page.value("document.body.classList.contains('is-dead')"))
        for page, cue in ((first, "1"), (others[2], "1.5"), (first, "2")):
            pressed = time.monotonic()
            page.press(" ", "Space", " ")
            state.wait(current=cue)
            in_time(took(pressed), 2000, "a press")
            for each in (first, others[2]):
                self.wait_for_cue(each, state, cue)
        more[0].press(" ", "Space", " ")
        others[0].close()
        wait_for(lambda: any(page.text("current") == "2 two <b>s" for page in more), "its place")
        self.assertEqual([], state.notices())
        self.assertNoFaults()

    def test_sizes(self):
        """At each size GO, the cue that is on and the next one are seen without scrolling, and
        nothing lies beside the page, or behind another part; no letter and no button is small."""
        cues = [
            line for number in range(1, 31) for line in (f"CUE {number} ! scene {number}", "UP 3 1")
        ]
        subs = [line for number in range(1, 9) for line in (f"SUB {number} ! sub", "CHAN 1@FL")]
        self.show.write_bytes(text(*cues, *subs, "PATCH 1 1<1@FL"))
        _, page, state = self.shown_page()
        state.command("goto 27 in 0")
        page.wait("document.getElementById('current').textContent === '27 scene 27'")
        for width, height in SIZES:
            resize(page, width, height)
            for name in VIEWS:
                with self.subTest(name, width=width, height=height):
                    view(page, name)
                    self.assertEqual([], page.value(HIDDEN.replace("VIEW", name)))
                    self.assertEqual([], page.value(SMALL))
                    wide, high = page.value(GO_SIZE)
                    self.assertGreaterEqual((wide * 3, high), (width, 100))
            with self.subTest("the number pad", width=width, height=height):
                view(page, "play")
                for keys in ("123", "abc"):
                    page.value(f"openFinder(true); typeInFinder('{keys}')")
                    self.assertEqual([], page.value(SMALL))
                page.value("openFinder(false)")
        self.assertNoFaults()

    def test_colours(self):
        """Dark from the first paint on, also where the system is light, until something else is
        chosen; the large view stays dark."""
        _, page, _ = self.shown_page()
        paper = "getComputedStyle(document.body).backgroundColor"
        dark, light = "rgb(8, 9, 11)", "rgb(241, 240, 237)"
        page.call("Emulation.setEmulatedMedia",
                  features=[{"name": "prefers-color-scheme", "value": "light"}])
        self.assertEqual(dark, page.value(paper))
        view(page, "more")
        for theme, colour in (("light", light), ("dark", dark), ("auto", light)):
            page.click(f"document.querySelector('[data-theme-is={theme}]')")
            page.wait(f"{paper} === '{colour}'")
        page.value("window.isOld = true")
        page.call("Page.reload")
        page.wait(f"!window.isOld && {paper} === '{light}'")
        # A click on a page whose scripts have not run yet does nothing.
        large = "document.querySelector('[data-to=large]').click()"
        page.wait(f"({large}, document.body.dataset.view === 'large')")
        page.wait(f"{paper} === 'rgb(0, 0, 0)'")

    def test_awake(self):
        """Where the browser lets it the page keeps the screen on, and where not it says how to set
        a tablet."""
        _, page, _ = self.shown_page()
        resize(page, 390, 844)
        asked = "Object.defineProperty(navigator, 'wakeLock', { configurable: true, value: LOCK })"
        lock = "{ request: async () => ({ addEventListener() {} }) }"
        for value, told, is_hidden in ((lock, "The screen stays on", "true"),
                                       ("undefined", "This page cannot keep", "false")):
            page.value(asked.replace("LOCK", value))
            page.value("stayAwake()")
            page.wait(f"document.getElementById('awake').textContent.startsWith('{told}')")
            page.wait(f"document.getElementById('sleep').hidden === {is_hidden}")
        page.tap("document.getElementById('sleep')")
        page.wait("document.body.dataset.view === 'more'")

    def test_felt(self):
        """A press is felt where the operator has chosen that, and else is not."""
        _, page, state = self.shown_page("--double-go", 0)
        resize(page, 390, 844)
        page.value("window.felt = 0; navigator.vibrate = () => { window.felt += 1; }")
        page.tap("document.getElementById('go')")
        self.wait_for_cue(page, state, "1")
        self.assertEqual(0, page.value("window.felt"))
        view(page, "more")
        page.tap("document.getElementById('buzz')")
        page.wait("document.getElementById('buzz').getAttribute('aria-pressed') === 'true'")
        page.value("window.felt = 0")
        page.tap("document.getElementById('go')")
        page.wait("window.felt === 1")
        self.wait_for_cue(page, state, "1.5")

    def test_names(self):
        """A screen reader has a name for each button and fader."""
        _, page, _ = self.shown_page()
        buttons = page.names("button")
        cue = "Cue 1.5 half past, up 2 s after 1 s, down 1 s"
        for name in ("GO", "BACK", "BLACKOUT hold", cue, "Go to: tap a cue", "Find", "Masters"):
            self.assertIn(name, buttons)
        self.assertNotIn("", buttons)
        bars = page.names("progressIndicator") or page.names("progressbar")
        self.assertEqual(["Fade", "Follow"], bars)
        view(page, "masters")
        self.assertEqual({"Grand master", "sub 1 all", "group 3"}, set(page.names("slider")))
        view(page, "levels")
        self.assertIn("Channels", page.names("button"))
        page.value("chooseLevels('slots')")
        self.assertIn("Universe before", page.names("button"))
        view(page, "more")
        self.assertIn("End the night hold: the light goes out", page.names("button"))
        self.assertNotIn("", page.names("button"))

    def test_keys_alone(self):
        """Tab comes to each control of a view in turn, and Enter carries it out."""
        _, page, state = self.shown_page()
        for name, parts in (("play", ("find", "back", "blackout", "go")),
                            ("masters", ("master", "sub-1", "group-3", "go"))):
            view(page, name)
            reached = []
            page.value("document.querySelector('[data-to=play]').focus()")
            for _ in range(14):
                reached.append(page.value("document.activeElement.id"))
                page.press("Tab")
            for part in parts:
                self.assertIn(part, reached)
        view(page, "play")
        page.value("document.getElementById('go').focus()")
        page.press("Enter", "Enter", "\r")
        self.wait_for_cue(page, state, "1")
        # The list has the focus at the next cue; one step on is the control that goes.
        for _ in range(14):
            if page.value("document.activeElement.closest('#cues') !== null"):
                break
            page.press("Tab")
        page.press("ArrowDown")
        page.press("Enter", "Enter", "\r")
        page.press("Tab")
        self.assertEqual("goto", page.value("document.activeElement.id"))
        page.press("Enter", "Enter", "\r")
        state.wait(current="2")

    def test_other_site(self):
        """A page of another site that knows the address cannot play."""
        _, page, state = self.shown_page()
        address = json.dumps(f"{state.origin}{state.path}command")
        page.call("Page.navigate", url="data:text/html,<p>other")
        page.wait("document.body.innerText === 'other'")
        page.value(f"fetch({address}, {{method: 'POST', body: 'go', mode: 'no-cors'}})"
                   ".finally(() => { document.body.innerText = 'done'; })")
        page.wait("document.body.innerText === 'done'")
        state.command("sub 1 FL")
        self.assertIsNone(state.wait(masters={"sub 1": 255})["current"])

