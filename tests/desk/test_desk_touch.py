"""Fingers on the desk's page: GO is never covered and never moves, what harms is held, a palm does
nothing, and a finger that scrolls moves no fader."""

import time
import unittest

from browser import CHROMIUM, MISSING
from desk_browser import SIZES, VIEWS, DeskBrowserTest, part, resize, view
from program import text
from tooling import wait_for

# Beside a name that is not short: what a page has to find room for.
LONG = "in which all come back, and the king dies slowly, for the third time (spot 3)"
TROUBLES = [f"0:12:05 no link d{at}: nodes get nothing; {LONG}" for at in range(6)]
# Brings the page into each of its states, in each view and for either hand, and asks at a grid of
# points whether GO is there: how many points there were, each box that GO had, and what is wrong.
POINTS = """((views, side) => {
  const go = document.getElementById("go");
  const usual = page.state;
  const masters = Object.fromEntries(page.faders.slice(1).map(({ line }) => [line, 99]));
  const states = {
    plain: [() => {}, () => {}],
    list: [() => openList(true), () => openList(false)],
    finder: [() => openFinder(true), () => openFinder(false)],
    blind: [() => { selectCue("6"); showBlind("6"); }, () => selectCue(null)],
    blackout: [() => showState({ ...usual, grand: 0, masters }), () => showState(usual)],
    last: [() => showState({ ...usual, next: null, since: 4e6 }), () => showState(usual)],
    follow: [() => showState({ ...usual, follow: { elapsed: 0, whole: 9e5 } }),
      () => showState(usual)],
    said: [() => say("GO did nothing: ".repeat(9)), () => { said.until = 0; fadeSaid(); }],
    silent: [() => { page.isGone = true; watch(); }, () => { page.isGone = false; watch(); }],
  };
  const isFree = (box, across, along) => {
    const x = box.x + box.width * (across + 0.5) / side;
    const y = box.y + box.height * (along + 0.5) / side;
    return go.contains(document.elementFromPoint(x, y));
  };
  const isCorner = (across, along) => across % (side - 1) === 0 && along % (side - 1) === 0;
  const grid = [...Array(side * side).keys()].map((at) => [at % side, Math.floor(at / side)])
    .filter(([across, along]) => !isCorner(across, along));
  const told = { points: 0, boxes: {}, faults: [] };
  const look = (name, hand) => {
    const box = go.getBoundingClientRect();
    const edges = [box.left, box.top, box.right, box.bottom].map((edge) => edge.toFixed(2));
    (told.boxes[hand] ??= new Set()).add(edges.join(" "));
    const covered = grid.filter(([across, along]) => !isFree(box, across, along)).length;
    told.points += grid.length;
    const whole = document.documentElement;
    const isInside = box.left >= 0 && box.top >= 0 && box.right <= innerWidth
      && box.bottom <= innerHeight && whole.scrollWidth <= innerWidth
      && whole.scrollHeight <= innerHeight;
    if (covered) told.faults.push(`${name}: ${covered} points are covered`);
    if (!isInside) told.faults.push(`${name}: beside the window`);
  };
  for (const hand of ["left", "right"]) {
    showHand(hand);
    for (const view of views) {
      showView(view);
      for (const [name, [enter, leave]] of Object.entries(states)) {
        if (view !== "play" && (name === "finder" || name === "blind")) continue;
        if (name === "list" && alarms().length === 0) continue;
        enter();
        look(`${hand} ${view} ${name}`, hand);
        leave();
      }
    }
  }
  showView("play");
  for (const hand of Object.keys(told.boxes)) told.boxes[hand] = [...told.boxes[hand]];
  return told;
})(VIEWS, 16)"""


def long_show():
    """A show whose names have no room in a line."""
    cues = [line for at in range(1, 31) for line in (f"CUE {at} ! {LONG}", f"UP {at} 1")]
    subs = [line for at in range(1, 13) for line in (f"SUB {at} ! {LONG}", f"CHAN {at}@FL")]
    patch = "PATCH 1 " + " ".join(f"{at}<{at}@FL" for at in range(1, 41))
    return text(*cues, *subs, patch)


@unittest.skipUnless(CHROMIUM, MISSING)
class Go(DeskBrowserTest):
    def test_points(self):
        """At each size, in each view, for either hand, and with 0, 1 and 6 troubles GO is where it
        was, and nothing lies over it, whatever is opened, said, found or shown blind."""
        self.show.write_bytes(long_show())
        desk, page, state = self.shown_page()
        state.command("goto 5 in 0")
        state.wait(current="5", waiting=0)
        page.wait("page.state.current === '5'")
        boxes, points = {}, 0
        for count in (0, 1, 6):
            self.tell(desk, *TROUBLES[len(state.state["troubles"]):count])
            page.wait(f"page.state.troubles.length === {count}")
            for width, height in SIZES:
                resize(page, width, height)
                told = page.value(POINTS.replace("VIEWS", str(list(VIEWS))))
                with self.subTest(troubles=count, width=width, height=height):
                    self.assertEqual([], told["faults"])
                points += told["points"]
                for hand, edges in told["boxes"].items():
                    boxes.setdefault((width, height, hand), set()).update(edges)
        self.assertEqual({1}, {len(each) for each in boxes.values()}, boxes)
        self.assertGreater(points, 200_000)
        self.assertNoFaults()


@unittest.skipUnless(CHROMIUM, MISSING)
class Holds(DeskBrowserTest):
    def shown_tablet(self):
        """A tablet's page, what is heard of its night, and what is nothing."""
        _, page, state = self.shown_page()
        resize(page, 768, 1024)
        return page, state

    def assertGrand(self, page, state, level):
        """The grand master stands there, and the page shows it; no line is on its way."""
        page.wait(f"page.state.grand === {level} && page.state.waiting === 0")
        self.assertEqual(level, state.wait(waiting=0)["grand"])

    def assertGoes(self, page, state):
        """A tap on GO goes; one that a busy machine brings too late is refused, and made again."""

        def is_gone():
            if state.state["current"] is None:
                page.tap(part("go"))
                time.sleep(0.5)
            return state.state["current"] == "1"

        wait_for(is_gone, "cue 1")

    def test_blackout(self):
        """Neither a tap, two taps, a short hold, nor a finger that slides off brings the light
        down; a hold does, and the next one brings it back."""
        page, state = self.shown_tablet()
        button = part("blackout")
        for _ in range(2):
            page.tap(button)
        page.wait(f"{part('said')}.textContent.startsWith('BLACKOUT: hold it')")
        page.touch(button)
        page.wait(f"{button}.classList.contains('is-held')")
        time.sleep(0.3)
        page.lift()
        page.wait(f"!{button}.classList.contains('is-held')")
        page.draw_finger(page.middle(button), 0, -300, steps=1)
        time.sleep(0.8)
        page.lift()
        self.assertGrand(page, state, 255)
        page.touch(button)
        state.wait(grand=0)
        page.lift()
        self.wait_for_level(0)
        page.wait(f"{button}.getAttribute('aria-pressed') === 'true'")
        page.wait(f"{part('rest')}.textContent === 'BLACKOUT IS ON'")
        page.tap(button)
        self.assertGrand(page, state, 0)
        page.touch(button)
        state.wait(grand=255)
        page.lift()
        page.wait(f"{part('rest')}.textContent === ''")
        self.assertNoFaults()

    def test_ring(self):
        """It fills while the button is held, and is empty again at once."""
        page, state = self.shown_tablet()
        ring = "parseFloat(getComputedStyle(document.querySelector('#end .held')).strokeDashoffset)"
        view(page, "more")
        self.assertEqual(100, page.value(ring))
        page.touch(part("end"))
        page.wait(f"{ring} < 70")
        page.lift()
        page.wait(f"{ring} === 100")
        self.assertFalse(state.state["ending"])

    def test_end(self):
        """Two quick taps do not end the night, and a hold that is long enough for BLACKOUT does
        not; a longer one does."""
        page, state = self.shown_tablet()
        view(page, "more")
        for _ in range(2):
            page.tap(part("end"))
        page.wait(f"{part('said')}.textContent.startsWith('End the night: hold it')")
        page.touch(part("end"))
        time.sleep(0.8)
        page.lift()
        state.command("sub 1 FL")
        self.assertFalse(state.wait(masters={"sub 1": 255}, waiting=0)["ending"])
        page.touch(part("end"))
        state.wait(status=0)
        page.lift()
        page.wait(f"{part('worst-text')}.textContent === 'The night has ended'")
        self.assertEqual("grey", page.value(f"{part('strip')}.dataset.worst"))
        self.assertNoFaults()

    def test_keys(self):
        """Enter is held too. Who cannot hold, as with a screen reader, presses twice."""
        page, state = self.shown_tablet()
        page.value(f"{part('blackout')}.focus()")
        page.press("Enter", "Enter", "\r")
        page.wait(f"{part('said')}.textContent.startsWith('BLACKOUT: hold it')")
        self.assertGrand(page, state, 255)
        enter = {"key": "Enter", "code": "Enter", "windowsVirtualKeyCode": 13, "text": "\r"}
        page.call("Input.dispatchKeyEvent", type="keyDown", **enter)
        state.wait(grand=0)
        page.call("Input.dispatchKeyEvent", type="keyUp", **enter)
        page.value(f"{part('blackout')}.click()")
        page.wait(f"{part('said')}.textContent.endsWith('or press once more')")
        self.assertGrand(page, state, 0)
        page.value(f"{part('blackout')}.click()")
        state.wait(grand=255)

    def test_palm(self):
        """Two fingers on the buttons at once do nothing, and the next one counts again."""
        page, state = self.shown_tablet()
        blackout, go = page.middle(part("blackout")), page.middle(part("go"))
        page.put_fingers("touchStart", blackout)
        page.put_fingers("touchStart", blackout, go)
        page.wait(f"{part('said')}.textContent.startsWith('Two buttons at once')")
        time.sleep(0.8)
        page.lift()
        self.assertGrand(page, state, 255)
        self.assertIsNone(state.state["current"])
        view(page, "more")
        page.touch(part("end"))
        page.wait(f"{part('end')}.classList.contains('is-held')")
        page.lift()
        self.assertGoes(page, state)

    def test_slip(self):
        """A finger that has slid off GO is no GO."""
        page, state = self.shown_tablet()
        page.pan(page.middle(part("go")), 0, -500)
        state.command("sub 1 FL")
        self.assertIsNone(state.wait(masters={"sub 1": 255})["current"])
        self.assertGoes(page, state)


@unittest.skipUnless(CHROMIUM, MISSING)
class Faders(DeskBrowserTest):
    def shown_masters(self, width, height):
        self.show.write_bytes(long_show())
        _, page, state = self.shown_page()
        for line in ("sub 1 50", "sub 3 30", "master 90"):
            state.command(line)
        state.wait(grand=230, masters={"sub 1": 128, "sub 3": 77}, waiting=0)
        resize(page, width, height)
        view(page, "masters")
        page.wait("document.getElementById('sub-3').value === '77'")
        return page, state

    def place(self, page, fader, share):
        """A place on the track of a fader, once that is in sight."""
        return page.value(
            f"(() => {{ const track = {part(fader)}.closest('.track');"
            "track.scrollIntoView({ block: 'center' });"
            "const box = track.getBoundingClientRect();"
            f"return [box.x + box.width * {share}, box.y + box.height / 2]; }})()"
        )

    def knob(self, page, fader):
        return page.middle(f"{part(fader)}.closest('.track').querySelector('.knob')")

    def test_pans(self):
        """A finger that scrolls over a track, or taps it, and one that scrolls from a knob on, move
        no light; the list scrolls."""
        for width, height in ((390, 844), (844, 390), (768, 1024)):
            with self.subTest(width=width, height=height):
                page, state = self.shown_masters(width, height)
                for fader in ("master", "sub-1", "sub-3"):
                    for share in (0.15, 0.5, 0.9):
                        page.pan(self.place(page, fader, share), 8, -90)
                        page.pan(self.place(page, fader, share), -8, 90)
                        x, y = self.place(page, fader, share)
                        page.put_fingers("touchStart", (x, y))
                        page.lift()
                    page.pan(self.knob(page, fader), 12, -90)
                    page.put_fingers("touchStart", self.knob(page, fader))
                    page.lift()
                page.value("document.getElementById('faders').scrollTop = 0")
                page.pan(self.place(page, "sub-1", 0.9), 5, -90)
                page.wait("document.getElementById('faders').scrollTop > 0")
                state.command("sub 12 FL")
                kept = {"sub 1": 128, "sub 3": 77, "sub 12": 255}
                self.assertEqual(230, state.wait(masters=kept, waiting=0)["grand"])

    def test_knob(self):
        """A knob follows a finger from where it stands; meanwhile another finger presses GO."""
        page, state = self.shown_masters(768, 1024)
        x, y = self.knob(page, "sub-1")
        page.draw_finger((x, y), 80, 0)
        go = page.middle(part("go"))
        page.put_fingers("touchStart", (x + 80, y), go)
        page.put_fingers("touchEnd", go, first=1)
        state.wait(current="1")
        self.assertTrue(page.value(f"{part('sub-1')}.closest('.fader').matches('.is-held')"))
        page.lift()
        wait_for(lambda: state.state["waiting"] == 0, "the answers")
        # 80 pixels of a way that is the track without the knob, but for the first few.
        way = page.value(
            "(() => { const knob = document.querySelector('#sub-1 ~ .knob');"
            "return knob.parentNode.clientWidth - knob.offsetWidth; })()"
        )
        level = state.state["masters"]["sub 1"]
        self.assertTrue(128 + 255 * 60 / way < level <= 128 + 255 * 80 / way, (level, way))
        page.wait(f"{part('sub-1')}.value === '{level}'")

    def test_rest(self):
        """What is not at rest is seen in each view at each size, with its percent; a tap on it
        leads to the masters."""
        page, state = self.shown_masters(768, 1024)
        shown = "document.querySelectorAll('#rest button')"
        for width, height in SIZES:
            resize(page, width, height)
            for name in ("play", "large", "masters", "levels", "more"):
                view(page, name)
                with self.subTest(name, width=width, height=height):
                    self.assertEqual("Grand master 90 %", page.value(f"{shown}[0].textContent"))
                    self.assertEqual("+1", page.value(f"{shown}[2].textContent"))
                    box = f"{shown}[0].getBoundingClientRect()"
                    self.assertTrue(page.value(
                        f"{shown}[0].contains(document.elementFromPoint({box}.x + 9, {box}.y + 9))"
                    ))
        view(page, "play")
        page.value(f"{shown}[0].click()")
        self.assertEqual("masters", page.value("document.body.dataset.view"))
        for line in ("master FL", "sub 1 0", "sub 3 0"):
            state.command(line)
        page.wait(f"{shown}.length === 0")


if __name__ == "__main__":
    unittest.main()
