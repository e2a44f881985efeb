"""What the desk's page looks like: each view at six sizes, against the pictures that are kept in
tests/pictures, and the two pictures of the desk in docs. `tests/desk_pictures.py` takes them.
"""

import unittest

from browser import CHROMIUM, MISSING, Browser
from desk_browser import HIDDEN, SIZES, resize
from desk_pictures import PicturesTest
from desks import NO_WATCH, Page, watches
from pictures import PICTURES, Taken, kept_boxes
from program import TOP, text

# What a hand may break, and what has to be told of it; each is undone by an empty value.
PLANTS = (
    ("go", "display", "none", "go: at None"),
    ("go", "background", "var(--panel)", "go: "),
    ("back", "background", "var(--go)", "back: "),
    ("go", "transform", "translateX(40px)", "go: at "),
    ("cue-list", "transform", "translateY(-40px)", "current: at "),
    ("alarms", "cssText", "display: grid !important; min-height: 9rem", "alarms: is shown"),
    ("cues", "visibility", "hidden", "current: "),
)


@unittest.skipUnless(CHROMIUM, MISSING)
class DeskPictures(PicturesTest):
    def test_views(self):
        """Each is as it was looked at."""
        self.night()
        boxes = kept_boxes()
        taken = dict(self.all_taken())
        self.assertEqual(boxes.keys(), taken.keys())
        for name, each in taken.items():
            with self.subTest(name):
                kept = Taken((PICTURES / f"{name}.png").read_bytes(), boxes[name])
                self.assertEqual([], self.darkroom.faults(each, kept))
        self.assertEqual([], self.browser.faults)

    def test_plants(self):
        """What is hidden, moved, of another colour, or behind something else is seen."""
        self.night()
        self.view("play")
        resize(self.page, 1280, 800)
        name = "play-1280x800"
        kept = Taken((PICTURES / f"{name}.png").read_bytes(), kept_boxes()[name])
        for part, style, value, told in PLANTS:
            with self.subTest(f"{part}: {style}"):
                place = f"document.getElementById('{part}').style.{style}"
                self.page.value(f"{place} = '{value}'")
                faults = self.darkroom.faults(self.darkroom.take(self.page), kept)
                self.assertTrue(any(fault.startswith(told) for fault in faults), faults)
                self.page.value(f"{place} = ''")
                self.assertEqual([], self.darkroom.faults(self.darkroom.take(self.page), kept))

    def test_turned(self):
        """A tablet that is turned shows the current cue, the next one and what is behind them."""
        self.night()
        for width, height in ((1024, 768), (768, 1024), (1024, 768), (390, 844), (844, 390)):
            resize(self.page, width, height)
            self.page.wait(f"{HIDDEN.replace('VIEW', 'play')}.length === 0")

    def test_long_names(self):
        """Names of two lines and more, and the countdown of a follow-on, hide no control: GO, the
        current cue and the next one are seen at each size."""
        name = "in which all come back, and the king dies slowly, for the third time (spot 3)"
        cues = [line for number in range(1, 31)
                for line in (f"CUE {number}.125 ! {number} {name}", "FOLLOWON 1000")]
        self.show.write_bytes(text(*cues, f"SUB 1 ! {name}", "CHAN 1@FL", "PATCH 1 1<1@FL"))
        _, address = self.begin()
        heard = Page(self, address)
        heard.wait(placed=True)
        heard.command("goto 27.125 in 0")
        page = Browser(self).open_page(address)
        page.wait("document.getElementById('follow').textContent !== ''")
        for width, height in SIZES:
            resize(page, width, height)
            for view in ("play", "large"):
                with self.subTest(view, width=width, height=height):
                    page.value(f"document.querySelector('[data-to={view}]').click()")
                    hidden = page.value(HIDDEN.replace("VIEW", view))
                    # A telephone has no room for two such rows of the list.
                    self.assertEqual([], [part for part in hidden if name not in part])

    @unittest.skipUnless(watches(), NO_WATCH)
    def test_docs(self):
        """The pictures of the pages show the page as it is."""
        for name, page in self.doc_pages():
            with self.subTest(name):
                shown = self.darkroom.take(page)
                kept = self.darkroom.small((TOP / f"docs/{name}.webp").read_bytes(), "webp")
                self.assertEqual([], self.darkroom.colour_faults(shown, kept))


if __name__ == "__main__":
    unittest.main()
