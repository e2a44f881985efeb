#!/usr/bin/env python3
"""Takes a picture of each view of the desk at each size, and those of the pages of docs. Run alone
it keeps them: look at each before it is committed."""

import base64
import os
import signal
import sys
import unittest
from collections.abc import Iterator
from pathlib import Path
from unittest import mock

TESTS = Path(__file__).resolve().parent
sys.dont_write_bytecode = True
sys.path[:0] = [str(TESTS / "harness"), str(TESTS.parent / "tools")]

from browser import Browser, BrowserPage  # noqa: E402  (both are on the path from here on)
from desk_browser import SIZES, resize  # noqa: E402
from desks import Page  # noqa: E402
from pictures import Darkroom, Taken, keep  # noqa: E402
from program import TOP, text  # noqa: E402
from doors import DoorTest  # noqa: E402
from tooling import stand_still  # noqa: E402

# What the page of this machine shows, each view in its colours.
VIEWS = {
    "play": ("play", "dark"),
    "light": ("play", "light"),
    "large": ("large", "dark"),
    "masters": ("masters", "dark"),
    "levels": ("levels", "dark"),
    "more": ("more", "dark"),
}
# Of Play: what brings the page into a state, what then holds, and what leaves it.
STATES = {
    "search": ("openFinder(true, '2')", "isFinding()", "openFinder(false)"),
    "blind": (
        "selectCue('5'); showBlind('5')",
        "document.querySelectorAll('#blind-channels li').length === 20",
        "selectCue(null)",
    ),
}
# What `live` says of a network that is not well.
TROUBLES = (
    "0:12:05 no link lit: nodes get nothing; check the cable",
    "record: late, and the light goes on",
    "something odd",
)
SMALL_PLAY = TOP / "examples/small-play.asc"
# Stands for python3-qrcode, which is not everywhere: a code of this many modules.
CODE = """
class QRCode:
    def __init__(self, border):
        pass
    def add_data(self, address):
        pass
    def get_matrix(self):
        return [[(x * y + x) % 3 == 0 for x in range(29)] for y in range(29)]
"""


def big_show() -> bytes:
    """A show with more cues and submasters than a screen has room for."""
    lines = []
    for number in range(1, 31):
        lines += [f"CUE {number} ! scene {number}", "UP 3 1"]
        lines += ["FOLLOWON 900"] if number % 7 == 0 else []
        lines += ["CHAN " + " ".join(f"{channel}@{4 * channel:02}" for channel in range(1, 21))]
    for number in range(1, 9):
        lines += [f"SUB {number} ! sub", "CHAN 1@FL"]
    return text(*lines, "PATCH 1 " + " ".join(f"{each}<{each}@FL" for each in range(1, 21)))


class PicturesTest(DoorTest):
    """With a desk in the midst of a night."""

    def night(self) -> None:
        """Cue 27 of 30 stands, and two submasters are up."""
        self.show.write_bytes(big_show())
        self.file("qrcode.py", CODE.encode())
        with mock.patch.dict(os.environ, PYTHONPATH=str(self.folder)):
            self.desk, self.heard, self.door = self.open_desk()
        for line in ("goto 27 in 0", "sub 1 50", "sub 2 FL"):
            self.heard.command(line)
        self.heard.wait(current="27", masters={"sub 1": 128, "sub 2": 255}, waiting=0)
        self.browser = Browser(self)
        self.darkroom = Darkroom(self.browser)
        self.page = self.opened_page(f"{self.heard.origin}{self.heard.path}")

    def opened_page(self, address: str) -> BrowserPage:
        page = self.browser.open_page(address)
        self.wait_for_cue(page)
        return page

    def wait_for_cue(self, page: BrowserPage) -> None:
        page.wait("document.getElementById('current').textContent === '27 scene 27'")
        page.wait("!document.body.classList.contains('is-dead')")
        page.wait("document.getElementById('sub-2').value === '255'")

    def at_sizes(self, page: BrowserPage, name: str) -> Iterator[tuple[str, Taken]]:
        for width, height in SIZES:
            resize(page, width, height)
            yield f"{name}-{width}x{height}", self.darkroom.take(page)

    def view(self, name: str) -> None:
        """Brings this machine's page to a view."""
        view, theme = VIEWS[name]
        self.page.value(f"showTheme('{theme}')")
        self.page.value(f"document.querySelector('[data-to={view}]').click()")

    def all_taken(self) -> Iterator[tuple[str, Taken]]:
        """Each picture with its name."""
        for name in VIEWS:
            self.view(name)
            yield from self.at_sizes(self.page, name)
        yield from self.taken_of_guests()
        self.view("play")
        for name, (enter, holds, leave) in STATES.items():
            self.page.value(enter)
            self.wait_for_rest(holds)
            yield from self.at_sizes(self.page, name)
            self.page.value(leave)
        with open(f"/proc/{self.desk.live}/fd/2", "wb", buffering=0) as told:
            told.write("".join(line + "\n" for line in TROUBLES).encode())
        self.page.wait("alarms().length === 3")
        self.page.value("openList(true)")
        self.wait_for_rest("isListOpen()")
        yield from self.at_sizes(self.page, "troubles")
        self.page.value("openList(false)")
        self.heard.command("goto 99")
        self.wait_for_rest("document.getElementById('said').innerText.includes('no such cue')")
        self.page.value("said.until = Infinity")
        yield from self.at_sizes(self.page, "refused")
        self.heard.command("master H00")
        self.wait_for_rest("page.state.grand === 0")
        yield from self.at_sizes(self.page, "blackout")
        stand_still(self.desk.process.pid)
        self.wait_for_rest("document.getElementById('worst-text').innerText.includes('No word')")
        yield from self.at_sizes(self.page, "silent")
        os.kill(self.desk.process.pid, signal.SIGCONT)

    def wait_for_rest(self, holds: str) -> None:
        """Waits until this holds, and nothing on the page moves."""
        self.page.wait(holds)
        self.page.wait("!document.getAnimations().length")

    def taken_of_guests(self) -> Iterator[tuple[str, Taken]]:
        """The page that asks for the PIN, and the one that only watches."""
        page = self.browser.open_page(f"{self.door.origin}/")
        page.wait("document.activeElement.id === 'pin'")
        yield from self.at_sizes(page, "pin")
        page.value(f"document.getElementById('pin').value = '{self.door.watch}'")
        page.press("Enter", "Enter", "\r")
        self.wait_for_cue(page)
        yield from self.at_sizes(page, "watching")
        page.close()

    def small_play(self) -> tuple[BrowserPage, Page]:
        """The page of an evening of the examples, and what is heard of it; what the desk sends
        comes to this machine."""
        self.show.write_bytes(SMALL_PLAY.read_bytes())
        play = self.show.rename(self.folder / SMALL_PLAY.name)
        self.show = play
        self.receiver.close()
        _, address = self.begin("--grid")
        self.browser = Browser(self)
        self.darkroom = Darkroom(self.browser)
        page = self.browser.open_page(address, width=1280, height=720)
        heard = Page(self, address)
        page.wait("!document.body.classList.contains('is-dead')")
        return page, heard

    def doc_pages(self) -> Iterator[tuple[str, BrowserPage]]:
        """The pages of the two pictures of docs, each when it is to be taken."""
        page, heard = self.small_play()
        for line in ("goto 4", "sub 1 35"):
            heard.command(line)
        heard.wait(current="4", waiting=0)
        page.wait("document.getElementById('lit-channels').innerText === '12 of 14 channels lit'")
        page.value("document.querySelector('[data-to=levels]').click()")
        resize(page, 1280, 720)
        yield "desk-levels", page
        page.value("document.querySelector('[data-to=play]').click()")
        heard.command("goto 2")
        page.wait("document.getElementById('fade-text').textContent.startsWith('1:5')")
        yield "desk", page


class Draw(PicturesTest):
    """Keeps what is shown now."""

    def test_draw(self) -> None:
        self.night()
        keep(dict(self.all_taken()))

    def test_docs(self) -> None:
        for name, page in self.doc_pages():
            taken = page.call("Page.captureScreenshot", format="webp", quality=60)["data"]
            (TOP / f"docs/{name}.webp").write_bytes(base64.b64decode(taken))


if __name__ == "__main__":
    unittest.main(argv=[sys.argv[0], "Draw"])
