"""What the tests of desks share on a machine with several cards."""

import subprocess
import sys

from desks import SHOW, Page
from networks import NetworkTest
from program import FolderTest
from tooling import PATIENCE, TOOLS, Lines, wait_for

MULTICAST = "239.255.0.0"


class DeskCardsTest(NetworkTest, FolderTest):
    SHOW = SHOW

    def begin_desk(self, kept, venue, *words):
        """A desk on the console's machine: its lines on both outputs."""
        desk = subprocess.Popen(
            venue.console.words(sys.executable, TOOLS / "desk", *words),
            text=True,
            stdout=subprocess.PIPE,
            stderr=subprocess.PIPE,
        )
        kept.callback(desk.wait, PATIENCE)
        kept.callback(desk.terminate)
        return Lines(desk.stdout), Lines(desk.stderr)

    def open_desk(self, kept, venue, *words):
        """The open page of a desk there, and what the desk tells."""
        out, told = self.begin_desk(kept, venue, *words)
        address = out.next().removeprefix("desk: ")
        page = venue.console.within(lambda: Page(self, address))
        page.wait(placed=True)
        return page, told

    def assertShows(self, page, trouble):
        """The page shows this alone behind its moment, and so until it is over; that trouble."""
        (shown,) = wait_for(lambda: page.state.get("troubles"), trouble)
        self.assertRegex(shown["text"], rf"^\d+:\d\d:\d\d {trouble}$")
        return shown
