"""`tools/desk`: what is wrong is told in words, and a night that was broken off is taken up."""

import os
import signal
import socket
import time
import unittest

from browser import CHROMIUM, MISSING, Browser
from desk_folders import DeskFolderTest
from desks import NO_WATCH, DeskTest, Page, watches
from program import CID, packet
from tooling import wait_for
from wire import address_of, receiver_socket

from cueplayer_tools.live_links import Mended, Trouble, read_link_line

FULL = "the record cannot be written any more: the light goes on"


class Record(DeskTest):
    def test_lines(self):
        """What `live` says of its record has a meaning; nothing else has."""
        self.assertTrue(read_link_line("record: device fault").text.startswith(FULL))
        self.assertEqual("record", read_link_line("record: late, and the light goes on").kind)
        for line in ("record: whole again",
                     "record: goes on, and a comment in it says how many lines are missing"):
            self.assertEqual(Mended("record", None), read_link_line(line))
        for line in ("record: tonight.play", "record: none; --record FILE keeps one", "record:",
                     "record: device fault x", "0:00:05 record: device fault"):
            self.assertNotIsInstance(read_link_line(line), Trouble | Mended, line)

    def test_full_disk(self):
        """A record that cannot be written stands there to the end, in words."""
        _, page = self.open_desk("--record", "/dev/full")
        page.command("go")
        page.wait(current="1")
        wait_for(lambda: page.state["troubles"], "the trouble")
        (trouble,) = page.state["troubles"]
        self.assertTrue(trouble["text"].startswith(FULL), trouble)
        self.assertEqual("record", trouble["kind"])
        page.command("go")
        self.assertEqual(1, len(page.wait(current="1.5")["troubles"]))


class BrokenOff(DeskTest):
    """`live` is killed under a desk with a record: a button takes the night up."""

    def test_taken_up(self):
        """It goes on where it was: the cue, the masters, and the stream."""
        desk, page = self.open_desk("--record", self.folder / "night.play")
        for line in ("goto 2 in 0", "sub 1 FL", "master H80"):
            page.command(line)
        page.wait(current="2", masters={"sub 1": 255}, grand=128, resumes=False)
        self.wait_for_level(128)
        self.assertEqual(204, page.request("POST", "resume", b"now")[0])
        told = "not taken up: the night cannot be taken up: nothing was done"
        wait_for(lambda: told in page.notices(), told)
        os.kill(desk.live, signal.SIGKILL)
        page.wait(status=-signal.SIGKILL, resumes=True)
        desk.err.find("desk: live has ended with status -9$")
        self.assertEqual(204, page.request("POST", "resume", b"now")[0])
        page.wait(
            status=None, current="2", next=None, masters={"sub 1": 255}, grand=128, waiting=0
        )
        found = desk.err.find(r"desk: the night is taken up: live is process (\d+)$")
        self.addCleanup(self.kill, int(found[1]), self.cid)
        self.came()
        page.command("back")
        page.wait(current="1.5", waiting=0, resumes=False)
        self.wait_for_level(128)
        # The first control-C asks again, since there is a night again.
        desk.process.send_signal(signal.SIGINT)
        desk.err.find("desk: the night goes on")

    def test_once_more(self):
        """It may be broken off, and taken up, as often as that happens; two presses are one."""
        desk, page = self.open_desk("--record", self.folder / "night.play")
        page.command("go")
        page.wait(current="1")
        live = desk.live
        for _ in range(3):
            os.kill(live, signal.SIGKILL)
            page.wait(resumes=True)
            for _ in range(2):
                page.request("POST", "resume", b"now")
            found = desk.err.find(r"desk: the night is taken up: live is process (\d+)$")
            live = int(found[1])
            self.addCleanup(self.kill, live, self.cid)
            page.wait(resumes=False, status=None, current="1", placed=True, waiting=0)

    def test_no_record(self):
        """Without one, and behind an end, there is nothing to take up."""
        desk, page = self.open_desk("--no-record")
        os.kill(desk.live, signal.SIGKILL)
        page.wait(status=-signal.SIGKILL, resumes=False)
        _, page = self.open_desk("--record", self.folder / "ended.play")
        page.command("end")
        page.wait(status=0, resumes=False)


class BrokenOffFolder(DeskFolderTest):
    """All processes of a folder's night are killed: the desk goes on with it."""

    def test_taken_up(self):
        """Where nobody keeps the night any more the desk goes on with it, as `start` does."""
        self.begin_night()
        _, page = self.desk()
        page.command("goto 2 in 0")
        page.wait(current="2", resumes=False)
        self.kill_all()
        page.wait(late=True, resumes=True)
        self.assertEqual(204, page.request("POST", "resume", b"now")[0])
        page.wait(current="2", resumes=False, late=False, status=None)
        wait_for(lambda: page.command("sub 1 FL") == 204, "a press that is taken")
        page.wait(masters={"sub 1": 255}, waiting=0)

    def test_kept(self):
        """As long as somebody keeps the night, that one starts `live` again."""
        self.begin_night()
        _, page = self.desk()
        page.command("go")
        page.wait(current="1", waiting=0)
        self.kill("pid")
        wait_for(page.notices, "what the keeper says")
        page.wait(current="1", waiting=0, late=False, resumes=False)
        self.assertEqual(204, page.request("POST", "resume", b"now")[0])
        told = "not taken up: somebody keeps the night: nothing was done"
        wait_for(lambda: told in page.notices(), told)


@unittest.skipUnless(CHROMIUM, MISSING)
class Shown(DeskTest):
    @unittest.skipUnless(watches(), NO_WATCH)
    def test_other_source(self):
        """Who is above the night stands at the top, as long as it is heard: its light is shown."""
        with receiver_socket() as free:
            to = address_of(free)
        _, address = self.begin("--grid", to=to)
        browser = Browser(self)
        page = browser.open_page(address)
        page.wait("!document.body.classList.contains('is-dead')")
        with socket.socket(socket.AF_INET, socket.SOCK_DGRAM) as other:
            strange = packet(1, {1: 7}, priority=150, cid=CID[:-1] + "2", name="House")

            def is_told():
                other.sendto(strange, ("127.0.0.1", int(to.split(":")[1])))
                told = "Not our light: the stage shows that of House, priority 150, universe 1"
                return told == page.text("worst-text")

            wait_for(is_told, "the other source")
        self.assertEqual("red", page.value("document.getElementById('strip').dataset.worst"))
        page.wait("document.getElementById('alarms').innerText === ''")
        self.assertEqual([], browser.faults)

    def test_button(self):
        """A night that was broken off has a button that takes it up."""
        desk, address = self.begin("--record", self.folder / "night.play")
        browser = Browser(self)
        page, state = browser.open_page(address), Page(self, address)
        page.wait("!document.body.classList.contains('is-dead')")
        state.command("goto 2 in 0")
        state.wait(current="2", waiting=0)
        time.sleep(0.1)
        os.kill(desk.live, signal.SIGKILL)
        page.wait("document.getElementById('worst-text').innerText.includes('Nobody plays')")
        page.wait("document.body.classList.contains('is-dead')")
        page.click("document.getElementById('worst-act')")
        page.wait("document.getElementById('alarms').innerText === ''")
        page.wait("document.getElementById('current').textContent === '2 two <b>s'")
        state.wait(status=None, placed=True, waiting=0)
        found = desk.err.find(r"desk: the night is taken up: live is process (\d+)$")
        self.addCleanup(self.kill, int(found[1]), self.cid)
        page.press("Backspace")
        state.wait(current="1.5")
        self.assertEqual([], browser.faults)
