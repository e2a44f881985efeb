"""What a desk tells those who subscribe by Open Sound Control."""

import socket
import struct
import time
import unittest
from unittest import mock

from desks import SHOW, DeskTest
from osc_messages import message, pad
from tooling import wait_for

from cueplayer_tools.cue_list import Cue, Show
from cueplayer_tools.desk.state import State
from cueplayer_tools.osc import feedback as osc_feedback
from cueplayer_tools.osc.packets import messages_of, pack


def read(datagram):
    """The address and the arguments of a message, by the standard: read anew here."""
    def string(at):
        end = datagram.index(b"\0", at)
        return datagram[at:end].decode(), end + 4 - (end - at) % 4

    address, at = string(0)
    tags, at = string(at)
    words = []
    for tag in tags[1:]:
        if tag == "s":
            word, at = string(at)
        else:
            (word,), at = struct.unpack_from(f">{tag}", datagram, at), at + 4
        words.append(word)
    assert at == len(datagram)
    return address, tuple(words)


class Tablet:
    """A sender, and what it was told."""

    def __init__(self, test, page):
        host, port = page.newest["show"]["osc"].split(":")
        self.socket = socket.socket(socket.AF_INET, socket.SOCK_DGRAM)
        test.addCleanup(self.socket.close)
        self.socket.connect((host, int(port)))
        self.has = {}

    def send(self, *words):
        self.socket.send(message(*words))

    def look(self):
        """Takes what came; how many datagrams."""
        count = 0
        self.socket.settimeout(0.05)
        while True:
            try:
                address, words = read(self.socket.recv(4096))
            except TimeoutError:
                return count
            self.has[address] = words
            count += 1

    def wait(self, address, *words):
        wait_for(lambda: self.look() * 0 or self.has.get(address) == words, (address, words))


class Subscribers(DeskTest):
    """Subscribers to what the desk shows: cut off, at once, and more than there is room for."""

    SHOW = SHOW.replace(b"! one", "! \N{LATIN SMALL LETTER O WITH DIAERESIS}ne".encode())

    def test_told(self):
        """All of it at once, then each change, whoever made it; and nothing behind an
        unsubscribe."""
        _, page = self.open_desk("--osc", 0)
        page.command("sub 1 FL")
        page.wait(masters={"sub 1": 255})
        tablet, other = Tablet(self, page), Tablet(self, page)
        tablet.send("/cueplayer/subscribe")
        expected = {
            "/cueplayer/cue": ("", ""),
            "/cueplayer/next": ("1", "\N{LATIN SMALL LETTER O WITH DIAERESIS}ne"),
            "/cueplayer/master": (1.0,),
            "/cueplayer/lost": (0,),
            "/cueplayer/sub/1": (1.0,),
            "/cueplayer/group/3": (0.0,),
        }
        wait_for(lambda: tablet.look() * 0 or tablet.has == expected, expected)
        page.command("go")
        tablet.wait("/cueplayer/cue", *expected["/cueplayer/next"])
        tablet.wait("/cueplayer/next", "1.5", "half past")
        other.send("/cueplayer/master", 0.0)
        tablet.wait("/cueplayer/master", 0.0)
        self.assertEqual(0, other.look())
        tablet.send("/cueplayer/unsubscribe")
        tablet.send("/cueplayer/sub/1", 0.0)
        page.wait(masters={"sub 1": 0})
        page.command("go")
        page.wait(current="1.5")
        tablet.look()
        self.assertEqual(
            ((1.0,), "1"), (tablet.has["/cueplayer/sub/1"], tablet.has["/cueplayer/cue"][0])
        )

    def test_many(self):
        """There is room for 32; the next is told on the page. One of them asks, and all are
        told."""
        _, page = self.open_desk("--osc", 0)
        tablets = [Tablet(self, page) for _ in range(33)]
        for tablet in tablets[:-1]:
            tablet.send("/cueplayer/subscribe")
            tablet.wait("/cueplayer/lost", 0)
        tablets[-1].send("/cueplayer/subscribe")
        many = "there are too many subscribers already"
        wait_for(lambda: any(many in told for told in page.notices()), many)
        page.command("go")
        for tablet in tablets[:-1]:
            tablet.wait("/cueplayer/next", "1.5", "half past")
        self.assertEqual(0, tablets[-1].look())

    def test_malformed(self):
        """A subscribe that is cut off is none; one that comes often is told all once a second."""
        _, page = self.open_desk("--osc", 0)
        tablet = Tablet(self, page)
        tablet.socket.send(pad(b"/cueplayer/subscribe") + b",s\0\0")
        wait_for(page.notices, "a refusal")
        self.assertEqual(0, tablet.look())
        began = time.monotonic()
        for _ in range(100):
            tablet.send("/cueplayer/subscribe")
        page.command("go")
        page.wait(current="1")
        count = tablet.look()
        rounds = 2 + (time.monotonic() - began)
        self.assertLessEqual(count, 6 * rounds + 2)


class Packets(unittest.TestCase):
    def test_packed(self):
        """What is packed is read again, here and by the reader of datagrams."""
        for words in (
            (),
            ("",),
            ("abc",),
            ("abcd", 0.5),
            (7, "\N{LATIN SMALL LETTER O WITH DIAERESIS}"),
            (2**40,),
        ):
            datagram = pack("/a/bc", *words)
            self.assertEqual(0, len(datagram) % 4)
            read_again = read(datagram)
            kept = tuple(min(word, 2**31 - 1) if type(word) is int else word for word in words)
            self.assertEqual(("/a/bc", kept), read_again)
            self.assertEqual("/a/bc", messages_of(datagram)[0].address)

    def test_lease(self):
        """Who does not ask again within a minute is told no more; its place is free."""
        night, sender, now = mock.Mock(), mock.Mock(), [10.0]
        night.state = State(Show(cues={1000: Cue("one")}))
        night.changed = mock.MagicMock()
        with mock.patch.object(osc_feedback.time, "monotonic", lambda: now[0]):
            feedback = osc_feedback.Feedback(night, sender)
            for port in range(32):
                self.assertTrue(feedback.ask(("10.0.0.1", port), osc_feedback.SUBSCRIBE))
            self.assertFalse(feedback.ask(("10.0.0.2", 1), osc_feedback.SUBSCRIBE))
            feedback.tell()
            self.assertEqual(32 * 4, sender.sendto.call_count)
            now[0] = 60.0
            feedback.ask(("10.0.0.1", 0), osc_feedback.SUBSCRIBE)
            now[0] = 71.0
            self.assertTrue(feedback.ask(("10.0.0.2", 1), osc_feedback.SUBSCRIBE))
            self.assertEqual(2, len(feedback.subscribers))
