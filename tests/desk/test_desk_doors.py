"""`tools/desk --listen`: who comes from elsewhere, by a PIN, and who does not."""

import argparse
import contextlib
import os
import re
import shutil
import socket
import ssl
import subprocess
import sys
import threading
import time
import unittest
from unittest import mock

from browser import CHROMIUM, MISSING, Browser
from desks import Page
from doors import DoorTest
from tooling import PATIENCE, run_tool, wait_for

from cueplayer_tools.desk import picture as desk_picture

from cueplayer_tools.desk import pins as desk_pins
from cueplayer_tools.desk.network import warnings
from cueplayer_tools.desk.pins import Pins, Role
from cueplayer_tools.desk.server import PIN_FILES
from cueplayer_tools.line_protocol import Refused
from cueplayer_tools.own_addresses import is_public


# Stands for python3-qrcode: a code of two rows.
CODE = b"""
class QRCode:
    def __init__(self, border):
        pass
    def add_data(self, address):
        assert address.startswith("http://127.0.0.1:"), address
    def get_matrix(self):
        return [[False, True], [True, False]]
"""


class Guests(DoorTest):
    """Requests from elsewhere: without a session or of another origin they do nothing."""

    def test_pin(self):
        """Without it there is only the page that asks for it; with it the session plays."""
        desk, page, door = self.open_desk()
        desk.err.find("desk: no TLS: the network is trusted")
        for name in PIN_FILES:
            status, content, _ = door.request("GET", f"/{name}")
            self.assertEqual(200, status, name)
            self.assertNotRegex(content, r"https?://|<style|\son\w+=|\sstyle=")
        for name in ("desk.js", "desk.css", "events", "look/1", "other", "/", "../desk.js"):
            self.assertEqual(401, door.request("GET", f"/{name}")[0], name)
        self.assertIn("asks for its PIN", door.request("GET", "/")[1])
        self.assertEqual(401, door.press(page, "go"))
        self.assertEqual(401, door.request("POST", "/pins", "new")[0])
        status, told = door.enter("000000" if door.play != "000000" else "000001")
        self.assertEqual((403, "wrong PIN"), (status, told[:9]))
        self.assertIsNone(door.cookie)
        self.assertEqual(204, door.enter(door.play)[0])
        self.assertIn("id=\"go\"", door.request("GET", "/")[1])
        self.assertEqual(204, door.press(page, "go"))
        page.wait(current="1")

    def test_cookie(self):
        """Scripts cannot read it, and other sites cannot use it."""
        _, _, door = self.open_desk()
        kept = door.request("POST", "/session", door.play)[2]["Set-Cookie"]
        pattern = rf"desk-{door.port}=[\w-]{{32}}; Path=/; HttpOnly; SameSite=Strict"
        self.assertRegex(kept, f"^{pattern}$")

    def test_watch(self):
        """Who shows the other PIN sees everything, and moves nothing."""
        _, page, door = self.open_desk()
        self.assertEqual(204, door.enter(door.watch)[0])
        self.assertEqual(403, door.press(page, "go"))
        self.assertEqual(403, door.request("POST", "/pins", "new")[0])
        guest = self.guest(door)
        self.assertEqual(("watch", False), self.role(guest))
        page.command("go")
        guest.wait(current="1")
        self.assertNotIn("guests", guest.newest)
        self.assertNotIn(door.play, str(guest.newest))

    def guest(self, door):
        """The open page of a session."""
        page = Page(self, f"{door.origin}/", door.cookie)
        wait_for(lambda: page.state, "a state")
        return page

    def role(self, guest):
        return guest.newest["show"]["role"], guest.newest["show"]["here"]

    def test_wrong_pins(self):
        """Five wrong PINs lock the address for a minute, which the desk tells; sessions go on."""
        desk, page, door = self.open_desk()
        door.enter(door.play)
        kept, door.cookie = door.cookie, None
        wrong = [
            pin for pin in map("{:06}".format, range(10)) if pin not in (door.play, door.watch)
        ]
        for pin in ("", "12345", "1234567", "x" * 6, "\N{SUPERSCRIPT TWO}"):
            self.assertEqual(403, door.enter(pin.encode())[0])
        status, told = door.enter(door.play)
        self.assertEqual(403, status)
        self.assertRegex(told, r"^5 wrong PINs came from here: wait \d+ seconds$")
        told = "5 wrong PINs came from 127.0.0.1: it is locked for a minute"
        wait_for(lambda: told in page.notices(), told)
        desk.err.find(f"desk: {re.escape(told)}$")
        self.assertEqual(403, door.enter(wrong[0])[0])
        self.assertEqual(204, door.press(page, "go", Cookie=kept))
        page.wait(current="1")

    def test_pins_changed(self):
        """A session that was stolen is none any more, and its page hears nothing."""
        _, page, door = self.open_desk()
        door.enter(door.play)
        guest = self.guest(door)
        self.assertEqual(403, door.request("POST", "/pins", "new")[0])
        self.assertEqual(204, page.request("POST", "pins", b"new")[0])
        guest.reader.join(PATIENCE)
        self.assertFalse(guest.reader.is_alive())
        self.assertEqual(401, door.press(page, "go"))
        self.assertEqual(401, door.request("GET", "/events")[0])
        pins = page.newest["guests"]["pins"]
        wait_for(lambda: page.newest["guests"]["pins"]["play"] != door.play, "new PINs")
        self.assertEqual(403, door.enter(door.play)[0])
        self.assertEqual({"play", "watch"}, set(pins))
        self.assertEqual(204, door.enter(page.newest["guests"]["pins"]["play"])[0])
        self.assertEqual(204, door.press(page, "go"))
        page.wait(current="1")

    def test_requests_of_others(self):
        """Another host, another origin, another site, a cookie that is none: refused."""
        _, page, door = self.open_desk()
        door.enter(door.play)
        good = door.cookie
        cases = (
            (403, {"Host": f"stage.example:{door.port}"}),
            (403, {"Host": door.host}),
            (403, {"Host": ""}),
            (403, {"Origin": "http://stage.example"}),
            (403, {"Origin": "null"}),
            (403, {"Origin": None}),
            (403, {"Origin": door.origin.replace("http:", "https:")}),
            (403, {"Sec-Fetch-Site": "cross-site"}),
            (403, {"Sec-Fetch-Site": "same-site"}),
            (401, {"Cookie": None}),
            (401, {"Cookie": ""}),
            (401, {"Cookie": good[:-1]}),
            (401, {"Cookie": good + "x"}),
            (401, {"Cookie": good.replace("desk-", "other-")}),
            (401, {"Cookie": f"x{good}"}),
        )
        for status, headers in cases:
            with self.subTest(headers):
                self.assertEqual(status, door.press(page, "go", **headers))
        self.assertEqual(413, door.request("POST", "/command", "go".ljust(201))[0])
        self.assertEqual(501, door.request("PUT", "/command", "go")[0])
        self.assertEqual(404, door.request("POST", "/other", "go")[0])
        self.assertEqual(204, door.press(page, "go", Cookie=f"a=b; {good}; c=d"))
        page.wait(current="1", notices=[])

    def test_names(self):
        """The page answers to a name that was given, and to no other."""
        _, page, door = self.open_desk("--host", "desk.local")
        door.enter(door.play)
        own = {"Host": f"Desk.local:{door.port}", "Origin": f"http://desk.local:{door.port}"}
        self.assertEqual(204, door.press(page, "go", **own))

    def test_many_connections(self):
        """A thousand connections that hold their requests back: presses of both doors are taken."""
        _, page, door = self.open_desk()
        door.enter(door.play)
        with contextlib.ExitStack() as held:
            for turn in range(1_000):
                slow = held.enter_context(socket.create_connection((door.host, int(door.port))))
                with contextlib.suppress(OSError):
                    slow.send(b"POST /command HTTP/1.1\r\n")
                if turn % 100 == 0:
                    for press in (door.press, lambda page, line: page.command(line)):
                        before = time.monotonic()
                        self.assertEqual(204, press(page, f"sub 1 {turn // 100}"))
                        self.assertLess(time.monotonic() - before, 1)

    def test_addresses(self):
        """Only this machine's own; what cannot be served is told, with status 2."""
        usual = (self.show, "--to", self.to, "--cid", self.cid)
        there = r"no card of this machine has 192\.0\.2\.77: there are 127\.0\.0\.1 \(lo\)"
        for words, told in (
            (("--listen", "192.0.2.77"), f"--listen: {there}"),
            (("--osc", "192.0.2.77:8000"), f"--osc: {there}"),
            (("--listen", "0.0.0.0"), "--listen: no card of this machine has 0.0.0.0"),
            (("--listen", "stage"), "not an IPv4 address: 'stage'"),
            (("--listen", "127.0.0.1:x"), "not a port: 'x'"),
            (
                ("--certificate", "a", "--listen", "127.0.0.1"),
                "--certificate and --key go together",
            ),
            (("--certificate", "a", "--key", "b"), "--certificate and --host need --listen"),
            (("--host", "a"), "--certificate and --host need --listen"),
        ):
            with self.subTest(words):
                done = run_tool("desk", *usual, *words)
                self.assertEqual(2, done.returncode)
                self.assertRegex(done.stderr, told)
        missing = ("--listen", "127.0.0.1:0", "--certificate", "/nowhere", "--key", "/nowhere")
        done = run_tool("desk", *usual, *missing)
        self.assertEqual(1, done.returncode)
        self.assertIn("/nowhere: No such file or directory", done.stderr)
        self.assertEqual(
            [False, False, False, True],
            [is_public(each) for each in ("10.1.1.1", "127.0.0.1", "169.254.1.1", "9.9.9.9")],
        )

    def test_markup(self):
        """Names of cues, and of the show's file, come as they are, without what moves a terminal or
        turns a line round."""
        self.show = self.show.rename(self.folder / "a \x1b[2J\u202e<b> \xe4.asc")
        self.show.write_bytes(
            'CUE 1 ! a <b>\x1b[2J\u202eb</b> & "q" c\nCHAN 1@FL\nPATCH 1 1<1@FL\n'.encode()
        )
        _, page, _ = self.open_desk()
        name = page.newest["show"]["cues"][0]["name"]
        self.assertEqual('a <b> [2J b</b> & "q" c', name)
        self.assertEqual("a ?[2J?<b> \xe4.asc", page.newest["show"]["title"])


@unittest.skipUnless(shutil.which("openssl"), "no openssl is on PATH")
class Encrypted(DoorTest):
    def certificate(self):
        words = ["openssl", "req", "-x509", "-newkey", "rsa:2048", "-nodes", "-days", "2"]
        words += ["-keyout", "key", "-out", "certificate", "-subj", "/CN=desk"]
        words += ["-addext", "subjectAltName=IP:127.0.0.1"]
        subprocess.run(words, cwd=self.folder, check=True, capture_output=True)
        return self.folder / "certificate", self.folder / "key"

    def test_tls(self):
        """All goes encrypted; who speaks no TLS there gets nothing, and delays nobody."""
        certificate, key = self.certificate()
        desk, page, door = self.open_desk("--certificate", certificate, "--key", key)
        self.assertTrue(door.origin.startswith("https://"))
        tls = ssl.create_default_context(cafile=certificate)
        with socket.create_connection((door.host, int(door.port)), timeout=PATIENCE) as plain:
            with contextlib.suppress(ConnectionResetError):
                plain.sendall(b"GET / HTTP/1.1\r\nHost: x\r\n\r\n")
                self.assertNotIn(b"HTTP", plain.recv(4096))
        silent = socket.create_connection((door.host, int(door.port)))
        self.addCleanup(silent.close)
        status, _, headers = door.request("POST", "/session", door.play, tls)
        self.assertEqual(204, status)
        self.assertTrue(headers["Set-Cookie"].endswith("; SameSite=Strict; Secure"))
        door.cookie = headers["Set-Cookie"].partition(";")[0]
        script = (self.script("desk.js"), door.request("GET", "/desk.js", None, tls)[1])
        self.assertEqual(script[0], script[1])
        sent = {"Desk-Time": page.desk_time(), "Desk-State": page.state["number"]}
        self.assertEqual(204, door.request("POST", "/command", "go", tls, **sent)[0])
        page.wait(current="1")
        self.assertNotIn("the network is trusted", self.messages(desk))

    def script(self, name):
        from cueplayer_tools.desk.server import PAGE

        return (PAGE / name).read_text()

    def messages(self, desk):
        desk.process.terminate()
        return "\n".join(desk.err.rest())


class Relay:
    """A network before a door, at another address of this machine: it holds back what comes."""

    def __init__(self, test, door, host):
        self.door, self.seconds = (door.host, int(door.port)), 0.0
        self.listener = socket.create_server((host, int(door.port)))
        # That ends the thread, and closing alone would not.
        test.addCleanup(self.listener.close)
        test.addCleanup(self.listener.shutdown, socket.SHUT_RDWR)
        threading.Thread(target=self._serve, daemon=True).start()

    def _serve(self):
        with contextlib.suppress(OSError):
            while True:
                theirs, _ = self.listener.accept()
                ours = socket.create_connection(self.door)
                for way in ((theirs, ours, True), (ours, theirs, False)):
                    threading.Thread(target=self._carry, args=way, daemon=True).start()

    def _carry(self, source, to, is_held):
        with source, contextlib.suppress(OSError):
            while data := source.recv(65_536):
                if is_held:
                    time.sleep(self.seconds)
                to.sendall(data)
            to.shutdown(socket.SHUT_WR)


@unittest.skipUnless(CHROMIUM, MISSING)
class InBrowser(DoorTest):
    def test_held_back(self):
        """What the network holds back for too long is told, and does nothing, then or later; of two
        presses that it holds back for less one counts."""
        _, page, door = self.open_desk("--host", "127.0.0.2")
        relay = Relay(self, door, "127.0.0.2")
        door.origin = f"http://127.0.0.2:{door.port}"
        browser = Browser(self)
        played = self.enter(browser, door, door.play)
        played.wait("document.getElementById('next').textContent === '1 one'")
        played.wait("!document.body.classList.contains('is-dead')")
        relay.seconds = 0.9
        played.press(" ", "Space", " ")
        played.wait("document.getElementById('said').innerText.includes('nothing was sent')")
        relay.seconds = 0.0
        page.command("sub 1 FL")
        self.assertIsNone(page.wait(masters={"sub 1": 255})["current"])

        def goes():
            """Presses twice; whether one of them counted, and came in time for that."""
            relay.seconds = 0.3
            for _ in range(2):
                played.press(" ", "Space", " ")
            time.sleep(1.1)
            relay.seconds = 0.0
            return page.state["current"]

        self.assertEqual("1", wait_for(goes, "a press that is in time"))
        page.command("sub 1 50")
        self.assertEqual("1", page.wait(masters={"sub 1": 128})["current"])

    def enter(self, browser, door, pin):
        """The page of who has typed this PIN."""
        page = browser.open_page(f"{door.origin}/")
        page.wait("document.activeElement.id === 'pin'")
        self.assertEqual([], [name for name in page.names("textbox") if not name])
        page.value(f"document.getElementById('pin').value = '{pin}'")
        page.press("Enter", "Enter", "\r")
        return page

    def test_pages(self):
        """By the PIN a page plays, by the other one it watches, and by none it asks again; new PINs
        send both out."""
        _, page, door = self.open_desk()
        browsers = [Browser(self), Browser(self)]
        wrong = next(pin for pin in ("000000", "000001", "000002")
                     if pin not in (door.play, door.watch))
        played = self.enter(browsers[0], door, wrong)
        for width in (1280, 390):
            played.call("Emulation.setDeviceMetricsOverride", width=width, height=844,
                        deviceScaleFactor=1, mobile=False)
            self.assertLessEqual(played.value("document.documentElement.scrollWidth"), width)
        played.wait("document.getElementById('told').textContent.startsWith('wrong PIN')")
        played.value(f"document.getElementById('pin').value = '{door.play}'")
        played.press("Enter", "Enter", "\r")
        watched = self.enter(browsers[1], door, door.watch)
        for each in (played, watched):
            each.wait("document.getElementById('next').textContent === '1 one'")
        watched.wait("document.getElementById('role').textContent.startsWith('Watching')")
        self.assertEqual(
            "none", watched.value("getComputedStyle(document.getElementById('dock')).display")
        )
        watched.press(" ", "Space", " ")
        watched.press("Backspace")
        played.press(" ", "Space", " ")
        page.wait(current="1", notices=[])
        watched.wait("document.getElementById('current').textContent === '1 one'")
        self.assertTrue(watched.value("document.getElementById('master').disabled"))
        self.assertEqual("", played.text("pin-play"))
        self.assertEqual(204, page.request("POST", "pins", b"new")[0])
        for each in (played, watched):
            each.wait("document.getElementById('pin') !== null")

    def test_picture(self):
        """The address as a picture, where python3-qrcode makes one."""
        self.file("qrcode.py", CODE)
        with mock.patch.dict(os.environ, PYTHONPATH=str(self.folder)):
            _, address = self.begin("--listen", "127.0.0.1:0")
        browser = Browser(self)
        page = browser.open_page(address)
        page.wait(
            "document.getElementById('modules').getAttribute('d') === 'M1 0h1v1h-1zM0 1h1v1h-1z'"
        )
        page.value("document.querySelector('[data-to=more]').click()")
        page.wait("document.getElementById('picture').getBoundingClientRect().width > 100")
        self.assertEqual([], browser.faults)

    def test_new_pins(self):
        """This machine's own page has the address and the PINs, and makes new ones at the second
        press."""
        _, address = self.begin("--listen", "127.0.0.1:0")
        browser = Browser(self)
        page = browser.open_page(address)
        page.wait("!document.getElementById('guests').hidden")
        page.value("document.querySelector('[data-to=more]').click()")
        before = page.text("pin-play")
        self.assertRegex(before, r"^\d{6}$")
        for _ in range(2):
            page.click("document.getElementById('new-pins')")
        page.wait(f"document.getElementById('pin-play').textContent !== '{before}'")
        self.assertEqual([], browser.faults)


class PinsOfADesk(unittest.TestCase):
    def test_pins(self):
        """Six digits each, and never the same."""
        for _ in range(200):
            pins = Pins().pins
            self.assertNotEqual(pins[Role.PLAY], pins[Role.WATCH])
            for pin in pins.values():
                self.assertRegex(pin, r"^\d{6}$")

    def test_sessions(self):
        """A session is its address's own; of too many the oldest ends."""
        pins = Pins()
        first = pins.enter(pins.pins[Role.PLAY], "10.0.0.1")
        self.assertEqual(Role.PLAY, pins.session(first, "10.0.0.1").role)
        self.assertIsNone(pins.session(first, "10.0.0.2"))
        watching = pins.enter(pins.pins[Role.WATCH], "10.0.0.1")
        tokens = [
            pins.enter(pins.pins[Role.PLAY], "10.0.0.3") for _ in range(desk_pins.MOST_SESSIONS)
        ]
        self.assertIsNone(pins.session(first, "10.0.0.1"))
        self.assertIsNotNone(pins.session(watching, "10.0.0.1"))
        self.assertIsNotNone(pins.session(tokens[0], "10.0.0.3"))

    def test_change_meanwhile(self):
        """Whatever happens at once, a session is none behind a change of the PINs."""
        pins, tokens, is_over = Pins(), [], threading.Event()

        def enter():
            while not is_over.is_set():
                with contextlib.suppress(Refused):
                    tokens.append(pins.enter(pins.pins[Role.PLAY], "10.0.0.1"))

        threads = [threading.Thread(target=enter) for _ in range(4)]
        for thread in threads:
            thread.start()
        for _ in range(500):
            pins.change()
        is_over.set()
        for thread in threads:
            thread.join()
        pins.change()
        self.assertEqual({None}, {pins.session(token, "10.0.0.1") for token in tokens} | {None})
        self.assertEqual({}, pins.sessions)

    def wrong(self, pins, address):
        with self.assertRaises(Refused) as refused:
            pins.enter("x", address)
        return str(refused.exception)

    def test_locks(self):
        """An address is free again after a minute; a right PIN forgets the wrong ones before it."""
        pins, now = Pins(), [0.0]
        with mock.patch.object(desk_pins.time, "monotonic", lambda: now[0]):
            for _ in range(4):
                self.wrong(pins, "10.0.0.1")
            pins.enter(pins.pins[Role.PLAY], "10.0.0.1")
            now[0] = 1.0
            for _ in range(5):
                self.assertIn("wrong PIN: ", self.wrong(pins, "10.0.0.1"))
            self.assertIn("wait 60 seconds", self.wrong(pins, "10.0.0.1"))
            now[0] = 60.0
            self.assertIn("wait 1 seconds", self.wrong(pins, "10.0.0.1"))
            pins.enter(pins.pins[Role.PLAY], "10.0.0.2")
            now[0] = 61.5
            pins.enter(pins.pins[Role.PLAY], "10.0.0.1")

    def test_many_addresses(self):
        """Wrong PINs of a thousand addresses: of all together no more are tried than are few; the
        memory is bounded."""
        pins, now = Pins(), [0.0]
        with mock.patch.object(desk_pins.time, "monotonic", lambda: now[0]):
            told = [self.wrong(pins, f"10.0.{at // 250}.{at % 250}") for at in range(1_000)]
        self.assertEqual(30, sum("wrong PIN: " in each for each in told))
        pins = Pins()
        with mock.patch.object(desk_pins.time, "monotonic", lambda: now[0]):
            told = [self.wrong(pins, f"10.0.0.{at // 5}") for at in range(1_000)]
        self.assertEqual(30, sum("wrong PIN: " in each for each in told))
        self.assertLessEqual(len(pins.attempts.wrong) + len(pins.attempts.locked), 60)


class Warned(unittest.TestCase):
    def test_public_addresses(self):
        """An address that the internet reaches is warned of; one of a network of ours is not."""
        words = argparse.Namespace(
            listen=("9.9.9.9", 8090), osc=("10.1.1.1", 8000), certificate="x"
        )
        (told,) = warnings(words)
        self.assertTrue(told.startswith("--listen: 9.9.9.9 faces the public internet"))
        words = argparse.Namespace(listen=None, osc=("9.9.9.9", 8000), certificate=None)
        (told,) = warnings(words)
        self.assertTrue(told.startswith("--osc: 9.9.9.9 faces the public internet"))


class Picture(unittest.TestCase):
    """A QR code in letters: of each two rows a letter, lit where a module is light."""

    def test_text(self):
        dark, upper, lower, light = " ", "\u2580", "\u2584", "\u2588"
        rows = ["1100", "1010"]
        self.assertEqual(dark + lower + upper + light, desk_picture.text_of(rows))
        self.assertEqual(f"{upper}\n{lower}", desk_picture.text_of(["0", "1", "1"]))

    def test_modules(self):
        """They come from python3-qrcode, with four light modules around; without it there are
        none."""

        class Code:
            def __init__(self, border):
                self.border = border

            def add_data(self, address):
                self.address = address

            def get_matrix(self):
                return [[True, False], [self.border == 4, self.address == "http://x/"]]

        with mock.patch.dict(sys.modules, qrcode=mock.Mock(QRCode=Code)):
            self.assertEqual(["10", "11"], desk_picture.modules_of("http://x/"))
        with mock.patch.dict(sys.modules, qrcode=None):
            self.assertEqual([], desk_picture.modules_of("http://x/"))
