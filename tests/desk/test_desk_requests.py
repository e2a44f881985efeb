"""`tools/desk`: requests that are cut short, slow or many, and presses that come late."""

import collections
import contextlib
import os
import random
import re
import resource
import signal
import socket
import threading
import time
from pathlib import Path

from desks import DeskTest, Page
from machine import in_time, took
from program import text
from tooling import run_tool, stand_still, wait_for

from cueplayer_tools.desk.requests import LONGEST_HEAD, Unreadable, request_in


class Requests(DeskTest):
    def status_of(self, page, data, is_over=True):
        """The status that these bytes are answered with; None where there is no answer."""
        host, port = page.host.split(":")
        with socket.create_connection((host, int(port)), timeout=10) as connection:
            connection.sendall(data)
            if is_over:
                connection.shutdown(socket.SHUT_WR)
            answer = b""
            with contextlib.suppress(ConnectionResetError):
                while more := connection.recv(4096):
                    answer += more
        return int(answer.split()[1]) if answer else None

    def command(self, page, body, size=None):
        """A command as bytes, which names this size."""
        head = (
            f"POST {page.path}command HTTP/1.1\r\nHost: {page.host}\r\nOrigin: {page.origin}\r\n"
            f"Desk-Time: {page.desk_time()}\r\nDesk-State: {page.state['number']}\r\n"
            f"Content-Length: {size or len(body)}\r\n\r\n"
        )
        return head.encode() + body

    def test_command_cut_short(self):
        """A command that does not come whole is none: 10 percent is not 100."""
        _, page = self.open_desk()
        self.assertEqual(400, self.status_of(page, self.command(page, b"sub 1 10", size=9)))
        self.assertEqual(400, self.status_of(page, self.command(page, b"sub 1 100", size=8)))
        self.assertEqual(204, self.status_of(page, self.command(page, b"sub 1 20")))
        page.wait(masters={"sub 1": 51})
        whole = self.command(page, b"sub 1 100")
        for size in range(1, len(whole), 7):
            self.assertEqual(400, self.status_of(page, whole[:size]), whole[:size])
        page.command("group 3 FL")
        page.wait(masters={"sub 1": 51, "group 3": 255})

    def test_malformed(self):
        """What is no request is answered, and does nothing."""
        _, page = self.open_desk()
        whole = self.command(page, b"go")
        cases = {
            400: (
                b"\r\n\r\n",
                b"go\r\n\r\n",
                b"\0" * 100,
                whole.replace(b"HTTP/1.1", b"HTTP/2.0"),
                whole.replace(b"Content", b"Content-Length: 1\r\nContent"),
                whole.replace(b"Origin", b"Host: stage.example\r\nOrigin"),
                whole.replace(b"Origin", b"Origin: http://stage.example\r\nOrigin"),
                whole.replace(b"Content", b"Transfer-Encoding: chunked\r\nContent"),
                whole.replace(b"Desk-Time", b"Other"),
                whole.replace(b"Desk-State", b"Other"),
                whole.replace(b"Desk-State: ", b"Desk-State: 9"),
                whole.replace(b"Desk-State: ", b"Desk-State: -"),
            ),
            413: (
                whole.replace(b"Length: 2", b"Length: 201"),
                whole.replace(b"Length: 2", b"Length: -2"),
                whole.replace(b"Length: 2", b"Length: x"),
            ),
            431: (
                b"GET / HTTP/1.1\r\nA: " + b"a" * LONGEST_HEAD,
                whole.replace(b"Content", b"A: b\r\n" * 200 + b"Content"),
            ),
        }
        for status, requests in cases.items():
            for request in requests:
                with self.subTest(request[:200]):
                    self.assertEqual(status, self.status_of(page, request))
        page.command("sub 1 FL")
        self.assertIsNone(page.wait(masters={"sub 1": 255})["current"])

    def test_pieces(self):
        """A request that comes in pieces is whole at its last byte, and not before."""
        whole = b"POST /x HTTP/1.1\r\nHost: here\r\nContent-Length: 2\r\n\r\ngo"
        for size in range(len(whole)):
            self.assertIsNone(request_in(whole[:size], False))
            with self.assertRaises(Unreadable):
                request_in(whole[:size], True)
        for is_over in (False, True):
            request = request_in(whole, is_over)
            self.assertEqual(("POST", "/x", b"go"), (request.method, request.path, request.body))
            self.assertEqual("here", request.headers["Host"])

    def test_damaged(self):
        """5,000 damaged requests: whatever comes is a request, no request, or not whole; nothing
        else is raised."""
        chance = random.Random(38)
        whole = (
            b"POST /x HTTP/1.1\r\nHost: here\r\nOrigin: http://here\r\nDesk-Time: 1\r\n"
            b"Content-Length: 2\r\n\r\ngo"
        )
        for _ in range(5_000):
            data = bytearray(whole)
            for _ in range(chance.randint(1, 4)):
                at, size = chance.randint(0, len(data)), chance.randint(0, 9)
                match chance.randrange(3):
                    case 0:
                        data[at:at] = chance.randbytes(size)
                    case 1:
                        del data[at : at + size]
                    case _:
                        data[at:at] = data[at : at + 10 * size]
            for is_over in (False, True):
                with contextlib.suppress(Unreadable):
                    request = request_in(bytes(data), is_over)
                    self.assertTrue(request is not None or not is_over)

    def test_slow_request(self):
        """A request has two seconds, however it is spread over them."""
        _, page = self.open_desk()
        whole = self.command(page, b"sub 1 100")
        for sent in (whole[:1], whole[:-1]):
            before = time.monotonic()
            self.assertEqual(408, self.status_of(page, sent, is_over=False))
            in_time(took(before), 8000, "a request")
        host, port = page.host.split(":")
        with socket.create_connection((host, int(port)), timeout=10) as connection:
            before = time.monotonic()
            with contextlib.suppress(ConnectionResetError, BrokenPipeError):
                for at in range(100):
                    connection.send(whole[at : at + 1])
                    time.sleep(0.1)
            in_time(took(before), 8000, "a request")
        page.command("group 3 FL")
        page.wait(masters={"group 3": 255})

    def test_many_slow_connections(self):
        """However many hold a request back, a press is taken at once."""
        desk, page = self.open_desk()
        few = (200, 200)
        resource.prlimit(desk.process.pid, resource.RLIMIT_NOFILE, few)
        host, port = page.host.split(":")
        front = self.command(page, b"go")[:-1]
        with contextlib.ExitStack() as held:
            for turn in range(800):
                slow = held.enter_context(socket.create_connection((host, int(port))))
                slow.send(front)
                if turn % 50 == 0:
                    before = time.monotonic()
                    self.assertEqual(204, page.command(f"sub 1 {turn // 50}"))
                    in_time(took(before), 1000, "a press")
            again = Page(self, page.origin + page.path)
            again.wait(masters={"sub 1": (15 * 255 + 50) // 100}, current=None)


class Flooded(DeskTest):
    def test_all_at_once(self):
        """A flood of datagrams, slow connections and 32 pages: a GO is taken in a second, and the
        memory of the desk stays as it is."""
        desk, page = self.open_desk("--osc", 0)
        host, port = page.newest["show"]["osc"].split(":")
        is_over = threading.Event()

        def flood():
            with socket.socket(socket.AF_INET, socket.SOCK_DGRAM) as sender:
                while not is_over.wait(0.001):
                    for _ in range(30):
                        with contextlib.suppress(OSError):
                            sender.sendto(b"/cueplayer/other\0\0\0\0,\0\0\0", (host, int(port)))

        def hold_back():
            held = collections.deque(maxlen=1_000)
            while not is_over.wait(0.002):
                with contextlib.suppress(OSError):
                    held.append(socket.create_connection(page.host.split(":"), 1))
                    held[-1].send(b"POST /command HTTP/1.1\r\n")

        pages = [Page(self, page.origin + page.path) for _ in range(31)]
        for each in pages:
            each.wait(placed=True)
        others = [threading.Thread(target=each, daemon=True) for each in (flood, hold_back)]
        for each in others:
            each.start()
        self.addCleanup(is_over.set)
        memory, late = [], 0
        for turn in range(40):
            before, line = time.monotonic(), "goto 1" if turn % 2 else "goto 1.5 in 0"
            # On a busy machine now and then one is refused, and told, since it came too late.
            while page.command(line) != 204:
                late += 1
                before = time.monotonic()
            page.wait(current=line.split()[1], waiting=0)
            late += time.monotonic() - before > 1
            memory.append(self.memory(desk))
        self.assertLessEqual(late, 3)
        is_over.set()
        for each in others:
            each.join()
        self.assertLess(memory[-1] - memory[5], 10_000)

    def memory(self, desk):
        """The memory of the desk, in KB."""
        status = Path(f"/proc/{desk.process.pid}/status").read_text()
        return int(re.search(r"VmRSS:\s+(\d+) kB", status)[1])


class Late(DeskTest):
    def test_late_press(self):
        """What was pressed too long ago, or does not say when, is refused, told, and not done."""
        _, page = self.open_desk()
        wait_for(lambda: int(page.desk_time()) > 1500, "the desk's clock")
        self.assertEqual(409, page.command("go", Desk_Time=page.desk_time(ago=1000)))
        told = r"^go: pressed [\d.]+ s ago, too late: nothing was sent$"
        wait_for(page.notices, "a notice")
        self.assertRegex(page.notices()[0], told)
        ahead = page.desk_time(ago=-60_000)
        for time_word in (None, "", "x", "-1", "1.5", "\u00b2", ahead, "9" * 16):
            with self.subTest(time_word):
                self.assertEqual(400, page.command("go", Desk_Time=time_word))
        page.command("sub 1 FL")
        self.assertIsNone(page.wait(masters={"sub 1": 255})["current"])
        self.assertEqual(204, page.command("go", Desk_Time=page.desk_time(ago=300)))
        page.wait(current="1")

    def test_desk_that_stands_still(self):
        """A press that waited for the desk is not carried out when it goes on."""
        desk, page = self.open_desk()
        host, port = page.host.split(":")
        head = (
            f"POST {page.path}command HTTP/1.1\r\nHost: {page.host}\r\nOrigin: {page.origin}\r\n"
            f"Desk-Time: {page.desk_time()}\r\nDesk-State: {page.state['number']}\r\n"
            "Content-Length: 2\r\n\r\ngo"
        )
        stand_still(desk.process.pid)
        with socket.create_connection((host, int(port)), timeout=10) as connection:
            connection.sendall(head.encode())
            time.sleep(2)
            os.kill(desk.process.pid, signal.SIGCONT)
            self.assertIn(b" 409 ", connection.recv(4096))
        page.command("sub 1 FL")
        self.assertIsNone(page.wait(masters={"sub 1": 255})["current"])

    def test_live_that_reads_nothing(self):
        """A press that `live` does not read in a second is taken back, and those behind it are
        refused until `live` reads again."""
        desk, page = self.open_desk()
        stand_still(desk.live)
        self.assertEqual([204, 204], [page.command("go"), page.command("sub 1 FL")])
        page.wait(late=True, waiting=0, current=None)
        why = "taken back, live did not read it in a second"
        told = [f"go: {why}", f"sub 1 HFF: {why}"]
        self.assertEqual(told, page.notices())
        self.assertEqual(409, page.command("go"))
        wait_for(lambda: len(page.notices()) == 3, "a notice")
        self.assertEqual("go: live does not answer: nothing was sent", page.notices()[-1])
        os.kill(desk.live, signal.SIGCONT)
        page.wait(late=False, current=None, masters={})
        page.command("goto 2")
        page.wait(current="2", masters={})


class TooMany(DeskTest):
    """No GO is carried out twice, or for another cue than the page showed as next."""

    def test_double_go(self):
        """A second GO within the time is refused, and told; one behind it is taken."""
        desk, page = self.open_desk("--double-go", 10_000)
        self.assertEqual(204, page.command("go", Desk_Time=page.desk_time()))
        page.wait(current="1", waiting=0)
        self.assertEqual(409, page.command("go"))
        told = r"^go: a second GO \d+ ms after the first: nothing was sent$"
        wait_for(page.notices, "a notice")
        self.assertRegex(page.notices()[0], told)
        for line, cue in (("back", None), ("goto 1.5", "1.5")):
            page.command(line)
            page.wait(current=cue or "1", waiting=0)
        self.assertEqual(409, page.command("go"))
        page.command("sub 1 FL")
        self.assertEqual("1.5", page.wait(masters={"sub 1": 255})["current"])

    def test_usual_time(self):
        """It is 400 ms where nothing else is said, from press to press."""
        desk, page = self.open_desk("--double-go", 400)
        wait_for(lambda: int(page.desk_time()) > 1500, "the desk's clock")
        self.assertEqual(204, page.command("go", Desk_Time=page.desk_time(ago=600)))
        page.wait(current="1", waiting=0)
        self.assertEqual(204, page.command("go"))
        page.wait(current="1.5", waiting=0)
        words = run_tool("desk", "--help").stdout
        self.assertRegex(" ".join(words.split()), r"--double-go MS refuse a second GO .* \(400\)")
        for word in ("-1", "x", "10001", "1.5"):
            done = run_tool("desk", self.show, "--to", self.to, f"--double-go={word}")
            self.assertEqual(2, done.returncode)

    def test_state_that_is_over(self):
        """GO and BACK count for the cue that the page showed as next; other presses for any."""
        _, page = self.open_desk()
        before = page.state["number"]
        self.assertEqual(204, page.command("go", Desk_State=before))
        page.wait(current="1", waiting=0)
        for line in ("go", "back", "GO"):
            self.assertEqual(409, page.command(line, Desk_State=before))
        why = "another cue is next than when it was pressed: nothing was sent"
        wait_for(lambda: f"go: {why}" in page.notices(), why)
        for line in ("sub 1 FL", "goto 1.5"):
            self.assertEqual(204, page.command(line, Desk_State=before))
        page.wait(current="1.5", masters={"sub 1": 255}, waiting=0)
        # What changes beside the cues makes no press an old one.
        seen = page.state["number"]
        page.command("sub 1 50")
        page.wait(masters={"sub 1": 128}, waiting=0)
        self.assertEqual(204, page.command("go", Desk_State=seen))
        page.wait(current="2")
        for ahead in (page.state["number"] + 1000, "9" * 15, "", "x", "-1", None):
            self.assertEqual(400, page.command("back", Desk_State=ahead))

    def test_move_on_its_way(self):
        """A GO behind one that has no answer yet is refused: the page still shows the old cue."""
        desk, page = self.open_desk()
        stand_still(desk.live)
        self.assertEqual(204, page.command("go"))
        self.assertEqual(409, page.command("go"))
        os.kill(desk.live, signal.SIGCONT)
        told = "go: a move is on its way: nothing was sent"
        wait_for(lambda: told in page.notices() or page.state["current"] == "1", told)
        page.command("sub 1 FL")
        self.assertIn(page.wait(masters={"sub 1": 255})["current"], ("1", None))

    def test_follow_on(self):
        """A GO that was pressed as a cue went by itself does not skip it."""
        lines = ("CUE 1", "FOLLOWON 1", "CUE 2", "CUE 3", "CHAN 1@FL", "PATCH 1 1<1@FL")
        self.show.write_bytes(text(*lines))
        _, page = self.open_desk()
        page.command("go")
        seen = page.wait(current="1", waiting=0)["number"]
        page.wait(current="2")
        self.assertEqual(409, page.command("go", Desk_State=seen))
        page.command("sub 9 FL")
        wait_for(lambda: any("NoSub" in told for told in page.notices()), "the answer behind it")
        self.assertEqual("2", page.state["current"])


class Whose(DeskTest):
    def test_pages(self):
        """A refusal has the word of the page that asked, whether `live` refuses or the desk; what
        is no such word is nobody's. Each page hears of each."""
        _, page = self.open_desk()
        other = Page(self, f"{page.origin}{page.path}")
        asked = (
            ("back", "0a1b2c3d", "0a1b2c3d"), ("goto 99", "f", "f"), ("nonsense", "00ff", "00ff"),
            ("back", None, ""), ("back", "", ""), ("back", "xyz", ""), ("back", "a" * 17, ""),
        )  # fmt: skip
        for count, (line, word, _) in enumerate(asked, 1):
            page.command(line, Desk_Page=word)
            wait_for(lambda: len(page.notices()) == count, f"notice {count}")
        for each in (page, other):
            wait_for(lambda: len(each.notices()) == len(asked), "a notice for each")
            told = [notice["page"] for notice in each.state["notices"]]
            self.assertEqual([word for *_, word in asked], told)

    def test_others(self):
        """What is told beside presses concerns all."""
        desk, page = self.open_desk()
        with open(f"/proc/{desk.live}/fd/2", "wb", buffering=0) as told:
            told.write(b"something odd\n")
        wait_for(page.notices, "the notice")
        self.assertEqual([("fault", "")],
                         [(each["kind"], each["page"]) for each in page.state["notices"]])
