"""`tools/osc`: Open Sound Control datagrams, and the lines that they ask for."""

import contextlib
import itertools
import math
import queue
import random
import re
import select
import signal
import socket
import struct
import subprocess
import sys
import tempfile
import threading
import time
import unittest
from unittest import mock

from machine import Late, in_time, took
from osc_messages import GO, GREATEST_DOUBLE, message, pad
from program import CID, PROGRAM, ProgramTest
from tooling import PATIENCE, TOOLS, Started, run_tool, stand_still, wait_for
from wire import SLOT_1, address_of, datagrams_at, receiver_socket
from worked import S1

from cueplayer_tools.addresses import bound_socket
from cueplayer_tools.line_protocol import command_line
from cueplayer_tools.osc import port as osc_port
from cueplayer_tools.osc.lines import lines_of
from cueplayer_tools.osc.port import OscPort


def bundle(*elements):
    """An OSC bundle, to be carried out at once."""
    sized = (len(each).to_bytes(4, "big") + each for each in elements)
    return b"#bundle\0" + bytes(7) + b"\1" + b"".join(sized)


ASKED = (
    (GO, "go"),
    (message("/go"), "go"),
    (message("/cue/2.5/start"), "goto 2.5"),
    (message("/eos/cue/1/2.5/fire"), "goto 2.5"),
    (pad(b"/cueplayer/go"), "go"),
    (message("/cueplayer/go", 1.0), "go"),
    (message("/cueplayer/go", 1), "go"),
    (message("/cueplayer/go", True), "go"),
    (message("/cueplayer/go", tags="I"), "go"),
    (message("/cueplayer/back", 1.0), "back"),
    (message("/cueplayer/end"), "end"),
    (message("/cueplayer/goto", 2.5), "goto 2.5"),
    (message("/cueplayer/goto", 2.1), "goto 2.1"),
    (message("/cueplayer/goto", 9999.999), "goto 9999.999"),
    (message("/cueplayer/goto", 7), "goto 7"),
    (message("/cueplayer/goto", "2.50"), "goto 2.5"),
    (message("/cueplayer/goto", ".25"), "goto 0.25"),
    (message("/cueplayer/goto/1.5", 1.0), "goto 1.5"),
    (message("/cueplayer/goto/13/in", 0), "goto 13 in 0"),
    (message("/cueplayer/goto/13/in", 0.0), "goto 13 in 0"),
    (message("/cueplayer/goto/2.50/in", 4.1), "goto 2.5 in 4.1"),
    (message("/cueplayer/goto/1/in", 0.256), "goto 1 in 0.26"),
    (message("/cueplayer/goto/1/in", 100), "goto 1 in 100"),
    (message("/cueplayer/goto/1/in", "1:30.5"), "goto 1 in 90.5"),
    (message("/cueplayer/goto/1/in", "99:59.99"), "goto 1 in 5999.99"),
    (message("/cueplayer/goto/1/in/0"), "goto 1 in 0"),
    (message("/cueplayer/goto/1/in/.5", 1.0), "goto 1 in 0.5"),
    (message("/cueplayer/sub/3", 0.5), "sub 3 H80"),
    (message("/cueplayer/sub/3", "0.5"), "sub 3 H80"),
    (message("/cueplayer/sub/65535", 0.0), "sub 65535 H00"),
    (message("/cueplayer/group/1", 1.0), "group 1 HFF"),
    (message("/cueplayer/group/1", 1), "group 1 HFF"),
    (message("/cueplayer/group/01", False), "group 1 H00"),
    (message("/cueplayer/master", 0.8), "master HCC"),
    (message("/cueplayer/master", tags="d") + struct.pack(">d", 0.002), "master H01"),
    (message("/cueplayer/master", tags="h") + struct.pack(">q", 1), "master HFF"),
)
RELEASED = (
    message("/cueplayer/go", 0.0),
    message("/cueplayer/back", 0),
    message("/cueplayer/end", False),
    message("/cueplayer/goto/1.5", 0.0),
    message("/cueplayer/goto/1.5/in/0", 0.0),
)
REFUSED = (
    (b"", "an empty datagram"),
    (b"go", "a size that is no multiple of four: go"),
    (b"gogo", "an address without an end: gogo"),
    (pad(b"go\n"), "no address: go??"),
    (b"/a\0b", "an address without its padding: /a?b"),
    (message("/Go"), "/Go: no such address"),
    (message("/go/1"), "/go/1: no such address"),
    (message("/cue/1"), "/cue/1: no such address"),
    (message("/cue/x/start"), "/cue/x/start: not a cue number: x"),
    (message("/cue/1/stop"), "/cue/1/stop: no such address"),
    (message("/eos/cue/2/1/fire"), "/eos/cue/2/1/fire: no cue list 2: there is only list 1"),
    (message("/eos/cue/1/fire"), "/eos/cue/1/fire: no such address"),
    (message("/eos/key/go"), "/eos/key/go: no such address"),
    (message("/cueplayer/subscribe"), "/cueplayer/subscribe: no such address"),
    (message("/cueplayer/"), "/cueplayer/: no such address"),
    (message("/cueplayer/Go"), "/cueplayer/Go: no such address"),
    (message("/cueplayer/go/"), "/cueplayer/go/: no such address"),
    (message("/cueplayer/sub/*", 1.0), "/cueplayer/sub/*: not a number: *"),
    (message("/cueplayer/sub/65536", 1.0), "/cueplayer/sub/65536: not a number: 65536"),
    (message("/cueplayer/sub/3"), "/cueplayer/sub/3: 0 arguments instead of one"),
    (message("/cueplayer/sub/3", 0.1, 0.2), "/cueplayer/sub/3: 2 arguments instead of one"),
    (message("/cueplayer/master", 1.5), "/cueplayer/master: level out of range: 1.5"),
    (message("/cueplayer/master", 50), "/cueplayer/master: level out of range: 50"),
    (message("/cueplayer/master", -0.1), "/cueplayer/master: not a number from 0: -0.1"),
    (message("/cueplayer/master", float("nan")), "/cueplayer/master: not a number from 0: nan"),
    (message("/cueplayer/master", "full"), "/cueplayer/master: not a number: full"),
    (message("/cueplayer/goto", 0), "/cueplayer/goto: not a cue number: 0.000"),
    (message("/cueplayer/goto", 10000.0), "/cueplayer/goto: not a cue number: 10000.000"),
    (GREATEST_DOUBLE, "/cueplayer/goto: not a cue number: 1e+308"),
    (message("/cueplayer/goto", float("inf")), "/cueplayer/goto: not a number from 0: inf"),
    (message("/cueplayer/goto", float("-inf")), "/cueplayer/goto: not a number from 0: -inf"),
    (message("/cueplayer/goto", float("nan")), "/cueplayer/goto: not a number from 0: nan"),
    (message("/cueplayer/goto", "1\n2 go"), "/cueplayer/goto: not a cue number: 1?2 go"),
    (message("/cueplayer/goto", True), "/cueplayer/goto: not a cue number"),
    (message("/cueplayer/goto/1/in"), "/cueplayer/goto/1/in: 0 arguments instead of one"),
    (message("/cueplayer/goto/1/in", True), "/cueplayer/goto/1/in: not a time"),
    (message("/cueplayer/goto/1/in", -1.0), "/cueplayer/goto/1/in: not a number from 0: -1"),
    (message("/cueplayer/goto/1/in", 6000), "/cueplayer/goto/1/in: not a time: 6000.00"),
    (message("/cueplayer/goto/1/in", 1e9), "/cueplayer/goto/1/in: not a time: 1e+09"),
    (message("/cueplayer/goto/1/in", "1:60"), "/cueplayer/goto/1/in: not a time: 1:60"),
    (message("/cueplayer/goto/0/in", 1), "/cueplayer/goto/0/in: not a cue number: 0"),
    (message("/cueplayer/goto/1/in/x"), "/cueplayer/goto/1/in/x: not a time: x"),
    (message("/cueplayer/goto/1/to/4"), "/cueplayer/goto/1/to/4: no such address"),
    (message("/cueplayer/go", -1.0), "/cueplayer/go: not a number from 0: -1"),
    (message("/cueplayer/go", tags="b"), "an argument of type b: /cueplayer/go???,b??"),
    (message("/cueplayer/go", tags="i"), "an argument is cut off: /cueplayer/go???,i??"),
    (GO + bytes(4), "bytes are left over after /cueplayer/go: /cueplayer/go???,???????"),
    (b"#bundle\0", "a bundle is cut off: #bundle?"),
    (bundle(GO)[:-4], "a bundle's element has no such size: #bundle?????????????/cueplayer/go???"),
)


class Lines(unittest.TestCase):
    def test_asked(self):
        for datagram, line in ASKED:
            with self.subTest(line=line, datagram=datagram):
                self.assertEqual(([line], []), lines_of(datagram))

    def test_release_asks_for_nothing(self):
        for datagram in RELEASED:
            with self.subTest(datagram):
                self.assertEqual(([], []), lines_of(datagram))

    def test_refused(self):
        for datagram, named in REFUSED:
            with self.subTest(named):
                self.assertEqual(([], [named]), lines_of(datagram))

    def test_every_byte_level(self):
        """Each byte is reached from its own share, as a float of four bytes has it."""
        for byte in range(256):
            expected = [f"sub 1 H{byte:02X}"]
            self.assertEqual((expected, []), lines_of(message("/cueplayer/sub/1", byte / 255)))

    def test_bundles(self):
        """The messages of a bundle in their order, bundles within it too; one that asks for
        nothing known is refused alone, and a malformed one refuses them all."""
        master = message("/cueplayer/master", 1.0)
        inner = bundle(message("/cueplayer/back"), message("/cueplayer/go", 0.0))
        self.assertEqual(
            (["go", "back", "master HFF"], ["/other: no such address"]),
            lines_of(bundle(GO, inner, message("/other"), master)),
        )
        self.assertEqual(([], []), lines_of(bundle()))
        lines, refused = lines_of(bundle(GO, b"oops"))
        self.assertEqual([], lines)
        self.assertEqual(1, len(refused))
        deep = GO
        for _ in range(1000):
            deep = bundle(deep)
        self.assertRegex(lines_of(deep)[1][0], "^bundles within bundles, too deep: ")

    def test_any_bytes(self):
        """What is named of any datagram is one short printable line, and nothing is raised."""
        goto = pad(b"/cueplayer/goto")
        starts = (b"", pad(b"/cueplayer/go"), b"#bundle\0" + bytes(8), goto)
        for start in (*starts, goto + b",s\0\0"):
            for byte in range(256):
                for size in (1, 4, 300):
                    lines, refused = lines_of(start + bytes([byte]) * size)
                    for text in lines + refused:
                        self.assertRegex(text, r"\A[ -~]{1,200}\Z")


    def test_any_number(self):
        """Whatever number an argument is, it is refused, or it spells a command."""
        chance = random.Random(38)
        edges = (0.0, 5e-324, 1.0, 9999.999, 1e6, 1.8e305, 1e308, math.inf, math.nan)
        doubles = [edge * sign for edge in edges for sign in (1, -1)]
        doubles += struct.unpack(">2000d", chance.randbytes(16_000))
        huge = (0, 1, -1, 2**53, 2**63 - 1, -(2**63))
        numbers = [("d", struct.pack(">d", each)) for each in doubles]
        numbers += [("h", struct.pack(">q", each)) for each in huge]
        numbers += [("f", chance.randbytes(4)) for _ in range(2000)]
        numbers += [("i", chance.randbytes(4)) for _ in range(200)]
        for tag, data in numbers:
            for address in ("go", "goto", "goto/1", "goto/1/in", "sub/1", "group/65535", "master"):
                self.assertReadable(message(f"/cueplayer/{address}", tags=tag) + data)

    def test_damaged(self):
        """20,000 datagrams with bytes turned, cut out, doubled and put in, by chance: each is a
        command, or refused."""
        chance = random.Random(1138)
        whole = [datagram for datagram, _ in ASKED + REFUSED] + [bundle(GO, GREATEST_DOUBLE, GO)]
        for _ in range(20_000):
            datagram = bytearray(chance.choice(whole))
            for _ in range(chance.randint(1, 4)):
                at, size = chance.randint(0, len(datagram)), 4 * chance.randint(0, 3)
                match chance.randrange(4):
                    case 0:
                        datagram[at:at] = chance.randbytes(size)
                    case 1:
                        del datagram[at : at + size]
                    case 2:
                        datagram[at:at] = datagram[at : at + size]
                    case _:
                        datagram[at : at + 1] = chance.randbytes(1)
            self.assertReadable(bytes(datagram))

    def assertReadable(self, datagram):
        """Nothing is raised; each line is a command as `live` spells it, and what is refused is a
        short line."""
        lines, refused = lines_of(datagram)
        for line in lines:
            self.assertEqual(line, command_line(line))
        for text in refused:
            self.assertRegex(text, r"\A[ -~]{1,200}\Z")


class Port(unittest.TestCase):
    def setUp(self):
        self.told, self.lines = [], []
        self.receiver = bound_socket(("127.0.0.1", 0))
        self.addCleanup(self.receiver.close)
        self.port = OscPort(self.receiver, self.told.append)

    def sender(self, machine=1):
        """A port of its own of this machine, 127.0.0.N."""
        sender = socket.socket(socket.AF_INET, socket.SOCK_DGRAM)
        self.addCleanup(sender.close)
        sender.bind((f"127.0.0.{machine}", 0))
        sender.connect(self.receiver.getsockname())
        return sender

    def take(self):
        """Takes all that has come."""
        while select.select([self.receiver], [], [], 0)[0]:
            self.port.take(self.lines.append)

    def test_one_sender_floods(self):
        """What one sends without end leaves room for the presses of others."""
        one, other = self.sender(), self.sender()
        began = time.monotonic()
        for _ in range(1_500):
            one.send(GO)
            self.take()
        other.send(message("/cueplayer/back"))
        self.take()
        self.assertEqual("back", self.lines[-1])
        seconds = 1 + int(time.monotonic() - began)
        self.assertLessEqual(len(self.lines), 1_000 * seconds + 1)
        self.assertLessEqual(len(self.told), seconds + 1)
        self.assertIn("go", self.lines)

    def test_one_machine_floods(self):
        """From two hundred ports it takes half of the time for reading, and the presses of other
        machines are read: short ones and long ones."""
        long = bundle(*[message("/cueplayer/none")] * 2_000)
        press, other = bundle(*[message("/cueplayer/sub/1", 0.5)] * 20), self.sender(2)
        few = mock.patch.dict(osc_port.MOST_READING, short=0.001, long=0.2)
        with few, mock.patch.object(osc_port.time, "monotonic", lambda: self.port.second):
            for flood in (long, GO):
                for _ in range(200):
                    sender = self.sender()
                    sender.send(flood)
                    self.take()
                    sender.close()
            taken = len(self.lines)
            self.assertLess(taken, 200)
            for datagram in (press, GO):
                self.sender().send(datagram)
                self.take()
            self.assertEqual(taken, len(self.lines))
            for datagram in (press, GO):
                other.send(datagram)
                self.take()
        self.assertEqual(["sub 1 H80"] * 20 + ["go"], self.lines[taken:])

    def test_reading(self):
        """However many send, what is long to read takes no more than its part of a second, and
        neither does what is short; the rest is refused, and told."""
        long, now = bundle(*[message("/cueplayer/none")] * 2_000), [self.port.second]
        press, one = bundle(*[message("/cueplayer/sub/1", 0.5)] * 20), self.sender()
        machines = itertools.cycle(range(2, 200))
        self.assertGreater(len(press), osc_port.PART)
        few = mock.patch.dict(osc_port.MOST_READING, short=0.005, long=0.02)
        with few, mock.patch.object(osc_port.time, "monotonic", lambda: now[0]):
            while self.port.reading["long"] <= 0.02:
                self.sender(next(machines)).send(long)
                self.take()
            for datagram in (press, GO):
                one.send(datagram)
                self.take()
            self.assertEqual(["go"], self.lines)
            now[0] += 1.0
            self.port.take(self.lines.append)
            self.assertIn("more long datagrams in a second than can be read", self.told[-1])
            one.send(press)
            self.take()
            self.assertEqual(21, len(self.lines))
            # On a quick machine one sender may not send as much in a second.
            with mock.patch.object(osc_port, "MOST_OF_ONE", 1_000_000):
                while self.port.reading["short"] <= 0.005:
                    self.sender(next(machines)).send(GO)
                    self.take()
            taken = len(self.lines)
            self.sender().send(GO)
            self.take()
        self.assertEqual((taken, {"go"}), (len(self.lines), set(self.lines[21:])))

    def test_lost(self):
        """What found no room before it was read is counted, and told."""
        sender, sent = self.sender(), 40_000
        for _ in range(sent):
            sender.send(b"/cueplayer/")
        time.sleep(1.1)
        self.take()
        time.sleep(1.1)
        self.assertEqual(0.0, self.port.patience())
        self.port.take(self.lines.append)
        told = " ".join(self.told)
        lost = sum(map(int, re.findall(r"(\d+) datagrams lost, unread", told)))
        refused = sum(map(int, re.findall(r"refused (\d+) in a second", told)))
        self.assertEqual(sent, lost + refused + told.count("refused from"))
        self.assertGreater(lost, 0)
        time.sleep(1.1)
        self.port.take(self.lines.append)
        self.assertIsNone(self.port.patience())


class Flood:
    """A thousand times this datagram each 20 ms, for three seconds at most, to a port here."""

    def __init__(self, test, port, datagram):
        self.sent = 0
        self.is_over = threading.Event()
        self.sender = threading.Thread(target=self._send, args=(port, datagram))
        self.sender.start()
        test.addCleanup(self.end)

    def _send(self, port, datagram):
        with socket.socket(socket.AF_INET, socket.SOCK_DGRAM) as flood:
            flood.connect(("127.0.0.1", port))
            for _ in range(150):
                for _ in range(1_000):
                    flood.send(datagram)
                self.sent += 1_000
                if self.is_over.wait(0.02):
                    return

    def end(self):
        """Ends it; how many were sent."""
        self.is_over.set()
        self.sender.join()
        return self.sent


class Tool(ProgramTest):
    def begin_tool(self, **options):
        """The tool at a port of its own, and a function that sends to it."""
        osc = Started(self, "osc", "--listen", "127.0.0.1:0", **options)
        port = int(re.fullmatch(r"osc: listening at 127\.0\.0\.1:(\d+)", osc.err.next())[1])
        osc.port = port
        sender = socket.socket(socket.AF_INET, socket.SOCK_DGRAM)
        self.addCleanup(sender.close)
        sender.bind(("127.0.0.1", 0))
        self.from_port = sender.getsockname()[1]
        return osc, lambda datagram: sender.sendto(datagram, ("127.0.0.1", port))

    def test_lines_come_one_by_one(self):
        osc, send = self.begin_tool()
        for datagram, line in ASKED[:4]:
            send(datagram)
            self.assertEqual(line, osc.out.next())
        send(message("/other\n"))
        told = f"osc: refused from 127.0.0.1:{self.from_port}: /other?: no such address"
        self.assertEqual(told, osc.err.next())
        send(b"")
        self.assertIn("an empty datagram", osc.err.next())
        send(GO)
        self.assertEqual("go", osc.out.next())

    def test_nothing_ends_it(self):
        """A datagram that cannot be read is told, and the next press is taken."""
        osc, send = self.begin_tool()
        for datagram in (GREATEST_DOUBLE, b"", bytes(60_000), b"#bundle\0" * 5_000, GO[:-1]):
            send(datagram)
        send(GO)
        self.assertEqual("go", osc.out.next())
        self.assertIn("not a cue number: 1e+308", osc.err.next())
        told = rf"refused 4 in a second, the latest from 127\.0\.0\.1:{self.from_port}: a size"
        self.assertRegex(osc.err.next(), told)

    def test_late(self):
        """What came while the tool stood still for more than a second is refused."""
        osc, send = self.begin_tool()
        stand_still(osc.process.pid)
        send(GO)
        time.sleep(1.2)
        osc.process.send_signal(signal.SIGCONT)
        self.assertRegex(osc.err.next(), r": go: it came \d+\.\d s ago, too late$")

        def is_taken():
            """Whether one more press is taken: on a busy machine it may be late too."""
            send(message("/cueplayer/back"))
            with contextlib.suppress(queue.Empty):
                return osc.out.next(1) == "back"

        wait_for(is_taken, "a press that is in time")

    def test_reader_that_stands_still(self):
        """A press that nobody takes does not wait for later: it is refused."""
        words = [sys.executable, TOOLS / "osc", "--listen", "127.0.0.1:0"]
        pipes = {"stdout": subprocess.PIPE, "stderr": subprocess.PIPE}
        with subprocess.Popen(words, text=True, **pipes) as osc:
            self.addCleanup(osc.kill)
            port = int(osc.stderr.readline().rpartition(":")[2])
            with socket.socket(socket.AF_INET, socket.SOCK_DGRAM) as sender:
                sender.connect(("127.0.0.1", port))
                sender.send(GO)
                time.sleep(1.5)
                sender.send(message("/cueplayer/back"))
                self.assertIn("back: the reader of the lines stands still", osc.stderr.readline())
                self.assertEqual("go\n", osc.stdout.readline())
                sender.send(message("/cueplayer/back"))
                self.assertEqual("back\n", osc.stdout.readline())
            osc.kill()

    def test_flood(self):
        """Under thousands of datagrams a second, of others and of itself, each press comes within
        a second, and a line a second is told."""
        for junk in (b"junk" * 16, message("/accxyz", 0.5), message("/cueplayer/other", 0.5)):
            with self.subTest(junk):
                osc, send = self.begin_tool()
                flood = Flood(self, osc.port, junk)
                for number in range(1, 9):
                    pressed = time.monotonic()
                    send(message("/cueplayer/goto", number))
                    try:
                        self.assertEqual(f"goto {number}", osc.out.next(5))
                    except queue.Empty:
                        # A tool that has no processor loses what finds no room in the system.
                        raise Late("a press was lost in the flood") from None
                    in_time(took(pressed), 1000, "a press")
                    time.sleep(0.2)
                self.assertGreater(flood.end(), 1_000)
                osc.process.kill()
                self.assertLess(len(osc.err.rest()), 10)

    def test_address(self):
        """A port alone is of this machine alone; what is no address is refused by its words."""
        with receiver_socket() as taken:
            port = taken.getsockname()[1]
            done = run_tool("osc", "--listen", port)
            told = f"osc: cannot listen at 127.0.0.1:{port}: Address already in use\n"
            self.assertEqual((1, "", told), (done.returncode, done.stdout, done.stderr))
        for word in ("", "1.2.3:4", "1.2.3.400:4", "localhost:4", "1.2.3.4:65536", "1.2.3.4:"):
            with self.subTest(word):
                self.assertEqual(2, run_tool("osc", "--listen", word).returncode)

    def test_night(self):
        """Into `live`: a fader of a tablet moves light; the end of the night ends the tool."""
        receiver = receiver_socket()
        self.addCleanup(receiver.close)
        show = self.enterContext(tempfile.NamedTemporaryFile(suffix=".asc"))
        show.write(S1)
        show.flush()
        osc = subprocess.Popen(
            [sys.executable, TOOLS / "osc", "--listen", "127.0.0.1:0"],
            stdout=subprocess.PIPE,
            stderr=subprocess.PIPE,
            text=True,
        )
        self.addCleanup(osc.kill)
        words = [PROGRAM, "live", show.name, "--to", address_of(receiver), "--cid", CID]
        pipes = {"stdin": osc.stdout, "stdout": subprocess.PIPE, "stderr": subprocess.DEVNULL}
        night = subprocess.Popen(words, text=True, **pipes)
        self.addCleanup(night.kill)
        osc.stdout.close()
        port = int(osc.stderr.readline().rpartition(":")[2])
        with socket.socket(socket.AF_INET, socket.SOCK_DGRAM) as sender:
            sender.connect(("127.0.0.1", port))
            sender.send(message("/cueplayer/sub/1", 1.0))
            self.assertRegex(night.stdout.readline(), r"^\d+ ok$")
            wait_for(lambda: 128 in {each[SLOT_1] for each in datagrams_at(receiver)}, "light")
            sender.send(bundle(message("/cueplayer/back", 1.0), message("/cueplayer/end")))
            self.assertRegex(night.stdout.readline(), r"^\d+ refused AtStart$")
            self.assertRegex(night.stdout.readline(), r"^\d+ ok$")
        self.assertEqual(0, night.wait(PATIENCE))
        self.assertEqual(0, osc.wait(PATIENCE))
        self.assertEqual("", osc.stderr.read())
        osc.stderr.close()
        night.stdout.close()
