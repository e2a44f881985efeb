"""`tools/watch` of captures, and the captures that it writes: read and written by others too."""

import io
import json
import random
import shutil
import socket
import struct
import subprocess
import sys
import unittest
from pathlib import Path

import inputs
from expected import watch as expected
from program import CID, FolderTest, packet, run, text
from tooling import TOOLS, Started, run_tool, wait_for
from wire import address_of, free_port

from cueplayer_tools.captures.frames import Datagram
from cueplayer_tools.captures.reading import NoCapture, datagrams
from cueplayer_tools.captures.writing import Frame, capture_frame, capture_head, capture_of

SOURCE, TO = ("10.0.0.7", 5568), ("239.255.0.1", 5568)
OTHER = ("10.0.0.8", 40_000)
# Some time of 2026, in microseconds.
BEGUN = 1_790_000_000_000_000
TENTH = 100
SEED, NIGHTS = 3, 12


def frames_of(came):
    """Frames of datagrams by their moments in milliseconds."""
    return [Frame(BEGUN + 1000 * moment, SOURCE, TO, data) for moment, data in came]


def input_of(came):
    """The lines of `cueplayer watch` for these datagrams: a clock at each tenth of a second."""
    lines, before = [], 0
    for moment, data in came:
        lines += [f"{TENTH * look}" for look in range(before // TENTH + 1, moment // TENTH + 1)]
        lines.append(f"{moment} {(data or bytes(1)).hex()}")
        before = moment
    return text(*lines)


def a_night(r, universes):
    """Datagrams by chance, of which the first comes at 0."""
    numbers, came, moment = {}, [], 0
    sources = r.sample(inputs.CIDS, 4)
    for _ in range(40):
        data = inputs.watched_datagram(r, r.choice(sources), numbers, universes) or bytes(1)
        came.append((moment, data))
        moment += r.choice(inputs.PASSED)
    return came


class Reading(unittest.TestCase):
    """Captures that are built byte by byte, as the formats' documents have them."""

    ONE = Frame(BEGUN, SOURCE, TO, b"light")

    def packet(self):
        """The IPv4 packet of the frame, without its Ethernet head."""
        return capture_frame(self.ONE)[28 + 14 :][: 28 + 5]

    def pcap(self, order, magic, link, frame, units):
        head = struct.pack(f"{order}IHHiIII", magic, 2, 4, 0, 0, 65535, link)
        seconds, rest = divmod(BEGUN, 10**6)
        return (
            head
            + struct.pack(f"{order}IIII", seconds, rest * units, len(frame), len(frame))
            + frame
        )

    def read(self, capture):
        return list(datagrams(io.BytesIO(capture)))

    def test_links(self):
        """A datagram is found behind each kind of head, in either byte order."""
        ip, station = self.packet(), bytes(12)
        for link, frame in (
            (1, station + b"\x08\0" + ip),
            (1, station + b"\x81\0\0\x05\x08\0" + ip),
            (1, station + b"\x88\xa8\0\x05\x81\0\0\x07\x08\0" + ip),
            (101, ip),
            (0, b"\x02\0\0\0" + ip),
            (113, bytes(14) + b"\x08\0" + ip),
            (276, b"\x08\0" + bytes(18) + ip),
        ):
            for order in "<>":
                for magic, units in ((0xA1B2C3D4, 1), (0xA1B23C4D, 1000)):
                    with self.subTest(link=link, order=order, magic=magic):
                        found = self.read(self.pcap(order, magic, link, frame, units))
                        self.assertEqual([Datagram(1000 * BEGUN, SOURCE, TO, b"light")], found)

    def test_others(self):
        """What is no UDP over IPv4, in parts or cut is left out."""
        ip = bytearray(self.packet())
        for change in ({9: 6}, {0: 0x65}, {6: 0x20}, {7: 1}):
            other = bytearray(ip)
            for at, value in change.items():
                other[at] = value
            self.assertEqual([], self.read(self.pcap("<", 0xA1B2C3D4, 101, bytes(other), 1)))
        self.assertEqual([], self.read(self.pcap("<", 0xA1B2C3D4, 101, bytes(ip[:-1]), 1)))
        self.assertEqual([], self.read(self.pcap("<", 0xA1B2C3D4, 1, bytes(14) + bytes(ip), 1)))
        self.assertEqual([], self.read(self.pcap("<", 0xA1B2C3D4, 147, bytes(ip), 1)))

    def test_broken_off(self):
        """A capture that breaks off has what is whole in it."""
        frames = [Frame(BEGUN + n, SOURCE, TO, b"%d" % n) for n in range(3)]
        whole = capture_of(frames)
        last = len(whole) - len(capture_frame(frames[-1]))
        for size in range(last, len(whole)):
            self.assertEqual([b"0", b"1"], [each.data for each in self.read(whole[:size])])

    def test_damaged(self):
        """No capture is read by chance, and none takes all memory."""
        head = capture_head("test")
        for capture in (
            b"",
            b"show",
            head[:8] + bytes(4) + head[12:],
            head + struct.pack("<II", 6, 1 << 30),
            head + struct.pack("<III", 6, 8, 8),
            head + struct.pack("<IIIIIIII", 6, 32, 7, 0, 0, 0, 0, 32),
            head + struct.pack("<IIIIIIII", 3, 32, 0, 0, 0, 0, 0, 32),
            self.pcap("<", 0xA1B2C3D4, 1, b"", 1)[:24] + b"\xff" * 16,
        ):
            with self.subTest(capture[:60]), self.assertRaises(NoCapture):
                self.read(capture)

    def test_clocks(self):
        """A card of a pcapng file may count in units of its own, and sections in their order."""
        for resolution, units in ((9, 10**9), (6, 10**6), (3, 10**3), (0x80 | 10, 1 << 10)):
            card = struct.pack(">HHI", 101, 0, 0) + struct.pack(">HHB3xHH", 9, 1, resolution, 0, 0)
            moment, size = divmod(5 * units, 1 << 32), len(self.packet())
            body = struct.pack(">IIIII", 0, *moment, size, size)
            body += self.packet() + bytes(-len(self.packet()) % 4)
            capture = b""
            for kind, content in (
                (0x0A0D0D0A, struct.pack(">IHHq", 0x1A2B3C4D, 1, 0, -1)),
                (1, card),
                (6, body),
            ):
                length = struct.pack(">I", len(content) + 12)
                capture += struct.pack(">I", kind) + length + content + length
            found = self.read(capture_of([self.ONE]) + capture)
            self.assertEqual([1000 * BEGUN, 5 * 10**9], [each.moment for each in found])


class Watching(FolderTest):
    def watch(self, *words, **options):
        return run_tool("watch", *words, **options)

    def assertTells(self, told, lines, universes):
        """The lines, and behind them the slots of each universe."""
        self.assertEqual(lines, told[: len(lines)])
        rest = told[len(lines) :]
        self.assertEqual(universes, [int(line.split()[1]) for line in rest])

    def test_lines(self):
        """Captures by chance: the lines are those of the second reader, from the datagrams alone,
        but for flashes."""
        r = random.Random(SEED)
        for turn in range(NIGHTS):
            universes = [1, 2, 7]
            came = a_night(r, universes)
            file = self.file(f"{turn}.pcapng", capture_of(frames_of(came)))
            done = self.watch(file, 1, 2, 7)
            self.assertEqual((0, ""), (done.returncode, done.stderr))
            told = [line for line in done.stdout.splitlines() if " flash " not in line]
            lines, refused = expected.watch(input_of(came), universes)
            self.assertIsNone(refused)
            self.assertTells(told, lines, universes)

    def test_universes(self):
        """Without a universe all of the capture are watched: those of data packets."""
        came = [(0, packet(7, {1: 1})), (5, packet(3, {1: 1})), (9, packet(9, {})[:99])]
        file = self.file("a.pcapng", capture_of(frames_of(came)))
        rest = [line.split()[1] for line in self.watch(file).stdout.splitlines()[-2:]]
        self.assertEqual(["3", "7"], rest)
        came = [(0, packet(number, {})) for number in range(1, 18)]
        file = self.file("b.pcapng", capture_of(frames_of(came)))
        done = self.watch(file)
        self.assertEqual(2, done.returncode)
        self.assertIn("b.pcapng has 17 universes, 1 2 3 ", done.stderr)
        file = self.file("c.pcapng", capture_of(frames_of([(0, b"other")])))
        self.assertIn("has no data packet of streaming ACN to port 5568", self.watch(file).stderr)

    def test_port(self):
        """Datagrams to other ports are others'."""
        frames = [Frame(BEGUN, SOURCE, ("10.0.0.9", 6000), packet(1, {1: 9}))]
        file = self.file("a.pcapng", capture_of(frames))
        self.assertEqual(2, self.watch(file).returncode)
        self.assertIn("1:9", self.watch(file, "--port", 6000).stdout)

    def test_table(self):
        """`--once` prints who sends what in so much of the capture: with rate and address."""
        came = [(25 * n, packet(1, {1: 1 + n}, n)) for n in range(81)]
        file = self.file("a.pcapng", capture_of(frames_of(came)))
        done = self.watch(file, "--once", 2)
        self.assertRegex(done.stdout, rf"> cueplayer +100 +4[01] +0 +10\.0\.0\.7 +{CID}")
        self.assertIn("1:81", done.stdout)
        self.assertIn("1:41\n", self.watch(file, "--once", 1).stdout)

    def test_json(self):
        """Each line is an object with the line's words, and so is each row of the table."""
        kinds = {
            "source": {"name": str, "cid": str, "priority": int},
            "leads": {"name": str, "cid": str},
            "gone": {"name": str, "cid": str},
            "ended": {"name": str, "cid": str},
            "lost": {"name": str, "cid": str, "packets": int},
            "ignored": {"reason": str, "datagrams": int},
            "slots": {"slots": dict},
            "flash": {"slots": list},
        }
        r, seen = random.Random(SEED), set()
        for turn in range(8):
            file = self.file(f"{turn}.pcapng", capture_of(frames_of(a_night(r, [1]))))
            lines = self.watch(file, 1).stdout.splitlines()
            objects = self.watch(file, 1, "--json").stdout.splitlines()
            self.assertEqual(len(lines), len(objects))
            for line, each in zip(lines, map(json.loads, objects)):
                words = [str(each.pop("moment")), str(each.pop("universe")), each.pop("event")]
                self.assertEqual(line.split()[:3], words)
                self.assertEqual(kinds[words[2]], {key: type(each[key]) for key in each})
                seen.add(words[2])
        self.assertEqual(set(kinds), seen)
        printed = self.watch(file, 1, "--json", "--once", 9).stdout.splitlines()
        tables = [json.loads(line) for line in printed]
        self.assertEqual([1, 0], [each["universe"] for each in tables])
        self.assertEqual({"dropped", "event", "ignored", "moment", "universe"}, set(tables[1]))

    def test_standard_input(self):
        """A capture comes by a pipe; its universes have to be named."""
        capture = capture_of(frames_of([(0, packet(1, {1: 5}))]))
        words = [sys.executable, TOOLS / "watch", "-"]
        done = subprocess.run([*words, "1"], input=capture, capture_output=True)
        self.assertIn(b"0 1 slots 1:5\n", done.stdout)
        done = subprocess.run(words, input=capture, capture_output=True)
        self.assertEqual((2, b""), (done.returncode, done.stdout))

    def test_no_capture(self):
        for name, content in (("a.pcap", b"no capture"), ("b.pcap", b"")):
            done = self.watch(self.file(name, content), 1)
            self.assertEqual(2, done.returncode)
            self.assertIn("not a capture", done.stderr)
        self.assertIn("No such file", self.watch(self.folder / "none.pcap", 1).stderr)

    def test_script(self):
        """The script of a capture answers as its watch: `rehearse` ends with the same slots."""
        r = random.Random(SEED)
        for turn in range(10):
            file = self.file(f"{turn}.pcapng", capture_of(frames_of(a_night(r, [1, 2]))))
            script = self.folder / f"{turn}.script"
            told = self.watch(file, 1, 2, "--script", script).stdout.splitlines()[-2:]
            done = run("rehearse", self.file("a.asc", text("CUE 1")), script)
            ends = [line for line in done.out.decode().splitlines() if line.startswith("end ")]
            told_slots = [line.split(" slots", 1)[1] for line in told]
            self.assertEqual(told_slots, [line.split(" slots", 1)[1] for line in ends])


class ByOthers(FolderTest):
    """Captures that tshark and its companions write and read."""

    def setUp(self):
        super().setUp()
        for tool in ("tshark", "editcap"):
            if not shutil.which(tool):
                self.skipTest(f"{tool} is not on PATH")

    def test_read(self):
        """A capture says the same in each format that editcap writes it in."""
        came = a_night(random.Random(SEED), [1])
        file = self.file("a.pcapng", capture_of(frames_of(came)))
        told = run_tool("watch", file, 1).stdout
        for kind in ("pcap", "nsecpcap", "pcapng"):
            made = self.folder / f"made.{kind}"
            subprocess.run(["editcap", "-F", kind, file, made], check=True, capture_output=True)
            self.assertEqual(told, run_tool("watch", made, 1).stdout, kind)

    def test_written(self):
        """tshark reads what a watch recorded: each datagram, from where and to where."""
        port = free_port()
        file = self.folder / "live.pcapng"
        words = ("--interface", "lo", "--port", port, "--record", file)
        watch = Started(self, "watch", 1, *words)
        bound = f":{port:04X} "
        wait_for(lambda: bound in Path("/proc/net/udp").read_text(), "the watch listens")
        sender = socket.socket(socket.AF_INET, socket.SOCK_DGRAM)
        self.addCleanup(sender.close)
        sender.bind(("127.0.0.1", 0))
        for number in range(3):
            sender.sendto(packet(1, {1: 5}, number), ("127.0.0.1", port))
        self.assertTrue(watch.out.find(r"\d+ 1 slots 1:5$"))
        watch.process.terminate()
        watch.out.rest()
        words = ["tshark", "-r", file, "-T", "fields"]
        for name in ("ip.src", "udp.srcport", "ip.dst", "udp.dstport", "udp.payload"):
            words += ["-e", name]
        done = subprocess.run(words, capture_output=True, text=True, check=True)
        host, own = address_of(sender).split(":")
        self.assertEqual(
            [[host, own, "127.0.0.1", str(port), packet(1, {1: 5}, n).hex()] for n in range(3)],
            [line.split("\t") for line in done.stdout.splitlines()],
        )


if __name__ == "__main__":
    unittest.main()
