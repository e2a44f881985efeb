"""`listen`: datagrams over UDP on this machine, the lines that it prints, and its words."""

import contextlib
import signal
import socket
import subprocess
import time

from listeners import DATAGRAMS, THREE, Listener, is_bound
from program import CID, DEVICE_FAULT, PROGRAM, UNFIT, ProgramTest, messages_in, packet, run
from tooling import stand_still
from wire import free_port
from worked import listen_example, look_one, with_examples

LOOK_ONE = look_one()


@with_examples("datagram", "reply")
class Listen(ProgramTest):
    def listener(self, **options):
        started = Listener(**options)
        self.addCleanup(started.abandon)
        return started

    def assertExample(self, name):
        datagrams, out = listen_example(name)
        self.assertHears(out, datagrams)

    def assertHears(self, out, datagrams, **options):
        """`listen` of these datagrams prints this, with status 0."""
        listener = self.listener(count=len(datagrams), **options)
        listener.send(*datagrams)
        self.assertEqual((0, out, b""), listener.close())

    def test_udp_source(self):
        """The datagrams wait at the socket: all were sent before the first is taken."""
        listener = self.listener(count=3)
        stand_still(listener.child.pid)
        listener.send(*DATAGRAMS)
        listener.child.send_signal(signal.SIGCONT)
        self.assertEqual((0, THREE, b""), listener.close())

    def test_line_by_line(self):
        """Each line is there before the next datagram is sent."""
        listener = self.listener(count=3)
        for datagram, line in zip(DATAGRAMS, THREE.splitlines(True)):
            self.assertTrue(listener.is_silent())
            listener.send(datagram)
            self.assertEqual(line, listener.line())
        self.assertEqual((0, b"slots 1:64\n", b""), listener.close())

    def test_sources(self):
        """Four sources, and a fifth that is ignored; of equal priority the greatest level of each
        slot shows."""
        datagrams = [
            packet(1, {1: 10 * n, n: 200 + n, 512: 255}, cid=f"{CID[:-1]}{n}") for n in range(1, 6)
        ]
        out = (
            b"1 taken 0\n2 taken 0\n3 taken 0\n4 taken 0\n5 ignored SourcesFull\n"
            b"slots 1:201 2:202 3:203 4:204 512:255\n"
        )
        self.assertHears(out, datagrams)

    def test_priority(self):
        """The levels of the source with the greatest priority show alone."""
        datagrams = [
            packet(1, {1: 255}),
            packet(1, {2: 7}, priority=101, cid=CID[:-1] + "2"),
        ]
        self.assertHears(b"1 taken 0\n2 taken 0\nslots 2:7\n", datagrams)

    def test_all_slots(self):
        """The longest slots line."""
        slots = {slot: 100 + slot % 156 for slot in range(1, 513)}
        line = "slots" + "".join(f" {slot}:{level}" for slot, level in slots.items()) + "\n"
        self.assertHears(b"1 taken 0\n" + line.encode(), [packet(1, slots)])

    def test_universes(self):
        datagrams = [packet(63999, {512: 1})]
        self.assertHears(b"1 taken 0\nslots 512:1\n", datagrams, universe="063999")
        self.assertHears(b"1 ignored OtherUniverse\nslots\n", datagrams, universe=1)

    def test_addresses(self):
        """Zeros in front of a number, and the port that is meant where none is named."""
        port = free_port()
        for address in (f"127.000.000.001:{port}", f"127.0.0.1:{port:09}"):
            with self.subTest(address):
                self.assertHears(
                    b"1 taken 0\nslots 1:64\n", [LOOK_ONE], port=port, address=address
                )
        if is_bound("127.0.0.5", 5568):
            self.skipTest("port 5568 is in use")
        self.assertHears(
            b"1 taken 0\nslots 1:64\n",
            [LOOK_ONE],
            host="127.0.0.5",
            port=5568,
            address="127.0.0.5",
        )

    def test_unfit_words(self):
        for words in (
            ("127.0.0.1:", "1", "1"),
            ("127.0.0.1:65536", "1", "1"),
            ("127.0.0.1:x", "1", "1"),
            ("127.0.0.256", "1", "1"),
            ("127.0.0", "1", "1"),
            ("127.0.0.0.1", "1", "1"),
            ("127..0.1", "1", "1"),
            ("0000000127.0.0.1", "1", "1"),
            ("localhost", "1", "1"),
            ("::1", "1", "1"),
            ("", "1", "1"),
            ("127.0.0.1", "0", "1"),
            ("127.0.0.1", "64000", "1"),
            ("127.0.0.1", "x", "1"),
            ("127.0.0.1", "1", "0"),
            ("127.0.0.1", "1", "1000001"),
            ("127.0.0.1", "1", "1.0"),
        ):
            with self.subTest(words):
                self.assertRuns(["listen", *words], b"", status=2, err=UNFIT)

    def test_refused_words(self):
        for words, telling in (
            ([], b"<ADDR>"),
            (["127.0.0.1"], b"<UNIVERSE>"),
            (["127.0.0.1", "1"], b"<COUNT>"),
            (["127.0.0.1", "1", "1", "1"], b"'1'"),
            (["x", "1", "1", "--to"], b"'--to'"),
        ):
            with self.subTest(words):
                outcome = run("listen", *words)
                self.assertEqual((2, b""), (outcome.status, outcome.out))
                self.assertIn(telling, outcome.err)

    def test_addresses_that_cannot_be_bound(self):
        """An address of another machine, and one that is in use: nothing is printed."""
        self.assertRuns(["listen", "192.0.2.1:5568", "1", "1"], b"", status=5, err=DEVICE_FAULT)
        with contextlib.closing(socket.socket(socket.AF_INET, socket.SOCK_DGRAM)) as taken:
            taken.bind(("127.0.0.1", 0))
            address = f"127.0.0.1:{taken.getsockname()[1]}"
            self.assertRuns(["listen", address, "1", "1"], b"", status=5, err=DEVICE_FAULT)

    def test_output_that_fails(self):
        """A line that is not taken ends the run: no further datagram is waited for."""
        port = free_port()
        with open("/dev/full", "wb") as full:
            words = [PROGRAM, "listen", f"127.0.0.1:{port}", "1", "2"]
            with subprocess.Popen(words, stdout=full, stderr=subprocess.PIPE) as child:
                self.addCleanup(child.kill)
                while child.poll() is None and not is_bound("127.0.0.1", port):
                    time.sleep(0.002)
                with socket.socket(socket.AF_INET, socket.SOCK_DGRAM) as sender:
                    sender.sendto(LOOK_ONE, ("127.0.0.1", port))
                self.assertEqual(DEVICE_FAULT, messages_in(child.stderr.read()))
            self.assertEqual(5, child.returncode)
