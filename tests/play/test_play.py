"""`play`: its lines, what it prints of them, and the datagrams that reach a socket on this
machine."""

import os
import select
import subprocess
import sys

from program import (
    CID,
    DEVICE_FAULT,
    PROGRAM,
    UNFIT,
    FolderTest,
    Outcome,
    messages_in,
    packet,
    run,
    text,
)
from wire import address_of, datagrams_at, free_port, own_network, receiver_socket, socket_flags
from worked import S1, example, keep_alive, plays, with_examples

TWO_UNIVERSES = example("two_universes").show()


class PlayTest(FolderTest):
    def words(self, show, *options, to="127.0.0.1:9"):
        return ["play", self.file("show.asc", show), "--to", to, "--cid", CID, *options]

    def assertPlays(self, play):
        """A run prints its lines, and sends its packets in this order."""
        with receiver_socket() as receiver:
            outcome = run(
                *self.words(play.show, *play.options, to=address_of(receiver)), stdin=play.stdin
            )
            self.assertEqual(Outcome(play.status, play.out, play.err), outcome)
            self.assertEqual(
                [p.hex() for p in play.packets], [d.hex() for d in datagrams_at(receiver)]
            )


@with_examples("line", "printed", "slots")
class Rows(PlayTest):
    def assertExample(self, name):
        for play in plays(name):
            with self.subTest(play.stdin[:80]):
                self.assertPlays(play)

    def test_keep_alive(self):
        """Ticks 25 ms apart, of which those that the page lists send a packet."""
        self.assertPlays(keep_alive())


class Lines(PlayTest):
    def test_lines_are_carried_out_as_they_come(self):
        with subprocess.Popen(
            [PROGRAM, *self.words(S1)], stdin=subprocess.PIPE, stdout=subprocess.PIPE, bufsize=0
        ) as child:
            for line, printed in ((b"0 go\n", b"0 ok\n"), (b"0 back\n", b"0 refused AtStart\n")):
                child.stdin.write(line)
                self.assertTrue(select.select([child.stdout], [], [], 30)[0])
                self.assertEqual(printed, child.stdout.readline())
            child.stdin.close()
            self.assertEqual(b"", child.stdout.read())
        self.assertEqual(0, child.returncode)

    def test_socket_waits(self):
        """A packet for which the system has no room waits until it has: so it says of each
        socket."""
        pipe = subprocess.PIPE
        with subprocess.Popen([PROGRAM, *self.words(S1)], stdin=pipe, stdout=pipe) as child:
            child.stdin.write(b"0 tick\n")
            child.stdin.flush()
            self.assertEqual(b"0 live 1:s0\n", child.stdout.readline())
            flags = socket_flags(child.pid)
            child.stdin.close()
        self.assertTrue(flags)
        self.assertEqual([], [each for each in flags if each & os.O_NONBLOCK])


class Ends(PlayTest):
    def test_faults_of_the_show_come_first(self):
        cases = (
            (text("CUE x"), ["--base", "63999"], 3, b"show line 1: BadNumber\n"),
            (b"!" * 1_048_577, [], 3, b"show: TooLong\n"),
        )
        for show, options, status, err in cases:
            self.assertEqual(
                (status, b"", err), run(*self.words(show, *options), stdin=b"5 jump\n")
            )

    def test_files(self):
        device = (5, b"", DEVICE_FAULT)
        for name in (self.folder, self.folder / "missing", "-", ""):
            words = ["play", name, "--to", "127.0.0.1", "--cid", CID]
            self.assertEqual(device, run(*words, stdin=S1, cwd=self.folder))
        (self.folder / "-").write_bytes(b"")
        words = ["play", "-", "--to", "127.0.0.1", "--cid", CID]
        self.assertEqual((0, b"0 live\n", b""), run(*words, stdin=b"0 tick\n", cwd=self.folder))

    def test_devices_that_fail(self):
        folder = os.open(self.folder, os.O_RDONLY)
        self.addCleanup(os.close, folder)
        done = subprocess.run(
            [PROGRAM, *self.words(S1)], stdin=folder, capture_output=True, timeout=60
        )
        found = (done.returncode, messages_in(done.stderr), done.stdout)
        self.assertEqual((5, DEVICE_FAULT, b""), found)
        self.assertFullDisk(self.words(S1), b"0 go\n")

    def test_lost_packets(self):
        """A broadcast address, which the system refuses to send to without leave."""
        words = self.words(TWO_UNIVERSES, to="255.255.255.255:9")
        out = b"0 live 1:x0 2:x0\n100 live 1:x1 2:x1\n"
        self.assertEqual((5, out, b"lost 4\n"), run(*words, stdin=b"0 tick\n100 tick\n"))
        out = b"0 live 1:x0 2:x0\n"
        self.assertEqual((4, out, b"line 2 refused\n"), run(*words, stdin=b"0 tick\n0 jump\n"))

    def test_nobody_listens(self):
        """What the network answers to one packet fails no later one."""
        words = self.words(S1, to=f"127.0.0.1:{free_port()}")
        lines = b"".join(b"%d tick\n" % (25 * k) for k in range(4))
        out = b"".join(b"%d live 1:s%d\n" % (25 * k, k) for k in range(4))
        self.assertEqual((0, out, b""), run(*words, stdin=lines))

    def test_options(self):
        with receiver_socket() as receiver:
            words = self.words(S1, "--priority", "200", "--base", "63999", to=address_of(receiver))
            run(*words, stdin=b"0 tick\n")
            self.assertEqual([packet(63999, {}, priority=200)], datagrams_at(receiver))
        for option, value in (
            ("--priority", "201"),
            ("--base", "0"),
            ("--base", "64000"),
            ("--to", "1.2.3"),
        ):
            words = ["play", "a", "--cid", CID, option, value]
            words += [] if option == "--to" else ["--to", "127.0.0.1"]
            self.assertEqual((2, b"", UNFIT), run(*words))


# Runs in a network of its own: joins the multicast groups of two universes, plays to them, and
# tells what each group got.
IN_A_NETWORK = """
import socket, subprocess, sys
up = "ip link set lo up multicast on && ip route add 239.0.0.0/8 dev lo"
subprocess.run(up, shell=True, check=True)
groups = []
for group in ("239.255.0.255", "239.255.1.0"):
    receiver = socket.socket(socket.AF_INET, socket.SOCK_DGRAM)
    receiver.bind((group, 5568))
    joined = socket.inet_aton(group) + socket.inet_aton("127.0.0.1")
    receiver.setsockopt(socket.IPPROTO_IP, socket.IP_ADD_MEMBERSHIP, joined)
    receiver.settimeout(10)
    groups.append(receiver)
done = subprocess.run(sys.argv[1:], input=b"0 tick\\n", capture_output=True, timeout=60)
sys.stdout.write(done.stdout.decode() + done.stderr.decode())
for receiver in groups:
    print(receiver.recv(65536).hex())
"""


class Multicast(PlayTest):
    def test_each_universe_to_its_group(self):
        """Universes 255 and 256, in a network namespace where one can be made."""
        words = [PROGRAM, *self.words(TWO_UNIVERSES, "--base", "255", to="239.255.0.0")]
        done = subprocess.run(
            [*own_network(self), sys.executable, "-c", IN_A_NETWORK, *words],
            capture_output=True,
            text=True,
            timeout=60,
        )
        out = "0 live 255:s0 256:s0\n" + "".join(packet(u, {}).hex() + "\n" for u in (255, 256))
        self.assertEqual(("", out), (done.stderr, done.stdout))
