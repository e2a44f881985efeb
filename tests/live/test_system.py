"""What no proof says of the program: its clock, the order of its calls of the system, very many
packets, the processor that a night takes while nothing happens, and the words for faults."""

import errno
import itertools
import json
import os
import re
import select
import subprocess
import sys
import time
from pathlib import Path

from backups import FollowTest
from failing_calls import FailingCalls
from listeners import Listener
from machine import by_clock, in_time
from preload import PreloadTest
from program import CID, PROGRAM, FolderTest, packet, text
from restart_nights import RestartTest
from restarts import PATIENCE, Judge
from wire import ReceiverTest, datagrams_at, own_network

SECONDS = float(os.environ.get("CUEPLAYER_CLOCK", 20))
# How far a packet may be from its moment, in milliseconds; a clock that is a twentieth too fast is
# that far off behind two seconds.
OFF = 100
# What an idle program may take of a processor, and for so many seconds it is looked at. One that
# was built without optimization takes more: CUEPLAYER_BUSY=0.3 of the environment allows for it.
BUSY, WATCHED = float(os.environ.get("CUEPLAYER_BUSY", 0.05)), 3
# How often a second a night that waits sleeps, at least.
ASLEEP = 5
# Ticks of which the packets are sent at once, and all of them: beyond what two bytes count.
PART, PACKETS = 64, 70_000
DATAGRAMS = 1_000_000
# For so many seconds datagrams are sent at most.
LONGEST = 20
LAMP = text("CUE 1", "CHAN 1@FL", "CUE 2", "CHAN 1@50", "PATCH 1 1<1@FL")


class Clock(RestartTest):
    """CUEPLAYER_CLOCK=60 of the environment makes a night of as many seconds."""

    def test_moments(self):
        """Each packet comes at its moment, by the system's clock, from the first to the last."""
        night = self.night()
        night.begin()
        night.light(2)
        until = time.monotonic() + SECONDS
        cues = itertools.cycle((b"goto 2 in 4\n", b"goto 1 in 4\n"))
        while time.monotonic() < until:
            night.type(next(cues))
            time.sleep(2)
        self.assertEqual(0, night.end())
        judge = Judge(night)
        self.assertEqual(0, judge.lost_packets())
        zeros = [
            each.at - judge.sent[at].moment / 1000 for each, at in zip(judge.heard, judge.places)
        ]
        first = min(zeros)
        print(f"    {len(zeros)} packets, at most {1000 * (max(zeros) - first):.0f} ms off")
        for each, zero in zip(judge.heard, zeros):
            late = 1000 * (zero - first)
            in_time(by_clock(each.at - OFF / 1000, each.at)._replace(ms=late), OFF, "a packet")


class Order(RestartTest, PreloadTest):
    """What is recorded is in the file before it is done."""

    SOURCE = "order.c"

    def setUp(self):
        super().setUp()
        self.notes = self.folder / "notes"

    def night_and_notes(self):
        """The notes of a night: what was recorded, what was answered, and each packet."""
        night = self.night(env=self.library_environment(ORDER=str(self.notes)))
        night.begin()
        night.light(2)
        for line in (b"go\n", b"sub 1 50\n", b"master 80\n"):
            night.type_commands(line)
        self.assertEqual(0, night.end())
        return night, self.notes.read_text().splitlines()

    def test_record(self):
        """A tick is recorded before its packets leave, a command before it is answered."""
        night, notes = self.night_and_notes()
        recorded = []
        sent = answered = 0
        meant = {int(line.split()[0]): 0 for line in self.lines(night)}
        for each in Judge(night).sent:
            meant[each.moment] += 1
        allowed = 0
        for note in notes:
            if note == "sent":
                sent += 1
                self.assertLessEqual(sent, allowed, f"a packet before its tick: {recorded[-1:]}")
            elif found := re.fullmatch(r"wrote 1 (\d+) (ok|refused .*)", note):
                answered += 1
                commands = [line for line in recorded if not line.endswith(" tick")]
                self.assertLessEqual(answered, len(commands), note)
                self.assertEqual(commands[answered - 1].split()[0], found[1])
            elif found := re.fullmatch(r"wrote \d+ ((\d+) .*)", note):
                if not note.startswith("wrote 1 "):
                    recorded.append(found[1])
                    allowed += meant[int(found[2])] if found[1].endswith(" tick") else 0
        self.assertEqual(self.lines(night), recorded)
        self.assertEqual((sum(meant.values()), 5), (sent, answered))

    def lines(self, night):
        """The lines of its record, behind the head."""
        return [line for line in night.record.read_text().splitlines() if not line.startswith("!")]


class Many(ReceiverTest):
    SHOW = LAMP

    def test_packets(self):
        """Each packet of a long night comes, one a tick, numbered on and on."""
        words = [PROGRAM, "play", self.show, "--to", self.to, "--cid", CID]
        pipes = {"stdin": subprocess.PIPE, "stdout": subprocess.PIPE}
        play = subprocess.Popen(words, **pipes)
        self.addCleanup(play.communicate)
        self.addCleanup(play.kill)
        looks = [packet(1, {1: level})[112:] for level in (255, 128)]
        for first in range(0, PACKETS, PART):
            numbers = range(first, first + PART)
            moves = (f"{25 * k} goto {1 + k % 2} in 0\n{25 * k} tick\n" for k in numbers)
            play.stdin.write("".join(moves).encode())
            play.stdin.flush()
            shown = [play.stdout.readline() for _ in range(2 * PART)]
            self.assertEqual(
                [b"%d live 1:s%d\n" % (25 * k, k % 256) for k in numbers], shown[1::2]
            )
            came = [(each[111], each[112:]) for each in datagrams_at(self.receiver, 0)]
            self.assertEqual([(k % 256, looks[k % 2]) for k in numbers], came)


class Long(FolderTest):
    """`listen` of many datagrams, of which it takes none."""

    def send_and_listen(self, count, most=LONGEST):
        """Sends as many, or as many as it can be for so many seconds, and holds its lines against
        what they must be. Answers how many were sent, and what it listens with."""
        listener = Listener(count=count)
        self.addCleanup(listener.abandon)
        until, sent = time.monotonic() + most, 0
        while sent < count and time.monotonic() < until:
            part = range(sent + 1, min(sent + 100, count) + 1)
            listener.send(*(b"" for _ in part))
            lines = b"".join(b"%d ignored Unreadable Short\n" % k for k in part)
            self.assertEqual(lines, self.read(listener, len(lines)))
            sent = part[-1]
        return sent, listener

    def read(self, listener, size):
        """So many bytes of what it prints."""
        found = b""
        while len(found) < size and select.select([listener.child.stdout], [], [], PATIENCE)[0]:
            found += os.read(listener.child.stdout.fileno(), size - len(found)) or b"(no more)"
        return found

    def test_thousand_and_one(self):
        """`listen` of 1,001 datagrams answers each."""
        sent, listener = self.send_and_listen(1001)
        self.assertEqual((1001, (0, b"slots\n", b"")), (sent, listener.close()))

    def test_million(self):
        """The greatest count there is, as far as it is reached in 20 seconds."""
        sent, listener = self.send_and_listen(DATAGRAMS)
        print(f"    {sent} datagrams")
        self.assertGreater(sent, 10_000)
        if sent == DATAGRAMS:
            self.assertEqual((0, b"slots\n", b""), listener.close())
        else:
            self.assertIsNone(listener.child.poll())


# Runs in a network of its own: listens at the groups and ports that are named, plays, and tells
# what came to each, and nothing else.
IN_A_NETWORK = """
import json, select, socket, subprocess, sys
link = "ip link set lo up multicast on && ip route add 239.0.0.0/8 dev lo"
subprocess.run(link, shell=True, check=True)
places = {}
for host, port in json.loads(sys.argv[1]):
    place = socket.socket(socket.AF_INET, socket.SOCK_DGRAM)
    place.bind((host, port))
    if host.startswith("239."):
        joined = socket.inet_aton(host) + socket.inet_aton("127.0.0.1")
        place.setsockopt(socket.IPPROTO_IP, socket.IP_ADD_MEMBERSHIP, joined)
    places[f"{host}:{port}"] = place
subprocess.run(sys.argv[2:], input=b"0 tick\\n", check=True, stdout=subprocess.DEVNULL)
came = {}
while ready := select.select(list(places.values()), [], [], 0.2)[0]:
    for name, place in places.items():
        if place in ready:
            came.setdefault(name, []).append(place.recv(2048).hex())
print(json.dumps(came))
"""


class Places(FolderTest):
    """Where packets go to: `239.255.0.0` alone stands for the group of each universe."""

    SHOW = text("PATCH 1 1<1@FL 2<513@FL")
    HOSTS = ("127.0.0.1", "127.0.0.7", "239.255.0.0", "239.255.0.1", "239.255.0.2", "239.255.0.7")
    PLACES = [(host, port) for host in HOSTS for port in (5568, 6000, 65535)]

    def assertGo(self, to, *wanted):
        """The packets of each universe go to these places alone, in their order."""
        words = [PROGRAM, "play", self.show, "--to", to, "--cid", CID]
        network = [*own_network(self), sys.executable, "-c", IN_A_NETWORK, json.dumps(self.PLACES)]
        done = subprocess.run([*network, *words], capture_output=True, text=True, timeout=90)
        self.assertEqual((0, ""), (done.returncode, done.stderr))
        came = {}
        for universe, place in enumerate(wanted, 1):
            came.setdefault(place, []).append(packet(universe, {}).hex())
        self.assertEqual(came, json.loads(done.stdout), to)

    def test_places(self):
        self.assertGo("239.255.0.7:6000", *["239.255.0.7:6000"] * 2)
        self.assertGo("239.255.0.7", *["239.255.0.7:5568"] * 2)
        self.assertGo("239.255.0.1", *["239.255.0.1:5568"] * 2)
        self.assertGo("239.255.0.0", "239.255.0.1:5568", "239.255.0.2:5568")
        self.assertGo("239.255.0.0:6000", "239.255.0.1:6000", "239.255.0.2:6000")
        self.assertGo("127.0.0.7", *["127.0.0.7:5568"] * 2)
        self.assertGo("127.0.0.1:65535", *["127.0.0.1:65535"] * 2)


class Processor(FollowTest):
    """A program that waits takes next to nothing of a processor, and a night goes on with its
    ticks."""

    def processor_shares(self, *processes):
        """What share of a processor each took for some seconds, and how often a second it
        slept."""
        before, at = [processor_time(each) for each in processes], time.monotonic()
        slept = [sleeps(each) for each in processes]
        time.sleep(WATCHED)
        seconds = time.monotonic() - at
        after = [processor_time(each) for each in processes]
        shares = [(b - a) / seconds for a, b in zip(before, after)]
        return shares, [(sleeps(each) - a) / seconds for each, a in zip(processes, slept)]

    def test_nights(self):
        """A night that is idle, one whose input has ended, a spare, a backup and `listen` leave the
        processor at rest."""
        idle = self.night()
        idle.begin()
        idle.light(2)
        backup = self.backup(idle.record)
        ended = self.night(cid=CID[:-1] + "3")
        ended.begin()
        ended.processes[-1].stdin.close()
        ended.tells(b"input ended: ")
        spare = ended.stands_by()
        listener = Listener(count=2)
        self.addCleanup(listener.abandon)
        nights = (idle.processes[-1], backup.processes[-1], ended.processes[-1], spare)
        heard = len(idle.heard)
        shares, slept = self.processor_shares(*nights, listener.child)
        names = ("idle", "backup", "input ended", "spare", "listen")
        told = {name: f"{100 * share:.1f} %" for name, share in zip(names, shares)}
        print(f"    {told}")
        self.assertLess(max(shares), BUSY, told)
        # On a busy machine a night that never waits takes little, too; but it does not sleep.
        self.assertGreater(min(slept[:-1]), ASLEEP, slept)
        self.assertGreater(len(idle.heard), heard)


def sleeps(process):
    """How often a process gave its processor away."""
    status = Path(f"/proc/{process.pid}/status").read_text()
    return int(re.search(r"(?m)^voluntary_ctxt_switches:\s*(\d+)", status)[1])


def processor_time(process):
    """How long a process was on a processor, in seconds."""
    fields = Path(f"/proc/{process.pid}/stat").read_text().rpartition(") ")[2].split()
    return (int(fields[11]) + int(fields[12])) / os.sysconf("SC_CLK_TCK")


class Reasons(FailingCalls):
    """Each kind of the system's faults has words of its own."""

    WRITES = {
        errno.ENOSPC: "the disk is full",
        errno.EPIPE: "its reader is gone",
        errno.EROFS: "the file system is read-only",
        errno.EACCES: "the system does not permit it",
        errno.EPERM: "the system does not permit it",
        errno.EINVAL: "the system does not take it",
        errno.EIO: "the system refused",
        errno.EOVERFLOW: "the system refused",
    }
    SENDS = {
        errno.ENETUNREACH: "no route leads to that network",
        errno.EHOSTUNREACH: "the host is not reachable",
        errno.ENETDOWN: "the network is down",
        errno.ECONNREFUSED: "nobody listens there",
        errno.EADDRNOTAVAIL: "this machine does not have the address",
        errno.EPERM: "the system does not permit it",
        errno.EIO: "the system refused",
    }

    def messages_of(self, words, stdin, *failures):
        """The status, and all that is told."""
        done = subprocess.run(
            [PROGRAM, *words], input=stdin, capture_output=True, env=self.environment(*failures)
        )
        return done.returncode, done.stderr.decode()

    def test_writes(self):
        for error, reason in self.WRITES.items():
            with self.subTest(errno.errorcode[error]):
                told = self.messages_of(["check", self.show], b"", ("write", 1, 9, error))
                self.assertEqual((5, f"device fault\nstandard output: {reason}\n"), told)

    def test_sends(self):
        words = ["play", self.show, "--to", self.to, "--cid", CID]
        for error, reason in self.SENDS.items():
            with self.subTest(errno.errorcode[error]):
                told = self.messages_of(words, b"0 tick\n", ("sendto", 1, 1, error))
                self.assertEqual((5, f"lost 1\n{self.to}: {reason}\n"), told)

    def test_files(self):
        """Those that the system itself refuses to open."""
        for name, reason in (
            (self.folder / "none", "there is no such file"),
            (self.folder, "it is a directory"),
            (self.show / "below", "a part of its path is no directory"),
        ):
            with self.subTest(name):
                told = self.messages_of(["check", name], b"")
                self.assertEqual((5, f"device fault\n{name}: {reason}\n"), told)
