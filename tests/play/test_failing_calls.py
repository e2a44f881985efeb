"""Calls of the system that fail: each send, read, write and receive in turn, and networks that are
gone."""

import errno
import re
import subprocess
import sys

from expected import runs, watch as watches
from failing_calls import FailingCalls
from listeners import DATAGRAMS, THREE, Listener
from live_nights import without_moments
from program import (
    CID,
    DEVICE_FAULT,
    PROGRAM,
    START,
    Outcome,
    counts,
    messages_in,
    packet,
    run,
    text,
)
from refusals import NUMBERED, UNKNOWN
from wire import OPTIONS, SEQUENCE, TERMINATED, own_network
from worked import HEADER, LOOK_ONE, S1, keep_alive, look_one, plays, rehearsals

NETWORK_ERRORS = (errno.EAGAIN, errno.ECONNREFUSED, errno.ENETUNREACH, errno.ENOBUFS, errno.EPERM)
(FADE,) = plays("five_second_fade")
LINES, PRINTED = (each.decode().splitlines() for each in (FADE.stdin, FADE.out))
# In the place of an error: the call is made, with a byte less.
IN_PART = 0
KEPT_ALIVE = keep_alive()
LOOK = look_one()
(REHEARSED,) = rehearsals("rehearse_basic")
TICKS = KEPT_ALIVE.stdin.decode().splitlines()


class Play(FailingCalls):
    def kept_alive(self, *lost):
        """What is printed of row `keep_alive`'s ticks where these packets are lost, and what
        comes."""
        def item(sent):
            return (b"x" if int(sent[1]) in lost else b"s") + sent[1]

        out = re.sub(rb"s(\d)$", item, KEPT_ALIVE.out, flags=re.MULTILINE)
        return out, [sent for k, sent in enumerate(KEPT_ALIVE.packets) if k not in lost]

    def test_each_send_fails(self):
        """Each send in turn fails, for each reason: its number is used, and the others are sent as
        if nothing had failed."""
        for error in NETWORK_ERRORS:
            for k in range(6):
                with self.subTest(errno.errorcode[error], k=k):
                    out, packets = self.kept_alive(k)
                    outcome, came = self.plays(TICKS, ("sendto", k + 1, k + 1, error))
                    self.assertEqual(Outcome(5, out, b"lost 1\n"), outcome)
                    self.assertEqual(packets, came)

    def test_no_send_passes(self):
        """Every send fails: no line is lost because of that."""
        out, _ = self.kept_alive(*range(6))
        outcome, came = self.plays(TICKS, ("sendto", 1, 99, errno.ENETUNREACH))
        self.assertEqual((Outcome(5, out, b"lost 6\n"), []), (outcome, came))

    def test_interrupted_calls(self):
        """A call that a signal interrupted is made again."""
        for call in ("sendto", "read", "write"):
            for first in range(1, 4):
                with self.subTest(call, first=first):
                    interrupted = (call, first, first + 2, errno.EINTR)
                    outcome, came = self.plays(LINES, interrupted)
                    self.assertEqual((Outcome(0, FADE.out, b""), FADE.packets), (outcome, came))

    def test_calls_in_part(self):
        """What a read leaves behind, or a write, the next one takes; a packet of which a part was
        sent is lost."""
        for call in ("read", "write"):
            for first in range(1, 4):
                with self.subTest(call, first=first):
                    outcome, came = self.plays(LINES, (call, first, first, IN_PART))
                    self.assertEqual((Outcome(0, FADE.out, b""), FADE.packets), (outcome, came))
        out, packets = self.kept_alive(2)
        outcome, came = self.plays(TICKS, ("sendto", 3, 3, IN_PART))
        self.assertEqual(Outcome(5, out, b"lost 1\n"), outcome)
        self.assertEqual([*packets[:2], KEPT_ALIVE.packets[2][:-1], *packets[2:]], came)

    def test_each_device_fails(self):
        """Each read and each write fails: what was printed and sent before stays, by row
        `five_second_fade`."""
        outcome, came = self.plays(LINES[:4], ("read", 2, 2, errno.EIO))
        self.assertEqual(Outcome(5, text(*PRINTED[:4]), DEVICE_FAULT), outcome)
        self.assertEqual(FADE.packets[:3], came)
        for error in (errno.EIO, errno.EAGAIN):
            outcome, came = self.plays(LINES, ("read", 1, 1, error))
            self.assertEqual((Outcome(5, b"", DEVICE_FAULT), []), (outcome, came))
        for error in (errno.EIO, errno.ENOSPC, errno.EPIPE, errno.EAGAIN):
            for write in range(1, 6):
                with self.subTest(errno.errorcode[error], write=write):
                    outcome, came = self.plays(LINES, ("write", write, write, error))
                    self.assertEqual(
                        Outcome(5, text(*PRINTED[: write - 1]), DEVICE_FAULT), outcome
                    )
                    # The packets of the line that was not printed went out before it.
                    self.assertEqual(FADE.packets[: write - 1], came)

    def test_later_read_fails(self):
        """An input of several blocks: all lines that came whole were carried out."""
        lines = [f"{moment} go" for moment in range(3000)]
        stdin = text(*lines)
        for read in (2, 3, 4):
            whole = stdin[: 4096 * (read - 1)].count(b"\n")
            outcome, _ = self.plays(lines, ("read", read, read, errno.EIO))
            printed = ["0 ok", "1 ok"] + [f"{moment} refused AtEnd" for moment in range(2, whole)]
            self.assertEqual(Outcome(5, text(*printed), DEVICE_FAULT), outcome)

    def test_output_closed_in_the_middle(self):
        """The line after whose printing nobody reads any more ends the run; no signal does."""
        words = [PROGRAM, "play", self.show, "--to", self.to, "--cid", CID]
        with subprocess.Popen(
            words, stdin=subprocess.PIPE, stdout=subprocess.PIPE, stderr=subprocess.PIPE, bufsize=0
        ) as run:
            self.addCleanup(run.kill)
            run.stdin.write(b"0 go\n0 tick\n")
            self.assertEqual(
                [b"0 ok\n", b"0 live 1:s0\n"], [run.stdout.readline() for _ in range(2)]
            )
            run.stdout.close()
            run.stdin.write(b"2500 tick\n")
            self.assertEqual(DEVICE_FAULT, messages_in(run.stderr.read()))
        self.assertEqual((5, FADE.packets[:2]), (run.returncode, self.came()))

    def test_input_cut(self):
        """An input that ends anywhere, be it in the middle of a line."""
        stdin = b"0 sub 1 50\n0 tick\n25 goto 2 ! now\n1025 tick\n1050 end\n1050 tick\n"
        words = ["play", self.show, "--to", self.to, "--cid", CID]
        for length in range(len(stdin)):
            with self.subTest(stdin[:length]):
                expected = runs.play(S1, stdin[:length])
                answer = (*run(*words, stdin=stdin[:length]), tuple(self.came()))
                self.assertEqual(expected, answer)


class Prints(FailingCalls):
    """Jobs that only print: the writes of each fail in turn, and are interrupted."""

    def assertEachWriteFails(self, words, stdin, whole):
        self.assertEqual(Outcome(0, whole, b""), self.run_failing(words, stdin))
        self.assertEqual(
            Outcome(0, whole, b""), self.run_failing(words, stdin, ("write", 1, 3, errno.EINTR))
        )
        for write in range(1, 100):
            outcome = self.run_failing(words, stdin, ("write", write, write, errno.EIO))
            if outcome.status == 0:
                break
            # Of the text it is not known how much went out.
            self.assertEqual((5, DEVICE_FAULT), (outcome.status, outcome.err))
            self.assertTrue(whole.startswith(outcome.out))
        self.assertEqual(whole, outcome.out)
        self.assertEqual(b"", self.run_failing(words, stdin, ("write", 1, 99, errno.EIO)).out)
        return write - 1

    def test_each_device_fails(self):
        """Each write of `check`, `look`, `slots` and `rehearse`, which prints through a buffer,
        fails: what was printed is a beginning of the text."""
        self.assertEqual(
            1, self.assertEachWriteFails(["check", self.show], b"", counts(12, 2, 1, 0, 2))
        )
        one = LOOK_ONE
        line = packet(1, {1: 64}).hex().encode() + b"\n"
        self.assertEqual(1, self.assertEachWriteFails(["look", "-", "1", "--cid", CID], one, line))
        shown = b"universe 1\nslots 1:64\n"
        self.assertEqual(1, self.assertEachWriteFails(["slots", "-", "1"], one, shown))
        script = self.folder / "night.script"
        script.write_bytes(REHEARSED.script)
        words = ["rehearse", self.show, script]
        self.assertGreaterEqual(self.assertEachWriteFails(words, b"", REHEARSED.out), 1)
        script.write_bytes(text(*HEADER, *["0 slots 0"] * 20_000))
        whole = text(*(f"{n} slots" for n in range(3, 20_003)), "end 0 slots")
        self.assertGreater(self.assertEachWriteFails(words, b"", whole), 1)

    def test_each_read_fails(self):
        """A read of a show that fails: interrupted it is made again, and else it is a fault."""
        whole = counts(12, 2, 1, 0, 2)
        for read in (1, 2):
            outcome = self.run_failing(["check", "-"], S1, ("read", read, read + 2, errno.EINTR))
            self.assertEqual(Outcome(0, whole, b""), outcome)
            for error in (errno.EIO, errno.EAGAIN):
                outcome = self.run_failing(["check", "-"], S1, ("read", read, read, error))
                self.assertEqual(Outcome(5, b"", DEVICE_FAULT), outcome)

    def test_watch(self):
        """Each write and each read fails: what was printed at the lines before stays."""
        lines = text(*(f"{1000 * n} {LOOK.hex()}" for n in range(12)))
        told, _ = watches.watch(lines, [1])
        printed = {}
        for line in told:
            moment = int(line.split()[0])
            printed[moment] = printed.get(moment, b"") + text(line)
        writes = list(printed.values())
        self.assertEqual(Outcome(0, b"".join(writes), b""), self.run_failing(["watch", "1"], lines))
        for call in ("read", "write"):
            outcome = self.run_failing(["watch", "1"], lines, (call, 1, 3, errno.EINTR))
            self.assertEqual(Outcome(0, b"".join(writes), b""), outcome)
        for write in range(1, len(writes) + 1):
            outcome = self.run_failing(["watch", "1"], lines, ("write", write, write, errno.EIO))
            self.assertEqual(Outcome(5, b"".join(writes[: write - 1]), DEVICE_FAULT), outcome)
        # The second read begins in the middle of the fourth line.
        for read, whole in ((1, 0), (2, 3)):
            outcome = self.run_failing(["watch", "1"], lines, ("read", read, read, errno.EIO))
            self.assertEqual(Outcome(5, b"".join(writes[:whole]), DEVICE_FAULT), outcome)

    def test_script_cut(self):
        """A script that ends anywhere."""
        script = b"".join(REHEARSED.script.splitlines(keepends=True)[:7])
        file = self.folder / "night.script"
        for length in range(len(script)):
            with self.subTest(script[:length]):
                file.write_bytes(script[:length])
                expected = runs.rehearse(S1, script[:length])
                self.assertEqual(expected[:3], run("rehearse", self.show, file))


class Listen(FailingCalls):
    def listen(self, *failures):
        listener = Listener(count=3, env=self.environment(*failures))
        self.addCleanup(listener.abandon)
        listener.send(*DATAGRAMS)
        return listener.close()

    def test_each_device_fails(self):
        """Each receive and each write fails: what was printed before it stays."""
        lines = THREE.splitlines(keepends=True)
        for call, calls in (("recvfrom", 3), ("write", 4)):
            for n in range(1, calls + 1):
                for error in (errno.EIO, errno.ECONNREFUSED, errno.EAGAIN):
                    with self.subTest(call, n=n, error=errno.errorcode[error]):
                        out = b"".join(lines[: n - 1])
                        self.assertEqual((5, out, DEVICE_FAULT), self.listen((call, n, n, error)))

    def test_interrupted_calls(self):
        """A receive or a write that a signal interrupts is made again."""
        for call in ("recvfrom", "write"):
            self.assertEqual((0, THREE, b""), self.listen((call, 1, 2, errno.EINTR)))

    def test_output_closed_in_the_middle(self):
        """The datagram at whose reply nobody reads any more ends the run; no signal does."""
        listener = Listener(count=3)
        self.addCleanup(listener.abandon)
        listener.send(DATAGRAMS[0])
        self.assertEqual(b"1 taken 0\n", listener.line())
        listener.child.stdout.close()
        listener.send(DATAGRAMS[1])
        self.assertEqual(DEVICE_FAULT, messages_in(listener.child.stderr.read()))
        self.assertEqual(5, listener.child.wait(timeout=30))


class Live(FailingCalls):
    WORDS = ("--cid", CID)

    def play_live(self, *failures, stdin=b"sub 1 FL\nend\n"):
        """How a night ends, without its moments, and what came of its packets."""
        words = ["live", self.show, "--to", self.to, *self.WORDS, "--end-with-input"]
        status, out, err = self.run_failing(words, stdin, *failures)
        return status, without_moments(out), err, self.came()

    def test_each_send_fails(self):
        """Each send in turn fails, for each reason: the tick is printed, and the night goes on; the
        others come."""
        for error in NETWORK_ERRORS:
            for k in range(3):
                with self.subTest(errno.errorcode[error], k=k):
                    status, out, err, came = self.play_live(("sendto", k + 1, k + 1, error))
                    self.assertEqual((5, b"lost 1\n"), (status, err))
                    self.assertEqual(["ok"] * 3, [line for line in out if line == "ok"])
                    self.assertEqual(
                        [f"1:x{k}"], [line.split()[-1] for line in out if line != "ok"]
                    )
                    numbers = [each[SEQUENCE] for each in came]
                    self.assertEqual([n for n in range(numbers[-1] + 1) if n != k], numbers)
                    self.assertGreaterEqual(len(numbers), 3)

    def test_interrupted_calls(self):
        """A send, a read, a write or a wait that a signal interrupts is made again."""
        for call in ("sendto", "write", "read", "epoll_wait"):
            with self.subTest(call):
                status, out, err, came = self.play_live((call, 1, 2, errno.EINTR))
                self.assertEqual((0, ["ok"] * 3, b""), (status, out, err))
                self.assertEqual([TERMINATED] * 3, [each[OPTIONS] for each in came[-3:]])

    def test_each_write_fails(self):
        """A reply that cannot be written is told of once, no reply follows it, and the night goes
        on."""
        for write in (1, 2, 3):
            status, out, err, came = self.play_live(("write", write, write, errno.EIO))
            self.assertEqual(
                (0, ["ok"] * (write - 1), b"replies: device fault\n"), (status, out, err)
            )
            self.assertEqual([TERMINATED] * 3, [each[OPTIONS] for each in came[-3:]])

    def test_reads_that_fail(self):
        """A read that fails: nothing there yet is no fault; an input that cannot be read any more
        has ended."""
        status, out, err, _ = self.play_live(("read", 1, 5, errno.EAGAIN))
        self.assertEqual((0, ["ok"] * 3, b""), (status, out, err))
        status, out, err, _ = self.play_live(("read", 1, 1, errno.EIO))
        self.assertEqual((0, ["ok"] * 2, b""), (status, out, err))

    def test_input_cut(self):
        """An input that ends in the middle of a line: what is there of it is a line, and the end of
        the night is given."""
        typed = b"sub 1 FL\n"
        for length in range(len(typed)):
            with self.subTest(typed[:length]):
                status, out, err, came = self.play_live(stdin=typed[:length])
                line = typed[:length].decode()
                reason = NUMBERED if line.startswith("sub") else UNKNOWN
                refused = [f"line refused: {line}: {reason}"] if 0 < length < 8 else []
                self.assertEqual((0, refused), (status, err.decode().splitlines()))
                self.assertEqual(["ok"] * (3 if length == 8 else 2), out)
                self.assertEqual(3, len([each for each in came if each[OPTIONS] == TERMINATED]))


class Locks(FailingCalls):
    """A file system without locks: that of the record is asked for first, and then the CID's."""

    def setUp(self):
        super().setUp()
        self.record = self.folder / "night.play"

    def record_night(self, lines, failure, *more):
        """How a night with a record ends, without its moments, and which locks it cannot make."""
        words = ["live", self.show, "--to", self.to, "--cid", CID, "--end-with-input"]
        words = [*words, "--record", self.record, *more]
        status, out, err = self.run_failing(words, lines, failure)
        missing = re.findall(rb"(?m)^(\w+): no lock can be made", err)
        return status, without_moments(out), missing

    def test_night(self):
        """It is told which lock cannot be made, and the night begins, and is recorded."""
        cases = (1, 1, {b"record"}), (2, 2, {b"cid"}), (1, 2, {b"record", b"cid"})
        for first, last, missing in cases:
            with self.subTest(missing):
                self.record.unlink(missing_ok=True)
                failure = ("flock", first, last, errno.ENOLCK)
                status, out, told_of = self.record_night(b"go\n", failure)
                self.assertEqual((0, missing), (status, set(told_of)))
                self.assertEqual(["ok"] * 3, [line for line in out if line == "ok"])
                self.assertIn(b" go\n", self.record.read_bytes())

    def test_spare(self):
        """None stands by, since it could not tell who plays."""
        self.record_night(b"go\n", ("flock", 0, 0, 0))
        head = b"".join(self.record.read_bytes().splitlines(keepends=True)[:2])
        self.record.write_bytes(head)
        refused = ("flock", 1, 1000, errno.ENOLCK), "--resume", "--spare"
        self.assertEqual((5, []), self.record_night(b"", *refused)[:2])
        self.assertEqual(head, self.record.read_bytes())


# Runs in a network of its own, in which nothing is up: begins a night there, brings the network
# up, and tells what came and what was printed.
WITHOUT_NETWORK = """
import select, socket, subprocess, sys, time
pipe = subprocess.PIPE
night = subprocess.Popen(sys.argv[1:], stdin=pipe, stdout=pipe, stderr=pipe)
lost = [night.stdout.readline() for _ in range(4)]
receiver = socket.socket(socket.AF_INET, socket.SOCK_DGRAM)
receiver.bind(("0.0.0.0", 5568))
subprocess.run("ip link set lo up", shell=True, check=True)
time.sleep(1)
night.stdin.write(b"sub 1 FL\\n")
night.stdin.flush()
time.sleep(0.2)
out, err = night.communicate(timeout=60)
came = []
while select.select([receiver], [], [], 0.1)[0]:
    came.append(receiver.recv(65536))
print(b"".join(lost).decode() + out.decode() + err.decode() + f"status {night.returncode}")
print(max(each[126] for each in came), [each[112] for each in came[-3:]])
"""


class Network(FailingCalls):
    def test_no_network(self):
        """The system itself says that the network cannot be reached: no packet that is lost ends
        the run."""
        words = [*own_network(self), PROGRAM, "play", self.show, "--to", "192.0.2.1", "--cid", CID]
        done = subprocess.run(words, input=b"0 tick\n25 tick\n", capture_output=True, timeout=60)
        out = b"0 live 1:x0\n25 live 1:x1\n"
        found = (done.returncode, done.stdout, messages_in(done.stderr))
        self.assertEqual((5, out, b"lost 2\n"), found)

    def test_network_that_comes(self):
        """A night that begins without its network goes on once it is there."""
        words = [PROGRAM, "live", self.show, "--to", "127.0.0.1", "--cid", CID, "--end-with-input"]
        done = subprocess.run(
            [*own_network(self), sys.executable, "-c", WITHOUT_NETWORK, *words],
            capture_output=True,
            timeout=60,
        )
        *printed, levels = START.sub(b"", done.stdout).decode().splitlines()
        lost = [line for line in printed if re.fullmatch(r"\d+ live 1:x\d+", line)]
        self.assertEqual((b"", printed[: len(lost)]), (done.stderr, lost))
        rest = [re.sub(r"^(\d+|\d+:\d\d:\d\d) ", "", line) for line in printed[len(lost) :]]
        remark = "127.0.0.1:5568: no route leads to that network"
        told = ["from 127.0.0.1 (lo)", f"lost {len(lost)}", remark, "status 5"]
        self.assertEqual(["ok", "ok", "ok", *told], rest)
        self.assertEqual("128 [64, 64, 64]", levels)
