"""`rehearse`: its scripts, and what it prints of them."""

import subprocess
from subprocess import DEVNULL

from program import CID, DEVICE_FAULT, PROGRAM, FolderTest, run, text
from worked import HEADER, S1, rehearsal_of, rehearsals, steps, table, tables, with_examples

OTHER = CID[:-1] + "2"
LONGEST_SCRIPT = 16_777_216
SIXTEEN = text(
    "CUE 1", "CHAN 1@FL", "PATCH 1 " + " ".join(f"1<{512 * k + 1}@FL" for k in range(16))
)


@with_examples("line", "reply")
@with_examples("script", "answer")
class Rehearse(FolderTest):
    def words(self, show, script):
        """The words of a rehearsal of this show and this script."""
        return ["rehearse", self.file("show.asc", show), self.file("night.script", script)]

    def assertExample(self, name):
        for rehearsal in rehearsals(name):
            with self.subTest(rehearsal.script[:80]):
                self.assertRehearses(rehearsal)

    def assertRehearses(self, run):
        words = self.words(run.show, run.script)
        self.assertRuns(words, b"", status=run.status, out=run.out, err=run.err)

    def assertReplies(self, *steps):
        """Behind the usual header, each line has this reply."""
        self.assertRehearses(rehearsal_of(S1, steps))

    def lines_and_replies(self, last):
        """The lines of a submaster that moves at each tick, up to tick `last`, and their
        replies."""
        for i in range(last + 1):
            yield text(f"{25 * i} do 0 sub 1 {i % 90}"), "ok"
            yield text(f"{25 * i} tick 0"), f"live 1:s{i % 256}"

    def test_window_wrap(self):
        """Packets that come late or never, over a wrap of their numbers: the newest shows, and what
        is late is ignored."""
        delivered = []
        for row in table("window_wrap").rows:
            newest, oldest = map(int, row.cells["delivered"].split(" to "))
            reply, (shown,) = row.cells["reply to the first"], row.words("slots")
            for k in range(newest, oldest - 1, -1):
                taken = reply if k == newest else "ignored OutOfSequence"
                delivered.append((text(f"10475 deliver 0 0 1 {k}"), taken))
            delivered.append((text("10475 slots 0"), shown))
        self.assertReplies(*self.lines_and_replies(419), *delivered, (b"", f"end 0 {shown}"))

    def test_window_edge(self):
        """A packet 236 ahead of the last that was taken is taken, and one 237 ahead is ignored."""
        for then in tables("window_edge"):
            self.assertReplies(*self.lines_and_replies(237), *steps(then.rows, "then"))

    def test_strays(self):
        """A stray is whatever its digits spell: nothing, a packet, or one of another source."""
        short = "ignored Unreadable Short"
        self.assertReplies(
            (b"0 stray 0\n", short), (b"0 stray 0 00\n", short), (b"", "end 0 slots")
        )
        packet = run("look", "-", "1", "--cid", OTHER, stdin=S1).out.strip()
        # 1,906 slots, more than a packet may have: were it cut as a datagram is, its lengths would
        # not agree.
        front = (
            b"001000004153432d45312e313700000077e000000004%s77ca00000002"
            % CID.replace("-", "").encode()
        )
        long = front + b"0" * 128 + b"64000000000001777d02a1000000010773" + b"0" * 3814
        self.assertReplies(
            (b"0 stray 0 %s\n" % long, "ignored Unreadable Count"), (b"", "end 0 slots")
        )
        self.assertReplies(
            (b"0 stray 0 %s\n" % packet, "taken 0"),
            (b"0 STRAY 0 %s\n" % packet.upper(), "ignored OutOfSequence"),
            (b"0 stray 0 %s%s\n" % (packet, b"0" * 3002), "ignored OutOfSequence"),
            (b"0 slots 0\n", "slots 1:255"),
            (b"", "end 0 slots 1:255"),
        )

    def test_sixteen_universes(self):
        """All of them in one tick, and a packet of the first and of the last; at both ends of what
        numbers and priorities there are."""
        for base, priority in ((1, 0), (63984, 200)):
            sent = " ".join(f"{universe}:s0" for universe in range(base, base + 16))
            steps = [(f"console {base} {priority} {CID}", None)]
            steps += [(f"receiver {universe}", None) for universe in (base, base + 15)]
            steps += [("0 do 0 go", "ok"), ("0 tick 0", "live " + sent)]
            steps += [(f"0 deliver {r} 0 {base + 15 * r} 0", "taken 0") for r in range(2)]
            steps = [(text(line), reply) for line, reply in steps]
            steps += [(b"", f"end {r} slots 1:255") for r in range(2)]
            with self.subTest(base=base):
                self.assertRehearses(rehearsal_of(SIXTEEN, steps))

    def test_order_of_faults(self):
        """The show first, and only then the script's size."""
        words = self.words(text("CUE x"), b"!" * (LONGEST_SCRIPT + 1))
        self.assertRuns(words, b"", status=3, err=b"show line 1: BadNumber\n")

    def test_missing_files(self):
        words = self.words(text("CUE x"), b"")
        missing = [words[0], words[1], self.folder / "none"]
        self.assertRuns(missing, b"", status=5, err=DEVICE_FAULT)
        missing = [words[0], self.folder / "none", words[2]]
        self.assertRuns(missing, b"", status=5, err=DEVICE_FAULT)
        # `-` is a file of that name.
        self.assertRuns([words[0], words[1], "-"], b"", status=5, err=DEVICE_FAULT)

    def test_full_output(self):
        self.assertFullDisk(self.words(S1, text(*HEADER, "0 tick 0")))


class Memory(FolderTest):
    """A rehearsal keeps no packet that no later event delivers."""

    TICKS = 100_000
    # In kibibytes: fewer than the packets of a long night take, 638 bytes each.
    ROOM = 57_344

    def status_of(self, delivers: bool, *last: int) -> int:
        """How a long night ends in this room: each packet is delivered at once, or none is; and
        these are delivered at the end."""
        lines = list(HEADER)
        for i in range(self.TICKS):
            lines += [f"{25 * i} do 0 sub 1 {i % 90}", f"{25 * i} tick 0"]
            lines += [f"{25 * i} deliver 0 0 1 {i}"] * delivers
        lines += [f"{25 * self.TICKS} deliver 0 0 1 {k}" for k in last]
        show, script = self.file("show.asc", S1), self.file("night.script", text(*lines))
        words = [PROGRAM, "rehearse", show, script]
        limited = ["sh", "-c", f'ulimit -v {self.ROOM}; exec "$@"', "sh", *words]
        night = subprocess.run(limited, stdout=DEVNULL, stderr=DEVNULL, timeout=60)
        return night.returncode

    def test_packets_delivered(self):
        """Where the first packet comes once more at the end, all are kept, and memory is
        wanted."""
        self.assertEqual(0, self.status_of(True))
        self.assertEqual(6, self.status_of(True, 0))

    def test_packets_never_delivered(self):
        self.assertEqual(0, self.status_of(False, 0))
        self.assertEqual(6, self.status_of(False, self.TICKS - 1, 0))
