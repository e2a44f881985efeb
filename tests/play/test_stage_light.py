"""From `play` to the light: nights whose packets come to `listen` over a network that loses,
repeats and reorders them. The second reader works out the slots from the show and the lines."""

import random
import subprocess
import tempfile
from typing import NamedTuple

import inputs
from expected import show as shows
from expected.desk import Desk
from expected.runs import play_line
from expected.words import lines_of
from listeners import Listener
from program import CID, PROGRAM, FolderTest, packet, slots_line, text
from wire import SLOT_1, address_of, datagrams_at, receiver_socket

# The window: how far a packet may be behind the newest that arrived before it, and how far ahead.
BEHIND, AHEAD = 19, 217
# So many datagrams are sent to `listen` before its replies are read: its socket has room for them.
BURST = 50
STEPS = [23, 25, 25, 25, 25, 40, 100, 800, 1000]
TIMES = ["0", "0.2", "1", "2.5", "5", "5 0.3", "60"]
LEVELS = ["FL", "FL", "50", "99", "1", "H80", "HC0", "0"]


class Console(NamedTuple):
    """A run of `play`: its show, its lines and its words."""

    show: bytes
    lines: bytes
    base: int
    priority: int
    cid: str

    def words(self, show, to: str):
        options = {"--to": to, "--cid": self.cid, "--base": self.base, "--priority": self.priority}
        return ["play", show, *(str(word) for option in options.items() for word in option)]


class Meaning(NamedTuple):
    """What a show means for a universe at the latest tick: its slots that are not 0, and whether
    the stream goes on."""

    slots: dict
    is_live: bool


def meaning(console: Console, universe: int) -> Meaning:
    """By the second reader: the frame at the latest tick, under the commands before that tick."""
    desk = Desk(shows.read(console.show), console.base)
    ordinal, slots = universe - console.base, {}
    for line in lines_of(console.lines):
        before = desk.ticked
        if play_line(desk, line) is None:
            break
        if desk.ticked != before:
            slots = {} if desk.endings else desk.frame(ordinal, desk.ticked)
    return Meaning(slots, not desk.endings)


# ---- nights by chance


def show_by_chance(r: random.Random) -> bytes:
    """A show of four cues, a submaster and a group, on two universes at most."""
    lines = []
    for record in ("SUB 1", "GROUP 1", "CUE 1", "CUE 2", "CUE 3", "CUE 4"):
        lines.append(record)
        if record.startswith("CUE"):
            lines += [f"UP {r.choice(TIMES)}", f"DOWN {r.choice(TIMES)}"]
            lines += [f"FOLLOWON {r.choice(TIMES)}"] if r.random() < 0.1 else []
        levels = (f"{n}@{r.choice(LEVELS)}" for n in r.sample(range(1, 9), 4))
        lines.append(" ".join(["CHAN", *levels]))
    dimmers = r.sample(range(1, r.choice([512, 1024]) + 1), 12)
    patches = (f"{r.randrange(1, 9)}<{n}@{r.choice(LEVELS)}" for n in dimmers)
    lines.append(" ".join(["PATCH 1", *patches]))
    return text(*lines)


def lines_by_chance(r: random.Random, count: int) -> bytes:
    """Ticks, and commands now and then, from the first moment on."""
    moment, lines = 0, ["0 go", "0 tick"]
    for _ in range(count):
        moment += r.choice(STEPS)
        words = ["tick"] if r.random() < 0.85 else inputs.command(r)
        if words == ["end"]:
            words = ["go"]
        lines.append(" ".join([str(moment), *words]))
    if r.random() < 0.15:
        ticks = (f"{moment + 25 * n} tick" for n in range(1, r.randrange(2, 6)))
        lines += [f"{moment + 1} end", *ticks]
    return "".join(line + "\n" for line in lines).encode()


def console_by_chance(r: random.Random, cid: str, base: int) -> Console:
    count = r.choice([3, 10, 20, 40, 40]) if r.random() < 0.9 else 600
    priority = r.choice([100, 100, 100, 0, 99, 150, 200])
    return Console(show_by_chance(r), lines_by_chance(r, count), base, priority, cid)


# ---- the network


def arrivals(r: random.Random, count: int) -> list:
    """Packets 0 to `count` - 1 of a stream as they arrive, by their numbers: by chance some are
    lost, some come again and some come late, all in the window; and the newest arrives."""
    loss, again = r.choice([0, 0.1, 0.5, 0.9, 0.995]), r.choice([0, 0.1, 0.5])
    late = r.choice([0, 2, 19, 40])
    times = []
    for k in range(count):
        copies = 0 if r.random() < loss else 1 + (r.random() < again) * r.randrange(1, 4)
        copies = max(copies, k == count - 1)
        times += [(k + r.uniform(0, late), k) for _ in range(copies)]
    return in_window([k for _, k in sorted(times)])


def in_window(numbers: list) -> list:
    """Of these arrivals those that the window allows; where too many in a row are lost, one of
    them arrives."""
    newest, found = numbers[0], []
    for k in numbers:
        while k > newest + AHEAD:
            newest += AHEAD
            found.append(newest)
        if k >= newest - BEHIND:
            newest = max(newest, k)
            found.append(k)
    return found


def is_in_window(numbers: list) -> bool:
    """Whether each packet but the first is at most 19 behind and 217 ahead of the newest that came
    before it."""
    newest = numbers[0]
    for k in numbers[1:]:
        if not (newest <= k + 19 and k <= newest + 217):
            return False
        newest = max(newest, k)
    return True


class Tally:
    """What networks did: how many packets they lost, repeated and brought late, how far they went,
    and in how many nights they brought an old packet last."""

    def __init__(self):
        self.lost = self.repeated = self.late = self.wraps = self.misled = 0
        self.furthest_behind = self.furthest_ahead = 0

    def add(self, count: int, numbers: list):
        self.lost += count - len(set(numbers))
        self.repeated += len(numbers) - len(set(numbers))
        self.wraps += count > 256
        newest = numbers[0] if numbers else 0
        for k in numbers:
            self.late += k < newest
            self.furthest_behind = max(self.furthest_behind, newest - k)
            self.furthest_ahead = max(self.furthest_ahead, k - newest)
            newest = max(newest, k)


def universe_of(datagram: bytes) -> int:
    return int.from_bytes(datagram[113:115], "big")


def strangers(r: random.Random, universe: int, others: list) -> list:
    """Datagrams not heard on a universe: no packets, packets of other universes, previews."""
    kinds = [
        b"",
        b"\1\2",
        packet(universe + 1, {1: 255}),
        packet(universe, {1: 255}, options=0x80),
    ]
    return r.choices(kinds + others, k=r.randrange(6))


def shuffle(r: random.Random, streams: list) -> list:
    """Streams of datagrams as one, each in its order."""
    turns = [n for n, stream in enumerate(streams) for _ in stream]
    r.shuffle(turns)
    left = [iter(stream) for stream in streams]
    return [next(left[n]) for n in turns]


class StageLight(FolderTest):
    def setUp(self):
        super().setUp()
        self.tally = Tally()
        self.receiver = receiver_socket()
        self.addCleanup(self.receiver.close)

    def datagrams_of(self, console: Console) -> list:
        """The datagrams that a console sends: what its run of `play` offers to the network."""
        show = self.file("show.asc", console.show)
        with tempfile.TemporaryFile() as lines:
            lines.write(console.lines)
            lines.seek(0)
            words = [PROGRAM, *console.words(show, address_of(self.receiver))]
            null = subprocess.DEVNULL
            with subprocess.Popen(words, stdin=lines, stdout=null, stderr=null) as child:
                datagrams = []
                while child.poll() is None:
                    datagrams += datagrams_at(self.receiver, wait=0.001)
        return datagrams + datagrams_at(self.receiver, wait=0)

    def shown_slots(self, universe: int, datagrams: list) -> bytes:
        """The slots line of a `listen` to which these datagrams come."""
        listener = Listener(universe=universe, count=len(datagrams))
        try:
            for n in range(0, len(datagrams), BURST):
                burst = datagrams[n : n + BURST]
                listener.send(*burst)
                for _ in burst:
                    listener.line()
            status, out, err = listener.close()
        finally:
            listener.abandon()
        self.assertEqual((0, b""), (status, err))
        return out

    def carry(self, r: random.Random, universe: int, sent: list) -> list:
        """What arrives at a receiver of a universe: of the consoles, and of strangers."""
        streams, others = [], []
        for datagrams in sent:
            stream = [each for each in datagrams if universe_of(each) == universe]
            others += [each for each in datagrams if universe_of(each) != universe]
            numbers = arrivals(r, len(stream)) if stream else []
            self.tally.add(len(stream), numbers)
            streams.append([stream[k] for k in numbers])
            # The last packet that arrives is an old one, with other slots than the newest.
            self.tally.misled += stream != [] and streams[-1][-1][SLOT_1:] != stream[-1][SLOT_1:]
        return shuffle(r, [*streams, strangers(r, universe, others)])

    def assertNightShows(self, r: random.Random, consoles: list, universe: int, slots: dict):
        """What these consoles send, over a network of chance, has `listen` show these slots."""
        datagrams = self.carry(r, universe, [self.datagrams_of(console) for console in consoles])
        # One that is not heard ends the night: `listen` wants to hear of something.
        datagrams.append(b"end of the night")
        self.assertEqual(slots_line(slots) + "\n", self.shown_slots(universe, datagrams).decode())

    def test_one_console(self):
        """200 random nights of one console: whatever the network does in the window, the slots are
        what the show means at the latest tick."""
        for seed in range(200):
            r = random.Random(f"one console {seed}")
            console = console_by_chance(r, CID, r.choice([1, 1, 7, 63984]))
            universe = console.base + r.choice(sorted(shows.read(console.show).universes()))
            with self.subTest(seed=seed):
                self.assertNightShows(r, [console], universe, meaning(console, universe).slots)
        self.assertGreater(min(self.tally.lost, self.tally.repeated, self.tally.late), 1000)
        self.assertGreater(self.tally.misled, 20)
        self.assertEqual(BEHIND, self.tally.furthest_behind)
        self.assertGreater(self.tally.furthest_ahead, 100)
        self.assertGreater(self.tally.wraps, 10)

    def test_two_consoles(self):
        """50 random nights of two consoles: the slots are the greatest that those of the greatest
        priority mean; one that ended its stream counts for nothing."""
        priorities = set()
        for seed in range(50):
            r = random.Random(f"two consoles {seed}")
            consoles = [console_by_chance(r, CID[:-1] + digit, 1) for digit in "12"]
            universe = 1 + r.choice(sorted(shows.read(consoles[0].show).universes()))
            lit = [
                (console.priority, said.slots)
                for console in consoles
                if universe - 1 in shows.read(console.show).universes()
                for said in [meaning(console, universe)]
                if said.is_live
            ]
            first = max((priority for priority, _ in lit), default=0)
            led = [slots for priority, slots in lit if priority == first]
            priorities.add((len(lit), len(led)))
            slots = {n: max(each.get(n, 0) for each in led) for each in led for n in each}
            with self.subTest(seed=seed):
                self.assertNightShows(r, consoles, universe, slots)
        self.assertLessEqual({(2, 2), (2, 1), (1, 1), (0, 0)}, priorities)

    def test_window(self):
        """The network of these tests loses, repeats and reorders, in the window up to its
        edges."""
        for count in (1, 2, 40, 700):
            tally = Tally()
            for seed in range(100):
                numbers = arrivals(random.Random(seed), count)
                tally.add(count, numbers)
                self.assertTrue(is_in_window(numbers))
                self.assertIn(count - 1, numbers)
            if count >= 40:
                self.assertGreater(min(tally.lost, tally.repeated, tally.late), 100)
                self.assertEqual(BEHIND, tally.furthest_behind)
        self.assertEqual(AHEAD, tally.furthest_ahead)
        for numbers in ([0, 217], [19, 0]):
            self.assertTrue(is_in_window(numbers), numbers)
        for numbers in ([0, 218], [20, 0]):
            self.assertFalse(is_in_window(numbers), numbers)

    def test_outside_the_window(self):
        """Outside the window the slots may be others: a packet that is 20 behind is taken, and
        shows."""
        levels = [packet(1, {1: k + 1}, k) for k in range(21)]
        self.assertEqual(b"slots 1:21\n", self.shown_slots(1, [levels[20], levels[1]]))
        self.assertEqual(b"slots 1:1\n", self.shown_slots(1, [levels[20], levels[0]]))
