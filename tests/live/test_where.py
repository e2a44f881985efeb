"""`live`: `where` tells all that the commands before it have set, and `help` lists the
commands."""

import random
import subprocess

import inputs
from expected import live
from live_nights import LiveTest, without_moments
from nights import Typed, answers, expected_lines, play_night, play_nights
from program import PROGRAM, text
from wire import own_network

NIGHTS, COMMANDS, SEED = 8, 1000, 41
# A submaster and a group of each number that a show may have.
SUBMASTERS, GROUPS = 100, 500
SPELLINGS = ["where", "where", "where", "WHERE\r", " Where ! now", "\twhere,"]


def some_masters(r):
    """The first and the last submaster and group, and some between."""
    subs = [1, 2, 3, SUBMASTERS, *r.sample(range(4, SUBMASTERS), 6)]
    groups = [1, 2, 3, GROUPS, *r.sample(range(4, GROUPS), 6)]
    return [f"SUB {n}" for n in subs] + [f"GROUP {n}" for n in groups]


def wide_show(r, masters):
    """A show with these masters, and with cues of which some follow by themselves."""
    lines = list(masters)
    for n in sorted({*inputs.CUES, "4.5", "13.25", *map(str, range(20, 30))}):
        lines += [f"CUE {n}"]
        lines += [f"FOLLOWON {r.choice(inputs.FOLLOWS)}"] if r.random() < 0.3 else []
    return text(*lines)


def a_command(r, masters):
    """A command by chance, mostly for a master; none that ends the night."""
    words = inputs.command(r)
    level = r.choice([*inputs.LEVELS, "0", "0"])
    if words == ["end"] or r.random() < 0.6:
        words = [*r.choice(masters).split(), level]
    return inputs.spelling(r, words, odd=0)


def asking_night(r):
    """A night of a thousand commands with `where` behind most of them, and the order of the
    two."""
    masters = some_masters(r)
    parts, kinds = [], []
    for _ in range(COMMANDS):
        lines = [a_command(r, masters)]
        kinds.append("answer")
        if r.random() < 0.7:
            lines.append(r.choice(SPELLINGS))
            kinds.append("where")
        pause = r.choice([0.01, 0.03]) if r.random() < 0.1 else 0
        parts.append((pause, text(*lines)))
    # The night is asked once more at its end.
    parts.append((0.5, b"where\n"))
    return Typed(wide_show(r, masters), tuple(parts)), [*kinds, "where"]


class Where(LiveTest):
    SHOW = text(
        "CUE 1", "FOLLOWON .2", "CUE 4.5", "SUB 3", "GROUP 1", "GROUP 12", "PATCH 1 1<1@FL"
    )

    def ask(self, night, word=b"where\n"):
        """What `where` tells, without its moment."""
        night.stdin.write(word)
        (line,) = without_moments(night.stdout.readline())
        return line

    def test_thousand_commands(self):
        """`where` among a thousand random commands tells the state by those that were answered
        before it."""
        r = random.Random(SEED)
        nights, kinds = zip(*(asking_night(r) for _ in range(NIGHTS)))
        for (typed, left), typed_kinds in zip(play_nights(nights), kinds):
            self.assertEqual(0, left.status, left.err)
            self.assertEqual(expected_lines(typed.show, left.record, left.shown), left.shown)
            came = answers(left.shown)
            # Behind the last one the light goes down, and the streams end.
            in_order = ["where" if word == "where" else "answer" for word, _ in came]
            self.assertEqual([*typed_kinds, "answer", "answer"], in_order)
            moments = [at for _, at in came]
            self.assertEqual(sorted(moments), moments)
            given = [line for line in left.record if not line.endswith(b" tick")]
            self.assertEqual(COMMANDS + 2, len(given))

    def test_as_an_operator_asks(self):
        night = self.begin_night("--record", self.folder / "night.play")
        self.assertEqual("where next 1 master 255", self.ask(night))
        self.type_line(night, b"sub 3 50\n", pause=0)
        self.type_line(night, b"group 12 FL\n", pause=0)
        self.type_line(night, b"group 1 1\n", pause=0)
        up = "master 255 sub 3:128 group 1:3 group 12:255"
        self.assertEqual(f"where next 1 {up}", self.ask(night))
        self.type_line(night, b"go\n", pause=0)
        self.assertEqual(["cue 1"], without_moments(night.stdout.readline()))
        self.assertEqual(["cue 4.5"], without_moments(night.stdout.readline()))
        self.type_line(night, b"master 0\n", pause=0)
        self.type_line(night, b"sub 3 0\n", pause=0)
        self.type_line(night, b"go\n", reply="refused AtEnd", pause=0)
        self.assertEqual("where cue 4.5 master 0 group 1:3 group 12:255", self.ask(night))
        self.assertEqual(0, self.end_night(night).status)
        record = (self.folder / "night.play").read_bytes()
        self.assertNotIn(b"where", record)

    def test_show_without_cues(self):
        self.show.write_bytes(text("PATCH 1 1<1@FL"))
        night = self.begin_night()
        self.assertEqual("where master 255", self.ask(night))
        self.end_night(night)

    def test_all_masters(self):
        """The longest line there is comes whole, into a file and through a pipe."""
        masters = [f"sub {n}" for n in range(1, SUBMASTERS + 1)]
        masters += [f"group {n}" for n in range(1, GROUPS + 1)]
        show = text("CUE 9999.999", *map(str.upper, masters), "CUE 9998.999")
        up = "".join(f" {each}:255" for each in masters)
        line = f"where cue 9998.999 next 9999.999 master 255{up}"
        typed = text("goto 9998.999", *(f"{master} FL" for master in masters), *["where"] * 8)
        left = play_night(Typed(show, ((0, typed),)))
        self.assertEqual(0, left.status, left.err)
        self.show.write_bytes(show)
        night = self.begin_night()
        out, _ = night.communicate(typed, timeout=30)
        for lines in (left.shown, out.decode().splitlines()):
            told = [each.partition(" ")[2] for each in lines if " where " in each]
            self.assertEqual([line] * 8, told)

    def test_behind_the_end(self):
        """`where` is answered while the light goes down, too."""
        left = play_night(Typed(self.SHOW, ((0, b"sub 3 FL\nend\nwhere\n"),)))
        expected = ["ok", "ok", "where next 1 master 0 sub 3:255", "ok"]
        self.assertEqual(expected, without_moments(text(*left.shown)))

    def test_before_what_is_wrong(self):
        """What is wrong with the network is told behind it, where both are read by one reader."""
        words = [*own_network(self), PROGRAM, *self.words(to="192.0.2.1")]
        both = {"stdout": subprocess.PIPE, "stderr": subprocess.STDOUT}
        done = subprocess.run(words, input=b"where\n", timeout=30, **both)
        lines = done.stdout.decode().splitlines()
        place = next(k for k, line in enumerate(lines) if " where " in line)
        self.assertRegex(lines[place + 1], r"^\d+:\d\d:\d\d no route to 192\.0\.2\.1: ")

    def test_is_alone(self):
        """`where` with another word is no request, and refused."""
        left = play_night(Typed(self.SHOW, ((0, b"where now\nwhere 1\nhelp go\n? ?\n"),)))
        self.assertEqual(["ok", "ok"], without_moments(text(*left.shown)))
        for line in (b"where now", b"where 1", b"help go", b"? ?"):
            self.assertIn(b"line refused: " + line, left.err)


class Help(LiveTest):
    def test_help(self):
        """Six lines, whichever way it is asked for; it is not recorded."""
        for word in (b"help\n", b"?\n", b" HELP ! me\n"):
            left = play_night(Typed(self.SHOW, ((0, word),)))
            self.assertEqual(0, left.status, left.err)
            shown = left.shown[: len(live.HELP)]
            self.assertEqual(live.HELP, shown)
            self.assertEqual(["ok", "ok"], without_moments(text(*left.shown[len(shown) :])))
            given = [line.split(b" ", 1)[1] for line in left.record]
            self.assertEqual([b"master 0", b"end"], [line for line in given if line != b"tick"])
