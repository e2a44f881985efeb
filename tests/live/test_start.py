"""`live --start N`: the first packet shows a cue at full."""

from expected import runs
from program import LIVE_NAME, Outcome, behind_head, packet, run
from restart_nights import SHOW, RestartTest
from restarts import moments


def sent_first(universe, slots, priority=100):
    """The first packet of a universe."""
    return packet(universe, slots, 0, priority=priority, name=LIVE_NAME)


class Start(RestartTest):
    def assertStarts(self, night, cue, base=1, priority=100):
        """The first packets, and so all of them, show a cue at full."""
        frames = runs.full(SHOW, cue)
        wanted = [sent_first(base + k, slots, priority) for k, slots in frames.items()]
        self.assertEqual(wanted, [each.packet for each in night.heard[: len(frames)]])
        record = night.record.read_bytes()
        move, tick = behind_head(record)[:2]
        self.assertRegex(f"{move}, {tick}", rf"^\d+ goto {cue // 1000} in 0, \d+ tick$")

    def test_full(self):
        """Without a fade, whatever the cue's times are, and as the source that was asked for."""
        for cue in (1, 2):
            with self.subTest(cue):
                options = ("--priority", "150", "--base", "7")
                night = self.night("--start", str(cue), *options)
                night.begin(resume=False)
                night.light(4)
                self.assertEnds(night)
                self.assertStarts(night, 1000 * cue, base=7, priority=150)
                self.assertOne(night, *options, priority=150, base=7)

    def test_killed(self):
        """Such a night is taken up, and without --start."""
        night = self.night()
        night.begin("--start", "2")
        night.light(8)
        night.type(b"back\n")
        night.light(10)
        night.kill()
        night.begin()
        night.light()
        self.assertEnds(night)
        self.assertStarts(night, 2000)
        self.assertTaken(night)
        self.assertEqual(1, len(moments(night.record.read_bytes(), b"goto")))

    def test_killed_at_once(self):
        """There may be the move alone."""
        night = self.night()
        night.begin("--start", "2")
        night.light()
        night.kill()
        first, rest = night.record.read_bytes().split(b"tick\n", 1)
        night.record.write_bytes(first[: first.rfind(b"\n") + 1])
        heard = len(night.heard)
        night.begin()
        night.light(2)
        self.assertEnds(night)
        wanted = [sent_first(1 + k, slots) for k, slots in runs.full(SHOW, 2000).items()]
        self.assertEqual(wanted, [each.packet for each in night.heard[heard:][: len(wanted)]])

    def test_no_such_cue(self):
        """It is a fault of the show; nothing is sent, and FILE is as it was, or is not made."""
        record = self.folder / "night.play"
        for cue in ("3", "1.5"):
            for content in (None, b""):
                with self.subTest(cue=cue, content=content):
                    record.unlink(missing_ok=True)
                    if content is not None:
                        record.write_bytes(content)
                    outcome = run(*self.words("--record", record, "--start", cue), stdin=b"go\n")
                    self.assertEqual(Outcome(3, b"", b"show: NoCue\n"), outcome)
                    self.assertEqual([], self.came())
                    self.assertEqual(content, record.read_bytes() if record.exists() else None)

    def test_no_number(self):
        for cue in ("x", "0", "", "1.2345", "10000"):
            with self.subTest(cue):
                self.assertEqual(2, run(*self.words("--start", cue), stdin=b"go\n").status)
                self.assertEqual([], self.came())

    def test_night_that_goes_on(self):
        """A night is not begun anew in its record."""
        night = self.killed_night(b"go\n")
        before, heard = night.record.read_bytes(), len(night.heard)
        refused = night.begin("--start", "2")
        line = refused.stderr.readline()
        said = b"record: %s has a night; without --start it goes on" % bytes(night.record)
        self.assertTrue(line.startswith(said), line)
        self.assertEqual(4, refused.wait(30))
        self.assertEqual((before, heard), (night.record.read_bytes(), len(night.heard)))
