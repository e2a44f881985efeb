"""`tools/desk --listen`: the PINs are those of the last time, in a file of the user's own."""

import os
import unittest
from pathlib import Path

from desk_folders import DeskFolderTest
from doors import Door, DoorTest
from program import FolderTest
from tooling import PATIENCE, run_tool, wait_for

from cueplayer_tools.desk.pin_file import PinFile, pin_file
from cueplayer_tools.desk.pins import Pins, Role


def pins_of(door):
    return door.play, door.watch


class Kept(DoorTest):
    def setUp(self):
        super().setUp()
        kept = os.environ["XDG_STATE_HOME"]
        self.addCleanup(os.environ.__setitem__, "XDG_STATE_HOME", kept)
        os.environ["XDG_STATE_HOME"] = str(self.folder / "state")
        self.kept = self.folder / "state/cueplayer/desk-0.pins"

    def pins(self, *options):
        """The PINs of a desk that begins and ends."""
        desk, _, door = self.open_desk(*options)
        desk.process.terminate()
        self.assertEqual(0, desk.process.wait(PATIENCE))
        self.assertNotIn("PINs", "\n".join(desk.err.rest()))
        return pins_of(door)

    def test_next_start(self):
        """A tablet types the PIN of yesterday."""
        play, watch = self.pins()
        self.assertEqual(f"play {play}\nwatch {watch}\n", self.kept.read_text())
        self.assertEqual(0o600, self.kept.stat().st_mode & 0o777)
        self.assertEqual(0o700, self.kept.parent.stat().st_mode & 0o777)
        _, _, door = self.open_desk()
        self.assertEqual((play, watch), pins_of(door))
        self.assertEqual(204, door.enter(play)[0])
        self.assertEqual([self.kept], list(self.kept.parent.iterdir()))

    def test_new_pins(self):
        """They are new where that is asked for, at the start or by a page, and these are kept."""
        first = self.pins()
        second = self.pins("--new-pins")
        self.assertNotEqual(first, second)
        desk, page, door = self.open_desk()
        self.assertEqual(second, pins_of(door))
        self.assertEqual(204, page.request("POST", "pins", b"new")[0])
        wait_for(lambda: page.newest["guests"]["pins"]["play"] != door.play, "new PINs")
        third = page.newest["guests"]["pins"]
        content = f"play {third['play']}\nwatch {third['watch']}\n"
        wait_for(lambda: self.kept.read_text() == content, "that they are kept")
        desk.process.terminate()
        self.assertEqual(0, desk.process.wait(PATIENCE))
        self.assertEqual((third["play"], third["watch"]), self.pins())

    def test_words(self):
        done = run_tool("desk", self.show, "--to", self.to, "--new-pins")
        self.assertEqual(2, done.returncode)
        self.assertIn("--new-pins needs --listen", done.stderr)


class File(FolderTest):
    def setUp(self):
        super().setUp()
        self.told = []
        self.kept = self.folder / "pins"

    def pins(self):
        pins = Pins(PinFile(self.kept, self.told.append)).pins
        return pins[Role.PLAY], pins[Role.WATCH]

    def test_not_ours(self):
        """What others could read, or is no file of PINs, is told, and made anew."""
        elsewhere = self.file("elsewhere", b"play 000001\nwatch 000002\n")
        elsewhere.chmod(0o600)
        good = b"play 000001\nwatch 000002\n"
        for content, mode, told in (
            (good, 0o640, "others can read it"),
            (good, 0o604, "others can read it"),
            (b"", 0o600, "it has no two PINs"),
            (good + b"\n", 0o600, "it has no two PINs"),
            (b"play 000001\nwatch 000001\n", 0o600, "it has no two PINs"),
            (b"play 00001\nwatch 000002\n", 0o600, "it has no two PINs"),
        ):
            with self.subTest(content=content, mode=mode):
                self.kept.write_bytes(content)
                self.kept.chmod(mode)
                made = self.pins()
                self.assertEqual([f"{self.kept}: {told}: the PINs are new"], self.told)
                self.assertNotEqual(("000001", "000002"), made)
                self.assertEqual(0o600, self.kept.stat().st_mode & 0o777)
                self.assertEqual(made, self.pins())
                self.told.clear()
        self.kept.unlink()
        self.kept.symlink_to(elsewhere)
        self.assertNotEqual(("000001", "000002"), self.pins())
        self.assertIn("the PINs are new", self.told[0])
        self.assertEqual(good, elsewhere.read_bytes())

    def test_no_room(self):
        """Where they cannot be kept the desk has PINs all the same, and says so."""
        self.kept = self.file("taken", b"") / "below/pins"
        made = self.pins()
        self.assertRegex(made[0], r"^\d{6}$")
        why = f"cannot keep the PINs in {self.kept}: Not a directory; the next start has new ones"
        self.assertEqual(why, self.told[-1])

    def test_where(self):
        """In the folder of the night, or in the user's own; of each port."""
        self.assertEqual(Path("tonight/desk-8090.pins"), pin_file("tonight", 8090))
        state = Path(os.environ["XDG_STATE_HOME"])
        self.assertEqual(state / "cueplayer/desk-9000.pins", pin_file(None, 9000))


class OfNight(DeskFolderTest):
    def test_beside_the_night(self):
        """Whoever takes hold of the night again has its PINs."""
        self.begin_night()
        desk, _ = self.desk("--listen", "127.0.0.1:0")
        door = Door(desk.out.next())
        desk.process.terminate()
        self.assertEqual(0, desk.process.wait(PATIENCE))
        kept = (self.night / "desk-0.pins").read_text()
        self.assertEqual(f"play {door.play}\nwatch {door.watch}\n", kept)
        again, _ = self.desk("--listen", "127.0.0.1:0")
        self.assertEqual(pins_of(door), pins_of(Door(again.out.next())))


if __name__ == "__main__":
    unittest.main()
