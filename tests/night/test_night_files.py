"""`cueplayer-night` and a folder out of which somebody takes the files of a night, or all of it:
the night is commanded on, and goes on where `live` dies."""

import os
import shutil
import signal
import stat
import unittest
from types import SimpleNamespace

from kept_nights import RefusedTest
from tooling import wait_for
from wire import SEQUENCE

from cueplayer_tools.keeper.folder import Folder
from cueplayer_tools.keeper.folder_again import FolderAgain
from cueplayer_tools.keeper.guard import Guard
from cueplayer_tools.keeper.show_copy import COPY

PUT_BACK = "gone from the folder of the night, and put back: "


class Files(RefusedTest):
    def begin(self):
        """A night in cue 1, with a spare."""
        self.begin_night()
        self.go(1)
        self.numbers = self.wait_for_level(128)
        self.spare()

    def content(self, name):
        return (self.night / name).read_bytes()

    def assertGoesOn(self, level):
        """Where `live` dies, another one goes on in the same stream and the same look."""
        self.numbers += [each[SEQUENCE] for each in self.came()]
        live = self.kill("pid")
        self.wait_for_reply(rf"live \(process {live}\) .*goes on where it was$")
        self.numbers += self.wait_for_level(level)
        self.wait_for_status(0)

    def assertCommanded(self, master):
        """A command comes to `live`, and is answered."""
        wait_for(lambda: self.run_script("status").status != 1, "the night is there")
        self.assertEqual((0, ["ok"]), self.without_moments("sub", "1", f"H{master:02X}"))
        self.numbers += self.wait_for_level(master)


class Removed(Files):
    def test_file(self):
        """It is put back as it was, and `live` plays on."""
        self.begin()
        live, master = self.number("pid"), 200
        for name in ("in", "night", "replies", "lock", "show", "pid", "spare"):
            with self.subTest(name):
                before = b"" if name == "in" else self.content(name)
                (self.night / name).unlink()
                self.wait_for_reply(f"{PUT_BACK}{name}$")
                if name not in ("in", "replies"):
                    self.assertEqual(before, self.content(name))
                master += 1
                self.assertCommanded(master)
                self.assertEqual([], self.wait_for_status(0)["trouble"])
        self.assertEqual(live, self.number("pid"))
        self.assertGoesOn(master)
        self.assertNumbered(self.numbers)
        self.assertIn("keeps the night", self.run_script("start", "--background").err)

    def test_lines(self):
        """Their FIFO has its name by whoever reads it, and a new one once nobody does."""
        self.begin()
        (self.night / "in").unlink()
        self.wait_for_reply(f"{PUT_BACK}in$")
        self.assertGoesOn(128)
        self.assertCommanded(200)
        self.assertGoesOn(200)
        live, spare = self.number("pid"), self.spare()
        for number in (spare, live):
            os.kill(number, signal.SIGKILL)
        self.wait_for_reply("it is started again, and goes on where it was$")
        self.assertCommanded(201)
        self.assertTrue(stat.S_ISFIFO(os.lstat(self.night / "in").st_mode))
        self.assertNumbered(self.numbers)

    def test_press_that_comes_at_once(self):
        """It waits until what it needs is put back."""
        self.begin()
        for times, name in enumerate(("night", "in", "replies"), 1):
            with self.subTest(name):
                (self.night / name).unlink()
                self.assertEqual((0, ["ok"]), self.without_moments("sub", "1", f"H{199 + times:X}"))
        self.numbers += self.wait_for_level(202)
        self.assertNumbered(self.numbers)

    def test_file_in_the_place_of_the_lines(self):
        """As of a shell that writes where there is no FIFO: it is kept, and not carried out."""
        self.begin()
        (self.night / "in").unlink()
        (self.night / "in").write_bytes(b"go\n")
        self.wait_for_reply(rf"{PUT_BACK}in \(what was in its place is kept as in-replaced-")
        (kept,) = self.night.glob("in-replaced-*")
        self.assertEqual(b"go\n", kept.read_bytes())
        self.assertEqual((0, ["where cue 1 next 2 master 255"]), self.without_moments("where"))
        self.assertGoesOn(128)

    def test_all_files(self):
        """The record comes back once `live` is gone; the show, though its file is edited."""
        self.begin()
        live, show = self.number("pid"), self.content(COPY)
        for path in self.night.iterdir():
            path.unlink()
        self.show.write_bytes(b"CUE 1\n")
        self.wait_for_reply(PUT_BACK)
        self.assertCommanded(200)
        self.assertEqual((live, show), (self.number("pid"), self.content(COPY)))
        self.assertIn("record", [each["kind"] for each in self.wait_for_status(4)["trouble"]])
        self.assertGoesOn(200)
        self.assertNumbered(self.numbers)
        self.assertTrue(stat.S_ISFIFO(os.lstat(self.night / "in").st_mode))

    def test_show_that_is_replaced(self):
        """As by who takes the copy for the show that is edited: it is kept, and the night plays its
        own."""
        self.begin()
        show, other = self.content(COPY), b"CUE 1\n"
        self.show.write_bytes(other)
        shutil.copyfile(self.show, self.night / COPY)
        self.wait_for_reply(rf"{PUT_BACK}show \(what was in its place is kept as show-replaced-")
        self.assertEqual(show, self.content(COPY))
        (kept,) = self.night.glob("show-replaced-*")
        self.assertEqual(other, kept.read_bytes())
        live, spare = self.number("pid"), self.spare()
        for number in (spare, live):
            os.kill(number, signal.SIGKILL)
        self.wait_for_reply("it is started again, and goes on where it was$")
        self.numbers += self.wait_for_level(128)
        self.assertNumbered(self.numbers)
        self.assertNotIn("another show", self.replies())

    def test_folder(self):
        """It is made again, and the night is commanded in it."""
        self.begin()
        live = self.number("pid")
        shutil.rmtree(self.night)
        self.wait_for_reply("the folder of the night was removed, and is made again$")
        self.assertCommanded(200)
        self.assertEqual(live, self.number("pid"))
        self.assertGoesOn(200)
        self.assertNumbered(self.numbers)

    def test_lines_without_a_keeper(self):
        """`status` knows who plays, and the next keeper takes hold of it."""
        self.begin()
        keeper, live = self.kill("lock"), self.number("pid")
        wait_for(lambda: not self.is_there(keeper), "the keeper is gone")
        (self.night / "in").unlink()
        told = self.health()
        self.assertEqual((live, "played"), (told["live"], told["state"]))
        self.assertIn("no line comes to", "".join(each["text"] for each in told["trouble"]))
        status, out, _ = self.run_script("start", "--background")
        self.assertEqual(0, status, out)
        self.assertIn(f"takes hold of the night: live (process {live}) plays", out)
        self.assertCommanded(200)


class Unseen(unittest.TestCase):
    def test_folder_that_is_not_there(self):
        """Who cannot look tells it once, and keeps the night."""
        told = []
        folder = Folder("/nonexistent/night")
        again = FolderAgain(folder, [], None)
        nothing = SimpleNamespace(process=None, is_held=False)
        starter = SimpleNamespace(words=[])
        guard = Guard(folder, starter, nothing, again, None, told.append)
        for _ in range(3):
            guard.look(SimpleNamespace(number=os.getpid()), True)
        self.assertEqual(1, len(told))
        self.assertIn(f"cannot see how live (process {os.getpid()}) is: No such file", told[0])


class Replies(Files):
    def test_are_cut(self):
        """As by who rotates them: a spare that goes on is known by the record."""
        self.begin()
        for times in (1, 2):
            with self.subTest(times):
                spare = self.spare()
                os.truncate(self.night / "replies", 0)
                killed = self.kill("pid")
                died = rf"live \(process {killed}\) .*: the spare \(process {spare}\) "
                self.wait_for_reply(f"{died}goes on where it was$")
                self.assertEqual(spare, self.number("pid"))
                self.assertCommanded(200 + times)
        self.assertNumbered(self.numbers)

    def test_place(self):
        """That in a file that became shorter is its beginning."""
        self.night.mkdir()
        (self.night / "replies").write_bytes(b"12345\n")
        folder = Folder(str(self.night))
        self.assertEqual([0, 6, 0], [folder.place_in("replies", each) for each in (0, 6, 7)])
