"""The worked shows: what `check`, `look` and `slots` answer of them, each a test of its name."""

from program import CID, NO_PATCH, ProgramTest, packet, slots_in, text
from worked import above, look_one, table, tables, with_examples


@with_examples("show", "answer")
@with_examples("show", "cue", "shown")
class Rows(ProgramTest):
    def assertExample(self, name):
        for each in tables(name):
            for row in each.rows if "show" in each.columns else ():
                for show in row.texts("show"):
                    with self.subTest(show[:80]):
                        if "cue" in each.columns:
                            self.assertShown(
                                above(name) + show, row.cells["cue"], row.words("shown")
                            )
                        else:
                            self.assertAnswer(above(name) + show, row.cells["answer"])

    def assertAnswer(self, show, answer):
        """The counts of the show, or its fault."""
        if answer.startswith("show"):
            self.assertFault(show, answer.removeprefix("show"))
        else:
            words = answer.split()
            self.assertChecks(show, **dict(zip(words[::2], words[1::2])))

    def assertShown(self, show, cue, shown):
        """What `slots` prints of a cue, and the packets that `look` prints of it."""
        if shown == ["show: NoCue"]:
            self.assertNoCue(show, cue)
        elif shown == [NO_PATCH.decode().strip()]:
            self.assertLooks(show, cue, {})
        else:
            universes = [int(line.split()[1]) for line in shown[::2]]
            self.assertLooks(show, cue, dict(zip(universes, map(slots_in, shown[1::2]))))

    def test_packet_of_look_one(self):
        """The packet that stands in the page is the one that other tests put together by its
        fields."""
        self.assertEqual(look_one(), packet(1, {1: 64}))
        show = table("look_one").rows[0].text("show")
        self.assertRuns(["look", "-", "1", "--cid", CID], show, out=text(look_one().hex()))
