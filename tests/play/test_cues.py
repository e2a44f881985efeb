"""`cues`: the cue list as a table and as JSON, held against a second reader of the pages."""

import json
import time

from expected import cue_list
from expected import show as shows
from program import CID, DEVICE_FAULT, TOP, ProgramTest, run, text
from worked import table, with_examples

HEAD = "     cue       up    delay     down    delay   follow  channels  label"


def cue_json(show):
    """The JSON of a show, read."""
    outcome = run("cues", "--json", "-", stdin=show)
    assert (outcome.status, outcome.err) == (0, b""), outcome
    return json.loads(outcome.out.decode("ascii"))


@with_examples("show", "label")
class Cues(ProgramTest):
    def assertLists(self, show):
        """Both forms say what the second reader makes of the show."""
        meant = shows.read(show)
        self.assertRuns(["cues", "-"], show, out=cue_list.table(meant).encode())
        self.assertEqual(cue_list.data(meant), cue_json(show))

    def test_a_show(self):
        """Rows by hand."""
        show = text(
            "PATCH 1 1<1@FL 2<513@50 1<512@H10", "CUE 2 ! night", "UP 1:30.25", "CHAN 1@FL 2@0",
            "CUE .25", "DOWN 2.5 .05", "FOLLOWON 0", 'TEXT "dawn, slowly"', "CUE 9999.999", "CHAN",
            "UP 5999.99 5999.99", "DOWN 0 1", "FOLLOWON 99:59.99", "SUB 100 ! haze", "CHAN 4096@1",
            "GROUP 500", "TEXT all", "CHAN 1@FL 1@0",
        )  # fmt: skip
        table = text(
            HEAD,
            "    0.25      2.5     0.05      2.5     0.05        0         0  dawn, slowly",
            "       2    90.25        0    90.25        0        -         2  night",
            "9999.999  5999.99  5999.99        0        1  5999.99         0",
            "",
            "submaster  channels  label",
            "      100         1  haze",
            "",
            "    group  channels  label",
            "      500         1  all",
            "",
            " universe   dimmers",
            "        1         2",
            "        2         1",
        )
        self.assertRuns(["cues", "-"], show, out=table)
        data = cue_json(show)
        dawn = {
            "number": "0.25", "label": "dawn, slowly", "up": 2.5, "up_delay": 0.05, "down": 2.5,
            "down_delay": 0.05, "follow": 0, "channels": 0,
        }  # fmt: skip
        self.assertEqual(dawn, data["cues"][0])
        self.assertEqual(["0.25", "2", "9999.999"], [cue["number"] for cue in data["cues"]])
        self.assertEqual(None, data["cues"][1]["follow"])
        self.assertEqual([{"number": 100, "label": "haze", "channels": 1}], data["submasters"])
        self.assertEqual([{"number": 500, "label": "all", "channels": 1}], data["groups"])
        universes = [{"universe": 1, "dimmers": 2}, {"universe": 2, "dimmers": 1}]
        self.assertEqual(universes, data["universes"])
        patch = [(1, 1, 255), (512, 1, 16), (513, 2, 128)]
        members = ("dimmer", "channel", "level")
        self.assertEqual([dict(zip(members, row)) for row in patch], data["patch"])

    def test_no_show(self):
        """An empty file has a head alone, and its JSON is written out."""
        self.assertRuns(["cues", "-"], b"", out=text(HEAD))
        members = ("cues", "submasters", "groups", "universes", "patch")
        empty = "{" + ",\n".join(f'"{member}":[]' for member in members) + "}\n"
        self.assertRuns(["cues", "--json", "-"], b"", out=empty.encode())

    def test_json_text(self):
        """Byte for byte, once."""
        out = (
            '{"cues":[\n{"number":"1","label":"a \\"b\\\\","up":0,"up_delay":0,"down":0,'
            '"down_delay":0,"follow":1.5,"channels":1},\n{"number":"2","label":"","up":0,'
            '"up_delay":0,"down":0,"down_delay":0,"follow":null,"channels":0}],\n"submasters":[\n'
            '{"number":1,"label":"","channels":0}],\n"groups":[],\n"universes":[\n'
            '{"universe":1,"dimmers":1}],\n"patch":[\n{"dimmer":1,"channel":1,"level":255}]}\n'
        )
        lines = ("PATCH 1 1<1@FL", 'CUE 1 ! a "b\\', "FOLLOWON 1.5", "CHAN 1@FL", "CUE 2", "SUB 1")
        self.assertRuns(["cues", "--json", "-"], text(*lines), out=out.encode())

    def assertExample(self, name):
        for row in table(name).rows:
            label = row.cells["label"]
            for show in row.texts("show"):
                with self.subTest(show):
                    self.assertEqual([label], [cue["label"] for cue in cue_json(show)["cues"][:1]])
                    self.assertLists(show)

    def test_labels_of_any_bytes(self):
        """They are whole in JSON, each byte a character."""
        for label in ("\xe9\xff\x00\x7f\t.", "x" * 9000):
            show = text("CUE 1 ! " + label)
            self.assertEqual(label, cue_json(show)["cues"][0]["label"])
            self.assertLists(show)

    def test_label_in_the_table(self):
        """At most 80 bytes, and each that is no printable ASCII as `?`, a tab as a space."""
        show = text("CUE 1 ! \xc3\xa9\ta\x00\x1b[1m", "CUE 2 ! " + "y" * 81)
        row = "        0        0        0        0        -         0  "
        out = text(HEAD, "       1" + row + "?? a??[1m", "       2" + row + "y" * 80)
        self.assertRuns(["cues", "-"], show, out=out)

    def test_examples(self):
        """Those of the pages, with all of their cues in `check`'s count."""
        for file in sorted((TOP / "examples").glob("*.asc")):
            with self.subTest(file.name):
                show = file.read_bytes()
                self.assertLists(show)
                counted = run("check", file).out.split()
                counts = dict(zip(counted[::2], map(int, counted[1::2])))
                data = cue_json(show)
                for name, member in ("cues", "cues"), ("subs", "submasters"), ("groups", "groups"):
                    self.assertEqual(counts[b"%b" % name.encode()], len(data[member]))
                self.assertEqual(counts[b"dimmers"], len(data["patch"]))

    def test_large(self):
        """2,000 cues, each with a comment and a TEXT line, in any order, within a second."""
        order = [(n * 7919) % 2000 + 1 for n in range(2000)]
        lines = [f"PATCH 1 {n % 4096 + 1}<{n + 1}@FL" for n in range(8192)]
        for n in order:
            lines += [f"CUE {n} ! comment {n}", f"TEXT cue {n}", "UP 2.5", f"CHAN {n}@FL"]
        show = text(*lines)
        started = time.monotonic()
        data = cue_json(show)
        self.assertLess(time.monotonic() - started, 1)
        self.assertEqual(
            [f"cue {n}" for n in range(1, 2001)], [cue["label"] for cue in data["cues"]]
        )
        self.assertLists(show)

    def test_faults(self):
        """A show with a fault is refused as by `check`."""
        for show, fault in (
            (b"CUE x\n", b"show line 1: BadNumber\n"),
            (b"CUE 1 ! one\nTEXT two\nUP\n", b"show line 3: MissingNumber\n"),
            (b"!" * 1048577, b"show: TooLong\n"),
        ):
            for words in (["cues", "-"], ["cues", "-", "--json"]):
                self.assertRuns(words, show, status=3, err=fault)

    def test_devices(self):
        self.assertRuns(["cues", "/no/such/file"], b"", status=5, err=DEVICE_FAULT)
        self.assertFullDisk(["cues", "-"], b"CUE 1\n")
        self.assertFullDisk(["cues", "--json", "-"], b"CUE 1\n")

    def test_words(self):
        for words, telling in (
            ([], b"<SHOW>"),
            (["-", "1"], b"'1'"),
            (["-", "--cid", CID], b"'--cid'"),
            (["-", "--json", "--json"], b"'--json'"),
        ):
            with self.subTest(words):
                outcome = run("cues", *words, stdin=b"CUE 1\n")
                self.assertEqual((2, b""), (outcome.status, outcome.out))
                self.assertIn(b"error: ", outcome.err)
                self.assertIn(telling, outcome.err)
        outcome = run("cues", "--help")
        self.assertEqual((0, b""), (outcome.status, outcome.err))
        for part in (
            b"Usage: cueplayer cues",
            b"<SHOW>",
            b"--json",
            b"Example: cueplayer cues night",
        ):
            self.assertIn(part, outcome.out)
