"""The worked examples of tests/examples/, of which docs/EXAMPLES.md shows some: their runs, by
their names."""

import re
import sys
from typing import NamedTuple

from program import CID, TOP, packet, slots_in, text
from wire import TERMINATED

sys.path.insert(0, str(TOP / "dev"))

from generators.example_files import FOLDER, bytes_of, example, names  # noqa: E402

NAMES = names()
HEADER = (f"console 1 100 {CID}", "receiver 1")
S1 = (FOLDER / "S1.asc").read_bytes()


def tables(name):
    """The tables of an example, in their order."""
    return example(name).tables


def table(name):
    """The table of an example that has one."""
    (one,) = tables(name)
    return one


def above(name):
    """The lines that stand above each text of the example."""
    return bytes_of(example(name).above)


class Play(NamedTuple):
    """A run of `play`: what goes in and what comes out, and the packets that are sent."""

    show: bytes
    options: list
    stdin: bytes
    out: bytes
    packets: list
    status: int = 0
    err: bytes = b""


def packets_of(printed, slots):
    """The packets that a printed line says were sent, with these slots lines."""
    options = TERMINATED if " ending " in printed else 0
    items = re.findall(r"(\d+):s(\d+)", printed)
    lines = slots * len(items) if len(slots) == 1 else slots
    assert len(lines) == len(items), printed
    return [packet(int(u), slots_in(line), int(k), options) for (u, k), line in zip(items, lines)]


def runs_in(table, show):
    """The runs of a table of plays: more than one where its last line is more than one text."""
    status, err, rows = 0, b"", table.rows
    told = rows[-1].cells["printed"]
    if isinstance(told, dict):
        status, err, rows = told["status"], text(told["stderr"]), rows[:-1]
    out, packets = [], []
    for row in rows:
        printed = row.words("printed")
        out += printed
        packets += packets_of(*printed, row.words("slots")) if printed else []
    *before, last = (row.texts("line") for row in table.rows)
    for line in last:
        stdin = b"".join(each[0] for each in before) + line
        yield Play(show, table.options, stdin, text(*out), packets, status, err)


def plays(name):
    """The runs of an example."""
    found = [each for each in tables(name) if each.columns == ("line", "printed", "slots")]
    return [play for each in found for play in runs_in(each, example(name).show())]


class Rehearsal(NamedTuple):
    """A run of `rehearse`: what goes in, and what comes out."""

    show: bytes
    script: bytes
    out: bytes = b""
    status: int = 0
    err: bytes = b""


def rehearsals(name):
    """The runs of an example, those that are refused too."""
    show = example(name).show()
    for table in tables(name):
        if table.columns == ("line", "reply"):
            yield rehearsal_of(show, steps(table.rows, "line"))
        elif table.columns == ("script", "answer"):
            for row in table.rows:
                for script in row.texts("script"):
                    err = text(row.cells["answer"])
                    yield Rehearsal(show, above(name) + script, status=4, err=err)


def steps(rows, column):
    """The line of each row, in bytes, and its reply; either may be empty."""
    return [(row.text(column), row.cells["reply"]) for row in rows]


def rehearsal_of(show, steps):
    """The run of lines and their replies, below the usual header where they have no console."""
    lines = [line for line, _ in steps]
    has_console = any(line.lower().startswith(b"console") for line in lines)
    header = [] if has_console else [text(line) for line in HEADER]
    out = []
    for number, (line, reply) in enumerate(steps, len(header) + 1):
        if reply:
            out.append(f"{number} {reply}" if line else reply)
    return Rehearsal(show, b"".join(header + lines), text(*out))


def keep_alive():
    """The run of `keep_alive`: ticks 25 ms apart, of which those that it lists send a packet."""
    rows = table("keep_alive").rows
    printed = {row.cells["tick"]: row.words("printed")[0] for row in rows}
    ticks = [f"{moment} tick" for moment in range(0, int(list(printed)[-1].split()[0]) + 1, 25)]
    out = [printed.get(tick, tick.replace("tick", "live 1:-")) for tick in ticks]
    return Play(S1, [], text(*ticks), text(*out), [packet(1, {}, k) for k in range(len(rows))])


# The show of `look_one`.
LOOK_ONE = table("look_one").rows[0].text("show")


def look_one():
    """The packet of `look_one`, which stands below its table byte by byte."""
    block = re.search(r"(?s)```\n(.*?)```", example("look_one").file("after.md"))[1]
    return bytes.fromhex(re.sub(r"00\*(\d+)", lambda zeros: "00" * int(zeros[1]), block))


def datagram_in(found):
    """The datagram of a cell; empty where it has none."""
    if not isinstance(found, dict):
        return bytes_of(found or [])
    sent = bytearray(look_one())
    for offset, byte in found.get("with", {}).items():
        sent[int(offset)] = int(byte, 16)
    return bytes(sent[: found.get("cut")]) + bytes_of(found.get("behind", []))


def listen_example(name):
    """The datagrams of an example, and what `listen` prints of them."""
    *rows, last = table(name).rows
    lines = [f"{number} {row.cells['reply']}" for number, row in enumerate(rows, 1)]
    datagrams = [datagram_in(row.cells["datagram"]) for row in rows]
    return datagrams, text(*lines, last.cells["reply"])


def watch_example(name):
    """The lines of an example, and what `watch` prints of them."""
    lines, printed = [], []
    for row in table(name).rows:
        moment = row.cells["moment"]
        lines.append(f"{moment} {datagram_in(row.cells['datagram']).hex()}")
        printed += [f"{moment} {each}" for each in row.words("printed")]
    return text(*lines), text(*printed)


def replies_by_number(name, column):
    """Each number that an example's rows name, alone or as `FIRST to LAST`, with the reply of its
    row."""
    found = {}
    for row in table(name).rows:
        for part in row.cells[column].split(", "):
            first, _, last = part.partition(" to ")
            found |= dict.fromkeys(range(int(first), int(last or first) + 1), row.cells["reply"])
    return found


def with_examples(*columns):
    """A test of its name for each example that has a table with these columns: `assertExample`
    runs it."""

    def with_tests(test_class):
        for name in NAMES:
            if any(each.columns == columns for each in tables(name)):
                # A name is bound at each turn, since the test is run later.
                run = lambda self, name=name: self.assertExample(name)  # noqa: E731
                words = name.replace("_", " ")
                run.__doc__ = example(name).file("text.md") or f"The worked example {words}."
                setattr(test_class, f"test_{name}", run)
        return test_class

    return with_tests
