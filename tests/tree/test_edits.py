"""The edits that the prover must refuse, and `dev/edits`, which tries them: what it takes for an
edit's function, and for a refusal. The prover itself has no part here."""

import sys
import unittest
from pathlib import Path

from program import TOP

sys.path.insert(0, str(TOP / "dev"))

from generators.wrong_programs import wrong_programs  # noqa: E402  (dev/ is on the path)
from wrong_bodies import ledger  # noqa: E402
from wrong_bodies.crate_trials import batches, is_proved  # noqa: E402
from wrong_bodies.edit import Body, Edit, changes, edit_files, name_of, read_edit  # noqa: E402
from wrong_bodies.edit import wrong_body  # noqa: E402
from wrong_bodies.functions import Function, functions, without_bodies  # noqa: E402
from wrong_bodies.verdict import Kind, judge  # noqa: E402

# How many edits there are. Who takes one away or adds one changes this number with it.
NUMBER = 927
# The wrong bodies of the specification.
SPECIFIED = """
accepts_bad_count adds_submasters always_device always_memory compares_plain_bytes
discarded_refreshes discards_twenty_behind drifting_fader drops_vector_rest falls_in_up_time
forgets_terminated never_sends number_rises_on_success refusal_moves_time
refuses_short_or_trailing shows_last_source shows_meaning_not_packets silent_priority_wins
skips_every_event starts_from_old_target stops_or_repeats_on_loss suppresses_at_once_or_never
tracks_levels waits_for_input_end
""".split()


class Edits(unittest.TestCase):
    def test_each_applies(self) -> None:
        for file in edit_files():
            with self.subTest(name_of(file)):
                self.assertEqual("", read_edit(file).fault)
                self.assertTrue(all(change.old != change.new for change in changes(file)))

    def test_each_turns_code(self) -> None:
        for file in edit_files():
            with self.subTest(name_of(file)):
                self.assertTrue(all(change.file.startswith("src/") for change in changes(file)))

    def test_no_name_stands_twice(self) -> None:
        names = [name_of(file) for file in edit_files()]
        self.assertEqual(len(names), len(set(names)))

    def test_number(self) -> None:
        self.assertEqual(NUMBER, len(edit_files()))

    def test_ledger_names_what_is_there(self) -> None:
        """`dev/edits` compares the keys, and tries what it does not name."""
        self.assertLessEqual({*ledger.read()}, {name_of(file) for file in edit_files()})

    def test_wrong_bodies_of_the_specification(self) -> None:
        """Each is tried in every run, and must-fail/ has nothing else."""
        in_every_run = [file for file in edit_files() if file.parent.name == "must-fail"]
        found = {wrong_body(file) for file in in_every_run}
        found |= {program.wrong_body for program in wrong_programs() if program.wrong_body}
        self.assertEqual(SPECIFIED, sorted(found))


SOURCE = """
// fn in_a_comment() { }
pub fn first(text: &str) -> bool
    requires { text ≡ [] }
    ensures value { result ≡ true }
{
    text == "{" || text.contains('}')
}

impl<'a> Iterator for Lines<'a> {
    type Item = Line;
    ghost view = { λ a. a };
    fn next(&mut self) -> Option<Line>
        ensures { let s = self in s ≡ s }
    {
        self.text.iter().find(|byte| { **byte == 0 })
    }
}

impl From<Fault> for Failure {
    fn from(fault: Fault) -> Failure {
        Failure
    }
}

trait Feed {
    fn read(&mut self) -> usize;
    fn rest(&self) -> usize { 0 }
}

mod inner {
    pub fn last() {}
}
"""


class Functions(unittest.TestCase):
    def found(self) -> dict[str, str]:
        """The body of each function, by its name."""
        found = functions("lines", "src/text.rt", SOURCE)
        return {each.pattern: SOURCE[each.start : each.end] for each in found}

    def test_names(self) -> None:
        """As the prover has them: an impl's type and trait are one word."""
        names = [
            "lines::text::first",
            "lines::text::LinesIterator::next",
            r"lines::text::FailureFromFault[+\w]*::from",
            "lines::text::Feed::rest",
            "lines::text::inner::last",
        ]
        self.assertEqual(names, list(self.found()))

    def test_bodies(self) -> None:
        """Braces of clauses, texts and comments are no body's."""
        found = self.found()
        self.assertIn("text.contains('}')", found["lines::text::first"])
        self.assertTrue(found["lines::text::LinesIterator::next"].endswith("})\n    }"))
        self.assertEqual("{}", found["lines::text::inner::last"])

    def test_impl_with_arguments(self) -> None:
        """It is asked for by its module."""
        asked = {each.pattern: each.asked for each in functions("lines", "src/text.rt", SOURCE)}
        self.assertEqual("lines::text", asked[r"lines::text::FailureFromFault[+\w]*::from"])
        self.assertEqual("lines::text::first", asked["lines::text::first"])

    def test_contracts_without_bodies(self) -> None:
        """What a crate above rests on: another clause counts, another body does not."""
        rest = without_bodies("lines", "src/text.rt", SOURCE)
        other_body = SOURCE.replace('text == "{"', 'text == "}"')
        self.assertEqual(rest, without_bodies("lines", "src/text.rt", other_body))
        other_clause = SOURCE.replace("result ≡ true", "result ≡ false")
        self.assertNotEqual(rest, without_bodies("lines", "src/text.rt", other_clause))

    def test_comments_count_for_nothing(self) -> None:
        text = "use a;\n\n// Why.\n    fn f() {}\n"
        self.assertEqual("use a;\nfn f() {}", ledger.without_comments("src/lib.rt", text))
        self.assertEqual("f = 1", ledger.without_comments("specs/F.antt", "-- Why.\nf = 1\n"))


def edit_of(*names: str) -> Edit:
    """An edit of the bodies of these functions."""
    bodies = tuple(Body(Function(0, 0, name, name), "") for name in names)
    return Edit(Path("crates/lines/more-edits/x.edit"), (), bodies)


# What the prover says, shortened.
OPEN = """\
fn lines::text::first: no proof: expected answers in ./proofs/text/first/Answers.antt; \
`search` did not prove `returns-clause-value`
fn lines::text::second: proved
only=2 proved=1
"""
NOTED = """\
fn lines::text::second: proved
note: src/text.rt:6:1: it is not proved that what the function ensures holds when it returns \
(`returns-clause-value`); `search` gave up at one of its limits
fn lines::text::first: not proved
only=2 proved=1
"""
ANSWER = """\
./proofs/text/first/Answers.antt:6:13: error: `returns`: `search`: no proof of `a ≡ b`
fn lines::text::first: not proved
only=1 proved=0
"""
NAME = """\
./proofs/text/first/Answers.antt:6:45: error: `returns`: `goal.returns`: module `Goals` has no \
`returns` that can be named from here
note: src/text.rt:6:1: it is not proved that it holds (`returns-else`); `search` gave up
fn lines::text::first: not proved
only=1 proved=0
"""
CALLER = """\
fn lines::text::second: no proof: `search` did not prove `returns`
fn lines::text::first: no proof: it calls lines::text::second, which is not proved
only=2 proved=0
"""
IMPL = """\
fn lines::text::first: proved
impl lines::text::LinesIterator: not proved
logic=not-proved functions=2
"""
UNREAD = "src/text.rt:3:5: error: expected `;`\nerror: the crate was not read\n"


class Verdicts(unittest.TestCase):
    def assertJudged(self, kind: Kind, said: str, why: str = "", name: str = "first") -> None:
        verdict = judge(edit_of(f"lines::text::{name}"), said)
        self.assertEqual(kind, verdict.kind, verdict)
        self.assertIn(why, verdict.why)

    def test_refused(self) -> None:
        """By a goal, or by an answer that fits no more."""
        self.assertJudged(Kind.REFUSED, OPEN, "lines::text::first returns-clause-value")
        self.assertJudged(Kind.REFUSED, NOTED, "lines::text::first returns-clause-value")
        self.assertJudged(Kind.REFUSED, ANSWER, "lines::text::first returns")

    def test_proved(self) -> None:
        self.assertJudged(Kind.PROVED, OPEN, name="second")
        self.assertJudged(Kind.PROVED, IMPL, "refused elsewhere: impl lines::text::Lines")

    def test_only_a_name(self) -> None:
        """Goals that are open beside it have lost their answers, and show nothing."""
        self.assertJudged(Kind.ONLY_A_NAME, NAME, "has no `returns`")

    def test_other_functions_count_for_nothing(self) -> None:
        """A callee that is not proved, or a function whose name begins alike."""
        self.assertJudged(Kind.UNCLEAR, CALLER)
        self.assertJudged(Kind.UNCLEAR, OPEN, "names no function", name="firs")

    def test_closures_are_their_function(self) -> None:
        closure = OPEN.replace("text::first", "fn::text::first::find")
        self.assertJudged(Kind.REFUSED, closure, "returns-clause-value")

    def test_without_a_verdict(self) -> None:
        self.assertJudged(Kind.UNFIT, UNREAD, "src/text.rt:3:5")
        self.assertJudged(Kind.UNCLEAR, f"{OPEN}no verdict: status -9\n")

    def test_crate_without_edits(self) -> None:
        """Nothing is tried of a crate that is not proved as it stands."""
        for last in ("only=2 proved=2", "logic=proved functions=34 native=nat"):
            self.assertTrue(is_proved(f"fn a::b: proved\n{last}\n"))
        for last in ("only=2 proved=1", "logic=not-proved functions=2", "no verdict: status -9"):
            self.assertFalse(is_proved(f"fn a::b: proved\n{last}\n"))


class Batches(unittest.TestCase):
    def test_each_function_once(self) -> None:
        one, same, other = edit_of("a::f"), edit_of("a::f", "a::g"), edit_of("a::h")
        self.assertEqual([[one, other], [same]], batches([one, same, other]))

    def test_what_is_no_body(self) -> None:
        self.assertEqual([], batches([edit_of()]))


if __name__ == "__main__":
    unittest.main()
