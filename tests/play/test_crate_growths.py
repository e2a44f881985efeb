"""Each growth of the crates' own tests refused in turn, until a run in which none is.

What is right where a growth is refused, the tests of the crates say: those that are listed here
pass each time. The others do not expect it: such a one passes, or fails as a test does.

The programs of the tests are those that `rt ci` has proved and built. Where a crate has none, as
in a fresh clone, its tests are left out; under GATE, which `.ci/run` sets, that is a failure.
"""

import functools
import re
import resource
import signal
import subprocess
import sys
from typing import NamedTuple

from crate_programs import built_programs, program_of
from growths import Growths
from program import TOP

sys.path.insert(0, str(TOP / "dev"))

from generators.calls import all_calls  # noqa: E402  (dev/ is on the path)


class Tested(NamedTuple):
    """Public calls that may grow, and the tests that pass whichever growth is refused."""

    calls: tuple
    tests: tuple


BUILDERS = (
    *("open_cue", "open_sub", "open_group", "set_patch"),
    *("cue_level", "sub_level", "group_level"),
    *("cue_levels", "sub_levels", "group_levels", "set_patches"),
)
EACH = ("each_growth_refused",)
TESTED = {
    "test_show::shows": Tested((*(f"Show::{name}" for name in BUILDERS), "Show::clone_in"), EACH),
    "test_show::line": Tested(("Pairs::append_to",), ("pairs_appended",)),
    "test_desk::fades": Tested(
        ("Fader::new",),
        ("each_growth_of_plain_refused", "each_growth_of_step_refused"),
    ),
    "test_desk::patches": Tested(("Rig::new",), EACH),
    "test_desk::playbacks": Tested(("Playback::new",), EACH),
    "test_stream::source": Tested(("Sender::open",), EACH),
    "test_stream::queue": Tested(("LineQueue::new",), EACH),
    "test_desk::desks": Tested(("Desk::open",), EACH),
    "test_desk::world": Tested(("rehearse",), EACH),
    "test_show::reader": Tested(
        ("read_show",), ("any_order", "lines_between", "skipped_lines")
    ),
    "test_desk::script": Tested(
        ("read_script",), ("first_malformed_line", "forms_at_their_limits", "strays")
    ),
    "test_program::runs": Tested(
        ("check", "look", "slots"),
        (
            *("each_device_fails", "look_one", "listening::each_device_of_listen_fails"),
            "listening::listen_three",
        ),
    ),
    "test_program::watching": Tested(("watch",), ("watch_desk",)),
    "test_program::explain": Tested(("explain", "push_display_text"), ("faults", "notes")),
    "test_program::cues": Tested(
        ("cues", "cues_json", "cue_numbers", "push_decimal", "push_number"), ("faults", "lists")
    ),
    "test_program::play": Tested(("play", "Console::open"), ("rows::each_growth_refused",)),
    "test_program::live": Tested(("Night::open",), ("rows::each_growth_refused",)),
    "test_program::rehearsing": Tested(
        ("rehearse_text", "rehearse_compactly"),
        ("devices_fail::each_device_fails", "rows::rehearse_basic"),
    ),
}
# Public calls whose growths are refused in the program alone, and the test of RefusedGrowths that
# refuses them.
IN_THE_PROGRAM = {
    "weigh": "test_live",
    "Name::new": "test_live",
    "first_bytes": "test_check",
    "open": "test_play",
    "read_words": "test_words",
    "read_or_explain": "test_words",
    "lock_path": "test_live",
    "check_fit": "test_targets",
    "name_on": "test_live",
    "process_in_list": "test_record_in_use",
    "check_show": "test_check",
    "look_at": "test_look",
    "show_slots": "test_slots",
    "explain_show": "test_explain",
    "list_cues": "test_cues",
    "rehearse_show": "test_rehearse",
    "watch_lines": "test_watch",
    "live_name": "test_live",
    "new_night": "test_live",
    "open_night": "test_live",
    "start_lines": "test_live",
    "night_start_lines": "test_live",
}
# Calls that take no memory once something is open: tests of them that ask for as much as one that
# only opens it.
OPENED = {
    "test_desk::desks": ("opens", ("goto_mid_fade", "goto_in_mid_fade", "submaster_and_grand")),
    "test_stream::receiver": (
        "every_law",
        ("four_sources", "source_loss", "stranger_termination"),
    ),
}
# Which take long.
LEFT_OUT = {
    "test_program::live": (
        *("devices_fail::each_look_at_the_clock_fails", "devices_fail::each_wait_fails"),
        *("again::night_goes_on_behind_each_line", "long::more_lines_than_play_takes"),
    ),
    "test_program::play": ("devices_fail::each_send_fails",),
}
# Whose tests make what they hand in by growths of their own: want of memory is then their answer.
HANDED_ON = {"test_program::watching"}
# How a test fails: by a failed assertion, or by an error that it answers.
ABORTED, ANSWERED = -signal.SIGABRT, 101
WANT_OF_MEMORY = re.compile(r"[Ee]rror: (AllocError|AllocFailed|Memory)\b")


def module_of(place):
    return "tests::" + place.partition("::")[2]


@functools.lru_cache(maxsize=None)
def tests_of(place):
    """The tests of a crate, by the program that has its module of them."""
    words = [program_of(place), "--list"]
    listed = subprocess.run(words, stdout=subprocess.PIPE, check=True, text=True).stdout
    names = [line.partition(": ")[0] for line in listed.splitlines()]
    module = module_of(place) + "::"
    return [name.removeprefix(module) for name in names if name.startswith(module)]


def source_of(place):
    """The text of a module of tests, with that of the modules inside it."""
    crate, _, module = place.partition("::")
    files = (TOP / "crates" / crate / "src/tests").rglob("*.rt")
    return "".join(file.read_text() for file in files if module in (file.stem, file.parent.name))


def tested_places():
    """The modules of tests, each after its crate of tests."""
    modules = (TOP / "crates").glob("test_*/src/tests/*.rt")
    return sorted(f"{file.parents[2].name}::{file.stem}" for file in modules)


class CrateGrowths(Growths):
    @classmethod
    def setUpClass(cls):
        """A failed assertion aborts, and would leave a core file."""
        super().setUpClass()
        limits = resource.getrlimit(resource.RLIMIT_CORE)
        cls.addClassCleanup(resource.setrlimit, resource.RLIMIT_CORE, limits)
        resource.setrlimit(resource.RLIMIT_CORE, (0, limits[1]))

    def run_without(self, place, test, growth):
        """How a test ends where the growth of this number is refused, and what it says."""
        done = subprocess.run(
            [program_of(place), f"{module_of(place)}::{test}"],
            stdin=subprocess.DEVNULL,
            capture_output=True,
            timeout=60,
            env=self.environment(growth),
        )
        return done.returncode, (done.stdout + done.stderr).decode(errors="replace")

    def assertEachRefused(self, place, test, may_fail=False):
        """It passes where no growth is refused, and where one is, or fails as a test does."""
        passed = self.run_without(place, test, 0)
        self.assertEqual(0, passed[0], passed[1])
        growths, _ = self.growths()
        for growth in range(1, growths + 1):
            with self.subTest(place=place, test=test, growth=growth):
                status, told = self.run_without(place, test, growth)
                failed = status == ABORTED or status == ANSWERED and WANT_OF_MEMORY.match(told)
                self.assertTrue(status == 0 or may_fail and failed, f"{status}: {told}")
        self.assertEqual(passed, self.run_without(place, test, growths + 1))
        self.assertEqual(growths, self.growths()[0])
        return growths

    def test_calls(self):
        """Each public call that can answer want of memory is listed, with tests that are there."""
        growing = [
            call.name() for calls in all_calls().values() for call in calls if call.may_grow()
        ]
        listed = [name for tested in TESTED.values() for name in tested.calls]
        self.assertEqual(sorted(growing), sorted([*listed, *IN_THE_PROGRAM]))
        for place, tested in TESTED.items():
            text = source_of(place)
            for test in tested.tests:
                with self.subTest(place, test=test):
                    self.assertIn(f"fn {test.rpartition('::')[2]}(rt: ", text)
        (module,) = (TOP / "tests").rglob("test_refused_growths.py")
        for test in IN_THE_PROGRAM.values():
            self.assertIn(f"    def {test}(self", module.read_text())

    def test_growths(self):
        """Each allocation of a call is refused in turn: the call answers that, and its test
        passes."""
        for place in built_programs(self, sorted(TESTED)):
            for test in TESTED[place].tests:
                with self.subTest(place=place, test=test):
                    self.assertIn(test, tests_of(place))
                    may_fail = place in HANDED_ON
                    self.assertGreater(self.assertEachRefused(place, test, may_fail), 0)

    def test_no_growth_once_open(self):
        """An open desk and a receiver ask for no memory, though it would be given: the growths are
        counted, and none is refused."""
        for place in built_programs(self, sorted(OPENED)):
            opened, tests = OPENED[place]
            counted = {}
            for test in (opened, *tests):
                status, told = self.run_without(place, test, 0)
                self.assertEqual(0, status, told)
                counted[test], _ = self.growths()
            self.assertEqual({counted[opened]}, set(counted.values()), counted)

    def test_other_tests(self):
        """Each allocation of all other tests of the crates is refused in turn: nothing falls, and
        nothing hangs."""
        for place in built_programs(self, tested_places()):
            named = TESTED[place].tests if place in TESTED else ()
            for test in sorted(set(tests_of(place)) - {*named, *LEFT_OUT.get(place, ())}):
                with self.subTest(place=place, test=test):
                    self.assertEachRefused(place, test, may_fail=True)
