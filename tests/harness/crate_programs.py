"""The test programs of the crates, as `rt ci` builds them."""

import os

from program import TOP


def program_of(place):
    crate = place.partition("::")[0]
    return TOP / f"crates/{crate}/out/{crate}_tests"


def built_programs(test, places):
    """Those of the modules whose test program is there; where none is, the test is skipped."""
    built = [place for place in places if program_of(place).is_file()]
    if "GATE" in os.environ:
        test.assertEqual(list(places), built)
    elif not built:
        test.skipTest("no test program of a crate was built")
    return built
