"""One million messages to a point that no route leads to, by one link in a minute, beside two good links with messages
at a steady pace: how many lines the log has, whether its sums are right, and how late the latest message came.

    python3 tests/interop/refused_flood.py [COUNT [SECONDS]]

The messages come in turn in large pieces and in single ones, so one look at the notices finds many more than are kept,
or fewer. It needs the built program (crates/stp/out/stp, or another one by the environment variable STP).
"""

import pathlib
import sys
import unittest

HERE = pathlib.Path(__file__).resolve().parent
sys.path[:0] = [str(HERE.parent)]

import test_held_up  # noqa: E402


def main() -> bool:
    """Plays the flood. Returns whether all went well."""
    count, seconds = [*map(int, sys.argv[1:]), *(1_000_000, 60)[len(sys.argv) - 1:]]
    case = test_held_up.RefusedFlood
    case.COUNT, case.SECONDS, case.LIMIT = count, seconds, 120 + 4 * seconds
    suite = unittest.defaultTestLoader.loadTestsFromTestCase(case)
    return unittest.TextTestRunner(stream=sys.stdout, verbosity=2).run(suite).wasSuccessful()


if __name__ == "__main__":
    sys.exit(not main())
