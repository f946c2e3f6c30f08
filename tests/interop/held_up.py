"""Attacks that would hold a node up, beside two good links with messages at a steady pace, for as long as is asked: how
late the latest message came, what the log and the memory grew by, and the longest round.

    python3 tests/interop/held_up.py [SECONDS [TEST..]]

Each attack of test_held_up.py lasts 60 seconds by default. On an idle machine, with the built program, no round may
take longer than 50 ms. It needs the built program (crates/stp/out/stp, or another one by the environment variable STP);
the case of another user's terminal needs root, too.
"""

import pathlib
import sys
import unittest

HERE = pathlib.Path(__file__).resolve().parent
sys.path[:0] = [str(HERE.parent)]

import steady  # noqa: E402
import test_held_up  # noqa: E402

# How long a round may take, in seconds.
LONGEST_TURN = 0.05


def main() -> bool:
    """Plays the attacks that the words name. Returns whether all went well."""
    seconds, *names = sys.argv[1:] or ["60"]
    test_held_up.SECONDS = float(seconds)
    steady.LONGEST_TURN = LONGEST_TURN
    cases = (test_held_up.HeldUp, test_held_up.FullTerminal, test_held_up.StandardFiles)
    for case in cases:
        case.LIMIT = 120 + 4 * int(float(seconds))
    chosen = names or [case.__name__ for case in cases]
    suite = unittest.defaultTestLoader.loadTestsFromNames(chosen, test_held_up)
    return unittest.TextTestRunner(stream=sys.stdout, verbosity=2).run(suite).wasSuccessful()


if __name__ == "__main__":
    sys.exit(not main())
