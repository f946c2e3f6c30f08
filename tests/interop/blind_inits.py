"""Two nodes that `stp serve` runs, with a link over SCTP between them, while a stranger sends INITs with random tags to
one of them as if from the other one: how long until the association is up, with and without.

    python3 tests/interop/blind_inits.py [OPENINGS [RATE..]]

Each packet is under way for 15 ms. Both ends send INIT, or that alone which gets the stranger's, or the other one. In
each case the link is taken out of service and put back so many times (10 by default) without INITs, and with each of the
rates (50, 1,000 and 20,000 a second by default). Each opening may take three seconds longer than the longest without.
It needs the built program (crates/stp/out/stp, or another one by the environment variable STP), and no privilege.
"""

import pathlib
import statistics
import sys
import unittest

HERE = pathlib.Path(__file__).resolve().parent
sys.path[:0] = [str(HERE), str(HERE.parent)]

import harness  # noqa: E402
from test_blind_inits import LATER, BlindPair  # noqa: E402

CASES = [("both ends try", True, True), ("the end that gets them tries", True, False),
         ("the other end tries", False, True)]
OPENINGS, RATES = 10, (50, 1000, 20_000)


class Play(harness.NodeTest):
    LIMIT = 3600

    def __init__(self, openings: int, rates: tuple[int, ...]) -> None:
        super().__init__("play")
        self.openings, self.rates, self.late = openings, rates, 0

    def measure(self, pair: BlindPair, what: str) -> float:
        """Opens the association so many times. Returns the longest time that it took."""
        times = [self.seconds(pair) for _ in range(self.openings)]
        print(f"    {what}: {statistics.median(times):.2f} s, at most {max(times):.2f} s", flush=True)
        return max(times)

    @staticmethod
    def seconds(pair: BlindPair) -> float:
        try:
            return pair.seconds_to_open()
        except AssertionError:
            return float("inf")

    def play(self) -> None:
        for case, near_tries, far_tries in CASES:
            print(f"{case}:")
            pair = BlindPair(self, near_tries, far_tries)
            without = self.measure(pair, "without")
            for rate in self.rates:
                pair.await_service()
                pair.flood(rate)
                longest = self.measure(pair, f"{rate} a second")
                self.late += longest > without + LATER
                print(f"        {pair.calm()}; {dict(pair.near.datagrams())}")
            pair.close()
            for node in pair.nodes():
                node.kill()
        self.assertEqual(self.late, 0, "cases with an opening that was late")


if __name__ == "__main__":
    given = [int(word) for word in sys.argv[1:]]
    play = Play(given[0] if given else OPENINGS, tuple(given[1:]) or RATES)
    sys.exit(not unittest.TextTestRunner().run(play).wasSuccessful())
