"""Two nodes that `stp serve` runs, with links over SCTP over IP between them, by relays in network namespaces with two
paths between them, of which the first is cut again and again.

    python3 tests/interop/two_paths.py [CUTS SECONDS RATE]

By default the first path is cut five times for 30 seconds, by turns silently and with its interface, while 100 messages
a second go each way. Between the cuts the second path is cut for some seconds, so that the traffic is on the first one
again. Each message is to come once, its flow in order, no association may end and no flag may be raised. The script
prints the longest gap between two messages that came. It needs the built program, and what tests/test_sctp_over_ip.py
needs.
"""

import pathlib
import select
import sys
import time
import unittest

HERE = pathlib.Path(__file__).resolve().parent
sys.path[:0] = [str(HERE), str(HERE.parent)]

from namespaces import interface  # noqa: E402
from test_sctp_over_ip import OverIp, OverIpTest  # noqa: E402

FIRST, SECOND = 0, 1
POOL = 20_000
# for how many seconds messages go before, between and behind cuts, and the second path is cut
QUIET, BACK = 5.0, 3.0
# how many times as many packets as by the second path go by the first one if the traffic is there
MOSTLY = 10


class Gaps:
    """What comes to the user of a node, and the longest time in which nothing did."""

    def __init__(self, flowing) -> None:
        self.flowing, self.came_at, self.longest = flowing, time.monotonic(), 0.0

    def read(self) -> None:
        """Reads what came."""
        user = self.flowing.user
        while user.lines or select.select([user.socket], [], [], 0)[0]:
            self.flowing._note(user.read_line())
            now = time.monotonic()
            self.longest, self.came_at = max(self.longest, now - self.came_at), now

    def take(self) -> float:
        """The longest gap since this was asked for last; one that hasn't ended counts as far as it is."""
        longest, self.longest = max(self.longest, time.monotonic() - self.came_at), 0.0
        return longest


class Play(OverIpTest):
    LIMIT = 3600

    def __init__(self, cuts: str, seconds: str, rate: str) -> None:
        super().__init__("play")
        self.cuts, self.seconds, self.pause = int(cuts), float(seconds), 1 / float(rate)

    def flow(self, seconds: float) -> None:
        """Messages go both ways for so long, one each way at a time."""
        end = time.monotonic() + seconds
        while (now := time.monotonic()) < end:
            self.pair.submit(1)
            while True:
                for gaps in self.gaps:
                    gaps.read()
                left = now + self.pause - time.monotonic()
                if left <= 0 or not select.select([gaps.flowing.user.socket for gaps in self.gaps], [], [], left)[0]:
                    break

    def longest(self) -> list[float]:
        return [gaps.take() for gaps in self.gaps]

    def cut_once(self, number: int) -> list[float]:
        """Cuts the first path, while the traffic is on it. Returns the longest gap each way."""
        is_silent = number % 2 == 0
        while not self.is_on_first():
            self.set_path(SECOND, False, True)
            self.flow(BACK)
            self.set_path(SECOND, True, True)
        self.longest()
        self.set_path(FIRST, False, is_silent)
        self.flow(self.seconds)
        self.set_path(FIRST, True, is_silent)
        self.flow(QUIET)
        return self.longest()

    def is_on_first(self) -> bool:
        """Whether what goes out at the near end for some seconds takes the first path, nearly all of it."""
        near, paths = self.pair.network.near, (FIRST, SECOND)
        before = [near.packets_out(path) for path in paths]
        self.flow(QUIET)
        first, second = (near.packets_out(path) - was for path, was in zip(paths, before))
        return first > MOSTLY * second

    def set_path(self, path: int, is_whole: bool, is_silent: bool) -> None:
        network = self.pair.network
        if not is_silent:
            network.near.run("ip", "link", "set", interface(path), "up" if is_whole else "down")
        elif is_whole:
            network.mend(path)
        else:
            network.cut(path)

    def play(self) -> None:
        self.pair = pair = OverIp(self, paths=2, pool=POOL)
        self.gaps = [Gaps(pair.forth), Gaps(pair.back)]
        began, longest = time.monotonic(), 0.0
        for number in range(self.cuts):
            there, back = self.cut_once(number)
            longest = max(longest, there, back)
            how = "silently" if number % 2 == 0 else "with its interface"
            print(f"cut {number + 1}, {how}, for {self.seconds:.0f} s: the longest gap is {there:.2f} s there, "
                  f"{back:.2f} s back", flush=True)
        pair.settle()
        pair.await_service()
        self.check_undisturbed(pair.near, pair.far)
        moves = [relay.counts()["across moves"] for relay in (pair.near_relay, pair.far_relay)]
        print(f"{pair.forth.count()} messages there and {pair.back.count()} back, each once, its flow in order, in "
              f"{time.monotonic() - began:.0f} s; no association ended, no flag was raised")
        print(f"the longest gap is {longest:.2f} s; the relays had {moves[0]} and {moves[1]} moves of a link")


if __name__ == "__main__":
    given = [*sys.argv[1:], *("5", "30", "100")[len(sys.argv) - 1 :]]
    sys.exit(not unittest.TextTestRunner().run(Play(*given)).wasSuccessful())
