"""Two nodes that `stp serve` runs, with three links over SCTP over IP between them, by relays in network namespaces,
while packets are lost and a relay is killed.

    python3 tests/interop/sctp_over_ip.py [MESSAGES LOSS KILLS]

By default 100,000 messages go each way, 5 % of the packets are lost, and the relay of one node is killed three times,
and started again after a second. Each message is to come once, its flow in order, no association may end and no flag
may be raised. It needs the built program, and what tests/test_sctp_over_ip.py needs.
"""

import pathlib
import sys
import time
import unittest

HERE = pathlib.Path(__file__).resolve().parent
sys.path[:0] = [str(HERE), str(HERE.parent)]

from lossy_network import read_what_came  # noqa: E402
from test_sctp_over_ip import OverIp, OverIpTest  # noqa: E402

# messages each way that may wait in a node, and that are submitted at once
POOL, BURST = 20_000, 250
# for how many seconds a relay is away at least. (If it is away for more than some four, an end may give up.)
AWAY = 1.0


class LongRun(OverIpTest):
    LIMIT = 3600

    def __init__(self, messages: str, loss: str, kills: str) -> None:
        super().__init__("play")
        self.messages, self.loss, self.kills = int(messages), float(loss), int(kills)

    def kill_relay(self, pair: OverIp) -> float:
        """Kills a relay, and starts it again after some messages. Returns for how many seconds it was away."""
        pair.near_relay.kill()
        began = time.monotonic()
        pair.submit(BURST)
        time.sleep(max(0.0, began + AWAY - time.monotonic()))
        pair.near_relay.start()
        return time.monotonic() - began

    def play(self) -> None:
        pair = OverIp(self, loss=self.loss, pool=POOL)
        bursts = self.messages // BURST
        killed_at = {bursts * number // (self.kills + 1) for number in range(1, self.kills + 1)}
        began, away = time.monotonic(), [0.0]
        for burst in range(bursts):
            if burst in killed_at:
                away.append(self.kill_relay(pair))
            else:
                pair.submit(BURST)
            read_what_came(pair.forth)
            read_what_came(pair.back)
        pair.settle()
        pair.await_service()
        took = time.monotonic() - began
        self.check_undisturbed(pair.near, pair.far)
        counts, seconds = pair.far_relay.counts(), pair.far_relay.program.processor_seconds()
        carried = counts["across to_node"] + counts["across to_peer"]
        passed, lost = pair.network.finish()
        print(f"{pair.forth.count()} messages there and {pair.back.count()} back, each once, its flow in order, "
              f"in {took:.0f} s; no association ended, no flag was raised")
        print(f"{passed} packets passed and {lost} were lost; the relay was killed {self.kills} times, and away for "
              f"{max(away):.1f} s at most; the other one heard of {counts['icmp']} ICMP errors, and carried {carried} "
              f"packets in {seconds:.1f} s of processor time")


if __name__ == "__main__":
    given = [*sys.argv[1:], *("100000", "0.05", "3")[len(sys.argv) - 1 :]]
    sys.exit(not unittest.TextTestRunner().run(LongRun(*given)).wasSuccessful())
