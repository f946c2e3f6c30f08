"""A stranger sends INITs with random tags to an end of a link over SCTP, as if from its peer: the link opens all the
same."""

from __future__ import annotations

import subprocess
import sys
import time
from pathlib import Path

from harness import Node, NodeTest, SctpLink, free_port, started, wait_until
from traffic import FAR, NEAR, Flowing

NEAR_PORT, FAR_PORT = 3565, 4565
LINK = "e0"
MESSAGES = 100
# How long a packet is under way, one way.
DELAY_MS = 15
# By how many seconds INITs may delay the opening of the link.
LATER = 3.0
# INITs a second; higher rates are tried by hand (interop/blind_inits.py).
RATES = (50,)
# In ticks of 50 ms: a changeover ends soon, as there is no other link. It has ended after so many seconds.
SOON, ENDED = {"t1": 4, "t2": 6}, 1.0


class BlindPair:
    """Two nodes with a link, and the network between them. INITs go to the near one."""

    def __init__(self, test: NodeTest, near_tries: bool, far_tries: bool) -> None:
        near_udp, far_udp, near_remote, far_remote = (free_port() for _ in range(4))
        words = [Path(__file__).with_name("blind.py"), near_remote, far_remote, near_udp, far_udp, DELAY_MS]
        pipes = {"stdin": subprocess.PIPE, "stdout": subprocess.PIPE}
        self.network = subprocess.Popen([sys.executable, *map(str, words)], text=True, **pipes)
        started.append(self.network)
        test.addCleanup(self.close)
        assert self.network.stdout.readline() == "ready\n"
        near = SctpLink(LINK, FAR, 0, near_remote, NEAR_PORT, FAR_PORT, near_tries)
        far = SctpLink(LINK, NEAR, 0, far_remote, FAR_PORT, NEAR_PORT, far_tries)
        self.near, self.far = test.node(NEAR, [near], udp=near_udp, **SOON), test.node(FAR, [far], udp=far_udp, **SOON)
        for node in self.nodes():
            node.start()
        self.await_service()

    def nodes(self) -> tuple[Node, Node]:
        return self.near, self.far

    def await_service(self) -> None:
        wait_until(lambda: all(node.is_at_rest() for node in (*self.nodes(), self.near)), "the link is in service")

    def flood(self, rate: int) -> None:
        """From now on INITs go to the near node, so many a second."""
        self.write(f"inits {rate} {FAR_PORT} {NEAR_PORT}")
        assert self.network.stdout.readline() == "begun\n"

    def calm(self) -> str:
        """No INITs go any more. Returns how many these were."""
        self.write("rest")
        return self.network.stdout.readline().strip()

    def write(self, line: str) -> None:
        self.network.stdin.write(f"{line}\n")
        self.network.stdin.flush()

    def seconds_to_open(self) -> float:
        """Takes the link out of service at both ends, and puts it back. Returns how long it then takes until the
        association is up at both."""
        for node in self.nodes():
            node.ask(f"deactivate {LINK}")
        time.sleep(ENDED)
        counts = [node.logged(f"open {LINK}") for node in self.nodes()]
        began = time.monotonic()
        for node in self.nodes():
            node.ask(f"activate {LINK}")
        for node, count in zip(self.nodes(), counts):
            node.await_log(f"open {LINK}", count + 1)
        return time.monotonic() - began

    def close(self) -> None:
        self.network.stdin.close()
        self.network.stdout.close()
        try:
            self.network.wait(2)
        except subprocess.TimeoutExpired:
            self.network.kill()
            self.network.wait()


class BlindInits(NodeTest):
    def test_both_ends_try(self) -> None:
        self.check(near_tries=True, far_tries=True)

    def test_the_end_that_gets_them_tries(self) -> None:
        self.check(near_tries=True, far_tries=False)

    def test_the_other_end_tries(self) -> None:
        self.check(near_tries=False, far_tries=True)

    def check(self, near_tries: bool, far_tries: bool) -> None:
        """The link opens little later than without INITs, and carries messages while they come."""
        pair = BlindPair(self, near_tries, far_tries)
        without = pair.seconds_to_open()
        for rate in RATES:
            pair.await_service()
            pair.flood(rate)
            self.assertLess(pair.seconds_to_open(), without + LATER, f"{rate} INITs a second")
            pair.await_service()
            Flowing(pair.near, pair.far, NEAR, FAR).exchange(MESSAGES)
            self.assertRegex(pair.calm(), "^sent [1-9]")
