"""Nodes that end and come back, nodes that are paused, and what is lost as one stops."""

import signal
import time

from harness import Node, NodeTest, wait_until
from test_sctp import SctpPair
from traffic import Flowing, Pair

MESSAGES = 200

# In ticks of 50 ms: a changeover ends soon if no link is left, as nobody answers it.
SOON = {"t1": 4, "t2": 6}

# L7 of a node that is paused, in ticks, and the pause in seconds, which is longer. After a pause ticks pass at most
# twice as fast.
L7_TICKS, PAUSE_SECONDS = 60, 4


class Restarts(NodeTest):
    def test_the_node_that_connects(self) -> None:
        pair = Pair(self, **SOON)
        self.end_and_start(pair, pair.far, pair.near)

    def test_the_node_that_listens(self) -> None:
        pair = Pair(self, **SOON)
        self.end_and_start(pair, pair.near, pair.far)

    def end_and_start(self, pair: Pair, ended: Node, other: Node) -> None:
        """A program is killed; once it runs again, the links come back by themselves, and carry messages."""
        pair.exchange(MESSAGES)
        ended.kill()
        for name in pair.names:
            other.await_log(f"notice failed {name} association$")
        wait_until(lambda: all(state == "Down" for state, _ in other.links().values()), "the links are down")
        ended.start()
        pair.await_service()
        self.assertEqual(other.logged("open e"), 6)
        self.assertEqual(other.logged("notice failed"), 3)
        pair.begin_anew()
        pair.exchange(MESSAGES)


class Pauses(NodeTest):
    def test_a_pause_fails_no_link(self) -> None:
        """What came while a node was stopped is handed in before the ticks of that time."""
        pair = Pair(self, l7=L7_TICKS)
        for node, flowing in ((pair.near, pair.forth), (pair.far, pair.back)):
            pair.await_service()
            self.pause(node, flowing)
        pair.exchange(MESSAGES)
        self.assertEqual(pair.near.logged("notice"), 0)
        self.assertEqual(pair.far.logged("notice"), 0)

    def pause(self, node: Node, flowing: Flowing) -> None:
        """The confirmations of its last messages come while it is stopped, and so do further messages."""
        flowing.submit(MESSAGES)
        node.signal(signal.SIGSTOP)
        time.sleep(PAUSE_SECONDS)
        wanted = flowing.write(5)
        node.signal(signal.SIGCONT)
        flowing.take_answers(wanted)
        flowing.settle()


class Stops(NodeTest):
    def test_what_a_node_kept(self) -> None:
        """The log counts the messages that end with the node, if there are some."""
        for pair in (Pair(self), SctpPair(self)):
            pair.far.signal(signal.SIGSTOP)
            pair.forth.submit(MESSAGES)
            pair.near.stop()
            self.assertEqual(pair.near.logged(f"kept {MESSAGES}$"), 1)
            self.assertRegex(pair.near.log()[-2], " kept ")
            pair.far.signal(signal.SIGCONT)
            pair.far.stop()
            self.assertEqual(pair.far.logged("kept "), 0)
