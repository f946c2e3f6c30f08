"""A link whose end that connects meets nobody, and somebody who isn't the peer, before it meets its peer.

The system tells that end that it is connected before the peer has taken the connection, or though nobody ever does. So
its link opens only when the first octets come.
"""

from harness import NodeTest, wait_until
from proxy import Cut
from traffic import Pair

MESSAGES = 160

# How often the end that connects meets nobody, and then how often somebody who closes its connection before an octet.
NOBODY, CLOSERS = 2, 2

# The tries come after 1, 2, 4, 8 and 16 seconds.
HELD, LATE = 0, 1


class LatePeers(NodeTest):
    def test_messages_wait_until_the_peer_comes(self) -> None:
        """A link is cut in the middle of messages. While its end that connects meets others, messages wait on the other
        link, which is held up, until the peer has come: each comes once, its flow in order."""
        pair = Pair(self, links=2, by_proxy=True)
        pair.exchange(MESSAGES)
        self.cut(pair)
        pair.exchange(MESSAGES)
        pair.far.await_log("fail e1 ", NOBODY)
        pair.proxy.close_next(LATE, CLOSERS)
        pair.proxy.listen(LATE)
        pair.far.await_log("fail e1 ", NOBODY + 1)
        pair.proxy.hold(HELD)
        pair.forth.submit(MESSAGES)
        pair.back.submit(MESSAGES)
        pair.far.await_log("fail e1 ", NOBODY + CLOSERS)
        self.assertEqual((pair.near.logged("open e1 "), pair.far.logged("open e1 ")), (1, 1))
        self.await_peer(pair)
        pair.proxy.release(HELD)
        pair.forth.settle()
        pair.back.settle()
        pair.await_service()
        pair.exchange(MESSAGES)
        self.check(pair)

    def cut(self, pair: Pair) -> None:
        """Cuts the link behind a few octets of many messages. From then on nobody is met on it."""
        pair.proxy.cut(LATE, Cut(to_near=True, octets=400, resets_near=False, resets_far=True))
        pair.forth.submit(MESSAGES)
        pair.back.submit(MESSAGES)
        pair.proxy.await_cut(LATE)
        pair.proxy.refuse(LATE)

    def await_peer(self, pair: Pair) -> None:
        """The peer comes, and messages still wait."""
        for node in (pair.near, pair.far):
            node.await_log("open e1 ", 2)
            wait_until(lambda: node.links()["e1"][0] == "InService", "the link is in service again")
        waiting = [sum(count for _, count in node.links().values()) for node in (pair.near, pair.far)]
        self.assertGreater(min(waiting), 0, "messages wait at both ends")

    def check(self, pair: Pair) -> None:
        """The link opened only for its peer. It failed once at each end, and there is no other notice. Nothing was said
        to those who closed a connection."""
        for node in (pair.near, pair.far):
            self.assertEqual(node.logged("open e1 "), 2)
            self.assertEqual(node.logged("notice failed e1 (association|changeover)$"), 1)
            self.assertEqual(node.logged("notice "), 1)
        self.assertEqual(pair.near.logged("refuse "), 0)
        self.assertEqual(pair.far.logged("fail e1 "), NOBODY + CLOSERS)
        self.assertEqual(pair.far.counters()["e1"]["retries"], NOBODY + CLOSERS + 1)
        self.assertEqual(pair.proxy.links[LATE].said_unasked, b"")
