"""Two nodes with three links, whose connections are cut in the middle of messages.

A proxy stands between them, and cuts a connection behind a given octet of a burst of messages, in the one direction or
the other, by an orderly end or a reset at either end. Where an end is paused meanwhile, frames lie unread there. Each
message comes once, each flow in order, and the counters, notices and captures of both ends tell of as many failures,
changeovers and changebacks as there were.
"""

import signal
from collections import Counter
from concurrent.futures import ThreadPoolExecutor

from frames import CHANGEBACK_ACKNOWLEDGEMENT, CHANGEBACK_DECLARATION, CHANGEOVER_ACKNOWLEDGEMENT, CHANGEOVER_ORDER
from frames import read_capture
from harness import Node, NodeTest, wait_until
from proxy import Cut
from traffic import Pair

# A link waits for a second before it connects again, so there are two pairs of nodes, side by side.
PAIRS = 2
CUTS = 25
MESSAGES_A_CUT = 400
MESSAGES_BEFORE = 1000
MESSAGES = MESSAGES_BEFORE + CUTS * MESSAGES_A_CUT

CAPTURE = "node.pcap"


class CutConnections(NodeTest):
    LIMIT = 300

    def test_each_message_comes_once_and_in_order(self) -> None:
        pairs = [Pair(self, by_proxy=True, capture=CAPTURE) for _ in range(PAIRS)]
        with ThreadPoolExecutor(PAIRS) as pool:
            list(pool.map(self.exchange_and_cut, pairs, range(PAIRS)))
        for node in [node for pair in pairs for node in (pair.near, pair.far)]:
            self.check_failures(node)

    def exchange_and_cut(self, pair: Pair, first: int) -> None:
        for _ in range(2):
            pair.exchange(MESSAGES_BEFORE // 2)
        wait_until(lambda: counters_agree(pair), "what went out at one end came in at the other, on each link")
        for number in range(first, PAIRS * CUTS, PAIRS):
            cut_among_messages(pair, number)
        for node, flowing in ((pair.far, pair.forth), (pair.near, pair.back)):
            self.assertEqual(flowing.count(), MESSAGES)
            self.assertEqual(total(node, "delivered"), MESSAGES, "delivered by the counters")

    def check_failures(self, node: Node) -> None:
        """Each cut failed its link once, and no notice tells of anything else. The node changed over and back as often
        as that needs: a link that comes back takes flows from both others."""
        by_loss, by_order = total(node, "failed_association"), total(node, "failed_changeover")
        self.assertEqual(by_loss + by_order, CUTS, "failures of links")
        self.assertEqual(node.logged("notice "), CUTS, "notices")
        self.assertEqual(node.logged("notice failed e[012] (association|changeover)$"), CUTS)
        came, went = (management(node, went_out) for went_out in (False, True))
        self.assertEqual(went[CHANGEOVER_ORDER], by_loss, "orders, but for links that the other end ordered")
        self.assertEqual(went[CHANGEOVER_ACKNOWLEDGEMENT], came[CHANGEOVER_ORDER])
        self.assertEqual(came[CHANGEOVER_ACKNOWLEDGEMENT], went[CHANGEOVER_ORDER])
        self.assertIn(went[CHANGEBACK_DECLARATION] - 2 * CUTS, range(4), "declarations as links first came")
        self.assertEqual(went[CHANGEBACK_ACKNOWLEDGEMENT], came[CHANGEBACK_DECLARATION])
        self.assertEqual(came[CHANGEBACK_ACKNOWLEDGEMENT], went[CHANGEBACK_DECLARATION])


def cut_among_messages(pair: Pair, number: int) -> None:
    """Cuts a link while messages pass, and waits until all of them came and it is back in service."""
    link, to_near = number % 3, number // 3 % 2 == 0
    cut = Cut(to_near, 100 + 7 * number, resets_near=number // 6 % 2 == 0, resets_far=number // 12 % 2 == 0)
    burst, other = (pair.back, pair.forth) if to_near else (pair.forth, pair.back)
    receiver = pair.near if to_near else pair.far
    other.submit(MESSAGES_A_CUT // 2)
    is_paused = number % 4 == 0
    if is_paused:
        receiver.signal(signal.SIGSTOP)
    pair.proxy.cut(link, cut)
    burst.submit(MESSAGES_A_CUT // 2)
    pair.proxy.await_cut(link)
    if is_paused:
        receiver.signal(signal.SIGCONT)
    pair.exchange(MESSAGES_A_CUT // 2)
    pair.await_service()


def total(node: Node, name: str) -> int:
    return sum(row[name] for row in node.counters().values())


def counters_agree(pair: Pair) -> bool:
    near, far = pair.near.counters(), pair.far.counters()
    return all(
        one[name][f"{what}_out"] == other[name][f"{what}_in"]
        for one, other in ((near, far), (far, near))
        for name in pair.names
        for what in ("frames", "octets")
    )


def management(node: Node, went_out: bool) -> Counter:
    """How often each message of network management passed, by its heading."""
    packets = read_capture(node.folder / CAPTURE)
    return Counter(it.management() for it in packets if it.went_out == went_out)
