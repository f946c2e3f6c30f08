"""Two nodes with links between them, and messages that one sends to the other."""

from __future__ import annotations

from collections import Counter
from typing import Any, Sequence

from frames import message
from harness import Link, Node, NodeTest, free_port, links_between, wait_until
from proxy import Proxy

FLOWS = 16

# Lines that are written before their answers are read.
BURST = 100

NEAR, FAR, OTHER = 1, 2, 3


class Flowing:
    """Messages of 16 flows from one node to another: each is to come whole, once, and its flow in order."""

    def __init__(self, sender: Node, receiver: Node, opc: int, dpc: int, octets: int = 8) -> None:
        self.opc, self.dpc, self.octets = opc, dpc, octets
        self.submitter, self.user = sender.call(), receiver.call()
        self.user.ask("users")
        self.sent, self.came = [0] * FLOWS, [0] * FLOWS
        self.next_flow = 0

    def submit(self, count: int, flows: int = FLOWS) -> None:
        """Submits so many messages, one of each flow in turn. All of them are to be taken."""
        for start in range(0, count, BURST):
            self.take_answers(self.write(min(BURST, count - start), flows))

    def write(self, count: int, flows: int = FLOWS) -> int:
        """Writes the lines of so many messages."""
        lines = []
        for _ in range(count):
            flow, self.next_flow = self.next_flow, (self.next_flow + 1) % flows
            lines.append(f"submit {message(self.opc, self.dpc, flow, self.sent[flow], self.octets).hex()}\n")
            self.sent[flow] += 1
        self.submitter.write("".join(lines))
        return count

    def take_answers(self, count: int) -> None:
        """Reads the answers to so many lines."""
        answers = self.submitter.read_lines(count)
        refused = [it for it in answers if it != "held" and not it.startswith("queued ")]
        assert not refused, f"a message from {self.opc} to {self.dpc} isn't taken: {refused[0]}"

    def settle(self) -> None:
        """Waits until all that were taken came."""
        while sum(self.came) < sum(self.sent):
            self._note(self.user.read_line())

    def exchange(self, count: int) -> None:
        self.submit(count)
        self.settle()

    def _note(self, line: str) -> None:
        """A message came: it is the next of its flow."""
        octets = bytes.fromhex(line.split()[2])
        flow = octets[4] >> 4
        number = self.came[flow]
        wanted = message(self.opc, self.dpc, flow, number, self.octets)
        assert octets == wanted, f"message {number} of flow {flow} from {self.opc}: {octets[:9].hex()} came"
        self.came[flow] += 1

    def count(self) -> int:
        return sum(self.came)


class Pair:
    """Two nodes with three links: the near one listens, and the far one connects, by a proxy or without one."""

    def __init__(self, test: NodeTest, *, links: int = 3, beside: Sequence[Link] = (), by_proxy: bool = False,
                 octets: int = 8, near_streams: dict | None = None, near_capture: str | None = None,
                 near_page: int | None = None, near_page_open: bool = False, **more: Any) -> None:
        ports = [free_port() for _ in range(links)]
        self.names = [f"e{number}" for number in range(links)]
        self.ports = ports
        near_more = more if near_capture is None else {**more, "capture": near_capture}
        near_more = {**near_more, "page": near_page, "page_open": near_page_open}
        self.near = test.node(NEAR, [*links_between(ports, FAR, True), *beside], **near_more)
        if by_proxy:
            self.proxy = Proxy(ports)
            test.addCleanup(self.proxy.close)
            ports = self.proxy.ports
        self.far = test.node(FAR, links_between(ports, NEAR, False), **more)
        self.near.start(**near_streams or {})
        self.far.start()
        self.await_service()
        self.octets = octets
        self.begin_anew()

    def begin_anew(self) -> None:
        """The next message of each flow is its first, and both nodes have other callers."""
        self.forth = Flowing(self.near, self.far, NEAR, FAR, self.octets)
        self.back = Flowing(self.far, self.near, FAR, NEAR, self.octets)

    def await_service(self) -> None:
        """Waits until the links are in service at both ends, and nothing is under way on them. What the near node answers
        to the far one is looked for last."""
        in_turn = (self.near, self.far, self.near)
        wait_until(lambda: all(node.is_at_rest(self.names) for node in in_turn), "the links are in service, and at rest")

    def exchange(self, count: int) -> None:
        """Each node sends the other so many messages, and all of them come."""
        self.forth.submit(count)
        self.back.submit(count)
        self.forth.settle()
        self.back.settle()


def submit_to(node: Node, opc: int, dpc: int, count: int) -> Counter[str]:
    """Submits so many messages, one of each flow in turn. Returns how often each answer came."""
    caller, answers = node.call(), Counter()
    for start in range(0, count, BURST):
        numbers = range(start, min(start + BURST, count))
        caller.write("".join(f"submit {message(opc, dpc, it % FLOWS, it).hex()}\n" for it in numbers))
        answers.update(caller.read_lines(len(numbers)))
    caller.close()
    return answers
