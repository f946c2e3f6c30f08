"""Two nodes over SCTP in UDP: links, strangers, nodes that end and come back, the capture and the stop."""

from __future__ import annotations

import random
import socket
import struct
import time
from collections.abc import Sequence

from harness import HOST, Link, Node, NodeTest, SctpLink, free_port, wait_until
from packets import ABORT, DATA, INIT, INIT_ACK, chunk, crc32c, is_whole, kinds, packet, read_packets, tsns
from proxy import DatagramProxy
from traffic import FAR, NEAR, Flowing

CAPTURE = "node.pcap"
MESSAGES = 200

# Another address of this machine.
OTHER_HOST = "127.0.0.2"

# In ticks of 50 ms: a changeover ends soon if no link is left, as nobody answers it.
SOON = {"t1": 4, "t2": 6}

# An end that isn't answered says so soon.
IMPATIENT = {"rto_initial_ms": 50, "rto_min_ms": 50, "rto_max_ms": 100, "init_tries": 2, "heartbeat_ms": 200}

# SCTP ports: those of the near end and of the far one, for each link.
NEAR_PORT, FAR_PORT = 3565, 4565


class SctpPair:
    """Two nodes with links over SCTP between them, of which both ends try to open each, by a proxy or without one."""

    def __init__(self, test: NodeTest, *, links: int = 3, is_begun: bool = True, is_port_fixed: bool = False,
                 is_proxied: bool = False, beside: Sequence[Link] = (), near_page: int | None = None, **more) -> None:
        self.near_udp, self.far_udp = free_port(), free_port()
        to_far, to_near = self.far_udp, self.near_udp
        if is_proxied:
            self.proxy = DatagramProxy(self.near_udp, self.far_udp)
            test.addCleanup(self.proxy.close)
            to_far, to_near = self.proxy.near_sees, self.proxy.far_sees
        self.names = [f"e{number}" for number in range(links)]
        self.is_port_fixed = is_port_fixed
        near_links = [*self.links_to(FAR, to_far, NEAR_PORT, FAR_PORT), *beside]
        self.near = test.node(NEAR, near_links, udp=self.near_udp, page=near_page, **more)
        self.far = test.node(FAR, self.links_to(NEAR, to_near, FAR_PORT, NEAR_PORT), udp=self.far_udp, **more)
        if is_begun:
            self.near.start()
            self.far.start()
            self.begin()

    def links_to(self, adjacent: int, udp: int, own_port: int, far_port: int) -> list[SctpLink]:
        return [
            SctpLink(name, adjacent, code, udp, own_port + code, far_port + code, is_port_fixed=self.is_port_fixed)
            for code, name in enumerate(self.names)
        ]

    def begin(self) -> None:
        self.await_service()
        self.forth = Flowing(self.near, self.far, NEAR, FAR)
        self.back = Flowing(self.far, self.near, FAR, NEAR)

    def await_service(self) -> None:
        in_turn = (self.near, self.far, self.near)
        wait_until(lambda: all(node.is_at_rest(self.names) for node in in_turn), "the links are in service, and at rest")

    def exchange(self, count: int) -> None:
        self.forth.submit(count)
        self.back.submit(count)
        self.forth.settle()
        self.back.settle()


def words(node: Node) -> list[str]:
    """The lines of a log without their times."""
    return [line.split(" ", 1)[1] for line in node.log()]


class Service(NodeTest):
    def test_messages_each_way(self) -> None:
        pair = SctpPair(self)
        pair.exchange(MESSAGES)
        pair.await_service()
        self.assertIn(f"udp {HOST}:{pair.near_udp}", words(pair.near))
        for node, udp in ((pair.near, pair.far_udp), (pair.far, pair.near_udp)):
            for name in pair.names:
                self.assertEqual(node.logged(f"remote {name} {HOST}:{udp}$"), 1)
                self.assertEqual(node.logged(f"open {name} {HOST}:{udp}$"), 1)
            self.assertEqual(node.logged("close|fail|notice"), 0)
            self.assertEqual(sum(row["delivered"] for row in node.counters().values()), MESSAGES)
        near, far = pair.near.counters(), pair.far.counters()
        for name in pair.names:
            self.assertEqual(near[name]["frames_out"], far[name]["frames_in"])
            self.assertEqual(near[name]["octets_in"], far[name]["octets_out"])

    def test_a_link_that_is_taken_out_comes_back(self) -> None:
        pair = SctpPair(self)
        pair.exchange(MESSAGES)
        pair.near.ask("deactivate e1")
        pair.near.await_log(f"close e1 {HOST}:{pair.far_udp} node$")
        pair.far.await_log(f"close e1 {HOST}:{pair.near_udp} peer$")
        pair.exchange(MESSAGES)
        pair.near.ask("activate e1")
        pair.await_service()
        pair.exchange(MESSAGES)
        for node in (pair.near, pair.far):
            self.assertEqual(node.logged("notice"), 1)

    def test_nobody_is_there(self) -> None:
        pair = SctpPair(self, is_begun=False, sctp=IMPATIENT)
        pair.near.start()
        for name in pair.names:
            pair.near.await_log(f"fail {name} {HOST}:{pair.far_udp} silence$")
        pair.far.start()
        pair.begin()
        pair.exchange(MESSAGES)


class Strangers(NodeTest):
    def test_they_change_nothing(self) -> None:
        """What comes from another host, or with other ports, or too short to have ports, is no link's: it is counted, and
        nothing comes back. What has the peer's host and a link's ports, but no right checksum or tag, changes nothing."""
        pair = SctpPair(self)
        pair.exchange(MESSAGES)
        draw = random.Random(1)
        abort = chunk(ABORT)
        init = chunk(INIT, draw.randbytes(16))
        strangers = [
            (OTHER_HOST, packet(FAR_PORT, NEAR_PORT, 0, init)),
            (OTHER_HOST, packet(FAR_PORT, NEAR_PORT, draw.getrandbits(32), abort)),
            (HOST, packet(FAR_PORT + 9, NEAR_PORT, 0, init)),
            (HOST, packet(FAR_PORT, NEAR_PORT + 9, 0, init)),
            (HOST, packet(NEAR_PORT, FAR_PORT, 0, init)),
            (HOST, b""),
            (HOST, b"\x11\xd5\x0d"),
            (OTHER_HOST, draw.randbytes(60_000)),
        ]
        harmless = [
            packet(FAR_PORT, NEAR_PORT, draw.getrandbits(32), abort),
            packet(FAR_PORT, NEAR_PORT, draw.getrandbits(32), chunk(DATA, draw.randbytes(40), 3)),
            packet(FAR_PORT, NEAR_PORT, 0, init)[:-1] + b"\xff",
            packet(FAR_PORT, NEAR_PORT, 0, b"")[:4],
            packet(FAR_PORT, NEAR_PORT, 0, b"")[:4] + draw.randbytes(60_000),
        ]
        before = pair.near.datagrams()
        for source, octets in strangers:
            self.assertFalse(self.is_answered(source, octets, pair.near_udp))
        wait_until(lambda: pair.near.datagrams()["strangers"] >= before["strangers"] + len(strangers), "they are counted")
        for octets in harmless:
            self.assertFalse(self.is_answered(HOST, octets, pair.near_udp))
        pair.exchange(MESSAGES)
        pair.await_service()
        after = pair.near.datagrams()
        self.assertEqual(after["strangers"], before["strangers"] + len(strangers))
        self.assertGreaterEqual(after["datagrams_in"], before["datagrams_in"] + len(harmless))
        for node in (pair.near, pair.far):
            self.assertEqual(node.logged("notice|close|fail"), 0)
            self.assertEqual(node.logged("open"), 3)
        counted = pair.near.counters()["e0"]
        self.assertEqual(counted["inits_other_port"], 1)

    def is_answered(self, source: str, octets: bytes, port: int) -> bool:
        """Sends a datagram from a socket of its own, and says whether something comes back soon."""
        with socket.socket(socket.AF_INET, socket.SOCK_DGRAM) as stranger:
            stranger.bind((source, 0))
            return bool(answer_to(stranger, octets, port))


class Inits(NodeTest):
    def test_another_port_is_left_out(self) -> None:
        """While an association is up, an INIT from another UDP port of the peer's host gets no answer. It is counted, and
        the log names where it came from: once a second at most, with how many they were."""
        pair = SctpPair(self)
        pair.exchange(MESSAGES)
        with socket.socket(socket.AF_INET, socket.SOCK_DGRAM) as other:
            other.bind((HOST, 0))
            port = other.getsockname()[1]
            for tag in range(1, 11):
                self.assertEqual(answer_to(other, init(tag), pair.near_udp), b"")
        pair.near.await_log(f"refuse e0 {HOST}:{port} other_port [0-9]+$", 2)
        self.assertEqual(pair.near.counters()["e0"]["inits_other_port"], 10)
        told = [int(line.split()[-1]) for line in words(pair.near) if line.startswith("refuse e0")]
        self.assertEqual(sum(told), 10)
        pair.exchange(MESSAGES)
        self.assertEqual(pair.near.logged("notice|close|fail"), 0)

    def test_a_port_that_is_fixed(self) -> None:
        """It counts also while no association is up; without the key any port of the peer's host does."""
        for is_fixed in (False, True):
            pair = SctpPair(self, is_begun=False, is_port_fixed=is_fixed, version=4)
            pair.near.start()
            with socket.socket(socket.AF_INET, socket.SOCK_DGRAM) as other:
                other.bind((HOST, 0))
                answer = answer_to(other, init(1), pair.near_udp)
            self.assertEqual(kinds(answer) if answer else [], [] if is_fixed else [INIT_ACK])
            self.assertEqual(pair.near.counters()["e0"]["inits_other_port"], int(is_fixed))
            pair.near.kill()

    def test_reasons(self) -> None:
        """An INIT that is refused is counted with its reason, and told to the log."""
        pair = SctpPair(self, is_begun=False)
        pair.near.start()
        with socket.socket(socket.AF_INET, socket.SOCK_DGRAM) as other:
            other.bind((HOST, 0))
            self.assertEqual(kinds(answer_to(other, init(1, streams=1), pair.near_udp)), [ABORT])
            pair.near.await_log("refuse e0 .* few_streams 1$")
            self.assertEqual(answer_to(other, init(0), pair.near_udp), b"")
            pair.near.ask("deactivate e0")
            time.sleep(1)
            self.assertEqual(answer_to(other, init(1), pair.near_udp), b"")
            pair.near.await_log("refuse e0 .* unwanted 1$")
        counted = pair.near.counters()["e0"]
        self.assertEqual([counted[f"inits_{why}"] for why in ("few_streams", "without_tag", "unwanted")], [1, 1, 1])


def init(tag: int, *, streams: int = 2) -> bytes:
    """An INIT of the far end of link e0."""
    return packet(FAR_PORT, NEAR_PORT, 0, chunk(INIT, struct.pack(">IIHHI", tag, 1 << 16, streams, streams, 1)))


def answer_to(sender: socket.socket, octets: bytes, port: int) -> bytes:
    """Sends a datagram, and gives what comes back soon; nothing if nothing does."""
    sender.settimeout(0.1)
    sender.sendto(octets, (HOST, port))
    try:
        return sender.recv(1 << 16)
    except TimeoutError:
        return b""


class Restarts(NodeTest):
    def test_the_near_node(self) -> None:
        pair = SctpPair(self, **SOON)
        self.end_and_start(pair, pair.near, pair.far)

    def test_the_far_node(self) -> None:
        pair = SctpPair(self, **SOON)
        self.end_and_start(pair, pair.far, pair.near)

    def end_and_start(self, pair: SctpPair, ended: Node, other: Node) -> None:
        """A program is killed, and a new one begins: the other node loses its associations by that, and the links come
        back and carry messages."""
        pair.exchange(MESSAGES)
        ended.kill()
        ended.start()
        for name in pair.names:
            other.await_log(f"close {name} .* (restart|peer)$")
            other.await_log(f"notice failed {name} association$")
        pair.begin()
        self.assertEqual(other.logged("open e"), 6)
        pair.exchange(MESSAGES)

    def test_one_that_stays_away(self) -> None:
        """Heartbeats find out that nobody is there any more."""
        pair = SctpPair(self, sctp={**IMPATIENT, "retransmissions": 3}, **SOON)
        pair.exchange(MESSAGES)
        pair.far.kill()
        for name in pair.names:
            pair.near.await_log(f"close {name} {HOST}:{pair.far_udp} silence$")


class Ends(NodeTest):
    def test_a_stop_aborts_each_association(self) -> None:
        pair = SctpPair(self, **SOON)
        pair.exchange(MESSAGES)
        pair.near.stop()
        for name in pair.names:
            self.assertEqual(pair.near.logged(f"close {name} {HOST}:{pair.far_udp} node$"), 1)
            pair.far.await_log(f"close {name} {HOST}:{pair.near_udp} peer$")


class Retransmissions(NodeTest):
    """What is lost on its way goes out again, and is counted."""

    def test_they_are_counted(self) -> None:
        """A chunk behind which nothing goes out waits for T3-rtx; of others the peer's SACKs tell. The count of the
        link stays as its association ends, and is that of the capture."""
        pair = SctpPair(self, links=1, is_proxied=True, capture=CAPTURE, **SOON)
        pair.exchange(MESSAGES)
        before = self.counted(pair)
        for count in (1, MESSAGES):
            pair.proxy.drop(1)
            pair.forth.submit(count)
            pair.proxy.await_drops()
            pair.forth.settle()
            self.assertGreater(self.counted(pair), before)
            before = self.counted(pair)
        pair.near.ask("deactivate e0")
        pair.far.await_log("close e0 .* peer$")
        self.assertGreaterEqual(self.counted(pair), before)
        pair.near.ask("activate e0")
        pair.await_service()
        pair.exchange(MESSAGES)
        pair.await_service()
        counted = self.counted(pair)
        self.assertIn(f"retransmissions {counted}", pair.near.ask("show link e0"))
        pair.near.stop()
        self.assertEqual(sent_again(read_packets(pair.near.folder / CAPTURE)), counted)

    def counted(self, pair: SctpPair) -> int:
        return pair.near.counters()["e0"]["retransmissions"]


def sent_again(packets: Sequence[bytes]) -> int:
    """How many DATA chunks of the near end of link e0 went out before, in the same association."""
    seen, count = set(), 0
    for octets in packets:
        if int.from_bytes(octets[:2], "big") == NEAR_PORT:
            for tsn in tsns(octets):
                count += (octets[4:8], tsn) in seen
                seen.add((octets[4:8], tsn))
    return count


class Captures(NodeTest):
    def test_packets_are_as_they_were_on_the_wire(self) -> None:
        pair = SctpPair(self, capture=CAPTURE)
        pair.exchange(MESSAGES)
        pair.near.stop()
        packets = read_packets(pair.near.folder / CAPTURE)
        self.assertTrue(all(is_whole(octets) for octets in packets))
        carried = sum(kinds(octets).count(DATA) for octets in packets)
        self.assertGreaterEqual(carried, 2 * MESSAGES)
        self.assertEqual(sum(ABORT in kinds(octets) for octets in packets), 3)

    def test_as_many_as_the_counters_say(self) -> None:
        pair = SctpPair(self, capture=CAPTURE)
        pair.exchange(MESSAGES)
        pair.far.stop()
        for name in pair.names:
            pair.near.await_log(f"close {name} .* peer$")
            pair.near.ask(f"deactivate {name}")
        counted = pair.near.datagrams()
        pair.near.stop()
        packets = read_packets(pair.near.folder / CAPTURE)
        came = sum(int.from_bytes(octets[:2], "big") >= FAR_PORT for octets in packets)
        self.assertEqual(came, counted["datagrams_in"])
        self.assertEqual(len(packets) - came, counted["datagrams_out"])


class Checksums(NodeTest):
    def test_crc32c(self) -> None:
        """The value that is known of these digits."""
        self.assertEqual(crc32c(b"123456789"), 0xE3069283)
