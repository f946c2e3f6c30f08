"""Nodes over SCTP over IP: relays join them between network namespaces, by raw sockets. Skipped where there are none."""

from __future__ import annotations

import sys
from typing import Callable

from harness import HOST, Node, NodeTest, SctpLink, wait_until
from namespaces import Namespace, Network, Relay, RelayedPeer, four, interface, missing, six
from packets import INIT, chunk, packet
from traffic import FAR, NEAR, OTHER, Flowing

UDP = 9899
NEAR_PORT, FAR_PORT = 3565, 4565
REMOTE, OTHER_REMOTE = "127.77.0.1", "127.77.0.2"
MESSAGES = 200
LOSS = 0.05
# How many frames that aren't SCTP may go out by an interface meanwhile: ARP, neighbour discovery.
STRAY = 30
# In ticks of 50 ms: a changeover ends soon if no other link is left.
SOON = {"t1": 4, "t2": 6}
# The longest field of a message.
LONG_FIELD = 272

# Sends packets in hexadecimal from an address to another one, by a raw socket.
SENDER = """import socket, sys
source, to, *texts = sys.argv[1:]
raw = socket.socket(socket.AF_INET, socket.SOCK_RAW, 132)
raw.bind((source, 0))
for text in texts:
    raw.sendto(bytes.fromhex(text), (to, 0))
"""


class OverIp:
    """Two nodes in a namespace each, with links over IP between them."""

    def __init__(self, test: NodeTest, *, loss: float = 0.0, links: int = 3, address: Callable[..., str] = four,
                 paths: int = 1, octets: int = 8, **more) -> None:
        self.network = network_of(test, loss, paths)
        self.names, self.address, self.paths = [f"e{code}" for code in range(links)], address, range(paths)
        self.near, self.near_relay = self.end(test, NEAR, FAR, **more)
        self.far, self.far_relay = self.end(test, FAR, NEAR, **more)
        self.await_service()
        self.forth = Flowing(self.near, self.far, NEAR, FAR, octets)
        self.back = Flowing(self.far, self.near, FAR, NEAR, octets)

    def end(self, test: NodeTest, own: int, adjacent: int, **more) -> tuple[Node, Relay]:
        """Starts a node, and its relay. Points and addresses have the same numbers."""
        ports = (NEAR_PORT, FAR_PORT) if own == NEAR else (FAR_PORT, NEAR_PORT)
        pairs = [tuple(port + code for port in ports) for code in range(len(self.names))]
        paths = [(self.address(own, path), self.address(adjacent, path)) for path in self.paths]
        listed = [near for near, _ in paths] if len(paths) > 1 else []
        links = [SctpLink(name, adjacent, code, UDP, *pairs[code], host=REMOTE, addresses=listed)
                 for code, name in enumerate(self.names)]
        namespace = self.network.near if own == NEAR else self.network.far
        node = node_in(namespace, test, own, links, UDP, **more)
        peer = RelayedPeer("across", f"{REMOTE}:{UDP}", paths, pairs)
        return node, self.network.relay(namespace, f"{HOST}:{UDP}", peer)

    def await_service(self) -> None:
        in_turn = (self.near, self.far, self.near)
        wait_until(lambda: all(node.is_at_rest(self.names) for node in in_turn), "the links are in service, and at rest")

    def submit(self, count: int) -> None:
        self.forth.submit(count)
        self.back.submit(count)

    def settle(self) -> None:
        self.forth.settle()
        self.back.settle()

    def exchange(self, count: int) -> None:
        self.submit(count)
        self.settle()


def network_of(test: NodeTest, loss: float = 0.0, paths: int = 1) -> Network:
    """Makes the network of a test, which goes as the test ends."""
    network = Network(test.folder)
    test.addCleanup(network.close)
    network.make(loss, paths)
    return network


def node_in(namespace: Namespace, test: NodeTest, own: int, links: list[SctpLink], udp: int, **more) -> Node:
    """Starts a node in a namespace. Its console is at a Unix socket, which the test reaches from its own."""
    node = test.node(own, links, udp=udp, console=str(test.folder / f"{own}.console"), **more)
    node.within = namespace.words
    node.start()
    return node


class OverIpTest(NodeTest):
    def setUp(self) -> None:
        super().setUp()
        if reason := missing():
            self.skipTest(reason)

    def check_undisturbed(self, *nodes: Node) -> None:
        """No association ended, no link failed, and no flag was raised."""
        for node in nodes:
            self.assertEqual(node.logged("close|fail|notice|flag"), 0, node.log())
            self.assertEqual(node.ask("show flags"), ["flag lost_any 0", "flag late_any 0"])


class Service(OverIpTest):
    def test_losses_and_a_relay_that_is_killed(self) -> None:
        """Each message comes once and in order, though packets are lost, and none passes while the relay is away."""
        pair = OverIp(self, loss=LOSS)
        pair.exchange(5 * MESSAGES)
        pair.submit(MESSAGES)
        pair.near_relay.kill()
        pair.submit(MESSAGES)
        # (nobody takes protocol 132 at the near end now)
        pair.far_relay.program.await_line(f"icmp {four(NEAR)} from {four(NEAR)} type 3 code 2: ")
        pair.near_relay.start()
        pair.settle()
        pair.exchange(5 * MESSAGES)
        pair.await_service()
        self.check_undisturbed(pair.near, pair.far)
        for node, relay in ((pair.near, pair.near_relay), (pair.far, pair.far_relay)):
            self.assertEqual(sum(row["delivered"] for row in node.counters().values()), 12 * MESSAGES)
            self.assertGreater(relay.counts()["across to_peer"], 0)
        self.assertGreater(pair.far_relay.counts()["icmp"], 0)
        _, lost = pair.network.finish()
        self.assertGreater(lost, 0)
        for relay in (pair.near_relay, pair.far_relay):
            self.assertTrue(relay.program.finish()[-1].endswith(" stop"))

    def test_ip_version_6(self) -> None:
        pair = OverIp(self, links=1, address=six)
        pair.exchange(MESSAGES)
        pair.near_relay.kill()
        pair.submit(MESSAGES)
        # (next header 132 isn't recognized)
        pair.far_relay.program.await_line(f"icmp6 {six(NEAR)} from {six(NEAR)} type 4 code 1: ")
        pair.near_relay.start()
        pair.settle()
        self.check_undisturbed(pair.near, pair.far)

    def test_fragments(self) -> None:
        """Packets that are longer than the network takes go out in fragments."""
        pair = OverIp(self, links=1, octets=LONG_FIELD)
        for namespace in (pair.network.near, pair.network.far):
            namespace.run("ip", "link", "set", interface(), "mtu", "576")
        pair.exchange(MESSAGES)
        self.check_undisturbed(pair.near, pair.far)
        for namespace in (pair.network.near, pair.network.far):
            self.assertGreater(namespace.ip_count("FragCreates"), 0)
            self.assertGreater(namespace.ip_count("ReasmOKs"), 0)


class Paths(OverIpTest):
    """Two paths. The nodes list both of their addresses, and leave it to the relays which path a packet takes."""

    def test_one_is_cut(self) -> None:
        """While one of them is cut, silently or with its interface, messages pass by the other: no association ends."""
        pair = OverIp(self, paths=2)
        pair.exchange(MESSAGES)
        self.exchange_without(0, pair, lambda: pair.network.cut(0))
        pair.network.mend(0)
        pair.exchange(MESSAGES)
        self.exchange_without(1, pair, lambda: pair.network.far.run("ip", "link", "set", interface(1), "down"))
        pair.await_service()
        self.check_undisturbed(pair.near, pair.far)
        said = [*pair.near_relay.program.lines(), *pair.far_relay.program.lines()]
        for name in ("silence", "heard"):
            self.assertTrue(any(line.endswith(name) for line in said), said)
        self.assertFalse(any("doesn't list" in line for line in said), said)

    def exchange_without(self, path: int, pair: OverIp, cut: Callable[[], None]) -> None:
        """Messages pass while a path is cut: by the other one, at the end."""
        cut()
        pair.exchange(MESSAGES)
        before = pair.network.near.packets_out(path)
        pair.exchange(MESSAGES)
        self.assertLessEqual(pair.network.near.packets_out(path) - before, STRAY)

    def test_opening_while_the_first_is_cut(self) -> None:
        pair = OverIp(self, paths=2, links=1, **SOON)
        pair.network.cut(0)
        for relay in (pair.near_relay, pair.far_relay):
            relay.kill()
            relay.start()
        pair.near.ask("deactivate e0")
        pair.near.ask("activate e0")
        pair.far.await_log("close e0 .* (restart|peer)$")
        pair.await_service()
        pair.exchange(MESSAGES)

    def test_ports_of_a_stranger(self) -> None:
        """What comes by a path with other ports doesn't pass, nor what comes from a path that the peer hasn't."""
        pair = OverIp(self, paths=2, links=1)
        pair.network.far.address(OTHER, 1)
        sender = (sys.executable, "-c", SENDER)
        init = chunk(INIT, bytes(16))
        right, wrong = packet(FAR_PORT, NEAR_PORT, 0, init), packet(FAR_PORT, NEAR_PORT + 1, 0, init)
        pair.network.far.run(*sender, four(OTHER, 1), four(NEAR, 1), right.hex())
        pair.network.far.run(*sender, four(FAR, 1), four(NEAR, 1), wrong.hex())
        wait_until(lambda: pair.near_relay.counts()["strangers"] == 2, "they are counted")
        pair.exchange(MESSAGES)
        self.check_undisturbed(pair.near, pair.far)


class Peers(OverIpTest):
    def test_two_with_the_same_ports(self) -> None:
        """The near node has a link to each of two peers, by the same SCTP ports."""
        network = network_of(self)
        network.far.address(OTHER)
        links = [SctpLink("e0", FAR, 0, UDP, NEAR_PORT, NEAR_PORT, host=REMOTE),
                 SctpLink("o0", OTHER, 0, UDP, NEAR_PORT, NEAR_PORT, host=OTHER_REMOTE)]
        near = node_in(network.near, self, NEAR, links, UDP)
        network.relay(network.near, f"{HOST}:{UDP}", *(self.peer(NEAR, it) for it in (FAR, OTHER)))
        peers = {point: self.far_end(network, point) for point in (FAR, OTHER)}
        wait_until(lambda: all(node.is_at_rest() for node in (near, *peers.values(), near)), "the links are in service")
        for point, node in peers.items():
            Flowing(near, node, NEAR, point).exchange(MESSAGES)
            Flowing(node, near, point, NEAR).exchange(MESSAGES)
        self.check_undisturbed(near, *peers.values())

    def far_end(self, network: Network, point: int) -> Node:
        """A peer of the near node, with a UDP port and a relay of its own."""
        peer = self.peer(point, NEAR)
        link = SctpLink("e0", NEAR, 0, UDP, NEAR_PORT, NEAR_PORT, host=peer.remote.split(":")[0])
        node = node_in(network.far, self, point, [link], UDP + point)
        network.relay(network.far, f"{HOST}:{UDP + point}", peer)
        return node

    @staticmethod
    def peer(own: int, far: int) -> RelayedPeer:
        remote = OTHER_REMOTE if OTHER in (own, far) else REMOTE
        return RelayedPeer(f"to-{far}", f"{remote}:{UDP}", [(four(own), four(far))], [(NEAR_PORT, NEAR_PORT)])

    def test_strangers(self) -> None:
        """What comes from another address, or with other ports, doesn't reach the node, and gets no answer."""
        pair = OverIp(self, links=1)
        pair.exchange(MESSAGES)
        pair.network.far.address(OTHER)
        init = chunk(INIT, bytes(16))
        right, *wrong = [packet(FAR_PORT, NEAR_PORT, 0, init), packet(FAR_PORT + 1, NEAR_PORT, 0, init),
                         packet(FAR_PORT, NEAR_PORT + 1, 0, init), packet(NEAR_PORT, FAR_PORT, 0, init)]
        sender = (sys.executable, "-c", SENDER)
        pair.network.far.run(*sender, four(OTHER), four(NEAR), right.hex(), *(it.hex() for it in wrong))
        pair.network.far.run(*sender, four(FAR), four(NEAR), *(it.hex() for it in wrong))
        wait_until(lambda: pair.near_relay.counts()["strangers"] == 7, "they are counted")
        pair.exchange(MESSAGES)
        pair.await_service()
        self.assertEqual(pair.near.datagrams()["strangers"], 0)
        self.assertEqual(pair.far_relay.counts()["strangers"], 0)
        self.check_undisturbed(pair.near, pair.far)
