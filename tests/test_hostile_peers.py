"""A node with three links to another one, and a fourth at whose port hostile peers connect.

Whatever a peer does, the node and the other one go on exchanging messages, each once and in order.
"""

import contextlib
import random
import re
import resource
import socket
import time

from frames import Status, status_frame
from harness import HOST, PATIENCE, Link, NodeTest, free_port, wait_until
from traffic import FAR, NEAR, OTHER, Pair, submit_to

MESSAGES = 64
POOL = 1000
BEYOND = 200
CONNECTIONS = 1000

# Lines of one kind that the log has of a second, at most.
LINES_A_SECOND = 20

# Ticks of 50 ms of a timer that is to run out, and of one that outlasts the other steps of a test.
SHORT, LONGER = 40, 200

# Seconds between the octets of a slow peer: its first frame takes longer than SHORT.
PACE = 0.2


class Stranger:
    """A peer that connects to the port of a link."""

    def __init__(self, port: int) -> None:
        self.socket = socket.create_connection((HOST, port), timeout=PATIENCE)
        self.socket.setsockopt(socket.IPPROTO_TCP, socket.TCP_NODELAY, 1)

    def send(self, octets: bytes) -> None:
        """Sends octets, if the node hasn't closed the connection."""
        with contextlib.suppress(ConnectionError):
            self.socket.sendall(octets)

    def await_end(self) -> None:
        """Reads until the node closes the connection."""
        with contextlib.suppress(ConnectionResetError):
            while self.socket.recv(1 << 16):
                pass

    def close(self) -> None:
        self.socket.close()


def allow_sockets(count: int) -> None:
    """Lets this process have so many sockets, where the system does."""
    soft, hard = resource.getrlimit(resource.RLIMIT_NOFILE)
    if soft != resource.RLIM_INFINITY and soft < count:
        resource.setrlimit(resource.RLIMIT_NOFILE, (count if hard == resource.RLIM_INFINITY else min(count, hard), hard))


class HostilePeers(NodeTest):
    def meet(self, **timers: int) -> Stranger:
        """Two nodes that exchange messages, and a stranger whose connection the first one took."""
        self.port = free_port()
        self.pair = Pair(self, beside=[Link("s0", OTHER, 0, self.port, True)], pool=POOL, **timers)
        self.near = self.pair.near
        self.addCleanup(self.check_others)
        self.pair.exchange(MESSAGES)
        return self.taken()

    def check_others(self) -> None:
        """Nothing failed on the other links, and each message that was taken came once."""
        for node, flowing in ((self.pair.far, self.pair.forth), (self.near, self.pair.back)):
            rows = node.counters()
            self.assertEqual(sum(rows[name]["delivered"] for name in self.pair.names), flowing.count())
        self.assertEqual(self.near.logged("(close|notice failed) e"), 0)

    def taken(self) -> Stranger:
        opened = self.near.logged("open s0 ")
        stranger = Stranger(self.port)
        self.addCleanup(stranger.close)
        self.near.await_log("open s0 ", opened + 1)
        return stranger

    def await_state(self, state: str) -> None:
        wait_until(lambda: self.near.links()["s0"][0] == state, f"s0 is {state}")

    def await_failure(self, why: str) -> None:
        """The link to the stranger fails for this reason, as the log and `show link` say."""
        self.near.await_log(f"notice failed s0 {why}$")
        pattern = re.compile(rf"last failure {why} at \d+\.\d{{3}}")
        wait_until(lambda: any(map(pattern.fullmatch, self.near.ask("show link s0"))), f"s0 failed by {why}")

    def test_a_peer_that_does_not_prove(self) -> None:
        stranger = self.meet(l3=SHORT)
        stranger.send(status_frame(Status.ALIGNMENT))
        self.pair.exchange(MESSAGES)
        stranger.await_end()
        self.await_failure("timer L3")

    def test_a_peer_that_stays_busy(self) -> None:
        peer = self.meet(l6=SHORT)
        peer.send(status_frame(Status.ALIGNMENT))
        self.await_state("Aligned")
        peer.send(status_frame(Status.PROVING_NORMAL) + status_frame(Status.READY))
        self.await_state("InService")
        peer.send(status_frame(Status.BUSY))
        peer.await_end()
        self.await_failure("timer L6")

    def test_an_octet_at_a_time(self) -> None:
        stranger = self.meet(l2=SHORT, l3=SHORT)
        for octet in status_frame(Status.ALIGNMENT):
            if self.near.logged("close s0 "):
                break
            stranger.send(bytes([octet]))
            self.pair.exchange(MESSAGES)
            time.sleep(PACE)
        stranger.await_end()
        self.await_failure("timer L2")
        self.near.await_log("close s0 .* node$")
        self.pair.exchange(MESSAGES)

    def test_a_frame_without_its_end(self) -> None:
        stranger = self.meet(l2=SHORT)
        stranger.send(status_frame(Status.ALIGNMENT)[:-1])
        self.pair.exchange(MESSAGES)
        stranger.await_end()
        self.await_failure("timer L2")
        self.pair.exchange(MESSAGES)

    def test_junk(self) -> None:
        stranger = self.meet()
        stranger.send(b"\xff" * 8 + random.Random(1).randbytes(4088))
        self.pair.exchange(MESSAGES)
        stranger.await_end()
        self.near.await_log("close s0 .* framing$")
        self.taken()
        self.pair.exchange(MESSAGES)

    def test_a_peer_that_never_reads(self) -> None:
        peer = self.meet(l7=LONGER, t1=4)
        peer.send(status_frame(Status.ALIGNMENT))
        self.await_state("Aligned")
        peer.send(status_frame(Status.PROVING_NORMAL) + status_frame(Status.READY))
        self.await_state("InService")
        self.pair.exchange(MESSAGES)
        answers = submit_to(self.near, NEAR, OTHER, POOL + BEYOND)
        self.assertEqual(answers, {"queued s0": POOL, "refused 5 PoolFull": BEYOND})
        self.assertEqual(self.near.links()["s0"], ("InService", POOL))
        self.assertEqual(submit_to(self.near, NEAR, FAR, MESSAGES), {"refused 5 PoolFull": MESSAGES})
        for _ in range(5):
            self.pair.back.exchange(MESSAGES)
        self.assertEqual(self.near.logged("notice failed "), 0, "the pool was full all the while")
        self.await_failure("timer L7")
        peer.await_end()
        wait_until(lambda: self.near.links()["s0"] == ("Down", 0), "no message waits for the peer")
        self.near.await_log(f"notice lost 4 NoRoute {OTHER} ")
        self.pair.exchange(MESSAGES)

    def test_a_thousand_connections(self) -> None:
        allow_sockets(CONNECTIONS + 100)
        first = self.meet()
        began = time.monotonic()
        others = [Stranger(self.port) for _ in range(CONNECTIONS - 1)]
        for stranger in others:
            self.addCleanup(stranger.close)
        self.pair.exchange(MESSAGES)
        for stranger in others:
            stranger.await_end()
        self.near.await_log("refuse s0 ")
        logged, seconds = self.near.logged("refuse s0 "), time.monotonic() - began
        self.assertLessEqual(logged, LINES_A_SECOND * (seconds + 2), f"lines in {seconds:.1f} s")
        self.assertEqual(self.near.links()["s0"][0], "NotAligned", "the first one has the link")
        first.close()
        self.await_state("Down")
        self.pair.exchange(MESSAGES)
