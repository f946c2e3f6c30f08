"""Messages between two nodes at a steady pace while somebody attacks one of them, and what that may not change: no link
fails, no message is late, and log and memory stay small."""

from __future__ import annotations

import re
import socket
import threading
import time
from collections.abc import Iterator
from contextlib import contextmanager
from pathlib import Path

from harness import HOST, PATIENCE, Node, NodeTest
from traffic import Flowing

# Seconds between two messages of a flow, and by how many one may be late.
PACE, LATE = 0.05, 1.0

# What an attack may add to the log of a node in a second, and to its memory in all, in octets.
LOG_OCTETS, MEMORY_OCTETS = 32_768, 8 << 20

# How long a round of the node's loop may take, in seconds. How fast the machine is decides, and what else runs on it.
LONGEST_TURN = 1.0


class SteadyFlow(threading.Thread):
    """Sends a message, waits until it came, and sends the next one at its time, until it is ended."""

    def __init__(self, flowing: Flowing) -> None:
        super().__init__(daemon=True)
        self.flowing = flowing
        self.fault: Exception | None = None
        self.is_ending = threading.Event()
        self.count, self.latest = 0, 0.0

    def run(self) -> None:
        try:
            while not self.is_ending.is_set():
                began = time.monotonic()
                self.flowing.exchange(1)
                taken = time.monotonic() - began
                self.count, self.latest = self.count + 1, max(self.latest, taken)
                self.is_ending.wait(max(0.0, PACE - taken))
        except (AssertionError, OSError) as fault:
            self.fault = fault

    def end(self) -> None:
        self.is_ending.set()
        self.join(PATIENCE)
        if self.fault is not None:
            raise AssertionError("a message doesn't come") from self.fault
        assert not self.is_alive(), "a message doesn't come"


def memory_of(node: Node) -> int:
    """The octets of memory that a node's process has now."""
    assert node.process is not None
    text = Path(f"/proc/{node.process.pid}/status").read_text()
    found = re.search(r"VmRSS:\s+(\d+) kB", text)
    assert found
    return int(found[1]) * 1024


def longest_turn(page: int) -> float:
    """The longest round of a node's loop in seconds, as its metrics say."""
    request = f"GET /metrics HTTP/1.1\r\nHost: {HOST}:{page}\r\nConnection: close\r\n\r\n"
    answer = b""
    with socket.create_connection((HOST, page), timeout=PATIENCE) as client:
        client.sendall(request.encode())
        while piece := client.recv(1 << 16):
            answer += piece
    found = re.search(rb"^stp_longest_turn_seconds (\S+)$", answer, re.MULTILINE)
    assert found, "the metrics have no longest round"
    return float(found[1])


class Steady:
    """Messages each way between the two nodes of a pair while the near one, which has a page, is attacked."""

    def __init__(self, test: NodeTest, pair, page: int) -> None:
        self.test, self.pair, self.page = test, pair, page

    @contextmanager
    def attacked(self, what: str) -> Iterator[None]:
        """Meanwhile messages go each way, of which the first came before. At the end it says what the attack did, and
        fails if that was too much."""
        near = self.pair.near
        self.pair.exchange(1)
        flows = [SteadyFlow(flowing) for flowing in (self.pair.forth, self.pair.back)]
        log, memory, began = (near.folder / "log").stat().st_size, memory_of(near), time.monotonic()
        for flow in flows:
            flow.start()
        yield
        for flow in flows:
            flow.end()
        seconds = time.monotonic() - began
        logged = ((near.folder / "log").stat().st_size - log) / seconds
        grown, latest, turn = memory_of(near) - memory, max(flow.latest for flow in flows), longest_turn(self.page)
        print(f"{what}: {sum(flow.count for flow in flows)} messages in {seconds:.1f} s, the latest after "
              f"{latest * 1000:.0f} ms; log {logged / 1024:.1f} kB a second, memory {grown / 1024:+.0f} kB, "
              f"longest round {turn * 1000:.1f} ms", flush=True)
        self.check(latest, logged, grown, turn)

    def check(self, latest: float, logged: float, grown: int, turn: float) -> None:
        for name in self.pair.names:
            for node in (self.pair.near, self.pair.far):
                self.test.assertEqual(node.logged(f"(close|notice failed) {name} "), 0, f"failures of {name}")
        self.test.assertLess(latest, LATE, "seconds until the latest message came")
        self.test.assertLess(logged, LOG_OCTETS, "octets of the log in a second")
        self.test.assertLess(grown, MEMORY_OCTETS, "octets of memory")
        self.test.assertGreater(turn, 0, "seconds of the longest round")
        self.test.assertLess(turn, LONGEST_TURN, "seconds of the longest round")
