"""The network between two ends of a link over SCTP, in which a stranger sends INITs to one of them as if from the other
one: a process of its own.

    blind.py NEAR_PORT FAR_PORT NEAR_END FAR_END DELAY_MS

What comes at NEAR_PORT goes on from FAR_PORT to the end at the port FAR_END, and back, each after DELAY_MS. It says
`ready` once it does, and takes lines on standard input:

    inits RATE SOURCE DESTINATION
    rest

From `inits`, at which it says `begun`, to `rest` RATE INITs a second go from NEAR_PORT to the near end, with these SCTP
ports, each with another random tag; at `rest` it says how many these were, and in how many seconds. It ends at the end
of its input.
"""

from __future__ import annotations

import contextlib
import os
import random
import select
import signal
import socket
import struct
import sys
import time
from collections import deque
from typing import Iterator

from packets import INIT, chunk, packet

HOST = "127.0.0.1"
BUFFER = 1 << 22
# What an INIT offers: octets of its window, and streams each way.
WINDOW, STREAMS = 65_536, 2
# After so many INITs the tags come again.
MOST_TAGS = 20_000
# How many may be late at once, for how long there is nothing to send, and after how many seconds they end in any case.
MOST_LATE, PAUSE, LONGEST = 500, 0.001, 120.0


def socket_at(port: int) -> socket.socket:
    made = socket.socket(socket.AF_INET, socket.SOCK_DGRAM)
    made.setsockopt(socket.SOL_SOCKET, socket.SO_RCVBUF, BUFFER)
    made.bind((HOST, port))
    made.setblocking(False)
    return made


def init(source: int, destination: int) -> bytes:
    """An INIT with a random tag and first TSN (RFC 9260 §3.3.2)."""
    tag, first_tsn = random.randrange(1, 1 << 32), random.randrange(1 << 32)
    return packet(source, destination, 0, chunk(INIT, struct.pack(">IIHHI", tag, WINDOW, STREAMS, STREAMS, first_tsn)))


class Stranger:
    """A process that sends INITs to an end, by the socket from which what the other end says comes to it."""

    def __init__(self, by: socket.socket, end: int, rate: int, source: int, destination: int) -> None:
        self.by, self.to, self.rate, self.goes_on = by, (HOST, end), rate, True
        self.parent, self.process = os.getpid(), os.fork()
        if self.process == 0:
            signal.signal(signal.SIGTERM, self.rest)
            self.run([init(source, destination) for _ in range(min(MOST_TAGS, 2 * rate))])
            os._exit(0)

    def rest(self, *_: object) -> None:
        self.goes_on = False

    def run(self, inits: list[bytes]) -> None:
        os.write(1, b"begun\n")
        began, sent = time.monotonic(), 0
        while self.goes_on and os.getppid() == self.parent and (passed := time.monotonic() - began) < LONGEST:
            due = int(passed * self.rate) - sent
            for _ in range(min(due, MOST_LATE)):
                with contextlib.suppress(OSError):
                    self.by.sendto(inits[sent % len(inits)], self.to)
                sent += 1
            time.sleep(PAUSE)
        with contextlib.suppress(BrokenPipeError):
            os.write(1, f"sent {sent} in {time.monotonic() - began:.1f} s\n".encode())

    def end(self) -> None:
        os.kill(self.process, signal.SIGTERM)
        os.waitpid(self.process, 0)


def received(at: socket.socket) -> Iterator[bytes]:
    """What waits at a socket. A port where nobody is is told by an error, which is about one datagram."""
    while True:
        try:
            yield at.recv(1 << 16)
        except ConnectionRefusedError:
            continue
        except BlockingIOError:
            return


class Network:
    def __init__(self, near_port: int, far_port: int, near_end: int, far_end: int, delay: float) -> None:
        self.near, self.far = socket_at(near_port), socket_at(far_port)
        self.across = {self.near: (self.far, far_end), self.far: (self.near, near_end)}
        self.near_end, self.delay = near_end, delay
        self.waiting: deque[tuple[float, socket.socket, bytes]] = deque()
        self.stranger: Stranger | None = None

    def take(self, line: str) -> None:
        word, *numbers = line.split()
        if self.stranger is not None:
            self.stranger.end()
        self.stranger = Stranger(self.near, self.near_end, *map(int, numbers)) if word == "inits" else None

    def pass_on(self) -> None:
        """Sends what has waited long enough."""
        while self.waiting and self.waiting[0][0] <= time.monotonic():
            _, came, octets = self.waiting.popleft()
            out, end = self.across[came]
            with contextlib.suppress(OSError):
                out.sendto(octets, (HOST, end))

    def run(self) -> None:
        print("ready", flush=True)
        while True:
            wait = max(0.0, self.waiting[0][0] - time.monotonic()) if self.waiting else None
            ready, _, _ = select.select([self.near, self.far, sys.stdin], [], [], wait)
            for at in ready:
                if at is sys.stdin:
                    lines = os.read(0, 1000).decode().splitlines()
                    if not lines:
                        return
                    for line in lines:
                        self.take(line)
                    continue
                for octets in received(at):
                    self.waiting.append((time.monotonic() + self.delay, at, octets))
            self.pass_on()


if __name__ == "__main__":
    *ports, delay_ms = map(int, sys.argv[1:])
    network = Network(*ports, delay_ms / 1000)
    try:
        network.run()
    finally:
        if network.stranger is not None:
            network.stranger.end()
