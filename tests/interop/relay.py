"""A relay of UDP datagrams that loses, doubles, delays and reorders them: the network between two ends.

    relay.py NEAR_PORT FAR_PORT NEAR_END FAR_END LOSS DOUBLING JITTER_MS SEED

What comes at NEAR_PORT goes on from FAR_PORT to the end at FAR_END, and back. From SIGUSR1 to SIGUSR2 all is lost.
"""
import heapq
import random
import select
import signal
import socket
import sys
import time


def socket_at(port):
    made = socket.socket(socket.AF_INET, socket.SOCK_DGRAM)
    made.setsockopt(socket.SOL_SOCKET, socket.SO_RCVBUF, 1 << 21)
    made.bind(("127.0.0.1", port))
    made.setblocking(False)
    return made


def received(sock):
    """The datagrams that wait. A refused port is told by an error, which is about one datagram."""
    while True:
        try:
            yield sock.recv(65536)
        except ConnectionRefusedError:
            continue
        except BlockingIOError:
            return


class Cut:
    """Whether all is lost now."""

    def __init__(self):
        self.is_on = False
        signal.signal(signal.SIGUSR1, lambda *_: self.set(True))
        signal.signal(signal.SIGUSR2, lambda *_: self.set(False))

    def set(self, is_on):
        self.is_on = is_on


def run(near_port, far_port, near_end, far_end, loss, doubling, jitter_ms, seed):
    near, far = socket_at(int(near_port)), socket_at(int(far_port))
    ways = {near: (far, int(far_end)), far: (near, int(near_end))}
    chance, cut = random.Random(int(seed)), Cut()
    waiting, number = [], 0
    while True:
        wait = max(0.0, waiting[0][0] - time.monotonic()) if waiting else None
        ready, _, _ = select.select([near, far], [], [], wait)
        for sock in ready:
            for octets in received(sock):
                for _ in range(1 + (chance.random() < float(doubling))):
                    if cut.is_on or chance.random() < float(loss):
                        continue
                    number += 1
                    when = time.monotonic() + chance.random() * float(jitter_ms) / 1000
                    heapq.heappush(waiting, (when, number, sock is near, octets))
        while waiting and waiting[0][0] <= time.monotonic():
            _, _, from_near, octets = heapq.heappop(waiting)
            out, end = ways[near if from_near else far]
            try:
                out.sendto(octets, ("127.0.0.1", end))
            except ConnectionRefusedError:
                pass


if __name__ == "__main__":
    run(*sys.argv[1:])
