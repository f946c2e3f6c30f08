"""A wire between two interfaces of a network namespace, which loses packets of SCTP: a process of its own.

    wire.py NEAR FAR LOSS SEED

Each frame that comes at one interface goes out at the other, but for a share LOSS of those that carry protocol 132. It
says `ready` once it carries frames. At SIGTERM it says how many of these passed and how many were lost, and ends.
"""

from __future__ import annotations

import contextlib
import random
import select
import signal
import socket
import struct
import sys

# From <linux/if_ether.h> and <linux/if_packet.h>.
ETH_P_ALL, IPV4, IPV6 = 0x0003, b"\x08\x00", b"\x86\xdd"
PACKET_OUTGOING, PACKET_ADD_MEMBERSHIP, PACKET_MR_PROMISC = 4, 1, 1
SOL_PACKET = 263
SCTP = 132


def open_at(interface: str) -> socket.socket:
    """A socket that gets every frame which comes at the interface."""
    made = socket.socket(socket.AF_PACKET, socket.SOCK_RAW, socket.htons(ETH_P_ALL))
    made.setsockopt(socket.SOL_SOCKET, socket.SO_RCVBUF, 1 << 22)
    made.bind((interface, 0))
    every = struct.pack("=iHH8s", socket.if_nametoindex(interface), PACKET_MR_PROMISC, 0, b"")
    made.setsockopt(SOL_PACKET, PACKET_ADD_MEMBERSHIP, every)
    made.setblocking(False)
    return made


def is_sctp(frame: bytes) -> bool:
    """Whether the frame carries a packet of SCTP, or a fragment of one over IPv4."""
    kind = frame[12:14]
    return (kind == IPV4 and frame[23] == SCTP) or (kind == IPV6 and frame[20] == SCTP)


class Ends(Exception):
    """SIGTERM came."""


def end(number: int, frame: object) -> None:
    raise Ends


def run(near: str, far: str, loss: str, seed: str) -> None:
    signal.signal(signal.SIGTERM, end)
    ends, chance = (open_at(near), open_at(far)), random.Random(int(seed))
    across = {ends[0]: ends[1], ends[1]: ends[0]}
    passed = lost = 0
    with contextlib.suppress(Ends):
        print("ready", flush=True)
        while True:
            for came in select.select(ends, [], [])[0]:
                with contextlib.suppress(BlockingIOError):
                    frame, (_, _, kind, *_) = came.recvfrom(1 << 16)
                    if kind == PACKET_OUTGOING:
                        continue
                    is_lost = is_sctp(frame) and chance.random() < float(loss)
                    lost += is_lost
                    passed += is_sctp(frame) and not is_lost
                    if not is_lost:
                        across[came].send(frame)
    print(f"passed {passed} lost {lost}", flush=True)


if __name__ == "__main__":
    run(*sys.argv[1:])
