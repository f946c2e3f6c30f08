"""A long capture into a ring of files: the newest files are whole, and tshark reads each.

    python3 tests/interop/kept_captures.py [OCTETS [SIZE FILES]]

Two nodes of `stp serve` on this machine have three links over TCP, and each translates a global title to the other.
So unitdata with this title circle between them, until the near one has captured OCTETS (10,000,000,000) into a ring of
FILES files (4) of SIZE octets each (100,000,000). Then the rows are removed, the near one stops, and its files are
looked at: each is a whole capture of at most SIZE octets, they are the newest, and their packets have no gap up to the
last frame that the counters have. Where tshark is there, it reads each, and finds a frame of M2PA in each packet.
"""

from __future__ import annotations

import struct
import sys
import time
import unittest
from pathlib import Path

HERE = Path(__file__).resolve().parent
sys.path[:0] = [str(HERE.parent)]

from frames import label  # noqa: E402
from test_capture import LONGEST_OCTETS, RingTest, files_of, numbers_of  # noqa: E402
from traffic import FAR, FLOWS, NEAR, Pair  # noqa: E402

OCTETS, SIZE, FILES = 10_000_000_000, 100_000_000, 4
SECONDS = 4 * 3600

# How many unitdata circle: fewer than a link may have unconfirmed.
CIRCLING = 96

# Service indicator 3 in a national network; UDT of class 0, to title 49 by its title, from subsystem 8 at the near node
# (Q.713).
SCCP, UDT, CLASS = 0x83, 9, 0
CALLED, CALLING = bytes([0x10, 0, 0x12, 4, 0x94]), struct.pack("<BHB", 0x43, NEAR, 8)


def unitdata(sls: int) -> bytes:
    """A UDT of the most octets for the far node, whose title leads on from there to the near one, and so on."""
    called, calling = (struct.pack("B", len(it)) + it for it in (CALLED, CALLING))
    front = label(NEAR, FAR, sls) + bytes([UDT, CLASS, 3, 2 + len(called), 1 + len(called) + len(calling)])
    room = LONGEST_OCTETS - len(front + called + calling) - 1
    return bytes([SCCP]) + front + called + calling + bytes([room]) + room * b"\x5a"


class KeptCaptures(RingTest):
    LIMIT = SECONDS

    def __init__(self, octets: int, size: int, files: int) -> None:
        super().__init__()
        self.octets, self.size, self.files = octets, size, files

    def lead(self, pair: Pair, order: str) -> None:
        """Each node's row leads to the other, or none does."""
        for node, there in ((pair.near, FAR), (pair.far, NEAR)):
            row = "0 1 4 49" if order == "remove" else f"0 1 4 49 {there} title -"
            self.assertEqual(node.ask(f"title {order} {row}"), ["handled"])

    def captured(self, pair: Pair) -> int:
        return (numbers_of(pair.near)[-1] - 1) * self.size + files_of(pair.near)[-1].stat().st_size

    def runTest(self) -> None:
        pair, began = self.pair(), time.monotonic()
        self.lead(pair, "add")
        for number in range(CIRCLING):
            self.assertRegex(pair.near.ask(f"submit {unitdata(number % FLOWS).hex()}")[0], "queued|held")
        while self.captured(pair) < self.octets:
            time.sleep(0.2)
        self.lead(pair, "remove")
        captured, begun = self.captured(pair), self.check_newest(pair)
        sizes = [file.stat().st_size for file in files_of(pair.near)]
        seconds = time.monotonic() - began
        print(f"{captured} octets in {seconds:.0f} s, {begun} files begun; left are {sizes}")


if __name__ == "__main__":
    words = [int(word) for word in sys.argv[1:]]
    result = unittest.TextTestRunner(stream=sys.stdout).run(KeptCaptures(*words, *(OCTETS, SIZE, FILES)[len(words) :]))
    sys.exit(not result.wasSuccessful())
