"""The checksums of SCTP, by tshark: two nodes that `stp serve` runs, with links over SCTP over IP between them, by
relays in network namespaces, and captures of what passes at one end, over IP and in UDP.

    python3 tests/interop/checksums.py [MESSAGES]

By default 5,000 messages go each way. The checksum of each packet has to be right but for one: that is sent with a
wrong checksum, to show that tshark looks. It needs the built program, tshark and dumpcap (Debian: tshark), and what
tests/test_sctp_over_ip.py needs.
"""

import pathlib
import shutil
import signal
import subprocess
import sys
import time
import unittest
from collections import Counter

HERE = pathlib.Path(__file__).resolve().parent
sys.path[:0] = [str(HERE), str(HERE.parent)]

from lossy_network import read_what_came  # noqa: E402
from namespaces import Program, four, interface  # noqa: E402
from packets import DATA, chunk, packet  # noqa: E402
from test_sctp_over_ip import FAR_PORT, NEAR_PORT, SENDER, UDP, OverIp, OverIpTest  # noqa: E402
from traffic import FAR, NEAR  # noqa: E402

# By itself tshark looks at no checksum of SCTP. What it then says of one (`sctp.checksum.status`). What the messages
# carry isn't of the ISDN user part, as it would read it.
CHECKED = ("-o", "sctp.checksum:CRC 32c", "--disable-protocol", "isup")
GOOD, BAD = "1", "0"
POOL, BURST = 20_000, 250
# In seconds: by then dumpcap has read what passed. What it hasn't read as it ends is in no capture.
READ = 1.0


def statuses(capture: pathlib.Path) -> Counter[str]:
    """What tshark says of the checksums of a capture's packets of SCTP, and how many of these it calls malformed."""
    words = ["tshark", "-r", str(capture), *CHECKED, "-Y", "sctp", "-T", "fields"]
    told = subprocess.run([*words, "-e", "sctp.checksum.status", "-e", "_ws.malformed"], capture_output=True, text=True)
    assert told.returncode == 0, told.stderr
    rows = [line.split("\t") for line in told.stdout.splitlines()]
    return Counter(status for status, _ in rows) + Counter("malformed" for _, malformed in rows if malformed)


class Play(OverIpTest):
    LIMIT = 600

    def __init__(self, messages: int) -> None:
        super().__init__("play")
        self.messages = messages

    def capture(self, pair: OverIp, device: str, wanted: str) -> tuple[pathlib.Path, Program]:
        """Begins a capture at the near end."""
        file = self.folder / f"{device}.pcap"
        words = ("dumpcap", "-q", "-P", "-i", device, "-f", wanted, "-w", file)
        program = Program(pair.network.near, self.folder / f"{device}.log", *words)
        program.await_line("File: ")
        return file, program

    def play(self) -> None:
        pair = OverIp(self, pool=POOL)
        captures = {"over IP": self.capture(pair, interface(), "ip proto 132"),
                    "in UDP": self.capture(pair, "lo", f"udp port {UDP}")}
        for _ in range(self.messages // BURST):
            pair.submit(BURST)
            read_what_came(pair.forth)
            read_what_came(pair.back)
        right = packet(FAR_PORT, NEAR_PORT, 1, chunk(DATA, bytes(20)))
        wrong = right[:8] + bytes([right[8] ^ 1]) + right[9:]
        pair.network.far.run(sys.executable, "-c", SENDER, four(FAR), four(NEAR), wrong.hex())
        pair.exchange(BURST)
        self.check_undisturbed(pair.near, pair.far)
        time.sleep(READ)
        for name, (file, program) in captures.items():
            program.process.send_signal(signal.SIGINT)
            program.process.wait(30)
            found = statuses(file)
            self.assertEqual(found.keys(), {GOOD, BAD}, found)
            self.assertEqual(found[BAD], 1)
            self.assertGreater(found[GOOD], self.messages // BURST)
            print(f"{name}: {found[GOOD]} packets with the right checksum, and the one that was made wrong is found")


if __name__ == "__main__":
    if missing_tools := [tool for tool in ("tshark", "dumpcap") if shutil.which(tool) is None]:
        sys.exit(f"there is no {' and no '.join(missing_tools)}")
    given = int(sys.argv[1]) if sys.argv[1:] else 5000
    sys.exit(not unittest.TextTestRunner().run(Play(given)).wasSuccessful())
