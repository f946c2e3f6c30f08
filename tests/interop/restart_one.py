"""One transfer point of a mated pair stops in order and starts again, ten times, while messages pass.

    python3 tests/interop/restart_one.py [RESTARTS [RATE]]

The nodes are those of examples/mated_*.toml, over SCTP in UDP on this machine. The two ends send each other RATE
messages a second in all (500 by default), each with a mark of its own, through the transfer points 2 and 3; point 2 is
stopped by `stp tell FILE stop` and started again RESTARTS times (10). The account at the end says how many messages
were accepted, refused, received, lost and doubled. The status is 0 if nothing came twice, and each message that was
lost has its notice: `lost` with its point and flow, or `refused`, at one of the four consoles.
"""

from __future__ import annotations

import itertools
import re
import subprocess
import sys
import tempfile
import threading
import time
from collections import Counter
from dataclasses import dataclass, field
from pathlib import Path

HERE = Path(__file__).resolve().parent
sys.path[:0] = [str(HERE.parent)]

from frames import message  # noqa: E402
from harness import HOST, ROOT, STP, Node, free_port, wait_until  # noqa: E402

FLOWS = 16
POINTS = {"a": 1, "b": 2, "c": 3, "d": 4}
STOPPED = "b"
TICK_MS, POOL = 200, 10_000
# SCTP ports of the two ends of a link, by its number
LOWER_PORT, UPPER_PORT = 3565, 3665
# how long messages pass between a restart and the next, and how long nothing more may come at the end, in seconds
BETWEEN, QUIET = 5.0, 5.0


def settings(name: str, udp: dict[str, int], console: int) -> str:
    """The settings of a node of the pair, with what it serves on. A link is named by the two nodes that it joins."""
    text = (ROOT / f"examples/mated_{name}.toml").read_text()
    served = f'[serve]\ntick_ms = {TICK_MS}\nudp = "{HOST}:{udp[name]}"\nconsole = "{HOST}:{console}"\n'
    text = re.sub(r"^pool = \d+", f"pool = {POOL}", text, flags=re.MULTILINE).replace("[timers]", f"{served}[timers]")
    for number, ends in enumerate(itertools.combinations("abcd", 2)):
        other = "".join(ends).replace(name, "")
        ports = (LOWER_PORT, UPPER_PORT) if name == ends[0] else (UPPER_PORT, LOWER_PORT)
        own, far = (port + number for port in ports)
        keys = f'remote = "{HOST}:{udp.get(other, 0)}"\nsctp_port = {own}\nremote_sctp_port = {far}\n'
        text = re.sub(rf'(?<=^name = "{"".join(ends)}"\n)', keys, text, flags=re.MULTILINE)
    return text


class Listener(threading.Thread):
    """A client of a console, which takes all that the console shows until the node closes it."""

    def __init__(self, node: Node, line: str) -> None:
        super().__init__(daemon=True)
        self.caller, self.lines = node.call(), []
        self.caller.ask(line)
        self.caller.socket.settimeout(None)
        self.start()

    def run(self) -> None:
        try:
            while True:
                self.lines.append(self.caller.read_line())
        except (AssertionError, OSError):
            return  # the node has stopped


@dataclass
class Sender:
    """Messages from one end to the other, one of each flow in turn, at a steady rate."""

    node: Node
    opc: int
    dpc: int
    rate: float
    answers: list[str] = field(default_factory=list)

    def __post_init__(self) -> None:
        self.caller, self.ends = self.node.call(), threading.Event()
        self.thread = threading.Thread(target=self.send, daemon=True)
        self.thread.start()

    def send(self) -> None:
        begun = time.monotonic()
        while not self.ends.is_set():
            due = int((time.monotonic() - begun) * self.rate) - len(self.answers)
            numbers = range(len(self.answers), len(self.answers) + due)
            self.caller.write("".join(f"submit {self.text(number)}\n" for number in numbers))
            self.answers += self.caller.read_lines(due)
            time.sleep(0.01)

    def text(self, number: int) -> str:
        return message(self.opc, self.dpc, number % FLOWS, number).hex()

    def finish(self) -> None:
        self.ends.set()
        self.thread.join()

    def accepted(self) -> dict[str, int]:
        """Each message that was accepted, with its flow."""
        taken = (number for number, answer in enumerate(self.answers) if not answer.startswith("refused"))
        return {self.text(number): number % FLOWS for number in taken}


class Account:
    """What became of the messages: what came to the users, and what the consoles told about the others."""

    def __init__(self, senders: list[Sender], users: list[Listener], watches: list[Listener]) -> None:
        accepted = [(sender, sender.accepted()) for sender in senders]
        self.accepted = sum(len(texts) for _, texts in accepted)
        self.refused = Counter(it for sender in senders for it in sender.answers if it.startswith("refused"))
        came = Counter(line.split()[2] for user in users for line in user.lines)
        self.received, self.doubled = len(came), sum(came.values()) - len(came)
        self.lost = Counter((sender.dpc, flow) for sender, texts in accepted for text, flow in texts.items()
                            if text not in came)
        notices = [line.split() for watch in watches for line in watch.lines]
        self.notices = Counter(" ".join(it[:3]) for it in notices if it[0] in ("lost", "refused"))
        self.missed = sum(int(it[1]) for it in notices if it[0] == "missed")
        self.told = Counter((int(it[3]), int(it[4])) for it in notices if it[0] == "lost")
        self.refused_on_the_way = sum(it[0] == "refused" for it in notices)

    def unexplained(self) -> int:
        """How many lost messages have no notice."""
        return max(0, (self.lost - self.told).total() - self.refused_on_the_way)

    def lines(self) -> list[str]:
        refusals = [f"  {answer}: {count}" for answer, count in sorted(self.refused.items())]
        notices = [f"  {notice}: {count}" for notice, count in sorted(self.notices.items())]
        return [f"accepted {self.accepted}, received {self.received}, lost {self.lost.total()}, doubled {self.doubled}",
                f"refused at the ends: {self.refused.total()}", *refusals,
                f"notices at the consoles: {self.notices.total()}, and {self.missed} that weren't kept", *notices,
                f"lost without a notice: {self.unexplained()}"]


class Mated:
    """The four nodes, and who watches their consoles."""

    def __init__(self, folder: Path) -> None:
        udp = {name: free_port() for name in POINTS}
        self.nodes, self.watches = {}, []
        for name in POINTS:
            console = free_port()
            self.nodes[name] = Node(folder / name, settings(name, udp, console), console, [])
        for node in self.nodes.values():
            self.start(node)
        wait_until(self.is_in_service, "all links are in service")

    def start(self, node: Node) -> None:
        node.start()
        self.watches.append(Listener(node, "watch"))

    def is_in_service(self) -> bool:
        return all(state == "InService" for node in self.nodes.values() for state, _ in node.links().values())

    def restart(self) -> str:
        """Stops the transfer point, and starts it again. Returns how that went."""
        node, begun = self.nodes[STOPPED], time.monotonic()
        subprocess.run([STP, "tell", node.folder / "node.toml", "stop"], check=True, stdout=subprocess.DEVNULL)
        status = node.await_end()
        stopped = time.monotonic()
        self.start(node)
        wait_until(self.is_in_service, "the links are in service again")
        back = time.monotonic()
        return f"status {status} after {stopped - begun:.2f} s, all links in service {back - stopped:.1f} s later"


def main() -> None:
    restarts, rate = [int(word) for word in sys.argv[1:]] + [10, 500][len(sys.argv) - 1 :]
    with tempfile.TemporaryDirectory() as room:
        mated = Mated(Path(room))
        ends = [mated.nodes["a"], mated.nodes["d"]]
        users = [Listener(node, "users") for node in ends]
        time.sleep(BETWEEN)
        senders = [Sender(ends[0], 1, 4, rate / 2), Sender(ends[1], 4, 1, rate / 2)]
        for number in range(restarts):
            time.sleep(BETWEEN)
            print(f"restart {number + 1}: {mated.restart()}", flush=True)
        time.sleep(BETWEEN)
        for sender in senders:
            sender.finish()
        count = -1
        while count != (count := sum(len(user.lines) for user in users)):
            time.sleep(QUIET)
        account = Account(senders, users, mated.watches)
        for node in mated.nodes.values():
            node.stop()
    print(*account.lines(), sep="\n")
    sys.exit(account.doubled > 0 or account.unexplained() > 0)


if __name__ == "__main__":
    main()
