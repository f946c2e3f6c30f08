"""Two nodes that `stp serve` runs, with three links over SCTP between them, over a network that loses datagrams and
changes their order, and that is cut again and again for one link at a time.

    python3 tests/interop/lossy_network.py [LOSS JITTER_MS MESSAGES CUTS]

By default 5 % of the datagrams are lost, each is kept for up to 5 ms, and while 100,000 messages go, half of them each
way, the links are cut 20 times. Each message is to come once, its flow in order, and no flag may be raised. It needs the
built program (crates/stp/out/stp, or another one by the environment variable STP).
"""
import contextlib
import pathlib
import signal
import subprocess
import sys
import tempfile
import time

HERE = pathlib.Path(__file__).resolve().parent
sys.path[:0] = [str(HERE), str(HERE.parent)]

from harness import HOST, PATIENCE, TIMERS, Node, free_port, wait_until  # noqa: E402
from traffic import Flowing  # noqa: E402

NEAR, FAR = 1, 2
NEAR_SCTP, FAR_SCTP = 3565, 3575
LINKS = ("e0", "e1", "e2")
# ticks of 20 ms; LONG never runs out here. L7 fails a link that is cut; T2 and T4 leave room for what is sent again
TICK_MS, LONG = 20, 20_000
TICKS = {**dict.fromkeys(TIMERS, LONG), "l4": 5, "l1": 500, "l2": 500, "l3": 500, "l7": 100, "t2": 1000, "t4": 1000}
# messages each way that may wait in a node, and that are submitted at once
POOL, BURST = 20_000, 250


class Relay:
    """The network of a link: a process that harms its datagrams."""

    def __init__(self, ports, loss, jitter_ms, seed):
        words = [sys.executable, HERE / "relay.py", *ports, loss, 0.0, jitter_ms, seed]
        self.process = subprocess.Popen([str(word) for word in words])

    def cut(self):
        self.process.send_signal(signal.SIGUSR1)

    def restore(self):
        self.process.send_signal(signal.SIGUSR2)


def settings(own, far, udp, console, remotes, own_ports, far_ports):
    lines = ["version = 2", f"own = {own}", "network = 2", "window = 128", f"pool = {POOL}", "users = [5]"]
    lines += ["subsystems = [8]", "[serve]", f"tick_ms = {TICK_MS}", f'udp = "{HOST}:{udp}"']
    lines += [f'console = "{HOST}:{console}"', "[serve.sctp]", "heartbeat_ms = 500", "retransmissions = 6"]
    lines += ["[timers]", *(f"{name} = {count}" for name, count in TICKS.items())]
    lines += [f'[[set]]\nname = "across"\nadjacent = {far}']
    for code, (name, remote) in enumerate(zip(LINKS, remotes)):
        lines += [f'[[link]]\nname = "{name}"\nset = "across"\nslc = {code}\nremote = "{HOST}:{remote}"']
        lines += [f"sctp_port = {own_ports + code}", f"remote_sctp_port = {far_ports + code}"]
    lines += [f'[[destination]]\npoint = {far}\nsets = ["across"]\njoined = false']
    return "\n".join(lines) + "\n"


class Network:
    """Both nodes, and a relay for each link."""

    def __init__(self, folder, loss, jitter_ms):
        near_udp, far_udp, near_console, far_console = (free_port() for _ in range(4))
        ports = [(free_port(), free_port()) for _ in LINKS]
        self.relays = [
            Relay((*pair, near_udp, far_udp), loss, jitter_ms, seed) for seed, pair in enumerate(ports)
        ]
        near = settings(NEAR, FAR, near_udp, near_console, [pair[0] for pair in ports], NEAR_SCTP, FAR_SCTP)
        far = settings(FAR, NEAR, far_udp, far_console, [pair[1] for pair in ports], FAR_SCTP, NEAR_SCTP)
        self.near = Node(folder / "near", near, near_console, [])
        self.far = Node(folder / "far", far, far_console, [])

    def close(self):
        for relay in self.relays:
            relay.process.kill()
        self.near.kill()
        self.far.kill()

    def states(self, name):
        return {node.links()[name][0] for node in (self.near, self.far)}

    def await_service(self):
        wait_until(lambda: all(self.states(name) == {"InService"} for name in LINKS), "all links are in service")


def read_what_came(flowing):
    """Reads what came, so that the console needn't keep it."""
    flowing.user.socket.settimeout(0.01)
    with contextlib.suppress(TimeoutError):
        while sum(flowing.came) < sum(flowing.sent):
            flowing._note(flowing.user.read_line())
    flowing.user.socket.settimeout(PATIENCE)


def cut_in_turn(network, forth, back, messages, cuts):
    """Messages go both ways, while one link after another is cut and restored."""
    bursts = messages // 2 // cuts // BURST
    for number in range(cuts):
        name, relay = LINKS[number % len(LINKS)], network.relays[number % len(LINKS)]
        for burst in range(bursts):
            counts = forth.write(BURST), back.write(BURST)
            if burst == bursts // 2:
                relay.cut()
            forth.take_answers(counts[0])
            back.take_answers(counts[1])
            read_what_came(forth)
            read_what_came(back)
        wait_until(lambda: "InService" not in network.states(name), f"{name} is out of service")
        relay.restore()
        network.await_service()
        forth.settle()
        back.settle()


def play(folder, loss, jitter_ms, messages, cuts):
    network = Network(folder, loss, jitter_ms)
    try:
        network.near.start()
        network.far.start()
        network.await_service()
        forth = Flowing(network.near, network.far, NEAR, FAR)
        back = Flowing(network.far, network.near, FAR, NEAR)
        began = time.monotonic()
        cut_in_turn(network, forth, back, messages, cuts)
        took = time.monotonic() - began
        flags = [network.near.ask("show flags"), network.far.ask("show flags")]
        assert all(flag.endswith(" 0") for node in flags for flag in node), flags
        notices = sum(node.logged("notice failed") for node in (network.near, network.far))
        print(f"{forth.count()} messages there and {back.count()} back, each once, its flow in order, in {took:.0f} s")
        print(f"{cuts} cuts, {notices} failures noticed at both ends; no flag was raised")
        network.near.stop()
        network.far.stop()
    finally:
        network.close()


if __name__ == "__main__":
    given = [*sys.argv[1:], *("0.05", "5", "100000", "20")[len(sys.argv) - 1 :]]
    with tempfile.TemporaryDirectory() as room:
        play(pathlib.Path(room), float(given[0]), float(given[1]), int(given[2]), int(given[3]))
