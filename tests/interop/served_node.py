"""A node that `stp serve` runs over SCTP, against an M2PA end over usrsctp, through a relay that harms datagrams.

    python3 tests/interop/served_node.py [WORD..]

It needs a C compiler and usrsctp (Debian: libusrsctp-dev), and the built program (crates/stp/out/stp, or another one by
the environment variable STP). With words it makes only the runs in whose names one of them stands. Each run has a line;
the last says how many of them ended well. Where tshark is there, it reads the capture of each run.
"""
import contextlib
import pathlib
import re
import shutil
import subprocess
import sys
import tempfile
import time
from dataclasses import dataclass

HERE = pathlib.Path(__file__).resolve().parent
sys.path[:0] = [str(HERE), str(HERE.parent)]

from checksums import GOOD, statuses  # noqa: E402
from harness import HOST, TIMERS, Node, free_port, wait_until  # noqa: E402
from two_ends import build  # noqa: E402

NODE, END = 1, 2
NODE_SCTP, END_SCTP = 3565, 3566
# ticks of 20 ms; a timer of this many never runs out here
TICK_MS, LONG = 20, 20_000
# T1, after which messages of a link that is gone are released; proving; and how long a link may take to align
T1, L4, L1 = 20, 5, 500
SIO, USER_PART = 0x8F, 15  # national, a spare user part: no reader knows its fields
MOST_FIELD = 272
# lines that are written before their answers are read, and messages that may wait in the node
BURST, POOL = 200, 20_000
# the first number of the next life of a process
LIFE = 1_000_000
MINUTES = 3 * 60


@dataclass(frozen=True)
class Run:
    """What is done: who opens, what the network does, how many messages go each way, and what ends the association."""

    name: str
    node_tries: bool = True
    end_mode: str = "listen"
    loss: float = 0.0
    doubling: float = 0.0
    jitter_ms: int = 0
    count: int = 10_000
    ending: str = ""


RUNS = [
    Run("the node opens"),
    Run("the end opens", node_tries=False, end_mode="connect"),
    Run("both open", end_mode="connect"),
    Run("loss of 1 %", loss=0.01),
    Run("loss of 5 %", loss=0.05),
    Run("loss of 10 %", loss=0.1),
    Run("doubling of 30 %", doubling=0.3),
    Run("reordering within 10 ms", jitter_ms=10),
    Run("all of it", loss=0.03, doubling=0.1, jitter_ms=5),
    Run("the end aborts", ending="abort"),
    Run("the end shuts down", ending="shutdown"),
    Run("the end aborts, which opens", node_tries=False, end_mode="connect", ending="abort"),
    Run("the end is killed", ending="kill end"),
    Run("the end is killed, which opens", node_tries=False, end_mode="connect", ending="kill end"),
    Run("the node is killed", ending="kill node"),
    Run("the node is killed, the end opens", node_tries=False, end_mode="connect", ending="kill node"),
    Run("the operator takes the link out", ending="operator"),
]


def field(number: int, opc: int, dpc: int) -> bytes:
    """The field of a message: label (Q.704 §2.2), number, and filler up to a length that the number gives."""
    length = 8 + number * 7919 % (1 << 32) % (MOST_FIELD - 8 + 1)
    label = dpc | opc << 14 | (number & 15) << 28
    head = label.to_bytes(4, "little") + number.to_bytes(4, "big")
    return head + bytes((i + number) & 255 for i in range(8, length))


def settings(run: Run, udp: int, remote: int, console: int) -> str:
    ticks = {**dict.fromkeys(TIMERS, LONG), "t1": T1, "l4": L4, "l1": L1, "l2": L1, "l3": L1}
    lines = ["version = 2", f"own = {NODE}", "network = 2", "window = 128", f"pool = {POOL}", f"users = [{USER_PART}]"]
    lines += ["subsystems = [8]", "[serve]", f"tick_ms = {TICK_MS}", f'udp = "{HOST}:{udp}"']
    lines += [f'console = "{HOST}:{console}"', 'capture = "node.pcap"', "[serve.sctp]", "heartbeat_ms = 500"]
    lines += ["[timers]", *(f"{name} = {count}" for name, count in ticks.items())]
    lines += ['[[set]]\nname = "east"\nadjacent = 2', '[[link]]\nname = "e0"\nset = "east"\nslc = 0']
    lines += [f'remote = "{HOST}:{remote}"', f"sctp_port = {NODE_SCTP}", f"remote_sctp_port = {END_SCTP}"]
    lines += [f"tries = {str(run.node_tries).lower()}", '[[destination]]\npoint = 2\nsets = ["east"]\njoined = false']
    return "\n".join(lines) + "\n"


class Judge:
    """What comes to the node's user: rising numbers, so nothing twice; and whether none was missing."""

    def __init__(self) -> None:
        self.received = self.skipped = self.next = 0

    def note(self, line: str) -> None:
        octets = bytes.fromhex(line.split()[2])
        number = int.from_bytes(octets[5:9], "big")
        assert octets == bytes([SIO]) + field(number, END, NODE), f"other octets: {line}"
        assert number >= self.next, f"message {number} came before"
        if number // LIFE == self.next // LIFE:
            self.skipped += number - self.next
        self.next = number + 1
        self.received += 1


class Traffic:
    """Messages of the node's user to the end, and back. Where the association ends, the node may refuse some of them:
    once T1 has let the others go, there is no route until the link is back."""

    def __init__(self, node: Node, first: int, ends: bool) -> None:
        self.node, self.first, self.submitted = node, first, 0
        self.refusals = {"refused 4 NoRoute"} if ends else set()
        self.submitter, self.user = node.call(), node.call()
        self.user.ask("users")
        self.judge = Judge()

    def submit(self, count: int) -> None:
        for start in range(0, count, BURST):
            burst = range(self.submitted, self.submitted + min(BURST, count - start))
            texts = (bytes([SIO]) + field(self.first + k, NODE, END) for k in burst)
            self.submitter.write("".join(f"submit {text.hex()}\n" for text in texts))
            answers = self.submitter.read_lines(len(burst))
            others = {it for it in answers if it != "held" and not it.startswith("queued ")}
            assert others <= self.refusals, f"not taken: {others}"
            self.submitted += len(burst)

    def hear_until(self, condition) -> None:
        """Reads what comes to the user until the condition holds."""
        end = time.monotonic() + MINUTES
        self.user.socket.settimeout(0.2)
        while not condition():
            assert time.monotonic() < end, f"received {self.judge.received} after {MINUTES} s"
            with contextlib.suppress(TimeoutError):
                self.judge.note(self.user.read_line())


class End:
    """The M2PA end over usrsctp, as a process."""

    def __init__(self, program, run: Run, udp: int, relay: int, stays: bool, first: int = 0) -> None:
        # one that stays sends half of them in an association, and so has the other half for the next
        count = 2 * run.count if stays else run.count
        words = [program, udp, relay, END_SCTP, NODE_SCTP, run.end_mode, END, NODE, count]
        words += ["stay", first] if stays else []
        words += [run.ending, run.count // 3] if run.ending in ("abort", "shutdown") else []
        self.lines: list[str] = []
        self.process = subprocess.Popen([str(word) for word in words], stdout=subprocess.PIPE, text=True)

    def finish(self) -> str:
        """Waits until it ends. Returns its last line."""
        out, _ = self.process.communicate(timeout=MINUTES)
        self.lines = out.splitlines()
        assert self.process.returncode == 0, f"the end: {self.lines[-2:]}"
        return self.lines[-1]

    def terminate(self) -> str:
        self.process.terminate()
        return self.finish()


class Setting:
    """The node, the relay, and what the run needs of both."""

    def __init__(self, run: Run, folder: pathlib.Path, program) -> None:
        self.run, self.program = run, program
        self.node_udp, self.end_udp, self.near, self.far, console = (free_port() for _ in range(5))
        self.node = Node(folder / "node", settings(run, self.node_udp, self.near, console), console, [])
        harm = (run.loss, run.doubling, run.jitter_ms, 1)
        ports = (self.near, self.far, self.node_udp, self.end_udp)
        words = [sys.executable, HERE / "relay.py", *ports, *harm]
        self.relay = subprocess.Popen([str(word) for word in words])
        self.ends: list[End] = []

    def end(self, stays: bool, first: int = 0) -> End:
        self.ends.append(End(self.program, self.run, self.end_udp, self.far, stays, first))
        return self.ends[-1]

    def close(self) -> None:
        for end in self.ends:
            end.process.kill()
        self.relay.kill()
        self.node.kill()

    def flags(self) -> str:
        return ", ".join(self.node.ask("show flags"))

    def in_service(self) -> bool:
        return self.node.links()["e0"][0] == "InService"


def go(setting: Setting) -> str:
    """An association that lasts: each message comes once, in order, both ways."""
    run, node = setting.run, setting.node
    node.start()
    end = setting.end(stays=False)
    traffic = Traffic(node, 0, ends=False)
    wait_until(setting.in_service, "the link is in service")
    began = time.monotonic()
    traffic.submit(run.count)
    traffic.hear_until(lambda: traffic.judge.received == run.count)
    wait_until(lambda: node.links()["e0"] == ("InService", 0), "all is confirmed")
    took = time.monotonic() - began
    last = end.finish()
    assert last.startswith(f"done: sent {run.count} acknowledged {run.count} received {run.count} "), last
    assert traffic.judge.skipped == 0
    return f"each once, in order, in {took:.1f} s\n{setting.flags()}"


def end_it(setting: Setting, end: End, traffic: Traffic) -> tuple[End, Traffic]:
    """Ends the association in the way of the run, where the end doesn't do so by itself. Returns who goes on."""
    node, ending = setting.node, setting.run.ending
    if ending == "kill end":
        end.process.kill()
        end.process.wait()
        end = setting.end(stays=True, first=LIFE)
    elif ending == "kill node":
        node.kill()
        node.start()
        traffic = Traffic(node, LIFE, ends=True)
    elif ending == "operator":
        node.ask("deactivate e0")
        node.await_log("close e0 .* node")
        node.ask("activate e0")
    return end, traffic


def go_on(setting: Setting) -> str:
    """An association that ends in the middle: the link comes back, and nothing comes twice."""
    run, node = setting.run, setting.node
    node.start()
    end = setting.end(stays=True)
    traffic = first = Traffic(node, 0, ends=True)
    wait_until(setting.in_service, "the link is in service")
    # the end that ends it does so once a third has reached it; otherwise it is ended here
    traffic.submit(run.count // 2 if run.ending in ("abort", "shutdown") else BURST)
    traffic.hear_until(lambda: traffic.judge.received >= run.count // 3)
    end, traffic = end_it(setting, end, traffic)
    if run.ending != "kill node":
        node.await_log("close e0 ")
    wait_until(setting.in_service, "the link is in service again")
    before = traffic.judge.received
    traffic.submit(run.count // 4)
    traffic.hear_until(lambda: traffic.judge.received > before)
    wait_until(lambda: setting.in_service() and node.links()["e0"][1] == 0, "all is confirmed")
    traffic.hear_until(lambda: quiet(traffic))
    assert first.judge.received > 0
    flags, judge = setting.flags(), traffic.judge
    said = end.terminate()
    lost = [line for line in end.lines if line.startswith("lost")]
    here = f"nothing twice; {judge.received} came to the node, {judge.skipped} are missing"
    return "\n".join([here, f"the end is {said}", *lost, flags])


def quiet(traffic: Traffic) -> bool:
    """Whether nothing came for a second."""
    before = traffic.judge.received
    end = time.monotonic() + 1
    while time.monotonic() < end:
        with contextlib.suppress(TimeoutError):
            traffic.judge.note(traffic.user.read_line())
    return traffic.judge.received == before


def read_capture(folder: pathlib.Path) -> str:
    """What tshark says of the capture: how many packets, and how many it complains of."""
    capture = folder / "node" / "node.pcap"
    if shutil.which("tshark") is None or not capture.exists():
        return "no tshark"
    found = statuses(capture)
    assert found.keys() == {GOOD}, f"tshark complains: {found}"
    return f"{found[GOOD]} packets, none malformed, checksums right"


def make(run: Run, program) -> tuple[bool, str]:
    with tempfile.TemporaryDirectory() as room:
        folder = pathlib.Path(room)
        setting = Setting(run, folder, program)
        try:
            told = (go_on if run.ending else go)(setting)
            if setting.node.process.poll() is None:
                setting.node.stop()
            return True, f"{told}\n{read_capture(folder)}"
        except Exception as error:  # a run that fails is told of, and the next one is made
            log = setting.node.log()[-4:] if (setting.node.folder / "log").exists() else []
            return False, f"{type(error).__name__}: {error}\nlog {log}"
        finally:
            setting.close()


def main() -> int:
    words = sys.argv[1:]
    runs = [run for run in RUNS if not words or any(word in run.name for word in words)]
    if shutil.which("cc") is None or not pathlib.Path("/usr/include/usrsctp.h").exists():
        print("skipped: there is no C compiler, or no usrsctp (libusrsctp-dev)")
        return 0
    with tempfile.TemporaryDirectory() as room:
        program = build(room)
        good = unflagged = 0
        for run in runs:
            is_good, told = make(run, program)
            good += is_good
            unflagged += is_good and re.search(r"lost_any 0\b", told) is not None
            print(f"{'ok' if is_good else 'FAILED'} {run.name}", *told.splitlines(), sep="\n    ", flush=True)
        print(f"{good} of {len(runs)} ended well; in {unflagged} lost_any stayed false")
        return 0 if good == len(runs) else 1


if __name__ == "__main__":
    sys.exit(main())
