"""Two network namespaces with wires between them, relays of SCTP over IP in them, and nodes that these join.

Each namespace lasts as long as a process that holds it. That one reads from the test, and what else runs there is
killed as the test ends. So nothing is left of them, however the test ends.
"""

from __future__ import annotations

import contextlib
import functools
import os
import shutil
import signal
import subprocess
import sys
from collections import Counter
from dataclasses import dataclass
from pathlib import Path
from typing import Sequence

from harness import PATIENCE, ROOT, started, wait_until

RELAY = ROOT / "packaging/sctp-relay"
WIRE = Path(__file__).with_name("wire.py")

# The interface at each end of the wire of a path, and an address there, without and with the length of its prefix.
INTERFACE, FOUR, SIX = "across{}", "10.{}.0.{}", "fd{}::{}"
FIRST_PREFIX, FOUR_LENGTH, SIX_LENGTH = 77, "/24", "/64"
# A program with no privilege but raw sockets, also where it is root.
RAW_SOCKETS_ALONE = ("setpriv", "--bounding-set=-all,+net_raw", "--inh-caps=-all", "--no-new-privs")
# What shows that there may be raw sockets of SCTP.
TRIAL = "import socket; socket.socket(socket.AF_INET, socket.SOCK_RAW, 132)"


def interface(path: int = 0) -> str:
    """The interface at each end of a path, by its number."""
    return INTERFACE.format(path)


def four(number: int, path: int = 0) -> str:
    """The IPv4 address of that number on a path."""
    return FOUR.format(FIRST_PREFIX + path, number)


def six(number: int, path: int = 0) -> str:
    """The IPv6 address of that number on a path."""
    return SIX.format(FIRST_PREFIX + path, number)


class Namespace:
    """A network namespace, with interfaces of its own besides the loopback one."""

    def __init__(self) -> None:
        pipes = {"stdin": subprocess.PIPE, "stdout": subprocess.PIPE, "stderr": subprocess.DEVNULL}
        self.holder = subprocess.Popen(["unshare", "--net", "cat"], **pipes)
        # (whatever is run there is killed as the test ends)
        self.words = ("nsenter", f"--net=/proc/{self.holder.pid}/ns/net", "setpriv", "--pdeathsig=KILL")
        if not self._is_there():
            self.close()
            raise OSError("no namespace can be made")

    def _is_there(self) -> bool:
        """What holds it answers, and it does so from the namespace."""
        with contextlib.suppress(BrokenPipeError):
            self.holder.stdin.write(b".")
            self.holder.stdin.flush()
        return self.holder.stdout.read(1) == b"."

    def run(self, *words: str) -> None:
        subprocess.run([*self.words, *words], check=True, capture_output=True, timeout=PATIENCE)

    def read(self, file: str) -> list[list[str]]:
        """The words of each line of a file, as it is in the namespace."""
        told = subprocess.run([*self.words, "cat", file], check=True, capture_output=True, timeout=PATIENCE)
        return [line.split() for line in told.stdout.decode().splitlines()]

    def join(self, wire: Namespace, name: str, path: int = 0) -> None:
        """Makes the interface of a path, whose other end is in the namespace of the wire under this name."""
        ends = (interface(path), "type", "veth", "peer", "name", name, "netns", str(wire.holder.pid))
        self.run("ip", "link", "add", *ends)
        for each in ("lo", interface(path)):
            self.run("ip", "link", "set", each, "up")
        wire.run("ip", "link", "set", name, "up")

    def address(self, number: int, path: int = 0) -> None:
        """Gives the interface of a path a further address of both versions of IP."""
        self.run("ip", "address", "add", four(number, path) + FOUR_LENGTH, "dev", interface(path))
        self.run("ip", "address", "add", six(number, path) + SIX_LENGTH, "dev", interface(path), "nodad")

    def ip_count(self, name: str) -> int:
        """A counter that the namespace's IP has."""
        names, values = [words for words in self.read("/proc/net/snmp") if words[0] == "Ip:"]
        return int(values[names.index(name)])

    def packets_out(self, path: int = 0) -> int:
        """How many frames went out by the interface of a path."""
        row, = [words for words in self.read("/proc/net/dev") if words[0] == f"{interface(path)}:"]
        return int(row[10])

    def close(self) -> None:
        self.holder.kill()
        self.holder.communicate()


@functools.cache
def missing() -> str:
    """Why no relays can be tried in namespaces here; empty if they can."""
    tools = [tool for tool in ("unshare", "nsenter", "setpriv", "ip") if shutil.which(tool) is None]
    if tools:
        return f"there is no {' and no '.join(tools)}"
    if Path("/proc/self/net/sctp").exists():
        return "the kernel has SCTP of its own, which answers what is sent to relays"
    made: list[Namespace] = []
    try:
        for _ in range(2):
            made.append(Namespace())
        made[0].join(made[1], "probe")
        made[0].address(1)
        made[0].run(*RAW_SOCKETS_ALONE, sys.executable, "-c", TRIAL)
    except (OSError, subprocess.SubprocessError):
        return "no network namespaces with raw sockets can be made"
    finally:
        for namespace in made:
            namespace.close()
    return ""


class Program:
    """A program in a namespace, whose output goes to a file."""

    def __init__(self, namespace: Namespace, log: Path, *words: str | Path) -> None:
        self.log = log
        with open(log, "wb") as said:
            self.process = subprocess.Popen([*namespace.words, *words], stdin=subprocess.DEVNULL, stdout=said,
                                            stderr=subprocess.STDOUT)
        started.append(self.process)

    def lines(self) -> list[str]:
        return self.log.read_text().splitlines()

    def await_line(self, text: str) -> None:
        wait_until(lambda: self.has(text), f"the line `{text}` in {self.log.name}: {self.lines()[-3:]}")

    def has(self, text: str) -> bool:
        return any(text in line for line in self.lines())

    def processor_seconds(self) -> float:
        """The processor time that it has taken."""
        fields = Path(f"/proc/{self.process.pid}/stat").read_text().rpartition(")")[2].split()
        return (int(fields[11]) + int(fields[12])) / os.sysconf("SC_CLK_TCK")

    def finish(self) -> list[str]:
        """Ends it by SIGTERM. Returns what it said."""
        self.process.terminate()
        status = self.process.wait(PATIENCE)
        assert status == 0, f"status {status} of {self.log.name}: {self.lines()[-3:]}"
        return self.lines()

    def kill(self) -> None:
        self.process.kill()
        self.process.wait()


@dataclass(frozen=True)
class RelayedPeer:
    """A peer of a relay: its name, where the node meets it, the addresses of each path, and the pairs of SCTP ports."""

    name: str
    remote: str
    paths: Sequence[tuple[str, str]]
    ports: Sequence[tuple[int, int]]

    def text(self) -> str:
        rows = [f'[[peer]]\nname = "{self.name}"\nremote = "{self.remote}"']
        if len(self.paths) == 1:
            rows.append('own_address = "{}"\npeer_address = "{}"'.format(*self.paths[0]))
        else:
            rows.append(f"paths = {[list(path) for path in self.paths]}")
        return "\n".join([*rows, f"sctp_ports = {[list(pair) for pair in self.ports]}", ""])


class Relay:
    """A relay in a namespace: it can be killed and started again."""

    def __init__(self, namespace: Namespace, folder: Path, node: str, peers: Sequence[RelayedPeer]) -> None:
        folder.mkdir()
        self.namespace, self.folder, self.starts = namespace, folder, 0
        (folder / "relay.toml").write_text(f'node = "{node}"\n' + "".join(peer.text() for peer in peers))
        self.program: Program | None = None

    def start(self) -> None:
        self.starts += 1
        words = (*RAW_SOCKETS_ALONE, sys.executable, RELAY, self.folder / "relay.toml")
        self.program = Program(self.namespace, self.folder / f"log{self.starts}", *words)
        self.program.await_line(" start ")

    def kill(self) -> None:
        if self.program is not None:
            self.program.kill()

    def counts(self) -> Counter[str]:
        """What it says at SIGUSR1 that it counted, as `east to_node`, `strangers` and `icmp`."""
        assert self.program is not None
        before = len(self.program.lines())
        self.program.process.send_signal(signal.SIGUSR1)
        wait_until(lambda: any("count strangers" in line for line in self.program.lines()[before:]), "it counts")
        return counted(self.program.lines()[before:])


def counted(lines: Sequence[str]) -> Counter[str]:
    """The numbers of the lines `count` of a relay."""
    found: Counter[str] = Counter()
    for _, kind, *words in map(str.split, lines):
        if kind == "count":
            name = f"{words.pop(0)} " if len(words) % 2 else ""
            found.update({name + key: int(value) for key, value in zip(words[::2], words[1::2])})
    return found


class Network:
    """Two namespaces with the addresses 1 and 2 of both versions of IP on each path, and for each path a wire, which
    loses a share of packets."""

    def __init__(self, folder: Path) -> None:
        self.folder, self.namespaces, self.relays = folder, list[Namespace](), list[Relay]()
        self.wires: list[Program] = []

    def make(self, loss: float, paths: int = 1) -> None:
        for _ in range(3):
            self.namespaces.append(Namespace())
        self.near, self.middle, self.far = self.namespaces
        self.loss = loss
        for path in range(paths):
            for number, (namespace, end) in enumerate(((self.near, "near"), (self.far, "far")), 1):
                namespace.join(self.middle, f"{end}{path}", path)
                namespace.address(number, path)
            self.wires.append(self.wire(path))

    def wire(self, path: int) -> Program:
        words = (sys.executable, WIRE, f"near{path}", f"far{path}", str(self.loss), "1")
        wire = Program(self.middle, self.folder / f"wire{path}", *words)
        wire.await_line("ready")
        return wire

    def cut(self, path: int) -> None:
        """From now on nothing passes by a path, and nobody is told."""
        self.wires[path].kill()

    def mend(self, path: int) -> None:
        """Packets pass by the path again."""
        self.wires[path] = self.wire(path)

    def relay(self, namespace: Namespace, node: str, *peers: RelayedPeer) -> Relay:
        """Starts a relay."""
        relay = Relay(namespace, self.folder / f"relay{len(self.relays)}", node, peers)
        self.relays.append(relay)
        relay.start()
        return relay

    def finish(self) -> tuple[int, int]:
        """Ends the wire of the first path. Returns how many packets of SCTP passed, and how many were lost."""
        _, passed, _, lost = self.wires[0].finish()[-1].split()
        return int(passed), int(lost)

    def close(self) -> None:
        for relay in self.relays:
            relay.kill()
        for wire in self.wires:
            wire.kill()
        for namespace in self.namespaces:
            namespace.close()
