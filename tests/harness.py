"""Nodes as processes of their own: starting and ending them, their settings, logs and consoles.

The program is crates/stp/out/stp, or what the environment variable STP names. A wait ends once what it waits for is
there, and fails after PATIENCE seconds; nothing is waited for by the clock alone. Each test has a limit of its own, at
which it fails, and ends all that it started.
"""

from __future__ import annotations

import atexit
import contextlib
import json
import os
import re
import signal
import socket
import subprocess
import tempfile
import time
import unittest
from collections import Counter, deque
from dataclasses import dataclass
from pathlib import Path
from typing import Any, Callable, Iterable, Sequence

ROOT = Path(__file__).resolve().parent.parent
STP = os.path.abspath(os.environ.get("STP") or ROOT / "crates/stp/out/stp")

# How long a single wait lasts, in seconds.
PATIENCE = 40.0

HOST = "127.0.0.1"

# A line that no console knows, and what it answers.
UNKNOWN = "end"
UNKNOWN_ANSWER = f"malformed: no command {UNKNOWN}; help lists them"

# Ticks of each timer if none is to run out: at 50 ms a tick, longer than any test waits.
LONG = 2000
TIMERS = ("l1", "l2", "l3", "l4", "l6", "l7", "t1", "t2", "t3", "t4", "t6", "t8", "t10")


def wait_until(condition: Callable[[], object], what: str) -> None:
    """Waits until the condition holds."""
    end = time.monotonic() + PATIENCE
    while not condition():
        if time.monotonic() > end:
            raise AssertionError(f"not within {PATIENCE:.0f} s: {what}")
        time.sleep(0.005)


# The processes that were started. However this one ends, except by SIGKILL, it ends them.
started: list[subprocess.Popen] = []


@atexit.register
def _end_all() -> None:
    for process in started:
        process.kill()


# The last port that was handed out. They are below those that the system gives to connections.
_last_port = 10_000 + os.getpid() * 37 % 20_000


def free_port() -> int:
    """Returns a port of this machine at which nobody listens, each time another one."""
    global _last_port
    for _ in range(20_000):
        _last_port = 10_000 + (_last_port - 9_999) % 20_000
        with socket.socket() as probe, contextlib.suppress(OSError):
            probe.bind((HOST, _last_port))
            return _last_port
    raise AssertionError("this machine has no free port")


@dataclass(frozen=True)
class Link:
    """A link of a node: its name, the adjacent point, its code, where it listens or connects, and from which host alone it
    takes connections, if from one."""

    name: str
    adjacent: int
    code: int
    port: int
    listens: bool
    source: str | None = None

    def text(self) -> str:
        way = "listen" if self.listens else "connect"
        return (
            f'[[link]]\nname = "{self.name}"\nset = "to-{self.adjacent}"\nslc = {self.code}\n'
            f'{way} = "{HOST}:{self.port}"\n' + f'from = "{self.source}"\n' * (self.source is not None)
        )


@dataclass(frozen=True)
class SctpLink:
    """A link over SCTP: its name, the adjacent point, its code, the UDP port of the peer, the SCTP ports of both, where
    the peer is, and the own addresses that it lists."""

    name: str
    adjacent: int
    code: int
    remote: int
    own_port: int
    far_port: int
    tries: bool = True
    host: str = HOST
    is_port_fixed: bool = False
    addresses: Sequence[str] = ()

    def text(self) -> str:
        return (
            f'[[link]]\nname = "{self.name}"\nset = "to-{self.adjacent}"\nslc = {self.code}\n'
            f'remote = "{self.host}:{self.remote}"\nsctp_port = {self.own_port}\n'
            f"remote_sctp_port = {self.far_port}\ntries = {str(self.tries).lower()}\n"
            + "remote_port_fixed = true\n" * self.is_port_fixed
            + f"addresses = {json.dumps([*self.addresses])}\n" * bool(self.addresses)
        )


def settings(own: int, links: Sequence[Link | SctpLink], *, version: int = 2, window: int = 128, pool: int = 1000,
             tick_ms: int = 50, console: int | str | None = None, page: int | None = None, page_open: bool = False,
             capture: str | None = None, capture_size: int | str | None = None, capture_files: int | None = None,
             points: str | None = None, udp: int | None = None, sctp: dict[str, int] | None = None,
             log: dict[str, str] | None = None,
             processor_outage: bool = False, **timers: int) -> str:
    """The settings of a node with these links. A console is at a port, or at the path of a Unix socket. Timers that
    aren't named are LONG, but for the proving period."""
    adjacents = list(dict.fromkeys(link.adjacent for link in links))
    ticks = {**dict.fromkeys(TIMERS, LONG), "l4": 1, **timers}
    listing = any(link.addresses if isinstance(link, SctpLink) else link.source for link in links)
    version = 4 if listing or capture_size is not None or log is not None else version
    lines = [f"version = {version}", f"own = {own}", "network = 2", f"window = {window}", f"pool = {pool}"]
    lines += ["processor_outage = true"] * processor_outage
    lines += ["users = [5]", "subsystems = [8]", "[serve]", f"tick_ms = {tick_ms}"]
    lines += [f'console = "{HOST}:{console}"'] * isinstance(console, int)
    lines += [f'console = "{console}"'] * isinstance(console, str)
    lines += [f'page = "{HOST}:{page}"'] * (page is not None)
    lines += ["page_open = true"] * page_open
    lines += [f"capture = {json.dumps(capture)}"] * (capture is not None)
    lines += [f"capture_size = {json.dumps(capture_size)}"] * (capture_size is not None)
    lines += [f"capture_files = {capture_files}"] * (capture_files is not None)
    lines += [f'points = "{points}"'] * (points is not None)
    lines += [f'udp = "{HOST}:{udp}"'] * (udp is not None)
    lines += [f'log_{name} = "{word}"' for name, word in (log or {}).items()]
    if sctp is not None:
        lines += ["[serve.sctp]", *(f"{name} = {value}" for name, value in sctp.items())]
    lines += ["[timers]", *(f"{name} = {count}" for name, count in ticks.items())]
    lines += [f'[[set]]\nname = "to-{point}"\nadjacent = {point}' for point in adjacents]
    lines += [link.text() for link in links]
    lines += [f'[[destination]]\npoint = {point}\nsets = ["to-{point}"]\njoined = false' for point in adjacents]
    return "\n".join(lines) + "\n"


class Caller:
    """A caller of a node's console, at a port or at the path of a Unix socket."""

    def __init__(self, console: int | str, receive_octets: int | None = None) -> None:
        is_path = isinstance(console, str)
        self.socket = socket.socket(socket.AF_UNIX if is_path else socket.AF_INET)
        if receive_octets is not None:
            self.socket.setsockopt(socket.SOL_SOCKET, socket.SO_RCVBUF, receive_octets)
        self.socket.settimeout(PATIENCE)
        try:
            self.socket.connect(console if is_path else (HOST, console))
        except OSError:
            self.socket.close()
            raise
        self.lines: deque[str] = deque()
        self.rest = b""

    def write(self, text: str) -> None:
        self.socket.sendall(text.encode())

    def _hear(self) -> bool:
        """Makes one read. False at the end of the connection."""
        piece = self.socket.recv(1 << 16)
        *lines, self.rest = (self.rest + piece).split(b"\n")
        self.lines.extend(line.decode() for line in lines)
        return bool(piece)

    def read_lines(self, count: int) -> list[str]:
        """Waits for so many lines, and takes them."""
        while len(self.lines) < count:
            if not self._hear():
                raise AssertionError(f"the console closed the connection after {[*self.lines][-3:]}")
        return [self.lines.popleft() for _ in range(count)]

    def read_line(self) -> str:
        return self.read_lines(1)[0]

    def ask(self, line: str) -> list[str]:
        """Writes a line that has an answer of any length. Returns its lines."""
        self.write(f"{line}\n{UNKNOWN}\n")
        lines = []
        while (answered := self.read_line()) != UNKNOWN_ANSWER:
            lines.append(answered)
        return lines

    def read_to_end(self) -> list[str]:
        """Waits for the end of the connection, and takes the lines before it."""
        while self._hear():
            pass
        return self.read_lines(len(self.lines))

    def sees_end(self) -> bool:
        """Waits for the end of the connection. Says whether nothing came before it."""
        with contextlib.suppress(ConnectionResetError):
            while self._hear():
                pass
        return not self.lines and not self.rest

    def close(self) -> None:
        self.socket.close()


class Node:
    """A node that `stp serve` runs, in a folder of its own; by other words before the program, if there are any."""

    def __init__(self, folder: Path, text: str, console: int | str, links: Sequence[Link | SctpLink]) -> None:
        folder.mkdir()
        self.folder, self.console, self.link_names = folder, console, [link.name for link in links]
        (folder / "node.toml").write_text(text)
        self.within: Sequence[str] = ()
        self.process: subprocess.Popen | None = None
        self.operator: Caller | None = None
        self.callers: list[Caller] = []

    def start(self, **how: Any) -> None:
        """Starts the program, and calls its console. Its log goes to a new file, unless it is told otherwise."""
        with open(self.folder / "log", "wb") as log:
            words = {"stdin": subprocess.DEVNULL, "stdout": log, "stderr": subprocess.STDOUT, **how}
            self.process = subprocess.Popen([*self.within, STP, "serve", "node.toml"], cwd=self.folder, **words)
        started.append(self.process)
        wait_until(self._is_there, f"the console of the node in {self.folder}")

    def _is_there(self) -> bool:
        assert self.process is not None and self.process.poll() is None, f"the node ended: {self.log()[-3:]}"
        # (a node closes what connects to its socket before that has its mode; then it logs the path)
        if isinstance(self.console, str) and not self.logged("console "):
            return False
        with contextlib.suppress(ConnectionRefusedError, FileNotFoundError):
            self.operator = self.call()
            return True
        return False

    def log(self) -> list[str]:
        return (self.folder / "log").read_text().splitlines()

    def logged(self, pattern: str) -> int:
        """How many lines of the log have this behind their time."""
        return sum(re.match(rf"\d+\.\d+ {pattern}", line) is not None for line in self.log())

    def await_log(self, pattern: str, count: int = 1) -> None:
        def is_there() -> bool:
            if self.logged(pattern) >= count:
                return True
            if self.process is not None and self.process.poll() is not None:
                raise AssertionError(f"the node ended with {self.process.returncode}: {self.log()[-3:]}")
            return False

        wait_until(is_there, f"{count} lines `{pattern}` of the log in {self.folder.name}: {self.log()[-3:]}")

    def call(self, **how: int) -> Caller:
        self.callers.append(Caller(self.console, **how))
        return self.callers[-1]

    def ask(self, line: str) -> list[str]:
        """Asks as a caller who stays connected."""
        assert self.operator is not None
        return self.operator.ask(line)

    def table(self, name: str) -> list[dict[str, str]]:
        """The rows of a table that the console shows, by the names of its columns. At least two blanks are between."""
        head, *rows = [re.split(" {2,}", line.strip()) for line in self.ask(f"show {name}")]
        return [dict(zip(head, row, strict=True)) for row in rows]

    def links(self) -> dict[str, tuple[str, int]]:
        """The alignment of each link, and how many messages wait on it."""
        return {row["LINK"]: (row["ALIGNMENT"], int(row["WAITING"])) for row in self.table("links")}

    def is_at_rest(self, names: Iterable[str] | None = None) -> bool:
        """Whether these links are in service, and no message waits on them."""
        links = self.links()
        return all(links[name] == ("InService", 0) for name in names or links)

    def counters(self) -> dict[str, Counter[str]]:
        """The counters of each link."""
        rows: dict[str, Counter[str]] = {name: Counter() for name in self.link_names}
        for _, name, *link, value in map(str.split, self.ask("show counters")):
            if link:
                rows[link[0]][name] = int(value)
        return rows

    def datagrams(self) -> Counter[str]:
        """The counters of datagrams."""
        words = [line.split() for line in self.ask("show counters")]
        return Counter({it[1]: int(it[2]) for it in words if len(it) == 3})

    def signal(self, number: int) -> None:
        assert self.process is not None
        self.process.send_signal(number)

    def stop(self) -> None:
        """Asks the node to stop, and waits until it did."""
        caller = self.call()
        caller.write("stop\n")
        assert caller.read_line() == "stopping"
        assert self.await_end() == 0
        assert self.log()[-1].endswith(" stop")

    def await_end(self) -> int:
        """Waits until the program ends by itself. Returns its status."""
        assert self.process is not None
        return self.process.wait(PATIENCE)

    def kill(self) -> None:
        """Ends the program as `kill -9` does. Its callers are gone."""
        for caller in self.callers:
            caller.close()
        self.callers, self.operator = [], None
        if self.process is not None:
            self.process.kill()
            self.process.wait()


class NodeTest(unittest.TestCase):
    """A test of running nodes."""

    # How many seconds it may take.
    LIMIT = 100

    def setUp(self) -> None:
        if not os.access(STP, os.X_OK):
            self.fail(f"{STP} isn't there: build it, or name another program by STP")
        room = tempfile.TemporaryDirectory(prefix="stp-test-", ignore_cleanup_errors=True)
        self.addCleanup(room.cleanup)
        self.folder = Path(room.name)
        signal.signal(signal.SIGTERM, signal.default_int_handler)
        signal.signal(signal.SIGALRM, self._give_up)
        signal.alarm(self.LIMIT)
        self.addCleanup(signal.alarm, 0)

    def _give_up(self, number: int, frame: object) -> None:
        raise AssertionError(f"it took longer than {self.LIMIT} s")

    def node(self, own: int, links: Sequence[Link | SctpLink], *, console: int | str | None = None,
             **more: Any) -> Node:
        """A node with these links, which isn't started. Its console is at a port of its own, if no place is given."""
        console = console or free_port()
        text = settings(own, links, console=console, **more)
        node = Node(self.folder / f"{own}-{len(os.listdir(self.folder))}", text, console, links)
        self.addCleanup(node.kill)
        return node


def run(*words: str, folder: Path, text: str | None = "", **how: Any) -> subprocess.CompletedProcess:
    """Runs the program with these words and this standard input until it ends."""
    how = {"stdout": subprocess.PIPE, "stderr": subprocess.PIPE, **how}
    return subprocess.run([STP, *words], cwd=folder, input=text, text=True, timeout=PATIENCE, **how)


def links_between(ports: Sequence[int], adjacent: int, listens: bool) -> list[Link]:
    """Links e0, e1 and on to a point, at these ports."""
    return [Link(f"e{code}", adjacent, code, port, listens) for code, port in enumerate(ports)]
