"""Attacks that would hold a node up, beside two good links with messages at a steady pace.

Whatever a stranger, a neighbour, a client or a reader does, no good link fails, no message comes late by a second, and
log and memory stay small. interop/held_up.py is the long form.
"""

from __future__ import annotations

import contextlib
import os
import re
import shutil
import socket
import struct
import subprocess
import termios
import threading
import time
import unittest
from collections.abc import Callable, Iterator
from typing import Any

from frames import NO_NUMBER, USER_DATA, Status, frame, message, status_frame
from harness import HOST, PATIENCE, STP, Link, NodeTest, free_port, wait_until
from steady import Steady, longest_turn
from test_callers import FLAGS, POST
from test_sctp import OTHER_HOST, SctpPair
from test_tell import FAILED, NOBODY
from traffic import OTHER, Pair

# How long an attack lasts.
SECONDS = 3.0

# A point to which no route leads.
NOWHERE = 99

# The shortest frames there are, none of which can be read: no number follows their length.
SHORT_FRAMES = struct.pack(">BBBBI", 1, 0, 11, USER_DATA, 8) * 8192

# Messages that a neighbour sends at once.
BURST = 1000

# Datagrams a second: a socket that gets more than its node reads loses those of good links too.
DATAGRAMS = 2000

# What is read of a terminal that is full: a line or more finds room then, but not all.
ROOM_OCTETS = 300

# How many clients the console has at most, and how many the page, and a pause after so many came.
CALLERS, PAGE_CLIENTS, PAUSE = 16, 32, 0.1

# What a web page may write in front of its request: nothing, and lines that do nothing.
FRONTS = ("", "\n", "\r\n# nothing\n\n")


def again_and_again() -> Iterator[None]:
    """Goes on for as long as an attack lasts."""
    end = time.monotonic() + SECONDS
    while time.monotonic() < end:
        yield


class Flood(threading.Thread):
    """Writes pieces to a socket, with a pause between them, until it is ended or the other end closes it."""

    def __init__(self, stream: socket.socket, piece: Callable[[], bytes], pause: float = 0.0) -> None:
        super().__init__(daemon=True)
        self.stream, self.piece, self.pause = stream, piece, pause
        self.is_ending = threading.Event()

    def run(self) -> None:
        with contextlib.suppress(OSError):
            while not self.is_ending.wait(self.pause):
                self.stream.sendall(self.piece())

    def end(self) -> None:
        self.is_ending.set()
        with contextlib.suppress(OSError):
            self.stream.shutdown(socket.SHUT_RDWR)
        self.join(PATIENCE)


class Asking(Flood):
    """A client of the page that asks again as soon as something of an answer came."""

    def __init__(self, page: int) -> None:
        stream = socket.create_connection((HOST, page), timeout=PATIENCE)
        request = f"GET /metrics HTTP/1.1\r\nHost: {HOST}:{page}\r\n\r\n".encode()
        super().__init__(stream, self.once_answered)
        self.request, self.answers = request, 0
        stream.sendall(request)

    def once_answered(self) -> bytes:
        if not self.stream.recv(1 << 20):
            raise ConnectionError("the page closed it")
        self.answers += 1
        return self.request


def has_room(page: int) -> bool:
    """Whether the page answers another client."""
    with contextlib.suppress(ConnectionError, AssertionError):
        return longest_turn(page) > 0
    return False


class ThirdLink(NodeTest):
    """A stranger, or a neighbour, has a third link of the near node."""

    def meet(self, of: type[Pair] | type[SctpPair] = Pair, source: str | None = None) -> Steady:
        self.port, page = free_port(), free_port()
        third = Link("s0", OTHER, 0, self.port, True, source)
        self.pair = of(self, links=2, beside=[third], near_page=page)
        self.near = self.pair.near
        return Steady(self, self.pair, page)

    def stranger(self) -> socket.socket:
        """A connection that the third link took."""
        opened = self.near.logged("open s0 ")
        stream = socket.create_connection((HOST, self.port), timeout=PATIENCE)
        self.addCleanup(stream.close)
        self.near.await_log("open s0 ", opened + 1)
        return stream

    def neighbour(self) -> socket.socket:
        """A peer of the third link, which is in service."""
        stream = self.stranger()
        stream.sendall(status_frame(Status.ALIGNMENT))
        self.await_state("Aligned")
        stream.sendall(status_frame(Status.PROVING_NORMAL) + status_frame(Status.READY))
        self.await_state("InService")
        return stream

    def await_state(self, state: str) -> None:
        wait_until(lambda: self.near.links()["s0"][0] == state, f"s0 is {state}")


class HeldUp(ThirdLink):
    @staticmethod
    def flood(what: str, steady: Steady, flood: Flood) -> None:
        with steady.attacked(what):
            flood.start()
            time.sleep(SECONDS)
            flood.end()

    def test_short_frames(self) -> None:
        steady = self.meet()
        self.flood("short frames", steady, Flood(self.stranger(), lambda: SHORT_FRAMES))

    def test_short_frames_beside_sctp(self) -> None:
        """The good links are over SCTP, and their datagrams have a part of each round, too."""
        steady = self.meet(SctpPair)
        self.flood("short frames beside SCTP", steady, Flood(self.stranger(), lambda: SHORT_FRAMES))

    def test_messages_to_an_unknown_point(self) -> None:
        steady = self.meet()
        body, numbers = b"\0" + message(OTHER, NOWHERE, 0, 0), iter(range(1 << 24))

        def piece() -> bytes:
            return b"".join(frame(USER_DATA, body, NO_NUMBER, next(numbers)) for _ in range(BURST))

        self.flood("messages to an unknown point", steady, Flood(self.neighbour(), piece))

    def test_datagrams_of_a_stranger(self) -> None:
        steady = self.meet(SctpPair)
        stranger = socket.socket(socket.AF_INET, socket.SOCK_DGRAM)
        self.addCleanup(stranger.close)
        stranger.connect((HOST, self.pair.near_udp))
        self.flood("datagrams of a stranger", steady, Flood(stranger, lambda: bytes(12), 1 / DATAGRAMS))

    def test_connections_of_another_host(self) -> None:
        """The third link takes connections from the one host alone that its settings name."""
        steady = self.meet(source=OTHER_HOST)
        with steady.attacked("connections of another host"):
            for _ in again_and_again():
                with socket.create_connection((HOST, self.port), timeout=PATIENCE) as stranger:
                    self.assertEqual(stranger.recv(1), b"")
        self.near.await_log(f"refuse s0 {HOST}:")
        self.assertEqual(self.near.logged("open s0 "), 0)
        with socket.create_connection((HOST, self.port), timeout=PATIENCE, source_address=(OTHER_HOST, 0)):
            self.near.await_log(f"open s0 {OTHER_HOST}:")

    def test_silent_clients(self) -> None:
        """They take all places of the console and of the page, again and again. Who asks has one all the same, and
        keeps it: so do the clients by whom the messages go."""
        steady = self.meet()
        crowd: list[socket.socket] = []
        with steady.attacked("silent clients"):
            for _ in again_and_again():
                former, crowd = crowd, self.silent(self.near.console, CALLERS)
                crowd += self.silent(steady.page, PAGE_CLIENTS)
                operator = self.near.call()
                for caller in (operator, self.near):
                    self.assertEqual(caller.ask("show flags"), FLAGS)
                self.assertLess(longest_turn(steady.page), PATIENCE)
                for stream in (*former, operator):
                    stream.close()
                time.sleep(PAUSE)

    def silent(self, port: int, count: int) -> list[socket.socket]:
        streams = [socket.create_connection((HOST, port), timeout=PATIENCE) for _ in range(count)]
        for stream in streams:
            self.addCleanup(stream.close)
        return streams

    def test_page_clients_that_ask_without_end(self) -> None:
        """They have all places of the page, and each of them is answered."""
        steady = self.meet()
        clients = [Asking(steady.page) for _ in range(PAGE_CLIENTS)]
        with steady.attacked("page clients that ask without end"):
            for client in clients:
                client.start()
            time.sleep(SECONDS)
            for client in clients:
                client.end()
                client.stream.close()
            wait_until(lambda: has_room(steady.page), "the page takes another client")
        self.assertGreater(min(client.answers for client in clients), 0)

    def test_posts_of_a_web_page(self) -> None:
        """Lines behind a request do nothing, whatever is in front of it that isn't an order."""
        steady = self.meet()
        with steady.attacked("posts of a web page"):
            for _ in again_and_again():
                for front in FRONTS:
                    page = self.near.call()
                    page.write(f"{front}{POST}deactivate e1\nstop\n")
                    page.sees_end()
                    page.close()


class RefusedFlood(ThirdLink):
    """A neighbour sends messages to a point to which no route leads. Each of them is a notice: few have a line of the
    log, and the others are counted there."""

    COUNT, SECONDS = 30_000, 3

    # Lines of the log in a second: 20 notices, and the counts of what has no line.
    LINES_A_SECOND = 20 + 2

    def test_the_sums_of_the_log(self) -> None:
        steady, stream = self.meet(), self.neighbour()
        before = self.told()
        self.assertEqual(before, self.refused())
        lines = len(self.near.log())
        began = time.monotonic()
        with steady.attacked("refused messages"):
            self.send(stream, began)
            wait_until(lambda: self.refused() == self.COUNT, "each message is refused")
            seconds = time.monotonic() - began
            wait_until(lambda: self.told() == self.COUNT, "the log tells of each message that was refused")
        written = len(self.near.log()) - lines
        print(f"{self.COUNT} refused messages in {seconds:.1f} s: {written} lines of the log", flush=True)
        self.assertLessEqual(written, self.LINES_A_SECOND * (seconds + 3))

    def send(self, stream: socket.socket, began: float) -> None:
        """Sends the messages at their pace: half of each burst in one piece, and half in pieces of one message."""
        body, sent = b"\0" + message(OTHER, NOWHERE, 0, 0), 0
        while sent < self.COUNT:
            frames = [frame(USER_DATA, body, NO_NUMBER, number) for number in range(sent, min(sent + BURST, self.COUNT))]
            for piece in (b"".join(frames[: BURST // 2]), *frames[BURST // 2 :]):
                stream.sendall(piece)
            sent += len(frames)
            time.sleep(max(0.0, began + sent * self.SECONDS / self.COUNT - time.monotonic()))

    def refused(self) -> int:
        """How many messages of the neighbour were refused."""
        counts = self.near.counters()["s0"]
        return sum(count for name, count in counts.items() if name.startswith("refused"))

    def told(self) -> int:
        """Of how many notices the log told or said that they have no line."""
        counts = [re.match(r"\S+ (?:(notice) refused|missed (\d+))", line) for line in self.near.log()]
        return sum(1 if found[1] else int(found[2]) for found in counts if found)


def log_lines(what: str, steady: Steady) -> None:
    """Clients come and go, each of which is two lines of the log."""
    with steady.attacked(what):
        for _ in again_and_again():
            steady.pair.near.call().close()
            time.sleep(0.02)


class FullTerminal(NodeTest):
    """The log goes to a terminal."""

    def setUp(self) -> None:
        super().setUp()
        self.master, self.terminal = os.openpty()
        self.addCleanup(os.close, self.master)
        self.addCleanup(os.close, self.terminal)

    def begin(self) -> Steady:
        page = free_port()
        pair = Pair(self, links=2, near_page=page, near_streams={"stdout": self.terminal, "stderr": self.terminal})
        return Steady(self, pair, page)

    def test_a_terminal_that_nobody_reads(self) -> None:
        """It has room for one line, and for the beginning of one."""
        steady = self.begin()
        writer = os.open(os.ttyname(self.terminal), os.O_WRONLY | os.O_NONBLOCK | os.O_NOCTTY)
        self.addCleanup(os.close, writer)
        with contextlib.suppress(BlockingIOError):
            while True:
                os.write(writer, b"x")
        os.read(self.master, ROOM_OCTETS)
        log_lines("a terminal that nobody reads", steady)

    def test_a_terminal_that_is_stopped(self) -> None:
        steady = self.begin()
        termios.tcflow(self.terminal, termios.TCOOFF)
        log_lines("a terminal that is stopped", steady)
        termios.tcflow(self.terminal, termios.TCOON)

    @unittest.skipUnless(os.geteuid() == 0, "only root may be somebody else")
    def test_a_terminal_of_another_user(self) -> None:
        """It can't be opened anew, so the node doesn't start."""
        node = self.node(1, [Link("e0", 2, 0, free_port(), True)])
        program = shutil.copy(STP, self.folder)
        for path in (program, self.folder, node.folder):
            os.chmod(path, 0o755)
        ended = subprocess.run([program, "serve", "node.toml"], cwd=node.folder, user=NOBODY, stdin=subprocess.DEVNULL,
                               stdout=self.terminal, stderr=subprocess.PIPE, text=True, timeout=PATIENCE)
        self.assertEqual(ended.returncode, FAILED)
        self.assertIn("standard output: this terminal can't be opened anew", ended.stderr)


class StandardFiles(NodeTest):
    def test_closed_ones(self) -> None:
        """No socket has the number of a standard file that was closed: what has it is neither read nor written."""
        for closed in ((0, 1, 2), (1,), (0, 2)):
            page = free_port()
            closing = {"preexec_fn": lambda: [os.close(number) for number in closed]}
            pair = Pair(self, links=2, near_page=page, near_streams=closing)
            log_lines(f"closed files {closed}", Steady(self, pair, page))
            assert pair.near.process is not None
            for number in closed:
                self.assertEqual(os.readlink(f"/proc/{pair.near.process.pid}/fd/{number}"), "/dev/null")
            for node in (pair.near, pair.far):
                node.kill()
