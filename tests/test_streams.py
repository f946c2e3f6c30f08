"""Sockets that fill, and streams that fail."""

import contextlib
import fcntl
import os
import re
import signal
import socket
import time

from harness import HOST, NodeTest, run, wait_until
from traffic import Pair

MESSAGES = 200

# The longest message, and how many may be unconfirmed on a link: more octets than a socket takes.
LONGEST_OCTETS, MANY, BURST = 272, 16_000, 1000

# The octets of the smallest pipe, and how long lines come of which more than these wait.
PIPE_OCTETS, SECONDS = 4096, 5.0


class FullSocket(NodeTest):
    LIMIT = 200

    def test_a_node_that_does_not_read(self) -> None:
        """The socket and the buffer in front of it take a part of the messages, and the rest once the other node goes on.
        Frames count as gone out when they are taken into that buffer."""
        pair = Pair(self, links=1, window=16_384, pool=65_535, octets=LONGEST_OCTETS)
        pair.far.signal(signal.SIGSTOP)
        before, sent, written = pair.near.counters()["e0"]["frames_out"], 0, 0
        while written == sent < MANY:
            pair.forth.submit(BURST, flows=1)
            sent += BURST
            written = pair.near.counters()["e0"]["frames_out"] - before
        self.assertLess(written, sent)
        self.assertEqual(pair.near.links()["e0"], ("InService", sent))
        pair.far.signal(signal.SIGCONT)
        pair.forth.settle()
        pair.await_service()
        self.assertEqual(pair.far.counters()["e0"]["delivered"], sent)


class SlowReaders(NodeTest):
    def test_a_log_that_nobody_reads(self) -> None:
        """The node goes on. Lines that the pipe doesn't take wait, and come whole and in order; further ones of their kind
        in a second are dropped, and counted."""
        reader, writer = os.pipe()
        fcntl.fcntl(writer, fcntl.F_SETPIPE_SZ, PIPE_OCTETS)
        pair = Pair(self, near_streams={"stdout": writer, "stderr": writer})
        os.close(writer)
        with open(reader, "rb", buffering=0) as log:
            end = time.monotonic() + SECONDS
            while time.monotonic() < end:
                self.log_lines(pair)
            pair.exchange(MESSAGES)
            os.set_blocking(reader, False)
            text = b""

            def is_told() -> bool:
                nonlocal text
                self.log_lines(pair)
                with contextlib.suppress(BlockingIOError):
                    text += log.read(1 << 16) or b""
                return len(text) > 2 * PIPE_OCTETS and re.search(rb" missed \d+ lines\n", text) is not None

            wait_until(is_told, "the log has the lines that waited, and tells how many were missed")
            times = []
            for line in text.splitlines()[:-1]:
                self.assertRegex(line, rb"^\d+\.\d{3} [a-z]+")
                times.append(float(line.split()[0]))
            self.assertEqual(times, sorted(times))
        pair.exchange(MESSAGES)

    @staticmethod
    def log_lines(pair: Pair) -> None:
        """Somebody connects where each link listens, and at the console: a line of each link, and two of the console."""
        for port in pair.ports:
            socket.create_connection((HOST, port)).close()
        pair.near.call().close()
        assert len(pair.near.links()) == len(pair.names)


class FailingStreams(NodeTest):
    def setUp(self) -> None:
        """Three ways in which a standard output fails: it is full, nobody reads it, and it is closed."""
        super().setUp()
        reader, broken = os.pipe()
        os.close(reader)
        full = os.open("/dev/full", os.O_WRONLY)
        self.addCleanup(os.close, broken)
        self.addCleanup(os.close, full)
        self.ways = [{"stdout": full}, {"stdout": broken}, {"preexec_fn": lambda: os.close(1)}]

    def test_a_log_that_fails(self) -> None:
        """The node goes on without it."""
        for way in self.ways:
            Pair(self, near_streams=way).exchange(MESSAGES)

    def test_an_output_that_fails(self) -> None:
        for way in self.ways:
            ended = run("run", folder=self.folder, text="show links\n", **way)
            self.assertEqual((ended.returncode, ended.stderr), (4, "standard output: a write failed\n"), way)

    def test_an_input_that_fails(self) -> None:
        folder = os.open("/", os.O_RDONLY)
        self.addCleanup(os.close, folder)
        ended = run("run", folder=self.folder, text=None, stdin=folder)
        self.assertEqual((ended.returncode, ended.stdout), (4, ""))
        self.assertEqual(ended.stderr, "standard input: a read failed\n")

    def test_faults_that_cannot_be_told(self) -> None:
        """The one write of a run without a script fails."""
        (self.folder / "empty").write_text("")
        for words in ([], ["help"], ["version"], ["check", "empty"], ["run", "empty"], ["lab", "empty", "empty"]):
            for way in self.ways:
                self.assertEqual(run(*words, folder=self.folder, **way).returncode, 4, words)

    def test_a_standard_error_that_fails(self) -> None:
        """It changes neither the status nor what is printed."""
        full = self.ways[0]["stdout"]
        for way in ({"stderr": full}, {"preexec_fn": lambda: os.close(2)}):
            ended = run("nonsense", folder=self.folder, **way)
            self.assertEqual((ended.returncode, ended.stdout), (1, "usage\n"))
            ended = run("run", folder=self.folder, text="up e0\ntik 3\n", **way)
            self.assertEqual((ended.returncode, ended.stdout), (3, "handled\nfault 2\n"))
