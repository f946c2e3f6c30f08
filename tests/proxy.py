"""A proxy that stands on the links between two nodes, and cuts connections behind a given octet, holds up what passes,
or has the far node meet nobody, or somebody who closes its connection. And one for links over SCTP, which drops
datagrams."""

from __future__ import annotations

import contextlib
import selectors
import socket
import struct
import threading
from dataclasses import dataclass, field
from typing import Sequence

from harness import HOST, PATIENCE
from packets import DATA, kinds

PIECE_OCTETS = 4096

# For how many seconds the far node may say something on a connection that is then closed.
SILENCE = 0.3


@dataclass(frozen=True)
class Cut:
    """Where a connection is cut, and how each end comes to know it."""

    # Whether octets to the near node are counted, or those to the far one.
    to_near: bool
    # This many of them still pass.
    octets: int
    # Whether the connection to an end is reset, and not just closed.
    resets_near: bool
    resets_far: bool


@dataclass
class ProxiedLink:
    """A link: where the far node connects, where the near one listens, and the connections to both."""

    listener: socket.socket
    port: int
    near: socket.socket | None = None
    far: socket.socket | None = None
    # What is still to be written to an end.
    waiting: dict[socket.socket, bytes] = field(default_factory=dict)
    cut: Cut | None = None
    left: int = 0
    is_cut: threading.Event = field(default_factory=threading.Event)
    # How many connections of the far node are still to be closed before an octet goes to it.
    to_close: int = 0
    # What the far node sent on these.
    said_unasked: bytes = b""
    is_held: bool = False


class Proxy(threading.Thread):
    """Passes on what comes on some links, between where the near node listens and new ports for the far one."""

    def __init__(self, near_ports: Sequence[int]) -> None:
        super().__init__(daemon=True)
        self.links = [ProxiedLink(self._listener(), port) for port in near_ports]
        self.ports = [link.listener.getsockname()[1] for link in self.links]
        self.selector = selectors.DefaultSelector()
        self.lock, self.ends = threading.Lock(), False
        for link in self.links:
            self.selector.register(link.listener, selectors.EVENT_READ, link)
        self.start()

    @staticmethod
    def _listener(port: int = 0) -> socket.socket:
        listener = socket.create_server((HOST, port))
        listener.setblocking(False)
        return listener

    def cut(self, number: int, cut: Cut) -> None:
        """Has the connection of a link cut once so many more octets passed. `await_cut` waits for that."""
        link = self.links[number]
        with self.lock:
            link.is_cut.clear()
            link.cut, link.left = cut, cut.octets

    def await_cut(self, number: int) -> None:
        assert self.links[number].is_cut.wait(PATIENCE), f"too few octets passed on link {number} to cut it"

    def close_next(self, number: int, count: int) -> None:
        """Closes the next connections of the far node on a link, so many, before an octet goes to it."""
        with self.lock:
            self.links[number].to_close = count

    def refuse(self, number: int) -> None:
        """From now on the far node meets nobody on a link."""
        with self.lock:
            link = self.links[number]
            self.selector.unregister(link.listener)
            link.listener.close()

    def listen(self, number: int) -> None:
        """The far node meets somebody on the link again."""
        with self.lock:
            link = self.links[number]
            link.listener = self._listener(self.ports[number])
            self.selector.register(link.listener, selectors.EVENT_READ, link)

    def hold(self, number: int) -> None:
        """Nothing passes on a link any more, until `release`."""
        self._hold(number, True)

    def release(self, number: int) -> None:
        self._hold(number, False)

    def _hold(self, number: int, is_held: bool) -> None:
        with self.lock:
            link = self.links[number]
            link.is_held = is_held
            for end in (link.near, link.far):
                assert end is not None
                if is_held:
                    self.selector.unregister(end)
                else:
                    self.selector.register(end, selectors.EVENT_READ | selectors.EVENT_WRITE, link)

    def close(self) -> None:
        self.ends = True
        self.join()
        for link in self.links:
            self._close(link)
            link.listener.close()

    def run(self) -> None:
        while not self.ends:
            for key, events in self.selector.select(0.05):
                with self.lock, contextlib.suppress(BlockingIOError):
                    self._serve(key.data, key.fileobj, events)

    def _serve(self, link: ProxiedLink, ready: socket.socket, events: int) -> None:
        if ready is link.listener:
            self._join(link)
            return
        if ready not in (link.near, link.far) or link.is_held:
            return
        try:
            if events & selectors.EVENT_WRITE:
                self._write(link, ready)
            if events & selectors.EVENT_READ:
                self._read(link, ready)
        except (ConnectionError, EOFError):
            self._close(link)

    def _join(self, link: ProxiedLink) -> None:
        """The far node connects: so does the proxy to the near one."""
        far, _ = link.listener.accept()
        if link.to_close > 0:
            link.to_close -= 1
            self._turn_away(link, far)
            return
        try:
            near = socket.create_connection((HOST, link.port), timeout=PATIENCE)
        except ConnectionError:
            far.close()
            return
        self._close(link)
        link.near, link.far = near, far
        for end in (near, far):
            end.setblocking(False)
            end.setsockopt(socket.IPPROTO_TCP, socket.TCP_NODELAY, 1)
            link.waiting[end] = b""
            self.selector.register(end, selectors.EVENT_READ, link)

    @staticmethod
    def _turn_away(link: ProxiedLink, far: socket.socket) -> None:
        """Closes a connection of the far node, which has had some time to say something on it."""
        far.settimeout(SILENCE)
        with contextlib.suppress(TimeoutError, ConnectionError):
            link.said_unasked += far.recv(PIECE_OCTETS)
        far.close()

    def _read(self, link: ProxiedLink, source: socket.socket) -> None:
        sink = link.near if source is link.far else link.far
        assert sink is not None
        piece = source.recv(PIECE_OCTETS)
        if not piece:
            raise EOFError
        cut = link.cut
        is_counted = cut is not None and cut.to_near == (sink is link.near)
        if is_counted:
            piece = piece[: link.left]
            link.left -= len(piece)
        link.waiting[sink] += piece
        self._write(link, sink)
        if is_counted and link.left == 0:
            self._cut(link, cut)

    def _write(self, link: ProxiedLink, sink: socket.socket) -> None:
        with contextlib.suppress(BlockingIOError):
            sent = sink.send(link.waiting[sink])
            link.waiting[sink] = link.waiting[sink][sent:]
        wanted = selectors.EVENT_WRITE if link.waiting[sink] else 0
        self.selector.modify(sink, selectors.EVENT_READ | wanted, link)

    def _cut(self, link: ProxiedLink, cut: Cut) -> None:
        for end, resets in ((link.near, cut.resets_near), (link.far, cut.resets_far)):
            if resets and end is not None:
                end.setsockopt(socket.SOL_SOCKET, socket.SO_LINGER, struct.pack("ii", 1, 0))
        link.cut = None
        self._close(link)
        link.is_cut.set()

    def _close(self, link: ProxiedLink) -> None:
        for end in (link.near, link.far):
            if end is not None:
                if not link.is_held:
                    self.selector.unregister(end)
                end.close()
        link.is_held = False
        link.near = link.far = None
        link.waiting.clear()


class DatagramProxy(threading.Thread):
    """Passes on the datagrams of two nodes, each of which takes it for the other, and drops some of the near one."""

    def __init__(self, near_port: int, far_port: int) -> None:
        super().__init__(daemon=True)
        # Where the near node sends to, and where the far one does.
        self.by_near, self.by_far = (socket.socket(socket.AF_INET, socket.SOCK_DGRAM) for _ in range(2))
        self.ways = {self.by_near: (self.by_far, far_port), self.by_far: (self.by_near, near_port)}
        self.selector = selectors.DefaultSelector()
        for way in self.ways:
            way.bind((HOST, 0))
            self.selector.register(way, selectors.EVENT_READ)
        self.near_sees, self.far_sees = (way.getsockname()[1] for way in (self.by_near, self.by_far))
        self.lock, self.ends = threading.Lock(), False
        # How many datagrams of the near node with DATA are still to be dropped.
        self.to_drop = 0
        self.has_dropped = threading.Event()
        self.start()

    def drop(self, count: int) -> None:
        """Drops the next datagrams of the near node that have DATA, so many. `await_drops` waits for that."""
        with self.lock:
            self.has_dropped.clear()
            self.to_drop = count

    def await_drops(self) -> None:
        assert self.has_dropped.wait(PATIENCE), "too few datagrams with DATA came to drop them"

    def close(self) -> None:
        self.ends = True
        self.join()
        for way in self.ways:
            way.close()

    def run(self) -> None:
        while not self.ends:
            for key, _ in self.selector.select(0.05):
                octets = key.fileobj.recv(1 << 16)
                if not self._is_dropped(key.fileobj, octets):
                    way, port = self.ways[key.fileobj]
                    with contextlib.suppress(ConnectionError):
                        way.sendto(octets, (HOST, port))

    def _is_dropped(self, came_by: socket.socket, octets: bytes) -> bool:
        with self.lock:
            if came_by is not self.by_near or self.to_drop == 0 or DATA not in kinds(octets):
                return False
            self.to_drop -= 1
            if self.to_drop == 0:
                self.has_dropped.set()
            return True
