"""The relay of SCTP over IP, without raw sockets: faults of its settings, its words, and which packets pass."""

from __future__ import annotations

import errno
import os
import signal
import socket
import struct
import subprocess
import sys
import tempfile
import threading
import unittest
from importlib.machinery import SourceFileLoader
from importlib.util import module_from_spec, spec_from_loader
from pathlib import Path
from typing import Any, Iterator

from harness import PATIENCE, ROOT, free_port, wait_until
from packets import DATA, INIT, chunk, packet

PROGRAM = ROOT / "packaging/sctp-relay"
OWN, EAST, WEST = "192.0.2.1", "192.0.2.2", "192.0.2.3"
OWN_SIX, SOUTH = "2001:db8::1", "2001:db8::2"
# The addresses of a second path.
OWN_SECOND, EAST_SECOND = "198.51.100.1", "198.51.100.2"


def loaded() -> Any:
    """The program as a module."""
    sys.dont_write_bytecode, before = True, sys.dont_write_bytecode
    try:
        spec = spec_from_loader("sctp_relay", SourceFileLoader("sctp_relay", str(PROGRAM)))
        module = module_from_spec(spec)
        sys.modules["sctp_relay"] = module
        spec.loader.exec_module(module)
        return module
    finally:
        sys.dont_write_bytecode = before


relay = loaded()


def peer(**changes: str | None) -> str:
    """The table of a peer, with some values changed, as TOML has them, and keys left out where there is none."""
    rows = {"name": '"east"', "remote": '"127.77.0.1:9899"', "own_address": f'"{OWN}"', "peer_address": f'"{EAST}"',
            "sctp_ports": "[[3565, 3566]]", **changes}
    return "[[peer]]\n" + "".join(f"{key} = {value}\n" for key, value in rows.items() if value is not None)


def by_paths(*paths: tuple[str, ...], **changes: str) -> str:
    """The table of a peer with several paths."""
    listed = f"[{', '.join(str([*path]) for path in paths)}]"
    return peer(**{"own_address": None, "peer_address": None, "paths": listed, **changes})


def west(**changes: str) -> str:
    return peer(**{"name": '"west"', "remote": '"127.77.0.2:9899"', "peer_address": f'"{WEST}"', **changes})


NODE = 'node = "127.0.0.1:9899"\n'
A_UDP_ADDRESS = "must be an address and a port from 1 on, such as 127.0.0.1:9899 or [::1]:9899"
A_HOST = "must be an IPv4 or IPv6 address of a host"
SOME_PAIRS = "must be a list of pairs of SCTP ports, this end's and the peer's, such as [[3565, 3565]]"
A_PAIR = "must be a pair of ports, 1 to 65535"
SOME_PATHS = ("must be a list of pairs of addresses, this end's and the peer's, such as "
              '[["192.0.2.1", "192.0.2.2"]]')
A_PATH = "must be two IPv4 or two IPv6 addresses of hosts"

FAULTS = [
    ("node = ", "this isn't TOML: Invalid value (at end of document)"),
    ("", f"node is missing, {A_UDP_ADDRESS}"),
    ("node = 9899\n" + peer(), f"node is 9899, {A_UDP_ADDRESS}"),
    ('node = "localhost:9899"\n' + peer(), f'node is "localhost:9899", {A_UDP_ADDRESS}'),
    ('node = "127.0.0.1"\n' + peer(), f'node is "127.0.0.1", {A_UDP_ADDRESS}'),
    ('node = "127.0.0.1:0"\n' + peer(), f'node is "127.0.0.1:0", {A_UDP_ADDRESS}'),
    ('node = "127.0.0.1:65536"\n' + peer(), f'node is "127.0.0.1:65536", {A_UDP_ADDRESS}'),
    ('node = "0.0.0.0:9899"\n' + peer(), f'node is "0.0.0.0:9899", {A_UDP_ADDRESS}'),
    ('node = "::1:9899"\n' + peer(), f'node is "::1:9899", {A_UDP_ADDRESS}'),
    (NODE, "peer is missing, must be a list of tables, [[peer]]"),
    (NODE + "peer = []\n", "peer is a list of 0, must be 1 to 64"),
    (NODE + 'peer = ["east"]\n', 'peer[0] is "east", must be a table, [[peer]]'),
    (NODE + "[peer]\n", "peer is {}, must be a list of tables, [[peer]]"),
    (NODE + peer() * 65, "peer is a list of 65, must be 1 to 64"),
    (NODE + 'nod = "x"\n' + peer(), 'nod is "x", and there is no such key'),
    (NODE + peer(sctp_port="3565"), 'peer[0] "east": sctp_port is 3565, and there is no such key'),
    (NODE + peer(name=None), "peer[0]: name is missing, must be 1 to 32 of a to z, A to Z, 0 to 9, -, _ and ."),
    (NODE + peer(name="true"), "peer[0]: name is true, must be 1 to 32 of a to z, A to Z, 0 to 9, -, _ and ."),
    (NODE + peer(name='"the east"'), 'peer[0]: name is "the east", must be 1 to 32 of a to z, A to Z, 0 to 9, -, _ and .'),
    (NODE + peer(remote=None), f'peer[0] "east": remote is missing, {A_UDP_ADDRESS}'),
    (NODE + peer(remote='"192.0.2.9:9899"'), 'peer[0] "east": remote is "192.0.2.9:9899", must be a loopback address'),
    (NODE + peer(remote='"[::1]:9899"'),
     'peer[0] "east": remote is "[::1]:9899", must be an address of the same version of IP as node'),
    (NODE + peer(remote='"127.0.0.1:9899"'), 'peer[0] "east": remote is "127.0.0.1:9899", which is the node\'s'),
    (NODE + peer(own_address='"near"'), f'peer[0] "east": own_address is "near", {A_HOST}'),
    (NODE + peer(own_address=f'"{"x" * 70}"'), f'peer[0] "east": own_address is "{"x" * 56}.., {A_HOST}'),
    (NODE + peer(own_address='"0.0.0.0"'), f'peer[0] "east": own_address is "0.0.0.0", {A_HOST}'),
    (NODE + peer(own_address='"169.254.0.1"'), f'peer[0] "east": own_address is "169.254.0.1", {A_HOST}'),
    (NODE + peer(own_address='"192.0.2.1:9899"'), f'peer[0] "east": own_address is "192.0.2.1:9899", {A_HOST}'),
    (NODE + peer(peer_address='"224.0.0.1"'), f'peer[0] "east": peer_address is "224.0.0.1", {A_HOST}'),
    (NODE + peer(peer_address='"255.255.255.255"'), f'peer[0] "east": peer_address is "255.255.255.255", {A_HOST}'),
    (NODE + peer(peer_address='"ff02::2"'), f'peer[0] "east": peer_address is "ff02::2", {A_HOST}'),
    (NODE + peer(peer_address='"fe80::2"'), f'peer[0] "east": peer_address is "fe80::2", {A_HOST}'),
    (NODE + peer(peer_address='"fe80::2%eth0"'), f'peer[0] "east": peer_address is "fe80::2%eth0", {A_HOST}'),
    (NODE + peer(peer_address='"::ffff:192.0.2.2"'), f'peer[0] "east": peer_address is "::ffff:192.0.2.2", {A_HOST}'),
    (NODE + peer(peer_address=f'"{SOUTH}"'), 'peer[0] "east": peer_address is "2001:db8::2", must be an address of the '
                                             "same version of IP as own_address"),
    (NODE + peer(peer_address=f'"{OWN}"'), 'peer[0] "east": peer_address is "192.0.2.1", which is own_address, too'),
    (NODE + peer(sctp_ports="3565"), f'peer[0] "east": sctp_ports is 3565, {SOME_PAIRS}'),
    (NODE + peer(sctp_ports="[]"), 'peer[0] "east": sctp_ports is a list of 0, must be 1 to 64'),
    (NODE + peer(sctp_ports="[3565, 3565]"), f'peer[0] "east": sctp_ports[0] is 3565, {A_PAIR}'),
    (NODE + peer(sctp_ports="[[3565]]"), f'peer[0] "east": sctp_ports[0] is [3565], {A_PAIR}'),
    (NODE + peer(sctp_ports="[[0, 3565]]"), f'peer[0] "east": sctp_ports[0] is [0, 3565], {A_PAIR}'),
    (NODE + peer(sctp_ports="[[1, 65536]]"), f'peer[0] "east": sctp_ports[0] is [1, 65536], {A_PAIR}'),
    (NODE + peer(sctp_ports="[[true, 1]]"), f'peer[0] "east": sctp_ports[0] is [true, 1], {A_PAIR}'),
    (NODE + peer(sctp_ports="[[1, 2.5]]"), f'peer[0] "east": sctp_ports[0] is [1, 2.5], {A_PAIR}'),
    (NODE + peer(sctp_ports="1979-05-27"), f'peer[0] "east": sctp_ports is "1979-05-27", {SOME_PAIRS}'),
    (NODE + peer(sctp_ports="[[1, 2], [1, 2]]"),
     'peer[0] "east": sctp_ports[1] is [1, 2], which the peer has twice'),
    (NODE + peer() + west(name='"east"'), 'peer[1] "east": name is "east", which another peer has too'),
    (NODE + peer() + west(remote='"127.77.0.1:9899"'),
     'peer[1] "west": remote is "127.77.0.1:9899", which another peer has too'),
    (NODE + peer() + west(remote='"127.77.0.1:9900"'),
     'peer[1] "west": sctp_ports[0] is [3565, 3566], which another peer with this host as remote has too'),
    (NODE + peer() + west(peer_address=f'"{EAST}"'),
     'peer[1] "west": sctp_ports[0] is [3565, 3566], which another peer with these addresses has too'),
    (NODE + peer(own_address=None), f'peer[0] "east": own_address is missing, {A_HOST}'),
    (NODE + by_paths(paths=f'"{EAST}"'), f'peer[0] "east": paths is "{EAST}", {SOME_PATHS}'),
    (NODE + by_paths(), 'peer[0] "east": paths is a list of 0, must be 1 to 8'),
    (NODE + by_paths(*[(OWN, EAST)] * 9), 'peer[0] "east": paths is a list of 9, must be 1 to 8'),
    (NODE + by_paths(paths=f'["{OWN}"]'), f'peer[0] "east": paths[0] is "{OWN}", {A_PATH}'),
    (NODE + by_paths((OWN, EAST), (OWN_SECOND,)), f'peer[0] "east": paths[1] is ["{OWN_SECOND}"], {A_PATH}'),
    (NODE + by_paths((OWN, EAST, WEST)), f'peer[0] "east": paths[0] is ["{OWN}", "{EAST}", "{WEST}"], {A_PATH}'),
    (NODE + by_paths((OWN, "east")), f'peer[0] "east": paths[0] is ["{OWN}", "east"], {A_PATH}'),
    (NODE + by_paths(("0.0.0.0", EAST)), f'peer[0] "east": paths[0] is ["0.0.0.0", "{EAST}"], {A_PATH}'),
    (NODE + by_paths(paths=f'[["{OWN}", 2]]'), f'peer[0] "east": paths[0] is ["{OWN}", 2], {A_PATH}'),
    (NODE + by_paths((OWN, SOUTH)), f'peer[0] "east": paths[0] is ["{OWN}", "{SOUTH}"], {A_PATH}'),
    (NODE + by_paths((OWN, EAST), (OWN, EAST)),
     f'peer[0] "east": paths[1] is ["{OWN}", "{EAST}"], which the peer has twice'),
    (NODE + by_paths((OWN, OWN)), f'peer[0] "east": paths[0] is ["{OWN}", "{OWN}"], and {OWN} is of both ends'),
    (NODE + by_paths((OWN, EAST), (EAST, WEST)),
     f'peer[0] "east": paths[1] is ["{EAST}", "{WEST}"], and {EAST} is of both ends'),
    (NODE + by_paths((OWN, EAST), (WEST, OWN)),
     f'peer[0] "east": paths[1] is ["{WEST}", "{OWN}"], and {OWN} is of both ends'),
    (NODE + by_paths((OWN, EAST), own_address=f'"{OWN}"'),
     f'peer[0] "east": own_address is "{OWN}", must be left out beside paths'),
    (NODE + by_paths((OWN, EAST), peer_address="3"),
     'peer[0] "east": peer_address is 3, must be left out beside paths'),
    (NODE + by_paths((OWN, WEST), (OWN_SECOND, EAST)) + west(peer_address=f'"{EAST}"'),
     'peer[1] "west": sctp_ports[0] is [3565, 3566], which another peer with these addresses has too'),
]


def run(*words: str) -> subprocess.CompletedProcess:
    """Runs the program until it ends."""
    how = {"capture_output": True, "text": True, "timeout": PATIENCE}
    return subprocess.run([sys.executable, PROGRAM, *words], check=False, **how)


class Settings(unittest.TestCase):
    def test_each_fault_has_a_sentence(self) -> None:
        for text, sentence in FAULTS:
            with self.subTest(sentence):
                with self.assertRaises(relay.Fault) as raised:
                    relay.read_settings(text.encode())
                self.assertEqual(str(raised.exception), sentence)

    def test_octets_that_are_no_text(self) -> None:
        with self.assertRaisesRegex(relay.Fault, "^octet 2 isn't UTF-8$"):
            relay.read_settings(b"# \xff\n")

    def test_what_they_say(self) -> None:
        six = peer(name='"south"', remote='"127.77.0.1:9900"', own_address=f'"{OWN_SIX}"', peer_address=f'"{SOUTH}"',
                   sctp_ports="[[3565, 3565], [3566, 3565]]")
        read = relay.read_settings((NODE + peer() + six).encode())
        self.assertEqual(str(read.node), "127.0.0.1:9899")
        self.assertEqual([it.name for it in read.peers], ["east", "south"])
        self.assertEqual([str(path) for path in read.peers[1].paths], [f"{OWN_SIX} {SOUTH}"])
        self.assertEqual(read.peers[1].links, (relay.PortPair(3565, 3565), relay.PortPair(3566, 3565)))

    def test_paths(self) -> None:
        """Packets of a peer may also cross between its paths, where both are of the same version of IP."""
        text = by_paths((OWN, EAST), (OWN_SECOND, EAST_SECOND), (OWN_SIX, SOUTH))
        east, = relay.read_settings((NODE + text).encode()).peers
        self.assertEqual([str(path) for path in east.paths],
                         [f"{OWN} {EAST}", f"{OWN_SECOND} {EAST_SECOND}", f"{OWN_SIX} {SOUTH}"])
        crossing = {f"{OWN} {EAST_SECOND}", f"{OWN_SECOND} {EAST}"}
        self.assertEqual({str(pair) for pair in east.pairs()[3:]}, crossing)


class Words(unittest.TestCase):
    """The program's arguments. A fault is found before any socket is opened, so also where it may open none."""

    def test_arguments(self) -> None:
        for words in ((), ("",), ("-x",), ("a", "b"), ("--check",), ("--check", "a", "b")):
            self.assertEqual(run(*words).returncode, 1, words)
        self.assertEqual(run("--help").returncode, 0)

    def test_example(self) -> None:
        checked = run("--check", str(ROOT / "packaging/example.relay.toml"))
        self.assertEqual((checked.returncode, checked.stdout, checked.stderr), (0, "ok\n", ""))

    def test_faults(self) -> None:
        with tempfile.TemporaryDirectory(prefix="stp-test-") as room:
            file = Path(room) / "relay.toml"
            missing = run(str(file))
            self.assertEqual((missing.returncode, missing.stderr), (4, f"{file}: No such file or directory\n"))
            file.write_text(NODE)
            for words in ((str(file),), ("--check", str(file))):
                faulty = run(*words)
                self.assertEqual((faulty.returncode, faulty.stdout), (2, ""))
                self.assertEqual(faulty.stderr, f"{file}: peer is missing, must be a list of tables, [[peer]]\n")


class Headers(unittest.TestCase):
    def test_header_of_ip_is_taken_off(self) -> None:
        for words in (5, 6, 15):
            header = bytes([0x40 | words]).ljust(4 * words, b"h")
            self.assertEqual(relay.without_ip_header(header + b"packet"), b"packet")

    def test_sender_of_an_error(self) -> None:
        four = socket.AF_INET.to_bytes(2, sys.byteorder) + bytes(2) + socket.inet_aton(EAST)
        six = socket.AF_INET6.to_bytes(2, sys.byteorder) + bytes(6) + socket.inet_pton(socket.AF_INET6, SOUTH)
        self.assertEqual(relay.sender_of(four.ljust(16, b"\0")), EAST)
        self.assertEqual(relay.sender_of(six.ljust(28, b"\0")), SOUTH)
        for octets in (b"", bytes(16), four[:7], six[:23]):
            self.assertEqual(relay.sender_of(octets), "unknown")


class StandIn:
    """In the place of the raw socket at an own address: what the test puts there comes, and what went out it takes."""

    def __init__(self, own: Any) -> None:
        self.own = str(own)
        self.near, self.far = socket.socketpair(socket.AF_UNIX, socket.SOCK_DGRAM)
        self.near.setblocking(False)
        self.far.settimeout(PATIENCE)
        self.sent: list[tuple[str, bytes]] = []
        self.refused: bytes | None = None

    def put(self, source: str, octets: bytes) -> None:
        self.far.send(source.encode() + b" " + octets)

    def fileno(self) -> int:
        return self.near.fileno()

    def receive(self) -> tuple[str, bytes]:
        source, _, octets = self.near.recv(1 << 16).partition(b" ")
        return source.decode(), octets

    def send(self, octets: bytes, to: str) -> None:
        if octets == self.refused:
            raise OSError(errno.ENETUNREACH, "Network is unreachable")
        self.sent.append((to, octets))

    def errors(self) -> Iterator[object]:
        return iter(())

    def close(self) -> None:
        self.near.close()
        self.far.close()


class QuietLog(relay.Log):
    """Keeps its lines."""

    def __init__(self) -> None:
        super().__init__()
        self.kept: list[str] = []

    def say(self, *words: object) -> None:
        self.kept.append(" ".join(map(str, words)))


class RelayTest(unittest.TestCase):
    """A relay in a thread, with a socket of the test in the place of the node, and of the raw sockets."""

    def setUp(self) -> None:
        self.node = socket.socket(socket.AF_INET, socket.SOCK_DGRAM)
        self.addCleanup(self.node.close)
        self.node.bind(("127.0.0.1", 0))
        self.node.settimeout(PATIENCE)
        self.port = free_port()
        self.remotes = {"east": ("127.77.0.1", self.port), "west": ("127.77.0.2", self.port)}
        text = f'node = "127.0.0.1:{self.node.getsockname()[1]}"\n' + self.peers()
        self.log = QuietLog()
        self.relay = relay.Relay(relay.read_settings(text.encode()), self.log, StandIn)
        self.raws = {str(own): raw for own, raw in self.relay.ips.items()}
        for raw in self.raws.values():
            self.addCleanup(raw.close)
        for passage in self.relay.passages:
            self.addCleanup(passage.udp.close)
        self.start()

    def peers(self) -> str:
        raise NotImplementedError

    def start(self) -> None:
        reading, self.signals = os.pipe()
        self.addCleanup(os.close, reading)
        self.addCleanup(os.close, self.signals)
        self.thread = threading.Thread(target=self.relay.run, args=(reading,), daemon=True)
        self.thread.start()
        self.addCleanup(self.end)

    def signal(self, number: int) -> None:
        os.write(self.signals, bytes([number]))

    def end(self) -> None:
        if self.thread.is_alive():
            self.signal(signal.SIGTERM)
            self.thread.join(PATIENCE)

    def counts(self) -> list[str]:
        """What it says that it counted."""
        self.log.kept.clear()
        self.signal(signal.SIGUSR1)
        wait_until(lambda: any("strangers" in line for line in self.log.kept), "it says what it counted")
        return self.log.kept

    def came(self, octets: bytes) -> tuple[str, str]:
        """Waits until this goes out, alone. Returns from where and to where."""
        wait_until(lambda: any(raw.sent for raw in self.raws.values()), "it goes out")
        (own, (far, sent)), = [(own, it) for own, raw in self.raws.items() for it in raw.sent]
        self.assertEqual(sent, octets)
        for raw in self.raws.values():
            raw.sent.clear()
        return own, far


class Passing(RelayTest):
    """Two peers, with the same ports."""

    def setUp(self) -> None:
        super().setUp()
        self.raw, = self.raws.values()

    def peers(self) -> str:
        return peer(remote=f'"127.77.0.1:{self.port}"') + west(remote=f'"127.77.0.2:{self.port}"')

    def test_what_passes(self) -> None:
        """Octet for octet, whatever is behind the ports, by the address of each peer: both have the same SCTP ports."""
        self.assertEqual([*self.relay.ips], [relay.ipaddress.ip_address(OWN)])
        for name, address in (("east", EAST), ("west", WEST)):
            for octets in (packet(3566, 3565, 7, chunk(DATA, b"\xff" * 900)), packet(3566, 3565, 7, b"")[:12]):
                self.raw.put(address, octets)
                self.assertEqual(self.node.recvfrom(1 << 16), (octets, self.remotes[name]))
            octets = packet(3565, 3566, 9, chunk(DATA, name.encode()))[:-1] + b"\xa5"
            self.node.sendto(octets, self.remotes[name])
            self.assertEqual(self.came(octets), (OWN, address))
        self.assertEqual(self.counts(), [
            "count east to_node 2 to_peer 1 lost_to_node 0 lost_to_peer 0 moves 0",
            "count west to_node 2 to_peer 1 lost_to_node 0 lost_to_peer 0 moves 0", "count strangers 0 icmp 0"])

    def test_what_does_not(self) -> None:
        """Other addresses, other ports, the ports of the other way, what is too short; and nothing comes back."""
        right = packet(3566, 3565, 7, b"")
        for source, octets in (("192.0.2.4", right), (OWN, right), (EAST, packet(3566, 3566, 7, b"")),
                               (EAST, packet(3565, 3566, 7, b"")), (EAST, packet(3567, 3565, 7, b"")),
                               (EAST, right[:11]), (EAST, b""), (EAST, b"\x0d")):
            self.raw.put(source, octets)
        for octets in (right, packet(3565, 3567, 9, b""), packet(3565, 3566, 9, b"")[:11], b"", b"\x0d"):
            self.node.sendto(octets, self.remotes["east"])
        with socket.socket(socket.AF_INET, socket.SOCK_DGRAM) as stranger:
            stranger.sendto(packet(3565, 3566, 9, b""), self.remotes["east"])
        # (what passes then shows that the others don't come any more)
        self.raw.put(EAST, right)
        self.assertEqual(self.node.recv(1 << 16), right)
        self.node.sendto(packet(3565, 3566, 9, b""), self.remotes["east"])
        self.assertEqual(self.came(packet(3565, 3566, 9, b"")), (OWN, EAST))
        self.assertEqual(self.counts(), [
            "count east to_node 1 to_peer 1 lost_to_node 0 lost_to_peer 0 moves 0",
            "count west to_node 0 to_peer 0 lost_to_node 0 lost_to_peer 0 moves 0", "count strangers 13 icmp 0"])

    def test_a_packet_that_the_system_does_not_take(self) -> None:
        """It is lost, and no other."""
        packets = [packet(3565, 3566, tag, b"") for tag in range(3)]
        self.raw.refused = packets[1]
        for octets in packets:
            self.node.sendto(octets, self.remotes["east"])
        wait_until(lambda: len(self.raw.sent) == 2, "the others go out")
        self.assertEqual(self.raw.sent, [(EAST, packets[0]), (EAST, packets[2])])
        self.assertEqual(self.log.kept, [f"lost east to {EAST}: Network is unreachable"])
        self.assertEqual(self.counts()[0], "count east to_node 0 to_peer 2 lost_to_node 0 lost_to_peer 1 moves 0")

    def test_a_node_that_is_away(self) -> None:
        """What comes meanwhile is lost, which is counted and said; what comes later isn't."""
        port = self.node.getsockname()[1]
        self.node.close()
        right = packet(3566, 3565, 7, b"")
        for _ in range(20):
            self.raw.put(EAST, right)
        wait_until(lambda: self.relay.passages[0].lost_to_node == 20, "all are lost")
        self.assertIn("lost east to the node: Connection refused", self.log.kept)
        self.assertEqual(self.counts()[0], "count east to_node 0 to_peer 0 lost_to_node 20 lost_to_peer 0 moves 0")
        with socket.socket(socket.AF_INET, socket.SOCK_DGRAM) as back:
            back.bind(("127.0.0.1", port))
            back.settimeout(PATIENCE)
            self.raw.put(WEST, right)
            self.raw.put(EAST, right)
            self.assertEqual({back.recvfrom(1 << 16) for _ in range(2)},
                             {(right, remote) for remote in self.remotes.values()})

    def test_lines_are_limited(self) -> None:
        """What may happen often has some lines a second; the log says how many it missed."""
        for number in range(100):
            self.log.say_of_many("lost", number)
        self.assertLessEqual(len(self.log.kept), 2 * relay.LINES_A_SECOND)
        self.assertEqual(self.log.missed + len(self.log.kept), 100)

    def test_its_end(self) -> None:
        for number in (signal.SIGTERM, signal.SIGINT):
            with self.subTest(number):
                self.signal(number)
                self.thread.join(PATIENCE)
                self.assertFalse(self.thread.is_alive())
                self.start()


class TwoPaths(RelayTest):
    """A peer with two paths, and two links."""

    FIRST, SECOND = (OWN, EAST), (OWN_SECOND, EAST_SECOND)

    def peers(self) -> str:
        remote, ports = f'"127.77.0.1:{self.port}"', "[[3565, 3566], [3575, 3576]]"
        return by_paths(self.FIRST, self.SECOND, remote=remote, sctp_ports=ports)

    def send(self, octets: bytes) -> tuple[str, str]:
        """Sends this as the node. Returns from where and to where it goes out."""
        self.node.sendto(octets, self.remotes["east"])
        return self.came(octets)

    def hear(self, own: str, far: str, octets: bytes) -> None:
        """This comes from the peer, and to the node."""
        self.raws[own].put(far, octets)
        self.assertEqual(self.node.recvfrom(1 << 16), (octets, self.remotes["east"]))

    def test_each_link_goes_to_where_it_was_heard(self) -> None:
        """By any pair of addresses; the other link stays where it is."""
        data, other = packet(3565, 3566, 7, chunk(DATA, b"one")), packet(3575, 3576, 7, chunk(DATA, b"other"))
        self.assertEqual(self.send(data), self.FIRST)
        for way in (self.SECOND, (OWN, EAST_SECOND), (OWN_SECOND, EAST), self.FIRST):
            self.hear(*way, packet(3566, 3565, 9, chunk(relay.Chunk.SACK, bytes(12))))
            self.assertEqual(self.send(data), way)
            self.hear(*self.FIRST, packet(3576, 3575, 9, chunk(relay.Chunk.SACK, bytes(12))))
            self.assertEqual(self.send(other), self.FIRST)
        moved = f"path east 3565-3566 {OWN_SECOND} {EAST_SECOND} heard"
        self.assertEqual((self.log.kept[0], len(self.log.kept)), (moved, 4))
        self.assertEqual(self.counts()[0], "count east to_node 8 to_peer 9 lost_to_node 0 lost_to_peer 0 moves 4")

    def test_strangers(self) -> None:
        """They move nothing."""
        sack = chunk(relay.Chunk.SACK, bytes(12))
        for far, ports in ((WEST, (3566, 3565)), (OWN, (3566, 3565)), (EAST_SECOND, (3566, 3575)),
                           (EAST, (3565, 3566))):
            self.raws[OWN_SECOND].put(far, packet(*ports, 9, sack))
        self.hear(*self.SECOND, packet(3576, 3575, 9, sack))
        self.assertEqual(self.send(packet(3565, 3566, 7, chunk(DATA))), self.FIRST)
        self.assertEqual(self.counts()[-1], "count strangers 4 icmp 0")

    def test_addresses_that_are_not_listed(self) -> None:
        """A warning names each own address that INIT and INIT ACK don't list, but for the one that they come from."""
        def listing(kind: int, *owns: str) -> bytes:
            listed = b"".join(struct.pack(">HH", 5, 8) + socket.inet_aton(own) for own in owns)
            return packet(3565, 3566, 0, chunk(kind, bytes(16) + struct.pack(">HH", 12, 6) + b"\0\5\0\0" + listed))

        for kind in (relay.Chunk.INIT, relay.Chunk.INIT_ACK):
            for owns, warned in (((), OWN_SECOND), ((OWN,), OWN_SECOND), ((OWN_SECOND,), None),
                                 ((OWN, OWN_SECOND), None)):
                self.log.kept.clear()
                self.hear(*self.FIRST, packet(3566, 3565, 9, chunk(relay.Chunk.SACK, bytes(12))))
                self.send(listing(kind, *owns))
                warning = f"warning: {kind.name} to east doesn't list {warned}"
                self.assertEqual(self.log.kept[-1:], [warning] if warned else [])


class Choosing(unittest.TestCase):
    """The way of a link's packets, by a clock of the test."""

    def setUp(self) -> None:
        self.now, self.moves = 0.0, list[str]()
        self.ways = [relay.Way(name, None, name) for name in ("first", "second", "third", "crossing")]
        self.route = relay.Route(tuple(self.ways[:3]), self.note, lambda: self.now)

    def note(self, way: object, why: str) -> None:
        self.moves.append(f"{way.far} {why}")

    def hear(self, name: str, *chunks: bytes) -> None:
        way, = (way for way in self.ways if way.far == name)
        self.route.hear(way, packet(3566, 3565, 9, b"".join(chunks)))

    def chosen(self, *chunks: bytes, tag: int = 7) -> str:
        return self.route.choose(packet(3565, 3566, tag, b"".join(chunks))).far

    def test_heartbeats(self) -> None:
        """They move nothing. Their answers go to where they came from, in any order, once; then all goes as before."""
        one, other = b"\0\1\0\10one\0", b"\0\1\0\11other"
        self.hear("second", chunk(relay.Chunk.HEARTBEAT, one))
        self.hear("third", chunk(relay.Chunk.HEARTBEAT, other))
        self.assertEqual(self.chosen(chunk(DATA)), "first")
        self.assertEqual(self.chosen(chunk(relay.Chunk.HEARTBEAT_ACK, b"\0\1\0\7two")), "first")
        sack = chunk(relay.Chunk.SACK, bytes(12))
        self.assertEqual(self.chosen(sack, chunk(relay.Chunk.HEARTBEAT_ACK, other)), "third")
        self.assertEqual(self.chosen(chunk(relay.Chunk.HEARTBEAT_ACK, one)), "second")
        self.assertEqual(self.chosen(chunk(relay.Chunk.HEARTBEAT_ACK, one)), "first")
        self.assertEqual(self.moves, [])

    def test_heartbeat_beside_something_else(self) -> None:
        self.hear("second", chunk(relay.Chunk.SACK, bytes(12)), chunk(relay.Chunk.HEARTBEAT, b"beat"))
        self.assertEqual(self.chosen(chunk(DATA)), "second")

    def test_init(self) -> None:
        """It moves nothing. INIT ACK, whose tag is that of INIT, goes to where it came from; what the peer then says
        moves the rest."""
        self.hear("second", chunk(INIT, struct.pack(">I", 11) + bytes(12)))
        self.assertEqual(self.chosen(chunk(INIT, bytes(16))), "first")
        self.assertEqual(self.chosen(chunk(relay.Chunk.INIT_ACK, bytes(16)), tag=12), "first")
        self.assertEqual(self.chosen(chunk(relay.Chunk.INIT_ACK, bytes(16)), tag=11), "second")
        self.hear("second", chunk(relay.Chunk.COOKIE_ECHO, bytes(100)))
        self.assertEqual(self.chosen(chunk(relay.Chunk.COOKIE_ACK)), "second")
        self.assertEqual(self.moves, ["second heard"])

    def test_turns(self) -> None:
        """The paths take turns of 300 ms each, from a packet on that isn't answered, until something is heard. So does the
        one by which it is."""
        for now, name in ((1.0, "first"), (1.2, "first"), (1.31, "second"), (1.6, "second"), (1.62, "third"),
                          (2.0, "first"), (2.4, "second")):
            self.now = now
            self.assertEqual(self.chosen(chunk(DATA)), name, now)
        self.now = 2.69
        self.hear("third", chunk(DATA))
        self.assertEqual(self.chosen(chunk(DATA)), "third")
        self.now = 2.98
        self.assertEqual(self.chosen(chunk(DATA)), "third")
        self.now = 3.0
        self.assertEqual(self.chosen(chunk(DATA)), "first")
        self.hear("third", chunk(relay.Chunk.SACK, bytes(12)))
        self.now = 9.0
        self.assertEqual(self.chosen(chunk(DATA)), "third")
        self.now = 9.29
        self.assertEqual(self.chosen(chunk(DATA)), "third")
        self.assertEqual(self.moves[:4], ["second silence", "third silence", "first silence", "second silence"])
        self.assertEqual(self.moves[4:], ["third heard", "first silence", "third heard"])

    def test_what_asks_and_what_answers(self) -> None:
        """Each chunk that has to be answered begins the wait, and no other; each answer ends it."""
        asking = {relay.Chunk(number) for number in (0, 1, 4, 7, 8, 10)}
        answering = {relay.Chunk(number) for number in (2, 3, 5, 6, 7, 8, 9, 11, 14)}
        for kind in relay.Chunk:
            self.setUp()
            self.chosen(chunk(kind, bytes(16)))
            self.now = 0.4
            self.assertEqual(self.chosen(chunk(DATA)), "second" if kind in asking else "first", kind.name)
            self.setUp()
            self.chosen(chunk(DATA))
            self.hear("first", chunk(kind, bytes(16)))
            self.now = 0.4
            self.assertEqual(self.chosen(chunk(DATA)), "first" if kind in answering else "second", kind.name)

    def test_crossing(self) -> None:
        """Where the peer was heard by no path, its silence leads to the first one."""
        self.hear("crossing", chunk(relay.Chunk.SACK, bytes(12)))
        self.assertEqual(self.chosen(chunk(DATA)), "crossing")
        self.now = 0.4
        self.assertEqual(self.chosen(chunk(DATA)), "first")

    def test_what_is_kept_and_looked_at_has_an_end(self) -> None:
        for number in range(1000):
            self.hear("second", chunk(relay.Chunk.HEARTBEAT, number.to_bytes(4, "big")))
        self.assertEqual(len(self.route.questions), relay.MOST_QUESTIONS)
        self.assertEqual(self.chosen(chunk(relay.Chunk.HEARTBEAT_ACK, (0).to_bytes(4, "big"))), "first")
        self.assertEqual(self.chosen(chunk(relay.Chunk.HEARTBEAT_ACK, (999).to_bytes(4, "big"))), "second")
        for octets in (b"", b"\4", bytes(3), b"\4\0\0", b"\4\0\0\0" * 16_000, b"\xff\0\xff\xff" * 10_000):
            self.assertLessEqual(len([*relay.chunks(bytes(12) + octets)]), relay.MOST_CHUNKS)


if __name__ == "__main__":
    unittest.main()
