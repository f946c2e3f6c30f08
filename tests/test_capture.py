"""The capture of a node: each frame that its counters count, as a packet, whatever becomes of its links; and the files
that it goes into."""

import os
import shutil
import stat
import subprocess
from collections import Counter
from pathlib import Path

from frames import Packet, read_capture
from harness import Node, NodeTest, free_port, links_between, run
from traffic import FAR, NEAR, Pair

CAPTURE = "node.pcap"
MISTAKE = "must be capture start or capture stop, for all links; or with LINK behind it, for that one"
MESSAGES = 200

# A ring of three files, the longest messages, and as many as fill some files more: a packet of one has 336 octets.
SIZE, FILES, LONGEST_OCTETS = 2_000_000, 3, 272
MANY, POOL, HALF_A_FILE = 20_000, 5000, 3_000


def files_of(node: Node) -> list[Path]:
    """The files of the ring of a node, in the order of their names."""
    return sorted(node.folder.glob(f"{CAPTURE}.*"))


def numbers_of(node: Node) -> list[int]:
    return [int(file.suffix[1:]) for file in files_of(node)]


def way_of(packet: Packet) -> tuple[str, str]:
    return f"e{packet.link}", "out" if packet.went_out else "in"


class Captures(NodeTest):
    def test_as_many_and_as_long_as_the_counters_say(self) -> None:
        pair = Pair(self, capture=CAPTURE)
        pair.exchange(MESSAGES)
        pair.near.ask("deactivate e1")
        pair.exchange(MESSAGES)
        pair.near.ask("activate e1")
        pair.await_service()
        pair.exchange(MESSAGES)
        pair.await_service()
        counted = pair.near.counters()
        pair.near.stop()
        frames, octets = Counter(), Counter()
        for packet in read_capture(pair.near.folder / CAPTURE):
            way = way_of(packet)
            self.assertEqual(packet.number, frames[way], "the packets of a link and a direction are numbered")
            frames[way] += 1
            octets[way] += len(packet.frame)
        for name, way in ((name, way) for name in pair.names for way in ("in", "out")):
            self.assertGreater(frames[name, way], MESSAGES // 2)
            self.assertEqual(frames[name, way], counted[name][f"frames_{way}"])
            self.assertEqual(octets[name, way], counted[name][f"octets_{way}"])

    def test_a_second_start_leaves_it_as_it_is(self) -> None:
        pair = Pair(self, capture=CAPTURE)
        pair.exchange(MESSAGES)
        before = read_capture(pair.near.folder / CAPTURE)
        second = run("serve", "node.toml", folder=pair.near.folder)
        self.assertEqual(second.returncode, 4)
        self.assertRegex(second.stderr, r"^127\.0\.0\.1:\d+: listening there fails: address in use\n$")
        self.assertNotIn("capture", second.stdout)
        pair.exchange(MESSAGES)
        pair.near.stop()
        after = read_capture(pair.near.folder / CAPTURE)
        self.assertEqual(after[: len(before)], before)
        self.assertGreater(len(after), len(before) + 2 * MESSAGES)

    def test_one_that_cannot_be_written(self) -> None:
        pair = Pair(self, capture="/dev/full")
        pair.near.await_log("capture failed$")
        pair.exchange(MESSAGES)
        self.assertEqual(pair.near.logged("capture failed$"), 1)
        self.assertEqual(pair.near.ask("capture start"), ["ignored"])
        self.assertEqual(pair.near.ask("show capture"), [])


class Places(NodeTest):
    """What is at the place of a capture."""

    def refused(self, why: str, **more) -> Node:
        """A node that doesn't start for what is at the place of its capture, which stays."""
        node = self.node(NEAR, links_between([free_port()], FAR, True), **{"capture": CAPTURE, **more})
        self.prepare(node)
        before = self.state(node)
        ended = run("serve", "node.toml", folder=node.folder)
        told = f"{more.get('capture', CAPTURE)}: {why}\n".replace("\a", "?")
        self.assertEqual((ended.returncode, ended.stderr.splitlines(keepends=True)[-1:]), (4, [told]))
        self.assertEqual([line.split()[1] for line in ended.stdout.splitlines()], ["start", "listen", "console"])
        self.assertEqual(self.state(node), before)
        return node

    def state(self, node: Node) -> list[tuple[str, int, int]]:
        paths = sorted(node.folder.iterdir())
        return [(path.name, os.lstat(path).st_ino, os.lstat(path).st_size) for path in paths]

    def prepare(self, node: Node) -> None:
        """Nothing is there."""

    def test_no_folder(self) -> None:
        self.refused("the capture file can't be made", capture="absent/near.pcap")
        self.refused("the capture file can't be made", capture="absent/near.pcap", capture_size=SIZE, capture_files=FILES)

    def test_a_folder_that_is_read_only(self) -> None:
        if os.geteuid() == 0:
            self.skipTest("root may write anywhere")
        self.prepare = lambda node: ((node.folder / "sub").mkdir(), (node.folder / "sub").chmod(0o500))
        self.refused("the capture file can't be made", capture="sub/near.pcap", capture_size=SIZE, capture_files=FILES)

    def test_the_settings(self) -> None:
        self.refused("the capture would overwrite the settings", capture="node.toml")
        self.refused("the capture would overwrite the settings", capture="./node.toml", capture_size="2MB", capture_files=2)

    def test_what_is_no_file(self) -> None:
        for why, make in (
            ("a symbolic link is there, and a capture follows none", lambda path: path.symlink_to("elsewhere")),
            ("a symbolic link is there, and a capture follows none", lambda path: path.symlink_to("/dev/null")),
            ("a pipe is there, and a capture needs a file", os.mkfifo),
            ("a folder is there, and a capture needs a file", Path.mkdir),
        ):
            for ring in ({}, {"capture_size": "2MB", "capture_files": 2}):
                self.prepare = lambda node: make(node.folder / CAPTURE)
                self.refused(why, **ring)

    def test_the_settings_by_another_name(self) -> None:
        """A file of the ring, and a second name of the settings."""
        self.prepare = lambda node: os.link(node.folder / "node.toml", node.folder / f"{CAPTURE}.00000004")
        self.refused("the capture would overwrite the settings", capture_size="2MB", capture_files=2)
        self.prepare = lambda node: os.link(node.folder / "node.toml", node.folder / CAPTURE)
        self.refused("the capture would overwrite the settings")

    def test_a_terminal(self) -> None:
        leader, terminal = os.openpty()
        self.addCleanup(os.close, leader)
        self.addCleanup(os.close, terminal)
        why = "a socket, a disk or a terminal is there, and a capture needs a file"
        self.refused(why, capture=os.ttyname(terminal))

    def test_a_name_that_forges_no_line(self) -> None:
        forged = "9.999 stop"
        for capture, ring in ((f"a\n{forged}", {}), (f"b\n{forged}", {"capture_size": "2MB", "capture_files": 2})):
            node = self.node(NEAR, links_between([free_port()], FAR, True), capture=capture, **ring)
            node.start()
            node.await_log("capture [ab][?]")
            self.assertNotIn(forged, node.log())
            node.kill()
        self.refused("the capture file can't be made", capture="absent/\a")

    def test_the_mode_of_a_new_file(self) -> None:
        for ring in ({}, {"capture_size": "2MB", "capture_files": 2}):
            node = self.node(NEAR, links_between([free_port()], FAR, True), capture=CAPTURE, **ring)
            node.start(umask=0)
            node.await_log("capture ")
            (file,) = node.folder.glob(f"{CAPTURE}*")
            self.assertEqual(stat.S_IMODE(file.stat().st_mode), 0o600)
            node.kill()


class RingTest(NodeTest):
    """A test of nodes whose captures go into rings of files."""

    LIMIT = 200
    size, files = SIZE, FILES

    def pair(self) -> Pair:
        ring = {"capture": CAPTURE, "capture_size": self.size, "capture_files": self.files}
        return Pair(self, octets=LONGEST_OCTETS, pool=POOL, **ring)

    def fill(self, pair: Pair, count: int) -> None:
        for _ in range(0, count, POOL // 5):
            pair.forth.exchange(POOL // 5)

    def check_whole(self, node: Node, may_be_cut: bool = False) -> Counter:
        """Checks that the packets of the files, one after another, have no gap. Returns the next number of each way."""
        expected: dict[tuple[str, str], int] = {}
        for file in files_of(node):
            self.assertLessEqual(file.stat().st_size, self.size)
            for packet in read_capture(file, may_be_cut and file == files_of(node)[-1]):
                way = way_of(packet)
                self.assertEqual(packet.number, expected.get(way, packet.number), f"{file}: no packet is missing")
                expected[way] = packet.number + 1
        return Counter(expected)

    def check_by_tshark(self, node: Node, may_be_cut: bool = False) -> None:
        """Where there is tshark, it reads each file, and finds a frame of M2PA in each packet."""
        if shutil.which("tshark") is None:
            return
        for file in files_of(node):
            is_last = may_be_cut and file == files_of(node)[-1]
            words = ["tshark", "-r", str(file), "-Y", "m2pa"]
            told = subprocess.run(words, capture_output=True, text=True)
            self.assertEqual(len(told.stdout.splitlines()), len(read_capture(file, is_last)), told.stderr[-200:])
            if not (is_last and "cut short" in told.stderr):
                self.assertEqual(told.returncode, 0, told.stderr)

    def check_newest(self, pair: Pair) -> int:
        """Stops the near node, and checks that the newest files are there, up to the last frame, without a gap. Returns
        how many files were begun."""
        pair.await_service()
        counted = pair.near.counters()
        pair.near.stop()
        numbers = numbers_of(pair.near)
        self.assertEqual(numbers, [*range(numbers[-1] - self.files + 1, numbers[-1] + 1)])
        for number in range(1, numbers[-1] + 1):
            self.assertEqual(pair.near.logged(rf"capture {CAPTURE}.{number:08}$"), 1)
        behind = self.check_whole(pair.near)
        for name, way in ((name, way) for name in pair.names for way in ("in", "out")):
            self.assertEqual(behind[name, way], counted[name][f"frames_{way}"])
        for file in files_of(pair.near)[:-1]:
            self.assertGreater(file.stat().st_size, self.size - (1 << 20))
        self.check_by_tshark(pair.near)
        return numbers[-1]


class Rings(RingTest):
    def test_the_newest_files_are_whole(self) -> None:
        pair = self.pair()
        self.fill(pair, MANY)
        self.assertGreater(self.check_newest(pair), FILES)

    def test_a_killed_node(self) -> None:
        """What it leaves is read, and stays until its turn when it starts again."""
        pair = self.pair()
        self.fill(pair, HALF_A_FILE)
        pair.near.kill()
        self.assertEqual(numbers_of(pair.near), [1])
        self.check_whole(pair.near, may_be_cut=True)
        self.check_by_tshark(pair.near, may_be_cut=True)
        before = files_of(pair.near)[0].read_bytes()
        other = pair.near.folder / f"{CAPTURE}.00000007"
        other.write_bytes(b"")
        (pair.near.folder / f"{CAPTURE}.7").write_bytes(b"")
        pair.near.start()
        pair.near.await_log(rf"capture {CAPTURE}.00000008$")
        # (file 1 went: file 8 begins with three files, of which 6 would be the first)
        self.assertEqual([file.name[len(CAPTURE) + 1 :] for file in files_of(pair.near)], ["00000007", "00000008", "7"])
        self.assertTrue(before.startswith(b"\xd4\xc3\xb2\xa1"))

    def test_a_restart_goes_on_in_a_new_file(self) -> None:
        pair = self.pair()
        pair.near.stop()
        first = files_of(pair.near)[0].read_bytes()
        for number in (2, 3):
            pair.near.start()
            pair.near.await_log(rf"capture {CAPTURE}.{number:08}$")
            pair.near.stop()
            self.assertEqual(files_of(pair.near)[0].read_bytes(), first)
        pair.near.start()
        pair.near.await_log(rf"capture {CAPTURE}.00000004$")
        self.assertEqual(numbers_of(pair.near), [2, 3, 4])

    def test_a_file_that_is_in_the_way(self) -> None:
        """It is never overwritten: the capture ends, and the node goes on."""
        pair = self.pair()
        way = pair.near.folder / f"{CAPTURE}.00000002"
        way.write_bytes(b"kept")
        for _ in range(0, MANY, POOL // 5):
            pair.forth.exchange(POOL // 5)
            if pair.near.logged("capture failed$"):
                break
        self.assertEqual(pair.near.logged("capture failed$"), 1)
        self.assertEqual(way.read_bytes(), b"kept")
        self.assertEqual(pair.near.ask("capture start"), ["ignored"])
        pair.exchange(MESSAGES)


class Orders(NodeTest):
    """The lines `capture ..` of the console."""

    def captured(self, node: Node) -> Counter[str]:
        """How many frames of each link are in the capture."""
        return Counter(f"e{packet.link}" for packet in read_capture(node.folder / CAPTURE))

    def test_start_and_stop(self) -> None:
        pair = Pair(self, near_capture=CAPTURE)
        near = pair.near
        self.assertEqual(near.ask("show capture"), ["capture e0 on", "capture e1 on", "capture e2 on"])
        self.assertEqual(near.ask("capture stop e1"), ["handled"])
        self.assertEqual(near.ask("show capture"), ["capture e0 on", "capture e1 off", "capture e2 on"])
        before = self.captured(near)
        pair.exchange(MESSAGES)
        pair.await_service()
        after = self.captured(near)
        self.assertEqual(after["e1"], before["e1"])
        self.assertGreater(after["e0"], before["e0"])
        self.assertEqual(near.ask("capture stop"), ["handled"])
        before = self.captured(near)
        pair.exchange(MESSAGES)
        pair.await_service()
        self.assertEqual(self.captured(near), before)
        self.assertEqual(near.ask("capture start e1"), ["handled"])
        self.assertEqual(near.ask("show capture"), ["capture e0 off", "capture e1 on", "capture e2 off"])
        pair.exchange(MESSAGES)
        pair.await_service()
        after = self.captured(near)
        self.assertEqual((after["e0"], after["e2"]), (before["e0"], before["e2"]))
        self.assertGreater(after["e1"], before["e1"])
        self.assertEqual(near.ask("capture start"), ["handled"])
        self.assertEqual(near.ask("show capture"), ["capture e0 on", "capture e1 on", "capture e2 on"])

    def test_other_lines(self) -> None:
        pair = Pair(self, near_capture=CAPTURE)
        for line in ("capture start e9", "capture stop e9", "capture stop e0 e1"):
            self.assertEqual(pair.near.ask(line), ["refused 22 NoSuchName"], line)
        for node in (pair.near, pair.far):
            for line in ("capture", "capture ", "capture e0", "capture starts"):
                node.operator.write(f"{line}\n")
                self.assertEqual(node.operator.read_line(), f"malformed: {MISTAKE}", line)
        self.assertEqual(pair.near.ask("show capture"), ["capture e0 on", "capture e1 on", "capture e2 on"])

    def test_no_capture(self) -> None:
        pair = Pair(self)
        for line in ("capture start", "capture stop", "capture start e0"):
            self.assertEqual(pair.near.ask(line), ["ignored"])
        self.assertEqual(pair.near.ask("show capture"), [])
        self.assertEqual(pair.near.ask("capture start e9"), ["refused 22 NoSuchName"])
