"""What is packed beside the program: its manual page, completion and settings, `stpd`, and the package itself."""

from __future__ import annotations

import os
import re
import shutil
import signal
import subprocess
import tempfile
import unittest
from pathlib import Path

from harness import PATIENCE, ROOT, STP, NodeTest, free_port, links_between, run, settings, wait_until

PACKAGING = ROOT / "packaging"
KILLED = "stpd: the node doesn't stop, and is killed"
# What a shell adds to the number of the signal that ended a process.
SHELL_SIGNALLED = 128


def helped() -> list[tuple[str, str]]:
    """Each form of the arguments that `stp help` lists, and what it means."""
    lines = run("help", folder=ROOT).stdout.splitlines()
    return [tuple(re.split(r"  +", line, maxsplit=1)) for line in lines if line.startswith("stp ")]


def paged() -> list[tuple[str, str]]:
    """The same of the manual page: of each form a heading, and its meaning on the next lines."""
    section = (PACKAGING / "stp.1").read_text().partition(".SH COMMANDS\n")[2].partition(".SH ")[0]
    blocks = [block.splitlines() for block in section.split(".TP\n")[1:]]
    heads = (re.sub(r'^\.BI? |["\\]', "", head).split() for head, *_ in blocks)
    return [(" ".join(words), " ".join(rest)) for words, (_, *rest) in zip(heads, blocks)]


class Pages(unittest.TestCase):
    def test_manual_page_says_what_help_says(self) -> None:
        self.assertEqual(paged(), helped())

    def test_completion_has_each_command(self) -> None:
        commands = re.search(r"compgen -W '(.*?)'", (PACKAGING / "stp.bash").read_text())
        self.assertEqual(set(commands[1].split()), {form.split()[1] for form, _ in helped()})

    def test_example_has_no_fault(self) -> None:
        checked = run("check", str(PACKAGING / "example.toml"), folder=ROOT)
        self.assertEqual((checked.returncode, checked.stdout, checked.stderr), (0, "ok\n", ""))


class Wrapper(NodeTest):
    """`stpd` ends its node in order, whichever of its processes the signal reaches, and ends with its status."""

    def setUp(self) -> None:
        super().setUp()
        # A shell that runs the tests in the background ignores SIGINT, and a shell can't trap what it finds ignored.
        self.addCleanup(signal.signal, signal.SIGINT, signal.signal(signal.SIGINT, signal.default_int_handler))
        console = free_port()
        self.text = settings(1, links_between([free_port()], 2, True), console=console)
        (self.folder / "node.toml").write_text(self.text)

    def started(self) -> subprocess.Popen:
        """A wrapper with a process group of its own, whose node has a console."""
        with open(self.folder / "log", "wb") as log:
            wrapper = subprocess.Popen([PACKAGING / "stpd", "node.toml"], cwd=self.folder, stdout=log, stderr=log,
                                       env={**os.environ, "STP": STP}, start_new_session=True)
        self.addCleanup(self.end, wrapper)
        wait_until(lambda: " console " in self.log(), "the console of the node")
        return wrapper

    def end(self, wrapper: subprocess.Popen) -> None:
        if wrapper.poll() is None:
            os.killpg(wrapper.pid, signal.SIGKILL)
            wrapper.wait()

    def log(self) -> str:
        return (self.folder / "log").read_text()

    def test_a_signal_to_the_wrapper(self) -> None:
        for number in (signal.SIGTERM, signal.SIGINT):
            wrapper = self.started()
            wrapper.send_signal(number)
            self.assertEqual(wrapper.wait(PATIENCE), 0)
            self.assertTrue(self.log().endswith(" stop\n"), self.log())

    def test_a_signal_to_all_of_a_terminal(self) -> None:
        wrapper = self.started()
        os.killpg(wrapper.pid, signal.SIGINT)
        self.assertEqual(wrapper.wait(PATIENCE), 0)
        self.assertTrue(self.log().endswith(" stop\n"), self.log())

    def test_a_node_that_is_paused(self) -> None:
        """A node that doesn't end, though its console takes the line, is killed."""
        wrapper = self.started()
        children = Path(f"/proc/{wrapper.pid}/task/{wrapper.pid}/children")
        os.kill(int(children.read_text()), signal.SIGSTOP)
        wrapper.send_signal(signal.SIGTERM)
        self.assertEqual(wrapper.wait(PATIENCE), SHELL_SIGNALLED + signal.SIGKILL)
        self.assertIn(f"{KILLED}\n", self.log())

    def test_the_status_of_the_node(self) -> None:
        (self.folder / "node.toml").write_text(self.text.replace("own = 1", "own = -1"))
        wrapper = subprocess.run([PACKAGING / "stpd", "node.toml"], cwd=self.folder, capture_output=True,
                                 env={**os.environ, "STP": STP}, timeout=PATIENCE, check=False)
        self.assertEqual(wrapper.returncode, 2)


@unittest.skipUnless(shutil.which("dpkg-deb"), "dpkg-deb isn't here")
class Package(unittest.TestCase):
    @classmethod
    def setUpClass(cls) -> None:
        room = tempfile.TemporaryDirectory(prefix="stp-test-")
        cls.addClassCleanup(room.cleanup)
        cls.folder = Path(room.name)
        cls.package = cls.pack("first")

    @classmethod
    def pack(cls, name: str) -> Path:
        """Makes the package, and returns its path."""
        environment = {**os.environ, "STP": STP, "SOURCE_DATE_EPOCH": "0"}
        made = subprocess.run([ROOT / "tools/package", cls.folder / name], env=environment,
                              capture_output=True, text=True, check=True)
        return Path(made.stdout.splitlines()[-1])

    def told(self, *words: str | Path) -> str:
        return subprocess.run(["dpkg-deb", *words], capture_output=True, text=True, check=True).stdout

    def test_it_is_the_same_each_time(self) -> None:
        self.assertEqual(self.pack("second").read_bytes(), self.package.read_bytes())

    def test_its_files(self) -> None:
        rows = [line.split() for line in self.told("--contents", self.package).splitlines()]
        self.assertEqual({row[1] for row in rows}, {"root/root"})
        modes = {row[5].removeprefix("."): row[0] for row in rows}
        program, data = "-rwxr-xr-x", "-rw-r--r--"
        for path, mode in (("/usr/bin/stp", program), ("/usr/bin/stpd", program), ("/etc/sixhadobe/example.toml", data),
                           ("/usr/lib/systemd/system/stp@.service", data), ("/usr/share/man/man1/stp.1.gz", data),
                           ("/usr/bin/sctp-relay", program), ("/etc/sixhadobe/example.relay.toml", data),
                           ("/usr/lib/systemd/system/sctp-relay@.service", data),
                           ("/usr/share/man/man8/sctp-relay.8.gz", data)):
            self.assertEqual(modes[path], mode, path)

    def test_its_version_and_libraries(self) -> None:
        version = run("--version", folder=ROOT).stdout.split()[1]
        self.assertEqual(self.told("--field", self.package, "Version").strip(), version)
        self.assertEqual(self.told("--field", self.package, "Depends").strip(), "libc6 (>= 2.34), libgcc-s1")
        self.assertEqual(self.told("--field", self.package, "Suggests").strip(), "python3 (>= 3.11)")
