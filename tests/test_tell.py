"""`stp tell`, and a console at a Unix socket."""

from __future__ import annotations

import contextlib
import os
import shutil
import socket
import stat
import subprocess
import threading
import unittest
from typing import Any, Iterator

from harness import HOST, PATIENCE, STP, Link, Node, NodeTest, free_port, run

REFUSED = 1
FAILED = 4
FLAGS = "flag lost_any 0\nflag late_any 0\n"
QUESTIONS = 6000
HELP_LINES = 35
MOST_CALLERS = 16
LINE_OCTETS = 8300
NOBODY = 65534
UNANSWERED = "the connection ended before all was answered"

# Lines, what a console answers them before it ends the connection, and the status. What is shown, and news, answer no
# line that always has an answer.
ANSWERS = (
    ("users\nusers", "handled\nhandled\n", 0),
    ("users\nusers\n", "handled\n", FAILED),
    ("users\nshow flags\n# nothing\n\n\r\nshow\n", f"handled\n{FLAGS}malformed: must be show ..\n", REFUSED),
    ("users\nwatch\n", "handled\nlocal e0 850240001001001000\nhandled\nrefused 6 NoUserPart e0\n", 0),
    ("users\nwatch\n", "handled\nlocal e0 850240001001001000\nrefused 6 NoUserPart e0\n", FAILED),
    ("submit 8502\nhelp\n", "queued e0\n", FAILED),
    ("submit 8502\nusers\n", "refused 2 NoLabel\n", FAILED),
    ("watch\nstop\nusers\n", "handled\nstopping\nfailed e0 operator\n", 0),
)


class LoneTest(NodeTest):
    """A test of a node with one link, to nobody."""

    def lone(self, **more: Any) -> Node:
        return self.node(1, [Link("e0", 2, 0, free_port(), True)], **more)

    def at_a_socket(self, **more: Any) -> Node:
        return self.lone(console=str(self.folder / "console"), **more)

    def told(self, node: Node, *words: str, text: str | None = None) -> tuple[int, str]:
        """The status of `stp tell`, which has nothing to explain, and what it prints."""
        told = run("tell", "node.toml", *words, folder=node.folder, text=text)
        self.assertEqual(told.stderr, "")
        return told.returncode, told.stdout

    def failed(self, node: Node, *words: str) -> str:
        """What `stp tell` says that finds no console and prints nothing."""
        told = run("tell", "node.toml", *words, folder=node.folder)
        self.assertEqual((told.returncode, told.stdout), (FAILED, ""))
        return told.stderr


class Tell(LoneTest):
    """The client."""

    def test_lines(self) -> None:
        for node in (self.lone(), self.at_a_socket()):
            node.start()
            self.assertEqual(self.told(node, "show", "flags"), (0, FLAGS))
            self.assertEqual(self.told(node, "submit", "850240001001001000"), (REFUSED, "refused 4 NoRoute\n"))
            self.assertEqual(self.told(node, "activate", "e9"), (REFUSED, "refused 22 NoSuchName\n"))
            row = "0 1 4 4917 2 title -"
            self.assertEqual(self.told(node, "title", "add", *row.split()), (0, "handled\n"))
            self.assertEqual(self.told(node, "show", "titles"), (0, f"title {row}\n"))
            self.assertEqual(self.told(node, "users"), (0, "handled\n"))
            for silent in ("show notices", "# nothing", ""):
                self.assertEqual(self.told(node, silent), (0, ""))
            self.assertEqual(self.told(node, text="show flags\n\nusers\nshow flags"), (0, f"{FLAGS}handled\n{FLAGS}"))
            self.assertEqual(self.told(node, text="  show flags\n   \n # nothing\n \r\n users \n  "), (0, f"{FLAGS}handled\n"))
            self.assertEqual(self.told(node, text=""), (0, ""))

    def test_mistakes(self) -> None:
        """A first line that is malformed ends the connection, a later one doesn't."""
        for node in (self.lone(), self.at_a_socket()):
            node.start()
            mistake = "malformed: no command shw; the nearest is show\n"
            self.assertEqual(self.told(node, "shw", "links"), (REFUSED, mistake))
            self.assertEqual(self.told(node, text="shw\n" + "show flags\n" * QUESTIONS), (REFUSED, mistake))
            self.assertEqual(self.told(node, text="show flags\nshw\nshow flags\n"), (REFUSED, FLAGS + mistake + FLAGS))

    def test_long_answers(self) -> None:
        """The sockets hold neither all that is written nor all that is answered."""
        node = self.at_a_socket()
        node.start()
        status, printed = self.told(node, text="help\n" * QUESTIONS)
        answers = printed.splitlines()
        self.assertEqual((status, len(answers)), (0, HELP_LINES * QUESTIONS))
        self.assertEqual(answers, answers[:HELP_LINES] * QUESTIONS)

    def test_lines_as_they_come(self) -> None:
        """A line is answered while standard input stays open; the client ends with the node."""
        node = self.at_a_socket()
        node.start()
        pipes = {"stdin": subprocess.PIPE, "stdout": subprocess.PIPE, "text": True}
        with subprocess.Popen([STP, "tell", "node.toml"], cwd=node.folder, **pipes) as teller:
            self.addCleanup(teller.kill)
            assert teller.stdin is not None and teller.stdout is not None
            for line, answer in (("show flags\n", FLAGS), ("users\n", "handled\n"), ("stop\n", "stopping\n")):
                teller.stdin.write(line)
                teller.stdin.flush()
                self.assertEqual("".join(teller.stdout.readline() for _ in answer.splitlines()), answer)
            self.assertEqual(teller.wait(PATIENCE), 0)
        self.assertEqual(node.await_end(), 0)

    def test_stop(self) -> None:
        """Once the client has ended, the socket is gone, and the log is whole."""
        for node in (self.lone(), self.at_a_socket()):
            node.start()
            self.assertEqual(self.told(node, "stop"), (0, "stopping\n"))
            self.assertFalse(os.path.lexists(self.folder / "console"))
            self.assertEqual(node.logged("stop$"), 1)
            self.assertEqual(node.await_end(), 0)

    def test_nobody_there(self) -> None:
        node, port = self.at_a_socket(), self.lone()
        self.assertEqual(self.failed(node, "stop"), f"{node.console}: connecting there fails: entity not found\n")
        node.start()
        node.kill()
        self.assertEqual(self.failed(node, "stop"), f"{node.console}: connecting there fails: connection refused\n")
        refused = f"{HOST}:{port.console}: connecting there fails: connection refused\n"
        self.assertEqual(self.failed(port, "stop"), refused)

    @unittest.skipUnless(os.geteuid() == 0, "only root may be somebody else")
    def test_another_user(self) -> None:
        node = self.at_a_socket()
        program = shutil.copy(STP, self.folder)
        for path in (program, self.folder, node.folder):
            os.chmod(path, 0o755)
        node.start()
        told = subprocess.run([program, "tell", "node.toml", "stop"], cwd=node.folder, user=NOBODY,
                              capture_output=True, text=True, timeout=PATIENCE)
        self.assertEqual(told.returncode, FAILED)
        self.assertEqual(told.stderr, f"{node.console}: connecting there fails: permission denied\n")

    def test_a_connection_that_ends_early(self) -> None:
        node = self.at_a_socket()
        for answer, reads in ((b"", True), (b"queued e", True), (b"queued e0\n", False)):
            with self.subTest(answer), self.answering(node, answer, reads) as teller:
                printed, said = teller.communicate(timeout=PATIENCE)
                self.assertEqual((teller.returncode, printed), (FAILED, answer.decode()))
                self.assertEqual(said, f"{node.console}: {UNANSWERED}\n")

    def test_answers_that_are_missing(self) -> None:
        node = self.at_a_socket()
        for text, answer, status in ANSWERS:
            with self.subTest(text, answer=answer), socket.socket(socket.AF_UNIX) as listener:
                listener.bind(str(node.console))
                listener.listen()
                console = threading.Thread(target=self.answer_all, args=(listener, answer))
                console.start()
                told = run("tell", "node.toml", folder=node.folder, text=text)
                console.join()
                os.unlink(str(node.console))
                self.assertEqual((told.returncode, told.stdout), (status, answer))
                self.assertEqual(told.stderr, f"{node.console}: {UNANSWERED}\n" if status == FAILED else "")

    @staticmethod
    def answer_all(listener: socket.socket, answer: str) -> None:
        """Is a console that answers this once its caller has written all."""
        connection, _ = listener.accept()
        with connection:
            while connection.recv(4096):
                pass
            connection.sendall(answer.encode())

    def test_a_line_that_is_too_long(self) -> None:
        """It ends the connection, whatever was answered before it."""
        long = "x" * (LINE_OCTETS + 1)
        for node in (self.lone(), self.at_a_socket()):
            node.start()
            place = f"{HOST}:{node.console}" if isinstance(node.console, int) else node.console
            for front, answer in (("", ""), ("users\n", "handled\n"), ("activate e9\n", "refused 22 NoSuchName\n")):
                told = run("tell", "node.toml", folder=node.folder, text=f"{front}{long}\nusers\n")
                self.assertEqual((told.returncode, told.stdout), (FAILED, answer))
                self.assertEqual(told.stderr, f"{place}: {UNANSWERED}\n")

    @contextlib.contextmanager
    def answering(self, node: Node, answer: bytes, reads: bool) -> Iterator[subprocess.Popen]:
        """A client whose line gets this answer, before the connection is closed. If nobody read the line, it breaks."""
        pipes = {"stdout": subprocess.PIPE, "stderr": subprocess.PIPE, "text": True}
        with socket.socket(socket.AF_UNIX) as listener:
            listener.bind(str(node.console))
            listener.listen()
            with subprocess.Popen([STP, "tell", "node.toml", "users"], cwd=node.folder, **pipes) as teller:
                self.addCleanup(teller.kill)
                connection, _ = listener.accept()
                with connection:
                    connection.recv(100, 0 if reads else socket.MSG_PEEK)
                    connection.sendall(answer)
                os.unlink(str(node.console))
                yield teller

    def test_all_places_are_taken(self) -> None:
        node = self.at_a_socket()
        node.start()
        for _ in range(MOST_CALLERS - len(node.callers)):
            node.call()
        self.assertEqual(self.told(node, "show", "flags"), (0, FLAGS))

    def test_arguments_and_settings(self) -> None:
        """Of the settings only the console is looked at."""
        node = self.at_a_socket()
        node.start()
        self.assertEqual(run("tell", "node.toml", "users\nstop", folder=node.folder).stdout, "usage\n")
        file = node.folder / "node.toml"
        file.write_text(file.read_text().replace("own = 1", "own = -1"))
        self.assertEqual(self.told(node, "show", "flags"), (0, FLAGS))


class Sockets(LoneTest):
    """The file of a console's socket."""

    def refused(self, node: Node) -> str:
        """What a node says that doesn't start."""
        served = run("serve", "node.toml", folder=node.folder)
        self.assertEqual(served.returncode, FAILED)
        return served.stderr

    def test_mode_and_log(self) -> None:
        node = self.at_a_socket()
        self.addCleanup(os.umask, os.umask(0))
        node.start()
        self.assertEqual(stat.S_IMODE(os.stat(str(node.console)).st_mode), 0o600)
        self.assertEqual(node.logged(f"console {node.console}$"), 1)
        self.told(node, "show", "flags")
        node.await_log(r"caller local \d+ gone$")
        self.assertEqual(node.logged(r"caller local 1$"), 1)

    def test_a_socket_that_was_left(self) -> None:
        node = self.at_a_socket()
        node.start()
        node.kill()
        self.assertTrue(os.path.lexists(str(node.console)))
        node.start()
        self.assertEqual(self.told(node, "show", "flags"), (0, FLAGS))
        node.stop()
        self.assertFalse(os.path.lexists(str(node.console)))

    def test_in_use(self) -> None:
        node, other = self.at_a_socket(), self.at_a_socket()
        node.start()
        self.assertEqual(self.refused(other), f"{node.console}: listening there fails: address in use\n")
        self.assertEqual(self.told(node, "show", "flags"), (0, FLAGS))

    def test_other_files(self) -> None:
        """A file that is no socket stays."""
        node, path = self.at_a_socket(), self.folder / "console"
        makers = (path.touch, path.mkdir, lambda: path.symlink_to("elsewhere"), lambda: os.mkfifo(path))
        for number, make in enumerate(makers):
            make()
            before = os.lstat(path)
            self.assertEqual(self.refused(node), f"{path}: a file that isn't a socket is there\n")
            self.assertEqual(os.lstat(path), before)
            path.rename(self.folder / f"former-{number}")

    def test_no_folder(self) -> None:
        node = self.lone(console=str(self.folder / "nowhere" / "console"))
        self.assertEqual(self.refused(node), f"{node.console}: listening there fails: entity not found\n")

    def test_a_node_that_does_not_start(self) -> None:
        """A node that can't have its page leaves no socket."""
        node = self.at_a_socket(page=(page := free_port()))
        with socket.create_server((HOST, page)):
            self.assertEqual(self.refused(node), f"{HOST}:{page}: listening there fails: address in use\n")
        self.assertFalse(os.path.lexists(str(node.console)))
