"""How a transcript is read and compared, over a program that is made up."""

from __future__ import annotations

import tempfile
import unittest
from pathlib import Path

from worked_run import Differs, Ended, Play, read_runs

# A settings file, and prologues: one that is done, one that is refused, and one that ends the run.
FILES = {
    "node.toml": "a = 1\nb = 2\na = 1\n",
    "up.script": "one\ntwo\n",
    "bad.script": "one\nrefused\n",
    "end.script": "stop\n",
}


def made_up(play: Play) -> Ended:
    """A program that prints its changed file, and answers the lines of its script; `stop` ends it with status 3."""
    printed, told = play.changed or b"", b""
    for line in play.script.splitlines(keepends=True):
        if line == b"stop\n":
            return Ended(3, printed, told)
        if line.startswith(b"tell "):
            told += line.removeprefix(b"tell ")
        else:
            printed += answer(line)
    return Ended(0, printed, told)


def answer(line: bytes) -> bytes:
    """A line is printed as it is; of an empty one and of one without its line feed that is said."""
    if line == b"\n":
        return b"empty\n"
    return line if line.endswith(b"\n") else b"cut " + line + b"\n"


# Transcripts that say what the program does.
TRUE = (
    "",
    "# A remark.\n\n$ stp\n",
    "$ stp run\n> one\none\n> two\ntwo\n",
    "$ stp run\n> one\n> two\none\n\n# A remark.\ntwo\n",
    "$ stp run\n>\nempty\n> two\ntwo\n",
    "$ stp run\n> one\none\n>| two\ncut two\n",
    "$ stp run\n> *3 one\none\n> two\ntwo\n",
    "$ stp run\n> stop\n[3]\n$ stp run\n> two\ntwo\n",
    "$ stp run\n> @up.script\n> three\nthree\n> @up.script\n",
    "$ stp run\n> zero\nzero\n> @up.script\n",
    "$ stp run\n> @up.script\n> stop\n[3]\n",
    "$ stp run node.toml\n- b = 2\na = 1\na = 1\n",
    "$ stp run node.toml\n- b = 2\n+ c = 3\n+ d = 4\n- a = 1\n+ e = 5\na = 1\nc = 3\nd = 4\ne = 5\n",
    "$ stp run\n!\n> one\none\n",
    "$ stp run\n> tell one\n! one\n> two\n! two\ntwo\n> tell two\n",
    "$ stp run\n> tell one\n",
)

# Transcripts that don't, and what is said of them.
FALSE = (
    ("one\n", "line 1: no run was begun"),
    ("$ stp run\n> one\ntwo\n", "line 3: the program prints one"),
    ("$ stp run\n> one\none\none\n", "line 4: the program prints no more"),
    ("$ stp run\n> one\n", "line 1: behind it the program prints one"),
    ("$ stp run\n> one\none\n> two\n", "line 3: behind it the program prints two"),
    ("$ stp run\n> stop\n", "line 1: behind it the program prints [3]"),
    ("$ stp run\n> stop\n[2]\n", "line 3: the program prints [3]"),
    ("$ stp run\n> one\none\n[3]\n", "line 4: the program prints no more"),
    ("$ stp run\n> one\ntwo\n$ stp run\n> one\none\n", "line 3: the program prints one"),
    ("$ stp run\n> *2 one\none\n> two\n", "line 3: behind it the program prints two"),
    ("$ stp run\n> *2 one\none\none\n", "line 3: the program prints no more"),
    ("$ stp run\n> *0 one\n", "line 2: how many times is no number"),
    ("$ stp run\n> *x one\n", "line 2: how many times is no number"),
    ("$ stp run\n> zero\none\n> @up.script\n", "line 3: the program prints zero"),
    ("$ stp run\n> zero\n> @up.script\nzero\n", "line 1: behind it the program prints zero"),
    ("$ stp run\n> @up.script\none\n", "line 3: the program prints no more"),
    ("$ stp run\n> @bad.script\n", "line 2: the prologue prints refused"),
    ("$ stp run\n> @end.script\n", "line 2: the run ends in end.script"),
    ("$ stp run\n> stop\n> @up.script\n", "line 3: the run ends in up.script"),
    ("$ stp run node.toml\n- c = 3\n", "line 2: the settings file has no such line"),
    ("$ stp run node.toml\n- b = 2\n- b = 2\n", "line 3: the settings file has no such line"),
    ("$ stp run\n> tell one\n!\n", "line 1: behind it standard error has one"),
    ("$ stp run\n> tell one\n! two\n", "line 3: standard error has one"),
    ("$ stp run\n> tell one\n! one\n! two\n", "line 4: standard error has no more"),
)


class WorkedRun(unittest.TestCase):
    def setUp(self) -> None:
        room = tempfile.TemporaryDirectory(prefix="stp-test-")
        self.addCleanup(room.cleanup)
        self.folder = Path(room.name)
        for name, text in FILES.items():
            (self.folder / name).write_text(text)

    def check(self, text: str) -> None:
        for run in read_runs(text.encode(), self.folder):
            run.check(made_up)

    def test_what_is_true(self) -> None:
        for text in TRUE:
            with self.subTest(text):
                self.check(text)

    def test_what_differs(self) -> None:
        for text, difference in FALSE:
            with self.subTest(text):
                with self.assertRaises(Differs) as raised:
                    self.check(text)
                self.assertEqual(str(raised.exception), difference)

    def test_words(self) -> None:
        runs = read_runs(b"$ stp\n$ stp run node.toml\n", self.folder)
        self.assertEqual([run.words for run in runs], [(), ("run", "node.toml")])

    def test_octets_that_are_no_text(self) -> None:
        run = read_runs(b"$ stp run\n> one\n", self.folder)[0]
        with self.assertRaisesRegex(Differs, "line 1: behind it the program prints what is no text"):
            run.check(lambda play: Ended(0, b"\xff\n", b""))

    def test_starts_that_check_a_run(self) -> None:
        """A prologue takes one start up to it and one with it, and each run one of its whole script."""
        run = read_runs(b"$ stp run\n> zero\nzero\n> @up.script\n> three\n", self.folder)[0]
        scripts = [play.script for play in run.plays()]
        self.assertEqual(scripts, [b"zero\n", b"zero\none\ntwo\n", b"zero\none\ntwo\nthree\n"])
