"""The runs of a transcript: what each gives to the program, and what the program should write.

examples/README.md says what the lines of a transcript are. Nothing here starts the program: whoever checks a run hands
over a function that does.
"""

from __future__ import annotations

from dataclasses import dataclass, field
from pathlib import Path
from typing import Callable, Iterator

# How the lines begin that no prologue prints.
FAULTS = (b"fault", b"refused", b"ignored", b"lost", b"not open")

# What is said of a line that is written in the place of another.
PRINTED = "the program prints"
TOLD = "standard error has"


class Differs(Exception):
    """Says where a transcript differs from what the program writes, or which line no transcript has."""


@dataclass(frozen=True)
class Play:
    """A start of the program: its words, its standard input, and the settings file that they name last, if changed."""

    words: tuple[str, ...]
    script: bytes
    changed: bytes | None = None


@dataclass(frozen=True)
class Ended:
    """What a start of the program came to: its exit status, and what it wrote."""

    status: int
    printed: bytes
    told: bytes


@dataclass(frozen=True)
class Wanted:
    """A line that should be written, and the number of the transcript's line that says so."""

    text: bytes
    number: int


@dataclass
class Step:
    """A piece of the script, how often it is given, and the lines that it should print each time.

    If it is a prologue, it is the file of this name, and also prints lines that aren't written out.
    """

    number: int
    text: bytes = b""
    times: int = 1
    prologue: str | None = None
    wanted: list[Wanted] = field(default_factory=list)


class SettingsFile:
    """A settings file with the changes that a run makes to it."""

    def __init__(self, path: Path) -> None:
        self.lines = path.read_bytes().split(b"\n")
        self.place = 0

    def take_out(self, line: bytes) -> None:
        """Takes out the next line that is this one; ValueError if there is none. The next change goes to its place."""
        self.place = self.lines.index(line, self.place)
        del self.lines[self.place]

    def put_in(self, line: bytes) -> None:
        """Puts in a line where the last change was."""
        self.lines.insert(self.place, line)
        self.place += 1

    def text(self) -> bytes:
        return b"\n".join(self.lines)


def named_last(words: tuple[str, ...], folder: Path) -> str:
    """The last file of a folder that words name."""
    return next(word for word in reversed(words) if (folder / word).is_file())


class Run:
    """A run of the program, which begins at the line of this number. Its files are in the folder."""

    def __init__(self, number: int, words: tuple[str, ...], folder: Path) -> None:
        self.number, self.words, self.folder = number, words, folder
        self.steps = [Step(number)]
        self.changed: SettingsFile | None = None
        self.told: list[Wanted] | None = None

    def take(self, line: bytes, number: int) -> None:
        """Takes the transcript's line of this number."""
        if line.startswith(b">"):
            self.steps.append(read_step(line[1:], number, self.folder))
        elif line == b"!" or line.startswith(b"! "):
            self.told = self.told or []
            self.told += [Wanted(line[2:], number)] * (line != b"!")
        elif line.startswith((b"- ", b"+ ")):
            self.change(line, number)
        else:
            self.steps[-1].wanted.append(Wanted(line, number))

    def change(self, line: bytes, number: int) -> None:
        """Takes a line out of the settings file, or puts one in."""
        if self.changed is None:
            self.changed = SettingsFile(self.folder / named_last(self.words, self.folder))
        if line.startswith(b"+ "):
            self.changed.put_in(line[2:])
            return
        try:
            self.changed.take_out(line[2:])
        except ValueError:
            raise Differs(f"line {number}: the settings file has no such line") from None

    def scripts(self) -> Iterator[bytes]:
        """The scripts that are played to check the run: up to each prologue, with it, and the whole one."""
        script = b""
        for step in self.steps:
            if step.prologue is not None:
                yield script
            script += step.text * step.times
            if step.prologue is not None:
                yield script
        yield script

    def plays(self) -> Iterator[Play]:
        """The starts of the program that check the run, in order."""
        changed = self.changed and self.changed.text()
        return (Play(self.words, script, changed) for script in self.scripts())

    def check(self, play: Callable[[Play], Ended]) -> None:
        """Compares what the program writes with what it should write."""
        ends = map(play, self.plays())
        wanted: list[Wanted] = []
        for step in self.steps:
            if step.prologue is not None:
                compare(wanted, next(ends).printed, PRINTED, self.number)
                wanted += prologue_lines(step, next(ends), len(wanted))
            wanted += step.wanted * step.times
        ended = next(ends)
        status = b"[%d]\n" % ended.status if ended.status else b""
        compare(wanted, ended.printed + status, PRINTED, self.number)
        if self.told is not None:
            compare(self.told, ended.told, TOLD, self.number)


def read_runs(text: bytes, folder: Path) -> list[Run]:
    """The runs of a transcript, whose files are in the folder."""
    runs: list[Run] = []
    for number, line in enumerate(text.split(b"\n"), 1):
        if not line or line.startswith(b"#"):
            continue
        if line.startswith(b"$ "):
            runs.append(Run(number, tuple(line.decode().split(" ")[2:]), folder))
        elif runs:
            runs[-1].take(line, number)
        else:
            raise Differs(f"line {number}: no run was begun")
    return runs


def read_step(rest: bytes, number: int, folder: Path) -> Step:
    """The step that a line of the script is, by what follows its `>`."""
    if rest.startswith(b"| "):
        return Step(number, rest[2:])
    if rest.startswith(b" @"):
        name = rest[2:].decode()
        return Step(number, (folder / name).read_bytes(), prologue=name)
    if rest.startswith(b" *"):
        times, _, line = rest[2:].partition(b" ")
        if not times.isdigit() or int(times) == 0:
            raise Differs(f"line {number}: how many times is no number")
        return Step(number, line + b"\n", int(times))
    return Step(number, rest.removeprefix(b" ") + b"\n")


def prologue_lines(step: Step, ended: Ended, before: int) -> list[Wanted]:
    """The lines that a prologue printed, behind this many. All its lines must be done, and none may have a fault."""
    if ended.status:
        raise Differs(f"line {step.number}: the run ends in {step.prologue}")
    lines = [line for line in ended.printed.split(b"\n")[before:] if line]
    for line in lines:
        if line.startswith(FAULTS):
            raise Differs(f"line {step.number}: the prologue prints {shown(line)}")
    return [Wanted(line, step.number) for line in lines]


def compare(wanted: list[Wanted], written: bytes, verb: str, number: int) -> None:
    """Compares what was written with the lines that should be, of a run that begins at the line of this number."""
    lines = written.split(b"\n")
    for place, line in enumerate(wanted):
        found = lines[place] if place < len(lines) else b""
        number = line.number
        if found != line.text:
            raise Differs(f"line {number}: {verb} {shown(found)}")
    rest = lines[len(wanted):]
    if rest != [b""]:
        raise Differs(f"line {number}: behind it {verb} {shown(b''.join(rest[:1]))}")


def shown(line: bytes) -> str:
    """A line that was written, as it is shown."""
    try:
        return line.decode() or "no more"
    except UnicodeDecodeError:
        return "what is no text"
