"""Plays transcripts of examples/ over the built program: `python3 tests/transcripts.py NAME..`, or all without a name.

It prints where each differs from what the program writes; those that end in `.differs` must differ. The last line is
`N good, M failed`. `tools/quick_test` plays them over the unproved program.
"""

from __future__ import annotations

import os
import subprocess
import sys
import tempfile
from concurrent.futures import ThreadPoolExecutor
from dataclasses import dataclass
from functools import partial
from pathlib import Path
from typing import Iterable, Iterator

from harness import PATIENCE, ROOT, STP
from worked_run import Differs, Ended, Play, Run, named_last, read_runs

EXAMPLES = ROOT / "examples"

# How a transcript ends that must differ from what the program writes, to show that differences are seen.
MUST_DIFFER = ".differs"


@dataclass(frozen=True)
class Outcome:
    """What became of a transcript: how many runs it has, and where it differs from what the program writes, if so."""

    name: str
    runs: int
    difference: str = ""

    def is_good(self) -> bool:
        return bool(self.difference) == self.name.endswith(MUST_DIFFER)

    def __str__(self) -> str:
        return f"{self.name}, {self.difference}" if self.difference else f"ok {self.name}, {self.runs} runs"


def names(wanted: Iterable[str] = ()) -> list[str]:
    """The transcripts of these names, with or without the folder and the ending, or all if there is none."""
    paths = sorted(path for kind in ("transcript", "differs") for path in EXAMPLES.rglob(f"*.{kind}"))
    chosen = dict.fromkeys(name for word in wanted for name in matching(word, paths))
    return list(chosen) or [str(path.relative_to(EXAMPLES)) for path in paths]


def matching(word: str, paths: Iterable[Path]) -> list[str]:
    """The transcripts that a word names."""
    stem = Path(word).name.split(".")[0]
    found = [str(path.relative_to(EXAMPLES)) for path in paths if path.stem == stem]
    if not found:
        sys.exit(f"examples/ has no transcript {word}")
    return found


def runs_of(name: str) -> list[Run]:
    """The runs of the transcript of this name."""
    return read_runs((EXAMPLES / name).read_bytes(), EXAMPLES)


def outcome(name: str, program: str | Path = STP) -> Outcome:
    """What becomes of a transcript over a program."""
    count = 0
    try:
        for run in runs_of(name):
            count += 1
            run.check(partial(play_by, program))
    except (Differs, OSError, subprocess.TimeoutExpired) as error:
        return Outcome(name, count, str(error))
    return Outcome(name, count)


def lay_out(play: Play, folder: Path) -> None:
    """Puts the files that the words name into the folder, the last one as it is changed."""
    for word in play.words[1:]:
        if (EXAMPLES / word).is_file():
            (folder / word).parent.mkdir(exist_ok=True)
            (folder / word).write_bytes((EXAMPLES / word).read_bytes())
    if play.changed is not None:
        (folder / named_last(play.words, EXAMPLES)).write_bytes(play.changed)


def play_by(program: str | Path, play: Play) -> Ended:
    """Starts the program of this path."""
    with tempfile.TemporaryDirectory(prefix="stp-play-") as folder:
        lay_out(play, Path(folder))
        ended = subprocess.run([program, *play.words], cwd=folder, input=play.script, capture_output=True,
                               timeout=PATIENCE, check=False)
    return Ended(ended.returncode, ended.stdout, ended.stderr)


def play_all(chosen: Iterable[str], program: str | Path = STP) -> Iterator[Outcome]:
    """What becomes of these transcripts over a program, in this order: one at a time on each processor."""
    with ThreadPoolExecutor(os.cpu_count()) as pool:
        yield from pool.map(lambda name: outcome(name, program), chosen)


def tell(outcomes: Iterable[Outcome]) -> bool:
    """Prints what became of each transcript as it ends, and how many are good. Returns whether all are."""
    good, failed = 0, 0
    for it in outcomes:
        print(it, flush=True)
        good, failed = good + it.is_good(), failed + (not it.is_good())
    print(f"Transcripts that print what they say, or, if they end in {MUST_DIFFER}, don't:")
    print(f"{good} good, {failed} failed", flush=True)
    return failed == 0


if __name__ == "__main__":
    sys.exit(not tell(play_all(names(sys.argv[1:]))))
