"""What the gate costs: docs/gate.tsv has the crates of crates.txt, and its figures still hold."""

import re
import statistics
import subprocess
import sys
import tempfile
import unittest
from dataclasses import dataclass
from pathlib import Path

TOP = Path(__file__).resolve().parent.parent
TABLE, RUN = TOP / "docs" / "gate.tsv", TOP / "out" / "gate.tsv"
OFF = 1.5
SMALL = 60.0
SCATTERED = 1.25
BUSY = "import time\nwhile time.process_time() < 3: pass"


@dataclass
class Costs:
    """A crate's line: seconds of proof, of tests and of wrong bodies, GB of memory, and functions."""

    proof: float
    tests: float
    wrong_bodies: float
    memory: float
    functions: int

    def seconds(self) -> float:
        return self.proof + self.tests + self.wrong_bodies


def read(table: Path) -> dict[str, Costs]:
    """The lines of a table."""
    rows = [row for row in table.read_text(encoding="utf-8").splitlines() if not row.startswith("#")][1:]
    cells = [row.split("\t") for row in rows]
    return {crate: Costs(*map(float, figures), int(count)) for crate, *figures, count in cells}


def crates() -> list[str]:
    """The names in crates.txt."""
    return re.findall(r"^(\w+):", (TOP / "crates.txt").read_text(encoding="utf-8"), flags=re.MULTILINE)


def is_of_another_commit(table: Path) -> bool:
    """Whether a table was measured at another commit than that which is checked out, if one is."""
    head = subprocess.run(["git", "-C", TOP, "rev-parse", "HEAD"], capture_output=True, text=True).stdout.strip()
    return not table.read_text(encoding="utf-8").startswith(f"# commit {head}")


def changed_since_measured() -> set[str] | None:
    """The crates in which a file changed since the table was measured; nothing where that commit isn't known."""
    commit = re.match(r"# commit (\w+)", TABLE.read_text(encoding="utf-8"))[1]
    asked = subprocess.run(["git", "-C", TOP, "diff", "--name-only", commit, "--", "crates"], capture_output=True, text=True)
    return {Path(name).parts[1] for name in asked.stdout.splitlines()} if asked.returncode == 0 else None


def ratios(told: dict[str, float], took: dict[str, float]) -> list[float]:
    """By how much a run took longer than a table tells, in order, for each crate that isn't small in either."""
    return sorted(took[it] / told[it] for it in told.keys() & took.keys() if min(told[it], took[it]) >= SMALL)


def scatter(found: list[float]) -> float:
    """The upper quartile of ratios by the lower one."""
    lower, _, upper = statistics.quantiles(found, n=4)
    return upper / lower


def lines_off(told: dict[str, float], took: dict[str, float], scale: float) -> list[str]:
    """The crates for which a run, on a machine that takes `scale` times as long, took half more or less than told."""
    found = []
    for crate in sorted(told.keys() & took.keys()):
        here = took[crate] / scale
        ratio = max(here, SMALL) / max(told[crate], SMALL)
        if not 1 / OFF <= ratio <= OFF:
            found.append(f"{crate}: {told[crate]:.0f} s in the table, {here:.0f} s here")
    return found


class GateCosts(unittest.TestCase):
    """Two runs of one gate differ. A machine may be twice as fast, or busy, which all crates feel: so a run is scaled
    by the median of its crates' ratios, which the few crates that really changed can't move as they would a ratio of
    totals. A small crate is mostly noise: on one machine one of 20 seconds took 39 in another run, so fewer than 60
    count as 60. A machine that was busy for a part of a run slows some crates alone: then the middle half of the ratios
    lies far apart, and the run says nothing."""

    def test_each_crate_has_a_line(self) -> None:
        if not TABLE.exists():
            self.skipTest("docs/gate.tsv isn't measured yet")
        self.assertEqual(list(read(TABLE)), sorted(crates()))

    def test_lines_hold_for_this_run(self) -> None:
        if not TABLE.exists():
            self.skipTest("docs/gate.tsv isn't measured yet")
        if not RUN.exists() or is_of_another_commit(RUN):
            self.skipTest("there are no figures of a run of this commit (out/gate.tsv)")
        changed = changed_since_measured()
        if changed is None:
            self.skipTest("the commit at which docs/gate.tsv was measured isn't known here")
        self.assertLess(len(changed), len(crates()) / 2, "most crates have changed since docs/gate.tsv: measure anew")
        told, took = (
            {crate: costs.seconds() for crate, costs in read(it).items() if crate not in changed} for it in (TABLE, RUN)
        )
        if len(took) * 2 < len(told):
            self.skipTest(f"only {len(took)} of {len(told)} crates were proved in this run")
        found = ratios(told, took)
        if len(found) < 2 or scatter(found) > SCATTERED:
            self.skipTest("this run's figures lie too far apart: its machine was busy, or is of another kind")
        scale = statistics.median(found)
        off = lines_off(told, took, scale)
        self.assertFalse(off, f"lines of docs/gate.tsv are off by half, at {scale:.2f} times its seconds: measure anew")

    def test_slower_machine_is_scaled(self) -> None:
        told = {"a": 100.0, "b": 70.0, "c": 300.0, "d": 5.0}
        took = {crate: 2 * seconds for crate, seconds in told.items()}
        self.assertEqual(ratios(told, took), [2, 2, 2])
        self.assertEqual(lines_off(told, took, 2), [])

    def test_line_off_by_half_is_named(self) -> None:
        told = {"less": 100.0, "more": 80.0, "small": 5.0, "grown": 5.0, "same": 70.0}
        took = {"less": 66.0, "more": 121.0, "small": 60.0, "grown": 91.0, "same": 70.0, "another": 90.0}
        self.assertEqual([line.partition(":")[0] for line in lines_off(told, took, 1)], ["grown", "less", "more"])

    def test_process_is_counted_for_its_crate(self) -> None:
        with tempfile.TemporaryDirectory() as folder:
            table = Path(folder) / "gate.tsv"
            command = [sys.executable, "-c", BUSY, "--crate-name", "timers"]
            subprocess.run([TOP / "tools" / "gate_costs", "--to", table, *command], capture_output=True, check=True)
            costs = read(table)
        self.assertEqual(list(costs), ["timers"])
        self.assertGreaterEqual(costs["timers"].proof, 1)
        self.assertGreater(costs["timers"].functions, 0)


if __name__ == "__main__":
    unittest.main()
