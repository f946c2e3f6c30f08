"""tools/contracts: what it prints of a crate, and that a change of a contract shows in a comparison."""

import difflib
import re
import shutil
import subprocess
import tempfile
import unittest
from pathlib import Path

TOP = Path(__file__).resolve().parent.parent

TAPS = """//! A crate.

/// A tap.
pub trait Tap: Drop {
    ghost level: { Self → ℕ };

    /// Opens it.
    fn open(&mut self, turns: u8) -> bool
        // (a tap has an end)
        requires few { turns < 8 }
        ensures { level self.new ≡ level self.old + turns };
}

impl<'a, T: Tap> Basin<'a, T> {
    /// A basin.
    pub fn new(
        tap: &'a T,
        name: &str,
    ) -> Basin<'a, T>
        ensures tap { result.tap
            ≡ tap.entry }
        // What is written on it.
        ensures name { result.name ≡ "{" }
    {
        Basin { tap, name: [0; 4] }
    }

    fn fill(&mut self) {
        self.tap.open(1);
    }
}

/// How many octets a basin has.
pub const fn octets() -> usize {
    4
}

/// Water stays.
pub fn water_stays()
    ensures { stays }
{}
"""

PRINTED = """made::taps::Basin::new
    impl<'a, T: Tap> Basin<'a, T>
    pub fn new(tap: &'a T, name: &str) -> Basin<'a, T>
    ensures tap { result.tap ≡ tap.entry }
    ensures name { result.name ≡ "{" }

made::taps::Tap::open
    pub trait Tap: Drop
    fn open(&mut self, turns: u8) -> bool
    requires few { turns < 8 }
    ensures { level self.new ≡ level self.old + turns }

made::taps::octets
    pub const fn octets() -> usize

made::taps::water_stays
    pub fn water_stays()
    ensures { stays }

"""


def contracts(folder: Path) -> str:
    """What the tool prints of a checkout."""
    return subprocess.run([TOP / "tools" / "contracts", folder], capture_output=True, text=True, check=True).stdout


def changes(before: str, after: str) -> list[str]:
    """The lines that are in one of two outputs alone, by their first sign."""
    lines = difflib.unified_diff(before.splitlines(), after.splitlines(), n=0, lineterm="")
    return [line for line in lines if re.match(r"[+-](?![+-])", line)]


class Contracts(unittest.TestCase):
    def setUp(self) -> None:
        folder = tempfile.TemporaryDirectory()
        self.addCleanup(folder.cleanup)
        self.folder = Path(folder.name)

    def made(self, text: str) -> str:
        """What the tool prints of a checkout with one file."""
        sources = self.folder / "crates" / "made" / "src"
        sources.mkdir(parents=True, exist_ok=True)
        (sources / "taps.rt").write_text(text, encoding="utf-8")
        return contracts(self.folder)

    def test_each_form_is_printed(self) -> None:
        self.assertEqual(self.made(TAPS), PRINTED)

    def test_one_changed_clause_is_one_changed_line(self) -> None:
        after = self.made(TAPS.replace("turns < 8", "turns < 9"))
        self.assertEqual(changes(PRINTED, after), ["-    requires few { turns < 8 }", "+    requires few { turns < 9 }"])

    def test_layout_and_comments_change_nothing(self) -> None:
        self.assertEqual(self.made(TAPS.replace("\n            ≡", " ≡").replace("has an end", "ends")), PRINTED)

    def test_equal_checkouts_print_the_same(self) -> None:
        shutil.copytree(TOP / "crates", self.folder / "crates", ignore=shutil.ignore_patterns("out", "data"))
        self.assertEqual(changes(contracts(TOP), contracts(self.folder)), [])

    def test_each_public_function_is_printed(self) -> None:
        texts = (file.read_text(encoding="utf-8") for file in (TOP / "crates").glob("*/src/**/*.rt"))
        public = sum(len(re.findall(r"^ *pub (?:const )?fn ", text, flags=re.MULTILINE)) for text in texts)
        printed = re.findall(r"^    pub (?:const )?fn ", contracts(TOP), flags=re.MULTILINE)
        self.assertEqual(len(printed), public)


if __name__ == "__main__":
    unittest.main()
