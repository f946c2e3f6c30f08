"""The named wrong bodies, those that the gate tries and those that tools/wrong_bodies does: each can be put in."""

import os
import re
import subprocess
import tempfile
import unittest
from collections import Counter
from pathlib import Path

TOP = Path(__file__).resolve().parent.parent
FOLDERS = ("must-fail", "wrong")
LINE = re.compile(r"(file|old|new): ?(.*)")

# Stands in for rt: of a crate's must-fail edits the first isn't refused, and the others are.
PROVER = """#!/usr/bin/env bash
[ "$1" = must-fail ] && [ -f crates.txt ] || exit 2
said="NOT REFUSED: the crate is still proved with this edit"
for edit in crates/"$2"/must-fail/*.edit; do
    echo "rt: must-fail $2/${edit##*/}: $said"
    said="refused, as it must be: src/lib.rt:1:1"
done
exit 1
"""


def edits(folder: str) -> list[Path]:
    """The edits in such a folder of any crate."""
    return sorted((TOP / "crates").glob(f"*/{folder}/*.edit"))


def times(edit: Path) -> list[int]:
    """How often each old text of an edit stands in its file."""
    text, found = "", []
    for word, said in LINE.findall(edit.read_text(encoding="utf-8")):
        if word == "file":
            text = (edit.parent.parent / said).read_text(encoding="utf-8")
        elif word == "old":
            found.append(text.count(said))
    return found


class WrongBodies(unittest.TestCase):
    def test_each_old_text_stands_once(self) -> None:
        for edit in [edit for folder in FOLDERS for edit in edits(folder)]:
            with self.subTest(edit=str(edit.relative_to(TOP))):
                self.assertEqual(set(times(edit)), {1})

    def test_page_says_how_many_there_are(self) -> None:
        page = (TOP / "docs" / "WRONG_BODIES.md").read_text(encoding="utf-8")
        for folder in FOLDERS:
            found = edits(folder)
            crates = {edit.parent for edit in found}
            told = re.search(rf"^\| `{folder}/` \| (\d+), of (\d+) ", page, flags=re.MULTILINE)
            self.assertEqual([int(number) for number in told.groups()], [len(found), len(crates)], folder)

    def test_those_outside_the_gate_are_tried_in_a_copy(self) -> None:
        folder, _ = Counter(edit.parent for edit in edits("wrong")).most_common(1)[0]
        crate, names = folder.parent, sorted(edit.stem for edit in folder.glob("*.edit"))
        with tempfile.TemporaryDirectory() as path:
            prover = Path(path) / "rt"
            prover.write_text(PROVER, encoding="utf-8")
            prover.chmod(0o755)
            environment = {**os.environ, "PATH": f"{path}:{os.environ['PATH']}"}
            command = [TOP / "tools" / "wrong_bodies", crate.name]
            ran = subprocess.run(command, env=environment, capture_output=True, text=True)
        lines = ran.stdout.splitlines()
        self.assertEqual([line.partition(": ")[0] for line in lines[:-1]], [f"{crate.name}/{name}" for name in names])
        self.assertEqual((lines[-1], ran.returncode), (f"{len(names) - 1} refused, 1 not", 1))
        self.assertTrue(folder.is_dir())


if __name__ == "__main__":
    unittest.main()
