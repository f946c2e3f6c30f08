"""The words that CONTRIBUTING replaces aren't in the pages and folders that were rewritten since."""

import re
import unittest
from pathlib import Path

TOP = Path(__file__).resolve().parent.parent

# What was rewritten with the words of CONTRIBUTING's table.
REWRITTEN = ["README.md", "SECURITY.md", "docs/ALIGNMENT.md", "docs/ARCHITECTURE.md", "docs/CHANGEBACK.md",
             "docs/CHANGEOVER.md", "docs/COSTS.md", "docs/DECISIONS.md", "docs/EMBEDDING.md", "docs/EXACTLY_ONCE.md",
             "docs/GLOSSARY.md", "docs/INTEROP.md", "docs/MANUAL.md", "docs/OPERATING.md", "docs/PROVED.md",
             "docs/RELAY.md", "docs/ROUTES.md", "docs/ROUTE_MANAGEMENT.md", "docs/SCTP.md", "docs/SERVE.md",
             "docs/TROUBLESHOOTING.md", "docs/WRONG_BODIES.md", "examples/README.md", "packaging", "tools",
             "crates/program/src", "crates/program/specs", "crates/program/proofs"]

# How each word that the table replaces is found.
REPLACED = {
    "caller": r"\bcallers?\b",
    "outage of the peer('s processor)": r"(?<!processor )outage of the peer",
    "speak in another's name": r"\banother's name\b",
    "begin anew": r"\bbeg[aiu]n(s|ning)? anew\b",
    "perhaps lost": r"\bperhaps lost\b",
}


def text(file: Path) -> str:
    """A file's text in one line, without the targets of links; of a page, without code."""
    written = re.sub(r"\]\([^)\s]+\)", "]", file.read_text(encoding="utf-8"))
    return " ".join((re.sub(r"`[^`]*`", "", written) if file.suffix == ".md" else written).split())


class Vocabulary(unittest.TestCase):
    def test_table_has_these_words(self) -> None:
        rows = re.findall(r"^\|[^|]+\|[^|]+\| ([^|]+) \|$", (TOP / "CONTRIBUTING.md").read_text(), flags=re.MULTILINE)
        for word in REPLACED:
            self.assertIn(word, rows)

    def test_replaced_words_are_gone(self) -> None:
        for name in REWRITTEN:
            top = TOP / name
            for file in [top] if top.is_file() else filter(Path.is_file, top.rglob("*")):
                if file.suffix == ".pyc":
                    continue
                for word, found in REPLACED.items():
                    self.assertIsNone(re.search(found, text(file), flags=re.IGNORECASE), f"{file}: {word}")
