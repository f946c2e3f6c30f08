"""README is short, and so are its sentences."""

import re
import statistics
import unittest
from pathlib import Path

README = Path(__file__).resolve().parent.parent / "README.md"
LINES = 150
MEAN_WORDS = 16
LONG_WORDS = 30
LONG_OF = 10


def prose(text: str) -> list[str]:
    """The paragraphs and list items of a page, without code, tables, headings and pictures."""
    text = re.sub(r"^```.*?^```$", "\n", text, flags=re.DOTALL | re.MULTILINE)
    kept = [line for line in text.splitlines() if not line.startswith(("|", "#", "!", "    "))]
    blocks = re.split(r"\n\s*\n|^- ", "\n".join(kept), flags=re.MULTILINE)
    return [" ".join(block.split()) for block in blocks if block.split()]


def sentences(text: str) -> list[int]:
    """How many words each sentence has. A link counts as its text, and code as a word."""
    counts = []
    for block in prose(text):
        plain = re.sub(r"\[([^]]*)\]\([^)]*\)", r"\1", re.sub(r"`[^`]*`", "code", block)).replace("**", "")
        parts = re.split(r"(?<=[.?!:])\)?\s+(?=[A-Z`(\[<]|code\b)", plain)
        counts += [len(part.split()) for part in parts if part.split()]
    return counts


class Readme(unittest.TestCase):
    def test_is_short(self) -> None:
        self.assertLessEqual(len(README.read_text(encoding="utf-8").splitlines()), LINES)

    def test_sentences_are_short(self) -> None:
        counts = sentences(README.read_text(encoding="utf-8"))
        self.assertLessEqual(statistics.mean(counts), MEAN_WORDS)
        self.assertLessEqual(sum(count > LONG_WORDS for count in counts) * LONG_OF, len(counts))

    def test_sentences_are_found(self) -> None:
        text = "# A b\n\nOne two. Three [four five](x.md) `six seven`:\n\n- eight nine\n\n    code\n\n| a | b |\n"
        self.assertEqual(sentences(text), [2, 4, 2])


if __name__ == "__main__":
    unittest.main()
