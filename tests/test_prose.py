"""The sentences of the pages are short. Left out are tables, code, the pages that tools make, and CHANGELOG."""

import statistics
import unittest
from pathlib import Path

from test_pages import PAGES
from test_readme import LONG_OF, LONG_WORDS, MEAN_WORDS, sentences

TOP = Path(__file__).resolve().parent.parent

LEFT_OUT = {"CHANGELOG.md", "docs/DEFINITIONS.md", "docs/SECTIONS.md"}


def measured() -> dict[str, list[int]]:
    """How many words each sentence of each page has."""
    names = {page.relative_to(TOP).as_posix(): page for page in PAGES}
    return {name: sentences(page.read_text(encoding="utf-8")) for name, page in names.items() if name not in LEFT_OUT}


def fault(counts: list[int]) -> str | None:
    """What is wrong with the sentences of a page, if anything is."""
    mean, longer = statistics.mean(counts), sum(count > LONG_WORDS for count in counts)
    if mean > MEAN_WORDS:
        return f"its mean sentence has {mean:.1f} words, and may have {MEAN_WORDS}"
    if longer * LONG_OF > len(counts):
        return f"{longer} of its {len(counts)} sentences have over {LONG_WORDS} words, and one in {LONG_OF} may"
    return None


class Prose(unittest.TestCase):
    def test_sentences_are_short(self) -> None:
        for name, counts in measured().items():
            with self.subTest(page=name):
                self.assertIsNone(fault(counts))

    def test_faults_are_found(self) -> None:
        self.assertIsNone(fault([MEAN_WORDS] * LONG_OF))
        self.assertIsNotNone(fault([MEAN_WORDS + 1]))
        self.assertIsNotNone(fault([LONG_WORDS + 1, *[1] * (LONG_OF - 2)]))


if __name__ == "__main__":
    unittest.main()
