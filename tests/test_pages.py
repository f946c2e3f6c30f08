"""The pages: DEFINITIONS and SECTIONS are what their tools make of the crates, and each link leads somewhere."""

import re
import subprocess
import unittest
from pathlib import Path

TOP = Path(__file__).resolve().parent.parent
PAGES = [*TOP.glob("*.md"), *(TOP / "docs").glob("*.md"), TOP / "examples/README.md"]


def without_code(page: Path) -> str:
    """The text of a page without its blocks of code."""
    return re.sub(r"^```.*?^```$", "", page.read_text(encoding="utf-8"), flags=re.DOTALL | re.MULTILINE)


def anchors(page: Path) -> set[str]:
    """What a link may name behind `#`: each heading in small letters, without its marks, with `-` for a space."""
    headings = re.findall(r"^#+ (.*)$", without_code(page), flags=re.MULTILINE)
    words = [re.sub(r"\[([^]]*)\]\([^)]*\)", r"\1", heading).strip().lower() for heading in headings]
    return {re.sub(r"[^\w\- ]", "", word).replace(" ", "-") for word in words}


class Pages(unittest.TestCase):
    def check_made(self, name: str) -> None:
        """Checks that a page is what its tool prints."""
        made = subprocess.run([TOP / "tools" / name], capture_output=True, text=True, check=True).stdout
        page = (TOP / "docs" / f"{name.upper()}.md").read_text(encoding="utf-8")
        self.assertTrue(page == made, f"docs/{name.upper()}.md isn't what tools/{name} prints")

    def test_definitions_are_those_of_specs(self) -> None:
        self.check_made("definitions")

    def test_sections_are_those_of_comments(self) -> None:
        self.check_made("sections")

    def test_links_lead_somewhere(self) -> None:
        for page in PAGES:
            for link in re.findall(r"\]\(([^)\s]+)\)", without_code(page)):
                if link.startswith("http"):
                    continue
                name, _, anchor = link.partition("#")
                target = page.parent / name if name else page
                self.assertTrue(target.exists(), f"{page}: there is no {link}")
                if anchor:
                    self.assertIn(anchor, anchors(target), f"{page}: there is no {link}")
