"""Each command line of `stp` on the pages is one that `stp help`, and for `tell` the console's `help`, list in the
source. Nothing here starts the program."""

import re
import unittest
from pathlib import Path

from test_pages import PAGES, TOP

COMMAND = re.compile(r"(?:^|(?<=[\s|/(]))stp ((?![A-Z\d])[^|<>&;()`]+)")


def lines_of(file: str, name: str) -> list[str]:
    """The lines of a text of octets in the source."""
    source = (TOP / "crates" / file).read_text(encoding="utf-8")
    return re.search(rf'const {name}: &\[u8\] = b"\\\n(.*?)";', source, flags=re.DOTALL)[1].splitlines()


FORMS = [line.split("  ")[0].split()[1:] for line in lines_of("program/src/explaining.rt", "USAGE") if "  " in line]
CONSOLE = lines_of("served_node/src/console_session/help.rt", "HELP")


def command_lines(text: str) -> list[tuple[list[str], bool]]:
    """What is behind `stp` in the lines of blocks of code and in other pieces of code, and whether it is of a block."""
    blocks = re.findall(r"^```sh$(.*?)^```$", text, flags=re.DOTALL | re.MULTILINE)
    inline = re.findall(r"`([^`]+)`", re.sub(r"^```.*?^```$", "", text, flags=re.DOTALL | re.MULTILINE))
    whole = [line for block in blocks for line in block.replace("\\\n", " ").splitlines()]
    return [(found.split(), code in whole) for code in [*whole, *inline] for found in COMMAND.findall(code)]


def fault(words: list[str], whole: bool) -> str | None:
    """What is wrong with a command line, if anything is. Code in a sentence may be a command's name alone."""
    forms = [form[1:] for form in FORMS if form[0] == words[0].removeprefix("--")]
    if not forms or words[0].startswith("--") and words[0] not in ("--help", "--version"):
        return "no such command"
    files = sum(len(list(TOP.glob(word))) if word.startswith("examples/") else 1 for word in words[1:])
    if not any(files >= len(form) - 1 if ".." in form else files == len(form) for form in forms):
        return None if not whole and files == 0 else "other words than its forms have"
    if words[0] != "tell":
        return next((f"option {word}" for word in words[1:] if word.startswith("-")), None)
    order = " ".join(words[2:4] if words[2:3] == ["show"] else words[2:3])
    listed = any(f"{line} ".startswith(f"{order} ") for line in CONSOLE)
    return None if listed or order in ("", "..", "WORDS") else f"the console has no {order}"


class CommandLines(unittest.TestCase):
    def test_pages_have_commands_of_the_program(self) -> None:
        for page in PAGES:
            for words, whole in command_lines(page.read_text(encoding="utf-8")):
                self.assertIsNone(fault(words, whole), f"{page.relative_to(TOP)}: stp {' '.join(words)}")

    def test_faults_are_found(self) -> None:
        block = "```sh\na/stp serve\nstp run -x\nx | stp tell F show lnks\nstp lab examples/x A\n```\n"
        text = block + "`stp go`, `stp tell F stop`, `stp lab`"
        found = [fault(*line) is not None for line in command_lines(text)]
        self.assertEqual(found, [True, True, True, True, True, False, False])


if __name__ == "__main__":
    unittest.main()
