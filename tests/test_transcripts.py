"""The transcripts of examples/ over the built program, and which settings files have the settings that are built in."""

import os
import re
import unittest
from concurrent.futures import ThreadPoolExecutor
from functools import partial

from harness import ROOT, STP, TIMERS, NodeTest
from transcripts import EXAMPLES, MUST_DIFFER, names, outcome, play_all, play_by, runs_of
from worked_run import Differs, Run

# Where the transcripts differ that must.
DIFFERENCES = {
    "wrong_line": "line 7: the program prints nothing",
    "first_run": "line 5: the program prints open",
    "line_too_many": "line 6: the program prints no more",
    "line_too_few": "line 5: behind it the program prints handled",
    "other_status": "line 6: the program prints [2]",
    "second_time": "line 5: the program prints refused 17 LinkNotReady",
    "refused_prologue": "line 6: the prologue prints refused 17 LinkNotReady",
    "other_sentence": 'line 9: standard error has line 2 "tik 3": no command is named tik; the nearest is tick',
    "told_something": "line 3: behind it standard error has nowhere.toml: there is no such file",
}

# Settings files, and whether their settings are those built in.
HAVE_BUILT_IN = {
    "built_in.toml": True,
    "settings_files/version_2.toml": True,
    "settings_files/joined_ignored.toml": True,
    "single.toml": False,
}

# A value of settings. The definition also has the places of sets, and keys of version 3, which are none of these.
VALUE = re.compile(
    r'\b(own|network|window|pool|users|subsystems|[lt]\d+|name|adjacent|slc|point) = (?:codes |\[)?("\w+"|\d+)'
)


def runs_on_built_in() -> list[Run]:
    """The runs of the transcripts on the built-in settings, as a file has them."""
    runs = [run for name in names() if not name.endswith(MUST_DIFFER) for run in runs_of(name)]
    return [run for run in runs if run.words == ("run", "built_in.toml") and run.changed is None]


def prints_the_same(*words: str) -> bool:
    """Whether these words make the program print what it prints in each run on the built-in settings.

    Standard error may differ: there a file is warned of keys that it can't have.
    """
    def does(run: Run) -> bool:
        run.words, run.told = words, None
        try:
            run.check(partial(play_by, STP))
        except Differs:
            return False
        return True

    with ThreadPoolExecutor(os.cpu_count()) as pool:
        return all(pool.map(does, runs_on_built_in()))


def values_in(text: str) -> list[tuple[str, str]]:
    """The values in a settings file, or in the definition of the settings that are built in."""
    return VALUE.findall(text)


class Transcripts(NodeTest):
    LIMIT = 300

    def test_each_is_what_the_program_writes(self) -> None:
        for it in play_all(names()):
            with self.subTest(it.name):
                self.assertTrue(it.is_good(), str(it))

    def test_where_they_differ_that_must(self) -> None:
        found = {name: outcome(name).difference for name in names() if name.endswith(MUST_DIFFER)}
        self.assertEqual(found, {name + MUST_DIFFER: why for name, why in DIFFERENCES.items()})


class BuiltIn(NodeTest):
    """Which settings files have the settings that are built in: with those the program prints the same."""

    def test_no_file(self) -> None:
        self.assertTrue(prints_the_same("run"))

    def test_files(self) -> None:
        for name, is_so in HAVE_BUILT_IN.items():
            with self.subTest(name):
                self.assertEqual(prints_the_same("run", name), is_so)


class BuiltInValues(unittest.TestCase):
    """No run shows the pool or T6, and the program is proved to have what is defined: so that is compared."""

    def test_files(self) -> None:
        defined = values_in((ROOT / "crates/script/specs/BuiltIn.antt").read_text(encoding="utf-8"))
        self.assertLess(set(TIMERS), {key for key, _ in defined})
        for name, is_so in HAVE_BUILT_IN.items():
            with self.subTest(name):
                self.assertEqual(values_in((EXAMPLES / name).read_text(encoding="utf-8")) == defined, is_so)
