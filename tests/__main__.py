"""Runs all tests of this folder, by `python3 tests`, or those of the named files, as `python3 tests test_page test_tell`.
The last line is 'N passed, M failed'; before it a line for each reason says how many tests were skipped for it, which
count as neither."""

import sys
import unittest
from collections import Counter
from pathlib import Path


class Result(unittest.TextTestResult):
    """Counts the tests that passed."""

    passed = 0

    def addSuccess(self, test: unittest.TestCase) -> None:
        super().addSuccess(test)
        self.passed += 1


loader = unittest.defaultTestLoader
suite = loader.loadTestsFromNames(sys.argv[1:]) if sys.argv[1:] else loader.discover(str(Path(__file__).parent))
result = unittest.TextTestRunner(stream=sys.stdout, verbosity=2, resultclass=Result).run(suite)
wrong = {str(getattr(test, "test_case", test)) for test, _ in [*result.failures, *result.errors]}
for reason, count in Counter(reason for _, reason in result.skipped).items():
    print(f"{count} skipped: {reason}")
print(f"{result.passed} passed, {len(wrong)} failed")
sys.exit(not result.wasSuccessful())
