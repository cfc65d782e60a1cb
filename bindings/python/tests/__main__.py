"""Runs the tests, part by part: each writes `N passed, M failed`, and what is left out by name."""

import os
import sys
import unittest

HERE = os.path.dirname(os.path.abspath(__file__))
sys.path[:0] = [os.path.dirname(HERE), os.path.join(os.path.dirname(HERE), "examples")]

PARTS = ["test_calls", "test_offsets", "test_errors", "test_keeping", "test_rows", "test_json_schema", "test_count_matches"]


class Counted(unittest.TestResult):
    """Counts what passed: tests, and what a test tries one by one."""

    passed = 0

    def addSuccess(self, test):
        self.passed += 1

    def addSubTest(self, test, subtest, err):
        self.passed += err is None
        super().addSubTest(test, subtest, err)


def main():
    worst = 0
    for part in sys.argv[1:] or PARTS:
        result = Counted()
        try:
            unittest.defaultTestLoader.loadTestsFromName(part).run(result)
        except unittest.SkipTest as why:
            print(f"{part}: not tried: {why}")
            continue
        failed = result.failures + result.errors
        for test, trace in failed:
            print(f"{test}\n{trace}")
        print(f"{part}:\n{result.passed} passed, {len(failed)} failed")
        worst = max(worst, len(failed))
    sys.exit(1 if worst else 0)


main()
