"""Runs the tests of a file and counts them in a last line: `N passed, M failed`, and `, K skipped` where some were.

A module of the files of tests beside it. A test counts once, however many of its parts fail.
"""
import os
import sys
import unittest

import program


def whole(test):
    """The test that this is, or whose part it is, by its name."""
    return getattr(test, "test_case", test).id()


class Counts(unittest.TextTestResult):
    """Results that know the names of the tests which were begun."""

    def __init__(self, *words, **options):
        super().__init__(*words, **options)
        self.begun = set()

    def startTest(self, test):
        self.begun.add(whole(test))
        super().startTest(test)

    def counts(self):
        """How many passed, failed and were skipped. What failed outside a test, as while it is prepared, counts too."""
        failed = {whole(test) for test, _ in self.failures + self.errors}
        failed |= {whole(test) for test in self.unexpectedSuccesses}
        skipped = {whole(test) for test, _ in self.skipped} - failed
        return len(self.begun - failed - skipped), len(failed), len(skipped)


def line_of(passed, failed, skipped):
    """The last line of a file of tests."""
    return f"{passed} passed, {failed} failed" + (f", {skipped} skipped" if skipped else "")


def no_words(text):
    """Sees that there are no words, or says how the file is called."""
    program.usage(sys.argv[1:], text)
    if len(sys.argv) != 1:
        program.refuse(text)


def program_named(text):
    """The program that the only word names, or says how the file is called."""
    program.usage(sys.argv[1:], text)
    if len(sys.argv) != 2:
        program.refuse(text)
    return os.path.abspath(sys.argv[1])


def passes(verbosity=2):
    """Runs all tests of the file that was started, prints their counts, and ends: with 0 where none failed."""
    runner = unittest.TextTestRunner(resultclass=Counts, verbosity=verbosity)
    passed, failed, skipped = unittest.main(argv=sys.argv[:1], exit=False, testRunner=runner).result.counts()
    print(line_of(passed, failed, skipped), flush=True)
    sys.exit(1 if failed or not passed + skipped else 0)
