"""The checks that a test makes: all of them are made and counted, and the test fails with those that failed.

The fixture `tally` of conftest.py gives a test its tally. Functions that many tests share count by this module, in the tally of the
test that runs.
"""

import importlib.util
import shutil


def differing(wanted, came):
    return "" if came == wanted else f"wanted {wanted!r}, came {came!r}"


class Tally:
    """Counts checks, and keeps a line for each that fails or is skipped."""

    running = None  # the tally of the test that runs

    def __init__(self):
        self.passed = self.judged = 0  # checks that passed, and failures for which the test has failed
        self.failures, self.skips = [], []

    def count(self, name, complaint=""):
        if complaint:
            self.failures.append(f"{name}: {complaint}")
        else:
            self.passed += 1

    def add(self, passed):
        """Counts checks that passed elsewhere, in a program that says how many."""
        self.passed += passed

    def skip(self, name, why):
        self.skips.append(f"{name}: {why}")

    def has(self, tool, name=""):
        """Whether this program is installed; if not, what needs it is skipped by its name, or else by the program's."""
        return self._is_there(shutil.which(tool), tool, name)

    def has_package(self, package, name=""):
        """Whether this package of Python is installed; if not, what needs it is skipped likewise."""
        return self._is_there(importlib.util.find_spec(package), package, name)

    def _is_there(self, found, needed, name):
        if found is None:
            self.skip(name or needed, f"{needed} is not installed")
        return found is not None


def count(name, complaint=""):
    """Counts a check in the tally of the test that runs."""
    Tally.running.count(name, complaint)


def fail_if(complaint):
    """Fails the test that runs, which is one check, if there is a complaint."""
    if complaint:
        import pytest  # scripts that are no tests of pytest use this module without it

        pytest.fail(complaint, pytrace=False)


def ended(tally):
    """Prints the counts of a script that is no test of pytest, and returns its status."""
    for line in tally.failures:
        print(f"FAILED {line}")
    print(f"{tally.passed} passed, {len(tally.failures)} failed, {len(tally.skips)} skipped")
    return 0 if tally.passed and not tally.failures else 1
