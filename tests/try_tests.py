#!/usr/bin/env python3
"""Runs the tests written in Rattle, those of the crates whose names end in `tests`, as `rt try --test` does.

    python3 tests/try_tests.py [CRATE..]

They are compiled with checks, which stop at an index out of bounds, an overflow or a failed unwrap, and are not proved: a
test is evidence by being run. That a test meets the `requires` of what it calls, only `rt test` in its crate shows.
"""

import re
import subprocess
import sys
from pathlib import Path

ROOT = Path(__file__).resolve().parent.parent
sys.path[:0] = [str(ROOT / "tests" / "support"), str(ROOT / "packaging")]

from packages.crates import crates_in  # noqa: E402
from tally import Tally, ended  # noqa: E402


def tested(crate, tally):
    """Runs the tests of a crate, and counts those that passed and failed; a run that says no count is a failure."""
    how = {"stdin": subprocess.DEVNULL, "stdout": subprocess.PIPE, "stderr": subprocess.STDOUT}
    ran = subprocess.run(["rt", "try", "--test"], cwd=ROOT / "crates" / crate, text=True, errors="replace", **how)
    print(f"== {crate}: its tests, not proved\n{ran.stdout}", end="")
    counts = re.search(r"^test result: \w+\. (\d+) passed; (\d+) failed", ran.stdout, re.M)
    passed, failed = (int(counts[1]), int(counts[2])) if counts else (0, 0)
    tally.add(passed)
    for number in range(failed):
        tally.count(crate, f"test {number + 1} of {failed} that failed")
    if not failed and (ran.returncode or not passed):
        tally.count(crate, f"`rt try --test` ended with status {ran.returncode}, and {passed} tests passed")


def main():
    tally = Tally()
    for crate in sys.argv[1:] or [it for it in crates_in(ROOT / "crates.txt") if it.endswith("tests")]:
        tested(crate, tally)
    return ended(tally)


if __name__ == "__main__":
    sys.exit(main())
