#!/usr/bin/env python3
"""Tries the edits of crates/NAME/must-fail, many in one check: the prover must refuse each, for the goal that it names.

    python3 tests/mutation_tests.py [--built FOLDER [--told FILE]] [--tell | --good] [CRATE..]

An edit has the form that rt reads: a line `file: PATH`, and pairs of lines `old: TEXT` and `new: TEXT`. It has a line `# refused: FUNCTION GOAL`
too, for each function that the prover must then refuse, with a goal of it that must fail.

A function is proved from the contracts of the functions that it calls, not from their bodies. So edits of different functions do not meet, and one
check says for each function whether its own goals fail; of all functions that no edit of the check names, only the contracts are left
(tests/support/strip_bodies.py), so that little else is proved. If the prover does not reach the goals, because a function that is called is refused,
the edit is tried again in a later check. An edit that changes more than the bodies of functions is tried alone. A function that is refused, and that no edit
names, counts as a failure. With --good the same functions are checked as they are, with no edit: none may be refused. So it is the edits that are
refused, and not what is left of the crate around them.

The libraries below a crate are taken as `rt ci` has built them in FOLDER; if none is given, `rt lib` builds them here. With --told, `rt ci` may
still be at work: FILE is what it prints, and the edits of a crate are tried once it says that the crates below are proved. The checks of a crate
share a folder in which the prover keeps what it has checked, and takes from there what is up to date: nothing but the time depends on it. `rt
must-fail` tries each edit alone, asks only that something is refused, and takes three times as long.
"""

import argparse
import os
import re
import subprocess
import sys
import tempfile
import threading
from concurrent.futures import ThreadPoolExecutor
from pathlib import Path

ROOT = Path(__file__).resolve().parent.parent
sys.path[:0] = [str(ROOT / "tests" / "support"), str(ROOT / "packaging")]

from checked_crates import BadEdit, Crate  # noqa: E402
from packages.crates import crates_in  # noqa: E402
from tally import Tally, ended  # noqa: E402


def chosen(edits, texts):
    """Returns the first of these edits, with others that can be tried in the same check, and the texts with all of them."""
    first, *others = edits
    changed = first.applied_to(texts)
    if changed is None:
        raise BadEdit("a text that it changes does not stand there exactly once")
    taken, functions = [first], {*first.refused}
    for edit in others if first.is_of_functions(texts) else []:
        edited = edit.applied_to(changed)
        if edited is not None and edit.is_of_functions(texts) and not functions & {*edit.refused}:
            changed = edited
            taken.append(edit)
            functions |= {*edit.refused}
    return taken, changed


def tried(crate, is_telling, kept):
    """Tries the edits of a crate, and returns a line for each, with whether it was refused as it must be."""
    texts, left, lines = crate.texts(), list(crate.edits), []
    while left:
        try:
            taken, changed = chosen(left, texts)
        except BadEdit as why:
            lines.append((False, f"{left.pop(0).name}: BAD EDIT: {why}"))
            continue
        named = {function for it in taken for function in it.refused}
        told = crate.check(changed, named, kept)
        again = [it for it in taken if {*it.refused} & told.waiting]
        if len(again) == len(taken):
            again = again[1:]
        left = [it for it in left if it not in taken] + again
        lines += [judged(it, told, is_telling) for it in taken if it not in again]
        for function in sorted({*told.goals} - named):
            goals, beside = ", ".join(sorted(told.goals[function])), ", ".join(it.path.stem for it in taken)
            lines.append((False, f"{crate.name}: REFUSED TOO: {function} for {goals}, by one of {beside}"))
    return lines


def tried_as_they_stand(crate, kept):
    """Checks the functions that edits name, without any edit, and returns a line for each, with whether it is not refused."""
    named = sorted({function for it in crate.edits for function in it.refused})
    told, lines = crate.check(crate.texts(), named, kept), []
    for function in named:
        goals = ", ".join(sorted(told.goals.get(function, set())))
        verdict = told.verdict_of(function)
        # a good one rests on the open proofs of what it calls, or on nothing that is open
        is_good = not goals and re.search(r": (?:no holes|depends on a hole in )", verdict) is not None
        lines.append((is_good, f"{crate.name}: {function}: {'not refused as it stands' if is_good else f'REFUSED AS IT STANDS, for {goals}; {verdict}'}"))
    return lines


def judged(edit, told, is_telling):
    """Returns whether an edit was refused as it must be, and a line that says so."""
    for function, goal in edit.refused.items():
        found = told.goals.get(function, set())
        if goal not in found:
            why = f"{function} is refused for {', '.join(sorted(found))}" if found else f"{function} is not refused"
            return False, f"{edit.name}: NOT REFUSED for {function} {goal}: {why}; {told.verdict_of(function)}"
    if not edit.refused:
        return False, f"{edit.name}: BAD EDIT: it has no line `# refused: FUNCTION GOAL`"
    also = f"; in all {sorted((f, *told.goals[f]) for f in edit.refused)}" if is_telling else ""
    return True, f"{edit.name}: refused, as it must be: {', '.join(f'{f} ({g})' for f, g in edit.refused.items())}{also}"


def all_tried(crates, told, try_crate):
    """Returns the lines of these crates by `try_crate`: as many at a time as there are processors, once what is below each is proved."""
    turn = threading.Semaphore(len(os.sched_getaffinity(0)))

    def of(crate):
        if told and not crate.is_ready(told):
            return [(False, f"{it.name}: NOT TRIED: a crate below is not proved") for it in crate.edits]
        with turn, tempfile.TemporaryDirectory(prefix="edits-") as kept:
            return try_crate(crate, kept)

    with ThreadPoolExecutor(len(crates)) as pool:
        return [line for found in pool.map(of, crates) for line in found]


def main():
    asked = argparse.ArgumentParser(description=__doc__, formatter_class=argparse.RawDescriptionHelpFormatter)
    asked.add_argument("--built", type=Path, metavar="FOLDER", help="where `rt ci` has built the libraries")
    asked.add_argument("--told", type=Path, metavar="FILE", help="what the `rt ci` prints that is building them")
    how = asked.add_mutually_exclusive_group()
    how.add_argument("--tell", action="store_true", help="print all goals that fail")
    how.add_argument("--good", action="store_true", help="check the functions that edits name as they stand: none may be refused")
    asked.add_argument("crates", nargs="*", metavar="CRATE", help="whose edits are tried; of every crate, where none is named")
    given = asked.parse_args()
    uses = crates_in(ROOT / "crates.txt")
    kit = Path(subprocess.run(["rt", "doc"], check=True, stdout=subprocess.PIPE, text=True).stdout.strip()).parent
    crates = [Crate(it, uses, given.built or ROOT, kit) for it in given.crates or uses]
    crates = [it for it in crates if it.edits]
    if not given.built:
        for it in crates:
            subprocess.run(["rt", "lib"], cwd=it.folder, check=True, stdout=subprocess.DEVNULL)
    # The longest begins first.
    crates.sort(key=lambda it: -len(it.edits))
    try_crate = tried_as_they_stand if given.good else lambda crate, kept: tried(crate, given.tell, kept)
    lines = all_tried(crates, given.told, try_crate)
    tally = Tally()
    for is_well, text in sorted(lines, key=lambda it: it[1]):
        print(text)
        tally.add(is_well)
        tally.failures += [] if is_well else [text]
    return ended(tally)


if __name__ == "__main__":
    sys.exit(main())
