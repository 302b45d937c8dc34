#!/usr/bin/env python3
"""Says which promises, edits, vectors and tests of an earlier commit are not there any more.

    python3 tests/lost.py COMMIT

A promise is its text with the contract that carries it, from the head of an edit or from none.md; an edit is what it changes, wherever its file is; a
test written in Rattle is its name; and a function in Python that judges something is known by its name without the word that says so, wherever its
file is: so a function that moved is there, and of two with one name each counts. What was renamed or put in other words is lost and new: what is lost
is listed, with what is new and most like it, so that a reader sees whether the one is the other. If a commit has docs/PROMISES.md, the tables that this
page has by hand count too. The exit status is 1 if anything is lost.
"""

import difflib
import io
import json
import re
import subprocess
import sys
import tarfile
from collections import Counter
from pathlib import Path

TOP = Path(__file__).resolve().parent.parent
sys.path.insert(0, str(TOP / "scripts"))

from promises import Edit, promises_without_edits  # noqa: E402

PAGE = "docs/PROMISES.md"
PARTS = ("crates", PAGE, "tests", "bindings", "archive")
FROM_EDITS = re.compile(r"<!-- promises of .*?<!-- the end of these promises -->", re.S)
# What the heads of edits say for the first two cells of a row by hand, by the first column of its table.
SAID = {"promise": "{0}", "calls": "Faults of {0}: {1}", "reason": "The octets taken at {0}: {1}"}


def files_of(commit):
    there = ["git", "ls-tree", "--name-only", commit, "--", *PARTS]
    parts = subprocess.run(there, cwd=TOP, capture_output=True, check=True, text=True).stdout.splitlines()
    packed = subprocess.run(["git", "archive", commit, *parts], cwd=TOP, capture_output=True, check=True).stdout
    with tarfile.open(fileobj=io.BytesIO(packed)) as tar:
        return {it.name: tar.extractfile(it).read().decode(errors="replace") for it in tar.getmembers() if it.isfile()}


def rows_by_hand(page):
    """Returns the rows that a page has by hand in its tables with a column of edits, each with the columns of its table. A row that begins with an
    empty cell goes on with the one above it."""
    found, columns = [], []
    for line in FROM_EDITS.sub("", page).splitlines():
        cells = [it.strip() for it in re.split(r"(?<!\\)\|", line.strip()[1:-1])] if line.startswith("|") else []
        cells += [""] * (len(columns) - len(cells)) if cells else []
        if not cells or not columns:
            columns = cells if "must-fail edits" in cells else []
        elif cells[0] and not line.startswith("|---"):
            found.append((columns, cells))
        elif not cells[0]:
            found[-1] = (columns, [f"{above} {below}".strip() for above, below in zip(found[-1][1], cells)])
    return found


def promise_by_hand(columns, cells):
    """Returns a promise in the words that the head of an edit has for it."""
    beside = cells[-1] if columns[-1] in ("tests", "vectors") else ""
    said = SAID.get(columns[0], "{0}").format(*cells) + (f" ({columns[-1]}: {beside})" if beside else "")
    return f"{said} | {cells[columns.index('carried by')] if 'carried by' in columns else cells[1]}"


def promises_in(files):
    """Returns the promises that the heads of edits have, those of none.md, and those that a page has by hand."""
    found = [it for name, text in files.items() if name.endswith(".edit") for it in Edit(name, text).promises]
    found += [it for name, text in files.items() if name.endswith("/must-fail/none.md") for it in promises_without_edits(text)]
    by_hand = (promise_by_hand(*it) for it in rows_by_hand(files.get(PAGE, "")))
    said = {*(f"{it.text} | {it.carried}" for it in found), *by_hand}
    return {re.sub(r"tests/(?:support/|test_)(?=\w+\.py)", "tests/", it) for it in said}  # wherever the file of a test is


def numbered(names):
    """Returns these names, each further one of the same name with its number."""
    return {name if number == 1 else f"{name} ({number})" for name, count in Counter(names).items() for number in range(1, count + 1)}


def found_in(files):
    edits = {(name.split("/")[1], re.sub(r"(?m)^#.*\n?", "", text)) for name, text in files.items() if name.endswith(".edit")}
    rattle = {(name.split("/")[1], it) for name, text in files.items() if name.endswith(".rt") for it in re.findall(r"#\[test\]\s+fn (\w+)", text)}
    judges = re.compile(r"^ *def (?:judge|check|count|test|try)_(\w+)", re.M)
    scripts = numbered(it for name, text in files.items() if name.endswith(".py") for it in judges.findall(text))
    rust = {(name, it) for name, text in files.items() if name.endswith(".rs") for it in re.findall(r"#\[test\]\s+fn (\w+)", text)}
    vectors = {(name, it["name"]) for name, text in files.items() if re.fullmatch(r"tests/vectors/[\w-]+\.json", name) for it in json.loads(text)["vectors"]}
    return {
        "promises": promises_in(files), "edits": {": ".join(it) for it in edits},
        "tests in Rattle": {": ".join(it) for it in rattle}, "tests in Rust": {": ".join(it) for it in rust},
        "checks in Python": scripts, "vectors": {": ".join(it) for it in vectors},
    }


def side_by_side(gone, new):
    """Yields a line for each of what is lost, below it one for the most alike of what is new, and then lines for all else that is new."""
    left = sorted(new)
    for it in sorted(gone):
        yield f"- {it}"
        for other in difflib.get_close_matches(it, left, 1):
            left.remove(other)
            yield f"+ {other}"
    yield from (f"+ {it}" for it in left)


def main(words):
    if len(words) != 1:
        print(__doc__, file=sys.stderr)
        return 2
    listed = ["git", "ls-files", "-co", "--exclude-standard", *PARTS]
    names = subprocess.run(listed, cwd=TOP, capture_output=True, check=True, text=True).stdout.splitlines()
    files = {it: (TOP / it).read_text(errors="replace") for it in names if (TOP / it).is_file()}
    before, now = found_in(files_of(words[0])), found_in(files)
    lost = 0
    for kind, those in before.items():
        gone, new = those - now[kind], now[kind] - those
        lost += len(gone)
        print(f"{kind}: {len(those)} before, {len(now[kind])} now, {len(gone)} lost, {len(new)} new")
        for line in side_by_side(gone, new if gone else ()):
            print("  " + line.replace("\n", "\n      "))
    return 1 if lost else 0


if __name__ == "__main__":
    sys.exit(main(sys.argv[1:]))
