#!/usr/bin/env python3
"""Compares what two versions store of the same files of every kind, and prints each difference.

    /usr/bin/python3 archive/bench/same_rows.py OLD NEW [FILES [SEED]]

Each version is a commit, or a folder with a working tree. Its packages are copied, with the library of its release, and index the same folder:
into SQLite, into SQLite with `--verify`, and into PostgreSQL if it is installed, each twice, and by `rows`. All columns are compared but for those
that say who read a file, and what the command says. The exit status is 1 if anything differs, or if nothing was compared. `MORE_VECTORS` in the
environment names more folders with vectors, whose octets become files.
"""

import json
import os
import re
import shutil
import sqlite3
import subprocess
import sys
import tempfile
import time
from collections import Counter
from concurrent.futures import ThreadPoolExecutor
from contextlib import closing, nullcontext
from pathlib import Path
from typing import Any, Dict, Iterator, List, NamedTuple, Tuple

import every_kind
import postgresql_server

TOP = Path(__file__).resolve().parents[2]
FILES, SEED = 20_000, 4057
SHOWN, KINDS_SHOWN = 200, 400  # differences that are printed, and kinds of them
LONGEST_SHOWN = 120  # characters of a value
SETTLED = 2.5  # seconds after which a file is not said to have just been written
IGNORED = {"library", "reader", "worker"}
LIBRARY = "dist/x86_64-linux/libcms_canon.so"
LAYOUTS = {  # the packages of a version, the first of which has the library, and the module that is called
    "bindings/python/cms_canon": (("bindings/python/cms_canon", "archive/cms_canon_archive"), "cms_canon_archive"),
    "python/cms_canon": (("python/cms_canon",), "cms_canon.archive"),
}
TABLES = {"files": ("path", "member"), "signers": ("path", "member", "number"), "times": ("path", "member", "number")}

Key = Tuple[Any, ...]
Rows = Dict[Key, Dict[str, Any]]


class Version(NamedTuple):
    """A copy of the packages of a version, and how its command is called."""

    name: str
    home: Path
    module: str

    def call(self, *words: object, **how: Any) -> str:
        """Runs the command, and returns the last line that it says beside its output."""
        called = [sys.executable, "-m", f"{self.module}.command", *map(str, words)]
        environment = {**os.environ, "PYTHONPATH": str(self.home)}
        done = subprocess.run(called, cwd=self.home, env=environment, stderr=subprocess.PIPE, text=True, **how)
        if done.returncode:
            raise SystemExit(f"{self.name}: {words[0]} ended with {done.returncode}: {done.stderr[-2000:]}")
        return (done.stderr.splitlines() or [""])[-1]


def copied(name: str, home: Path) -> Version:
    """Copies the packages of a commit, or of a folder."""
    home.mkdir()
    packages, module = next(layout for first, layout in LAYOUTS.items() if has(name, first))
    top = Path(name)
    if not top.is_dir():
        top = home / "tree"
        top.mkdir()
        written = subprocess.run(["git", "-C", TOP, "archive", name, LIBRARY, *packages], stdout=subprocess.PIPE, check=True)
        subprocess.run(["tar", "-x", "-C", top], input=written.stdout, check=True)
    for package in packages:
        shutil.copytree(top / package, home / Path(package).name, ignore=shutil.ignore_patterns("__pycache__"))
    shutil.copy(top / LIBRARY, home / "cms_canon")
    return Version(name, home, module)


def has(name: str, folder: str) -> bool:
    """Whether a commit or a folder has a folder."""
    if Path(name).is_dir():
        return (Path(name) / folder).is_dir()
    return subprocess.run(["git", "-C", TOP, "cat-file", "-e", f"{name}:{folder}"], stderr=subprocess.DEVNULL).returncode == 0


# ---- what is stored


def stored_by(version: Version, folder: Path, server: Any) -> Dict[str, Rows]:
    """Returns the rows of each way to read a folder, and of each table; and what is said of a folder that is read for the first time, and again."""
    ways: Dict[str, Tuple[object, ...]] = {"index": (version.home / "plain.db",), "index --verify": (version.home / "verified.db", "--verify")}
    if server is not None:
        ways["index in PostgreSQL"] = (server.make_database(version.home.name),)
    found: Dict[str, Rows] = {"said": {}}
    for how, (store, *words) in ways.items():
        for time_of_it in ("first", "again"):
            found["said"][how, time_of_it] = {"line": version.call("index", folder, "--store", store, *words)}
        found.update({f"{how}: {table}": rows for table, rows in rows_in(store).items()})
    lines = version.home / "lines"
    with open(lines, "wb") as file:
        version.call("rows", folder, stdout=file)
    return {**found, "rows": rows_of_lines(lines)}


def rows_in(store: object) -> Dict[str, Rows]:
    """Returns the rows of the views of a store."""
    found = {}
    with closing(connected(str(store))) as connection:
        for table, keys in TABLES.items():
            cursor = connection.cursor()
            cursor.execute(f"SELECT * FROM {table}")
            names = [it[0] for it in cursor.description]
            rows = (dict(zip(names, it)) for it in cursor)
            found[table] = {tuple(row[it] for it in keys): row for row in rows}
    return found


def connected(store: str) -> Any:
    if "://" not in store:
        return sqlite3.connect(store)
    import psycopg2

    return psycopg2.connect(store)


def rows_of_lines(lines: Path) -> Rows:
    """Returns the lines of `rows`, each with its place among those of its file."""
    found: Rows = {}
    places: Counter = Counter()
    for line in lines.read_text(errors="surrogateescape").splitlines():
        row = json.loads(line)
        path, member = row.get("path", "end"), row.get("member", "")
        places[path] += 1
        places[path, member] += 1
        found[path, member, places[path, member]] = {**row, "place": places[path]}
    return found


# ---- what differs


class Difference(NamedTuple):
    """A column of a row that is other than it was. Of a row that only one version has, the column is empty."""

    reading: str
    key: Key
    column: str
    old: Any
    new: Any


def differences(reading: str, old: Rows, new: Rows) -> Iterator[Difference]:
    for key in sorted({*old, *new}, key=str):
        if key not in old or key not in new:
            yield Difference(reading, key, "", key in old, key in new)
            continue
        before, after = old[key], new[key]
        for column in sorted({*before, *after} - IGNORED):
            if before.get(column) != after.get(column) or (column in before) != (column in after):
                yield Difference(reading, key, column, before.get(column), after.get(column))


def shown(difference: Difference, folder: Path) -> str:
    path, *more = difference.key
    values = map(json.dumps, (difference.old, difference.new)) if difference.column else (("not there", "there")[it] for it in (difference.old, difference.new))
    return "\t".join([difference.reading, str(path).replace(f"{folder}/", ""), *map(str, more), difference.column or "the row", *values])


def kind_of(difference: Difference) -> str:
    """Returns what differs without the numbers in it, so that alike differences are counted together."""
    reading, _, column, *values = difference
    if not column:
        return f"{reading}: a row that only {'OLD' if difference.old else 'NEW'} has"
    texts = (it if it is None else re.sub("[0-9]+", "N", json.dumps(it))[:LONGEST_SHOWN] for it in values)
    return f"{reading}: {column}: {' -> '.join(map(str, texts))}"


def compare(old: Dict[str, Rows], new: Dict[str, Rows], folder: Path) -> int:
    """Prints what differs, how often each column does, and which kinds of it there are, and returns how much does."""
    some: List[Difference] = [it for reading in old for it in differences(reading, old[reading], new[reading])]
    for it in some[:SHOWN]:
        print(shown(it, folder))
    if len(some) > SHOWN:
        print(f"and {len(some) - SHOWN:,} more")
    for (reading, column), count in sorted(Counter((it.reading, it.column or "the row") for it in some).items()):
        print(f"{reading}: {column} differs {count:,} times")
    for source, count in Counter(str(it.key[0]).replace(f"{folder}/", "").partition("/")[0] for it in some).most_common():
        print(f"{count:7,} of files of {source}")
    for kind, count in Counter(map(kind_of, some)).most_common(KINDS_SHOWN):
        print(f"{count:7,} {kind}")
    return len(some)


def main(words: List[str]) -> int:
    old_name, new_name, *numbers = words
    count, seed = (int(numbers[it]) if len(numbers) > it else other for it, other in enumerate((FILES, SEED)))
    has_server = postgresql_server.tools() is not None
    with tempfile.TemporaryDirectory(prefix="same-rows-") as home, postgresql_server.server() if has_server else nullcontext() as server:
        folder = Path(home) / "files"
        folder.mkdir()
        versions = [copied(name, Path(home) / kind) for kind, name in (("old", old_name), ("new", new_name))]
        made = every_kind.make_archive(folder, Path(home) / "made", count, seed)
        print(f"seed {seed}: {sum(made.values()):,} files; {', '.join(f'{number:,} of {name}' for name, number in made.items())}", flush=True)
        time.sleep(SETTLED)
        with ThreadPoolExecutor() as threads:
            old, new = threads.map(lambda it: stored_by(it, folder, server), versions)
        for (how, time_of_it), row in new["said"].items():
            print(f"{how}, {time_of_it}: {row['line']}")
        differing = compare(old, new, folder)
        rows = {reading: len(it) for reading, it in old.items()}
    print(f"{old_name} and {new_name}: {differing:,} differences among {sum(rows.values()):,} rows: {', '.join(f'{n:,} of {it}' for it, n in rows.items())}")
    return 1 if differing or not min(rows.values()) else 0


if __name__ == "__main__":
    sys.exit(main(sys.argv[1:]))
