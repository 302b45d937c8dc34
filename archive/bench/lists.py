#!/usr/bin/env python3
"""Measures what lists take of an index of many messages, in SQLite: each command three times, the least in seconds of the processor and of the clock.

    /usr/bin/python3 archive/bench/lists.py [MESSAGES]

An index of some hundred messages, half of them with a time-stamp, is made and its rows are copied until there are so many, each with a digest of its own.
"""

import os
import resource
import sqlite3
import subprocess
import sys
import tempfile
import time
from pathlib import Path

TOP = Path(__file__).resolve().parents[2]
sys.path[:0] = [str(TOP / it) for it in ("archive/tests/support", "tests/support")]

from cases import Maker  # noqa: E402
from places import copy_packages  # noqa: E402

MESSAGES, FILES = 1_000_000, 100  # of each kind
TIMES = 3
COMMAND = [sys.executable, "-m", "cms_canon_archive"]
OWN = {"file": "file || '-' || copies.n", **{it: f"iif({it} IS NULL, NULL, randomblob(32))" for it in ("digest", "sha256")}}
LISTS = (
    *(("check", "--limit", "20"), ("check", "--limit", "20", "--state", "fits"), ("signers", "--limit", "20"), ("times", "--limit", "20")),
    *(("duplicates", "--limit", "20"), ("changes", "--since", "2100-01-01", "--limit", "20"), ("refusals", "--limit", "20"), ("files", "--limit", "20")),
    *(("algorithms",), ("renewal", "--by", "2030-01-01", "--limit", "20")),
)


def write_files(folder, home):
    """Writes documents with their signatures beside them, by a key of 2,048 bits, and time-stamp tokens."""
    folder.mkdir()
    maker = Maker(home / "keys")
    for number in range(FILES):
        document = b"%08d" % number * 100
        (folder / f"{number}.txt").write_bytes(document)
        (folder / f"{number}.txt.p7s").write_bytes(maker.cms(document))
        (folder / f"{number}.tst").write_bytes(maker.token(document))


def copied(store, messages):
    """Copies the rows of a store until it has so many messages."""
    with sqlite3.connect(store) as database:
        (own,) = database.execute("SELECT count(*) FROM places WHERE kind IS NOT NULL").fetchone()
        database.execute("CREATE TEMP TABLE copies (n INTEGER PRIMARY KEY)")
        database.executemany("INSERT INTO copies VALUES (?)", ((it,) for it in range(1, messages // own)))
        for table in ("places", "place_signers", "place_times"):
            names = [row[1] for row in database.execute(f"PRAGMA table_info({table})")]
            filled = [OWN.get(name, name) if name == "file" or table == "places" else name for name in names]
            database.execute(f"INSERT INTO {table} SELECT {', '.join(filled)} FROM copies CROSS JOIN {table} WHERE file <> '' ORDER BY 1, 2")
        database.execute("ANALYZE")
        return database.execute("SELECT count(*) FROM places WHERE kind IS NOT NULL").fetchone()[0]


def taken(words, **how):
    """Returns the least seconds of the processor, and of the clock, that a command takes."""
    least = []
    for _ in range(TIMES):
        before, began = resource.getrusage(resource.RUSAGE_CHILDREN), time.perf_counter()
        subprocess.run(words, stdout=subprocess.DEVNULL, stderr=subprocess.PIPE, check=False, **how)  # whose status says what was found
        after, clock = resource.getrusage(resource.RUSAGE_CHILDREN), time.perf_counter() - began
        least.append((after.ru_utime + after.ru_stime - before.ru_utime - before.ru_stime, clock))
    return [min(it) for it in zip(*least)]


def main(messages):
    with tempfile.TemporaryDirectory(prefix="lists-") as folder:
        home, store = Path(folder), Path(folder, "index.db")
        copy_packages(home)
        (home / "keys").mkdir()
        write_files(home / "archive", home)
        how = {"cwd": home, "env": {**os.environ, "PYTHONPATH": str(home)}}
        subprocess.run([*COMMAND, "index", home / "archive", "--store", store], check=True, stdout=subprocess.DEVNULL, **how)
        print(f"{copied(store, messages):,} messages, {store.stat().st_size >> 20} MiB; load {os.getloadavg()[0]:.1f}")
        for words in LISTS:
            processor, clock = taken([*COMMAND, *words, "--store", store], **how)
            print(f"{' '.join(words):45} {processor:6.2f} s of the processor, {clock:6.2f} s")


if __name__ == "__main__":
    main(int(sys.argv[1]) if len(sys.argv) > 1 else MESSAGES)
