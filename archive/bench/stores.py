#!/usr/bin/env python3
"""Compares two ways in which processes could store rows in SQLite: in turn into one file, or each into a file of its own, merged at the end.

    /usr/bin/python3 archive/bench/stores.py [ROWS]

Four processes store rows of one message each, as `cms-canon-archive index` does. Processor time and time are for each row; in the command a
row is read meanwhile, so that processes wait less for one another than here.
"""

import fcntl
import os
import sqlite3
import subprocess
import sys
import tempfile
import time
from pathlib import Path

sys.path.insert(0, str(Path(__file__).resolve().parents[1] / "tests" / "support"))

from places import copy_packages  # noqa: E402

ROWS = 1_000_000
PROCESSES = 4
TOGETHER = 5000  # rows of a transaction, which are five parts of 1,000
IN_A_PART = 1000


def row_of(part, number):
    digest = (number * 0x9E3779B97F4A7C15 % (1 << 256)).to_bytes(32, "big")
    name = (part, f"{number}.p7s", "")
    return (*name, 1600, 1600, 1795794485718927875, number, digest, "signature", 1, 1, None, None, None, None, None, "", "message", "file", "data", "inside",
            "no digest to compare", "", "", "sha256", "rsa", None, 1, 0, "0.10.0", 2, 1)


def connected(path):
    connection = sqlite3.connect(path, timeout=600, isolation_level=None)
    for pragma in ("journal_mode=WAL", "synchronous=NORMAL", "wal_autocheckpoint=8000", "cache_size=-65536"):
        connection.execute(f"PRAGMA {pragma}")
    return connection


def fill(path, process, rows, waits):
    """Stores the rows of one of the processes: each takes the next five parts, as workers do."""
    connection = connected(path)
    places = ", ".join("?" * len(row_of(0, 0)))
    turn = open(f"{path}-workers", "w")
    for begin in range(process * TOGETHER, rows, PROCESSES * TOGETHER):
        some = [row_of(it // IN_A_PART, it) for it in range(begin, min(begin + TOGETHER, rows))]
        if waits:
            fcntl.lockf(turn, fcntl.LOCK_EX, 1)
        connection.execute("BEGIN IMMEDIATE")
        connection.executemany(f"INSERT INTO places VALUES ({places})", some)
        connection.execute("COMMIT")
        if waits:
            fcntl.lockf(turn, fcntl.LOCK_UN, 1)
    connection.close()


def filled(paths, rows, waits=False):
    """Fills files by processes, and returns their processor time in seconds."""
    before = os.times()
    started = [subprocess.Popen([sys.executable, __file__, "fill", str(path), str(number), str(rows), "waits" if waits else ""]) for number, path in enumerate(paths)]
    assert not any([it.wait() for it in started])
    after = os.times()
    return after.children_user + after.children_system - before.children_user - before.children_system


def merged(path, others):
    """Puts the rows of other files into one, in the order of their keys, and returns the processor time in seconds."""
    began = time.process_time()
    connection = connected(path)
    for number, other in enumerate(others):
        connection.execute(f"ATTACH ? AS other_{number}", (str(other),))
    asked = " UNION ALL ".join(f"SELECT * FROM other_{number}.places" for number in range(len(others)))
    connection.execute("BEGIN IMMEDIATE")
    connection.execute(f"INSERT INTO places {asked} ORDER BY part, file, member")
    connection.execute("COMMIT")
    connection.close()
    return time.process_time() - began


def made(home, name):
    from cms_canon_archive.store import Store

    path = home / f"{name}.db"
    Store(str(path), makes=True).close()
    return path


def count_of(path):
    with sqlite3.connect(path) as connection:
        return connection.execute("SELECT count(*) FROM places").fetchone()[0]


def main(words):
    rows = int(words[0]) if words else ROWS
    with tempfile.TemporaryDirectory(prefix="stores-") as folder:
        home = Path(folder)
        copy_packages(home)
        sys.path.insert(0, str(home))
        making = filled([made(home, "nothing")] * PROCESSES, 0)
        for waits, name in ((False, "one file"), (True, "one file, and a lock for whose turn it is")):
            one = made(home, name)
            began = time.perf_counter()
            seconds = filled([one] * PROCESSES, rows, waits)
            print(f"{name}: {seconds / rows * 1e6:.2f} of processor time, {(time.perf_counter() - began) / rows * 1e6:.2f} of time", flush=True)
        others = [made(home, f"own {number}") for number in range(PROCESSES)]
        whole = made(home, "whole")
        began = time.perf_counter()
        seconds = filled(others, rows)
        filling = time.perf_counter() - began
        merging = merged(whole, others)
        took = time.perf_counter() - began
        print(f"files of their own, merged: {(seconds + merging) / rows * 1e6:.2f} of processor time, {took / rows * 1e6:.2f} of time,"
              f" of which {merging / rows * 1e6:.2f} and {(took - filling) / rows * 1e6:.2f} for the merge", flush=True)
        assert count_of(one) == count_of(whole) == rows
        print(f"microseconds a row of {rows:,}, load {os.getloadavg()[0]:.1f}; the processes alone took {making:.2f} s")
    return 0


if __name__ == "__main__":
    if sys.argv[1:2] == ["fill"]:
        fill(sys.argv[2], int(sys.argv[3]), int(sys.argv[4]), bool(sys.argv[5]))
    else:
        sys.exit(main(sys.argv[1:]))
