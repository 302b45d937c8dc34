#!/usr/bin/env python3
"""Measures what each step of a worker of `cms-canon-archive` takes by itself, in one process, or prints its profile.

    python3 bench/archive_steps.py FOLDER [SECONDS | --profile]

bench/archives.py calls it with messages, and with the processor time that sha256sum takes for them. The packages are those that Python finds.
"""

import cProfile
import hashlib
import pstats
import sys
import tempfile
import time
from pathlib import Path
from typing import Any, Callable, List

import cms_canon
from cms_canon._facts import facts_of
from cms_canon_archive import indexing
from cms_canon_archive.judging import judged
from cms_canon_archive.reading import found_in_entry, parts_of
from cms_canon_archive.short_files import groups, reads_together
from cms_canon_archive.store import Store
from cms_canon_archive.walking import entries_of
from cms_canon_archive.working import Options

ROUNDS = 3
MOST_FUNCTIONS = 40


def worked(folder: str) -> None:
    """Does in this process what a worker does of a folder, into a new store of SQLite."""
    with tempfile.TemporaryDirectory() as home:
        store = Store(f"{home}/index.db", makes=True)
        indexing.put_in(store, [folder])
        store.close()
        indexing.work(store.url, Options())


class Steps:
    """Prints the least processor time of each step in some rounds, for each file."""

    def __init__(self, count: int, summed: float) -> None:
        self._count = count
        self._summed = summed

    def timed(self, name: str, do: Callable[[], Any]) -> Any:
        least = float("inf")
        for _ in range(ROUNDS):
            began = time.process_time()
            result = do()
            least = min(least, time.process_time() - began)
        ratio = f", {least / self._summed:.2f} of sha256sum" if self._summed else ""
        print(f"{name}: {least / self._count * 1e6:.1f} microseconds a file{ratio}", flush=True)
        return result


def measure(folder: str, summed: float) -> None:
    entries = list(entries_of([folder]))
    timed = Steps(len(entries), summed).timed
    timed("walking", lambda: list(entries_of([folder])))
    octets = timed("reading", lambda: [Path(entry.path).read_bytes() for entry in entries])
    ders = timed("converting", lambda: [cms_canon.convert(it) for it in octets])
    timed("findings", lambda: [cms_canon.check(it) for it in octets])
    timed("converting, fields and findings, as facts", lambda: [facts_of(it, checks=True).kind for it in octets])
    timed("digests", lambda: [hashlib.sha256(it).hexdigest() for it in ders])
    found = timed("reading and finding, with facts of what holds data", lambda: [it for entry in entries for it in found_in_entry(entry)])
    timed("judging, with facts of the others", lambda: [judged(it).digest for it in found])
    files = [(entry.path, entry) for entry in entries]
    timed("all of these, many files at a time", lambda: [reads_together([entry for _, entry in some]) for some in groups(files)])
    timed("all of these, as lines of rows", lambda: sum(len(it.rows) for it in parts_of(entries)))
    timed("a worker, all with storing in SQLite", lambda: worked(folder))


def profile(folder: str) -> None:
    """Prints the functions of a worker that take longest."""
    profiler = cProfile.Profile()
    profiler.runcall(worked, folder)
    pstats.Stats(profiler).strip_dirs().sort_stats("tottime").print_stats(MOST_FUNCTIONS)


def main(words: List[str]) -> int:
    folder, *more = words
    if more == ["--profile"]:
        profile(folder)
    else:
        measure(folder, float(more[0]) if more else 0.0)
    return 0


if __name__ == "__main__":
    sys.exit(main(sys.argv[1:]))
