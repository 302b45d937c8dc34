#!/usr/bin/env python3
"""Measures `cms-canon-archive index` of many small files by how many times the processor time of `sha256sum` of the same files it takes.

    /usr/bin/python3 bench/archives.py [FILES [ROUNDS]] [--profile]

Processor time is that of all processes; that of the PostgreSQL server comes beside it. Each round runs the index, and then sha256sum again and
again for half as long, so that both see the same machine; the least of all rounds counts. To begin takes long whatever there is to do: so each ratio
comes also without what the index of an empty folder takes. Then come how well several workers share the work, how time and memory grow with the
files, what each step of a worker takes, and how long the command takes to begin. With `--profile`, a worker reads messages in one process, and the
functions that take longest are printed. `TMPDIR` names the folder for the files: /dev/shm keeps them in memory.
"""

import argparse
import os
import subprocess
import sys
import tempfile
import time
from contextlib import nullcontext
from pathlib import Path
from typing import Callable, Dict, List, NamedTuple, Optional, Tuple

import archive_files as files
from archive_processes import Used, least, ran

TOP = Path(__file__).resolve().parents[1]
FILES, ROUNDS = 20_000, 3
SETTLED = 2.1  # seconds after which a file that is not changed is not read again
BEGINNINGS = 5
STEPS = Path(__file__).with_name("archive_steps.py")


class Work(NamedTuple):
    """What is indexed."""

    name: str
    folder: Path
    count: int
    """Files, or members of a tar."""
    summed: Tuple[Tuple[str, Path], ...] = ()
    """Folders whose files sha256sum reads, with what is said of them: if there is none, those that are indexed."""


class Bench:
    """Runs the command of a copy of the packages, in a folder of its own."""

    def __init__(self, home: Path, rounds: int, server) -> None:
        self.home = home
        self.rounds = rounds
        self.server = server
        self.store = home / "index.db"
        (home / "empty").mkdir()
        self.beginnings: Dict[bool, Used] = {}
        for has_server in (False, True) if server else (False,):
            rounds_of_it = [self.index(home / "empty", self.fresh(has_server)) for _ in range(BEGINNINGS)]
            self.beginnings[has_server] = least(rounds_of_it)

    def fresh(self, has_server: bool) -> object:
        """Returns a store that is not there yet."""
        if has_server:
            return self.server.make_database("bench")
        for it in self.home.glob(f"{self.store.name}*"):
            it.unlink()
        return self.store

    def index(self, folder: Path, store: object, *options: object) -> Used:
        words = [sys.executable, "-m", "cms_canon_archive.command", "index", folder, "--store", store, *options]
        return ran(words, self.server if "://" in str(store) else None)

    def sum(self, folder: Path, seconds: float = 0.0) -> Used:
        """Runs sha256sum of all files in a folder, again and again for so many seconds, and returns what once took on average."""
        names = self.home / "names"
        with open(names, "wb") as file:
            subprocess.run(["find", folder, "-type", "f", "-print0"], stdout=file, check=True)
        some, end = [], time.monotonic() + seconds
        while not some or time.monotonic() < end:
            some.append(ran(["xargs", "-0", "-a", names, "sha256sum"]))
        return Used(*(sum(it) / len(some) for it in zip(*some)))

    def alternated(self, work: Work, has_server: bool, store_of: Callable[[], object]) -> None:
        """Prints what an index takes of what sha256sum does."""
        summed = work.summed or (("", work.folder),)
        used: List[Used] = []
        sums: List[List[Used]] = []
        for _ in range(self.rounds):
            used.append(self.index(work.folder, store_of()))
            sums.append([self.sum(folder, used[-1].time / 2) for _, folder in summed])
        for number, (of_what, _) in enumerate(summed):
            of_it = least([it[number] for it in sums])
            print(line_of(f"{work.name}{of_what}", least(used), self.beginnings[has_server], of_it, work.count), flush=True)


def line_of(name: str, used: Used, beginning: Used, summed: Used, count: int) -> str:
    """Returns a row: ratios of processor time, also without that of the beginning, and microseconds a file."""
    ratios = [it / summed.processors for it in (used.processors, used.processors - beginning.processors, used.server)]
    server = f" + {ratios[2]:.2f} of the server" if used.server else ""
    each = f"{used.processors / count * 1e6:.1f} / {summed.processors / count * 1e6:.1f} microseconds a file"
    return f"{name}: {ratios[0]:.2f}{server}, {ratios[1]:.2f} without the beginning; {each}, peak {used.memory:.0f} MiB, load {os.getloadavg()[0]:.1f}"


# ---- what is measured


def name_of(has_server: bool) -> str:
    return "PostgreSQL" if has_server else "SQLite"


def measure_kinds(bench: Bench, works: List[Work]) -> None:
    """Prints the ratios of each kind of file, with each kind of store; those of unchanged files come after the first."""
    for has_server in bench.beginnings:
        store = name_of(has_server)
        for number, work in enumerate(works):
            bench.alternated(work._replace(name=f"{store}, {work.name}"), has_server, lambda: bench.fresh(has_server))
            if number == 0:
                kept = bench.server.url(database="bench") if has_server else bench.store
                bench.alternated(work._replace(name=f"{store}, {work.name}, unchanged"), has_server, lambda: kept)


def measure_workers(bench: Bench, work: Work) -> None:
    """Prints how well workers share the work: the time of one is compared with that of several, times their number."""
    processors = os.cpu_count() or 1
    numbers = [it for it in (1, 2, 4, 8, 16) if it <= processors]
    for has_server, beginning in bench.beginnings.items():
        rounds = {it: [bench.index(work.folder, bench.fresh(has_server), "--jobs", it) for _ in range(bench.rounds)] for it in numbers}
        times = {it: least(some).time for it, some in rounds.items()}
        shares = ", ".join(f"{it}: {times[1] / (it * times[it]):.2f} ({times[it]:.2f} s)" for it in numbers)
        first = times[1] - beginning.time
        alone = ", ".join(f"{it}: {first / (it * max(times[it] - beginning.time, 1e-3)):.2f}" for it in numbers)
        print(f"{name_of(has_server)}, workers, of the ideal: {shares}; without the beginning {alone}; load {os.getloadavg()[0]:.1f}", flush=True)


def measure_growth(bench: Bench, counts: List[int]) -> None:
    """Prints what messages take if they are few and many."""
    for count in counts:
        folder = files.messages(bench.home / f"{count} messages", count)
        bench.rounds, rounds = 1, bench.rounds
        bench.alternated(Work(f"SQLite, {count:,} messages", folder, count), False, lambda: bench.fresh(False))
        bench.rounds = rounds
        subprocess.run(["rm", "-r", folder], check=True)


def measure_beginnings(bench: Bench) -> None:
    """Prints how long the command takes if there is nothing to do."""
    command = [sys.executable, "-m", "cms_canon_archive.command"]
    for words, status in ((["--version"], 0), (["--help"], 0), (["wrong"], 2)):
        used = least([ran([*command, *words], status=status) for _ in range(BEGINNINGS)])
        print(f"{words[0]}: {used.time:.3f} s, {used.processors:.3f} of the processor")
    for has_server, used in bench.beginnings.items():
        seconds = f"{used.time:.3f} s, {used.processors + used.server:.3f} of the processors"
        print(f"index of an empty folder, {name_of(has_server)}: {seconds}, peak {used.memory:.0f} MiB")


def measure(home: Path, count: int, rounds: int, server: Optional[object]) -> None:
    bench = Bench(home, rounds, server)
    messages = files.messages(home / "messages", count)
    tar = files.tar_of(messages, home / "tar" / "messages.tar")
    size = sum(it.stat().st_size for it in messages.rglob("*.p7s")) / count
    documents = files.signed_documents(home / "documents", count, home / "made")
    plain = {name: make(home / name, count) for name, make in (("texts", files.texts), ("files that are nothing", files.nothings))}
    works = [
        Work(f"messages of {size / 1000:.1f} kB", messages, count),
        Work("members of a tar", tar, count, ((", of the same files", messages), (", of the tar", tar))),
        *(Work(name, folder, count) for name, folder in plain.items()),
        Work("documents and what signs them", documents, 2 * count),
    ]
    time.sleep(SETTLED)
    print(f"{count:,} files of each kind; processor time of `index` / that of sha256sum, the least of {rounds} rounds")
    measure_kinds(bench, works)
    measure_workers(bench, works[0])
    measure_growth(bench, [count // 2, count * 5])
    subprocess.run([sys.executable, STEPS, messages, f"{bench.sum(messages).processors}"], check=True)
    measure_beginnings(bench)


def main(words: List[str]) -> int:
    parser = argparse.ArgumentParser()
    parser.add_argument("files", type=int, nargs="?", default=FILES)
    parser.add_argument("rounds", type=int, nargs="?", default=ROUNDS)
    parser.add_argument("--profile", action="store_true")
    asked = parser.parse_args(words)
    import postgresql_server
    from places import copy_packages

    with tempfile.TemporaryDirectory(prefix="archive-") as folder:
        home = Path(folder)
        copy_packages(home)
        os.environ["PYTHONPATH"] = str(home)
        if asked.profile:
            subprocess.run([sys.executable, STEPS, files.messages(home / "messages", asked.files), "--profile"], check=True)
            return 0
        with postgresql_server.server() if postgresql_server.tools() is not None else nullcontext() as server:
            measure(home, asked.files, asked.rounds, server)
    return 0


if __name__ == "__main__":
    sys.exit(main(sys.argv[1:]))
