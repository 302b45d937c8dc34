"""Starts the command `cms-canon-archive`: what each word imports, how much time of a processor that takes, and what is said if a package is missing.

Help, the version and a wrong word need no more than the words themselves. An index of an empty folder asks a store, reads nothing, and has one
worker.
"""

import subprocess
import sys
import tomllib

import pytest
from counting import count_if, count_same, needs
from making import write_files
from places import TOP
from processor import seconds_of, slowness
from running import SECONDS, asked, command, ended, environment_of, words_of

pytestmark = [pytest.mark.archive, needs("click", "tqdm", "sqlalchemy", "cryptography")]
RUNS = 10
OF_WORDS, OF_AN_INDEX = 0.15, 0.4  # seconds of a processor
AN_INDEX = "an index of nothing"
WORDS = {
    "the help": (0, "--help"), "the help of a command": (0, "index", "--help"), "the version": (0, "--version"), "a wrong word": (2, "wrong"),
    "a wrong option": (2, "index", "--wrong"),
}
OF_SOME_FILES = {
    *(f"cms_canon_archive.containers.{it}" for it in ("asic", "files", "finder", "forms", "jar", "layout", "mail", "pdf", "zips")),
    *("cms_canon.verifier", "cryptography", "pikepdf", "zstandard"),
}
OF_SOME_WORDS = {
    *("cms_canon_archive.cluster", "cms_canon_archive.report", "dask", "distributed", "jinja2", "matplotlib", "numpy", "psycopg2"),
    *("asyncio", "sqlalchemy.dialects.postgresql"),
}
OF_A_STORE = {"cms_canon_archive.store", "csv", "email", "importlib.metadata", "multiprocessing", "socket", "sqlalchemy", "sqlite3", "ssl"}
OF_WORK = {"cms_canon_archive.texts", "json", "tarfile", "tqdm"}


def imported_by(home, *words, status=0):
    """Returns which modules the command and its processes import."""
    python, *others = words_of(*words)
    how = {"env": environment_of(home), "cwd": home, "capture_output": True, "text": True, "timeout": SECONDS}
    done = subprocess.run([python, "-X", "importtime", *others], **how)
    assert done.returncode == status, done.stderr[-2000:]
    return {line.rpartition("|")[2].strip() for line in done.stderr.splitlines() if line.startswith("import time:")}


def among(imported, names):
    """Returns the modules that are of these names, or in packages of these names."""
    return sorted(it for it in imported if any(f"{it}.".startswith(f"{name}.") for name in names))


def empty_in(home):
    folder = home / "empty"
    folder.mkdir()
    return folder


def without(home, package):
    """Has processes with modules of this folder not find a package."""
    (home / f"{package}.py").write_text(f"raise ModuleNotFoundError(name={package!r})\n")


def test_words(home):
    for name, (status, *words) in WORDS.items():
        version = {"cms_canon", "json"} if words == ["--version"] else set()
        needless = {"cms_canon", *OF_SOME_FILES, *OF_SOME_WORDS, *OF_A_STORE, *OF_WORK} - version
        count_same(f"what {name} imports", among(imported_by(home, *words, status=status), needless), [])


def test_empty(home):
    """Nothing is imported for files of one kind by an index that has none, or by its worker."""
    empty = empty_in(home)
    for jobs in (1, 3):
        imported = imported_by(home, "index", empty, "--store", f"{jobs}.db", "--jobs", jobs)
        count_same(f"what {AN_INDEX} imports", among(imported, OF_SOME_FILES | OF_SOME_WORDS), [])
        count_same("what asks its store", among(imported, {"cms_canon_archive.store"}), ["cms_canon_archive.store"])


def test_workers(home):
    """There are no more workers than parts."""
    empty, several = empty_in(home), write_files(home / "several", {f"{number}/a.txt": b"a" for number in range(5)})
    for name, folder, jobs, wanted in (("one part", empty, 3, 1), ("fewer parts", several, 8, 6), ("more parts", several, 3, 3)):
        command(home, "index", folder, "--store", f"{wanted}.db", "--jobs", jobs)
        count_same(f"workers for {name}", asked(home / f"{wanted}.db", "SELECT count(*) FROM workers")[0][0], wanted)
    count_same("a store is one file", sorted(it.name for it in home.glob("1.db*")), ["1.db"])


def test_times(home):
    """The least time of ten runs counts, at the speed that the processor has when it is slowest between them."""
    empty, how = empty_in(home), {"env": environment_of(home), "cwd": home}
    took, slower = {name: [] for name in (*WORDS, AN_INDEX)}, 1.0
    for run in range(RUNS):
        slower = max(slower, slowness())
        for name, (_, *words) in WORDS.items():
            took[name].append(seconds_of(words_of(*words), **how))
        took[AN_INDEX].append(seconds_of(words_of("index", empty, "--store", f"{run}.db"), **how))
    for name, seconds in took.items():
        most = OF_AN_INDEX if name == AN_INDEX else OF_WORDS
        came = f"{min(seconds):.3f} s, on a processor that is {slower:.1f} times slower"
        count_if(f"the time of {name}", min(seconds) <= most * slower, came)
        print(f"{name}: {came}")


def test_missing(archive, home):
    """Whatever pip and apt-get install with the command is said to be so if it is missing, by the word that needs it."""
    folder = write_files(home / "files", {"a.txt": b"a"})
    data = tomllib.loads((TOP / "tests" / "data" / "packages.toml").read_text())
    beside = {it for it, (debian, _) in data["modules"].items() if debian in data["debian"]["cms-canon-archive"]["depends"]}
    count_same("what is installed with the command", set(archive.faults.BESIDE), {"cms_canon", *beside})
    for package in archive.faults.BESIDE:
        without(home, package)
        done = ended(home, "index", folder, "--store", "index.db")
        wanted = f"Error: this needs the package {package}, which is installed with cms-canon-archive by pip and by apt-get\n"
        count_same(f"without {package}", (done.returncode, done.stderr), (1, wanted))
        (home / f"{package}.py").unlink()
    command(home, "index", folder, "--store", "index.db")
    without(home, "jinja2")
    done = ended(home, "report", "--html", "-", "--store", "index.db")
    count_same("without a package of one word", (done.returncode, done.stderr), (1, "Error: this needs the package jinja2\n"))
    without(home, "cms_canon")
    count_same("the version without the library's package", ended(home, "--version").returncode, 1)
    count_same("help without it", ended(home, "--help").returncode, 0)
