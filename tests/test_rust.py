"""Tests the crate bindings/rust with the released library, or with the one in the folder that CMS_CANON_LIB_DIR names.

The crate's own tests make the calls that the callers of the other languages make (tests/test_libraries.py), and compare findings by
digests, which are made here, with those by the octets. Then the example `fields` prints the fields of messages, which are compared
with those that tests/support/field_lines.py reads. Each run after that has one growth of memory refused. Last come the lints and the
layout, if their tools are installed.
"""

import itertools
import os
import re
import shutil
import subprocess

import pytest
from field_lines import cases, word as word_of
from library_requests import asked_of, digests_word, requests
from programs import RELEASE, TOP, built_refusing
from tally import fail_if

pytestmark = pytest.mark.skipif(
    not shutil.which("cargo") or subprocess.run(["cargo", "--version"], capture_output=True).returncode != 0, reason="cargo is not installed"
)

CRATE = TOP / "bindings" / "rust"
RESULT = re.compile(r"^test result: \w+\. (\d+) passed; (\d+) failed;", re.M)
FAULT, END = "Error: out of memory\n", "memory allocation of "  # of a call, and of what Rust itself does for the program
SECONDS = 600
GROWTHS = 100  # of which some are the program's before the call, and some those of its printing


@pytest.fixture(scope="module")
def target(tmp_path_factory):
    """The folder for what is built."""
    return tmp_path_factory.mktemp("target")


@pytest.fixture(scope="module")
def example(target):
    """The example `fields`."""
    built = run(["cargo", "build", "--offline", "--example", "fields"], target)
    assert built.returncode == 0, f"status {built.returncode}: {built.stderr[-2000:]}"
    return target / "debug" / "examples" / "fields"


def run(words, target, **more):
    """Runs a command in the folder of the crate. What it builds goes into this folder."""
    library = os.environ.get("CMS_CANON_LIB_DIR", RELEASE)
    environment = {**os.environ, "CARGO_TARGET_DIR": str(target), "CMS_CANON_LIB_DIR": str(library), **{name: str(it) for name, it in more.items()}}
    return subprocess.run(words, cwd=CRATE, env=environment, capture_output=True, text=True, timeout=SECONDS)


def comparisons(asked):
    """Yields requests to compare findings by digests with those by the octets, for each message that is checked, and their answers."""
    checks = [(it.split(" "), wanted) for _, it, wanted in asked if it.startswith(("check ", "lines "))]
    for (_, limit, message, *_), wanted in checks:
        for given in itertools.product((None, b"abc"), repeat=2):
            words = [*map(word_of, given), *map(digests_word, given)]
            yield " ".join(["compare", limit, message, *words]), wanted if wanted.startswith("3 ") else "same"


def test_crate(target, tally, tmp_path):
    """Runs the tests of the crate, which make the requests of a file."""
    asked = asked_of(requests(), "pieces")
    lines = [*((request, wanted) for _, request, wanted in asked), *comparisons(asked)]
    (tmp_path / "requests").write_text("".join(f"{request}\n{wanted}\n" for request, wanted in lines))
    ended = run(["cargo", "test", "--offline", "--no-fail-fast"], target, CMS_CANON_REQUESTS=tmp_path / "requests")
    results = RESULT.findall(ended.stdout)
    tally.add(sum(int(passed) for passed, _ in results))
    if ended.returncode != 0 or not results:
        tally.count("cargo test", f"status {ended.returncode}: {(ended.stdout + ended.stderr)[-3000:]}")


def test_fields(target, example, tally, tmp_path):
    message, content = tmp_path / "message", tmp_path / "content"
    for case in cases():
        message.write_bytes(case.message)
        content.write_bytes(case.detached or b"")
        ended = run([example, message, *([content] if case.detached is not None else [])], target)
        printed = (ended.stdout + ended.stderr).splitlines()
        pairs = [*zip(case.lines, printed), (f"{len(case.lines)} lines", f"{len(printed)} lines")]
        first = next(f"{one[:200]!r}, and {other[:200]!r} came" for one, other in pairs if one != other or one == pairs[-1][0])
        wanted = (3 if case.lines[0].startswith("refused") else 0, case.lines)
        tally.count(case.name, "" if (ended.returncode, printed) == wanted else f"wanted {first}, status {ended.returncode}")


def test_growths(target, example, tally):
    """Refuses each growth of memory in turn: the example prints all fields, or says that memory ran out.

    A growth that ends the program may be one of its own or one of the crate: this cannot be seen here. The crate's test memory.rs
    refuses those of the crate alone, and fails if one of them ends the program.
    """
    if not tally.has("gcc", "refused growths"):
        return
    refusing, words = f"{built_refusing().name}/refusing.so", [example, TOP / "examples" / "message.ber"]
    whole, faults = run(words, target).stdout, 0
    for growth in range(1, GROWTHS + 1):
        ended = run(words, target, LD_PRELOAD=refusing, REFUSED_GROWTH=growth, REFUSED_FOR="/fields")
        faults += ended.stderr == FAULT
        is_fault = ended.returncode != 0 and not ended.stdout and any(it in ended.stderr for it in (FAULT, "OutOfMemory", END))
        is_right = is_fault or (ended.returncode, ended.stdout) == (0, whole)
        tally.count(f"growth {growth} refused", "" if is_right else f"status {ended.returncode}, {ended.stderr[-300:]}")
    tally.count("growths of the call refused", "" if faults > 1 else "none is an error of it")


@pytest.mark.parametrize("words", [["fmt", "--check"], ["clippy", "--offline", "--all-targets", "--", "-D", "warnings"]], ids=["fmt", "clippy"])
def test_lint(target, words):
    """The code has the layout of `cargo fmt`, and no complaint of `cargo clippy`."""
    if run(["cargo", words[0], "--version"], target).returncode != 0:
        pytest.skip(f"cargo {words[0]} is not installed")
    ended = run(["cargo", *words], target)
    fail_if("" if ended.returncode == 0 else f"status {ended.returncode}: {(ended.stdout + ended.stderr)[-2000:]}")
