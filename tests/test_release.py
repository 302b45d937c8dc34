"""Compares what is released, in dist/, with what was just proved and built, and tries ./cms-canon as a fresh clone has it.

--built=FOLDER names a copy of this repository in which the crates were proved and built. What a release of it would be is written to
out/candidate, from where scripts/release takes it. For other processors than this one's the last crates are checked and compiled here, by
scripts/cross, and of that scripts/module makes the WebAssembly module.

- For each target dist/ is made from these sources, and each of its files has the SHA-256 that its MANIFEST names.
- If the kit, `strip`, `objcopy` and what is linked with are those that made dist/, each file is that of the candidate, octet for octet. Else a
  line says so, and the released program is tried with the vectors.
- README.md has no number left to fill in.
- In a copy of the repository, with no `rt` on the PATH, ./cms-canon answers at once; it does not run a released program that was
  altered or that is made from other sources. What it does around a build is tried with a command `rt` that proves nothing.
"""

import re
import shutil
import subprocess
import sys
import time
from pathlib import Path

import pytest
from checked_crates import Crate
from machines import tools_without
from packages.crates import crates_in
from packages.targets import NATIVE, TARGETS
from programs import RELEASE, SMALLEST, TOP, octets_of, read_vectors
from tally import count, fail_if

pytestmark = pytest.mark.release

DIST, CANDIDATE = TOP / "dist", TOP / "out" / "candidate"
MODULE = "wasm32"  # its folder
NO_TOOL = 69  # the status of scripts/cross and scripts/module
AGAIN = "run scripts/release and commit dist/"
PARTS = ("cms-canon", "scripts", "bindings", "crates.txt", "crates", "dist", "runtime")  # what ./cms-canon rests on
AT_ONCE = 1.0  # seconds
ATTEMPTS = 10  # since a disk that is busy can take longer than that
VECTOR = read_vectors()[SMALLEST]
OCTETS, WANTED = octets_of(VECTOR, "input"), octets_of(VECTOR, "output")


def run(*words, **how):
    return subprocess.run([str(it) for it in words], capture_output=True, **how)


def values_of(manifest):
    """Returns the lines `NAME: VALUE` of a MANIFEST, and its digests by the names of the files."""
    lines = manifest.read_text(encoding="ascii").splitlines()
    values = dict(line.split(": ", 1) for line in lines if ": " in line)
    return values, dict(reversed(line.split("  ", 1)) for line in lines if "  " in line)


# ---- dist/ and the candidate

def build_library(built):
    """Builds the library for C over the libraries that `rt ci` built: of a static library it proves all and builds nothing."""
    kit = Path(run("rt", "doc").stdout.decode().strip()).parent
    rattle, _, *words = Crate("cms_c", crates_in(TOP / "crates.txt"), built, kit).words
    how = ["--links", "cms_c=", "--crate-type", "staticlib", "--toolchain", kit / "toolchain", "--backend", "llvm"]
    return run(rattle, "build", *words, *how, "-o", "out/libcms_c.a", cwd=built / "crates" / "cms_c", stdin=subprocess.DEVNULL)


def assembled(built, target, tally):
    """Makes the candidate for a target, and returns what its MANIFEST says, or nothing."""
    for crate in (TOP / "crates").iterdir():
        for part in ("src", "specs", "proofs"):
            if (built / "crates" / crate.name).exists() and (crate / part).exists():
                if run("diff", "-rq", crate / part, built / "crates" / crate.name / part).returncode != 0:
                    return count("candidate", f"{crate.name}/{part} was edited while it was proved")
    shutil.rmtree(CANDIDATE / target, ignore_errors=True)
    for step in steps_for(target):
        made = step(built)
        if made.returncode == NO_TOOL:
            return tally.skip("candidate", made.stderr.decode().strip())
        if made.returncode != 0:
            return count("candidate", f"status {made.returncode} of {made.args}: {(made.stdout + made.stderr).decode(errors='replace')[-1000:]}")
    count("candidate")
    return values_of(CANDIDATE / target / "MANIFEST")


def steps_for(target):
    """Returns what makes the candidate for a target, each with what was built. The module is made of what was compiled for ARM."""
    if target == MODULE:
        return [lambda built: run(TOP / "scripts" / "module", built, CANDIDATE / target)]
    compile_for = build_library if target == NATIVE else lambda built: run(TOP / "scripts" / "cross", built)
    return [compile_for, lambda built: run(TOP / "scripts" / "assemble", target, built, CANDIDATE / target)]


def test_readme():
    is_left = re.search(r"\bEDITS\b", (TOP / "README.md").read_text(encoding="utf-8"))
    fail_if("EDITS is still where a number is to be filled in" if is_left else "")


def try_released(built):
    """Tries the released program with the vectors."""
    words = ["-m", "pytest", "-q", "tests/test_vectors.py", f"--program={RELEASE / 'cms-canon'}", f"--built={built}"]
    ended = run(sys.executable, *words, cwd=TOP)
    last = ended.stdout.decode().splitlines()[-1:]
    counted = re.fullmatch(r"[1-9]\d* passed, 0 failed.*", last[0] if last else "")
    count("vectors on the released program", "" if counted and ended.returncode == 0 else f"status {ended.returncode}, ended in {last}")


@pytest.mark.parametrize("target", [*TARGETS, MODULE])
def test_released(built, tally, target):
    candidate, released = assembled(built, target, tally), DIST / target
    if not (released / "MANIFEST").exists():
        return count("released", f"there is no {released / 'MANIFEST'}: {AGAIN}")
    values, digests = values_of(released / "MANIFEST")
    for name in digests:
        kept = run("sha256sum", released / name).stdout.decode().split(" ")[0]
        count(f"released/{name}", "" if kept == digests[name] else f"its SHA-256 is not that of its MANIFEST: {AGAIN}")
    if candidate is None:
        return
    made, made_digests = candidate
    count("sources", "" if made["sources"] == values["sources"] else f"dist/ is made from other sources: {AGAIN}")
    count("what is linked", "" if made.get("runtime") == values.get("runtime") else f"dist/ is made with other C: {AGAIN}")
    tools = [it for it in ("kit", "strip", "objcopy", "libc", "libgcc", "binaryen") if made.get(it) != values.get(it)]
    if tools:
        tally.skip("octets", "dist/ is made with " + "; ".join(f"{values.get(it)}, and this is {made.get(it)}" for it in tools))
        return try_released(built) if target == NATIVE else None
    count("files", "" if {*digests} == {*made_digests} else f"the files of dist/ are not those of a release: {AGAIN}")
    for name in sorted({*digests} & {*made_digests}):
        same = (released / name).read_bytes() == (CANDIDATE / target / name).read_bytes()
        count(f"octets/{name}", "" if same else f"the file in dist/ is not what was proved and built: {AGAIN}")


class Clone:
    """A copy of the repository, in which there is no build, and no `rt` on the PATH."""

    def __init__(self, folder):
        self.top = folder / "clone"
        self.top.mkdir()
        for part in PARTS:
            source, to = TOP / part, self.top / part
            if source.is_dir():
                shutil.copytree(source, to, ignore=shutil.ignore_patterns("out", "must-fail"))
            else:
                shutil.copy(source, to)
        self.tools = tools_without(folder / "tools", "rt", "/usr/bin:/bin")

    def convert(self, **environment):
        """Returns the output, the status, what is said on the standard error, and the seconds."""
        began = time.monotonic()
        ended = run(self.top / "cms-canon", "convert", input=OCTETS, env={"PATH": str(self.tools), **environment})
        return ended.stdout, ended.returncode, ended.stderr.decode(), time.monotonic() - began


@pytest.fixture
def clone(tmp_path):
    """A copy in the state of a fresh clone."""
    return Clone(tmp_path)


def is_refused(name, clone, says, **environment):
    output, status, said, _ = clone.convert(**environment)
    is_so = (output, status) == (b"", 69) and says in said and "rt is not on the PATH" in said
    count(f"./cms-canon/{name}", "" if is_so else f"status {status}, said {said!r}")


def is_right(name, clone, is_first=False):
    for _ in range(ATTEMPTS):
        if is_first:
            shutil.rmtree(clone.top / "out", ignore_errors=True)
        output, status, said, seconds = clone.convert()
        print(f"./cms-canon, {name}: {seconds * 1000:.0f} ms")
        if seconds < AT_ONCE:
            break
    is_so = (output, status, said) == (WANTED, 0, "") and seconds < AT_ONCE
    count(f"./cms-canon/{name}", "" if is_so else f"status {status}, said {said!r}, {seconds:.2f} s")


def test_calls(clone, tally):
    is_right("the first call", clone, is_first=True)
    is_right("a later call", clone)
    is_refused("asked for the sources", clone, "CMS_CANON_FROM_SOURCE is set", CMS_CANON_FROM_SOURCE="1")


def test_changes(clone, tally):
    is_right("before a change", clone)
    source = clone.top / "crates" / "cms_tlv" / "src" / "header.rt"
    before = source.read_bytes()
    source.write_bytes(before + b"// a change\n")
    is_refused("a changed source", clone, "the sources are not those that it was made from")
    is_refused("a changed source, once more", clone, "the sources are not those that it was made from")
    source.write_bytes(before)
    is_right("the source as it was", clone)
    source.unlink()
    is_refused("a missing source", clone, "the sources are not those that it was made from")
    source.write_bytes(before)
    program = clone.top / "dist" / "x86_64-linux" / "cms-canon"
    altered = bytearray(program.read_bytes())
    altered[len(altered) // 2] ^= 1
    program.write_bytes(altered)
    is_refused("an altered program", clone, "its SHA-256 is not that of its MANIFEST")


# In the place of the Rattle kit: what it is to build is the released program.
KIT_FOR_TESTS = """#!/bin/sh
mkdir -p out
[ "$1" != "$REFUSED" ] || exit 1
[ "$1" != run ] || cp "$RELEASED" out/cms_canon_program
"""


def test_builds(clone, tally):
    """Tries what ./cms-canon does around a build from the sources, with a command `rt` that proves nothing."""
    kit = clone.tools.parent / "kit"
    kit.mkdir()
    (kit / "rt").write_text(KIT_FOR_TESTS, encoding="ascii")
    (kit / "rt").chmod(0o755)
    released = clone.top / "dist" / "x86_64-linux" / "cms-canon"
    how = {"CMS_CANON_FROM_SOURCE": "1", "PATH": f"{kit}:{clone.tools}", "RELEASED": str(released)}
    for refused in ("lib", "run"):
        output, status, said, _ = clone.convert(REFUSED=refused, **how)
        is_so = (output, status) == (b"", 70) and "could not be built" in said
        count(f"./cms-canon/a build whose {refused} fails", "" if is_so else f"status {status}, said {said!r}")
    output, status, said, _ = clone.convert(**how)
    is_so = (output, status) == (WANTED, 0) and said.endswith("cms-canon: built\n")
    count("./cms-canon/a build", "" if is_so else f"status {status}, said {said!r}")
    output, status, said, _ = clone.convert(**how)
    count("./cms-canon/what was built", "" if (output, status, said) == (WANTED, 0, "") else f"status {status}, said {said!r}")
