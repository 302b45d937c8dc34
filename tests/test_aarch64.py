"""Tries what is released for ARM, under qemu, and the C in runtime/ that it rests on. No machine with such a processor is at hand.

- runtime/ does for x86-64 what the kit's own objects do, does the same for ARM, and what it does is tried: changed C is found wrong.
- The command gives what each vector wants, as tests/test_vectors.py has it. Of the growths of memory some are refused, at random.
- The library for C, static and shared, returns what tests/test_libraries.py wants, passes tests/c/calls.c, and says so if it is out of memory.
- On a fresh Debian 12 for arm64 the packages for Debian are installed, verified and used, and the wheel by pip.
"""

import os
import random
import shutil
import subprocess
import time
from concurrent.futures import ThreadPoolExecutor
from pathlib import Path

import judges
import programs
import pytest
from callers import C_SOURCES, add_counts, compare, run
from library_requests import SHORT, asked_of, requests
from machines import Debian
from needs import needs
from package_tools import VERSION, why_failed
from programs import SMALLEST, TOP, octets_of, read_vectors
from tally import differing

RELEASED, RUNTIME = TOP / "dist" / "aarch64-linux", TOP / "runtime"
QEMU, GCC = "qemu-aarch64-static", "aarch64-linux-gnu-gcc"
SYSROOT = "/usr/aarch64-linux-gnu"
UNDER_QEMU = [QEMU, "-L", SYSROOT]
WARNINGS = ["-std=gnu11", "-Wall", "-Wextra", "-Werror", "-O1"]
PARTS_OF_RUNTIME = ("heap", "arguments", "errno")
WORDS = ["words", "", "three"]  # as tests/c/runtime.c has them
GROWTHS = 100  # of the first of these some are refused
SECONDS_OF_GROWTHS = 240

pytestmark = pytest.mark.tree
needs_arm = needs(QEMU, GCC)


# ---- runtime/

WRONG = {  # C that is wrong: the file, what is changed, and to what
    "no octets are none": ("heap", "malloc(octets ? octets : alignment)", "malloc(octets)"),
    "no octets of another size are none": ("heap", "realloc(at, octets ? octets : alignment)", "realloc(at, octets)"),
    "there always is memory": ("heap", "at != 0, at", "1, at"),
    "a refusal is null": ("heap", "at ? at : &nothing", "at"),
    "another size is new memory": ("heap", "realloc(at, octets ?", "malloc(octets ?"),
    "what is kept is the size": ("heap", "realloc(at, octets ? octets", "realloc(at, kept ? kept"),
    "memory twice": ("heap", "return tried(malloc(octets ? octets : alignment));",
                     "static void *last; return tried(last ? last : (last = malloc(octets ? octets : alignment)));"),
    "a word less": ("arguments", "return count;", "return count - 1;"),
    "a word after the last": ("arguments", "number >= count ||", "number > count + 1 ||"),
    "a word that just fits does not": ("arguments", "length == room", "length + 1 == room"),
    "an octet too many": ("arguments", "length == room", "length > room"),
    "the 0 at the end": ("arguments", "return (long)length;", "to[length] = 0; return (long)length;"),
    "no room is no word": ("arguments", "NO_ROOM = -2", "NO_ROOM = -1"),
    "errno is not set": ("errno", "*__errno_location() = number", "(void)number"),
    "one errno for all": ("errno", "return *__errno_location();", "static int kept; return kept ? kept : (kept = *__errno_location());"),
}


def tried(compiler, objects, folder, *before, warnings=WARNINGS):
    """Compiles tests/c/runtime.c with these objects or sources, and returns how it ends and what it prints."""
    program = folder / "runtime"
    run([compiler, *warnings, "-Wl,--wrap=malloc,--wrap=realloc", "-pthread", C_SOURCES / "runtime.c", *objects, "-o", program])
    ended = subprocess.run([*before, program, *WORDS], capture_output=True, text=True, timeout=60)
    return ended.returncode, ended.stdout


def sources(folder=RUNTIME):
    return [folder / f"{it}.c" for it in PARTS_OF_RUNTIME]


def objects_of_kit(folder):
    """Returns the kit's objects for x86-64 in the place of each source of runtime/."""
    kit = Path(run(["rt", "doc"]).strip()).parent
    for archive in ("liblibc_c.a", "libos_c.a"):
        run([kit / "toolchain" / "bin" / "llvm-ar", "x", kit / "c" / archive], cwd=folder)
    return [folder / f"{it}.pic.o" for it in ("heap", "args", "errno")]


@needs("gcc")
def test_runtime(tally, tmp_path):
    status, wanted = tried("gcc", sources(), tmp_path)
    add_counts(tally, "runtime/", wanted)
    tally.count("runtime/: status", differing(0, status))
    if tally.has("rt", "the kit's own objects"):
        tally.count("the kit's own objects", differing((0, wanted), tried("gcc", objects_of_kit(tmp_path), tmp_path)))
    if tally.has(QEMU, "runtime/ on ARM") and tally.has(GCC, "runtime/ on ARM"):
        tally.count("runtime/ on ARM", differing((0, wanted), tried(GCC, sources(), tmp_path, *UNDER_QEMU)))


@needs("gcc")
@pytest.mark.parametrize("name", WRONG)
def test_wrong_runtime(tmp_path, name):
    file, old, new = WRONG[name]
    for source in sources():
        text = source.read_text(encoding="ascii")
        assert source.stem != file or text.count(old) == 1
        (tmp_path / source.name).write_text(text.replace(old, new) if source.stem == file else text, encoding="ascii")
    status, said = tried("gcc", sources(tmp_path), tmp_path, warnings=["-std=gnu11", "-w", "-O1"])
    assert status != 0 and (status < 0 or "NOT as due" in said), "it is not found"


# ---- the command

@pytest.fixture
def command(tmp_path, monkeypatch):
    """The command, as a program of this machine. What refuses it memory, reads and writes is given to it, and not to qemu."""
    wrapper, refusing = tmp_path / "cms-canon", tmp_path / "refusing.so"
    wrapper.write_text(f'#!/bin/sh\nexec {" ".join(UNDER_QEMU)} {RELEASED / "cms-canon"} "$@"\n', encoding="ascii")
    wrapper.chmod(0o755)
    run([GCC, "-shared", "-fPIC", "-Wall", C_SOURCES / "refusing.c", "-o", refusing])

    def settings(how):
        return ["QEMU_SET_ENV=" + ",".join([f"LD_PRELOAD={refusing}", *(f"{name}={it}" for name, it in how.items())])]

    monkeypatch.setattr(programs, "settings", settings)
    return wrapper


def some_growths(seed):
    """Returns what takes the place of the trial of all growths: the first is refused, and one at random, as long as there is time."""
    chosen, began = random.Random(seed), time.monotonic()

    def complaint_of_growths(run_without, done, stopped):
        for call in (1, chosen.randrange(2, GROWTHS)) if time.monotonic() - began < SECONDS_OF_GROWTHS else ():
            came = run_without(call)
            if came not in ((done, *stopped) if call > 1 else stopped):
                return f"growth {call} refused, seed {seed}: {came}"
        return ""

    return complaint_of_growths


@needs_arm
def test_vectors_under_qemu(command, tally, monkeypatch):
    seed = random.randrange(1 << 32)
    print(f"growths are refused at random by the seed {seed}")
    monkeypatch.setattr(programs, "complaint_of_growths", some_growths(seed))
    asked = {name: vector for name, vector in read_vectors().items() if judges.is_of_command(vector)}

    def judged(vector):
        return judges.JUDGES[judges.kind_of(vector)](command, vector)

    with ThreadPoolExecutor(len(os.sched_getaffinity(0))) as pool:
        for name, complaint in zip(asked, pool.map(judged, asked.values())):
            tally.count(f"ARM/{name}", complaint)
    for name, script, given, wanted in judges.own_checks():
        came = programs.run(["sh", "-c", script, command], octets_of(read_vectors()[given], "input") if given else b"")
        tally.count(f"ARM/{name}", programs.complaint(wanted, came))


# ---- the library for C

@needs_arm
@pytest.mark.parametrize("library", ["libcms_canon.a", "libcms_canon.so"])
def test_library(tally, tmp_path, library):
    (tmp_path / "libcms_canon.so.1").symlink_to(RELEASED / "libcms_canon.so")
    linked = RELEASED / library if library.endswith(".a") else tmp_path / "libcms_canon.so.1"
    for name in ("answer", "calls"):
        words = [GCC, "-std=c11", "-Wall", "-Wextra", "-Werror", "-I", RELEASED, C_SOURCES / f"{name}.c", linked, "-pthread"]
        run([*words, f"-Wl,-rpath,{tmp_path}", "-o", tmp_path / name])
    compare(tally, f"ARM/{library}", asked_of(requests(), "pieces", "lines", "jobs"), [*UNDER_QEMU, tmp_path / "answer"])
    add_counts(tally, f"ARM/{library}, calls.c", run([*UNDER_QEMU, tmp_path / "calls"]))


@needs_arm
def test_library_without_memory(tally, tmp_path):
    """Sends requests, chosen at random, each with a growth refused: the library returns what is right, or says that it is out of memory."""
    seed = random.randrange(1 << 32)
    print(f"growths are refused at random by the seed {seed}")
    library, refusing = tmp_path / "libcms_canon.so.1", tmp_path / "refusing.so"
    library.symlink_to(RELEASED / "libcms_canon.so")
    run([GCC, "-shared", "-fPIC", "-Wall", C_SOURCES / "refusing.c", "-o", refusing])
    run([GCC, "-std=c11", "-I", RELEASED, C_SOURCES / "answer.c", library, "-pthread", f"-Wl,-rpath,{tmp_path}", "-o", tmp_path / "answer"])
    asked = random.Random(seed).choices([it for it in asked_of(requests(), "pieces", "lines", "jobs", "read") if len(it[1]) < SHORT], k=GROWTHS)
    stopped = 0
    for (name, words, wanted), growth in zip(asked, (1, 2, 3, 5, 8) * GROWTHS):
        faults = f"LD_PRELOAD={refusing},REFUSED_GROWTH={growth},REFUSED_FOR=/libcms_canon"
        came = run([*UNDER_QEMU, tmp_path / "answer"], f"{words}\n", env={**os.environ, "QEMU_SET_ENV": faults}).rstrip()
        stopped += came != wanted.rstrip()
        tally.count(f"ARM/{name}, growth {growth}, seed {seed}", "" if came.startswith("5") else differing(wanted.rstrip(), came))
    tally.count("ARM/some are stopped", "" if stopped else "none was")


# ---- a machine

# The processor's number in an ELF file, and a mask over what is not compared (Linux, Documentation/admin-guide/binfmt-misc.rst).
FORMAT = (r":qemu-aarch64:M::\x7fELF\x02\x01\x01\x00\x00\x00\x00\x00\x00\x00\x00\x00\x02\x00\xb7\x00"
          r":\xff\xff\xff\xff\xff\xff\xff\x00\xff\xff\xff\xff\xff\xff\xff\xff\xfe\xff\xff\xff:")
FORMATS = Path("/proc/sys/fs/binfmt_misc")
EXAMPLE = "examples/message.ber"
DER = "775ae1a53429e41657540f3eed96a76ed2cab8b85994bd7455b0c6903251161d  -\n"  # its SHA-256


@pytest.fixture
def runs_arm():
    """Has this machine's kernel run programs for ARM by qemu, if it does not yet."""
    if not (FORMATS / "register").exists():
        subprocess.run(["mount", "-t", "binfmt_misc", "binfmt_misc", FORMATS], capture_output=True)
    entry = FORMATS / "qemu-aarch64"
    if entry.exists():
        yield
        return
    try:
        (FORMATS / "register").write_text(f"{FORMAT}{shutil.which(QEMU)}:F", encoding="ascii")
    except OSError as error:
        pytest.skip(f"the kernel takes no other format of programs: {error}")
    yield
    entry.write_text("-1", encoding="ascii")


@needs_arm
@pytest.mark.skipif(os.geteuid() != 0, reason="it needs root")
def test_packages_of_arm(runs_arm, tally, tmp_path):
    """Installs what is for arm64 on a machine of its own, and uses it."""
    if why := Debian.why_not_here():
        pytest.skip(why)
    try:
        machine = Debian(tmp_path, architecture="arm64")
    except OSError as error:
        pytest.skip(f"there is no such machine: {error}")
    wanted = octets_of(read_vectors()[SMALLEST], "output")
    assert machine.succeed("dpkg --print-architecture && uname -m") == "arm64\naarch64\n"
    names = ("cms-canon", "libcms-canon1", "libcms-canon-dev", "python3-cms-canon")
    files = " ".join(f"./dist/packages/{it}_{VERSION}-1_arm64.deb" for it in names)
    tally.count("arm64/packages for Debian", why_failed(machine.run_as_root(f"apt-get install {files} python3-pip")))
    for what, words, output in (
        ("dpkg --verify", f"dpkg --verify {' '.join(names)}", ""),
        ("the command", "cms-canon --version", f"cms-canon {VERSION}\n"),
        ("./cms-canon", "./cms-canon --version", f"cms-canon {VERSION}\n"),
        ("conversion", f"cms-canon convert <{EXAMPLE} | sha256sum", DER),
        ("Python", "python3 -c 'import cms_canon; print(cms_canon.__version__)'", f"{VERSION}\n"),
    ):
        done = machine.run(words)
        tally.count(f"arm64/{what}", why_failed(done) or differing(output, done.output))
    tally.count("arm64/purge", why_failed(machine.run_as_root(f"apt-get purge {' '.join(names)}")))
    install = "pip install --break-system-packages --user --no-index --disable-pip-version-check"
    tally.count("arm64/the wheel", why_failed(machine.run(f"{install} dist/packages/cms_canon-{VERSION}-*_aarch64.whl")))
    given = octets_of(read_vectors()[SMALLEST], "input")
    script = f"import cms_canon; print(cms_canon.convert(bytes.fromhex('{given.hex()}')).hex(), cms_canon.__file__)"
    done = machine.run(f'python3 -c "{script}"')
    tally.count("arm64/a conversion by the wheel", why_failed(done) or differing(wanted.hex(), done.output.split(" ")[0]))
