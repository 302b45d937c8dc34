"""Asks the released library what the program is asked, and for parts of signers, from C, Python and Java.

Each caller is built against dist/ and answers one request a line, made from the vectors, and from messages made at random whose signers carry
countersignatures: tests/c/answer.c by the header and the static library, bindings/python/tests/answer.py by the package that pip installs, without a
network, into a folder of its own, and bindings/java/test/Answer.java by JNA. Then come the checks that each caller has of its own: of C,
tests/c/calls.c, also under valgrind and the address sanitizer, all requests and some about deep messages on a stack as small as the header
allows, and the names in the libraries; of Python, bindings/python/tests/test_calls.py, and the sample of bindings/python/README.md, if the package
`cryptography` is installed; of Java, by JUnit, the tests in bindings/java/test/cmscanon: StreamsTest with little memory, and CallCountsTest and
GrowthsTest with libraries in front that count calls and refuse memory.
"""

import itertools
import json
import os
import re
import shutil
import subprocess

import pytest
from callers import C_SOURCES, SECONDS, Failed, add_counts, compare, run
from elements import contents_of, element, message as message_of
from field_lines import cases, word as word_of
from library_requests import SHORT, asked_of, extents, request, requests, requests_of_deep_messages
from needs import needs
from programs import RELEASE, TOP, built_refusing, shortened
from tally import fail_if

JNA = "/usr/share/java/jna.jar"
JUNIT = "/usr/share/java/junit-platform-console-standalone.jar"
JARS = ":".join([JNA, *(f"/usr/share/java/{it}.jar" for it in (
    "junit-jupiter-api", "junit-jupiter-params", "junit-platform-commons", "apiguardian-api", "opentest4j"))])
PYTHON_TESTS = TOP / "bindings" / "python" / "tests"
ARCHIVE = RELEASE / "libcms_canon.a"
WARNINGS = ["-std=c11", "-Wall", "-Wextra", "-Werror", "-g", "-I", str(RELEASE)]
WATCHED = ["valgrind", "--quiet", "--error-exitcode=9", "--leak-check=full"]
PYTHON = shutil.which("python3")


# ---- C

@pytest.fixture(scope="module")
def c(tmp_path_factory):
    """A folder with what is built of each source in C."""
    folder = tmp_path_factory.mktemp("c")
    for source, flags, program in (("answer", [], "answer"), ("calls", [], "calls"), ("calls", ["-fsanitize=address,undefined"], "guarded")):
        run(["gcc", *WARNINGS, *flags, C_SOURCES / f"{source}.c", ARCHIVE, "-pthread", "-o", folder / program])
    return folder


def asked_of_c():
    return asked_of(requests(), "pieces", "lines", "jobs")


@needs("gcc")
def test_c(c, tally):
    compare(tally, "C", [*asked_of_c(), *extents()], [c / "answer"])


@needs("gcc")
def test_extents_of_messages_that_are_cut(c, tally):
    """Octets are missing as long as the message is not whole, and none are read past its end."""
    asked = [(name, words[: -2 * cut]) for name, words, _ in extents() for cut in (1, 2, 3) if "after it" not in name]
    lines = run([c / "answer"], "".join(f"{words}\n" for _, words in asked)).splitlines()
    for (name, words), came in zip(asked, lines, strict=True):
        length = len(words.split(" ")[2]) // 2
        tally.count(name, "" if came.startswith(f"0 {length} ") else f"wanted 0 after {length} octets, came {came}")


@needs("gcc")
@pytest.mark.parametrize("words", [["calls"], ["guarded"], pytest.param([*WATCHED, "calls"], marks=needs("valgrind"))], ids=" ".join)
def test_calls_of_c(c, tally, words):
    *before, program = words
    add_counts(tally, " ".join(words), run([*before, c / program]))


@needs("gcc", "valgrind")
def test_c_under_valgrind(c, tally):
    short = [it for it in asked_of_c() if len(it[1]) <= 2 * SHORT]
    compare(tally, "C under valgrind", short, [*WATCHED, c / "answer"])


@needs("gcc")
@pytest.mark.parametrize("name, content", [("short", b"abc."), ("long", b"." * 70_000)], ids=["short", "long"])
def test_rooms(tally, tmp_path, name, content):
    """Rooms for the DER are as large as it, larger and smaller; and each growth of the library's memory is refused. Long content is lent until it is
    copied into the room."""
    program, library = tmp_path / "room", tmp_path / "libcms_canon.so.1"
    library.symlink_to(RELEASE / "libcms_canon.so")
    run(["gcc", *WARNINGS, C_SOURCES / "room.c", library, f"-Wl,-rpath,{tmp_path}", "-o", program])
    ber, der = message_with(content)
    for room, due in ((len(der) + 9, f"0 {len(der)} {len(der)}"), (len(der), f"0 {len(der)} {len(der)}"),
                      (len(der) - 1, f"6 {len(der)} 0"), (0, f"6 {len(der)} 0")):
        came = run([program, str(room)], ber.hex())
        tally.count(f"C/{name} content into a room of {room} octets", "" if came == due else f"printed {came}, due is {due}")
    # Each growth is refused in turn, up to the first number that the library does not reach: nothing is written without memory.
    for growth in itertools.count(1):
        came = run([program, str(len(der))], ber.hex(), env=refusing_growth(growth))
        if came.startswith("0 "):
            break
        tally.count(f"C/{name} content, growth {growth} refused", "" if came == "5 0 0" else f"printed {came}, due is 5 0 0")
    tally.count(f"C/{name} content, growths refused", "" if growth > 2 else f"only {growth - 1}")


def message_with(content):
    encapsulated = element(0x30, bytes.fromhex("06092a864886f70d010701") + element(0xA0, element(0x04, content)))
    der = message_of(bytes.fromhex("0201013100"), encapsulated, b"\x31\x00")
    return b"\x30\x80" + contents_of(der) + b"\0\0", der


def refusing_growth(number):
    """Returns the environment in which the library is refused this growth."""
    return {**os.environ, "LD_PRELOAD": f"{built_refusing().name}/refusing.so", "REFUSED_GROWTH": str(number), "REFUSED_FOR": "/libcms_canon"}


@needs("gcc")
def test_small_stack(c, tally):
    """Asks on a stack as small as the header says suffices: what comes is the same as on a large one."""
    answer = c / "answer"
    stack = re.search(r"^#define CMS_CANON_STACK (\d+)$", (TOP / "bindings" / "c" / "cms_canon.h").read_text(), re.M)[1]
    deep = "".join(f"{it}\n" for it in requests_of_deep_messages())
    wanted = run([answer], deep).splitlines()
    for number, reason in ((12, "SegmentsTooDeep"), (14, "OpaqueTooDeep"), (19, "CountersignTooDeep")):
        tally.count(f"C/deep messages, E{number}", "" if any(f" E{number} {reason} " in it for it in wanted) else "none is refused so")
    tally.count("C/deep messages", "" if any(it.startswith("0 ") and len(it) > 2000 for it in wanted) else "none is accepted")
    for name, given in (("deep messages", deep), ("all requests", "".join(f"{it}\n" for _, it, _ in asked_of_c()))):
        try:
            differs = "" if run([answer, stack], given) == run([answer], given) else "other answers"
        except Failed as why:
            differs = str(why)[-200:]
        tally.count(f"C/{name} on a stack of {stack} octets", differs)


@needs("nm")
def test_symbols(tally):
    """The names that a program sees of the libraries are those of the calls in the header."""
    calls = sorted(re.findall(r"^(?:void|uint32_t) (\w+)\(", (RELEASE / "cms_canon.h").read_text(), re.M))
    for library, words in (("libcms_canon.a", []), ("libcms_canon.so", ["--dynamic"])):
        lines = run(["nm", "--extern-only", "--defined-only", "--format=posix", *words, RELEASE / library]).splitlines()
        names = sorted(it.split()[0] for it in lines if " " in it)
        tally.count(f"C/the names in {library}", "" if names == calls else f"they are {names}, and the calls are {calls}")


# ---- Python

@pytest.fixture(scope="module")
def python(tmp_path_factory):
    """The Python of an environment into which pip installs the package, without a network."""
    home = tmp_path_factory.mktemp("python")
    try:
        run([PYTHON, "-m", "venv", home])
    except Failed as why:
        pytest.skip(f"a folder of its own for packages cannot be made: {why}")
    run([home / "bin" / "pip", "install", "--no-index", "--disable-pip-version-check", TOP / "bindings" / "python"])
    return home / "bin" / "python"


def test_python(python, tally, tmp_path):
    compare(tally, "Python", asked_of(requests(), "read", "digests"), [python, PYTHON_TESTS / "answer.py"], cwd=tmp_path)
    said, wanted = (run(words) for words in ([python, "-c", SAY_VERSION], [RELEASE / "cms-canon", "--version"]))
    tally.count("Python/the version", "" if said == wanted else f"the package says {said!r}, and the program {wanted!r}")


def test_calls_of_python(python, tally):
    for name in json.loads(run([python, "-c", LIST_TESTS, PYTHON_TESTS])):
        try:
            run([python, "-m", "unittest", name], cwd=PYTHON_TESTS)
            tally.count(f"Python/{name}")
        except Failed as why:
            tally.count(f"Python/{name}", str(why))


def test_sample_of_python(python):
    """The sample of README.md needs `cryptography`, which the environment does not have."""
    if subprocess.run([PYTHON, "-c", "import cryptography"], capture_output=True).returncode != 0:
        pytest.skip(f"{PYTHON} does not have cryptography")
    installed = run([python, "-c", "import sysconfig; print(sysconfig.get_path('purelib'))"]).strip()
    fail_if(run([PYTHON, PYTHON_TESTS / "example.py"], env={**os.environ, "PYTHONPATH": installed}))


SAY_VERSION = "import cms_canon; print('cms-canon', cms_canon.__version__)"
LIST_TESTS = """
import json, sys, unittest
sys.path.insert(0, sys.argv[1])
print(json.dumps([test.id() for case in unittest.defaultTestLoader.loadTestsFromName("test_calls") for test in case]))
"""


# ---- Java

@pytest.fixture(scope="module")
def java(tmp_path_factory):
    """A folder with the classes."""
    folder = tmp_path_factory.mktemp("java")
    sources = [it for it in (TOP / "bindings" / "java").glob("**/*.java") if it.name != "module-info.java"]
    run(["javac", "-Xlint:all", "-Werror", "-d", folder, "-cp", JARS, *sources])
    return folder


def java_words(classes, library, *options):
    return ["java", *options, f"-Djna.library.path={library}", "-cp", f"{classes}:{JARS}:{JUNIT}"]


def judge_class(tally, name, words, **how):
    """Has JUnit run the tests of a class, and counts them."""
    junit = ["org.junit.platform.console.ConsoleLauncher", "--disable-banner", "--disable-ansi-colors", "--details=summary", "--fail-if-no-tests"]
    ended = subprocess.run([*words, *junit, "--select-class", f"cmscanon.{name}"], capture_output=True, text=True, timeout=SECONDS, **how)
    counts = {it: int(number) for number, it in re.findall(r"\[ *(\d+) tests (\w+) *\]", ended.stdout)}
    if ended.returncode != 0 or not counts.get("found") or counts["successful"] != counts["found"]:
        return tally.count(name, f"status {ended.returncode}, {counts}: {(ended.stdout + ended.stderr)[-3000:]}")
    tally.add(counts["successful"])


needs_java = needs("java", "javac", JNA, JUNIT)


@needs_java
def test_java(java, tally):
    asked = asked_of(requests(), "pieces", "digests")
    for name, message, detached, lines in cases():  # as objects
        answer = f"3 {lines[0]}" if lines[0].startswith("refused") else f"0 {'; '.join(lines)}"
        asked.append((name, request("fields", message, word_of(detached)), answer))
    rest = compare(tally, "Java", asked, [*java_words(java, RELEASE), "Answer"])
    tally.count("Java/four threads at once", "" if rest == ["threads: 0 differ"] else f"printed {shortened(' '.join(rest).encode())}")


@needs_java
@pytest.mark.parametrize("name, options", [("CallsTest", []), ("MessagesTest", []), ("AttributesTest", []), ("StreamsTest", ["-Xmx64m"])])
def test_class_of_java(java, tally, name, options):
    judge_class(tally, name, java_words(java, RELEASE, *options))


@needs_java
@needs("gcc")
def test_java_with_a_library_in_front(java, tally, tmp_path):
    """One class counts calls, with a library in front that counts them, and for another one a growth is refused."""
    real = tmp_path / "libcms_canon.so.1"
    real.symlink_to(RELEASE / "libcms_canon.so")
    linked = ["-Wl,--no-as-needed", real, "-Wl,-rpath,$ORIGIN"]
    counting = TOP / "bindings" / "java" / "test" / "counting.c"
    run(["gcc", "-shared", "-fPIC", *WARNINGS, counting, *linked, "-o", tmp_path / "libcms_canon.so"])
    judge_class(tally, "CallCountsTest", java_words(java, tmp_path))
    judge_class(tally, "GrowthsTest", java_words(java, RELEASE), env=refusing_growth(1))
