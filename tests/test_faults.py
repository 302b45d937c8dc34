"""Lets each growth of memory, each read and each write of the built programs fail in turn: nothing is lost, half said or half written.

Each command is run on messages of the vectors, on messages that openssl made and on messages made at random:

- `growths`: the K-th growth of memory is refused, for each K until the last ones do no harm. Each time the command says that memory ran
  out, with status 5, and has written nothing; of messages one after another, those before the one in work.
- `reads`: the reader fails after each number of octets, all of them included: `read fault`, with status 4, and nothing is written. It
  fails once, so that a second try would succeed.
- `paces`: readers that give 1 or 3 octets at a time change nothing.
- `writes`: the writer fails after each number of octets; it takes 1, 3 or all octets at a time, or returns 0 in the end: `write fault
  after N`, with status 4, and the first N octets are written.
- `errors`: if nothing can be written to the standard error either, the status is the same.

The library program makes each call of the library that takes memory, and each of its growths is refused (`library`): `out of memory`,
and what the call was to append to is as it was. So does the library for C (`C`), and each call of its header (one_call.py). Each has to run
out of memory at least once. What they write if nothing fails is compared in the other tests.
"""

import os
import re
import shutil
import subprocess
import sys
import tempfile
from concurrent.futures import ThreadPoolExecutor
from functools import partial
from itertools import accumulate, count, product
from pathlib import Path
from typing import NamedTuple

import pytest
from calls import called
from generated_messages import MARK, beginning, request, response, signed_message
from programs import MOST_NEEDLESS_GROWTHS, RELEASE, TOP, WRITERS, Outcome, built_refusing, complaint_of_growths, first, octets_of, read_vectors
from tally import fail_if

AT_RANDOM = 6  # messages
LONGEST_AT_RANDOM = 400  # octets
SHORT = 60  # octets: of longer ones, some places alone are tried, among them the first and the last
PLACES = 11
SECONDS = 60  # no run may take longer
LIMIT = "16777216"

ROWS = [
    "conversions/indefinite-at-every-level", "conversions/segmented-content", "conversions/two-signers-first-order",
    "conversions/token-with-certificate-identifier", "conversions/request-explicit-false", "conversions/response-granted-with-token",
    "countersignatures/one-countersignature", "countersignatures/one-countersignature-in-ber", "countersignatures/four-deep",
]
BY_OPENSSL = [
    "real-messages/key-identifier-without-attributes-streamed", "real-messages/two-signers-streamed", "real-messages/reply-with-chain-sha256",
    "real-messages/reply-of-refusal", "real-messages/query",
]
FILES_OF_CALLS = ("conversions/token-with-certificate-identifier", "tst-infos/plain")
# What the library program says if memory is refused to the writer or the reader of its own, which collect octets in memory.
ITS_OWN = {"convert": b"write fault after 0\n", "at-hand": b"write fault after 0\n", **dict.fromkeys(("same", "times", "tst-info"), b"read fault\n")}
TIME = b"20261126140000.25Z"
SET = bytes.fromhex("318004020201020401010401010000")
EVERY = read_vectors()


class Case(NamedTuple):
    """A run of a program. While it works on a message of its input, or on what is after the last one, it says so in a fault's line."""

    name: str
    words: list
    octets: bytes
    works: tuple = (b"",)  # what it says of each, the last of them also of what is after the messages
    ends: tuple = ()  # of each message in the input
    ders: tuple = ()  # what it writes of each message before the next one is read; none if it writes all in the end


@pytest.fixture
def pool():
    """Threads, as many as there are processors, that make runs of programs with faults."""
    if not shutil.which("gcc"):
        pytest.skip("gcc is not installed")
    built_refusing()  # once, before there are threads
    with ThreadPoolExecutor(os.cpu_count()) as threads:
        yield threads


def path_of(folder, octets):
    handle, path = tempfile.mkstemp(dir=folder)
    with open(handle, "wb") as file:
        file.write(octets)
    return path


def run(words, path, errors=subprocess.PIPE, **how):
    """Runs a program on the octets of a file, with the faults of tests/c/refusing.c."""
    preload = {"LD_PRELOAD": f"{built_refusing().name}/refusing.so", **{name: str(it) for name, it in how.items()}}
    with open(path, "rb") as file:
        how = {"stdin": file, "stdout": subprocess.PIPE, "stderr": errors, "timeout": SECONDS, "close_fds": False}
        ran = subprocess.run(words, env={**os.environ, **preload}, **how)
    return Outcome(ran.stdout, ran.stderr or b"", ran.returncode)


def places_in(length):
    """Returns numbers below the length: all of them, or some if it is long."""
    if length <= SHORT:
        return range(length)
    return sorted({*range(PLACES), *range(0, length, length // PLACES + 1), *range(length - PLACES, length)})


# ---- judging a command

def in_work(at, ends):
    """Returns the number of the message in work at a place: those that end there are done."""
    return sum(end <= at for end in ends)


def work_of(case, i):
    return case.works[min(i, len(case.works) - 1)]


def judge_growths(case, path, whole):
    stopped_for_memory = [Outcome(b"".join(case.ders[:i]), b"out of memory\n", 5) for i in range(max(1, len(case.ders)))]
    return complaint_of_growths(lambda call: run(case.words, path, REFUSED_GROWTH=call), whole, stopped_for_memory)


@first
def judge_reads(case, path, whole):
    """What was written for the messages before the one in work is there, and the line says which that is."""
    for at in [*places_in(len(case.octets)), len(case.octets)]:
        i = in_work(at, case.ends)
        wanted = Outcome(b"".join(case.ders[:i]), work_of(case, i) + b"read fault\n", 4)
        yield f"a reader that fails after {at} octets", wanted, run(case.words, path, READ_ROOM=at, READ_ONCE=1)


@first
def judge_paces(case, path, whole):
    for most in (1, 3):
        yield f"{most} octets at a time", whole, run(case.words, path, READ_MOST=most)


@first
def judge_writes(case, path, whole):
    ends = list(accumulate(map(len, case.ders)))
    for room, how in product(places_in(len(whole.stdout)), WRITERS):
        i = in_work(room, ends)
        after = room - (ends[i - 1] if i else 0)
        work = work_of(case, i) if case.ders else b""
        wanted = Outcome(whole.stdout[:room], work + f"write fault after {after}\n".encode(), 4)
        yield f"a writer that fails after {room} octets, {how}", wanted, run(case.words, path, WRITE_ROOM=room, **how)


@first
def judge_errors(case, path, whole):
    """Compares the status of faults if the standard error is full."""
    half = len(case.octets) // 2
    faults = [{"READ_ROOM": 0}, {"READ_ROOM": half}, *({"REFUSED_GROWTH": call} for call in range(1, 16)), {}]
    faults += [{"WRITE_ROOM": 0}, {"WRITE_ROOM": len(whole.stdout) // 2}] if whole.stdout else []
    for how in faults:
        wanted = run(case.words, path, **how)._replace(stderr=b"")
        with open("/dev/full", "wb") as full:
            yield f"with the standard error full, {how}", wanted, run(case.words, path, errors=full, **how)


JUDGES = {"growths": judge_growths, "reads": judge_reads, "paces": judge_paces, "writes": judge_writes, "errors": judge_errors}


# ---- the commands and their messages

def named_messages():
    for name in [*ROWS, *BY_OPENSSL]:
        yield name, octets_of(EVERY[name], "input")
    random = beginning()
    for make in (signed_message, request, response):
        made = 0
        while made < AT_RANDOM // 3:
            message, _, _ = make(random)
            spelled = message.ber(random)
            if len(spelled) <= LONGEST_AT_RANDOM and MARK.search(spelled) is None:
                made += 1
                yield f"{make.__name__} {made}", spelled


def cases_of_commands(program, folder):
    messages = list(named_messages())
    for name, octets in messages:
        for words in (["convert"], ["show"], ["show", "--json"], ["changes"], ["changes", "--json"], ["check"], ["cover", "--signer", "0"]):
            yield Case(f"{' '.join(words)} {name}", [program, *words], octets)
        yield Case(f"check --content {name}", [program, "check", "--content"], octets + b"content")
        yield Case(f"check --data {name}", [program, "check", "--data"], octets + b"data")
        yield Case(f"cover --content {name}", [program, "cover", "--signer", "0", "--content"], octets + b"content")
    some = messages[:4] + messages[-2:]
    for (name, one), (_, other) in [*zip(some, some), *zip(some, some[1:])]:
        yield Case(f"same {name}", [program, "same"], one + other, (b"first: ", b"second: "), (len(one),))
    inputs = [octets_of(EVERY[name], "input") for name in ROWS]
    for some in (inputs[:2], inputs[2:6]):
        ders = [run([program, "convert"], path_of(folder, it)).stdout for it in some]
        works = tuple(f"message {i}: ".encode() for i in range(len(some) + 1))
        ends = tuple(accumulate(map(len, some)))
        yield Case(f"convert --many, {len(some)} messages", [program, "convert", "--many"], b"".join(some), works, ends, tuple(ders))


def judge_command(case, folder):
    path = path_of(folder, case.octets)
    whole = run(case.words, path)
    for name, judge in JUDGES.items():
        yield f"{name}: {case.name}", judge(case, path, whole)


# ---- the calls of the library

def cases_of_library(library):
    messages = list(named_messages())
    for name, octets in messages[:9]:
        yield Case(f"convert {name}", [library, "convert", LIMIT, "leave", "7"], octets)
        yield Case(f"check {name}", [library, "check", "bad", "-", "-", "any"], octets)
        yield Case(f"same {name}", [library, "same", str(len(octets))], octets + octets)
        for words in ("listing", "append message", "append cover", "append cover-path", "append dotted"):
            yield Case(f"{words} {name}", [library, *words.split()], octets)
    one = messages[2][1]
    for words, octets in (
        (f"at-hand {LIMIT} refuse 7", one), (f"many {LIMIT} 7", one + one), (f"rest {LIMIT} 7", one), ("times", TIME),
        ("append time", TIME), ("append set", SET), ("append header", b""), ("append boolean", b""),
    ):
        yield Case(words, [library, *words.split()], octets)
    for name, words in product(("tst-infos/plain", "tst-infos/millis-999"), ("tst-info", "append tst-info")):
        yield Case(f"{words} {name}", [library, *words.split()], octets_of(EVERY[name], "input"))


def lacks_memory(case, line, octets):
    """Whether the line of a call that failed says that it is out of memory; before it begins, there is no line."""
    if of_many := re.fullmatch(rb"written (\d+) out of memory\n", line):
        return int(of_many[1]) == len(octets)
    return line in (b"", b"out of memory\n", ITS_OWN.get(case.words[1]))


def judge_library(case, folder):
    """Each growth is refused: `out of memory`, and at most a part is written; or a second call succeeds, and the first lost nothing."""
    path = path_of(folder, case.octets)
    whole = run(case.words, path)
    wanted_memory, harmless = False, 0
    for call in count(1):
        came = run(case.words, path, REFUSED_GROWTH=call)
        harmless = harmless + 1 if came == whole else 0
        made_again = (b"kept\n" + whole.stdout, b"back\n" + whole.stdout, b"OutOfMemory\n")  # the last is the name of a fault, by `times`
        again = came.status == 0 and came.stdout in made_again
        refused = came.status == 1 and whole.stdout.startswith(came.stdout) and lacks_memory(case, came.stderr, came.stdout)
        if came != whole and not refused and not again:
            return f"growth {call} refused: {came}"
        wanted_memory |= again or came.stderr.endswith(b"out of memory\n")
        if harmless == MOST_NEEDLESS_GROWTHS:
            return "" if wanted_memory else "it never wants memory"


def judge_c(folder):
    """Each growth of the library is refused, and of none else: one answer is `out of memory`, and all others are as they were."""
    messages = [octets_of(EVERY[name], "input").hex() for name in ROWS]
    requests = ("convert {0} {1}", "show {0} {1}", "many {0} {1}{1}", "same {0} {1} {1}", "check {0} {1} - - unknown")
    asked = [request.format(LIMIT, octets) for octets in messages for request in requests]
    asked.append(f"cover {LIMIT} {messages[2]} 0 616263")
    path = path_of(folder, "".join(f"{line}\n" for line in asked).encode())
    answer = Path(folder, "answer")
    os.symlink(RELEASE / "libcms_canon.so", Path(folder, "libcms_canon.so.1"))
    there = [f"-I{RELEASE}", f"-L{RELEASE}", f"-Wl,-rpath,{folder}", "-lcms_canon"]
    subprocess.run(["gcc", TOP / "tests" / "c" / "answer.c", *there, "-o", answer], check=True)
    whole = run([answer], path).stdout.splitlines()
    if len(whole) != len(asked) or any(not line.startswith((b"0", b"1")) for line in whole):
        return f"not each call succeeds: {whole}"
    never, harmless = set(range(len(asked))), 0
    for call in count(1):
        came = run([answer], path, REFUSED_FOR="libcms_canon", REFUSED_GROWTH=call)
        lines = came.stdout.splitlines()
        differing = [i for i, line in enumerate(whole) if lines[i : i + 1] != [line]]
        if came.status != 0 or len(lines) != len(asked) or len(differing) > 1 or not all(lines[i].startswith(b"5 ") for i in differing):
            return f"growth {call} refused: {[lines[i] for i in differing]}, status {came.status}"
        never -= set(differing)
        harmless = 0 if differing else harmless + 1
        if harmless == MOST_NEEDLESS_GROWTHS:
            return f"never out of memory: {[asked[i] for i in never]}" if never else ""


def judge_call(call, files):
    """Each growth of a call of the header is refused: status 5 comes, and nothing is written."""
    words = [sys.executable, TOP / "tests" / "support" / "one_call.py", RELEASE / "libcms_canon.so", call.name, *files]
    whole = run(words, os.devnull)
    if not whole.stdout.startswith(b"0 "):
        return f"it fails: {whole}"
    refused = partial(run, words, os.devnull, REFUSED_FOR="libcms_canon")
    return complaint_of_growths(lambda number: refused(REFUSED_GROWTH=number), whole, [Outcome(b"5 nothing\n", b"", 0)])


@pytest.mark.built
def test_commands(program, pool, tally, tmp_path):
    for checks in pool.map(lambda case: list(judge_command(case, tmp_path)), cases_of_commands(program, tmp_path)):
        for name, differs in checks:
            tally.count(name, differs)


@pytest.mark.built
def test_calls_of_the_library(library, pool, tally, tmp_path):
    cases = list(cases_of_library(library))
    for case, differs in zip(cases, pool.map(lambda case: judge_library(case, tmp_path), cases)):
        tally.count(case.name, differs)


def test_library_for_c(pool, tmp_path):
    fail_if(judge_c(tmp_path))


def test_calls_of_the_header(pool, tally, tmp_path):
    files = [path_of(tmp_path, octets_of(EVERY[name], "input")) for name in FILES_OF_CALLS]
    for call, differs in zip(called(), pool.map(lambda call: judge_call(call, files), called())):
        tally.count(call.name, differs)
