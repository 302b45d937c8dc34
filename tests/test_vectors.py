"""Feeds the vectors of `tests/vectors` to the built program, and compares what it writes and its status.

The library program, cms_test_driver, calls `canonicalise` under any limit and with either tail, over a reader that gives few octets at a time or
has few at hand: each conversion is asked of it too. It calls `canonicalise_many` over the same readers.

docs/VECTORS.md says what the kinds and fields of the vectors are.
"""

import functools
import hashlib
import itertools
import shutil

import pytest
from elements import element, element_at
from judges import EVERY, JUDGES, NEED_GCC, is_of_command, judge_cuts, judge_failing_reads, kind_of, outcome_of_many, outcome_of_same, own_checks, rooms_of
from programs import ENCLOSING, LIMIT_OF_VECTORS, SMALLEST, Outcome, complaint, first, octets_of, refused, run, shortened, told
from tally import fail_if

pytestmark = pytest.mark.built

READERS = ("convert", "at-hand")  # the library program's words for a reader with no octets at hand and one with some
MANY_READERS = ("many", "many-at-hand")  # the same for messages one after another
PACES = (1, 2, 3, 7, 4096)  # octets at a time, or at hand
LONGEST_CUT = 300  # octets of an input that is cut anywhere

ALGORITHMS = ("sha1", "sha224", "sha256", "sha384", "sha512", "sha512-224", "sha512-256")


@pytest.mark.parametrize("name", [name for name, vector in EVERY.items() if is_of_command(vector)])
def test_command(program, name):
    vector = EVERY[name]
    if kind_of(vector) in NEED_GCC and not shutil.which("gcc"):
        pytest.skip("gcc is not installed")
    fail_if(JUDGES[kind_of(vector)](program, vector))


@pytest.mark.parametrize("script, given, wanted", [pytest.param(*it, id=name) for name, *it in own_checks()])
def test_command_line(program, script, given, wanted):
    fail_if(complaint(wanted, run(["sh", "-c", script, program], octets_of(EVERY[given], "input") if given else b"")))


# ---- the limit of the command

LARGEST = 1 << 28  # octets that a message may have, and its DER
LONGER_IN_DER = 2 * len(ENCLOSING)  # octets: a length of five octets stands for one octet and the `00 00` at the end
SIZES = [  # whether lengths are definite, how many octets the message has, and where it is refused
    (True, LARGEST, None),
    (True, LARGEST + 1, 6),  # after its first length
    (False, LARGEST - LONGER_IN_DER, None),
    (False, LARGEST - LONGER_IN_DER + 1, LARGEST - LONGER_IN_DER + 1),  # at its end, for its DER
    (False, LARGEST + 1, LARGEST),
]


def header_of(ident, length):
    return bytes([ident, 0x84]) + length.to_bytes(4, "big")


def write_message(path, length, is_definite):
    """Writes a message of this length, whose content is zeros, for which the file takes no room."""
    before = after = b""
    for ident, first, last in ENCLOSING:
        left = length - len(before) - len(after)
        before += (header_of(ident, left - 6) if is_definite else bytes([ident, 0x80])) + first
        after = last + (b"" if is_definite else b"\0\0") + after
    before, after = before + header_of(0x04, length - len(before) - len(after) - 6), after
    with open(path, "wb") as file:
        file.write(before)
        file.truncate(length)
        file.seek(length - len(after))
        file.write(after)


@pytest.mark.parametrize("is_definite, length, at", SIZES)
def test_limit(program, tmp_path, is_definite, length, at):
    """Messages as long as the limit, and longer ones."""
    given, der = tmp_path / "given", tmp_path / "der"
    write_message(given, length, is_definite)
    write_message(der, LARGEST, True)
    if at is None:
        wanted, script = Outcome(b"", b"", 0), '{ "$0" convert <"$1" || echo "status $?" >&2; } | cmp - "$2"'
    else:
        wanted, script = refused(2, "TooLarge", at), 'exec "$0" convert <"$1"'
    fail_if(complaint(wanted, run(["sh", "-c", script, program, given, der], b"")))


# ---- the library

def told_by_library(vector):
    return refused(**vector["refused"], status=1) if "refused" in vector else told(vector["read"], octets_of(vector, "output"))


@first
def judge_library(library, vector):
    """Asks the library for the conversion, at each pace and with each tail that the vector speaks of."""
    limit, again = vector.get("limit", LIMIT_OF_VECTORS), bytes.fromhex(vector.get("then_forever", ""))
    for tail, reader, pace in itertools.product([vector["tail"]] if "tail" in vector else ["leave", "refuse"], READERS, PACES):
        came = run([library, reader, str(limit), tail, str(pace)], octets_of(vector, "input"), again)
        yield f"{reader} {tail} {pace}", told_by_library(vector), came


@first
def judge_library_many(library, vector):
    limit, output = vector.get("limit", LIMIT_OF_VECTORS), octets_of(vector, "output")
    if "fault" in vector:
        wanted = Outcome(output, f"written {vector['fault']['written']} ".encode() + outcome_of_many(vector).stderr, 1)
    else:
        wanted = Outcome(output, "messages {messages} read {read} written {written}\n".format(**vector).encode(), 0)
    for reader, pace in itertools.product(MANY_READERS, PACES):
        came = run([library, reader, str(limit), str(pace)], octets_of(vector, "input"), **rooms_of(vector))
        yield f"{reader} {pace}", wanted, came


def place_of_too_large(element, limit, begin=0):
    """Returns where an accepted element, which begins there, is refused for E2: at the limit, or after a header whose contents pass it.
    None if all of it is within the limit."""
    ending = 2 if element.is_indefinite else 0
    at = begin + len(element.octets) - len(element.contents) - ending
    if at > limit:
        return limit
    if not element.is_indefinite and at + len(element.contents) > limit:
        return at
    for member in element.members:
        if (place := place_of_too_large(member, limit, at)) is not None:
            return place
        at += len(member.octets)
    return limit if element.is_indefinite and at + ending > limit else None


@first
def judge_limits(library, rule):
    """An accepted input is too large under a limit that is one less than its length or that of its DER, which shows at its end."""
    for name, vector in ((it, EVERY[it]) for it in rule["vectors"]):
        limit, octets = max(vector["read"], vector["written"]), octets_of(vector, "input")
        place = place_of_too_large(element_at(octets), limit - 1)
        less = refused(2, "TooLarge", len(octets) if place is None else place, status=1)
        for most, wanted in ((limit, told_by_library(vector)), (limit - 1, less)):
            yield f"{name}, limit {most}", wanted, run([library, "convert", str(most), "refuse", "4096"], octets)


@first
def judge_rest(library, vector):
    octets = b"" if "refused" in vector else octets_of(vector, "octets")
    wanted = refused(**vector["refused"], status=1) if "refused" in vector else told(len(octets), octets)
    for pace in PACES:
        yield f"{pace} at a time", wanted, run([library, "rest", str(vector["limit"]), str(pace)], octets_of(vector, "input"))


@first
def judge_digest(library, vector):
    octets = b"".join(map(bytes.fromhex, vector["pieces"]))
    for pace in PACES:
        came = run([library, "digest", vector["algorithm"], str(pace)], octets)
        yield f"in pieces of {pace}", told(len(octets), bytes.fromhex(vector["digest"])), came


def judge_check(library, vector):
    """Asks the library for the findings on the message, with its detached content and the data that were time-stamped after it."""
    given = [bytes.fromhex(vector[field]) if field in vector else None for field in ("detached", "stamped")]
    counts = ["-" if octets is None else str(len(octets)) for octets in given]
    words = [library, "check", vector["verifier"].lower(), *counts, "token" if vector.get("token") else "any"]
    octets = b"".join([octets_of(vector, "message"), *filter(None, given)])
    lines = "".join(f"{code}\n" if signer is None else f"{code} {signer}\n" for code, signer in vector["findings"])
    return complaint(told(len(octets), lines.encode()), run(words, octets))


def judge_library_same(library, vector):
    """Asks the library whether two messages are the same, each from a reader of its own."""
    first, second = octets_of(vector, "first"), octets_of(vector, "second")
    return complaint(told(len(first) + len(second), outcome_of_same(vector).stdout), run([library, "same", str(len(first))], first + second))


def judge_listing(library, vector):
    octets = octets_of(vector, "stdin")
    return complaint(told(len(octets), vector["stdout_text"].encode()), run([library, "listing"], octets))


def judge_imprint(library, vector):
    """Asks the library for the finding on an imprint, which is that of a request, for data."""
    octets = element(0x30, b"\x02\x01\x01", bytes.fromhex(vector["imprint"])) + bytes.fromhex(vector["data"])
    return complaint(told(len(octets), f"{vector.get('finding', 'none')}\n".encode()), run([library, "imprint"], octets))


def judge_tst_info(library, vector):
    """Asks the library what octets say as a TSTInfo: what it writes again are these octets, in the last line."""
    octets = bytes.fromhex(vector["input"])
    came = run([library, "tst-info"], octets)
    wanted = f"der {octets.hex()}" if vector["ok"] else "NotTst"
    is_so = came.stdout.splitlines()[-1:] == [wanted.encode()] and came.status == 0
    return "" if is_so else f"wanted a last line {shortened(wanted.encode())}, came {shortened(came.stdout)} with status {came.status}"


def judge_certificate_identifier(library, vector):
    """Asks the library for the first certificate identifier of an attribute of a message."""
    before = bytes.fromhex(
        "308006092a864886f70d010702a08030800201013100300b06092a864886f70d0107013180"
        "308002010130053000020109300506032a0304300506032a03040400a180"
    )
    attribute = element(0x30, element(0x06, bytes.fromhex(vector["oid"])), element(0x31, *map(bytes.fromhex, vector["values"])))
    octets, line = before + attribute + bytes(2 * 6), "None\n"  # six elements are of indefinite length
    if "none" not in vector:
        algorithm, hashed = (list(bytes.fromhex(vector[field])) for field in ("algorithm", "hash"))
        line = f"Some(CertId {{ algorithm: {algorithm}, hash: {hashed} }})\n"
    return complaint(told(len(octets), line.encode()), run([library, "first-cert-id"], octets))


def judge_time(library, vector):
    text = vector["text"].encode()
    line = vector.get("fault", "{unix_seconds} {digits} {fraction}").format(**vector) + "\n"
    return complaint(told(len(text), line.encode()), run([library, "times"], text))


TWO_ELEMENTS = bytes.fromhex("300405000500")
JUDGES_OF_LIBRARY = {
    "read-rest": judge_rest, "digest": judge_digest, "check": judge_check, "check-imprint": judge_imprint, "same": judge_library_same,
    "many": judge_library_many, "tst": judge_tst_info, "time": judge_time, "certificate-identifier": judge_certificate_identifier,
    "convert": judge_library, "sweep-limits": judge_limits,
}
BY_LIBRARY = {"readers": [(reader, str(LIMIT_OF_VECTORS), "refuse", "7") for reader in READERS], "status": 1}
JUDGES_OF_LIBRARY["sweep-reads"] = functools.partial(judge_failing_reads, **BY_LIBRARY)


def questions():
    """Gives each question to the library about a vector: its name, the judge, and what that is handed."""
    for name, vector in EVERY.items():
        if vector["kind"] in JUDGES_OF_LIBRARY:
            yield name, JUDGES_OF_LIBRARY[vector["kind"]], vector
        if vector["kind"] == "run" and vector["args"] == ["show"] and "stdout_text" in vector:
            yield name, judge_listing, vector
        if vector["kind"] == "convert" and "output" in vector and "limit" not in vector and vector.get("tail") != "leave":
            yield f"limits/{name}", judge_limits, {"vectors": [name]}
            if vector["read"] <= LONGEST_CUT:
                yield f"cuts/{name}", functools.partial(judge_cuts, **BY_LIBRARY), {"vectors": [name]}


@pytest.mark.parametrize("judge, vector", [pytest.param(*it, id=name) for name, *it in questions()])
def test_library(library, judge, vector):
    fail_if(judge(library, vector))


@pytest.mark.parametrize("algorithm", [it for it in ALGORITHMS if it.replace("-", "_") in hashlib.algorithms_available])
def test_digest(library, algorithm):
    octets = bytes(range(256)) * 5
    digest = hashlib.new(algorithm.replace("-", "_"), octets).hexdigest()
    fail_if(judge_digest(library, {"algorithm": algorithm, "pieces": [octets.hex()], "digest": digest}))


@pytest.mark.parametrize("word, octets, wanted", [
    ("opaque", TWO_ELEMENTS, told(6, b"")), ("opaque", bytes.fromhex("30800000"), refused(13, "OpaqueNotDer", 2, status=1)),
    ("elements", TWO_ELEMENTS, told(6, b"")), ("elements", TWO_ELEMENTS[:5], refused(1, "Truncated", 5, status=1)),
])
def test_value(library, word, octets, wanted):
    """Ways to read one value."""
    fail_if(complaint(wanted, run([library, word], octets)))
