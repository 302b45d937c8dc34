"""Measures the peak of memory and the processor time: what is DER already is written as it came, without a second copy, a segment of a string
takes eight octets, `check` keeps no content that follows, nothing is gone through again for each signer, and no room is taken for what is
only claimed.

Of each message there is the DER, which is to take little more than its own size, and a spelling in BER, whose DER is collected beside it: what
that takes is only printed, and `pytest -s` shows it. `check` digests detached content and stamped data in pieces, so what it takes does not grow with them.

Of the messages that bench/ makes to take long or much, those are here that would take far longer if each signer digested the content or the
certificates again or looked through all algorithms, or if each member of a set was compared with each other.
"""

import math
import resource
import subprocess
import sys
import tempfile
from hashlib import sha256

import findings
import pytest
import worst
from elements import ID_CT_TST_INFO, INDEFINITE, contents_of, element, header, message, oid
from programs import ENCLOSING, SMALLEST, Outcome, complaint, octets_of, read_vectors, run
from signed_by_digest import ALGORITHM, CONTENT, VERSION, signed_by

pytestmark = pytest.mark.built

SIZE = 16 << 20  # octets of a message, nearly
MOST_OF_DER = 1.25  # octets of memory for one of a message in DER
MOST_OF_SEGMENTS = 4.5  # for one of a message whose content is in segments of three octets, header and all
MOST_OF_BER = 2.5  # for one of a message in BER whose members are long: it is kept, and its DER is collected
LONG = 1 << 16  # octets of a string that would be borrowed outside sets
FOLLOWING = 64 << 20  # octets that follow a message
MOST_OF_A_CHECK = 16 << 20  # octets of memory, whatever follows: half of it is what a process begins with
MOST_OF_ANY = {"convert": 16, "check": 25}  # octets of memory for one of any message, as SECURITY.md says
MOST_SECONDS = 0.3  # of processor time for each MiB: three times what SECURITY.md says, since a processor may be slower, or busy
STOPPED = 60  # seconds of processor time after which a run ends
SIGNERS = 200
SPARE = 2 << 10  # KiB of address space that a command may take beyond that of `--version`

NONE = bytes.fromhex("3100")


def messages():
    """Yields messages in DER that are mostly members of sets, by what they are."""
    certificates = [element(0x30, element(0x04, b"%08d" % number + bytes(2000))) for number in range(SIZE // 2020)]
    yield "certificates", message(VERSION + element(0x31, ALGORITHM) + CONTENT + element(0xA0, b"".join(certificates)) + NONE)
    attribute = element(0x30, bytes.fromhex("06032a0304") + element(0x31, element(0x04, bytes(4000))))
    attributes = [attribute] * 4
    signers = [
        element(0x30, VERSION + element(0x80, b"%08d" % number) + ALGORITHM + element(0xA0, b"".join(attributes)) + ALGORITHM + element(0x04, bytes(256)))
        for number in range(SIZE // 16500)
    ]
    yield "signers with attributes", message(VERSION + element(0x31, ALGORITHM) + CONTENT + element(0x31, b"".join(signers)))


def countersigned(count):
    """Returns a message in DER whose signer has so many attributes of a countersignature each, with long signatures."""

    def signer(signature, *others):
        return element(0x30, VERSION, element(0x80, b"key"), ALGORITHM, ALGORITHM, element(0x04, signature), *others)

    countersignatures = (element(0x31, signer(number.to_bytes(4, "big") + bytes(LONG - 4))) for number in range(count))
    attributes = b"".join(element(0x30, oid("1.2.840.113549.1.9.6"), it) for it in countersignatures)
    return message(VERSION + element(0x31, ALGORITHM) + CONTENT + element(0x31, signer(bytes(32), element(0xA1, attributes))))


def request(content):
    """Returns a request that asks for data to be time-stamped."""
    imprint = element(0x30, ALGORITHM + element(0x04, sha256(content).digest()))
    return element(0x30, bytes.fromhex("020101") + imprint)


# What begins the program, and prints the peak of its memory in KiB and its processor time. It has little itself, since a process begins with
# what its parent has.
BEGINNER = """
import os, sys
process = os.posix_spawn(sys.argv[1], sys.argv[1:], os.environ)
_, status, used = os.wait4(process, 0)
print(used.ru_maxrss, used.ru_utime + used.ru_stime, file=sys.stderr)
sys.exit(os.waitstatus_to_exitcode(status))
"""


def stop_late():
    resource.setrlimit(resource.RLIMIT_CPU, (STOPPED, STOPPED))


def used_by(program, octets, *words):
    """Returns the status of a command, what it writes, the octets of its largest resident set, and the seconds of processor time."""
    with tempfile.TemporaryFile() as given, tempfile.TemporaryFile() as written:
        given.write(octets)
        given.seek(0)
        how = {"stdin": given, "stdout": written, "stderr": subprocess.PIPE, "text": True, "preexec_fn": stop_late}
        ended = subprocess.run([sys.executable, "-I", "-S", "-c", BEGINNER, program, *words], **how)
        written.seek(0)
        *_, kibibytes, seconds = ended.stderr.split()
        return ended.returncode, written.read(), int(kibibytes) * 1024, float(seconds)


def cases():
    """Yields what each run is, the words of its command, its input, the status and the output that are due, if it matters, and the octets of
    memory that it may take."""
    for name, der in messages():
        yield f"{name} in DER", "convert", der, (0, der), MOST_OF_DER * len(der)
        yield f"{name} in BER", "convert", b"\x30\x80" + contents_of(der) + b"\0\0", (0, der), math.inf
    count = SIZE // 3
    in_segments, in_one = element(0x24, b"\x04\x01a" * count), element(0x04, b"a" * count)
    ber, der = (message(VERSION + element(0x31, ALGORITHM) + element(0x30, CONTENT[2:] + element(0xA0, it)) + NONE) for it in (in_segments, in_one))
    yield "content in segments of one octet", "convert", ber, (0, der), MOST_OF_SEGMENTS * len(ber)
    der = countersigned(SIZE // LONG)
    yield "long signatures in sets", "convert", b"\x30\x80" + contents_of(der) + b"\0\0", (0, der), MOST_OF_BER * len(der)
    content = bytes(FOLLOWING)
    for words, before, lines, status in (
        ("check --content", signed_by(sha256(content).digest()), "F18 signer 0 verifier says unknown\n", 0),
        ("check --content", signed_by(sha256(b"other").digest()), "F7 signer 0 message digest differs\nF18 signer 0 verifier says unknown\n", 1),
        ("check --data", request(content), "no findings\n", 0),
        ("check --data", request(b"other"), "F14 imprint differs\n", 1),
    ):
        yield f"{words}: {lines.splitlines()[0]}", words, before + content, (status, lines.encode()), MOST_OF_A_CHECK
    content = bytes(SIZE)
    lines = "".join(f"F18 signer {number} verifier says unknown\n" for number in range(SIGNERS))
    yield "content that each signer signs", "check", signed_by(sha256(content).digest(), content, SIGNERS), (0, lines.encode()), MOST_OF_DER * len(content)
    for name, command, octets, status in hostile():
        yield name, command, octets, (status, None), MOST_OF_A_CHECK + MOST_OF_ANY[command] * len(octets)


def hostile():
    """Yields messages of 1 MiB or more that are made to take long or much, each with a command and its status."""
    algorithms, signer = b"".join(map(findings.algorithm, range(50_000))), findings.signer(findings.OTHER_ALGORITHM, b"")
    yield "certificates that signers name", "check", findings.token(10_000), 1
    yield "algorithms that no signer names", "check", findings.message(algorithms, worst.NO_CONTENT, signer * 25_000), 1
    yield "algorithms in descending order", "convert", worst.MAKERS["different algorithms"](1 << 20), 0
    yield "signers of 24 octets", "check", worst.MAKERS["signers of 24 octets"](4 << 20), 1


def claiming(count):
    """Returns the beginning of a message whose content says that it has so many octets, with three of them."""
    octets = header(0x04, count) + b"abc"
    for identifier, before, _ in reversed(ENCLOSING):
        octets = bytes([identifier, INDEFINITE]) + before + octets
    return octets


def cases_of_room():
    """Yields commands, their inputs, and what is due of each, for which little room is needed."""
    smallest, claims = octets_of(read_vectors()[SMALLEST], "output"), claiming(240 << 20)
    signer = element(0x31, findings.signer(findings.OTHER_ALGORITHM, b""))
    yield "convert", smallest, Outcome(smallest, b"", 0)
    yield "convert", claims, Outcome(b"", b"refused E1 Truncated at %d\n" % len(claims), 3)
    yield "cover --signer 0 --content", message(VERSION + NONE + CONTENT + signer) + b"content", Outcome(b"content", b"", 0)
    yield "check --content", signed_by(sha256(b"content").digest()) + b"content", Outcome(b"F18 signer 0 verifier says unknown\n", b"", 0)
    yield "check --content", message(VERSION + NONE + element(0x30, ID_CT_TST_INFO) + NONE) + b"content", Outcome(None, b"", 1)


def test_use(program, tally):
    for name, command, octets, due, most in cases():
        status, written, peak, seconds = used_by(program, octets, *command.split())
        used = f"{peak / (1 << 20):.1f} MiB of memory, {peak / len(octets):.2f} octets for each of {len(octets)}; {seconds:.2f} s"
        print(f"{name}: {used}")
        is_due = status == due[0] and due[1] in (written, None)
        tally.count(name, "" if is_due else f"status {status}, {len(written)} octets: {written[:80]}")
        tally.count(f"{name}: memory", "" if peak <= most else used)
        tally.count(f"{name}: time", "" if seconds <= MOST_SECONDS * len(octets) / (1 << 20) else used)


def test_room(program, tally):
    """No room is taken for what is only claimed, or might follow: each command ends as it does with more address space than it needs."""

    def within(kibibytes, octets, words):
        return run(["sh", "-c", f'ulimit -v {kibibytes} && exec "$0" "$@"', program, *words.split()], octets)

    least = next(it for it in range(1 << 10, 1 << 20, 64) if within(it, b"", "--version").status == 0)
    for words, octets, due in cases_of_room():
        tally.count(f"{words}, {len(octets)} octets: address space", complaint(due, within(least + SPARE, octets, words)))
