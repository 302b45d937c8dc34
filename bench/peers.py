#!/usr/bin/env python3
"""Measures the conversion of a message by the released library beside other C code that reads such a message and writes it in DER.

    python3 bench/peers.py [--quick]

The others are libcrypto, Heimdal's ASN.1 and the code that asn1c makes of `cms.asn1`; one that is not installed is skipped by its
name. Beside them is a loop over the headers alone, which writes nothing. Each is a C program beside this file, which converts in a
loop what it has read (`again.h`). A cell has the processor time of a message, and its instructions. Times are minima of turns, in
which each program runs once. Instructions are counted by valgrind, if it is there, as the difference of two counts. A program whose
output is not the DER that it was given is not measured. Then comes what each makes of messages in BER, and of octets that are no
message; and the time of SHA-256. With --quick there are few turns, and no instructions.

The exit status is 1 if the library does not write what is due. It needs gcc and openssl; the others need libssl-dev, heimdal-dev
and asn1c.
"""

import hashlib
import os
import shutil
import subprocess
import sys
import tempfile
from pathlib import Path
from typing import NamedTuple, Optional

TOP = Path(__file__).resolve().parent.parent
sys.path.insert(0, str(TOP / "tests" / "support"))

from contents import canonical, in_segments  # noqa: E402
from elements import contents_of, element  # noqa: E402
from measure import SIGNED_DATA, message, numbered, processor  # noqa: E402
from real_messages import CONFIGURATION, Tools, set_up  # noqa: E402
from signatures import make_signature, with_certificates  # noqa: E402
from streams import HERE, compiled, instructions_of, make_signatures  # noqa: E402
from openssl_tokens import FULL, made, section_of  # noqa: E402

TURNS, QUICK_TURNS = 15, 2
CERTIFICATES = 25  # of some 900 octets
LONG_CONTENT = 8 << 20  # octets
DIGESTED = 8 << 20  # octets
COUNTED = 50  # the part of the conversions of a turn whose instructions are counted
NO_CERTIFICATE = element(0x04, bytes(8))
MASKED = "0:0"  # for OPENSSL_ia32cap: no extension of the processor

RELEASE = TOP / "dist" / "x86_64-linux"
OURS = (f"-I{RELEASE}", f"{RELEASE}/libcms_canon.a")
HEIMDAL = ("-I/usr/include/heimdal", "-L/usr/lib/x86_64-linux-gnu/heimdal", "-lasn1")


class Peer(NamedTuple):
    name: str
    source: str  # the name of the C program beside this file
    needs: str  # a file without which it is skipped
    words: tuple  # for the compiler
    is_ours: bool = False
    takes_many: bool = False  # messages one after another in one call
    writes: bool = True


PEERS = [
    Peer("`cms_canon_convert`", "convert", f"{RELEASE}/cms_canon.h", OURS, is_ours=True),
    Peer("`cms_canon_convert_many`", "convert_many", f"{RELEASE}/cms_canon.h", OURS, is_ours=True, takes_many=True),
    Peer("libcrypto", "libcrypto", "/usr/include/openssl/cms.h", ("-lcrypto",)),
    Peer("Heimdal", "heimdal", "/usr/include/heimdal/cms_asn1.h", HEIMDAL),
    Peer("asn1c", "asn1c", "/usr/bin/asn1c", ()),
    Peer("headers alone", "headers", f"{HERE}/headers.c", (), writes=False),
]


class Message(NamedTuple):
    name: str
    octets: bytes  # in DER
    count: int  # of conversions in a turn
    copies: int  # one after another, for a program that takes many


class Spelling(NamedTuple):
    name: str
    octets: bytes
    der: Optional[bytes]  # None if the library refuses it


class Run(NamedTuple):
    status: int
    output: bytes
    seconds: float  # of processor time, without the first conversion


# ---- the programs


def words_of_asn1c(folder):
    """Has asn1c make code of the module, and returns the words that compile it."""
    made_in = Path(folder, "made")
    made_in.mkdir()
    words = ["asn1c", "-fcompound-names", "-fwide-types", f"{HERE}/cms.asn1"]
    subprocess.run(words, cwd=made_in, capture_output=True, check=True)
    return ["-w", f"-I{made_in}", *(str(it) for it in made_in.glob("*.c") if it.name != "converter-sample.c")]


def built(folder):
    """Returns the program of each peer that is installed, and prints the names of the others."""
    programs = {}
    for peer in PEERS:
        if not os.path.exists(peer.needs):
            print(f"skipped {peer.name}: there is no {peer.needs}")
            continue
        words = words_of_asn1c(folder) if peer.source == "asn1c" else peer.words
        programs[peer] = compiled(peer.source, folder, *words)
    return programs


def run(program, path, more=0, **environment):
    """Has a program convert what the file has: once, and so many times more."""
    with open(path, "rb") as given:
        ran = subprocess.run([program, str(more)], stdin=given, capture_output=True, env={**os.environ, **environment}, check=False)
    seconds = int(ran.stderr.split()[1]) / 1e6 if ran.returncode == 0 else 0.0
    return Run(ran.returncode, ran.stdout, seconds)


# ---- making messages


def token(folder):
    """Has openssl make a time-stamp token with the certificates of the authority."""
    tools = Tools(folder)
    set_up(tools)
    tools.write("openssl.cnf", (CONFIGURATION + section_of("token", FULL)).encode())
    return made(tools, "token", FULL).token


def path_of(folder, octets):
    """Returns a file with these octets, which the next call writes again."""
    path = Path(folder, "given")
    path.write_bytes(octets)
    return path


def in_der(convert, folder, octets):
    """Returns what the library writes of a message, which has its certificates out of order."""
    ended = run(convert, path_of(folder, octets))
    if ended.status != 0:
        sys.exit(f"FAILED: the library does not convert a message of {len(octets)} octets, status {ended.status}")
    return ended.output


def messages(folder, convert):
    """Returns the messages that are measured."""
    signature, without = (Path(*make_signatures(folder, 1, *words)).read_bytes() for words in ((), ("-noattr",)))
    made_in = Path(folder, "token")
    made_in.mkdir()
    _, certificate = make_signature(folder)
    certificates = in_der(convert, folder, with_certificates(certificate, CERTIFICATES))
    return [
        Message("a signature", signature, 2000, 20),
        Message("the same without attributes", without, 2000, 20),
        Message("a time-stamp token", in_der(convert, folder, token(made_in)), 2000, 20),
        Message(f"{CERTIFICATES} certificates", certificates, 200, 20),
        Message("8 MiB of content", canonical(bytes(LONG_CONTENT)), 10, 1),
    ]


def respelled(octets, spell):
    """Returns the message with the ContentInfo, its content and the SignedData spelled otherwise."""
    signed_data = contents_of(contents_of(octets)[len(SIGNED_DATA) :])
    return spell(0x30, SIGNED_DATA + spell(0xA0, spell(0x30, contents_of(signed_data))))


def indefinite(identifier, contents):
    return bytes([identifier, 0x80]) + contents + b"\0\0"


def with_longer_length(identifier, contents):
    return bytes([identifier, 0x85]) + len(contents).to_bytes(5, "big") + contents


def with_longer_version(identifier, contents):
    """Spells an element in DER, except that an INTEGER at its beginning has an octet 00 too many."""
    return element(identifier, b"\x02\x02\0" + contents[2:] if contents[0] == 0x02 else contents)


def nested(levels):
    """Returns a message with one octet of content, which is in so many segments inside the content's own encoding."""
    return in_segments(b"\x24\x80" * levels + b"\x04\x01a" + b"\0\0" * levels)


def spellings(octets):
    """Returns messages in BER, and octets that are no message."""
    algorithms = [numbered(number) for number in range(3)]
    no_certificate = with_certificates(element(0x30, NO_CERTIFICATE), 1)
    return [
        Spelling("indefinite lengths", respelled(octets, indefinite), octets),
        Spelling("lengths of five octets", respelled(octets, with_longer_length), octets),
        Spelling("content in segments", in_segments(b"\x04\x01a\x04\x02bc"), canonical(b"abc")),
        Spelling("segments of 8 levels, the most of the library", nested(7), canonical(b"a")),
        Spelling("segments of 9 levels", nested(8), None),
        Spelling("segments of 41 levels", nested(40), None),
        Spelling("digest algorithms out of order", message(b"".join(algorithms[::-1])), message(b"".join(algorithms))),
        Spelling("a certificate that is a SEQUENCE of one OCTET STRING", no_certificate, no_certificate),
        Spelling("a certificate of indefinite length", with_certificates(indefinite(0x30, NO_CERTIFICATE), 1), None),
        Spelling("a version with an octet 00 before it", respelled(octets, with_longer_version), None),
        Spelling("an octet after it", octets + b"\0", None),
        Spelling("cut by an octet", octets[:-1], None),
    ]


# ---- measuring


def given_to(peer, of):
    """Returns what the peer is given of a message in one conversion, and how many messages these are."""
    copies = of.copies if peer.takes_many else 1
    return of.octets * copies, copies


def fault_of(peer, program, of, folder):
    """Returns what is wrong with what the peer writes of a message in DER, or None."""
    octets, _ = given_to(peer, of)
    ended = run(program, path_of(folder, octets))
    if ended.status != 0:
        return "refused" if ended.status == 3 else f"status {ended.status}"
    if not peer.writes or ended.output == octets:
        return None
    return f"differs at {len(os.path.commonprefix([ended.output, octets]))}"


def seconds_of(peer, program, of, folder):
    """Returns the processor time of a message, of one turn."""
    octets, copies = given_to(peer, of)
    more = of.count // copies
    return run(program, path_of(folder, octets), more).seconds / (more * copies)


def fastest(programs, of, folder, turns):
    """Returns the shortest time of each peer, taken in turn."""
    times = [[seconds_of(peer, program, of, folder) for peer, program in programs.items()] for _ in range(turns)]
    return dict(zip(programs, map(min, zip(*times))))


def instructions_a_message(peer, program, of, folder):
    """Returns the instructions of a message, from the difference of two counts."""
    octets, copies = given_to(peer, of)
    few = max(of.count // COUNTED // copies, 1)
    counts = [instructions_of([program, str(more)], path_of(folder, octets), folder) for more in (few, 2 * few)]
    return (counts[1] - counts[0]) / (few * copies)


def cells_of(programs, of, folder, turns, is_counted):
    """Returns a cell for each peer, and whether what the library writes is right."""
    cells = {peer: fault_of(peer, program, of, folder) for peer, program in programs.items()}
    right = {peer: program for peer, program in programs.items() if cells[peer] is None}
    for peer, seconds in fastest(right, of, folder, turns).items():
        cells[peer] = f"{seconds * 1e6:,.2f}" if seconds < 1e-4 else f"{seconds * 1e6:,.0f}"
        if is_counted:
            cells[peer] += f"; {instructions_a_message(peer, right[peer], of, folder):,.0f}"
    return cells.values(), all(peer in right for peer in programs if peer.is_ours)


def result_of(program, spelling, folder):
    """Returns what a program makes of a spelling, in a word."""
    ended = run(program, path_of(folder, spelling.octets))
    if ended.status != 0:
        return "refused" if ended.status == 3 else f"status {ended.status}"
    if spelling.der is None:
        return "accepted"
    return "DER" if ended.output == spelling.der else "other octets"


def request_and_data():
    """Returns a time-stamp request and the data whose digest it has."""
    data = bytes(DIGESTED)
    algorithm = element(0x30, bytes.fromhex("0609608648016503040201" + "0500"))
    imprint = element(0x30, algorithm + element(0x04, hashlib.sha256(data).digest()))
    return element(0x30, b"\x02\x01\x01" + imprint) + data


def times_of_digests(folder, turns):
    """Returns the shortest time of SHA-256 by the library, and by libcrypto with extensions of the processor and without."""
    path = path_of(folder, request_and_data())
    check, sha256 = compiled("check", folder, *OURS), compiled("sha256", folder, "-lcrypto")
    ways = [(check, {}), (sha256, {}), (sha256, {"OPENSSL_ia32cap": MASKED})]
    times = [[run(program, path, 1, **environment) for program, environment in ways] for _ in range(turns)]
    if any(ended.status != 0 for row in times for ended in row):
        sys.exit("FAILED: a digest is not that of the data")
    return [min(ended.seconds for ended in column) for column in zip(*times)]


# ---- printing


def print_row(*cells):
    print(f"| {' | '.join(cells)} |", flush=True)


def print_head(*cells):
    print()
    print_row(*cells)
    print("|---" * len(cells) + "|")


def print_times(programs, measured, folder, turns, is_counted):
    """Prints what a message takes, and returns whether what the library writes is right."""
    units = "microseconds and instructions" if is_counted else "microseconds"
    print_head(f"message, {units}", *(peer.name for peer in programs))
    is_right = True
    for of in measured:
        cells, is_well = cells_of(programs, of, folder, turns, is_counted)
        print_row(f"{of.name}, {len(of.octets):,} octets", *cells)
        is_right = is_right and is_well
    return is_right


def print_spellings(programs, octets, folder):
    """Prints what each peer that writes makes of the spellings, and returns whether the library makes of each what is due."""
    writing = {peer: program for peer, program in programs.items() if peer.writes and not peer.takes_many}
    print_head("what is read", *(peer.name for peer in writing))
    is_right = True
    for spelling in spellings(octets):
        results = {peer: result_of(program, spelling, folder) for peer, program in writing.items()}
        print_row(spelling.name, *results.values())
        due = "refused" if spelling.der is None else "DER"
        is_right = is_right and all(results[peer] == due for peer in writing if peer.is_ours)
    return is_right


def print_digests(folder, turns):
    ours, extended, plain = times_of_digests(folder, turns)
    print_head("SHA-256", "MB/s", "times the time of libcrypto")
    print_row("`cms_canon_check`, without extensions of the processor", f"{DIGESTED / ours / 1e6:,.0f}", "")
    print_row("libcrypto", f"{DIGESTED / extended / 1e6:,.0f}", f"{ours / extended:.2f}")
    print_row(f"libcrypto, OPENSSL_ia32cap={MASKED}", f"{DIGESTED / plain / 1e6:,.0f}", f"{ours / plain:.2f}")


def main(words):
    is_quick = words == ["--quick"]
    turns, is_counted = (QUICK_TURNS, False) if is_quick else (TURNS, shutil.which("valgrind") is not None)
    print(f"{processor()}, load {os.getloadavg()[0]:.1f}, minima of {turns} turns")
    with tempfile.TemporaryDirectory() as folder:
        programs = built(folder)
        measured = messages(folder, programs[PEERS[0]])
        is_right = print_times(programs, measured, folder, turns, is_counted)
        is_right = print_spellings(programs, measured[0].octets, folder) and is_right
        print_digests(folder, turns)
    print("\nAll outputs of the library are right." if is_right else "\nFAILED: an output of the library is wrong.")
    return 0 if is_right else 1


if __name__ == "__main__":
    sys.exit(main(sys.argv[1:]))
