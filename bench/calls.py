#!/usr/bin/env python3
"""Measures calls of the Python package with the released library.

    python3 bench/calls.py

First `convert` of a message beside `convert_many` of many of them, one a chunk: the least of many runs, in microseconds a message.
Then `read` of a signature by openssl beside `convert`, and beside `check` with a verifier. Then `check` of messages with many
signers and certificates, with a verifier that reads each attribute of its jobs, and with one by certificates; and of messages with
twice as many. The exit status is 1 if a time is above its bound.
"""

import importlib
import itertools
import shutil
import sys
import tempfile
import time
from pathlib import Path

TOP = Path(__file__).resolve().parent.parent
sys.path.insert(0, str(TOP / "tests" / "support"))

from elements import element  # noqa: E402
from signatures import judged, make_signature  # noqa: E402
from programs import octets_of, read_vectors  # noqa: E402

LARGEST_READ = 25e-6  # seconds, of a signature of one signer
LARGEST_VERIFIED = 0.2  # seconds
LARGEST_RATIO_OF_HALVES = 2.5
MANY = ((4000, 0), (1, 16_000), (4000, 16_000))  # signers and certificates
MESSAGES = ("real-messages/two-signers", "real-messages/two-signers-streamed")  # in DER, and with indefinite lengths
TOGETHER, RUNS = 2000, 25
FEW_RUNS = 15

SIGNED_DATA, DATA = bytes.fromhex("06092a864886f70d010702"), bytes.fromhex("06092a864886f70d010701")
SHA_256, RSA_IDENTIFIER = bytes.fromhex("300d06096086480165030402010500"), bytes.fromhex("06092a864886f70d010101")


def package(folder):
    """Returns the package, from a folder of its own."""
    home = Path(folder, "cms_canon")
    shutil.copytree(TOP / "bindings" / "python" / "cms_canon", home)
    shutil.copy(TOP / "dist" / "x86_64-linux" / "libcms_canon.so", home)
    sys.path.insert(0, folder)
    return importlib.import_module("cms_canon")


def signer(number):
    """Returns a signer of 38 octets without signed attributes."""
    key = element(0x80, number.to_bytes(3, "big"))
    digest, signing = element(0x30, b"\x06\x03\x2a\x03\x04"), element(0x30, RSA_IDENTIFIER)
    return element(0x30, b"\x02\x01\x03" + key + digest + signing + element(0x04, number.to_bytes(3, "big")))


def message_of(signers, certificates):
    """Returns a message with so many signers, and so many certificates of two octets."""
    content = element(0x30, DATA + element(0xA0, element(0x04, b"abc")))
    sets = element(0xA0, b"\x30\x00" * certificates) + element(0x31, b"".join(map(signer, range(signers))))
    return element(0x30, SIGNED_DATA + element(0xA0, element(0x30, b"\x02\x01\x03" + element(0x31, SHA_256) + content + sets)))


def least(call, runs=RUNS):
    """Returns the least seconds of many runs."""
    seconds = []
    for _ in range(runs):
        began = time.perf_counter()
        call()
        seconds.append(time.perf_counter() - began)
    return min(seconds)


def measure_many(library):
    vectors = read_vectors()
    for name in MESSAGES:
        message = octets_of(vectors[name], "input")
        alone = least(lambda: [library.convert(message) for _ in range(TOGETHER)]) / TOGETHER
        many = least(lambda: [*library.convert_many([message] * TOGETHER)]) / TOGETHER
        print(f"{len(message)} octets: convert {alone * 1e6:.1f}, convert_many {many * 1e6:.1f} microseconds")


def ask_all(job):
    """Reads each attribute of a job, as a verifier does that cannot tell whether the signature is right."""
    parts = job.covered, job.signature, job.signature_algorithm, job.digest_algorithm, job.issuer or job.subject_key_identifier
    assert all(parts) and (job.issuer is None) == (job.serial_number is None) and len(job.certificates) >= 0


def judge_read(library, folder):
    """Judges `read` of a signature of one signer with one certificate."""
    message, _ = make_signature(folder)
    convert, read, check = (
        least(lambda: [call() for _ in range(TOGETHER)]) / TOGETHER
        for call in (
            lambda: library.convert(message),
            lambda: library.read(message),
            lambda: library.check(message, verifier=ask_all),
        )
    )
    print(f"{len(message)} octets: convert {convert * 1e6:.1f}, check with all read {check * 1e6:.1f} microseconds")
    return judged("read", read, LARGEST_READ, "microseconds", 1e6)


def seconds_of(library, verifier, signers, certificates):
    message = message_of(signers, certificates)
    return len(message), least(lambda: library.check(message, verifier=verifier), FEW_RUNS)


def judge_verifiers(library):
    """Judges verifiers over many signers and certificates. Returns how many bounds are passed."""
    by_certificates = importlib.import_module("cms_canon.verifier").by_certificates()
    failed = 0
    verifiers = {"all read": ask_all, "by certificates": by_certificates}
    for (signers, certificates), (what, verifier) in itertools.product(MANY, verifiers.items()):
        length, seconds = seconds_of(library, verifier, signers, certificates)
        _, of_twice = seconds_of(library, verifier, 2 * signers, 2 * certificates)
        name = f"{signers} signers, {certificates} certificates, {length} octets, {what}"
        failed += judged(name, seconds, LARGEST_VERIFIED, "s", 1)
        failed += judged("twice as many", of_twice / seconds, LARGEST_RATIO_OF_HALVES, "times the time", 1)
    return failed


def main():
    with tempfile.TemporaryDirectory() as folder:
        library = package(folder)
        measure_many(library)
        failed = judge_read(library, folder) + judge_verifiers(library)
    return 1 if failed else 0


if __name__ == "__main__":
    sys.exit(main())
