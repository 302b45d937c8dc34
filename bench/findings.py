#!/usr/bin/env python3
"""Measures a check of messages that are made to take long, and judges how the time grows with them.

    (cd crates/cms_test_driver && rt run -- digest sha256 1024 <stdin)    builds the program
    python3 bench/findings.py

In each message something that is large could be gone through for each of many signers: the digest algorithms, the content, its
segments, the certificates. A message that is twice as long must take at most so many times as long; the exit status is 1 if one takes more. Times are
minima of ten, taken in turn, and include the reading of the message.
"""

import hashlib
import os
import subprocess
import sys
import tempfile
import time
from pathlib import Path

sys.path.insert(0, str(Path(__file__).resolve().parent.parent / "tests" / "support"))

from elements import element  # noqa: E402

PROGRAM = Path(__file__).resolve().parent.parent / "crates" / "cms_test_driver" / "out" / "cms_test_driver"

RUNS = 10
SIGNERS = 80_000  # and twice as many
LARGEST_RATIO = 3.0  # where a check of every pair would come to 4

SHA_256 = bytes.fromhex("300b0609608648016503040201")
OTHER_ALGORITHM = bytes.fromhex("3003 0601 2a")
DATA = bytes.fromhex("06092a864886f70d010701")
TST_INFO = bytes.fromhex("060b2a864886f70d0109100104")
SIGNING_CERTIFICATE_V2 = bytes.fromhex("060b2a864886f70d010910022f")
MESSAGE_DIGEST = bytes.fromhex("a031302f06092a864886f70d01090431220420") + bytes(32)


def message(algorithms, content, signers, content_type=DATA, certificates=b""):
    encapsulated = element(0x30, content_type, element(0xA0, content))
    fields = (b"\x02\x01\x03", element(0x31, algorithms), encapsulated, certificates, element(0x31, signers))
    return element(0x30, bytes.fromhex("06092a864886f70d010702"), element(0xA0, element(0x30, *fields)))


def signer(digest_algorithm, attributes):
    return element(0x30, b"\x02\x01\x03\x80\x00", digest_algorithm, attributes, OTHER_ALGORITHM, b"\x04\x00")


def algorithm(number):
    return element(0x30, element(0x06, bytes([0x2A, 0x81 + (number >> 14), 0x80 | number >> 7 & 0x7F, number & 0x7F])))


def certificate(number):
    return element(0x30, element(0x02, number.to_bytes(4, "big")))


def signer_that_names(certificate):
    """Returns a signer whose signed attribute signing-certificate-v2 has the hash of the certificate."""
    identifier = element(0x30, element(0x30, element(0x30, element(0x04, hashlib.sha256(certificate).digest()))))
    attribute = element(0x30, SIGNING_CERTIFICATE_V2, element(0x31, identifier))
    return signer(SHA_256, element(0xA0, attribute))


def token(count):
    """Returns a token with so many signers, each of which names one of so many certificates."""
    certificates = [certificate(0x10000000 + number) for number in range(count)]
    signers = b"".join(map(signer_that_names, reversed(certificates)))
    return message(SHA_256, b"\x04\x00", signers, TST_INFO, element(0xA0, *certificates))


def long_messages(times):
    """Gives the name of each message, and the message with so many times as many parts."""
    count = SIGNERS * times
    content = element(0x04, bytes(b"x" * (count * 20)))
    segments = b"\x24\x80" + b"\x04\x01x" * (count * 5) + b"\x00\x00"
    algorithms = b"".join(map(algorithm, range(count * 2)))
    yield "algorithms that no signer names", message(algorithms, b"\x04\x00", signer(OTHER_ALGORITHM, b"") * count)
    yield "content that each signer digests", message(SHA_256, content, signer(SHA_256, MESSAGE_DIGEST) * (count // 2))
    yield "content in many segments", message(SHA_256, segments, signer(SHA_256, b"") * count)
    yield "certificates that signers name", token(count)


def seconds_of(path):
    with open(path, "rb") as octets:
        began = time.perf_counter()
        subprocess.run([PROGRAM, "check", "unknown", "-", "-", "any"], stdin=octets, capture_output=True, check=True)
        return time.perf_counter() - began


def main():
    if not os.access(PROGRAM, os.X_OK):
        print(f"there is no program {PROGRAM}")
        return 1
    worst = 0.0
    with tempfile.TemporaryDirectory() as folder:
        one, two = Path(folder, "one"), Path(folder, "two")
        for (name, octets), (_, twice) in zip(long_messages(1), long_messages(2)):
            one.write_bytes(octets)
            two.write_bytes(twice)
            of_one = of_two = float("inf")
            for _ in range(RUNS):
                of_one = min(of_one, seconds_of(one))
                of_two = min(of_two, seconds_of(two))
            ratio = of_two / of_one
            worst = max(worst, ratio)
            print(f"{name}: {of_one:.2f} s; twice as many: {of_two:.2f} s, {ratio:.2f} times, at most {LARGEST_RATIO}")
    return 0 if worst <= LARGEST_RATIO else 1


if __name__ == "__main__":
    sys.exit(main())
