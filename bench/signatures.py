#!/usr/bin/env python3
"""Measures `cms-canon convert` on real signatures, beside `openssl cms -cmsout` and an empty C program, and judges it.

    python3 bench/signatures.py [PROGRAM [LIBRARY]]

The exit status is 1 if a time or a memory is above its bound, or if an output is not what openssl writes. Times are minima
of `RUNS`, taken in turn. LIBRARY is cms_test_driver, for the time of one message in a loop. It needs gcc and openssl.
"""

import os
import subprocess
import sys
import tempfile
import time
from pathlib import Path

from measure import PROGRAM, SIGNED_DATA, element, peak_of, resident

TOP = Path(__file__).resolve().parent.parent
LIBRARY = TOP / "crates" / "cms_test_driver" / "out" / "cms_test_driver"

RUNS = 200
MEBI = 1 << 20
LARGEST_START = 0.001  # seconds of a process more than an empty C program takes
LARGEST_PEAK = 2.5 * MEBI
LARGEST_IN_A_LOOP = 10e-6  # seconds
CERTIFICATES = 10_000
LARGEST_RATIO_OF_HALVES = 2.4  # of the time to the time of half as many certificates

DATA = bytes.fromhex("06092a864886f70d010701")


def make_signature(folder, key="rsa:2048"):
    """Has openssl make a signature of one signer with one certificate, for such a key, and returns it with the certificate, in DER."""

    def openssl(*words):
        subprocess.run(["openssl", *words], cwd=folder, check=True, capture_output=True)

    subject = "/C=DE/O=Measurements/CN=signer of messages"
    openssl("req", "-x509", "-newkey", key, "-nodes", "-keyout", "key.pem", "-out", "cert.pem", "-subj", subject)
    openssl("x509", "-in", "cert.pem", "-outform", "DER", "-out", "cert.der")
    Path(folder, "content").write_bytes(b"some content, which is signed\\n")
    words = ("cms", "-sign", "-in", "content", "-signer", "cert.pem", "-inkey", "key.pem", "-nodetach", "-binary")
    openssl(*words, "-outform", "DER", "-out", "signature.der")
    return Path(folder, "signature.der").read_bytes(), Path(folder, "cert.der").read_bytes()


def with_certificates(certificate, count):
    """Returns a message without a signer, with so many different certificates of the same size."""
    first, last = certificate[:-8], certificate[-8:]
    numbered = b"".join(first + (int.from_bytes(last, "big") ^ i).to_bytes(8, "big") for i in range(count))
    fields = b"\x02\x01\x01" + b"\x31\x00" + element(0x30, DATA) + element(0xA0, numbered) + b"\x31\x00"
    return element(0x30, SIGNED_DATA + element(0xA0, element(0x30, fields)))


def seconds_of(words, path):
    """Returns how long the program takes on the file."""
    with open(path, "rb") as given:
        began = time.perf_counter()
        subprocess.run(words, stdin=given, stdout=subprocess.DEVNULL, stderr=subprocess.DEVNULL, check=True)
        return time.perf_counter() - began


def fastest(programs, path, runs=RUNS):
    """Returns the shortest time of each program over the file, taken in turn."""
    times = [[seconds_of(words, path) for words in programs] for _ in range(runs)]
    return [min(column) for column in zip(*times)]


def peak_of_small(program, octets):
    """Returns the peak memory once the message is read, while the program waits for what may follow it."""
    process = subprocess.Popen([program, "convert"], stdin=subprocess.PIPE, stdout=subprocess.DEVNULL)
    process.stdin.write(octets)
    process.stdin.flush()
    time.sleep(0.1)
    peak = resident(process.pid)
    process.stdin.close()
    process.wait()
    return peak


def in_a_loop(library, path):
    """Returns the time of one message, from the difference of two loops in one process each."""
    few, many = 2_000, 22_000
    one, other = fastest([[library, "again", str(few)], [library, "again", str(many)]], path, 10)
    return (other - one) / (many - few)


def empty_program(folder):
    source = Path(folder, "empty.c")
    source.write_text("int main(void) { return 0; }\n")
    subprocess.run(["gcc", "-O2", "-o", f"{folder}/empty", str(source)], check=True)
    return f"{folder}/empty"


def judged(name, value, bound, unit, factor):
    """Prints a line for a figure, and returns 1 if it is above its bound."""
    print(f"{name}: {value * factor:.2f} {unit}, at most {bound * factor:.2f}")
    if value <= bound:
        return 0
    print(f"FAILED {name}: more than {bound * factor:.2f} {unit}")
    return 1


def judge_signature(program, library, folder, signature):
    """Judges the one signature, and returns how many bounds are passed."""
    path = f"{folder}/signature.der"
    cmsout = ["openssl", "cms", "-cmsout", "-inform", "DER", "-outform", "DER"]
    expected = subprocess.run(cmsout, input=signature, capture_output=True, check=True).stdout
    if subprocess.run([program, "convert"], input=signature, capture_output=True, check=True).stdout != expected:
        sys.exit("FAILED: the output is not what openssl writes")
    ours, openssl, empty = fastest([[program, "convert"], cmsout, [empty_program(folder)]], path)
    print(f"a signature of {len(signature)} octets: {ours * 1000:.2f} ms, openssl {openssl * 1000:.2f} ms, empty {empty * 1000:.2f} ms")
    failed = judged("more than an empty program", ours - empty, LARGEST_START, "ms", 1000)
    failed += judged("peak memory", peak_of_small(program, signature), LARGEST_PEAK, "MiB", 1 / MEBI)
    return failed + judged("one message in a loop", in_a_loop(library, path), LARGEST_IN_A_LOOP, "us", 1e6)


def judge_certificates(program, folder, certificate):
    """Judges many certificates, and returns 1 if twice as many take more than their share."""
    times = []
    for count in (CERTIFICATES // 2, CERTIFICATES):
        message = with_certificates(certificate, count)
        Path(folder, "certificates").write_bytes(message)
        (seconds,) = fastest([[program, "convert"]], f"{folder}/certificates", 10)
        peak = peak_of(program, f"{folder}/certificates")
        print(f"{count} certificates, {len(message)} octets: {seconds * 1000:.1f} ms, {peak / MEBI:.1f} MiB")
        times.append(seconds)
    return judged("twice the certificates", times[1] / times[0], LARGEST_RATIO_OF_HALVES, "times the time", 1)


def main(words):
    program = os.path.abspath(words[0] if words else PROGRAM)
    library = os.path.abspath(words[1] if words[1:] else LIBRARY)
    with tempfile.TemporaryDirectory() as folder:
        signature, certificate = make_signature(folder)
        failed = judge_signature(program, library, folder, signature)
        failed += judge_certificates(program, folder, certificate)
    return 1 if failed else 0


if __name__ == "__main__":
    sys.exit(main(sys.argv[1:]))
