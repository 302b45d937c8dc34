#!/usr/bin/env python3
"""Compares what two libraries return: octets, reasons, places, findings, listings, covers and fields, for the same inputs.

    python3 bench/releases.py OLD NEW [SEED [MESSAGES]]

OLD and NEW are folders with a `libcms_canon.so`, as dist/x86_64-linux. The inputs are all octets in the vectors, as they are and spoilt;
messages that openssl makes, if it is installed, and those of examples/, as they are, cut by an octet and spoilt; the messages of bench/worst.py, of 3 kB and 100
kB, whole and cut by an octet; and MESSAGES messages that tests/support/generated_messages.py spells at random, half of them spoilt. Each library
has a process of its own for each kind of input, and prints a sum of all that it returns for each. Sums that differ are printed with their inputs.
"""

import hashlib
import json
import re
import subprocess
import sys
import tempfile
from ctypes import CDLL, Structure, byref, c_bool, c_char, c_size_t, c_uint32, c_uint64
from pathlib import Path
from random import Random

TOP = Path(__file__).resolve().parent.parent
SEED, MESSAGES = 5652, 20_000
SPOILT = 6  # times each input of the vectors is spoilt
LIMIT = 1 << 28
ROOMS = (3_000, 100_000)  # octets of a hostile message
KINDS = ("vectors", "real messages", "hostile messages", "messages at random")


class Outcome(Structure):
    _fields_ = [("status", c_uint32), ("reason", c_uint32), ("at", c_uint64), ("octets", c_uint64), ("name", c_char * 24)]

    def said(self):
        return self.status, self.reason, self.at, self.octets, self.name


class Finding(Structure):
    _fields_ = [("signer", c_uint64), ("code", c_uint32), ("has_signer", c_uint32)]


class Row(Structure):
    _fields_ = [("start", c_uint64), ("length", c_uint64), ("kind", c_uint32), ("level", c_uint32)]


class Library:
    """The calls of a library for C."""

    def __init__(self, folder):
        self.calls = CDLL(str(Path(folder, "libcms_canon.so").resolve()))

    def into(self, name, *words, item=c_char):
        """Calls with as much room as it takes, and returns what it says and writes."""
        room = 4096
        while True:
            output, outcome = (item * room)(), Outcome()
            getattr(self.calls, name)(*words, output, c_size_t(room), byref(outcome))
            if outcome.status != 6:
                many = outcome.octets if outcome.status == 0 else 0
                return outcome.said(), [tuple(getattr(it, name) for name, *_ in item._fields_) for it in output[:many]] if item is not c_char else output.raw[:many]
            room = outcome.octets

    def results(self, octets, before):
        """Gives what each call returns for an input, and for it and the one before."""
        limit, length, first = c_uint64(LIMIT), c_size_t(len(octets)), (c_uint64 * 1)(0)
        message, content = (octets, length), (b"hello", c_size_t(5))
        for name in ("convert", "show"):
            yield self.into(f"cms_canon_{name}", *message, limit)
        for has_content, has_data in ((False, False), (True, False), (False, True)):
            given = (*content, c_bool(has_content), *content, c_bool(has_data))
            yield self.into("cms_canon_check", *message, *given, limit, item=Finding)
        for has_content in (False, True):
            yield self.into("cms_canon_cover", *message, first, c_size_t(1), *content, c_bool(has_content), limit)
        yield self.into("cms_canon_fields", *message, limit, item=Row)
        for other in (octets, before):
            outcome = Outcome()
            self.calls.cms_canon_same(*message, other, c_size_t(len(other)), limit, byref(outcome))
            yield outcome.said()


# ---- inputs


def spoilt(random, octets):
    from generated_messages import damaged

    for _ in range(random.randint(1, 3)):
        octets = damaged(random, octets) if octets else octets
    return octets


def of_vectors(random, _):
    texts = sorted({text for file in sorted(TOP.glob("tests/vectors/*.json")) for text in texts_in(json.loads(file.read_text()))})
    for text in texts:
        octets = bytes.fromhex(text)
        yield octets
        for _ in range(SPOILT):
            yield spoilt(random, octets)


def texts_in(value):
    """Gives all texts in a value that are octets."""
    if isinstance(value, str):
        digits = value.replace(" ", "")
        if digits and len(digits) % 2 == 0 and re.fullmatch("[0-9a-f]+", digits):
            yield digits
    elif isinstance(value, (list, dict)):
        for part in value.values() if isinstance(value, dict) else value:
            yield from texts_in(part)


def of_tools(random, _):
    folder = Path(sys.argv[-1])
    for file in sorted([*folder.iterdir(), *TOP.glob("examples/*/*.der"), *TOP.glob("examples/*.der"), *TOP.glob("examples/*/*.p7s")]):
        octets = file.read_bytes()
        yield octets
        yield octets[:-1]
        for _ in range(40):
            yield spoilt(random, octets)


def made_by_openssl(folder):
    """Makes messages by openssl in a folder: with keys of two kinds, digests, attributes, streams, certificates and lists of revocations."""
    def openssl(*words):
        return subprocess.run(["openssl", *words], cwd=folder, capture_output=True).returncode == 0

    Path(folder, "content").write_bytes(b"hello " * 5000)
    for key, how in (("rsa", ["rsa:2048"]), ("ec", ["ec", "-pkeyopt", "ec_paramgen_curve:P-256"])):
        if not openssl("req", "-x509", "-newkey", *how, "-nodes", "-days", "30", "-subj", f"/CN={key}", "-keyout", f"{key}.key", "-out", f"{key}.pem"):
            return
        for digest in ("sha1", "sha256", "sha512"):
            for number, more in enumerate(([], ["-nodetach"], ["-nodetach", "-noattr"], ["-nodetach", "-stream"], ["-nocerts"], ["-keyid"], ["-nosmimecap"])):
                openssl("cms", "-sign", "-binary", "-in", "content", "-signer", f"{key}.pem", "-inkey", f"{key}.key", "-md", digest,
                        "-outform", "DER", "-out", f"{key}-{digest}-{number}.der", *more)
    openssl("cms", "-sign", "-binary", "-nodetach", "-in", "content", "-signer", "rsa.pem", "-inkey", "rsa.key", "-signer", "ec.pem", "-inkey", "ec.key", "-outform", "DER",
            "-out", "two.der")
    openssl("crl2pkcs7", "-nocrl", "-certfile", "rsa.pem", "-certfile", "ec.pem", "-outform", "DER", "-out", "certificates.der")
    openssl("ts", "-query", "-data", "content", "-sha256", "-cert", "-out", "request.der")
    for it in Path(folder).iterdir():
        if it.suffix != ".der":
            it.unlink()


def of_hostile(_, __):
    import worst

    for room in ROOMS:
        for make in worst.MAKERS.values():
            octets = make(room)
            yield octets
            yield octets[:-1]


def at_random(random, count):
    from generated_messages import request, response, signed_message

    makers = [signed_message, signed_message, request, response]
    for number in range(count):
        octets = random.choice(makers)(random)[0].ber(random)
        yield spoilt(random, octets) if number % 2 else octets


INPUTS = dict(zip(KINDS, (of_vectors, of_tools, of_hostile, at_random)))


# ---- comparing


def run_of(folder, kind, seed, count):
    """Prints the sum of all that a library returns for each input."""
    library, before = Library(folder), b""
    for octets in INPUTS[kind](Random(seed), count):
        digest = hashlib.sha256(repr(list(library.results(octets, before))).encode()).hexdigest()
        print(digest, octets.hex() if len(octets) < 10_000 else hashlib.sha256(octets).hexdigest())
        before = octets


def main(words):
    old, new = words[:2]
    seed, count = (*map(int, words[2:]), *(SEED, MESSAGES)[len(words) - 2 :])
    total = differing = 0
    with tempfile.TemporaryDirectory(prefix="releases-") as folder:
        made_by_openssl(folder)
        for kind in KINDS:
            runs = [
                subprocess.Popen([sys.executable, __file__, "--run", it, kind, str(seed), str(count), folder], stdout=subprocess.PIPE, text=True)
                for it in (old, new)
            ]
            (one, _), (other, _) = [it.communicate() for it in runs]
            if any(it.returncode for it in runs) or not one or one.count("\n") != other.count("\n"):
                print(f"{kind}: a run ended with {[it.returncode for it in runs]}")
                return 1
            for first, second in zip(one.splitlines(), other.splitlines()):
                total += 1
                if first != second:
                    differing += 1
                    print(f"{kind}: {first.split()[1]}")
            print(f"{kind}: {one.count(chr(10))} inputs", flush=True)
    print(f"{total} inputs, {differing} differing")
    return differing > 0


if __name__ == "__main__":
    sys.path[:0] = [str(TOP / "tests" / "support"), str(TOP / "bench")]
    if sys.argv[1:2] == ["--run"]:
        run_of(sys.argv[2], sys.argv[3], int(sys.argv[4]), int(sys.argv[5]))
    else:
        sys.exit(main(sys.argv[1:]))
