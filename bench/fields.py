#!/usr/bin/env python3
"""Measures the fields of messages in Java and Rust, with the released library, or with the one in the folder CMS_CANON_LIB_DIR.

    python3 bench/fields.py

First `read` beside `convert`, of a signature with a certificate. Then what a verifier takes that asks for all parts of each signer,
and for each certificate: messages of many signers and of many certificates, and of twice as many. Each is the least of the calls of
3 seconds. What is not installed is left out.
"""

import os
import shutil
import subprocess
import sys
import tempfile
from pathlib import Path

TOP = Path(__file__).resolve().parent.parent
sys.path.insert(0, str(TOP / "tests" / "support"))

from elements import element  # noqa: E402

LIBRARY = os.environ.get("CMS_CANON_LIB_DIR", TOP / "dist" / "x86_64-linux")
JNA = Path("/usr/share/java/jna.jar")
SIGNERS, CERTIFICATES = 4000, 16_000  # in 152 kB, and in 32 kB

SIGNED_DATA, DATA = bytes.fromhex("06092a864886f70d010702"), bytes.fromhex("06092a864886f70d010701")
RSA, SHA_256 = bytes.fromhex("300d06092a864886f70d0101010500"), bytes.fromhex("300d06096086480165030402010500")
ALGORITHM = bytes.fromhex("300506032a0304")
NAME = bytes.fromhex("30143112301006035504031309417574686f72697479")
CONTENT_TYPE, MESSAGE_DIGEST = (bytes.fromhex(f"06092a864886f70d0109{it}") for it in ("03", "04"))


def signer(number):
    """Returns a signer of 38 octets."""
    identifier, signature = element(0x80, number.to_bytes(4, "big")), element(0x04, number.to_bytes(11, "big"))
    return element(0x30, b"\x02\x01\x03" + identifier + ALGORITHM + ALGORITHM + signature)


def message_of(certificates, signers):
    fields = b"\x02\x01\x03" + element(0x31, SHA_256) + element(0x30, DATA) + element(0xA0, certificates) + element(0x31, signers)
    return element(0x30, SIGNED_DATA + element(0xA0, element(0x30, fields)))


def signature():
    """Returns a message of some 1.7 kB: a certificate, and a signer with two signed attributes and a signature of 256 octets."""
    certificate = element(0x30, element(0x30, element(0x04, bytes(940))) + RSA + element(0x03, bytes(257)))
    identifier = element(0x30, NAME + element(0x02, (1 << 40).to_bytes(6, "big")))
    digest = element(0x30, MESSAGE_DIGEST + element(0x31, element(0x04, bytes(32))))
    attributes = element(0xA0, element(0x30, CONTENT_TYPE + element(0x31, DATA)) + digest)
    signed = b"\x02\x01\x01" + identifier + SHA_256 + attributes + RSA + element(0x04, bytes(256))
    return message_of(certificate, element(0x30, signed))


def messages():
    """Gives the calls that are measured of each message."""
    yield "a signature", ("convert", "read"), signature()
    for factor in (1, 2):
        signers = b"".join(map(signer, range(factor * SIGNERS)))
        yield f"{factor * SIGNERS} signers", ("convert", "read", "verify"), message_of(b"", signers)
    for factor in (1, 2):
        certificates = b"\x30\x00" * (factor * CERTIFICATES)
        yield f"{factor * CERTIFICATES} certificates", ("convert", "read", "verify"), message_of(certificates, signer(0))


def java(folder):
    """Returns the words that measure in Java."""
    sources = [*(TOP / "bindings" / "java" / "src").glob("**/*.java"), TOP / "bench" / "Fields.java"]
    subprocess.run(["javac", "-d", f"{folder}/java", "-cp", JNA, *sources], check=True)
    return ["java", f"-Djna.library.path={LIBRARY}", "-cp", f"{folder}/java:{JNA}", "Fields"]


def rust(folder):
    """Returns the words that measure in Rust."""
    environment = {**os.environ, "CARGO_TARGET_DIR": f"{folder}/target", "CMS_CANON_LIB_DIR": str(LIBRARY)}
    words = ["cargo", "build", "--quiet", "--offline", "--release", "--example", "seconds"]
    subprocess.run(words, check=True, env=environment, cwd=TOP / "bindings" / "rust")
    return [f"{folder}/target/release/examples/seconds"]


def main():
    with tempfile.TemporaryDirectory(prefix="fields-") as folder:
        callers = {"Java": java} if shutil.which("javac") and JNA.exists() else {}
        callers |= {"Rust": rust} if shutil.which("cargo") else {}
        callers = {name: make(folder) for name, make in callers.items()}
        file = Path(folder, "message")
        for name, calls, message in messages():
            file.write_bytes(message)
            for caller, words in callers.items():
                took = [float(subprocess.run([*words, call, file], check=True, capture_output=True).stdout) for call in calls]
                said = ", ".join(f"{call} {seconds * 1e6:,.1f}" for call, seconds in zip(calls, took))
                print(f"{caller}, {name}, {len(message):,} octets: {said} microseconds", flush=True)


if __name__ == "__main__":
    main()
