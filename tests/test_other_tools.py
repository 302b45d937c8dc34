"""Compares what docs/OTHER-TOOLS.md says of other tools with what they do.

Each row of its table is a message that is made here of examples/message.ber, and each column a tool that is to convert it. A tool that is
missing is skipped by its name, and so is one of another release than the document names.
"""

import json
import re
import shutil
import subprocess
from pathlib import Path
from typing import Callable, NamedTuple, Optional

import pytest
from countersignatures import JARS
from elements import element, message as message_of
from real_messages import SIGNED_ATTRIBUTES, signed_attributes, signed_data_of, signer_infos
from programs import RELEASE, TOP
from tally import differing, fail_if

PROGRAM = RELEASE / "cms-canon"
DOCUMENT = TOP / "docs" / "OTHER-TOOLS.md"
DEBIAN_PYTHON = "/usr/bin/python3"
SECONDS = 60

BY_ASN1CRYPTO = """
import sys
from asn1crypto import cms
message = cms.ContentInfo.load(sys.stdin.buffer.read())
message.native
sys.stdout.buffer.write(message.dump(force=True))
"""


class Case(NamedTuple):
    """A message, with what each thing that a tool may write for it is called."""

    octets: bytes
    meanings: dict  # by the octets written


class Tool(NamedTuple):
    release: str  # that the document names
    found: str  # the release that is here, or an empty text
    convert: Optional[Callable] = None  # of octets, to octets or None


def with_fields(der, **changed):
    """Returns a signed message with other fields."""
    names = ("version", "algorithms", "content", "certificates", "signers")
    return message_of(*(changed.get(name, it.octets) for name, it in zip(names, signed_data_of(der).members)))


def with_attributes(der, octets):
    """Returns a signed message with other signed attributes of its one signer."""
    fields = [octets if it.identifier == SIGNED_ATTRIBUTES else it.octets for it in signer_infos(der)[0].members]
    return with_fields(der, signers=element(0x31, element(0x30, *fields)))


def cases():
    message = (TOP / "examples" / "message.ber").read_bytes()
    der = subprocess.run([PROGRAM, "convert"], input=message, capture_output=True, check=True).stdout
    _, algorithms, _, certificates, _ = signed_data_of(der).members
    attributes = signed_attributes(signer_infos(der)[0])
    reversed_attributes = with_attributes(der, element(0xA0, *(it.octets for it in reversed(attributes.members))))
    long_length = with_attributes(der, b"\xa0\x82" + len(attributes.contents).to_bytes(2, "big") + attributes.contents)
    algorithms = algorithms.contents, bytes.fromhex("300d06096086480165030402030500")
    indefinite = with_fields(der, certificates=element(0xA0, b"\x30\x80" + certificates.members[0].contents + b"\0\0"))
    vectors = json.loads((TOP / "tests" / "vectors" / "countersignatures.json").read_text())["vectors"]
    countersigned = next(it for it in vectors if it["name"] == "one-countersignature-in-ber")
    before, after = (bytes.fromhex(countersigned[it]) for it in ("input", "output"))
    imprint = element(0x30, element(0x30, bytes.fromhex("06052b0e03021a")) + element(0x04, bytes(20)))
    request = element(0x30, bytes.fromhex("020101") + imprint + bytes.fromhex("010100"))
    return {
        "indefinite lengths, content in segments": Case(message, {der: "DER"}),
        "digest algorithms in another order": Case(
            with_fields(der, algorithms=element(0x31, algorithms[1] + algorithms[0])),
            {with_fields(der, algorithms=element(0x31, algorithms[0] + algorithms[1])): "DER"},
        ),
        "signed attributes in another order": Case(reversed_attributes, {der: "changed", reversed_attributes: "kept"}),
        "a length in signed attributes that is not the shortest": Case(long_length, {der: "changed", long_length: "kept"}),
        "a certificate of indefinite length": Case(indefinite, {der: "changed", indefinite: "kept"}),
        "a countersignature in BER": Case(before, {after: "DER", before: "kept"}),
        "a request for a time-stamp": Case(request, {request[:1] + bytes([request[1] - 3]) + request[2:-3]: "DER"}),
        "an octet after the message": Case(der + b"\n", {der: "cut off"}),
    }


def output_of(*words, octets=None):
    """Returns what a program writes, or None if it fails."""
    try:
        ended = subprocess.run([str(it) for it in words], input=octets, capture_output=True, timeout=SECONDS)
    except OSError:
        return None
    return ended.stdout if ended.returncode == 0 else None


def release_in(text, pattern):
    found = re.search(pattern, (text or b"").decode(errors="replace"))
    return found[1] if found else ""


def by_bouncycastle(folder, octets):
    (folder / "message").write_bytes(octets)
    (folder / "written").unlink(missing_ok=True)
    done = output_of("java", "-cp", ":".join([*JARS, str(folder)]), "Reencode", folder / "message", folder / "written")
    return None if done is None else (folder / "written").read_bytes()


def bouncycastle(folder):
    """Returns the release of BouncyCastle, which its file name has, if the program over it can be compiled."""
    jar = Path(JARS[0])
    if not (jar.exists() and shutil.which("javac")):
        return ""
    compiled = output_of("javac", "-cp", ":".join(JARS), "-d", folder, TOP / "tests" / "java" / "Reencode.java")
    return "" if compiled is None else release_in(str(jar.resolve()).encode(), r"-(\d+\.\d+)\.jar$")


def tools_in(folder):
    openssl = release_in(output_of("openssl", "version"), r"^OpenSSL (\d+\.\d+)")
    asn1crypto = release_in(output_of(DEBIAN_PYTHON, "-c", "import asn1crypto; print(asn1crypto.__version__)"), r"^(\d+\.\d+)")
    return {
        "cms-canon": Tool("here", "here", lambda octets: output_of(PROGRAM, "convert", octets=octets)),
        "openssl": Tool("3.0", openssl, lambda octets: output_of(*"openssl cms -cmsout -inform DER -outform DER".split(), octets=octets)),
        "asn1crypto": Tool("1.5", asn1crypto, lambda octets: output_of(DEBIAN_PYTHON, "-c", BY_ASN1CRYPTO, octets=octets)),
        "BouncyCastle": Tool("1.72", bouncycastle(folder), lambda octets: by_bouncycastle(folder, octets)),
    }


def table():
    lines = re.search(r"^(\| message \| cms-canon .*?)\n\n", DOCUMENT.read_text(encoding="utf-8"), re.M | re.S)[1].splitlines()
    head, _, *rows = ([cell.strip() for cell in line.strip("|").split("|")] for line in lines)
    return head[1:], {row[0]: dict(zip(head[1:], row[1:])) for row in rows}


NAMES = ["cms-canon", "openssl", "asn1crypto", "BouncyCastle"]


def test_table():
    head, rows = table()
    fail_if(differing((NAMES, {*cases()}), (head, {*rows})))


@pytest.mark.parametrize("name", NAMES)
def test_tool(tally, tmp_path, name):
    _, rows = table()
    tool = tools_in(tmp_path)[name]
    if tool.found != tool.release:
        pytest.skip(f"{name}: the document is about {tool.release}, and here is {tool.found or 'none'}")
    for row, case in cases().items():
        said, written = rows.get(row, {}).get(name), tool.convert(case.octets)
        came = "refused" if written is None else case.meanings.get(written, f"{len(written)} other octets")
        tally.count(f"{name}, {row}", "" if came == said else f"the document says {said}, and it is {came}")
