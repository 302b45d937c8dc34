"""Time-stamp tokens that OpenSSL makes, by an authority and keys that are made on the spot, and TSTInfos with one field changed."""

import hashlib
import itertools
import tomllib
from collections import namedtuple
from typing import NamedTuple

from elements import element_at, flipped
from programs import DATA_FILES
from real_messages import CONFIGURATION, CONTENTS, OCTET_STRING, set_up, written
from tst_model import OIDS, SEQUENCE, SET, octets_of, oid_of, with_member

DATA = CONTENTS["content.txt"]
DIGESTS = ("sha1", "sha224", "sha256", "sha384", "sha512")
GENERALIZED_TIME = 0x18
ID_UNKNOWN = bytes.fromhex("06032a0304")  # 1.2.3.4


class Variant(NamedTuple):
    digest: str
    accuracy: tuple  # words of the configuration
    ordering: bool
    nonce: bool
    policy: str
    tsa: bool
    identifier: str  # the algorithm of the certificate identifiers: SHA-1 is for signing-certificate, others for its version 2
    chain: bool  # whether the authority's certificate has an identifier too
    certificates: bool
    digits: int  # of the fraction of a second, of which OpenSSL drops zeros at the end


IDENTIFIERS = ("sha256", "sha1", "sha512")
POLICIES = ("1.2.3.4.1", "1.2.3.4.2")
ACCURACY = {"secs": 1, "millisecs": 500, "microsecs": 100}
ACCURACIES = [words for count in range(4) for words in itertools.combinations(ACCURACY, count)]
PRECISIONS = range(7)

FULL = Variant("sha256", tuple(ACCURACY), True, True, POLICIES[1], True, "sha256", True, True, 6)


def variants():
    """Gives the name of each token and how it is made: each accuracy with an ordering and without, and each other value somewhere."""
    for index, (ordering, accuracy) in enumerate(itertools.product((False, True), ACCURACIES)):
        name = "-".join([*(accuracy or ["no-accuracy"]), *(["ordered"] if ordering else [])])
        yield name, Variant(
            digest=DIGESTS[index % 5], accuracy=accuracy, ordering=ordering, nonce=index % 2 == 0, policy=POLICIES[index // 2 % 2],
            tsa=index // 4 % 2 == 0, identifier=IDENTIFIERS[index % 3], chain=index % 5 < 2, certificates=index % 4 in (0, 3),
            digits=PRECISIONS[index % 7],
        )
    for algorithm in IDENTIFIERS:
        yield f"full-{algorithm}", FULL._replace(identifier=algorithm)


def section_of(name, variant):
    values = {field: ("yes" if it else "no") if isinstance(it, bool) else it for field, it in variant._asdict().items()}
    accuracy = ", ".join(f"{word}:{ACCURACY[word]}" for word in variant.accuracy)
    values["accuracy"] = f"accuracy = {accuracy}" if accuracy else ""
    values["signer_digest"] = variant.digest if variant.digest != "sha1" else "sha256"
    return (DATA_FILES / "stamps.cnf").read_text().format(name=name, **values)


# A request, the response to it, the token in that, and what OpenSSL prints of it.
Made = namedtuple("Made", "request response token printed")


def made(tools, name, variant):
    certificates, nonce = " -cert" if variant.certificates else "", "" if variant.nonce else " -no_nonce"
    query = f"openssl ts -query -data content.txt -{variant.digest} -tspolicy {variant.policy}{certificates}{nonce}"
    tools.make(f"{query} -out {name}.tsq")
    tools.make(f"openssl ts -reply -queryfile {name}.tsq -section {name} -out {name}.tsr")
    reads = f"openssl ts -reply -in {name}.tsr"
    token, printed = tools.make(f"{reads} -token_out"), tools.make(f"{reads} -text").decode()
    return Made(tools.read(f"{name}.tsq"), tools.read(f"{name}.tsr"), token, printed)


def make_all(tools):
    set_up(tools)
    tools.write("openssl.cnf", (CONFIGURATION + "".join(section_of(name, variant) for name, variant in variants())).encode())
    return {name: made(tools, name, variant) for name, variant in variants()}


# ---- one field of a TSTInfo changed

MEMBERS = ("version", "policy", "imprint", "serial", "time", "accuracy", "ordering", "nonce", "tsa")  # of a TSTInfo without extensions


def members_changed(tst_info):
    """Gives a name, the index of a member of the TSTInfo, what takes its place, and whether the whole is a TSTInfo then."""
    members = dict(zip(MEMBERS, (it.hex() for it in octets_of(element_at(tst_info, 0).members))))
    changed = tomllib.loads((DATA_FILES / "tst-infos.toml").read_text())
    for name, (member, octets, is_right) in changed["members"].items():
        yield name, MEMBERS.index(member), bytes.fromhex(octets.format(**members)), is_right
    for text, is_right in changed["times"].items():
        yield f"time-{text}", MEMBERS.index("time"), written(GENERALIZED_TIME, text.encode()), is_right


def imprints(imprint):
    """Gives a name, an imprint in place of one of the data by SHA-256, and the findings on the message."""
    hashed = element_at(imprint, 0).members[1].octets
    of_data = {name: hashlib.new(name, DATA).digest() for name in OIDS}
    for name, digest in of_data.items():
        yield f"imprint-by-{name}", imprint_of(oid_of(name), digest), []
    yield "imprint-without-parameters", with_member(imprint, 0, written(SEQUENCE, oid_of("sha256"))), []
    yield "imprint-by-unknown-algorithm", imprint_of(ID_UNKNOWN, of_data["sha256"]), ["8"]
    yield "imprint-by-another-algorithm", imprint_of(oid_of("sha512_256"), of_data["sha256"]), ["14"]
    yield "imprint-changed", imprint_of(oid_of("sha256"), flipped(of_data["sha256"])), ["14"]
    yield "imprint-short", imprint_of(oid_of("sha256"), of_data["sha256"][:-1]), ["14"]
    yield "imprint-long", imprint_of(oid_of("sha256"), of_data["sha256"] + b"\0"), ["14"]
    yield "imprint-empty", imprint_of(oid_of("sha256"), b""), ["14"]
    yield "imprint-in-segments", with_member(imprint, 1, written(0x24, hashed)), ["13"]
    yield "imprint-absent", b"", ["13"]


def imprint_of(algorithm, digest):
    return written(SEQUENCE, written(SEQUENCE, algorithm + bytes.fromhex("0500")) + written(OCTET_STRING, digest))


def contents_changed(tst_info):
    """Gives a name, a content in place of a TSTInfo that has all fields but extensions, and the findings on the message."""
    for name, index, octets, is_right in members_changed(tst_info):
        yield name, with_member(tst_info, index, octets), [] if is_right else ["13"]
    at = MEMBERS.index("imprint")
    for name, imprint, findings in imprints(element_at(tst_info, 0).members[at].octets):
        yield name, with_member(tst_info, at, imprint), findings
    contents = element_at(tst_info, 0).contents
    for name, octets in (  # that differ little from the TSTInfo, but are none in DER
        ("length-too-long", bytes([SEQUENCE, 0x83]) + len(contents).to_bytes(3, "big") + contents),
        ("length-indefinite", bytes([SEQUENCE, 0x80]) + contents + bytes(2)), ("octet-after", tst_info + b"\0"),
        ("octet-missing", tst_info[:-1]), ("another-identifier", bytes([SET]) + tst_info[1:]), ("empty", b""),
    ):
        yield name, octets, ["13"]
