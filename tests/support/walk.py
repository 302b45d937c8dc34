"""The fields of a message, by a reader of its own that shares nothing with the library: their rows, as cms_canon_fields writes
them, and their values, by the names that the Python package has for them.

It trusts that the library accepts the message: it looks at headers, and checks nothing.
"""

import re
from datetime import datetime, timezone
from pathlib import Path
from typing import NamedTuple


HEADER = Path(__file__).resolve().parents[2] / "bindings" / "c" / "cms_canon.h"
KINDS = {name: int(number, 16) for name, number in re.findall(r"\bCMS_CANON_KIND_(\w+) = (0x..)\b", HEADER.read_text())}

COUNTERSIGNATURE = "1.2.840.113549.1.9.6"
TST_INFO = "1.2.840.113549.1.9.16.1.4"


class Row(NamedTuple):
    start: int
    length: int
    kind: int
    level: int


def dotted(contents):
    """Returns the text of an OBJECT IDENTIFIER, as in a listing."""
    arcs = [0]
    for octet in contents:
        arcs[-1] = arcs[-1] * 128 + octet % 128
        if octet < 128:
            arcs.append(0)
    arcs.pop()
    if max(arcs) >= 1 << 64:
        return f"hex:{contents.hex()}"
    top = min(arcs[0] // 40, 2)
    return ".".join(map(str, [top, arcs[0] - 40 * top, *arcs[1:]]))


def contents_of_integer(number):
    octets = (number if number >= 0 else ~number).bit_length() // 8 + 1
    return number.to_bytes(octets, "big", signed=True)


def time_of(text):
    """Returns a time, or None in the year 0000, which Python does not know."""
    digits, _, fraction = text.rstrip("Z").partition(".")
    if digits.startswith("0000"):
        return None
    moment = datetime(*map(int, re.fullmatch("(....)(..)(..)(..)(..)(..)", digits).groups()), tzinfo=timezone.utc)
    return moment.replace(microsecond=int(f"{fraction}000000"[:6]))


def bits_of(contents):
    unused, number = contents[0], int.from_bytes(contents[1:], "big")
    count = 8 * len(contents[1:])
    return tuple(bit for bit in range(count - unused) if number >> (count - 1 - bit) & 1)


def countersignatures_of(signer):
    return [it for attribute in signer["unsigned_attributes"] or [] for it in attribute["countersignatures"]]


class Walk:
    """Reads octets, and keeps the rows of what it reads."""

    def __init__(self, octets):
        self.octets, self.rows = octets, []

    # ---- elements, by the places where they begin

    def header(self, at):
        """Returns where the contents of an element begin, and where they end: None if their length is indefinite."""
        if self.octets[at] & 0x1F == 0x1F:
            at += 1
            while self.octets[at] & 0x80:
                at += 1
        first, begin = self.octets[at + 1], at + 2
        if first == 0x80:
            return begin, None
        if first > 0x80:
            begin += first - 0x80
            first = int.from_bytes(self.octets[at + 2 : begin], "big")
        return begin, begin + first

    def end(self, at):
        begin, end = self.header(at)
        if end is not None:
            return end
        while self.octets[begin : begin + 2] != b"\0\0":
            begin = self.end(begin)
        return begin + 2

    def members(self, at):
        begin, end = self.header(at)
        found = []
        while begin < end if end is not None else self.octets[begin : begin + 2] != b"\0\0":
            found.append(begin)
            begin = self.end(begin)
        return found

    def by_identifier(self, places):
        """Returns the place of each element by its identifier octet, as if it were primitive."""
        return {self.octets[at] & 0xDF: at for at in places}

    # ---- fields: each method adds the rows of one, and returns its value

    def add(self, kind, level, start=0, end=0):
        self.rows.append(Row(start, end - start, KINDS[kind], level))
        return self.octets[start:end]

    def contents(self, at, kind, level):
        return self.add(kind, level, *self.header(at))

    def element(self, at, kind, level):
        return self.add(kind, level, at, self.end(at))

    def integer(self, at, kind, level):
        return int.from_bytes(self.contents(at, kind, level), "big", signed=True)

    def oid(self, at, kind, level):
        return dotted(self.contents(at, kind, level))

    def segments(self, at):
        if self.octets[at] & 0x20:
            return [it for member in self.members(at) for it in self.segments(member)]
        return [self.header(at)]

    def string(self, at, kind, level):
        return b"".join([self.add(kind, level, *place) for place in self.segments(at) or [()]])

    def algorithm(self, at, kind, level):
        oid, *parameters = self.members(at)
        oid = self.oid(oid, kind, level)
        return {"oid": oid, "parameters": self.element(*parameters, "PARAMETERS", level + 1) if parameters else None}

    def attribute(self, at, level, may_countersign, signature):
        oid, values = self.members(at)
        name = self.oid(oid, "ATTRIBUTE", level)
        if may_countersign and name == COUNTERSIGNATURE:
            signers = [self.signer(it, "COUNTERSIGNATURE", level + 1, signature) for it in self.members(values)]
            return {"oid": name, "values": [], "countersignatures": signers}
        opaque = [self.element(it, "VALUE", level + 1) for it in self.members(values)]
        return {"oid": name, "values": opaque, "countersignatures": []}

    def signer(self, at, kind, level, signed):
        """`signed` is what the signature covers if there are no signed attributes; None if this is not known."""
        version, sid, digest, *others = self.members(at)
        inner, it = level + 1, {}
        self.add(kind, level)
        it["version"] = self.integer(version, "SIGNER_VERSION", inner)
        it.update(self.identifier(sid, inner))
        it["digest_algorithm"] = self.algorithm(digest, "SIGNER_DIGEST_ALGORITHM", inner)
        it["signed_attributes"], it["covered"] = None, signed
        if self.octets[others[0]] == 0xA0:
            attributes = others.pop(0)
            it["covered"] = b"\x31" + self.element(attributes, "SIGNED_ATTRIBUTES", inner)[1:]
            it["signed_attributes"] = [self.attribute(one, inner + 1, False, b"") for one in self.members(attributes)]
        it["signature_algorithm"] = self.algorithm(others[0], "SIGNATURE_ALGORITHM", inner)
        it["signature"] = self.string(others[1], "SIGNATURE", inner)
        it["unsigned_attributes"] = None
        for attributes in others[2:]:
            self.add("UNSIGNED_ATTRIBUTES", inner)
            it["unsigned_attributes"] = [self.attribute(one, inner + 1, True, it["signature"]) for one in self.members(attributes)]
        return it

    def identifier(self, sid, level):
        if self.octets[sid] != 0x30:
            key = self.string(sid, "SUBJECT_KEY_IDENTIFIER", level)
            return {"issuer": None, "serial_number": None, "subject_key_identifier": key}
        issuer, number = self.members(sid)
        issuer = self.element(issuer, "ISSUER", level)
        return {"issuer": issuer, "serial_number": self.integer(number, "SERIAL_NUMBER", level), "subject_key_identifier": None}

    def set_of(self, at, kind, member, level):
        self.add(kind, level)
        return [self.element(it, member, level + 1) for it in self.members(at)]

    def signed_data(self, content_info, level, detached=None):
        (at,) = self.members(self.members(content_info)[1])
        version, digests, encapsulated, *others, signers = self.members(at)
        inner, it = level + 1, {}
        self.add("SIGNED_DATA", level)
        it["version"] = self.integer(version, "VERSION", inner)
        it["digest_algorithms"] = [self.algorithm(one, "DIGEST_ALGORITHM", inner) for one in self.members(digests)]
        content_type, *content = self.members(encapsulated)
        it["content_type"], it["content"] = self.oid(content_type, "CONTENT_TYPE", inner), None
        for explicit in content:
            it["content"] = self.string(*self.members(explicit), "CONTENT", inner)
        it["certificates"] = it["crls"] = None
        for other in others:
            name, member = ("certificates", "CERTIFICATE") if self.octets[other] == 0xA0 else ("crls", "CRL")
            it[name] = self.set_of(other, f"{member}S", member, inner)
        signed = detached if it["content"] is None else it["content"]
        it["signers"] = [self.signer(one, "SIGNER", inner, signed) for one in self.members(signers)]
        return it

    def imprint(self, at, level):
        algorithm, hashed = self.members(at)
        algorithm = self.algorithm(algorithm, "HASH_ALGORITHM", level)
        return {"hash_algorithm": algorithm, "hashed_message": self.string(hashed, "HASHED_MESSAGE", level)}

    def optional(self, places, identifier, read, kind, level=1):
        """Reads an optional field, None if it is absent, by its identifier octet as if it were primitive."""
        return read(places[identifier], kind, level) if identifier in places else None

    def request(self, at):
        version, imprint, *others = self.members(at)
        optional, it = self.by_identifier(others), {}
        self.add("REQUEST", 0)
        it["version"] = self.integer(version, "REQUEST_VERSION", 1)
        it["imprint"] = self.imprint(imprint, 1)
        it["policy"] = self.optional(optional, 0x06, self.oid, "REQUEST_POLICY")
        it["nonce"] = self.optional(optional, 0x02, self.integer, "REQUEST_NONCE")
        it["cert_req"] = 0x01 in optional and self.octets[self.header(optional[0x01])[0]] != 0
        if it["cert_req"]:
            self.add("CERT_REQ", 1)
        it["extensions"] = self.optional(optional, 0x80, self.element, "REQUEST_EXTENSIONS")
        return it

    def response(self, at, detached=None):
        info, *token = self.members(at)
        status, *others = self.members(info)
        optional, it = self.by_identifier(others), {}
        self.add("RESPONSE", 0)
        it["status"] = self.integer(status, "STATUS", 1)
        it["status_string"] = self.optional(optional, 0x10, self.element, "STATUS_STRING")
        it["fail_info"] = bits_of(self.contents(optional[0x03], "FAIL_INFO", 1)) if 0x03 in optional else None
        it["token"] = self.signed_data(*token, 1, detached) if token else None
        return it

    def accuracy(self, at):
        optional = self.by_identifier(self.members(at))
        self.add("ACCURACY", 1)
        names = {"seconds": 0x02, "millis": 0x80, "micros": 0x81}
        return {name: self.optional(optional, it, self.integer, name.upper(), 2) for name, it in names.items()}

    def tst_info(self):
        version, policy, imprint, serial, time, *others = self.members(0)
        optional, it = self.by_identifier(others), {}
        self.add("TST_INFO", 0)
        it["version"] = self.integer(version, "TST_VERSION", 1)
        it["policy"] = self.oid(policy, "TST_POLICY", 1)
        it["imprint"] = self.imprint(imprint, 1)
        it["serial_number"] = self.integer(serial, "TST_SERIAL_NUMBER", 1)
        it["gen_time_text"] = self.contents(time, "GEN_TIME", 1).decode()
        it["gen_time"] = time_of(it["gen_time_text"])
        it["accuracy"] = self.accuracy(optional[0x10]) if 0x10 in optional else None
        it["ordering"] = 0x01 in optional
        if it["ordering"]:
            self.add("ORDERING", 1)
        it["nonce"] = self.optional(optional, 0x02, self.integer, "TST_NONCE")
        it["tsa"] = self.optional(optional, 0x80, self.element, "TSA")
        it["extensions"] = self.optional(optional, 0x81, self.element, "TST_EXTENSIONS")
        return it


def fields_of(octets, detached=None):
    """Returns the rows of a message, its kind, and its values: those of the SignedData, the request or the response."""
    walk = Walk(octets)
    first = octets[walk.members(0)[0]]
    if first == 0x06:
        return walk.rows, "signed-data", walk.signed_data(0, 0, detached)
    if first == 0x02:
        return walk.rows, "request", walk.request(0)
    return walk.rows, "response", walk.response(0, detached)


def fields_of_tst_info(octets):
    walk = Walk(octets)
    return walk.rows, walk.tst_info()
