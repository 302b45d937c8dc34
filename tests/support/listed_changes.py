"""What conversion changes in a message, by a reader of its own that shares nothing with the library.

It trusts that the library accepts the message: it looks at headers, and checks nothing.
"""

from typing import NamedTuple

from assembly import pieces_of
from elements import length
from walk import COUNTERSIGNATURE, Walk, dotted

DEFINITE, FEWEST, INSIDE, JOINED, MOVED, BOOLEAN, OMITTED, BITS, UNUSED = range(1, 10)
NAMES = {
    DEFINITE: "length made definite", FEWEST: "length in fewest octets", INSIDE: "length of what is inside", JOINED: "segments joined", MOVED: "moved",
    BOOLEAN: "BOOLEAN", OMITTED: "default omitted", BITS: "trailing zero bits removed", UNUSED: "unused bits set to zero",
}
SETS = ["digestAlgorithms", "certificates", "crls", "signerInfos", "unsignedAttrs", "attrValues"]
SHOWN = 16  # octets at most


class Change(NamedTuple):
    """A change: what begins where in the message and in the DER, how many octets it has in both, two numbers, and the number of a set or 0."""

    kind: int
    at: int
    length: int
    to: int
    to_length: int
    first: int = 0
    second: int = 0
    set: int = 0


class Part(NamedTuple):
    """The DER of a field, and the changes in it, whose places in the DER count from its beginning."""

    der: bytes
    changes: list


def moved_on(changes, by):
    return [it._replace(to=it.to + by) for it in changes]


class Account(Walk):
    """Reads octets, and returns of each field its DER and what is changed."""

    def opaque(self, at):
        return Part(self.octets[at : self.end(at)], [])

    def header_change(self, at, made, contents):
        """Returns the changes of the header of an element, which is `made` in the DER, before so many contents octets."""
        begin, end = self.header(at)
        if end is None:
            return [Change(DEFINITE, at, begin - at, 0, made, contents, self.end(at) - 2)]
        if begin - at != 1 + len(length(end - begin)):
            return [Change(FEWEST, at, begin - at, 0, made, end - begin, contents)]
        return [Change(INSIDE, at, begin - at, 0, made, end - begin, contents)] if end - begin != contents else []

    def around(self, at, *parts):
        """Returns an element that holds these parts, in the order of the message."""
        return self.around_at(at, parts, parts)

    def around_at(self, at, parts, in_der):
        """The same if the DER has them in another order."""
        size = sum(len(part.der) for part in parts)
        header = self.octets[at : at + 1] + length(size)
        places, place = {}, len(header)
        for part in in_der:
            places[id(part)] = place
            place += len(part.der)
        inside = [change for part in parts for change in moved_on(part.changes, places[id(part)])]
        return Part(header + b"".join(part.der for part in in_der), self.header_change(at, len(header), size) + inside)

    def primitive(self, at):
        begin, end = self.header(at)
        der = self.octets[at : at + 1] + length(end - begin) + self.octets[begin:end]
        return Part(der, self.header_change(at, len(der) - (end - begin), end - begin))

    def text(self, at):
        """A string, which may be in segments."""
        if not self.octets[at] & 0x20:
            return self.primitive(at)
        segments = [self.octets[slice(*it)] for it in self.segments(at)]
        size = sum(map(len, segments))
        der = bytes([self.octets[at] & 0xDF]) + length(size) + b"".join(segments)
        return Part(der, [Change(JOINED, at, self.end(at) - at, 0, len(der), len(segments), size)])

    def sorted_set(self, at, name, of_member):
        places = self.members(at)
        parts = [of_member(it) for it in places]
        in_der = sorted(range(len(parts)), key=lambda number: parts[number].der)
        for new, old in enumerate(in_der):
            if new != old:
                begin = places[old]
                move = Change(MOVED, begin, self.end(begin) - begin, 0, len(parts[old].der), old, new, 1 + SETS.index(name))
                parts[old] = Part(parts[old].der, [move, *parts[old].changes])
        return self.around_at(at, parts, [parts[old] for old in in_der])

    def algorithm_identifier(self, at):
        oid, *parameters = self.members(at)
        return self.around(at, self.primitive(oid), *map(self.opaque, parameters))

    # ---- signed messages

    def unsigned_attribute(self, at):
        oid, values = self.members(at)
        is_countersignature = dotted(self.octets[slice(*self.header(oid))]) == COUNTERSIGNATURE
        of_value = self.signer_info if is_countersignature else self.opaque
        return self.around(at, self.primitive(oid), self.sorted_set(values, "attrValues", of_value))

    def signer_identifier(self, at):
        if self.octets[at] != 0x30:
            return self.text(at)
        issuer, number = self.members(at)
        return self.around(at, self.opaque(issuer), self.primitive(number))

    def signer_info(self, at):
        version, sid, digest, *others = self.members(at)
        parts = [self.primitive(version), self.signer_identifier(sid), self.algorithm_identifier(digest)]
        if self.octets[others[0]] == 0xA0:
            parts.append(self.opaque(others.pop(0)))
        algorithm, signature, *attributes = others
        parts += [self.algorithm_identifier(algorithm), self.text(signature)]
        parts += [self.sorted_set(it, "unsignedAttrs", self.unsigned_attribute) for it in attributes]
        return self.around(at, *parts)

    def content_info(self, at):
        oid, content = self.members(at)
        (signed_data,) = self.members(content)
        version, digests, encapsulated, *others, signers = self.members(signed_data)
        content_type, *contents = self.members(encapsulated)
        strings = [self.around(it, *map(self.text, self.members(it))) for it in contents]
        parts = [self.primitive(version), self.sorted_set(digests, "digestAlgorithms", self.algorithm_identifier)]
        parts.append(self.around(encapsulated, self.primitive(content_type), *strings))
        parts += [self.sorted_set(it, "certificates" if self.octets[it] == 0xA0 else "crls", self.opaque) for it in others]
        parts.append(self.sorted_set(signers, "signerInfos", self.signer_info))
        return self.around(at, self.primitive(oid), self.around(content, self.around(signed_data, *parts)))

    # ---- requests and responses

    def message_imprint(self, at):
        algorithm, hashed = self.members(at)
        return self.around(at, self.algorithm_identifier(algorithm), self.text(hashed))

    def true_or_absent(self, at):
        begin, end = self.header(at)
        old = self.octets[begin]
        if not old:
            return Part(b"", [Change(OMITTED, at, end - at, 0, 0)])
        changes = self.header_change(at, 2, 1)
        return Part(b"\x01\x01\xff", changes + ([Change(BOOLEAN, begin, 1, 2, 1, old, 255)] if old != 255 else []))

    def named_bits(self, at):
        begin, end = self.header(at)
        unused, contents = self.octets[begin], self.octets[begin + 1 : end]
        given = "".join(f"{octet:08b}" for octet in contents)[: 8 * len(contents) - unused]
        bits = given.rstrip("0")
        padded = bits + "0" * (-len(bits) % 8)
        made = bytes([len(padded) - len(bits), *(int(padded[it : it + 8], 2) for it in range(0, len(padded), 8))])
        der = b"\x03" + length(len(made)) + made
        kind = BITS if bits != given else UNUSED
        if made == self.octets[begin:end]:
            return Part(der, self.header_change(at, len(der) - len(made), len(made)))
        return Part(der, [Change(kind, at, end - at, 0, len(der), len(given), len(bits))])

    def time_stamp_request(self, at):
        version, imprint, *others = self.members(at)
        read = {0x01: self.true_or_absent, 0xA0: self.opaque, 0x80: self.opaque}
        parts = [read.get(self.octets[it], self.primitive)(it) for it in others]
        return self.around(at, self.primitive(version), self.message_imprint(imprint), *parts)

    def time_stamp_response(self, at):
        info, *token = self.members(at)
        status, *others = self.members(info)
        parts = [(self.named_bits if self.octets[it] == 0x03 else self.opaque)(it) for it in others]
        return self.around(at, self.around(info, self.primitive(status), *parts), *map(self.content_info, token))

    def message(self):
        read = {0x06: self.content_info, 0x02: self.time_stamp_request}
        return read.get(self.octets[self.members(0)[0]], self.time_stamp_response)(0)


def changes_of(octets):
    """Returns the DER of a message, and its changes."""
    return Account(octets).message()


def copied_of(octets):
    """Returns how many octets of the DER of a message are copied from it."""
    return sum(it[1] - it[0] for it in pieces_of(octets) if isinstance(it, tuple))


# ---- the text, and what JSON says

def shown(octets):
    return octets[:SHOWN].hex(" ") + (" .." if len(octets) > SHOWN else "")


def counted(count, name):
    return f"{count} {name}" if count == 1 else f"{count} {name}s"


def line_of(change, octets, der):
    before, after = octets[change.at :][: change.length], der[change.to :][: change.to_length]
    if change.kind == JOINED:
        said = f": {counted(change.first, 'segment')}, {counted(change.second, 'octet')}"
    elif change.kind == MOVED:
        said = f" from member {change.first} to member {change.second} of {SETS[change.set - 1]}"
    elif change.kind == OMITTED:
        said = f": {shown(before)}"
    else:
        said = f"{'' if change.kind == BOOLEAN else ':'} {shown(before)} -> {shown(after)}"
    return f"at {change.at} {NAMES[change.kind]}{said}\n"


def text_of(octets):
    """Returns the text of the changes of a message."""
    der, changes = changes_of(octets)
    if not changes:
        return "no change\n"
    last = f"{len(octets)} octets in, {len(der)} out, {copied_of(octets)} of them from the input, {counted(len(changes), 'change')}\n"
    return "".join(line_of(it, octets, der) for it in changes) + last


def said_of(change, octets, der):
    """Returns what JSON says of a change."""
    said = {"change": NAMES[change.kind], "at": change.at, "length": change.length, "to": change.to, "to_length": change.to_length}
    before, after = octets[change.at :][: change.length][:SHOWN].hex(), der[change.to :][: change.to_length][:SHOWN].hex()
    if change.kind == JOINED:
        return {**said, "segments": change.first, "octets": change.second}
    if change.kind == MOVED:
        return {**said, "from_member": change.first, "to_member": change.second, "set": SETS[change.set - 1]}
    said["before"] = before
    if change.kind != OMITTED:
        said["after"] = after
    if change.kind == DEFINITE:
        said["end_of_contents"] = change.second
    if change.kind in (BITS, UNUSED):
        said.update(bits_before=change.first, bits_after=change.second)
    return said


def json_of(octets):
    """Returns what the JSON of the changes of a message says."""
    der, changes = changes_of(octets)
    numbers = {"octets_in": len(octets), "octets_out": len(der), "from_input": copied_of(octets)}
    return {"changes": [said_of(it, octets, der) for it in changes], **numbers}
