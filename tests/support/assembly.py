"""Of which pieces of a message its DER is put together, by a reader of its own that shares nothing with the library.

It trusts that the library accepts the message: it looks at headers, and checks nothing. A piece is a place in the message, as where it begins
and ends, or octets that are made.
"""

from elements import header
from walk import COUNTERSIGNATURE, Walk, dotted


def octets_of(octets, pieces):
    return b"".join(it if isinstance(it, bytes) else octets[slice(*it)] for it in pieces)


def joined(pieces):
    """Returns as few pieces as can be: neighbours in the message, and made octets one after another, are one."""
    found = []
    for piece in pieces:
        last = found[-1] if found else None
        if isinstance(piece, bytes):
            if isinstance(last, bytes):
                found[-1] = last + piece
            elif piece:
                found.append(piece)
        elif isinstance(last, tuple) and last[1] == piece[0]:
            found[-1] = (last[0], piece[1])
        elif piece[0] < piece[1]:
            found.append(piece)
    return found


def alike(one, other):
    """Returns how many of the first octets are equal."""
    return next((at for at, (a, b) in enumerate(zip(one, other)) if a != b), min(len(one), len(other)))


def absorbed(octets, pieces):
    """Returns pieces of which made octets that lie in the message beside what is copied are copied too: first those before it, and then those after it."""
    before = []
    for number, piece in enumerate(pieces):
        following = pieces[number + 1] if number + 1 < len(pieces) else None
        if isinstance(piece, bytes) and following is not None:
            begin = following[0]
            count = alike(piece[::-1], octets[:begin][::-1])
            before += [piece[: len(piece) - count], (begin - count, begin)]
        else:
            before.append(piece)
    after = []
    for piece in joined(before):
        if isinstance(piece, bytes) and after:
            end = after[-1][1]
            count = alike(piece, octets[end:])
            after += [(end, end + count), piece[count:]]
        else:
            after.append(piece)
    return joined(after)


class Assembly(Walk):
    """Reads octets, and returns of each field the pieces of its DER."""

    def copied(self, begin, end):
        return [(begin, end)]

    def opaque(self, at):
        return self.copied(at, self.end(at))

    def around(self, identifier, *parts):
        """Returns an element that holds these parts."""
        contents = [piece for part in parts for piece in part]
        return [header(identifier, len(octets_of(self.octets, contents))), *contents]

    def primitive(self, at):
        return self.around(self.octets[at], self.copied(*self.header(at)))

    def text(self, at):
        """A string, which may be in segments."""
        return self.around(self.octets[at] & 0xDF, *(self.copied(*it) for it in self.segments(at)))

    def sorted_set(self, at, of_member):
        parts = [of_member(it) for it in self.members(at)]
        return self.around(self.octets[at], *sorted(parts, key=lambda part: octets_of(self.octets, part)))

    def algorithm_identifier(self, at):
        oid, *parameters = self.members(at)
        return self.around(0x30, self.primitive(oid), *map(self.opaque, parameters))

    # ---- signed messages

    def unsigned_attribute(self, at):
        oid, values = self.members(at)
        is_countersignature = dotted(self.octets[slice(*self.header(oid))]) == COUNTERSIGNATURE
        return self.around(0x30, self.primitive(oid), self.sorted_set(values, self.signer_info if is_countersignature else self.opaque))

    def signer_identifier(self, at):
        if self.octets[at] != 0x30:
            return self.text(at)
        issuer, number = self.members(at)
        return self.around(0x30, self.opaque(issuer), self.primitive(number))

    def signer_info(self, at):
        version, sid, digest, *others = self.members(at)
        parts = [self.primitive(version), self.signer_identifier(sid), self.algorithm_identifier(digest)]
        if self.octets[others[0]] == 0xA0:
            parts.append(self.opaque(others.pop(0)))
        algorithm, signature, *attributes = others
        parts += [self.algorithm_identifier(algorithm), self.text(signature), *(self.sorted_set(it, self.unsigned_attribute) for it in attributes)]
        return self.around(0x30, *parts)

    def content_info(self, at):
        oid, content = self.members(at)
        (signed_data,) = self.members(content)
        version, digests, encapsulated, *others, signers = self.members(signed_data)
        content_type, *contents = self.members(encapsulated)
        strings = [self.around(0xA0, *map(self.text, self.members(it))) for it in contents]
        parts = [self.primitive(version), self.sorted_set(digests, self.algorithm_identifier), self.around(0x30, self.primitive(content_type), *strings)]
        parts += [self.sorted_set(it, self.opaque) for it in others]
        parts.append(self.sorted_set(signers, self.signer_info))
        return self.around(0x30, self.primitive(oid), self.around(0xA0, self.around(0x30, *parts)))

    # ---- requests and responses

    def message_imprint(self, at):
        algorithm, hashed = self.members(at)
        return self.around(0x30, self.algorithm_identifier(algorithm), self.text(hashed))

    def true_or_absent(self, at):
        return [b"\x01\x01\xff"] if self.octets[self.header(at)[0]] else []

    def named_bits(self, at):
        begin, end = self.header(at)
        unused, number = self.octets[begin], int.from_bytes(self.octets[begin + 1 : end], "big")
        count = 8 * (end - begin - 1)
        number = number >> unused << unused
        if not number:
            return [b"\x03\x01\x00"]
        while number & 0xFF == 0:
            number, count = number >> 8, count - 8
        zeros = (number & -number).bit_length() - 1
        contents = bytes([zeros]) + number.to_bytes(count // 8, "big")
        return [header(0x03, len(contents)) + contents]

    def time_stamp_request(self, at):
        version, imprint, *others = self.members(at)
        read = {0x01: self.true_or_absent, 0xA0: self.opaque, 0x80: self.opaque}
        parts = [read.get(self.octets[it], self.primitive)(it) for it in others]
        return self.around(0x30, self.primitive(version), self.message_imprint(imprint), *parts)

    def time_stamp_response(self, at):
        info, *token = self.members(at)
        status, *others = self.members(info)
        parts = [(self.named_bits if self.octets[it] == 0x03 else self.opaque)(it) for it in others]
        return self.around(0x30, self.around(0x30, self.primitive(status), *parts), *map(self.content_info, token))

    def message(self):
        read = {0x06: self.content_info, 0x02: self.time_stamp_request}
        return read.get(self.octets[self.members(0)[0]], self.time_stamp_response)(0)


def pieces_of(octets):
    """Returns the pieces of the DER of a message."""
    return absorbed(octets, joined(Assembly(octets).message()))
