"""Makes messages at random, and spells each in BER at random.

A message is made of parts, each with two spellings: `der`, and `ber`, which takes the liberties that BER gives: lengths in more
octets than they need or indefinite, the members of sets in any order, strings in segments, TRUE by any octet but 00, FALSE
written out, zeros after named bits and any unused bits. What a signature covers is put together beside them. All of it is
written anew from the standards, and shares nothing with the program. The same seed makes the same messages.

Signers carry countersignatures, nested down to depth 4. Some messages have a fault in a signer or in a countersignature, such as
a countersignature at depth 5. A mark follows right after the octets that show the fault: its text is the refusal, and its place
is the number of octets taken. All of this is tallied as it is spelled.
"""

import copy
import re
from collections import Counter, namedtuple
from random import Random

from elements import ID_CT_TST_INFO, ID_SIGNED_DATA, element, length

SEED = 5652
MOST_LEVELS = 8  # constructed encodings of a string inside one another
MOST_DEPTH = 4  # of a countersignature; that of a signer is at depth 1
LONG_CONTENT = 300_000  # octets, more than are copied before they are written
COUNTERSIGNATURE = bytes.fromhex("2a864886f70d010906")
NEARLY_COUNTERSIGNATURE = (COUNTERSIGNATURE[:-1], COUNTERSIGNATURE[:-1] + b"\7", COUNTERSIGNATURE + b"\1")
MARK = re.compile(rb"\x02.(refused E[0-9]+ [A-Za-z]+ at)", re.DOTALL)

spelled = Counter()  # what was spelled in BER, by its name


def beginning():
    """Returns what chooses at random, and forgets what was spelled before: a fault is chosen by that too, so the same messages come each time."""
    spelled.clear()
    return Random(SEED)


def any_element(random, identifier, contents):
    """Spells an element in BER. A constructed one may be indefinite."""
    if identifier & 0x20 and random.random() < 0.5:
        return bytes([identifier, 0x80]) + contents + b"\0\0"
    count = len(contents)  # whose octets may have leading zeros, up to eight octets after the first
    fewest = (count.bit_length() + 7) // 8
    more = random.randint(max(fewest, 1), 8)
    return bytes([identifier]) + random.choice([length(count), bytes([0x80 + more]) + count.to_bytes(more, "big")]) + contents


class AsItStands:
    """Octets that have one spelling: what is opaque, and signed attributes."""

    def __init__(self, octets):
        self.octets = octets

    def der(self):
        return self.octets

    def ber(self, random):
        return self.octets


class Primitive:
    def __init__(self, identifier, contents):
        self.identifier, self.contents = identifier, contents

    def der(self):
        return element(self.identifier, self.contents)

    def ber(self, random):
        return any_element(random, self.identifier, self.contents)


class Sequence:
    """Parts in their order; None is an absent one."""

    def __init__(self, *parts, identifier=0x30):
        self.identifier, self.parts = identifier, [part for part in parts if part is not None]

    def der(self):
        return element(self.identifier, b"".join(part.der() for part in self.parts))

    def ber(self, random):
        return any_element(random, self.identifier, b"".join(part.ber(random) for part in self.parts))


class SetOf:
    def __init__(self, members, identifier=0x31):
        self.identifier, self.members = identifier, members

    def der(self):
        return element(self.identifier, b"".join(sorted(member.der() for member in self.members)))

    def any_order(self, random):
        return random.sample(self.members, len(self.members))

    def ber(self, random):
        return any_element(random, self.identifier, b"".join(member.ber(random) for member in self.any_order(random)))


class OctetString:
    def __init__(self, octets, identifier=0x04):
        self.identifier, self.octets = identifier, octets

    def der(self):
        return element(self.identifier, self.octets)

    def ber(self, random, levels=MOST_LEVELS):
        if levels == 0 or random.random() < 0.5:
            return any_element(random, self.identifier, self.octets)
        ends = sorted(random.randint(0, len(self.octets)) for _ in range(random.randint(0, 3)))
        pieces = [self.octets[start:end] for start, end in zip([0, *ends], [*ends, len(self.octets)])]
        segments = [OctetString(piece).ber(random, levels - 1) for piece in pieces if piece or random.random() < 0.5]
        return any_element(random, self.identifier | 0x20, b"".join(segments))


class TrueOrAbsent:
    """BOOLEAN DEFAULT FALSE."""

    def __init__(self, truth):
        self.truth = truth

    def der(self):
        return bytes([0x01, 0x01, 0xFF]) if self.truth else b""

    def ber(self, random):
        if self.truth:
            return any_element(random, 0x01, bytes([random.randint(1, 255)]))
        return random.choice([b"", any_element(random, 0x01, b"\0")])


class NamedBits:
    """A BIT STRING with named bits, by the list of these up to the last that is set."""

    def __init__(self, bits):
        self.bits = bits

    def spelled(self, bits, unused_bits):
        unused = -len(bits) % 8
        number = int("0" + "".join(map(str, bits)), 2) << unused | unused_bits & ((1 << unused) - 1)
        return bytes([unused]) + number.to_bytes((len(bits) + unused) // 8, "big")

    def der(self):
        return element(0x03, self.spelled(self.bits, 0))

    def ber(self, random):
        zeros = [0] * random.choice([0, 0, 1, 7, 8, 17])
        return any_element(random, 0x03, self.spelled(self.bits + zeros, random.randint(0, 255)))


class Countersignatures(SetOf):
    """The values of a countersignature attribute of a signer at this depth."""

    def __init__(self, depth, members):
        super().__init__(members)
        self.depth = depth

    def any_order(self, random):
        members = super().any_order(random)
        encodings = [member.der() for member in members]
        spelled[f"no countersignature in an attribute, of a signer at depth {self.depth}"] += not members
        spelled[f"countersignatures at depth {self.depth + 1} in another order than in DER"] += encodings != sorted(encodings)
        spelled["a countersignature twice"] += len(set(encodings)) < len(encodings)
        return members


class Tallied:
    """A part that is tallied each time it is spelled in BER."""

    def __init__(self, name, part):
        self.name, self.part = name, part

    def der(self):
        return self.part.der()

    def ber(self, random):
        octets = self.part.ber(random)
        spelled[self.name] += 1
        spelled[f"{self.name}, not in DER"] += octets != self.part.der()
        return octets


# ---- messages

def octets(random, most=12):
    return bytes(random.getrandbits(8) for _ in range(random.randint(0, most)))


def sometimes(random, make):
    return make() if random.random() < 0.5 else None


def several(random, make, fewest=0, most=4):
    """Returns some parts, at times one of them twice."""
    made = [make() for _ in range(random.randint(fewest, most))]
    return made + made[:1] if random.random() < 0.2 else made


def integer(random):
    return Primitive(0x02, random.choice([b"\0", b"\1", b"\3", b"\0\x80", b"\xff\x7f", b"\x7f" + octets(random, 20)]))


def identifier_of_an_object(random):
    return Primitive(0x06, bytes.fromhex(random.choice(["2a0304", "608648016503040201", "8100", "27ffff7f"])))


def opaque(random, identifiers=(0x02, 0x04, 0x05, 0x0C, 0x30, 0x31, 0x80, 0xA0, 0xA3), levels=3):
    """Returns an element with the framing of DER."""
    identifier = random.choice(identifiers)
    if not identifier & 0x20:
        return element(identifier, octets(random, 200))
    inner = [opaque(random, levels=levels - 1) for _ in range(random.randint(0, 3))] if levels else []
    return element(identifier, b"".join(inner))


def any_opaque(random, *identifiers):
    return AsItStands(opaque(random, identifiers) if identifiers else opaque(random))


def algorithm(random):
    return Sequence(identifier_of_an_object(random), sometimes(random, lambda: any_opaque(random)))


def signer_identifier(random):
    if random.random() < 0.5:
        return OctetString(octets(random), identifier=0x80)
    return Sequence(any_opaque(random, 0x30), integer(random))


def attribute(random):
    """Returns an attribute with opaque values. Its type is not countersignature, but at times nearly so."""
    values = SetOf(several(random, lambda: any_opaque(random)))
    if random.random() < 0.9:
        return Sequence(identifier_of_an_object(random), values)
    kind = Primitive(0x06, random.choice(NEARLY_COUNTERSIGNATURE))
    return Tallied("an attribute whose type is nearly countersignature", Sequence(kind, values))


def signed_attributes(random, depth):
    """Returns the signed attributes of a signer at this depth: octets that have one spelling."""
    made = several(random, lambda: attribute(random), fewest=1)
    if depth > 0 or random.random() < 0.8:
        return AsItStands(SetOf(made, identifier=0xA0).der())
    # One more has values of any kind, and countersignatures at any depth, as signed attributes may.
    too_deep, _ = signer(random, 1, Fault("version", MOST_DEPTH + 2, integer(random)))
    values = [AsItStands(too_deep.der()), *several(random, lambda: any_opaque(random), most=2)]
    made.append(Sequence(Primitive(0x06, COUNTERSIGNATURE), SetOf(values)))
    return Tallied("countersignatures among signed attributes", AsItStands(SetOf(made, identifier=0xA0).der()))


def countersignature_attribute(random, depth, *more):
    """Returns a countersignature attribute of a signer at this depth. `more` are further values."""
    made = several(random, lambda: signer(random, depth + 1)[0], most=2) if depth < MOST_DEPTH else []
    return Sequence(Primitive(0x06, COUNTERSIGNATURE), Countersignatures(depth, [*made, *more]))


def unsigned_attributes(random, depth, fault):
    """Returns the unsigned attributes of a signer at this depth. If there is a fault, one of them has it."""
    holding = several(random, lambda: countersignature_attribute(random, depth), most=2 if depth == 0 else 1)
    others = several(random, lambda: attribute(random), fewest=0 if holding else 1, most=3)
    if fault is not None and (fault.place, fault.depth) == ("attribute", depth):
        others.append(fault.part)
    elif fault is not None:
        value = fault.part if fault.depth == depth else signer(random, depth + 1, fault)[0]
        holding.append(countersignature_attribute(random, depth, value))
    made = SetOf([*holding, *others], identifier=0xA1)
    return Tallied("several countersignature attributes of a signer", made) if len(holding) > 1 else made


def signer(random, depth=0, fault=None):
    """Returns a SignerInfo, and its signed attributes in DER or None. Below depth 0 it is a countersignature.

    If there is a fault, the SignerInfo or one of its countersignatures has it.
    """
    signed = sometimes(random, lambda: signed_attributes(random, depth))
    fields = {
        "version": integer(random), "sid": signer_identifier(random), "digest algorithm": algorithm(random),
        "signed attributes": signed, "signature algorithm": algorithm(random), "signature": OctetString(octets(random, 300)),
        "unsigned attributes": None,
    }
    if fault is not None and fault.depth == depth and fault.place in fields:
        fields[fault.place] = fault.part
    elif fault is not None or random.random() < 0.5:
        fields["unsigned attributes"] = unsigned_attributes(random, depth, fault)
    made = Sequence(*fields.values())
    if depth > 0:
        with_signed = "" if signed is None else " with signed attributes"
        made = Tallied(f"a countersignature{with_signed} at depth {depth}", made)
    return made, None if signed is None else signed.der()


def choices(random, identifier, allowed):
    return SetOf(several(random, lambda: any_opaque(random, *allowed)), identifier)


def signed_message(random):
    """Returns a ContentInfo, its detached content or None, and what each signature covers, in the order of the DER."""
    content = octets(random, LONG_CONTENT if random.random() < 0.05 else 3000)
    is_attached = random.random() < 0.7
    made = [signer(random) for _ in range(random.randint(0, 3))]
    if random.random() < 0.3:
        # It has E19, or the fault that was spelled the fewest times so far.
        rarest = min([*FAULTS, *AT_DEPTH_5], key=lambda fault: spelled[fault_name(*fault[:3])])
        reason, place, depths, make = random.choice([rarest, random.choice(AT_DEPTH_5[:2])])
        part = make(random, element(0x02, f"refused {reason} at".encode()))
        made.append(signer(random, fault=Fault(place, random.choice(depths), Tallied(fault_name(reason, place, depths), part))))
    attached = Sequence(OctetString(content), identifier=0xA0) if is_attached else None
    signed_data = Sequence(
        integer(random),
        SetOf(several(random, lambda: algorithm(random))),
        Sequence(identifier_of_an_object(random), attached),
        sometimes(random, lambda: choices(random, 0xA0, (0x30, 0xA0, 0xA1, 0xA2, 0xA3))),
        sometimes(random, lambda: choices(random, 0xA1, (0x30, 0xA1))),
        SetOf([part for part, _ in made]),
    )
    message = Sequence(AsItStands(ID_SIGNED_DATA), Sequence(signed_data, identifier=0xA0))
    in_order = sorted(((part.der(), signed) for part, signed in made), key=lambda it: it[0])
    covers = [content if signed is None else b"\x31" + signed[1:] for _, signed in in_order]
    return message, None if is_attached else content, covers


def request(random):
    imprint = Sequence(algorithm(random), OctetString(octets(random, 64)))
    message = Sequence(
        integer(random), imprint, sometimes(random, lambda: identifier_of_an_object(random)),
        sometimes(random, lambda: integer(random)), TrueOrAbsent(random.random() < 0.5),
        sometimes(random, lambda: any_opaque(random, 0xA0)),
    )
    return message, None, []


def failure_info(random):
    is_empty = random.random() < 0.2
    return NamedBits([] if is_empty else [random.randint(0, 1) for _ in range(random.randint(0, 30))] + [1])


def response(random):
    info = Sequence(
        integer(random),
        sometimes(random, lambda: any_opaque(random, 0x30)),
        sometimes(random, lambda: failure_info(random)),
    )
    token, detached, covers = signed_message(random)
    if random.random() < 0.5:
        return Sequence(info), None, []
    return Sequence(info, token), detached, covers


# ---- tokens

def any_time(random):
    """Returns a time in DER, or a text that is nearly one, and whether it is one."""
    year, month, day = random.choice((0, 1, 1970, random.randrange(10000))), random.randint(1, 13), random.randint(1, 28)
    second, hour = random.choice((0, 59, 59, 60)), random.randrange(25)
    fraction = "".join(random.choices("0123456789", k=random.choice((0, 0, 1, 6, 7, 20))))
    text = f"{year:04}{month:02}{day:02}{hour:02}{random.randrange(60):02}{second:02}{f'.{fraction}' if fraction else ''}Z"
    return text, month <= 12 and hour <= 23 and second <= 59 and not fraction.endswith("0")


def any_tst_info(random):
    """Returns a TSTInfo in DER, or octets that are nearly one, and whether it is one."""
    time, is_time = any_time(random)
    numbers = {0x02: random.choice((0, 1, 1 << 70)), 0x80: random.choice((1, 999, 0, 1000)), 0x81: random.choice((1, 500, 999))}
    there = {identifier: number for identifier, number in numbers.items() if random.random() < 0.5}
    parts = [Primitive(it, number.to_bytes(number.bit_length() // 8 + 1, "big")) for it, number in there.items()]
    accuracy, is_accuracy = (Sequence(*parts), there.get(0x80, 1) in range(1, 1000)) if random.random() < 0.5 else (None, True)
    imprint = Sequence(algorithm(random), OctetString(octets(random, 64)))
    policy = identifier_of_an_object(random)
    fields = [integer(random), policy, imprint, integer(random), Primitive(0x18, time.encode()), accuracy]
    fields += [TrueOrAbsent(random.random() < 0.5), sometimes(random, lambda: integer(random))]
    fields += [sometimes(random, lambda: any_opaque(random, it)) for it in (0xA0, 0xA1)]
    return Sequence(*fields).der(), is_time and is_accuracy


def any_token(random):
    """Returns a token, its detached content or None, and what its signers cover, which is not looked at."""
    message, _, covers = signed_message(random)
    encapsulated = message.parts[1].parts[0].parts[2]
    content, _ = any_tst_info(random)
    encapsulated.parts = [Primitive(0x06, ID_CT_TST_INFO[2:]), Sequence(OctetString(content), identifier=0xA0)]
    return message, None, covers


# ---- faults

# A part that is not right, and where it stands: a field of the signer at this depth, one of its unsigned attributes ("attribute"), or
# a value of a countersignature attribute of its own ("value").
Fault = namedtuple("Fault", "place depth part")


def another_element(random, mark):
    identifier = random.choice([0x02, 0x04, 0x05, 0x10, 0x31, 0x3F, 0x80, 0xA0, 0xB0])
    if identifier == 0x3F:
        return AsItStands(b"\x3f\x80" + mark)  # malformed, which the second octet shows
    return Sequence(AsItStands(mark), identifier=identifier) if identifier & 0x20 else Primitive(identifier, mark)


def overrun(random, mark):
    """Returns a countersignature attribute with a value that goes past the attribute's end."""
    value = bytes.fromhex(random.choice(["307f", "30820100", "30880000000000000100"]))
    attribute = element(0x06, COUNTERSIGNATURE) + element(0x31, value)
    return AsItStands(element(0x30, attribute) + mark)


def not_framed(random, mark):
    header = bytes.fromhex(random.choice(["3080", "048103", "308200ff", "2403", "1003"]))
    kind = random.choice([*NEARLY_COUNTERSIGNATURE, b"\x2a\3\4"])
    return Sequence(Primitive(0x06, kind), SetOf([AsItStands(header + mark + bytes(255))]))


def out_of_order(random, mark):
    """Returns signed attributes of which one, or one of whose values, should not come after the one in front of it."""
    if random.random() < 0.5:
        kinds = (element(0x06, COUNTERSIGNATURE), element(0x06, NEARLY_COUNTERSIGNATURE[0]))
        return AsItStands(element(0xA0, b"".join(element(0x30, kind + b"\x31\0") for kind in kinds) + mark))
    values = element(0x04, b"\2") + element(0x04, b"\1") + mark
    return AsItStands(element(0xA0, element(0x30, element(0x06, COUNTERSIGNATURE) + element(0x31, values))))


def long_length(random, mark):
    return AsItStands(random.choice([b"\xa0\x80", b"\xa0\x81\3", b"\xa0\x0a\x30\x80", b"\xa0\x0a\x30\x82\0\3"]) + mark + bytes(9))


DEPTHS = range(MOST_DEPTH + 1)  # of signers and countersignatures
NO_ATTRIBUTES = [b"\xa1\0", b"\xa1\x82\0\0", b"\xa1\x80\0\0"]
FAULTS = [
    ("E3 LengthReserved", "value", DEPTHS, lambda random, mark: AsItStands(b"\x30\xff" + mark)),
    ("E4 LengthTooLong", "value", DEPTHS, lambda random, mark: AsItStands(b"\x30\x89" + mark)),
    ("E5 IndefinitePrimitive", "value", DEPTHS, lambda random, mark: AsItStands(b"\x10\x80" + mark)),
    ("E6 Overrun", "attribute", DEPTHS, overrun),
    ("E7 UnexpectedElement", "value", DEPTHS, another_element),
    ("E8 IntegerMalformed", "version", DEPTHS, lambda random, mark: AsItStands(b"\2\0" + mark)),
    ("E13 OpaqueNotDer", "attribute", DEPTHS, not_framed),
    ("E15 SignedAttrsNotDer", "signed attributes", DEPTHS, long_length),
    ("E15 SignedAttrsNotDer", "signed attributes", DEPTHS, out_of_order),
    ("E16 EmptyAttributes", "signed attributes", DEPTHS, lambda random, mark: AsItStands(b"\xa0\0" + mark)),
    ("E16 EmptyAttributes", "unsigned attributes", DEPTHS, lambda random, mark: AsItStands(random.choice(NO_ATTRIBUTES) + mark)),
]
AT_DEPTH_5 = [
    ("E19 CountersignTooDeep", "version", [MOST_DEPTH + 1], lambda random, mark: AsItStands(mark)),
    ("E19 CountersignTooDeep", "value", [MOST_DEPTH], lambda random, mark: Sequence(AsItStands(mark + octets(random)))),
    *((reason, place, [MOST_DEPTH], make) for reason, place, _, make in FAULTS if place == "value"),
]


def fault_name(reason, place, depths):
    return f"{reason}: {place}" if len(depths) > 1 else f"{reason}: {place} at depth {depths[0]}"


# ---- messages that differ in one part

def parts_of(part):
    yield part
    for inner in getattr(part, "parts", []) + getattr(part, "members", []) + [getattr(part, "part", None)]:
        if inner is not None:
            yield from parts_of(inner)


def with_a_member_changed(random, part):
    """Puts another element in the place of a member: it is accepted if members are opaque."""
    at = random.randrange(len(part.members))
    part.members[at] = AsItStands(element(part.members[at].der()[0], b"\5\0"))


CHANGES = {  # which parts each fits, and what it does to one
    "a member dropped": (SetOf, lambda random, part: part.members.pop(random.randrange(len(part.members)))),
    "a member doubled": (SetOf, lambda random, part: part.members.append(random.choice(part.members))),
    "a member changed": (SetOf, with_a_member_changed),
    "a part dropped": (Sequence, lambda random, part: part.parts.pop(random.randrange(len(part.parts)))),
    "an octet more": (OctetString, lambda random, part: setattr(part, "octets", part.octets + bytes([random.getrandbits(8)]))),
    "other truth": (TrueOrAbsent, lambda random, part: setattr(part, "truth", not part.truth)),
    "a bit more": (NamedBits, lambda random, part: setattr(part, "bits", [*part.bits, 1])),
}


def is_fit(kind, part):
    """Whether a part is of this kind, and is not empty if it is a set or a sequence."""
    return isinstance(part, kind) and bool(getattr(part, "members", getattr(part, "parts", True)))


def changed(random, message):
    """Returns how a message was changed in one part, and the result, which may be no message."""
    other = copy.deepcopy(message)
    name = random.choice([name for name, (kind, _) in CHANGES.items() if any(is_fit(kind, part) for part in parts_of(other))])
    kind, change = CHANGES[name]
    change(random, random.choice([part for part in parts_of(other) if is_fit(kind, part)]))
    return name, other


def damaged(random, octets):
    """Returns the octets with one of them changed, left out or doubled."""
    at = random.randrange(len(octets))
    there = random.choice([bytes([random.getrandbits(8)]), b"", octets[at : at + 1] * 2])
    return octets[:at] + there + octets[at + 1 :]


def due(given, output):
    """Returns what the program is to write: the refusal that a mark in the octets tells, or else the output."""
    mark = MARK.search(given)
    return output if mark is None else (3, b"%s %d\n" % (mark[1], mark.start()))
