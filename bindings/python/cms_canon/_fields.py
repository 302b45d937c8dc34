"""What is in a message, as immutable objects. A call of the library says where all fields are; each is taken from there when it is
asked for.

Objects are equal if they are the same field of the same octets; named tuples, which hold what is small, are equal by their values.

Octet strings are `bytes`, which may be compared, hashed and kept; the content, certificates and crls, which may be long, are memoryviews.
To make all objects at once would take many times as long as the call. What is absent is `None`, and what is empty is empty: the DER of the
two differs.
"""

from __future__ import annotations

import re
from datetime import datetime, timezone
from functools import cached_property
from typing import Any, Callable, Dict, Iterable, List, NamedTuple, Optional, Sequence, Tuple, TypeVar

from cms_canon import _kinds as kinds
from cms_canon._calls import LIMIT, NO_CONTENT, Octets, Refused, library, limit_of, octets_of
from cms_canon._elements import Element, elements_of
from cms_canon._names import NAMES
from cms_canon._rows import OctetString, Rows, dotted, rows_of

_KINDS_OF_MESSAGES = {kinds.SIGNED_DATA: "signed-data", kinds.REQUEST: "request", kinds.RESPONSE: "response"}
_TOKEN = "tSTInfo"  # the name of the content type of a token
_EXACT = (1 << 53) - 1  # the largest whole number that all readers of JSON keep (RFC 8259, section 6)
_SHORT = 16  # octets that are written out in what `repr` returns
_OCTET_STRING, _UTC_TIME, _GENERALIZED_TIME = 0x04, 0x17, 0x18
_TIME = re.compile("[0-9]{14}")
_Read = TypeVar("_Read")


# ---- as text


def _contents_of(number: int) -> bytes:
    """The contents octets of an INTEGER."""
    return number.to_bytes((number if number >= 0 else ~number).bit_length() // 8 + 1, "big", signed=True)


def _brief(value: object) -> str:
    """The value for `repr`, which writes out nothing long."""
    if isinstance(value, (bytes, memoryview)):
        return f"<{len(value):,} octets>" if len(value) > _SHORT else repr(bytes(value))
    if isinstance(value, int) and value.bit_length() > 8 * _SHORT:
        return f"<{len(_contents_of(value)):,} octets>"
    if isinstance(value, str) and len(value) > 8 * _SHORT:
        return f"<{len(value):,} characters>"
    if isinstance(value, tuple) and not hasattr(value, "_fields"):
        return f"<{len(value):,} items>"
    return f"<{type(value).__name__}>" if isinstance(value, Part) else repr(value)


def _repr_of(record: Any) -> str:
    """What `repr` returns of a named tuple."""
    fields = ", ".join(f"{name}={_brief(value)}" for name, value in zip(record._fields, record))
    return f"{type(record).__name__}({fields})"


def _plain(value: Any) -> Any:
    """The value as JSON has it."""
    if isinstance(value, Part):
        return {name: _plain(it) for name, it in value._fields_in_turn()}
    if hasattr(value, "_fields"):
        return {name: _plain(it) for name, it in zip(value._fields, value)}
    if isinstance(value, tuple):
        return [*map(_plain, value)]
    if isinstance(value, (bytes, memoryview)):
        return value.hex()
    if isinstance(value, datetime):
        return value.isoformat()
    if isinstance(value, int) and abs(value) > _EXACT:
        return f"0x{_contents_of(value).hex()}"
    return {"refused": value.name} if isinstance(value, Refused) else value


# ---- what is small


# AlgorithmIdentifier: scripts/generate writes this from bindings/records.toml.
class AlgorithmIdentifier(NamedTuple):
    """An algorithm with its parameters (RFC 5652, section 10.1)."""

    oid: str
    """The OBJECT IDENTIFIER, written as `2.16.840.1.101.3.4.2.1`; or as `hex:` and its contents octets if a subidentifier has more
    than 64 bits."""
    parameters: Optional[bytes]
    """The parameters, one element; None if they are absent. NULL is not absent: it is `05 00`."""

    # The end of AlgorithmIdentifier.

    @property
    def name(self) -> Optional[str]:
        """The name that a listing has for it, as `sha256`; None if it has none."""
        return NAMES.get(self.oid)

    def __repr__(self) -> str:
        return _repr_of(self)


# MessageImprint: scripts/generate writes this from bindings/records.toml.
class MessageImprint(NamedTuple):
    """The digest of the data that are time-stamped (RFC 3161, section 2.4.1)."""

    hash_algorithm: AlgorithmIdentifier
    """hashAlgorithm: the algorithm of the digest."""
    hashed_message: bytes
    """hashedMessage: the octets of the digest."""

    # The end of MessageImprint.

    def __repr__(self) -> str:
        return _repr_of(self)


# Attribute: scripts/generate writes this from bindings/records.toml.
class Attribute(NamedTuple):
    """An attribute (RFC 5652, section 5.3)."""

    oid: str
    """attrType, as `1.2.840.113549.1.9.4`; written as `AlgorithmIdentifier.oid`."""
    values: Tuple[bytes, ...]
    """attrValues in the order read, each one element. An unsigned attribute countersignature has none here."""
    countersignatures: Tuple[SignerInfo, ...] = ()
    """The values of an unsigned attribute countersignature in the order read (section 11.4); else empty."""

    # The end of Attribute.

    @property
    def name(self) -> Optional[str]:
        """The name that a listing has for it, as `messageDigest`; None if it has none."""
        return NAMES.get(self.oid)

    def __repr__(self) -> str:
        return _repr_of(self)


def _only(items: Sequence[_Read]) -> Optional[_Read]:
    """The one item; None if there is none, or more than one."""
    return items[0] if len(items) == 1 else None


def _time_of(element: Element) -> Optional[datetime]:
    """A Time as RFC 5652, section 11.3, wants it; None if it is none, or in the year 0000."""
    digits = element.contents[:-1].decode("ascii", "replace")
    if element.identifier == _UTC_TIME and len(digits) == 12:
        digits = ("19" if digits >= "50" else "20") + digits
    elif element.identifier != _GENERALIZED_TIME:
        return None
    if not _TIME.fullmatch(digits) or not element.contents.endswith(b"Z"):
        return None
    try:
        return datetime.strptime(digits, "%Y%m%d%H%M%S").replace(tzinfo=timezone.utc)
    except ValueError:
        return None


# ---- what has fields


class Part:
    """A field that has fields, each of which is read when it is asked for. Immutable."""

    _rows: Rows
    _number: int

    def __init__(self, rows: Rows, number: int = 0) -> None:
        self.__dict__.update(_rows=rows, _number=number)

    def __setattr__(self, name: str, value: object) -> None:
        raise AttributeError(f"a {type(self).__name__} is immutable")

    def __delattr__(self, name: str) -> None:
        raise AttributeError(f"a {type(self).__name__} is immutable")

    def __eq__(self, other: object) -> bool:
        if not isinstance(other, Part) or type(other) is not type(self):
            return NotImplemented
        return (self._number, self._rows.octets) == (other._number, other._rows.octets)

    def __hash__(self) -> int:
        return hash((self._number, self._rows.octets))

    def __reduce__(self) -> Tuple[Any, ...]:
        return type(self), (self._rows, self._number)

    def __repr__(self) -> str:
        return f"{type(self).__name__}({', '.join(f'{name}={_brief(it)}' for name, it in self._fields_in_turn())})"

    def _fields_in_turn(self) -> Iterable[Tuple[str, object]]:
        """The name and the value of each field, which are the properties that are kept; or why it cannot be read."""
        for name, kept in vars(type(self)).items():
            if isinstance(kept, cached_property) and not name.startswith("_"):
                try:
                    yield name, getattr(self, name)
                except Refused as refused:
                    yield name, refused

    @cached_property
    def _numbers(self) -> Dict[int, List[int]]:
        """The numbers of its fields, by their kinds."""
        return self._rows.below(self._number)

    def _if(self, read: Callable[[int], _Read], kind: int) -> Optional[_Read]:
        """What is read from a row; None if there is no row of this kind."""
        return read(kind) if kind in self._numbers else None

    def _flag(self, kind: int) -> bool:
        return kind in self._numbers

    def _octets(self, kind: int) -> bytes:
        return self._rows.octets_of(self._numbers[kind][0])

    def _string(self, kind: int) -> bytes:
        return self._rows.joined(self._numbers[kind])

    def _integer(self, kind: int) -> int:
        return int.from_bytes(self._octets(kind), "big", signed=True)

    def _oid(self, kind: int) -> str:
        return dotted(self._octets(kind))

    def _text(self, kind: int) -> str:
        return self._octets(kind).decode("ascii")

    def _time(self, kind: int) -> Optional[datetime]:
        """A GeneralizedTime in DER (X.690, section 11.7)."""
        digits, _, fraction = self._text(kind)[:-1].partition(".")
        year = int(digits[:4])
        month, day, hour, minute, second = (int(digits[at : at + 2]) for at in range(4, 14, 2))
        microsecond = int(fraction[:6].ljust(6, "0"))
        return datetime(year, month, day, hour, minute, second, microsecond, timezone.utc) if year else None

    def _bits(self, kind: int) -> Tuple[int, ...]:
        """The numbers of the named bits that are set (X.680, section 22)."""
        contents = self._octets(kind)
        count = 8 * (len(contents) - 1) - contents[0]  # the first octet says how many bits at the end are unused
        return tuple(bit for bit in range(count) if contents[1 + bit // 8] & 0x80 >> bit % 8)

    def _algorithm_identifier(self, kind: int) -> AlgorithmIdentifier:
        return self._algorithm_at(self._numbers[kind][0])

    def _algorithm_identifiers(self, kind: int) -> Tuple[AlgorithmIdentifier, ...]:
        return tuple(map(self._algorithm_at, self._numbers.get(kind, ())))

    def _algorithm_at(self, number: int) -> AlgorithmIdentifier:
        parameters = self._rows.next_if(number, kinds.PARAMETERS)
        oid = dotted(self._rows.octets_of(number))
        return AlgorithmIdentifier(oid, None if parameters is None else self._rows.octets_of(parameters))

    def _message_imprint(self, kind: int) -> MessageImprint:
        return MessageImprint(self._algorithm_identifier(kind), self._string(kinds.HASHED_MESSAGE))

    def _accuracy(self, kind: int) -> Accuracy:
        return Accuracy(self._rows, self._numbers[kind][0])

    def _signed_data(self, kind: int) -> SignedData:
        return SignedData(self._rows, self._numbers[kind][0])


# Accuracy: scripts/generate writes this from bindings/records.toml.
class Accuracy(Part):
    """By how much the time of a token may be off (RFC 3161, section 2.4.2): the sum of what is not absent."""

    @cached_property
    def seconds(self) -> Optional[int]:
        """Whole seconds, any INTEGER; None if they are absent."""
        return self._if(self._integer, kinds.SECONDS)

    @cached_property
    def millis(self) -> Optional[int]:
        """Milliseconds, from 1 to 999; None if they are absent."""
        return self._if(self._integer, kinds.MILLIS)

    @cached_property
    def micros(self) -> Optional[int]:
        """Microseconds, from 1 to 999; None if they are absent."""
        return self._if(self._integer, kinds.MICROS)

    # The end of Accuracy.


# TstInfo: scripts/generate writes this from bindings/records.toml.
class TstInfo(Part):
    """What a time-stamp token says (RFC 3161, section 2.4.2)."""

    @cached_property
    def version(self) -> int:
        """Any INTEGER, as received: 1 by RFC 3161."""
        return self._integer(kinds.TST_VERSION)

    @cached_property
    def policy(self) -> str:
        """The policy under which the token was made, written as `AlgorithmIdentifier.oid`."""
        return self._oid(kinds.TST_POLICY)

    @cached_property
    def imprint(self) -> MessageImprint:
        """messageImprint: the digest of the data that were time-stamped."""
        return self._message_imprint(kinds.HASH_ALGORITHM)

    @cached_property
    def serial_number(self) -> int:
        """The number of the token, which no other of the authority has."""
        return self._integer(kinds.TST_SERIAL_NUMBER)

    @cached_property
    def gen_time_text(self) -> str:
        """genTime as it stands in the token: `YYYYMMDDhhmmss`, perhaps a full stop and the digits of a fraction, and `Z`."""
        return self._text(kinds.GEN_TIME)

    @cached_property
    def gen_time(self) -> Optional[datetime]:
        """genTime, in UTC. What is finer than microseconds is cut off; `gen_time_text` has it. None in the year 0000, which a
        `datetime` cannot be in."""
        return self._time(kinds.GEN_TIME)

    @cached_property
    def accuracy(self) -> Optional[Accuracy]:
        """By how much the time may be off; None if the token does not say it."""
        return self._if(self._accuracy, kinds.ACCURACY)

    @cached_property
    def ordering(self) -> bool:
        """Whether any two tokens of this authority are in the order of their times, however little these differ."""
        return self._flag(kinds.ORDERING)

    @cached_property
    def nonce(self) -> Optional[int]:
        """That of the request; None if it has none."""
        return self._if(self._integer, kinds.TST_NONCE)

    @cached_property
    def tsa(self) -> Optional[bytes]:
        """The name of the authority, one element, which begins with A0; None if it is absent."""
        return self._if(self._octets, kinds.TSA)

    @cached_property
    def extensions(self) -> Optional[bytes]:
        """One element, which begins with A1; None if they are absent."""
        return self._if(self._octets, kinds.TST_EXTENSIONS)

    # The end of TstInfo.


# TimeStampReq: scripts/generate writes this from bindings/records.toml.
class TimeStampReq(Part):
    """A request for a time-stamp (RFC 3161, section 2.4.1)."""

    @cached_property
    def version(self) -> int:
        """Any INTEGER, as received: 1 by RFC 3161."""
        return self._integer(kinds.REQUEST_VERSION)

    @cached_property
    def imprint(self) -> MessageImprint:
        """messageImprint: the digest of the data to be time-stamped."""
        return self._message_imprint(kinds.HASH_ALGORITHM)

    @cached_property
    def policy(self) -> Optional[str]:
        """reqPolicy, written as `AlgorithmIdentifier.oid`; None if it is absent."""
        return self._if(self._oid, kinds.REQUEST_POLICY)

    @cached_property
    def nonce(self) -> Optional[int]:
        """The number that the token is to have too; None if it is absent."""
        return self._if(self._integer, kinds.REQUEST_NONCE)

    @cached_property
    def cert_req(self) -> bool:
        """Whether the certificate of the authority is asked for."""
        return self._flag(kinds.CERT_REQ)

    @cached_property
    def extensions(self) -> Optional[bytes]:
        """One element, which begins with A0; None if they are absent."""
        return self._if(self._octets, kinds.REQUEST_EXTENSIONS)

    # The end of TimeStampReq.


# TimeStampResp: scripts/generate writes this from bindings/records.toml.
class TimeStampResp(Part):
    """A response to a request for a time-stamp (RFC 3161, section 2.4.2)."""

    @cached_property
    def status(self) -> int:
        """PKIStatus, as received. Whether it fits that there is a token is a finding of `check`, F19."""
        return self._integer(kinds.STATUS)

    @cached_property
    def status_string(self) -> Optional[bytes]:
        """PKIFreeText, one element; None if it is absent."""
        return self._if(self._octets, kinds.STATUS_STRING)

    @cached_property
    def fail_info(self) -> Optional[Tuple[int, ...]]:
        """failInfo, a PKIFailureInfo; None if it is absent. It has the numbers of the named bits that are set, ascending; it is
        empty if none is set."""
        return self._if(self._bits, kinds.FAIL_INFO)

    @cached_property
    def token(self) -> Optional[SignedData]:
        """The SignedData of timeStampToken; None if there is no token."""
        return self._if(self._signed_data, kinds.SIGNED_DATA)

    # The end of TimeStampResp.


# SignerInfo: scripts/generate writes this from bindings/records.toml.
class SignerInfo(Part):
    """A signer of a message, or a countersignature, as it was received (RFC 5652, sections 5.3 and 11.4)."""

    @cached_property
    def version(self) -> int:
        """Any INTEGER, as received. Whether it fits the rest is a finding of `check`, F2."""
        return self._integer(kinds.SIGNER_VERSION)

    @cached_property
    def issuer(self) -> Optional[bytes]:
        """The name of the issuer of the signer's certificate, one element; None if the signer is named by a key identifier."""
        return self._if(self._octets, kinds.ISSUER)

    @cached_property
    def serial_number(self) -> Optional[int]:
        """The serial number of the signer's certificate; None if the signer is named by a key identifier."""
        return self._if(self._integer, kinds.SERIAL_NUMBER)

    @cached_property
    def subject_key_identifier(self) -> Optional[bytes]:
        """The key identifier of the signer's certificate; None if the signer is named by issuer and serial number."""
        return self._if(self._string, kinds.SUBJECT_KEY_IDENTIFIER)

    @cached_property
    def digest_algorithm(self) -> AlgorithmIdentifier:
        """digestAlgorithm: the algorithm that the content and the signed attributes are digested with."""
        return self._algorithm_identifier(kinds.SIGNER_DIGEST_ALGORITHM)

    @cached_property
    def signed_attributes(self) -> Optional[Tuple[Attribute, ...]]:
        """signedAttrs in the order read; None if they are absent."""
        return self._attributes(kinds.SIGNED_ATTRIBUTES, kinds.ATTRIBUTE)

    @cached_property
    def signature_algorithm(self) -> AlgorithmIdentifier:
        """signatureAlgorithm: the algorithm of the signature."""
        return self._algorithm_identifier(kinds.SIGNATURE_ALGORITHM)

    @cached_property
    def signature(self) -> bytes:
        """The octets of the signature."""
        return self._string(kinds.SIGNATURE)

    @cached_property
    def unsigned_attributes(self) -> Optional[Tuple[Attribute, ...]]:
        """unsignedAttrs in the order read; None if they are absent."""
        return self._attributes(kinds.UNSIGNED_ATTRIBUTES, kinds.ATTRIBUTE)

    # The end of SignerInfo.

    _signed: Optional[OctetString]

    def __init__(self, rows: Rows, number: int, signed: Optional[OctetString]) -> None:
        super().__init__(rows, number)
        self.__dict__.update(_signed=signed)

    def __reduce__(self) -> Tuple[Any, ...]:
        return type(self), (self._rows, self._number, self._signed)

    @property
    def countersignatures(self) -> Tuple[SignerInfo, ...]:
        """The countersignatures of this signature in the order read, through all its countersignature attributes."""
        return tuple(it for attribute in self.unsigned_attributes or () for it in attribute.countersignatures)

    def covered(self, content: Optional[Octets] = None) -> bytes:
        """Returns the octets that the signature covers, as `cover` does (RFC 5652, sections 5.4 and 11.4).

        If there are signed attributes, the signature covers these and not the content. A verifier must also compare the digest of
        the content with the attribute message-digest; `covered` does not do it, and `check` does. Without signed attributes, a
        signer covers the content, and a countersignature the signature that it signs.

        `content` is the content of a detached signature. It is not used if there are signed attributes, or if the message has
        content of its own, and never for a countersignature. Raises `Refused` with the reason 103 if nothing is covered.
        """
        given = None if content is None else octets_of(content, "content")
        attributes = self._if(self._octets, kinds.SIGNED_ATTRIBUTES)
        if attributes is not None:
            return b"\x31" + attributes[1:]
        if self._signed is not None:
            return self._signed.octets
        if given is None:
            raise Refused(NO_CONTENT, "no content", None)
        return given

    def signed_attribute(self, name: str) -> Optional[Attribute]:
        """Returns the signed attribute of this name, as `messageDigest`, or of this OBJECT IDENTIFIER; None if there is none, or more than one."""
        return _only([it for it in self.signed_attributes or () if name in (it.name, it.oid)])

    @property
    def message_digest(self) -> Optional[bytes]:
        """The octets of the attribute message-digest (RFC 5652, section 11.2), of which `check` says whether it is that of the content; None if there
        is none, or none that has one value which is an OCTET STRING."""
        found = self._signed_value("messageDigest")
        return found.contents if found is not None and found.identifier == _OCTET_STRING else None

    @property
    def signing_time(self) -> Optional[datetime]:
        """When the signer says that it signed (RFC 5652, section 11.3), in UTC. Nobody vouches for it. None if it does not say so, or not as it should."""
        found = self._signed_value("signingTime")
        return None if found is None else _time_of(found)

    def _signed_value(self, name: str) -> Optional[Element]:
        """The one value of the one signed attribute of this name."""
        attribute = self.signed_attribute(name)
        value = None if attribute is None else _only(attribute.values)
        try:
            return None if value is None else _only([*elements_of(value)])
        except ValueError:
            return None

    @cached_property
    def _signature(self) -> OctetString:
        """The signature, as what its countersignatures sign."""
        return OctetString(self._rows, self._numbers[kinds.SIGNATURE])

    def _attributes(self, kind: int, member: int) -> Optional[Tuple[Attribute, ...]]:
        """The attributes below a row; None if there is no row of this kind."""
        if kind not in self._numbers:
            return None
        (number,) = self._numbers[kind]
        return tuple(map(self._attribute_at, self._rows.below(number)[member]))

    def _attribute_at(self, number: int) -> Attribute:
        below = self._rows.below(number)
        values = tuple(map(self._rows.octets_of, below.get(kinds.VALUE, ())))
        countersignatures = tuple(SignerInfo(self._rows, it, self._signature) for it in below.get(kinds.COUNTERSIGNATURE, ()))
        return Attribute(dotted(self._rows.octets_of(number)), values, countersignatures)


# SignedData: scripts/generate writes this from bindings/records.toml.
class SignedData(Part):
    """A SignedData (RFC 5652, section 5.1)."""

    @cached_property
    def version(self) -> int:
        """Any INTEGER, as received. Whether it fits the rest is a finding of `check`, F1."""
        return self._integer(kinds.VERSION)

    @cached_property
    def digest_algorithms(self) -> Tuple[AlgorithmIdentifier, ...]:
        """digestAlgorithms in the order read."""
        return self._algorithm_identifiers(kinds.DIGEST_ALGORITHM)

    @cached_property
    def content_type(self) -> str:
        """eContentType, as `1.2.840.113549.1.7.1`; written as `AlgorithmIdentifier.oid`."""
        return self._oid(kinds.CONTENT_TYPE)

    @cached_property
    def content(self) -> Optional[memoryview]:
        """eContent, a part of what was read, or a copy if it came in several segments; None if it is detached."""
        return self._if(self._content_view, kinds.CONTENT)

    @cached_property
    def certificates(self) -> Optional[Tuple[memoryview, ...]]:
        """The certificates in the order read, each one element: a Certificate (RFC 5280) if it begins with 30; None if the field is
        absent, which is not the same as an empty one."""
        return self._views(kinds.CERTIFICATES, kinds.CERTIFICATE)

    @cached_property
    def crls(self) -> Optional[Tuple[memoryview, ...]]:
        """The revocation information in the order read, each one element: a CertificateList (RFC 5280) if it begins with 30; None
        if the field is absent."""
        return self._views(kinds.CRLS, kinds.CRL)

    @cached_property
    def signers(self) -> Tuple[SignerInfo, ...]:
        """signerInfos in the order read."""
        return self._signer_infos(kinds.SIGNER)

    # The end of SignedData.

    @cached_property
    def tst_info(self) -> Optional[TstInfo]:
        """What the token says; None if this is no time-stamp token, or if its content is detached. Raises `Refused` with the reason
        105 if the content is not a TSTInfo in DER, and `MemoryError` if memory runs out."""
        if self._content is None or NAMES.get(self.content_type) != _TOKEN:
            return None
        return TstInfo(rows_of(library.cms_canon_tst_info_fields, self._content.octets))

    @cached_property
    def _content(self) -> Optional[OctetString]:
        return self._if(self._octet_string, kinds.CONTENT)

    def _octet_string(self, kind: int) -> OctetString:
        return OctetString(self._rows, self._numbers[kind])

    def _content_view(self, _: int) -> Optional[memoryview]:
        return None if self._content is None else self._content.view

    def _signer_infos(self, kind: int) -> Tuple[SignerInfo, ...]:
        return tuple(SignerInfo(self._rows, it, self._content) for it in self._numbers.get(kind, ()))

    def _views(self, kind: int, member: int) -> Optional[Tuple[memoryview, ...]]:
        numbers = self._members(kind, member)
        return None if numbers is None else self._rows.views_of(numbers)

    @cached_property
    def _certificates(self) -> Tuple[bytes, ...]:
        """The certificates as octets of their own, which all jobs of a verifier have in common."""
        return tuple(map(self._rows.octets_of, self._members(kinds.CERTIFICATES, kinds.CERTIFICATE) or ()))

    def _members(self, kind: int, member: int) -> Optional[List[int]]:
        """The numbers of the members of a set; None if it is absent."""
        if kind not in self._numbers:
            return None
        (number,) = self._numbers[kind]
        return self._rows.below(number).get(member, [])


class Message(Part):
    """A message that is accepted, as `read` returns it.

    The fields of its SignedData, which a response has in its token, are its own too. If there is no SignedData, they are None or
    empty.
    """

    @property
    def kind(self) -> str:
        """`signed-data`, `request` or `response`, as in a listing."""
        return _KINDS_OF_MESSAGES[self._rows.kinds[0]]

    @cached_property
    def request(self) -> Optional[TimeStampReq]:
        """None if the message is no request."""
        return TimeStampReq(self._rows) if self._rows.kinds[0] == kinds.REQUEST else None

    @cached_property
    def response(self) -> Optional[TimeStampResp]:
        """None if the message is no response."""
        return TimeStampResp(self._rows) if self._rows.kinds[0] == kinds.RESPONSE else None

    @cached_property
    def signed_data(self) -> Optional[SignedData]:
        """That of a signed message, or of the token of a response; None if there is none."""
        if self.response is not None:
            return self.response.token
        return SignedData(self._rows) if self._rows.kinds[0] == kinds.SIGNED_DATA else None

    # What is in a SignedData: scripts/generate writes this from bindings/records.toml.

    @property
    def version(self) -> Optional[int]:
        """That of the SignedData."""
        return None if self.signed_data is None else self.signed_data.version

    @property
    def digest_algorithms(self) -> Tuple[AlgorithmIdentifier, ...]:
        """Those of the SignedData."""
        return () if self.signed_data is None else self.signed_data.digest_algorithms

    @property
    def content_type(self) -> Optional[str]:
        """That of the SignedData."""
        return None if self.signed_data is None else self.signed_data.content_type

    @property
    def content(self) -> Optional[memoryview]:
        """That of the SignedData."""
        return None if self.signed_data is None else self.signed_data.content

    @property
    def certificates(self) -> Optional[Tuple[memoryview, ...]]:
        """Those of the SignedData."""
        return None if self.signed_data is None else self.signed_data.certificates

    @property
    def crls(self) -> Optional[Tuple[memoryview, ...]]:
        """Those of the SignedData."""
        return None if self.signed_data is None else self.signed_data.crls

    @property
    def signers(self) -> Tuple[SignerInfo, ...]:
        """Those of the SignedData."""
        return () if self.signed_data is None else self.signed_data.signers

    # The end of what is in a SignedData.

    @property
    def tst_info(self) -> Optional[TstInfo]:
        """That of the SignedData."""
        return None if self.signed_data is None else self.signed_data.tst_info

    def certificate_of(self, signer: SignerInfo) -> Optional[bytes]:
        """Returns the certificate in the message that a signer of it names, by issuer and serial number or by the key identifier (RFC 5652, section 5.3).

        Anybody can put a certificate into a message: whether it is to be trusted is for the caller to judge. None if there is none that can be read, or
        several that differ.
        """
        from cms_canon._certificates import is_named  # which most callers do not need

        certificates = () if self.signed_data is None else self.signed_data._certificates
        return _only([*{it for it in certificates if is_named(it, signer.issuer, signer.serial_number, signer.subject_key_identifier)}])

    def to_dict(self) -> Dict[str, Any]:
        """Returns `kind` and all fields, in dictionaries and lists that JSON can have: those of a signed message beside `kind`, and
        those of a request or a response, whose token is in it, under `request` or `response`.

        Octets are hexadecimal digits, what is absent is None, and a time is text as `2024-02-29T12:00:00.500000+00:00`, without a
        fraction if that is 0. A whole number of more than 53 bits, which readers of JSON may round, is text too: `0x` and its contents octets in DER. If the
        content of a token is not a TSTInfo in DER, `tst_info` is `{"refused": "not a TSTInfo in DER"}`.
        """
        part = self.request or self.response
        fields = _plain(self.signed_data) if part is None else {self.kind: _plain(part)}
        return {"kind": self.kind, **fields}

    def to_json(self) -> str:
        """Returns the text in JSON of what `to_dict` returns."""
        import json

        return json.dumps(self.to_dict())

    def __repr__(self) -> str:
        signers = self._rows.kinds.count(kinds.SIGNER)
        return f"<Message: {self.kind}, {signers:,} signer{'' if signers == 1 else 's'}, {len(self._rows.octets):,} octets>"


def read(data: Octets, limit: int = LIMIT) -> Message:
    """Returns the one message in `data` as an object. Its fields are taken from one reading of it, when they are asked for.

    If it has more than 65,536 fields, the library is called once more, with room for all of them. If `data` can change, it is copied first. The message and its DER may have at most `limit` octets (at most 2**40). Raises
    `Refused` if `data` is no such message, and `MemoryError` if memory runs out.
    """
    return Message(rows_of(library.cms_canon_fields, octets_of(data), limit_of(limit)))
