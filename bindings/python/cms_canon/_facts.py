"""What a message says, all at once, for an index that asks the same of each of millions of messages.

`read` makes an object of a field when it is asked for. Here one loop over the rows takes what an index stores, and makes no object but one
for each signer. What is taken is that of the DER, in which each string is one piece and the members of a set are in the order of X.690.
"""

from __future__ import annotations

from typing import Dict, List, NamedTuple, Optional, Tuple

from . import _kinds as kinds
from ._calls import LIMIT, NO_DOCUMENTS, called, called_for_findings, library
from ._rows import ROW, dotted, room_of_rows

_KINDS = {kinds.SIGNED_DATA: "signed-data", kinds.REQUEST: "request", kinds.RESPONSE: "response"}
_VALUE, _ATTRIBUTE, _CERTIFICATE = kinds.VALUE, kinds.ATTRIBUTE, kinds.CERTIFICATE
_SIGNER, _COUNTERSIGNATURE, _UNSIGNED_ATTRIBUTES = kinds.SIGNER, kinds.COUNTERSIGNATURE, kinds.UNSIGNED_ATTRIBUTES
_OF_SIGNER = frozenset(range(kinds.SIGNER_VERSION, kinds.UNSIGNED_ATTRIBUTES + 1))
_OF_MESSAGE = frozenset((kinds.CONTENT_TYPE, kinds.CONTENT))
_ATTRIBUTES_BELOW, _COUNTERSIGNATURES_BELOW = 2, 3  # levels below that of the signer


class Signer:
    """A signer, or a countersigner (RFC 5652, sections 5.3 and 11.4)."""

    __slots__ = ("number", "fields", "signed", "unsigned", "countersigners")

    def __init__(self, number: str) -> None:
        self.number = number
        """As `0`, and as `0.1` of its second countersignature; both from 0 in the order of the DER."""
        self.fields: Dict[int, bytes] = {}
        """The octets of each field by its kind, as a row of the library has them."""
        self.signed: Dict[str, List[bytes]] = {}
        """The values of its signed attributes by their types, each one element."""
        self.unsigned: List[Tuple[str, List[bytes]]] = []
        """The types and values of its unsigned attributes in their order. An attribute countersignature has no values here."""
        self.countersigners: List[Signer] = []

    @property
    def has_signed_attributes(self) -> bool:
        return kinds.SIGNED_ATTRIBUTES in self.fields

    @property
    def digest_algorithm(self) -> bytes:
        """The contents octets of its OBJECT IDENTIFIER."""
        return self.fields[kinds.SIGNER_DIGEST_ALGORITHM]

    @property
    def signature_algorithm(self) -> bytes:
        """The contents octets of its OBJECT IDENTIFIER."""
        return self.fields[kinds.SIGNATURE_ALGORITHM]

    @property
    def signature(self) -> bytes:
        return self.fields[kinds.SIGNATURE]

    @property
    def issuer(self) -> Optional[bytes]:
        """The name of the issuer of its certificate, one element; None if it is named by a key identifier."""
        return self.fields.get(kinds.ISSUER)

    @property
    def serial_number(self) -> Optional[int]:
        """That of its certificate; None if it is named by a key identifier."""
        contents = self.fields.get(kinds.SERIAL_NUMBER)
        return None if contents is None else int.from_bytes(contents, "big", signed=True)

    @property
    def key_identifier(self) -> Optional[bytes]:
        """That of its certificate; None if it is named by issuer and serial number."""
        return self.fields.get(kinds.SUBJECT_KEY_IDENTIFIER)

    def values_of(self, attribute: str) -> List[bytes]:
        """Returns the list to which the values of an attribute go. The signed attributes come first."""
        if _UNSIGNED_ATTRIBUTES not in self.fields:
            return self.signed.setdefault(attribute, [])
        values: List[bytes] = []
        self.unsigned.append((attribute, values))
        return values


class Facts(NamedTuple):
    """What a message says."""

    der: bytes
    findings: Optional[bytes]
    """What is found in the message by itself, as C has it; None if that was not asked for."""
    kind: str
    """`signed-data`, `request` or `response`."""
    content_type: Optional[str]
    """eContentType of the SignedData; None if there is no SignedData."""
    content: Optional[memoryview]
    """eContent, a part of the DER; None if it is detached, or if there is no SignedData."""
    certificates: List[Tuple[int, int]]
    """The first octet of each certificate in the DER, from 0, and the octet after its last one."""
    signers: List[Signer]
    """The signers, each right before its countersigners."""
    signer_count: int
    """How many signers there are without countersigners."""


class TokenFacts(NamedTuple):
    """What a TSTInfo says (RFC 3161, section 2.4.2)."""

    time: str
    """genTime as it stands there: `YYYYMMDDhhmmss`, perhaps a full stop and the digits of a fraction, and `Z`."""
    policy: str
    serial_number: int
    hash_algorithm: bytes
    """The contents octets of the OBJECT IDENTIFIER of the algorithm of the imprint."""
    imprint: bytes
    """The digest of what is stamped."""


def facts_of(octets: bytes, checks: bool, limit: int = LIMIT) -> Facts:
    """Returns what the one message in these octets says, and what `check` finds in it without a document if `checks` is true.

    The calls of the library come one right after another, since each of them alone would find the processor's caches full of something else.
    Raises `Refused` if the octets are no message, and `MemoryError` if memory runs out.
    """
    der = called(library.cms_canon_convert, len(octets) + 64, octets, len(octets), limit)
    rows = called(library.cms_canon_fields, room_of_rows(len(der)), der, len(der), limit, size=ROW.size)
    findings = called_for_findings(library.cms_canon_check, octets, *NO_DOCUMENTS, limit) if checks else None
    fields: Dict[int, Tuple[int, int]] = {}
    certificates: List[Tuple[int, int]] = []
    signers: List[Signer] = []
    count = _take_rows(der, rows, fields, certificates, signers)
    content_type, content = fields.get(kinds.CONTENT_TYPE), fields.get(kinds.CONTENT)
    return Facts(
        der,
        findings,
        _KINDS[ROW.unpack_from(rows)[2]],
        None if content_type is None else dotted(der[content_type[0] : content_type[1]]),
        None if content is None else memoryview(der)[content[0] : content[1]],
        certificates,
        signers,
        count,
    )


def _take_rows(der: bytes, rows: bytes, fields: Dict[int, Tuple[int, int]], certificates: List[Tuple[int, int]], signers: List[Signer]) -> int:
    """Takes the fields of the message itself, its certificates and its signers from the rows, and returns how many signers there are."""
    latest: Dict[int, Signer] = {}  # the last signer at each level
    values: List[bytes] = []
    count = 0
    for start, length, kind, level in ROW.iter_unpack(rows):
        if kind in _OF_SIGNER:
            latest[level - 1].fields[kind] = der[start : start + length]
        elif kind == _VALUE:
            values.append(der[start : start + length])
        elif kind == _ATTRIBUTE:
            values = latest[level - _ATTRIBUTES_BELOW].values_of(dotted(der[start : start + length]))
        elif kind == _CERTIFICATE:
            certificates.append((start, start + length))
        elif kind in _OF_MESSAGE:
            fields[kind] = start, start + length
        elif kind == _SIGNER:
            latest[level] = signer = Signer(str(count))
            signers.append(signer)
            count += 1
        elif kind == _COUNTERSIGNATURE:
            signers.append(_countersigner(latest, level))
    return count


def _countersigner(latest: Dict[int, Signer], level: int) -> Signer:
    above = latest[level - _COUNTERSIGNATURES_BELOW]
    latest[level] = signer = Signer(f"{above.number}.{len(above.countersigners)}")
    above.countersigners.append(signer)
    return signer


def token_facts_of(tst_info: bytes) -> TokenFacts:
    """Returns what a TSTInfo says. Raises `Refused` with the reason 105 if it is not one in DER, and `MemoryError` if memory runs out."""
    rows = called(library.cms_canon_tst_info_fields, room_of_rows(len(tst_info)), tst_info, len(tst_info), size=ROW.size)
    fields = {kind: tst_info[start : start + length] for start, length, kind, _ in ROW.iter_unpack(rows)}
    return TokenFacts(
        fields[kinds.GEN_TIME].decode("ascii"),
        dotted(fields[kinds.TST_POLICY]),
        int.from_bytes(fields[kinds.TST_SERIAL_NUMBER], "big", signed=True),
        fields[kinds.HASH_ALGORITHM],
        fields.get(kinds.HASHED_MESSAGE, b""),
    )
