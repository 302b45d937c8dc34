"""What octets are that are refused as a message: a certificate, a key, an encrypted message or another structure of ASN.1 that is well known.

Only headers of elements are looked at. What has not all of the structure, or something after it, has no name.
"""

from __future__ import annotations

import re
from typing import Callable, List, NamedTuple, Optional, Pattern, Sequence, Tuple

from cms_canon import _calls

from .armour import first_block

_MOST_OF_PEM = 1 << 20  # octets of a text whose first block is decoded
_BEGIN = b"-----BEGIN "
_BEGINS_WITHIN = 1 << 12  # octets of a text in which that begins
_MOST_CHILDREN = 16  # elements that are looked at in one
_LENGTH = rb"(?:[\0-\x7f]|\x81.|\x82..|\x83...|\x84....|\x80)"
_PKCS7, _SMIME = rb"\x06\x09\x2a\x86\x48\x86\xf7\x0d\x01\x07", rb"\x06\x0b\x2a\x86\x48\x86\xf7\x0d\x01\x09\x10\x01"
_SEQUENCE, _OBJECT_IDENTIFIER, _BIT_STRING, _INTEGER = 0x30, 0x06, 0x03, 0x02
_PASSWORD_BASED = (bytes.fromhex("2a864886f70d0105"), bytes.fromhex("2a864886f70d010c01"))  # PKCS #5 and PKCS #12
_OCSP_BASIC = bytes.fromhex("2b0601050507300101")
_PKCS8, _PKCS1, _SEC1 = "a private key (PKCS #8)", "a private key (PKCS #1)", "a private key (SEC 1)"
_PUBLIC = "a public key"
_ENCRYPTED_KEY, _OCSP = "an encrypted private key (PKCS #8)", "an OCSP response"
IN_PLACE, UNNAMED = ", in place of a signature", "it is not known what it is"
_SIGNED_TOO, _COMPRESSED = "an encrypted message (PKCS #7 SignedAndEnvelopedData)", "a compressed message (CMS CompressedData)"


class _Element(NamedTuple):
    """An element in DER: its identifier, and where its contents are."""

    identifier: int
    begin: int
    end: int


def _element(octets: bytes, at: int, end: int) -> Optional[_Element]:
    """Returns the element that begins there and ends by `end`; None if there is none with a definite length of at most four octets."""
    if at + 2 > end:
        return None
    length, begin = octets[at + 1], at + 2
    if length & 0x80:
        more = length & 0x7F
        if not 1 <= more <= 4 or begin + more > end:
            return None
        length, begin = int.from_bytes(octets[begin : begin + more], "big"), begin + more
    return _Element(octets[at], begin, begin + length) if begin + length <= end else None


def _children(octets: bytes, parent: _Element) -> List[_Element]:
    """Returns the first elements in one; none if something else lies among them."""
    found: List[_Element] = []
    at = parent.begin
    while at < parent.end and len(found) < _MOST_CHILDREN:
        child = _element(octets, at, parent.end)
        if child is None:
            return []
        found.append(child)
        at = child.end
    return found


def _identifiers(children: Sequence[_Element]) -> bytes:
    return bytes(it.identifier for it in children)


def _contents(octets: bytes, element: _Element) -> bytes:
    """Returns the first contents octets of an element."""
    return octets[element.begin : min(element.end, element.begin + 16)]


def _algorithm(octets: bytes, element: _Element) -> bytes:
    """Returns the first octets of the OBJECT IDENTIFIER of an AlgorithmIdentifier; no octets if it is none."""
    children = _children(octets, element) if element.identifier == _SEQUENCE else []
    is_one = 1 <= len(children) <= 2 and children[0].identifier == _OBJECT_IDENTIFIER
    return _contents(octets, children[0]) if is_one else b""


def _is_key(octets: bytes, element: _Element) -> bool:
    """Whether an element is a SubjectPublicKeyInfo."""
    children = _children(octets, element)
    return _identifiers(children) == b"\x30\x03" and bool(_algorithm(octets, children[0]))


# ---- what is signed: a structure, an algorithm, and a signature

_CERTIFICATE = re.compile(rb"(\xa0?)\x02\x30\x30\x30\x30\x30(?:\x81|\xa1)?(?:\x82|\xa2)?\xa3?")
_REQUEST = re.compile(rb"\x02\x30\x30\xa0?")
_LIST = re.compile(rb"(\x02?)\x30\x30[\x17\x18][\x17\x18]?\x30?\xa0?")
_TIMES = re.compile(rb"[\x17\x18]{2}")


def _is_certificate(octets: bytes, own: List[_Element]) -> bool:
    form = _CERTIFICATE.fullmatch(_identifiers(own))
    if form is None:
        return False
    _, algorithm, _, validity, _, key = own[len(form[1]) :][:6]
    is_dated = _TIMES.fullmatch(_identifiers(_children(octets, validity))) is not None
    return is_dated and bool(_algorithm(octets, algorithm)) and _is_key(octets, key)


def _is_request(octets: bytes, own: List[_Element]) -> bool:
    return _REQUEST.fullmatch(_identifiers(own)) is not None and _contents(octets, own[0]) == b"\0" and _is_key(octets, own[2])


def _is_list(octets: bytes, own: List[_Element]) -> bool:
    form = _LIST.fullmatch(_identifiers(own))
    return form is not None and bool(_algorithm(octets, own[len(form[1])]))


_SIGNED: Sequence[Tuple[Callable[[bytes, List[_Element]], bool], str]] = (
    (_is_certificate, "a certificate (X.509)"),
    (_is_request, "a certificate request (PKCS #10)"),
    (_is_list, "a certificate list (CRL)"),
)


def _signed(octets: bytes, children: List[_Element]) -> str:
    if not _algorithm(octets, children[1]):
        return ""
    own = _children(octets, children[0])
    return next((name for is_so, name in _SIGNED if is_so(octets, own)), "")


# ---- keys, and what an OCSP responder says


def _private_key(octets: bytes, children: List[_Element]) -> str:
    """PrivateKeyInfo or OneAsymmetricKey: a version, an algorithm and octets."""
    is_one = _contents(octets, children[0]) in (b"\0", b"\1") and _algorithm(octets, children[1])
    return _PKCS8 if is_one else ""


def _public_key(octets: bytes, children: List[_Element]) -> str:
    """SubjectPublicKeyInfo: an algorithm and bits."""
    return _PUBLIC if _algorithm(octets, children[0]) else ""


def _rsa_key(octets: bytes, children: List[_Element]) -> str:
    """RSAPrivateKey: a version, and eight numbers."""
    version = b"\1" if len(children) == 10 else b"\0"
    return _PKCS1 if _contents(octets, children[0]) == version else ""


def _ec_key(octets: bytes, children: List[_Element]) -> str:
    """ECPrivateKey: a version, octets, and a curve or a public key."""
    is_curve = {0xA0: b"\x06", 0xA1: b"\x03"}
    is_one = _contents(octets, children[0]) == b"\1" and all(_identifiers(_children(octets, it)) == is_curve[it.identifier] for it in children[2:])
    return _SEC1 if is_one else ""


def _encrypted_key(octets: bytes, children: List[_Element]) -> str:
    """EncryptedPrivateKeyInfo: an algorithm with a password, and octets."""
    return _ENCRYPTED_KEY if _algorithm(octets, children[0]).startswith(_PASSWORD_BASED) else ""


def _ocsp_response(octets: bytes, children: List[_Element]) -> str:
    inside = _children(octets, children[1])
    is_one = _identifiers(inside) == b"\x30" and _identifiers(own := _children(octets, inside[0])) == b"\x06\x04" and _contents(octets, own[0]) == _OCSP_BASIC
    return _OCSP if is_one else ""


_IN_DER: Sequence[Tuple[Pattern[bytes], Callable[[bytes, List[_Element]], str]]] = (  # by the identifiers of what is in them
    (re.compile(rb"\x30\x30\x03"), _signed),
    (re.compile(rb"\x30\x03"), _public_key),
    (re.compile(rb"\x02\x30\x04\xa0?(?:\x81|\xa1)?"), _private_key),
    (re.compile(rb"\x02{9}\x30?"), _rsa_key),
    (re.compile(rb"\x02\x04(?:\xa0\xa1?|\xa1)"), _ec_key),
    (re.compile(rb"\x30\x04"), _encrypted_key),
    (re.compile(rb"\x0a\xa0"), _ocsp_response),
)


def _in_der(octets: bytes) -> str:
    whole = _element(octets, 0, len(octets))
    if whole is None or whole.identifier != _SEQUENCE or whole.end != len(octets):
        return ""
    children = _children(octets, whole)
    identifiers = _identifiers(children)
    return next((says(octets, children) for form, says in _IN_DER if form.fullmatch(identifiers)), "")


# ---- what is known by how it begins, in BER too


def _begins(*octets: bytes) -> Pattern[bytes]:
    return re.compile(rb"(?s)\x30" + _LENGTH + b"".join(octets))


_INSIDE = rb"\xa0" + _LENGTH
_SIGNED_DATA = _begins(_PKCS7, rb"\x02")
_BEGINNINGS = (
    (_begins(_PKCS7, rb"\x01", _INSIDE, rb"[\x04\x24]"), "data that nobody signed (CMS Data)"),
    (_begins(_PKCS7, rb"\x03", _INSIDE, rb"\x30"), "an encrypted message (CMS EnvelopedData)"),
    (_begins(_PKCS7, rb"\x04", _INSIDE, rb"\x30"), _SIGNED_TOO),
    (_begins(_PKCS7, rb"\x05", _INSIDE, rb"\x30"), "a message with a digest that nobody signed (CMS DigestedData)"),
    (_begins(_PKCS7, rb"\x06", _INSIDE, rb"\x30"), "an encrypted message (CMS EncryptedData)"),
    (_begins(_SMIME, rb"\x02", _INSIDE, rb"\x30"), "a message with a MAC (CMS AuthenticatedData)"),
    (_begins(_SMIME, rb"\x09", _INSIDE, rb"\x30"), _COMPRESSED),
    (_begins(_SMIME, rb"\x17", _INSIDE, rb"\x30"), "an encrypted message (CMS AuthEnvelopedData)"),
    (_begins(rb"\x02\x01\x03\x30", _LENGTH, _PKCS7, rb"[\x01\x02]\xa0"), "a file of keys or certificates (PKCS #12)"),
)


_CMS = frozenset(name for _, name in _BEGINNINGS if "CMS" in name or "PKCS #7" in name)
_NAMES = frozenset((_PUBLIC, _PKCS8, _PKCS1, _SEC1, _ENCRYPTED_KEY, _OCSP, *(name for _, name in _SIGNED), *(name for _, name in _BEGINNINGS)))
_KNOWN = _NAMES - {_SIGNED_TOO, _COMPRESSED}  # in which nothing is that somebody signed, as far as anybody without a key can say


def _is_one_element(octets: bytes) -> bool:
    """Whether octets are one element with nothing after it."""
    extent = _calls.Extent()
    _calls.library.cms_canon_extent(octets, len(octets), len(octets), extent)
    return bool(extent.reach == _calls.WHOLE and extent.end == len(octets))


def _in_octets(octets: bytes) -> str:
    name = next((name for form, name in _BEGINNINGS if form.match(octets)), "")
    return (name if _is_one_element(octets) else "") if name else _in_der(octets)


def _in_pem(octets: bytes) -> str:
    """Returns what the first block of PEM is, or what its label says of it."""
    block = first_block(octets)
    if block is None:
        return ""
    name = _in_octets(block.body or b"")
    label = block.label.decode("ascii").replace(";", ",")  # or what follows it would be a note of its own, and could be a name
    return f"PEM, and its first block is {name}" if name else f"PEM, and the label of its first block is {label}"


def named(octets: bytes) -> str:
    """Returns what octets are that are refused; an empty text if that is not known."""
    if octets[:1] == b"\x30" and (name := _in_octets(octets)):
        return name
    return _in_pem(octets) if len(octets) <= _MOST_OF_PEM and _BEGIN in octets[:_BEGINS_WITHIN] else ""


def may_be_signed(octets: bytes) -> bool:
    """Whether octets begin as a message that somebody signed, or that may hold one."""
    return any(form.match(octets) for form, name in ((_SIGNED_DATA, ""), *_BEGINNINGS) if name not in _KNOWN)


def is_cms(name: str) -> bool:
    """Whether what is so named is a CMS message, so that it may be in place of a signed one."""
    return name in _CMS


def is_named(note: str) -> bool:
    """Whether the note of a refused file says that it is something in which nothing is that somebody signed. Nobody looks at what else is in PEM.

    What the octets are comes last, or `UNNAMED`, since a name of a file in the note could be that of a certificate.
    """
    return note.rpartition("; ")[2] in _KNOWN
