"""Certificates, as far as they are looked at: which a signer names, and their keys (RFC 5280, section 4.1).

They are read here, since `cryptography` refuses whole ones for fields that do not matter, and need not be installed.
"""

from __future__ import annotations

import re
from itertools import islice
from typing import List, NamedTuple, Optional, Tuple

from ._elements import Element, elements_of
from ._rows import dotted

_SUBJECT_KEY_IDENTIFIER = "2.5.29.14"


# ---- DER


def members_of(octets: bytes, most: int, identifiers: bytes) -> List[Element]:
    """The members of the one SEQUENCE in DER: at most so many, since millions of small ones would take much memory, and with
    identifiers that match this pattern."""
    (sequence,) = elements_of(octets)
    found = [*islice(elements_of(checked(sequence, 0x30).contents), most + 1)]
    if not re.fullmatch(identifiers, bytes(it.identifier for it in found), re.DOTALL):
        raise ValueError("other members are due")
    return found


def checked(element: Element, identifier: int) -> Element:
    if element.identifier != identifier:
        raise ValueError("another element is due")
    return element


def integer_in(element: Element) -> int:
    """The INTEGER, which has an octet, and whose first nine bits are not all the same (X.690, sections 8.3.1 and 8.3.2)."""
    contents = checked(element, 0x02).contents
    if re.match(rb"\Z|\x00[\x00-\x7f]|\xff[\x80-\xff]", contents):
        raise ValueError("not an INTEGER in DER")
    return int.from_bytes(contents, "big", signed=True)


def whole_in(octets: bytes) -> int:
    """The one INTEGER in DER."""
    (integer,) = elements_of(octets)
    return integer_in(integer)


def oid_in(element: Element) -> str:
    """The text of the OBJECT IDENTIFIER (X.690, section 8.19)."""
    contents = checked(element, 0x06).contents
    if not re.fullmatch(rb"(?:(?:[\x81-\xff][\x80-\xff]*)?[\x00-\x7f])+", contents):
        raise ValueError("not an OBJECT IDENTIFIER in DER")
    return dotted(contents)


# ---- certificates


class Certificate(NamedTuple):
    """What is read of a Certificate (RFC 5280, section 4.1)."""

    issuer: bytes
    serial_number: int
    key: bytes  # subjectPublicKeyInfo
    extensions: Optional[bytes]

    @property
    def subject_key_identifier(self) -> Optional[bytes]:
        """Raises `ValueError` if an extension cannot be read, or if two are key identifiers (RFC 5280, section 4.2)."""
        if self.extensions is None:
            return None
        (sequence,) = elements_of(self.extensions)
        found: Optional[Element] = None
        for extension in elements_of(checked(sequence, 0x30).contents):
            identifier, value = _extension(extension.octets)
            if identifier == _SUBJECT_KEY_IDENTIFIER:
                if found is not None:
                    raise ValueError("two key identifiers")
                (found,) = elements_of(value)
        return None if found is None else checked(found, 0x04).contents


def _extension(octets: bytes) -> Tuple[str, bytes]:
    """The identifier and the value of the Extension in DER, in which `critical` is absent if it is FALSE."""
    identifier, *critical, value = members_of(octets, 3, rb"\x06\x01?\x04")
    if critical and critical[0].contents != b"\xff":
        raise ValueError("not an Extension in DER")
    return oid_in(identifier), value.contents


def certificate_in(octets: bytes) -> Certificate:
    """Reads a certificate. Raises `ValueError` if these octets are not one in DER, as far as that is looked at."""
    tbs_certificate, _, _ = members_of(octets, 3, rb"\x30\x30\x03")
    fields = members_of(tbs_certificate.octets, 10, rb"\xa0?\x02\x30{5}\x81?\x82?\xa3?")
    serial_number, _, issuer, _, _, key = (it for it in fields if it.identifier < 0x80)
    optional = {it.identifier: it.contents for it in fields if it.identifier >= 0x80}
    if 0xA0 in optional and whole_in(optional[0xA0]) == 0:
        raise ValueError("the default version is there")
    return Certificate(issuer.octets, integer_in(serial_number), key.octets, optional.get(0xA3))


def is_named(octets: bytes, issuer: Optional[bytes], serial_number: Optional[int], key_identifier: Optional[bytes]) -> bool:
    """Whether these octets are a certificate that a signer names so. Issuers are compared octet for octet."""
    try:
        found = certificate_in(octets)
        if key_identifier is not None:
            return found.subject_key_identifier == key_identifier
    except ValueError:
        return False
    return (found.issuer, found.serial_number) == (issuer, serial_number)
