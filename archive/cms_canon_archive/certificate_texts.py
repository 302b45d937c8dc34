"""What a certificate says as text: names in the form of RFC 4514, and dates. `cryptography` 38 and later is taken, without its warnings."""

from __future__ import annotations

from functools import lru_cache
from typing import TYPE_CHECKING, Dict, Tuple

if TYPE_CHECKING:
    from datetime import datetime

    from cryptography import x509

_TYPES = {  # of attributes that RFC 4514 has no short name for, by their names in X.520, PKCS #9 and the rules for certificates of web servers
    **{"2.5.4.4": "surname", "2.5.4.5": "serialNumber", "2.5.4.12": "title", "2.5.4.13": "description", "2.5.4.15": "businessCategory"},
    **{"2.5.4.16": "postalAddress", "2.5.4.17": "postalCode", "2.5.4.18": "postOfficeBox", "2.5.4.20": "telephoneNumber", "2.5.4.41": "name"},
    **{"2.5.4.42": "givenName", "2.5.4.43": "initials", "2.5.4.44": "generationQualifier", "2.5.4.45": "x500UniqueIdentifier"},
    **{"2.5.4.46": "dnQualifier", "2.5.4.65": "pseudonym", "2.5.4.97": "organizationIdentifier"},
    **{"1.2.840.113549.1.9.1": "emailAddress", "1.2.840.113549.1.9.2": "unstructuredName", "1.2.840.113549.1.9.8": "unstructuredAddress"},
    **{f"1.3.6.1.4.1.311.60.2.1.{it}": f"jurisdiction{of}Name" for it, of in ((1, "Locality"), (2, "StateOrProvince"), (3, "Country"))},
}


@lru_cache(maxsize=1)
def _names_of_types() -> Dict[x509.ObjectIdentifier, str]:
    from cryptography import x509

    return {x509.ObjectIdentifier(oid): name for oid, name in _TYPES.items()}


def name_text(name: x509.Name) -> str:
    """Returns a name as RFC 4514 writes it, with the types of its attributes by name if these are well known, as `emailAddress`."""
    return str(name.rfc4514_string(_names_of_types()))


def _date_of(certificate: x509.Certificate, name: str) -> str:
    with_zone = f"{name}_utc"  # which `cryptography` has from 42 on, and then it warns of that without a zone
    time: datetime = getattr(certificate, with_zone if hasattr(certificate, with_zone) else name)
    return f"{time.replace(tzinfo=None).isoformat()}Z"


def dates_of(certificate: x509.Certificate) -> Tuple[str, str]:
    """Returns the first and the last moment at which a certificate is valid, in UTC, as `2024-02-29T12:00:00Z`."""
    return _date_of(certificate, "not_valid_before"), _date_of(certificate, "not_valid_after")
