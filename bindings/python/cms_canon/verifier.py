"""Verifies signatures by certificates, with the package `cryptography` (`pip install 'cms-canon[verify]'`).

    findings = cms_canon.check(message, verifier=by_certificates())           # by the certificates in the message
    findings = cms_canon.check(message, verifier=by_certificates([trusted]))  # by these alone

A verdict says what the arithmetic says: whether the signature is right for the octets that it covers, by the key of the certificate
that the signer names. It does not say whether this certificate is to be trusted, was valid at the time, is revoked, or may be used
so, nor whose it is: anybody can make a certificate with any name and put it into a message. Nor does it say whether a digest is
good enough: a signature by MD5 or SHA-1 can be right.

True means that the signature is right, False that it is wrong, and None that it is not known. It is not known if

- no certificate fits what the signer names, or several do that have different keys: True would not say by which of them;
- the certificate or its key cannot be read, or the key is of another kind than the algorithm;
- the algorithm, its parameters, the digest or the curve is not known, here or to `cryptography`;
- nothing can be calculated: an ECDSA or DSA signature that is not two numbers in DER, a key of Ed25519 or Ed448 that is no point, or an
  RSA modulus that is too short for the digest;
- the digest of the signature algorithm is not digestAlgorithm (RFC 4056, section 3; RFC 8419, section 3; RFC 8933, section 3).

The certificates of a message are looked at once for all its signers. So what is done beside the arithmetic takes time in
proportion to the length of the message.

The algorithms are RSA by PKCS #1 v1.5 (RFC 3370, RFC 5754), RSASSA-PSS (RFC 4056), ECDSA and DSA (RFC 3370, RFC 5754), with MD5,
SHA-1, SHA-2 or SHA-3 as far as there is an identifier for them, and Ed25519 and Ed448 (RFC 8419). For ECDSA and DSA, parameters that are
NULL are the same as none, as gpgsm and the JDK write them; and the kind of the key, id-ecPublicKey, is ECDSA by digestAlgorithm, as
iText writes it. OpenSSL verifies both.

A signature is wrong only if the verification of the standard was done and came out so: OpenSSL also says so of a key that it cannot use,
and then the verdict is None. Certificates are read here as far as they are looked at, since `cryptography` refuses whole ones for fields
that do not matter. If several fit that have different keys, the verdict is None: True would not say by which one.
"""

from __future__ import annotations

import re
from functools import cached_property
from typing import AbstractSet, Any, Callable, Dict, Iterable, Iterator, List, NamedTuple, Optional, Set, Tuple, Union
from weakref import WeakKeyDictionary

from cryptography import x509
from cryptography.exceptions import InvalidSignature
from cryptography.hazmat.primitives import hashes
from cryptography.hazmat.primitives.asymmetric import dsa, ec, ed448, ed25519, padding, rsa
from cryptography.hazmat.primitives.asymmetric.utils import decode_dss_signature
from cryptography.hazmat.primitives.serialization import Encoding, PublicFormat, load_der_public_key

from cms_canon import AlgorithmIdentifier, Job, Message, Octets, Verifier
from cms_canon._calls import octets_of
from cms_canon._certificates import Certificate, certificate_in, integer_in, members_of, oid_in, whole_in

__all__ = ["by_certificates"]

_NULL = b"\x05\x00"
_NO_KEYS: AbstractSet[bytes] = frozenset()

_NIST_HASHES, _NIST_SIGNATURES = "2.16.840.1.101.3.4.2", "2.16.840.1.101.3.4.3"
_PKCS1, _X962_SIGNATURES = "1.2.840.113549.1.1", "1.2.840.10045.4"

_MD5, _SHA1 = "1.2.840.113549.2.5", "1.3.14.3.2.26"
_SHA224, _SHA256, _SHA384, _SHA512, _SHA512_224, _SHA512_256 = (f"{_NIST_HASHES}.{it}" for it in (4, 1, 2, 3, 5, 6))
_SHA3 = [f"{_NIST_HASHES}.{it}" for it in (7, 8, 9, 10)]  # with 224, 256, 384 and 512 bits
_SHAKE256, _SHAKE256_LEN = f"{_NIST_HASHES}.12", f"{_NIST_HASHES}.18"

_HASHES: Dict[str, Callable[[], hashes.HashAlgorithm]] = {
    _MD5: hashes.MD5,
    _SHA1: hashes.SHA1,
    _SHA224: hashes.SHA224,
    _SHA256: hashes.SHA256,
    _SHA384: hashes.SHA384,
    _SHA512: hashes.SHA512,
    _SHA512_224: hashes.SHA512_224,
    _SHA512_256: hashes.SHA512_256,
    **dict(zip(_SHA3, (hashes.SHA3_224, hashes.SHA3_256, hashes.SHA3_384, hashes.SHA3_512))),
}

_RSA, _RSASSA_PSS, _MGF1 = (f"{_PKCS1}.{it}" for it in (1, 10, 8))
_DSA, _EC_PUBLIC_KEY = "1.2.840.10040.4.1", "1.2.840.10045.2.1"
_ED25519, _ED448 = "1.3.101.112", "1.3.101.113"

# The digest of each algorithm that names one.
_RSA_DIGESTS = {
    **{f"{_PKCS1}.{it}": digest for it, digest in ((4, _MD5), (5, _SHA1), (14, _SHA224), (11, _SHA256), (12, _SHA384), (13, _SHA512))},
    **{f"{_PKCS1}.{it}": digest for it, digest in ((15, _SHA512_224), (16, _SHA512_256))},
    **{f"{_NIST_SIGNATURES}.{it}": digest for it, digest in enumerate(_SHA3, 13)},
}
_ECDSA_DIGESTS = {
    f"{_X962_SIGNATURES}.1": _SHA1,
    **{f"{_X962_SIGNATURES}.3.{it}": digest for it, digest in enumerate((_SHA224, _SHA256, _SHA384, _SHA512), 1)},
    **{f"{_NIST_SIGNATURES}.{it}": digest for it, digest in enumerate(_SHA3, 9)},
}
_DSA_DIGESTS = {
    "1.2.840.10040.4.3": _SHA1,
    **{f"{_NIST_SIGNATURES}.{it}": digest for it, digest in enumerate((_SHA224, _SHA256, _SHA384, _SHA512, *_SHA3), 1)},
}

_SHA1_IN_DER = bytes.fromhex("300906052b0e03021a0500")
_MGF1_BY_SHA1_IN_DER = bytes.fromhex("301606092a864886f70d010108") + _SHA1_IN_DER


def by_certificates(
    certificates: Optional[Iterable[Union[Octets, x509.Certificate]]] = None, *, or_in_message: bool = False
) -> Verifier:
    """Returns a verifier for `check`: it verifies by the certificate that the signer names, as the module says.

    A signer names its certificate by issuer and serial number, or by the subject key identifier. Issuers are compared octet for octet.

    Without `certificates`, the certificate is looked for in the message, into which anybody can put one. With them, each a
    `Certificate` in DER or of `cryptography`, it is one of these and no other: a signature by another certificate is not known. With
    `or_in_message` too, those in the message are looked through if none of these fits: a verdict then does not say that the
    certificate is one of those handed in.

    The verifier raises nothing for what a message contains; if memory runs out, it is `MemoryError`. Raises `TypeError` if
    `certificates` is itself one certificate, and `ValueError` if one of them is not a certificate in DER.
    """
    if isinstance(certificates, (bytes, bytearray, memoryview, x509.Certificate)):
        raise TypeError("certificates are handed in as a list, also if there is one")
    given = _Index(_given_certificate(number, it) for number, it in enumerate(certificates or ()))
    from_message = or_in_message or certificates is None
    in_messages: WeakKeyDictionary[Message, _Index] = WeakKeyDictionary()

    def index_of(job: Job) -> _Index:
        """The index of the certificates in the message, made for its first signer that needs it."""
        index = in_messages.get(job.message)
        if index is None:
            index = in_messages[job.message] = _Index(_certificates_in(job))
        return index

    def verify(job: Job) -> Optional[bool]:
        keys = given.keys_for(job) or (index_of(job).keys_for(job) if from_message else _NO_KEYS)
        if len(keys) != 1:
            return None
        try:
            return _is_right(job, *keys)
        except MemoryError:
            raise
        except Exception:  # whatever `cryptography` raises for a key or parameters that it does not take, or we do
            return None

    return verify


def _algorithm(octets: bytes) -> AlgorithmIdentifier:
    """The AlgorithmIdentifier in DER."""
    identifier, *parameters = members_of(octets, 2, rb"\x06.?")
    return AlgorithmIdentifier(oid_in(identifier), parameters[0].octets if parameters else None)


# ---- certificates


def _given_certificate(number: int, certificate: Union[Octets, x509.Certificate]) -> Certificate:
    octets = certificate.public_bytes(Encoding.DER) if isinstance(certificate, x509.Certificate) else octets_of(certificate)
    try:
        return certificate_in(octets)
    except ValueError:
        raise ValueError(f"what is handed in with the number {number} is not a certificate in DER") from None


def _certificates_in(job: Job) -> Iterable[Certificate]:
    """The certificates in the message but for those that cannot be read."""
    for octets in job.certificates:
        try:
            yield certificate_in(octets)
        except ValueError:
            pass


_Keys = Dict[object, Set[bytes]]


class _Index:
    """The keys of certificates, by how a signer names their certificate (RFC 5652, section 5.3)."""

    def __init__(self, certificates: Iterable[Certificate]) -> None:
        self._certificates = [*certificates]

    def keys_for(self, job: Job) -> AbstractSet[bytes]:
        """The different keys of the certificates that the signer names."""
        if job.subject_key_identifier is not None:
            return self._by_key_identifier.get(job.subject_key_identifier, _NO_KEYS)
        assert job.serial_number is not None
        return self._by_issuer.get((job.issuer, hex(job.serial_number)), _NO_KEYS)

    @cached_property
    def _by_issuer(self) -> _Keys:
        """By issuer and serial number. The number is text here, since a sender can choose many numbers that have the same hash."""
        found: _Keys = {}
        for it in self._certificates:
            found.setdefault((it.issuer, hex(it.serial_number)), set()).add(it.key)
        return found

    @cached_property
    def _by_key_identifier(self) -> _Keys:
        found: _Keys = {}
        for it in self._certificates:
            try:
                found.setdefault(it.subject_key_identifier, set()).add(it.key)
            except ValueError:
                pass  # its extensions cannot be read, so that no signer names it so
        return found


# ---- signatures. What is not known raises an exception, of whatever kind.


def _is_right(job: Job, key: bytes) -> bool:
    public_key, restriction = _public_key(key)
    _check_key(public_key)
    how = _how(job, public_key, restriction)
    _check_calculable(job, public_key)
    try:
        public_key.verify(job.signature, job.covered, *how)
    except InvalidSignature:
        return False
    return True


def _public_key(octets: bytes) -> Tuple[Any, Optional[AlgorithmIdentifier]]:
    """The key in a SubjectPublicKeyInfo, and the algorithm that it is restricted to, if it is RSASSA-PSS (RFC 4055, section 1.2).

    Of RSA the numbers are read here: not every release of `cryptography` knows such a restriction, or that a number is negative.
    """
    algorithm, bits = members_of(octets, 2, rb"\x30\x03")
    known, contents = _algorithm(algorithm.octets), bits.contents
    if contents[:1] != b"\0":
        raise ValueError("a key with unused bits")
    if known.oid == _DSA:
        _check_numbers(known.parameters or b"", contents[1:])
    if known.oid not in (_RSA, _RSASSA_PSS):
        return load_der_public_key(octets), None
    if known.oid == _RSA and known.parameters not in (None, _NULL):
        raise ValueError("a key of RSA with parameters")
    modulus, exponent = members_of(contents[1:], 2, rb"\x02\x02")
    key = rsa.RSAPublicNumbers(integer_in(exponent), integer_in(modulus)).public_key()
    return key, known if known.oid == _RSASSA_PSS else None


def _check_numbers(group: bytes, number: bytes) -> None:
    """Refuses a key of DSA whose numbers are not in DER: some releases of `cryptography` have OpenSSL read them, which takes BER."""
    for it in members_of(group, 3, rb"\x02{3}"):
        integer_in(it)
    whole_in(number)


def _check_key(key: Any) -> None:
    """Refuses keys by which OpenSSL calculates nothing, and says of each signature that it is wrong."""
    if isinstance(key, rsa.RSAPublicKey):
        e, n = key.public_numbers().e, key.public_numbers().n
        is_taken = n % 2 == 1 and 0 < e < n and n.bit_length() <= 16384 and (n.bit_length() <= 3072 or e.bit_length() <= 64)
    elif isinstance(key, dsa.DSAPublicKey):
        p, q = key.public_numbers().parameter_numbers.p, key.public_numbers().parameter_numbers.q
        is_taken = p % 2 == 1 and p.bit_length() <= 10000 and q.bit_length() in (160, 224, 256)
    else:
        is_taken = True
        if isinstance(key, (ed25519.Ed25519PublicKey, ed448.Ed448PublicKey)):
            _check_point(key.public_bytes(Encoding.Raw, PublicFormat.Raw), isinstance(key, ed448.Ed448PublicKey))
    if not is_taken:
        raise ValueError("OpenSSL does not take this key")


def _check_calculable(job: Job, key: Any) -> None:
    """Refuses what leaves nothing to calculate: an encoding of no two numbers, and an RSA modulus that is too short (RFC 8017, section 9.2)."""
    if isinstance(key, (ec.EllipticCurvePublicKey, dsa.DSAPublicKey)):
        decode_dss_signature(job.signature)
    elif isinstance(key, rsa.RSAPublicKey) and job.signature_algorithm.oid != _RSASSA_PSS:
        oid = job.digest_algorithm.oid
        if (key.key_size + 7) // 8 < _HASHES[oid]().digest_size + _DIGEST_INFO.get(oid, 19) + 11:
            raise ValueError("the modulus is too short for the digest")


_DIGEST_INFO = {_MD5: 18, _SHA1: 15}  # octets of a DigestInfo before the digest, if they are not 19


def _check_point(octets: bytes, is_448: bool) -> None:
    """Refuses a key of Ed25519 or Ed448 that is no point of the curve (RFC 8032, sections 5.1.3 and 5.2.3)."""
    # The curve is a x^2 + y^2 = 1 + d x^2 y^2 modulo p.
    p, a = (2**448 - 2**224 - 1, 1) if is_448 else (2**255 - 19, -1)
    d = -39081 if is_448 else -121665 * pow(121666, -1, p)
    number, bits = int.from_bytes(octets, "little"), 8 * len(octets) - 1
    x_is_odd, y = number >> bits, number & (1 << bits) - 1
    square_of_x = (1 - y * y) * pow(a - d * y * y, -1, p) % p
    if y >= p or pow(square_of_x, (p - 1) // 2, p) not in (0, 1) or (square_of_x == 0 and x_is_odd):
        raise ValueError("the key is no point of its curve")


def _how(job: Job, key: Any, restriction: Optional[AlgorithmIdentifier]) -> Tuple[Any, ...]:
    """What the method `verify` of the key takes after the signature and the octets."""
    oid, parameters = job.signature_algorithm
    if isinstance(key, rsa.RSAPublicKey) and oid == _RSASSA_PSS:
        return _pss_how(job, restriction)
    if parameters in (None, _NULL):
        if isinstance(key, rsa.RSAPublicKey) and restriction is None:
            return padding.PKCS1v15(), _hash(job.digest_algorithm, job.digest_algorithm.oid if oid == _RSA else _RSA_DIGESTS[oid])
        if isinstance(key, ec.EllipticCurvePublicKey):
            due = job.digest_algorithm.oid if oid == _EC_PUBLIC_KEY else _ECDSA_DIGESTS[oid]
            return (ec.ECDSA(_hash(job.digest_algorithm, due)),)
        if isinstance(key, dsa.DSAPublicKey):
            return (_hash(job.digest_algorithm, _DSA_DIGESTS[oid]),)
    if parameters is None:
        if (isinstance(key, ed25519.Ed25519PublicKey) and oid == _ED25519 and _is_sha512(job.digest_algorithm)) or (
            isinstance(key, ed448.Ed448PublicKey) and oid == _ED448 and _is_shake256(job.digest_algorithm)
        ):
            return ()
    raise ValueError("the algorithm is not one for the key")


def _hash(algorithm: AlgorithmIdentifier, due: str) -> hashes.HashAlgorithm:
    """The digest algorithm, which has to be the one that is due. NULL and no parameters are the same (RFC 5754, section 2)."""
    if algorithm.oid != due or algorithm.parameters not in (None, _NULL):
        raise ValueError("another digest algorithm is due")
    return _HASHES[due]()


def _is_sha512(algorithm: AlgorithmIdentifier) -> bool:
    return algorithm.oid == _SHA512 and algorithm.parameters in (None, _NULL)


def _is_shake256(algorithm: AlgorithmIdentifier) -> bool:
    """Whether it is SHAKE256 with 512 bits (RFC 8419, section 2.3; RFC 8702, section 3.1)."""
    return algorithm in ((_SHAKE256, None), (_SHAKE256_LEN, b"\x02\x02\x02\x00"))


class _Pss(NamedTuple):
    """RSASSA-PSS-params (RFC 4055, section 3.1)."""

    digest: AlgorithmIdentifier
    mask_digest: AlgorithmIdentifier
    salt_length: int


def _pss_how(job: Job, restriction: Optional[AlgorithmIdentifier]) -> Tuple[Any, ...]:
    pss = _pss(job.signature_algorithm.parameters)
    if restriction is not None and restriction.parameters is not None:
        due = _pss(restriction.parameters)
        are_same = (pss.digest.oid, pss.mask_digest.oid) == (due.digest.oid, due.mask_digest.oid)
        if not are_same or pss.salt_length < due.salt_length:
            raise ValueError("the key is not for these parameters")
    _hash(job.digest_algorithm, pss.digest.oid)
    mask = padding.MGF1(_hash(pss.mask_digest, pss.mask_digest.oid))
    return padding.PSS(mask, pss.salt_length), _hash(pss.digest, pss.digest.oid)


def _pss(parameters: Optional[bytes]) -> _Pss:
    """Parameters that are there. A field may be there with its default value, though that is not DER: RFC 4055 wants this recognised."""
    values = {it.identifier: it.contents for it in members_of(parameters or b"", 4, rb"\xa0?\xa1?\xa2?\xa3?")}
    mask = _algorithm(values.get(0xA1, _MGF1_BY_SHA1_IN_DER))
    salt_length, trailer = (whole_in(values.get(it, default)) for it, default in ((0xA2, b"\x02\x01\x14"), (0xA3, b"\x02\x01\x01")))
    if mask.oid != _MGF1 or mask.parameters is None or trailer != 1:
        raise ValueError("not parameters that are known")
    return _Pss(_algorithm(values.get(0xA0, _SHA1_IN_DER)), _algorithm(mask.parameters), salt_length)
