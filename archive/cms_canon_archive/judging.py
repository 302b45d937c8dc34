"""What is recorded of a message: what it is, who signed it by which algorithms, whether its digests fit, and which times are vouched for.

'Fits' is a statement about what was seen, and whatever was not compared is a state of its own. Long contents are digested by `hashlib`
piece by piece, in half the time of the library, unless they have to be a TSTInfo; at most 64 GiB are read for all messages in a file, since
a sparse file takes no room on a disk. A token in an unsigned attribute that does not fit leaves the state of its message as it is, since the
document was signed without it.
"""

from __future__ import annotations

import hashlib
import warnings
from functools import lru_cache
from itertools import islice
from typing import TYPE_CHECKING, AbstractSet, Dict, FrozenSet, Iterable, Iterator, List, NamedTuple, Optional, Sequence, Tuple

import cms_canon
from cms_canon import _facts
from cms_canon._certificates import Certificate, certificate_in
from cms_canon._elements import elements_of
from cms_canon._facts import facts_of, token_facts_of
from cms_canon._names import NAMES
from cms_canon._rows import dotted

from .certificate_texts import dates_of, name_text
from .containers.found import GOOD, Class, Content, Due, Found, Octets, State, digest_of
from .containers.packed import why_of
from .containers.refused import IN_PLACE, UNNAMED, is_cms, named
from .containers.sources import Ended
from .texts import text_of

if TYPE_CHECKING:
    from cryptography import x509

MOST_LISTED = 1000  # signers, tokens or findings of one message that are recorded
SHORT = 1 << 13  # octets of a certificate of which is kept what it says
_FEW = 256  # octets, 16 for a finding: the texts of no more are kept
_SHORT_OID = 32  # octets: the names of longer OBJECT IDENTIFIERs are not kept
SMALL = 1 << 15  # octets of content that are handed to the library: digests of more are taken piece by piece
_F6, _F7, _F8, _F9, _F11, _F13, _F14, _F17, _F18 = 6, 7, 8, 9, 11, 13, 14, 17, 18
_MESSAGE_DIGEST, _SIGNING_TIME = "1.2.840.113549.1.9.4", "1.2.840.113549.1.9.5"
_OVER_SIGNATURE = {"1.2.840.113549.1.9.16.2.14", "1.3.6.1.4.1.311.3.3.1"}  # tokens for the signature
_OVER_MORE = {*(f"1.2.840.113549.1.9.16.2.{it}" for it in (25, 26, 27, 48)), "0.4.0.1733.2.4"}  # for the signature and more
OF_TIMES = _OVER_SIGNATURE | _OVER_MORE
_OVER_CONTENT = "1.2.840.113549.1.9.16.2.20"  # a signed attribute: tokens for the content (RFC 5126, section 5.11.4)
_ODD_IN_SIGNED = OF_TIMES | {"1.2.840.113549.1.9.6"}  # tokens and countersignatures, which belong to the unsigned attributes
_ODD_IN_UNSIGNED = {_OVER_CONTENT, "1.3.6.1.4.1.311.2.4.1"}  # a token for the content, and a signature in an attribute, as Windows programs have it
DEEPEST_TOKEN = 4  # tokens in attributes of one another
NOT_ALL_TIMES = "not all of its time-stamps are looked at"
_TOKEN = "tSTInfo"
_UTC_TIME, _GENERALIZED_TIME = 0x17, 0x18
_PKCS1, _ECDSA, _NIST = "1.2.840.113549.1.1", "1.2.840.10045.4", "2.16.840.1.101.3.4"
_DIGESTS = {"1.2.840.113549.2.5": "md5", **{f"{_NIST}.2.{it}": f"sha3-{bits}" for it, bits in ((7, 224), (8, 256), (9, 384), (10, 512))}}
_SIGNATURES = {
    **{f"{_PKCS1}.1": "rsa", f"{_PKCS1}.4": "rsa-md5", f"{_PKCS1}.5": "rsa-sha1", f"{_PKCS1}.10": "rsa-pss"},
    **{f"{_PKCS1}.{it}": f"rsa-sha{bits}" for it, bits in ((14, 224), (11, 256), (12, 384), (13, 512))},
    **{f"{_ECDSA}.1": "ecdsa-sha1", "1.2.840.10040.4.3": "dsa-sha1", "1.2.840.10040.4.1": "dsa"},
    **{f"{_ECDSA}.3.{it}": f"ecdsa-sha{bits}" for it, bits in ((1, 224), (2, 256), (3, 384), (4, 512))},
    **{f"{_NIST}.3.{it}": f"dsa-sha{bits}" for it, bits in ((1, 224), (2, 256), (3, 384), (4, 512))},
    **{"1.3.101.112": "ed25519", "1.3.101.113": "ed448", "1.2.840.10045.2.1": "ec"},
}
_HASHES = {name: name.replace("-", "_") for name in ("sha1", "sha224", "sha256", "sha384", "sha512", "sha512-224", "sha512-256")}


class Signer(NamedTuple):
    """A signer or a countersigner, by what it says of itself and by its certificate in the message."""

    number: str
    """As `0`, and as `0.1` of its second countersignature; both from 0 in the order of the DER."""
    digest: str
    signature: str
    issuer: Optional[str] = None
    serial: Optional[str] = None
    key_identifier: Optional[str] = None
    signing_time: Optional[str] = None
    subject: Optional[str] = None
    not_before: Optional[str] = None
    not_after: Optional[str] = None
    key: Optional[str] = None
    """As `RSA` or the name of a curve."""
    bits: Optional[int] = None
    """Those of the key."""
    certificate: Optional[str] = None
    """The algorithm by which the certificate is signed."""
    verified_by: Optional[str] = None
    """The SHA-256 of the certificate by which the signature is right, in hexadecimal digits; None if it is not, or was not verified."""
    message_digest: Optional[str] = None
    """The digest of what is signed, in hexadecimal digits; None if there is none that can be read."""


class Time(NamedTuple):
    """A time that a token vouches for."""

    number: str
    """Empty for the token that the message is; else that of the signer whose attribute it is, a slash, and its own from 0; after the word `content` for
    one of the content, in a signed attribute, and after `other` for what belongs to no such attribute."""
    time: Optional[str]
    policy: Optional[str]
    serial: Optional[str]
    digest: Optional[str]
    state: State
    """Whether its imprint fits what it covers."""
    subject: Optional[str] = None
    """This and what follows are of who signed the token, by its certificate in the token."""
    not_after: Optional[str] = None
    signature: Optional[str] = None
    key: Optional[str] = None
    bits: Optional[int] = None
    imprint: Optional[str] = None
    """The digest of what is time-stamped, in hexadecimal digits."""


class Facts(NamedTuple):
    """What is known of what lies at one place."""

    what: Class
    digest: Optional[bytes] = None
    """The SHA-256 of the DER."""
    kind: Optional[str] = None
    signers: Optional[int] = None
    """How many there are, without countersigners."""
    is_der: Optional[bool] = None
    time: Optional[str] = None
    """That of the token which the message is."""
    reason: Optional[int] = None
    name: Optional[str] = None
    at: Optional[int] = None
    content_type: Optional[str] = None
    content: Optional[str] = None
    state: Optional[State] = None
    note: str = ""
    findings: str = ""
    digests: str = ""
    signatures: str = ""
    verdict: Optional[str] = None
    signed_by: Sequence[Signer] = ()
    times: Sequence[Time] = ()


class Verification(NamedTuple):
    """Whether signatures are verified, and by which certificates, in DER: by those in the message if there are none here."""

    verifies: bool = False
    certificates: Sequence[bytes] = ()
    digest: Optional[bytes] = None
    """That of the certificates; None if there are none."""

    def said(self, verdict: str) -> str:
        """Returns a verdict with what it rests on."""
        return f"{verdict}, by {'the certificates that were given' if self.certificates else 'the certificates in the message'}"


NOT_VERIFIED = Verification()
BY_MESSAGE = Verification(True)


def verification_by(certificates: Sequence[bytes]) -> Verification:
    """Returns that signatures are verified by these certificates and no others. Their digest is the SHA-256 of that of each, in ascending order."""
    each = sorted({hashlib.sha256(it).digest() for it in certificates})
    return Verification(True, certificates, hashlib.sha256(b"".join(each)).digest())


# ---- certificates


class _Certificate(NamedTuple):
    """What is read of a certificate. The texts are None if `cryptography` cannot read it."""

    issuer: bytes
    serial: int
    key_identifier: Optional[bytes]
    sha256: Optional[str] = None
    issuer_text: Optional[str] = None
    subject: Optional[str] = None
    not_before: Optional[str] = None
    not_after: Optional[str] = None
    key: Optional[str] = None
    bits: Optional[int] = None
    signature: Optional[str] = None


_NO_CERTIFICATE = _Certificate(b"", 0, None)


def _key_of(certificate: x509.Certificate) -> Tuple[Optional[str], Optional[int]]:
    from cryptography.hazmat.primitives.asymmetric import dsa, ec, rsa

    key = certificate.public_key()
    if isinstance(key, rsa.RSAPublicKey):
        return "RSA", key.key_size
    if isinstance(key, dsa.DSAPublicKey):
        return "DSA", key.key_size
    if isinstance(key, ec.EllipticCurvePublicKey):
        return key.curve.name, key.key_size
    return type(key).__name__.strip("_").replace("PublicKey", ""), None


def _signature_of(certificate: x509.Certificate) -> str:
    """Returns the algorithm by which a certificate is signed, as `rsa-sha1`, also if the digest is in its parameters."""
    name = name_of_oid(certificate.signature_algorithm_oid.dotted_string)
    hashed = certificate.signature_hash_algorithm
    return f"{name}-{hashed.name}" if name == "rsa-pss" and hashed is not None else name


def _certificate(octets: bytes) -> Optional[_Certificate]:
    """Returns what a certificate says; None if it is none. What short ones say is kept, since an archive has the same ones often."""
    return _short_certificate(octets) if len(octets) <= SHORT else _read_certificate(octets)


def _key_identifier(certificate: Certificate) -> Optional[bytes]:
    """Returns the key identifier of a certificate; None if there is none in DER."""
    try:
        return certificate.subject_key_identifier
    except ValueError:
        return None


def _read_certificate(octets: bytes) -> Optional[_Certificate]:
    from cryptography import x509

    try:
        known = certificate_in(octets)
    except ValueError:
        return None
    found = _Certificate(known.issuer, known.serial_number, _key_identifier(known), hashlib.sha256(octets).hexdigest())
    try:
        with warnings.catch_warnings():
            warnings.simplefilter("ignore")  # of what a certificate should not have
            read = x509.load_der_x509_certificate(octets)
        names, times = (text_of(name_text(read.issuer)), text_of(name_text(read.subject))), dates_of(read)
        found = found._replace(issuer_text=names[0], subject=names[1], not_before=times[0], not_after=times[1])
        found = found._replace(signature=text_of(_signature_of(read)))
        key, bits = _key_of(read)
        return found._replace(key=text_of(key) if key else key, bits=bits)
    except Exception:  # whatever `cryptography` raises for a certificate or a key that it does not take
        return found


_short_certificate = lru_cache(maxsize=1024)(_read_certificate)


def _certificates_of(facts: _facts.Facts) -> List[_Certificate]:
    found = [_certificate(facts.der[begin:end]) for begin, end in facts.certificates[:MOST_LISTED]]
    return [it for it in found if it is not None]


# ---- signers and times


_NAMES_OF_OIDS = {**_SIGNATURES, **_DIGESTS, **NAMES}


def hash_named(name: str) -> Optional[str]:
    """Returns what hashlib calls a digest algorithm that is named so; None if it does not know it."""
    return _HASHES.get(name)


def name_of_oid(oid: str) -> str:
    return _NAMES_OF_OIDS.get(oid, oid)


@lru_cache(maxsize=256)
def _short_name(contents: bytes) -> str:
    return name_of_oid(dotted(contents))


def _name_of(contents: bytes) -> str:
    """Returns the name of an OBJECT IDENTIFIER with these contents octets. Those of short ones are kept."""
    return _short_name(contents) if len(contents) <= _SHORT_OID else name_of_oid(dotted(contents))


def _one(octets: bytes) -> Optional[Tuple[int, bytes]]:
    """Returns the identifier and the contents of the one element in DER; None if it is not one."""
    try:
        (element,) = elements_of(octets)
    except ValueError:
        return None
    return element.identifier, element.contents


def _signing_time(signer: _facts.Signer) -> Optional[str]:
    """Returns the signing time as `2024-02-29T12:00:00Z`; None if there is none that can be read. It is what the signer claims."""
    values = signer.signed.get(_SIGNING_TIME, [])
    found = _one(values[0]) if len(values) == 1 else None
    if found is None or found[0] not in (_UTC_TIME, _GENERALIZED_TIME) or not found[1].endswith(b"Z") or not found[1][:-1].isdigit():
        return None
    digits = found[1][:-1].decode("ascii")
    if found[0] == _UTC_TIME:
        digits = ("19" if digits[:2] >= "50" else "20") + digits
    return f"{digits[:4]}-{digits[4:6]}-{digits[6:8]}T{digits[8:10]}:{digits[10:12]}:{digits[12:14]}Z" if len(digits) == 14 else None


def _signer(signer: _facts.Signer, certificates: List[_Certificate], verified: _Verified) -> Signer:
    serial, key_identifier = signer.serial_number, signer.key_identifier
    known = _certificate_of(signer, certificates)
    return Signer(
        signer.number,
        _name_of(signer.digest_algorithm),
        _name_of(signer.signature_algorithm),
        known.issuer_text,
        None if serial is None else _hex(serial),
        None if key_identifier is None else key_identifier.hex(),
        _signing_time(signer),
        known.subject,
        known.not_before,
        known.not_after,
        known.key,
        known.bits,
        known.signature,
        known.sha256 if signer.number in verified.by_certificate else None,
        None if (digest := _message_digest(signer)) is None else digest.hex(),
    )


def _certificate_of(signer: _facts.Signer, certificates: List[_Certificate]) -> _Certificate:
    return _certificate_named(certificates, signer.issuer, signer.serial_number, signer.key_identifier)


def _hex(number: int) -> str:
    return f"{'-' if number < 0 else ''}{abs(number):x}"


def _certificate_named(certificates: List[_Certificate], issuer: Optional[bytes], serial: Optional[int], key_identifier: Optional[bytes]) -> _Certificate:
    """Returns the certificate with this key identifier, or else with this issuer and serial number."""
    if key_identifier is not None:
        return next((it for it in certificates if it.key_identifier == key_identifier), _NO_CERTIFICATE)
    return next((it for it in certificates if it.serial == serial and it.issuer == issuer), _NO_CERTIFICATE)


def _countersigned(signers: Iterable[_facts.Signer]) -> Iterator[Tuple[str, State]]:
    """Gives the number of each countersigner, and whether its digest is that of the signature which it covers."""
    for signer in signers:
        digests: Dict[str, bytes] = {}  # of the signature, which many may cover
        for countersigner in signer.countersigners:
            yield countersigner.number, _state_of_countersigner(countersigner, signer.signature, digests)


def _state_of_countersigner(countersigner: _facts.Signer, signature: bytes, digests: Dict[str, bytes]) -> State:
    digest, name = _message_digest(countersigner), NAMES.get(dotted(countersigner.digest_algorithm), "")
    if digest is None:
        return State.NO_DIGEST
    if name not in _HASHES:
        return State.UNKNOWN_DIGEST
    if name not in digests:
        digests[name] = hashlib.new(_HASHES[name], signature).digest()
    return State.FITS if digests[name] == digest else State.DIFFERS


def _message_digest(signer: _facts.Signer) -> Optional[bytes]:
    values = signer.signed.get(_MESSAGE_DIGEST, [])
    found = _one(values[0]) if len(values) == 1 else None
    return found[1] if found else None


def time_text(digits: str) -> str:
    """Returns a genTime as a listing has it, as `2024-02-29T12:00:00.5Z`."""
    return f"{digits[:4]}-{digits[4:6]}-{digits[6:8]}T{digits[8:10]}:{digits[10:12]}:{digits[12:]}"


def _token_facts(facts: _facts.Facts) -> Optional[_facts.TokenFacts]:
    """Returns what a token says; None if the message is none, or its content is no TSTInfo."""
    if facts.content is None or not _stamps(facts):
        return None
    try:
        return token_facts_of(facts.content.tobytes())
    except cms_canon.Refused:
        return None


def _time(number: str, facts: _facts.Facts, state: State, given: Sequence[_Certificate]) -> Time:
    token = _token_facts(facts)
    if token is None:
        return Time(number, None, None, None, None, State.NO_DIGEST if state in (*GOOD, State.COVERS_MORE) else state)
    time = Time(number, time_text(token.time), token.policy, _hex(token.serial_number), _name_of(token.hash_algorithm), state)
    time = time._replace(imprint=token.imprint.hex())
    if not facts.signers:
        return time
    signer = facts.signers[0]  # there is one (RFC 3161, section 2.4.2)
    known = _certificate_of(signer, [*given, *_certificates_of(facts)])
    signature = _name_of(signer.signature_algorithm)
    return time._replace(subject=known.subject, not_after=known.not_after, signature=signature, key=known.key, bits=known.bits)


def _attribute_times(signer: _facts.Signer, given: Sequence[_Certificate], depth: int) -> Iterator[Time]:
    """Gives the times of the tokens in the unsigned attributes of a signer. The imprint of one for its signature is compared."""
    count = 0
    for oid, values in signer.unsigned:
        if oid not in OF_TIMES:
            continue
        for value in values:
            yield _attribute_time(f"{signer.number}/{count}", value, signer.signature if oid in _OVER_SIGNATURE else None, given, depth)
            count += 1


def _odd_times(signer: _facts.Signer) -> Iterator[Time]:
    """Gives what nobody compares: tokens and signatures among attributes to which they do not belong, and attributes without a token."""
    odd = [it for it in signer.signed if it in _ODD_IN_SIGNED]
    odd += [oid for oid, values in signer.unsigned if oid in _ODD_IN_UNSIGNED or (oid in OF_TIMES and not values)]
    odd += [oid for oid, values in signer.signed.items() if oid == _OVER_CONTENT and not values]
    for number, _ in enumerate(odd):
        yield Time(f"other {signer.number}/{number}", None, None, None, None, State.NO_DIGEST)


def _with_inner(state: State, facts: _facts.Facts, depth: int) -> State:
    """Returns the state of a token with regard to its countersignatures and to the tokens in its attributes."""
    state, _ = _with_countersigned(state, facts)
    stamped = [it for it in facts.signers if it.unsigned or it.signed.keys() & (_ODD_IN_SIGNED | {_OVER_CONTENT})]
    inner = {it.state for it in _all_times(facts, None, stamped, state, (), depth + 1)} if depth < DEEPEST_TOKEN else {State.NO_DIGEST} if stamped else set()
    if state is State.DIFFERS or State.DIFFERS in inner:
        return State.DIFFERS
    return state if inner <= {State.FITS} else State.NO_DIGEST


def _content_times(signer: _facts.Signer, judged_so: _Content, given: Sequence[_Certificate], depth: int) -> Iterator[Time]:
    """Gives the times of the tokens for the content in the signed attributes of a signer."""
    for number, value in enumerate(signer.signed.get(_OVER_CONTENT, [])):
        yield _content_time(f"content {signer.number}/{number}", value, signer, judged_so, given, depth)


def _content_time(
    number: str, token: bytes, signer: _facts.Signer, judged_so: _Content, given: Sequence[_Certificate], depth: int
) -> Time:
    try:
        facts = facts_of(token, checks=False)
        codes = {it.code for it in cms_canon.check(token, stamped=b"")} - {_F14}
    except cms_canon.Refused:
        return Time(number, None, None, None, None, State.NO_DIGEST)
    said = _token_facts(facts)
    bound = State.NO_DIGEST if said is None else _state_of_imprint(said, signer, judged_so)
    return _time(number, facts, _with_inner(_state_of_token(facts, codes, bound), facts, depth), given)


def _state_of_imprint(said: _facts.TokenFacts, signer: _facts.Signer, judged_so: _Content) -> State:
    """Returns whether the imprint of a token fits the content, which is not read if the message digest of the signer is by the same algorithm."""
    name = NAMES.get(dotted(said.hash_algorithm), "")
    if name not in _HASHES:
        return State.UNKNOWN_DIGEST
    if NAMES.get(dotted(signer.digest_algorithm), "") == name:
        digest = _message_digest(signer)
    elif "." in signer.number:  # a countersigner signs a signature, and no content
        digest = None
    elif judged_so.pieces is None or judged_so.state is State.UNREADABLE:
        return judged_so.state
    else:
        digest = judged_so.digest(_HASHES[name])
    if digest is None:
        return State.NO_DIGEST
    return judged_so.state if digest == said.imprint else State.DIFFERS


def _attribute_time(number: str, token: bytes, covered: Optional[bytes], given: Sequence[_Certificate], depth: int) -> Time:
    try:
        facts = facts_of(token, checks=False)
        codes = {it.code for it in cms_canon.check(token, stamped=covered if covered is not None else b"")}
    except cms_canon.Refused:
        return Time(number, None, None, None, None, State.NO_DIGEST)
    if covered is None:
        return _time(number, facts, _with_inner(_state_of_token(facts, codes - {_F14}, State.COVERS_MORE), facts, depth), given)
    return _time(number, facts, _with_inner(_state_of_token(facts, codes, State.FITS), facts, depth), given)


class _Content:
    """The content of a message, and what is known of it."""

    def __init__(self, state: State, inside: Optional[memoryview], elsewhere: Optional[Content]) -> None:
        self.state = state
        self.pieces: Optional[Iterable[Octets]] = (inside,) if inside is not None else elsewhere.pieces if elsewhere is not None else None
        self._digests: Dict[str, bytes] = {}

    def digest(self, algorithm: str) -> Optional[bytes]:
        """Returns the digest of the content, which is read once for each algorithm; None if it is not there."""
        if self.pieces is None:
            return None
        if algorithm not in self._digests:
            self._digests[algorithm] = digest_of(self.pieces, algorithm)
        return self._digests[algorithm]


# ---- findings


def _stamps(facts: _facts.Facts) -> bool:
    """Whether the content type is that of a TSTInfo."""
    return NAMES.get(facts.content_type or "") == _TOKEN


def _is_token(facts: _facts.Facts) -> bool:
    """Whether it is of time-stamping. What signs a TSTInfo that lies elsewhere is a signature of that."""
    return facts.kind != "signed-data" or (facts.content is not None and _stamps(facts))


class _Findings(NamedTuple):
    """What is found in a message with its document, but for verdicts on signatures."""

    codes: FrozenSet[int]
    text: str


def _as_text(found: Iterable[cms_canon.Finding]) -> _Findings:
    kept = [it for it in found if it.code not in (_F17, _F18)]
    more = f" and {len(kept) - MOST_LISTED:,} more" if len(kept) > MOST_LISTED else ""
    return _Findings(frozenset(it.code for it in kept), "; ".join(map(str, kept[:MOST_LISTED])) + more)


def _of_items(items: bytes) -> _Findings:
    return _as_text(cms_canon._findings_in(items))


_of_few_items = lru_cache(maxsize=256)(_of_items)  # most messages of an archive break the same rules


def _findings(octets: bytes, facts: _facts.Facts, content: Optional[Content], is_stamped: bool) -> _Findings:
    """Returns what is found with the content. `is_stamped` says that it is of time-stamping.

    Raises `Ended` if the content has to be a TSTInfo and is too long to be read as one, or if `hashlib` does not know a digest algorithm.
    """
    if content is None or content.bound is State.UNREADABLE or (facts.content is not None and not is_stamped):
        if facts.findings is None:
            return _as_text(cms_canon.check(octets))
        return _of_few_items(facts.findings) if len(facts.findings) <= _FEW else _of_items(facts.findings)
    if content.length > cms_canon.LIMIT and facts.content is None and _stamps(facts):
        raise Ended(f"not read as a TSTInfo, which has at most {cms_canon.LIMIT:,} octets here")
    given: cms_canon.Document = b"".join(content.pieces) if content.length <= SMALL else content.pieces
    try:
        return _as_text(cms_canon.check(octets, None if is_stamped else given, given if is_stamped else None))
    except ValueError as why:  # also `Refused` by E2, of a TSTInfo that is longer than was said: the message itself was read before
        raise Ended(f"not digested: {why}") from None


# ---- verdicts

_VERDICTS = {_F17: "wrong", _F18: "unknown"}


class _Verified(NamedTuple):
    """What the arithmetic says of the signatures by the certificates in the message. It says nothing of trust."""

    verdict: Optional[str] = None
    """Of all signatures; None if there are none, or none is verified."""
    right: FrozenSet[int] = frozenset()
    """The numbers of the signers that sign the content itself, without signed attributes, and are right."""
    wrong: FrozenSet[int] = frozenset()
    """Those of them that are wrong."""
    by_certificate: FrozenSet[str] = frozenset()
    """The numbers of all signers whose signature is right by the certificate that they name."""


_NONE_VERIFIED = _Verified()


def _verified(facts: _facts.Facts, content: Optional[Content], certificates: Sequence[bytes]) -> _Verified:
    """Verifies the signatures, by these certificates and no others if there are any.

    If the content itself is signed and is not there, or too long to be handed over, nothing is known. Signers are those of the DER, since
    findings number them in the order in which they are read.
    """
    from cms_canon import verifier

    own = _signers_of_content(facts)
    given = None
    if facts.content is None and own:
        if content is None or content.bound is State.UNREADABLE or content.length > cms_canon.LIMIT:
            return _Verified(_VERDICTS[_F18])
        given = b"".join(content.pieces)
    found = [it for it in cms_canon.check(facts.der, content=given, verifier=verifier.by_certificates(certificates or None)) if it.code in _VERDICTS]
    not_right = {it.signer for it in found}
    wrong = frozenset(it.signer for it in found if it.code == _F17 and it.signer in own)
    right = frozenset(it.number for it in facts.signers if "." not in it.number and int(it.number) not in not_right)
    verdict = _VERDICTS[min(it.code for it in found)] if found else "right"
    return _Verified(verdict, frozenset(it for it in own if it not in not_right), wrong, right)


def _signers_of_content(facts: _facts.Facts) -> FrozenSet[int]:
    """Returns the numbers of the signers that sign the content itself, since they have no signed attributes."""
    return frozenset(int(it.number) for it in facts.signers if not it.has_signed_attributes and "." not in it.number)


# ---- the state


def _kind_of(found: Found, facts: _facts.Facts, is_token: bool) -> str:
    if facts.kind != "signed-data":
        return facts.kind
    if not facts.signers and facts.content is None and not found.is_detached:
        return "certificates"
    return "token" if is_token else "signature"


def _in_place(found: Found, kind: str) -> str:
    """Returns the note on certificates or a request in place of a signature; on a request also in place of any other message."""
    if kind == "request" and (found.is_signature_due or found.due is Due.MESSAGE):
        return f"a request{IN_PLACE}"
    return f"certificates{IN_PLACE}" if kind == "certificates" and found.is_signature_due else ""


def _is_inside(facts: _facts.Facts, content: Content) -> bool:
    """Whether the message holds the very content that it is to cover."""
    inside = facts.content
    if inside is None or len(inside) != content.length:
        return False
    return digest_of(content.pieces, "sha256") == hashlib.sha256(inside).digest()


def _lacks_digest(facts: _facts.Facts, codes: AbstractSet[int], right: AbstractSet[int]) -> bool:
    """Whether no digest of a signer can be compared, unless its signature of the content itself is known to be right."""
    return _F6 in codes or not (_signers_of_content(facts) <= right)


def _state_of_token(facts: _facts.Facts, codes: AbstractSet[int], bound: State, right: AbstractSet[int] = frozenset()) -> State:
    """Returns what is known of the digests of a token, and `bound` if all of them fit."""
    if not facts.signers:
        return State.NO_SIGNATURE
    if codes & {_F7, _F14}:
        return State.DIFFERS
    if _lacks_digest(facts, codes, right) or codes & {_F9, _F11, _F13}:
        return State.NO_DIGEST
    return State.UNKNOWN_DIGEST if _F8 in codes else bound


def _state_of_signature(found: Found, facts: _facts.Facts, codes: AbstractSet[int], right: AbstractSet[int]) -> State:
    content = found.content
    if facts.content is not None and found.is_detached and not (content is not None and _is_inside(facts, content)):
        return State.DIFFERS if content is not None and content.is_due_inside else State.INSIDE
    if _F9 in codes:
        return State.NOT_FOUND
    if _lacks_digest(facts, codes, right):
        return State.NO_DIGEST
    if _F8 in codes:
        return State.UNKNOWN_DIGEST
    return content.bound if content is not None else State.FITS


def _state_of(found: Found, facts: _facts.Facts, kind: str, codes: AbstractSet[int], verified: _Verified) -> State:
    """Returns what is known of the digests. It says that they fit only if each was compared with the document, or is not there and the
    signature of the content itself was verified."""
    content = found.content
    if not facts.signers:
        return State.NO_SIGNATURE
    if codes & {_F7, _F14} or verified.wrong or (content is not None and content.bound is State.DIFFERS):
        return State.DIFFERS
    if content is not None and content.bound is State.UNREADABLE:
        return State.UNREADABLE
    if kind in ("token", "response"):
        return _state_of_token(facts, codes, State.NOT_FOUND if content is None else content.bound, verified.right)
    return _state_of_signature(found, facts, codes, verified.right)


def _with_countersigned(state: State, facts: _facts.Facts) -> Tuple[State, str]:
    """Returns the state with regard to the countersignatures, and a note that names the first of which something is to be said."""
    first: Dict[State, str] = {}
    for number, it in _countersigned(facts.signers):
        first.setdefault(it, number)
    for worse in (State.DIFFERS, State.NO_DIGEST, State.UNKNOWN_DIGEST) if first else ():
        if worse in first:
            return worse if worse is State.DIFFERS or state in GOOD else state, f"countersigner {first[worse]}: {worse.value}"
    return state, ""


def _note_of(found: Found) -> str:
    if found.content is None:
        return found.note
    return _joined(*dict.fromkeys((found.content.note, found.note)))


def _joined(*notes: str) -> str:
    return "; ".join(filter(None, notes))


def _where(found: Found, facts: _facts.Facts, is_token: bool) -> Optional[str]:
    if found.content is not None:
        return found.content.where
    return "inside" if not is_token and facts.content is not None else None


def _names(names: Sequence[str]) -> str:
    """Returns the names of some algorithms in their order, each once."""
    return names[0] if len(names) == 1 else ", ".join(sorted(set(names)))


def _times_of(found: Found, facts: _facts.Facts, is_token: bool, state: State, given: Sequence[_Certificate]) -> List[Time]:
    """Returns the times of the message itself, if it is a token, and of the tokens in attributes: one more than are listed, if there are more."""
    own = [_time("", facts, state, given)] if is_token and facts.signers else []
    stamped = [it for it in facts.signers if it.unsigned or it.signed.keys() & (_ODD_IN_SIGNED | {_OVER_CONTENT})]
    return own + list(islice(_all_times(facts, found.content, stamped, state, given), MOST_LISTED + 1 - len(own))) if stamped else own


def _all_times(
    facts: _facts.Facts, content: Optional[Content], stamped: Iterable[_facts.Signer], state: State, given: Sequence[_Certificate], depth: int = 0
) -> Iterator[Time]:
    judged_so = _Content(state, facts.content, content)
    for signer in stamped:
        yield from _attribute_times(signer, given, depth)
        yield from _content_times(signer, judged_so, given, depth)
        yield from _odd_times(signer)


def _judged_message(found: Found, octets: bytes, how: Verification) -> Facts:
    facts = found.facts or facts_of(octets, checks=found.content is None)
    is_token = _is_token(facts)
    kind = _kind_of(found, facts, is_token)
    findings = _findings(octets, facts, found.content, is_token)
    verified = _verified(facts, found.content, how.certificates) if how.verifies and facts.signers else _NONE_VERIFIED
    state, of_countersigners = _with_countersigned(_state_of(found, facts, kind, findings.codes, verified), facts)
    known = [*filter(None, map(_certificate, how.certificates))]
    certificates = [*known, *_certificates_of(facts)] if facts.signers else []
    signers = [_signer(it, certificates, verified) for it in facts.signers[:MOST_LISTED]]
    times = _times_of(found, facts, is_token, state, known)
    is_cut = len(times) > MOST_LISTED
    del times[MOST_LISTED:]
    of_times = next((f"token {it.number}: {it.state.value}" for it in times if it.number and it.state is State.DIFFERS), "")
    return Facts(
        what=Class.MESSAGE,
        digest=hashlib.sha256(facts.der).digest(),
        kind=kind,
        signers=None if facts.content_type is None else facts.signer_count,
        is_der=facts.der == octets,
        time=times[0].time if times and times[0].number == "" else None,
        content_type=None if facts.content_type is None else name_of_oid(facts.content_type),
        content=_where(found, facts, is_token),
        state=state,
        note=_joined(NOT_ALL_TIMES if is_cut else "", _in_place(found, kind), _note_of(found), of_countersigners, of_times),
        findings=findings.text,
        digests=_names([it.digest for it in signers]),
        signatures=_names([it.signature for it in signers]),
        verdict=verified.verdict,
        signed_by=signers,
        times=times,
    )


def judged(found: Found, how: Verification = NOT_VERIFIED) -> Facts:
    """Returns what is known of what was found: of what may be a message, whether it is one, or why it is refused."""
    if found.what is not Class.MESSAGE or found.octets is None:
        return Facts(found.what, note=found.note)
    try:
        return _judged_message(found, found.octets, how)
    except (OSError, Ended) as why:  # of a content that is read now
        where = found.content.where if found.content else ""
        unread = Content(where, 0, (), State.UNREADABLE, f"{where}: {why_of(why)}")
        return judged(found.with_content(unread), how)
    except cms_canon.Refused as refused:
        what, note = named(found.octets), _note_of(found)
        if what and (found.is_signature_due or (found.due is Due.MESSAGE and not is_cms(what))):
            what += IN_PLACE
        note = _joined(note, what or (UNNAMED if note else ""))
        return Facts(Class.REFUSED, note=note, reason=refused.reason, name=refused.name, at=refused.at)
