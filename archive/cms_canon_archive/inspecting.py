"""What a message says, in lines for people: who signed it, when and how, its time-stamps, whether it fits its document, and what is found in it."""

from __future__ import annotations

import hashlib
from typing import Dict, Iterator, NamedTuple, Optional, Tuple

import cms_canon
from cms_canon import MessageImprint, SignerInfo
from cms_canon._elements import elements_of
from cms_canon._texts import MEANINGS, REFUSALS

from .containers.found import Class, Found
from .judging import OF_TIMES, Facts, Signer, Time, Verification, name_of_oid
from .reading import judged_or_not
from .texts import shown, size_of

_MESSAGE_DIGEST = "1.2.840.113549.1.9.4"
_WIDTH = 14  # columns of labels
_STEP = "  "
_KINDS = {
    "signature": "a signed message",
    "certificates": "certificates in a message that nobody signed",
    "token": "a time-stamp token",
    "request": "a request for a time-stamp",
    "response": "a response of a time-stamping service",
}
_VERDICTS = {
    "right": "right",
    "wrong": "WRONG: at least one is not what its signer made of this content",
    "unknown": "not known of all: a certificate or an algorithm is missing",
}


class Line(NamedTuple):
    """A line: how far it is to the right, what it is about, and what is said."""

    level: int
    label: str
    text: str

    def __str__(self) -> str:
        label = f"{self.label:<{_WIDTH}} " if self.label else ""
        return f"{_STEP * self.level}{label}{shown(self.text)}"


def _some(level: int, *pairs: Tuple[str, Optional[str]]) -> Iterator[Line]:
    """Gives a line for each text that there is."""
    return (Line(level, label, text) for label, text in pairs if text)


class _Inspected:
    """A message with what is known of it. Signers have the numbers of its DER."""

    def __init__(self, found: Found, der: bytes, how: Verification) -> None:
        self.found = found
        self.how = how
        self.der = der
        self.message = cms_canon.read(der)
        self.facts = judged_or_not(found._replace(octets=der, facts=None), how)  # or findings would number signers in the order read
        self._signers: Dict[str, Signer] = {it.number: it for it in self.facts.signed_by}
        self._times: Dict[str, Time] = {it.number: it for it in self.facts.times}

    def lines(self) -> Iterator[Line]:
        yield from self._of_message()
        yield from self._of_content()
        if "" in self._times:
            yield from self._of_time(1, "time-stamp", "", self.message.tst_info.imprint if self.message.tst_info else None)
        request = self.message.request
        if request is not None:
            yield from _some(1, ("imprint", _imprint(request.imprint)), ("policy", request.policy))
        for number, signer in enumerate(self.message.signers):
            yield from self._of_signer(1, "signer", str(number), signer)

    def _of_message(self) -> Iterator[Line]:
        facts = self.facts
        size, is_der = len(self.found.octets or b""), self.found.octets == self.der
        octets = f"{size:,}, which are DER" if is_der else f"{size:,}, which are not DER: that has {len(self.der):,}"
        form = "" if self.found.form == "file" else self.found.form
        yield from _some(1, ("is", _KINDS[facts.kind or ""]), ("form", form), ("octets", octets), ("SHA-256", f"{hashlib.sha256(self.der).hexdigest()} of the DER"))

    def _of_content(self) -> Iterator[Line]:
        facts, content = self.facts, self.found.content
        length = None if self.message.content is None else len(self.message.content)
        length = length if content is None else content.length
        where = ", ".join(filter(None, (facts.content_type, facts.content, None if length is None else size_of(length).replace("\xa0", " "))))
        yield from _some(1, ("content", where), ("state", facts.state.value if facts.state else None), ("signatures", self._verdict()))
        for it in filter(None, facts.findings.split("; ")):
            yield Line(1, "finding", _with_meaning(it))
        yield from _some(1, ("note", facts.note))

    def _verdict(self) -> Optional[str]:
        verdict = self.facts.verdict
        trust = "" if self.how.certificates or verdict != "right" else "; whether these can be trusted is not known"
        return None if verdict is None else f"{self.how.said(_VERDICTS[verdict])}{trust}"

    def _of_signer(self, level: int, label: str, number: str, signer: SignerInfo) -> Iterator[Line]:
        known = self._signers.get(number)
        if known is None:
            yield Line(level, f"{label} {number}", "more signers than are looked at")
            return
        yield Line(level, f"{label} {number}", known.subject or "not known: the message has no certificate of it")
        key = " ".join(filter(None, (known.key, None if known.bits is None else f"of {known.bits} bits")))
        valid = f"from {known.not_before} to {known.not_after}" if known.not_before else None
        yield from _some(
            level + 1,
            *(("issuer", known.issuer), ("serial", known.serial), ("key identifier", known.key_identifier), ("certificate", valid)),
            *(("key", key), ("signed by", known.certificate and f"its issuer with {known.certificate}")),
            *(("digest", _with_digest(known.digest, signer)), ("signature", known.signature)),
            ("signed at", known.signing_time and f"{known.signing_time}, as the signer says"),
        )
        yield from self._below(level + 1, number, signer)

    def _below(self, level: int, number: str, signer: SignerInfo) -> Iterator[Line]:
        """Gives the time-stamps and the countersigners of a signer."""
        tokens = (value for it in signer.unsigned_attributes or () if it.oid in OF_TIMES for value in it.values)
        for count, token in enumerate(tokens):
            yield from self._of_time(level, "time-stamp", f"{number}/{count}", _imprint_in(token))
        for count, it in enumerate(signer.countersignatures):
            yield from self._of_signer(level, "countersigner", f"{number}.{count}", it)

    def _of_time(self, level: int, label: str, number: str, imprint: Optional[MessageImprint]) -> Iterator[Line]:
        known = self._times.get(number)
        if known is None:
            yield Line(level, f"{label} {number}", "more time-stamps than are looked at")
            return
        yield Line(level, f"{label} {number}".strip(), f"{known.time or 'says no time'}: {known.state.value}")
        yield from _some(level + 1, ("policy", known.policy), ("serial", known.serial), ("imprint", imprint and _imprint(imprint)))


def _imprint(imprint: MessageImprint) -> str:
    return f"{name_of_oid(imprint.hash_algorithm.oid)} {imprint.hashed_message.hex()}"


def _imprint_in(token: bytes) -> Optional[MessageImprint]:
    try:
        found = cms_canon.read(token).tst_info
    except cms_canon.Refused:
        return None
    return None if found is None else found.imprint


def _with_digest(algorithm: str, signer: SignerInfo) -> str:
    """Returns the algorithm, and the digest of the content that a signer gives."""
    values = [value for it in signer.signed_attributes or () if it.oid == _MESSAGE_DIGEST for value in it.values]
    try:
        (element,) = elements_of(values[0]) if len(values) == 1 else ()
    except ValueError:
        return algorithm
    return f"{algorithm} {element.contents.hex()}"


def _with_meaning(finding: str) -> str:
    """Returns a finding with what it means."""
    code = finding.partition(" ")[0]
    number = int(code[1:]) if code[1:].isdigit() else 0
    return f"{finding}: {MEANINGS[number - 1]}" if 1 <= number <= len(MEANINGS) else finding


def _of_no_message(facts: Facts) -> Iterator[Line]:
    if facts.reason is None:
        return _some(1, ("is", facts.what.value), ("note", facts.note))
    _, means, remedy = REFUSALS[facts.reason]
    return _some(1, ("refused", f"E{facts.reason} {facts.name} at {facts.at}"), ("which means", means), ("to do", remedy), ("note", facts.note))


def lines_of(found: Found, how: Verification) -> Iterator[Line]:
    """Gives the lines of what is at one place in a file."""
    try:
        der = cms_canon.convert(found.octets) if found.what is Class.MESSAGE and found.octets is not None else None
    except cms_canon.Refused:
        der = None
    return _of_no_message(judged_or_not(found, how)) if der is None else _Inspected(found, der, how).lines()
