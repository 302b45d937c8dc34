"""Makes time-stamp tokens with OpenSSL, and asks the library what they say and which rules they break: as they are, and with one
field changed.

Together the tokens have each value of each field of `Variant`; of each it is checked first that OpenSSL made what was asked for. What a
TSTInfo says is worked out here from its DER, and its time from what OpenSSL prints. Then tokens are taken apart, changed in one field
and put together again, with the signed attributes in DER. No signature is verified: unless a question says otherwise, the verifier
cannot tell whether it is right, which is F18.
"""

import calendar
import hashlib
import re
import time
from collections import namedtuple

import pytest
from elements import element_at, flipped
from listing import listing_of
from openssl_tokens import ACCURACY, DATA, ID_UNKNOWN, IDENTIFIERS, Variant, contents_changed, make_all, variants
from programs import complaint, run, told
from real_messages import CONTENTS, OCTET_STRING, written
from tst_model import ID_MESSAGE_DIGEST, INTEGER, OIDS, SEQUENCE, attribute, digest_algorithm_of, ess_cert_id, fields_of, named, octets_of
from tst_model import oid_of, parts_of, signing_certificate, token_of, tst_info_of, types_of, value_of, with_attributes, with_content
from tst_model import with_signer, without_attribute
from walk import dotted

OTHER_DATA = CONTENTS["other.txt"]

OBJECT_IDENTIFIER = 0x06
V1_ATTRIBUTE_CERTIFICATE = 0xA1  # of CertificateChoices

ID_DATA = bytes.fromhex("06092a864886f70d010701")
ID_CONTENT_TYPE = bytes.fromhex("06092a864886f70d010903")
ID_SIGNING_CERTIFICATE = bytes.fromhex("060b2a864886f70d010910020c")
ID_SIGNING_CERTIFICATE_V2 = bytes.fromhex("060b2a864886f70d010910022f")


# ---- what a token says

def told_of_fields(tst_info):
    lines = (f"{name} {'-' if octets is None else octets.hex()}\n" for name, octets in fields_of(tst_info))
    return "".join(lines).encode()


def seen(token):
    """Returns how a token was made, as its DER shows it; the digits are those of its fraction."""
    parts = parts_of(token)
    fields, algorithm, count = dict(fields_of(parts.content)), *identifiers_of(parts)
    numbers = zip(ACCURACY, map(fields.get, ("seconds", "millis", "micros")))
    accuracy = {word: int.from_bytes(octets, "big") for word, octets in numbers if octets is not None}
    return Variant(
        digest=named(written(OBJECT_IDENTIFIER, fields["algorithm"])),
        accuracy=tuple(word for word in ACCURACY if accuracy.get(word) == ACCURACY[word]),
        ordering=fields["ordering"] == b"\xff", nonce=fields["nonce"] is not None, policy=dotted(fields["policy"]),
        tsa=fields["tsa"] is not None, identifier=algorithm, chain=count == 2, certificates=parts.certificates is not None,
        digits=len(fields["time"].partition(b".")[2].rstrip(b"Z")),
    )


def identifiers_of(parts):
    """Returns the algorithm of the first certificate identifier, and how many there are."""
    (name,) = {ID_SIGNING_CERTIFICATE, ID_SIGNING_CERTIFICATE_V2}.intersection(types_of(parts))
    identifiers = element_at(value_of(parts, name), 0).members[0].members
    if name == ID_SIGNING_CERTIFICATE:
        return "sha1", len(identifiers)
    first = identifiers[0].members[0]  # DER leaves SHA-256 out, which is the default
    return named(first.members[0].octets) if first.identifier == SEQUENCE else "sha256", len(identifiers)


def judge_made(variant, token):
    came = seen(token)
    if came.digits > variant.digits or came._replace(digits=variant.digits) != variant:
        return f"asked for {variant}, came {came}"
    return "" if token_of(parts_of(token)) == token else "it is put together to another token"


# ---- questions for the library

Question = namedtuple("Question", "name words given wanted")


def check_question(name, message, findings, data=DATA, detached=None, verdict="unknown", kind="token"):
    """Asks for the findings on a message: a list of their lines."""
    counts = ("-" if octets is None else str(len(octets)) for octets in (detached, data))
    words = " ".join(["check", verdict, *counts, kind])
    given = message + (detached or b"") + (data or b"")
    return Question(name, words, given, "".join(f"{line}\n" for line in findings).encode())


UNKNOWN = "18 0"  # the signature of the signer


def questions_as_made(name, token):
    gen_time = dict(fields_of(tst_info_of(token.token)))["time"]
    yield Question(f"{name}/fields", "tst-info", tst_info_of(token.token), told_of_fields(tst_info_of(token.token)))
    # OpenSSL prints the time as `Nov 26 03:00:00.123 2026 GMT`.
    day, clock, fraction, year = re.search(r"^Time stamp: (.+) ([\d:]+)(?:\.(\d+))? (\d+) GMT$", token.printed, re.M).groups()
    moment = time.strptime(f"{day} {clock} {year}", "%b %d %H:%M:%S %Y")
    told_of_time = f"{calendar.timegm(moment)} {time.strftime('%Y%m%d%H%M%S', moment)} {fraction or ''}\n"
    yield Question(f"{name}/time", "times", gen_time, told_of_time.encode())
    for kind in ("token", "response", "request"):
        message = getattr(token, kind)
        yield Question(f"{name}/listing of the {kind}", "listing", message, listing_of(message).encode())
    yield Question(f"{name}/imprint", "imprint", token.request + DATA, b"none\n")
    yield Question(f"{name}/imprint-of-other-data", "imprint", token.request + OTHER_DATA, b"14\n")
    for what, message, findings, data, verdict in (
        ("data", token.token, [UNKNOWN], DATA, "unknown"), ("data-in-response", token.response, [UNKNOWN], DATA, "unknown"),
        ("other-data", token.token, ["14", UNKNOWN], OTHER_DATA, "unknown"), ("no-data", token.token, [UNKNOWN], None, "unknown"),
        ("good", token.token, [], DATA, "good"), ("bad", token.token, ["17 0"], DATA, "bad"),
    ):
        yield check_question(f"{name}/{what}", message, findings, data, verdict=verdict)


# ---- one field changed

def questions_of_content(parts):
    """Gives the questions on a token whose content is changed: with the digest of that in message-digest, with the former digest
    there, which is F7, and without data; and on the content alone.
    """
    for name, content, findings in contents_changed(parts.content):
        changed = with_content(parts, content)
        yield check_question(f"content/{name}", token_of(changed), [*findings, UNKNOWN])
        kept = token_of(parts._replace(content=content))
        is_same = content == parts.content
        yield check_question(f"content/{name}/digest-kept", kept, [*findings, *([] if is_same else ["7 0"]), UNKNOWN])
        without_data = [finding for finding in findings if finding == "13"]
        yield check_question(f"content/{name}/no-data", token_of(changed), [*without_data, UNKNOWN], None)
        wanted = b"NotTst\n" if "13" in findings else told_of_fields(content)
        yield Question(f"content/{name}/fields", "tst-info", content, wanted)


# ---- one field of the message or its signer changed

def signers_changed(parts):
    """Gives a name, a token with another version, other signers or without an attribute that RFC 5652 requires, and the findings."""
    (signer,) = parts.signers
    another, unknown = signer._replace(signature=flipped(signer.signature)), written(SEQUENCE, ID_UNKNOWN)
    listed = parts._replace(digest_algorithms=[unknown])
    digest = hashlib.new(digest_algorithm_of(parts), parts.content).digest()
    no_type, no_digest = (without_attribute(parts, name) for name in (ID_CONTENT_TYPE, ID_MESSAGE_DIGEST))
    data_type = attribute(ID_CONTENT_TYPE, ID_DATA)
    yield from (
        ("version-1", parts._replace(version=bytes.fromhex("020101")), ["1", UNKNOWN]),
        ("version-4", parts._replace(version=bytes.fromhex("020104")), ["1", UNKNOWN]),
        ("two-signers", parts._replace(signers=[signer, another]), ["12", "18 0", "18 1"]),
        ("one-signer-twice", parts._replace(signers=[signer, signer]), ["12", "18 0", "18 1"]),
        ("no-signer", parts._replace(signers=[]), ["12"]),
        ("signer-version-3", with_signer(parts, version=bytes.fromhex("020103")), ["2 0", UNKNOWN]),
        ("no-signed-attributes", with_signer(parts, attributes=None), ["3 0", "15 0", UNKNOWN]),
        ("digest-algorithm-unlisted", parts._replace(digest_algorithms=[]), ["10 0", UNKNOWN]),
        ("digest-algorithm-unknown", with_signer(parts, digest_algorithm=unknown), ["8 0", "10 0", UNKNOWN]),
        ("digest-algorithm-unknown-listed", with_signer(listed, digest_algorithm=unknown), ["8 0", UNKNOWN]),
        ("no-content-type", no_type, ["4 0", UNKNOWN]), ("two-content-types", with_attributes(parts, data_type), ["4 0", UNKNOWN]),
        ("another-content-type", with_attributes(no_type, data_type), ["5 0", UNKNOWN]), ("no-message-digest", no_digest, ["6 0", UNKNOWN]),
    )
    for name, value, finding in (
        ("changed", written(OCTET_STRING, flipped(digest)), "7 0"), ("short", written(OCTET_STRING, digest[:-1]), "7 0"),
        ("as-integer", written(INTEGER, digest), "6 0"),
    ):
        yield f"message-digest-{name}", with_attributes(no_digest, attribute(ID_MESSAGE_DIGEST, value)), [finding, UNKNOWN]


# ---- certificate identifiers changed

def name_of_identifier(algorithm):
    return ID_SIGNING_CERTIFICATE if algorithm == "sha1" else ID_SIGNING_CERTIFICATE_V2


def replaced(octets, old, new):
    """Returns octets with a part of them, which is there once, replaced by one that is as long."""
    if octets.count(old) != 1 or len(old) != len(new):
        raise ValueError(f"{old.hex()} is not there once")
    return octets.replace(old, new)


def identifier_attributes(parts, algorithm, certificate):
    """Gives a name, the signing-certificate attributes in place of the one that OpenSSL made, and the findings on the signer."""
    name = name_of_identifier(algorithm)
    value = value_of(parts, name)
    digest = hashlib.new(algorithm, certificate).digest()
    another = replaced(value, digest, flipped(digest))
    empty = signing_certificate()
    first, second = octets_of(element_at(value, 0).members[0].members)
    of_first = element_at(first, 0).contents
    yield "as-made", [attribute(name, value)], []
    yield "absent", [], ["15 0"]
    yield "two-values", [attribute(name, value, another)], ["15 0"]
    yield "no-value", [attribute(name)], ["15 0"]
    yield "twice", [attribute(name, value), attribute(name, another)], ["15 0"]
    yield "no-identifier", [attribute(name, empty)], ["15 0"]
    yield "no-sequence", [attribute(name, written(OCTET_STRING, value))], ["15 0"]
    yield "no-hash", [attribute(name, signing_certificate(written(SEQUENCE, b"")))], ["15 0"]
    yield "another-hash", [attribute(name, another)], ["16 0"]
    yield "more-after-hash", [attribute(name, signing_certificate(written(SEQUENCE, of_first + bytes.fromhex("0500"))))], []
    yield "chain-turned", [attribute(name, signing_certificate(second, first))], []
    yield "second-changed", [attribute(name, signing_certificate(first, ess_cert_id(b"another hash")))], []
    yield "first-changed", [attribute(name, signing_certificate(ess_cert_id(b"another hash"), first))], ["16 0"]


def of_another_kind(certificate):
    """Returns what by its identifier is an AttributeCertificateV1."""
    return bytes([V1_ATTRIBUTE_CERTIFICATE]) + certificate[1:]


def questions_of_identifier(parts, algorithm, certificate):
    name = name_of_identifier(algorithm)
    removed = without_attribute(parts, name)
    for what, attributes, findings in identifier_attributes(parts, algorithm, certificate):
        changed = with_attributes(removed, *attributes)
        about = f"identifier-{algorithm}/{what}"
        yield check_question(about, token_of(changed), [*findings, UNKNOWN])
        without_16 = [finding for finding in findings if finding != "16 0"]
        alone = token_of(changed._replace(certificates=None))
        yield check_question(f"{about}/no-certificates", alone, [*without_16, UNKNOWN])
    as_another = of_another_kind(certificate)
    for what, certificates, findings in (
        ("of-signer", [certificate], []), ("of-authority", [it for it in parts.certificates if it != certificate], ["16 0"]),
        ("empty", [], ["16 0"]), ("as-another-kind", [as_another], ["16 0"]), ("beside-another-kind", [as_another, certificate], []),
    ):
        changed = token_of(parts._replace(certificates=certificates))
        yield check_question(f"identifier-{algorithm}/certificates-{what}", changed, [*findings, UNKNOWN])
    unsigned = with_signer(removed, unsigned=[attribute(name, value_of(parts, name))])
    yield check_question(f"identifier-{algorithm}/unsigned", token_of(unsigned), ["15 0", UNKNOWN])


def both_versions(certificate):
    """Gives a name, signing-certificate attributes of version 2 or of both versions, and the findings on the signer."""
    hashes = {name: hashlib.new(name, certificate).digest() for name in OIDS}
    first, second = (ess_cert_id(hashes[name]) for name in ("sha1", "sha256"))
    other_first, other_second = (ess_cert_id(flipped(hashes[name])) for name in ("sha1", "sha256"))
    v1, other_v1 = (attribute(ID_SIGNING_CERTIFICATE, signing_certificate(one)) for one in (first, other_first))
    v2, other_v2 = (attribute(ID_SIGNING_CERTIFICATE_V2, signing_certificate(one)) for one in (second, other_second))
    unknown = attribute(ID_SIGNING_CERTIFICATE_V2, signing_certificate(ess_cert_id(hashes["sha256"], ID_UNKNOWN)))
    empty = attribute(ID_SIGNING_CERTIFICATE_V2, signing_certificate())
    yield "both", [v1, v2], []
    yield "another-hash-in-v2", [v1, other_v2], ["16 0"]
    yield "another-hash-in-v1", [other_v1, v2], []
    yield "v2-twice", [v1, v2, other_v2], []
    yield "v2-twice-another-hash-in-v1", [other_v1, v2, other_v2], ["16 0"]
    yield "v2-empty", [v1, empty], []
    yield "v2-empty-another-hash-in-v1", [other_v1, empty], ["16 0"]
    yield "unknown-algorithm", [unknown], ["8 0"]
    yield "unknown-algorithm-in-v2", [v1, unknown], ["8 0"]
    for name, digest in hashes.items():
        for what, octets, findings in (("", digest, []), ("-another-hash", flipped(digest), ["16 0"])):
            by_name = ess_cert_id(octets, oid_of(name))
            yield f"by-{name}{what}", [attribute(ID_SIGNING_CERTIFICATE_V2, signing_certificate(by_name))], findings


def questions_of_both(parts, certificate):
    removed = without_attribute(parts, ID_SIGNING_CERTIFICATE_V2)
    for what, attributes, findings in both_versions(certificate):
        changed = token_of(with_attributes(removed, *attributes))
        yield check_question(f"identifiers/{what}", changed, [*findings, UNKNOWN])
    another = of_another_kind(certificate)
    of_another = attribute(ID_SIGNING_CERTIFICATE_V2, signing_certificate(ess_cert_id(hashlib.sha256(another).digest())))
    changed = with_attributes(removed, of_another)._replace(certificates=[another, certificate])
    yield check_question("identifiers/of-another-kind", token_of(changed), ["16 0", UNKNOWN])


def questions(tokens, certificate):
    """Gives every question: on the tokens as they were made, and on those with all fields after a change.

    The certificate is that of the signer.
    """
    for name, token in tokens.items():
        yield from questions_as_made(name, token)
    full = {algorithm: parts_of(tokens[f"full-{algorithm}"].token) for algorithm in IDENTIFIERS}
    parts = full["sha256"]
    yield from questions_of_content(parts)
    for name, changed, findings in signers_changed(parts):
        yield check_question(name, token_of(changed), findings)
    # A message is no token if its eContentType is id-data: then its version has to be 1.
    data = parts._replace(content_type=ID_DATA)
    typed = with_attributes(without_attribute(data, ID_CONTENT_TYPE), attribute(ID_CONTENT_TYPE, ID_DATA))
    right = typed._replace(version=bytes.fromhex("020101"))
    no_identifier = without_attribute(right, ID_SIGNING_CERTIFICATE_V2)
    yield check_question("id-data", token_of(data), ["1", "11", "5 0", UNKNOWN])
    yield check_question("id-data/content-type", token_of(typed), ["1", "11", UNKNOWN])
    yield check_question("id-data/version", token_of(right), ["11", UNKNOWN])
    yield check_question("id-data/no-data", token_of(right), ["11", UNKNOWN], None)
    yield check_question("id-data/any-with-data", token_of(right), ["11", UNKNOWN], kind="any")
    yield check_question("id-data/any", token_of(right), [UNKNOWN], None, kind="any")
    yield check_question("id-data/no-identifier", token_of(no_identifier), ["11", UNKNOWN])
    yield check_question("id-data/two-signers", token_of(right._replace(signers=right.signers * 2)), ["11", "18 0", "18 1"])
    yield check_question("id-data/no-tst-info", token_of(with_content(right, b"no TSTInfo")), [UNKNOWN], None, kind="any")
    token = token_of(parts._replace(content=None))
    short = parts.content[:-1]
    yield check_question("detached/none", token, ["9", UNKNOWN])
    yield check_question("detached/passed-in", token, [UNKNOWN], detached=parts.content)
    yield check_question("detached/other-data", token, ["14", UNKNOWN], OTHER_DATA, parts.content)
    yield check_question("detached/no-tst-info", token, ["13", "7 0", UNKNOWN], detached=short)
    yield check_question("detached/not-looked-at", token_of(parts), [UNKNOWN], detached=short)
    for algorithm in IDENTIFIERS:
        yield from questions_of_identifier(full[algorithm], algorithm, certificate)
    yield from questions_of_both(parts, certificate)


def judge_answer(question, came):
    differs = complaint(told(len(question.given), question.wanted), came)
    return f"`{question.words}` of {question.given.hex()}: {differs}" if differs else ""


@pytest.mark.built
def test_tokens(library, tools, tally):
    """The tokens are those that were asked for, and the library says of each, and of each changed one, what is due."""
    tokens = make_all(tools)
    for name, variant in variants():
        tally.count(f"{name}/made", judge_made(variant, tokens[name].token))
    fractions = [name for name, token in tokens.items() if seen(token.token).digits]
    tally.count("fractions", "" if fractions else "no token has a fraction of a second")
    for question in questions(tokens, tools.make("openssl x509 -in stamper.crt -outform DER")):
        tally.count(question.name, judge_answer(question, run([library, *question.words.split()], question.given)))
