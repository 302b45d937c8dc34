"""Asks the released library where the fields of messages lie, and the Python package what they are, and compares what comes with
what walk.py finds, a reader of its own.

The messages are all octets in the vectors, those that openssl, gpgsm and BouncyCastle make for the other tests, tokens whose
TSTInfo is changed, and MESSAGES made at random, ten spellings in BER of each value: signed messages with countersignatures,
requests, responses and tokens. Of each it is checked that

- a message that is refused is refused as `cms_canon_convert` refuses it, and as `read` of the package raises it;
- the rows are those of the walk, each in its place, and are the same with just enough room; with less room none is written;
- `cms_canon_cover` writes what the walk finds;
- each attribute of the object is what the walk finds, and so is what `to_json` writes;
- the content of a token is refused as a TSTInfo if `show` says that it is none.

In the messages made at random each kind of row has to occur, and each field that may be absent has to be absent somewhere.
"""

import json
import sys
from collections import Counter, namedtuple
from datetime import datetime

import generated_messages
import messages_of_tools
import openssl_tokens
import pytest
import real_messages
from c_library import LIMIT, Library
from elements import ID_CT_TST_INFO, element as written, message as message_of, oid, token_around
from generated_messages import any_token, any_tst_info
from programs import octets_in_vectors
from tst_model import tst_info_of
from walk import KINDS, TST_INFO, countersignatures_of, fields_of, fields_of_tst_info

MESSAGES = 20_000
SPELLINGS = 10  # of each message made at random, the last one in DER
MOST_SIGNERS = 10  # of a message whose covers are asked for: each call reads the whole message
NO_CONTENT, NO_TST_INFO = 103, 105
EXACT = (1 << 53) - 1  # the largest whole number that to_json writes as one

OPTIONAL = {  # what may be absent, by the row that is there all the same
    "SIGNED_DATA": ("DIGEST_ALGORITHM", "CONTENT", "CERTIFICATES", "CERTIFICATE", "CRLS", "CRL", "SIGNER"),
    "SIGNER": ("ISSUER", "SUBJECT_KEY_IDENTIFIER", "SIGNED_ATTRIBUTES", "UNSIGNED_ATTRIBUTES", "COUNTERSIGNATURE", "PARAMETERS"),
    "ATTRIBUTE": ("VALUE",),
    "REQUEST": ("REQUEST_POLICY", "REQUEST_NONCE", "CERT_REQ", "REQUEST_EXTENSIONS"),
    "RESPONSE": ("STATUS_STRING", "FAIL_INFO", "SIGNED_DATA"),
    "TST_INFO": ("ACCURACY", "ORDERING", "TST_NONCE", "TSA", "TST_EXTENSIONS"),
    "ACCURACY": ("SECONDS", "MILLIS", "MICROS"),
}
seen = Counter()  # kinds of rows that a message has, and pairs of one that it has and one that it has not

Asker = namedtuple("Asker", "library package")


@pytest.fixture
def asker(package):
    return Asker(Library(), package)


# ---- what is wrong with what is said of a message: the first thing, or an empty text

def judged(complaints):
    return next((it for it in complaints if it), "")


def differ(what, wanted, came):
    return "" if came == wanted else f"{what}: wanted {str(wanted)[:200]}, came {str(came)[:200]}"


def complaints_of_refusal(asker, octets, limit, refusal):
    """Yields what differs if a message is refused, from how `cms_canon_convert` refuses it."""
    yield differ("refused", refusal, asker.library.fields(octets, limit).refusal)
    try:
        asker.package.read(octets, limit)
        yield "the package does not refuse it"
    except asker.package.Refused as refused:
        yield differ("refused by the package", refusal, (3, refused.reason, refused.at, refused.name))


def complaints_of_room(ask, rows):
    """Yields what differs if there is less room than needed, or just enough."""
    needed = len(rows)
    for room in sorted({0, needed // 2, needed - 1}):
        came = ask(room)
        yield differ(f"room for {room} of {needed}", (6, 0, 0, needed, ""), came[:5])
    yield differ("just enough room", rows, ask(needed).rows)


def complaint_of_rows(wanted, came):
    if came.status != 0:
        return f"wanted rows, came {came[:5]}"
    for number, (due, row) in enumerate(zip(wanted, came.rows)):
        if row != due:
            return f"row {number}: wanted {due}, came {row}"
    return differ("rows", len(wanted), came.octets)


def complaints_of_signer(library, octets, path, signer, detached):
    """Yields what differs of a signer from the other calls, and of its countersignatures."""
    covered = library.cover(octets, path, detached)
    if signer["covered"] is None:
        yield differ(f"cover {path}", NO_CONTENT, covered.reason)
    else:
        yield differ(f"cover {path}", (0, signer["covered"]), (covered.status, covered.output))
    for number, inner in enumerate(countersignatures_of(signer)):
        yield from complaints_of_signer(library, octets, [*path, number], inner, detached)


def complaints_of_value(package, name, wanted, came, detached):
    """Yields what differs between what the walk finds and what an object says."""
    if name == "covered":
        try:
            covered = came(detached)
        except package.Refused as refused:
            covered = refused.reason
        yield differ(name, NO_CONTENT if wanted is None else wanted, covered)
    elif isinstance(wanted, dict):
        for key, value in wanted.items():
            inner = came.covered if key == "covered" else getattr(came, key, "no such attribute")
            yield from complaints_of_value(package, key, value, inner, detached)
    elif isinstance(wanted, list):
        yield differ(f"{name}: a tuple of as many", (tuple, len(wanted)), (type(came), len(came or ())))
        for due, one in zip(wanted, came):
            yield from complaints_of_value(package, name, due, one, detached)
    elif isinstance(wanted, bytes):
        yield differ(name, wanted, bytes(came) if isinstance(came, (bytes, memoryview)) else came)
    else:
        yield differ(name, (type(wanted), wanted), (type(came), came))


def json_of(value):
    if isinstance(value, dict):
        return {key: json_of(it) for key, it in value.items() if key != "covered"}
    if isinstance(value, (list, tuple)):
        return [json_of(it) for it in value]
    if isinstance(value, datetime):
        fraction = f".{value.microsecond:06}" if value.microsecond else ""
        return f"{value.year:04}{value.strftime('-%m-%dT%H:%M:%S')}{fraction}+00:00"
    if isinstance(value, int) and abs(value) > EXACT:
        length = next(it for it in range(1, 1 << 30) if -(1 << 8 * it - 1) <= value < 1 << 8 * it - 1)
        return f"0x{value.to_bytes(length, 'big', signed=True).hex()}"
    return value.hex() if isinstance(value, bytes) else value


def complaints_of_object(package, octets, kind, values, tst_info, detached):
    """Yields what differs of the object. `tst_info` is what the TSTInfo says, None if there is none, or why it is none."""
    message = package.read(octets)
    yield differ("kind", kind, message.kind)
    yield differ("request", kind == "request", message.request is not None)
    yield differ("response", kind == "response", message.response is not None)
    part = {"signed-data": message.signed_data, "request": message.request, "response": message.response}[kind]
    yield from complaints_of_value(package, kind, values, part, detached)
    signed_data = signed_data_of(kind, values)
    if signed_data is None:
        absent = ("signed_data", "version", "content_type", "content", "certificates", "crls", "tst_info")
        yield differ("without a SignedData", [None] * 7, [getattr(message, it) for it in absent])
        yield differ("without a SignedData", ((), ()), (message.signers, message.digest_algorithms))
    else:
        others = [it for it in signed_data if getattr(message, it) is not getattr(message.signed_data, it)]
        yield differ("fields of the message that are not those of its SignedData", [], others)
        try:
            came = message.tst_info
        except package.Refused as refused:
            came = {"refused": refused.name}
            yield differ("tst_info", (NO_TST_INFO, None), (refused.reason, refused.at))
        if isinstance(came, dict) or tst_info is None or "refused" in tst_info:
            yield differ("tst_info", tst_info, came)
        else:
            yield from complaints_of_value(package, "tst_info", tst_info, came, None)
    wanted = json_of(values)
    if kind != "request" and (inner := wanted.get("token", wanted)) is not None:
        inner["tst_info"] = json_of(tst_info)
    yield differ("to_json", {"kind": kind, **(wanted if kind == "signed-data" else {kind: wanted})}, json.loads(message.to_json()))


def signed_data_of(kind, values):
    return {"signed-data": values, "request": None, "response": values.get("token")}[kind]


def judge_tst_info(asker, content, is_right):
    """Returns what is wrong with the rows of a content, or else what they say of it."""
    came = asker.library.tst_info_fields(content)
    if not is_right:
        return differ("TSTInfo refused", (3, NO_TST_INFO, 0, "not a TSTInfo in DER"), came.refusal), {"refused": came.name}
    rows, values = fields_of_tst_info(content)
    note(rows)
    complaint = complaint_of_rows(rows, came)
    return complaint or judged(complaints_of_room(lambda room: asker.library.tst_info_fields(content, room), rows)), values


def note(rows):
    there = {row.kind for row in rows}
    seen.update(there)
    for name, others in OPTIONAL.items():
        if KINDS[name] in there:
            seen.update((name, other) for other in others if KINDS[other] not in there)


def complaints_of_message(asker, octets, detached):
    converted = asker.library.convert(octets)
    if converted.status != 0:
        yield from complaints_of_refusal(asker, octets, LIMIT, (*converted.refusal[:2], converted.at, converted.name))
        return
    yield from complaints_of_refusal(asker, octets, len(octets) - 1, asker.library.convert(octets, len(octets) - 1).refusal)
    rows, kind, values = fields_of(octets, detached)
    note(rows)
    yield complaint_of_rows(rows, asker.library.fields(octets))
    yield from complaints_of_room(lambda room: asker.library.fields(octets, room=room), rows)
    signed_data, tst_info = signed_data_of(kind, values), None
    if signed_data is not None:
        for number, signer in enumerate(signed_data["signers"][:MOST_SIGNERS]):
            yield from complaints_of_signer(asker.library, octets, [number], signer, detached)
        if signed_data["content_type"] == TST_INFO and signed_data["content"] is not None:
            is_right = "\ntst: not der\n" not in asker.package.show(octets)
            complaint, tst_info = judge_tst_info(asker, signed_data["content"], is_right)
            yield complaint
    yield from complaints_of_object(asker.package, octets, kind, values, tst_info, detached)


def judge(tally, asker, name, octets, detached=None):
    try:
        complaint = judged(complaints_of_message(asker, octets, detached))
    except Exception as error:  # whatever the package raises that it should not
        complaint = repr(error)
    tally.count(name, complaint and f"{complaint}, of {octets[:500].hex()}")


def test_vectors(asker, tally):
    """All octets in the vectors, as a message and as the content of a token."""
    for octets in octets_in_vectors():
        judge(tally, asker, "vector", octets)
        judge(tally, asker, "vector in a token", token_around(octets))


def test_tools(asker, tools, tally):
    """What openssl and gpgsm make, and tokens of openssl with one field of the TSTInfo changed."""
    made = openssl_tokens.make_all(tools)
    for message in real_messages.all_messages(tools, tally):
        judge(tally, asker, message.name, message.octets)
        judge(tally, asker, f"{message.name}, with content", message.octets, b"content")
    for name, token in made.items():
        for kind in ("request", "response", "token"):
            judge(tally, asker, f"{name}, {kind}", getattr(token, kind))
    for name, content, findings in openssl_tokens.contents_changed(tst_info_of(made["full-sha256"].token)):
        complaint, _ = judge_tst_info(asker, content, "13" not in findings)
        tally.count(f"content/{name}", complaint)
        judge(tally, asker, f"token/{name}", token_around(content))


def test_countersignatures(asker, tools, tally):
    for name, octets, detached in messages_of_tools.of_bouncy_castle(tools, tally):
        judge(tally, asker, name, octets, detached)


def spelled_by_name(part, random):
    """Spells a part that is tallied, without comparing it with its DER, which would take as long as all else."""
    generated_messages.spelled[part.name] += 1
    return part.part.ber(random)


def test_generated(asker, tally, monkeypatch):
    monkeypatch.setattr(generated_messages, "LONG_CONTENT", 5_000)  # longer ones take their time, and have no other fields
    monkeypatch.setattr(generated_messages.Tallied, "ber", spelled_by_name)
    monkeypatch.setattr(generated_messages.Countersignatures, "any_order", generated_messages.SetOf.any_order)
    seen.clear()
    random = generated_messages.beginning()
    makers = [generated_messages.signed_message] * 2 + [generated_messages.request, generated_messages.response, any_token]
    for index in range(MESSAGES // SPELLINGS):
        message, detached, _ = random.choice(makers)(random)
        spellings = [message.ber(random) for _ in range(SPELLINGS - 1)]
        for given in (*spellings, message.der()):
            judge(tally, asker, f"message {index}", given, detached)
        judge(tally, asker, f"message {index}, damaged", generated_messages.damaged(random, spellings[0]))
        content, is_right = any_tst_info(random)
        complaint, _ = judge_tst_info(asker, content, is_right)
        tally.count(f"TSTInfo {index}", complaint and f"{complaint}, of {content.hex()}")
    for name, kind in KINDS.items():
        tally.count(f"{name} occurs", "" if seen[kind] else "in no message")
    for name, others in OPTIONAL.items():
        for other in others:
            tally.count(f"{other} is absent", "" if seen[name, other] else f"in no message with {name}")


def test_names(asker, tally):
    """The package has the names that `show` has, for each object identifier that it knows and for others."""
    oids = [*sys.modules["cms_canon._names"].NAMES, "2.999.3", "1.2.840.113549.1.9.16.2.14"]
    algorithms = b"".join(written(0x30, oid(it)) for it in oids)
    message = message_of(b"\x02\x01\x03", written(0x31, algorithms), written(0x30, ID_CT_TST_INFO), b"\x31\x00")
    lines = [line.split() for line in asker.package.show(message).splitlines() if line.startswith("  ")]
    wanted = [(oid, None if name == "-" else name) for oid, name, _ in lines]
    came = [(it.oid, it.name) for it in asker.package.read(message).digest_algorithms]
    tally.count("names", differ("names", wanted, came) or differ("named", len(oids) - 2, sum(name is not None for _, name in came)))
