"""The fields of a message as lines of text, which the callers of `cms_canon_fields` print too, by the reader of walk.py.

Each field is a line: its name, and its value, octets as hexadecimal digits and `-` if it is absent. The lines of a signer or a
countersignature begin with its path.
"""

from collections import namedtuple

from elements import token_around
from generated_messages import beginning, due, request, response, signed_message
from listing import truth
from programs import line_of, octets_of, read_vectors
from walk import COUNTERSIGNATURE, TST_INFO, contents_of_integer, countersignatures_of, fields_of, fields_of_tst_info

MESSAGES = 150  # made at random


def word(octets):
    return "-" if octets is None else octets.hex()


def integer(number):
    return "-" if number is None else contents_of_integer(number).hex()


def algorithm(it):
    return f"{it['oid']} {word(it['parameters'])}"


def attributes(name, those):
    for it in those or []:
        if name.endswith(" unsigned-attribute") and it["oid"] == COUNTERSIGNATURE:
            yield f"{name} {it['oid']} countersignatures {len(it['countersignatures'])}"
        else:
            yield " ".join([f"{name} {it['oid']}", *(value.hex() for value in it["values"])])


def signer(path, it):
    name = "signer " + ",".join(map(str, path))
    yield f"{name} version {integer(it['version'])}"
    for field, show in (("issuer", word), ("serial_number", integer), ("subject_key_identifier", word), ("digest_algorithm", algorithm)):
        yield f"{name} {field.replace('_', '-')} {show(it[field])}"
    yield from attributes(f"{name} signed-attribute", it["signed_attributes"])
    yield f"{name} signature-algorithm {algorithm(it['signature_algorithm'])}"
    yield f"{name} signature {it['signature'].hex()}"
    yield f"{name} covered {'refused: no content' if it['covered'] is None else it['covered'].hex()}"
    yield from attributes(f"{name} unsigned-attribute", it["unsigned_attributes"])
    for number, countersignature in enumerate(countersignatures_of(it)):
        yield from signer([*path, number], countersignature)


def members(name, those):
    yield f"{name}s {'-' if those is None else len(those)}"
    for member in those or []:
        yield f"{name} {member.hex()}"


def signed_data(it, known):
    yield f"version {integer(it['version'])}"
    for one in it["digest_algorithms"]:
        yield f"digest-algorithm {algorithm(one)}"
    yield f"content-type {it['content_type']}"
    yield f"content {word(it['content'])}"
    yield from members("certificate", it["certificates"])
    yield from members("crl", it["crls"])
    for number, one in enumerate(it["signers"]):
        yield from signer([number], one)
    if it["content_type"] == TST_INFO:
        yield from tst_info(it["content"], known.get(it["content"], True))


def imprint(it):
    return f"{algorithm(it['hash_algorithm'])} {it['hashed_message'].hex()}"


def accuracy(it):
    if it is None:
        return "-"
    small = ["-" if it[name] is None else str(it[name]) for name in ("millis", "micros")]
    return " ".join([integer(it["seconds"]), *small])


TST_INFO_LINES = {  # how each field of a TSTInfo is written
    "version": integer, "policy": str, "imprint": imprint, "serial_number": integer, "gen_time": None, "accuracy": accuracy,
    "ordering": truth, "nonce": integer, "tsa": word, "extensions": word,
}
REQUEST_LINES = {
    "version": integer, "imprint": imprint, "policy": lambda it: it or "-", "nonce": integer, "cert_req": truth, "extensions": word,
}


def tst_info(content, is_tst_info):
    """Gives the lines of a TSTInfo, or the one that says that the content is detached or none."""
    if content is None or not is_tst_info:
        yield f"tst-info {'-' if content is None else 'refused: not a TSTInfo in DER'}"
        return
    _, it = fields_of_tst_info(content)
    for name, show in TST_INFO_LINES.items():
        yield f"tst-{name.replace('_', '-')} {show(it[name]) if show else it['gen_time_text']}"


def lines_of(message, detached, known):
    """Gives the lines of a message that the library accepts, with content that is detached. `known` says of contents whether they
    are a TSTInfo in DER; of others, those that the message calls one are."""
    _, kind, it = fields_of(message, detached)
    yield kind
    if kind == "request":
        yield from (f"{name.replace('_', '-')} {show(it[name])}" for name, show in REQUEST_LINES.items())
    elif kind == "response":
        bits = it["fail_info"]
        yield f"status {integer(it['status'])}"
        yield f"status-string {word(it['status_string'])}"
        yield f"fail-info {'-' if bits is None else 'bits ' + ','.join(map(str, bits))}"
        if it["token"] is not None:
            yield from signed_data(it["token"], known)
    else:
        yield from signed_data(it, known)


# ---- messages, and the lines that are wanted

# A message with the detached content or None, and the lines of its fields, or the one of its refusal.
Case = namedtuple("Case", "name message detached lines")


def cases():
    """Gives each message of a conversion, each content of a token, and messages made at random. A content that no vector of these names is
    a TSTInfo if a message says that it is one."""
    vectors, random = read_vectors(), beginning()
    known = {octets_of(it, "input"): it["ok"] for it in vectors.values() if it["kind"] == "tst"}
    for name, vector in vectors.items():
        if vector["kind"] == "tst":
            token = token_around(octets_of(vector, "input"))
            yield Case(name, token, None, [*lines_of(token, None, known)])
        if vector["kind"] == "convert" and not {"tail", "limit", "then_forever"} & vector.keys():
            message, refused = octets_of(vector, "input"), vector.get("refused")
            yield Case(name, message, None, [line_of(refused)] if refused else [*lines_of(message, None, known)])
    for index in range(MESSAGES):
        made, detached, _ = random.choice([signed_message, signed_message, request, response])(random)
        message, der = made.ber(random), made.der()
        written = due(message, der)
        lines = [*lines_of(message, detached, {})] if written == der else [written[1].decode().rstrip()]
        yield Case(f"message {index}", message, detached, lines)
