"""What the callers of the library in each language are asked, and what they are to answer: of the vectors, and of messages made at random."""

import functools
import hashlib
import itertools
import struct

from elements import element, message as message_of
from field_lines import word as word_of
from generated_messages import COUNTERSIGNATURE, beginning, due, signed_message
from programs import LIMIT_OF_VECTORS, line_of, octets_of, read_vectors
from walk import countersignatures_of, fields_of

MESSAGES = 40  # made at random
RUNS = 10  # of some of them, one after another
SHORT = 20_000  # octets: the longest requests that are also tried under valgrind

HASHES = ("sha1", "sha224", "sha256", "sha384", "sha512", "sha512_224", "sha512_256")  # by their numbers for C, from 1
DETACHED_TST_INFO = bytes.fromhex("300d060b2a864886f70d0109100104")  # an encapContentInfo

LINES_OF_COVER = {"NoSigner": "refused: no such signer", "NoContent": "refused: no content"}


def answer_of(vector, octets):
    if "refused" in vector:
        return f"3 {line_of(vector['refused'])}"
    if "fault" in vector:
        return f"3 {LINES_OF_COVER[vector['fault']]}"
    return f"0 {octets_of(vector, octets).hex()}"


def request(call, octets, *more, limit=LIMIT_OF_VECTORS):
    return " ".join([call, str(limit), octets.hex(), *more])


def conversion(vector):
    yield request("convert", octets_of(vector, "input"), limit=vector.get("limit", LIMIT_OF_VECTORS)), answer_of(vector, "output")


def many_answer(octets, messages, line=""):
    return f"3 {messages} {octets.hex()} message {messages}: {line}" if line else f"0 {messages} {octets.hex()}"


def many(vector):
    """A reader or a writer that fails is not one of memory."""
    if "reader_room" in vector or "writer_room" in vector:
        return
    given, limit, fault = octets_of(vector, "input"), vector.get("limit", LIMIT_OF_VECTORS), vector.get("fault")
    refused = fault and fault["refused"]
    line = refused and line_of(refused)
    messages = fault["done"] if fault else vector["messages"]
    yield request("many", given, limit=limit), many_answer(octets_of(vector, "output"), messages, line)
    if not refused or refused["name"] == "Truncated":
        yield request("read", given, limit=limit), str(len(given) - refused["at"] if refused else vector["read"])


def cover_request(message, path, detached):
    return request("cover", message, ",".join(map(str, path)), word_of(detached))


def cover(vector):
    path = vector["path"] if "path" in vector else [vector["signer"]]
    detached = octets_of(vector, "detached") if "detached" in vector else None
    yield cover_request(octets_of(vector, "message"), path, detached), answer_of(vector, "octets")


def comparison(vector):
    first, second = octets_of(vector, "first"), octets_of(vector, "second")
    yield request("same", first, second.hex()), "0" if vector["same"] else "1"
    yield request("same", first, second[:-1].hex()), f"3 second: refused E1 Truncated at {len(second) - 1}"
    yield request("same", b"", second.hex()), "3 first: refused E1 Truncated at 0"


def digests_word(octets):
    """Returns the word for the digests of octets by all algorithms, as C has them."""
    if octets is None:
        return "-"
    return b"".join(struct.pack("=I64s", number, hashlib.new(it, octets).digest()) for number, it in enumerate(HASHES, 1)).hex()


def check(vector):
    """That a message has to be a token is not asked. A TSTInfo that is detached is needed itself."""
    if not vector.get("token"):
        message, given = octets_of(vector, "message"), [bytes.fromhex(vector[it]) if it in vector else None for it in ("detached", "stamped")]
        verdict = vector["verifier"].lower()
        findings = [f"F{code}" if signer is None else f"F{code}:{signer}" for code, signer in vector["findings"]]
        wanted = " ".join(["0", *findings])
        for call in ("check", "pieces"):
            yield request(call, message, *map(word_of, given), verdict), wanted
        needs_content = DETACHED_TST_INFO in message and given[0] is not None
        yield request("digests", message, *map(digests_word, given), verdict), "3 refused: needs the content" if needs_content else wanted


def run_of_command(vector):
    """The listing and the findings of a run of the program, whose input is one message."""
    octets, refusal = octets_of(vector, "stdin"), vector["stderr"].rstrip()
    if vector["args"] == ["show"]:
        yield request("show", octets), f"3 {refusal}" if refusal else f"0 {vector['stdout_text'].encode().hex()}"
    if vector["args"] == ["check"]:
        lines = [it for it in vector.get("stdout_text", "").splitlines() if it != "no findings"]
        yield request("lines", octets, "-", "-"), f"3 {refusal}" if refusal else f"0 {'; '.join(lines)}"


KINDS = {"convert": conversion, "many": many, "cover": cover, "cover-path": cover, "same": comparison, "check": check, "run": run_of_command}


@functools.cache
def requests():
    """Returns the name, the request and the wanted answer of each vector that a caller can be asked, and of messages made at random."""
    asked = []
    for name, vector in read_vectors().items():
        if vector["kind"] in KINDS and vector.get("tail") != "leave" and "then_forever" not in vector:
            asked += [(name, *it) for it in KINDS[vector["kind"]](vector)]
    return [*asked, *requests_of_messages()]


def signers_below(signers, path):
    """Gives the path of each of these signers and of all countersignatures below, and itself; None for a number too high."""
    for number, signer in enumerate(signers):
        yield [*path, number], signer
        yield from signers_below(countersignatures_of(signer), [*path, number])
    yield [*path, len(signers)], None


def job(signer, certificates):
    """Returns what a verifier is asked about a signer, as bindings/python/tests/answer.py prints it."""
    number = "-" if signer["serial_number"] is None else str(signer["serial_number"])
    algorithms = [signer[it] for it in ("signature_algorithm", "digest_algorithm")]
    named = [word for it in algorithms for word in (it["oid"], word_of(it["parameters"]))]
    words = [signer["covered"].hex(), signer["signature"].hex(), *named, word_of(signer["issuer"]), number]
    return ":".join([*words, word_of(signer["subject_key_identifier"]), *map(word_of, certificates)])


def requests_of_signers(der, detached):
    """Gives what is asked of each signer of a message in DER, and at each path below it: the cover, by request."""
    _, _, signed_data = fields_of(der, detached)
    certificates = signed_data["certificates"] or []
    for path, signer in signers_below(signed_data["signers"], []):
        yield cover_request(der, path, detached), f"0 {signer['covered'].hex()}" if signer else "3 refused: no such signer"
    yield request("jobs", der, word_of(detached)), " ".join(["0", *(job(it, certificates) for it in signed_data["signers"])])


def requests_of_messages():
    """Gives the same for messages made at random: the conversion of each, whether it is the same as its DER, and what is asked of
    the signers in its DER."""
    random = beginning()
    accepted = []
    for index in range(MESSAGES):
        message, detached, _ = signed_message(random)
        given, der = message.ber(random), message.der()
        output = due(given, der)
        refusal = None if output == der else output[1].decode().rstrip()
        yield f"message {index}", request("convert", given), f"0 {der.hex()}" if refusal is None else f"3 {refusal}"
        yield f"message {index}", request("same", given, der.hex()), "0" if refusal is None else f"3 first: {refusal}"
        for asked, wanted in requests_of_signers(der, detached) if refusal is None else []:
            yield f"message {index}", asked, wanted
        accepted += [(given, der)] if refusal is None else []
    # Messages one after another, and these with the last one cut.
    for index in range(RUNS):
        chosen = random.choices(accepted, k=random.randrange(2, 9))
        *first, (last, _) = chosen
        at = random.randrange(1, len(last))
        whole, ders = b"".join(given for given, _ in chosen), b"".join(der for _, der in chosen)
        before = b"".join(given for given, _ in first)
        name = f"many messages {index}"
        yield name, request("many", whole), many_answer(ders, len(chosen))
        yield name, request("read", whole), str(len(whole))
        cut = many_answer(b"".join(der for _, der in first), len(first), f"refused E1 Truncated at {at}")
        yield name, request("many", before + last[:at]), cut
        yield name, request("read", before + last[:at]), str(len(before))


def nested(depth, octets=b"", identifier=0x30):
    for _ in range(depth):
        octets = element(identifier, octets)
    return octets


def deep_signer(depth, levels):
    """Returns a signer with countersignatures at so many levels, whose algorithms and attributes are nested this deep."""
    attribute = bytes.fromhex("06022a03") + element(0x31, nested(depth))
    algorithm = element(0x30, bytes.fromhex("06022a03") + nested(depth))
    below = element(0x31, deep_signer(depth, levels - 1)) if levels else b""
    unsigned = element(0xA1, element(0x30, b"\x06\x09" + COUNTERSIGNATURE + below)) if levels else b""
    fields = [bytes.fromhex("020103800111"), algorithm, element(0xA0, element(0x30, attribute)), algorithm, b"\x04\x01\xaa", unsigned]
    return element(0x30, b"".join(fields))


def requests_of_deep_messages():
    """Gives requests for each call about messages that are nested as deep as is accepted, and deeper."""
    for depth, levels, segments in itertools.product((1, 62, 63, 64, 65, 66), (0, 4, 5), (0, 8, 9)):
        content = nested(segments, b"\x04\x01a", 0x24)
        encapsulated = element(0x30, bytes.fromhex("06092a864886f70d010701") + element(0xA0, content))
        sets = element(0xA0, nested(depth)) + element(0x31, deep_signer(depth, levels))
        message = message_of(bytes.fromhex("0201033100"), encapsulated, sets)
        yield from (request(call, message) for call in ("convert", "show", "fields"))
        yield from (request("many", message + message), request("same", message, message.hex()))
        yield request("check", message, message.hex(), message.hex(), "unknown")
        for path in ("0", "0,0", "0,0,0,0,0"):
            yield request("cover", message, path, "-")


def asked_of(asked, *others):
    return [it for it in asked if it[1].split(" ")[0] not in others]


def extents():
    """Gives requests for the extent of each message that is converted, of which the octets come one by one, and of one that is cut."""
    for name, asked, wanted in requests():
        call, limit, octets = asked.split(" ")[:3]
        if call == "convert" and wanted.startswith("0 ") and len(octets) <= 2 * SHORT:
            length = len(octets) // 2
            yield f"extent, {name}", f"extent {limit} {octets}", f"1 {length} {length}"
            yield f"extent, {name}, and octets after it", f"extent {limit} {octets}{octets}", f"1 {length} {length}"
