"""Feeds messages to the built program with `show --json`, and compares what it writes with what the Python package says of them.

The messages are all octets in the vectors, alone and as the content of a token, those that openssl, gpgsm and BouncyCastle make, tokens whose
TSTInfo is changed, and MESSAGES made at random, each in a spelling in BER: signed messages with countersignatures, requests, responses and
tokens. Of each it is checked that

- the text is that of `to_json` and a line feed, and what a reader of JSON makes of it is what `to_dict` returns;
- a message that is refused is refused as `show` refuses it, and nothing is written.

In the messages made at random each member has to occur, and each that may be null has to be null somewhere.
"""

import json
from collections import Counter

import generated_messages
import messages_of_tools
import openssl_tokens
import pytest
from elements import ID_CT_TST_INFO, element, message as message_of, token_around
from programs import octets_in_vectors, run
from tally import differing
from tst_model import tst_info_of
from walk import contents_of_integer

pytestmark = pytest.mark.built

MESSAGES = 2_000
LEAST, MOST = -(1 << 53) + 1, (1 << 53) - 1  # the whole numbers that all readers of JSON keep
NEVER_NULL = {
    "kind", "request", "response", "version", "digest_algorithms", "content_type", "signers", "digest_algorithm", "signature_algorithm", "signature",
    "oid", "values", "countersignatures", "hash_algorithm", "hashed_message", "imprint", "cert_req", "status", "gen_time_text", "ordering", "refused",
}
MAY_BE_NULL = {
    "parameters", "content", "certificates", "crls", "issuer", "serial_number", "subject_key_identifier", "signed_attributes", "unsigned_attributes",
    "policy", "nonce", "extensions", "status_string", "fail_info", "token", "tst_info", "gen_time", "accuracy", "tsa", "seconds", "millis", "micros",
}


def members_in(value):
    """Gives the name of each member of what JSON has, and each value."""
    if isinstance(value, dict):
        yield from value.items()
    for it in value.values() if isinstance(value, dict) else value if isinstance(value, list) else ():
        yield from members_in(it)


def complaint_of(program, package, octets):
    """Returns what differs, or an empty text, and what the program writes."""
    came = run([program, "show", "--json"], octets)
    try:
        message = package.read(octets)
    except package.Refused:
        shown = run([program, "show"], octets)
        return differing((3, b"", shown.stderr), (shown.status, came.stdout, came.stderr)) or differing(3, came.status), None
    if came.status != 0:
        return f"wanted JSON, came {came}", None
    text = came.stdout.decode("ascii")
    return differing(message.to_json() + "\n", text) or differing(message.to_dict(), json.loads(text)), json.loads(text)


def judge(tally, program, package, name, octets):
    complaint, said = complaint_of(program, package, octets)
    tally.count(name, complaint and f"{complaint[:1000]}, of {octets[:500].hex()}")
    return said


def test_vectors(program, package, tally):
    for octets in octets_in_vectors():
        judge(tally, program, package, "vector", octets)
        judge(tally, program, package, "vector in a token", token_around(octets))


def test_tools(program, package, tools, tally):
    """What openssl and gpgsm make, and tokens of openssl with one field of the TSTInfo changed."""
    made = dict(messages_of_tools.of_openssl_and_gpgsm(tools, tally))
    for name, octets in made.items():
        judge(tally, program, package, name, octets)
    for name, content, _ in openssl_tokens.contents_changed(tst_info_of(made["full-sha256, token"])):
        judge(tally, program, package, f"token/{name}", token_around(content))


def test_countersignatures(program, package, tools, tally):
    for name, octets, _ in messages_of_tools.of_bouncy_castle(tools, tally):
        judge(tally, program, package, name, octets)


def test_numbers(program, package, tally):
    """Versions round the bounds of what all readers of JSON keep, and of 8, 16, 32 and 64 bits."""
    bounds = [0, LEAST, MOST, *(sign << bits for bits in (7, 8, 15, 16, 31, 32, 53, 55, 56, 63, 64, 200) for sign in (1, -1))]
    for number in sorted({bound + more for bound in bounds for more in (-1, 0, 1)}):
        contents = contents_of_integer(number)
        octets = message_of(element(0x02, contents), b"\x31\x00", element(0x30, ID_CT_TST_INFO), b"\x31\x00")
        said = judge(tally, program, package, f"version {number}", octets)
        wanted = number if LEAST <= number <= MOST else f"0x{contents.hex()}"
        tally.count(f"version {number} as it is written", differing(wanted, said and said["version"]))


def test_generated(program, package, tally, monkeypatch):
    monkeypatch.setattr(generated_messages, "LONG_CONTENT", 5_000)  # longer ones take their time, and have no other fields
    random, seen = generated_messages.beginning(), Counter()
    makers = [generated_messages.signed_message] * 2 + [generated_messages.request, generated_messages.response, generated_messages.any_token]
    for index in range(MESSAGES):
        message, *_ = random.choice(makers)(random)
        octets = message.ber(random)
        said = judge(tally, program, package, f"message {index}", octets)
        seen.update((name, it is None) for name, it in members_in(said))
        if index % 10 == 0:
            judge(tally, program, package, f"message {index}, damaged", generated_messages.damaged(random, octets))
    for name in NEVER_NULL | MAY_BE_NULL:
        tally.count(f"{name} occurs", "" if seen[name, False] else "in no message")
        tally.count(f"{name} is null", differing(name in MAY_BE_NULL, seen[name, True] > 0))
    tally.count("all members", differing(NEVER_NULL | MAY_BE_NULL, {name for name, _ in seen}))
