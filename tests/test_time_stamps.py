"""Makes requests and responses of time-stamping with OpenSSL, converts them, and has OpenSSL read and verify the results.

An authority, its keys and all messages are made on the spot: requests by each digest, with a
nonce and without, with a policy and without, asking for certificates and not; the responses to them; and responses that reject one.
OpenSSL writes no indefinite lengths and TRUE as DER has it, so each message is also spelled otherwise by hand. What the rules make of a
token is worked out by `message_part`. A time-stamp over a file in BER is made too: it is not one over the DER of that file.
"""

import itertools
from collections import namedtuple

import pytest
from elements import CONSTRUCTED, element_at
from openssl_tokens import DIGESTS
from programs import Outcome, complaint, run
from real_messages import message_part, reason_of, unlike, why_not_converted, written
from tst_model import INTEGER, SEQUENCE

pytestmark = pytest.mark.built

CERTIFICATES = ("", " -cert")
NONCES = ("", " -no_nonce")
POLICIES = ("", " -tspolicy 1.2.3.4.2")

BOOLEAN, BIT_STRING, EXTENSIONS = 0x01, 0x03, 0xA0
TRUE, FALSE = bytes.fromhex("0101ff"), bytes.fromhex("010100")
TRUE_OTHERWISE = bytes.fromhex("010105")

VERIFIES = "openssl ts -verify -CAfile ca.pem -untrusted stamper.crt"


Response = namedtuple("Response", "name query is_granted")


def indefinite(element, levels=1):
    """Returns an element with indefinite lengths, as its members to so many levels."""
    if not levels or not element.identifier & CONSTRUCTED:
        return element.octets
    members = b"".join(indefinite(member, levels - 1) for member in element.members)
    return bytes([element.identifier, 0x80]) + members + bytes(2)


def judge_converted(program, octets, otherwise, canonical):
    """The message, its other spelling and its DER are converted to the DER."""
    differs = why_not_converted(program, canonical, octets, otherwise, canonical)
    return differs or ("" if otherwise != octets else "the other spelling is the same")


def judge_same(tools, words, received, converted):
    """OpenSSL ends with the same status and says the same of both files."""
    wanted, came = tools.run(words.format(received)), tools.run(words.format(converted))
    if wanted.returncode != came.returncode:
        return f"`{words}` gives {came.returncode} after conversion, and {wanted.returncode} before: {reason_of(came.stderr)}"
    return unlike(wanted.stdout, came.stdout)


def judge_read(program, tools, tally, name, otherwise, words):
    """Checks how OpenSSL reads and verifies what is written for the other spelling of a message."""
    tools.write(f"{name}.converted", run([program, "convert"], otherwise).stdout)
    for what, line in words.items():
        tally.count(f"{name}/{what}", judge_same(tools, line, name, f"{name}.converted"))


def judge_query(program, tools, tally, name):
    octets = tools.read(name)
    # The other spelling has certReq as BER may have it: TRUE by another octet, or FALSE though it is the default.
    fields = list(element_at(octets, 0).members)
    behind = [fields.pop().octets] if fields[-1].identifier == EXTENSIONS else []
    asks = fields[-1].identifier == BOOLEAN
    before = [indefinite(field) for field in (fields[:-1] if asks else fields)]
    contents = b"".join([*before, TRUE_OTHERWISE if asks else FALSE, *behind])
    otherwise = b"\x30\x80" + contents + bytes(2)
    tally.count(f"{name}/converted", judge_converted(program, octets, otherwise, octets))
    judge_read(program, tools, tally, name, otherwise, {"read": "openssl ts -query -in {} -text"})
    refusal = Outcome(b"", b"refused: no signed data\n", 3)
    tally.count(f"{name}/covers-nothing", complaint(refusal, run([program, "cover", "--signer", "0"], octets)))


def judge_response(program, tools, tally, response):
    octets = tools.read(response.name)
    verifies = f"{VERIFIES} -queryfile {response.query} -in {{}}"
    # The other spelling has indefinite lengths: its own, that of the status, and those around the token's SignedData.
    status, *token = element_at(octets, 0).members
    otherwise = b"\x30\x80" + indefinite(status) + b"".join(indefinite(one, 3) for one in token) + bytes(2)
    # The members of sets in its token may be in another order than in DER.
    canonical = written(0x30, status.octets + b"".join(message_part(one.octets).der() for one in token))
    tally.count(f"{response.name}/converted", judge_converted(program, octets, otherwise, canonical))
    judge_read(program, tools, tally, response.name, otherwise, {"read": "openssl ts -reply -in {} -text", "verified": verifies})
    is_right = tools.run(verifies.format(response.name)).returncode == 0
    tally.count(f"{response.name}/granted", "" if is_right == response.is_granted else f"verified: {is_right}")
    cover = run([program, "cover", "--signer", "0"], octets)
    tally.count(f"{response.name}/cover", judge_cover(program, tools, response, cover))


def judge_cover(program, tools, response, cover):
    """A response's signature covers what that of its token covers."""
    if not response.is_granted:
        return complaint(Outcome(b"", b"refused: no signed data\n", 3), cover)
    token = tools.make(f"openssl ts -reply -in {response.name} -token_out")
    return complaint(run([program, "cover", "--signer", "0"], token), cover) or complaint(Outcome(None, b"", 0), cover)


# ---- what is made

OPTIONS = [*itertools.product(DIGESTS, CERTIFICATES, NONCES, POLICIES)]


def make_query(tools, name, words):
    """Makes a request, and returns the name of its file."""
    tools.make(f"openssl ts -query -data content.txt {words} -out {name}")
    return name


def make_response(tools, name, query, section="stamps_sha256", is_granted=True):
    tools.make(f"openssl ts -reply -queryfile {query} -section {section} -out {name}")
    return Response(name, query, is_granted)


@pytest.mark.parametrize("options", OPTIONS, ids="".join)
def test_query_and_response(program, authority, tally, options):
    query = make_query(authority, "query.tsq", f"-{''.join(options)}")
    judge_query(program, authority, tally, query)
    judge_response(program, authority, tally, make_response(authority, "query.tsr", query))


@pytest.mark.parametrize("name, words, section", [
    ("another-policy", "-sha256 -tspolicy 1.2.3.4.9", "stamps_sha256"), ("another-digest", "-sha384", "stamps_sha1"),
])
def test_rejection(program, authority, tally, name, words, section):
    """What the authority does not accept gets a status, a text and failInfo."""
    query = make_query(authority, f"{name}.tsq", words)
    if name == "another-policy":
        judge_query(program, authority, tally, query)
    judge_response(program, authority, tally, make_response(authority, f"{name}.tsr", query, section, is_granted=False))
    (status,) = element_at(authority.read(f"{name}.tsr"), 0).members
    fields = [field.identifier for field in status.members]
    tally.count(f"{name}/rejected", "" if fields == [INTEGER, SEQUENCE, BIT_STRING] else f"fields: {fields}")


def test_time_stamp_over_ber(program, authority, tally):
    """A time-stamp over a file in BER fits that file, and not its DER: `check --data` and OpenSSL say so."""
    authority.make("openssl cms -sign -in content.txt -signer rsa.pem -binary -nodetach -stream -outform DER -out original.ber")
    authority.make("openssl ts -query -data original.ber -sha256 -cert -out original.tsq")
    authority.make("openssl ts -reply -queryfile original.tsq -section stamps_sha256 -out original.tsr")
    original = authority.read("original.ber")
    converted = run([program, "convert"], original).stdout
    authority.write("original.der", converted)
    stamp, right = authority.read("original.tsr"), b"F18 signer 0 verifier says unknown\n"
    for name, data, wanted in (
        ("original.ber", original, Outcome(right, b"", 0)),
        ("original.der", converted, Outcome(b"F14 imprint differs\n" + right, b"", 1)),
    ):
        tally.count(f"{name}/imprint", complaint(wanted, run([program, "check", "--data"], stamp + data)))
        verified = authority.run(f"{VERIFIES} -data {name} -in original.tsr").returncode == 0
        tally.count(f"{name}/verified", "" if verified == (wanted.status == 0) else f"OpenSSL says {verified}")
