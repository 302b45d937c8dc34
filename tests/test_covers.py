"""Has openssl verify signatures over the octets that the built program says they cover, before and after conversion.

Keys, certificates and messages are made on the spot: with RSA and ECDSA, with signed
attributes and without, attached and detached. examples/verify.py has to see content that was changed.
"""

import itertools

import pytest
from real_messages import CONFIGURATION
from verify import cms_canon, digests_and_signatures, is_right, verified

CONTENT = b"content of a test\n" * 100
OTHER = b"content of a fake\n" * 100
KEYS = {"RSA": "rsa:2048", "ECDSA": "ec -pkeyopt ec_paramgen_curve:prime256v1"}
FORMS = {"attached": "-nodetach -stream", "detached": ""}
ATTRIBUTES = {"signed attributes": "", "no signed attributes": "-noattr"}


def checks_of(tools, form, words):
    received = tools.make(f"openssl cms -sign -in content -binary -signer cert.pem -inkey key.pem -outform DER -md sha256 {words}")
    public, rest = tools.folder / "public.pem", CONTENT if form == "detached" else b""
    content = ["--content"] if form == "detached" else []
    canonical = cms_canon("convert", given=received)
    before = cms_canon("cover", "--signer", "0", *content, given=received + rest)
    after = cms_canon("cover", "--signer", "0", *content, given=canonical + rest)
    ((digest, signature),) = digests_and_signatures(canonical)
    yield "the same octets before and after", before == after
    yield "right before", is_right(public, digest, signature, before)
    yield "right after", verified(canonical, public, rest if content else None) == [True]
    yield "wrong of other octets", not is_right(public, digest, signature, before + b"x")
    yield "wrong with other content", verified(canonical.replace(CONTENT, OTHER), public, OTHER if content else None) == [False]
    if "-noattr" in words:
        yield "the content", before == CONTENT
    else:
        yield "a SET OF", before[:1] == b"\x31"


@pytest.mark.parametrize("key", KEYS)
def test_covers(tools, tally, key):
    tools.write("openssl.cnf", CONFIGURATION.encode())
    tools.write("content", CONTENT)
    tools.make(f"openssl req -x509 -newkey {KEYS[key]} -nodes -keyout key.pem -out cert.pem -subj /CN=signer -days 2")
    tools.make("openssl x509 -in cert.pem -pubkey -noout -out public.pem")
    for (form, more), (attributes, others) in itertools.product(FORMS.items(), ATTRIBUTES.items()):
        for check, is_well in checks_of(tools, form, f"{more} {others}"):
            tally.count(f"{key}, {form}, {attributes}", "" if is_well else check)
