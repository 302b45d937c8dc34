#!/usr/bin/env python3
"""Verifies the signatures of a CMS signed message by openssl, over the octets that `cms-canon cover` writes.

    python3 examples/verify.py MESSAGE PUBLIC_KEY [CONTENT]

MESSAGE is a file in BER or DER. PUBLIC_KEY is a file in PEM, and is tried for every signer. CONTENT is the content of a detached
signature. It converts the message, and prints a line for each signer. Their numbers are those of the converted message, which may
have them in another order. The exit status is

- 0 if all signatures are right, and the content is the one that was signed;
- 1 if a signature is not right by this key, if the content is another one or was not given, or if there is no signer;
- 2 if it cannot be said: the message is refused, a file cannot be read, the key is not a public key, an algorithm is not known, or
  a signer has no signed attributes and the content was not given.

If a signer has signed attributes, the signature covers these and not the content. So the digest of the content is compared with
their attribute message-digest.

It is an example of a verifier of one's own: cms-canon says which octets are signed, and something else does the arithmetic. It
knows RSA (PKCS #1, version 1.5) and ECDSA, and looks neither at the certificate nor at its owner. It needs openssl 3.
"""

import hashlib
import subprocess
import sys
import tempfile
from pathlib import Path

CMS_CANON = Path(__file__).resolve().parent.parent / "cms-canon"

SIGNED_DATA = bytes.fromhex("06092a864886f70d010702")  # the contentType of a signed message
MESSAGE_DIGEST = bytes.fromhex("2a864886f70d010904")  # the contents octets of the attribute's type

DIGESTS = {  # the contents octets of digest algorithms, and their names for openssl and hashlib
    "2b0e03021a": "sha1",
    "608648016503040204": "sha224",
    "608648016503040201": "sha256",
    "608648016503040202": "sha384",
    "608648016503040203": "sha512",
}
RSA, EC = "2a864886f70d0101", "2a8648ce3d"  # what the contents octets of their signature algorithms begin with
SIGNATURES = {
    *(RSA + rest for rest in ("01", "05", "0e", "0b", "0c", "0d")),  # rsaEncryption, and with SHA-1, SHA-224 to SHA-512
    *(EC + rest for rest in ("0201", "0401", "040301", "040302", "040303", "040304")),  # id-ecPublicKey, and the same
}

RIGHT = "the signature is right"
OTHER_CONTENT = "the signature is right, but the content is not the one that was signed"
NO_CONTENT = "the signature is right; the content was not given"
NOT_RIGHT = "the signature is not by this key, or is wrong"


class Unverified(Exception):
    """Nothing can be verified; the text says why."""


def elements(octets):
    """Gives the identifier octet and the contents of each element of DER, one after another."""
    while octets:
        first, start = octets[1], 2
        length = first
        if first >= 0x80:
            start += first - 0x80
            length = int.from_bytes(octets[2:start], "big")
        yield octets[0], octets[start : start + length]
        octets = octets[start + length :]


def contents(octets):
    """Returns the contents of the elements of DER, one after another."""
    return [inner for _, inner in elements(octets)]


def signed_data_of(message):
    """Returns the fields of the SignedData in a message in DER."""
    (content_info,) = contents(message)
    (signed_data,) = contents(contents(content_info)[1])
    return contents(signed_data)


def content_of(message):
    """Returns the content of a message in DER, or None if it is detached."""
    attached = contents(signed_data_of(message)[2])[1:]
    return contents(attached[0])[0] if attached else None


def known(algorithms, kind, algorithm):
    """Returns the contents octets that name an algorithm, in hexadecimal."""
    octets = contents(algorithm)[0].hex()
    if octets not in algorithms:
        raise Unverified(f"this example does not know the {kind} algorithm with the contents octets {octets}")
    return octets


def digests_and_signatures(message):
    """Returns of each signer of a message in DER the name of its digest algorithm and its signature."""
    found = []
    for signer in contents(signed_data_of(message)[-1]):
        fields = list(elements(signer))
        signature = [ident for ident, _ in fields].index(0x04)
        known(SIGNATURES, "signature", fields[signature - 1][1])
        found.append((DIGESTS[known(DIGESTS, "digest", fields[2][1])], fields[signature][1]))
    return found


def signed_digests(message):
    """Returns of each signer the values of its signed attribute message-digest, or None if it has no signed attributes."""
    found = []
    for signer in contents(signed_data_of(message)[-1]):
        ident, attributes = list(elements(signer))[3]
        pairs = [contents(attribute) for attribute in contents(attributes)] if ident == 0xA0 else []
        values = [value for kind, values in pairs if kind == MESSAGE_DIGEST for value in contents(values)]
        found.append(values if ident == 0xA0 else None)
    return found


def cms_canon(*words, given):
    ended = subprocess.run([CMS_CANON, *words], input=given, capture_output=True)
    if ended.returncode != 0:
        raise Unverified(f"cms-canon {words[0]}: {ended.stderr.decode().strip()}")
    return ended.stdout


def openssl_agrees(*words, given=b""):
    return subprocess.run(["openssl", *words], input=given, capture_output=True).returncode == 0


def is_right(key, digest, signature, covered):
    """Whether openssl says so."""
    with tempfile.NamedTemporaryFile() as file:
        file.write(signature)
        file.flush()
        return openssl_agrees("dgst", "-" + digest, "-verify", key, "-signature", file.name, given=covered)


def verdicts(message, key, content=None):
    """Returns what is to be said of each signer of a message in DER: their numbers are those of this message."""
    given = message if content is None else message + content
    also = [] if content is None else ["--content"]
    attached = content_of(message)
    signed = content if attached is None else attached
    found = []
    for number, (digest, signature) in enumerate(digests_and_signatures(message)):
        covered = cms_canon("cover", "--signer", str(number), *also, given=given)
        of_content = signed_digests(message)[number]
        if not is_right(key, digest, signature, covered):
            found.append(NOT_RIGHT)
        elif of_content is None:  # it covers the content itself
            found.append(RIGHT)
        elif signed is None:
            found.append(NO_CONTENT)
        else:
            found.append(RIGHT if of_content == [hashlib.new(digest, signed).digest()] else OTHER_CONTENT)
    return found


def verified(message, key, content=None):
    """Returns whether the signature and the content are right, for each signer of a message in DER."""
    return [verdict == RIGHT for verdict in verdicts(message, key, content)]


def octets_of(file):
    try:
        return Path(file).read_bytes()
    except OSError as error:
        raise Unverified(f"{file}: {error.strerror}") from None


def main(words):
    octets_of(words[1])
    if not openssl_agrees("pkey", "-pubin", "-in", words[1], "-noout"):
        raise Unverified(f"{words[1]} is not a public key in PEM")
    content = octets_of(words[2]) if words[2:] else None
    message = cms_canon("convert", given=octets_of(words[0]))
    if SIGNED_DATA not in message[:17]:
        raise Unverified(f"{words[0]} is a request or a response of time-stamping, which this example does not look into")
    found = verdicts(message, words[1], content)
    if len(found) > 1:
        print(f"{len(found)} signers, numbered as in the converted message")
    for number, verdict in enumerate(found):
        print(f"signer {number}: {verdict}")
    if not found:
        print("the message has no signer")
    return 0 if found and all(verdict == RIGHT for verdict in found) else 1


if __name__ == "__main__":
    if sys.argv[1:] in (["--help"], ["-h"]):
        print(__doc__.strip())
        sys.exit(0)
    if len(sys.argv) not in (3, 4):
        print("usage: verify.py MESSAGE PUBLIC_KEY [CONTENT]", file=sys.stderr)
        sys.exit(2)
    try:
        sys.exit(main(sys.argv[1:]))
    except Unverified as why:
        print(f"verify.py: {why}", file=sys.stderr)
        sys.exit(2)
