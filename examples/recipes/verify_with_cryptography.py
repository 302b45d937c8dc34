"""Verifies the signatures of a message with the package cryptography, over the octets that cms_canon says each of them covers.

    python3 verify_with_cryptography.py MESSAGE [CONTENT]

The certificates are those in the message, into which anybody can put one: whether they are to be trusted is not judged here.
`cms_canon.verifier` knows more algorithms, and asks the same of each signer.
"""

import sys
from pathlib import Path

import cms_canon
from cryptography import x509
from cryptography.exceptions import InvalidSignature
from cryptography.hazmat.primitives import hashes
from cryptography.hazmat.primitives.asymmetric import ec, padding

HASHES = {"sha256": hashes.SHA256, "sha384": hashes.SHA384, "sha512": hashes.SHA512}
NOT_VERIFIED = 18  # the finding that nobody has verified a signature


def is_right(signer, certificate, content):
    """Returns whether the signature is right by the key of this certificate."""
    key, algorithm = x509.load_der_x509_certificate(certificate).public_key(), HASHES[signer.digest_algorithm.name]()
    how = (ec.ECDSA(algorithm),) if isinstance(key, ec.EllipticCurvePublicKey) else (padding.PKCS1v15(), algorithm)
    try:
        key.verify(signer.signature, signer.covered(content), *how)
    except InvalidSignature:
        return False
    return True


def main(name, document=None):
    octets = Path(name).read_bytes()
    content = Path(document).read_bytes() if document else None
    findings = [it for it in cms_canon.check(octets, content) if it.code != NOT_VERIFIED]  # that the content is what was signed, among others
    message = cms_canon.read(octets)
    verdicts = [is_right(it, message.certificate_of(it), content) for it in message.signers]
    for signer, verdict in zip(message.signers, verdicts):
        print("right" if verdict else "wrong", signer.signing_time)
    print(*findings, sep="\n", end="\n" if findings else "")
    return 0 if verdicts and all(verdicts) and not findings else 1


if __name__ == "__main__":
    sys.exit(main(*sys.argv[1:]))
