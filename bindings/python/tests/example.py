"""Runs the sample of bindings/python/README.md on messages that the package `cryptography` makes; prints what is not as it should be."""

import datetime
import re
from pathlib import Path

from cryptography import x509
from cryptography.hazmat.primitives import hashes, serialization
from cryptography.hazmat.primitives.asymmetric import ec, rsa
from cryptography.hazmat.primitives.serialization import pkcs7

README = Path(__file__).resolve().parent.parent / "README.md"
CONTENT = b"A contract.\n"
KEYS = {"RSA": lambda: rsa.generate_private_key(65537, 2048), "ECDSA": lambda: ec.generate_private_key(ec.SECP256R1())}
DIGESTS = (hashes.SHA256(), hashes.SHA384(), hashes.SHA512())
BINARY, DETACHED = pkcs7.PKCS7Options.Binary, pkcs7.PKCS7Options.DetachedSignature


def certificate_for(key):
    name = x509.Name([x509.NameAttribute(x509.NameOID.COMMON_NAME, "example")])
    now = datetime.datetime.now(datetime.timezone.utc)
    made = x509.CertificateBuilder(name, name, key.public_key(), x509.random_serial_number(), now, now + datetime.timedelta(1))
    return made.sign(key, hashes.SHA256())


def signed(key, digest, *options):
    builder = pkcs7.PKCS7SignatureBuilder().set_data(CONTENT).add_signer(certificate_for(key), key, digest)
    return builder.sign(serialization.Encoding.DER, [BINARY, *options])


def changed(octets, at):
    return octets[:at] + bytes([octets[at] ^ 1]) + octets[at + 1 :]


def cases(key, digest):
    """Gives a message, the content that is handed in, and the codes that are wanted."""
    attached, detached = signed(key, digest), signed(key, digest, DETACHED)
    yield attached, None, []
    yield changed(attached, attached.index(CONTENT)), None, [7]
    yield changed(attached, len(attached) - 1), None, [17]  # the signature is the last field
    yield signed(key, digest, pkcs7.PKCS7Options.NoCerts), None, [18]
    yield detached, CONTENT, []
    yield detached, CONTENT[:-1], [7]
    yield detached, None, [9]


example = {}
exec(next(it for it in re.findall(r"^```python\n(.*?)^```$", README.read_text(), re.M | re.S) if "def findings" in it), example)
for name, generate in KEYS.items():
    for digest in DIGESTS:
        for number, (message, content, wanted) in enumerate(cases(generate(), digest)):
            came = [finding.code for finding in example["findings"](message, content)]
            if came != wanted:
                print(f"{name} {digest.name}, case {number}: wanted {wanted}, came {came}")
