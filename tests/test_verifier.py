"""Has the verifier of the Python package, `cms_canon.verifier`, judge signatures that openssl, gpgsm and `cryptography` make.

It needs the package `cryptography`, of any release from 38 on. If the `python3` on the PATH is another one than that of the tests, all of this is
tried by its `cryptography` too.

- Each message of tests/support/real_messages.py, and one for each kind of key and each digest that openssl takes, and for each of its curves: as
  it is, with one octet of a signature changed, with one octet of what is covered changed, without the certificate, with the certificate
  handed in, and with an algorithm that nobody knows.
- Messages that `cryptography` makes, and signatures of it under each identifier of an algorithm that the tools do not write, in
  messages that are put together here.
- What a message can say that is out of the ordinary: parameters, keys, and certificates that do not fit or contradict one another.
"""

import datetime
import functools
import importlib.util
import itertools
import re
import sys
import time
import tomllib
import tracemalloc
import warnings
from collections import Counter, namedtuple
from random import Random
from unittest import mock

import pytest
import real_messages
from elements import element_at, flipped, message as message_with, oid
from generated_messages import SEED
from programs import DATA_FILES
from real_messages import CONTENTS, ToolFault, signed_attributes, signer_infos, written
from tally import count, differing as differs

CONTENT = b"The octets that are signed.\r\n"
SPOILT = 500  # keys of each kind
UNKNOWN = bytes.fromhex("0603883703")  # 2.999.3, of which nobody knows an algorithm
RIGHT, WRONG = [True], [False]
NOT_KNOWN = [None]


class Asker:
    def __init__(self, package):
        self.library = package
        self.by_certificates = importlib.import_module("cms_canon.verifier").by_certificates

    def verdicts(self, octets, certificates=(), content=None, verifier=None, **how):
        """Returns the verdict on each signature that covers anything, or a text if the message is refused: by these certificates, or by
        those in the message if there are none."""
        verifier = verifier or (self.by_certificates(certificates, **how) if certificates else self.by_certificates())
        found = []

        def verify(job):
            found.append(verifier(job))
            return found[-1]

        try:
            codes = Counter(it.code for it in self.library.check(octets, content, verifier=verify) if it.code in (17, 18))
        except self.library.Refused as refusal:
            return str(refusal)
        assert codes == Counter({False: 17, None: 18}[it] for it in found if it is not True)
        return found

    def count(self, name, wanted, octets, *given, **how):
        """Counts whether the verdicts are those that are wanted."""
        count(name, differs(wanted, self.verdicts(octets, *given, **how)))

    def count_altered(self, name, wanted, octets, *given, number=0):
        """Counts the same of each message in which an octet is changed that matters to this signer, unless it is refused."""
        for what, altered in alterations(octets, number):
            if not isinstance(self.verdicts(altered, *given), str):
                self.count(f"{name}, {what}", wanted, altered, *given)


def skip_without_cryptography():
    """A package that is there and cannot be imported is a failure."""
    if not importlib.util.find_spec("cryptography"):
        pytest.skip("cryptography is not installed")


@pytest.fixture(scope="module")
def asker(package):
    skip_without_cryptography()
    return Asker(package)


@pytest.fixture(scope="module")
def keys():
    skip_without_cryptography()
    return Keys()


def signature_of(signer):
    return next(it for it in signer.members if it.identifier == 0x04)


def place(octets, part):
    """Returns where a part begins that is in the message once."""
    assert octets.count(part) == 1, "it is there twice"
    return octets.index(part)


def alterations(octets, number):
    """Gives messages in which one octet of the signature of this signer is changed, or of what it covers."""
    signer = signer_infos(octets)[number]
    begin = place(octets, signer.octets)
    signature, attributes, content = signature_of(signer), signed_attributes(signer), real_messages.content_of(octets)
    end = begin + signer.octets.index(signature.octets) + len(signature.octets)
    for before in (len(signature.contents) - 8, 8, 1):  # in each of its numbers, if it is an encoding of two
        yield "a signature changed", flipped(octets, end - before)
    if attributes is not None:
        yield "signed attributes changed", flipped(octets, begin + signer.octets.index(attributes.octets) + len(attributes.octets) - 1)
    elif content is not None and content.contents:
        yield "the content changed", flipped(octets, place(octets, content.octets) + len(content.octets) - 1)


def without_certificates(octets):
    return message_with(*(it.octets for it in real_messages.signed_data_of(octets).members if it.identifier != 0xA0))


def with_algorithm(octets, change):
    """Returns a message in DER whose one signer has another signatureAlgorithm: `change` takes the contents of the one it has."""
    (signer,) = signer_infos(octets)
    fields, at = [it.octets for it in signer.members], signer.members.index(signature_of(signer)) - 1
    fields[at] = written(0x30, change(signer.members[at].contents))
    parts = [it.octets for it in real_messages.signed_data_of(octets).members[:-1]]
    return message_with(*parts, written(0x31, written(0x30, *fields)))


# ---- messages of tools

# Messages of tests/support/real_messages.py whose certificate is not in them.
LACKING = {"one-signer-twice", "no-certificates", "stamp-without-certificates", "gpgsm-no-certificates"}


def judge_gpgsm_digests(tally, asker, tools):
    for digest in ("SHA1", "SHA224", "SHA256", "SHA384", "SHA512", "RIPEMD160") if tools.gnupg.exists() else ():
        try:
            octets = tools.make(f"{real_messages.GPGSM} --digest-algo {digest} --sign content.txt")
        except ToolFault as fault:
            tally.skip(f"gpgsm, {digest}", fault)
        else:
            asker.count(f"gpgsm, {digest}", NOT_KNOWN if digest == "RIPEMD160" else RIGHT, octets)


def judge_real_message(tally, asker, tools, message):
    octets, count = message.octets, len(signer_infos(message.octets))
    files = [words.rpartition(" -content ")[2] for words in message.verifies if " -content " in words]
    content = tools.read([*files, "content.txt"][0])
    asker.count(message.name, [None if message.name in LACKING else True] * count, octets, (), content)
    given = [tools.make(f"openssl x509 -in {it}.crt -outform DER") for it, _, _ in real_messages.SIGNERS]
    asker.count(f"{message.name}, certificates handed in", [True] * count, octets, given, content)
    der = asker.library.convert(octets)
    for number in range(count) if message.name != "one-signer-twice" else ():
        wanted = [number != other for other in range(count)]
        asker.count_altered(message.name, wanted, der, given, content, number=number)


KEYS = {
    "RSA": "rsa:2048", "RSA of 1024 bits": "rsa:1024", "RSA of 3072 bits": "rsa:3072", "P-256": "ec -pkeyopt ec_paramgen_curve:P-256",
    "P-384": "ec -pkeyopt ec_paramgen_curve:P-384", "P-521": "ec -pkeyopt ec_paramgen_curve:P-521", "DSA": "dsa:dsa.parameters",
}
DIGESTS = "md5 sha1 sha224 sha256 sha384 sha512 sha512-224 sha512-256 sha3-224 sha3-256 sha3-384 sha3-512 ripemd160".split()
PSS = (  # what is asked for in addition
    "", " -keyopt rsa_pss_saltlen:0", " -keyopt rsa_pss_saltlen:20", " -keyopt rsa_pss_saltlen:max", " -keyopt rsa_mgf1_md:sha1",
    " -keyopt rsa_mgf1_md:sha512", " -md sha1", " -md sha384", " -md sha3-256", " -md ripemd160",
)
SIGN = "openssl cms -sign -binary -nodetach -outform DER -in content.txt -signer {0}.pem"


def make_key(tools, name, how):
    tools.make(f"openssl req -x509 -newkey {how} -nodes -subj /CN={name} -days 2 -keyout {name}.key -out {name}.crt")
    tools.write(f"{name}.pem", tools.read(f"{name}.crt") + tools.read(f"{name}.key"))


def make_keys(tools, *names):
    tools.make("openssl dsaparam -out dsa.parameters 2048") if "DSA" in names else None
    for name in names:
        make_key(tools, file_of(name), KEYS[name])


def file_of(key):
    """Returns the name of the files of a key."""
    return f"key{[*KEYS].index(key)}"


def test_real_messages(tally, asker, authority):
    for message in real_messages.all_messages(authority, tally):
        judge_real_message(tally, asker, authority, message)
    judge_gpgsm_digests(tally, asker, authority)


@pytest.mark.parametrize("name", KEYS)
def test_keys(tally, asker, authority, name):
    """Each kind of key with each digest that openssl takes for it."""
    make_keys(authority, name)
    came = Counter()
    for digest, attributes in itertools.product(DIGESTS, ("", " -noattr")):
        words = f"{SIGN.format(file_of(name))} -md {digest}{attributes}"
        came[digest] += judge_signed(asker, authority, f"{name}, {digest}{attributes}", words)
    tally.count(f"{name}: openssl signs by SHA-256", "" if came["sha256"] == 2 else "it does not")


def test_pss_of_openssl(tally, asker, authority):
    make_keys(authority, "RSA")
    for more in PSS:
        judge_signed(asker, authority, f"RSASSA-PSS{more}", f"{SIGN.format(file_of('RSA'))} -keyopt rsa_padding_mode:pss{more}")


def test_other_makers(tally, asker, authority):
    """openssl verifies what gpgsm and the JDK write, NULL after an algorithm of ECDSA or DSA, and what iText does, the kind of the key."""
    make_keys(authority, "P-256", "P-384", "DSA")
    for key, digest in ((file_of("P-256"), "sha1"), (file_of("P-384"), "sha384"), (file_of("DSA"), "sha256")):
        octets = authority.make(f"{SIGN.format(key)} -md {digest}")
        changes = {"NULL": lambda algorithm: algorithm + NULL}
        if key != file_of("DSA"):
            changes |= {"id-ecPublicKey": lambda _: oid(EC_PUBLIC_KEY), "id-ecPublicKey and NULL": lambda _: oid(EC_PUBLIC_KEY) + NULL}
        for what, change in changes.items():
            altered = with_algorithm(octets, change)
            authority.write("altered.der", altered)
            came = authority.make("openssl cms -verify -binary -noverify -inform DER -in altered.der")
            tally.count(f"{key}, {digest}, {what}: openssl", differs(CONTENTS["content.txt"], came))
            asker.count(f"{key}, {digest}, {what}", RIGHT, altered)
            asker.count_altered(f"{key}, {digest}, {what}", WRONG, altered)


def judge_signed(asker, tools, name, words):
    """Returns whether openssl makes the message, and counts the verdicts on it if so. No verdict is known by RIPEMD-160."""
    try:
        octets = tools.make(words)
    except ToolFault:
        return False
    is_known = " ripemd160" not in words
    asker.count(name, RIGHT if is_known else NOT_KNOWN, octets)
    asker.count_altered(name, WRONG if is_known else NOT_KNOWN, octets)
    asker.count(f"{name}, without the certificate", NOT_KNOWN, without_certificates(octets))
    asker.count(f"{name}, an unknown algorithm", NOT_KNOWN, with_algorithm(octets, lambda _: UNKNOWN))
    return True


def test_curves(tally, asker, authority):
    """Each curve of openssl: the verdict is right if `cryptography` can load the key, and else not known, but never wrong."""
    from cryptography.hazmat.primitives.serialization import load_pem_public_key

    came = Counter()
    for curve in re.findall(r"^ *(\S+) *:", authority.make("openssl ecparam -list_curves").decode(), re.M):
        try:
            make_key(authority, "curve", f"ec -pkeyopt ec_paramgen_curve:{curve}")
            octets = authority.make(SIGN.format("curve"))
        except ToolFault:
            continue  # some are too small, or for other algorithms
        try:
            wanted = load_pem_public_key(authority.make("openssl x509 -in curve.crt -pubkey -noout")) and True
        except Exception:
            wanted = None
        came[wanted] += 1
        asker.count(f"the curve {curve}", [wanted], octets)
    tally.count("curves", "" if came[True] and came[None] else f"there are not both known and unknown ones: {came}")
    make_key(authority, "explicit", "ec -pkeyopt ec_paramgen_curve:P-256 -pkeyopt ec_param_enc:explicit")
    octets = authority.make(SIGN.format("explicit"))
    tally.count("a curve in explicit parameters", "" if asker.verdicts(octets) in (RIGHT, NOT_KNOWN) else "wrong")


def test_restricted_keys(tally, asker, authority):
    """Keys that are for RSASSA-PSS alone, some with parameters. openssl 3.0 writes rsaEncryption into a message for them."""
    make_key(authority, "pss", "rsa-pss -pkeyopt rsa_keygen_bits:2048")
    make_key(authority, "pss384", "rsa-pss -pkeyopt rsa_keygen_bits:2048 -pkeyopt rsa_pss_keygen_md:sha384"
             " -pkeyopt rsa_pss_keygen_mgf1_md:sha384 -pkeyopt rsa_pss_keygen_saltlen:32")
    octets = authority.make(SIGN.format("pss"))
    algorithm = signer_infos(octets)[0].members[-2].octets
    asker.count("a key for RSASSA-PSS, as openssl writes it", NOT_KNOWN if oid(RSA) in algorithm else RIGHT, octets)
    authority.write("covered", CONTENT)
    for key, digest, salt, is_taken in (
        ("pss", "sha256", 32, True), ("pss", "sha1", 20, True), ("pss384", "sha384", 32, True), ("pss384", "sha384", 48, True),
        ("pss384", "sha384", 31, False), ("pss384", "sha256", 32, False),  # openssl does not sign these
    ):
        words = f"openssl dgst -{digest} -sign {key}.key -sigopt rsa_padding_mode:pss -sigopt rsa_pss_saltlen:{salt} covered"
        signature = authority.make(words) if is_taken else bytes(256)
        certificate = certificate_of(authority.make(f"openssl pkey -in {key}.key -pubout -outform DER"))
        due = DIGEST_ALGORITHMS[digest]
        algorithm = algorithm_of(RSASSA_PSS, pss_parameters(due, due, salt))
        for name, given, wanted in (("", signature, RIGHT), (", a signature changed", flipped(signature, 9), WRONG)):
            octets = message_of(given, [certificate], algorithm, due)
            asker.count(f"the key {key}, {digest}, a salt of {salt}{name}", wanted if is_taken else NOT_KNOWN, octets)
        asker.count(f"the key {key}, by another padding", NOT_KNOWN, message_of(signature, [certificate], due=due))


# ---- messages that are put together

def integer(number):
    """Returns an INTEGER in DER, or one with these contents octets."""
    return written(0x02, number if isinstance(number, bytes) else number.to_bytes(number.bit_length() // 8 + 1, "big", signed=True))


def algorithm_of(dotted, parameters=b""):
    return written(0x30, oid(dotted) + parameters)


NULL = b"\x05\x00"
EC_PUBLIC_KEY = "1.2.840.10045.2.1"
RSA, RSASSA_PSS, MGF1 = "1.2.840.113549.1.1.1", "1.2.840.113549.1.1.10", "1.2.840.113549.1.1.8"
NIST = "2.16.840.1.101.3.4"
ALGORITHMS = tomllib.loads((DATA_FILES / "algorithms.toml").read_text())
DIGEST_ALGORITHMS = {name: algorithm_of(dotted, NULL if name == "md5" else b"") for name, dotted in ALGORITHMS["digests"].items()}
SHA256 = DIGEST_ALGORITHMS["sha256"]
RSA_WITH_NULL = algorithm_of(RSA, NULL)


def name_of(kind, value):
    """Returns a Name of one attribute."""
    return written(0x30, written(0x31, written(0x30, oid(kind), value)))


NAME = name_of("2.5.4.3", written(0x0C, b"Authority"))
# Names that RFC 5280 or `cryptography` does not allow: a country of three letters, no text, a text of no known kind, and one of no characters.
ODD_NAMES = [name_of("2.5.4.6", b"\x13\x03XYZ"), *(name_of("2.5.4.3", it) for it in (b"\x0c\x00", b"\x02\x01\x05", b"\x0c\x02\xff\xfe"))]
BY_KEY_IDENTIFIER = b"\x80\x01\x11"  # of a signer


def certificate_of(key, issuer=NAME, serial=5, extensions=b"", version=2):
    """Returns a Certificate for a SubjectPublicKeyInfo, whose own signature is not right. `extensions` is all that follows the key."""
    validity = written(0x30, written(0x17, b"250101000000Z") * 2)
    fields = [written(0xA0, integer(version)), integer(serial), RSA_WITH_NULL, issuer, validity, NAME, key, extensions]
    return written(0x30, written(0x30, *fields), RSA_WITH_NULL, written(0x03, b"\0" * 9))


def extension(value=b"\x04\x01\x11", critical=b"", kind=oid("2.5.29.14")):
    """Returns an Extension: a key identifier, if no other kind is named."""
    return written(0x30, kind, critical, written(0x04, value))


def extensions_of(*extensions):
    return written(0xA3, written(0x30, *extensions))


def by_issuer(issuer=NAME, serial=5):
    return written(0x30, issuer + integer(serial))


def message_of(signature, certificates, algorithm=RSA_WITH_NULL, due=SHA256, signer=by_issuer(), content=CONTENT, times=1):
    """Returns a message with this signer so many times, which has no signed attributes: the signature covers the content. `due` is the
    digestAlgorithm."""
    version = integer(1 if signer[0] == 0x30 else 3)
    info = written(0x30, version, signer, due, algorithm, written(0x04, signature))
    encapsulated = written(0x30, oid("1.2.840.113549.1.7.1") + written(0xA0, written(0x04, content)))
    own = written(0xA0, *sorted(certificates)) if certificates else b""
    return message_with(version, written(0x31, due), encapsulated, own, written(0x31, info * times))


def pss_parameters(digest, mask_digest, salt, trailer=b""):
    return written(0x30, written(0xA0, digest), written(0xA1, algorithm_of(MGF1, mask_digest)), written(0xA2, integer(salt)), trailer)


class Keys:
    def __init__(self):
        from cryptography.hazmat.primitives import hashes
        from cryptography.hazmat.primitives.asymmetric import dsa, ec, ed448, ed25519, padding, rsa

        self.hashes, self.ec, self.padding = hashes, ec, padding
        self.rsa, self.other = (rsa.generate_private_key(65537, 2048) for _ in range(2))
        self.elliptic = ec.generate_private_key(ec.SECP256R1())
        self.dsa = dsa.generate_private_key(2048)
        self.ed25519, self.ed448 = ed25519.Ed25519PrivateKey.generate(), ed448.Ed448PrivateKey.generate()

    def hash(self, name):
        return getattr(self.hashes, name.replace("-", "_").upper())()

    def signed(self, key, digest, octets=CONTENT):
        hash_ = digest and self.hash(digest)
        if key in (self.rsa, self.other):
            return key.sign(octets, self.padding.PKCS1v15(), hash_)
        if key is self.elliptic:
            return key.sign(octets, self.ec.ECDSA(hash_))
        return key.sign(octets, hash_) if key is self.dsa else key.sign(octets)

    def signed_by_pss(self, digest, mask_digest, salt):
        mask = self.padding.MGF1(self.hash(mask_digest))
        return self.rsa.sign(CONTENT, self.padding.PSS(mask, salt), self.hash(digest))


def key_octets(key):
    from cryptography.hazmat.primitives.serialization import Encoding, PublicFormat

    return key.public_key().public_bytes(Encoding.DER, PublicFormat.SubjectPublicKeyInfo)


def test_identifiers(tally, asker, keys):
    """Each identifier of a signature algorithm, with its digest and a key for it."""
    cases = ((dotted, getattr(keys, kind), digest) for kind, those in ALGORITHMS["signatures"].items() for dotted, digest in those.items())
    for dotted, key, digest in cases:
        is_pure = key in (keys.ed25519, keys.ed448)
        is_of_numbers = key in (keys.elliptic, keys.dsa)  # their signature is an encoding of two numbers, without which nothing is calculated
        algorithm = algorithm_of(dotted, NULL if key is keys.rsa else b"")
        signature, certificate = keys.signed(key, None if is_pure else digest), certificate_of(key_octets(key))
        unfit = certificate_of(key_octets(keys.rsa if is_pure else keys.ed448))
        given = {"signature": signature, "certificates": [certificate], "algorithm": algorithm, "due": DIGEST_ALGORITHMS[digest]}
        for name, wanted, others in (
            ("as it is", RIGHT, {}),
            ("a signature changed", WRONG, {"signature": flipped(signature)}),
            ("a signature cut", NOT_KNOWN if is_of_numbers else WRONG, {"signature": signature[:-1]}),
            ("no signature", NOT_KNOWN if is_of_numbers else WRONG, {"signature": b""}),
            ("NULL as parameters", NOT_KNOWN if is_pure else RIGHT, {"algorithm": algorithm_of(dotted, NULL)}),
            ("strange parameters", NOT_KNOWN, {"algorithm": algorithm_of(dotted, b"\x02\x01\x00")}),
            ("an unknown algorithm", NOT_KNOWN, {"algorithm": algorithm_of(f"{dotted}.1")}),
            ("another digestAlgorithm", NOT_KNOWN, {"due": DIGEST_ALGORITHMS["sha384" if digest == "sha256" else "sha256"]}),
            ("no certificate", NOT_KNOWN, {"certificates": []}),
            ("a certificate of another kind of key", NOT_KNOWN, {"certificates": [unfit]}),
            ("the content changed", WRONG, {"content": CONTENT[1:]}),
        ):
            asker.count(f"{dotted}, {name}", wanted, message_of(**{**given, **others}))
    other_digest = DIGEST_ALGORITHMS["sha384"]
    for name, wanted, key, digest, algorithm, due in (
        ("RSA without parameters", RIGHT, keys.rsa, "sha256", algorithm_of(RSA), SHA256),
        ("Ed448, SHAKE256 by its length", RIGHT, keys.ed448, None, algorithm_of("1.3.101.113"), algorithm_of(f"{NIST}.2.18", integer(512))),
        ("id-ecPublicKey", RIGHT, keys.elliptic, "sha256", algorithm_of(EC_PUBLIC_KEY), SHA256),
        ("id-ecPublicKey, another digest", WRONG, keys.elliptic, "sha256", algorithm_of(EC_PUBLIC_KEY), other_digest),
        ("id-ecPublicKey, a curve", NOT_KNOWN, keys.elliptic, "sha256", algorithm_of(EC_PUBLIC_KEY, oid("1.2.840.10045.3.1.7")), SHA256),
        ("id-ecPublicKey, a key of RSA", NOT_KNOWN, keys.rsa, "sha256", algorithm_of(EC_PUBLIC_KEY), SHA256),
    ):
        asker.count(name, wanted, message_of(keys.signed(key, digest), [certificate_of(key_octets(key))], algorithm, due))


def pss_cases(keys):
    """Gives parameters of RSASSA-PSS, the digests and the salt that are signed with, and the verdict."""
    sha1, sha256, sha512 = (DIGEST_ALGORITHMS[it] for it in ("sha1", "sha256", "sha512"))
    fields = [written(0xA0, sha256), written(0xA1, algorithm_of(MGF1, sha256)), written(0xA2, integer(32))]
    with_null, all_right = algorithm_of(f"{NIST}.2.1", NULL), ("sha256", "sha256", 32)
    yield from (
        ("all fields", pss_parameters(sha256, sha256, 32), all_right, RIGHT), ("all defaults", written(0x30), ("sha1", "sha1", 20), RIGHT),
        ("defaults that are there", pss_parameters(sha1, sha1, 20, written(0xA3, integer(1))), ("sha1", "sha1", 20), RIGHT),
        ("a default salt", written(0x30, *fields[:2]), ("sha256", "sha256", 20), RIGHT),
        ("digests with NULL", pss_parameters(with_null, with_null, 32), all_right, RIGHT),
        ("another digest of the mask", pss_parameters(sha256, sha512, 0), ("sha256", "sha512", 0), RIGHT),
        ("a salt that is not this long", pss_parameters(sha256, sha256, 31), all_right, WRONG),
        ("a mask by another digest", pss_parameters(sha256, sha512, 32), all_right, WRONG),
    )
    for name, parameters in (
        ("no parameters", b""), ("NULL", NULL), ("another trailer", pss_parameters(sha256, sha256, 32, written(0xA3, integer(2)))),
        ("a salt of less than nothing", pss_parameters(sha256, sha256, -1)), ("a salt of 2^64", pss_parameters(sha256, sha256, 1 << 64)),
        ("a padded salt", pss_parameters(sha256, sha256, b"\0\x20")),
        ("a padded trailer", pss_parameters(sha256, sha256, 32, written(0xA3, integer(b"\0\1")))),
        ("a field twice", written(0x30, fields[0], *fields)), ("fields turned round", written(0x30, *reversed(fields))),
        ("another field", written(0x30, *fields, written(0xA4, integer(1)))),
        ("another mask", written(0x30, fields[0] + written(0xA1, algorithm_of("2.999.3", sha256)) + fields[2])),
        ("a mask without a digest", written(0x30, fields[0] + written(0xA1, algorithm_of(MGF1)) + fields[2])),
        ("an unknown digest", pss_parameters(algorithm_of("2.999.3"), sha256, 32)),
        ("a digest with parameters", pss_parameters(algorithm_of(f"{NIST}.2.1", integer(1)), sha256, 32)),
        ("another digest than digestAlgorithm", pss_parameters(sha512, sha256, 32)),
        ("a digest whose identifier is not in DER", pss_parameters(written(0x30, b"\x06\x0a\x80" + oid(f"{NIST}.2.1")[2:]), sha256, 32)),
        ("a salt that is no number", written(0x30, fields[0] + fields[1] + written(0xA2, b"\x04\x01\x20"))),
    ):
        yield name, parameters, all_right, NOT_KNOWN
    yield "a salt without octets", pss_parameters(sha256, sha256, b""), ("sha256", "sha256", 0), NOT_KNOWN


def test_pss(tally, asker, keys):
    certificate, name, due = certificate_of(key_octets(keys.rsa)), "parameters of digestAlgorithm", algorithm_of(f"{NIST}.2.1", integer(1))
    for case, parameters, how, wanted in pss_cases(keys):
        octets = message_of(keys.signed_by_pss(*how), [certificate], algorithm_of(RSASSA_PSS, parameters), DIGEST_ALGORITHMS[how[0]])
        asker.count(f"parameters of RSASSA-PSS: {case}", wanted, octets)
    right = algorithm_of(RSASSA_PSS, pss_parameters(SHA256, SHA256, 32))
    asker.count(name, NOT_KNOWN, message_of(keys.signed(keys.rsa, "sha256"), [certificate], due=due))
    asker.count(name, NOT_KNOWN, message_of(keys.signed_by_pss("sha256", "sha256", 32), [certificate], right, due))


def rsa_key_octets(modulus, exponent):
    return written(0x30, RSA_WITH_NULL, written(0x03, b"\0", written(0x30, integer(modulus), integer(exponent))))


# A name, the verdict, the certificates in the message and those handed in, the signer, and a signature in place of the right one.
Case = namedtuple("Case", "name wanted certificates given signer signature", defaults=[(), by_issuer(), b""])


def cases_of_der(own):
    """Gives certificates of which a field that is looked at is not in DER, and some like them that are."""
    for octets, number in (b"", 0), (b"\0\5", 5), (b"\xff\xfb", -5):
        yield Case(f"the serial number {number} as {octets.hex()}", NOT_KNOWN, [own(serial=octets)], signer=by_issuer(serial=number))
    for name, wanted, how in (
        ("fields of version 2", RIGHT, {"extensions": b"\x81\1\0\x82\1\0"}), ("these turned round", NOT_KNOWN, {"extensions": b"\x82\1\0\x81\1\0"}),
        ("extensions twice", NOT_KNOWN, {"extensions": extensions_of(extension()) * 2}), ("another field", NOT_KNOWN, {"extensions": b"\xa4\0"}),
        ("a default version that is there", NOT_KNOWN, {"version": 0}), ("a padded version", NOT_KNOWN, {"version": b"\0\2"}),
    ):
        yield Case(name, wanted, [own(**how)])
    right = own()
    yield Case("a signature that is no BIT STRING", NOT_KNOWN, [right[:-11] + b"\x04" + right[-10:]])
    for name, wanted, *extensions in (
        ("critical", RIGHT, extension(critical=b"\1\1\xff")), ("critical by another TRUE", NOT_KNOWN, extension(critical=b"\1\1\1")),
        ("a default that is there", NOT_KNOWN, extension(critical=b"\1\1\0")), ("another field", NOT_KNOWN, extension(critical=NULL)),
        ("twice", NOT_KNOWN, extension(), extension(b"\x04\x01\x12")),
        ("beside an identifier that is not in DER", NOT_KNOWN, extension(kind=b"\x06\2\x80\1"), extension()),
    ):
        yield Case(f"a key identifier, {name}", wanted, [own(extensions=extensions_of(*extensions))], signer=BY_KEY_IDENTIFIER)


def cases_of_certificates(keys):
    """Gives certificates that do not fit, cannot be read, or contradict one another."""
    own = functools.partial(certificate_of, key_octets(keys.rsa))
    right, other, strange = own(), certificate_of(key_octets(keys.other)), written(0x30, integer(5))
    unfit = certificate_of(key_octets(keys.other), serial=6)
    identified, broken = (own(extensions=extensions_of(extension(*it))) for it in ((), (b"\0",)))
    yield from cases_of_der(own)
    yield from (
        Case("the right one", RIGHT, [right]), Case("another key", WRONG, [other]), Case("another serial number", NOT_KNOWN, [own(serial=6)]),
        Case("a serial number of less than nothing", RIGHT, [own(serial=-5)], signer=by_issuer(serial=-5)),
        Case("another issuer", NOT_KNOWN, [own(issuer=ODD_NAMES[0])]),
        *(Case(f"an odd issuer, {it}", RIGHT, [own(issuer=name)], signer=by_issuer(name)) for it, name in enumerate(ODD_NAMES)),
        Case("an attribute certificate before it", RIGHT, [written(0xA1, NULL), right]),
        Case("one that cannot be read beside it", RIGHT, [strange, right]), Case("one alone that cannot be read", NOT_KNOWN, [strange]),
        Case("another key beside it", NOT_KNOWN, [right, other]),
        Case("another certificate of the key beside it", RIGHT, [right, own(version=1)]),
        Case("a key identifier", RIGHT, [identified], signer=BY_KEY_IDENTIFIER),
        Case("another key identifier", NOT_KNOWN, [identified], signer=b"\x80\x01\x12"),
        Case("no key identifier", NOT_KNOWN, [right], signer=BY_KEY_IDENTIFIER),
        Case("a key identifier that cannot be read", NOT_KNOWN, [broken], signer=BY_KEY_IDENTIFIER),
        Case("one that does not matter and cannot be read", RIGHT, [broken]), Case("handed in", RIGHT, [], [right]),
        Case("handed in, another one in the message", RIGHT, [other], [right]), Case("another one handed in", WRONG, [right], [other]),
        Case("one handed in that does not fit", NOT_KNOWN, [right], [unfit]), Case("two keys handed in", NOT_KNOWN, [right], [other, right]),
        Case("a bytearray and a memoryview", RIGHT, [], [bytearray(right), memoryview(right)]),
    )


def cases_of_keys(keys):
    """Gives keys that cannot be read, or by which nothing is calculated."""
    n = keys.rsa.public_key().public_numbers().n
    bits = b"\0" + written(0x30, integer(n), integer(65537))
    for name, wanted, key, *signature in (
        ("a key that cannot be read", NOT_KNOWN, written(0x30, RSA_WITH_NULL)),
        ("a key put together here", RIGHT, written(0x30, RSA_WITH_NULL, written(0x03, bits))),
        ("a key with unused bits", NOT_KNOWN, written(0x30, RSA_WITH_NULL, written(0x03, b"\1" + bits[1:]))),
        ("a key with parameters", NOT_KNOWN, written(0x30, algorithm_of(RSA, integer(5)), written(0x03, bits))),
        ("a padded modulus", NOT_KNOWN, rsa_key_octets(b"\0" + integer(n)[4:], 65537)),
        ("a padded exponent", NOT_KNOWN, rsa_key_octets(n, b"\0\1\0\1")),
        ("a key of an unknown kind", NOT_KNOWN, written(0x30, written(0x30, UNKNOWN), b"\x03\x02\0\0")),
        # By these keys OpenSSL says of any signature that it is wrong, and has not calculated.
        ("a modulus of 17000 bits", NOT_KNOWN, rsa_key_octets((1 << 17000) + 1, 65537), bytes(2126)),
        ("an even modulus", NOT_KNOWN, rsa_key_octets(1 << 2047, 65537)),
        ("an exponent of 80 bits", NOT_KNOWN, rsa_key_octets((1 << 4095) + 1, (1 << 79) + 1), bytes(512)),
        ("an exponent as large as the modulus", NOT_KNOWN, rsa_key_octets((1 << 2047) + 1, (1 << 2047) + 1)),
        ("a modulus of less than nothing", NOT_KNOWN, rsa_key_octets(-5, 3)),
    ):
        yield Case(name, wanted, [certificate_of(key)], (), by_issuer(), *signature)


def judge_dsa_keys(asker, keys):
    """Keys of DSA that are put together here, of which a number is not in DER, or OpenSSL does not take the group."""
    of_key = keys.dsa.public_key().public_numbers()
    group = of_key.parameter_numbers
    p, q, g, y = map(integer, (group.p, group.q, group.g, of_key.y))
    longer_p, longer_y = (b"\x02\x83\0" + it[2:] for it in (p, y))
    for name, wanted, *parameters, number in (
        ("in DER", RIGHT, p, q, g, y), ("a longer length in the group", NOT_KNOWN, longer_p, q, g, y), ("a longer length", NOT_KNOWN, p, q, g, longer_y),
        ("an octet after it", NOT_KNOWN, p, q, g, y + b"\0"), ("another number in the group", NOT_KNOWN, p, q, g, g, y),
        ("an order of 200 bits", NOT_KNOWN, integer((1 << 2047) + 9), integer((1 << 199) + 5), g, integer(4)),
    ):
        key = written(0x30, algorithm_of("1.2.840.10040.4.1", written(0x30, *parameters)), written(0x03, b"\0", number))
        octets = message_of(keys.signed(keys.dsa, "sha256"), [], algorithm_of(f"{NIST}.3.2"))
        asker.count(f"certificates: a key of DSA, {name}", wanted, octets, [certificate_of(key)])


def test_certificates(tally, asker, keys):
    signature = keys.signed(keys.rsa, "sha256")
    for it in (*cases_of_certificates(keys), *cases_of_keys(keys)):
        octets = message_of(it.signature or signature, it.certificates, signer=it.signer)
        asker.count(f"certificates: {it.name}", it.wanted, octets, it.given)
    right = certificate_of(key_octets(keys.rsa))
    octets, unfit = message_of(signature, [right]), certificate_of(key_octets(keys.other), serial=6)
    asker.count("certificates: or one in the message", RIGHT, octets, [unfit], or_in_message=True)
    asker.count("certificates: none handed in", NOT_KNOWN, octets, verifier=asker.by_certificates([]))
    judge_dsa_keys(asker, keys)
    indefinite, longer = b"\x30\x80" + element_at(right, 0).contents + b"\0\0", b"\x30\x83\0" + right[2:]  # the same length in one octet more
    none = (b"", written(0x30, integer(5)), indefinite, longer, right[:-1], right + b"\0", b"-----BEGIN CERTIFICATE-----")
    for name, given, error, said in (
        ("certificates: one that is not in a list", right, TypeError, "a list"),
        *(("a certificate handed in that is none", [right, it], ValueError, " 1 ") for it in none),
    ):
        try:
            asker.by_certificates(given)
            tally.count(name, "it is taken")
        except error as came:
            tally.count(name, "" if said in str(came) else repr(came))


def test_nothing_calculated(tally, asker, keys):
    """Signatures that are no two numbers in DER, keys that are no points, and a modulus too short for the digest are not known."""
    from cryptography.hazmat.primitives.asymmetric.utils import decode_dss_signature

    for key, dotted in ((keys.elliptic, "1.2.840.10045.4.3.2"), (keys.dsa, f"{NIST}.3.2")):
        r, s = map(integer, decode_dss_signature(keys.signed(key, "sha256")))
        in_der, padded = written(0x30, r + s), written(0x02, b"\0\0" + s[2:])
        for name, given, wanted in (
            ("in DER", in_der, RIGHT),
            ("with an octet after it", in_der + b"\0", NOT_KNOWN),
            ("with a padded number", written(0x30, r + padded), NOT_KNOWN),
            ("of indefinite length", b"\x30\x80" + r + s + b"\0\0", NOT_KNOWN),
            ("of one number", written(0x30, r), NOT_KNOWN),
        ):
            octets = message_of(given, [certificate_of(key_octets(key))], algorithm_of(dotted))
            asker.count(f"{dotted}, a signature {name}", wanted, octets)
    for dotted, digest, length in (("1.3.101.112", "sha512", 32), ("1.3.101.113", "shake256", 57)):
        largest, negative = (1 << 8 * length - 1) - 1, 1 | 1 << 8 * length - 1
        for y, wanted in ((1, WRONG), (2, NOT_KNOWN), (largest, NOT_KNOWN), (negative, NOT_KNOWN)):  # no point of either has 2
            key = written(0x30, algorithm_of(dotted) + written(0x03, b"\0" + y.to_bytes(length, "little")))
            octets = message_of(b"\1" * (2 * length), [certificate_of(key)], algorithm_of(dotted), DIGEST_ALGORITHMS[digest])
            asker.count(f"{dotted}, the key {y:#x}", wanted, octets)
    short = certificate_of(rsa_key_octets((1 << 511) + 187, 65537))
    for digest, wanted in (("sha256", WRONG), ("sha512", NOT_KNOWN)):
        asker.count(f"a modulus of 512 bits, {digest}", wanted, message_of(bytes(64), [short], due=DIGEST_ALGORITHMS[digest]))


def test_spoilt_keys(tally, asker, keys):
    """Keys with some octets changed at random: nothing is raised, and no signature is right by another key."""
    random = Random(SEED)
    for dotted, key, digest in (
        ("1.2.840.113549.1.1.11", keys.rsa, "sha256"), ("1.2.840.10045.4.3.2", keys.elliptic, "sha256"), (f"{NIST}.3.2", keys.dsa, "sha256"),
        ("1.3.101.112", keys.ed25519, "sha512"), ("1.3.101.113", keys.ed448, "shake256"),
    ):
        algorithm = algorithm_of(dotted, NULL if key is keys.rsa else b"")
        signature, right = keys.signed(key, None if key in (keys.ed25519, keys.ed448) else digest), key_octets(key)
        complaint, came = "", Counter()
        for _ in range(SPOILT):
            spoilt = bytearray(right)
            for _ in range(random.choice((1, 1, 2, 4))):
                at = random.randrange(min(len(right), 60) if random.random() < 0.6 else len(right))
                spoilt[at] = random.choice((spoilt[at] ^ 1 << random.randrange(8), 0, 0xFF, random.randrange(256)))
            if spoilt == right:
                continue
            try:
                verdicts = asker.verdicts(message_of(signature, [certificate_of(bytes(spoilt))], algorithm, DIGEST_ALGORITHMS[digest]))
                came["refused" if isinstance(verdicts, str) else str(verdicts[0])] += 1
                is_well = verdicts != RIGHT
            except Exception as error:
                is_well, verdicts = False, repr(error)
            complaint = complaint or ("" if is_well else f"{verdicts} by {spoilt.hex()}")
        # A point with an octet changed is hardly ever on the curve.
        are_both = came["None"] and (came["False"] or key is keys.elliptic)
        tally.count(f"{dotted}, keys with octets changed", complaint or ("" if are_both else f"came {came}"))


def test_memory(tally, asker, keys):
    """A certificate of a million members takes little more memory than its octets."""
    certificate = certificate_of(key_octets(keys.rsa))
    parts = [it.octets for it in element_at(certificate, 0).members]
    many = b"\x05\x00" * 1_000_000
    for name, wanted, certificates in (
        ("fields", RIGHT, [certificate, written(0x30, many)]),
        ("fields of what is signed", RIGHT, [certificate, written(0x30, written(0x30, many) + b"".join(parts[1:]))]),
        ("extensions", RIGHT, [certificate_of(key_octets(keys.rsa), extensions=written(0xA3, written(0x30, many)))]),
        ("fields of a key", NOT_KNOWN, [certificate_of(written(0x30, many))]),
    ):
        octets = message_of(keys.signed(keys.rsa, "sha256"), certificates)
        tracemalloc.start()
        asker.count(f"a million {name}", wanted, octets)
        _, most = tracemalloc.get_traced_memory()
        tracemalloc.stop()
        tally.count(f"the memory of a million {name}", "" if most < 10 * len(octets) else f"{most} octets")


def test_many(tally, asker, keys):
    """One verifier does not mix up the certificates of several messages, and reads each once for all signers."""
    signature = keys.signed(keys.rsa, "sha256")
    right, other = (certificate_of(key_octets(it), extensions=extensions_of(extension())) for it in (keys.rsa, keys.other))
    verifier, module = asker.by_certificates(), sys.modules["cms_canon.verifier"]
    for certificates, wanted in ([right], RIGHT), ([other], WRONG), ([right], RIGHT), ([right, other], NOT_KNOWN), ([], NOT_KNOWN):
        name = f"one verifier over several messages, {len(certificates)} certificates"
        asker.count(name, wanted, message_of(signature, certificates), verifier=verifier)
    jobs = []
    for certificate in (right, other):
        asker.library.check(message_of(signature, [certificate]), verifier=jobs.append)
    came = [verifier(job) for job in (*jobs, *jobs)]
    tally.count("one verifier over two messages in turn", differs([True, False] * 2, came))
    for signer in (by_issuer(), BY_KEY_IDENTIFIER):
        certificates = [right, certificate_of(key_octets(keys.other), serial=6)]
        with mock.patch.object(module, "certificate_in", side_effect=module.certificate_in) as read:
            asker.count("many signers", RIGHT * 50, message_of(signature, certificates, signer=signer, times=50))
        tally.count("many signers, certificates read", differs(2, read.call_count))


def test_serial_numbers(tally, asker, keys):
    """Numbers that Python's dictionaries do not tell apart quickly take no longer than others."""

    def seconds(step):
        certificates = [certificate_of(written(0x30, b""), serial=5 + step * it) for it in range(8000)]
        octets = message_of(b"", certificates)
        began = time.perf_counter()
        asker.count("many serial numbers", NOT_KNOWN, octets)
        return time.perf_counter() - began

    others, alike = seconds(1 << 61), seconds((1 << 61) - 1)
    tally.count("serial numbers with one hash", "" if alike < 3 * others else f"{alike:.2f} s, and {others:.2f} s with others")


def test_warnings(tally, asker, keys):
    """Warnings that are errors do not make a verifier raise anything."""
    certificate = certificate_of(rsa_key_octets((1 << 511) + 1, 65537))
    octets = message_of(bytes(64), [certificate], due=DIGEST_ALGORITHMS["sha1"])
    with warnings.catch_warnings():
        warnings.simplefilter("error")
        came = asker.verdicts(octets)
    tally.count("a small key", "" if came in (WRONG, NOT_KNOWN) else repr(came))


def test_pkcs7(tally, asker, keys):
    from cryptography import x509
    from cryptography.hazmat.primitives.serialization import Encoding, pkcs7

    name = x509.Name([x509.NameAttribute(x509.NameOID.COMMON_NAME, "example")])
    now, options = datetime.datetime(2025, 1, 1), {"": [], ", no attributes": [pkcs7.PKCS7Options.NoAttributes]}
    for (kind, key), digest, (attributes, option), padding in itertools.product(
        (("RSA", keys.rsa), ("ECDSA", keys.elliptic)), ("sha224", "sha256", "sha384", "sha512"), options.items(), ("", ", PSS")
    ):
        more = {"rsa_padding": keys.padding.PSS(keys.padding.MGF1(keys.hash(digest)), 20)} if padding else {}
        builder = x509.CertificateBuilder(name, name, key.public_key(), x509.random_serial_number(), now, now)
        certificate = builder.sign(key, keys.hash("sha256"))
        try:
            signer = pkcs7.PKCS7SignatureBuilder().set_data(CONTENT).add_signer(certificate, key, keys.hash(digest), **more)
            octets = signer.sign(Encoding.DER, [pkcs7.PKCS7Options.Binary, *option])
        except (TypeError, ValueError):
            continue  # it does not make these
        case, lacking = f"cryptography, {kind}, {digest}{padding}{attributes}", without_certificates(octets)
        asker.count(case, RIGHT, octets)
        asker.count(f"{case}, none in it", NOT_KNOWN, lacking)
        asker.count(f"{case}, handed in", RIGHT, lacking, [certificate])
        for what, altered in alterations(octets, 0):
            asker.count(f"{case}, {what}", WRONG, altered)
