"""Messages with countersignatures that BouncyCastle makes, and their spellings in BER."""

import itertools
import shutil
import ssl
import tomllib
from pathlib import Path
from random import Random

from programs import DATA_FILES, TOP
from real_messages import CONFIGURATION, RSA, ToolFault, element_at, fields_of, is_countersignature, is_key_identifier, joined
from real_messages import make_authority, make_signer, message_part, reason_of, signer_infos

JARS = [f"/usr/share/java/{name}.jar" for name in ("bcprov", "bcpkix", "bcutil")]  # some releases have no third one
SEED = 5652
SPELLINGS = 3  # at random, of each message

EC = "ec -pkeyopt ec_paramgen_curve:P-256"
KEYS = {"rsa": RSA, "rsb": RSA, "eca": EC, "ecb": EC}
CONTENT = bytes(range(256)) * 10  # BouncyCastle writes it in segments of 1000 octets

FORMS = ("attached", "detached")
SIGNERS = ("rsa", "rsa+", "eca", "eca+")
TREES = tomllib.loads((DATA_FILES / "countersigned.toml").read_text())
TOO_DEEP = "rsa ( rsb ( eca ( ecb ( rsa ( rsb ) ) ) ) )"

ID_KEY_IDENTIFIER = bytes.fromhex("0603551d0e04160414")  # subjectKeyIdentifier, up to its 20 octets


# ---- signers and countersignatures

def by_paths(signers, path=()):
    """Gives the path of each signer and countersignature, and itself, in the order read."""
    for number, signer in enumerate(signers):
        yield (*path, number), signer
        attributes = [attribute for one in fields_of(signer).unsigned for attribute in one.members]
        values = [attribute.members[1].members for attribute in attributes if is_countersignature(attribute)]
        yield from by_paths(itertools.chain(*values), (*path, number))


def signatures(octets):
    """Gives the path of each signer and countersignature of a message, what identifies its key, and its signature."""
    for path, signer in by_paths(signer_infos(octets)):
        it = fields_of(signer)
        identity = joined(it.sid) if is_key_identifier(it.sid) else it.sid.members[0].octets + it.sid.members[1].contents
        yield path, identity, joined(it.signature)


# ---- what is made

def plans():
    """Gives the name of each message, its form, and its signers."""
    for form, signer, other in itertools.product(FORMS, SIGNERS, SIGNERS):
        yield f"{signer}-by-{other}-{form}", form, f"{signer} ( {other} )"
    for form, (name, signers) in itertools.product(FORMS, TREES.items()):
        yield f"{name}-{form}", form, signers
    yield "too-deep", "attached", TOO_DEEP


class Descending(Random):
    """Chooses each length that may be indefinite so, strings in one piece, and each set in descending order."""

    def random(self):
        return 0.0

    def sample(self, members, k):
        return sorted(members, key=lambda part: part.der(), reverse=True)


def spellings_of(octets, random):
    part = message_part(octets)
    return [part.ber(Descending()), *[part.ber(random) for _ in range(SPELLINGS)]]


def make_keys(tools):
    """Makes the keys and their certificates. Returns the name of each key by what identifies it."""
    tools.write("openssl.cnf", CONFIGURATION.encode())
    make_authority(tools)
    names = {}
    for serial, (name, key) in enumerate(KEYS.items(), start=1):
        make_signer(tools, serial, name, key, "signer")
        tools.make(f"openssl x509 -in {name}.crt -pubkey -noout -out {name}.public")
        octets = ssl.PEM_cert_to_DER_cert(tools.read(f"{name}.crt").decode())
        _, number, _, issuer, *_ = element_at(octets, 0).members[0].members
        names[issuer.octets + number.contents] = name
        names[octets.partition(ID_KEY_IDENTIFIER)[2][:20]] = name
    return names


def build_java(tools):
    tools.write("content", CONTENT)
    tools.write("Countersign.java", (TOP / "tests" / "java" / "Countersign.java").read_bytes())
    tools.make(f"javac -Xlint:all,-path -Werror -cp {':'.join(JARS)} -d . Countersign.java")


def bouncy_castle(tools, verb, requests):
    given = "".join(f"{request}\n" for request in requests).encode()
    ended = tools.run(f"java -cp .:{':'.join(JARS)} Countersign {verb} . {' '.join(KEYS)}", given)
    answers = ended.stdout.decode().splitlines()
    if ended.returncode != 0 or len(answers) != len(requests):
        raise ToolFault(f"java gave {len(answers)} answers to {len(requests)} requests: {reason_of(ended.stderr)}")
    return answers


def missing_for_java():
    """Returns what BouncyCastle needs and is not installed."""
    return [it for it in ("java", "javac") if not shutil.which(it)] + [it for it in JARS[:2] if not Path(it).exists()]
