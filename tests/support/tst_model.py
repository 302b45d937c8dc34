"""Time-stamp tokens in parts: taken apart, with a field changed, and put together again with the signed attributes in DER."""

import hashlib
from collections import namedtuple

from elements import message
from real_messages import OCTET_STRING, SIGNED_ATTRIBUTES, UNSIGNED_ATTRIBUTES, content_of, element_at, joined, signed_data_of
from real_messages import signer_infos, written
from walk import KINDS, fields_of_tst_info

INTEGER, SEQUENCE, SET = 0x02, 0x30, 0x31
CERTIFICATES = 0xA0

ALGORITHMS = ("sha256", "sha384", "sha512", "sha224", "sha512_224", "sha512_256")  # of NIST, by their numbers from 1
OIDS = {"sha1": "06052b0e03021a", **{name: f"06096086480165030402{number:02}" for number, name in enumerate(ALGORITHMS, 1)}}
ID_MESSAGE_DIGEST = bytes.fromhex("06092a864886f70d010904")


def oid_of(algorithm):
    return bytes.fromhex(OIDS[algorithm])


def named(oid):
    return next(name for name in OIDS if oid_of(name) == oid)


def tst_info_of(token):
    return joined(content_of(token))


FIELDS_OF_TST_INFO = {  # the names of the fields, and of their rows
    "version": "TST_VERSION", "policy": "TST_POLICY", "algorithm": "HASH_ALGORITHM", "imprint": "HASHED_MESSAGE",
    "serial": "TST_SERIAL_NUMBER", "time": "GEN_TIME", "seconds": "SECONDS", "millis": "MILLIS", "micros": "MICROS",
    "ordering": "ORDERING", "nonce": "TST_NONCE", "tsa": "TSA", "extensions": "TST_EXTENSIONS",
}


def fields_of(tst_info):
    """Gives the fields of a TSTInfo, which is in DER, as the library names them: contents octets, or None; those of an Accuracy if there is
    one."""
    rows, values = fields_of_tst_info(tst_info)
    found = {row.kind: tst_info[row.start : row.start + row.length] for row in rows}
    for name, kind in FIELDS_OF_TST_INFO.items():
        if name == "ordering":
            yield name, b"\xff" if values["ordering"] else None
        elif values["accuracy"] is not None or name not in ("seconds", "millis", "micros"):
            yield name, found.get(KINDS[kind])
    yield "der", tst_info


# ---- tokens in parts

# A SignerInfo: the octets of each field, and in a list those of each attribute; None if the attributes are absent.
FIELDS = "version sid digest_algorithm attributes signature_algorithm signature unsigned"
Signer = namedtuple("Signer", FIELDS, defaults=[None])


# A token: the octets of each field, in lists those of each member of a set; None if it is absent. The content has no header.
Parts = namedtuple("Parts", "version digest_algorithms content_type content certificates signers")


def octets_of(elements):
    return [element.octets for element in elements]


def parts_of(token):
    version, algorithms, content, *certificates, _ = signed_data_of(token).members
    signers = []
    for signer in signer_infos(token):
        *before, attributes, signature_algorithm, signature = signer.members
        signers.append(Signer(*octets_of(before), octets_of(attributes.members), signature_algorithm.octets, signature.octets))
    members = octets_of(certificates[0].members) if certificates else None
    return Parts(version.octets, octets_of(algorithms.members), content.members[0].octets, tst_info_of(token), members, signers)


def set_of(identifier, members, order=sorted):
    """Returns a SET OF in DER, or in another order; nothing if it is absent."""
    return b"" if members is None else written(identifier, *order(members))


def token_of(parts):
    content = b"" if parts.content is None else written(0xA0, written(OCTET_STRING, parts.content))
    signers = [
        written(SEQUENCE, *it[:3], set_of(SIGNED_ATTRIBUTES, it.attributes), *it[4:6], set_of(UNSIGNED_ATTRIBUTES, it.unsigned))
        for it in parts.signers
    ]
    encapsulated = written(SEQUENCE, parts.content_type + content)
    certificates = set_of(CERTIFICATES, parts.certificates, list)  # as OpenSSL has them
    return message(parts.version, set_of(SET, parts.digest_algorithms), encapsulated, certificates, set_of(SET, signers))


def attribute(name, *values):
    return written(SEQUENCE, name + set_of(SET, values))


def types_of(parts):
    return [element_at(octets, 0).members[0].octets for octets in parts.signers[0].attributes]


def value_of(parts, name):
    octets = parts.signers[0].attributes[types_of(parts).index(name)]
    return element_at(octets, 0).members[1].members[0].octets


def with_signer(parts, **fields):
    (signer,) = parts.signers
    return parts._replace(signers=[signer._replace(**fields)])


def without_attribute(parts, name):
    attributes = [*parts.signers[0].attributes]
    del attributes[types_of(parts).index(name)]
    return with_signer(parts, attributes=attributes)


def with_attributes(parts, *attributes):
    return with_signer(parts, attributes=[*parts.signers[0].attributes, *attributes])


def digest_algorithm_of(parts):
    return named(element_at(parts.signers[0].digest_algorithm, 0).members[0].octets)


def with_content(parts, content):
    digest = hashlib.new(digest_algorithm_of(parts), content).digest()
    changed = without_attribute(parts, ID_MESSAGE_DIGEST)._replace(content=content)
    return with_attributes(changed, attribute(ID_MESSAGE_DIGEST, written(OCTET_STRING, digest)))


# ---- elements changed and made

def with_member(octets, index, *members):
    """Returns an element with other members in place of one, or with that one left out."""
    element = element_at(octets, 0)
    kept = octets_of(element.members)
    kept[index : index + 1] = members
    return written(element.identifier, b"".join(kept))


def signing_certificate(*identifiers):
    """Returns a SigningCertificate, or one of version 2: its identifiers."""
    return written(SEQUENCE, written(SEQUENCE, b"".join(identifiers)))


def ess_cert_id(digest, algorithm=None):
    """Returns an ESSCertID, or an ESSCertIDv2 whose algorithm may be absent."""
    named_by = b"" if algorithm is None else written(SEQUENCE, algorithm)
    return written(SEQUENCE, named_by + written(OCTET_STRING, digest))
