"""Messages that OpenSSL and GnuPG make, with keys and certificates that are made on the spot, and what the rules make of them.

A message that a tool of this release cannot make is skipped by its name.
"""

import os
import re
import subprocess
import tomllib
from collections import namedtuple
from pathlib import Path

from elements import CONSTRUCTED, element as written, element_at, message as message_with
from generated_messages import COUNTERSIGNATURE, AsItStands, OctetString, Primitive, Sequence, SetOf
from programs import DATA_FILES, Outcome, complaint, run, shortened

SECONDS = 60  # no call of a tool may take longer
PASSPHRASE = b"passphrase\n"

CONFIGURATION = (DATA_FILES / "openssl.cnf").read_text()
READ = tomllib.loads((DATA_FILES / "real-messages.toml").read_text())
GPGSM = READ["commands"]["gpgsm"]

CONTENTS = {
    # Lines that end as S/MIME has them, so that no signing changes them.
    "content.txt": b"The first line of what is signed.\r\nAnd the second.\r\n",
    "other.txt": b"The first line of what was not signed.\r\n",
    "empty.txt": b"",
    "octets.bin": bytes(range(256)),
    "large.bin": bytes(range(256)) * 4096,  # 1 MiB
}


class ToolFault(Exception):
    """A tool did not do what it was asked for. The text is the reason that it told."""


class Tools:
    """The tools, run in a folder of their own, and with no configuration but that of data/openssl.cnf."""

    def __init__(self, folder):
        self.folder = Path(folder)
        self.gnupg = self.folder / "gnupg"
        self.environment = dict(
            os.environ, LC_ALL="C", OPENSSL_CONF=str(self.folder / "openssl.cnf"), GNUPGHOME=str(self.gnupg)
        )

    def run(self, words, given=PASSPHRASE):
        """Runs a tool: the first word is its name. Some tools read the passphrase from their input."""
        how = {"capture_output": True, "cwd": self.folder, "env": self.environment, "timeout": SECONDS}
        try:
            return subprocess.run(words.split(), input=given, **how)
        except subprocess.TimeoutExpired:
            raise ToolFault(f"`{words}` did not end within {SECONDS} seconds") from None

    def make(self, words):
        ended = self.run(words)
        if ended.returncode != 0:
            raise ToolFault(reason_of(ended.stderr))
        return ended.stdout

    def read(self, name):
        return (self.folder / name).read_bytes()

    def write(self, name, octets):
        (self.folder / name).write_bytes(octets)


def reason_of(stderr):
    """Returns the first line that reports an error, without the number of OpenSSL's thread, or else the last line."""
    lines = stderr.decode(errors="replace").strip().splitlines() or ["no reason was told"]
    errors = [line for line in lines if "error" in line.lower()]
    return errors[0].partition(":error:")[2] or errors[0] if errors else lines[-1]


# ---- keys and certificates

RSA = "rsa:2048"
SIGNERS = [
    # (name, what its key is made by, the section of its extensions)
    ("rsa", RSA, "signer"), ("second", RSA, "signer"), ("ec", "ec -pkeyopt ec_paramgen_curve:P-256", "signer"), ("ed", "ed25519", "signer"),
    ("stamper", RSA, "stamper"),
]


def make_authority(tools):
    """Makes the authority that signs all certificates: `ca.pem` with its certificate, `ca.key` with its key."""
    tools.make(f"openssl req -x509 -newkey {RSA} -nodes -subj /CN=Authority -days 30 -extensions authority"
               " -keyout ca.key -out ca.pem")


def make_signer(tools, serial, name, key, section):
    """Makes a signer: `NAME.crt` with the certificate, and `NAME.pem` with both the certificate and the key."""
    tools.make(f"openssl req -new -newkey {key} -nodes -subj /CN={name} -keyout {name}.key -out {name}.csr")
    tools.make(f"openssl x509 -req -in {name}.csr -CA ca.pem -CAkey ca.key -set_serial {serial} -days 30"
               f" -extfile openssl.cnf -extensions {section} -out {name}.crt")
    tools.write(f"{name}.pem", tools.read(f"{name}.crt") + tools.read(f"{name}.key"))


def set_up(tools):
    """Makes the keys, certificates, revocation lists and requests. The newer of two lists revokes a certificate."""
    tools.write("openssl.cnf", CONFIGURATION.encode())
    for name, octets in {**CONTENTS, "stamps": b"01\n", "index.txt": b"", "crlnumber": b"01\n"}.items():
        tools.write(name, octets)
    make_authority(tools)
    for serial, signer in enumerate(SIGNERS, start=1):
        make_signer(tools, serial, *signer)
    authority = "openssl ca -keyfile ca.key -cert ca.pem"
    for words in ("-gencrl -out older.crl", "-revoke stamper.crt", "-gencrl -out newer.crl"):
        tools.make(f"{authority} {words}")
    tools.make("openssl ts -query -data content.txt -sha256 -cert -out with-certificates.tsq")
    tools.make("openssl ts -query -data content.txt -sha512 -tspolicy 1.2.3.4.2 -no_nonce -out plain.tsq")


# ---- messages

# A message, the commands that have to succeed for it, and those that have to fail; {} stands for the file that holds it.
Message = namedtuple("Message", "name octets verifies denies", defaults=[()])


def whole(words):
    """Returns a command, or each of several, with the commands for which names in braces stand."""
    if isinstance(words, list):
        return [whole(it) for it in words]
    return re.sub(r"\{(\w+)\}", lambda it: READ["commands"][it[1]], words)


def made_of_openssl(tools, name):
    """Returns a message that OpenSSL makes of no other one."""
    return tools.make(whole(next(makes for it, makes, *_ in READ["messages"]["openssl"] if it == name)))


def made(tools, tally, tool):
    for name, makes, *judged_by in READ["messages"][tool]:
        try:
            octets = tools.make(whole(makes))
        except ToolFault as fault:
            if name in READ["messages"]["optional"]:
                tally.skip(name, fault)
            else:
                tally.count(f"{name}/made", str(fault))
        else:
            tools.write(f"{name}.der", octets)
            yield Message(name, octets, *whole(judged_by))


def all_messages(tools, tally):
    yield from made(tools, tally, "openssl")
    octets = assembled(tools)
    tools.write("assembled.der", octets)
    yield Message("assembled", octets, [whole("{verify} -crl_check")])
    yield from gpgsm_messages(tools, tally)


def assembled(tools):
    """Returns a message with what OpenSSL cannot be told to put into one, and with each set in descending order.

    It has the signers of two messages, by two digests, with unsigned attributes, and two revocation lists, without
    which the certificates would not pass their check.
    """
    messages = [tools.read("attached.der"), tools.read("sha384.der")]
    version, algorithms, content, certificates, signers = zip(*(signed_data_of(one).members for one in messages))
    stamps = descending(0x31, [tools.read("stamp.der"), tools.read("stamp-without-certificates.der")])
    unsigned = descending(UNSIGNED_ATTRIBUTES, [
        written(0x30, ID_TIME_STAMP + stamps),
        written(0x30, ID_NAME + written(0x31, written(0x13, b"A name"))),
    ])
    lists = [tools.make(f"openssl crl -in {age}.crl -outform DER") for age in ["older", "newer"]]
    return message_with(
        version[0].octets,
        descending(0x31, [one.octets for field in algorithms for one in field.members]),
        content[0].octets,
        descending(0xA0, [one.octets for field in certificates for one in field.members]),
        descending(0xA1, lists),
        descending(0x31, [written(0x30, one.contents + unsigned) for field in signers for one in field.members]),
    )


# ---- messages of GnuPG

def import_signer(tools, name, attempts=4):
    """Has GnuPG read a key. GnuPG 2.2 reads old algorithms alone, and at some salts, one in fifty, not even them."""
    tools.make(f"openssl pkcs12 -export -in {name}.pem -certfile ca.pem -passout stdin -macalg sha1"
               f" -keypbe PBE-SHA1-3DES -certpbe PBE-SHA1-3DES -out {name}.p12")
    try:
        tools.make(f"{GPGSM} --import {name}.p12")
    except ToolFault:
        if attempts == 1:
            raise
        import_signer(tools, name, attempts - 1)


def gpgsm_messages(tools, tally):
    if not tally.has("gpgsm"):
        return
    try:
        # GnuPG has two signers, in a folder of its own where the authority is trusted.
        tools.gnupg.mkdir(mode=0o700)
        agent = ["allow-loopback-pinentry", "disable-scdaemon", "s2k-count 65536"]  # the smallest count, to be quick
        (tools.gnupg / "gpg-agent.conf").write_text("\n".join(agent) + "\n")
        printed = tools.make("openssl x509 -in ca.pem -noout -fingerprint -sha1").decode()
        (tools.gnupg / "trustlist.txt").write_text(printed.strip().rpartition("=")[2] + " S relax\n")
        for name in ["rsa", "second"]:
            import_signer(tools, name)
        tools.make(f"{GPGSM} --sign content.txt")
    except ToolFault as fault:
        tally.skip("gpgsm", fault)
    else:
        yield from made(tools, tally, "gpgsm")


OCTET_STRING = 0x04
SIGNED_ATTRIBUTES = 0xA0  # of a signer
UNSIGNED_ATTRIBUTES = 0xA1
KEY_IDENTIFIER = 0x80  # of a signer
ID_TIME_STAMP = bytes.fromhex("060b2a864886f70d010910020e")  # id-aa-timeStampToken
ID_NAME = bytes.fromhex("06092a864886f70d010902")  # unstructuredName


def descending(identifier, members):
    """Returns a set whose members are in the order opposite to that of DER."""
    return written(identifier, b"".join(sorted(members, reverse=True)))


def signed_data_of(message):
    _, content = element_at(message, 0).members
    return content.members[0]


def signer_infos(message):
    return signed_data_of(message).members[-1].members


def content_of(message):
    """Returns the content, an OCTET STRING in one piece or in segments, or None if it is detached."""
    _, *content = signed_data_of(message).members[2].members
    return content[0].members[0] if content else None


def joined(string):
    return b"".join(map(joined, string.members)) if string.identifier & CONSTRUCTED else string.contents


def signed_attributes(signer):
    return next((field for field in signer.members if field.identifier == SIGNED_ATTRIBUTES), None)


# ---- what the rules make of a message

# The fields of a SignerInfo: `signed` and `unsigned` are lists of one element or none.
Fields = namedtuple("Fields", "version sid digest signed algorithm signature unsigned")


def fields_of(signer):
    fields = list(signer.members)
    signed = [fields.pop(3)] if fields[3].identifier == SIGNED_ATTRIBUTES else []
    return Fields(*fields[:3], signed, *fields[3:5], fields[5:])


def is_key_identifier(sid):
    return sid.identifier & ~CONSTRUCTED == KEY_IDENTIFIER


def is_countersignature(attribute):
    return attribute.members[0].contents == COUNTERSIGNATURE


def kept(element):
    return AsItStands(element.octets)


def primitive(element):
    return Primitive(element.identifier, element.contents)


def string(element):
    return OctetString(joined(element), element.identifier & ~CONSTRUCTED)


def set_of(element, member, rule):
    """Returns a set whose members are to be written in ascending order, and the rule that says so."""
    made = SetOf([member(one) for one in element.members], element.identifier)
    made.rule = rule
    return made


def algorithm(element):
    kind, *parameters = element.members
    return Sequence(primitive(kind), *map(kept, parameters))


def message_part(octets):
    """Returns the parts of a message, which spell themselves in DER and in BER."""
    kind, content = element_at(octets, 0).members
    version, algorithms, encapsulated, *sets, signers = content.members[0].members
    content_type, *attached = encapsulated.members
    signed_data = Sequence(
        primitive(version),
        set_of(algorithms, algorithm, "digest algorithms ascend"),
        Sequence(primitive(content_type), *[Sequence(string(one.members[0]), identifier=0xA0) for one in attached]),
        *[set_of(one, kept, "certificates ascend" if one.identifier == 0xA0 else "revocation lists ascend") for one in sets],
        set_of(signers, signer_part, "signers ascend"),
    )
    return Sequence(primitive(kind), Sequence(signed_data, identifier=0xA0))


def signer_part(signer):
    it = fields_of(signer)
    return Sequence(
        primitive(it.version),
        string(it.sid) if is_key_identifier(it.sid) else Sequence(kept(it.sid.members[0]), primitive(it.sid.members[1])),
        algorithm(it.digest),
        *map(kept, it.signed),
        algorithm(it.algorithm),
        string(it.signature),
        *[set_of(one, attribute_part, "unsigned attributes ascend") for one in it.unsigned],
    )


def attribute_part(attribute):
    kind, values = attribute.members
    member = signer_part if is_countersignature(attribute) else kept
    return Sequence(primitive(kind), set_of(values, member, "values of an unsigned attribute ascend"))


def unlike(wanted, came):
    """Returns where two encodings begin to differ, or an empty text if they do not."""
    if wanted == came:
        return ""
    same = len(os.path.commonprefix([wanted, came]))
    return f"from octet {same} on: wanted {shortened(wanted[same:])}, came {shortened(came[same:])}"


def why_not_converted(program, der, *spellings):
    """Returns why one of these is not converted to the DER, or an empty text."""
    for given in spellings:
        came = run([program, "convert"], given)
        if differs := complaint(Outcome(None, b"", 0), came) or unlike(der, came.stdout):
            return f"of {shortened(given)}: {differs}"
    return ""


def behind(octets, part):
    """Returns how many octets there are up to the end of the part."""
    return octets.index(part) + len(part)
