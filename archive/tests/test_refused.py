"""Names what is refused: certificates, keys and encrypted messages as openssl makes them, in DER, in PEM and in base64.

- Each is named as what it is, and nothing that is cut, changed in its structure or put together at random is named as something else.
- To name what is large takes no longer than to name what is short, and no octets end it with an error.
"""

import base64
import random
import time

import pytest
from counting import count_if, count_same, needs
from elements import element
from making import write_files
from running import command, lines_of

pytestmark = [pytest.mark.archive, needs("click", "tqdm", "sqlalchemy", "cryptography", tools=["openssl"])]
CERTIFICATE, LIST, REQUEST = "a certificate (X.509)", "a certificate list (CRL)", "a certificate request (PKCS #10)"
OF_PKCS8, OF_PKCS1, OF_EC, ENCRYPTED = "a private key (PKCS #8)", "a private key (PKCS #1)", "a private key (SEC 1)", "an encrypted private key (PKCS #8)"
OF_PKCS12, OCSP = "a file of keys or certificates (PKCS #12)", "an OCSP response"
IN_PLACE = ", in place of a signature"
OF_LABEL = "PEM, and the label of its first block is "
SECRET = "-secretkey 00112233445566778899aabbccddeeff -aes128"
MESSAGES = {  # by the words of `openssl cms` that make them
    "an encrypted message (CMS EnvelopedData)": "-encrypt signer.pem", "an encrypted message (CMS AuthEnvelopedData)": "-encrypt -aes-256-gcm signer.pem",
    "an encrypted message (CMS EncryptedData)": f"-EncryptedData_encrypt {SECRET}", "data that nobody signed (CMS Data)": "-data_create",
    "a message with a digest that nobody signed (CMS DigestedData)": "-digest_create",
}
CONTENT_TYPES = {  # which openssl does not make here
    "2a864886f70d0109100102": "a message with a MAC (CMS AuthenticatedData)", "2a864886f70d0109100109": "a compressed message (CMS CompressedData)",
    "2a864886f70d010704": "an encrypted message (PKCS #7 SignedAndEnvelopedData)",
}
AUTHORITY = "[ca]\ndefault_ca = own\n[own]\ndatabase = issued\ncrlnumber = number\ndefault_md = sha256\ndefault_crl_days = 3\n"


@pytest.fixture(scope="module")
def named_as(make):
    """Octets by their names, and what each is."""
    run = make.run
    write_files(make.folder, {"ca.cnf": AUTHORITY.encode(), "issued": b"", "number": b"01\n"})
    (make.folder / "crl.pem").write_bytes(run("openssl ca -gencrl -config ca.cnf -keyfile signer.key -cert signer.pem"))
    run("openssl ocsp -index issued -CA signer.pem -rsigner signer.pem -rkey signer.key -issuer signer.pem -serial 1 -respout ocsp.der -ndays 3")
    found = {
        "certificate": (run("openssl x509 -in signer.pem -outform DER"), CERTIFICATE),
        "list": (run("openssl crl -in crl.pem -outform DER"), LIST),
        "request": (run("openssl req -new -key signer.key -subj /CN=A -outform DER"), REQUEST),
        "pkcs8": (run("openssl pkcs8 -topk8 -nocrypt -in signer.key -outform DER"), OF_PKCS8),
        "ed25519": (run("openssl genpkey -algorithm ed25519 -outform DER"), OF_PKCS8),
        "pkcs1": (run("openssl rsa -in signer.key -traditional -outform DER"), OF_PKCS1),
        "sec1": (run("openssl ecparam -name prime256v1 -genkey -noout -outform DER"), OF_EC),
        "encrypted": (run("openssl pkcs8 -topk8 -passout pass:x -in signer.key -outform DER"), ENCRYPTED),
        "encrypted by PKCS #12": (run("openssl pkcs8 -topk8 -v1 PBE-SHA1-3DES -passout pass:x -in signer.key -outform DER"), ENCRYPTED),
        "pkcs12": (run("openssl pkcs12 -export -inkey signer.key -in signer.pem -passout pass:x"), OF_PKCS12),
        "ocsp": ((make.folder / "ocsp.der").read_bytes(), OCSP),
    }
    for name, words in MESSAGES.items():
        option, *others = words.split()
        found[name] = run(f"openssl cms {option} -outform DER", *others, octets=b"content"), name
    for oid, name in CONTENT_TYPES.items():
        inside = element(0x06, bytes.fromhex(oid)) + element(0xA0, element(0x30, b"\x02\x01\0"))
        found |= {name: (element(0x30, inside), name), f"{name}, streamed": (b"\x30\x80" + inside + b"\0\0", name)}
    return found


@pytest.fixture(scope="module")
def folder(shared_home, make, named_as):
    """Files of these octets, and others, in a folder; and what is to be said of each."""
    public, private = ((make.folder / f"signer.{it}").read_bytes() for it in ("pem", "key"))
    key = make.run("openssl rsa -in signer.key -traditional -aes128 -passout pass:x")
    envelope, certificate = (named_as[it][0] for it in ("an encrypted message (CMS EnvelopedData)", "certificate"))
    files = {
        **{f"{name}.der": it for name, it in named_as.items()},
        "pem.p7s": (public, f"PEM, and its first block is {CERTIFICATE}{IN_PLACE}"),
        "key and certificate.p7s": (private + public, f"PEM, and its first block is {OF_PKCS8}{IN_PLACE}"),
        "encrypted key.p7s": (key, f"{OF_LABEL}RSA PRIVATE KEY{IN_PLACE}"),
        "envelope.pem": (b"-----BEGIN CMS-----\n" + base64.encodebytes(envelope) + b"-----END CMS-----\n", "an encrypted message (CMS EnvelopedData)"),
        "base64.p7s": (base64.encodebytes(certificate), f"{CERTIFICATE}{IN_PLACE}"), "text.p7s": (b"some text", ""), "zeros.p7s": (bytes(100), ""),
        "cut.der": (certificate[:-1], ""), "longer.der": (certificate + b"\0", ""), "large.p7s": (b"-----BEGIN CERTIFICATE-----\n" + bytes(1 << 20), ""),
    }
    write_files(shared_home / "refused", {name: octets for name, (octets, _) in files.items()})
    return shared_home / "refused", {name: said for name, (_, said) in files.items()}


def test_rows(home, folder):
    """`refusals`, `files` and `inspect` say what each is."""
    place, wanted = folder
    command(home, "index", place, "--jobs", 1)
    rows = lines_of(home, "refusals")
    count_same("notes in JSON", {it["member"] or it["path"].rpartition("/")[2]: it["note"] for it in rows}, wanted)
    lines = [line.split("\t") for line in command(home, "refusals").splitlines()]
    count_same("notes in lines", {file.rpartition("/")[2]: note for _, note, file in lines}, {name: said or "-" for name, said in wanted.items()})
    count_same("notes of `files`", {it["path"].rpartition("/")[2]: it["note"] for it in lines_of(home, "files")}, wanted)
    said = command(home, "inspect", place / "pkcs8.der", status=1)
    count_if("inspect", f"note           {OF_PKCS8}" in said, said)
    said = command(home, "check", place / "pkcs8.der", status=3)
    count_if("check", f"\n  {OF_PKCS8}\n" in said, said)


def test_said_once(home):
    """A table does not say twice why a file is damaged; JSON has the note as it is stored."""
    write_files(home / "archive", {"damaged.zip": b"PK no zip"})
    command(home, "index", home / "archive", "--jobs", 1)
    (row,) = lines_of(home, "refusals")
    why, note, _ = command(home, "refusals").split("\t")
    count_same("the note of a damaged file", (row["note"], note), (row["error"], "-"))
    count_if("why it is damaged", row["error"] and why == f"damaged: {row['error']}", why)


# ---- no wrong names


def changed_in_structure(octets):
    """Gives the octets with an identifier or a length changed in each of the first headers."""
    for at in range(min(len(octets), 40)):
        yield octets[:at] + bytes([octets[at] ^ 0x08]) + octets[at + 1 :]


def test_names(archive, named_as):
    """What is changed has its own name or none; what is cut, or has something after it, has none."""
    named = archive.refused.named
    for name, (octets, said) in named_as.items():
        count_same(f"{name}: its name", named(octets), said)
        others = {named(it) for it in changed_in_structure(octets)} - {said, ""}
        count_same(f"{name}, changed", others, set())
        count_same(f"{name}, cut, or with more", {named(it) for it in (*(octets[:it] for it in range(len(octets))), octets + b"\0", octets + octets)}, {""})


ALGORITHM = element(0x30, element(0x06, b"\x2a\x03"))
NAMELESS = {
    "nothing": b"", "an element that is no sequence": element(0x04, b"text"), "a sequence of nothing": element(0x30, b""),
    "a DigestInfo": element(0x30, ALGORITHM + element(0x04, bytes(20))), "numbers": element(0x30, b"\x02\x01\x05" * 9),
    "eight numbers": element(0x30, b"\x02\x01\0" * 8), "a version and octets": element(0x30, b"\x02\x01\x01\x04\x01x"),
    "a status": element(0x30, b"\x0a\x01\x06"), "a key of another version": element(0x30, b"\x02\x01\x07" + ALGORITHM + b"\x04\0"),
    "no algorithm": element(0x30, b"\x02\x01\0" + element(0x30, b"\x02\x01\x01") + b"\x04\0"),
    "signed, and nothing else": element(0x30, b"\x30\0" + ALGORITHM + b"\x03\1\0"), "deep": b"\x30\x80" * 100_000,
    "a length of 126 octets": b"\x30\xfe" + b"\xff" * 200, "SignedData": element(0x30, bytes.fromhex("06092a864886f70d010702a000")),
}


@pytest.mark.parametrize("name", NAMELESS)
def test_nameless(archive, name):
    count_same(name, archive.refused.named(NAMELESS[name]), "")


def test_at_random(archive, named_as):
    """Octets at random, and elements that are put together at random, end with no error; the former have no name."""
    choose = random.Random(20)
    wanted = {said for _, said in named_as.values()} | {""}

    def built(depth):
        inside = b"".join(built(depth - 1) for _ in range(choose.randrange(6))) if depth else choose.randbytes(choose.randrange(9))
        return element(choose.choice((0x02, 0x03, 0x04, 0x06, 0x0A, 0x17, 0x30, 0x30, 0x30, 0xA0, 0xA1)), inside)

    count_same("octets", {archive.refused.named(b"\x30" + choose.randbytes(choose.randrange(200))) for _ in range(5000)}, {""})
    count_same("elements", {archive.refused.named(element(0x30, built(3))) for _ in range(5000)} - wanted, set())


def test_cost(archive, named_as):
    """A list of 64 MiB is named in the time of a short one."""
    octets, said = named_as["list"]
    long = element(0x30, element(0x30, _first(octets) + element(0x30, bytes(64 << 20))) + _rest(octets))
    began = time.process_time()
    count_same("a long list", archive.refused.named(long), said)
    took = time.process_time() - began
    count_if("its time", took < 0.1, took)


def _outline(octets):
    """Returns where what is signed in a list begins and ends."""
    at = 4  # the list has more than 255 octets
    length = int.from_bytes(octets[at + 2 : at + 2 + (octets[at + 1] & 0x7F)], "big") if octets[at + 1] & 0x80 else octets[at + 1]
    begin = at + 2 + (octets[at + 1] & 0x7F if octets[at + 1] & 0x80 else 0)
    return begin, begin + length


def _first(octets):
    """Returns what is signed in a list, but for the extensions at its end, before which the certificates lie."""
    begin, end = _outline(octets)
    extensions = octets.rindex(b"\xa0", begin, end)
    return octets[begin:extensions]


def _rest(octets):
    return octets[_outline(octets)[1] :]


