"""Containers of messages as Debian's tools make them, by their names, what is to be said of each, and files that are made to take long.

The tools are openssl, jarsigner, apksigner, osslsigncode and gpg; pikepdf makes encrypted PDFs. What is missing makes no case.
"""

import base64
import bz2
import gzip
import hashlib
import importlib
import importlib.util
import io
import lzma
import mailbox
import os
import re
import shutil
import struct
import subprocess
import tarfile
import warnings
import zipfile
from contextlib import closing
from pathlib import Path
from typing import Dict, NamedTuple

from elements import element, element_at, oid
from making import tarred, write_files, zipped
from places import DATA
from running import SECONDS

HOLE = 16384  # hexadecimal digits of /Contents
DOCUMENT = b"A document.\r\nFrom here on a line that mbox quotes.\r\n" + bytes(range(256)) * 4
TEXT = b"Dear reader,\nFrom now on all is signed.\n.\ntrailing space \nEnd\n"
FITS, EARLIER, PARTLY, DIFFERS = "fits", "fits an earlier revision", "fits, but covers only some files", "does not fit"
NO_REVISION, NOT_COMPARED = "covers no revision of the file", "files of the manifest not compared"
INSIDE, NO_DIGEST, NOT_FOUND, NO_SIGNATURE = "content inside", "no digest to compare", "content not found", "no signature"
UNSEEN = ("appended.pdf", "large.pdf", "head alone.pdf", "comment.pdf", "many.pdf")  # of which another reader sees other signatures
TST_INFO = "1.2.840.113549.1.9.16.1.4"
SHA256 = "http://www.w3.org/2001/04/xmlenc#sha256"
CERTIFICATE_IN_DER = "openssl x509 -in signer.pem -outform DER"


class Case(NamedTuple):
    """A file as it was made: what else lies beside it, what it is, and the state of each message by its place."""

    octets: bytes
    what: str
    states: Dict[str, str] = {}
    beside: Dict[str, bytes] = {}
    others: Dict[str, str] = {}
    """The classes of other places."""


class Maker:
    """Signs and stamps in a folder of its own."""

    def __init__(self, folder: Path) -> None:
        self.folder = write_files(folder, {"serial": b"01\n"})
        self.certificate("signer", "/CN=Signer", "digitalSignature", "emailProtection,codeSigning")
        self.certificate("tsa", "/CN=TSA", "critical,digitalSignature", "critical,timeStamping")

    def run(self, words: str, *more, octets=None) -> bytes:
        ran = subprocess.run([*words.split(), *map(str, more)], input=octets, capture_output=True, cwd=self.folder, timeout=SECONDS)
        assert ran.returncode == 0, f"{words}: {ran.stderr.decode()[-800:]}"
        return ran.stdout

    def certificate(self, name, subject, usage, purposes) -> None:
        request = f"openssl req -x509 -newkey rsa:2048 -nodes -keyout {name}.key -out {name}.pem -subj {subject} -days 900"
        self.run(request, "-addext", f"keyUsage={usage}", "-addext", f"extendedKeyUsage={purposes}")

    def cms(self, octets, *more, form="DER") -> bytes:
        return self.run(f"openssl cms -sign -binary -signer signer.pem -inkey signer.key -md sha256 -outform {form}", *more, octets=octets)

    def mail(self, *more) -> bytes:
        words = "openssl cms -sign -signer signer.pem -inkey signer.key -md sha256 -text -from a@example.org -to b@example.org -subject Signed"
        return self.run(words, *more, octets=TEXT)

    def query(self, octets) -> bytes:
        return self.run(f"openssl ts -query -digest {hashlib.sha256(octets).hexdigest()} -sha256 -cert")

    def stamp(self, octets, *more) -> bytes:
        (self.folder / "query").write_bytes(self.query(octets))
        return self.run("openssl ts -reply -queryfile query -config", DATA / "time-stamping.cnf", *more)

    def token(self, octets) -> bytes:
        return self.stamp(octets, "-token_out")


def indefinite(der: bytes) -> bytes:
    """Returns a message whose outermost length is indefinite, so that it ends in zeros."""
    return b"\x30\x80" + der[4:] + b"\0\0"


# ---- files of their own

def files_of_their_own(make) -> Dict[str, Case]:
    der, pem, attached, beside = make.cms(DOCUMENT), make.cms(DOCUMENT, form="PEM"), make.cms(DOCUMENT, "-nodetach"), {"doc": DOCUMENT}
    alone = make.run("openssl crl2pkcs7 -nocrl -certfile signer.pem -outform DER")
    two = pem + b"some text\n" + make.cms(TEXT, "-nodetach", form="PEM")
    return {
        "doc.p7s": Case(der, "message", {"": FITS}, beside),
        "DOC.P7S": Case(der, "message", {"": FITS}, {"DOC": DOCUMENT}),
        "alone.p7s": Case(der, "message", {"": NOT_FOUND}),
        "streamed/doc.sig": Case(indefinite(der), "message", {"": FITS}, beside),
        "attached.p7m": Case(attached, "message", {"": FITS}),
        "inside/doc.p7s": Case(attached, "message", {"": INSIDE}, {"doc": DOCUMENT + b"!"}),
        "equal/doc.p7s": Case(attached, "message", {"": FITS}, beside),
        "unsigned/doc.p7s": Case(make.cms(DOCUMENT, "-noattr"), "message", {"": NO_DIGEST}, beside),
        "certificates.p7c": Case(alone, "message", {"": NO_SIGNATURE}),
        "pem/doc.p7s": Case(pem, "message", {"": FITS}, beside),
        "two.pem": Case(two, "container", {"block 0": NOT_FOUND, "block 1": FITS}),
        "base64/doc.p7s": Case(base64.encodebytes(der), "message", {"": FITS}, beside),
        "crlf/doc.p7s": Case(base64.encodebytes(der).replace(b"\n", b"\r\n"), "message", {"": FITS}, beside),
        "stamped/doc.tsr": Case(make.stamp(DOCUMENT), "message", {"": FITS}, beside),
        "stamped/doc.tst": Case(make.token(DOCUMENT), "message", {"": FITS}, beside),
        "doc.tsq": Case(make.query(DOCUMENT), "message", {"": NO_SIGNATURE}),
        "query/doc.tst": Case(make.query(DOCUMENT), "message", {"": NO_SIGNATURE}, beside),
        "large beside/doc.p7s": Case(attached, "message", {"": INSIDE}, {"doc": bytes(2 << 20)}),
        "no attributes/doc.tst": Case(bare_token(make, DOCUMENT), "message", {"": NO_DIGEST}, beside),
        "long/doc.p7s": Case(make.cms(bytes(3 << 20)), "message", {"": FITS}, {"doc": bytes(3 << 20)}),
        "long/doc.tst": Case(make.token(bytes(3 << 20)), "message", {"": FITS}, {"doc": bytes(3 << 20)}),
    }


def bare_token(make, octets: bytes) -> bytes:
    """Returns a token without signed attributes."""
    (make.folder / "token").write_bytes(make.token(octets))
    content = make.run("openssl cms -verify -noverify -inform DER -in token -binary")
    return make.cms(content, "-nodetach", "-noattr", "-econtent_type", TST_INFO)


def other_files(make) -> Dict[str, Case]:
    certificate = (make.folder / "signer.pem").read_bytes()
    others = {
        "text.txt": Case(TEXT, "text"), "0 text": Case(b"0 is how this begins\n", "text"), "binary": Case(b"\0\1\2", "not a candidate"),
        "empty": Case(b"", "not a candidate"), "certificate.pem": Case(certificate, "not a candidate"),
        "certificate.der": Case(make.run(CERTIFICATE_IN_DER), "refused"),
        "empty.p7s": Case(b"", "refused"), "text.p7s": Case(TEXT, "refused"),
        "broken.pem": Case(b"-----BEGIN CMS-----\nMII?\n-----END CMS-----\n", "damaged"),
        "broken.zip": Case(b"PK no zip", "damaged"), "broken.gz": Case(b"\x1f\x8b no gzip", "damaged"),
        "plain.eml": Case(b"From: a@example.org\nSubject: plain\n\ntext\n", "container without message"),
        "signed.xml": Case(b'<S xmlns="http://www.w3.org/2000/09/xmldsig#"><SignatureValue/></S>', "other signed format"),
        "office.docx": Case(zipped({"[Content_Types].xml": b"<T/>", "_xmlsignatures/sig1.xml": b"<S/>"}), "container without message",
                            others={"_xmlsignatures/sig1.xml": "other signed format"}),
        "office.odt": Case(zipped({"mimetype": b"odt", "META-INF/manifest.xml": b"<m/>", "META-INF/documentsignatures.xml": b"<S/>"}),
                           "container without message", others={"META-INF/documentsignatures.xml": "other signed format"}),
    }
    if shutil.which("osslsigncode"):
        (make.folder / "plain.exe").write_bytes(portable_executable())
        make.run("osslsigncode sign -certs signer.pem -key signer.key -in plain.exe -out signed.exe")
        others["signed.exe"] = Case((make.folder / "signed.exe").read_bytes(), "other signed format")
    if shutil.which("gpg"):
        others.update(openpgp(make))
    return others


def portable_executable() -> bytes:
    """Returns a program for Windows without sections, of which the signature directory is empty."""
    optional = struct.pack("<H22xIQII2H", 0x20B, 0, 0x140000000, 4096, 512, 6, 0).ljust(56, b"\0")
    optional = (optional + struct.pack("<IIIHH", 4096, 512, 0, 3, 0) + struct.pack("<QQQQII", 0, 0, 0, 0, 0, 16)).ljust(112 + 128, b"\0")
    header = b"MZ".ljust(60, b"\0") + struct.pack("<I", 64) + b"PE\0\0" + struct.pack("<HHIIIHH", 0x8664, 0, 0, 0, 0, len(optional), 0x22)
    return (header + optional).ljust(1024, b"\0")


def openpgp(make) -> Dict[str, Case]:
    home = make.folder / "gnupg"
    home.mkdir(mode=0o700)
    gpg = ("gpg --batch --yes --pinentry-mode loopback --homedir", home, "--passphrase", "")
    make.run(*gpg, "--quick-gen-key", "a@example.org")
    signature, armoured = (make.run(*gpg, *how, "--detach-sign", octets=DOCUMENT) for how in ((), ("--armor",)))
    mail = (
        b'From: a@example.org\nContent-Type: multipart/signed; boundary=b; protocol="application/pgp-signature"\n\n'
        b"--b\nContent-Type: text/plain\n\ntext\n--b\nContent-Type: application/pgp-signature\n\n" + armoured + b"\n--b--\n"
    )
    make.run("gpgconf --homedir", home, "--kill", "all")
    return {
        "doc.gpg": Case(signature, "other signed format"), "doc.asc": Case(armoured, "other signed format"),
        "pgp.eml": Case(mail, "container without message", others={"part 2": "other signed format"}),
    }


def hard_mail(make, ending=b"\r\n") -> bytes:
    """Returns a mail of which each octet that is signed matters: blanks, a folded header, a preamble and an epilogue."""
    inner = (
        b'Content-Type: multipart/mixed;\r\n boundary="in"\r\nX-Long:  two  spaces and\r\n\ta folded line\r\nx-case: \xe4 8 bit\r\n\r\n'
        b"Preamble\r\n--in\r\nContent-Type: text/plain; charset=utf-8\r\nContent-Transfer-Encoding: 8bit\r\n\r\n\xc3\xa4 trailing  \r\n"
        b"From here\r\n--in\r\nContent-Type: application/octet-stream\r\nContent-Transfer-Encoding: base64\r\n\r\nAAAA\r\nBBBB\r\n\r\n"
        b"--in--\r\nEpilogue\r\n"
    )
    signature = base64.encodebytes(make.cms(inner)).replace(b"\n", b"\r\n")
    head = (
        b"From: a@example.org\r\nSubject: hard\r\nMIME-Version: 1.0\r\nContent-Type: multipart/signed; micalg=sha-256;\r\n"
        b' protocol="application/pkcs7-signature"; boundary="out\'(1)"\r\n\r\nThis is signed.\r\n--out\'(1)\r\n'
    )
    middle = b"\r\n--out'(1)\r\nContent-Type: application/pkcs7-signature; name=smime.p7s\r\nContent-Transfer-Encoding: base64\r\n\r\n"
    return (head + inner + middle + signature + b"\r\n--out'(1)--\r\n").replace(b"\r\n", ending)


def mails(make) -> Dict[str, Case]:
    hard, signed, opaque = hard_mail(make), make.mail(), make.mail("-nodetach")
    forwarded = (
        b"From: c@example.org\r\nContent-Type: multipart/mixed; boundary=fw\r\n\r\n--fw\r\nContent-Type: text/plain\r\n\r\nsee below\r\n"
        b"--fw\r\nContent-Type: message/rfc822\r\n\r\n" + hard + b"\r\n--fw--\r\n"
    )
    attached = (
        b"From: c@example.org\nContent-Type: multipart/mixed; boundary=at\n\n--at\nContent-Type: application/pdf; name=a.pdf\n"
        b"Content-Transfer-Encoding: base64\n\n" + base64.encodebytes(signed_pdf(make)) + b"\n--at--\n"
    )
    with closing(mailbox.mbox(make.folder / "box")) as box:
        for mail in (signed, opaque, hard_mail(make, b"\n")):
            box.add(mail)
    states = {f"mail {number}!{place}": FITS for number, place in ((1, "part 2"), (2, "body"), (3, "part 2"))}
    return {
        "signed.eml": Case(signed, "container", {"part 2": FITS}),
        "crlf.eml": Case(make.mail("-crlfeol"), "container", {"part 2": FITS}),
        "opaque.eml": Case(opaque, "container", {"body": FITS}), "hard.eml": Case(hard, "container", {"part 2": FITS}),
        "lf.eml": Case(hard_mail(make, b"\n"), "container", {"part 2": FITS}),
        "Maildir/cur/1700000000.M1P1.host:2,S": Case(hard_mail(make, b"\n"), "container", {"part 2": FITS}),
        "forwarded.eml": Case(forwarded, "container", {"part 2/mail.2": FITS}),
        "attached.eml": Case(attached, "container", {"part 1!signature at 0": FITS}, others={"part 1": "container"}),
        **partly_signed(make, signed), **odd_mails(make, signed),
        "box.mbox": Case((make.folder / "box").read_bytes(), "container", states),
    }


def partly_signed(make, signed: bytes) -> Dict[str, Case]:
    boundary = re.search(rb'boundary="([^"]+)"', signed)[1]
    last, more = signed.rindex(b"--" + boundary + b"--"), b"Content-Type: text/plain\n\nmore\n"
    kind = re.search(rb"Content-Type: multipart/signed[^\n]*(\n[ \t][^\n]*)*", signed)[0]
    beside = b"From: a@example.org\nContent-Type: multipart/mixed; boundary=o\n\n--o\n%s--o\n%s\n\n%s\n--o--\n"
    return {
        "third.eml": Case(signed[:last] + b"--%s\n%s" % (boundary, more) + signed[last:], "container", {"part 2": PARTLY},
                          others={"body": "damaged"}),
        "damaged beside.eml": Case(beside % (b"Content-Type: a/b\n" + more, kind, signed.partition(b"\n\n")[2]), "container", {"part 2.2": PARTLY},
                                   others={"part 1": "damaged"}),
        "beside.eml": Case(beside % (more, kind, signed.partition(b"\n\n")[2]), "container", {"part 2.2": PARTLY}),
    }


def odd_mails(make, signed: bytes) -> Dict[str, Case]:
    """Returns mails with what is out of the ordinary, and PEM in other characters, with other ends of lines, and with headers."""
    pem = make.cms(DOCUMENT, "-nodetach", form="PEM")
    binary = b"From: a\nContent-Type: application/pkcs7-mime\nContent-Transfer-Encoding: binary\n\n" + make.cms(bytes(range(256)), "-nodetach")
    kind = b"Content-Type: multipart/signed"
    two = signed.replace(kind, b"Content-Type: text/html\n" + kind, 1)
    wanted = Case(b"", "container", {"part 2": FITS})
    deep = b"From: a\nContent-Type: application/octet-stream; name=x\n\n" * 30 + signed  # attached to one another, deeper than is looked
    others = {"!".join(["body"] * depth): "container without message" if depth < 20 else "too large" for depth in range(1, 21)}
    return {
        "binary.eml": Case(binary, "container", {"body": FITS}),
        "zero.eml": wanted._replace(octets=signed.replace(b"Subject: Signed", b"Subject: Sig\0ned")),
        "late.eml": wanted._replace(octets=b"".join(b"X-%d: y\n" % it for it in range(60)) + signed),
        "mark.eml": wanted._replace(octets=b"\xef\xbb\xbf" + signed),
        "empty line.eml": wanted._replace(octets=b"\n" + signed),
        "content.eml": wanted._replace(octets=signed.replace(kind, b"Content-X: y\n" * 25 + kind, 1)),
        "two kinds.eml": Case(two, "container without message", others={"mail": "damaged"}),
        "attached deep.eml": Case(deep, "container without message", others=others),
        "utf16.pem": Case(pem.decode().encode("utf-16"), "message", {"": FITS}),
        "cr.pem": Case(pem.replace(b"\n", b"\r"), "message", {"": FITS}),
        "headers.pem": Case(pem.replace(b"CMS-----\n", b"CMS-----\nX-Header: 1\n\n", 1), "message", {"": FITS}),
    }


def other_mails(make) -> Dict[str, Case]:
    """Returns mails and texts of which a part is named, or lies where other readers look."""
    opaque, pem = make.mail("-nodetach"), make.cms(DOCUMENT, "-nodetach", form="PEM")
    leaf, nothing = b"From: a\nContent-Type: %s\n\n%s", "container without message"
    clear = b"-----BEGIN PGP SIGNED MESSAGE-----\n\nx\n-----BEGIN PGP SIGNATURE-----\n\niQ==\n-----END PGP SIGNATURE-----\n"
    return {
        "desk.pem": Case(b"From the desk of A.\n\n" + pem, "container", {"mail 1!body": FITS}),
        "subject.pem": Case(b"Subject: a message\n\n" + pem, "container", {"body": FITS}),
        "date.pem": Case(b"Date: today\n" + pem, "container", {"body": FITS}),
        "clear.eml": Case(leaf % (b"text/plain", clear), nothing, others={"body": "other signed format"}),
        "cms.eml": Case(leaf % (b"application/cms\nContent-Transfer-Encoding: base64", base64.encodebytes(make.cms(DOCUMENT, "-nodetach"))),
                        "container", {"body": FITS}),
        "global.eml": Case(leaf % (b"message/global", opaque), "container", {"body!body": FITS}, others={"body": "container"}),
        "partial.eml": Case(leaf % (b"message/partial; id=1; number=2; total=3", opaque), nothing, others={"body": "not looked into"}),
        "tnef.eml": Case(leaf % (b"application/ms-tnef", b"\x78\x9f\x3e\x22\n"), nothing, others={"body": "not looked into"}),
        "cr.eml": Case(opaque.replace(b"\n", b"\r"), nothing, others={"mail": "not looked into"}),
    }


def other_zips(make) -> Dict[str, Case]:
    """Returns zips, and what other programs take for one, that begin or end with something else, a tar without a mark, and what is signed in zips."""
    signed, nothing, document = {"doc": DOCUMENT, "doc.p7s": make.cms(DOCUMENT)}, "container without message", signed_pdf(make)
    wanted = Case(b"", "container", {"doc.p7s": FITS}, others={"doc": "not a candidate"})
    tar = bytearray(tarred(signed))
    for at in (0, 512 * (1 + -(-len(DOCUMENT) // 512))):
        tar[at + 257 : at + 265] = bytes(8)
        tar[at + 148 : at + 156] = b"%06o\0 " % (sum(tar[at : at + 148]) + 8 * 32 + sum(tar[at + 156 : at + 512]))
    xpi = {"manifest.json": b"{}", "META-INF/manifest.mf": b"Manifest-Version: 1.0\n\n", "META-INF/cose.sig": b"\xd8\x62"}
    macros = {"[Content_Types].xml": b"<T/>", "word/vbaProjectSignature.bin": b"\x57\5\0\0", "xl/vbaProjectSignatureAgile.bin": b"\x57"}
    return {
        "split.zip": wanted._replace(octets=b"PK\7\x08" + zipped(signed)), "temporary.bin": wanted._replace(octets=b"PK00" + zipped(signed)),
        "old tar": wanted._replace(octets=bytes(tar)),
        "old tar.gz": wanted._replace(octets=gzip.compress(bytes(tar))),
        "a zip after.pdf": Case(document + zipped(signed), "container", {place_of(document): EARLIER}, others={"zip": "not looked into"}),
        "cose.xpi": Case(zipped(xpi), nothing, others={"META-INF/cose.sig": "other signed format"}),
        "macros.docm": Case(zipped(macros), nothing, others={it: "other signed format" for it in list(macros)[1:]}),
    }


def revised(before: bytes, number: int, subfilter: str, extra: bytes = b"") -> bytes:
    """Returns a PDF with one more revision, which has a signature with a hole; the first one has the pages too."""
    objects = {10 + number: b"<< /Type /Sig /Filter /Adobe.PPKLite /SubFilter /%s /ByteRange [%s] /Contents <%s> %s>>" % (
        subfilter.encode(), b"0 9999999997 9999999998 9999999999".ljust(40), b"0" * HOLE, extra)}
    fields = b" ".join(b"%d 0 R" % (100 + it) for it in range(number + 1))
    objects[100 + number] = b"<< /FT /Sig /T (S%d) /V %d 0 R /Type /Annot /Subtype /Widget /Rect [0 0 0 0] >>" % (number, 10 + number)
    objects[1] = b"<< /Type /Catalog /Pages 2 0 R /AcroForm << /Fields [%s] /SigFlags 3 >> >>" % fields
    if not before:
        objects[2] = b"<< /Type /Pages /Kids [3 0 R] /Count 1 >>"
        objects[3] = b"<< /Type /Page /Parent 2 0 R /MediaBox [0 0 200 200] >>"
    octets = bytearray(before or b"%PDF-1.7\n")
    places = {}
    for it, body in sorted(objects.items()):
        places[it] = len(octets)
        octets += b"%d 0 obj\n%s\nendobj\n" % (it, body)
    table = len(octets)
    octets += b"xref\n0 1\n0000000000 65535 f \n" + b"".join(b"%d 1\n%010d 00000 n \n" % it for it in sorted(places.items()))
    previous = re.findall(rb"startxref\n(\d+)", before)
    link = b" /Prev %s" % previous[-1] if previous else b""
    octets += b"trailer\n<< /Size 200 /Root 1 0 R%s >>\nstartxref\n%d\n%%%%EOF\n" % (link, table)
    return bytes(octets)


def filled(octets: bytes, sign, start: int = 0) -> bytes:
    """Returns a PDF whose last hole is filled with what signs the rest of it."""
    octets = bytearray(octets)
    hole = octets.index(b"<" + b"0" * HOLE + b">", start)
    end = hole + HOLE + 2
    places = octets.index(b"/ByteRange [", start) + 12
    octets[places : places + 40] = (b"0 %d %d %d" % (hole, end, len(octets) - end)).ljust(40)
    value = sign(bytes(octets[:hole] + octets[end:])).hex().encode()
    octets[hole + 1 : hole + 1 + len(value)] = value
    return bytes(octets)


def signed_pdf(make, subfilter="adbe.pkcs7.detached", sign=None, before=b"", number=0, extra=b"") -> bytes:
    return filled(revised(before, number, subfilter, extra), sign or make.cms, len(before))


def place_of(octets: bytes, number: int = 0) -> str:
    """Returns how a signature is named, by its number in the file from 0."""
    ranges = re.findall(rb"/ByteRange \[0 (\d+)", octets)
    return f"signature at {int(ranges[number])}"


def in_places(octets: bytes, *states: str) -> Case:
    return Case(octets, "container", {place_of(octets, number): state for number, state in enumerate(states)})


def pdfs(make) -> Dict[str, Case]:
    one = signed_pdf(make)
    two = signed_pdf(make, "ETSI.CAdES.detached", lambda it: make.cms(it, "-cades"), one, 1)
    three = signed_pdf(make, "ETSI.RFC3161", make.token, two, 2)
    sha1 = signed_pdf(make, "adbe.pkcs7.sha1", lambda it: make.cms(hashlib.sha1(it).digest(), "-nodetach"))
    pkcs1 = signed_pdf(make, "adbe.x509.rsa_sha1", lambda _: element(0x04, bytes(128)))
    hole = one.replace(b"/Contents <", b"/Contents (", 1)  # what the ByteRange leaves out is not in hexadecimal digits then
    large = signed_pdf(make, extra=b"/Large (%s) " % (b"x" * (3 << 20)))
    cases = {
        "one.pdf": in_places(one, FITS), "two.pdf": in_places(two, EARLIER, FITS), "three.pdf": in_places(three, EARLIER, EARLIER, FITS),
        "appended.pdf": in_places(one + b"5 0 obj\n<< >>\nendobj\n", EARLIER),
        "padded.pdf": in_places(one + b"\r\n\0", FITS),
        "streamed.pdf": in_places(signed_pdf(make, sign=lambda it: indefinite(make.cms(it))), FITS),
        "inside.pdf": in_places(signed_pdf(make, sign=lambda _: make.cms(b"another", "-nodetach")), INSIDE),
        "sha1.pdf": in_places(sha1, FITS), "large.pdf": in_places(large, FITS),
        "pkcs1.pdf": Case(pkcs1, "container without message", others={place_of(pkcs1): "other signed format"}),
        "hole.pdf": Case(hole, "container without message", others={place_of(hole): "damaged"}),
        "prepared.pdf": Case(revised(b"", 0, "adbe.pkcs7.detached"), "container without message", others={"signature in S0": "damaged"}),
    }
    cases.update(hidden_pdfs(make, one))
    if importlib.util.find_spec("pikepdf"):
        cases.update({f"encrypted {user}.pdf": in_places(encrypted_pdf(make, user), FITS) for user in ("", "user")})
    return cases


def hidden_pdfs(make, one: bytes) -> Dict[str, Case]:
    """Returns PDFs in which something would hide a signature, or let what it covers pass for all."""
    hole, end = (int(it) for it in re.search(rb"/ByteRange \[0 (\d+) (\d+)", one).groups())
    place = place_of(one)
    noted = f"%%/ByteRange [0 {hole} {end} 5]\n".encode()
    head = b"%PDF-1.7\n"
    signature = make.cms(head).hex().encode()
    alone = head + b"<%s>\n1 0 obj << /ByteRange [0 %d %d 0] >>\nanother" % (signature, len(head), len(head) + len(signature) + 2)
    pkcs1 = revised(b"", 0, "adbe.pkcs7.detached").replace(b"10 0 obj\n<< /Type", b"10 0 obj\n<< %/SubFilter/adbe.x509.rsa_sha1\n/Type", 1)
    zeros = one.rindex(b"0" * 64)
    six = one.replace(b"/ByteRange [0 ", b"/ByteRange [0 0 0 ")
    many = one + b"".join(b"%%/ByteRange [0 %d %d %d]\n" % (hole, end, it) for it in range(200))  # more for one hole than are read
    more = {f"{place} to {end + it}": DIFFERS for it in range(99)}
    return {
        "late.pdf": Case(b"\n\n" + one, "container", {f"signature at {hole + 2}": PARTLY}),
        "head alone.pdf": in_places(alone, NO_REVISION),
        "comment.pdf": Case(one + noted, "container", {place: EARLIER, f"{place} to {end + 5}": DIFFERS}),
        "six.pdf": Case(six, "container without message", others={"ByteRange": "damaged"}),
        "pkcs1 in a comment.pdf": in_places(filled(pkcs1, make.cms).replace(b"/MediaBox [0 0 200", b"/MediaBox [0 0 300"), DIFFERS),
        "after.pdf": in_places(one[:zeros] + b"41" * 32 + one[zeros + 64 :], FITS),
        "many.pdf": Case(many, "container", {place: EARLIER, **more}, others={f"{place} to others": "too large"}),
    }


def early_pdfs(make) -> Dict[str, Case]:
    """Returns files that have the mark of a PDF near their beginning, and are none."""
    document = b"%PDF-1.4\n1 0 obj\n<<>>\nendobj\n%%EOF\n"
    attached, pem = make.cms(document, "-nodetach"), make.cms(DOCUMENT, "-nodetach", form="PEM")
    members = {"a.pdf": document, "b.p7m": attached}
    states, others = {"b.p7m": FITS}, {"a.pdf": "container without message"}
    return {
        "a.pdf.p7m": Case(attached, "message", {"": FITS}),
        "a pdf first.tar": Case(tarred(members), "container", states, others=others),
        "a pdf first.zip": Case(zipped(members, zipfile.ZIP_STORED), "container", states, others=others),
        "subject.eml": Case(make.mail("-nodetach").replace(b"Subject: Signed", b"Subject: %PDF-1.4"), "container", {"body": FITS}),
        "about.pem": Case(b"about %PDF-1\n" + pem, "message", {"": FITS}),
    }


def encrypted_pdf(make, user: str) -> bytes:
    import pikepdf
    from pikepdf import Array, Dictionary, Name, String

    pdf, out = pikepdf.new(), io.BytesIO()
    pdf.add_blank_page(page_size=(200, 200))
    places = Array([0, 9999999997, 9999999998, 9999999999])
    signature = Dictionary(Type=Name.Sig, Filter=Name("/Adobe.PPKLite"), SubFilter=Name("/adbe.pkcs7.detached"), ByteRange=places)
    signature.Contents = String(bytes(HOLE // 2))
    signature = pdf.make_indirect(signature)
    pdf.Root.AcroForm = Dictionary(Fields=Array([pdf.make_indirect(Dictionary(FT=Name.Sig, T=String("S"), V=signature))]), SigFlags=3)
    encryption = pikepdf.Encryption(owner="owner", user=user, R=6)
    pdf.save(out, compress_streams=False, object_stream_mode=pikepdf.ObjectStreamMode.disable, encryption=encryption)
    room = re.sub(rb"/ByteRange \[ 0 9999999997 9999999998 9999999999 \]", b"/ByteRange [%s]" % b"".ljust(40), out.getvalue())
    return filled(room, make.cms)


def unzipped(octets: bytes) -> Dict[str, bytes]:
    with zipfile.ZipFile(io.BytesIO(octets)) as file:
        return {it: file.read(it) for it in file.namelist()}


def with_another(octets: bytes, name: str) -> bytes:
    """Returns a zip with one more member of this name, which is the document."""
    whole = io.BytesIO(octets)
    with warnings.catch_warnings():
        warnings.simplefilter("ignore")
        with zipfile.ZipFile(whole, "a") as file:
            file.writestr(name, DOCUMENT)
    return whole.getvalue()


def manifest(signature: str, kind: str, files: Dict[str, bytes]) -> bytes:
    references = "".join(
        f'<asic:DataObjectReference URI="{name}"><ds:DigestMethod Algorithm="{SHA256}"/><ds:DigestValue>'
        f"{base64.b64encode(hashlib.sha256(octets).digest()).decode()}</ds:DigestValue></asic:DataObjectReference>"
        for name, octets in files.items()
    )
    return (
        '<?xml version="1.0" encoding="UTF-8"?>\n<asic:ASiCManifest xmlns:asic="http://uri.etsi.org/02918/v1.2.1#" '
        f'xmlns:ds="http://www.w3.org/2000/09/xmldsig#"><asic:SigReference URI="{signature}" MimeType="{kind}"/>{references}</asic:ASiCManifest>'
    ).encode()


def containers(make) -> Dict[str, Case]:
    data = {"doc.bin": DOCUMENT, "text.txt": TEXT}
    first = manifest("META-INF/signature001.p7s", "application/x-pkcs7-signature", data)
    signed = {**data, "META-INF/ASiCManifest001.xml": first, "META-INF/signature001.p7s": make.cms(first, "-cades")}
    second = manifest("META-INF/timestamp002.tst", "application/vnd.etsi.timestamp-token", signed)
    members = {**signed, "META-INF/ASiCManifest002.xml": second, "META-INF/timestamp002.tst": make.token(second)}
    both = {"META-INF/signature001.p7s": FITS, "META-INF/timestamp002.tst": FITS}
    single = {"doc.bin": DOCUMENT, "META-INF/signature.p7s": make.cms(DOCUMENT, "-cades")}
    doctype = {**members, "META-INF/ASiCManifest001.xml": b"<!DOCTYPE a>" + members["META-INF/ASiCManifest001.xml"]}
    return {
        "s.asics": Case(zipped(single), "container", {"META-INF/signature.p7s": FITS}),
        "t.asics": Case(zipped({"doc.bin": DOCUMENT, "META-INF/timestamp.tst": make.token(DOCUMENT)}), "container", {"META-INF/timestamp.tst": FITS}),
        "e.asice": Case(zipped(members), "container", both),
        "more.asice": Case(zipped({**members, "more.txt": b"more"}), "container", dict.fromkeys(both, PARTLY)),
        "changed.asice": Case(zipped({**members, "doc.bin": DOCUMENT + b"!"}), "container", dict.fromkeys(both, DIFFERS)),
        "gone.asice": Case(zipped({it: members[it] for it in members if it != "doc.bin"}), "container", dict.fromkeys(both, DIFFERS)),
        "doctype.asice": Case(zipped(doctype), "container", {"META-INF/signature001.p7s": NOT_FOUND, "META-INF/timestamp002.tst": DIFFERS}),
        "twice.asice": Case(with_another(zipped(members), "doc.bin"), "container", dict.fromkeys(both, "files of the manifest not compared")),
        "twice.asics": Case(with_another(zipped(single), "doc.bin"), "container", {"META-INF/signature.p7s": NOT_COMPARED}),
        "before.asics": Case(b"before" + zipped(single), "container", {"META-INF/signature.p7s": PARTLY}),
        "after.asics": Case(zipped(single) + b"after", "container", {"META-INF/signature.p7s": PARTLY}),
        "own.asics": Case(zipped({**single, "META-INF/other.pdf": b"2"}), "container", {"META-INF/signature.p7s": PARTLY}),
        **listing(make),
        "two.asics": Case(zipped({**single, "other.bin": b"2"}), "container", {"META-INF/signature.p7s": NOT_FOUND}),
    }


def listing(make) -> Dict[str, Case]:
    """Returns containers whose manifest lists no file, or one by a name that has to be put in order first."""
    signature, name = "META-INF/signature001.p7s", "META-INF/ASiCManifest001.xml"
    none, one = (manifest(signature, "application/x-pkcs7-signature", it) for it in ({}, {"./doc.bin": DOCUMENT}))
    signed = {it: {name: it, signature: make.cms(it)} for it in (none, one)}
    return {
        "none.asice": Case(zipped({"doc.bin": DOCUMENT, **signed[none]}), "container", {signature: NOT_COMPARED}),
        "none but in META-INF.asice": Case(zipped({"META-INF/doc.pdf": DOCUMENT, **signed[none]}), "container", {signature: NOT_COMPARED}),
        "in META-INF.asice": Case(zipped({"META-INF/doc.pdf": DOCUMENT, "doc.bin": DOCUMENT, **signed[one]}), "container", {signature: PARTLY}),
        "steps.asice": Case(zipped({"doc.bin": DOCUMENT, **signed[one]}), "container", {signature: FITS}),
        "steps inside.asice": Case(zipped({"./doc.bin": DOCUMENT, **signed[one]}), "container", {signature: FITS}),
    }


def section(name: str, octets: bytes, algorithm="SHA-256", hashed="sha256") -> bytes:
    return f"Name: {name}\r\n{algorithm}-Digest: {base64.b64encode(hashlib.new(hashed, octets).digest()).decode()}\r\n\r\n".encode()


def made_jar(make, files: Dict[str, bytes], algorithm="SHA-256", hashed="sha256") -> bytes:
    """Returns a JAR that is signed by no tool, so that its digests may be of any algorithm."""
    sections = {name: section(name, octets, algorithm, hashed) for name, octets in files.items()}
    listed = b"Manifest-Version: 1.0\r\n\r\n" + b"".join(sections.values())
    digest = base64.b64encode(hashlib.new(hashed, listed).digest()).decode()
    signature = f"Signature-Version: 1.0\r\n{algorithm}-Digest-Manifest: {digest}\r\n\r\n".encode()
    signature += b"".join(section(name, octets, algorithm, hashed) for name, octets in sections.items())
    return zipped({"META-INF/MANIFEST.MF": listed, "META-INF/A.SF": signature, "META-INF/A.RSA": make.cms(signature), **files})


def made_jars(make) -> Dict[str, Case]:
    block, data = "META-INF/A.RSA", {"doc": DOCUMENT}
    return {
        "sha3.jar": Case(made_jar(make, data, "SHA3-256", "sha3_256"), "container", {block: FITS}),
        "truncated.jar": Case(made_jar(make, data, "SHA-512/256", "sha512_256"), "container", {block: FITS}),
        "unknown.jar": Case(made_jar(make, data, "ROT13", "sha256"), "container", {block: NOT_COMPARED}),
        "nothing.jar": Case(made_jar(make, {}), "container", {block: NOT_COMPARED}),
        "md5.jar": Case(made_jar(make, data, "MD5", "md5"), "container", {block: FITS}),
    }


def changed_manifests(make, members: Dict[str, bytes], block: str) -> Dict[str, Case]:
    """Returns JARs whose manifest is not the one that was signed, though the sections that are signed are."""
    name = "META-INF/MANIFEST.MF"
    signed, added = members[name], section("added.txt", b"1")
    other = {name: b"Manifest-Version: 1.0\r\nMain-Class: a.Other\r\n\r\n", **{it: octets for it, octets in members.items() if it != name}}
    changed = {**members, name: signed.replace(b"\r\n", b"\r\nMain-Class: a.Other\r\n", 1)}
    file = block.replace(".RSA", ".SF")
    without = re.sub(rb"(?m)^[^\r\n]*-Digest-Manifest-Main-Attributes:[^\r\n]*\r\n(?: [^\r\n]*\r\n)*", b"", members[file])
    return {
        "section.jar": Case(zipped({**members, name: signed + added, "added.txt": b"1"}), "container", {block: PARTLY}),
        "main.jar": Case(zipped(changed), "container", {block: DIFFERS}),
        "no main.jar": Case(zipped({**changed, file: without, block: make.cms(without)}), "container", {block: PARTLY}),
        "capitals.jar": Case(zipped({**other, "META-INF/manifest.mf": signed}), "container", {block: NOT_COMPARED}),
    }


def jars(make) -> Dict[str, Case]:
    if not shutil.which("jarsigner"):
        return {}
    make.run("openssl pkcs12 -export -in signer.pem -inkey signer.key -out keys.p12 -name trial -passout pass:secret1")
    plain = {"META-INF/MANIFEST.MF": b"Manifest-Version: 1.0\r\n\r\n", "a/B.class": os.urandom(3000), "r.txt": DOCUMENT, "m" * 100: b"long"}
    (make.folder / "plain.jar").write_bytes(zipped(plain))
    make.run("jarsigner -keystore keys.p12 -storepass secret1 -signedjar signed.jar plain.jar trial")
    make.run("jarsigner -keystore keys.p12 -storepass secret1 -sigfile EXTRA -signedjar twice.jar signed.jar trial")
    signed, twice = ((make.folder / f"{it}.jar").read_bytes() for it in ("signed", "twice"))
    block, members = "META-INF/TRIAL.RSA", unzipped(signed)
    of_mozilla = {block: "META-INF/mozilla.rsa", "META-INF/TRIAL.SF": "META-INF/mozilla.sf", "META-INF/MANIFEST.MF": "META-INF/manifest.mf"}
    return {
        "signed.jar": Case(signed, "container", {block: FITS}),
        "twice.jar": Case(twice, "container", {block: FITS, "META-INF/EXTRA.RSA": FITS}),
        "changed.jar": Case(zipped({**members, "r.txt": DOCUMENT + b"!"}), "container", {block: DIFFERS}),
        "added.jar": Case(zipped({**members, "added.txt": b"1"}), "container", {block: PARTLY}),
        "before.jar": Case(b"dex\n035\0" + bytes(5000) + signed, "container", {block: PARTLY}),
        "after.jar": Case(signed + bytes(500), "container", {block: PARTLY}),
        "nomanifest.jar": Case(zipped({**members, "META-INF/MANIFEST.MF": b"Manifest-Version: 1.0\r\n\r\n"}), "container", {block: DIFFERS}),
        "nosf.jar": Case(zipped({it: members[it] for it in members if not it.endswith(".SF")}), "container", {block: NOT_FOUND}),
        "signed.war": Case(zipped({"WEB-INF/lib/signed.jar": signed, "META-INF/MANIFEST.MF": b""}), "container",
                           {f"WEB-INF/lib/signed.jar!{block}": FITS}, others={"WEB-INF/lib/signed.jar": "container"}),
        "signed.xpi": Case(zipped({of_mozilla.get(it, it): octets for it, octets in members.items()}), "container", {"META-INF/mozilla.rsa": FITS}),
        **changed_manifests(make, members, block), **apks(make),
    }


def apks(make) -> Dict[str, Case]:
    if not shutil.which("apksigner"):
        return {}
    (make.folder / "plain.apk").write_bytes(zipped({"AndroidManifest.xml": b"\x03\0\x08\0" + bytes(60), "classes.dex": os.urandom(2000)}))
    make.run("apksigner sign --ks keys.p12 --ks-pass pass:secret1 --min-sdk-version 18 --v1-signing-enabled true --v2-signing-enabled false"
             " --out signed.apk plain.apk")
    signed = (make.folder / "signed.apk").read_bytes()
    changed = zipped({**unzipped(signed), "classes.dex": b"other"})
    block = next(it for it in unzipped(signed) if it.endswith(".RSA"))
    of_block = {"APK signing block": "other signed format"}
    return {"signed.apk": Case(signed, "container", {block: NO_DIGEST}, others=of_block), "changed.apk": Case(changed, "container", {block: DIFFERS})}


def packed(make) -> Dict[str, Case]:
    der, pdf, mail = make.cms(DOCUMENT), signed_pdf(make), hard_mail(make)
    members = {"a/doc.p7s": der, "a/doc": DOCUMENT, "one.pdf": pdf, "hard.eml": mail, "text.txt": TEXT}
    states = {"a/doc.p7s": FITS, f"one.pdf!{place_of(pdf)}": FITS, "hard.eml!part 2": FITS}
    others = {"a/doc": "not a candidate", "one.pdf": "container", "hard.eml": "container", "text.txt": "text"}
    some = Case(tarred(members), "container", states, others=others)
    nested = {f"deep/inner.zip!{it}": state for it, state in states.items()}
    nested_others = {"deep/inner.zip": "container", **{f"deep/inner.zip!{it}": what for it, what in others.items()}}
    cases = {
        "some.tar": some, "some.zip": some._replace(octets=zipped(members)), "deep.zip": deep(der),
        "stored.zip": some._replace(octets=zipped(members, zipfile.ZIP_STORED)),
        "reversed.tar": some._replace(octets=tarred(dict(reversed(members.items())))),
        "nested.tar": Case(tarred({"deep/inner.zip": zipped(members)}), "container", nested, others=nested_others),
        "steps.zip": Case(zipped({"./doc": DOCUMENT, "./doc.p7s": der}), "container", {"./doc.p7s": FITS}, others={"./doc": "not a candidate"}),
    }
    packings = {"gz": gzip.compress, "xz": lzma.compress, "bz2": bz2.compress}
    if importlib.util.find_spec("zstandard"):
        packings["zst"] = importlib.import_module("zstandard").ZstdCompressor().compress
    for ending, pack in packings.items():
        cases[f"some.tar.{ending}"] = some._replace(octets=pack(some.octets))
        cases[f"{ending}/doc.p7s.{ending}"] = Case(pack(der), "message", {"": FITS}, {"doc": DOCUMENT})
        cases[f"one.pdf.{ending}"] = Case(pack(pdf), "container", {place_of(pdf): FITS})
    return cases


def long_members(make) -> Dict[str, Case]:
    """Returns packed tars of a member that is not unpacked at once."""
    long = hashlib.shake_128(b"long").digest(300_000)
    members = {"long": long, "long.p7s": make.cms(long)}
    wanted = Case(b"", "container", {"long.p7s": FITS}, others={"long": "not a candidate"})
    return {f"long.tar.{ending}": wanted._replace(octets=tarred(members, f"w:{ending}")) for ending in ("gz", "bz2", "xz")}


def cut_tars(make) -> Dict[str, Case]:
    """Returns tars that end too early, or have two members of one name: a message in them is found all the same."""
    der = make.cms(DOCUMENT)
    before, after = tarred({"doc": DOCUMENT, "doc.p7s": der, "x": b"x" * 600}), tarred({"doc.p7s": der, "x": b"x" * 600, "doc": DOCUMENT})
    others = {"doc": "not a candidate"}
    twice, back = {"doc": "text", "doc#2": "not a candidate"}, {"doc": "not a candidate", "doc#2": "text"}
    return {
        "before.tar": Case(before[: 9 * 512 + 100], "damaged", {"doc.p7s": FITS}, others={**others, "x": "damaged"}),
        "after.tar": Case(after[: 5 * 512 + 100], "damaged", {"doc.p7s": NOT_FOUND}, others={"x": "damaged"}),
        "twice.tar": Case(end_to_end(make, b"1", DOCUMENT), "container", {"doc.p7s": DIFFERS, "doc.p7s#2": FITS}, others=twice),
        "twice otherwise.tar": Case(end_to_end(make, DOCUMENT, b"1"), "container", {"doc.p7s": FITS, "doc.p7s#2": DIFFERS}, others=back),
        **places(make),
    }


def places(make) -> Dict[str, Case]:
    """Returns files with members that would have the place of another one: none takes the place of another."""
    changed, other = make.cms(b"another"), make.cms(TEXT, "-nodetach")
    inner = zipped({"doc.p7s": changed, "doc": DOCUMENT})
    states = {"x.zip!doc.p7s": DIFFERS, r"x.zip\x21doc.p7s": FITS}
    others = {"x.zip": "container", "x.zip!doc": "not a candidate"}
    named = with_another(with_another(zipped({"doc.p7s": changed, "doc": DOCUMENT, "doc#2": TEXT}), "doc"), "doc")
    return {
        "mark.zip": Case(zipped({"x.zip": inner, "x.zip!doc.p7s": other}), "container", states, others=others),
        "mark first.zip": Case(zipped({"x.zip!doc.p7s": other, "x.zip": inner}), "container", states, others=others),
        "thrice.zip": Case(named, "container", {"doc.p7s": DIFFERS},
                           others={"doc": "not a candidate", "doc#2": "text", "doc#3": "not a candidate", "doc#4": "not a candidate"}),
        "unclear.zip": Case(with_another(zipped({"doc.p7s": make.cms(DOCUMENT), "doc": b"another"}), "doc"), "container", {"doc.p7s": NOT_COMPARED},
                            others={"doc": "text", "doc#2": "not a candidate"}),
    }


def end_to_end(make, first: bytes, last: bytes) -> bytes:
    """Returns a tar that has a document, what signs it, and another document of the same name."""
    return tarred([("doc", first), ("doc.p7s", make.cms(DOCUMENT)), ("doc", last)])


def deep(der: bytes) -> Case:
    """Returns a zip in which zips are nested deeper than they are opened, with a message at each depth."""
    octets, states, others = zipped({"x.p7s": der}), {}, {}
    for _ in range(6):
        octets = zipped({"in.zip": octets, "x.p7s": der})
    for depth in range(4):
        states["in.zip!" * depth + "x.p7s"] = NOT_FOUND
        others["!".join(["in.zip"] * (depth + 1))] = "container" if depth < 3 else "too large"
    return Case(octets, "container", states, others=others)


# ---- what is in unsigned attributes

def appended(octets: bytes, depth: int, more: bytes) -> bytes:
    """Returns an element to which more is appended: at its end, or so many deep, each time in the last element of the one around it."""
    whole = element_at(octets)
    if depth:
        more = appended(whole.members.pop().octets, depth - 1, more)
    return element(whole.identifier, *([one.octets for one in whole.members] if depth else [whole.contents]), more)


def last_of(octets: bytes, depth: int) -> bytes:
    for _ in range(depth):
        octets = element_at(octets).members[-1].octets
    return octets


SIGNER_INFO, SIGNER_INFOS = 4, 3  # how deep these are in a ContentInfo
TIME_STAMP, ARCHIVE_TIME_STAMP, COUNTERSIGNATURE = "060b2a864886f70d010910020e", "060b2a864886f70d010910021b", "06092a864886f70d010906"


def with_unsigned(der: bytes, attributes: Dict[str, bytes]) -> bytes:
    """Returns a message whose last signer has unsigned attributes, each with one value."""
    whole = b"".join(element(0x30, bytes.fromhex(oid) + element(0x31, value)) for oid, value in attributes.items())
    return appended(der, SIGNER_INFO, element(0xA1, whole))


def with_signed(der: bytes, attribute: str, *values: bytes) -> bytes:
    """Returns a message whose last signer has one more signed attribute, so that its signature is wrong."""
    one = element(0x30, oid(attribute), element(0x31, *sorted(values)))

    def added(octets: bytes, depth: int) -> bytes:
        whole = element_at(octets)
        if depth:
            *before, last = (it.octets for it in whole.members)
            return element(whole.identifier, *before, added(last, depth - 1))
        return element(whole.identifier, *(_with_member(it, one) if it.identifier == 0xA0 else it.octets for it in whole.members))

    return added(der, SIGNER_INFO)


def _with_member(members, one: bytes) -> bytes:
    return element(members.identifier, *sorted([*(it.octets for it in members.members), one]))


def write(folder: Path, name: str, case: Case) -> Path:
    path = folder / name
    write_files(path.parent, {path.name: case.octets, **case.beside})
    return path


def said_of(archive, path: Path):
    """Returns what is said of each place in a file: its class, or of a message its state; and all that is known of it."""
    facts = {it.where: archive.judging.judged(it) for it in archive.files.found_in_path(str(path))}
    return {where: it.state.value if it.state else it.what.value for where, it in facts.items()}, facts


def said_in(archive, folder: Path, name: str, octets: bytes):
    return said_of(archive, write(folder, name, Case(octets, "")))


def wanted_of(case: Case) -> Dict[str, str]:
    own = {} if "" in case.states else {"": case.what}
    return {**own, **case.states, **case.others}


# ---- hostile files

def hostile(times: int) -> Dict[str, bytes]:
    """Returns files that are made to take long, by the number of what there is many times."""
    many = 20_000 * times
    ranges = b"".join(b"/ByteRange [0 %d %d 1]\n" % (9 + it, 11 + it) for it in range(many))
    header = b"From: a\nContent-Type: multipart/mixed; boundary=b\n\n"
    values = b"".join(b"14 k%07d=v\n" % it for it in range(many))  # that are for all members of a tar
    about = tarfile.TarInfo("values")
    about.type, about.size = tarfile.XGLTYPE, len(values)
    members = tarfile.TarInfo("a").tobuf(tarfile.USTAR_FORMAT) * (many // 10)
    signatures = range(many // 5)  # and so many files that each could be compared with
    files = {f"{it}": b"" for it in signatures}
    blocks = {f"META-INF/{it}.{ending}": b"" for it in signatures for ending in ("RSA", "SF")}
    return {
        "headers.eml": b"From: a\n" + b"Content-Type: text/plain\n" * many + b"\ntext",
        "folded.eml": b"From: a\nContent-Type: text/plain;\n" + b" a=b;\n" * many + b"\ntext",
        "boundaries.eml": header + b"--b\n\n" * many, "near.eml": header + (b"--b" + b" " * 40 + b"x\n") * many,
        "nested.eml": b"".join(b"Content-Type: multipart/mixed; boundary=b%d\n\n--b%d\n" % (it, it) for it in range(many // 100)),
        "lines.mbox": b"From a\n\n" * many, "quoted.mbox": b"From a\n" + b">From b\n" * many, "blanks.p7s": b" " * 20 * many + b"M",
        "begins.pem": b"-----BEGIN CMS-----\n" * many,
        "ends.pem": b"-----BEGIN CMS-----\n" + b"-----END CM\n" * many,
        "ranges.pdf": b"%PDF-1.7\n" + ranges,
        "outside.pdf": b"%PDF-1.7\n" + b"/ByteRange [0 9 99999999999 1]\n" * many,
        "cut.pdf": b"%PDF-1.7\n" + b"/ByteRange [ 0" * many,
        "blank.pdf": b"%PDF-1.7\n" + (b"/ByteRange" + b" " * 50) * (many // 4),
        "names.zip": zipped({f"{it}.txt": b"" for it in range(many // 10)}),
        "folded.jar": zipped({"META-INF/A.SF": b"a: b\n" + b" c\n" * many, "META-INF/A.RSA": b"0", "META-INF/MANIFEST.MF": b"\n" * many}),
        "signatures.asice": zipped({**{f"META-INF/signature{it}.p7s": b"" for it in signatures}, **files}),
        "blocks.jar": zipped({"META-INF/MANIFEST.MF": b"Manifest-Version: 1.0\n\n", **blocks, **files}),
        "values.tar.gz": gzip.compress(about.tobuf(tarfile.USTAR_FORMAT) + values + bytes(-len(values) % 512) + members + bytes(1024)),
        "manifest.asice": zipped({"META-INF/ASiCManifest.xml": b"<a>" * many, "META-INF/signature.p7s": b"0", "a": b""}),
    }
