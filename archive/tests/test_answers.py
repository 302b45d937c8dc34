"""Asks the command `cms-canon-archive` of messages and stores that are out of the ordinary, and compares what it says with what was made.

A lying worker has stored names that are none, and names that lead out of the archive. Signers sign the content itself, without signed attributes.
Paths are longer than the kernel takes, and files are FIFOs or encrypted. Each message is made by openssl.
"""

import base64
import gzip
import hashlib
import io
import json
import os
import re
import sqlite3
import struct
import time
import zipfile
from contextlib import chdir
from pathlib import Path

import pytest
from cases import DIFFERS, DOCUMENT, FITS, NO_DIGEST, bare_token, made_jar, place_of, said_in, signed_pdf
from counting import count_if, count_same, needs, needs_server
from making import tarred, write_files, zipped
from places import DATA, TOP
from running import SETTLED, asked, command, command_says, lines_of, ran, store_of

pytestmark = [pytest.mark.archive, needs("click", "tqdm", "sqlalchemy", "cryptography", tools=["openssl"])]
NAMES_OF_A_LIAR = ("a\\x00", "a\\xzz", "..\\x2f..\\x2fsecret.p7m", "..", "a\\x2e")


def test_liar(home, make):
    """Names in a store that no file has are said, and what lies outside is not copied."""
    write_files(home, {"secret.p7m": make.cms(b"secret", "-nodetach")})
    folder = write_files(home / "a" / "b", {"one.p7m": make.cms(DOCUMENT, "-nodetach"), "two.p7m": make.cms(DOCUMENT * 2, "-nodetach")})
    command(home, "index", folder, "--store", "lies.db")
    with sqlite3.connect(home / "lies.db") as store:
        columns = [it[1] for it in store.execute("PRAGMA table_info(places)")]
        others = ", ".join(f'"{it}"' for it in columns if it != "file")
        for name in NAMES_OF_A_LIAR:
            store.execute(f"INSERT INTO places (file, {others}) SELECT ?, {others} FROM places WHERE file = 'one.p7m'", (name,))
    lines = lines_of(home, "export", "--to", home / "lies copies", "--store", "lies.db", status=1)
    said = {Path(it["file"]).name if "secret" not in it["file"] else "secret": it["why_not"] for it in lines}
    wanted = {"one.p7m": None, "two.p7m": None, "secret": "no path is named so"}
    wanted.update({Path(name).name: "no path is named so" for name in NAMES_OF_A_LIAR if "secret" not in name})
    count_same("export of a store with names that are none", said, wanted)
    copies = [it for it in (home / "lies copies").rglob("*") if it.is_file()]
    count_same("how many copies there are of it", len(copies), 2)


def test_verdicts(home, make):
    """Without signed attributes, the verdict of a signature decides the state."""
    right, wrong = make.cms(DOCUMENT, "-noattr"), make.cms(b"other", "-noattr")
    inside, token = make.cms(DOCUMENT, "-noattr", "-nodetach"), bare_token(make, DOCUMENT)
    broken = bytearray(inside)
    broken[broken.index(DOCUMENT[:20])] ^= 1
    members = {
        "right.p7s": right, "right": DOCUMENT, "wrong.p7s": wrong, "wrong": DOCUMENT, "inside.p7m": inside, "broken.p7m": bytes(broken),
        "token.tst": token, "token": DOCUMENT, "alone.p7s": right,
    }
    folder = write_files(home / "verdicts", members)
    plain = {it: NO_DIGEST for it in ("right.p7s", "wrong.p7s", "inside.p7m", "broken.p7m", "token.tst")}
    judged = {"right.p7s": FITS, "wrong.p7s": DIFFERS, "inside.p7m": FITS, "broken.p7m": DIFFERS, "token.tst": FITS}
    alone = {"alone.p7s": "content not found"}
    for words, states, differ in (((), plain, None), (("--verify",), judged, "2")):
        command(home, "index", folder, "--store", "verdicts.db", *words)
        came = {Path(it.path).name: it.state for it in store_of(home / "verdicts.db") if it.state and it.member == ""}
        count_same(f"states {' '.join(words)}", came, {**states, **alone})
        status = 1 if differ else 3
        lines = lines_of(home, "check", "--store", "verdicts.db", status=status)
        differing = sorted(Path(it["file"]).name for it in lines if it["state"] == DIFFERS)
        count_same(f"check {' '.join(words)}", differing, ["broken.p7m", "wrong.p7s"] if differ else [])
    command(home, "report", "--html", home / "verdicts.html", "--store", "verdicts.db")
    page = (home / "verdicts.html").read_text()
    count_if("the report of verdicts", "wrong.p7s" in page and "broken.p7m" in page, "does not name those that do not fit")


def test_long_path(home, make):
    """A folder whose path is longer than the kernel takes has a row, also if `index` is called again."""
    top = home / "long"
    write_files(top, {"one.p7m": make.cms(DOCUMENT, "-nodetach")})
    with chdir(top):
        for _ in range(25):
            os.mkdir("d" * 200)
            os.chdir("d" * 200)
        Path("deep.p7m").write_bytes(make.cms(b"deep", "-nodetach"))
    for words in ((), ()):
        command(home, "index", top, "--store", "long.db", "--jobs", 1, *words, status=3)
        rows = [(it.what, it.error) for it in store_of(home / "long.db") if it.what == "unreadable"]
        count_same("a folder whose path is too long", rows, [("unreadable", "File name too long")])
    refusals = lines_of(home, "refusals", "--store", "long.db")
    count_same("refusals of it", [it["error"] for it in refusals], ["File name too long"])


def test_same(home, make):
    """`same` reads a file as `show` does, whatever keeps the message; a FIFO is said to be one."""
    der, pem = make.cms(DOCUMENT, "-nodetach"), make.cms(DOCUMENT, "-nodetach", form="PEM")
    folder = write_files(home / "same", {"one.p7m": der})
    others = write_files(home / "others", {"one.pem": pem, "one.zip": zipped({"in.p7m": der}), "none.txt": b"text", "refused.p7m": b"0\0"})
    command(home, "index", folder, "--store", "same.db")
    stored = [it["file"] for it in lines_of(home, "same", folder / "one.p7m", "--store", "same.db")]
    for name in ("one.pem", "one.zip"):
        found = [it["file"] for it in lines_of(home, "same", others / name, "--store", "same.db")]
        count_same(f"same {name}", (found, len(found)), (stored, 1))
    came = ran(home, "same", "-", "--store", "same.db", "--json", input=pem.decode(), text=True).stdout
    count_if("same -, of PEM", "one.p7m" in came, came)
    said = command_says(home, "same", others / "none.txt", "--store", "same.db", status=1)
    count_if("same of a text", "there is no message" in said, said)
    os.mkfifo(others / "fifo")
    for words in (("show", others / "fifo"), ("same", others / "fifo", "--store", "same.db"), ("index", others / "fifo", "--store", "same.db")):
        said = command_says(home, *words, status=1)
        count_if(f"a FIFO, {words[0]}", "it is a FIFO" in said, said)


def test_encrypted(home, archive):
    """An encrypted member of a zip is said to be one, without a name as Python writes it."""
    octets = bytearray(zipped({"it's \u00e9.p7m": b"x" * 20}, zipfile.ZIP_STORED))
    for mark, place in ((b"PK\3\4", 6), (b"PK\1\2", 8)):
        octets[octets.index(mark) + place] |= 1
    facts = said_in(archive, home, "a.zip", bytes(octets))[1]
    (one,) = [it for where, it in facts.items() if where]
    count_same("an encrypted member", (one.what.value, one.note), ("unreadable", "it is encrypted"))


def test_ends(home, archive):
    """A zip that ends a picture in a zip is named if the picture has at most 1 MiB: a larger one is said not to be read to its end."""
    picture = b"\xff\xd8\xff\xe0" + bytes(range(256))
    for size, wanted in ((1 << 10, ("zip after something else", "")), (2 << 20, ("file", "it is so large that its end was not looked at"))):
        octets = picture.ljust(size, b"\xaa") + zipped({"a": b"x"})
        path = write_files(home / "ends", {f"{size}.zip": zipped({"a.jpg": octets}, zipfile.ZIP_STORED)}) / f"{size}.zip"
        said = [(it.form, it.note) for it in archive.files.found_in_path(str(path)) if it.where]
        count_same(f"a zip that ends a picture of {size:,} octets", said, [wanted])


def test_weak(home, make):
    """`algorithms --weak` counts imprints, manifests and the signatures of certificates, and not only signers."""
    make.run("openssl req -x509 -newkey rsa:2048 -sha1 -nodes -keyout old.key -out old.pem -subj /CN=Old -days 1")
    by_old = make.run("openssl cms -sign -binary -nodetach -signer old.pem -inkey old.key -md sha256 -outform DER", octets=DOCUMENT)
    (make.folder / "query").write_bytes(make.run(f"openssl ts -query -digest {hashlib.sha1(DOCUMENT).hexdigest()} -sha1 -cert"))
    settings = (DATA / "time-stamping.cnf").read_text()
    write_files(make.folder, {"sha1.cnf": re.sub(r"(?m)^(digests *=.*)$", r"\1, sha1", settings).encode()})
    stamp = make.run("openssl ts -reply -queryfile query -token_out -config sha1.cnf")
    members = {"old.p7m": by_old, "doc.tst": stamp, "doc": DOCUMENT, "md5.jar": made_jar(make, {"doc": DOCUMENT}, "MD5", "md5"),
               "good.jar": made_jar(make, {"doc": DOCUMENT})}
    command(home, "index", write_files(home / "weak", members), "--store", "weak.db")
    lines = lines_of(home, "algorithms", "--weak", "--store", "weak.db")
    came = sorted((it["of"], it["digest"], it["signature"], Path(it["file"]).name.partition("!")[0]) for it in lines)
    wanted = [("certificate", None, "rsa-sha1", "old.p7m"), ("manifest", "md5", None, "META-INF"), ("time-stamp", "sha1", None, "doc.tst")]
    count_same("what is weak", [(it[0], it[1], it[2]) for it in came], [it[:3] for it in wanted])
    counts = {(it["of"], it["digest"], it["signature"]): (it["signers"], it["is_weak"]) for it in lines_of(home, "algorithms", "--store", "weak.db")}
    weak_ones = {key: value for key, value in counts.items() if value[1]}
    count_same("how much of it", weak_ones, {it[:3]: (1, True) for it in wanted})


OLE = b"\xd0\xcf\x11\xe0\xa1\xb1\x1a\xe1" + bytes(600)
TIME_STAMPED = bytes.fromhex("301a060b2a864886f70d010910011fa00b3009020101a0043002a000")
EVIDENCE = bytes.fromhex("3020020101300d300b0609608648016503040201a10c") + bytes(12)


def late_header() -> bytes:
    """Returns a program for Windows whose header, which says that it is signed, comes late."""
    octets = bytearray(8000)
    octets[:2], octets[60:64], octets[5000:5004], octets[5024:5026] = b"MZ", struct.pack("<I", 5000), b"PE\0\0", b"\x0b\2"
    octets[5168:5176] = struct.pack("<II", 6000, 1000)
    return bytes(octets)


NOT_READ = {  # the class and the form of files
    "xades.xml": (b'<S xmlns="http://www.w3.org/2000/09/xmldsig#" xmlns:x="http://uri.etsi.org/01903/v1.3.2#"><SignatureValue/></S>',
                  "other signed format", "XAdES"),
    "a.ers": (EVIDENCE, "other signed format", "evidence record"), "a.tsd": (TIME_STAMPED, "other signed format", "TimeStampedData"),
    "ers.xml": (b'<EvidenceRecord xmlns="urn:ietf:params:xml:ns:ers"/>', "other signed format", "evidence record"),
    "a.sig": (b"\x88\x5e\4" + bytes(90), "other signed format", "OpenPGP"),
    "late.exe": (late_header(), "other signed format", "Authenticode"),
    "macho": (b"\xcf\xfa\xed\xfe" + bytes(5000) + b"\xfa\xde\x0c\xc0", "other signed format", "signature of a program of Apple"),
    "a.ko": (b"\x7fELF" + bytes(5000) + b"~Module signature appended~\n", "other signed format", "signature of a kernel module"),
    "a.json": (b'{"payload":"e30","signatures":[{"protected":"e30","signature":"AA"}]}', "other signed format", "JWS"),
    "a.jws": (b"eyJhbGciOiJFUzI1NiJ9..c2lnbmF0dXJl\n", "other signed format", "JWS"),
    "a.minisig": (b"untrusted comment: signature\nRWQf\n", "other signed format", "minisign or signify"),
    **{name: (octets, "not looked into", form) for name, (octets, form) in {
        "a.7z": (b"7z\xbc\xaf\x27\x1c" + bytes(30), "7z"), "a.rar": (b"Rar!\x1a\x07\x01\0" + bytes(30), "RAR"),
        "a.cab": (b"MSCF" + bytes(60), "cab"), "a.deb": (b"!<arch>\ndebian-binary   0", "deb"),
        "a.msi": (OLE, "MSI"), "a.msg": (OLE, "Outlook message"), "a.doc": (OLE, "OLE document"),
        "a.exe": (b"MZ" + bytes(70_000) + zipped({"a": b"b"}), "self-extracting zip"),
        "7z.exe": (b"MZ" + bytes(70_000) + b"7z\xbc\xaf\x27\x1c\0\4" + bytes(30), "self-extracting 7z"),
        "cab.exe": (b"MZ" + bytes(70_000) + b"MSCF".ljust(24, b"\0") + b"\3\1", "self-extracting cab"),
        "long.run": (b"#!/bin/sh\n" + b"# a text\n" * 1000 + zipped({"a": b"b"}), "self-extracting zip"),
        "packed.run": (b"#!/bin/sh\n" + b"# a text\n" * 1000 + gzip.compress(b"a"), "self-extracting archive"),
        "short.run": (b"#!/bin/sh\n" + gzip.compress(b"a"), "self-extracting archive"),
        "zip.jpg": (b"\xff\xd8\xff\xe0" + bytes(70_000) + zipped({"a": b"b"}), "zip after something else"),
        "zip.cmd": (b"java -jar %0\r\n" + zipped({"a": b"b"}), "zip after something else"),
        "a.cpio": (b"070701" + b"0" * 104 + b"a", "cpio"), "odc.cpio": (b"070707" + b"0" * 70 + b"a", "cpio"),
        "bin.cpio": (b"\xc7\x71" + bytes(18) + b"\2\0" + bytes(9), "cpio"),
        "a.iso": (bytes(0x8001) + b"CD001\1" + bytes(9000), "ISO 9660 or UDF"), "udf.iso": (bytes(0x8001) + b"BEA01", "ISO 9660 or UDF"),
        "a.dmg": (bytes(9000) + b"koly" + bytes(508), "disk image of Apple"), "a.xar": (b"xar!" + bytes(40), "xar"),
        "a.rpm": (b"\xed\xab\xee\xdb\3" + bytes(90), "RPM"), "a.Z": (b"\x1f\x9d\x90a", "compress"), "a.lz": (b"LZIP\1\x0c" + bytes(9), "lzip"),
        "a.lz4": (b"\x04\x22\x4d\x18d" + bytes(9), "LZ4"), "a.lzma": (b"\x5d\0\0\x80\0" + b"\xff" * 8 + bytes(9), "LZMA"),
        "known.lzma": (b"\x5d\0\0\x80\0\x12" + bytes(17), "LZMA"), "a.lzo": (b"\x89LZO\0\r\n\x1a\n", "lzop"),
        "a.lha": (b"\x20\0-lh5-" + bytes(30), "LHA"), "a.warc": (b"WARC/1.0\r\nWARC-Type: warcinfo\r\n", "WARC"),
        "a.fdf": (b"%FDF-1.2\n1 0 obj\n<< /FDF << >> >>\n", "FDF"), "winmail.dat": (b"\x78\x9f\x3e\x22" + bytes(50), "TNEF"),
        "a.pst": (b"!BDN" + bytes(600), "Outlook folder"), "a.emlx": (b"27\nFrom: a@example.org\n\ntext\n", "emlx"),
        "line first.eml": (b"a line\nFrom: a\nContent-Type: Multipart/Signed; boundary=b\n\n", "mail after something else"),
    }.items()},
}


def with_block(octets: bytes) -> bytes:
    """Returns a zip with a block of APK, of scheme 2, before its list of members."""
    at = octets.rindex(b"PK\1\2") if octets.count(b"PK\1\2") == 1 else octets.index(b"PK\1\2")
    pair = struct.pack("<QI", 8, 0x7109871A) + bytes(4)
    block = struct.pack("<Q", len(pair) + 24) + pair + struct.pack("<Q", len(pair) + 24) + b"APK Sig Block 42"
    end = bytearray(octets[at:])
    place = end.rindex(b"PK\5\6") + 16
    end[place : place + 4] = struct.pack("<I", at + len(block))
    return octets[:at] + block + bytes(end)


def test_not_read(home):
    """What is not looked into has a row, is listed and counted, by itself and in a zip and a tar."""
    files = {name: octets for name, (octets, _, _) in NOT_READ.items()}
    apk = with_block(zipped({"AndroidManifest.xml": b"\3\0\x08\0", "classes.dex": b"dex"}))
    packed = {"all.zip": zipped(files), "all.tar": tarred(files), "v2.apk": apk}
    command(home, "index", write_files(home / "not read", {**files, **packed}), "--store", "others.db")
    lines = lines_of(home, "others", "--store", "others.db")
    came = {it["file"].partition("/not read/")[2]: (it["what"], it["form"]) for it in lines}
    wanted = {name: (what, form) for name, (_, what, form) in NOT_READ.items()}
    wanted.update({f"all.{kind}!{name}": it for kind in ("zip", "tar") for name, it in list(wanted.items()) if "!" not in name})
    count_same("what is not looked into", came, {**wanted, "v2.apk!APK signing block": ("other signed format", "APK signing block")})
    count_same("the scheme of an APK", [it["note"] for it in lines if "v2.apk" in it["file"]], ["scheme 2"])
    command(home, "report", "--html", home / "others.html", "--store", "others.db")
    count_if("the report of it", "not looked into" in (home / "others.html").read_text(), "no count")


OLD_STORE_SAYS = {("/f/a.zip", "r.p7m"): "fits", ("/f/doc.p7s", ""): "fits", ("/f/doc.tst", ""): "fits"}
DEGRADED = (  # has a store on PostgreSQL the tables of 0.17.0
    "DROP VIEW files", "DROP VIEW signers", "DROP VIEW times", "ALTER TABLE place_signers DROP COLUMN certificate",
    "ALTER TABLE places DROP CONSTRAINT places_what", "ALTER TABLE places ADD CONSTRAINT places_what CHECK (what <> 'not looked into')",
    "UPDATE about SET value = '3' WHERE name = 'schema'",
)


@pytest.fixture
def files(home, make):
    """A folder with a document that is signed."""
    return write_files(home / "migrated", {"doc": DOCUMENT, "doc.p7s": make.cms(DOCUMENT)})


def test_old_store(home, files):
    """A store of 0.17.0 gets the tables of now and keeps its rows; what it did not know is stored in it from then on."""
    with sqlite3.connect(home / "old.db") as store:
        store.executescript((DATA / "store-0.17.0.sql").read_text())
    lines_of(home, "check", "--store", "old.db", status=3)
    came = {(it.path, it.member): it.state for it in store_of(home / "old.db") if it.state}
    count_same("a store of 0.17.0 that is asked", came, OLD_STORE_SAYS)
    judge_migrated(home, files, home / "old.db")


@needs_server
def test_old_store_on_postgresql(home, files, server):
    url = server.make_database("older")
    command(home, "index", files, "--store", url)
    for statement in DEGRADED:
        asked(url, statement)
    judge_migrated(home, files, url)


def judge_migrated(home, files, store):
    write_files(files, {"a.7z": NOT_READ["a.7z"][0]})
    command(home, "index", files, "--store", store, "--anew")
    where = str(store).partition(":")[0] if "://" in str(store) else "sqlite"
    came = {Path(it["file"]).name: it["form"] for it in lines_of(home, "others", "--store", store)}
    count_same(f"what a store of 0.17.0 did not know, {where}", came, {"a.7z": "7z"})
    signed = [it["certificate"] for it in lines_of(home, "signers", "--store", store) if "/migrated/" in it["file"]]
    count_same(f"the algorithms of certificates in it, {where}", signed, ["rsa-sha256"])


def test_signed_content(home, archive, make):
    """What is signed is looked into as any container is: a signed PDF, what is signed again, a signed mail in an opaque one, a zip."""
    pdf = signed_pdf(make)
    of_pdf = make.cms(pdf, "-nodetach")
    twice = make.cms(of_pdf, "-nodetach")
    opaque = make.run("openssl cms -sign -nodetach -signer signer.pem -inkey signer.key -md sha256 -from a@example.org", octets=make.mail())
    wrong = make.cms(pdf.replace(b"/MediaBox [0 0 200", b"/MediaBox [0 0 201"), "-nodetach")
    place, deep = place_of(pdf), make.cms(b"text", "-nodetach")
    for _ in range(8):
        deep = make.cms(deep, "-nodetach")
    zipped_in = make.cms(zipped({"doc.p7s": make.cms(DOCUMENT), "doc": DOCUMENT}), "-nodetach")
    cases = {
        "doc.pdf.p7m": (of_pdf, {"": FITS, "signed content": "container", f"signed content!{place}": FITS}),
        "wrong.pdf.p7m": (wrong, {"": FITS, "signed content": "container", f"signed content!{place}": DIFFERS}),
        "doc.pdf.p7m.p7m": (twice, {"": FITS, "signed content": FITS, "signed content!signed content": "container",
                                    f"signed content!signed content!{place}": FITS}),
        "pem/doc.pdf.p7m": (make.cms(pdf, "-nodetach", form="PEM"), {"": FITS, "signed content": "container", f"signed content!{place}": FITS}),
        "opaque.eml": (opaque, {"": "container", "body": FITS, "body!signed content": "container", "body!signed content!part 2": FITS}),
        "zip.p7m": (zipped_in, {"": FITS, "signed content": "container", "signed content!doc.p7s": FITS}),
        "in.zip": (zipped({"doc.pdf.p7m": of_pdf}), {
            "": "container", "doc.pdf.p7m": FITS, "doc.pdf.p7m!signed content": "container", f"doc.pdf.p7m!signed content!{place}": FITS}),
        "text.p7m": (make.cms(b"text", "-nodetach"), {"": FITS}),
        "certificate.p7m": (make.cms(make.run("openssl x509 -in signer.pem -outform DER"), "-nodetach"), {"": FITS}),
        "deep.p7m": (deep, {"!".join(["signed content"] * depth): FITS if depth < 5 else "too large" for depth in range(6)}),
    }
    for name, (octets, wanted) in cases.items():
        count_same(f"what is in {name}", said_in(archive, home, name, octets)[0], wanted)


def test_release(home, archive, make):
    """Files are read again only if their rows would be others: not for a release alone. A release with the same number stores the same rows."""
    members = {"doc": DOCUMENT, "doc.p7s": make.cms(DOCUMENT), "one.pdf": signed_pdf(make), "a.zip": zipped({"doc.p7s": make.cms(DOCUMENT), "doc": DOCUMENT}),
               "mail.eml": make.mail(), "doc.tst": make.token(DOCUMENT), "md5.jar": made_jar(make, {"doc": DOCUMENT}, "MD5", "md5"), "cut.p7s": b"0\x82",
               "version.zip": zipped({"doc": DOCUMENT, "doc.p7s": make.cms(DOCUMENT), "doc;1": b"other"})}
    folder = write_files(home / "released", members)
    time.sleep(SETTLED)
    command(home, "index", folder, "--store", "release.db")
    for statement, wanted in (("library = '0.0.1'", 0), (f"reader = {archive.reading.READER - 1}", len(members))):
        asked(home / "release.db", f"UPDATE places SET {statement}")
        said = command_says(home, "index", folder, "--store", "release.db")
        count_if(f"rows with {statement}", said.startswith(f"{wanted} files read, {len(members) - wanted} unchanged"), said)
    released = home / "wheels"
    for wheel in (it for it in (TOP / "dist" / "packages").glob("cms_canon*.whl") if "aarch64" not in it.name):
        with zipfile.ZipFile(wheel) as packed:
            packed.extractall(released)
    rows = [[json.loads(line) for line in ran(at, "rows", folder).stdout.splitlines()] for at in (released, home)]
    for row in (it for some in rows for it in some):
        row.pop("library", None)
    readers = [{row["reader"] for row in some if "reader" in row} for some in rows]
    count_if("a release with other rows has another number", rows[0] == rows[1] or max(readers[0]) < min(readers[1]), readers)


def test_progress(home, make):
    """Times that cannot be, and notes that are long, are not shown as a worker that lies has them."""
    folder = write_files(home / "progress", {"one.p7m": make.cms(DOCUMENT, "-nodetach")})
    command(home, "index", folder, "--store", "progress.db")
    asked(home / "progress.db", "UPDATE workers SET ended = NULL, seen = -1000000000000, began = -5, note = NULL")
    said = command(home, "progress", "--store", "progress.db")
    count_if("times before 1970", "seen at an unknown time" in said and "1000000000000" not in said, said)
    (line,) = lines_of(home, "progress", "--store", "progress.db")
    count_same("these times in JSON", {(it["seen"], it["began"]) for it in line["workers"]}, {(None, None)})
    asked(home / "progress.db", f"UPDATE workers SET note = '{'x' * 1_000_000}'")
    for words in ((), ("--json",)):
        said = command(home, "progress", "--store", "progress.db", *words)
        count_if(f"a long note {' '.join(words)}", "xxx" in said and len(said) < 5000, len(said))


def pdf_with(files):
    """Returns a PDF with attached files, each of which is deflated."""
    import pikepdf

    pdf, out = pikepdf.new(), io.BytesIO()
    pdf.add_blank_page(page_size=(200, 200))
    for name, octets in files.items():
        pdf.attachments[name] = pikepdf.AttachedFileSpec(pdf, octets, filename=name)
    pdf.save(out, compress_streams=True, recompress_flate=True)
    return out.getvalue()


def test_not_found(home, archive, make, tally):
    """What lies in an attachment of a PDF, in PEM of any label or after a byte-order mark, or under a name that is none, is found."""
    signed, der = make.cms(DOCUMENT, "-nodetach", form="PEM"), make.cms(DOCUMENT, "-nodetach")
    wrong_name = zipped({"\u00e9a.p7m": der}).replace("\u00e9".encode(), b"\xff\xff")
    nameless = bytearray(zipped({"x": der}))
    for mark, place in ((b"PK\3\4", 26), (b"PK\1\2", 28)):  # the octet of the name is one of what follows it
        begin = nameless.index(mark) + place
        nameless[begin : begin + 4] = struct.pack("<2H", 0, 1)
    cases = {
        "mark.pem": (b"\xef\xbb\xbf" + signed, {"": FITS}), "gpgsm.pem": (signed.replace(b"CMS-", b"SIGNED MESSAGE-"), {"": FITS}),
        "label.pem": (signed.replace(b"CMS-", b"any Label, at all-"), {"": FITS}), "base64.p7m": (b"\xef\xbb\xbf" + base64.encodebytes(der), {"": FITS}),
        "certificate.pem": ((make.folder / "signer.pem").read_bytes(), {"": "not a candidate"}),
        "nameless.zip": (nameless, {"(no name)": FITS, "": "container"}),
        "wrong name.zip": (wrong_name, {"\u00a0\u00a0a.p7m": FITS, "": "container"}),
    }
    if tally.has_package("pikepdf"):
        wanted = {"": "container", "attachment a.p7m": FITS, "attachment in.zip": "container", "attachment in.zip!b.p7m": FITS}
        cases["attached.pdf"] = (pdf_with({"a.p7m": der, "in.zip": zipped({"b.p7m": der}), "text.txt": b"text"}), wanted)
        cases["bomb.pdf"] = (pdf_with({"bomb.p7m": bytes(300 << 20)}), {"": "container without message", "attachment bomb.p7m": "too large"})
    for name, (octets, wanted) in cases.items():
        count_same(f"what is in {name}", said_in(archive, home, name, octets)[0], wanted)
