"""Makes an archive of files of every kind that `cms_canon_archive` looks into, and of what lies near to one.

The same seed makes the same files, except for keys and signing times, which openssl and other tools make in each run.
"""

import ast
import base64
import bz2
import gzip
import json
import lzma
import os
import re
import sys
import tomllib
import zipfile
from collections import Counter
from contextlib import suppress
from pathlib import Path
from random import Random
from typing import Callable, Dict, Iterable, Iterator, List, Tuple

TOP = Path(__file__).resolve().parents[2]
sys.path[:0] = [str(TOP / it) for it in ("archive/tests", "archive/tests/support", "tests/support", ".")]

import cases  # noqa: E402
import generated_messages  # noqa: E402
import test_answers  # noqa: E402
import test_containers  # noqa: E402
import test_documents_read as documents  # noqa: E402
import test_readers as readers  # noqa: E402
from cases import DOCUMENT, TEXT, Maker, signed_pdf  # noqa: E402
from elements import element, element_at  # noqa: E402
from elements import message as message_of  # noqa: E402
from making import message_at_random, tarred, zipped  # noqa: E402

File = Tuple[str, bytes]
VECTORS = [TOP / it for it in ("tests/vectors", "tests/data", "archive/tests/data")]
VECTORS += map(Path, filter(None, os.environ.get("MORE_VECTORS", "").split(":")))
ENDINGS = (".p7s", ".p7m", ".tsr", ".tsq", ".bin", ".cms", "")
MORE_ENDINGS = (*ENDINGS, ".tst", ".der", ".pem", ".p7c", ".sig", ".eml", ".txt", ".pdf", ".zip", ".tar", ".gz", ".P7S", ".asice", ".jar", ".xml", ".mbox")
SIZES = (4095, 4096, 4097, 65535, 65536, 65537)
MOST_TO_CHANGE = 200_000  # octets of a file that is changed at random
HEXADECIMAL = re.compile("(?:[0-9a-f]{2}){4,}")


# ---- made as the tests make them


def of_cases(make: Maker, random: Random) -> Iterator[File]:
    """Gives the containers of the tests, and the files beside them; then such of which the content was changed."""
    every = {}
    for kind in test_containers.KINDS:
        some = getattr(cases, kind)(make)
        every.update(some)
        for name, case in some.items():
            yield from _with_those_beside(f"{kind}/{name}", case)
    for name, case, _ in test_containers.changed_contents(every):
        yield from _with_those_beside(f"changed/{name}", case)
    for name, octets in cases.hostile(1).items():
        yield f"hostile/{name}", octets


def _with_those_beside(name: str, case: cases.Case) -> Iterator[File]:
    yield name, case.octets
    for other, octets in case.beside.items():
        yield str(Path(name).parent / other), octets


def of_containers(make: Maker, random: Random, each: int = 60) -> Iterator[File]:
    """Gives containers in which readers differ, made by hand and at random."""
    for tricks in readers.TRICKS_BY_HAND:
        for name, trick in tricks(make).items():
            yield f"{tricks.__name__}/{name}", trick.octets
    for kind, made in {**readers.zip_kinds(make), **readers.tar_kinds(make)}.items():
        for number in range(each if kind != "tar" else 4 * each):
            yield f"{kind}/{number}.{kind.rpartition('.')[2]}", made(random).octets


def of_pdfs(make: Maker, random: Random, mixed: int = 120) -> Iterator[File]:
    """Gives PDFs that are out of the ordinary, by one oddity or some."""
    odd_ones = {**documents.ODDITIES, **{str(number): documents.mixed(random) for number in range(mixed)}}
    for name, odd in odd_ones.items():
        yield f"{name}.pdf", documents.signed(odd, make.cms)
    catalog = (1, documents.objects_of(documents.PLAIN)[1])
    other, damaged = (1, b"<< /Type /Catalog /Pages 2 0 R >>"), (20, b"<< \x8cCount > >>")
    for number, objects in enumerate(([catalog], [other, catalog], [catalog, damaged])):
        yield f"object stream {number}.pdf", documents.in_an_object_stream(objects, make.cms)
    for name, entries in documents.TABLES.items():
        yield f"{name}.pdf", documents.in_an_object_stream([catalog], make.cms, entries)
    for name in documents.ATTACHED_SAID:
        yield f"attached {name}.pdf", documents.with_attachment(make, name)
    with_files = {"a.p7m": make.cms(DOCUMENT, "-nodetach"), "in.zip": zipped({"b.p7m": make.cms(TEXT, "-nodetach")}), "text.txt": b"text"}
    yield "attached files.pdf", test_answers.pdf_with(with_files)


def of_mails(make: Maker, random: Random, spoilt: int = 400) -> Iterator[File]:
    """Gives mails that are out of the ordinary, and boxes of them."""
    der = make.cms(documents.SIGNED_PART)
    letters = {name: documents.letter_of(it, lambda _: der) for name, it in documents.LETTERS.items()}
    yield from ((f"{name}.eml", octets) for name, octets in letters.items())
    for number in range(spoilt):
        octets = documents.letter_of(documents.mixed_letter(random), lambda _: der)
        yield f"{number}.eml", documents.spoilt_letter(random, octets)
    yield "digest.eml", b"From: a@b\r\nContent-Type: multipart/digest; boundary=d\r\n\r\n--d\r\n\r\n%s\r\n--d--\r\n" % letters["plain"]
    message = "".join(f"={octet:02X}" for octet in make.cms(b"signed", "-nodetach")).encode()
    for name, (template, _) in documents.QUOTED_SAID.items():
        head = b"From: a\r\nContent-Type: application/pkcs7-mime\r\nContent-Transfer-Encoding: quoted-printable\r\n\r\n"
        yield f"quoted {name}.eml", head + template % message
    for number in range(20):
        some = random.sample([*letters.values()], 3)
        yield f"{number}.mbox", b"".join(b"From a@b Mon Jan  1 00:00:00 2024\n" + it + b"\n" for it in some)


def of_formats(make: Maker, random: Random) -> Iterator[File]:
    """Gives files with the marks of formats: each octet constant of the modules for containers is at the beginning of some files, or at a fixed place."""
    yield from ((f"known/{name}", octets) for name, (octets, *_) in test_answers.NOT_READ.items())
    files = sorted((TOP / "archive" / "cms_canon_archive" / "containers").glob("*.py"))
    nodes = [node for it in files for node in ast.walk(ast.parse(it.read_text()))]
    marks = sorted({it.value for it in nodes if isinstance(it, ast.Constant) and isinstance(it.value, bytes)})
    attached = make.cms(b"x", "-nodetach")
    for number, mark in enumerate(marks):
        rest = random.randbytes(random.choice((1, 10, 100, 1000)))
        yield f"{number}/begin.bin", mark + rest
        yield f"{number}/alone", mark
        yield f"{number}/text.txt", mark + b"\nsome text\n" * random.randrange(1, 9)
        yield f"{number}/later.bin", b"\0" * random.choice((2, 7, 257, 0x8001)) + mark + bytes(random.choice((0, 512 - len(mark) % 512, 9000)))
        yield f"{number}/message.p7m", mark + attached


def of_signed_contents(make: Maker, random: Random) -> Iterator[File]:
    """Gives messages in whose content others are signed, and messages beside what is packed, or packed themselves."""
    pdf, mail, deep = signed_pdf(make), make.mail(), make.cms(b"text", "-nodetach")
    for _ in range(8):
        deep = make.cms(deep, "-nodetach")
    inside = {"pdf": pdf, "mail.eml": mail, "zip": zipped({"doc": DOCUMENT, "doc.p7s": make.cms(DOCUMENT)}), "text": TEXT, "zeros": bytes(70_000),
              "tar": tarred({"doc": DOCUMENT, "doc.p7s": make.cms(DOCUMENT)}), "gz": gzip.compress(pdf), "nothing": b"", "pem": make.cms(TEXT, form="PEM")}
    for name, content in inside.items():
        attached = make.cms(content, "-nodetach")
        yield f"doc.{name}.p7m", attached
        yield f"twice.{name}.p7m", make.cms(attached, "-nodetach")
        yield f"pem.{name}.p7m", make.cms(content, "-nodetach", form="PEM")
        yield f"wrong.{name}.p7m", attached.replace(content[-9:], content[-9:][::-1]) if content else attached
        yield f"beside.{name}", content
        yield f"beside.{name}.p7s", make.cms(content)
        yield f"beside.{name}.tst", make.token(content)
        for ending, pack in (("gz", gzip.compress), ("bz2", bz2.compress), ("xz", lzma.compress)):
            yield f"packed {ending}/{name}.{ending}", pack(content)
            yield f"packed {ending}/{name}.p7s", make.cms(content)
            yield f"packed {ending}/{name}.{ending}.p7s", make.cms(pack(content))
            yield f"packed {ending}/other.{name}.p7m.{ending}", pack(attached)
    yield "deep.p7m", deep


def of_attributes(make: Maker, random: Random) -> Iterator[File]:
    """Gives messages with tokens and countersignatures in unsigned attributes, and with several signers."""
    der = make.cms(DOCUMENT, "-nodetach")
    value = element_at(cases.last_of(der, cases.SIGNER_INFO + 1)).contents  # of the signature
    right, wrong = make.token(value), make.token(DOCUMENT)
    countersigner = cases.last_of(make.cms(value), cases.SIGNER_INFO)
    others = [cases.last_of(make.cms(*words), cases.SIGNER_INFO) for words in ((DOCUMENT, "-noattr"), (TEXT,), (DOCUMENT, "-keyid"))]
    for number, attributes in enumerate((
        {cases.TIME_STAMP: right}, {cases.TIME_STAMP: wrong}, {cases.TIME_STAMP: right, cases.ARCHIVE_TIME_STAMP: wrong},
        {cases.TIME_STAMP: element(0x30, b"")}, {cases.COUNTERSIGNATURE: countersigner}, {cases.COUNTERSIGNATURE: others[1]},
        {cases.COUNTERSIGNATURE: countersigner, cases.TIME_STAMP: right}, {cases.COUNTERSIGNATURE: countersigner, cases.ARCHIVE_TIME_STAMP: wrong},
    )):
        yield f"attributes {number}.p7m", cases.with_unsigned(der, attributes)
    for number in range(8):
        some = b"".join(it for bit, it in enumerate(others) if number >> bit & 1)
        yield f"signers {number}.p7m", cases.appended(der, cases.SIGNER_INFOS, some)


def of_algorithms(make: Maker, random: Random) -> Iterator[File]:
    """Gives messages that are signed by other algorithms and keys, and in other forms."""
    sign = "openssl cms -sign -binary -outform DER"
    keys = {"ec": "ec -pkeyopt ec_paramgen_curve:P-256", "p521": "ec -pkeyopt ec_paramgen_curve:P-521", "small": "rsa:1024"}
    for name, kind in keys.items():
        make.run(f"openssl req -x509 -newkey {kind} -nodes -keyout {name}.key -out {name}.pem -subj /CN={name} -days 90")
        for number, more in enumerate(("", "-nodetach", "-noattr", "-keyid", "-nocerts", "-nodetach -noattr")):
            yield f"{name} {number}.p7s", make.run(f"{sign} -signer {name}.pem -inkey {name}.key {more}", octets=DOCUMENT)
            yield f"{name} {number}", DOCUMENT if number else DOCUMENT + b"!"
    for digest in ("md5", "sha1", "sha224", "sha256", "sha384", "sha512", "sha512-256", "sha3-256"):
        for number, more in enumerate(("", "-nodetach -noattr", "-nodetach -keyopt rsa_padding_mode:pss", "-noattr -keyopt rsa_padding_mode:pss", "-cades")):
            with suppress(AssertionError):  # of what openssl does not do
                yield f"{digest} {number}.p7s", make.run(f"{sign} -signer signer.pem -inkey signer.key -md {digest} {more}", octets=DOCUMENT)
                yield f"{digest} {number}", DOCUMENT


# ---- messages


def of_vectors(make: Maker, random: Random) -> Iterator[File]:
    """Gives what the vectors have in hexadecimal digits under many endings, in PEM and base64, cut, and with changed octets."""
    octets = sorted({bytes.fromhex(it) for folder in VECTORS for file in sorted(folder.iterdir()) for it in _texts_in(file)})
    for number, message in enumerate(octets):
        for ending in ENDINGS if message.startswith(b"\x30") else random.sample(ENDINGS, 2):
            yield f"{number % 20}/{number}{ending}", message
        for name, other in _forms_of(message, random):
            yield f"{number % 20}/{number} {name}{random.choice(MORE_ENDINGS)}", other


def _texts_in(file: Path) -> Iterator[str]:
    """Gives the texts of a file of vectors that are octets in hexadecimal digits."""
    load = {".json": json.loads, ".toml": tomllib.loads}.get(file.suffix, lambda text: ())
    values = [load(file.read_text())]
    while values:
        value = values.pop()
        if isinstance(value, (dict, list)):
            values += value.values() if isinstance(value, dict) else value
        elif isinstance(value, str) and HEXADECIMAL.fullmatch(value):
            yield value


def _forms_of(message: bytes, random: Random) -> Iterator[File]:
    yield "pem", in_pem(message, random.choice((b"CMS", b"PKCS7", b"CERTIFICATE", b"PKCS #7 SIGNED DATA")))
    yield "base64", base64.encodebytes(message)
    yield "base64 in a line", base64.b64encode(message)
    yield "utf-16", in_pem(message).decode().encode("utf-16")
    for number in range(3):
        yield f"cut {number}", message[: random.randrange(len(message))]
        yield f"changed {number}", changed(message, random)
    yield "more", message + random.choice((b"\0", b"\n", b"\r\n", b"more", message))


def in_pem(message: bytes, label: bytes = b"CMS") -> bytes:
    return b"-----BEGIN %s-----\n%s-----END %s-----\n" % (label, base64.encodebytes(message), label)


def of_messages(make: Maker, random: Random, count: int = 1200) -> Iterator[File]:
    """Gives messages at random, most of them as they are."""
    for number in range(count):
        octets, ending = message_at_random(random).octets, random.choice(MORE_ENDINGS)
        form = random.choice((bytes, bytes, bytes, in_pem, base64.encodebytes, gzip.compress))
        yield f"{number % 7}/{number}{ending}", form(octets)


def of_sizes(make: Maker, random: Random) -> Iterator[File]:
    """Gives files of exactly so many octets as pieces that are read, and one more and one less."""
    for size in SIZES:
        message = message_of_size(size)
        text = (b"a line of text\n" * (size // 15 + 1))[:size]
        kinds = {
            "message.p7s": message, "message": message, "text.txt": text, "text.p7s": text, "zeros.bin": bytes(size), "random": random.randbytes(size),
            "indefinite.p7m": cases.indefinite(message), "changed.p7s": message[:-1] + b"\1",
            "text then zero": text[:-1] + b"\0", "text then mark": text[:-9] + b"\xff\xd8\xff\xe0\0\0\0\0\0", "one.xml": b"<a>" + text[7:] + b"</a>",
        }
        signed = make.cms(DOCUMENT, "-nodetach")
        for name, octets, filler in (
            ("a.pdf", signed_pdf(make), b"\n"), ("a.eml", make.mail(), b"\n"), ("a.pem", in_pem(signed), b"\n"), ("b64.p7m", base64.encodebytes(signed), b"\n"),
            ("a.zip", zipped({"doc": DOCUMENT, "doc.p7s": make.cms(DOCUMENT)}), b"\0"), ("a.tar", tarred({"a.p7m": signed}), b"\0"),
            ("a.gz", gzip.compress(signed), b"\0"), ("der.p7m", signed, b"\0"), ("a.jws", b"eyJhbGciOiJFUzI1NiJ9..c2lnbmF0dXJl", b"\n"),
        ):
            kinds[f"padded {name}"], kinds[f"after {name}"] = octets.ljust(size, filler)[:size], octets.rjust(size, filler)[-size:]
        for name, octets in kinds.items():
            assert len(octets) == size, name
            yield f"{size}/{name}", octets


def message_of_size(size: int) -> bytes:
    """Returns a message with a signer whose content makes it exactly so long."""
    algorithm = bytes.fromhex("300b0609608648016503040201")
    signer = element(0x30, b"\x02\x01\x03\x80\x00", algorithm, bytes.fromhex("300506032a0304"), element(0x04, bytes(256)))
    for short in range(6):
        certificate = element(0xA0, element(0x30, element(0x04, bytes(300 + short))))
        for length in range(size - 720, size - 600):
            content = element(0x30, bytes.fromhex("06092a864886f70d010701"), element(0xA0, element(0x04, b"x" * length)))
            octets = message_of(b"\x02\x01\x03", element(0x31, algorithm), content, certificate, element(0x31, signer))
            if len(octets) == size:
                return octets
    raise ValueError(f"no message of {size} octets")


# ---- what is no message, and names


def of_texts(make: Maker, random: Random, count: int = 700) -> Iterator[File]:
    """Gives short texts and octets, and files without any."""
    words = ["From", "a", "MII", "-----", "BEGIN", "CMS", "\u00e9", "{", "<S", "0", "Content-Type:", ":", "%PDF-", "\t", "eyJ", "\x0c", "PK", "\x1b", "=", "/+"]
    for number in range(count):
        ending = random.choice(MORE_ENDINGS)
        text = "".join(random.choice(words) + random.choice(" \n") for _ in range(random.randrange(12))).encode(random.choice(("utf-8", "utf-16", "latin-1")))
        yield f"{number}{ending}", random.choice((text, random.randbytes(random.randrange(40)), random.choice((b"", b"0", b"\x30", b"\x30\x80", b"M", b"\0"))))
    for number, ending in enumerate(MORE_ENDINGS):
        yield f"empty {number}{ending}", b""


def of_names(make: Maker, random: Random) -> Iterator[File]:
    """Gives messages beside their documents, of which the names are odd."""
    names = [
        b"no UTF-8 \xff", rb"a backslash \xff", b"control \t\x1b\xc2\x9b", "\u00e9\u0301 \u202e".encode(), b" ", b"-", b"a\nb", b"'\"`$", b"%s%n", b"x" * 240,
        b"..a", b"a!b", b"a#2", b"A" * 200 + b"\xff" * 9, "\U0001f600".encode(), b"~", b"*?[a]", b"doc.p7s", b"a.tar.gz", b".hidden", b"CON", b"a:b", b"\\",
        b"x.",
    ]
    der, attached = make.cms(DOCUMENT), make.cms(DOCUMENT, "-nodetach")
    for number, name in enumerate(names):
        folder, text = f"{number % 3}" if number % 2 else os.fsdecode(name), os.fsdecode(name)
        for ending, octets in (("", DOCUMENT), (".p7s", der), (".p7m", attached), (".zip", zipped({text.encode("utf-8", "replace").decode(): der}))):
            yield f"{folder}/{text}{ending}", octets
    yield "/".join(["deep" * 20] * 20) + "/a.p7m", attached
    yield "/".join(["deep" * 20] * 20) + "/a" + "\udcff" * 90, attached


def of_members(files: List[File], random: Random, count: int = 300) -> Iterator[File]:
    """Gives tars, zips and packed files in which files of the others lie."""
    small = [it for it in files if len(it[1]) < MOST_TO_CHANGE]
    for number in range(count):
        some = {name.encode("utf-8", "surrogateescape").decode("utf-8", "replace"): it for name, it in random.sample(small, random.choice((1, 3, 30)))}
        one = random.choice([*some.values()])
        ending, pack = random.choice((
            (".tar", lambda: tarred(some)), (".tar.gz", lambda: tarred(some, "w:gz")), (".tar.xz", lambda: tarred(some, "w:xz")),
            (".zip", lambda: zipped(some)), (".zip", lambda: zipped(some, zipfile.ZIP_STORED)), (".gz", lambda: gzip.compress(one)),
            (".bz2", lambda: bz2.compress(one)), (".tar", lambda: tarred({"in.zip": zipped(some), "in.tar": tarred(some)})),
            (".zip", lambda: zipped({"in.tar.gz": tarred(some, "w:gz"), **some})),
        ))
        yield f"{number}{ending}", pack()


def changed(octets: bytes, random: Random) -> bytes:
    """Returns octets of which a few are flipped, cut out or inserted."""
    other = bytearray(octets)
    for _ in range(random.choice((1, 1, 1, 2, 5))):
        place = random.randrange(len(other) + 1) if random.random() < 0.5 else random.randrange(min(len(other), 64) + 1)
        way = random.randrange(4)
        if way == 0 and place < len(other):
            other[place] ^= 1 << random.randrange(8)
        elif way == 1:
            del other[place : place + random.choice((1, 1, 2, 50))]
        elif way == 2:
            other[place:place] = random.choice((b"\0", b"\n", b"\x30", b"\xff", random.randbytes(random.randrange(9))))
        elif place < len(other):
            other[place] = random.choice((0, 0x0A, 0x30, 0x80, 0xFF))
    return bytes(other)


def of_changes(files: List[File], random: Random, count: int) -> Iterator[File]:
    """Gives so many files of the others with changed octets, some of them beside what they sign."""
    small = [it for it in files if len(it[1]) < MOST_TO_CHANGE]
    beside = dict(files)
    for number in range(count):
        name, octets = random.choice(small)
        folder, last = f"{number // 500}/{number}", Path(name).name
        if random.random() < 0.1:
            octets = octets[: random.randrange(len(octets) + 1)]
        yield f"{folder}/{last}", changed(octets, random)
        if (document := str(Path(name).with_suffix(""))) != name and len(beside.get(document, bytes(MOST_TO_CHANGE))) < MOST_TO_CHANGE:
            yield f"{folder}/{Path(document).name}", beside[document]


# ---- all of them

SOURCES: Dict[str, Callable[[Maker, Random], Iterable[File]]] = {
    it.__name__: it
    for it in (of_cases, of_containers, of_pdfs, of_mails, of_formats, of_signed_contents, of_attributes, of_algorithms, of_vectors, of_messages, of_sizes,
               of_texts, of_names)
}


def files_of_every_kind(home: Path, count: int, seed: int) -> Iterator[File]:
    """Gives some `count` files: those of the sources, members that they are, and as many changed ones as are left."""
    make, files = Maker(home), []
    generated_messages.beginning()
    for source, made in SOURCES.items():
        files += [(f"{source.removeprefix('of_')}/{name}", octets) for name, octets in made(make, Random(f"{seed} {source}"))]
    random = Random(seed)
    files += [(f"members/{name}", octets) for name, octets in of_members(files, random)]
    if len(files) > count:
        yield from random.sample(files, count)
        return
    yield from files
    left = count - len(files)
    for number, (name, octets) in zip(range(left), of_changes(files, random, left)):
        yield f"changes/{name}", octets


def make_archive(folder: Path, home: Path, count: int, seed: int) -> Counter:
    """Writes files of every kind into a folder, and returns how many there are of each source."""
    sources: Dict[str, str] = {}
    for name, octets in files_of_every_kind(home, count, seed):
        path = folder / name
        path.parent.mkdir(parents=True, exist_ok=True)
        path.write_bytes(octets)
        sources[name] = name.partition("/")[0]
    os.mkfifo(folder / "fifo.p7s")
    (folder / "link.p7s").symlink_to(folder / "nowhere")
    return Counter(sources.values())
