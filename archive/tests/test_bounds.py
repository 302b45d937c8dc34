"""Measures what containers cost that are made to be expensive to `cms_canon_archive`: memory and time of a processor stay within bounds.

Each container is read by a process of its own, which may take 64 MB more than without it and twice the largest piece that it reads, and 2 s for each
10 MB that it reads, unpacked, and 0.3 ms for each message; what is too large is said so with a figure. A generator looks for manifests that are worse,
by putting together parts of them at random: for 20 seconds, or for as many as the variable BOUNDS_SECONDS says, from the number BOUNDS_SEED.
"""

import base64
import gzip
import io
import json
import os
import subprocess
import sys
import time
import zipfile
import zlib
from pathlib import Path
from random import Random
from typing import Callable, Dict, List, NamedTuple, Tuple

import pytest
from cases import Maker
from counting import count_if, needs
from making import write_files, zipped
from odd_pdfs import PLAIN, laid_out
from processor import slowness
from running import environment_of

pytestmark = [pytest.mark.archive, needs("cryptography", tools=["openssl"])]
SEARCHING = int(os.environ.get("BOUNDS_SECONDS", 20))
SEED = int(os.environ.get("BOUNDS_SEED", 4711))
MEMORY = 64 << 20
SLOWEST = 2 / 10e6  # seconds an octet
OF_A_MESSAGE = 0.3e-3  # seconds
LEAST = 2  # seconds that any container may take
MANIFEST = "META-INF/MANIFEST.MF"
READING = r"""
import contextlib, importlib, json, re, sys, time
for name in ("pikepdf", "cms_canon.verifier", "cryptography.hazmat.backends.openssl.backend"):  # which take memory once
    with contextlib.suppress(ModuleNotFoundError):
        importlib.import_module(name)
from cms_canon_archive import judging
from cms_canon_archive.containers import files
peak = lambda: int(re.search(r"VmHWM:\s*(\d+)", open("/proc/self/status").read())[1]) << 10
budgets, make = [], files.Budget
files.Budget = lambda size: budgets.append(make(size)) or budgets[-1]
for path in sys.argv[1:]:
    before, begin = peak(), time.process_time()
    rows, messages = [], 0
    for it in map(judging.judged, files.found_in_path(path)):
        rows += [(it.what.value, it.note)] if it.what.value == "too large" and len(rows) < 2 else []
        messages += it.what.value == "message"
    octets = budgets[-1]._most - budgets[-1]._octets
    print(json.dumps([peak() - before, time.process_time() - begin, octets, messages, rows]))
"""


class Evil(NamedTuple):
    """A container that is made to be expensive, the largest piece that is read of it, and whether it has to be too large."""

    octets: bytes
    largest: int
    is_too_large: bool = True


def jar(make: Maker, manifest: bytes, *signature_files: bytes, is_too_large: bool = True) -> Evil:
    files = {MANIFEST: manifest}
    for number, it in enumerate(signature_files):
        files.update({f"META-INF/A{number}.SF": it, f"META-INF/A{number}.RSA": make.cms(it)})
    return Evil(zipped(files), max(map(len, files.values())), is_too_large)


def asice(make: Maker, manifest: bytes, is_too_large: bool = True) -> Evil:
    files = {"META-INF/ASiCManifest.xml": manifest, "META-INF/signature.p7s": make.cms(b"x"), "a": b""}
    return Evil(zipped(files), len(manifest), is_too_large)


def zip_of(make: Maker, members: int, name: str, content: bytes, messages: int = 1, is_too_large: bool = False) -> Evil:
    """Returns a zip of members with numbers in their names, the first of which have a signature beside them."""
    octets, message = io.BytesIO(), make.cms(content)
    with zipfile.ZipFile(octets, "w") as file:
        for number in range(members):
            file.writestr(zipfile.ZipInfo(name % number), content)
            if number < messages:
                file.writestr(zipfile.ZipInfo(f"{name % number}.p7s"), message)
        directory = sum(46 + len(it.filename) for it in file.infolist())
    return Evil(octets.getvalue(), directory, is_too_large)


def pdf(others: Tuple[Tuple[int, bytes], ...], extra: bytes = b"") -> Evil:
    octets = laid_out(PLAIN._replace(others=others, extra=extra))
    return Evil(octets, len(octets), is_too_large=False)


def in_stream(data: bytes, words: bytes) -> bytes:
    packed = zlib.compress(data, 9)
    return b"<< %s /Filter /FlateDecode /Length %d >>\nstream\n%s\nendstream" % (words, len(packed), packed)


def whole(octets: bytes) -> Evil:
    return Evil(octets, len(octets), is_too_large=False)


def mail(octets: bytes, is_too_large: bool = False) -> Evil:
    """Returns a mail, or an mbox if it begins so."""
    octets = octets if octets.startswith(b"From ") else b"From: a\nMIME-Version: 1.0\n" + octets
    return Evil(octets, len(octets), is_too_large)


def signed_mail(make: Maker, text: bytes) -> Evil:
    """Returns a mail that is signed as it would be with CRLF at the ends of lines."""
    part = b"Content-Type: text/plain\n\n" + text
    head = b'Content-Type: multipart/signed; boundary="b"; protocol="application/pkcs7-signature"\n\n--b\n'
    tail = b"\n--b\nContent-Type: application/pkcs7-signature\nContent-Transfer-Encoding: base64\n\n%s\n--b--\n"
    return mail(head + part + tail % base64.encodebytes(make.cms(part.replace(b"\n", b"\r\n"))))


def nested(octets: bytes, around: bytes, encode: Callable[[bytes], bytes] = bytes, levels: int = 19) -> Evil:
    """Returns a mail with others inside one another: `%d` around them is the number of the level, and `%s` what is inside."""
    for level in range(levels):
        octets = around.replace(b"%d", b"%d" % level).replace(b"%s", encode(octets))
    return mail(octets)


def parts(part: bytes, times: int, is_too_large: bool = True) -> Evil:
    return mail(b"Content-Type: multipart/mixed; boundary=b\n\n%s--b--\n" % ((b"--b\nContent-Type: " + part + b"\n") * times), is_too_large)


def zip_in_a_mail(make: Maker) -> Evil:
    attached = zip_of(make, 19_000, "a%d.p7s", b"0\x80\6\x09*\x86H\x86\xf7\r\1\7\2" + b"x" * 100).octets
    head = b"Content-Type: application/zip; name=a.zip\nContent-Transfer-Encoding: base64\n\n"
    return mail(head + base64.encodebytes(attached))


def evil_mails(make: Maker) -> Dict[str, Evil]:
    multipart, mixed, lines = b"Content-Type: multipart/%s; boundary=b%%d\n\n--b%%d\n%%s\n%s--b%%d--\n", b"mixed", b"y" * 76 + b"\n"
    signature = b"--b%d\nContent-Type: application/pkcs7-signature\n\nMIIB\n"
    encoded = b"From: a\nContent-Type: a/b; name=a.eml\nContent-Transfer-Encoding: base64\n\n%s"
    mbox, small = b"From x\n" + b"From:a\n\nFrom x\n" * 200_000, parts(b"a/b\n", 400_000)
    deep = b"a/b\n\n" + b"From:a\nContent-Type:a/b\n\n" * 19
    return {
        "quoted.mbox": mail(b"From a\nFrom: a\n\n" + b">From \n" * 12_000_000),
        "short lines.eml": signed_mail(make, b"a\n" * 5_000_000),
        "empty lines.eml": signed_mail(make, b"\n" * 10_000_000),
        "multiparts.eml": nested(b"\n" + b"y" * (20 << 20), multipart % (mixed, b"")),
        "signed multiparts.eml": nested(b"\n" + lines * 300_000, multipart % (b"signed", signature), levels=10),
        "forwarded.eml": nested(b"\n" + b"y" * (20 << 20), b"Content-Type: message/rfc822\n\nFrom: a\n%s"),
        "encoded mails.eml": nested(b"From: a\n\n" + b"y" * (10 << 20), encoded, base64.encodebytes, 6)._replace(is_too_large=True),
        "boundaries.eml": nested(b"\n" + b"--b19x\n" * 1_500_000, multipart % (mixed, b"")),
        "parts.eml": small,
        "parts.eml.gz": Evil(gzip.compress(small.octets), small.largest),
        "parts with PDFs.eml": parts(b"a/b\n\n%PDF-", 100_000),
        "parts with messages.eml": parts(b"a/b\n\n" + b"-----BEGIN CMS-----\nMA==\n-----END CMS-----\n" * 2, 100_000),
        "parts with mails.eml": parts(deep, 20_000),
        "zip.eml": zip_in_a_mail(make),
        "signed parts.eml": parts(b"multipart/signed; boundary=c\n\n--c\n\nx\n--c\nContent-Type: application/pkcs7-signature\n\n0\n--c--", 100_000),
        "many.mbox": mail(mbox, is_too_large=True),
        "many.mbox.gz": Evil(gzip.compress(mbox), 1 << 20),
        "large mails.mbox.gz": Evil(gzip.compress(b"From x\nFrom:a\n\n%s\n" % (lines * 100_000) * 20), 77 * 100_000, is_too_large=False),
    }


def evils(make: Maker) -> Dict[str, Evil]:
    plain, listed = b"Manifest-Version: 1.0\r\n\r\n", b"Name: a\nSHA-256-Digest: YQ==\n\n"
    return {
        "sections.jar": jar(make, plain, b"a\n\n" * (4 << 20)),
        "sections of the manifest.jar": jar(make, b"a\n\n" * (4 << 20), b"A: b\n\n" + listed),
        "forty files.jar": jar(make, plain, *[b"a\n\n" * 350_000] * 40),
        "forty long files.jar": jar(make, plain, *[b"a: b\n" * 350_000] * 40),
        "names.jar": jar(make, listed * 300_000, plain + listed * 300_000),
        "empty lines.jar": jar(make, plain, *[b"\n" * 2_000_000] * 2),
        "two long files.jar": jar(make, b"A: b\n" + b" c\n" * 12_000_000, b"A: b\n" + b" c\n" * 12_000_000),
        "folded.jar": jar(make, plain, b"a: b\n" + b" c\n" * 1_000_000),
        "listed.asice": asice(make, b"<a>" + b'<DataObjectReference URI="a"></DataObjectReference>' * 1_000_000 + b"</a>"),
        "members.zip": zip_of(make, 19_990, "a%d", b"x"),
        "small members.zip": zip_of(make, 31_000, "a%d", b"x", is_too_large=True),
        "more members.zip": zip_of(make, 200_000, "a%d", b"", is_too_large=True),
        "most members.zip": zip_of(make, 79_990, "a%d", b"x" * 430),
        "names with several paths.zip": zip_of(make, 79_990, "../\xe4/../a%d", b"x" * 430),
        "names in capitals.zip": zip_of(make, 79_990, "A/B/C/D/E/F/G/H/I/J/K/L/M/N/O/A%d", b"x" * 400),
        "messages.zip": zip_of(make, 20_000, "a%d", b"x", messages=20_000),
        **evil_mails(make),
        "marks.exe": whole(b"MZ" + b"MSCF\0\0\0\0" * 10_000_000),
        "lines.run": whole(b"#!/bin/sh\n" + b"\n\x1f" * 20_000_000),
        "ends.bin": whole(b"\0" + b"PK\5\6" * 10_000_000),
        "objects.json": whole(b"{" + b'"signature"' * 4_000_000),
        "dots.jws": whole(b"eyJ" + b"a" * 40_000_000 + b"." + b"a" * 40_000_000),
        "program.exe.gz": Evil(gzip.compress(b"MZ" + bytes(200 << 20)), 200 << 20, is_too_large=False),
        "fields.pdf": pdf(((1, b"<< /Type /Catalog /Pages 2 0 R /AcroForm << /Fields [%s] >> >>" % (b"null " * 2_000_000)),)),
        "object streams.pdf": pdf(tuple((number, in_stream(b" " * 1000, b"/Type /ObjStm /N 0 /First 0")) for number in range(200, 5000))),
        "large object stream.pdf": pdf(((200, in_stream(bytes(600 << 20), b"/Type /ObjStm /N 0 /First 0")),)),
        "names of streams.pdf": pdf(((200, b"[%s]" % (b"/ObjStm /EF" * 500_000)),)),
        "files.pdf": pdf(tuple((number, b"<< /EF << /F 3 0 R >> >>") for number in range(200, 19_000))),
        "numbers.pdf": pdf((), extra=b"%" + b"1 0 " * 2_000_000 + b"\n" + b"%" + b"0" * 2_000_000 + b"\n"),
        "deep.asice": asice(make, b"<a>" * 1_000_000),
        "attributes.asice": asice(make, b"<a " + b"".join(b'a%d="" ' % it for it in range(1_000_000)) + b"/>", is_too_large=False),
        "text.asice": asice(make, b"<DigestValue>" + b"\n&#65;" * 2_000_000 + b"</DigestValue>", is_too_large=False),
    }


class Cost(NamedTuple):
    """What a container costs: octets of memory, seconds, octets read, messages, and what is said to be too large."""

    memory: int
    seconds: float
    octets: int
    messages: int
    rows: List[List[str]]

    def __str__(self) -> str:
        return f"{self.memory >> 20} MB, {self.seconds:.1f} s, {self.octets:,} octets, {self.rows}"


def measured(home: Path, path: Path) -> Cost:
    words = [sys.executable, "-c", READING, path]
    ran = subprocess.run(words, cwd=home, env=environment_of(home), capture_output=True, text=True, timeout=600)
    assert ran.returncode == 0, ran.stderr[-800:]
    return Cost(*json.loads(ran.stdout))


def cost_within(home: Path, path: Path, largest: int) -> Tuple[bool, Cost]:
    """Returns whether one of up to three measurements is within the bounds, and the last: what else the machine does only adds to a cost."""
    for _ in range(3):
        cost = measured(home, path)
        if cost.memory <= MEMORY + 2 * largest and cost.seconds <= most_seconds(cost.octets, cost.messages, slowness()):
            return True, cost
    return False, cost


def most_seconds(octets: int, messages: int, slower: float) -> float:
    """Returns how long it may take to read so many octets with so many messages, on a processor that is so many times slower."""
    return slower * max(LEAST, SLOWEST * octets + OF_A_MESSAGE * messages)


def test_evil(home, make):
    some = evils(make)
    write_files(home, {name: it.octets for name, it in some.items()})
    for name, it in some.items():
        is_bound, cost = cost_within(home, home / name, it.largest)
        is_said = not it.is_too_large or any("more than" in note for _, note in cost.rows)
        count_if(f"the bounds for {name}", is_bound and is_said, cost)
        print(name, cost)


def at_random(make: Maker, random: Random) -> Evil:
    """Returns a JAR or an ASiC container whose manifest is put together of parts that come many times."""
    lines = [b"a\n", b"\n", b"\r", b"\r\n", b" b\n", b"a: b\n", b"Name: a\n", b"SHA-256-Digest: YQ==\n", b"SHA-256-Digest-Manifest: YQ==\n", b": \n", b"x" * 90]
    elements = [b"<a>", b"</a>", b"<a/>", b'<a b="">', b"x\n", b"&amp;", b'<DataObjectReference URI="a">', b"</DataObjectReference>", b"<!-- -->", b"<?a?>"]

    def text(parts: List[bytes]) -> bytes:
        return b"".join(b"".join(random.choices(parts, k=random.randrange(1, 6))) * random.choice((1, 1000, 300_000)) for _ in range(random.randrange(1, 4)))

    if random.random() < 0.4:
        return asice(make, b"<a>" + text(elements), is_too_large=False)
    some = text(lines)
    return jar(make, random.choice((text(lines), b"A: b\n\n" + some)), *[some] * random.choice((1, 1, 3)), is_too_large=False)


def test_search(home, make):
    """No container that is made at random costs more than it may."""
    random = Random(SEED)
    end, number, wrong = time.monotonic() + SEARCHING, 0, []
    while time.monotonic() < end:
        it, number = at_random(make, random), number + 1
        path = home / ("evil.asice" if b"ASiCManifest" in it.octets else "evil.jar")
        path.write_bytes(it.octets)
        is_bound, cost = cost_within(home, path, it.largest)
        if not is_bound:
            wrong.append(f"{number}: {cost}")
    count_if(f"the bounds for {number} containers at random", number and not wrong, wrong[:3])
