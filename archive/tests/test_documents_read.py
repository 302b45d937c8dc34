"""Makes odd PDFs and mails at random, and has other readers open them: what `cms_canon_archive` says to fit without a note, each reader takes as it is.

Each oddity comes also by itself, with what is to be said of it. The readers are pdfsig, mutool, pikepdf (qpdf) and Python's email, JavaMail and
openssl. What is missing is skipped by its name.
"""

import base64
import email
import hashlib
import re
import struct
import subprocess
import zlib
from email.policy import compat32, default
from io import BytesIO
from pathlib import Path
from random import Random
from typing import Callable, Dict, List, NamedTuple, Sequence, Set, Tuple

import pytest
from cases import DIFFERS, FITS, PARTLY, said_in
from counting import count_if, count_same, needs
from odd_pdfs import HOLE, PLAIN, ROOM, Odd, laid_out, objects_of
from places import DATA
from running import SECONDS
from tally import count

pytestmark = [pytest.mark.archive, needs("cryptography", tools=["openssl"])]
SEED = 3108
PDFS, MAILS = 250, 2000


# ---- PDFs

_ANOTHER = b"<" + b"00" * 40 + b">"
ODDITIES: Dict[str, Odd] = {
    "plain": PLAIN,
    "another string": Odd(contents=b"/Contents " + _ANOTHER + b" /Other %HOLE%"),
    "no Contents": Odd(contents=b"/Other %HOLE%"),
    "Contents of another object": Odd(contents=b"/Contents 12 0 R", others=((12, b"%HOLE%"),)),
    "Contents twice": Odd(contents=b"/Contents %HOLE% /Contents " + _ANOTHER),
    "a name in hexadecimal": Odd("/Byte#52ange [0 {0} {1} {2}]"),
    "Contents in hexadecimal": Odd(contents=b"/Content#73 %HOLE%"),
    "a comment in the array": Odd("/ByteRange [0 %1 2\n {0} {1} {2}]"),
    "reals": Odd("/ByteRange [0 {0}.0 {1}.0 {2}.0]"),
    "signs": Odd("/ByteRange [+0 +{0} +{1} +{2}]"),
    "an array of its own": Odd("/ByteRange 13 0 R", others=((13, b"[0 %RANGES%]"),)),
    "no ByteRange": Odd("% /ByteRange [0 {0} {1} {2}]\n"),
    "a ByteRange in a string": Odd("/Name (/ByteRange [0 {0} {1} {2}])"),
    "six numbers": Odd("/ByteRange [0 0 0 {0} {1} {2}]"),
    "no field": Odd(fields=b""),
    "a field without value": Odd(value=b"null"),
    "a field inside another": Odd(fields=b"101 0 R", others=((101, b"<< /T (above) /Kids [100 0 R] >>"),), field=b" /FT /Sig /Parent 101 0 R"),
    "a field without its parent": Odd(fields=b"101 0 R", others=((101, b"<< /T (above) /Kids [100 0 R] >>"),)),
    "a field of another kind": Odd(field=b" /FT /Tx"),
    "a field in a page alone": Odd(fields=b"", more=b" /Note (in no form)"),
    "odd digits": Odd(digits=HOLE - 1),
    "a value that is direct": Odd(
        value=b"<< /Type /Sig /Filter /Adobe.PPKLite /SubFilter /adbe.pkcs7.detached %RANGE% /Contents %HOLE% >>", others=((10, b"null"),)),
    "a comment before Contents": Odd(contents=b"/Contents %a comment\n%HOLE%"),
    "two fields of one signature": Odd(fields=b"100 0 R 102 0 R", others=((102, b"<< /T (T) /FT /Sig /V 10 0 R >>"),)),
    "two fields, one of another": Odd(fields=b"102 0 R 100 0 R", others=(
        (102, b"<< /T (T) /FT /Sig /V 103 0 R >>"), (103, b"<< /Type /Sig /SubFilter /adbe.pkcs7.detached /ByteRange [0 %RANGES%] /Contents <00> >>"))),
    "no SubFilter": Odd(kind=b""),
    "another SubFilter": Odd(kind=b"/SubFilter /ETSI.CAdES.detached"),
    "SubFilter of SHA-1": Odd(kind=b"/SubFilter /adbe.pkcs7.sha1"),
    "SubFilter twice": Odd(kind=b"/SubFilter /adbe.pkcs7.sha1 /SubFilter /adbe.pkcs7.detached"),
    "a catalog that is another": Odd(more=b" >>\nendobj\n1 0 obj\n<< /Type /Catalog /Pages 2 0 R"),
    "octets before": Odd(before=b"\n\n"),
    "a line before": Odd(before=b"%!PS something\n"),
    "counted octets before": Odd(before=b"\n\n", counts_before=True),
    "octets after": Odd(after=b"\n5 0 obj\n<< >>\nendobj\n"),
    "blanks after": Odd(after=b"\r\n\0"),
    "a comment before the last number": Odd(swap=(b"startxref\n", b"startxref %a\n")),
    "a sign before the last number": Odd(swap=(b"startxref\n", b"startxref\n+")),
    "startxref in a comment": Odd(swap=(b"%%EOF\n", b"%%EOF\n%startxref(7)\n")),
    "startxref far from the end": Odd(swap=(b"%%EOF\n", b"%%EOF\n%" + b"x" * 1000 + b"\n")),
    "a generation": Odd(extra=b"7 1 obj\n<< >>\nendobj\n"),
    "a generation after a comment": Odd(extra=b"7 %c\n1 %c\nobj\n<< >>\nendobj\n"),
    "a hybrid file": Odd(swap=(b"/Root 1 0 R", b"/Root 1 0 R /XRef#53tm 9")),
    "permissions alone": Odd(others=((1, b"<< /Type /Catalog /Pages 2 0 R /Perms << /DocMDP 10 0 R >> >>"),)),
    "permissions of a field": Odd(others=((1, b"<< /Type /Catalog /Pages 2 0 R /Perms << /DocMDP 10 0 R >> /AcroForm << /Fields [100 0 R] /SigFlags 3 >> >>"),)),
    "a kid that is another field": Odd(others=((101, b"<< /Parent 100 0 R /T (k) /FT /Tx /V (x) >>"),), field=b" /FT /Sig /Kids [101 0 R]"),
    "a kid that is a widget": Odd(others=((101, b"<< /Parent 100 0 R /Type /Annot /Subtype /Widget /Rect [0 0 0 0] >>"),), field=b" /FT /Sig /Kids [101 0 R]"),
    "another type": Odd(type=b"/Foo"),
    "a blank in the table": Odd(table=(b"00000 n \n3 1", b"00000\x0bn \n3 1")),
    "a letter in the table": Odd(table=(b" n \n3 1", b" nu\n3 1")),
    "another place in the table": Odd(extra=b"7 0 obj\n<< >>\nendobj\n", table=(b"3 1\n", b"7 1\n0000000009 00000 n \n3 1\n")),
    "an object twice in the table": Odd(table=(b"xref\n0 1\n", b"xref\n1 1\n")),
    "a line before the trailer": Odd(swap=(b"trailer", b"\ntrailer")),
    "a later table": Odd(extra=b"7 0 obj\n<< >>\nendobj\n"),
}


def signed(odd: Odd, sign: Callable[[bytes], bytes]) -> bytes:
    """Returns a PDF that is signed."""
    octets = bytearray(laid_out(odd))
    begin = octets.index(b"<" + b"0" * odd.digits + b">")
    end, first = begin + odd.digits + 2, len(odd.before) if odd.counts_before else 0
    numbers = begin + first, end + first, len(octets) - end
    for mark, text in ((b"%RANGES%", "{0} {1} {2}"), (b"%RANGE%", odd.ranges)):
        if (at := octets.find(mark)) >= 0:
            octets[at : at + ROOM] = text.format(*numbers).encode().ljust(ROOM)
    covered = odd.before[:first] + bytes(octets[:begin]) + bytes(octets[end:])
    value = sign(covered).hex().encode()
    octets[begin + 1 : begin + 1 + len(value)] = value
    return odd.before + bytes(octets) + odd.after


def mixed(random: Random) -> Odd:
    """Returns some oddities at once."""
    odd = PLAIN
    for other in random.sample(list(ODDITIES.values()), random.choice((1, 1, 2, 3))):
        changed = {name: getattr(other, name) for name in Odd._fields if getattr(other, name) != getattr(PLAIN, name)}
        odd = odd._replace(**{**changed, "others": (*odd.others, *changed.get("others", ()))})
    return odd


class Range(NamedTuple):
    """What a signature covers, as `0, 400, 500, 20`: where the two pieces begin, and how long they are."""

    first: int
    length: int
    second: int
    rest: int


SIGNED_RANGES = re.compile(r"Signed Ranges: \[(\d+) - (\d+)\], \[(\d+) - (\d+)\]")


def seen_by_pdfsig(path: Path) -> Set[Range]:
    """Returns what is covered by the signatures that pdfsig finds to be valid for the whole document."""
    ran = subprocess.run(["pdfsig", "-nocert", str(path)], capture_output=True, text=True, errors="replace", timeout=SECONDS)
    found = set()
    for one in ran.stdout.split("Signature #")[1:]:
        ranges = SIGNED_RANGES.search(one)
        if ranges and "Signature is Valid" in one and "- Total document signed" in one:
            first, end, second, last = map(int, ranges.groups())
            found.add(Range(first, end - first, second, last - second))
    return found


def is_valid_for_mutool(path: Path) -> bool:
    ran = subprocess.run(["mutool", "sign", "-v", str(path)], capture_output=True, text=True, errors="replace", timeout=SECONDS)
    return "The document is unchanged since signing." in ran.stdout


def fitting(facts) -> List[str]:
    """Returns the places that are said to fit without a note."""
    return [where for where, it in facts.items() if it.state == FITS and not it.note]


PDFS_SAID: Dict[str, Tuple[str, str]] = {  # the state or the class, and the note, of the first place
    "plain": (FITS, ""), "blanks after": (FITS, "3 blanks follow"), "odd digits": (FITS, ""), "a field inside another": (FITS, ""),
    "a name in hexadecimal": (FITS, ""), "Contents in hexadecimal": (FITS, ""), "a comment in the array": (FITS, ""),
    "an array of its own": (FITS, ""), "Contents of another object": (FITS, ""), "signs": (FITS, ""),
    "reals": (FITS, "are no integers"), "another string": (FITS, "another /Contents"), "no Contents": (FITS, "another /Contents"),
    "no field": (FITS, "no field of the form"), "a field without value": (FITS, "no field of the form"),
    "no ByteRange": (FITS, "no field of the form"), "a ByteRange in a string": (FITS, "no field of the form"),
    "octets before": (PARTLY, "readers differ on the 2 octets before the PDF"), "counted octets before": (FITS, "2 octets before the PDF"),
    "a field without its parent": (FITS, "does not say that it is one"), "a field of another kind": (FITS, "does not say that it is one"),
    "a value that is direct": (FITS, "no object of its own"), "no SubFilter": (FITS, "without a SubFilter that they know"),
    "a comment before Contents": (FITS, ""), "two fields of one signature": (FITS, ""), "another SubFilter": (FITS, ""),
    "a comment before the last number": (FITS, "how the PDF ends"), "a sign before the last number": (FITS, "how the PDF ends"),
    "startxref in a comment": (FITS, "how the PDF ends"), "startxref far from the end": (FITS, "how the PDF ends"),
    "a generation": (FITS, "generation"), "a generation after a comment": (FITS, "generation"), "a hybrid file": (FITS, "two tables"),
    "a blank in the table": (FITS, "table of objects"), "a letter in the table": (FITS, "table of objects"),
    "another place in the table": (FITS, "table of objects"), "a later table": (FITS, ""),
    "an object twice in the table": (FITS, "table of objects"),
    "a line before the trailer": (FITS, ""),
    "permissions alone": (FITS, "no field of the form"), "permissions of a field": (FITS, ""),
    "a kid that is another field": (FITS, "below it"), "a kid that is a widget": (FITS, "below it"), "another type": (FITS, "of another type"),
    "octets after": ("fits an earlier revision", "octets follow"), "six numbers": ("damaged", "has 6 numbers"),
}


@needs("pikepdf")
@pytest.mark.parametrize("name", PDFS_SAID)
def test_odd_pdf(archive, home, make, name):
    """Each oddity by itself is said as it is."""
    count_first(f"PDF with {name}", *said_in(archive, home, f"{name}.pdf", signed(ODDITIES[name], make.cms)), *PDFS_SAID[name])


def count_first(name: str, came, facts, state: str, note: str, where: str = "") -> None:
    """Counts whether a place, the first one if none is named, has this state and a note with these words, or none if there are no words."""
    where = where or next(iter(came))
    count_if(name, came[where] == state and (note in facts[where].note if note else not facts[where].note), came, facts[where].note)


Entries = Sequence[Tuple[int, Tuple[int, int, int]]]


def in_an_object_stream(objects: List[Tuple[int, bytes]], sign: Callable[[bytes], bytes], entries: Entries = ()) -> bytes:
    """Returns a signed PDF in which an object stream has these objects, by their numbers. `entries` are the objects of which its table says something
    else, with that."""
    octets, places = bytearray(b"%PDF-1.7\n"), {}
    head = b"".join(b"%d %d " % (it[0], sum(len(before) + 1 for _, before in objects[:at])) for at, it in enumerate(objects))
    data = head + b" ".join(it for _, it in objects)
    stream = b"<< /Type /ObjStm /N %d /First %d /Length %d >>\nstream\n%s\nendstream" % (len(objects), len(head), len(data), data)
    for number, body in sorted({**objects_of(PLAIN), 1: b"null", 40: stream}.items()):
        places[number] = len(octets)
        octets += b"%d 0 obj\n%s\nendobj\n" % (number, body.replace(b"%RANGE%", b" " * ROOM).replace(b"%HOLE%", b"<" + b"0" * HOLE + b">"))
    places[150] = len(octets)
    fields = {**{number: (1, place, 0) for number, place in places.items()}, 1: (2, 40, 0), **dict(entries)}
    rows = b"".join(struct.pack(">BIH", *fields[number]) for number in sorted(places))
    index = b" ".join(b"%d 1" % it for it in sorted(places))
    octets += b"150 0 obj\n<< /Type /XRef /Size 200 /Root 1 0 R /W [1 4 2] /Index [%s] /Length %d >>\nstream\n%s\nendstream\nendobj\n" % (
        index, len(rows), rows)
    octets += b"startxref\n%d\n%%%%EOF\n" % places[150]
    begin = octets.index(b"<" + b"0" * HOLE + b">")
    end = begin + HOLE + 2
    octets = octets.replace(b" " * ROOM, (b"/ByteRange [0 %d %d %d]" % (begin, end, len(octets) - end)).ljust(ROOM))
    value = sign(bytes(octets[:begin] + octets[end:])).hex().encode()
    octets[begin + 1 : begin + 1 + len(value)] = value
    return bytes(octets)


@needs("pikepdf")
def test_object_streams(archive, home, make):
    """A number that an object stream has twice is another object for some readers."""
    real, other, damaged = (1, objects_of(PLAIN)[1]), (1, b"<< /Type /Catalog /Pages 2 0 R >>"), (20, b"<< \x8cCount > >>")
    for name, objects, words in (("once", [real], ""), ("twice", [other, real], "an object stream"), ("beside one not used", [real, damaged], "table")):
        count_first(f"a catalog {name} in an object stream", *said_in(archive, home, f"{name}.pdf", in_an_object_stream(objects, make.cms)), FITS, words)


TABLES: Dict[str, Entries] = {  # in a stream, which lead to something else than the object
    "an index past the end of an object stream": [(1, (2, 40, 7))], "a page that is elsewhere": [(3, (1, 9, 0))], "an object of an unknown kind": [(3, (3, 0, 0))],
    "an object in a stream that is none": [(3, (2, 10, 0))], "another generation": [(3, (1, 9, 1))],
}


@needs("pikepdf")
@pytest.mark.parametrize("name", TABLES)
def test_table_in_a_stream(archive, home, make, name):
    """What a table in a stream says of any object is compared with what is there."""
    octets = in_an_object_stream([(1, objects_of(PLAIN)[1])], make.cms, TABLES[name])
    notes = [it.note for it in said_in(archive, home, f"{name}.pdf", octets)[1].values()]
    count_if(f"a table in a stream with {name}", notes and all(notes), notes)


@needs("pikepdf")
def test_saved_pdfs(archive, make):
    """What a usual program writes has no note: object streams and tables in streams, also in the order in which they are loaded."""
    import pikepdf

    for name, options in (("object streams", {}), ("in order", {"linearize": True})):
        saved = BytesIO()
        with pikepdf.open(BytesIO(signed(PLAIN, make.cms))) as pdf:
            pdf.save(saved, object_stream_mode=pikepdf.ObjectStreamMode.generate, **options)
        octets = saved.getvalue()
        form = archive.forms.form_of(octets, archive.sources.Budget(len(octets)))
        count_if(f"a PDF that qpdf writes with {name}", b"/ObjStm" in octets and form.signatures and not form.why_unsure, form.why_unsure)


ATTACHED_SAID = {  # the class of the attachment a.p7m, or the state of the message that it is
    "plain": "fits", "predictor": "not looked into", "other file": "not looked into", "direct kids": "fits", "annotation": "fits", "page": "fits",
    "direct annotation": "fits",
}


def with_attachment(make, name: str) -> bytes:
    """Returns a PDF with a message attached in some way."""
    message = make.cms(b"signed", "-nodetach")
    more = {"predictor": b"/DecodeParms << /Predictor 2 >>", "other file": b"/F (other)"}.get(name, b"")
    packed = zlib.compress(message)
    stream = b"<< /Filter /FlateDecode %s /Length %d >>\nstream\n%s\nendstream" % (more, len(packed), packed)
    named = b"<< /Names [(a) 31 0 R] >>"
    annotation = b"<< /Type /Annot /Subtype /FileAttachment /Rect [0 0 9 9] /FS %s /P 3 0 R >>"
    specification = b"<< /Type /Filespec /F (a.p7m) /UF (a.p7m) /EF << /F 30 0 R >> >>"
    tree = {"direct kids": b"<< /Kids [<< /Names [(a) 31 0 R] >>] >>"}.get(name, named)
    is_named = name in ("plain", "predictor", "other file", "direct kids")
    page = {"annotation": b"/Annots [32 0 R]", "page": b"/AF [31 0 R]", "direct annotation": b"/Annots [%s]" % (annotation % specification)}.get(name, b"")
    others = (
        (1, b"<< /Type /Catalog /Pages 2 0 R %s >>" % (b"/Names << /EmbeddedFiles %s >>" % tree if is_named else b"")),
        (3, b"<< /Type /Page /Parent 2 0 R /MediaBox [0 0 200 200] %s >>" % page),
        (30, stream), *(((31, specification),) if name != "direct annotation" else ()), *(((32, annotation % b"31 0 R"),) if name == "annotation" else ()),
    )
    return laid_out(PLAIN._replace(others=others))


@needs("pikepdf")
@pytest.mark.parametrize("name", ATTACHED_SAID)
def test_attachment(archive, home, make, name):
    """Whatever is attached is looked into, or named."""
    came, _ = said_in(archive, home, "attached.pdf", with_attachment(make, name))
    count_same(f"an attachment: {name}", came.get("attachment a.p7m"), ATTACHED_SAID[name])


@needs("pikepdf")
def test_pdfs_at_random(archive, home, make, tally):
    """What is said to fit without a note is valid, and the whole document, for pdfsig and mutool."""
    random, wrong, fit = Random(SEED), [], 0
    odd_ones = [*ODDITIES.values(), *(mixed(random) for _ in range(PDFS))]
    readers = [it for it in ("pdfsig", "mutool") if tally.has(it)]
    for count_of, odd in enumerate(odd_ones):
        path = home / f"{count_of}.pdf"
        _, facts = said_in(archive, home, path.name, signed(odd, make.cms))
        places = fitting(facts)
        fit += len(places)
        if not places:
            continue
        covered = {Range(*map(int, facts[it].content.rpartition("ByteRange ")[2].split())) for it in places}
        if "pdfsig" in readers and not covered <= seen_by_pdfsig(path):
            wrong.append(("pdfsig", odd))
        if "mutool" in readers and not is_valid_for_mutool(path):
            wrong.append(("mutool", odd))
    count(f"{len(odd_ones)} PDFs, of which {fit} signatures are said to fit without a note", wrong[:3] or ("" if fit > 10 else "too few fit"))


# ---- mails

SIGNED_PART = b"Content-Type: text/plain\r\n\r\nWhat was signed.\r\n"
OTHER_PART = b"Content-Type: text/plain\r\n\r\nWhat was not signed.\r\n"


class Letter(NamedTuple):
    """How a mail is made, as a template of its header Content-Type, what lies before it, and how its parts are separated."""

    kind: bytes = b'multipart/signed; protocol="application/pkcs7-signature"; micalg=sha-256; boundary="b"'
    head: bytes = b""
    name: bytes = b"Content-Type:"
    after: bytes = b""
    delimiter: bytes = b"--b"
    decoy: bytes = b""
    """What lies before the first delimiter."""
    between: bytes = b"\r\n"
    coding: bytes = b"base64"
    value: Callable[[bytes], bytes] = lambda der: base64.encodebytes(der).replace(b"\n", b"\r\n")
    end: bytes = b"--b--"
    before: bytes = b""
    """What lies before the first header."""
    blank: bytes = b""
    """What lies before the first header of the part that signs."""


_DECOY = b"--c\r\n" + OTHER_PART + b"\r\n--c\r\nContent-Type: text/plain\r\n\r\n2\r\n--c--\r\n"
_KIND = Letter().kind
LETTERS: Dict[str, Letter] = {
    "plain": Letter(),
    "boundary twice": Letter(_KIND + b"; boundary=c", decoy=_DECOY),
    "boundary twice, first": Letter(b"multipart/signed; boundary=c; boundary=b", decoy=_DECOY),
    "boundary in capitals": Letter(_KIND + b"; BOUNDARY=c", decoy=_DECOY),
    "boundary in segments": Letter(_KIND + b"; boundary*0=c", decoy=_DECOY),
    "boundary encoded": Letter(b"multipart/signed; boundary*=us-ascii''b"),
    "protocol twice": Letter(_KIND + b"; protocol=a/b"),
    "a comment": Letter(_KIND + b" (a comment)"),
    "a comment with a boundary": Letter(b"multipart/signed (; boundary=c); boundary=b", decoy=_DECOY),
    "a comment before": Letter(b"(one) multipart/signed; boundary=b"),
    "a quoted pair": Letter(b'multipart/signed; boundary="\\b"'),
    "a boundary of two words": Letter(b"multipart/signed; boundary=b c"),
    "a header twice": Letter(head=b"Content-Type: multipart/mixed; boundary=c\r\n", decoy=_DECOY),
    "a header twice in capitals": Letter(_KIND.replace(b'"b"', b'"B"'), head=b"Content-Type: " + _KIND + b"\r\n"),
    "a line that is no header": Letter(head=b"no header\r\n"),
    "a blank before the colon": Letter(name=b"Content-Type :"),
    "a lone CR": Letter(head=b"X-A: b\rContent-Type: multipart/mixed; boundary=c\r\n", decoy=_DECOY),
    "an encoded multipart": Letter(after=b"Content-Transfer-Encoding: base64\r\n"),
    "a lone CR before a boundary": Letter(decoy=b"x\r--b\r\n" + OTHER_PART + b"\r\n"),
    "a lone CR after a boundary": Letter(decoy=b"--b\rX: y\r\n\r\n" + OTHER_PART + b"\r\n"),
    "headers above 4 KiB": Letter(head=b"".join(b"X-%d: %s\r\n" % (it, b"y" * 60) for it in range(90))),
    "blanks after a boundary": Letter(delimiter=b"--b \t"),
    "characters that are not of base64": Letter(value=lambda der: b"**" + base64.encodebytes(der).replace(b"\n", b"\r\n*")),
    "an empty parameter": Letter(_KIND.replace(b"; ", b";; ")),
    "another encoding": Letter(coding=b"base64 (really)"),
    "a preamble": Letter(decoy=b"A preamble.\r\n"),
    "a folded header": Letter(_KIND.replace(b"; ", b";\r\n\t")),
    "a line that begins as a boundary": Letter(decoy=b"--bc\r\n" + OTHER_PART + b"\r\n"),
    "a last boundary with more": Letter(decoy=b"--b--X\r\n"),
    "a blank before the header of a part": Letter(blank=b"\t"),
    "an encoded word": Letter(b'multipart/signed; boundary="=?us-ascii?Q?b?="', delimiter=b"--=?us-ascii?Q?b?=", end=b"--=?us-ascii?Q?b?=--"),
    "a boundary in angles": Letter(b'multipart/signed; boundary="<b>"'),
    "a boundary in apostrophes": Letter(b"multipart/signed; boundary=\"'b'\"", delimiter=b"--'b'", end=b"--'b'--"),
    "a boundary that ends in a blank": Letter(b'multipart/signed; boundary="b "', delimiter=b"--b ", end=b"--b --"),
    "an empty line before": Letter(before=b"\r\n"),
    "a mark of UTF-8 before": Letter(before=b"\xef\xbb\xbf"),
    "a form feed in the type": Letter(_KIND.replace(b"; ", b";\f ")),
    "a control character": Letter(head=b"X-A: \1\r\n"),
    "21 headers of the type": Letter(head=(b"Content-Type: " + _KIND + b"\r\n") * 20),
}
MAILS_SAID = {  # the state, and the note, of part 2; or why the mail is damaged
    "plain": (FITS, ""), "blanks after a boundary": (FITS, ""), "a preamble": (FITS, ""), "a folded header": (FITS, ""),
    "headers above 4 KiB": (FITS, ""),
    "a header twice": ("damaged", "two headers"), "a header twice in capitals": ("damaged", "two headers"),
    "boundary twice": (FITS, "parameters or comments"), "boundary in capitals": (FITS, "parameters or comments"),
    "boundary in segments": (FITS, "parameters or comments"), "boundary encoded": (FITS, "parameters or comments"),
    "protocol twice": (FITS, "parameters or comments"), "a comment": (FITS, "parameters or comments"),
    "a comment with a boundary": (FITS, "parameters or comments"), "a comment before": (FITS, "parameters or comments"),
    "a quoted pair": (FITS, "parameters or comments"), "a line that is no header": (FITS, "a line among the headers"),
    "a blank before the colon": (FITS, "a line among the headers"), "a lone CR": (FITS, "a lone CR among the headers"),
    "an encoded multipart": (FITS, "said to be encoded"), "a lone CR before a boundary": (FITS, "lone CR beside a boundary"),
    "a line that begins as a boundary": (FITS, "begins as a boundary"), "a last boundary with more": (FITS, "begins as a boundary"),
    "a blank before the header of a part": (FITS, "a line among the headers"),
    "an encoded word": (FITS, "parameters or comments"), "a boundary in angles": (FITS, "parameters or comments"),
    "a boundary in apostrophes": (FITS, "parameters or comments"), "a boundary that ends in a blank": (FITS, "parameters or comments"),
    "an empty line before": (FITS, "before the first header"), "a mark of UTF-8 before": (FITS, "before the first header"),
    "a form feed in the type": (FITS, "parameters or comments"), "a control character": (FITS, "a control character among"),
    "21 headers of the type": ("damaged", "more than 20 headers"),
    "characters that are not of base64": (FITS, "not of base64"), "an empty parameter": (FITS, "parameters or comments"),
}


def letter_of(letter: Letter, sign: Callable[[bytes], bytes]) -> bytes:
    """Returns a signed mail."""
    signature = letter.blank + b"Content-Type: application/pkcs7-signature; name=smime.p7s\r\nContent-Transfer-Encoding: " + letter.coding + b"\r\n\r\n"
    return (
        letter.before + b"From: a@example.org\r\n" * (not letter.head.startswith(b"X-0")) + letter.head + b"MIME-Version: 1.0\r\n" + letter.name + b" " + letter.kind
        + b"\r\n" + letter.after + b"\r\n" + letter.decoy + letter.delimiter + b"\r\n" + SIGNED_PART + letter.between + letter.delimiter + b"\r\n"
        + signature + letter.value(sign(SIGNED_PART)) + b"\r\n" + letter.end + b"\r\n"
    )


def mixed_letter(random: Random) -> Letter:
    letter, plain = Letter(), Letter()
    for other in random.sample(list(LETTERS.values()), random.choice((0, 1, 1, 2))):
        letter = letter._replace(**{name: getattr(other, name) for name in Letter._fields if getattr(other, name) != getattr(plain, name)})
    return letter


def spoilt_letter(random: Random, octets: bytes) -> bytes:
    """Returns a mail of which some octets outside of the signed part are others: such as readers look at."""
    changed = bytearray(octets)
    for _ in range(random.choice((0, 1, 1, 2))):
        at, end = random.randrange(len(changed)), changed.find(SIGNED_PART)
        if at < end or at > end + len(SIGNED_PART):
            piece = random.choice((b"\r", b"\n", b"\r\n", b" ", b";", b'"', b"(", b")", b"--b", b"\0", b":", b"=", b"\\", b"b", b"\t", b""))
            changed[at : at + random.randrange(2)] = piece
    return bytes(changed)


def first_part(mail) -> bytes:
    """Returns what Python's email shows of the first part of the outermost multipart/signed; nothing if there is none."""
    for part in mail.walk():
        if part.get_content_type() == "multipart/signed" and part.is_multipart():
            return shown_of(part.get_payload(0))
    return b""


def shown_of(part) -> bytes:
    leaves = (it.get_payload(decode=True) for it in part.walk() if not it.is_multipart())
    return b"".join((it or b"").replace(b"\r\n", b"\n") + b"\0" for it in leaves)


def seen_by_email(octets: bytes, policy) -> bytes:
    try:
        return first_part(email.message_from_bytes(octets, policy=policy))
    except Exception:  # of any kind: a mail that it cannot take apart shows nothing
        return b""


JAVA_MAIL = [Path("/usr/share/java") / it for it in ("javax.mail.jar", "javax.activation.jar")]


def seen_by_java(folder: Path) -> Dict[str, str]:
    ran = subprocess.run(
        ["java", "-cp", ":".join(map(str, JAVA_MAIL)), str(DATA / "FirstParts.java"), str(folder)],
        capture_output=True, text=True, timeout=SECONDS,
    )
    return dict(line.split(" ") for line in ran.stdout.splitlines())


def seen_by_openssl(path: Path) -> bytes:
    """Returns what openssl takes for the content of a mail, if it verifies it."""
    words = ["openssl", "cms", "-verify", "-inform", "SMIME", "-noverify", "-in", str(path)]
    ran = subprocess.run(words, capture_output=True, timeout=SECONDS)
    return ran.stdout if ran.returncode == 0 else b""


@pytest.mark.parametrize("name", MAILS_SAID)
def test_odd_mail(archive, home, make, name):
    """Each oddity by itself is said as it is."""
    came, facts = said_in(archive, home, f"{name}.eml", letter_of(LETTERS[name], make.cms))
    count_first(f"mail with {name}", came, facts, *MAILS_SAID[name], where="part 2" if "part 2" in came else "")


def test_digest(archive, home, make):
    digest = b"From: a@example.org\r\nContent-Type: multipart/digest; boundary=d\r\n\r\n--d\r\n\r\n%s\r\n--d--\r\n" % letter_of(Letter(), make.cms)
    came, _ = said_in(archive, home, "digest.eml", digest)
    count_same("a mail in a digest", came, {"part 1/mail.2": FITS, "": "container"})


QUOTED_SAID = {  # what is attached in quoted-printable, and whether all readers have the same octets for it
    "plain": (b"%s", True), "blanks at the end of a line": (b"%s \r\n", False), "small letters": (b"%s=0a", False), "no digits": (b"%s=x", False),
    "a lone CR": (b"%s\r.", False), "a soft line break": (b"=\r\n%s", True),
}


@pytest.mark.parametrize("name", QUOTED_SAID)
def test_quoted(archive, home, make, name):
    """What is attached in quoted-printable has a note if readers may decode it in another way."""
    template, is_same = QUOTED_SAID[name]
    message = "".join(f"={octet:02X}" for octet in make.cms(b"signed", "-nodetach")).encode()
    mail = b"From: a\r\nContent-Type: application/pkcs7-mime\r\nContent-Transfer-Encoding: quoted-printable\r\n\r\n" + template % message
    note = said_in(archive, home, "quoted.eml", mail)[1]["body"].note
    count_if(f"quoted-printable: {name}", not note if is_same else "of quoted-printable" in note, note)


def test_boxes(archive, home, make):
    """Lines that begin with From, which readers of an mbox take otherwise, have a note."""
    for name, line, signed, words in (
        ("quoted", b">From here on.\r\n", b"From here on.\r\n", "without >"), ("in the middle", b"From a@b Mon Jan  1 00:00:00 2024\r\n", b"", "begins with From"),
        ("none", b"", b"", ""),
    ):
        part = SIGNED_PART + line
        der = make.cms(SIGNED_PART + (signed or line))
        box = b"From a@b Mon Jan  1 00:00:00 2024\n" + letter_of(Letter(), lambda _: der).replace(SIGNED_PART, part) + b"\n"
        came, facts = said_in(archive, home, f"{name}.mbox", box)
        count_first(f"an mbox, {name}", came, facts, FITS, words, where="mail 1!part 2")


def test_leaves(archive, home, make):
    """What lies in a text of a mail, or in a part of any type, is found; so is PEM after what seems to be a header."""
    pem, der = make.cms(b"signed", "-nodetach", form="PEM"), base64.encodebytes(make.cms(b"signed", "-nodetach"))
    pgp = b"-----BEGIN PGP SIGNED MESSAGE-----\nHash: SHA512\n\ntext\n-----BEGIN PGP SIGNATURE-----\n\nAAAA\n-----END PGP SIGNATURE-----\n"
    coded = b"Content-Transfer-Encoding: base64\n\n" + der
    for name, octets, place, wanted in (
        ("text.eml", b"From: a\nSubject: x\n\n" + pem, "body", FITS), ("openpgp.eml", b"From: a\n\n" + pgp, "body", "other signed format"),
        ("subject.pem", b"Subject: x\n" + pem, "body", FITS), ("application.eml", b"From: a\nContent-Type: application/cms\n" + coded, "body", FITS),
        ("mixed.eml", b"From: a\nContent-Type: multipart/mixed; boundary=c\n\n--c\nContent-Type: x/y\n" + coded + b"\n--c--\n", "part 1", FITS),
        ("words.eml", b"From: a\n\nSome words.\n", "", "container without message"),
    ):
        came, _ = said_in(archive, home, name, octets)
        count_if(f"a leaf of a mail: {name}", came.get(place) == wanted, came)


def test_line_ends(archive, home, make):
    """A part that was signed with LF as it is, as AS2 does it, fits with a note; with another octet it does not."""
    part = SIGNED_PART.replace(b"\r\n", b"\n") + b"\0\n"
    mail = letter_of(Letter(coding=b"binary", value=lambda der: der), lambda _: make.cms(part)).replace(SIGNED_PART, part)
    for name, octets, wanted, note in (("as it is", mail, FITS, "with LF"), ("changed", mail.replace(b"What", b"Whet"), DIFFERS, "")):
        came, facts = said_in(archive, home, f"LF {name}.eml", octets)
        count_if(f"a part with LF, {name}", came.get("part 2") == wanted and note in facts["part 2"].note, came, facts["part 2"].note)


def test_mails_at_random(archive, home, make, tally):
    """What is said to fit without a note is what Python's email, JavaMail and openssl show of the part."""
    random, der = Random(SEED), make.cms(SIGNED_PART)
    letters = [letter_of(it, lambda _: der) for it in LETTERS.values()]
    letters += [spoilt_letter(random, letter_of(mixed_letter(random), lambda _: der)) for _ in range(MAILS)]
    wrong, fitting_ones, shown = [], [], shown_of(email.message_from_bytes(SIGNED_PART, policy=compat32))
    for count_of, octets in enumerate(letters):
        if fitting(said_in(archive, home, f"{count_of:05d}.eml", octets)[1]):
            fitting_ones.append(home / f"{count_of:05d}.eml")
    has_java = tally.has("java") and all(it.exists() for it in JAVA_MAIL)
    if not has_java:
        tally.skip("JavaMail", "libmail-java or java is not installed")
    by_java = seen_by_java(home) if has_java else {}
    for path in fitting_ones:
        octets = path.read_bytes()
        views = [seen_by_email(octets, compat32), seen_by_email(octets, default)]
        other = by_java.get(path.name)
        if any(it != shown for it in views) or has_java and other != hashlib.sha256(shown).hexdigest():
            wrong.append((path.name, views, other, octets[:600]))
        elif seen_by_openssl(path) not in (b"", SIGNED_PART):
            wrong.append((path.name, "openssl"))
    name = f"{len(letters):,} mails, of which {len(fitting_ones):,} are said to fit without a note"
    count(name, wrong[:3] or ("" if len(fitting_ones) > len(letters) // 20 else "too few fit"))
