"""Signatures in PDF: the hole that a ByteRange leaves out is /Contents (ISO 32000-2, section 12.8).

A search in the octets finds signatures of replaced revisions and of encrypted files too. `forms` says which signatures a parser finds in the form:
of any other, and if the two differ, a note says so. What follows the message in the hole is cut where E18 says that the message ends: an indefinite
length ends in zeros, too.
"""

from __future__ import annotations

import binascii
import re
import zlib
from dataclasses import replace
from io import BytesIO, RawIOBase
from typing import Callable, Dict, Iterator, List, NamedTuple, Optional, Sequence, Tuple

import cms_canon

from .forms import IN_NO_FIELD, MOST_OBJECTS, Form, FormSignature, attachments_of, form_of
from .found import Class, Content, Found, Pieces, State, digest_of, is_message
from .sources import PIECE, Budget, Readable, Source, TooLarge

Search = Callable[[Source], Iterator[Found]]

_RANGE = re.compile(rb"/ByteRange\s*\[\s*(\d{1,12})\s+(\d{1,12})\s+(\d{1,12})\s+(\d{1,12})\s*\]")
_SUBFILTER = re.compile(rb"/SubFilter\s*/([A-Za-z0-9._#-]{1,64})")
_BLANKS = b" \t\r\n\f\0"
_EOF = b"%%EOF"
BEGIN = b"%PDF-"
_STEPS = 4  # that a PDF costs
BEGINS_WITHIN = 1024  # octets in which a PDF may begin
MOST_RANGES = 10_000  # of one file that are read
MOST_OF_A_HOLE = 100  # that leave out one hole
_NEAR = 8192  # octets around a ByteRange in which the rest of its dictionary is looked for
_TRAILING = 18  # the reason of E18
_SHA1_INSIDE = "adbe.pkcs7.sha1"
_NO_CMS = "adbe.x509.rsa_sha1"
_NOT_CONTENTS = "the ByteRange leaves out something else than /Contents"
_OTHER_CONTENTS = "a field of the form has another /Contents for this ByteRange, so that readers differ"


def _hole(octets: bytes, begin: int, end: int) -> Optional[bytes]:
    """Returns what these octets hold in hexadecimal digits; None if they hold anything else."""
    if octets[begin : begin + 1] != b"<" or octets[end - 1 : end] != b">":
        return None
    digits = octets[begin + 1 : end - 1].translate(None, _BLANKS)
    try:
        return binascii.unhexlify(digits + b"0" * (len(digits) % 2))  # a last digit that is missing is zero (section 7.3.4.3)
    except binascii.Error:
        return None


def _cut(padded: bytes) -> bytes:
    """Returns the message without what follows it. Zeros are not stripped: a message of indefinite length ends in some of its own."""
    try:
        cms_canon.convert(padded)
    except cms_canon.Refused as refused:
        if refused.reason == _TRAILING and refused.at is not None:
            return padded[: refused.at - 1]
    return padded


def _subfilter(octets: bytes, range_at: int, range_end: int, begin: int, end: int) -> str:
    """Returns the SubFilter of the dictionary that has a ByteRange and the hole from `begin` to `end`, as far as it is near."""
    if range_end <= begin <= range_end + _NEAR:  # the hole follows
        before, after = octets[max(0, range_at - _NEAR) : range_at], octets[range_end:begin] + octets[end : end + _NEAR]
    elif range_at - _NEAR <= end <= range_at:
        before, after = octets[max(0, begin - _NEAR) : begin] + octets[end:range_at], octets[range_end : range_end + _NEAR]
    else:
        before, after = octets[max(0, range_at - _NEAR) : range_at], octets[range_end : range_end + _NEAR]
    found = _SUBFILTER.search(before.rpartition(b" obj")[2]) or _SUBFILTER.search(after.partition(b"endobj")[0])
    return found[1].decode("ascii") if found else "without SubFilter"


class _Range(NamedTuple):
    """A ByteRange: the beginning of what it covers, the hole that it leaves out, the end of what it covers, and its own place."""

    first: int
    begin: int
    end: int
    last: int
    at: int
    after: int
    of_form: Optional[FormSignature] = None

    @property
    def distance(self) -> int:
        """How many octets lie between it and the hole."""
        return max(self.begin - self.after, self.at - self.end, 0)

    def with_other(self, other: _Range) -> _Range:
        """Returns the one of two equal ByteRanges that is next to the hole, with the signature of the form that has it."""
        nearer = min(self, other, key=lambda it: it.distance)
        known = [it.of_form for it in (self, other) if it.of_form is not None]
        if len(known) == 2 and known[0].contents != known[1].contents:
            return nearer._replace(of_form=replace(known[0], contents=None))
        return nearer._replace(of_form=known[0] if known else None)

    @property
    def where(self) -> str:
        """Which octets it covers, in words."""
        return f"ByteRange {self.first} {self.begin - self.first} {self.end} {self.last - self.end}"


class _Ranges:
    """The ByteRanges of a file, by the holes that they leave out, and how many there are that cannot be used."""

    def __init__(self, octets: bytes, budget: Budget) -> None:
        self.by_hole: Dict[Tuple[int, int], Dict[Tuple[int, int], _Range]] = {}
        self.outside = self.count = self.of_form_alone = 0
        self.is_too_many = False
        self._octets = octets
        self.before = max(0, octets[:BEGINS_WITHIN].find(BEGIN))  # octets before the PDF, from where on readers may count
        taken = 0
        for named in _RANGE.finditer(octets):
            budget.take_member()
            taken += 1
            self.outside += not self.add(tuple(map(int, named.groups())), *named.span())
        self.others = octets.count(b"/ByteRange") - taken

    def add(self, numbers: Sequence[int], at: int, after: int, of_form: Optional[FormSignature] = None) -> bool:
        """Adds a ByteRange, of equal ones the one next to the hole. Whether it lies in the file."""
        first, begin, end, length = numbers
        if first or not 0 < begin < end <= end + length <= len(self._octets):
            return False
        shift = self.before if self._is_shifted(begin, end, length) else 0
        found = _Range(shift, begin + shift, end + shift, end + length + shift, at, after, of_form)
        if self.count >= MOST_RANGES:
            self.is_too_many = True
            return True
        ranges = self.by_hole.setdefault((found.begin, found.end), {})
        known = ranges.get((found.first, found.last))
        ranges[found.first, found.last] = found if known is None else known.with_other(found)
        self.count += known is None
        self.of_form_alone += known is None and of_form is not None
        return True

    def _is_shifted(self, begin: int, end: int, length: int) -> bool:
        """Whether a ByteRange counts from where the PDF begins, and not the file: a hole is there, and none in the file."""
        if not self.before or end + length + self.before > len(self._octets):
            return False
        own, other = (self._octets[it + begin : it + begin + 1] + self._octets[it + end - 1 : it + end] for it in (0, self.before))
        return other == b"<>" != own

    def refused(self, known: int) -> Iterator[Found]:
        """Gives how many ByteRanges cannot be used, if there are more than are known to."""
        some = (self.outside, "outside the file"), (self.others, "without four numbers")
        notes = [f"{number:,} ByteRange{'' if number == 1 else 's'} {why}" for number, why in some if number]
        if self.outside + self.others > known:
            yield Found("ByteRange", "PDF", Class.DAMAGED, 0, note="; ".join(notes))


def _bound_of(octets: bytes, covered: _Range) -> Tuple[State, str]:
    """Returns what is to be said if the digests fit what a ByteRange covers: all of the file, a revision of it, or something else."""
    if not octets[covered.last :].strip(_BLANKS):
        blanks = len(octets) - covered.last
        note = f"{blanks:,} blanks follow, which some readers take for a change" if blanks else ""
        return State.PARTLY if covered.first else State.FITS, note
    note = f"{len(octets) - covered.last:,} octets follow that it does not cover"
    is_revision = octets[max(0, covered.last - _NEAR) : covered.last].rstrip(_BLANKS).endswith(_EOF)
    is_covered = covered.after <= covered.last and not covered.begin <= covered.at < covered.end
    return (State.EARLIER if is_revision and is_covered else State.NO_REVISION), note


class _Pdf:
    """A PDF that is searched, and its form."""

    def __init__(self, source: Source) -> None:
        self.octets = source.octets()
        self.budget = source.budget
        self.ranges = _Ranges(self.octets, source.budget)
        self.form = form_of(self.octets, source.budget)
        self.refused = [(it, why) for it in self.form.signatures if (why := self._why_refused(it))]

    def _why_refused(self, signature: FormSignature) -> str:
        """Adds the ByteRange of a signature of the form to those that were found. Returns why it cannot be used, if that is so."""
        if not signature.ranges:
            return "the signature has no ByteRange of numbers" if signature.has_range else "the signature has no ByteRange"
        if len(signature.ranges) != 4:
            return f"the ByteRange of the signature has {len(signature.ranges)} numbers, and not four"
        is_inside = self.ranges.add(signature.ranges, len(self.octets), len(self.octets), signature)
        return "" if is_inside else "the ByteRange of the signature lies outside of the file"

    def why_unsure(self, covered: _Range, padded: bytes) -> str:
        """Returns why readers may differ on a signature, or not show it; empty if that is not so."""
        if self.form.why_unsure:
            return self.form.why_unsure
        if covered.of_form is None:
            return IN_NO_FIELD
        return covered.of_form.note if covered.of_form.contents == padded else _OTHER_CONTENTS

    @property
    def before(self) -> str:
        """What is to be said of octets before the PDF: some readers count from there, and others from the beginning of the file."""
        return f"readers differ on the {self.ranges.before:,} octets before the PDF" if self.ranges.before else ""

    def signature(self, where: str, covered: _Range, message: bytes, more: str) -> Found:
        """Returns a signature, of which more is to be said, with what it covers."""
        name = self.subfilter(covered)
        if name == _NO_CMS and not is_message(message):
            return Found(where, f"PDF {name}", Class.OTHER, len(message), note="a signature of PKCS #1")
        view = memoryview(self.octets)
        pieces = Pieces(view[covered.first : covered.begin], view[covered.end : covered.last])
        bound, note = _bound_of(self.octets, covered)
        note = "; ".join(filter(None, (note, self.before, more)))
        content = Content(covered.where, covered.begin - covered.first + covered.last - covered.end, pieces, bound, note)
        if name == _SHA1_INSIDE:
            digest = digest_of(pieces, "sha1")
            content = Content(f"SHA-1 of {covered.where}", len(digest), Pieces(digest), bound, note, is_due_inside=True)
        return Found(where, f"PDF {name}", Class.MESSAGE, len(message), message, content, is_detached=True)

    def subfilter(self, covered: _Range) -> str:
        return covered.of_form.subfilter if covered.of_form else _subfilter(self.octets, covered.at, covered.after, covered.begin, covered.end)

    def in_hole(self, ranges: List[_Range]) -> Iterator[Found]:
        """Gives the signature in one hole once for each ByteRange that leaves it out. The first is next to it, and named by the hole alone."""
        first = ranges[0]
        self.budget.take(len(self.octets))  # or many ByteRanges in a large file would take quadratic time
        padded = _hole(self.octets, first.begin, first.end)
        where = f"signature at {first.begin}"
        if padded is None:
            yield Found(where, f"PDF {self.subfilter(first)}", Class.DAMAGED, 0, note=_NOT_CONTENTS)
            return
        message = _cut(padded)
        more = "something else than zeros follows the message in /Contents" if padded[len(message) :].strip(b"\0") else ""
        for covered in ranges[:MOST_OF_A_HOLE]:
            self.budget.take(len(self.octets) if covered is not first else 0)
            notes = "; ".join(filter(None, (more, self.why_unsure(covered, padded))))
            yield self.signature(where if covered is first else f"{where} to {covered.last}", covered, message, notes)
        if len(ranges) > MOST_OF_A_HOLE:
            note = f"{len(ranges):,} ByteRanges leave out one hole, of which {MOST_OF_A_HOLE:,} are read"
            yield Found(f"{where} to others", "PDF", Class.TOO_LARGE, 0, note=note)


class _Inflated(RawIOBase):
    """What is packed by zlib, unpacked as it is read."""

    def __init__(self, octets: bytes) -> None:
        self._rest = octets
        self._unpack = zlib.decompressobj()

    def read(self, size: int = -1) -> bytes:
        octets = self._unpack.decompress(self._rest, min(size, PIECE) if size >= 0 else PIECE)
        self._rest = self._unpack.unconsumed_tail
        return octets


def _in_attachments(source: Source, form: Form, search: Search) -> Iterator[Found]:
    """Gives what is in the files that are attached."""
    for attached in attachments_of(form, source.budget):
        place = f"attachment {attached.name}"
        if attached.filters not in ((), ("FlateDecode",)):
            yield Found(place, "PDF", Class.NOT_LOOKED_INTO, len(attached.octets), note=f"an attachment that is packed by {' and '.join(attached.filters)}")
            continue
        file: Readable = _Inflated(attached.octets) if attached.filters else BytesIO(attached.octets)
        try:
            yield from _in_attachment(place, search(source.inner(attached.name, file, 0 if attached.filters else len(attached.octets))))
        except zlib.error as why:
            yield Found(place, "PDF", Class.DAMAGED, len(attached.octets), note=str(why))
    if form.has_others:
        yield Found("attachments", "PDF", Class.NOT_LOOKED_INTO, 0, note=f"files that are attached to pages: it has more than {MOST_OBJECTS:,} objects")


def _in_attachment(place: str, found: Iterator[Found]) -> Iterator[Found]:
    for one in found:
        if one.what not in (Class.TEXT, Class.NO_CANDIDATE):
            yield (one.with_content(None) if one.wants else one).within(place)


def in_pdf(source: Source, search: Search) -> Iterator[Found]:
    """Gives each signature of a PDF in the order of the file, of all its revisions, then how many ByteRanges cannot be used, what is in the files that
    are attached, and last the PDF."""
    source.budget.take_steps(_STEPS)
    pdf = _Pdf(source)
    for some in list(pdf.ranges.by_hole.values()):
        yield from pdf.in_hole(sorted(some.values(), key=lambda it: it.distance))
    for it, why in pdf.refused:
        yield Found(f"signature in {it.field or 'a field without name'}", f"PDF {it.subfilter}", Class.DAMAGED, 0, note=why)
    yield from pdf.ranges.refused(pdf.ranges.of_form_alone + sum(it.has_range for it, _ in pdf.refused))
    yield from _in_attachments(source, pdf.form, search)
    yield Found("", "PDF", Class.EMPTY, source.size, note=pdf.form.why_unsure)
    if pdf.ranges.is_too_many:
        raise TooLarge(f"it has more than {MOST_RANGES:,} ByteRanges")
