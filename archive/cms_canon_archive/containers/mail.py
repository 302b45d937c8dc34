"""Signed mail: S/MIME (RFC 8551) in one message, as .eml or in a Maildir, or in an mbox.

What is signed are the exact octets of a part, so the parts are cut out of what was read; `email` is asked for headers alone.

Parts are cut out of the octets, since `email` gives them back changed under any policy: blanks after a colon, a missing last boundary, a
lone CR. It reads the headers that say what a part is, none longer than 8 KiB, since it takes quadratic time for one. Whatever readers take apart
differently, as two parameters of one name, has a note.
"""

from __future__ import annotations

import binascii
import io
import re
from dataclasses import dataclass, replace
from email.message import Message
from email.parser import BytesHeaderParser
from email.policy import compat32
from functools import cached_property
from itertools import chain, islice
from typing import BinaryIO, Callable, Dict, Iterator, List, NamedTuple, Optional, Tuple

import cms_canon

from .found import Class, Content, Due, Found, Octets, Pieces, State
from .sources import MOST_IN_MEMORY, PIECE, Budget, Source, TooLarge, in_memory
from .spans import Span, span_of

Search = Callable[[Source], Iterator[Found]]

_CMS_TYPES = {
    *(f"application/{prefix}pkcs7-{it}" for prefix in ("", "x-") for it in ("mime", "signature")),
    *("application/timestamp-reply", "application/timestamp-token", "application/cms"),
}
_SIGNATURE_TYPES = {it for it in _CMS_TYPES if it.endswith("-signature") or "timestamp" in it}
_OTHERS = "other parts are not covered"
_WITH_LF = "it was signed as it is, with LF at the ends of lines: readers differ on that"
_WITHOUT_QUOTE = "it was signed without > before From at the beginning of a line: readers differ on that"
_DIFFERS = (7, 9)  # the findings that say that the content is another one, or is not there
_OPENPGP_TYPES = {"application/pgp-signature"}
_DEEPEST_PART = 20  # parts inside one another
_LONGEST_HEADER = 8192  # octets of one header: `email` takes quadratic time for a long one
_HEADER = re.compile(rb"^(content-(?:type|transfer-encoding|disposition))[ \t]*:(?:[^\n]*\n[ \t])*[^\n]*", re.M | re.I)
_BEFORE = re.compile(rb"(?:\xef\xbb\xbf)?(?:\r?\n)*")
_END_OF_HEADERS = re.compile(rb"(?:\A|\r?\n)\r?\n")
_LINE_END = re.compile(rb"\r?\n")
_REST_OF_DELIMITER = re.compile(rb"(--)?[ \t]*(?=\r?\n|\Z)")
_MAIL = re.compile(rb"(?:from|to|date|subject|received|return-path|delivered-to|message-id|mime-version|content-type)[ \t]*:", re.I)
_FIRST_HEADER = re.compile(rb"[!-9;-~]+[ \t]*:")
_NO_HEADER = re.compile(rb"^(?![!-9;-~]+:|[ \t]|\r?$|\Z)", re.M)  # a line that is none, nor the rest of one
_LONE_CR = re.compile(rb"\r(?!\n)")
_CONTROL = re.compile(rb"[\0-\x08\x0b\x0c\x0e-\x1f\x7f]")
_LINE_BLANKS = r"[ \t\r\n]*"
_PARAMETER = rf';{_LINE_BLANKS}([\w.-]+(?:\*\d*)?\*?)=(?:"[^"\\\r\n]*"|[^\s;"()<>@,:/\[\]?=\\]+){_LINE_BLANKS}'
_PLAIN_TYPE = re.compile(rf"{_LINE_BLANKS}[\w.+-]+/[\w.+-]+{_LINE_BLANKS}(?:{_PARAMETER})*(?:;{_LINE_BLANKS})?\Z", re.A)
_BOUNDARY = re.compile(r';[ \t\r\n]*boundary=("[^"]*"|[^\s;"]*)', re.I)
_PLAIN_BOUNDARY = re.compile(r'"?[\w()+,./:=?-](?:[\w()+,./:=? -]*[\w()+,./:=?-])?"?\Z', re.A)  # without apostrophes, which Python takes for nothing
_NAMES_OF_PARAMETERS = re.compile(_PARAMETER, re.A)
_QUOTED_OR_COMMENT = re.compile(r'"(?:[^"\\]|\\.)*"|\((?:[^()\\]|\\.)*\)', re.S)
_DEEPEST_COMMENT = 3  # inside one another
_QUOTED_PAIR = re.compile(r"\\(.)", re.S)
_ODD_QUOTED = re.compile(rb"[ \t]\r?$|=(?![0-9A-F]{2}|\r?\n)|\r(?!\n)", re.M)
_AS_IT_IS = ("7bit", "8bit", "binary")  # the encodings that change nothing
_MOST_TYPES = 20  # headers that say what a part is
_FROM = re.compile(rb"^From ", re.M)
_ARMOUR = b"-----BEGIN "
_ALPHABET = re.compile(rb"[A-Za-z0-9+/\s]*(?:=\s*){0,2}\Z")
_MOST_HEADERS = 1 << 20  # octets before a header that mails have
_QUOTED_FROM = re.compile(rb"^>(>*From )", re.M)
_HEADERS = BytesHeaderParser(policy=compat32)
_NO_HEADERS = Message(policy=compat32)
_BLANKS_BEFORE_COLON = re.compile(rb"[ \t]+:")


class _Damaged(Exception):
    """A mail that cannot be taken apart."""


@dataclass(frozen=True)
class _Part:
    """A part: what its headers say of it, what readers may take otherwise, and its body."""

    headers: Message
    kind: str
    boundary: Optional[str]
    notes: Tuple[str, ...]
    body: Span

    @cached_property
    def coding(self) -> str:
        return str(self.headers.get("Content-Transfer-Encoding") or "7bit").strip().lower()

    @cached_property
    def note_of_coding(self) -> str:
        """What readers differ on in its encoding."""
        if self.coding == "base64" and not _ALPHABET.match(self.body.view):
            return "readers differ on characters that are not of base64"
        if self.coding == "quoted-printable" and _ODD_QUOTED.search(self.body.view):
            return "readers differ on characters of quoted-printable"
        is_known = self.coding in (*_AS_IT_IS, "base64", "quoted-printable")
        return "" if is_known else "readers differ on Content-Transfer-Encoding"


@dataclass(frozen=True)
class _Around:
    """What is to be said of what lies around a part."""

    has_others: bool = False
    """Whether there are other parts beside it."""
    notes: Tuple[str, ...] = ()

    def within(self, part: _Part) -> _Around:
        """Returns the same for what is in a part."""
        return replace(self, notes=tuple(dict.fromkeys((*self.notes, *part.notes))))

    def note(self, *more: str) -> str:
        return "; ".join(filter(None, (*self.notes, *more, _OTHERS if self.has_others else "")))


def _begun(octets: bytes) -> bytes:
    """Returns a mail without what some programs write before its first header."""
    return octets[begin.end() :] if (begin := _BEFORE.match(octets)) else octets


def is_mail(head: bytes) -> bool:
    """Whether a file that begins so is a mail: the first line is a header, and one of them is one that mails have."""
    if b":" not in head or not _FIRST_HEADER.match(head := _begun(head)):
        return False
    end = _END_OF_HEADERS.search(head)
    headers = head[: end.start()] if end else head
    return any(map(_MAIL.match, headers.split(b"\n")))


def is_mail_further(source: Source) -> bool:
    """Whether a file that begins with headers alone is a mail by one of the headers that follow."""
    if b":" not in source.head:
        return False
    head = _begun(source.head)
    is_headers = _FIRST_HEADER.match(head) and not _END_OF_HEADERS.search(head) and not _NO_HEADER.search(head, 0, head.rfind(b"\n") + 1)
    return bool(is_headers) and is_mail(source.octets()[:_MOST_HEADERS])


def _headers_in(head: bytes) -> List[bytes]:
    """Returns the headers that say what the content is. Raises `_Damaged` if one is too long, two say it differently, or there are too many."""
    wanted: List[bytes] = []
    said: Dict[bytes, bytes] = {}
    for header in _HEADER.finditer(head):
        if len(header[0]) > _LONGEST_HEADER:
            raise _Damaged("a header is too long")
        wanted.append(header[0])
        value = b"".join(header[0].partition(b":")[2].split())
        if said.setdefault(header[1].lower(), value) != value:
            raise _Damaged("two headers say differently what the content is")
        if len(wanted) > _MOST_TYPES:
            raise _Damaged(f"more than {_MOST_TYPES} headers say what the content is")
    return wanted


def _of_headers(head: bytes) -> Iterator[str]:
    """Gives what readers differ on among headers."""
    if _NO_HEADER.search(head) or head.startswith((b" ", b"\t")):
        yield "readers differ on a line among the headers that is none"
    if _LONE_CR.search(head):
        yield "readers differ on a lone CR among the headers"
    if _CONTROL.search(head):
        yield "readers differ on a control character among the headers"


def _armour_in(head: bytes) -> int:
    """Returns where a line begins PEM; -1 if none does."""
    if head.startswith(_ARMOUR):
        return 0
    at = head.find(b"\n" + _ARMOUR)
    return at + 1 if at >= 0 else -1


def _part_of(span: Span, usual: str = "text/plain") -> _Part:
    """Returns what the headers say of a part, which without them is of the usual type, and its body."""
    end = _END_OF_HEADERS.search(span.view)
    begin = span.begin + end.end() if end else span.end
    head, body = span.whole[span.begin : begin], span.part(begin, span.end)
    notes = list(_of_headers(head))
    if (at := _armour_in(head)) >= 0:  # of a text that is no mail, for other readers
        head, body = head[:at], span.part(span.begin + at, span.end)
    wanted = _headers_in(head)
    if not wanted:
        return _Part(_NO_HEADERS, usual, None, tuple(notes), body)
    lines = (_BLANKS_BEFORE_COLON.sub(b":", it, 1).rstrip(b"\r") for it in wanted)
    headers = _HEADERS.parsebytes(b"\r\n".join(lines) + b"\r\n\r\n")
    text = next((str(value) for name, value in headers.raw_items() if name.lower() == "content-type"), None)
    if text is None:
        return _Part(headers, usual, None, tuple(notes), body)
    if is_plain_type(text):
        boundary = headers.get_boundary()
        return _Part(headers, headers.get_content_type(), None if boundary is None else str(boundary), tuple(notes), body)
    return _Part(headers, *_type_of(text), (*notes, "readers differ on the parameters or comments of Content-Type"), body)


def is_plain_type(text: str) -> bool:
    """Whether all readers take a Content-Type as the same: without comments and encoded words, with a boundary as RFC 2046 has it, and with no two
    parameters of one name."""
    if not _PLAIN_TYPE.match(text) or "=?" in text or not all(map(_PLAIN_BOUNDARY.match, _BOUNDARY.findall(text))):
        return False
    names = [it.lower().partition("*") for it in _NAMES_OF_PARAMETERS.findall(text, text.index("/"))]
    whole = [name + (star and "*") for name, star, _ in names if not star or name == "boundary"]
    return len(set(whole)) == len(whole) and not any(name == "boundary" and star for name, star, _ in names)


def _type_of(text: str) -> Tuple[str, Optional[str]]:
    """Returns the type and the boundary of a Content-Type with comments, or other things that readers differ on. `email` knows no comments."""
    for _ in range(_DEEPEST_COMMENT):
        text = _QUOTED_OR_COMMENT.sub(lambda it: it[0] if it[0][0] == '"' else " ", text)
    bare = Message(policy=compat32)
    bare["Content-Type"] = text.strip()
    boundary = bare.get_boundary()
    return bare.get_content_type(), None if boundary is None else _QUOTED_PAIR.sub(r"\1", str(boundary).strip())


def _decoded(part: _Part) -> bytes:
    """Returns the octets of a body. Raises `_Damaged` if they are not encoded as is said."""
    try:
        if part.coding == "base64":
            return binascii.a2b_base64(part.body.view)
    except binascii.Error as error:
        raise _Damaged(f"it is not {part.coding}: {error}")
    if part.coding != "quoted-printable":
        return part.body.octets()
    octets = io.BytesIO()  # which hands them over without a copy
    for lines in part.body.lines():
        octets.write(binascii.a2b_qp(lines))
    return octets.getvalue()


def _most_decoded(part: _Part) -> int:
    """Returns how many octets a body has at most when it is decoded."""
    return 3 * part.body.length // 4 if part.coding == "base64" else part.body.length


def _of_delimiters(part: _Part, boundary: bytes) -> Iterator[str]:
    """Gives what readers differ on in a multipart."""
    if part.coding not in _AS_IT_IS:
        yield "readers differ on a multipart that is said to be encoded"
    delimiter, view = re.escape(b"--" + boundary), part.body.view
    if re.search(rb"\r" + delimiter + rb"|" + delimiter + rb"(?:--)?[ \t]*\r(?!\n)", view):
        yield "readers differ on a lone CR beside a boundary"
    if re.search(rb"(?:\A|\n)" + delimiter + rb"(?!(?:--)?[ \t]*\r?(?:\n|\Z))", view):
        yield "readers differ on a line that begins as a boundary"


def _delimiters_in(body: Span, boundary: bytes) -> Iterator[Tuple[int, int, bool]]:
    """Gives where each delimiter line begins, with the line end before it, and ends, and whether it is the last (RFC 2046, section 5.1.1)."""
    delimiter, whole, at = b"--" + boundary, body.whole, body.begin
    while (begin := whole.find(delimiter, at, body.end)) >= 0:
        at = begin + len(delimiter)
        rest = _REST_OF_DELIMITER.match(whole, at, body.end)
        line_end = whole[max(body.begin, begin - 2) : begin]
        if rest and (not line_end or line_end.endswith(b"\n")):
            before = 0 if not line_end else 2 if line_end == b"\r\n" else 1
            yield begin - before, rest.end(), bool(rest[1])


def _parts_in(body: Span, boundary: bytes, budget: Budget) -> Iterator[Span]:
    """Gives what lies between two delimiter lines. Two of them may share a line end."""
    begin = None
    for end, after, is_last in _delimiters_in(body, boundary):
        budget.take_member()
        if begin is not None:
            yield body.part(begin, end)
        if is_last:
            return
        line_end = _LINE_END.match(body.whole, after, body.end)
        begin = line_end.end() if line_end else after
    if begin is not None:
        yield body.part(begin, body.end)


class _CanonicalLines:
    """Octets with CRLF at the end of each line, as they are signed (RFC 8551, section 3.1.1)."""

    def __init__(self, span: Span) -> None:
        self._span = span

    @cached_property
    def is_same(self) -> bool:
        """Whether the octets are so already."""
        return all(piece.count(b"\n") == piece.count(b"\r\n") for piece in self._span.lines())

    def __iter__(self) -> Iterator[Octets]:
        if self.is_same:
            yield self._span.view
            return
        for piece in self._span.lines():
            yield piece.replace(b"\r\n", b"\n").replace(b"\n", b"\r\n")


class Mail:
    """One mail, within the budget of its source. What is attached is searched by `search`."""

    def __init__(self, source: Source, search: Search) -> None:
        self._source = source
        self._search = search

    def found(self, octets: bytes) -> Iterator[Found]:
        """Gives what is signed in these octets, which are a mail."""
        begin = before.end() if (before := _BEFORE.match(octets)) else 0
        notes = ("readers differ on what lies before the first header",) if begin else ()
        yield from self._in_part("", Span(octets, begin, len(octets)), 0, _Around(notes=notes))

    def _in_part(self, where: str, span: Span, depth: int, around: _Around, usual: str = "text/plain") -> Iterator[Found]:
        """Gives what is signed in a part, or why it cannot be taken apart. `usual` is what it is if it does not say it."""
        try:
            yield from self._in_sound_part(where, span, depth, around, usual)
        except _Damaged as why:
            yield Found(where or "mail", "mail", Class.DAMAGED, span.length, note=str(why))
        except TooLarge as why:
            yield Found(where or "mail", "mail", Class.TOO_LARGE, span.length, note=str(why))

    def _in_sound_part(self, where: str, span: Span, depth: int, around: _Around, usual: str) -> Iterator[Found]:
        if depth > _DEEPEST_PART:
            yield Found(where, "mail", Class.TOO_LARGE, span.length, note=f"parts are nested more than {_DEEPEST_PART} deep")
            return
        self._source.budget.take(span.length)
        self._source.budget.take_steps()
        part = _part_of(span, usual)
        around = around.within(part)
        if part.kind in _CMS_TYPES:
            message = _decoded(part)
            due = Due.SIGNATURE if part.kind in _SIGNATURE_TYPES else Due.MESSAGE
            yield Found(where or "body", f"mail {part.kind}", Class.MESSAGE, len(message), message, due=due, note=around.note(part.note_of_coding))
        elif part.kind == "message/rfc822":
            yield from self._in_forwarded(f"{where}/mail" if where else "mail", part, depth, replace(around, has_others=False))
        elif part.kind == "message/partial":
            yield Found(where or "body", "part of a mail", Class.NOT_LOOKED_INTO, part.body.length)
        elif part.kind.startswith("multipart/"):
            yield from self._in_parts(where, part, depth, around)
        else:
            yield from self._in_attachment(where, part, around)

    def _in_forwarded(self, where: str, part: _Part, depth: int, around: _Around) -> Iterator[Found]:
        if part.coding in _AS_IT_IS:
            yield from self._in_part(where, part.body, depth + 1, around)
            return
        around = replace(around, notes=(*around.notes, "readers differ on a mail that is said to be encoded"))
        with self._source.budget.holding(_most_decoded(part)):
            yield from self._in_part(where, span_of(_decoded(part)), depth + 1, around)

    def _in_attachment(self, where: str, part: _Part, around: _Around) -> Iterator[Found]:
        with self._source.budget.holding(_most_decoded(part)):
            octets = _decoded(part)
            self._source.budget.take(len(octets))
            self._source.budget.take_steps()
            for place in self._search(in_memory(_filename(part) or "", octets, self._source.budget)):
                if place.what not in (Class.TEXT, Class.NO_CANDIDATE):
                    notes = around.notes if place.what is Class.MESSAGE else ()
                    yield (place.with_content(None) if place.wants else place).noted(*notes, part.note_of_coding).within(where or "body")

    def _in_parts(self, where: str, part: _Part, depth: int, around: _Around) -> Iterator[Found]:
        if not part.boundary:
            raise _Damaged("a multipart without a boundary")
        boundary = part.boundary.encode("utf-8", "surrogateescape")
        around = replace(around, notes=(*around.notes, *_of_delimiters(part, boundary)))
        parts = _parts_in(part.body, boundary, self._source.budget)
        if part.kind == "multipart/signed":
            yield from self._in_signed(where, list(_first(parts, 3)), depth, around)
            return
        some = list(_first(parts, 2))
        around = replace(around, has_others=around.has_others or len(some) > 1)
        usual = "message/rfc822" if part.kind == "multipart/digest" else "text/plain"  # RFC 2046, section 5.1.5
        for number, span in enumerate(chain(some, parts), 1):
            yield from self._in_part(f"{where}.{number}" if where else f"part {number}", span, depth + 1, around, usual)

    def _in_signed(self, where: str, parts: List[Span], depth: int, around: _Around) -> Iterator[Found]:
        """Gives what signs the first part, and what is in that part."""
        around = replace(around, has_others=around.has_others or len(parts) > 2)
        if len(parts) != 2:
            yield Found(where or "body", "mail multipart/signed", Class.DAMAGED, 0, note="multipart/signed has not two parts")
        signed = parts[0] if parts else span_of(b"")
        own = f"{where}.1" if where else "part 1"
        for number, span in enumerate(parts[1:2], 2):
            place = f"{where}.{number}" if where else f"part {number}"
            self._source.budget.take_steps(2)
            part = _part_of(span)
            if part.kind in _OPENPGP_TYPES:
                yield Found(place, "OpenPGP", Class.OTHER, span.length, note="a mail signed by OpenPGP")
            else:
                yield _signing(place, part, own, signed, around.within(part))
        yield from self._in_part(own, signed, depth + 1, around)


def _signing(where: str, part: _Part, own: str, signed: Span, around: _Around) -> Found:
    """Returns what signs a part: with CRLF at the end of each line, or as it is if that is what was signed."""
    message, canonical = _decoded(part), _CanonicalLines(signed)
    bound, note = State.PARTLY if around.has_others else State.FITS, around.note(part.note_of_coding)
    found = Found(where, f"mail {part.kind}", Class.MESSAGE, len(message), message, Content(own, signed.length, canonical, bound, note), is_detached=True)
    if canonical.is_same or _fits(found):
        return found
    as_it_is = replace(found.content, pieces=Pieces(signed.view), note=around.note(part.note_of_coding, _WITH_LF))
    return found._replace(content=as_it_is) if _fits(found._replace(content=as_it_is)) else found


def _first(parts: Iterator[Span], most: int) -> Iterator[Span]:
    for _, part in zip(range(most), parts):
        yield part


def _filename(part: _Part) -> Optional[str]:
    name = part.headers.get_filename()
    return str(name).replace("/", "_") if name else None


def in_mail(source: Source, search: Search) -> Iterator[Found]:
    """Gives what is signed in a mail."""
    octets = source.octets()
    with source.budget.holding(0 if source.is_in_memory else len(octets)):
        if b"\n" in source.head or b"\r" not in source.head:
            yield from Mail(source, search).found(octets)
        else:
            yield Found("mail", "mail", Class.NOT_LOOKED_INTO, len(octets), note="its lines end in a lone CR")


def _line_in(octets: bytearray, at: int) -> Tuple[int, int]:
    """Returns where the first line that is between two mails begins, from a place on, and where it ends; -1 if that is not read yet."""
    while (at := octets.find(b"\nFrom ", at)) >= 0:
        if octets[at - 1 : at] == b"\n" or octets[max(0, at - 2) : at] == b"\n\r":
            return at + 1, octets.find(b"\n", at + 1)
        at += 1
    return -1, -1


def _mails_in(file: BinaryIO, budget: Budget) -> Iterator[bytes]:
    """Gives the mails of an mbox without the lines that are between them: each such line begins with `From ` after an empty line."""
    octets, at, is_first = bytearray(b"\n\n"), 1, True  # what is not given yet, after the end of the line before it
    while piece := file.read(PIECE):
        budget.take(len(piece))
        octets += piece
        begin, end = _line_in(octets, at)
        while end >= 0:
            mail = _copied(octets, begin)
            del octets[:end]
            if not is_first:
                yield mail
            is_first, mail = False, b""
            begin, end = _line_in(octets, 1)
        at = begin - 1 if begin >= 0 else max(1, len(octets) - len(b"\nFrom "))
        if len(octets) > MOST_IN_MEMORY + PIECE:
            raise TooLarge(f"a mail has more than {MOST_IN_MEMORY:,} octets")
    yield from _last_mails_in(octets, at, is_first)


def _last_mails_in(octets: bytearray, at: int, is_first: bool) -> Iterator[bytes]:
    """Gives what is left of an mbox: a mail, and one that is empty if the last line has no end. It empties the octets."""
    begin = _line_in(octets, at)[0]
    mail = _copied(octets, begin if begin >= 0 else len(octets))
    octets.clear()
    if not is_first:
        yield mail
    if begin >= 0:
        yield b""


def _copied(octets: bytearray, end: int) -> bytes:
    """Returns a mail, which begins after the first octet and ends at a place, without the empty line that an mbox has after it, by one copy."""
    with memoryview(octets)[1:end] as view:
        after = next((len(it) for it in (b"\r\n", b"\n") if view[-2 * len(it) :] == 2 * it), 0)
        return bytes(view[: len(view) - after])


def _fits(found: Found) -> bool:
    """Whether a message fits the content that was found for it."""
    if found.octets is None or found.content is None:
        return False
    try:
        return not any(it.code in _DIFFERS for it in cms_canon.check(found.octets, found.content.pieces))
    except ValueError:  # it is refused, or `hashlib` does not know the algorithm
        return False


def in_mbox(source: Source, search: Search) -> Iterator[Found]:
    """Gives what is signed in the mails of an mbox. A line that begins with `>From ` may have been signed without the `>`."""
    for number, octets in enumerate(_mails_in(source.forward(), source.budget), 1):
        source.budget.take_member()
        note = "readers differ on a line that begins with From" if _FROM.search(octets) else ""
        for it in _in_one_of_a_box(source, search, octets):
            yield (it.noted(note) if it.what is Class.MESSAGE else it).within(f"mail {number}")
        octets = b""  # or it would be kept while the next one is read


def _in_one_of_a_box(source: Source, search: Search, octets: bytes) -> Iterator[Found]:
    """Gives what is signed in a mail as it is, or as it was before `>` was put before `From `, if that is what was signed."""
    others, at = _in_unquoted(source, search, octets), 0
    for number, it in enumerate(_in_held(source, search, octets)):
        if it.content is None or _fits(it):
            yield it
            continue
        other = next(islice(others, number - at, None), None)
        at = number + 1
        yield other.noted(_WITHOUT_QUOTE) if other and _fits(other) else it


def _in_held(source: Source, search: Search, octets: bytes) -> Iterator[Found]:
    try:
        with source.budget.holding(len(octets)):
            yield from Mail(source, search).found(octets)
    except TooLarge as why:
        yield Found("mail", "mail", Class.TOO_LARGE, len(octets), note=str(why))


def _in_unquoted(source: Source, search: Search, octets: bytes) -> Iterator[Found]:
    if _QUOTED_FROM.search(octets):
        yield from _in_held(source, search, _unquoted(octets))


def _unquoted(octets: bytes) -> bytes:
    """Returns a mail without the `>` that an mbox has before `From ` at the beginning of a line."""
    whole = io.BytesIO()
    for lines in span_of(octets).lines():
        whole.write(_QUOTED_FROM.sub(rb"\1", lines))
    return whole.getvalue()
