"""Looks at how a file begins, and gives what is found in it: each message, and last what the file itself is.

A refusal is said only if the name of the file says that it is a message, and it begins with 30 and is no text: of any other file it would
only say that it is something else.
"""

from __future__ import annotations

from functools import partial
from typing import Callable, Iterator, Optional, Tuple

import cms_canon
from cms_canon._facts import Facts, facts_of

from . import armour, mail, marks, named, packed, pdf, zips
from .found import KEPT, Class, Due, Found, is_message
from .packed import Packing
from .refused import may_be_signed
from .sources import DEEPEST, DEEPEST_MAIL, Ended, Source, TooLarge, in_memory, is_text

Into = Callable[[], Iterator[Found]]
Look = Tuple[str, Into]  # what kind of file it seems to be, and what looks into it

SIGNATURE_ENDINGS = (".p7s", ".sgn", ".tsr", ".tst")  # a file with such a name should be a signature
MESSAGE_ENDINGS = (".p7m", ".p7c", ".p7b", ".pkcs7", ".cms")  # or any other message
_ENDINGS = (*SIGNATURE_ENDINGS, *MESSAGE_ENDINGS, ".tsq")
_ELEMENT = b"\x30"
_DATA = bytes.fromhex("2a864886f70d010701")  # the type of contents that are looked into
_BEGINNINGS_OF_CONTENT = (b"\xa0", b"\x24", b"\x04")
_SIGNED_CONTENT = "signed content"
_UTF_16 = (b"\xff\xfe", b"\xfe\xff")
_BEGIN = b"-----BEGIN "
_FROM = b"From "
_NOTHING = (Class.TEXT, Class.NO_CANDIDATE, Class.EMPTY)  # what is not said of the content of a message
_BEGINNINGS = {it[:2] for it in (pdf.BEGIN, *zips.MAGICS, *packed.MAGICS, *marks.BEGINNINGS)}
_NAMES = (*zips.ENDINGS, *packed.ENDINGS, packed.TAR_ENDING)


def found_in(source: Source, depth: int = 0, mails: int = 0) -> Iterator[Found]:
    """Gives what is found in a source, which is a member so many packed files and so many mails deep; last the source itself.

    Raises `Ended` if no more of the file may or can be read. Whatever else is wrong in it is said in what is found.
    """
    alone = found_alone(source)
    return _found_inside(source, depth, mails) if alone is None else iter((alone,))


def _found_inside(source: Source, depth: int = 0, mails: int = 0) -> Iterator[Found]:
    """Gives the same of a source in which something else may lie."""
    holds_messages = False
    form, look = _look_for(source, depth, mails)
    own = None
    try:
        for place in look():
            if place.what is Class.MESSAGE and not place.is_opened:
                facts = _facts_of_data(place)
                if facts is not None:
                    yield from _in_signed_content(place, facts, source, depth, mails)
                place = place.opened(facts)
            holds_messages = holds_messages or place.what in (Class.MESSAGE, Class.CONTAINER)
            if place.where == "":
                own = place
            else:
                yield place
    except (Ended, MemoryError):
        raise
    except packed.Missing as why:
        own = Found("", form, Class.UNREADABLE, source.size, note=str(why))
    except TooLarge as why:
        own = Found("", form, Class.TOO_LARGE, source.size, note=str(why))
    except Exception as why:  # of a container that is damaged: of any kind, as zipfile, tarfile and what they call raise
        own = Found("", form, Class.DAMAGED, source.size, note=packed.why_of(why))
    if own is None or own.what is Class.EMPTY:
        own = Found("", own.form if own else form, Class.CONTAINER if holds_messages else Class.EMPTY, source.size, note=own.note if own else "")
    yield own


# ---- files in which nothing else lies


def found_alone(source: Source) -> Optional[Found]:
    """Returns what a short file is in which nothing else lies: a message, a text or nothing. Returns None if that is not clear at once."""
    place = seen_alone(source)
    if place is None or place.what is not Class.MESSAGE:
        return place
    return opened_alone(place, source, _facts_of_data(place))


def seen_alone(source: Source) -> Optional[Found]:
    """Returns what a short file is in which nothing else lies, unless it lies in the content of a message, which is still to be looked into."""
    if not source.is_whole or len(source.octets()) > KEPT:
        return None
    try:
        return _by_beginning(source)
    except (Ended, MemoryError):
        raise
    except Exception:  # which is said when the file is looked into
        return None


def _by_beginning(source: Source) -> Optional[Found]:
    head = source.head
    if _may_be_container(source) or pdf.BEGIN in head[: pdf.BEGINS_WITHIN] or head.startswith(_UTF_16):
        return None
    if is_text(head):
        return None if head.startswith(_FROM) or mail.is_mail(head) or mail.is_mail_further(source) else _text_alone(source)
    return None if mail.is_mail(head) else _of_octets(source)


def _text_alone(source: Source) -> Optional[Found]:
    octets = source.octets()
    if armour.in_base64(source) is not None or _BEGIN in octets:
        return None
    if (known := _known_text(octets)) is not None:
        return known
    return None if _is_due(source) else _plain_text(octets)


def opened_alone(place: Found, source: Source, facts: Optional[Facts]) -> Optional[Found]:
    """Returns a message with what it says, after the content that it holds was looked into; None if something may lie there."""
    content = None if facts is None else facts.content
    if content and _may_hold_data(place) and not _is_nothing(_content_source(source, place, content)):
        return None
    return place.opened(facts)


def _is_nothing(content: Source) -> bool:
    """Whether nothing is to be said of the content of a message, as is clear at once."""
    if content.head.startswith(_ELEMENT) and not is_text(content.head):  # perhaps a message, with another one in it
        return False
    found = seen_alone(content)
    return found is not None and found.what in _NOTHING


def _content_source(source: Source, place: Found, content: memoryview) -> Source:
    return in_memory((armour.wanted_by(source.name) or "") if place.where == "" else "", content.tobytes(), source.budget)


# ---- others


def _in_signed_content(place: Found, facts: Facts, source: Source, depth: int, mails: int) -> Iterator[Found]:
    """Gives what is in the content that a message holds itself, if that is something."""
    octets = facts.content
    if not octets:
        return
    inner = _content_source(source, place, octets)
    if depth < DEEPEST:
        found = found_in(inner, depth + 1, mails + 1)
    elif _look_for(inner, depth, mails)[0] not in ("text", "file") or _holds_data(place._replace(octets=inner.octets())):
        found = iter((Found("", "signed content", Class.TOO_LARGE, len(octets), note=f"signed contents are nested more than {DEEPEST} deep"),))
    else:
        return
    for it in found:
        if it.what in _NOTHING or _is_something_else(it):
            continue
        it = (it.with_content(None) if it.wants else it).within(_SIGNED_CONTENT)
        yield it._replace(where=f"{place.where}!{it.where}") if place.where else it


def _may_hold_data(place: Found) -> bool:
    """Whether what may be a message has octets as one that holds data, which costs much less to see than to read it."""
    octets = place.octets or b""
    at = octets.find(_DATA)
    while at >= 0 and octets[at + len(_DATA) : at + len(_DATA) + 1] not in _BEGINNINGS_OF_CONTENT:
        at = octets.find(_DATA, at + 1)
    return at >= 0


def _facts_of_data(place: Found) -> Optional[Facts]:
    """Returns what a message says that may hold data, and of a short one what is found in it; None if it is none."""
    octets = place.octets
    if octets is None or not _may_hold_data(place):
        return None
    try:
        return facts_of(octets, checks=len(octets) <= KEPT)
    except cms_canon.Refused:
        return None


def _holds_data(place: Found) -> bool:
    """Whether what lies there is a message that signs and holds data."""
    facts = _facts_of_data(place)
    return facts is not None and bool(facts.content)


def _is_something_else(found: Found) -> bool:
    """Whether what may be a message in signed content is none, as a certificate, and does not begin as one that somebody signed."""
    if found.where or found.what is not Class.MESSAGE or found.octets is None or is_message(found.octets):
        return False
    return found.due is Due.NOTHING and not may_be_signed(found.octets)


def _look_for(source: Source, depth: int, mails: int) -> Look:
    """Returns what kind of file it seems to be, and what looks into it."""
    head = source.head
    if (look := _look_for_container(source, depth, mails) if _may_be_container(source) else None) is not None:
        return look
    if is_text(head) or mail.is_mail(head):
        return _look_for_text(source, depth, mails)
    if head.startswith(_UTF_16):
        return "text", partial(_in_utf_16, source)
    if head.startswith(_ELEMENT):
        return "file", partial(_in_octets, source)
    return _or_pdf(source, "file", partial(_in_octets, source), depth, mails)


def _may_be_container(source: Source) -> bool:
    """Whether the first octets of a file or its name are those of a container. Most files are none, and to see that here costs least."""
    return source.head[:2] in _BEGINNINGS or source.name.lower().endswith(_NAMES) or packed.is_tar(source)


def _look_for_container(source: Source, depth: int, mails: int) -> Optional[Look]:
    """Returns the same of a container, or an archive that is not looked into; None if it is neither."""
    inner = partial(found_in, depth=depth + 1, mails=mails)
    packing = packed.packing_of(source)
    if source.head.startswith(pdf.BEGIN):
        return "PDF", partial(_in_pdf, source, partial(_in_attached, depth, mails))
    if zips.is_zip(source):
        return "zip", partial(_packed, source, depth, partial(zips.in_zip, source, inner))
    if packing is not None:
        into = partial(packed.in_packed, source, packing, inner, partial(_in_packed_tar, packing, inner))
        return packing.name, partial(_packed, source, depth, into)
    if packed.is_tar(source):
        return "tar", partial(_packed, source, depth, packed.Tar(source, None, inner).found)
    archive = marks.by_beginning(source)
    return None if archive is None else (archive.form, partial(_alone, archive))


def _alone(found: Found) -> Iterator[Found]:
    yield found


def _in_attached(depth: int, mails: int, source: Source) -> Iterator[Found]:
    """Gives what is in a file that is attached to a PDF, if it is not too deep inside others."""
    if depth >= DEEPEST:
        return iter((Found("", "file", Class.TOO_LARGE, source.size, note=f"packed files are nested more than {DEEPEST} deep"),))
    return found_in(source, depth + 1, mails)


def _or_pdf(source: Source, form: str, into: Into, depth: int, mails: int) -> Look:
    """Returns the same of a file in which a PDF may begin after something else, so that both are looked for."""
    late = partial(_in_late_pdf, source, into, partial(_in_attached, depth, mails))
    if pdf.BEGIN in source.head[:pdf.BEGINS_WITHIN]:
        return "PDF", late
    return form, into


def _in_pdf(source: Source, search: packed.Search) -> Iterator[Found]:
    """Gives the signatures of a PDF, and that a zip ends with it, which other programs open."""
    yield from pdf.in_pdf(source, search)
    if marks.pdf_ends_as_zip(source.octets()):
        yield Found("zip", "zip after something else", Class.NOT_LOOKED_INTO, source.size, note="the file ends as a zip")


def _in_late_pdf(source: Source, into: Into, search: packed.Search) -> Iterator[Found]:
    """Gives the signatures of a PDF, and what else there is in the file."""
    yield from _in_pdf(source, search)
    yield from (it for it in into() if it.where or it.what not in (Class.TEXT, Class.NO_CANDIDATE))


def _packed(source: Source, depth: int, into: Into) -> Iterator[Found]:
    """Gives what is in a packed file, if it is not too deep inside others."""
    if depth >= DEEPEST:
        yield Found("", "packed", Class.TOO_LARGE, source.size, note=f"packed files are nested more than {DEEPEST} deep")
    else:
        yield from into()


def _in_packed_tar(packing: Packing, search: packed.Search, source: Source) -> Iterator[Found]:
    return packed.Tar(source, packing, search).found()


def _in_mail(source: Source, mails: int, into: Into) -> Iterator[Found]:
    """Gives what is in a mail or an mbox, if it is not too deep inside others."""
    if mails >= DEEPEST_MAIL:
        yield Found("", "mail", Class.TOO_LARGE, source.size, note=f"mails are nested more than {DEEPEST_MAIL} deep")
    else:
        yield from into()


def _look_for_text(source: Source, depth: int, mails: int) -> Look:
    """Returns the same of a file that begins as a text."""
    search = partial(found_in, depth=depth, mails=mails + 1)
    if source.head.startswith(_FROM):
        return "mbox", partial(_in_mail, source, mails, partial(mail.in_mbox, source, search))
    if mail.is_mail(source.head) or mail.is_mail_further(source):
        return "mail", partial(_in_mail, source, mails, partial(mail.in_mail, source, search))
    return _or_pdf(source, "text", partial(_in_text, source), depth, mails)


def _in_text(source: Source) -> Iterator[Found]:
    """Gives the blocks of PEM in a text, or the message that it is in base64, or the text itself."""
    if (base64 := armour.in_base64(source)) is not None:
        yield base64._replace(due=_due_by(source.name))
        return
    octets = source.octets()
    known = _known_text(octets)
    found = armour.in_pem(octets, source) if _BEGIN in octets else iter((_plain_text(octets),))
    for place in found:
        is_nothing = place.where == "" and place.what in (Class.TEXT, Class.NO_CANDIDATE)
        yield known if known and is_nothing else _message(source, octets) if is_nothing and _is_due(source) else place


def _known_text(octets: bytes) -> Optional[Found]:
    """Returns what a text is that is signed otherwise, or in which an archive lies; None if it is neither."""
    return named.in_xml(octets) or marks.in_text(octets)


def _plain_text(octets: bytes) -> Found:
    return marks.mail_in_text(octets) or Found("", "text", Class.TEXT, len(octets))


def _in_utf_16(source: Source) -> Iterator[Found]:
    """Gives the same of a text whose characters have 16 bits each, or the file itself if it is none."""
    try:
        text = source.octets().decode("utf-16").encode("utf-8", "surrogatepass")
    except UnicodeError:
        yield from _in_octets(source)
        return
    source.budget.take(len(text))
    yield from _in_text(in_memory(source.name, text, source.budget))


def _is_due(source: Source) -> bool:
    """Whether a file is so named that it is taken for a message if it is nothing else, so that its refusal is said."""
    return source.name.lower().endswith(_ENDINGS)


def _due_by(name: str) -> Due:
    lower = name.lower()
    return Due.SIGNATURE if lower.endswith(SIGNATURE_ENDINGS) else Due.MESSAGE if lower.endswith(MESSAGE_ENDINGS) else Due.NOTHING


def _message(source: Source, octets: bytes) -> Found:
    return Found("", "file", Class.MESSAGE, len(octets), octets, due=_due_by(source.name), wants=armour.wanted_by(source.name))


def _in_octets(source: Source) -> Iterator[Found]:
    yield _of_octets(source)


def _of_octets(source: Source) -> Found:
    """Returns what a file that is no text is by itself."""
    if (known := named.in_asn_1(source)) is not None:
        return known
    if source.head.startswith(_ELEMENT) or _is_due(source):
        return _message(source, source.octets())
    known = named.authenticode(source) or named.openpgp(source) or marks.in_program(source) or marks.elsewhere(source)
    return known or Found("", "file", Class.NO_CANDIDATE, source.size, note="" if source.head else "empty")
