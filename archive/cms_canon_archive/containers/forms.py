"""The signatures that the form of a PDF has (ISO 32000-2, sections 12.7 and 12.8), as a parser reads them: qpdf, by the package pikepdf.

A search in octets also finds what no reader shows, and misses what is written otherwise. The parser takes memory of its own, so that the
memory of the process is limited while it works: an object stream may be packed to be large.
"""

from __future__ import annotations

import resource
from contextlib import contextmanager, suppress
from dataclasses import dataclass
from decimal import Decimal
from io import BytesIO
from itertools import chain
from typing import Any, Iterable, Iterator, List, NamedTuple, Optional, Sequence, Set, Tuple

from .pdf_octets import named_in, oddities_of
from .pdf_tables import MOST_PACKED, TooMany, packed_in
from .sources import Budget

MOST_FIELDS = 3_000  # of one form that are read: the parser takes a third of a millisecond for each
MOST_ATTACHED = 1_000  # files
MOST_OBJECTS = 20_000  # that are looked at for files which are attached to pages
MEMORY = 64 << 20  # octets that the parser may take
_PAGE = resource.getpagesize()
_DAMAGED = "the PDF is damaged, so that readers may differ on its signatures"
_ODD_FIELD = "the field of this signature does not say that it is one, or in which field it is, so that readers differ"
_FIELD_WITH_KIDS = "readers differ on a signature whose field has others, or what shows it, below it"
_SUBFILTERS = tuple(f"/{it}" for it in ("adbe.pkcs7.detached", "adbe.pkcs7.sha1", "adbe.x509.rsa_sha1", "ETSI.CAdES.detached", "ETSI.RFC3161"))
_TYPES = ("/Sig", "/DocTimeStamp")
_OTHER_PARAMETERS = ("/DecodeParms", "/DP", "/F", "/FFilter", "/FDecodeParms")  # by which a stream is unpacked in another way, or is elsewhere
IN_NO_FIELD = "no field of the form has this signature, so that readers do not show it"
_HARMLESS = "reported number of objects"  # of a warning: which no reader believes
_PERMISSIONS = ("/DocMDP", "/UR3", "/UR")


@dataclass(frozen=True)
class FormSignature:
    """The dictionary of a signature."""

    field: str
    """The name of the field that has it."""
    ranges: Tuple[int, ...]
    """The numbers of its ByteRange; empty if it has none."""
    contents: Optional[bytes]
    subfilter: str
    has_range: bool = True
    note: str = ""
    """Why readers may differ on it."""


class Form(NamedTuple):
    """What the form of a PDF has, and the files that are attached to it."""

    signatures: List[FormSignature]
    why_unsure: str
    """Why it may have other signatures for other readers; empty if that is not so."""
    attached: Sequence[Tuple[str, Any, Tuple[str, ...]]] = ()
    """The names of files with their streams, as the parser has them, and how these are packed."""
    pdf: Any = None
    """The parser, which reads them."""
    has_others: bool = False
    """Whether files may be attached to pages of which nobody knows, since it has too many objects."""


class Attachment(NamedTuple):
    """A file that is attached to a PDF."""

    name: str
    octets: bytes
    """As they are in the PDF."""
    filters: Tuple[str, ...]
    """How they are packed: by none of these if there are none."""


def _data_octets() -> int:
    with open("/proc/self/statm", encoding="ascii") as file:
        return int(file.read().split()[5]) * _PAGE


@contextmanager
def _little_memory() -> Iterator[None]:
    """Lets the process take no more than `MEMORY` octets in addition."""
    before = resource.getrlimit(resource.RLIMIT_DATA)
    try:
        most = _data_octets() + MEMORY
        own = most if before[0] == resource.RLIM_INFINITY else min(most, before[0])
        resource.setrlimit(resource.RLIMIT_DATA, (own, before[1]))
    except (OSError, ValueError):  # no Linux
        pass
    try:
        yield
    finally:
        resource.setrlimit(resource.RLIMIT_DATA, before)


def _fail_once(pikepdf: Any) -> None:
    """Has the parser raise an error. The first one in a thread takes memory, and ends the process if there is none."""
    with suppress(pikepdf.PdfError):
        pikepdf.open(BytesIO())


def form_of(octets: bytes, budget: Budget) -> Form:
    """Returns the signatures of the form, as far as a parser reads them, and why these may not be all."""
    try:
        import pikepdf
    except ModuleNotFoundError:
        return Form([], "which signatures its form has is not known: this needs the package pikepdf")
    signatures: List[FormSignature] = []
    attached: List[Tuple[str, Any, Tuple[str, ...]]] = []
    pdf, why, has_others = None, "", False
    named = named_in(octets, MOST_PACKED)
    _fail_once(pikepdf)
    with _little_memory():
        try:
            pdf = pikepdf.open(BytesIO(octets), attempt_recovery=False)  # or it would look for objects in all octets
            for signature in _signatures_of(pikepdf, pdf):
                budget.take_member()
                signatures.append(signature)
            packed = packed_in(pikepdf, pdf, octets, named, budget)
            has_others = packed.has_files and len(pdf.objects) > MOST_OBJECTS
            attached = list(_attached_to(pikepdf, pdf, budget, packed.has_files and not has_others))
            why = _DAMAGED if any(_HARMLESS not in str(it) for it in pdf.get_warnings()) else packed.why_unsure
        except TooMany as too_many:
            why = str(too_many)
        except pikepdf.PasswordError:  # type: ignore[attr-defined]  # pikepdf 6 does not say that it exports it
            why = "which signatures its form has is not known: that needs a password"
        except (
            pikepdf.PdfError,  # type: ignore[attr-defined]  # likewise
            *(AttributeError, KeyError, TypeError, ValueError, RuntimeError, ArithmeticError, MemoryError),
        ):
            why = _DAMAGED
    return Form(signatures, "; ".join(filter(None, (why, *oddities_of(octets, named)))), attached, pdf, has_others)


def _attached_to(pikepdf: Any, pdf: Any, budget: Budget, has_files: bool) -> Iterator[Tuple[str, Any, Tuple[str, ...]]]:
    """Gives the files that are named as embedded, or as associated with the document, and then those that other objects have."""
    yield from _streams_of(pikepdf, chain(_named_in(pikepdf, pdf.Root, budget), _in_objects(pikepdf, pdf) if has_files else ()))


def _in_objects(pikepdf: Any, pdf: Any) -> Iterator[Any]:
    """Gives what may specify files, as annotations and pages have them."""
    for thing in pdf.objects:
        some = [thing, *(_some(pikepdf, thing, 1) if isinstance(thing, pikepdf.Array) else ())]
        if isinstance(thing, pikepdf.Dictionary):
            some += [*_some(pikepdf, thing.get("/Annots"), 1), *_some(pikepdf, thing.get("/AF"), 1)]
        for one in (it for it in some if isinstance(it, pikepdf.Dictionary)):
            yield one
            yield one.get("/FS")


def _named_in(pikepdf: Any, root: Any, budget: Budget) -> List[Any]:
    """Returns what specifies the files that are named as embedded, or as associated with the document."""
    names = root.get("/Names")
    left = [names.get("/EmbeddedFiles")] if isinstance(names, pikepdf.Dictionary) else []
    specifications = _some(pikepdf, root.get("/AF"), 2)
    nodes: Set[Tuple[int, int]] = set()
    count = 0
    while left:
        node = left.pop()
        budget.take_member()
        if not isinstance(node, pikepdf.Dictionary) or node.is_indirect and node.objgen in nodes:
            continue
        nodes.add(node.objgen)
        count += 1
        left += _some(pikepdf, node.get("/Kids"), 1)
        specifications += _some(pikepdf, node.get("/Names"), 2)[1::2]
        if len(specifications) + count + len(left) > MOST_ATTACHED:
            raise TooMany(f"it has more than {MOST_ATTACHED:,} files attached, so that not all of them are looked into")
    return specifications


def _some(pikepdf: Any, array: Any, most: int) -> List[Any]:
    """Returns what is in an array; nothing if it is none. Raises `TooMany` if it has more members than so many for each file."""
    if not isinstance(array, pikepdf.Array):
        return []
    if len(array) > most * MOST_ATTACHED:
        raise TooMany(f"it has more than {MOST_ATTACHED:,} files attached, so that not all of them are looked into")
    return list(array)


def _streams_of(pikepdf: Any, specifications: Iterable[Any]) -> Iterator[Tuple[str, Any, Tuple[str, ...]]]:
    """Gives the streams of files, each once, with their names, and how they are packed. Raises `TooMany` if there are more than are read."""
    given: Set[Tuple[int, int]] = set()
    for specification in specifications:
        embedded = specification.get("/EF") if isinstance(specification, pikepdf.Dictionary) else None
        for key in ("/UF", "/F") if isinstance(embedded, pikepdf.Dictionary) else ():
            stream = embedded.get(key)
            if isinstance(stream, pikepdf.Stream) and stream.objgen not in given:
                given.add(stream.objgen)
                if len(given) > MOST_ATTACHED:
                    raise TooMany(f"it has more than {MOST_ATTACHED:,} files attached, so that not all of them are looked into")
                yield str(specification.get("/UF", specification.get("/F", "without name")))[:200], stream, _filters_of(pikepdf, stream)


def _filters_of(pikepdf: Any, stream: Any) -> Tuple[str, ...]:
    """Returns by which filters a stream is packed, and what else readers need to unpack it."""
    filters = stream.get("/Filter")
    some = _some(pikepdf, filters, 1) if isinstance(filters, pikepdf.Array) else [filters] if filters is not None else []
    others = [it for it in _OTHER_PARAMETERS if stream.get(it) is not None]
    return tuple(str(it)[1:33] for it in (*some, *others))


def attachments_of(form: Form, budget: Budget) -> Iterator[Attachment]:
    """Gives the files that are attached, one at a time."""
    for name, stream, filters in form.attached:
        octets = stream.read_raw_bytes()
        budget.take(len(octets))
        yield Attachment(name, octets, filters)


def _signatures_of(pikepdf: Any, pdf: Any) -> Iterator[FormSignature]:
    for name, value, note in _values_of(pikepdf, pdf.Root):
        if isinstance(value, pikepdf.Dictionary) and ("/Contents" in value or "/ByteRange" in value):
            yield _signature_of(pikepdf, name, value, note)


def _values_of(pikepdf: Any, root: Any) -> Iterator[Tuple[str, Any, str]]:
    """Gives the values of the fields with their names and why readers may differ on them, and the dictionaries that give permissions alone."""
    known: Set[Tuple[int, int]] = set()
    for name, value, note in _values_of_fields(pikepdf, root):
        if isinstance(value, pikepdf.Dictionary) and value.is_indirect:
            known.add(value.objgen)
        yield name, value, note
    permissions = root.get("/Perms")
    for key in _PERMISSIONS if isinstance(permissions, pikepdf.Dictionary) else ():
        value = permissions.get(key)
        if isinstance(value, pikepdf.Dictionary) and value.objgen not in known:
            yield f"Perms {key[1:]}", value, IN_NO_FIELD


def _values_of_fields(pikepdf: Any, root: Any) -> Iterator[Tuple[str, Any, str]]:
    form = root.get("/AcroForm")
    left = [("", form.get("/Fields"), True)] if isinstance(form, pikepdf.Dictionary) else []
    seen: Set[Tuple[int, int]] = set()
    while left:
        above, fields, is_top = left.pop()
        if isinstance(fields, pikepdf.Array) and len(fields) > MOST_FIELDS:
            raise TooMany(f"its form has more than {MOST_FIELDS:,} fields, so that not all of its signatures are known")
        for field in fields if isinstance(fields, pikepdf.Array) else ():
            if not isinstance(field, pikepdf.Dictionary) or field.is_indirect and field.objgen in seen:
                continue
            seen.add(field.objgen if field.is_indirect else (-len(seen), 0))
            if len(seen) > MOST_FIELDS:
                raise TooMany(f"its form has more than {MOST_FIELDS:,} fields, so that not all of its signatures are known")
            name = ".".join(filter(None, (above, str(field.get("/T", "")))))
            value, kids = field.get("/V"), field.get("/Kids")
            is_known = field.get("/FT") == pikepdf.Name.Sig and (is_top or "/Parent" in field)
            yield name, value, _FIELD_WITH_KIDS if kids is not None else "" if is_known else _ODD_FIELD
            left.append((name[:200], kids, False))


def _oddities(pikepdf: Any, value: Any, subfilter: Any, is_whole: bool) -> Iterator[str]:
    """Gives what readers differ on in the dictionary of a signature."""
    if not is_whole:
        yield "readers differ on numbers of the ByteRange that are no integers"
    if value.get("/Type", pikepdf.Name.Sig) not in _TYPES:
        yield "readers differ on a signature that says that it is of another type"
    if not value.is_indirect:
        yield "readers differ on a signature that is no object of its own"
    if str(subfilter) not in _SUBFILTERS:
        yield "readers differ on a signature without a SubFilter that they know"


def _signature_of(pikepdf: Any, name: str, value: Any, note: str) -> FormSignature:
    ranges = value.get("/ByteRange")
    numbers = list(ranges) if isinstance(ranges, pikepdf.Array) and len(ranges) <= 100 else []
    is_number = all(isinstance(it, (int, Decimal)) and not isinstance(it, bool) for it in numbers)
    is_whole = is_number and all(isinstance(it, int) for it in numbers)
    contents, subfilter = value.get("/Contents"), value.get("/SubFilter")
    return FormSignature(
        field=name,
        ranges=tuple(int(it) for it in numbers) if is_number else (),
        contents=bytes(contents) if isinstance(contents, pikepdf.String) else None,
        subfilter=str(subfilter)[1:65] if isinstance(subfilter, pikepdf.Name) else "without SubFilter",
        has_range=ranges is not None,
        note="; ".join(filter(None, (note, *_oddities(pikepdf, value, subfilter, is_whole)))),
    )
