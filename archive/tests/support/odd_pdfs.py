"""PDFs that are made out of the ordinary, with room for a signature."""

from typing import Dict, NamedTuple, Tuple

HOLE = 8192  # hexadecimal digits of /Contents
ROOM = 96  # octets for a ByteRange


class Odd(NamedTuple):
    """How a PDF is made: what its signature says, which fields it has, and what lies around it."""

    ranges: str = "/ByteRange [0 {0} {1} {2}]"
    contents: bytes = b"/Contents %HOLE%"
    kind: bytes = b"/SubFilter /adbe.pkcs7.detached"
    more: bytes = b""
    """What else is in the dictionary of the signature."""
    fields: bytes = b"100 0 R"
    value: bytes = b"10 0 R"
    field: bytes = b" /FT /Sig"
    others: Tuple[Tuple[int, bytes], ...] = ()
    before: bytes = b""
    counts_before: bool = False
    """Whether a ByteRange counts from the beginning of the file, and not of the PDF."""
    after: bytes = b""
    digits: int = HOLE
    type: bytes = b"/Sig"
    extra: bytes = b""
    """What else lies before the table of objects."""
    swap: Tuple[bytes, bytes] = (b"", b"")
    """What is replaced after that table, and by what."""
    table: Tuple[bytes, bytes] = (b"", b"")
    """What is replaced in it, and by what."""


PLAIN = Odd()


def objects_of(odd: Odd) -> Dict[int, bytes]:
    return {
        1: b"<< /Type /Catalog /Pages 2 0 R /AcroForm << /Fields [%s] /SigFlags 3 >> >>" % odd.fields,
        2: b"<< /Type /Pages /Kids [3 0 R] /Count 1 >>", 3: b"<< /Type /Page /Parent 2 0 R /MediaBox [0 0 200 200] >>",
        10: b"<< /Type %s /Filter /Adobe.PPKLite %s %%RANGE%% %s%s >>" % (odd.type, odd.kind, odd.contents, odd.more),
        100: b"<< /T (S) /V %s%s /Type /Annot /Subtype /Widget /Rect [0 0 0 0] >>" % (odd.value, odd.field),
        **dict(odd.others),
    }


def laid_out(odd: Odd) -> bytes:
    """Returns a PDF with room for a ByteRange and a signature."""
    octets, places = bytearray(b"%PDF-1.7\n"), {}
    for number, body in sorted(objects_of(odd).items()):
        places[number] = len(octets)
        body = body.replace(b"%RANGES%", b"%RANGES%".ljust(ROOM)).replace(b"%RANGE%", b"%RANGE%".ljust(ROOM))
        octets += b"%d 0 obj\n%s\nendobj\n" % (number, body.replace(b"%HOLE%", b"<" + b"0" * odd.digits + b">"))
    octets += odd.extra
    table = len(octets)
    entries = b"xref\n0 1\n0000000000 65535 f \n" + b"".join(b"%d 1\n%010d 00000 n \n" % it for it in sorted(places.items()))
    octets += entries.replace(*odd.table) if odd.table[0] else entries
    end = b"trailer\n<< /Size 200 /Root 1 0 R >>\nstartxref\n%d\n%%%%EOF\n" % table
    return bytes(octets) + (end.replace(*odd.swap) if odd.swap[0] else end)
