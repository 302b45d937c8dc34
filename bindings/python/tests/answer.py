"""Answers requests by the package `cms_canon`, as tests/c/answer.c does by the library for C: one request and one answer a line.

There is no `part`, no `read` and no `digests`, `many` is asked with chunks of several lengths, and there are three more requests:

    pieces LIMIT INPUT CONTENT DATA VERDICT    as check, with content and data that come in pieces: as a file, and as chunks

    lines LIMIT INPUT CONTENT DATA    the findings of check as text, joined by a semicolon and a space
    jobs LIMIT INPUT CONTENT          what a verifier is asked, each job a word of its parts, joined by colons
"""

import io
import sys

import cms_canon

CHUNKS = (1, 7, 4096)
VERDICTS = {"good": True, "bad": False, "unknown": None}


def octets_of(word):
    return None if word == "-" else bytes.fromhex(word)


def convert(limit, data):
    return f"0 {cms_canon.convert(data, limit).hex()}"


def many_by(size, limit, data):
    ders = []
    try:
        for der in cms_canon.convert_many((data[at : at + size] for at in range(0, len(data), size)), limit):
            ders.append(der)
    except cms_canon.Refused as refusal:
        return f"3 {len(ders)} {b''.join(ders).hex()} {refusal}"
    return f"0 {len(ders)} {b''.join(ders).hex()}"


def many(limit, data):
    return "; ".join(sorted({many_by(size, limit, data) for size in CHUNKS}))


def cover(limit, data, numbers, content):
    path = [int(number) for number in numbers.split(",") if number]
    return f"0 {cms_canon.cover(data, path=path, content=octets_of(content), limit=limit).hex()}"


def show(limit, data):
    return f"0 {cms_canon.show(data, limit).encode().hex()}"


def same(limit, first, second):
    return "0" if cms_canon.same(first, bytes.fromhex(second), limit) else "1"


class OneAtATime(io.BytesIO):
    """A file that gives at most one octet, however many it is asked for."""

    def read(self, size=-1):
        return super().read(min(size, 1))


def findings(limit, data, content, stamped, verdict):
    found = cms_canon.check(data, content, stamped, lambda job: VERDICTS[verdict], limit)
    return "".join(["0", *(f" F{it.code}" + ("" if it.signer is None else f":{it.signer}") for it in found)])


def check(limit, data, content, stamped, verdict):
    return findings(limit, data, octets_of(content), octets_of(stamped), verdict)


def pieces(limit, data, content, stamped, verdict):
    given = octets_of(content), octets_of(stamped)
    forms = (io.BytesIO, OneAtATime, lambda octets: (octets[at : at + 7] for at in range(0, len(octets), 7)))
    found = {findings(limit, data, *(None if it is None else form(it) for it in given), verdict) for form in forms}
    return "; ".join(sorted(found))


def lines(limit, data, content, stamped):
    found = cms_canon.check(data, octets_of(content), octets_of(stamped), limit=limit)
    return f"0 {'; '.join(map(str, found))}"


def parts_of(job):
    """Gives what a job says, in octets or text, or None where there is nothing."""
    yield from (job.covered, job.signature, *job.signature_algorithm, *job.digest_algorithm)
    yield from (job.issuer, job.serial_number, job.subject_key_identifier, *job.certificates)


def shown(part):
    if part is None:
        return "-"
    return part.hex() if isinstance(part, bytes) else str(part)


def jobs(limit, data, content):
    asked = []
    cms_canon.check(data, octets_of(content), verifier=asked.append, limit=limit)
    return " ".join(["0", *(":".join(map(shown, parts_of(job))) for job in asked)])


CALLS = {it.__name__: it for it in (convert, many, cover, show, same, check, pieces, lines, jobs)}


def answer(request):
    call, limit, data, *more = request.split(" ")
    try:
        return CALLS[call](int(limit), bytes.fromhex(data), *more)
    except cms_canon.Refused as refusal:
        return f"3 {refusal}"


for line in sys.stdin:
    print(answer(line.rstrip("\n")))
