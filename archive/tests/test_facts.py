"""Compares what an index takes of messages, and of many files at a time, with what each message and each file says by itself.

The messages are made at random, in BER and DER, with countersignatures, tokens and strings in segments, and are those of the vectors. The files are
containers of all kinds, texts, messages with a document beside them, cut and spoilt ones, and files that are gone or no files by now.
"""

import json
import os
from random import Random

import pytest
from cases import DOCUMENT, TIME_STAMP, TEXT, Case, with_unsigned, write
from counting import count_if, count_same, needs
from elements import element
from making import message_at_random, write_files
from places import TOP
from tally import count

pytestmark = [pytest.mark.archive, needs("cryptography", tools=["openssl"])]
SEED = 6007
MESSAGES = 1500
ALGORITHM = element(0x30, bytes.fromhex("0609608648016503040201"))
LONG = 1 << 16  # octets from which on a file is not read at once


def attributes_of(attributes):
    """Returns the types and the values of attributes, but those of countersignatures, as facts have them."""
    return [(it.oid, list(it.values)) for it in attributes or ()]


def by_types(attributes):
    found = {}
    for oid, values in attributes:
        found.setdefault(oid, []).extend(values)
    return found


def signers_of(signers, dotted_of, before=""):
    """Gives what the objects of `read` say of each signer and its countersigners, as facts have them."""
    for number, it in enumerate(signers):
        yield (f"{before}{number}", dotted_of(it.digest_algorithm.oid), dotted_of(it.signature_algorithm.oid), it.signature, it.issuer, it.serial_number,
               it.subject_key_identifier, it.signed_attributes is not None, by_types(attributes_of(it.signed_attributes)),
               attributes_of(it.unsigned_attributes), len(it.countersignatures))
        yield from signers_of(it.countersignatures, dotted_of, f"{before}{number}.")


def said_by_facts(facts, dotted):
    signers = [
        (it.number, dotted(it.digest_algorithm), dotted(it.signature_algorithm), it.signature, it.issuer, it.serial_number, it.key_identifier,
         it.has_signed_attributes, it.signed, it.unsigned, len(it.countersigners)) for it in facts.signers
    ]
    content = None if facts.content is None else bytes(facts.content)
    return facts.kind, facts.content_type, content, [facts.der[begin:end] for begin, end in facts.certificates], facts.signer_count, signers


def said_by_objects(message):
    content = None if message.content is None else bytes(message.content)
    certificates = [bytes(it) for it in message.certificates or ()]
    return message.kind, message.content_type, content, certificates, len(message.signers), list(signers_of(message.signers, str))


def messages(make):
    """Gives messages at random, those of the vectors, and some with tokens."""
    random = Random(SEED)
    yield from (message_at_random(random).octets for _ in range(MESSAGES))
    for path in sorted((TOP / "tests" / "vectors").glob("*.json")):
        for vector in json.loads(path.read_text()):
            if isinstance(vector, dict) and isinstance(vector.get("input"), str):
                yield bytes.fromhex(vector["input"])
    signed = make.cms(DOCUMENT, "-nodetach")
    yield from (signed, make.token(DOCUMENT), with_unsigned(signed, {TIME_STAMP: make.token(DOCUMENT)}))


def test_facts(archive, make):
    """Facts say what the objects of `read` say of the DER, and find what `check` finds; both refuse the same."""
    from cms_canon import Refused, _facts, _rows

    canon, wrong, refused, many = archive.cms_canon, [], 0, 0
    for octets in messages(make):
        try:
            der = canon.convert(octets)
        except Refused as why:
            refused += 1
            try:
                wrong.append(f"{octets.hex()}: {_facts.facts_of(octets, checks=True)}")
            except Refused as other:
                wrong += [] if str(other) == str(why) else [f"{octets.hex()}: {other}"]
            continue
        facts, message = _facts.facts_of(octets, checks=True), canon.read(der)
        many += len(facts.signers) > facts.signer_count
        is_same = said_by_facts(facts, _rows.dotted) == said_by_objects(message) and facts.der == der
        if not is_same or canon._findings_in(facts.findings) != canon.check(octets):
            wrong.append(octets.hex())
    count("facts of messages", wrong[:2])
    count_if("messages with countersigners, and refused ones", many > 50 and refused > 50, many, refused)


def test_facts_of_tokens(archive, make):
    """Facts of a token say what its TSTInfo says; content that is none is refused alike."""
    from cms_canon import Refused, _facts, _rows

    tst_info = archive.cms_canon.read(make.token(DOCUMENT)).tst_info
    facts = _facts.token_facts_of(bytes(archive.cms_canon.read(make.token(DOCUMENT)).content))
    came = facts.policy, _rows.dotted(facts.hash_algorithm), len(facts.time), facts.time[-1]
    wanted = tst_info.policy, tst_info.imprint.hash_algorithm.oid, len(tst_info.gen_time_text), "Z"
    count_same("a token", came, wanted)
    with pytest.raises(Refused, match="TSTInfo"):
        _facts.token_facts_of(DOCUMENT)


# ---- many files at a time


def files_of(make, home):
    """Writes files of many kinds, and returns their paths."""
    import cases as made

    random = Random(SEED)
    for kind in ("files_of_their_own", "mails", "containers", "packed", "cut_tars"):
        for name, case in getattr(made, kind)(make).items():
            write(home / kind, name, case)
            write(home / kind, f"cut.{name.replace('/', '_')}", Case(case.octets[: random.randrange(len(case.octets) + 1)], ""))
    signed, detached, text = make.cms(DOCUMENT, "-nodetach"), make.cms(DOCUMENT), TEXT * 9
    nested = make.cms(signed, "-nodetach")
    write_files(home / "more", {
        "text.txt": text, "text.p7s": text, "0.txt": b"0707" * 40, "empty": b"", "empty.p7s": b"", "one": b"0", "mail.txt": b"Subject: x\n\ny", "bom.txt": "x".encode("utf-16"),
        "signed.p7m": signed, "detached.p7s": detached, "detached": DOCUMENT, "alone.p7s": detached, "nested.p7m": nested, "of text.p7m": make.cms(text, "-nodetach"),
        "of a mail.p7m": make.cms(b"Subject: x\n\ny" * 9, "-nodetach"), "of a PDF.p7m": make.cms(b"%PDF-1.7\n", "-nodetach"), "late.bin": b"\xff" * 9 + b"%PDF-1.7\n",
        **{f"{size}.bin": b"\xfe" * size for size in (4095, 4096, 4097, LONG - 1, LONG, LONG + 1)}, "long.p7m": make.cms(text * 800, "-nodetach"),
        **{f"spoilt {number}.p7m": bytes(at ^ (random.random() < 0.003) for at in signed) for number in range(60)},
    })
    return [str(path) for path in sorted(home.rglob("*")) if path.is_file()]


def test_many_at_a_time(archive, make, home):
    """What many files give that are read together is what each gives by itself; most are read so."""
    from cms_canon_archive.short_files import reads_together

    entries = [archive.walking.entry_of(path) for path in files_of(make, home)]
    wrong, together = [], 0
    for how in (archive.judging.NOT_VERIFIED, archive.judging.BY_MESSAGE):
        for entry, read in zip(entries, reads_together(entries, how)):
            each = list(archive.reading.reads_of(entry, how))
            together += read is not None
            if read is not None and (len(each) != 1 or without_time(read) != without_time(each[0])):
                wrong.append(f"{entry.path}: {read} and not {each}"[:1000])
    count("files read together", wrong[:3])
    count_if("how many are read together", len(entries) // 2 < together < 2 * len(entries), together, len(entries))


def without_time(read):
    """Returns what was read but for whether the file had just changed."""
    return read._replace(place=read.place._replace(is_settled=True))


def test_what_fails_is_read_by_itself(archive, make, home):
    """A file that is gone, cannot be read or is none by now, or for which memory runs out, is left to be read by itself, and others are read."""
    from unittest import mock

    from cms_canon_archive import short_files

    write_files(home, {"a.p7m": make.cms(DOCUMENT, "-nodetach"), "gone": b"x", "fifo": b"x", "link": b"x", "refused.p7s": b"\x30\x01", "z.txt": TEXT})
    entries = [archive.walking.entry_of(str(home / it)) for it in ("a.p7m", "gone", "fifo", "link", "refused.p7s", "z.txt")]
    for name in ("gone", "fifo", "link"):
        (home / name).unlink()
    os.mkfifo(home / "fifo")
    os.symlink(home / "z.txt", home / "link")
    came = [None if it is None else it.place.what for it in short_files.reads_together(entries)]
    count_same("files that are gone or none", came, ["message", None, None, None, "refused", "text"])
    with mock.patch.object(short_files, "facts_of", side_effect=MemoryError):
        came = [None if it is None else it.place.what for it in short_files.reads_together(entries[:1])]
    count_same("memory that runs out", came, [None])
    with mock.patch.object(short_files, "read_of", side_effect=MemoryError):
        count_same("memory that runs out at the end", short_files.reads_together(entries[-1:]), [None])


def test_groups(archive):
    """A group has at most 32 files, and no more octets than a hostile message may cost, but for a file that is longer by itself."""
    from cms_canon_archive import short_files

    random = Random(SEED)
    files = [(str(it), archive.reading.Entry(str(it), random.choice((0, 1600, 9000, LONG, 1 << 20)), 0, 0)) for it in range(3000)]
    groups = list(short_files.groups(files))
    count_same("all files in their order", [it for some in groups for it in some], files)
    octets = [sum(entry.size for _, entry in some) for some in groups]
    wrong = [some for some, size in zip(groups, octets) if len(some) > short_files.TOGETHER or len(some) > 1 and size > short_files.OCTETS_TOGETHER]
    count("groups that are too large", wrong[:1])
    count_if("files together", len(groups) < len(files) // 2, len(groups))
    count_same("no files", list(short_files.groups([])), [])


def long_messages(make):
    """Returns messages with a text of more than 1,200 characters in each column that may have one."""
    algorithm = element(0x30, element(0x06, b"\x2a" + b"\x81" * 30 + b"\x01" + b"\x03" * 700))
    by_key = element(0x80, bytes(range(256)) * 4)
    by_serial = element(0x30, element(0x30, b"") + element(0x02, b"\x7f" * 1001))
    signers = [element(0x30, b"\x02\x01\x03" + it + algorithm + algorithm + element(0x04, b"s")) for it in (by_key, by_serial)]
    many = b"".join(element(0x30, b"\x02\x01\x03" + element(0x80, b"%03d" % it) + ALGORITHM + ALGORITHM + element(0x04, b"s")) for it in range(60))
    return {"long.p7m": message(b"".join(signers), algorithm[2:] if algorithm[1] < 128 else algorithm[4:]), "findings.p7m": message(many)}


def message(signers, content_type=element(0x06, bytes.fromhex("2a03"))):
    fields = b"\x02\x01\x03" + element(0x31, b"") + element(0x30, content_type) + element(0x31, signers)
    return element(0x30, bytes.fromhex("06092a864886f70d010702") + element(0xA0, element(0x30, fields)))


def test_long_texts(archive, home, make):
    """A text of a message that is too long for a store is cut and ends with its SHA-256, in each column, read together or not."""
    from cms_canon_archive.short_files import reads_together

    seen = set()
    for name, octets in long_messages(make).items():
        (home / name).write_bytes(octets)
        entry = archive.walking.entry_of(str(home / name))
        (together,), (alone,) = reads_together([entry]), archive.reading.reads_of(entry)
        count_same(f"{name}, read together", without_time(together), without_time(alone))
        rows = [together.place._asdict(), *(it._asdict() for it in together.signed_by)]
        for column, text in ((column, text) for row in rows for column, text in row.items() if isinstance(text, str)):
            seen |= {column} if archive.texts.is_cut(text) else set()
            if len(text) > archive.texts.LONGEST + 68:
                count(f"{name}, {column}", f"{len(text)} characters")
    wanted = {"content_type", "findings", "digests", "signatures", "digest", "signature", "serial", "key_identifier"}
    count_same("columns with texts that were cut", seen, wanted)


def test_columns(archive):
    """What is read has the columns of the tables, in their order."""
    tables, reading, judging = archive.tables, archive.reading, archive.judging
    places = [it.name for it in tables.sent_columns(tables.PLACES)]
    count_same("columns of places", ["part", "file", *reading.Place._fields, "worker"], places)
    for table, kind in ((tables.PLACE_SIGNERS, judging.Signer), (tables.PLACE_TIMES, judging.Time)):
        count_same(f"columns of {table.name}", ["part", "file", "member", *kind._fields], [it.name for it in table.columns])
