"""Has `cms_canon_archive` find the messages in containers that Debian's tools make, and compares what it says with what was made.

There are one and more of each kind of container: as they are, with a changed content, cut, and spoilt at random. No file may be said to
fit whose content was changed. Hostile files may take no more octets than the budget of a file, and twice as many of them no more than
twice the octets. What is missing of the tools that make containers is skipped by its name; pikepdf gives a second opinion.
"""

import gzip
import hashlib
import io
import itertools
import os
import re
import sys
import tarfile
import time
import tomllib
import tracemalloc
from collections import Counter
from pathlib import Path
from random import Random
from typing import Dict, Iterator, Tuple
from unittest import mock

import cases as made
import pytest
from cases import (
    ARCHIVE_TIME_STAMP, CERTIFICATE_IN_DER, COUNTERSIGNATURE, DIFFERS, DOCUMENT, FITS, INSIDE, NO_DIGEST, SIGNER_INFO, SIGNER_INFOS, TEXT, TIME_STAMP,
    TST_INFO, UNSEEN, Case, appended, hostile, last_of, place_of, said_in, said_of, signed_pdf, wanted_of, with_unsigned, write,
)
from counting import count_if, count_same, needs
from elements import element
from making import tarred, zipped
from places import DATA
from tally import count

pytestmark = [pytest.mark.archive, needs("cryptography", tools=["openssl"])]
SEED = 5083
SPOILT = 3000
HEADERS = 20_000  # of tars, that are changed
KINDS = {  # what makes containers, and the programs and packages that it uses
    "files_of_their_own": (), "other_files": ("osslsigncode", "gpg"), "mails": (), "other_mails": (), "other_zips": (), "pdfs": ("pikepdf",),
    "early_pdfs": (), "containers": (), "made_jars": (), "jars": ("jarsigner", "apksigner"), "packed": ("zstandard",), "long_members": (), "cut_tars": (),
}
PACKAGES = ("pikepdf", "zstandard")


@pytest.fixture(scope="module")
def kinds(make):
    """Containers by their kinds and names."""
    return {kind: getattr(made, kind)(make) for kind in KINDS}


@pytest.fixture(scope="module")
def cases(kinds):
    """Containers of all kinds by their names."""
    return {name: case for some in kinds.values() for name, case in some.items()}


def test_attributes(archive, home, make):
    """Tokens and countersignatures in unsigned attributes are read, and an imprint is compared with the signature that it covers."""
    der = make.cms(DOCUMENT, "-nodetach")
    signature = archive.cms_canon.read(der).signers[0].signature
    right, wrong = make.token(signature), make.token(DOCUMENT)
    for name, attributes, wanted in (
        ("a token", {TIME_STAMP: right}, [("fits", "1.2.3.4")]),
        ("a token for something else", {TIME_STAMP: wrong}, [("does not fit", "1.2.3.4")]),
        ("two tokens", {TIME_STAMP: right, ARCHIVE_TIME_STAMP: wrong}, [("covers more than was compared", "1.2.3.4"), ("fits", "1.2.3.4")]),
        ("no token", {TIME_STAMP: element(0x30, b"")}, [("no digest to compare", None)]),
    ):
        came, facts = said_in(archive, home, "token.p7m", with_unsigned(der, attributes))
        numbers, times = [it.number for it in facts[""].times], sorted((it.state.value, it.policy) for it in facts[""].times)
        count_same(name, (came, numbers, times), ({"": FITS}, [f"0/{it}" for it in range(len(wanted))], wanted))
    countersigner = last_of(make.cms(signature), SIGNER_INFO)
    _, facts = said_in(archive, home, "counter.p7m", with_unsigned(der, {COUNTERSIGNATURE: countersigner}))
    came = [(it.number, it.subject, it.digest) for it in facts[""].signed_by]
    count_same("a countersignature", came, [("0", "CN=Signer", "sha256"), ("0.0", "CN=Signer", "sha256")])
    # Of several signers the one of which least is known decides, and one that does not fit before all.
    without, other = (last_of(make.cms(octets, *words), SIGNER_INFO) for octets, words in ((DOCUMENT, ["-noattr"]), (TEXT, [])))
    for name, more, wanted in (("none", b"", FITS), ("no digest", without, NO_DIGEST), ("another", other, DIFFERS), ("both", without + other, DIFFERS)):
        came, facts = said_in(archive, home, "signers.p7m", appended(der, SIGNER_INFOS, more))
        count_if(f"several signers, {name}", came[""] == wanted, came, facts[""].findings)
    # What certificates say is kept, but not of long ones, which would fill the memory.
    judging, certificate = archive.judging, make.run(CERTIFICATE_IN_DER)
    judging._short_certificate.cache_clear()
    subjects = {judging._certificate(certificate).subject for _ in range(2)}
    found, kept = judging._certificate(appended(certificate, 0, bytes(judging.SHORT))), judging._short_certificate.cache_info().currsize
    count_same("certificates that are kept", (subjects, kept, found), ({"CN=Signer"}, 1, None))


def test_limits(archive, home):
    """What has more than is read is left, and its row says so; what it lies in is read on. A file that only a missing package could read is not
    called damaged."""
    many = tarred({"many.zip": zipped({f"{it}": b"" for it in range(9)}), "text.txt": TEXT})
    left = {"many.zip": "too large", "text.txt": "text", "": "container without message"}
    zeros = zipped({"zeros.p7s": bytes(300 << 20)})  # which are small if they are packed
    zips, tar = zipped({f"{it}.p7s": zeros for it in range(2)}), gzip.compress(tarred({"large": bytes(64 << 20)}), 9)
    members, packed_otherwise = tarred({str(it): b"" for it in range(20)}), tarred({"a.zst": b"\x28\xb5\x2f\xfd\0", "text.txt": TEXT})
    large, sources, zstandard = {"": "too large"}, archive.sources, mock.patch.dict(sys.modules, {"zstandard": None})
    for name, octets, limit, wanted, place, note, places in (
        ("a package that is missing", packed_otherwise, zstandard, {"a.zst": "unreadable", "text.txt": "text"}, "a.zst", "zstandard", None),
        ("a long list of members", many, mock.patch.object(archive.zips, "MOST_IN_DIRECTORY", 100), left, "", "", 3),
        ("too many members", many, mock.patch.object(archive.zips, "MOST_IN_ZIP", 8), left, "", "", 3),
        ("bombs in a zip", zips, mock.patch.object(sources, "FREE", 200 << 20), large, "", "", None),
        ("a bomb in a tar", tar, mock.patch.object(sources, "FREE", 1 << 20), large, "", "octets would be read", None),
        ("a tar of too many members", members, mock.patch.multiple(sources, MOST_MEMBERS=10, OCTETS_OF_A_MEMBER=1 << 30), large, "", "", 11),
    ):
        with limit:
            came, facts = said_in(archive, home, name, octets)
        is_so = wanted.items() <= came.items() and note in facts[place].note and places in (None, len(came))
        count_if(name, is_so, came, facts.get(place), "wanted", wanted, note, places)


@pytest.mark.parametrize("kind, used", KINDS.items(), ids=KINDS)
def test_cases(archive, home, kinds, tally, kind, used):
    for it in used:
        (tally.has_package if it in PACKAGES else tally.has)(it)
    for name, case in kinds[kind].items():
        came, facts = said_of(archive, write(home, name, case))
        # The place of a signature in an attached PDF is not known when it is made.
        came = {re.sub(r"(part 1!signature at) \d+", r"\1 0", where): what for where, what in came.items()}
        wanted = wanted_of(case)
        differs = {where: (came.get(where), wanted.get(where)) for where in came.keys() | wanted if came.get(where) != wanted.get(where)}
        wrong = {where for where in case.states if where not in facts or facts[where].what.value != "message"}
        count(name, str(differs) if differs else "" if "attached" in name else sorted(wrong))


def changed_contents(cases: Dict[str, Case]):
    """Yields files of which something that is signed was changed, with the places that may not be said to fit any more."""
    for name, case in cases.items():
        if case.beside and "" in case.states and case.states[""] == FITS:
            other = {it: octets[:-1] + bytes([octets[-1] ^ 1]) for it, octets in case.beside.items()}
            yield name, case._replace(beside=other), [""]
        elif name.endswith(".pdf") and name != "many.pdf" and b"/MediaBox [0 0 200" in case.octets:
            yield name, case._replace(octets=case.octets.replace(b"/MediaBox [0 0 200", b"/MediaBox [0 0 201", 1)), [*case.states]
        elif name.endswith((".eml", ",S", ".mbox")) and b"trailing" in case.octets:
            places = [it for it in case.states if case.octets.count(b"trailing") == 1 or it == "mail 3!part 2"]
            yield name, case._replace(octets=case.octets[::-1].replace(b"gniliart", b"gnilairt", 1)[::-1]), places


def test_changed(archive, home, cases):
    """A content that was changed is found by F7 or F14, and not said to fit."""
    found = Counter()
    for name, case, places in changed_contents(cases):
        came, facts = said_of(archive, write(home, name, case))
        for where in (it for it in places if case.states[it] not in (INSIDE, NO_DIGEST)):
            is_found = came.get(where) == DIFFERS and (re.search(r"F7|F14", facts[where].findings) or "sha1" in name or "equal" in name)
            count_if(f"{name}, changed", is_found or came.get(where) == INSIDE and "equal" in name, where, came)
            found[Path(name).suffix] += 1
    count_if("changed contents of each kind", all(found[it] for it in (".p7s", ".tst", ".tsr", ".pdf", ".eml", ".mbox")), found)


def test_cut(archive, home, cases):
    """A file that is cut never ends the search, has one row of its own, and what is said to fit fitted before."""
    random, wrong = Random(SEED), []
    for name, case in ((name, case) for name, case in cases.items() if len(case.octets) < 1 << 20):
        known = {it.digest for it in said_of(archive, write(home, name, case))[1].values()}
        for end in {0, 1, len(case.octets) // 2, len(case.octets) - 1, random.randrange(len(case.octets) or 1)}:
            came, facts = said_of(archive, write(home, name, case._replace(octets=case.octets[:end])))
            good = [it.digest for it in facts.values() if it.state in archive.found.GOOD]
            if list(facts).count("") != 1 or not set(good) <= known:
                wrong.append(f"{name} cut at {end}: {came}")
    count("cut files", wrong[:3])


def test_spoilt(archive, home, cases):
    """Files with octets changed at random never end the search. An octet that a PDF signature covers may not change without being noticed."""
    random, small = Random(SEED), [(name, case) for name, case in cases.items() if 0 < len(case.octets) < 60_000]
    begin, end = re.search(rb"/Contents (<[^>]*>)", cases["one.pdf"].octets).span(1)
    raised, unnoticed, found = [], [], Counter()
    for _ in range(SPOILT):
        name, case = random.choice(small)
        place, octets = random.randrange(len(case.octets)), bytearray(case.octets)
        octets[place] ^= random.randint(1, 255)
        for _ in range(random.choice((0, 0, 1, 20))):
            octets[random.randrange(len(octets))] = random.randrange(256)
        path = write(home, name, case._replace(octets=bytes(octets)))
        try:
            came, _ = said_of(archive, path)
        except Exception as error:
            raised.append(f"{name}: {error!r}")
            continue
        found[came.get("", "message")] += 1
        is_covered = name == "one.pdf" and (octets[:begin], octets[end:]) != (case.octets[:begin], case.octets[end:])  # and not in the hole
        unnoticed += [f"{name} at {place}"] if is_covered and FITS in came.values() else []
    count(f"{SPOILT:,} spoilt files", (raised or unnoticed)[:3])
    count_if("spoilt files of several classes", len(found) > 4, found)


@needs("pikepdf")
def test_second_opinion(cases):
    import pikepdf

    for name, case in cases.items():
        if name.endswith(".pdf") and case.states and name not in UNSEEN:
            password = "user" if name == "encrypted user.pdf" else ""
            with pikepdf.open(io.BytesIO(case.octets), password=password) as pdf:
                seen = sum(isinstance(it, pikepdf.Dictionary) and "/ByteRange" in it and "/Contents" in it for it in pdf.objects)
            count_same(f"{name}, as pikepdf sees it", seen, len(case.states))


def test_notes(archive, home, cases):
    """What a state does not say is said in a note."""
    for name, place, wanted in (
        ("md5.jar", "META-INF/A.RSA", "compares by md5 alone"),
        ("before.asics", "META-INF/signature.p7s", "6 octets lie before the first member"),
        ("after.asics", "", "5 octets follow the end"),
        ("none.asice", "META-INF/signature001.p7s", "the manifest lists no file"),
        ("after.pdf", place_of(cases["after.pdf"].octets), "something else than zeros follows"),
    ):
        _, facts = said_of(archive, write(home, name, cases[name]))
        count_if(f"the note of {name}", wanted in facts[place].note, facts[place].note)


def test_boxes(archive):
    """An mbox is taken apart at the same lines in pieces of whatever length."""
    mails, random, wrong = archive.mail, Random(SEED), []
    lines = [b"From a\n", b"\n", b"\r\n", b">From b\n", b"From c", b"x\n", b"From d\r\n"]
    for _ in range(2000):
        box = b"".join(random.choice(lines) for _ in range(random.randrange(12)))
        with mock.patch.object(mails, "PIECE", random.randrange(1, 9)):
            came = list(mails._mails_in(io.BytesIO(box), archive.sources.Budget(0)))
        wanted, is_after_empty = [], True
        for line in box.splitlines(keepends=True) if b"\r" not in box.replace(b"\r\n", b"") else []:
            if is_after_empty and line.startswith(b"From "):
                wanted.append(b"")
            elif wanted:
                wanted[-1] += line
            is_after_empty = line in (b"\n", b"\r\n")
        wanted = [it[: -len(end)] if (end := next((e for e in (b"\r\n", b"\n") if it.endswith(2 * e)), b"")) else it for it in wanted]
        wrong += [(box, came)] if came != wanted else []
    count("mboxes in pieces", wrong[:2])
    box = b"From a\n" + b"\r\n" * (1 << 19)
    tracemalloc.start()
    came = sum(map(len, mails._mails_in(io.BytesIO(box), archive.sources.Budget(0))))
    _, peak = tracemalloc.get_traced_memory()
    tracemalloc.stop()
    count_if("the memory for short lines", came == (1 << 20) - 2 and peak < 4 << 20, came, peak)


def octets_read(archive, path: Path) -> Tuple[int, float, int]:
    """Returns how many octets are taken of the budget of a file, how long a processor takes, and how many places are said."""
    budgets, make = [], archive.sources.Budget
    begin = time.process_time()
    with mock.patch.object(archive.files, "Budget", lambda size: budgets.append(make(size)) or budgets[-1]):
        places = sum(1 for it in archive.files.found_in_path(str(path)) if archive.judging.judged(it))
    (budget,) = budgets
    return budget._most - budget._octets, time.process_time() - begin, places


def test_hostile(archive, home):
    twice = hostile(2)
    for name, octets in hostile(1).items():
        one, two = (octets_read(archive, write(home, name, Case(it, ""))) for it in (octets, twice[name]))
        budget = archive.sources.FREE + archive.sources.TIMES_THE_SIZE * len(octets)
        is_linear = two[0] <= 2.3 * one[0] + 100_000 or one[0] >= budget
        is_quick = two[1] <= 3 * one[1] + 0.5 and two[1] < 20
        count_if(f"hostile {name}", is_linear and is_quick and one[0] <= budget + (1 << 28), one, "twice as many", two)


# ---- a file system that misbehaves

def test_file_system(archive, home, make):
    """A file that has become something else is not waited for or followed, and an error of the disk is not taken for damage."""
    fifo, link = home / "fifo.p7s", home / "link.p7s"
    os.mkfifo(fifo)
    link.symlink_to(home / "doc.p7s")
    for path in (fifo, link):
        count_if(f"a {path.stem}", is_raised(OSError, lambda: list(archive.files.found_in_path(str(path)))), "it was opened")
    path = write(home, "neighbour/doc.p7s", Case(make.cms(DOCUMENT), ""))
    os.mkfifo(home / "neighbour" / "doc")
    count_same("a FIFO as the content", said_of(archive, path)[0], {"": "content not readable"})


def test_errors_of_the_disk(archive, home, make):
    """The reading of a file fails at each place in turn: no row says that the file is damaged, and none that it fits."""
    members = {f"{it}.p7s": make.cms(DOCUMENT) for it in range(3)}
    files = {"disk.zip": zipped(members), "disk.tar": tarred(members), "disk.tar.gz": gzip.compress(tarred(members)), "disk.pdf": signed_pdf(make)}
    for name, octets in files.items():
        path, readinto = write(home, name, Case(octets, "")), archive.files._File.readinto
        with mock.patch.object(archive.files, "SHORT", 0):  # or these would be read at once
            with mock.patch.object(archive.files._File, "readinto", autospec=True, side_effect=readinto) as reads:
                list(archive.files.found_in_path(str(path)))
            wrong = [at for at in range(reads.call_count) if not _ends_by_disk(archive, path, at)]
        count(f"errors of the disk, {name}, {reads.call_count} reads", wrong if reads.called else "nothing was read")
    with mock.patch.object(archive.files, "_read", side_effect=archive.files.Unreadable("Input/output error")):
        (row,) = archive.reading.reads_of(archive.walking.entry_of(f"{home}/disk.zip"))
    count_same("an error of the disk, of a short file", (row.place.what, row.place.error), ("unreadable", "Input/output error"))


def is_raised(error, act) -> bool:
    try:
        act()
    except error:
        return True
    return False


def _ends_by_disk(archive, path: Path, at: int) -> bool:
    """Whether the error is raised if one read and all after it fail."""
    readinto, left = archive.files._File.readinto, itertools.count(at, -1)

    def failing(file, buffer):
        if next(left) <= 0:
            raise archive.files.Unreadable("Input/output error")
        return readinto(file, buffer)

    with mock.patch.object(archive.files._File, "readinto", failing):
        return is_raised(archive.files.Unreadable, lambda: list(archive.files.found_in_path(str(path))))


def test_large_contents(archive, cases):
    """What is found piece by piece of a long content is what the library finds with it. A TSTInfo that is too long is not known to fit."""
    names = ("doc.p7s", "stamped/doc.tst", "stamped/doc.tsr", "doc.tsq", "unsigned/doc.p7s")
    for name, content in itertools.product(names, (DOCUMENT, DOCUMENT[:-1], b"")):
        octets, pieces = cases[name].octets, archive.found.Content("doc", len(content), archive.found.Pieces(content[:9], content[9:]))
        facts = archive.judging.facts_of(octets, checks=False)
        is_stamped = archive.judging._is_token(facts)
        found = archive.cms_canon.check(octets, None if is_stamped else content, content if is_stamped else None)
        with mock.patch.object(archive.judging, "SMALL", 0):
            came = archive.judging._findings(octets, facts, pieces, is_stamped)
        count_same(f"{name}, {len(content)} octets by pieces", came.text, "; ".join(str(it) for it in found if it.code not in (17, 18)))


def test_contents_beside(archive, make):
    """What cannot be compared with a long document, as a digest that `hashlib` does not make, is not said to fit, and stops nothing."""
    long, new, responses = bytes(1 << 20), hashlib.new, tomllib.loads((DATA / "responses.toml").read_text())
    token, truncated = make.cms(DOCUMENT, "-econtent_type", TST_INFO), make.cms(long, "-md", "sha512-256")

    def lacking(name, *more, **others):
        if name == "sha512_256":
            raise ValueError(f"unsupported hash type {name}")
        return new(name, *more, **others)

    for name, octets, pieces, wanted in (
        ("a TSTInfo of 1 MiB", token, [long], DIFFERS), ("a TSTInfo of 257 MiB", token, [long] * 257, "content not readable"),
        *((f"{name} beside {size} octets", bytes.fromhex(it), [bytes(size)], NO_DIGEST) for name, it in responses.items() for size in (9, 1 << 20)),
        ("a digest that hashlib does not make", truncated, [long], "content not readable"),
    ):
        content = archive.found.Content("doc", sum(map(len, pieces)), archive.found.Pieces(*pieces))
        found = archive.found.Found("", "CMS", archive.found.Class.MESSAGE, len(octets), octets, content, is_detached=True)
        with mock.patch.object(hashlib, "new", lacking):
            facts = archive.judging.judged(found)
        count_if(name, facts.state == wanted, "wanted", wanted, "came", facts)


def headers_of_tars(random: Random) -> Iterator[bytes]:
    """Yields headers of tars, most of them with octets changed, and most of those with a checksum that fits."""
    names = ("a", "x" * 99, "x" * 100, "d/" * 60 + "f", "\u00e9" * 40, "a/", "p" * 150 + "/" + "q" * 90, "a b")
    kinds = (tarfile.REGTYPE, tarfile.AREGTYPE, tarfile.DIRTYPE, tarfile.SYMTYPE, tarfile.CONTTYPE)
    some = []
    for name, kind, form in itertools.product(names, kinds, (tarfile.USTAR_FORMAT, tarfile.GNU_FORMAT)):
        info = tarfile.TarInfo(name)
        info.size, info.type, info.mtime, info.uname = random.choice([0, 1, 511, 512, 8**11 - 1, 1 << 33]), kind, random.choice([0, 1 << 30]), "root"
        try:
            some.append(info.tobuf(form)[-512:])
        except ValueError:  # of a name or a size that this form cannot have
            pass
    for _ in range(HEADERS):
        header = bytearray(random.choice(some))
        for _ in range(random.randrange(4)):
            place = random.choice([random.randrange(512), random.randrange(100, 160), random.randrange(257, 265), random.randrange(329, 350)])
            header[place] = random.choice([0, 32, 48, 55, 56, 0x80, 0xFF])
        if random.random() < 0.7:
            header[148:156] = b" " * 8
            header[148:156] = b"%06o\0 " % sum(header)
        yield bytes(header) if random.random() < 0.98 else bytes(header[: random.randrange(512)])


def test_headers(archive):
    """A header of a tar that is read in less time says what `tarfile` reads in it."""
    plain, wrong = 0, []
    for header in headers_of_tars(Random(SEED)):
        plain += archive.packed._PLAIN_HEADER.match(header) is not None
        own, other = (_said_of_header(it, header) for it in (archive.packed._Header, tarfile.TarInfo))
        wrong += [(own, other)] if own != other else []
    count(f"{HEADERS:,} headers of tars", wrong[:2] or ("" if HEADERS // 50 < plain < HEADERS else f"{plain} of them are plain"))


def _said_of_header(kind, header: bytes):
    try:
        member = kind.frombuf(header, "utf-8", "surrogateescape")
    except (tarfile.HeaderError, ValueError) as error:
        return type(error).__name__, str(error)
    return member.name, member.size, member.type, member.chksum, member.isfile(), member.isdir(), member.issparse()
