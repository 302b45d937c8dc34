"""Compares what `cms_canon_archive` says of containers that are out of the ordinary with what other programs show of them.

A generator makes containers of each kind, most of them with something odd: a member twice, hidden, linked, cut, renamed, or with octets
changed at random. If it is said of a message that it fits, and no note says that readers differ, then no reader may show other octets under
a name that the message covers. The readers are unzip, bsdtar (of a file and of a pipe), GNU tar, Java's JarFile (also as jarsigner has it, which
verifies) and ZipInputStream, and Python's zipfile and tarfile; what is missing is skipped by its name. There are also containers that were
each made by hand for one such trick: each has to be noted.

Another kind of container is one more of KINDS: its generator, and the readers of it.
"""

import base64
import bz2
import gzip
import hashlib
import io
import itertools
import json
import lzma
import os
import re
import shutil
import stat
import struct
import subprocess
import sys
import tarfile
import unicodedata
import zipfile
import zlib
from collections import Counter
from contextlib import suppress
from dataclasses import dataclass, field, replace
from pathlib import Path
from random import Random
from typing import Callable, Dict, Iterable, List, NamedTuple, Optional, Set, Tuple

import pytest
from cases import DOCUMENT, FITS, Maker, made_jar, manifest, said_in, said_of, section, unzipped
from counting import count_if, count_same, needs
from making import write_files
from places import DATA
from running import SECONDS, ended, ran
from tally import count

pytestmark = [pytest.mark.archive, needs("cryptography", "click", "tqdm", "sqlalchemy", tools=["openssl"])]
CONTAINERS = 1500  # of each kind
SEED = 7310
MOST_BY_JARSIGNER = 40  # JARs, for each of which it takes a second
OTHER = b"Not the document that was signed."
JAVA = DATA / "Readers.java"

Shown = Dict[str, Set[bytes]]
"""The digests of what a reader shows under each name."""
Read = Callable[[Path, List[Path]], Dict[str, Shown]]
"""Reads containers, with a folder for what it writes: what each shows, by the name of its file."""


class Container(NamedTuple):
    """A container as it was made: its octets, what was done to it, and what each message in it covers, by its place."""

    octets: bytes
    how: str
    covers: Dict[str, Dict[str, bytes]]
    covers_all: bool = False
    """Whether a message has to cover each file that a reader shows, if it fits."""


def digest(octets: bytes) -> bytes:
    return hashlib.sha256(octets).digest()


# ---- readers


def by_command(*words: str, is_piped: bool = False) -> Read:
    """Returns a reader that unpacks a file into the folder in which it is called: `FILE` among its words is the file."""

    def read(folder: Path, paths: List[Path]) -> Dict[str, Shown]:
        return {path.name: _unpacked(folder / path.name, [path if it == "FILE" else it for it in words], path if is_piped else None) for path in paths}

    return read


def _unpacked(folder: Path, words: list, piped: Optional[Path]) -> Shown:
    folder.mkdir(parents=True)
    octets = piped.read_bytes() if piped else b""
    subprocess.run([*map(str, words)], cwd=folder, input=octets, capture_output=True, timeout=SECONDS)
    shown = {}
    for path in folder.rglob("*"):
        inside = os.path.realpath(path)
        if path.is_file() and inside.startswith(os.path.realpath(folder) + "/"):
            shown.setdefault(str(path.relative_to(folder)), set()).add(digest(path.read_bytes()))
    subprocess.run(["chmod", "-R", "u+rwx", str(folder)], capture_output=True, timeout=SECONDS)
    shutil.rmtree(folder)
    return shown


def by_zipfile(folder: Path, paths: List[Path]) -> Dict[str, Shown]:
    return {path.name: _shown_by_zipfile(path) for path in paths}


def _shown_by_zipfile(path: Path) -> Shown:
    shown: Shown = {}
    with suppress(Exception), zipfile.ZipFile(path) as file:
        for info in (it for it in file.infolist() if not it.is_dir()):
            with suppress(Exception):  # of a member that it does not show
                shown.setdefault(info.filename, set()).add(digest(file.read(info)))
    return shown


def by_tarfile(folder: Path, paths: List[Path]) -> Dict[str, Shown]:
    return {path.name: _shown_by_tarfile(folder / path.name, path) for path in paths}


def _shown_by_tarfile(folder: Path, path: Path) -> Shown:
    shown: Shown = {}
    with suppress(Exception), tarfile.open(path, "r:") as file:
        for name in set(file.getnames()):
            with suppress(Exception):
                if (octets := file.extractfile(name)) is not None:
                    shown[os.path.normpath(name)] = {digest(octets.read())}
    return shown


def by_java(readers: str) -> Read:
    """Returns a reader of the program in Java, which is begun once for all files."""

    def read(folder: Path, paths: List[Path]) -> Dict[str, Shown]:
        names = "".join(f"{it}\n" for it in paths).encode()
        ran = subprocess.run(["java", JAVA, readers], input=names, capture_output=True, timeout=SECONDS)
        assert ran.returncode == 0, f"java: {ran.stderr.decode()[-800:]}"
        shown: Dict[str, Shown] = {it.name: {} for it in paths}
        for parts in (line.split("\t") for line in ran.stdout.decode().splitlines()):
            if len(parts) == 3:
                name = bytes.fromhex(parts[1]).decode("utf-8", "replace")
                shown[Path(parts[0]).name].setdefault(name, set()).add(bytes.fromhex(parts[2]))
        return shown

    return read


def by_jarsigner(folder: Path, paths: List[Path]) -> Dict[str, Shown]:
    """Shows something of a JAR that jarsigner does not verify as a whole; it is begun for each of the first ones."""
    return {path.name: {} if is_verified(path) else {"what jarsigner refuses": {digest(b"")}} for path in paths[:MOST_BY_JARSIGNER]}


def is_verified(path: Path) -> bool:
    words = ["jarsigner", "-J-Duser.language=en", "-verify", str(path)]
    said = subprocess.run(words, capture_output=True, text=True, timeout=SECONDS).stdout
    return "jar verified" in said and "unsigned entries" not in said


# ---- zips, written header by header


@dataclass
class Member:
    """A member of a zip. What its two headers say can differ, and it can lack one of them."""

    name: bytes
    octets: bytes
    method: int = zipfile.ZIP_DEFLATED
    flags: int = 0x800
    local: dict = field(default_factory=dict)
    """What the header before the member says otherwise: `name`, `crc`, `packed`, `unpacked`, `method`, `extra`."""
    listed: dict = field(default_factory=dict)
    """What the list of members says otherwise; also `at`, `mode` and `system`."""
    is_listed: bool = True
    is_there: bool = True
    packed: Optional[bytes] = None
    after: bytes = b""
    """What follows it."""

    def numbers(self, other: dict) -> dict:
        packed = self.packed_octets()
        return {"name": self.name, "crc": zlib.crc32(self.octets), "packed": len(packed), "unpacked": len(self.octets), "method": self.method,
                "extra": b"", "flags": self.flags, **other}

    def packed_octets(self) -> bytes:
        if self.packed is None:
            deflater = zlib.compressobj(9, zlib.DEFLATED, -15)
            self.packed = self.octets if self.method == zipfile.ZIP_STORED else deflater.compress(self.octets) + deflater.flush()
        return self.packed

    def written(self) -> bytes:
        values = self.numbers({**({"crc": 0, "packed": 0, "unpacked": 0} if self.flags & 8 else {}), **self.local})
        sizes = (values["crc"], values["packed"], values["unpacked"], len(values["name"]), len(values["extra"]))
        header = struct.pack("<4s5H3L2H", b"PK\3\4", 20, values["flags"], values["method"], 0, 33, *sizes)
        end = self.numbers({})
        descriptor = struct.pack("<4s3L", b"PK\7\x08", end["crc"], end["packed"], end["unpacked"]) if self.flags & 8 else b""
        return header + values["name"] + values["extra"] + self.packed_octets() + descriptor + self.after

    def entry(self, at: int) -> bytes:
        values = self.numbers({"at": at, "mode": 0o100644 << 16, "system": 3, **self.listed})
        sizes = (values["crc"], values["packed"], values["unpacked"], len(values["name"]), len(values["extra"]))
        head = (20, values["system"], 20, values["flags"], values["method"], 0, 33, *sizes, 0, 0, 0, values["mode"], values["at"])
        return struct.pack("<4sBB5H3L5H2L", b"PK\1\2", *head) + values["name"] + values["extra"]


@dataclass
class Zip:
    """A zip: its members, what lies before and after them, and what its end says otherwise."""

    members: List[Member]
    before: bytes = b""
    gap: bytes = b""
    """Between the last member and the list."""
    after: bytes = b""
    comment: bytes = b""
    end: dict = field(default_factory=dict)
    is_shifted: bool = True
    """Whether offsets count from the beginning of the file, and not from the first member."""
    other_list: Optional[List[Member]] = None
    """Members of a second list, which a ZIP64 locator leads to, or the end record if `is_other_first`."""
    is_other_in_64: bool = True

    def written(self) -> bytes:
        octets, places = bytearray(self.before), {}
        every = self.members + [it for it in self.other_list or [] if it not in self.members]
        for member in every:
            if member.is_there:
                places[id(member)] = len(octets) - (0 if self.is_shifted else len(self.before))
                octets += member.written()
        octets += self.gap
        lists = [self._list(some, places) for some in (self.members, self.other_list) if some is not None]
        begins = []
        for it, _ in lists:
            begins.append(len(octets) - (0 if self.is_shifted else len(self.before)))
            octets += it
        return bytes(octets) + self._end(lists, begins, len(octets)) + self.comment + self.after

    def _list(self, some: List[Member], places: Dict[int, int]) -> Tuple[bytes, int]:
        entries = [it.entry(places.get(id(it), 0)) for it in some if it.is_listed]
        return b"".join(entries), len(entries)

    def _end(self, lists: list, begins: List[int], at: int) -> bytes:
        first, last = 0, len(lists) - 1
        octets_64 = b""
        if len(lists) > 1 and self.is_other_in_64:
            listed, number = lists[last]
            octets_64 = struct.pack("<4sQ2H2L4Q", b"PK\6\6", 44, 45, 45, 0, 0, number, number, len(listed), begins[last])
            octets_64 += struct.pack("<4sLQL", b"PK\6\7", 0, at, 1)
        listed, number = lists[first]
        said = {"number": number, "octets": len(listed), "begin": begins[first], **self.end}
        return octets_64 + struct.pack("<4s4H2LH", b"PK\5\6", 0, 0, said["number"], said["number"], said["octets"], said["begin"], len(self.comment))


def fresh(members: List[Member]) -> List[Member]:
    return [replace(it, local=dict(it.local), listed=dict(it.listed)) for it in members]


def hidden_in(member: Member, name: bytes) -> None:
    """Gives a member packed octets after whose end another member of this name follows, of which the list says nothing."""
    deflater = zlib.compressobj(9, zlib.DEFLATED, -15)
    packed = deflater.compress(member.octets) + deflater.flush()
    member.method, member.flags = zipfile.ZIP_DEFLATED, member.flags | 8
    real = struct.pack("<4s3L", b"PK\7\x08", zlib.crc32(member.octets), len(packed), len(member.octets))
    member.packed = packed + real + Member(name, OTHER, is_listed=False).written()


# What is done to a zip: each trick takes it, the name of the member to be changed, and a generator of random numbers.

def _twice(whole: Zip, name: bytes, random: Random) -> None:
    whole.members.insert(random.randrange(len(whole.members) + 1), Member(name, OTHER))


def _hidden(whole: Zip, name: bytes, random: Random) -> None:
    whole.members.insert(random.randrange(len(whole.members) + 1), Member(name, OTHER, is_listed=False))


def _hidden_within(whole: Zip, name: bytes, random: Random) -> None:
    hidden_in(random.choice(whole.members), name)


def _other_header(whole: Zip, name: bytes, random: Random) -> None:
    member = next(one for one in whole.members if one.name == name)
    choices = {"name": b"other", "crc": 1, "packed": 1, "unpacked": 1, "method": 0, "extra": b"\1\0\x10\0" + bytes(16)}
    for key in random.sample(sorted(choices), random.randrange(1, 3)):
        random.choice((member.local, member.listed))[key] = choices[key]


def _swapped(whole: Zip, name: bytes, random: Random) -> None:
    """The headers before two members have the name of the other."""
    member, other = next(one for one in whole.members if one.name == name), Member(b"swapped", OTHER)
    member.local["name"], other.local["name"] = other.name, name
    whole.members.append(other)


def _other_spelling(whole: Zip, name: bytes, random: Random) -> None:
    text = name.decode()
    spellings = (f"./{text}", f"x/../{text}", f"/{text}", f"{text}/", text.upper(), f"../{text}", text.replace("/", "\\"), f"{text}\0x", f"//{text}", f"{text};1", f"\7{text}",
                 f"{text}/more", unicodedata.normalize("NFD", text))
    spelt = random.choice(spellings).encode()
    if random.random() < 0.3:
        next(one for one in whole.members if one.name == name).name = spelt
    else:
        whole.members.insert(random.randrange(len(whole.members) + 1), Member(spelt, OTHER))


def _other_characters(whole: Zip, name: bytes, random: Random) -> None:
    """A member has the name in an extra field, or in characters that some take for others."""
    extra = struct.pack("<HHBL", 0x7075, 5 + len(name), 1, zlib.crc32(b"other")) + name
    both = {"extra": extra}
    whole.members.insert(random.randrange(len(whole.members) + 1), Member(b"other", OTHER, flags=0, local=both, listed=random.choice((both, {}))))


def _two_lists(whole: Zip, name: bytes, random: Random) -> None:
    whole.other_list = [one for one in whole.members if one.name != name] + [Member(name, OTHER)]
    if random.random() < 0.5:
        whole.members, whole.other_list = whole.other_list, whole.members
    whole.is_other_in_64 = random.random() < 0.7
    if not whole.is_other_in_64:
        whole.end["octets"] = 0


def _other_end(whole: Zip, name: bytes, random: Random) -> None:
    whole.end[random.choice(("number", "octets", "begin"))] = random.choice((0, 1, 46, 100))


def _around(whole: Zip, name: bytes, random: Random) -> None:
    other = Zip([Member(name, OTHER)]).written()
    octets = random.choice((b"x" * random.randrange(1, 50), other, Member(name, OTHER).written()))
    setattr(whole, random.choice(("before", "gap", "after", "comment")), octets)
    whole.is_shifted = random.random() < 0.5


def _linked(whole: Zip, name: bytes, random: Random) -> None:
    member = next(one for one in whole.members if one.name == name)
    if random.random() < 0.5:
        member.listed["mode"] = (stat.S_IFLNK | 0o777) << 16
    else:
        whole.members.insert(0, Member(name, b"other", listed={"mode": (stat.S_IFLNK | 0o777) << 16}))
    whole.members.append(Member(b"other", OTHER))


def _described(whole: Zip, name: bytes, random: Random) -> None:
    """Members have descriptors, also such as are stored."""
    for one in whole.members:
        one.flags |= 8
        one.method = random.choice((0, 8, 8))


def _stored(whole: Zip, name: bytes, random: Random) -> None:
    """A stored member has other octets than its sizes say."""
    member = next(one for one in whole.members if one.name == name)
    member.method, member.packed = zipfile.ZIP_STORED, member.octets + OTHER


def _longer(whole: Zip, name: bytes, random: Random) -> None:
    """A member goes on after the octets that both headers speak of."""
    deflater, member = zlib.compressobj(9, zlib.DEFLATED, -15), next(one for one in whole.members if one.name == name)
    member.method, member.packed = zipfile.ZIP_DEFLATED, deflater.compress(member.octets + OTHER) + deflater.flush()


def _same_header(whole: Zip, name: bytes, random: Random) -> None:
    """Two entries of the list are for one member."""
    whole.members.append(Member(b"shared", DOCUMENT, is_there=False))


TRICKS = (_twice, _hidden, _hidden_within, _other_header, _swapped, _other_spelling, _other_characters, _two_lists, _other_end, _around, _linked,
          _described, _stored, _longer, _same_header)


def spoilt(octets: bytes, random: Random) -> bytes:
    """Returns a zip of which a few octets of its headers are changed."""
    changed = bytearray(octets)
    headers = [it.start() for it in re.finditer(rb"PK[\1\3\5\6][\2\4\6\7]", octets)] or [0]
    for _ in range(random.randrange(1, 4)):
        place = random.choice(headers) + random.randrange(4, 60)
        if place < len(changed):
            changed[place] = random.choice((0, 1, 8, 0xFF, changed[place] ^ 1 << random.randrange(8)))
    return bytes(changed)


def made_zip(files: Dict[str, bytes], names: List[str], random: Random) -> Tuple[bytes, str]:
    """Returns a zip of these files to which something was done, and what."""
    members = [Member(name.encode(), octets, method=random.choice((0, 8))) for name, octets in files.items()]
    whole, how = Zip(members), []
    for trick in random.sample(TRICKS, random.choice((0, 1, 1, 1, 2))):
        try:
            trick(whole, random.choice(names).encode(), random)
        except StopIteration:  # the member has another name by now
            continue
        how.append(trick.__name__.strip("_"))
    octets = whole.written()
    if random.random() < 0.2:
        octets, how = spoilt(octets, random), [*how, "spoilt"]
    return octets, ", ".join(how)


def zips_of(files: Dict[str, bytes], covers: Dict[str, Iterable[str]], covers_all: bool) -> Callable[[Random], Container]:
    """Returns what makes zips of these files, whose messages cover files by these names."""
    covered = {place: {name: files[name] for name in names} for place, names in covers.items()}
    names = sorted({name for some in covered.values() for name in some})

    def make(random: Random) -> Container:
        return Container(*made_zip(files, names, random), covered, covers_all)

    return make


def zip_kinds(make: Maker) -> Dict[str, Callable[[Random], Container]]:
    """Returns what makes zips of each kind: with a message beside its content, one with its content, ASiC and JAR."""
    der, attached = make.cms(DOCUMENT), make.cms(DOCUMENT, "-nodetach")
    beside = {"doc": DOCUMENT, "doc.p7s": der, "text.txt": b"text"}
    listed = manifest("META-INF/signature001.p7s", "application/x-pkcs7-signature", {"doc": DOCUMENT, "folder/b": b"b"})
    in_e = {"mimetype": b"application/vnd.etsi.asic-e+zip", "doc": DOCUMENT, "folder/b": b"b", "META-INF/ASiCManifest001.xml": listed}
    in_e["META-INF/signature001.p7s"] = make.cms(listed)
    jar = unzipped(made_jar(make, {"a/B.class": b"class", "doc": DOCUMENT}))
    return {
        "zip": zips_of(beside, {"doc.p7s": ["doc", "doc.p7s"]}, False),
        "attached.zip": zips_of({"a.p7m": attached, "text.txt": b"text"}, {"a.p7m": ["a.p7m"]}, False),
        "asics": zips_of({"doc": DOCUMENT, "META-INF/signature.p7s": der}, {"META-INF/signature.p7s": ["doc", "META-INF/signature.p7s"]}, True),
        "asice": zips_of(in_e, {"META-INF/signature001.p7s": [it for it in in_e if it != "mimetype"]}, True),
        "jar": zips_of(jar, {"META-INF/A.RSA": [*jar]}, True),
    }


def zip_readers(tally) -> Dict[str, Read]:
    readers: Dict[str, Read] = {"zipfile": by_zipfile}
    if tally.has("unzip"):
        readers["unzip"] = by_command("unzip", "-o", "-qq", "FILE")
    if tally.has("bsdtar"):
        readers["bsdtar"] = by_command("bsdtar", "-xf", "FILE")
        readers["bsdtar of a pipe"] = by_command("bsdtar", "-xf", "-", is_piped=True)
    if tally.has("java"):
        readers.update({name: by_java(name) for name in ("JarFile", "verifying JarFile", "ZipInputStream")})
    return readers


def jar_readers(tally) -> Dict[str, Read]:
    return {**zip_readers(tally), **({"jarsigner": by_jarsigner} if tally.has("jarsigner") else {})}


# ---- tars, written header by header


@dataclass
class Entry:
    """A member of a tar. The header is written as it is said, also if it is wrong."""

    name: bytes
    octets: bytes = b""
    kind: bytes = b"0"
    link: bytes = b""
    size: Optional[bytes] = None
    magic: bytes = b"ustar\x0000"
    prefix: bytes = b""
    changes: Tuple[Tuple[int, int], ...] = ()
    """Places in the header, and what they get before the check sum is made."""

    def written(self) -> bytes:
        size = b"%011o\0" % len(self.octets) if self.size is None else self.size
        head = self.name[:100].ljust(100, b"\0") + b"0000644\0" + b"0000000\0" * 2 + size.ljust(12, b"\0")[:12] + b"00000000001\0" + b" " * 8
        header = bytearray((head + self.kind + self.link[:100].ljust(100, b"\0") + self.magic).ljust(345, b"\0") + self.prefix).ljust(512, b"\0")
        for place, octet in self.changes:
            header[place] = octet
        header[148:156] = b" " * 8
        header[148:156] = b"%06o\0 " % sum(header)
        return bytes(header) + self.octets + bytes(-len(self.octets) % 512)


def record(key: str, value: bytes) -> bytes:
    body = b" " + key.encode() + b"=" + value + b"\n"
    length = len(body) + 1
    while len(str(length)) + len(body) != length:
        length = len(str(length)) + len(body)
    return str(length).encode() + body


def pax(*records: Tuple[str, bytes], kind: bytes = b"x") -> Entry:
    return Entry(b"pax", b"".join(record(*it) for it in records), kind)


END = bytes(1024)
Entries = List[Entry]

# What is done to a tar: each trick takes its members, the name of the one to be changed, and a generator of random numbers.


def _put(entries: Entries, random: Random, *more: Entry) -> None:
    at = random.randrange(len(entries) + 1)
    entries[at:at] = more


def _again(entries: Entries, name: bytes, random: Random) -> None:
    _put(entries, random, Entry(name, OTHER))


def _of_another_kind(entries: Entries, name: bytes, random: Random) -> None:
    kind = random.choice((b"\0", b"1", b"2", b"5", b"6", b"7", b"V", b"D", b"M", b"N", b"A", b"s", b"9"))
    _put(entries, random, Entry(b"other", OTHER))
    _put(entries, random, Entry(name, b"" if kind in (b"1", b"2", b"5", b"6") and random.random() < 0.8 else OTHER, kind, link=b"other"))


def _link_to_it(entries: Entries, name: bytes, random: Random) -> None:
    """Something is written through a link to the member."""
    _put(entries, random, Entry(b"link", kind=random.choice((b"1", b"2")), link=name))
    if random.random() < 0.7:
        entries.append(Entry(b"link", OTHER))


def _through_a_link(entries: Entries, name: bytes, random: Random) -> None:
    _put(entries, random, Entry(b"d", kind=b"2", link=b"."))
    _put(entries, random, Entry(b"d/" + name, OTHER))


def _is_hard_link(entries: Entries, name: bytes, random: Random) -> None:
    """The member is a hard link to another, as GNU tar writes it."""
    at = next(number for number, it in enumerate(entries) if it.name == name)
    octets, entries[at] = entries[at].octets, Entry(name, kind=b"1", link=b"first")
    entries.insert(random.randrange(at + 1), Entry(b"first", octets))
    if random.random() < 0.3:
        _put(entries, random, Entry(b"first", OTHER))


def _spelt(entries: Entries, name: bytes, random: Random) -> None:
    spellings = (b"./" + name, b"x/../" + name, name + b"/", b"//" + name, name.upper(), b"a/../" + name, name + b"\0x", b"./x/./../" + name)
    spelling = random.choice(spellings)
    if random.random() < 0.3:
        next(it for it in entries if it.name == name).name = spelling
    else:
        _put(entries, random, Entry(spelling, OTHER))


def _named_by_pax(entries: Entries, name: bytes, random: Random) -> None:
    records = random.choice(((("path", name),), (("path", b"x"), ("path", name)), (("path", name + b"\0"),), (("GNU.sparse.name", name),),
                             (("path", name), ("size", b"%d" % random.choice((0, 5, len(OTHER)))))))
    _put(entries, random, pax(*records, kind=random.choice((b"x", b"x", b"x", b"g", b"X"))), Entry(b"other", OTHER))


def _named_by_gnu(entries: Entries, name: bytes, random: Random) -> None:
    long = Entry(b"././@LongLink", random.choice((name, name + b"\0", name + b"\0x", b"x\0" + name)), random.choice((b"L", b"L", b"K", b"N")))
    more = (pax(("path", random.choice((b"x", name)))),) if random.random() < 0.3 else ()
    _put(entries, random, long, *more, Entry(b"other", OTHER))


def _sized(entries: Entries, name: bytes, random: Random) -> None:
    """A size is written in another way, or the header of another member lies in the octets of one for some readers."""
    hidden = Entry(name, OTHER).written()
    sizes = (b"0", b" 2000", b"1_0", b"0o17", b"+1000", b"-1", b"\x80" + bytes(9) + b"\4\0", b"\xff" * 12, b"00000002000 ", b"", b"0000000200x", b"1000 000")
    _put(entries, random, Entry(b"sized", hidden, size=random.choice(sizes)))


def _changed_header(entries: Entries, name: bytes, random: Random) -> None:
    entry = random.choice(entries)
    places = [random.choice((random.randrange(512), random.randrange(100, 160), random.randrange(257, 265), random.randrange(345, 512))) for _ in range(2)]
    entry.changes = tuple((place, random.choice((0, 32, 48, 49, 55, 0x80, 0xFF, 120))) for place in places)


def _of_another_form(entries: Entries, name: bytes, random: Random) -> None:
    magic = random.choice((b"ustar  \0", b"\0" * 8, b"ustar\0  ", b"ustar\x0001", b"USTAR\x0000"))
    base, _, last = name.rpartition(b"/")
    _put(entries, random, Entry(last or name, OTHER, magic=magic, prefix=base or random.choice((b"", b"x", b"."))))


ENTRY_TRICKS = (_again, _of_another_kind, _link_to_it, _through_a_link, _is_hard_link, _spelt, _named_by_pax, _named_by_gnu, _sized, _changed_header,
                _of_another_form)


def ended_tar(entries: Entries, name: bytes, random: Random) -> Tuple[bytes, str]:
    """Returns the octets of a tar, of which the end may be another, and what was done to it."""
    octets, other = b"".join(it.written() for it in entries), Entry(name, OTHER).written()
    way = random.choice(("", "", "", "", "", "more after the end", "one block of zeros", "damage", "cut", "no end"))
    middle = random.choice([0, *itertools.accumulate(len(it.written()) for it in entries)])
    return {
        "": octets + END, "more after the end": octets + END + other + END, "one block of zeros": octets + bytes(512) + other + END,
        "damage": octets[:middle] + b"x" * 512 + octets[middle:] + other + END, "cut": octets[: -random.randrange(1, 700)], "no end": octets,
    }[way], way


def tars_of(files: Dict[str, bytes], covers: Dict[str, Iterable[str]]) -> Callable[[Random], Container]:
    """Returns what makes tars of these files, whose messages cover files by these names."""
    covered = {place: {name: files[name] for name in names} for place, names in covers.items()}
    names = sorted({name for some in covered.values() for name in some})

    def make(random: Random) -> Container:
        entries, how = [Entry(it.encode(), octets) for it, octets in files.items()], []
        random.shuffle(entries)
        for trick in random.sample(ENTRY_TRICKS, random.choice((0, 0, 1, 1, 1, 2))):
            try:
                trick(entries, random.choice(names).encode(), random)
            except StopIteration:  # the member has another name by now
                continue
            how.append(trick.__name__.strip("_"))
        octets, way = ended_tar(entries, random.choice(names).encode(), random)
        return Container(octets, ", ".join(filter(None, [*how, way])), covered)

    return make


def tar_kinds(make: Maker) -> Dict[str, Callable[[Random], Container]]:
    der, attached = make.cms(DOCUMENT), make.cms(DOCUMENT, "-nodetach")
    files = {"doc": DOCUMENT, "doc.p7s": der, "a/b.p7m": attached, "text.txt": b"text"}
    return {"tar": tars_of(files, {"doc.p7s": ["doc", "doc.p7s"], "a/b.p7m": ["a/b.p7m"]})}


def by_extractall(folder: Path, paths: List[Path]) -> Dict[str, Shown]:
    """Reads tars as Python unpacks them, but for members that would lie outside, and for FIFOs, for which it would wait."""
    code = (
        "import sys, tarfile\n"
        "with tarfile.open(sys.argv[1], 'r:') as file:\n"
        "    some = [it for it in file.getmembers() if not it.isfifo()"
        " and '..' not in it.name + it.linkname and not it.name.startswith('/') and not it.linkname.startswith('/')]\n"
        "    file.extractall('.', some)\n"
    )
    return by_command(sys.executable, "-c", code, "FILE")(folder, paths)


def tar_readers(tally) -> Dict[str, Read]:
    readers: Dict[str, Read] = {"tarfile": by_tarfile, "tarfile, unpacking": by_extractall}
    if tally.has("tar"):
        readers["GNU tar"] = by_command("tar", "-xf", "FILE")
    if tally.has("bsdtar"):
        readers["bsdtar"] = by_command("bsdtar", "-xf", "FILE")
    return readers


# ---- made by hand


class Trick(NamedTuple):
    """A container that was made by hand: what is said of a message in it, and words of the note. No words mean that there is no note."""

    octets: bytes
    place: str
    state: str
    words: str = ""


def with_manifest(make: Maker, files: Dict[str, bytes], more: str = "", main: bytes = b"", version: str = "1.0", name: bytes = b"",
                  is_named: bool = True) -> Dict[str, bytes]:
    """Returns the members of a JAR whose signature file says more, or names no file, or whose manifest says more, or a name in another place."""
    sections = {it: name + section(it, octets) for it, octets in files.items()}
    listed = b"Manifest-Version: 1.0\r\n" + main + b"\r\n" + b"".join(sections.values())
    signature = f"Signature-Version: {version}\r\nSHA-256-Digest-Manifest: {base64.b64encode(digest(listed)).decode()}\r\n{more}\r\n".encode()
    signature += b"".join(section(it, octets) for it, octets in sections.items() if is_named)
    return {"META-INF/MANIFEST.MF": listed, "META-INF/A.SF": signature, "META-INF/A.RSA": make.cms(signature), **files}


def apk_block(*schemes: int) -> bytes:
    """Returns an APK signing block with parts of these numbers."""
    parts = b"".join(struct.pack("<QL", 8, it) + b"part" for it in schemes)
    size = struct.pack("<Q", len(parts) + 24)
    return size + parts + size + b"APK Sig Block 42"


def shorter(method: int) -> Member:
    """Returns a member with fewer octets than both headers say."""
    octets = {"unpacked": len(DOCUMENT) + 83}
    return Member(b"doc", DOCUMENT, method=method, local=octets, listed=dict(octets))


def zip_of(files: Dict[str, bytes]) -> bytes:
    return Zip([Member(name.encode(), octets) for name, octets in files.items()]).written()


def zip_tricks(make: Maker) -> Dict[str, Trick]:
    """Returns zips in which readers find other octets, and some in which all find the same."""
    der, block = make.cms(DOCUMENT), "META-INF/A.RSA"
    plain, doc, other = [Member(b"doc", DOCUMENT), Member(b"doc.p7s", der)], Member(b"doc", DOCUMENT), Member(b"doc", OTHER)
    signature = Member(b"doc.p7s", der)
    within, longer = Member(b"doc", DOCUMENT), Member(b"doc", DOCUMENT)
    hidden_in(within, b"doc")
    _longer(Zip([longer]), b"doc", Random(0))
    with_tail = Member(b"doc", DOCUMENT)
    with_tail.packed = with_tail.packed_octets() + b"tail"
    unended = Member(b"doc", DOCUMENT)
    unended.packed = bytes([unended.packed_octets()[0] ^ 1]) + unended.packed_octets()[1:]  # its last block is not marked as that
    members = [Member(name.encode(), octets) for name, octets in with_manifest(make, {"doc": DOCUMENT, "A.class": b"class"}).items()]
    renamed = [replace(it, name=b"./A.class") if it.name == b"A.class" else it for it in members]
    of_android = {"AndroidManifest.xml": b"m", "classes.dex": DOCUMENT}
    said = [Member(name.encode(), it) for name, it in with_manifest(make, of_android, "X-Android-APK-Signed: 2, 3\r\n").items()]
    link = Member(b"doc", DOCUMENT, listed={"mode": (stat.S_IFLNK | 0o777) << 16})
    differ, unclear = "readers differ on ", "files of the manifest not compared"
    beside = {
        "plain.zip": Trick(Zip(plain).written(), "doc.p7s", FITS),
        "described.zip": Trick(Zip([Member(b"doc", DOCUMENT, flags=0x808), signature]).written(), "doc.p7s", FITS),
        "64.zip": Trick(in_64({"doc": DOCUMENT, "doc.p7s": der}), "doc.p7s", FITS),
        "two lists.zip": Trick(Zip([other, signature], other_list=[doc, signature]).written(), "doc.p7s", unclear, differ),
        "hidden.zip": Trick(Zip([replace(other, is_listed=False), *plain]).written(), "doc.p7s", unclear, differ),
        "hidden within.zip": Trick(Zip([within, signature]).written(), "doc.p7s", "damaged", "not as many octets"),
        "hidden last.zip": Trick(Zip(plain, gap=other.written()).written(), "doc.p7s", unclear, differ),
        "longer.zip": Trick(Zip([longer, signature]).written(), "doc.p7s", "damaged", "CRC"),
        "other name.zip": Trick(Zip([replace(other, local={"extra": unicode_path(b"doc")}), *plain]).written(), "doc.p7s", unclear, differ),
        "folder.zip": Trick(Zip([*plain, Member(b"doc/", OTHER)]).written(), "doc.p7s", unclear, differ),
        "steps.zip": Trick(Zip([*plain, Member(b"x/../doc", OTHER)]).written(), "doc.p7s", unclear, differ),
        "capitals.zip": Trick(Zip([*plain, Member(b"DOC", OTHER)]).written(), "doc.p7s", FITS, "on some file systems"),
        "link.zip": Trick(Zip([link, signature]).written(), "doc.p7s", unclear, "symbolic link"),
        "descriptor.zip": Trick(Zip([Member(b"doc", DOCUMENT, flags=0x808, local={"extra": b"\1\0\x10\0" + bytes(16)}), signature]).written(), "doc.p7s",
                                unclear, "no descriptor"),
        "no end.zip": Trick(Zip([unended, signature]).written(), "doc.p7s", "damaged", "no end"),
        "device.zip": Trick(Zip([replace(doc, listed={"mode": 0xFFA4 << 16}), signature]).written(), "doc.p7s", unclear, "it is no file"),
        "attached.zip": Trick(Zip([Member(b"a.p7m", make.cms(DOCUMENT, "-nodetach")), Member(b"a.p7m", OTHER, is_listed=False)]).written(), "a.p7m",
                              FITS, differ),
        "some.jar": Trick(Zip(members).written(), block, FITS),
        "other path.jar": Trick(Zip(renamed).written(), block, "does not fit", "A.class"),
        "hidden.jar": Trick(Zip([Member(b"A.class", OTHER, is_listed=False), *members]).written(), block, unclear, differ),
        "version.zip": Trick(Zip([*plain, Member(b"doc;1", OTHER)]).written(), "doc.p7s", unclear, "two members have one name"),
        "version of it.zip": Trick(Zip([Member(b"doc;12", DOCUMENT), Member(b"doc;12.p7s", der)]).written(), "doc;12.p7s", FITS, "readers differ on doc;12"),
        "control character.zip": Trick(Zip([*plain, Member(b"do\7c", OTHER)]).written(), "doc.p7s", unclear, "two members have one name"),
        "control character in it.zip": Trick(Zip([Member(b"do\7c", DOCUMENT), Member(b"do\7c.p7s", der)]).written(), "do\7c.p7s", FITS, "another path"),
        "stored more.zip": Trick(Zip([shorter(zipfile.ZIP_STORED), signature]).written(), "doc.p7s", "damaged", "not as many octets"),
        "deflated more.zip": Trick(Zip([shorter(zipfile.ZIP_DEFLATED), signature]).written(), "doc.p7s", "damaged", "not as many octets"),
        "deflated tail.zip": Trick(Zip([with_tail, signature]).written(), "doc.p7s", "damaged", "not as many octets"),
        "no width.zip": Trick(Zip([*plain, Member("do\u200cc".encode(), OTHER)]).written(), "doc.p7s", FITS, "on some file systems"),
        "stream.zip": Trick(Zip([*plain, Member(b"doc::$DATA", OTHER)]).written(), "doc.p7s", FITS, ""),
        "stream of it.zip": Trick(Zip([Member(b"a:b", DOCUMENT), Member(b"a:b.p7s", der)]).written(), "a:b.p7s", FITS, "readers differ on a:b"),
        "other flags.zip": Trick(Zip([replace(doc, local={"flags": 0x1800}), signature]).written(), "doc.p7s", unclear, "two headers"),
        "nuget.zip": Trick(zip_of({"a.nuspec": b"<a/>", ".signature.p7s": make.cms(b"Version:1\n\n2.16.840.1.101.3.4.2.1-Hash:YQ==\n", "-nodetach")}),
                           ".signature.p7s", FITS, "readers differ on what .signature.p7s covers"),
        "mode in the header.zip": Trick(Zip([replace(doc, local={"extra": LINK_OF_LIBARCHIVE}), signature]).written(), "doc.p7s", unclear, "two headers"),
        "underscore.zip": Trick(Zip([Member(b"x/_", DOCUMENT), Member(b"x/_.p7s", der), Member(b"x/.", OTHER)]).written(), "x/_.p7s", unclear, differ),
        "underscores.zip": Trick(Zip([Member(b"x/__", DOCUMENT), Member(b"x/__.p7s", der), Member(b"x/..", OTHER)]).written(), "x/__.p7s", unclear, differ),
        "of FAT.zip": Trick(Zip([Member(b"d-c", DOCUMENT), Member(b"d-c.p7s", der), Member(b"d\xc4c", OTHER, flags=0, listed={"system": 0})]).written(),
                            "d-c.p7s", unclear, "two members have one name"),
        "octet ff.zip": Trick(Zip([*plain, Member(b"do\xffc", OTHER, flags=0)]).written(), "doc.p7s", unclear, "two members have one name"),
        "of a signature.jar": Trick(Zip([*members, Member(b"META-INF/SIG-EVIL.html", OTHER)]).written(), block, "fits, but covers only some files", "SIG-EVIL"),
        "of some signature.jar": Trick(Zip([*members, Member(b"META-INF/SIG-A.abc", OTHER)]).written(), block, FITS),
        "no version.jar": Trick(zip_of(with_manifest(make, {"doc": DOCUMENT}, version="2")), block, FITS, "readers differ on a signature file"),
        "name later.jar": Trick(zip_of(with_manifest(make, {"doc": DOCUMENT}, name=b"A: b\r\n")), block, FITS, "readers differ on a manifest with a section"),
        "no names.jar": Trick(zip_of(with_manifest(make, {"doc": DOCUMENT}, is_named=False)), block, FITS, "readers differ on files that the signature file"),
        "versions.jar": Trick(zip_of(with_manifest(make, {"doc": DOCUMENT, "META-INF/versions/9/doc": OTHER}, main=b"Multi-Release: true\r\n")), block, FITS,
                              "readers differ on members for which"),
        "no versions.jar": Trick(zip_of(with_manifest(make, {"doc": DOCUMENT}, main=b"Multi-Release: true\r\n")), block, FITS),
        "dots at the end.zip": Trick(Zip([*plain, Member(b"doc. ", OTHER)]).written(), "doc.p7s", FITS, "on some file systems"),
        "capitals.jar": Trick(Zip([*members, Member(b"a.class", OTHER)]).written(), block, "fits, but covers only some files", "on some file systems"),
        "signed.apk": Trick(Zip(said, gap=apk_block(0x7109871A, 0xF05368C0)).written(), block, FITS, "an APK signing block of 64 octets"),
        "aligned.apk": Trick(Zip(said, gap=bytes(100) + apk_block(0x7109871A, 0xF05368C0)).written(), block, FITS, "an APK signing block of 64 octets"),
        "not aligned.apk": Trick(Zip(said, gap=b"\0\1" + apk_block(0x7109871A, 0xF05368C0)).written(), block, unclear, differ),
        "stripped.apk": Trick(Zip(said).written(), block, unclear, "signature of scheme 2 and 3, and there is none"),
        "half stripped.apk": Trick(Zip(said, gap=apk_block(0x7109871A)).written(), block, unclear, "signature of scheme 3, and there is none"),
    }
    return beside


def tar_tricks(make: Maker) -> Dict[str, Trick]:
    """Returns tars in which another member replaces the one that was compared, and some in which none does."""
    der, attached = make.cms(DOCUMENT), make.cms(DOCUMENT, "-nodetach")
    doc, signature, other, message = Entry(b"doc", DOCUMENT), Entry(b"doc.p7s", der), Entry(b"other", OTHER), Entry(b"a.p7m", attached)
    linked = [Entry(b"orig", DOCUMENT), Entry(b"doc", kind=b"1", link=b"orig"), signature]
    differ, again = "readers differ on ", "readers differ on doc: another member has its name"

    def tar(*entries: Entry, end: bytes = END) -> bytes:
        return b"".join(it.written() for it in entries) + end

    def beside(words: str, *entries: Entry, end: bytes = END) -> Trick:
        return Trick(tar(*entries, end=end), "doc.p7s", FITS, words)

    return {
        "plain.tar": beside("", doc, signature),
        "dots.tar": Trick(tar(Entry(b"./", kind=b"5"), replace(doc, name=b"./doc"), replace(signature, name=b"./doc.p7s")), "./doc.p7s", FITS),
        "pax.tar": beside("", pax(("comment", b"a commit"), kind=b"g"), pax(("path", b"doc"), ("mtime", b"1.5")), replace(doc, name=b"d"), signature),
        "gnu.tar": beside("", Entry(b"././@LongLink", b"doc\0", b"L"), replace(doc, name=b"d", magic=b"ustar  \0"), signature),
        "hard link.tar": beside("", *linked),
        "unknown.tar": beside("", replace(doc, kind=b"9"), signature),
        "hard link over it.tar": Trick(tar(other, doc, signature, Entry(b"doc", kind=b"1", link=b"other")), "doc.p7s#2", FITS, again),
        "link over it.tar": beside(again, other, doc, signature, Entry(b"doc", kind=b"2", link=b"other")),
        "unknown over it.tar": beside(again, doc, signature, Entry(b"doc", OTHER, b"9")),
        "folder over it.tar": beside(again, doc, signature, Entry(b"doc/", kind=b"5")),
        "through a link.tar": beside("it lies below a link", doc, signature, Entry(b"d", kind=b"2", link=b"."), Entry(b"d/doc", OTHER)),
        "written through a link.tar": beside(again, doc, signature, Entry(b"l", kind=b"1", link=b"doc"), Entry(b"l", OTHER)),
        "target again.tar": beside(again, *linked, Entry(b"orig", OTHER)),
        "twice.tar": Trick(tar(message, Entry(b"a.p7m", OTHER)), "a.p7m", FITS, "readers differ on a.p7m: another member has its name"),
        "capitals.tar": beside("on some file systems", doc, signature, Entry(b"DOC", OTHER)),
        "after the end.tar": beside("what follows its end", doc, signature, end=END + Entry(b"doc", OTHER).written() + END),
        "damaged.tar": beside("what follows its damage", doc, signature, end=b"x" * 512 + Entry(b"doc", OTHER).written() + END),
        "prefix.tar": beside(differ, doc, signature, Entry(b"doc", OTHER, magic=b"ustar  \0", prefix=b"x")),
        "slash.tar": beside(differ, doc, signature, pax(("path", b"x/")), Entry(b"o", OTHER)),
        "size of a link.tar": beside(differ, doc, signature, pax(("size", b"512")), Entry(b"l", kind=b"2", link=b"o"), Entry(b"doc", OTHER)),
        "dots at the end.tar": beside("on some file systems", doc, signature, Entry(b"doc.", OTHER)),
        "absolute hard link.tar": beside(differ, Entry(b"orig", DOCUMENT), Entry(b"doc", kind=b"1", link=b"/orig"), signature),
        "hard link of steps.tar": beside(differ, Entry(b"orig", DOCUMENT), Entry(b"doc", kind=b"1", link=b"../orig"), signature),
        "hard link of a dot.tar": beside("", Entry(b"./orig", DOCUMENT), Entry(b"./doc", kind=b"1", link=b"./orig"), signature),
        "hard link before.tar": beside(differ, Entry(b"doc", kind=b"1", link=b"orig"), Entry(b"orig", DOCUMENT), signature),
        "size by pax.tar": beside(differ, pax(("size", b"%d" % len(DOCUMENT))), replace(doc, octets=DOCUMENT, size=b"00000000005\0"), signature),
        "same size by pax.tar": beside("", pax(("size", b"%d" % len(DOCUMENT))), doc, signature),
        "size.tar": beside(differ, doc, signature, Entry(b"o", Entry(b"doc", OTHER).written(), size=b"1_0")),
        "message by a hard link.tar": Trick(tar(doc, Entry(b"x", der), Entry(b"doc.p7s", kind=b"1", link=b"x")), "doc.p7s", FITS),
    }


def packed_tricks(make: Maker) -> Dict[str, Trick]:
    """Returns packed files of several streams: some readers stop after the first, and others go on, if something lies between them."""
    message, zeros = make.cms(DOCUMENT, "-nodetach"), bytes(4)
    tar = b"".join(it.written() for it in (Entry(b"doc", DOCUMENT), Entry(b"doc.p7s", make.cms(DOCUMENT)))) + bytes(512)
    other = Entry(b"doc", OTHER).written() + END
    words = "no further packed stream follows"
    packings = {"gz": gzip.compress, "xz": lzma.compress, "bz2": bz2.compress}
    found = {}
    for ending, pack in packings.items():
        first, second = pack(message[:500]), pack(message[500:])
        found[f"two.p7m.{ending}"] = Trick(first + second, "", FITS)
        found[f"zeros between.p7m.{ending}"] = Trick(first + zeros + second, "", "damaged", words)
        found[f"zeros after.p7m.{ending}"] = Trick(first + second + zeros, "", FITS)
        found[f"more after.p7m.{ending}"] = Trick(pack(message) + b"more", "", "damaged", words)
        found[f"zeros in it.tar.{ending}"] = Trick(pack(tar) + zeros + pack(other), "doc.p7s", FITS, "what follows its damage")
        found[f"cut.p7m.{ending}"] = Trick(first + second[:-9], "", "damaged", "end")
    return found


def asic_tricks(make: Maker) -> Dict[str, Trick]:
    """Returns containers in which two manifests name one signature, that is of the first, of the last, or of none."""
    signature, kind = "META-INF/signature001.p7s", "application/x-pkcs7-signature"
    mine, other = manifest(signature, kind, {"doc": DOCUMENT}), manifest(signature, kind, {"doc": OTHER})
    token = "META-INF/timestamp001.tst"
    stamped, other_stamped = (it.replace(signature.encode(), token.encode()) for it in (mine, other))

    def container(place: str, octets: bytes, *manifests: bytes) -> bytes:
        files = {f"META-INF/ASiCManifest{number}.xml": it for number, it in enumerate(manifests)}
        return Zip([Member(name.encode(), it) for name, it in {"doc": DOCUMENT, **files, place: octets}.items()]).written()

    words = "2 manifests name this signature"
    return {
        "first.asice": Trick(container(signature, make.cms(mine), mine, other), signature, FITS, words),
        "last.asice": Trick(container(signature, make.cms(mine), other, mine), signature, FITS, words),
        "first stamped.asice": Trick(container(token, make.token(stamped), stamped, other_stamped), token, FITS, words),
        "last stamped.asice": Trick(container(token, make.token(stamped), other_stamped, stamped), token, FITS, words),
        "none.asice": Trick(container(signature, make.cms(b"another"), other, mine), signature, "does not fit", words),
        "signed for another.asice": Trick(container(signature, make.cms(other), other, mine), signature, "does not fit", words),
    }


LINK_OF_LIBARCHIVE = struct.pack("<HHBHHL", 0x6C78, 9, 7, 3 << 8 | 20, 0, (stat.S_IFLNK | 0o777) << 16)  # by which bsdtar makes a link


def unicode_path(name: bytes) -> bytes:
    return struct.pack("<HHBL", 0x7075, 5 + len(name), 1, zlib.crc32(b"doc")) + name


def in_64(files: Dict[str, bytes]) -> bytes:
    """Returns a zip as Python writes it to a pipe, with numbers of 64 bits."""
    whole = io.BytesIO()
    with zipfile.ZipFile(whole, "w", zipfile.ZIP_DEFLATED) as packed:
        for name, octets in files.items():
            with packed.open(zipfile.ZipInfo(name), "w", force_zip64=True) as member:
                member.write(octets)
    return whole.getvalue()


TRICKS_BY_HAND = (zip_tricks, tar_tricks, asic_tricks, packed_tricks)


@pytest.mark.parametrize("tricks", TRICKS_BY_HAND)
def test_tricks(archive, home, make, tricks):
    """Each container in which readers differ has a note that says so, and none in which they do not."""
    for name, it in tricks(make).items():
        came, facts = said_in(archive, home, name, it.octets)
        note = facts[it.place].note if it.place in facts else None
        is_so = came.get(it.place) == it.state and note is not None and (it.words in note if it.words else not note)
        count_if(f"made by hand: {name}", is_so, came, note, "wanted", it.state, it.words)


# ---- what is compared


def said_to_fit(archive, path: Path) -> Set[str]:
    """Returns the places of messages that are said to fit without a note."""
    _, facts = said_of(archive, path)
    return {where for where, it in facts.items() if it.state is not None and it.state.value == FITS and not it.note}


def test_check(home, make):
    """What readers differ on is listed by `check`, and what they do not is not."""
    some = {name: it for tricks in TRICKS_BY_HAND for name, it in tricks(make).items() if it.state == FITS}
    listed = lines_of_check(home, write_files(home / "by hand", {name: it.octets for name, it in some.items()}))
    wanted = sorted(f"{name}!{it.place}" for name, it in some.items() if it.words.startswith(("readers differ", "on some", "it lies", "what follows")))
    count_same("what `check` lists of what was made by hand", sorted(it for it in listed if it in {f"{name}!{one.place}" for name, one in some.items()}), wanted)


def lines_of_check(home: Path, folder: Path) -> List[str]:
    """Returns the names of messages, in the files of a folder, that `check` lists."""
    store = ("--store", folder.parent / "index.db")
    ran(home, "index", folder, *store)
    lines = ended(home, "check", "--json", *store).stdout.splitlines()
    return [os.path.relpath(json.loads(line)["file"], folder) for line in lines]


def differing(container: Container, places: Set[str], shown: Shown) -> List[str]:
    """Returns the names under which a reader shows something else than is said to fit."""
    wrong = []
    for place in places & container.covers.keys():
        covered = container.covers[place]
        wrong += [f"{place}: {name}" for name, octets in covered.items() if not shown.get(name, set()) <= {digest(octets)}]
        if container.covers_all:
            known = {*map(digest, covered.values())}  # under another name: ASiC-S names no file
            wrong += [f"{place}: {name} too" for name, some in shown.items() if name != "mimetype" and not some <= known]
    return wrong


def keep(path: Path) -> None:
    """Keeps a container that is judged wrongly, if a folder for them is named in the environment."""
    if folder := os.environ.get("KEPT_CONTAINERS"):
        shutil.copy(path, Path(folder) / path.name)


KINDS = {  # what makes each kind of container, what reads it, and a share of how many there are
    **{name: (zip_kinds, jar_readers if name == "jar" else zip_readers, 5) for name in ("zip", "attached.zip", "asics", "asice", "jar")},
    "tar": (tar_kinds, tar_readers, 1),
}


def test_kinds(make):
    count_same("kinds of containers", {*KINDS}, {*zip_kinds(make), *tar_kinds(make)})


@pytest.mark.parametrize("name", KINDS)
def test_kind(archive, home, make, tally, name):
    """No reader shows other octets than those that are said to fit."""
    kinds, readers, share = KINDS[name]
    random, made, number = Random(f"{SEED} {name}"), kinds(make)[name], CONTAINERS // share
    containers = {f"{it}.{name.rpartition('.')[2]}": made(random) for it in range(number)}
    write_files(home, {file: it.octets for file, it in containers.items()})
    fitting = {file: said_to_fit(archive, home / file) for file in containers}
    paths = [home / file for file, places in fitting.items() if places]
    wrong = []
    for reader, read in readers(tally).items():
        for file, shown in read(home / "unpacked", paths).items():
            if names := differing(containers[file], fitting[file], shown):
                wrong.append(f"{reader} of {file} ({containers[file].how}): {names[:3]}")
                keep(home / file)
    count(f"{number:,} of {name}", wrong[:5])
    count_if(f"{name} that fits, and that is noted", 0 < len(paths) < number, len(paths))
    print(f"{name}: {len(paths)} of {number} fit, {len(wrong)} wrong; {Counter(containers[it.name].how for it in paths).most_common(12)}")
