"""Members of zips, and what is signed as one: JAR, APK, XPI, ASiC, and documents of Office."""

from __future__ import annotations

import hashlib
import io
import re
import struct
import zipfile
from dataclasses import replace
from functools import cached_property
from typing import IO, BinaryIO, Callable, Dict, FrozenSet, Iterator, List, Optional, Set

from . import asic, jar, named
from .found import Class, Content, Found, State
from .layout import ENTRY_MAGIC, LOCATORS, End, Layout, end_of, layout_of
from .manifests import Compared, at_best, compared, not_covered, plain, said_of
from .names import READERS_DIFFER, differing
from .packed import Damaged, content_read, why_of
from .sources import MOST_IN_MEMORY, PIECE, Ended, Source, TooLarge

Search = Callable[[Source], Iterator[Found]]

ENDINGS = (".zip", ".jar", ".war", ".apk", ".xpi", ".asics", ".asice", ".scs", ".sce")
MAGICS = (b"PK\3\4", b"PK\5\6", b"PK\7\x08PK\3\4", b"PK00PK\3\4")  # the last two are of zips that were split, or could have been
MOST_IN_DIRECTORY = 128 << 20  # octets of the list of members, which is read at once
MOST_IN_ZIP = 80_000  # members of one zip, for each of which zipfile makes an object
MOST_OF_A_BLOCK = 1 << 20  # octets before the list of members in which it is looked for which schemes of APK there are
MOST_SIGNATURES = 1000  # of one JAR or ASiC container that are compared with its members
MOST_SECTIONS = 1000  # of a manifest of a JAR, and two more for each member
_OCTETS_OF_A_NAME = 64  # that count as read if a signature is compared with a member
_META_INF = "META-INF/"
_WITH_MEANING = (_META_INF, "ANDROIDMANIFEST.XML")
_OOXML = re.compile(r"_xmlsignatures/[^/]+\.xml\Z", re.I)
_COSE = re.compile(r"META-INF/cose\.sig\Z", re.I)
_MACROS = re.compile(r"(?:[^/]+/)?vbaProjectSignature(?:Agile|V3)?\.bin\Z", re.I)
_ODF = "META-INF/documentsignatures.xml"
_PACKAGE_SIGNATURE = ".signature.p7s"  # of a NuGet package
_OF_PACKAGE = "readers differ on what .signature.p7s covers: it holds a digest of the package, which is not compared"
NO_NAME = "(no name)"
_UTF_8 = 0x800  # of the flags of a member: its name is in UTF-8
_OCTETS_OF_AN_ENTRY = 46  # without its name and what follows it
_ENTRY = struct.Struct("<4s4xH18xHHH")  # of the list of members: the mark, the flags, and the octets of the name and of what follows it


def is_zip(source: Source) -> bool:
    """Whether a file begins as a zip, or is named so."""
    return source.head.startswith(MAGICS) or source.name.lower().endswith(ENDINGS)


def _refuse_many(file: BinaryIO, end: End, source: Source) -> None:
    """Raises `TooLarge` if a zip has more members than zipfile may make objects for, or too many small ones. How many it says that it has is not
    believed."""
    if end.octets > MOST_IN_DIRECTORY:
        raise TooLarge(f"its list of members has more than {MOST_IN_DIRECTORY:,} octets")
    begin = max(0, end.at - end.octets - LOCATORS)
    source.budget.take(end.at - begin)
    file.seek(begin)
    members = file.read(end.at - begin).count(ENTRY_MAGIC)
    if members > MOST_IN_ZIP:
        raise TooLarge(f"it has more than {MOST_IN_ZIP:,} members")
    source.budget.take_zip(members, source.size)


class _Unpacked(io.RawIOBase):
    """A member as it is unpacked. zipfile takes the end of the packed octets for the end of the member; other readers want the mark of its end, as many
    octets as the headers say, and nothing after them. Raises `Damaged` if it is not so."""

    def __init__(self, member: IO[bytes], octets: int) -> None:
        self._member = member
        self._left = octets

    def read(self, size: int = -1) -> bytes:
        octets = self._member.read(size)
        self._left -= len(octets)
        if not octets and size:
            self._end()
        return octets

    def _end(self) -> None:
        unpacker = getattr(self._member, "_decompressor", None)
        if not getattr(unpacker, "eof", True):
            raise Damaged("its packed octets have no end")
        if any((self._left, getattr(unpacker, "unused_data", b""), getattr(self._member, "_compress_left", 0))):
            raise Damaged("it has not as many octets as its headers say")

    def close(self) -> None:
        self._member.close()


class _Zip:
    """A zip that is open, and what its names say of it."""

    def __init__(self, source: Source, file: zipfile.ZipFile, end: End) -> None:
        self.source = source
        self.file = file
        self.infos = file.NameToInfo  # of equal names the last, as Java has it
        self._by_capitals = {capitals: name for name in self.infos if (capitals := name.upper()).startswith(_WITH_MEANING)}
        self._digests: Dict[str, Dict[str, bytes]] = {}
        self._signatures = 0
        self._end = end
        before = min((it.header_offset for it in file.infolist()), default=0)
        some = (before, "lie before the first member"), (end.after, "follow the end")
        self.around = "; ".join(f"{octets:,} octets {where}" for octets, where in some if octets)

    @cached_property
    def _plain(self) -> Dict[str, str]:
        return {plain(name): name for name in self.infos if not name.endswith("/")}

    @cached_property
    def layout(self) -> Layout:
        """On what of it readers may differ. This is looked for only in a zip in which there is a message."""
        return layout_of(self.source.begun(), self._end, self.file.infolist(), self.source.budget)

    @cached_property
    def why_unclear(self) -> str:
        """Why readers differ in which members they take; empty if they do not."""
        own = [it.upper() for it in self.infos if it.upper().startswith(_META_INF)]
        if self.layout.whole:
            return READERS_DIFFER + self.layout.whole
        if self.layout.same or len(self.infos) != len(self.file.infolist()):
            return READERS_DIFFER + said_of(self.layout.same)
        return "two names in META-INF differ in capitals alone" if len(set(own)) != len(own) else ""

    @property
    def note(self) -> str:
        """What is to be said of it, as far as it was looked for."""
        return "; ".join(filter(None, (self.why_unclear if "layout" in self.__dict__ else "", self.around)))

    def judged(self, came: Compared) -> Compared:
        """Returns what came of comparing files, at best as is so of the whole zip."""
        if self.around:
            came = at_best(came, State.PARTLY, self.around)
        if self.layout.named:
            came = at_best(came, State.FITS, READERS_DIFFER + said_of(self.layout.named))
        if self.layout.apk_block:
            came = at_best(came, State.FITS, f"an APK signing block of {len(self.layout.apk_block):,} octets is not looked into")
        return at_best(came, State.NOT_COMPARED, self.why_unclear) if self.why_unclear else came

    def reason(self, name: str) -> str:
        """Returns what is to be said of a message in the member of this name, or of a content that it is."""
        return "; ".join(filter(None, (differing(name, self.layout.reason(name)), self.around)))

    def takes_signature(self) -> bool:
        """Whether one more signature may be compared with all members; each takes from the budget what that costs."""
        self._signatures += 1
        if self._signatures > MOST_SIGNATURES:
            return False
        self.source.budget.take(_OCTETS_OF_A_NAME * len(self.infos))
        return True

    def named(self, name: str) -> Optional[str]:
        """Returns the name of a member that says what kind of file it is, written in whatever capitals."""
        return self._by_capitals.get(name.upper())

    def plainly(self, name: str) -> Optional[str]:
        """Returns the name of the member of a plain name."""
        return name if name in self.infos else self._plain.get(name)

    def opened(self, info: zipfile.ZipInfo) -> _Unpacked:
        """Opens a member. If it has more octets than both headers say, zipfile would stop at these, where other readers do not: so it gets the
        chance to see one octet more, of which the check sum then is another."""
        info.file_size += 1
        try:
            return _Unpacked(self.file.open(info), info.file_size - 1)
        finally:
            info.file_size -= 1

    def read(self, info: zipfile.ZipInfo) -> bytes:
        with self.opened(info) as member:
            return self.source.budget.read(member, MOST_IN_MEMORY)

    def digest(self, name: str, algorithms: Set[str]) -> Optional[Dict[str, bytes]]:
        """Returns the digests of a member, which is read once for each set of them; None if it is not there."""
        info = self.infos.get(name)
        if info is None:
            return None
        known = self._digests.setdefault(name, {})
        if missing := algorithms - set(known):
            digests = {it: hashlib.new(it) for it in missing}
            with self.opened(info) as member:
                while piece := member.read(PIECE):
                    self.source.budget.take(len(piece))
                    for it in digests.values():
                        it.update(piece)
            known.update({it: digests[it].digest() for it in missing})
        return known

    def digest_plainly(self, name: str, algorithms: Set[str]) -> Optional[Dict[str, bytes]]:
        """Returns the same of the member of a plain name."""
        found = self.plainly(name)
        return None if found is None else self.digest(found, algorithms)

    @cached_property
    def manifest(self) -> Optional[jar.Manifest]:
        """The manifest of a JAR."""
        name = self.named("META-INF/MANIFEST.MF")
        return jar.Manifest(self.read(self.infos[name]), self.limits) if name else None

    @property
    def limits(self) -> jar.Limits:
        """How much of a manifest may be read: it lists members, also some that are gone."""
        return jar.Limits(self.source.budget, MOST_SECTIONS + 2 * len(self.infos))

    @cached_property
    def files(self) -> List[str]:
        """The names of members that are no folders, or are named as folders and hold something."""
        return [name for name, info in self.infos.items() if info.file_size or not info.is_dir()]

    @cached_property
    def due_in_jar(self) -> FrozenSet[str]:
        return jar.due_of(self.files)

    @cached_property
    def form(self) -> str:
        """What kind of file it is, by the names in it."""
        if self.named("AndroidManifest.xml"):
            return "APK"
        if self.named("META-INF/MANIFEST.MF"):
            return "JAR"
        if "[Content_Types].xml" in self.infos:
            return "OOXML"
        if any(map(asic.SIGNATURE.match, self.infos)):
            return "ASiC"
        return "ODF" if "META-INF/manifest.xml" in self.infos else "zip"

    @cached_property
    def due(self) -> FrozenSet[str]:
        """The plain names of what the manifests of an ASiC container have to list."""
        return frozenset(plain(it) for it in self.files if not asic.is_own(it))

    @cached_property
    def data(self) -> List[str]:
        """The plain names of the data objects of an ASiC container."""
        return sorted(it for it in self.due if not it.startswith(_META_INF))


def in_zip(source: Source, search: Search) -> Iterator[Found]:
    """Gives what is signed in a zip, and what its members are; last the zip itself, with what kind of file it is."""
    file = source.begun()
    end = end_of(file)
    _refuse_many(file, end, source)
    with _opened(source, file, end) as opened:
        opened.NameToInfo.pop("", None)
        for nameless in (it for it in opened.infolist() if not it.filename):
            nameless.filename = NO_NAME  # or zipfile would look for its last character
            opened.NameToInfo[NO_NAME] = nameless
        whole = _Zip(source, opened, end)
        manifests = _manifests_of(whole)
        for info in opened.infolist():
            source.budget.take_member()
            if info.is_dir() and not info.file_size:
                continue
            name = info.filename
            try:
                yield from _in_member(whole, name, info, manifests, search)
            except (Ended, MemoryError):
                raise
            except TooLarge as why:
                yield Found(name, "file", Class.TOO_LARGE, info.file_size, note=str(why))
            except Exception as why:  # zipfile and what it calls raise errors of any kind for a file that is damaged
                what, note = (Class.UNREADABLE, "it is encrypted") if info.flag_bits & 1 else (Class.DAMAGED, why_of(why))
                yield Found(name, "file", what, info.file_size, note=note)
        if (block := _apk_block(source, opened.start_dir)) is not None:
            yield block
        yield Found("", whole.form, Class.EMPTY, source.size, note=whole.note)


def _opened(source: Source, file: BinaryIO, end: End) -> zipfile.ZipFile:
    """Opens a zip. A name that is said to be in UTF-8 and is not is read as one that is not said to be, which zipfile would not do."""
    try:
        return zipfile.ZipFile(file)
    except UnicodeDecodeError:
        octets = bytearray(source.octets())
    at = end.at - end.octets
    while octets.startswith(ENTRY_MAGIC, at):
        _, flags, *lengths = _ENTRY.unpack_from(octets, at)
        begin = at + _OCTETS_OF_AN_ENTRY
        if flags & _UTF_8 and not _is_utf_8(octets[begin : begin + lengths[0]]):
            struct.pack_into("<H", octets, at + 8, flags & ~_UTF_8)
        at = begin + sum(lengths)
    whole = io.BytesIO(octets)
    opened = zipfile.ZipFile(whole)
    with whole.getbuffer() as view:
        for info in opened.infolist():
            place = info.header_offset + 7  # of the flags before the member itself
            if not info.flag_bits & _UTF_8 and place < len(view):
                view[place] &= ~(_UTF_8 >> 8) & 0xFF
    return opened


def _is_utf_8(octets: bytes) -> bool:
    try:
        octets.decode()
    except UnicodeDecodeError:
        return False
    return True


def _apk_block(source: Source, end: int) -> Optional[Found]:
    """Returns the block before the list of members that signs all of an APK."""
    file = source.begun()
    file.seek(max(0, end - len(named.APK_BLOCK)))
    if file.read(len(named.APK_BLOCK)) != named.APK_BLOCK:
        return None
    file.seek(max(0, end - MOST_OF_A_BLOCK))
    octets = file.read(min(end, MOST_OF_A_BLOCK))
    source.budget.take(len(octets))
    return named.apk_block(octets)


def _in_member(
    whole: _Zip, name: str, info: zipfile.ZipInfo, manifests: Dict[str, List[asic.Manifest]], search: Search
) -> Iterator[Found]:
    signature_name = jar.stem_of(name) if whole.form in ("JAR", "APK") else None
    if signature_name is None and not asic.SIGNATURE.match(name):
        yield from _in_unsigning(whole, name, info, search)
    elif not whole.takes_signature():
        note = f"it has more than {MOST_SIGNATURES:,} signatures"
        yield Found(name, whole.form, Class.TOO_LARGE, info.file_size, note=note)
    elif signature_name is not None:
        yield _in_jar(whole, name, whole.read(info), signature_name)
    else:
        yield _in_asic(whole, name, whole.read(info), manifests)


def _in_unsigning(whole: _Zip, name: str, info: zipfile.ZipInfo, search: Search) -> Iterator[Found]:
    if _OOXML.match(name) or name == _ODF or asic.XML_SIGNATURES.match(name):
        yield Found(name, f"XML signature in {whole.form}", Class.OTHER, info.file_size)
    elif _COSE.match(name) or _MACROS.match(name):
        yield Found(name, "COSE signature" if _COSE.match(name) else "signature of macros", Class.OTHER, info.file_size)
    else:
        yield from _in_other(whole, name, info, search)


def _in_other(whole: _Zip, name: str, info: zipfile.ZipInfo, search: Search) -> Iterator[Found]:
    """Gives what another member is. If the zip is signed as one file, only members in which there is something are said."""
    is_said = whole.form == "zip"
    with whole.opened(info) as member:
        for place in search(whole.source.inner(name, member, info.file_size)):
            if place.wants:
                place = place.with_content(_content_for(whole, plain(place.wants)))
            if place.what is Class.MESSAGE:
                place = place.noted(whole.reason(name), _OF_PACKAGE if name == _PACKAGE_SIGNATURE else "")
            if is_said or place.what not in (Class.TEXT, Class.NO_CANDIDATE):
                yield place.within(name)


def _content_for(whole: _Zip, name: str) -> Optional[Content]:
    found = whole.plainly(name)
    if found is None:
        return None
    info = whole.infos[found]
    with whole.opened(info) as member:
        content = content_read(name, info.file_size, member, whole.source.budget)
    is_unclear = bool(whole.layout.whole or found in whole.layout.same) and content.bound is State.FITS
    note = "; ".join(filter(None, (content.note, whole.reason(found))))
    return replace(content, bound=State.NOT_COMPARED if is_unclear else content.bound, note=note)


def _in_jar(whole: _Zip, name: str, block: bytes, signature_name: str) -> Found:
    signature = whole.named(signature_name)
    if signature is None:
        return jar.found_of(name, block, signature_name, None, None)
    signature_file = whole.read(whole.infos[signature])
    whole.source.budget.take(len(whole.manifest.octets) if whole.manifest else 0)
    came = jar.compared_with_files(signature_file, whole.manifest, whole.due_in_jar, whole.digest)
    if gone := jar.schemes_of(signature_file, whole.limits) - whole.layout.apk_schemes:
        schemes = " and ".join(map(str, sorted(gone)))
        came = at_best(came, State.NOT_COMPARED, f"the signature file says that there is an APK signature of scheme {schemes}, and there is none")
    return jar.found_of(name, block, signature, signature_file, whole.judged(came))


def _manifests_of(whole: _Zip) -> Dict[str, List[asic.Manifest]]:
    """Returns the manifests of ASiC-E, by the plain names of what signs them: several may name one signature. One that cannot be read is none."""
    found: Dict[str, List[asic.Manifest]] = {}
    for name in filter(asic.MANIFEST.match, whole.infos):
        try:
            manifest = asic.manifest_of(name, whole.read(whole.infos[name]), whole.source.budget)
        except (asic.NotAManifest, zipfile.BadZipFile, OSError, Damaged):
            continue
        found.setdefault(manifest.signature, []).append(manifest)
    return found


def _in_asic(whole: _Zip, name: str, message: bytes, manifests: Dict[str, List[asic.Manifest]]) -> Found:
    if some := manifests.get(plain(name)):
        manifest = asic.signed_of(message, some, whole.source.budget)
        came = compared(manifest.listed, whole.due, whole.digest_plainly)
        if len(some) > 1:
            came = at_best(came, State.FITS, f"{len(some):,} manifests name this signature")
        return asic.found_in_e(name, message, manifest, whole.judged(came))
    data = whole.plainly(whole.data[0]) if len(whole.data) == 1 and not manifests else None
    if data is not None:
        came = not_covered(whole.due - {whole.data[0]})
        return asic.found_in_s(name, message, whole.data[0], whole.read(whole.infos[data]), whole.judged(came))
    return asic.found_alone(name, message, whole.why_unclear or "no manifest is for it, and there is not one data object")
