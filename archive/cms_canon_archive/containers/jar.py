"""Signed JARs, and what is signed as they are: WAR, APK by its first scheme, XPI (the JAR File Specification)."""

from __future__ import annotations

import binascii
import hashlib
import re
from base64 import b64decode
from functools import cached_property
from typing import AbstractSet, Dict, FrozenSet, Iterable, Iterator, List, NamedTuple, Optional, Set, Tuple

from .found import Class, Content, Found, Pieces, State
from .manifests import Compared, Digest, Listed, algorithm_of, at_best, compared, some_of, weak_alone
from .sources import Budget, TooLarge

FORM = "JAR"
LONGEST_SECTION = 1 << 20  # octets of a section of a manifest
MOST_LINES = 1000  # of a section of a manifest, of which a folded one counts once
_BLOCK = re.compile(r"META-INF/([^/]+)\.(?:RSA|DSA|EC)\Z", re.I)
_OF_A_SIGNATURE = re.compile(r"META-INF/(?:[^/]+\.(?:SF|RSA|DSA|EC)|SIG-[^/.]*(?:\.[A-Za-z0-9]{1,3})?|MANIFEST\.MF)\Z", re.I)  # which no manifest lists
_SECTION_END = re.compile(rb"(?:\r\n|\n|\r(?!\n)){2}[\r\n]*")  # a group that is repeated without bounds would take 80 octets each time
_FOLD = re.compile(rb"(?:\r\n|\n|\r(?!\n)) ")
_LINE = re.compile(rb"\r\n|\n|\r")
_DIGEST = re.compile(r"(?:(?P<algorithm>[A-Za-z0-9/-]+?)-Digest)(?P<what>-Manifest(?:-Main-Attributes)?)?\Z", re.I)
_WHOLE, _MAIN = "-manifest", "-manifest-main-attributes"
_APK_SCHEMES = "x-android-apk-signed"
_NO_VERSION = "readers differ on a signature file whose Signature-Version is not 1.0"
_VERSIONS = "META-INF/versions/"
_Digests = Tuple[Tuple[Optional[str], bytes], ...]


class Limits(NamedTuple):
    """How much of the manifest and of the signature files may be read: what is left of the budget, and the sections of each."""

    budget: Budget
    sections: int


class _Section(NamedTuple):
    """A section of a manifest: its octets with the empty line after it, and its attributes in the order read."""

    octets: bytes
    attributes: List[Tuple[str, str]]

    @property
    def name(self) -> Optional[str]:
        return self.value_of("name")

    def value_of(self, name: str) -> Optional[str]:
        """Returns the value of an attribute, by its name in small letters."""
        return next((value for key, value in self.attributes if key.lower() == name), None)

    def digests(self, what: str) -> _Digests:
        """Returns the digests of what follows `-Digest` in the name of an attribute."""
        found = []
        for key, value in self.attributes:
            named = _DIGEST.match(key)
            if named and (named["what"] or "").lower() == what:
                found.append((algorithm_of(named["algorithm"]), _decoded(value)))
        return tuple(found)


def _decoded(value: str) -> bytes:
    try:
        return b64decode(value, validate=True)
    except (binascii.Error, ValueError):
        return b""  # which no digest is


def _sections_of(octets: bytes, limits: Limits) -> Iterator[_Section]:
    """Gives the sections of a manifest or of a signature file, as far as there may be any. Raises `TooLarge` if there are more."""
    at, left = 0, limits.sections
    while at < len(octets):
        end = _SECTION_END.search(octets, at, at + LONGEST_SECTION)
        section = octets[at : end.end() if end else len(octets)]
        if len(section) > LONGEST_SECTION:
            raise TooLarge(f"a section of a manifest has more than {LONGEST_SECTION:,} octets")
        at += len(section)
        left -= 1
        if left < 0:
            raise TooLarge(f"a manifest has more than {limits.sections:,} sections")
        yield _Section(section, _attributes_of(section, limits))


def _attributes_of(section: bytes, limits: Limits) -> List[Tuple[str, str]]:
    attributes = []
    lines = _LINE.split(_FOLD.sub(b"", section), MOST_LINES)
    limits.budget.take_parts(len(lines))
    if len(lines) > MOST_LINES:
        raise TooLarge(f"a section of a manifest has more than {MOST_LINES:,} lines")
    for line in lines:
        key, colon, value = line.decode("utf-8", "replace").partition(": ")
        if colon:
            attributes.append((key, value))
    return attributes


def is_signed(names: Dict[str, str]) -> bool:
    """Whether a zip with these names, by their capitals, has a block of a JAR signature."""
    return any(map(_BLOCK.match, names.values()))


def stem_of(name: str) -> Optional[str]:
    """Returns the name of the signature file for a block; None if the name is not that of a block."""
    block = _BLOCK.match(name)
    return f"META-INF/{block[1]}.SF" if block else None


def due_of(names: Iterable[str]) -> FrozenSet[str]:
    """Returns the names of what a manifest has to list."""
    return frozenset(it for it in names if not _OF_A_SIGNATURE.match(it))


def schemes_of(signature_file: bytes, limits: Limits) -> Set[int]:
    """Returns the later schemes of APK of which a signature file says that the APK is signed by them too."""
    main = next(_sections_of(signature_file, limits), None)
    values = [value for key, value in main.attributes if key.lower() == _APK_SCHEMES] if main else []
    return {int(it) for value in values for it in value.split(",") if it.strip().isdecimal() and len(it) < 9} - {1}


def is_of_version_1(signature_file: bytes, limits: Limits) -> bool:
    """Whether Java takes a signature file for one."""
    main = next(_sections_of(signature_file, limits), None)
    return main is not None and (main.value_of("signature-version") or "").strip() == "1.0"


class Manifest:
    """META-INF/MANIFEST.MF, which is taken apart once for all signature files."""

    def __init__(self, octets: bytes, limits: Limits) -> None:
        self.octets = octets
        self.limits = limits
        self.is_odd = self.has_versions = False
        self._digests: Dict[str, bytes] = {}

    def reasons(self, due: AbstractSet[str]) -> Iterator[str]:
        """Gives what Java differs on from other readers, once the files that are listed were read."""
        if self.is_odd:
            yield "readers differ on a manifest with a section that does not begin with a name"
        if self.has_versions and any(it.startswith(_VERSIONS) for it in due):
            yield "readers differ on members for which there are others in META-INF/versions"

    def digest(self, algorithm: str) -> bytes:
        if algorithm not in self._digests:
            self._digests[algorithm] = hashlib.new(algorithm, self.octets).digest()
        return self._digests[algorithm]

    def _sections(self) -> Iterator[_Section]:
        return _sections_of(self.octets, self.limits)

    @cached_property
    def main(self) -> Optional[bytes]:
        """The section with the main attributes."""
        first = next(self._sections(), None)
        return first.octets if first and first.name is None else None

    @cached_property
    def by_name(self) -> Dict[Optional[str], bytes]:
        return {it.name: it.octets for it in self._sections()}

    @cached_property
    def listed(self) -> List[Listed]:
        found = []
        for number, it in enumerate(self._sections()):
            self.is_odd |= number > 0 and bool(it.attributes) and it.attributes[0][0].lower() != "name"
            self.has_versions |= number == 0 and (it.value_of("multi-release") or "").strip().lower() == "true"
            if it.name is not None and (digests := it.digests("")):
                found.append(Listed(it.name, digests))
        return found


class _Cover(NamedTuple):
    """What a signature file covers of a manifest: what is to be said at best, and which sections it is for, of all None."""

    came: Compared
    names: Optional[FrozenSet[Optional[str]]] = None
    named: FrozenSet[Optional[str]] = frozenset()
    """The names that the signature file has, if it is for all sections: Java takes other files for unsigned."""


def _fits(octets: Optional[bytes], digests: _Digests) -> Optional[bool]:
    """Whether a section fits each digest that is known; None if none is."""
    known = [(algorithm, digest) for algorithm, digest in digests if algorithm]
    if octets is None:
        return False
    return all(hashlib.new(algorithm, octets).digest() == digest for algorithm, digest in known) if known else None


def _cover_of(signature: Iterator[_Section], manifest: Manifest) -> _Cover:
    """Compares a signature file with a manifest as a whole, or else with its main attributes and each of its sections that it names."""
    first = next(signature, None)
    wholes, main = (first.digests(what) if first else () for what in (_WHOLE, _MAIN))
    known = [(algorithm, digest) for algorithm, digest in wholes if algorithm]
    if known and all(manifest.digest(algorithm) == digest for algorithm, digest in known):
        return _Cover(_noted(State.FITS, "", [wholes]), named=frozenset(it.name for it in signature))
    some = [(it.name, it.digests("")) for it in signature]
    came = [_fits(manifest.by_name.get(name), digests) for name, digests in some]
    fits_main = _fits(manifest.main, main) if main else None
    if fits_main is False:
        return _Cover(Compared(State.DIFFERS, "the main attributes of META-INF/MANIFEST.MF do not fit the signature file"))
    if False in came or not some and (known or not wholes):
        return _Cover(Compared(State.DIFFERS, "META-INF/MANIFEST.MF does not fit the signature file"))
    if not some or None in came or main and fits_main is None:
        return _Cover(Compared(State.NOT_COMPARED, "the digest algorithms of the signature file are not known"))
    most, note = (State.FITS, "") if fits_main else (State.PARTLY, "the main attributes of the manifest are not covered")
    return _Cover(_noted(most, note, [it for _, it in some]), frozenset(name for name, _ in some))


def _noted(bound: State, note: str, digests: Iterable[_Digests]) -> Compared:
    weak = weak_alone(digests)
    return at_best(Compared(bound, note), State.FITS, f"the signature file compares by {' and '.join(sorted(weak))} alone" if weak else "")


def compared_with_files(signature_file: bytes, manifest: Optional[Manifest], due: AbstractSet[str], digest: Digest) -> Compared:
    """Compares a signature file with the manifest, and the sections of the manifest that it is for with the files that are due."""
    if manifest is None:
        return Compared(State.DIFFERS, "there is no META-INF/MANIFEST.MF")
    cover = _cover_of(_sections_of(signature_file, manifest.limits), manifest)
    if cover.came.bound is State.DIFFERS:
        return cover.came
    listed = manifest.listed if cover.names is None else [it for it in manifest.listed if it.name in cover.names]
    came = at_best(compared(listed, due, digest), *cover.came)
    if cover.names is None and (unnamed := some_of(it.name for it in listed if it.name not in cover.named)):
        came = at_best(came, State.FITS, f"readers differ on files that the signature file does not name: {unnamed}")
    came = came if is_of_version_1(signature_file, manifest.limits) else at_best(came, State.FITS, _NO_VERSION)
    return at_best(came, State.FITS, "; ".join(manifest.reasons(due)))


def found_of(name: str, block: bytes, signature_name: str, signature_file: Optional[bytes], with_files: Optional[Compared]) -> Found:
    """Returns a block with the signature file that it signs."""
    if signature_file is None or with_files is None:
        return Found(name, FORM, Class.MESSAGE, len(block), block, is_detached=True, note=f"there is no {signature_name}")
    content = Content(signature_name, len(signature_file), Pieces(signature_file), *with_files)
    return Found(name, FORM, Class.MESSAGE, len(block), block, content, is_detached=True)
