"""ASiC-S and ASiC-E with CAdES signatures and time-stamp tokens (ETSI EN 319 162-1).

Manifests are read without document types, whose entities make a small file large. In a zip with two members of one name nothing counts as
fitting, since programs differ in which one they take.
"""

from __future__ import annotations

import binascii
import re
from base64 import b64decode
from typing import Dict, List, NamedTuple, Optional, Sequence, Tuple
from urllib.parse import unquote
from xml.parsers import expat

import cms_canon

from .found import Class, Content, Found, Pieces
from .manifests import Compared, Listed, algorithm_of, plain
from .sources import Budget

LONGEST_ELEMENT = 1 << 18  # octets with which an element of a manifest may begin, since expat has all its attributes at once
MOST_TRIED = 100  # manifests that name one signature
_DIFFERS = {7, 14}  # F7 and F14
_PIECE = 1 << 16
MANIFEST = re.compile(r"META-INF/[^/]*ASiC[^/]*Manifest[^/]*\.xml\Z", re.I)
SIGNATURE = re.compile(r"META-INF/[^/]*(?:signature|timestamp)[^/]*\.(?:p7s|tst)\Z", re.I)
_OF_A_CONTAINER = re.compile(r"META-INF/(?:container|manifest)\.xml\Z", re.I)
XML_SIGNATURES = re.compile(r"META-INF/[^/]*signatures[^/]*\.xml\Z", re.I)


def is_own(name: str) -> bool:
    """Whether a member is one that no manifest has to list: a signature, a manifest, or what the format of the container has."""
    return name == "mimetype" or any(it.match(name) for it in (MANIFEST, SIGNATURE, XML_SIGNATURES, _OF_A_CONTAINER))


class NotAManifest(Exception):
    """What is named as a manifest is none that can be read."""


class Manifest(NamedTuple):
    """What an ASiCManifest says: the file that signs it, and the files that it lists."""

    name: str
    octets: bytes
    signature: str
    listed: Tuple[Listed, ...]


class _Reader:
    """Reads an ASiCManifest. Entities of its own, by which a small file could become large, are refused."""

    def __init__(self, budget: Budget) -> None:
        self._budget = budget
        self.signature = ""
        self.listed: List[Listed] = []
        self._name: Optional[str] = None
        self._algorithm: Optional[str] = None
        self._text: Optional[List[str]] = None
        self._digests: List[Tuple[Optional[str], bytes]] = []
        self._parser = expat.ParserCreate(namespace_separator="}")
        self._parser.buffer_text = True
        self._parser.StartDoctypeDeclHandler = self._refuse
        self._parser.StartElementHandler = self._begin
        self._parser.EndElementHandler = self._end
        self._parser.CharacterDataHandler = self._add

    def read(self, octets: bytes) -> None:
        try:
            for at in range(0, len(octets), _PIECE):
                self._parser.Parse(octets[at : at + _PIECE], False)
                if at - self._parser.CurrentByteIndex > LONGEST_ELEMENT:
                    raise NotAManifest(f"an element begins with more than {LONGEST_ELEMENT:,} octets")
            self._parser.Parse(b"", True)
        except (expat.ExpatError, ValueError, binascii.Error) as why:
            raise NotAManifest(str(why))

    def _refuse(self, *_: object) -> None:
        raise NotAManifest("it has a document type")

    def _begin(self, element: str, attributes: Dict[str, str]) -> None:
        self._budget.take_parts(1)
        name = element.rpartition("}")[2]
        if name == "SigReference":
            self.signature = plain(unquote(attributes.get("URI", "")))
        elif name == "DataObjectReference":
            self._name, self._digests = plain(unquote(attributes.get("URI", ""))), []
        elif name == "DigestMethod":
            self._algorithm = algorithm_of(attributes.get("Algorithm", ""))
        elif name == "DigestValue":
            self._text = []

    def _add(self, text: str) -> None:
        if self._text is not None:
            self._text.append(text)

    def _end(self, element: str) -> None:
        name = element.rpartition("}")[2]
        if name == "DigestValue" and self._text is not None:
            self._digests.append((self._algorithm, b64decode("".join("".join(self._text).split()), validate=True)))
            self._text = None
        elif name == "DataObjectReference" and self._name is not None:
            self.listed.append(Listed(self._name, tuple(self._digests)))
            self._name = None


def manifest_of(name: str, octets: bytes, budget: Budget) -> Manifest:
    """Returns what a manifest says. Raises `NotAManifest` if it is none."""
    reader = _Reader(budget)
    reader.read(octets)
    return Manifest(name, octets, reader.signature, tuple(reader.listed))


def signed_of(message: bytes, manifests: Sequence[Manifest], budget: Budget) -> Manifest:
    """Returns the manifest that a message signs or stamps, of several that name it; the first if it is none of them."""
    for manifest in manifests[:MOST_TRIED] if len(manifests) > 1 else ():
        budget.take(len(message) + len(manifest.octets))
        if _is_for(message, manifest.octets):
            return manifest
    return manifests[0]


def _is_for(message: bytes, content: bytes) -> bool:
    """Whether a message is one whose digests are not those of something else."""
    try:
        is_stamp = cms_canon.read(message).content is not None
        found = cms_canon.check(message, None if is_stamp else content, content if is_stamp else None)
    except (cms_canon.Refused, ValueError):
        return False
    return not {it.code for it in found} & _DIFFERS


def found_in_e(name: str, message: bytes, manifest: Manifest, with_files: Compared) -> Found:
    """Returns what signs or stamps a manifest."""
    content = Content(manifest.name, len(manifest.octets), Pieces(manifest.octets), *with_files)
    return Found(name, "ASiC-E", Class.MESSAGE, len(message), message, content, is_detached=True)


def found_in_s(name: str, message: bytes, data_name: str, data: bytes, with_files: Compared) -> Found:
    """Returns what signs or stamps the one data object."""
    content = Content(data_name, len(data), Pieces(data), *with_files)
    return Found(name, "ASiC-S", Class.MESSAGE, len(message), message, content, is_detached=True)


def found_alone(name: str, message: bytes, why: str) -> Found:
    """Returns what signs or stamps something that is not found."""
    return Found(name, "ASiC", Class.MESSAGE, len(message), message, is_detached=True, note=why)
