"""Where the names of members lead when a container is unpacked, so that two that lead to one place are noticed."""

from __future__ import annotations

import re
import unicodedata
from typing import List, Set

READERS_DIFFER = "readers differ on "  # how a note begins that says so of a member or of the whole container
_ENDS = (".", " ")
_WITHOUT_WIDTH = dict.fromkeys((*range(0x200C, 0x2010), *range(0x202A, 0x202F), *range(0x206A, 0x2070), 0xFEFF))  # which HFS+ leaves out
_STEP = re.compile(r"[/\\]")
_VERSION = re.compile(r";[0-9]*\Z")
_OF_UNZIP = {".": "_", "..": "__"}
_OF_OEM = (("+", b"\xbb\xbc\xbf\xc0\xc3\xc5\xc8\xc9\xce\xd9\xda"), ("-", b"\xc1\xc2\xc4\xca\xcb\xcd"), ("i", b"\xd5"), ("_", b"\xdc"), ("=", b"\xf2"))
_FROM_OEM = {ord(character): other for other, octets in _OF_OEM for character in octets.decode("cp437")}  # as unzip has them in ASCII
_LEFT_OUT = dict.fromkeys((*range(0x20), 0x7F, 0xA0, 0xFFFD))  # control characters and the octet ff, as it is read in one encoding or another


def path_of(name: str, goes_back: bool = True) -> str:
    """Returns where a name leads. Some readers go back at `..`, and others leave it out."""
    steps: List[str] = []
    for step in _STEP.split(name):
        if step == ".." and goes_back:
            del steps[-1:]
        elif step not in ("", ".", ".."):
            steps.append(step)
    return "/".join(steps)


def paths_of(name: str) -> Set[str]:
    """Returns where a name leads for one reader or another: some leave out what lies before `..` too."""
    if ".." not in name:
        return {path_of(name)}
    return {path_of(name), path_of(name, goes_back=False), path_of(name.rpartition("..")[2])}


def paths_in_zip(name: str) -> Set[str]:
    """Returns the same for a member of a zip: unzip leaves out a version, as `;1`, and control characters, and writes others in their place."""
    plain = _VERSION.sub("", name).translate(_LEFT_OUT)
    steps = "/".join(_OF_UNZIP.get(it, it) for it in plain.split("/"))
    return paths_of(name) | paths_of(plain) | {path_of(steps), path_of(steps.translate(_FROM_OEM))}


def differing(name: str, reason: str) -> str:
    """Returns the note for a reason why readers differ on a member; empty for none."""
    return f"{READERS_DIFFER}{name}: {reason}" if reason else ""


def folded(path: str) -> str:
    """Returns what a path has in common with those that lead to the same file if capitals, forms of characters, characters without width, and dots and
    blanks at the end of a name do not count."""
    if path.endswith(_ENDS) or "./" in path or " /" in path:
        path = "/".join(step.rstrip(". ") for step in path.split("/"))
    path = path.translate(_WITHOUT_WIDTH)
    if path.isascii():
        return path if (lower := path.lower()) == path else lower
    return unicodedata.normalize("NFC", unicodedata.normalize("NFC", path).casefold())
