"""The digests in a manifest, and whether the files that it names fit them."""

from __future__ import annotations

import hashlib
import posixpath
import re
from typing import AbstractSet, Callable, Dict, Iterable, List, NamedTuple, Optional, Sequence, Set, Tuple

from .found import State

Digest = Callable[[str, Set[str]], Optional[Dict[str, bytes]]]
"""Returns the digests of a file by these algorithms, as hashlib names them; None if there is no such file."""
NAMED = 3  # files that a note names
WEAK = {"md5", "sha1"}  # algorithms by which another file with the same digest can be made
WEAK_ALONE = re.compile(r"compares by (md5|sha1)(?: and (md5|sha1))? alone")  # in a note
_BAD = [State.FITS, State.PARTLY, State.NOT_COMPARED, State.DIFFERS]  # the last is the worst
_ALGORITHMS = {
    **{it: it for it in ("md5", "sha1", "sha224", "sha256", "sha384", "sha512")},
    **{f"sha3{bits}": f"sha3_{bits}" for bits in (224, 256, 384, 512)},
    **{f"sha512/{bits}": f"sha512_{bits}" for bits in (224, 256)},
}


class Listed(NamedTuple):
    """A file as a manifest lists it: its name, and its digests by the names that hashlib has for their algorithms, None if it has none."""

    name: str
    digests: Tuple[Tuple[Optional[str], bytes], ...]


class Compared(NamedTuple):
    """What came of comparing a manifest with the files."""

    bound: State
    note: str


def algorithm_of(name: str) -> Optional[str]:
    """Returns the name that hashlib has for a digest algorithm, as `SHA-256`, `SHA256` or an identifier of XML; None if it is not known."""
    known = _ALGORITHMS.get(name.rpartition("#")[2].replace("-", "").lower())
    return known if known in hashlib.algorithms_available else None


def weak_alone(digests: Iterable[Tuple[Tuple[Optional[str], bytes], ...]]) -> Set[str]:
    """Returns the weak algorithms by which something is compared that is compared by no other."""
    some = ({algorithm for algorithm, _ in it if algorithm is not None} for it in digests)
    return {algorithm for it in some if it <= WEAK for algorithm in it}


def plain(name: str) -> str:
    """Returns a name without the steps in it that lead nowhere, as `./`."""
    return posixpath.normpath(name) if name else name


def at_best(came: Compared, most: State, note: str) -> Compared:
    """Returns what came of it, but at best this state, with one more note."""
    return Compared(max(came.bound, most, key=_BAD.index), "; ".join(filter(None, (came.note, note))))


def not_covered(names: Iterable[str]) -> Compared:
    """Returns what is to be said of files that nothing covers."""
    some = some_of(names)
    return Compared(State.PARTLY, f"files that no manifest covers: {some}") if some else Compared(State.FITS, "")


def said_of(reasons: Dict[str, str]) -> str:
    """Returns the first of some names, each with what is to be said of it, and how many there are more."""
    first, more = [f"{name}: {reasons[name]}" for name in sorted(reasons)[:1]], len(reasons) - 1
    return "".join(first) + (f", and on {more:,} more" if more > 0 else "")


def some_of(names: Iterable[str]) -> str:
    """Returns the first of some names, and how many there are more; empty for none."""
    some = sorted(names)
    return ", ".join(some[:NAMED]) + (f" and {len(some) - NAMED:,} more" if len(some) > NAMED else "")


def compared(listed: Sequence[Listed], there: AbstractSet[str], digest: Digest) -> Compared:
    """Compares the files that are listed with those that are there. Each known digest of a file has to fit, and one has to be known."""
    digests = [it.digests for it in listed]
    if not digests:
        return Compared(State.NOT_COMPARED, "the manifest lists no file")
    came = _compared_files(listed, there, digest)
    weak = weak_alone(digests)
    return at_best(came, State.FITS, f"the manifest compares by {' and '.join(sorted(weak))} alone") if weak else came


def _compared_files(listed: Sequence[Listed], there: AbstractSet[str], digest: Digest) -> Compared:
    differs: List[str] = []
    unknown: List[str] = []
    left = set(there)
    for file in listed:
        left.discard(file.name)
        known = [(algorithm, wanted) for algorithm, wanted in file.digests if algorithm is not None]
        came = digest(file.name, {algorithm for algorithm, _ in known})
        if came is None or any(came[algorithm] != wanted for algorithm, wanted in known):
            differs.append(file.name)
        elif not known:
            unknown.append(file.name)
    if differs:
        return Compared(State.DIFFERS, f"files that do not fit the manifest: {some_of(differs)}")
    if unknown:
        return Compared(State.NOT_COMPARED, f"files whose digest algorithms are not known: {some_of(unknown)}")
    return not_covered(left)
