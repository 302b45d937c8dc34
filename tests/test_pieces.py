"""Asks the released library of which pieces of a message its DER is put together, and compares them with those of assembly.py, a reader of its own.

The messages are all octets in the vectors, those that openssl, gpgsm and BouncyCastle make, and MESSAGES made at random, ten spellings in BER
of each value. Of each it is checked that

- a message that is refused is refused as `cms_canon_convert` refuses it;
- the pieces are those of the other reader, with just enough room and with more; with less room none is written;
- they are what `cms_canon_convert` writes, one after another; of DER there is one, and it is the message.

All ways in which DER differs from what was read have to occur.
"""

from collections import Counter

import messages_of_tools
import pytest
from assembly import octets_of, pieces_of
from c_library import Library
from programs import octets_in_vectors
from tally import differing

MESSAGES = 20_000
SPELLINGS = 10  # of each message made at random, the last one in DER
NO_ROOM = 6


@pytest.fixture(scope="module")
def calls():
    return Library()


def due_of(pieces):
    """Returns pieces as the library has them: the place of a made one is that in the DER."""
    due, at = [], 0
    for piece in pieces:
        place, length, is_made = (at, len(piece), True) if isinstance(piece, bytes) else (piece[0], piece[1] - piece[0], False)
        due.append((place, length, is_made))
        at += length
    return due


def complaints_of(calls, octets):
    converted, came = calls.convert(octets), calls.pieces(octets)
    if converted.status != 0:
        yield "refused", converted.refusal, came.refusal
        return
    short = len(octets) - 1
    yield "under a limit", calls.convert(octets, short).refusal, calls.pieces(octets, short).refusal
    pieces = pieces_of(octets)
    due = due_of(pieces)
    yield "the DER of the other reader", converted.output, octets_of(octets, pieces)
    yield "pieces", (0, due), (came.status, came.pieces)
    if converted.output == octets:
        yield "DER", [(0, len(octets), False)], came.pieces
    for room in sorted({0, len(due) // 2, len(due) - 1}):
        few = calls.pieces(octets, room=room)
        yield f"room for {room} of {len(due)}", (NO_ROOM, len(due)), (few.status, few.octets)
    yield "just enough room", due, calls.pieces(octets, room=len(due)).pieces


def judge(tally, calls, name, octets):
    complaint = next((f"{what}: {it}" for what, due, came in complaints_of(calls, octets) if (it := differing(due, came))), "")
    tally.count(name, complaint and f"{complaint[:1000]}, of {octets[:500].hex()}")


def test_vectors(calls, tally):
    for octets in octets_in_vectors():
        judge(tally, calls, "vector", octets)


def test_tools(calls, tools, tally):
    for name, octets in messages_of_tools.of_openssl_and_gpgsm(tools, tally):
        judge(tally, calls, name, octets)


def test_countersignatures(calls, tools, tally):
    for name, octets, _ in messages_of_tools.of_bouncy_castle(tools, tally):
        judge(tally, calls, name, octets)


def kinds_in(octets, pieces):
    """Gives what happens in the pieces: places in the message that go back, are left out, or are long, and what is made."""
    places = [it for it in pieces if isinstance(it, tuple)]
    for before, after in zip(places, places[1:]):
        yield "moved" if after[0] < before[1] else "left out"
    for made in (it for it in pieces if isinstance(it, bytes)):
        yield "TRUE" if made.endswith(b"\x01\x01\xff") else "a header" if len(made) < 5 else "headers"


def test_generated(calls, tally):
    seen = Counter()
    for name, octets in messages_of_tools.at_random(MESSAGES, SPELLINGS):
        judge(tally, calls, name, octets)
        seen.update(kinds_in(octets, pieces_of(octets)) if calls.convert(octets).status == 0 else ())
    for kind in ("moved", "left out", "TRUE", "a header", "headers"):
        tally.count(f"{kind} occurs", "" if seen[kind] else "in no message")
