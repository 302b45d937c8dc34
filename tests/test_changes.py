"""Asks the released library what conversion changes in a message, and compares it with what listed_changes.py says, a reader of its own.

The messages are all octets in the vectors, those that openssl, gpgsm and BouncyCastle make, and MESSAGES made at random, ten spellings in BER
of each value. Of each it is checked that

- a message that is refused is refused as `cms_canon_convert` refuses it;
- the changes are those of the other reader, with just enough room and with more; with less room none is written;
- so are the text and the JSON; of DER there is no change;

Every kind of change and every set have to occur.
"""

import json
from collections import Counter

import listed_changes
import messages_of_tools
import pytest
from c_library import Library
from programs import octets_in_vectors
from tally import differing

MESSAGES = 20_000
SPELLINGS = 10  # of each message made at random, the last one in DER
NO_ROOM = 6


@pytest.fixture(scope="module")
def calls():
    return Library()


def complaints_of_room(calls, octets, changes, text):
    """Asks with too little room, and with just enough."""
    for room in sorted({0, len(changes) // 2, len(changes) - 1} & {*range(len(changes))}):
        few = calls.changes(octets, room=room)
        yield f"room for {room} of {len(changes)}", (NO_ROOM, len(changes)), (few.status, few.octets)
    yield "just enough room", changes, calls.changes(octets, room=len(changes)).changes
    few = calls.list_changes(octets, room=len(text) - 1)
    yield "room for all of the text but one octet", (NO_ROOM, len(text)), (few.status, few.octets)
    yield "just enough room for the text", text, calls.list_changes(octets, room=len(text)).output


def complaints_of(calls, octets):
    converted, came = calls.convert(octets), calls.changes(octets)
    if converted.status != 0:
        yield "refused", converted.refusal, came.refusal
        yield "refused, as text", converted.refusal, calls.list_changes(octets).refusal
        return
    short = len(octets) - 1
    yield "under a limit", calls.convert(octets, short).refusal, calls.changes(octets, short).refusal
    yield "text under a limit", calls.convert(octets, short).refusal, calls.list_changes(octets, limit=short).refusal
    der, changes = listed_changes.changes_of(octets)
    yield "the DER of the other reader", converted.output, der
    yield "changes", (0, changes), (came.status, came.changes)
    yield "no change of DER", converted.output == octets, not came.changes
    text = listed_changes.text_of(octets).encode()
    yield "text", text, calls.list_changes(octets, room=len(text) + 100).output
    said = calls.list_changes(octets, json=True).output
    yield "JSON", listed_changes.json_of(octets), json.loads(said)
    yield "lines of JSON", 1, said.count(b"\n")
    yield from complaints_of_room(calls, octets, changes, text)


def judge(tally, calls, name, octets):
    complaint = next((f"{what}: {it}" for what, due, came in complaints_of(calls, octets) if (it := differing(due, came))), "")
    tally.count(name, complaint and f"{complaint[:1000]}, of {octets[:500].hex()}")


def test_vectors(calls, tally):
    for octets in octets_in_vectors():
        judge(tally, calls, "vector", octets)


def test_tools(calls, tools, tally):
    for name, octets in messages_of_tools.of_openssl_and_gpgsm(tools, tally):
        judge(tally, calls, name, octets)


def test_countersignatures(calls, tools, tally):
    for name, octets, _ in messages_of_tools.of_bouncy_castle(tools, tally):
        judge(tally, calls, name, octets)


def kinds_in(octets):
    """Gives the kind of each change, and the set of each that is moved."""
    for change in listed_changes.changes_of(octets)[1]:
        yield listed_changes.NAMES[change.kind]
        if change.set:
            yield listed_changes.SETS[change.set - 1]


def test_generated(calls, tally):
    seen = Counter()
    for name, octets in messages_of_tools.at_random(MESSAGES, SPELLINGS):
        judge(tally, calls, name, octets)
        seen.update(kinds_in(octets) if calls.convert(octets).status == 0 else ())
    for kind in (*listed_changes.NAMES.values(), *listed_changes.SETS):
        tally.count(f"{kind} occurs", "" if seen[kind] else "in no message")
