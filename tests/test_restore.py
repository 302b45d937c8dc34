"""Gets messages back from their DER and an account of each, by the Python package, and tries accounts that are wrong.

The messages are all octets in the vectors and spellings of these, those that openssl, gpgsm and BouncyCastle make, and MESSAGES made at random,
ten spellings in BER of each value. Of each it is checked that

- `pieces` are those of the library, and their octets are the DER;
- `restore` returns the message from its DER and its account, and so does accounts.py, which is written by docs/FORMATS.md alone;
- the account is the one that docs/FORMATS.md describes, from the pieces of assembly.py: a message that is DER is one copy, and no instruction goes on where
  the one before ended;
- no account of another message of that tool is taken with this DER.

Accounts are changed in each octet, cut, lengthened and put together otherwise, also with digests that fit again. Each raises `NotRestored`, or gives
the same message, or another spelling of it; and none takes more memory or time than its message.
"""

import re
import subprocess
import sys
import time
import tracemalloc
from collections import Counter
from hashlib import sha256
from itertools import combinations
from pathlib import Path
from random import Random

import accounts
import assembly
import countersignatures
import generated_messages
import messages_of_tools
import pytest
from accounts import Account, Copy, Literal, Wrong, account_in
from c_library import Library
from elements import ID_SIGNED_DATA, element, element_at, message as message_of
from programs import TOP, octets_in_vectors, octets_of, read_vectors
from real_messages import message_part
from tally import differing

MESSAGES = 20_000
SPELLINGS = 10  # of each message made at random, the last one in DER
OF_VECTORS = 4  # of each signed message in the vectors, at random
MUTATIONS = 20_000
MOST_OCTETS, OCTETS_FOR_ONE = 300, 400  # of the account of a message that a tool makes, and one more for so many of the message, which may be in segments
MOST_MORE = 100  # that an account has more than its message
MOST_MEMORY = 1 << 16  # octets that a wrong account of a short message takes in Python
MOST_SECONDS = 0.5
INSTRUCTIONS, MOST_SECONDS_OF_MANY = 100_000, 10  # of one octet each, and the seconds that they take while memory is traced
EXAMPLE = "conversions/indefinite-at-every-level"
# What is before and after the length, in four octets, and the octets of content in one piece, all else of indefinite length.
BEFORE = "308006092a864886f70d010702a08030800201013100308006092a864886f70d010701a0800484"
AFTER = "000000003100000000000000"


@pytest.fixture(scope="module")
def calls():
    return Library()


# ---- messages that are got back

def complaints_of_pieces(calls, package, octets, der):
    pieces = package.pieces(octets)
    yield "pieces", calls.pieces(octets).pieces, [*map(tuple, pieces)]
    yield "their octets", der, b"".join(it.octets(octets, der) for it in pieces)


def complaints_of_account(octets, der, came):
    read = account_in(came)
    yield "the other reader", octets, read.message(der)
    yield "the account of the text", accounts.account_of(octets, der, assembly.pieces_of(octets)), read
    yield "what it writes", came, read.written()
    if octets == der:
        yield "the account of DER", (Copy(0, len(der)) if len(der) >= accounts.SHORTEST else Literal(der),), read.instructions
    pairs = zip(read.instructions, read.instructions[1:])
    yield "instructions that are one", [], [pair for pair in pairs if is_one(*pair)]
    yield "more octets than the message", True, len(came) <= len(octets) + MOST_MORE


def is_one(before, after):
    """Whether one instruction could take the place of these two."""
    if isinstance(before, Copy) and isinstance(after, Copy):
        return before.place + before.count == after.place
    return isinstance(before, Literal) and isinstance(after, Literal)


def complaints_of(calls, package, octets, der):
    yield from complaints_of_pieces(calls, package, octets, der)
    came = package.account(octets)
    yield "restored", octets, package.restore(der, came)
    yield "once more", came, package.account(bytearray(octets))
    yield from complaints_of_account(octets, der, came)


def why_refused(package, octets):
    """Returns the texts of the refusals of a message that is none."""
    for call in (package.convert, package.pieces, package.account):
        try:
            call(octets)
            yield f"{call.__name__} refuses nothing"
        except package.Refused as refusal:
            yield str(refusal)


def judge(tally, calls, package, name, octets):
    """Returns the DER, or None if the message is refused."""
    der = calls.convert(octets)
    if der.status != 0:
        tally.count(name, "" if len({*why_refused(package, octets)}) == 1 else f"{[*why_refused(package, octets)]}")
        return None
    compared = complaints_of(calls, package, octets, der.output)
    complaint = next((f"{what}: {it}" for what, due, came in compared if (it := differing(due, came))), "")
    tally.count(name, complaint and f"{complaint[:1000]}, of {octets[:500].hex()}")
    return der.output


def test_vectors(calls, package, tally):
    random, made = Random(generated_messages.SEED), {}
    for octets in octets_in_vectors():
        der = judge(tally, calls, package, "vector", octets)
        if der is not None:
            made[octets] = der
    ders = sorted(set(made.values()))
    signed = [it for it in ders if element_at(it).members[0].octets == ID_SIGNED_DATA]
    for der in signed:
        part = message_part(der)
        for octets in (part.ber(countersignatures.Descending()), *(part.ber(random) for _ in range(OF_VECTORS))):
            tally.count("the DER of a spelling", differing(der, judge(tally, calls, package, "spelling of a vector", octets)))
    tally.count("signed messages in the vectors", "" if len(signed) > 80 else f"only {len(signed)}")


def judge_real(tally, calls, package, messages):
    """Counts what a tool made. Each DER is of no account of another message; and accounts of usual messages are short."""
    lengths, made = [], {}
    for name, octets in messages:
        der = judge(tally, calls, package, name, octets)
        if der is None:
            continue
        came = package.account(octets)
        lengths.append(len(came))
        is_short = len(came) <= MOST_OCTETS + len(octets) // OCTETS_FOR_ONE
        tally.count(f"{name}, length", "" if is_short else f"{len(came)} octets of account for {len(octets)}")
        for other, account in made.items():
            tally.count(f"{name}, account of another", "" if other == der or not_restored(package, der, account) else "it is taken")
        made[der] = came
    print(f"{len(lengths)} accounts of {min(lengths)} to {max(lengths)} octets, {sum(lengths) / len(lengths):.0f} in the mean")


def not_restored(package, der, account):
    try:
        package.restore(der, account)
    except package.NotRestored:
        return True
    return False


def test_tools(calls, package, tools, tally):
    judge_real(tally, calls, package, messages_of_tools.of_openssl_and_gpgsm(tools, tally))


def test_countersignatures(calls, package, tools, tally):
    for name, octets, _ in messages_of_tools.of_bouncy_castle(tools, tally):
        judge(tally, calls, package, name, octets)


def test_generated(calls, package, tally):
    overlaps = 0
    for name, octets in messages_of_tools.at_random(MESSAGES, SPELLINGS):
        if judge(tally, calls, package, name, octets) is not None:
            overlaps += has_overlap(package, octets)
    tally.count("pieces that have octets in common", "" if overlaps > 100 else f"only in {overlaps} messages")


def has_overlap(package, octets):
    """Whether an octet of the message lies in two pieces that are long enough to be copied."""
    copied = sorted(it for it in package.pieces(octets) if not it.made and it.length >= accounts.SHORTEST)
    return any(before.end > after.place for before, after in zip(copied, copied[1:]))


def in_segments(count, length):
    """Returns a message whose content has so many segments of this length, of octets that do not repeat."""
    octets = b"".join(sha256(number.to_bytes(4, "big")).digest() for number in range(-(-count * length // 32)))
    segments = b"".join(element(0x04, octets[at : at + length]) for at in range(0, count * length, length))
    content = element(0x30, bytes.fromhex("06092a864886f70d010701") + b"\xa0\x80\x24\x80" + segments + bytes(4))
    return message_of(bytes.fromhex("0201013100"), content, b"\x31\x00")


def test_segments(calls, package, tally):
    """An account is in proportion to the number of segments, and not to their length."""
    for count, length in ((1_000, 1_000), (1_000, 60), (3, 300_000), (20_000, 20), (20_000, 3)):
        octets = in_segments(count, length)
        judge(tally, calls, package, f"{count} segments of {length} octets", octets)
        came = len(package.account(octets))
        tally.count("the account", "" if came <= 150 + 11 * count else f"{came} octets for {count} segments of {length}")


def test_example(package, tally):
    """The account that docs/FORMATS.md has as an example is one that `account` makes."""
    said = (TOP / "docs" / "FORMATS.md").read_text().partition("## Accounts of messages\n")[2].partition("\n## ")[0]
    parts = [bytes.fromhex(it) for it in re.findall(r"^\| `([0-9A-F ]+)` \|", said.partition("brackets")[2], re.M)]
    message, der = (bytes.fromhex(re.sub(r"[][]", "", it)) for it in re.findall(r"^    ([][0-9A-F ]+)$", said, re.M))
    octets = octets_of(read_vectors()[EXAMPLE], "input")
    tally.count("the message", differing(octets, message))
    tally.count("its DER", differing(package.convert(octets), der))
    tally.count("the account", differing(package.account(octets), b"".join(parts)))


# ---- accounts that are wrong

def came_of(package, der, account, **how):
    """Returns the octets that come, or the text of why none do."""
    try:
        return package.restore(der, account, **how)
    except package.NotRestored as why:
        return str(why)


def samples(package):
    """Gives messages and their DER: requests, responses, content in segments, several signers in another order, and some that are DER."""
    for name in ("conversions/request-true-as-05", "conversions/segmented-content", "conversions/two-signers-first-order",
                 "conversions/two-signers-second-order", "conversions/response-granted-with-token", "conversions/signed-attributes",
                 "real-messages/two-signers-streamed", "real-messages/reply-with-chain-sha256"):
        octets = octets_of(read_vectors()[name], "input")
        yield octets, package.convert(octets)


def test_each_octet_changed(package, tally):
    for octets, der in samples(package):
        account = package.account(octets)
        for at, octet in enumerate(account):
            taken = [it for it in range(256) if it != octet and not not_restored(package, der, account[:at] + bytes([it]) + account[at + 1 :])]
            tally.count(f"octet {at} of {len(account)}", f"taken as {taken}" if taken else "")


def test_cut_and_lengthened(package, tally):
    for octets, der in samples(package):
        account = package.account(octets)
        for at in range(len(account)):
            tally.count(f"cut at {at}", "" if not_restored(package, der, account[:at]) else "it is taken")
        for more in (b"\0", b"\2\0", b"\xff" * 6, account):
            wanted = f"not restored: octets follow the last instruction, at octet {len(account)} of the account"
            tally.count(f"{more.hex()} after it", differing(wanted, came_of(package, der, account + more)))
            tally.count(f"{more.hex()} before it", "" if not_restored(package, der, more + account) else "it is taken")


def sealed(account, der, instructions):
    """Returns the account with these instructions, and with the length and the digests that they give."""
    octets = b"".join(it.gives(der) for it in instructions)
    return Account(sha256(octets).digest(), sha256(der).digest(), len(octets), tuple(instructions))


def judge_forged(tally, package, name, octets, der, forged):
    """What is forged raises, or gives the same octets; if its digests fit, it may give another spelling of the message, and nothing else."""
    came = came_of(package, der, forged.written())
    complaint = "" if isinstance(came, str) or came == octets else "it gives other octets"
    tally.count(name, complaint)
    came = came_of(package, der, sealed(forged, der, forged.instructions).written())
    is_right = isinstance(came, str) or package.convert(came) == der
    tally.count(f"{name}, with digests that fit", "" if is_right else f"it gives {came.hex()}, which has another DER")
    return not isinstance(came, str)


def test_instructions_swapped(package, tally):
    taken = 0
    for octets, der in samples(package):
        account = account_in(package.account(octets))
        for one, other in combinations(range(len(account.instructions)), 2):
            instructions = [*account.instructions]
            instructions[one], instructions[other] = instructions[other], instructions[one]
            forged = account._replace(instructions=tuple(instructions))
            taken += judge_forged(tally, package, f"{one} and {other} swapped", octets, der, forged)
        for number in range(len(account.instructions)):
            rest = account.instructions[:number] + account.instructions[number + 1 :]
            judge_forged(tally, package, f"{number} left out", octets, der, account._replace(instructions=rest))
    tally.count("spellings of the same message", "" if taken else "no forged account gives one")


def test_another_der(package, tally):
    """A DER that is not the one of the account, though the octets that are copied are the same in it."""
    for octets, der in samples(package):
        account = package.account(octets)
        others = [der[:at] + bytes([der[at] ^ bit]) + der[at + 1 :] for at in range(len(der)) for bit in (1, 0x80)]
        for other in (*others, der[:-1], der + b"\0", b"", octets if octets != der else b"", account):
            wanted = "not restored: the DER is not the one that the account was made from"
            came = came_of(package, other, account)
            is_short = isinstance(came, str) and "more than the DER and the account together" in came
            tally.count("another DER", "" if is_short else differing(wanted, came))


def long_message(package):
    """Returns a message that is shorter than its DER: elements of indefinite length have four octets around them, and long ones of DER five."""
    octets = bytes.fromhex(BEFORE) + (70_000).to_bytes(4, "big") + bytes(70_000) + bytes.fromhex(AFTER)
    return octets, package.convert(octets)


def test_limits(package, tally):
    which = set()
    for octets, der in (*samples(package), long_message(package)):
        account, most = package.account(octets), max(len(octets), len(der))
        tally.count("just enough", differing(octets, package.restore(der, account, limit=most)))
        what, count = ("original", len(octets)) if len(octets) >= most else ("DER", len(der))
        wanted = f"not restored: the {what} has {count} octets, and the limit is {most - 1}"
        tally.count("one less", differing(wanted, came_of(package, der, account, limit=most - 1)))
        which.add(what)
    tally.count("which are too long", differing({"original", "DER"}, which))


NUMBERS = ("length", "copied", "place", "literal")
WRONG = [  # what stands in place of a number, and why it is refused
    ("8000", "a number has more octets than it needs"), ("ff8000", "a number has more octets than it needs"),
    ("808080808000", "a number has more octets than it needs"), ("80808080808001", "a number has more than 6 octets"),
    ("ff" * 40, "a number has more than 6 octets"), ("ff" * 5, None), ("ffffffffff7f", None), ("fe" * 5 + "7f", None), ("80" * 5 + "01", None), ("00", None),
    ("01", None),
]


def forged_numbers(account):
    """Gives accounts of which one number is another: what is changed, and what is before and after it."""
    read = account_in(account)
    head = account[:72]
    rest = account[72 + len(accounts.number(read.length)) :]
    yield "length", head, rest
    before = head + accounts.number(read.length)
    for it in read.instructions:
        encoding = accounts.instruction(it)
        first = accounts.number(it.count << 1 | 1) if isinstance(it, Copy) else accounts.number(len(it.octets) << 1)
        after = account[len(before) + len(encoding) :]
        yield "copied" if isinstance(it, Copy) else "literal", before, encoding[len(first) :] + after
        if isinstance(it, Copy):
            yield "place", before + first, after
        before += encoding


def test_numbers(package, tally):
    """Lengths and places that are too large, or in more octets than they need: no memory is taken for what is only claimed."""
    seen = set()
    for octets, der in samples(package):
        account = package.account(octets)
        for what, before, after in forged_numbers(account):
            seen.add(what)
            for digits, why in WRONG:
                forged = before + bytes.fromhex(digits) + after
                came, memory, seconds = measured(package, der, forged)
                wanted = f"not restored: {why}, at octet {len(before)} of the account"
                is_right = came == wanted if why else isinstance(came, str) or forged == account
                tally.count(f"{what} as {digits}", "" if is_right else f"it says {came!r}")
                tally.count(f"{what} as {digits}, memory", "" if memory <= MOST_MEMORY else f"{memory} octets")
                tally.count(f"{what} as {digits}, time", "" if seconds <= MOST_SECONDS else f"{seconds} s")
    tally.count("numbers", differing({*NUMBERS}, seen))


def measured(package, der, account):
    """Returns what comes, and the octets of memory and the seconds of processor time that it took."""
    tracemalloc.start()
    start = time.process_time()
    try:
        came = came_of(package, der, account)
        return came, tracemalloc.get_traced_memory()[1], time.process_time() - start
    finally:
        tracemalloc.stop()


def test_much_from_little(package, tally):
    """An account of a few octets in which the DER is copied again and again would give as many as the limit: it is refused before that."""
    octets, der = next(samples(package))
    account = account_in(package.account(octets))
    for copies in (2, 3, 1_000):
        forged = sealed(account, der, [Copy(0, len(der))] * copies)
        came, memory, seconds = measured(package, der, forged.written())
        tally.count(f"{copies} copies", "" if isinstance(came, str) and memory <= MOST_MEMORY and seconds <= MOST_SECONDS else f"{memory} octets: {came}")
    for length in (1 << 20, 1 << 28, 1 << 40, (1 << 42) - 1):
        forged = account._replace(length=length).written()
        came, memory, _ = measured(package, der, forged)
        is_right = isinstance(came, str) and re.search("more than the DER and the account together|and the limit is 268435456", came)
        tally.count(f"{length} octets are said", "" if is_right and memory <= MOST_MEMORY else f"{memory} octets: {came}")


def test_many_instructions(package, tally):
    """Instructions of one octet each take time and memory in proportion to their number."""
    octets, der = next(samples(package))
    account = account_in(package.account(octets))
    for name, one in (("literals", Literal(b"0")), ("copies", Copy(0, 1))):
        forged = sealed(account, der, [one] * INSTRUCTIONS).written()
        came, memory, seconds = measured(package, der, forged)
        tally.count(name, differing("not restored: what comes is no message that has this DER", came))
        tally.count(f"{name}, memory", "" if memory <= MOST_MEMORY + 4 * len(forged) else f"{memory} octets for {len(forged)}")
        tally.count(f"{name}, time", "" if seconds <= MOST_SECONDS_OF_MANY else f"{seconds} s")


def mutated(random, account, der):
    """Returns an account that is changed somewhere: in octets, in instructions, or with digests that fit again."""
    kind = random.randrange(6)
    octets = bytearray(account)
    if kind < 4:
        begin, end = sorted(random.randrange(len(octets) + 1) for _ in range(2))
        other = random.randrange(len(octets) + 1)
        octets[begin : min(end, begin + random.randrange(9))] = random.choice([
            b"", bytes([random.randrange(256)]), random.randbytes(random.randrange(9)), account[other : other + random.randrange(40)],
        ])
        return bytes(octets)
    read = account_in(account)
    instructions = [changed(random, it, der) for it in read.instructions if random.random() < 0.95]
    if random.random() < 0.3:
        random.shuffle(instructions)
    if kind == 4:
        return read._replace(instructions=tuple(instructions)).written()
    try:
        return sealed(read, der, instructions).written()
    except Wrong:
        return read._replace(instructions=tuple(instructions)).written()


def changed(random, it, der):
    if random.random() < 0.7:
        return it
    if isinstance(it, Literal):
        return Literal(it.octets + random.randbytes(random.randrange(3)) if random.random() < 0.5 else random.randbytes(len(it.octets)))
    begin = random.randrange(len(der) + 2)
    return Copy(begin, random.randrange(1, 1 + max(1, len(der) - begin))) if random.random() < 0.5 else Literal(it.gives(der))


def due_of(package, der, account):
    """Returns what the other reader makes of an account if that has this DER, or None."""
    try:
        octets = account_in(account).message(der)
        return octets if octets and package.convert(octets) == der else None
    except (Wrong, package.Refused):
        return None


def test_mutations(package, tally, monkeypatch):
    """The package takes an account if and only if the other reader does, and what that gives is a spelling of the message."""
    monkeypatch.setattr(generated_messages, "LONG_CONTENT", 5_000)
    random, given, taken = generated_messages.beginning(), [*samples(package)], 0
    while len(given) < 60:
        message = generated_messages.signed_message(random)[0].ber(random)
        if Library().convert(message).status == 0:
            given.append((message, package.convert(message)))
    made = [(octets, der, package.account(octets)) for octets, der in given]
    for number in range(MUTATIONS):
        octets, der, account = random.choice(made)
        forged = mutated(random, account, der)
        start = time.process_time()
        came, due = came_of(package, der, forged), due_of(package, der, forged)
        came = None if isinstance(came, str) else came
        taken += due is not None and forged != account
        is_slow = time.process_time() - start > MOST_SECONDS
        tally.count(f"mutation {number}", "too slow" if is_slow else differing(due, came)[:1000])
    tally.count("accounts that give the same message otherwise", "" if taken > 100 else f"only {taken}")


WITHOUT_MEMORY = """
import resource, sys
import cms_canon

before, after, small = map(bytes.fromhex, sys.argv[1:])
octets = before + (8 << 20).to_bytes(4, "big") + bytes(8 << 20) + after
der, account = cms_canon.convert(octets), cms_canon.account(octets)
taken = int(open("/proc/self/statm").read().split()[0]) * resource.getpagesize()
for spare in range(0, 80 << 20, 4 << 20):
    resource.setrlimit(resource.RLIMIT_AS, (taken + spare, resource.RLIM_INFINITY))
    for call, words, due in ((cms_canon.account, (octets,), account), (cms_canon.restore, (der, account), octets)):
        try:
            print(call.__name__, "right" if call(*words) == due else "wrong")
        except MemoryError:
            print(call.__name__, "MemoryError")
    print("small", "right" if cms_canon.restore(cms_canon.convert(small), cms_canon.account(small)) == small else "wrong")
"""


def test_without_memory(package, tally):
    """A call raises `MemoryError` if memory does not suffice, and nothing else, and the next call has all that it needs."""
    small, _ = next(samples(package))
    words = [sys.executable, "-c", WITHOUT_MEMORY, BEFORE, AFTER, small.hex()]
    home = Path(package.__file__).parents[1]
    ended = subprocess.run(words, capture_output=True, text=True, env={"PYTHONPATH": str(home)})
    tally.count("the child", ended.stderr[-1000:])
    said = Counter(ended.stdout.splitlines())
    tally.count("wrong octets", "" if not any("wrong" in it for it in said) else f"{said}")
    for due in ("account MemoryError", "account right", "restore MemoryError", "restore right", "small right"):
        tally.count(due, "" if said[due] else f"never: {said}")
