"""Makes messages at random and spells each in BER at random; compares what the built program writes with their DER.

tests/support/generated_messages.py makes them. Each message is also damaged at one place: it is then refused, or what is written for it is
written again unchanged. It is compared with itself, spelled twice, and with a message that differs from it in one part: they are the same if
their DER is. What `show` lists of its DER is what listing.py reads there. At the end the messages are converted once more by `convert --many`,
in streams of 3 to 50: what is written is their DER, up to the first message with a fault. Each of MUST_OCCUR has to be spelled.
"""

import re
import subprocess

import pytest
from generated_messages import AT_DEPTH_5, CHANGES, DEPTHS, FAULTS, MARK, SEED, beginning, changed, damaged, due, fault_name, request, response
from generated_messages import signed_message, spelled
from listing import listing_of

MESSAGES = 400
AT_A_TIME = 65_536  # octets of DER that are written together
MOST_IN_A_STREAM = 50  # messages
REFUSED = re.compile(rb"refused E[0-9]+ [A-Za-z]+ at [0-9]+\n")

MUST_OCCUR = [
    *(f"compared with {name}" for name in CHANGES),
    *(f"a countersignature at depth {depth}, not in DER" for depth in DEPTHS[1:]),
    *(f"a countersignature with signed attributes at depth {depth}, not in DER" for depth in DEPTHS[1:]),
    *(f"countersignatures at depth {depth} in another order than in DER" for depth in DEPTHS[1:]),
    *(f"no countersignature in an attribute, of a signer at depth {depth}" for depth in DEPTHS),
    "a countersignature twice", "several countersignature attributes of a signer", "an attribute whose type is nearly countersignature",
    "countersignatures among signed attributes",
    *dict.fromkeys(fault_name(*fault[:3]) for fault in [*FAULTS, *AT_DEPTH_5]),
    "a stream",
    "a stream of short messages with more DER than is written at a time",
    "a stream with a long message between others", "a stream with a refused message between others",
]


class Asker:
    """The program, which is asked to convert and compare messages."""

    def __init__(self, program):
        self.program = program

    def ran_on(self, given, *words):
        """Returns what the program writes, its line and its status."""
        ran = subprocess.run([self.program, *words], input=given, capture_output=True, timeout=20)
        return ran.stdout, ran.stderr, ran.returncode

    def written(self, words, given):
        output, line, status = self.ran_on(given, *words)
        return output if status == 0 else (status, line)

    def is_refused_or_kept(self, given):
        """Whether the octets are refused, or what is written for them is written again unchanged."""
        answer = self.written(["convert"], given)
        if isinstance(answer, bytes):
            return self.written(["convert"], answer) == answer
        return answer[0] == 3 and REFUSED.fullmatch(answer[1]) is not None


def checks_of(ask, random, spellings):
    """Gives what was run on a message, on which octets, and whether the program wrote what is due. Each spelling of the message is
    added to `spellings`, with its DER."""
    message, detached, covers = random.choice([signed_message, signed_message, request, response])(random)
    der = message.der()
    if MARK.search(der) is None:
        twice = message.ber(random) + message.ber(random)
        yield "same, spelled twice", twice, ask.ran_on(twice, "same") == (b"same\n", b"", 0)
        name, other = changed(random, message)
        other_der = other.der()
        if ask.written(["convert"], other_der) == other_der:
            spelled[f"compared with {name}"] += other_der != der
            both = message.ber(random) + other.ber(random)
            yield f"same, {name}", both, ask.ran_on(both, "same") == ((b"same\n", b"", 0) if other_der == der else (b"different\n", b"", 1))
        yield "show", der, ask.written(["show"], der) == listing_of(der).encode()
    for given in (message.ber(random), message.ber(random), der):
        spellings.append((given, der))
        yield "convert", given, ask.written(["convert"], given) == due(given, der)
        harmed = damaged(random, given)
        yield "convert, damaged", harmed, ask.is_refused_or_kept(harmed)
    words, rest = ([], b"") if detached is None else (["--content"], detached)
    for number, cover in enumerate(covers):
        came = ask.written(["cover", "--signer", str(number), *words], der + rest)
        yield f"cover --signer {number}", der, came == due(der, cover)


def due_of_stream(stream):
    """Returns what the program is to write of the messages, one after another: its output, its line and its status."""
    output = b""
    for number, (given, der) in enumerate(stream):
        answer = due(given, der)
        if not isinstance(answer, bytes):
            status, line = answer
            return output, b"message %d: %s" % (number, line), status
        output += answer
    return output, b"", 0


def streams_of(random, spellings):
    """Gives streams of the messages, each message in one of them. At times one of them has a refused message in the middle."""
    accepted = [(given, der) for given, der in spellings if MARK.search(given) is None]
    refused = [(given, der) for given, der in spellings if MARK.search(given) is not None]
    random.shuffle(accepted)
    while accepted:
        count = random.randint(3, MOST_IN_A_STREAM)
        stream, accepted = accepted[:count], accepted[count:]
        if refused and random.random() < 0.4:
            stream.insert(random.randint(1, len(stream)), random.choice(refused))
        yield stream


def all_checks(ask, random):
    spellings = []
    for _ in range(MESSAGES):
        yield from checks_of(ask, random, spellings)

    for stream in streams_of(random, spellings):
        given = b"".join(octets for octets, _ in stream)
        wanted, are_long = due_of_stream(stream), [len(given) > AT_A_TIME for given, _ in stream]
        spelled["a stream"] += 1
        spelled["a stream of short messages with more DER than is written at a time"] += len(wanted[0]) > AT_A_TIME and not any(are_long)
        spelled["a stream with a long message between others"] += any(are_long[1:-1])
        spelled["a stream with a refused message between others"] += any(MARK.search(given) is not None for given, _ in stream[1:-1])
        yield "convert --many", given, ask.ran_on(given, "convert", "--many") == wanted


@pytest.mark.built
def test_messages(program, tally):
    for name, given, is_well in all_checks(Asker(program), beginning()):
        tally.count(f"{name}, seed {SEED}", "" if is_well else given.hex() or "no octets")
    for name in MUST_OCCUR:
        tally.count(f"{name}, seed {SEED}", "" if spelled[name] else "it is never spelled")
