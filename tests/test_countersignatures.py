"""Has BouncyCastle make and verify messages with countersignatures, which the built program converts.

Keys, certificates and messages are made on the spot. Each message is also spelled otherwise in BER: once with indefinite lengths and each set in
descending order, and several times at random. It is checked that

- `converted`: the message, its other spellings and its DER become the DER, which is worked out here;
- `verified`: BouncyCastle finds every signature in what is written right, and finds as many as were made;
- `changed`: if an octet of one of these signatures is changed, BouncyCastle finds that one wrong;
- `covers`: openssl verifies each signature over what it covers, as the released library says, in the message as it was made, in
  another spelling and in what is written; and the last one is wrong over other octets.

A countersignature that is too deep is refused (`too-deep`). At each depth some spelling has to have an indefinite length, and some
a countersignature that moves (`spellings`).
"""

import itertools
import re
from collections import namedtuple
from random import Random

import pytest
from countersignatures import CONTENT, SEED, bouncy_castle, build_java, by_paths, make_keys, missing_for_java, plans, signatures, spellings_of
from elements import flipped
from programs import complaint, refused, run
from real_messages import behind, fields_of, joined, message_part, signer_infos, why_not_converted

Message = namedtuple("Message", "name form signers octets")


def made_in(message):
    return len(re.findall("[a-z]+", message.signers))


def is_right(tools, key, signature, covered):
    tools.write("signature", signature)
    return tools.run(f"openssl dgst -sha256 -verify {key}.public -signature signature", covered).returncode == 0


def judge_too_deep(program, octets):
    """The countersignature at depth 5 is refused after its header."""
    ((_, deepest),) = [it for it in by_paths(signer_infos(octets)) if len(it[0]) == 6]
    after_header = len(deepest.contents) + (2 if deepest.is_indefinite else 0)
    wanted = refused(19, "CountersignTooDeep", behind(octets, deepest.octets) - after_header)
    return complaint(wanted, run([program, "convert"], octets))


def questions(message, written):
    """Gives each question to BouncyCastle about what was written: its check, itself, and the answer that is wanted."""
    yield f"{message.name}/verified", f"{message.form} {written.hex()}", f"right {made_in(message)}"
    first = {}
    for path, _, signature in signatures(written):
        first.setdefault(signature, ".".join(map(str, path)))
    for signature, path in first.items():
        changed = written.replace(signature, flipped(signature), 1)
        yield f"{message.name}/changed", f"{message.form} {changed.hex()}", f"wrong {path}"


def judge_questions(tools, tally, asked):
    """Counts each check once, of however many questions."""
    complaints = {check: "" for check, _, _ in asked}
    for (check, question, wanted), came in zip(asked, bouncy_castle(tools, "verify", [it[1] for it in asked])):
        if came != wanted:
            complaints[check] = f"wanted {wanted}, came {came}, of {question}"
    for check, differs in complaints.items():
        tally.count(check, differs)


def judge_covers(tools, names, package, message, octets):
    content = CONTENT if message.form == "detached" else None
    signers = list(signatures(octets))
    for path, identity, signature in signers:
        try:
            covered = package.cover(octets, path=list(path), content=content)
        except package.Refused as why:
            return f"{path} of {octets.hex()}: {why}"
        if not is_right(tools, names[identity], signature, covered):
            return f"{path} of {octets.hex()}: the signature is wrong over {covered.hex()}"
    if is_right(tools, names[identity], signature, covered + b"x"):
        return f"{path} of {octets.hex()}: the signature is right over other octets"
    return "" if len(signers) == made_in(message) else f"{len(signers)} signatures, and {made_in(message)} were made"


def liberties(spelled, der):
    """Gives each liberty that a spelling takes, with the depth of the signer that shows it."""
    for (path, signer), (_, other) in zip(by_paths(signer_infos(spelled)), by_paths(signer_infos(der))):
        is_moved = joined(fields_of(signer).signature) != joined(fields_of(other).signature)
        yield from [("indefinite", len(path) - 1)] * signer.is_indefinite + [("moved", len(path) - 1)] * is_moved


@pytest.mark.built
def test_countersignatures(program, package, tools, tally):
    if missing := missing_for_java():
        return tally.skip("BouncyCastle", f"{', '.join(missing)} not installed")
    names, random, taken, asked = make_keys(tools), Random(SEED), set(), []
    build_java(tools)
    made = bouncy_castle(tools, "make", [f"{form} {signers}" for _, form, signers in plans()])
    for plan, octets in zip(plans(), map(bytes.fromhex, made)):
        message = Message(*plan, octets)
        spellings = spellings_of(octets, random)
        if message.name == "too-deep":
            for number, given in enumerate([octets, *spellings]):
                tally.count(f"{message.name}/{number}", judge_too_deep(program, given))
            continue
        der = message_part(octets).der()
        taken.update(liberties(spellings[0], der))
        tally.count(f"{message.name}/converted", why_not_converted(program, der, octets, *spellings, der))
        written = run([program, "convert"], spellings[0]).stdout
        for which, given in (("made", octets), ("spelled", spellings[0]), ("written", written)):
            if given:
                tally.count(f"{message.name}/covers/{which}", judge_covers(tools, names, package, message, given))
        asked += questions(message, written) if written else []
    judge_questions(tools, tally, asked)
    idle = sorted({*itertools.product(("indefinite", "moved"), range(5))} - taken)
    tally.count("spellings", f"none has {idle}" if idle else "")
