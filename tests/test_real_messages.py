"""Makes messages with OpenSSL and GnuPG, converts them with the built program, and has both tools verify the results.

Of each message it is checked that

- `converted`: it becomes what the rules make of it, which `message_part` works out for itself;
- `signed-octets`: the content, the signed attributes and the signatures have the same octets in both;
- `again`: what was written is converted to itself;
- `cmsout`: if OpenSSL reads the message and writes it again, it writes the same octets;
- `verified`: each verification ends with the same status and gives the same output for both.

Together the messages have to need each rule (`rules`). Then come inputs that are refused.
"""

import pytest
from elements import CONSTRUCTED, element_at
from generated_messages import SetOf, parts_of
from programs import Outcome, complaint, refused, run, shortened
from real_messages import OCTET_STRING, READ, all_messages, behind, content_of, fields_of, joined, made_of_openssl, message_part, reason_of
from real_messages import signed_attributes, signer_infos, unlike

pytestmark = pytest.mark.built

RULES = (
    "lengths are definite", "strings are in one piece", "digest algorithms ascend", "certificates ascend", "revocation lists ascend",
    "signers ascend", "unsigned attributes ascend", "values of an unsigned attribute ascend",
)


def rules_needed(message):
    """Gives each of the rules that a message does not follow."""
    elements = [element_at(message)]
    for element in elements:
        elements += element.members
    if any(element.is_indefinite for element in elements):
        yield "lengths are definite"
    if any(element.identifier == OCTET_STRING | CONSTRUCTED for element in elements):
        yield "strings are in one piece"
    for part in (it for it in parts_of(message_part(message)) if isinstance(it, SetOf)):
        ders = [member.der() for member in part.members]
        if ders != sorted(ders):
            yield part.rule


def judge_signed_octets(message, converted):
    """What signatures cover, and the signatures, have the same octets in what is written."""
    content = content_of(message.octets)
    octets = [] if content is None else [("the content", joined(content))]
    for signer in map(fields_of, signer_infos(message.octets)):
        octets += [*(("signed attributes", it.octets) for it in signer.signed), ("a signature", joined(signer.signature))]
    return next((f"{what} did not stay: {shortened(it)}" for what, it in octets if it not in converted), "")


def judge_cmsout(tools, message, converted):
    """OpenSSL makes lengths definite, joins strings and sorts every set too: there is no difference to allow for."""
    ended = tools.run("openssl cms -cmsout -inform DER -outform DER", message.octets)
    return unlike(ended.stdout, converted) if ended.returncode == 0 else reason_of(ended.stderr)


def judge_verified(tools, message, converted_file):
    for words in (*message.verifies, *message.denies):
        received, converted = (tools.run(words.format(file)) for file in (f"{message.name}.der", converted_file))
        if (received.returncode == 0) != (words in message.verifies):
            return f"`{words}` gives {received.returncode} for the message itself: {reason_of(received.stderr)}"
        if converted.returncode != received.returncode:
            return (f"`{words}` gives {converted.returncode}, and {received.returncode} for the message itself:"
                    f" {reason_of(converted.stderr)}")
        if converted.stdout != received.stdout:
            return f"`{words}` writes something else: {unlike(received.stdout, converted.stdout)}"
    return ""


def judge_message(program, tools, tally, message):
    came = run([program, "convert"], message.octets)
    differs = complaint(Outcome(None, b"", 0), came) or unlike(message_part(message.octets).der(), came.stdout)
    tally.count(f"{message.name}/converted", differs)
    if not came.stdout:
        return
    converted_file = f"{message.name}.converted.der"
    tools.write(converted_file, came.stdout)
    again = complaint(Outcome(came.stdout, b"", 0), run([program, "convert"], came.stdout))
    tally.count(f"{message.name}/signed-octets", judge_signed_octets(message, came.stdout))
    tally.count(f"{message.name}/again", again)
    tally.count(f"{message.name}/cmsout", judge_cmsout(tools, message, came.stdout))
    tally.count(f"{message.name}/verified", judge_verified(tools, message, converted_file))


def test_messages(program, authority, tally):
    needed = set()
    for message in all_messages(authority, tally):
        judge_message(program, authority, tally, message)
        needed.update(rules_needed(message.octets))
    idle = [rule for rule in RULES if rule not in needed]
    tally.count("rules", f"no message needed a change so that {', '.join(idle)}" if idle else "")


def refused_inputs(tools):
    for name, words in READ["not_signed"].items():
        octets = tools.make(words)
        yield name, octets, refused(17, "NotSignedData", behind(octets, element_at(octets, 0).members[0].octets))
    for name, words in READ["not_ber"].items():
        yield name, tools.make(words), refused(7, "UnexpectedElement", 2)
    for name in ["attached", "streamed"]:
        octets = made_of_openssl(tools, name)
        yield f"{name}-and-a-newline", octets + b"\n", refused(18, "Trailing", len(octets) + 1)
        yield f"{name}-twice", octets + octets, refused(18, "Trailing", len(octets) + 1)
        yield f"{name}-cut", octets[:-1], refused(1, "Truncated", len(octets) - 1)
    message = made_of_openssl(tools, "attached")
    first, second, *_ = (it.octets for it in signed_attributes(signer_infos(message)[0]).members)
    octets = message.replace(first + second, second + first)
    yield "attributes-swapped", octets, refused(15, "SignedAttrsNotDer", behind(octets, first))


def test_refused(program, authority, tally):
    for name, octets, wanted in refused_inputs(authority):
        tally.count(name, complaint(wanted, run([program, "convert"], octets)))
