"""Messages that tools make, and messages made at random in several spellings: what some tests go through from the first to the last."""

from random import Random

import countersignatures
import generated_messages
import openssl_tokens
import real_messages


def of_openssl_and_gpgsm(tools, tally):
    """Yields the name and the octets of each signed message, and of each request, response and token."""
    made = openssl_tokens.make_all(tools)
    for message in real_messages.all_messages(tools, tally):
        yield message.name, message.octets
    for name, token in made.items():
        for kind in ("request", "response", "token"):
            yield f"{name}, {kind}", getattr(token, kind)


def of_bouncy_castle(tools, tally):
    """Yields the name and the octets of each message with countersignatures, and of other spellings of it, and its content if that is detached."""
    if missing := countersignatures.missing_for_java():
        return tally.skip("BouncyCastle", f"{', '.join(missing)} not installed")
    countersignatures.make_keys(tools)
    countersignatures.build_java(tools)
    random, plans = Random(generated_messages.SEED), [*countersignatures.plans()]
    made = countersignatures.bouncy_castle(tools, "make", [f"{form} {signers}" for _, form, signers in plans])
    for (name, form, _), octets in zip(plans, map(bytes.fromhex, made)):
        for given in (octets, *countersignatures.spellings_of(octets, random)):
            yield f"{name}, {form}", given, countersignatures.CONTENT if form == "detached" else None


def at_random(count, spellings, long_content=5_000):
    """Yields the name and the octets of each of so many messages, in so many spellings of each value, the last one in DER; and then one that is damaged."""
    before, generated_messages.LONG_CONTENT = generated_messages.LONG_CONTENT, long_content
    try:
        random = generated_messages.beginning()
        makers = [generated_messages.signed_message] * 2 + [generated_messages.request, generated_messages.response]
        for index in range(count // spellings):
            message, *_ = random.choice(makers)(random)
            spelled = [message.ber(random) for _ in range(spellings - 1)]
            for given in (*spelled, message.der()):
                yield f"message {index}", given
            yield f"message {index}, damaged", generated_messages.damaged(random, spelled[0])
    finally:
        generated_messages.LONG_CONTENT = before
