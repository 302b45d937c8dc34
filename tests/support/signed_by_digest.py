"""Messages that signers sign by a digest alone, for tests and measurements: their signatures are zeros."""

from elements import element, message

VERSION = bytes.fromhex("020103")
CONTENT = bytes.fromhex("300b06092a864886f70d010701")
ALGORITHM = bytes.fromhex("300b0609608648016503040201")


def signed_by(digest, content=b"", signers=1):
    """Returns a message with content of its own, unless that is detached, which each signer signs by this digest."""
    kind = element(0x30, bytes.fromhex("06092a864886f70d010903") + element(0x31, bytes.fromhex("06092a864886f70d010701")))
    message_digest = element(0x30, bytes.fromhex("06092a864886f70d010904") + element(0x31, element(0x04, digest)))
    signer = element(0x30, VERSION + element(0x80, b"key") + ALGORITHM + element(0xA0, kind + message_digest) + ALGORITHM + element(0x04, bytes(256)))
    encapsulated = element(0x30, CONTENT[2:] + element(0xA0, element(0x04, content))) if content else CONTENT
    return message(VERSION + element(0x31, ALGORITHM) + encapsulated + element(0x31, signer * signers))
