"""Talks with `convert --many` over real pipes and sockets: a peer that sends a message and waits gets its DER.

Each message is sent only after the DER of all messages before it has come. So the program writes what it has before it waits for more,
also if a part of the next message has come already. Messages that came at once are written together, in few calls.
"""

import os
import re
import select
import socket
import subprocess
import threading
from pathlib import Path

import pytest
from elements import ID_SIGNED_DATA, INDEFINITE, element, oid
from programs import octets_of, read_vectors

pytestmark = pytest.mark.built

SECONDS = 10  # DER comes within milliseconds; a busy machine may take longer, and a program that keeps it back never writes it
NAMES = [
    "conversions/segmented-content", "conversions/indefinite-at-every-level", "conversions/two-signers-first-order",
    "conversions/request-explicit-false", "conversions/response-granted-with-token",
]
MANY = 10_000  # messages
MOST_WRITES = 1_000  # for all of them: what is at hand at once is written together


@pytest.fixture(scope="module")
def messages():
    """Messages in BER, each with its DER."""
    return [(octets_of(it, "input"), octets_of(it, "output")) for it in map(read_vectors().get, NAMES)]


class Failed(Exception):
    """What came is not what has to come; the text says what."""


class Peer:
    """The program, with the other ends of its streams."""

    def __init__(self, program, of_sockets=False):
        given, self.ours = socket.socketpair() if of_sockets else (subprocess.PIPE, None)
        how = {"stdin": given, "stdout": given, "stderr": subprocess.PIPE, "bufsize": 0}
        self.process = subprocess.Popen([program, "convert", "--many"], **how)
        if of_sockets:
            given.close()
        self.into, self.out = (self.ours or self.process.stdin).fileno(), (self.ours or self.process.stdout).fileno()

    def __enter__(self):
        return self

    def __exit__(self, *_):
        self.process.kill()
        self.process.wait()
        for stream in (self.process.stdin, self.process.stdout, self.process.stderr, self.ours):
            if stream:
                stream.close()

    def send(self, octets):
        while octets:
            octets = octets[os.write(self.into, octets) :]

    def awaits(self, octets, what):
        came = b""
        while len(came) < len(octets):
            if not select.select([self.out], [], [], SECONDS)[0]:
                raise Failed(f"{what}: of {len(octets)} octets {len(came)} came within {SECONDS} seconds")
            piece = os.read(self.out, len(octets) - len(came))
            if not piece:
                raise Failed(f"{what}: the output ended after {len(came)} of {len(octets)} octets")
            came += piece
        if came != octets:
            raise Failed(f"{what}: other octets came")

    def ends(self, status=0, line=b""):
        """Ends the input, and waits for the end of the output, with nothing before it."""
        if self.ours:
            self.ours.shutdown(socket.SHUT_WR)
        else:
            self.process.stdin.close()
        if not select.select([self.out], [], [], SECONDS)[0]:
            raise Failed(f"it did not end within {SECONDS} seconds after its input")
        if os.read(self.out, 1):
            raise Failed("more came after the end of the input")
        came = self.process.wait(SECONDS), self.process.stderr.read()
        if came != (status, line):
            raise Failed(f"it ended with {came}")


@pytest.mark.parametrize("of_sockets", [False, True])
def test_one_after_another(program, messages, of_sockets):
    """Each message is sent once the DER of the one before has come."""
    with Peer(program, of_sockets) as peer:
        for number, (message, der) in enumerate([*messages, *messages]):
            peer.send(message)
            peer.awaits(der, f"message {number}")
        peer.ends()


def test_a_part_of_the_next(program, messages):
    """With each message comes a part of the next one: its first octet, half of it, all but its last octet."""
    for part in (lambda n: 1, lambda n: n // 2, lambda n: n - 1):
        with Peer(program) as peer:
            sent = 0
            for number, (message, der) in enumerate(messages):
                following = messages[number + 1][0] if number + 1 < len(messages) else b""
                front = part(len(following)) if following else 0
                peer.send(message[sent:] + following[:front])
                sent = front
                peer.awaits(der, f"message {number}, sent with {front} octets of the next")
            peer.ends()


def indefinite(identifier, *contents):
    """Returns the element of indefinite length with these contents, one after another."""
    return bytes([identifier, INDEFINITE]) + b"".join(contents) + b"\0\0"


def with_a_long_tag(enclosing):
    """Returns a message with a value whose tag has two octets and whose contents are zeros. What is around it is written by `enclosing`."""
    attribute = enclosing(0x30, oid("1.2.3.4"), enclosing(0x31, bytes.fromhex("9f7f82012c") + bytes(300)))
    algorithm, signature = element(0x30, oid("2.16.840.1.101.3.4.2.1")), element(0x04, bytes(24))
    signer = enclosing(0x30, bytes.fromhex("0201038000"), algorithm, algorithm, signature, enclosing(0xA1, attribute))
    content = element(0x30, oid("1.2.840.113549.1.7.1"))
    return enclosing(0x30, ID_SIGNED_DATA, enclosing(0xA0, enclosing(0x30, bytes.fromhex("0201033100"), content, enclosing(0x31, signer))))


def test_a_part_with_a_long_tag(program, messages):
    """If the second octet of the tag were read as a length, the zeros would end all elements around it, and the part would seem whole."""
    (message, der), octets = messages[0], with_a_long_tag(indefinite)
    with Peer(program) as peer:
        peer.send(message + octets[:357])
        peer.awaits(der, f"message 0, sent with 357 of {len(octets)} octets of the next")
        peer.send(octets[357:])
        peer.awaits(with_a_long_tag(element), "message 1")
        peer.ends()


def test_some_at_once(program, messages):
    """All messages are sent at once, and the DER of all of them is awaited before the end."""
    with Peer(program) as peer:
        peer.send(b"".join(message for message, _ in messages))
        peer.awaits(b"".join(der for _, der in messages), "all messages")
        peer.ends()


def test_octet_by_octet(program, messages):
    """Each octet is sent by itself, and nothing is written before the last one of a message."""
    with Peer(program) as peer:
        for number, (message, der) in enumerate(messages[:3]):
            for octet in message:
                if select.select([peer.out], [], [], 0)[0]:
                    raise Failed(f"message {number}: something was written before its end")
                peer.send(bytes([octet]))
            peer.awaits(der, f"message {number}")
        peer.ends()


def test_before_a_refusal(program, messages):
    """What is before a message that is refused has come already, and its line says which message it is."""
    with Peer(program) as peer:
        message, der = messages[0]
        peer.send(message + b"\x30\x80\x05")
        peer.awaits(der, "message 0")
        peer.send(b"\x00")
        peer.ends(3, b"message 1: refused E7 UnexpectedElement at 4\n")


def test_a_long_batch(program, messages):
    """Many messages that come at once are written in few calls, as the kernel counts them, and all before the end of the input."""
    message, der = messages[0]
    with Peer(program) as peer:
        sender = threading.Thread(target=peer.send, args=(message * MANY,))
        sender.start()
        try:
            peer.awaits(der * MANY, f"{MANY} messages")
        except Failed:
            peer.process.kill()
            raise
        finally:
            sender.join()
        file = Path(f"/proc/{peer.process.pid}/io")  # which not every kernel has
        writes = int(re.search(r"^syscw: (\d+)", file.read_text(), re.M)[1]) if file.exists() else 0
        if writes > MOST_WRITES:
            raise Failed(f"{MANY} messages were written in {writes} calls")
        peer.ends()
