"""What tests of built programs share: where these and the vectors are, how a program is run on octets, and what differs of an outcome."""

import contextlib
import functools
import itertools
import json
import os
import resource
import socket
import subprocess
import tempfile
import threading
from pathlib import Path
from typing import NamedTuple, Optional

TOP = Path(__file__).resolve().parents[2]
RELEASE = TOP / "dist" / "x86_64-linux"
VECTORS, DATA_FILES = TOP / "tests" / "vectors", TOP / "tests" / "data"
MOST_NEEDLESS_GROWTHS = 20  # after so many in a row that do no harm when they are refused, no further ones are looked for

WRITERS = (  # that fail in the end: how many octets one takes at a time, and what it returns then
    {"WRITE_MOST": 1, "WRITE_END": -1}, {"WRITE_MOST": 3, "WRITE_END": -1}, {"WRITE_MOST": 1 << 20, "WRITE_END": -1},
    {"WRITE_MOST": 1 << 20, "WRITE_END": 0},
)

LIMIT_OF_VECTORS = 16777216  # where a vector names none
SECONDS = 60  # no run may take longer
SMALLEST = "conversions/smallest-signed-data"

ENCLOSING = [  # of a content: identifier, the octets before what is inside, and those after it
    (0x30, bytes.fromhex("06092a864886f70d010702"), b""),  # id-signedData
    (0xA0, b"", b""),
    (0x30, bytes.fromhex("0201013100"), bytes.fromhex("3100")),  # version, no digest algorithms; no signers
    (0x30, bytes.fromhex("06092a864886f70d010701"), b""),  # id-data
    (0xA0, b"", b""),
]


class Outcome(NamedTuple):
    """What a run of the program wrote, and its exit status. A wanted None stands for any octets but none."""

    stdout: Optional[bytes]
    stderr: bytes
    status: object


def feed(writer, octets, again):
    """Gives the octets to a pipe, and then `again` without end, until the program has closed its side."""
    with contextlib.suppress(BrokenPipeError), open(writer, "wb") as pipe:
        pipe.write(octets)
        while again:
            pipe.write(again)


def input_of(octets, again, room):
    """Returns a reader that gives the octets, and then `again` without end; or one that fails after as many as there is room for.

    A local socket that is closed while it holds an unread octet resets the connection, once the other side has read all that was sent.
    """
    if room is None:
        reader, writer = os.pipe()
        threading.Thread(target=feed, args=(writer, octets, again), daemon=True).start()
        return reader
    reader, writer = socket.socketpair()
    with reader, writer:
        reader.send(b"?")
        writer.sendall(octets[:room])
        return os.dup(reader.fileno())


def run(words, octets, again=b"", reader_room=None, writer_room=None):
    """Runs words[0] on the octets, with a reader or writer that fails where its room is given."""
    with tempfile.TemporaryFile() as file, open(input_of(octets, again, reader_room), "rb") as given:
        how = {"stdin": given, "stdout": subprocess.PIPE, "stderr": subprocess.PIPE, "timeout": SECONDS}
        if writer_room is not None:
            # A write fails once the file has so many octets. Python ignores the signal that would come with it.
            limit = functools.partial(resource.setrlimit, resource.RLIMIT_FSIZE, (writer_room, writer_room))
            how.update(stdout=file, preexec_fn=limit, restore_signals=False)
        try:
            ended = subprocess.run(words, **how)
        except subprocess.TimeoutExpired:
            return Outcome(b"", b"", f"none after {SECONDS} seconds")
        file.seek(0)
        return Outcome(file.read() if ended.stdout is None else ended.stdout, ended.stderr, ended.returncode)


@functools.cache
def built_refusing():
    """Returns a folder with tests/c/refusing.c as a library, which is removed with it."""
    folder = tempfile.TemporaryDirectory()
    subprocess.run(["gcc", "-shared", "-fPIC", "-Wall", TOP / "tests" / "c" / "refusing.c", "-o", f"{folder.name}/refusing.so"], check=True)
    return folder


def settings(how):
    """Returns the settings of the environment in which a program has the faults that `how` names in the words of tests/c/refusing.c."""
    return [f"LD_PRELOAD={built_refusing().name}/refusing.so", *(f"{name}={it}" for name, it in how.items())]


def refusing(how, words):
    return ["env", *settings(how), *words]


# ---- vectors, and what is wanted

def octets_of(vector, field):
    """Returns the octets of the field, or of the parts that stand in its place."""
    if field in vector:
        return bytes.fromhex(vector[field])
    return b"".join(bytes.fromhex(octets) * times for octets, times in vector[field + "_parts"])


def line_of(refusal):
    return "refused E{number} {name} at {at}".format(**refusal)


def refused(number, name, at, status=3):
    return Outcome(b"", f"{line_of({'number': number, 'name': name, 'at': at})}\n".encode(), status)


def told(read, octets):
    """Returns what the library is to tell of so many octets that it reads, and these that it writes."""
    return Outcome(octets, f"read {read} written {len(octets)}\n".encode(), 0)


@functools.cache
def read_vectors():
    """Returns every vector by its name `file/name`, our own ones and those of the files."""
    every = {}
    for file in (DATA_FILES / "own.json", *sorted(VECTORS.glob("*.json"))):
        for vector in json.loads(file.read_text(encoding="utf-8"))["vectors"]:
            every[f"{file.stem}/{vector['name']}"] = vector
    return every


# ---- what differs

def shortened(octets):
    """Shows octets as text, or in hexadecimal where they are no text, and no more than the first of them."""
    if octets is None:
        return "any octets but none"
    is_text = octets.isascii() and all(octet >= 32 or octet == 10 for octet in octets)
    most = 120 if is_text else 60
    shown = ascii(octets[:most].decode()) if is_text else octets[:most].hex()
    return f"{shown}.. ({len(octets)} octets)" if len(octets) > most else shown


def complaint(wanted, came):
    """Returns what was wanted and what came, where they differ, and an empty text where they do not."""
    parts = []
    for field, show, one, other in zip(Outcome._fields, (shortened, shortened, str), wanted, came):
        if one != other and (one is not None or not other):
            parts.append(f"{field}: wanted {show(one)}, came {show(other)}")
    return "; ".join(parts)


def first(compared):
    """Makes a judge of a function that yields a name, what is wanted and what came: it returns the first complaint, or an empty text."""

    @functools.wraps(compared)
    def judge(*given, **how):
        complaints = ((name, complaint(wanted, came)) for name, wanted, came in compared(*given, **how))
        return next((f"{name}: {differs}" for name, differs in complaints if differs), "")

    return judge


def complaint_of_growths(run_without, done, stopped):
    """Has each call of malloc or realloc refused in turn: one of the outcomes of a run that is stopped comes, and each of them at some
    call; or all is done without it. `run_without` takes the number of the call."""
    awaited, harmless = [*stopped], 0
    for call in itertools.count(1):
        came = run_without(call)
        if came not in (done, *stopped):
            return f"growth {call} refused: {came}"
        awaited = [outcome for outcome in awaited if outcome != came]
        harmless = harmless + 1 if came == done else 0
        if harmless == MOST_NEEDLESS_GROWTHS:
            return f"no growth that was refused gave {awaited}" if awaited else ""


def _octets_in(value):
    if isinstance(value, str):
        try:
            yield bytes.fromhex(value)
        except ValueError:
            pass
    elif isinstance(value, (dict, list)):
        for it in value.values() if isinstance(value, dict) else value:
            yield from _octets_in(it)


def octets_in_vectors():
    """Returns all octets that the vectors have, whatever they are, but for none at all."""
    return sorted({octets for file in VECTORS.glob("*.json") for octets in _octets_in(json.loads(file.read_text()))} - {b""})
