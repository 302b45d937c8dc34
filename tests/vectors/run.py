#!/usr/bin/env python3
"""Compares any implementation of CMS with the vectors of this folder, by command lines that call it.

docs/VECTORS.md says what the vectors are. This file needs Python 3.8 or later, and nothing else of the repository.

A COMMAND is a line for the shell, which is run once for each vector. It gets the message on its standard input, or in the file that
{message} stands for. Status 0 means that the message was accepted, and a status from 1 to 125 that it was refused, whatever was written by
then. A command that is not found, is ended by a signal, or takes too long is never as a vector says. In a COMMAND the words {message},
{first}, {second}, {content} and {data} stand for files, and {signer} and {limit} for numbers.
"""

import argparse
import json
import os
import re
import shlex
import signal
import subprocess
import sys
import tempfile
import threading
from collections import Counter
from pathlib import Path
from typing import NamedTuple, Optional

VECTORS = Path(__file__).resolve().parent
LIMIT = 16777216  # octets, of a vector that names none
LAST_OF_REFUSALS = 125  # a shell has the statuses after it for commands that it does not find, and for signals
FILES = ("message", "first", "second", "content", "data")
PLACEHOLDER = re.compile(r"\{(\w+)\}")
PLACE = re.compile(r"\bE(\d+)\b.*\bat (\d+)\b")
FINDING = re.compile(r"^F(\d+)(?: signer (\d+))?\b", re.M)


class Question(NamedTuple):
    """What is asked of the implementation for a vector."""

    option: str
    fields: dict  # by the name of the placeholder, octets or a number
    accepted: Optional[bytes] = None  # what is to be written, or None if that is not compared
    refused: Optional[dict] = None  # number, name and at; an empty one if any refusal will do
    status: Optional[int] = None  # if it is more than accepted or not
    findings: Optional[list] = None


class Ended(NamedTuple):
    status: int
    out: bytes
    errors: str


# ---- what a vector asks


def octets_of(vector, field):
    """Returns the octets of a field, or of the parts in its place, or None if the vector has neither."""
    if field in vector:
        return bytes.fromhex(vector[field])
    if f"{field}_parts" in vector:
        return b"".join(bytes.fromhex(octets) * times for octets, times in vector[f"{field}_parts"])
    return None


def conversion(vector):
    fields = {"message": octets_of(vector, "input"), "limit": vector.get("limit", LIMIT)}
    return Question("convert", fields, octets_of(vector, "output"), vector.get("refused"))


def comparison(vector):
    fields = {"first": octets_of(vector, "first"), "second": octets_of(vector, "second")}
    return Question("same", fields, status=0 if vector["same"] else 1)


def cover(vector):
    fields = {"message": octets_of(vector, "message"), "signer": vector["signer"]}
    if "detached" in vector:
        fields["content"] = octets_of(vector, "detached")
    refused = {} if "fault" in vector else None
    return Question("cover-content" if "detached" in vector else "cover", fields, octets_of(vector, "octets"), refused)


def findings(vector):
    """Asks for the findings without a verifier; a vector with one that knows, or with content and data, is for a library."""
    if vector["verifier"] != "Unknown" or {"detached", "stamped"} <= {*vector} or "token" in vector:
        return None
    option, fields = "check", {"message": octets_of(vector, "message")}
    for field, name in (("detached", "content"), ("stamped", "data")):
        if field in vector:
            option, fields[name] = f"check-{name}", octets_of(vector, field)
    return Question(option, fields, findings=sorted(map(tuple, vector["findings"]), key=str))


def messages(vector):
    if {"reader_room", "writer_room"} & {*vector}:
        return None
    fields = {"message": octets_of(vector, "input"), "limit": vector.get("limit", LIMIT)}
    refused = vector.get("fault", {}).get("refused")
    return Question("many", fields, octets_of(vector, "output"), refused)


ASKS = {"convert": conversion, "same": comparison, "cover": cover, "check": findings, "many": messages}
OPTIONS = {
    "convert": "reads one message in BER, and writes it in DER",
    "same": "says by status 0 that {first} and {second} are the same message, and by 1 that they are not; without these words both are on "
    "the standard input, one right after the other",
    "cover": "writes the octets that the signature of {signer} covers, counted from 0",
    "cover-content": "the same with detached {content}",
    "check": "writes a line for each rule that the message breaks, which begins with its number and perhaps its signer, as `F7 signer 0`; "
    "its status is not looked at",
    "check-content": "the same with detached {content}",
    "check-data": "the same for a time-stamp of {data}",
    "many": "reads messages one right after the other, and writes the DER of each before the one that is refused",
}


def questions_of(file):
    """Yields each vector of a file by its name, with what it asks; None if no command line can be asked that."""
    for vector in json.loads(file.read_text(encoding="utf-8"))["vectors"]:
        ask = ASKS.get(vector["kind"])
        can_be_asked = ask and vector.get("tail") != "leave" and "then_forever" not in vector
        yield f"{file.stem}/{vector['name']}", ask(vector) if can_be_asked else None


# ---- asking


def line_of(command, fields, folder):
    """Returns the line for the shell, with the files written that it names."""
    values = {}
    for name in PLACEHOLDER.findall(command):
        if name in FILES and name in fields:
            (folder / name).write_bytes(fields[name])
            values[name] = shlex.quote(str(folder / name))
        elif name in fields:
            values[name] = str(fields[name])
    return PLACEHOLDER.sub(lambda found: values.get(found[1], found[0]), command)


def given_to(command, fields):
    """Returns the standard input of a command: what it names as a file is not given once more."""
    named = {*PLACEHOLDER.findall(command)}
    return b"".join(fields[name] for name in ("message", "first", "second") if name in fields and name not in named)


def run(command, fields, seconds):
    with tempfile.TemporaryDirectory() as folder:
        line = line_of(command, fields, Path(folder))
        started = subprocess.Popen(line, shell=True, stdin=subprocess.PIPE, stdout=subprocess.PIPE, stderr=subprocess.PIPE, start_new_session=True)
        late = threading.Timer(seconds, os.killpg, (started.pid, signal.SIGKILL))
        late.start()
        try:
            out, errors = started.communicate(given_to(command, fields))
        finally:
            late.cancel()
    return Ended(started.returncode, out, errors.decode(errors="replace"))


# ---- judging


def one_line(text):
    return " ".join(text.split())[:100]


def first_difference(wanted, came):
    at = next((at for at, pair in enumerate(zip(wanted, came)) if pair[0] != pair[1]), min(len(wanted), len(came)))
    return f"the output differs from octet {at} on: {len(wanted)} octets are wanted, and {len(came)} came"


def complaint_of_refusal(question, ended, has_places):
    if ended.status == 0:
        return f"it is accepted, and to be refused{' for E{number} {name} at {at}'.format(**question.refused) if question.refused else ''}"
    if question.option == "many" and ended.out != question.accepted:
        return first_difference(question.accepted, ended.out)
    if not has_places or not question.refused:
        return ""
    said = PLACE.search(ended.errors)
    wanted = (question.refused["number"], question.refused["at"])
    came = (int(said[1]), int(said[2])) if said else None
    return "" if came == wanted else f"it is refused for {came}, and to be refused for {wanted}"


def complaint(question, ended, has_places):
    """Returns why this is not what the vector says, or an empty text."""
    if not 0 <= ended.status <= LAST_OF_REFUSALS:
        return f"the command ended with status {ended.status}: {one_line(ended.errors)}"
    if question.findings is not None:
        came = sorted(((int(code), int(signer) if signer else None) for code, signer in FINDING.findall(ended.out.decode(errors="replace"))), key=str)
        return "" if came == question.findings else f"the findings are {came}, and to be {question.findings}"
    if question.status is not None:
        return "" if ended.status == question.status else f"the status is {ended.status}, and to be {question.status}"
    if question.refused is not None:
        return complaint_of_refusal(question, ended, has_places)
    if ended.status != 0:
        return f"it is refused, and to be accepted: {one_line(ended.errors)}"
    return "" if ended.out == question.accepted else first_difference(question.accepted, ended.out)


def is_asked(question, command):
    """Whether a command can be asked: one without {limit} has the usual limit."""
    return "{limit}" in command or question.fields.get("limit", LIMIT) == LIMIT


def words():
    parser = argparse.ArgumentParser(description=__doc__, formatter_class=argparse.RawDescriptionHelpFormatter)
    for option, meaning in OPTIONS.items():
        parser.add_argument(f"--{option}", metavar="COMMAND", help=meaning)
    parser.add_argument("--places", action="store_true", help="compare also what a refusal says, as `E6 Overrun at 4`")
    parser.add_argument("--seconds", type=float, default=60, help="how long a command may take (default: %(default)s)")
    parser.add_argument("files", nargs="*", type=Path, metavar="FILE", help="files of vectors (default: all beside this script)")
    return parser


def main():
    signal.signal(signal.SIGPIPE, signal.SIG_DFL)  # for a reader that has seen enough, such as head
    parser = words()
    given = parser.parse_args()
    commands = {option: line for option in OPTIONS if (line := getattr(given, option.replace("-", "_")))}
    if not commands:
        parser.error("no COMMAND is given")
    counts = Counter()
    for file in given.files or sorted(VECTORS.glob("*.json")):
        for name, question in questions_of(file):
            command = commands.get(question.option) if question else None
            if command is None or not is_asked(question, command):
                counts["not asked"] += 1
                continue
            said = complaint(question, run(command, question.fields, given.seconds), given.places)
            counts["otherwise" if said else "as the vectors say"] += 1
            if said:
                print(f"{name}: {said}", flush=True)
    print(f"{counts['as the vectors say']} as the vectors say, {counts['otherwise']} otherwise, {counts['not asked']} not asked")
    return 1 if counts["otherwise"] or not counts["as the vectors say"] else 0


if __name__ == "__main__":
    sys.exit(main())
