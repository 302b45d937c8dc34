"""Names as a store has them, and names and numbers as they are shown.

A name is a text from which it can be read back, since neither database takes all octets. If it has more than 1,200 octets it is cut and ends
with its SHA-256, since PostgreSQL refuses a key of more than 2,704.
"""

from __future__ import annotations

import hashlib
import json
import os
import re
import zlib
from typing import Tuple

LONGEST = 1200  # octets of a name in a store: an index of PostgreSQL takes 2,704, a path and the name of a member together
WRITTEN_OUT = re.compile("[\\\\\0-\x1f\x7f-\x9f\ud800-\udfff]")  # the last are octets that are no UTF-8, as Python has them in names
_CUT = re.compile(r"(?<!\\)(?:\\\\)*\\\.\.\.[0-9a-f]{64}(?:/|\Z)")  # a backslash that is of the name is doubled


def _written_out(found: re.Match[str]) -> str:
    if found[0] == "\\":
        return r"\\"
    octets = os.fsencode(found[0]) if not "\ud800" <= found[0] < "\udc80" else found[0].encode("utf-8", "surrogatepass")
    return "".join(f"\\x{octet:02x}" for octet in octets)


def text_of(name: str, cuts: bool = True) -> str:
    r"""Returns a name as text that a store and a terminal can take, another one for each name.

    A backslash is doubled; control characters, and octets that are no UTF-8, are written as `\x1b`. A name that is too long is cut, and
    ends with its SHA-256.
    """
    if len(name) <= LONGEST // 4 and name.isprintable() and "\\" not in name:
        return name
    text = WRITTEN_OUT.sub(_written_out, name)
    if not cuts or 4 * len(text) <= LONGEST or len(octets := text.encode()) <= LONGEST:
        return text
    return octets[:LONGEST].decode(errors="ignore") + r"\..." + hashlib.sha256(octets).hexdigest()


def cut(text: str) -> str:
    """Returns the same of a text in which nothing has to be written out: what `text_of` returns, in less time."""
    return text if len(text) <= LONGEST // 4 else text_of(text)


def path_text_of(path: str) -> str:
    """Returns a path as text, of which the folder and the name are each cut if they are too long."""
    folder, name = os.path.split(path)
    return f"{text_of(folder).rstrip('/')}/{text_of(name)}"


def is_cut(text: str) -> bool:
    """Whether a name, or the folder in a path, was too long for its text, so that it cannot be read back."""
    return _CUT.search(text) is not None


def name_of_text(text: str) -> str:
    """Returns the name that is written as this text, if it is not too long."""
    octets = re.sub(rb"\\(?:\\|x(..))", lambda it: bytes.fromhex(it[1].decode()) if it[1] else b"\\", text.encode())
    return os.fsdecode(octets)


def shown(name: str) -> str:
    """Returns a name with an escape for each character that does not show, as one that turns the direction of writing."""
    return "".join(it if it.isprintable() else it.encode("unicode_escape").decode() for it in name)


def escaped_in_json(text: str) -> str:
    """Returns JSON that says the same, with an escape for each character that does not show."""
    return text if text.isprintable() else "".join(it if it.isprintable() else json.dumps(it)[1:-1] for it in text)


_UNITS = ("KiB", "MiB", "GiB", "TiB", "PiB")


def size_of(octets: int) -> str:
    """Returns a number of octets in few digits, as `1.4 MiB`."""
    if octets < 1024:
        return f"{octets}\xa0octet{'' if octets == 1 else 's'}"
    scaled, unit = float(octets), ""
    for unit in _UNITS:
        scaled /= 1024
        if round(scaled) < 1024:
            break
    digits = f"{scaled:.1f}" if scaled < 9.95 else f"{scaled:.0f}"
    return f"{digits.replace('.0', '')}\xa0{unit}"


def counted(count: int, what: str) -> str:
    """Returns a number of things with the word for one of them, as `1 file` or `2 files`."""
    return f"{count:,} {what}{'' if count == 1 else 's'}"


def folder_and_name(path: str) -> Tuple[str, str]:
    """Returns the path of a folder with its slash, and the name of what lies in it."""
    end = path.rindex("/") + 1
    return path[:end], path[end:]


def chunk_of(name: str, chunks: int) -> int:
    """Returns in which of so many chunks of a folder the file of this name is, as it is written in a store."""
    return zlib.crc32(name.encode()) % chunks if chunks > 1 else 0
