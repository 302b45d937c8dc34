"""Makes the files that `cms-canon-archive index` is measured by: many small ones, a thousand in each folder."""

import sys
import tarfile
from pathlib import Path
from typing import Callable, Dict, Iterator

TOP = Path(__file__).resolve().parents[1]
sys.path[:0] = [str(TOP / it) for it in ("archive/tests/support", "tests/support")]

from cases import Maker  # noqa: E402
from elements import element  # noqa: E402
from elements import message as message_of  # noqa: E402

IN_A_FOLDER = 1000
ALGORITHM = bytes.fromhex("300b0609608648016503040201")
SIGNER = element(0x30, b"\x02\x01\x03\x80\x00", ALGORITHM, bytes.fromhex("300506032a0304"), element(0x04, bytes(256)))
CERTIFICATE = element(0xA0, element(0x30, element(0x04, bytes(900))))
LINE = b"%08d is the number of this file, which is a text as any.\n"


def message(number: int) -> bytes:
    """Returns a message of its own with a signer and what takes the room of a certificate; its lengths are indefinite if its number is even."""
    content = element(0x30, bytes.fromhex("06092a864886f70d010701"), element(0xA0, element(0x04, b"%08d" % number * 40)))
    whole = message_of(b"\x02\x01\x03", element(0x31, ALGORITHM), content, CERTIFICATE, element(0x31, SIGNER))
    return whole if number % 2 else b"\x30\x80" + whole[4:] + b"\0\0"


def text(number: int) -> bytes:
    """Returns a text of the same length."""
    return LINE % number * 26


def nothing(number: int) -> bytes:
    """Returns a file of the same length that is neither a message nor a text."""
    return b"\xff" + b"%08d" % number * 199


def write_all(folder: Path, count: int, files_of: Callable[[int], Dict[str, bytes]]) -> Path:
    """Writes the files of each number, and returns the folder."""
    for number in range(count):
        there = folder / f"{number // IN_A_FOLDER}"
        if number % IN_A_FOLDER == 0:
            there.mkdir(parents=True)
        for name, octets in files_of(number).items():
            (there / name).write_bytes(octets)
    return folder


def messages(folder: Path, count: int) -> Path:
    return write_all(folder, count, lambda number: {f"{number}.p7s": message(number)})


def texts(folder: Path, count: int) -> Path:
    return write_all(folder, count, lambda number: {f"{number}.txt": text(number)})


def nothings(folder: Path, count: int) -> Path:
    return write_all(folder, count, lambda number: {f"{number}.bin": nothing(number)})


def signed_documents(folder: Path, count: int, home: Path) -> Path:
    """Writes documents, and beside each what openssl signs them by: the same document under many names, by a key of 2,048 bits."""
    document = text(0)
    signature = Maker(home).cms(document)
    return write_all(folder, count, lambda number: {f"{number}": document, f"{number}.p7s": signature})


def tar_of(folder: Path, path: Path) -> Path:
    """Writes a tar of all files in a folder, and returns the folder that it lies in alone."""
    path.parent.mkdir()
    with tarfile.open(path, "w", format=tarfile.USTAR_FORMAT) as tar:
        for it in files_in(folder):
            tar.add(it, it.relative_to(folder))
    return path.parent


def files_in(folder: Path) -> Iterator[Path]:
    return (it for it in sorted(folder.rglob("*")) if it.is_file())
