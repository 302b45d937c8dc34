"""Makes files at random, messages and archives of them."""

import io
import tarfile
import zipfile
from collections import defaultdict
from hashlib import sha256
from typing import NamedTuple, Optional

from generated_messages import MARK, request, response, signed_message

KINDS = {signed_message: "signed", request: "request", response: "response"}
COMPRESSIONS = {"stored.zip": zipfile.ZIP_STORED, "deflated.zip": zipfile.ZIP_DEFLATED, "lzma.zip": zipfile.ZIP_LZMA}


class Made(NamedTuple):
    """A file as it was made: what it is, or its refusal as `E7 at 2`."""

    octets: bytes
    digest: Optional[str]
    kind: Optional[str]
    refusal: Optional[str]

    @property
    def is_der(self):
        return None if self.digest is None else sha256(self.octets).hexdigest() == self.digest


def message_at_random(random):
    """Returns a file that is a message: in DER, or in BER."""
    make = random.choice(list(KINDS))
    message, _, _ = make(random)
    der = message.der()
    octets = random.choice([der, message.ber(random)])
    if fault := MARK.search(octets):
        return Made(octets, None, None, f"{fault[1].decode().split()[1]} at {fault.start()}")
    return Made(octets, sha256(der).hexdigest(), KINDS[make], None)


def message_of_its_own(random, made):
    """Returns a message that no other file is."""
    digests = {one.digest for one in made}
    while (one := message_at_random(random)).digest in {None, *digests}:
        pass
    return one


def write_files(folder, files):
    """Writes files by their names, and returns the folder in which all of them lie."""
    for name, octets in files.items():
        path = folder / name
        path.parent.mkdir(parents=True, exist_ok=True)
        path.write_bytes(octets)
    return folder


def tarred(members, mode="w"):
    """Returns a tar of these members; two of one name may be given as pairs."""
    whole = io.BytesIO()
    with tarfile.open(fileobj=whole, mode=mode) as tar:
        for name, octets in members.items() if isinstance(members, dict) else members:
            info = tarfile.TarInfo(name)
            info.size = len(octets)
            tar.addfile(info, io.BytesIO(octets))
    return whole.getvalue()


def zipped(members, compression=zipfile.ZIP_DEFLATED):
    whole = io.BytesIO()
    with zipfile.ZipFile(whole, "w", compression) as packed:
        for name, octets in members.items():
            packed.writestr(name, octets)
    return whole.getvalue()


def packed_by(ending, members):
    return tarred(members, "w:gz") if ending == "tar.gz" else zipped(members, COMPRESSIONS[ending])


def grouped(pairs):
    """Returns the values of pairs by their keys, in the order in which they come."""
    groups = defaultdict(list)
    for key, value in pairs:
        groups[key].append(value)
    return dict(groups)


def row_with(archive, path, **values):
    """Returns a row of a store that has these values."""
    own = {"path": path, "size": 1, "changed": 1, "inode": 1, "signed_by": [], "times": []}
    return {**dict.fromkeys(archive.tables.FILES.c.keys()), **own, **values}
