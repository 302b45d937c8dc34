"""Prints the signers of the message in the file named: the serial number of each one's certificate, and what its signature covers."""

import sys
from pathlib import Path

import cms_canon

message = cms_canon.read(Path(sys.argv[1]).read_bytes())
for signer in message.signers:
    print(signer.serial_number, signer.digest_algorithm.name, "over", len(signer.covered()), "octets")
