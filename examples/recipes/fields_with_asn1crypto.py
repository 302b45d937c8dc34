"""Reads a message in BER with the package asn1crypto, by its DER: what a library makes of other spellings does not matter then.

    python3 fields_with_asn1crypto.py MESSAGE
"""

import sys
from pathlib import Path

import cms_canon
from asn1crypto import cms

der = cms_canon.convert(Path(sys.argv[1]).read_bytes())
signed = cms.ContentInfo.load(der, strict=True)["content"]
for signer in signed["signer_infos"]:
    print(signer["sid"].native["serial_number"], signer["digest_algorithm"]["algorithm"].native)
