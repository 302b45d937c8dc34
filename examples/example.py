"""Converts the message in the first file named to DER, and writes it to the second."""

import sys
from pathlib import Path

import cms_canon

der = cms_canon.convert(Path(sys.argv[1]).read_bytes())
Path(sys.argv[2]).write_bytes(der)
