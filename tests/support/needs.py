"""Marks of tests that need what may not be installed."""

import shutil
from pathlib import Path

import pytest


def needs(*tools):
    """Marks a test that is skipped if one of these programs or files is missing."""
    missing = [it for it in tools if not (shutil.which(it) or Path(it).is_file())]
    return pytest.mark.skipif(bool(missing), reason=f"{', '.join(missing)} not installed")
