"""The places of the archive and of its parts, a copy of its packages as they are installed, and folders that go at the end."""

import os
import shutil
import tempfile
from contextlib import contextmanager
from pathlib import Path

ARCHIVE = Path(__file__).resolve().parents[2]
TOP = ARCHIVE.parent
DATA = ARCHIVE / "tests" / "data"
RELEASE = TOP / "dist" / "x86_64-linux"
PACKAGES = (TOP / "bindings" / "python" / "cms_canon", ARCHIVE / "cms_canon_archive")
copy = None  # the copy that the tests of a process share, set while they run


def copy_packages(home):
    """Copies the packages into a folder, with the library of the release."""
    for package in PACKAGES:
        shutil.copytree(package, home / package.name)
    shutil.copy(RELEASE / "libcms_canon.so", home / "cms_canon")


@contextmanager
def temporary_home():
    """Lends a folder that other users may enter, and drops it."""
    with tempfile.TemporaryDirectory(prefix="archive-") as folder:
        os.chmod(folder, 0o755)
        yield Path(folder)
