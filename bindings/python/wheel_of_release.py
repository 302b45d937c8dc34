"""The hooks that pip calls (PEP 517) for `pip install bindings/python`: they make the wheel that `scripts/release` also makes, of the Python files
here and of the library of the release in dist/, and need the standard library alone.

A hook of its own, and not setuptools: pip builds in a folder in which the system's setuptools cannot be imported, and fetches it from the
network.
"""

import sys
from functools import partial
from pathlib import Path

sys.path.insert(0, str(Path(__file__).resolve().parents[2] / "packaging"))

from packages import python  # noqa: E402

build_wheel = partial(python.build_wheel, python.BINDING)
build_sdist = python.build_sdist
