"""The hooks that pip calls (PEP 517) for `pip install ./archive`: they make the wheel that `scripts/release` also makes. Why there are such hooks,
bindings/python/wheel_of_release.py says.
"""

import sys
from functools import partial
from pathlib import Path

sys.path.insert(0, str(Path(__file__).resolve().parents[1] / "packaging"))

from packages import python  # noqa: E402

build_wheel = partial(python.build_wheel, python.ARCHIVE)
build_sdist = python.build_sdist
