"""Checks that the packages for Python have the types that they say: mypy finds nothing in them, and finds what is wrong on purpose.

They are `cms_canon` and `cms_canon_archive`, checked as strictly as mypy can. tests/data/mypy.ini says which packages of others have no types.
"""

import subprocess
import sys
import tomllib
from pathlib import Path

import pytest
from needs import needs
from programs import TOP

PACKAGES = {"cms_canon": "bindings/python/", "cms_canon_archive": "archive/"}
CACHE = TOP / "out" / "mypy"
DEBIAN_PYTHON = Path("/usr/bin/python3")  # for which Debian's packages are, whose types count too
PYTHON = DEBIAN_PYTHON if DEBIAN_PYTHON.exists() else Path(sys.executable)
USED = tomllib.loads((TOP / "tests" / "data" / "packages.toml").read_text())["modules"]
WRONG = "import cms_canon\n\n\ndef wrong(message: bytes) -> int:\n    return cms_canon.convert(message)\n"


def not_installed():
    """Returns the packages that ours import and that are not there for this Python."""
    script = "import importlib.util, sys; print(*(it for it in sys.argv[1:] if importlib.util.find_spec(it) is None))"
    return subprocess.run([PYTHON, "-c", script, *USED], capture_output=True, text=True, check=True).stdout.split()


def complaints(*words):
    """Returns the lines that mypy says of errors, or why it does not check."""
    how = ("--strict", "--config-file", "tests/data/mypy.ini", "--cache-dir", CACHE, "--python-executable", PYTHON)
    ended = subprocess.run(["mypy", *map(str, (*how, *words))], cwd=TOP, capture_output=True, text=True)
    lines = [line for line in ended.stdout.splitlines() if ": error: " in line]
    return lines or ([] if ended.returncode == 0 else [f"status {ended.returncode}: {(ended.stdout + ended.stderr)[-500:]}"])


@pytest.mark.tree
@needs("mypy")
def test_types(tally, tmp_path):
    if missing := not_installed():
        pytest.skip(f"{', '.join(missing)} not installed for {PYTHON}")
    found = complaints(*(word for package in PACKAGES for word in ("-p", package)))
    for package, folder in PACKAGES.items():
        tally.count(f"types of {package}", "".join(f"\n  {line}" for line in found if line.startswith(folder)))
    tally.count("what mypy says of all else", "".join(f"\n  {line}" for line in found if not line.startswith((*PACKAGES.values(),))))
    (tmp_path / "wrong.py").write_text(WRONG, encoding="ascii")
    found = complaints(tmp_path / "wrong.py")
    is_found = len(found) == 1 and found[0].endswith(':5: error: Incompatible return value type (got "bytes", expected "int")  [return-value]')
    tally.count("a wrong type", "" if is_found else str(found))
