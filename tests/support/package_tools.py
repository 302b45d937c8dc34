"""What the tests of packages share: what is released, and how packages are made."""

import os
import re
import shutil
import sys
import tomllib
from datetime import datetime
from pathlib import Path

from machines import ended
from packages.crates import of_kit

TOP = Path(__file__).resolve().parents[2]
DIST = TOP / "dist"
BINARIES = DIST / "x86_64-linux"  # of this machine
PACKAGES = DIST / "packages"
FIX = "run scripts/release --packages and commit dist/"
# What packages are made of, beside the binaries.
PARTS = ("CHANGELOG.md", "LICENSE-APACHE", "LICENSE-MIT", "README.md", "archive", "bindings", "crates.txt", "docs", "examples", "packaging", "scripts", "web")
VERSION = re.search(r"^version: (.*)$", (BINARIES / "MANIFEST").read_text(encoding="ascii"), re.M)[1]
CHANGELOG = (TOP / "CHANGELOG.md").read_text(encoding="utf-8")
DATED = re.search(rf"^## {re.escape(VERSION)} - (.*)$", CHANGELOG, re.M)
DATE = datetime.fromisoformat(f"{DATED[1] if DATED else '1970-01-01'}T00:00:00+00:00")


def expected_for(target):
    """Returns what is expected of the packages for a target."""
    text = (TOP / "tests" / "data" / "packages.toml").read_text(encoding="utf-8")
    places = {"VERSION": VERSION, "TARGET": target, **tomllib.loads(text)["targets"][target]}
    return tomllib.loads(re.sub("@([A-Z_]+)@", lambda it: places[it[1]], text))


NATIVE = "x86_64-linux"
READ = expected_for(NATIVE)
TARGETS = {target: expected_for(target) for target in READ["targets"]}
DEBIAN, WHEELS = READ["debian"], READ["wheels"]
# Each package for Debian and each wheel, for each target, by the name of its file.
EVERY_DEBIAN = {f"{name}_{VERSION}-1_{it['architecture']}.deb": (name, it) for target in TARGETS.values() for name, it in target["debian"].items()}
EVERY_WHEEL = {name: (target, wheel) for target, it in TARGETS.items() for name, wheel in it["wheels"].items()}
LIBRARIES, MODULES = "usr/lib/x86_64-linux-gnu", "usr/lib/python3/dist-packages"
LONG_AGO = 1_000_000_000  # seconds, in 2001
NO_TOOL = 69  # the status of scripts/package if a tool is missing


def told(done):
    """Returns how a command ended, for a reason."""
    return f"status {done.status}, {(done.output + done.error)[-600:]!r}"


def why_failed(done):
    return "" if done.status == 0 else told(done)


def copy_of_repository(folder):
    """Copies what packages are made of, with dates of long ago."""
    for target in (*TARGETS, "wasm32"):
        shutil.copytree(DIST / target, folder / "dist" / target)
    for part in PARTS:
        if (TOP / part).is_dir():
            shutil.copytree(TOP / part, folder / part, ignore=shutil.ignore_patterns("target", "__pycache__"))
        else:
            shutil.copy(TOP / part, folder / part)
    for path in folder.rglob("*"):
        os.utime(path, (LONG_AGO, LONG_AGO))
    return folder


def package(top, to, released=None, **how):
    """Makes packages as scripts/release does; `how` is for `ended`."""
    return ended([sys.executable, top / "scripts" / "package", released or top / "dist", to], **how)


def crates_of_kit():
    """Returns the crates that crates.txt names below the released ones, and does not define."""
    return of_kit(re.search(r"^crates: (.*)$", (BINARIES / "MANIFEST").read_text(encoding="ascii"), re.M)[1].split())
