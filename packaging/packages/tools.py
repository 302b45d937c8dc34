"""The tools that packages are made with, and their versions: other versions of them may make other octets."""

import ctypes
import os
import re
import subprocess
import zlib
from pathlib import Path
from typing import Dict, Optional, Sequence

from .project import MissingTool, Refused

JNA = Path(os.environ.get("CMS_CANON_JNA", "/usr/share/java/jna.jar"))
PACKAGE_OF = {  # the package of Debian that has each tool
    "dpkg-deb": "dpkg",
    "javac": "openjdk-17-jdk-headless",
    "javadoc": "openjdk-17-jdk-headless",
    "cargo": "cargo, or rustup for Rust 1.73 or later",
    "esbuild": "esbuild",
}
_KEPT = ("PATH", "HOME", "CARGO_HOME", "RUSTUP_HOME", "RUSTUP_TOOLCHAIN", "TMPDIR", "JAVA_HOME")
_VERSION = {"dpkg-deb": r"version (\S+)", "javac": r"javac (\S+)", "javadoc": r"javadoc (\S+)", "cargo": r"cargo (.+)", "esbuild": r"(\S+)"}


def run(words: Sequence, epoch: int, folder: Optional[Path] = None) -> str:
    """Runs a tool in the environment that all machines have, and returns what it prints.

    Raises MissingTool if it is not installed, and Refused if it fails.
    """
    environment = {name: value for name, value in os.environ.items() if name in _KEPT}
    environment.update(LC_ALL="C.UTF-8", TZ="UTC", SOURCE_DATE_EPOCH=str(epoch))
    tool = str(words[0])
    try:
        ended = subprocess.run(
            [str(it) for it in words], cwd=folder, env=environment, stdin=subprocess.DEVNULL, stdout=subprocess.PIPE,
            stderr=subprocess.PIPE, encoding="utf-8", errors="replace", check=False,
        )
    except FileNotFoundError:
        raise MissingTool(f"{tool} is missing: apt-get install {PACKAGE_OF.get(tool, tool)}") from None
    if ended.returncode != 0:
        raise Refused(f"{tool} failed with status {ended.returncode}:\n{(ended.stdout + ended.stderr).strip()}")
    return ended.stdout + ended.stderr


def versions(epoch: int) -> Dict[str, str]:
    """Returns the version of each tool. Raises MissingTool if one is not installed."""
    if not JNA.is_file():
        raise MissingTool(f"{JNA} is missing: apt-get install libjna-java, or name a jar of JNA by CMS_CANON_JNA")
    found = {}
    for tool, pattern in _VERSION.items():
        said = run([tool, "--version"], epoch)
        found[tool] = said_version[1] if (said_version := re.search(pattern, said)) else said.strip()
    found["liblzma"] = _version_of_liblzma()
    found["zlib"] = zlib.ZLIB_RUNTIME_VERSION
    return dict(sorted(found.items()))


def _version_of_liblzma() -> str:
    """Returns the version of the library by which dpkg-deb compresses."""
    try:
        library = ctypes.CDLL("liblzma.so.5")
    except OSError:
        raise MissingTool("liblzma.so.5 is missing: apt-get install liblzma5") from None
    library.lzma_version_string.restype = ctypes.c_char_p
    return library.lzma_version_string().decode()
