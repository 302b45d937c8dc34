"""The package for Node and browsers, and the page with the library in it, of the WebAssembly module and of web/.

The scripts of the page are joined by esbuild, whose version is in TOOLS. Its policy allows its script by a hash, and lets nothing be fetched. The package is a tar as npm packs one, and depends on nothing.
"""

import base64
import hashlib
import json
from pathlib import Path
from typing import Dict, List

from .components import third_parties
from .files import File, tar_gz
from .project import LICENSE, LICENSE_FILES, PROJECT, TOP, Refused, Release, homepage
from .tools import run

WEB = TOP / "web"
MODULE = "cms_canon.wasm"
PAGE = "cms-canon.html"
IN_PACKAGE = ("README.md", "changes.mjs", "cms_canon.d.mts", "cms_canon.mjs")
BROWSERS = "chrome87,firefox79,safari15"  # which have what the module needs: whole numbers of 64 bits in calls, and memory that is copied at once
JOINED = ("--bundle", "--charset=utf8", "--minify", f"--target={BROWSERS}", "--external:node:*", "--log-level=error", "--legal-comments=none")
DESCRIPTION = {
    "name": "cms-canon",
    "description": "The one DER encoding of CMS signed messages and of time-stamps, and what their signatures cover",
    "keywords": ["cms", "pkcs7", "der", "asn1", "timestamp", "signature"],
    "license": LICENSE,
    "type": "module",
    "exports": {".": {"types": "./cms_canon.d.mts", "default": "./cms_canon.mjs"}, "./cms_canon.wasm": "./cms_canon.wasm"},
    "engines": {"node": ">=18"},
}


def module_in(folder: Path, release: Release) -> bytes:
    """Returns the module. Raises Refused if it is missing, altered, or made of other sources than the release."""
    try:
        octets, lines = (folder / MODULE).read_bytes(), (folder / "MANIFEST").read_text(encoding="ascii").splitlines()
    except OSError as error:
        raise Refused(f"{error.filename} cannot be read: {error.strerror}") from None
    except UnicodeDecodeError:
        raise Refused(f"{folder / 'MANIFEST'} is no text in ASCII") from None
    if f"{hashlib.sha256(octets).hexdigest()}  {MODULE}" not in lines:
        raise Refused(f"the SHA-256 sum of {folder / MODULE} is not the one in its MANIFEST")
    for name in ("version", "kit", "sources"):
        if f"{name}: {release.values.get(name)}" not in lines:
            raise Refused(f"the MANIFESTs below {folder.parent} differ in the line `{name}:`")
    return octets


def npm(release: Release, module: bytes) -> Dict[str, bytes]:
    """Returns the octets of the package by its name."""
    url = {"homepage": homepage()} if homepage() else {}
    said = {**DESCRIPTION, "version": release.version, "author": PROJECT["authors"], **url}
    files = [
        File("package.json", (json.dumps(said, indent=2) + "\n").encode()),
        File(MODULE, module),
        File("THIRD-PARTIES", third_parties()),
        *(File(name, (WEB / name).read_bytes()) for name in IN_PACKAGE),
        *(File(name, (TOP / name).read_bytes()) for name in LICENSE_FILES),
    ]
    below = sorted(it._replace(name=f"package/{it.name}") for it in files)
    return {f"cms-canon-{release.version}.tgz": tar_gz(below, release.epoch)}


def hash_of(text: str) -> str:
    """Returns the word that allows an inline script or style (Content Security Policy Level 3, section 2.3.1)."""
    return f"sha256-{base64.b64encode(hashlib.sha256(text.encode()).digest()).decode()}"


def joined(name: str, form: str, epoch: int) -> str:
    """Returns a script with all that it imports."""
    return run(["esbuild", WEB / name, *JOINED, f"--format={form}"], epoch)


def page(release: Release, module: bytes) -> bytes:
    """Returns the page."""
    script = joined("page.mjs", "esm", release.epoch).rstrip("\n")
    if "</script" in script:
        raise Refused("web/page.mjs would end the element that it is in")
    style = (WEB / "page.css").read_text(encoding="utf-8")
    parts = {
        "STYLE": style,
        "STYLE_HASH": hash_of(style),
        "PAGE": script,
        "PAGE_HASH": hash_of(script),
        "WORKER": json.dumps(joined("worker.mjs", "iife", release.epoch), ensure_ascii=False).replace("<", "\\u003c"),
        "MODULE": base64.b64encode(module).decode(),
        "VERSION": release.version,
    }
    pieces: List[str] = (WEB / "page.html.in").read_text(encoding="utf-8").split("@")
    return "".join(parts[it] if number % 2 else it for number, it in enumerate(pieces)).encode()
