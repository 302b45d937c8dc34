"""What is linked into the binaries in addition to the project's own code: the crates of the kit, by packaging/components.json."""

import json
from typing import Dict, List, NamedTuple

from .crates import of_kit
from .project import TEMPLATES, TOP, Refused, Release

_COMPONENTS = json.loads((TEMPLATES / "components.json").read_text(encoding="utf-8"))
KIT: str = _COMPONENTS["kit"]
"""The line of the kit whose crates these are."""
LLVM: str = _COMPONENTS["llvm"]
"""The version of LLVM in that kit."""


class Crate(NamedTuple):
    """A crate of the kit: a port of a Rust crate."""

    port_of: str
    version: str
    """Of the Rust crate."""
    license: str
    """As an expression of SPDX."""
    copyright: List[str]
    uses: List[str]
    """The names of other crates of the kit."""


CRATES: Dict[str, Crate] = {name: Crate(**it) for name, it in _COMPONENTS["crates"].items()}


def linked_crates(release: Release) -> List[str]:
    """Returns the crates of the kit that the released crates name in crates.txt. Raises Refused if one is not in components.json."""
    named = of_kit(release.values["crates"].split())
    for name in sorted(named - {*CRATES}):
        raise Refused(f"packaging/components.json does not have the crate {name}, which crates.txt names: run scripts/components")
    return sorted(named)


def notices_of_crates() -> str:
    """Returns the licences and the copyrights of the crates of the kit."""
    text = "The command and the libraries have code of these crates, which are ports of Rust crates:\n"
    for name, crate in CRATES.items():
        text += f"\n{name}: a port of {crate.port_of} {crate.version}, {crate.license}\n"
        text += "".join(f"  {line}\n" for line in crate.copyright)
    return f"{text}\nEach is used under the MIT license.\n"


def third_parties() -> bytes:
    """Returns the notices of the crates of the kit, and the text of the licence that they are used under."""
    mit = (TOP / "LICENSE-MIT").read_text(encoding="ascii").partition("\n\n")[2].partition("\n\n")[2]
    return f"{notices_of_crates()}\n{mit}".encode()
