"""The crates of this repository, and which of them each depends on, as crates.txt has them."""

import re
from pathlib import Path
from typing import Dict, Iterable, List, Set

FILE = Path(__file__).resolve().parent.parent.parent / "crates.txt"


def crates_in(file: Path = FILE) -> Dict[str, List[str]]:
    """Returns the names of the crates that each crate names, of this repository and of the kit."""
    lines = re.findall(r"^(\w+)(?: [^:]*)?:([^#\n]*)", file.read_text(encoding="ascii"), re.M)
    return {name: below.split() for name, below in lines}


def of_kit(names: Iterable[str]) -> Set[str]:
    """Returns the crates of the kit that these crates, and those of this repository below them, name."""
    crates = crates_in()
    found: Set[str] = set()
    waiting = {*names}
    while waiting:
        found |= waiting
        waiting = {it for name in waiting for it in crates.get(name, ())} - found
    return found - {*crates}
