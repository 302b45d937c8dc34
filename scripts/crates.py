"""The tables of docs/ARCHITECTURE.md on crates: what each is, by the first sentence of its src/lib.rt or main.rt, and the modules of proofs that crates
above it may cite, by the first sentence of each."""

import re
from pathlib import Path
from typing import Dict, Iterator, List

from texts import head, row

TOP = Path(__file__).resolve().parent.parent
PAGE = "docs/ARCHITECTURE.md"
CRATES = re.compile(r"<!-- crates -->\n.*?<!-- the end of crates -->", re.S)
PROOFS = re.compile(r"<!-- proofs -->\n.*?<!-- the end of proofs -->", re.S)


def names() -> List[str]:
    """Returns the names of the crates in the order of crates.txt."""
    lines = (TOP / "crates.txt").read_text(encoding="utf-8").splitlines()
    return [re.split(r"[ :]", line)[0] for line in lines if line and not line.startswith("#")]


def first_sentence(file: Path, mark: str) -> str:
    """Returns the first sentence of the comment that a file begins with. Raises `SystemExit` if it begins with none."""
    comment: List[str] = []
    for line in file.read_text(encoding="utf-8").splitlines():
        if not line.startswith(mark):
            break
        comment.append(line.removeprefix(mark).strip())
    if not comment:
        raise SystemExit(f"{file.relative_to(TOP)}: it does not say what it is")
    return re.split(r"(?<=[.])\s", " ".join(comment))[0].rstrip(".")


def table_of_crates() -> Iterator[str]:
    yield from head("crate", "what it is")
    for crate in names():
        sources = TOP / "crates" / crate / "src"
        file = next(it for it in (sources / "lib.rt", sources / "main.rt") if it.exists())
        yield row(f"`{crate}`", first_sentence(file, "//!"))


def table_of_proofs() -> Iterator[str]:
    yield from head("crate", "module", "its laws")
    for crate in names():
        proofs = TOP / "crates" / crate / "proofs"
        if not (proofs / "Lib.antt").exists():
            continue
        for module in re.findall(r"^pub mod (\w+)", (proofs / "Lib.antt").read_text(encoding="utf-8"), re.M):
            yield row(f"`{crate}`", f"`{module}`", first_sentence(proofs / f"{module}.antt", "--"))


def files() -> Dict[str, str]:
    """Returns the text of the page, by its name."""
    page = (TOP / PAGE).read_text(encoding="utf-8")
    page = CRATES.sub(lambda _: "<!-- crates -->\n\n" + "\n".join(table_of_crates()) + "\n\n<!-- the end of crates -->", page)
    return {PAGE: PROOFS.sub(lambda _: "<!-- proofs -->\n\n" + "\n".join(table_of_proofs()) + "\n\n<!-- the end of proofs -->", page)}
