"""The ASN.1 of the records in docs/FORMATS.md, from the comments above their definitions in specs/.

A comment begins with the name of a record and `::=`; what follows the ASN.1 in it is left out. A mark in the page has the names of the records in the
order in which they are read.
"""

import re
from pathlib import Path
from typing import Dict, Iterator, List

TOP = Path(__file__).resolve().parent.parent
PAGE = "docs/FORMATS.md"
MARK = re.compile(r"<!-- records\n([\w\s]+)-->\n.*?<!-- the end of records -->", re.S)
WIDTH = 136  # columns of a record that is on one line


def comments() -> Iterator[str]:
    """Yields each comment of two dashes that is above a definition of a record, as one line."""
    for file in sorted(TOP.glob("crates/cms_*/specs/*.antt")):
        for block in re.findall(r"(?:^ *--(?!-).*\n)+", file.read_text(encoding="utf-8"), re.M):
            yield " ".join(" ".join(line.strip().removeprefix("--") for line in block.splitlines()).split())


def asn1_at(text: str) -> str:
    """Returns the ASN.1 that a text begins with: to the brace that closes it or, if it has none, to its first semicolon."""
    before, brace, _ = text.partition("{")
    if not brace or ";" in before:
        return text.partition(";")[0].strip()
    depth = 0
    for at, character in enumerate(text):
        depth += {"{": 1, "}": -1}.get(character, 0)
        if character == "}" and depth == 0:
            return text[: at + 1]
    raise SystemExit(f"{PAGE}: this ASN.1 does not end: {text}")


def records() -> Dict[str, str]:
    found: Dict[str, str] = {}
    for comment in comments():
        for part in re.finditer(r"\b(\w+) ::= ", comment):
            found.setdefault(part[1], asn1_at(comment[part.start() :]))
    return found


def lines_of(asn1: str) -> List[str]:
    """Returns a record on one line, or on one for each of its fields if it is long."""
    if len(asn1) <= WIDTH:
        return [asn1]
    head, _, fields = asn1.removesuffix("}").partition("{")
    parts = fields.split(",")
    return [f"{head}{{", *(f"    {it.strip()}{',' if it is not parts[-1] else ' }'}" for it in parts)]


def block_of(mark: "re.Match[str]") -> str:
    known = records()
    if missing := [it for it in mark[1].split() if it not in known]:
        raise SystemExit(f"{PAGE}: no definition has the ASN.1 of {', '.join(missing)} above it")
    lines = [f"    {line}" for name in mark[1].split() for line in lines_of(known[name])]
    return f"<!-- records\n{mark[1]}-->\n\n" + "\n".join(lines) + "\n\n<!-- the end of records -->"


def files() -> Dict[str, str]:
    """Returns the text of the page, by its name. Raises `SystemExit` if a record of a mark has no ASN.1."""
    return {PAGE: MARK.sub(block_of, (TOP / PAGE).read_text(encoding="utf-8"))}
