"""What repeats tables of other files: the kinds of fields and of changes of bindings/c/cms_canon.h, and the names that object identifiers have in
listings."""

import json
import re
import sys
from pathlib import Path
from typing import Dict, Iterator, List, NamedTuple

TOP = Path(__file__).resolve().parent.parent
HEADER = "bindings/c/cms_canon.h"
NAMES = "crates/cms_scalars/src/names.rt"
OBJECT_IDENTIFIERS = "crates/cms_scalars/src/object_identifiers.rt"

KIND = re.compile(r"    CMS_CANON_KIND_([A-Z_]+) = (0x[0-9a-f]{2}),? +/\* (.*) \*/")
CHANGE_KIND, SET = "enum cms_canon_change_kind", "enum cms_canon_set"
NUMBERED = re.compile(r"    CMS_CANON_([A-Z_]+) = ([0-9]+),?(?: +/\*.*)?")
NAMED = re.compile(r"octets: (\w+),\s+name: \"(.*)\",")
OBJECT_IDENTIFIER = re.compile(r"pub const (\w+): &\[u8\] = b\"((?:\\x[0-9a-f]{2})+)\";")


class Kind(NamedTuple):
    name: str
    number: str
    meaning: str


def kinds() -> List[Kind]:
    """Returns the kinds in the order of the header."""
    enum = (TOP / HEADER).read_text().partition("enum cms_canon_kind {\n")[2].partition("\n};")[0]
    lines = [line for line in enum.splitlines() if line]
    found = [KIND.fullmatch(line) for line in lines]
    if not lines or None in found:
        sys.exit(f"{HEADER}: this is no kind: {lines[found.index(None)] if lines else 'nothing'}")
    return [Kind(*it.groups()) for it in found if it]


def numbered(enum: str) -> List[str]:
    """Returns the names of an enum of the header in the order of their numbers, which are 1, 2 and so on."""
    lines = (TOP / HEADER).read_text().partition(f"{enum} {{\n")[2].partition("\n};")[0].splitlines()
    found = [it for it in map(NUMBERED.fullmatch, lines) if it]
    if not found or [int(it[2]) for it in found] != list(range(1, len(found) + 1)) or len(found) != "".join(lines).count(" = "):
        sys.exit(f"{HEADER}: {enum} is not understood")
    return [it[1] for it in found]


def change_kinds() -> List[str]:
    """Returns what changes are called in listings."""
    return [it if it == "BOOLEAN" else it.lower().replace("_", " ") for it in numbered(CHANGE_KIND)]


def sets() -> List[str]:
    """Returns the names of sets as RFC 5652 has them."""
    words = [it.lower().split("_") for it in numbered(SET)]
    return [first + "".join(map(str.capitalize, others)) for first, *others in words]


def dotted(contents: bytes) -> str:
    """Returns the text of an OBJECT IDENTIFIER with these contents octets."""
    numbers = [0]
    for octet in contents:
        numbers[-1] = numbers[-1] << 7 | octet & 0x7F
        if octet < 0x80:
            numbers.append(0)
    first = min(numbers[0] // 40, 2)
    return ".".join(map(str, [first, numbers[0] - 40 * first, *numbers[1:-1]]))


def names() -> Dict[str, str]:
    """Returns the name of each object identifier that has one, in the order of the table."""
    identifiers = OBJECT_IDENTIFIER.findall((TOP / OBJECT_IDENTIFIERS).read_text())
    octets = {identifier: bytes.fromhex(digits.replace("\\x", "")) for identifier, digits in identifiers}
    table = (TOP / NAMES).read_text()
    found = {dotted(octets[identifier]): name for identifier, name in NAMED.findall(table)}
    if not found or len(found) != table.count("name: \""):
        sys.exit(f"{NAMES}: the table is not understood")
    return found


def python_kinds() -> Iterator[str]:
    yield f'"""The kinds of fields of {HEADER}, `enum cms_canon_kind`. scripts/generate writes this file."""'
    for kind in kinds():
        yield f"{kind.name} = {kind.number}  # {kind.meaning}"


def python_names() -> Iterator[str]:
    yield f'"""The names of object identifiers of {NAMES}. scripts/generate writes this file."""'
    yield "NAMES = {"
    yield from (f'    "{oid}": "{name}",' for oid, name in names().items())
    yield "}"


def python_changes() -> Iterator[str]:
    yield f'"""What changes and sets are called, by their numbers in {HEADER}. scripts/generate writes this file."""'
    for name, texts in (("KINDS", change_kinds()), ("SETS", sets())):
        yield f"{name} = ("
        yield "    None,"
        yield from (f'    "{it}",' for it in texts)
        yield ")"


def rust_changes() -> Iterator[str]:
    yield f"//! What changes and sets are called, by their numbers in `{HEADER}` from 1 on. `scripts/generate` writes this file."
    for number, (name, texts) in enumerate((("KINDS", change_kinds()), ("SETS", sets()))):
        if number:
            yield ""
        yield "#[rustfmt::skip]"
        yield f"pub(crate) const {name}: [&str; {len(texts)}] = ["
        yield from (f'    "{it}",' for it in texts)
        yield "];"


def java_changes() -> Iterator[str]:
    yield "package cmscanon;"
    yield "import java.util.List;"
    yield ""
    yield f"/** What changes and sets are called, by their numbers in `{HEADER}`. `scripts/generate` writes this file. */"
    yield "final class ChangeNames {"
    for name, texts in (("KINDS", change_kinds()), ("SETS", sets())):
        yield f"    static final List<String> {name} = List.of("
        yield ",\n".join(f'            "{it}"' for it in ("", *texts)) + ");"
        yield ""
    yield "    private ChangeNames() {}"
    yield "}"


def script_changes() -> Iterator[str]:
    yield f"// What changes and sets are called, by their numbers in {HEADER}. scripts/generate writes this file."
    for name, texts in (("KINDS", change_kinds()), ("SETS", sets())):
        yield f"export const {name} = [null, {', '.join(map(json.dumps, texts))}];"


def java_kinds() -> Iterator[str]:
    yield "package cmscanon;"
    yield f"/** The kinds of fields of `{HEADER}`. `scripts/generate` writes this file. */"
    yield "final class Kind {"
    yield "    private Kind() {}"
    for kind in kinds():
        yield ""
        yield f"    /** {kind.meaning}. */"
        yield f"    static final int {kind.name} = {kind.number};"
    yield "}"


def rust_kinds() -> Iterator[str]:
    yield f"//! The kinds of fields of `{HEADER}`. `scripts/generate` writes this file."
    for number, kind in enumerate(kinds()):
        if number > 0:
            yield ""
        yield f"/// {kind.meaning}."
        yield f"pub(crate) const {kind.name}: u32 = {kind.number};"


def rust_names() -> Iterator[str]:
    yield f"//! The names of object identifiers of `{NAMES}`. `scripts/generate` writes this file."
    yield f"pub(crate) const NAMES: [(&str, &str); {len(names())}] = ["
    yield from (f'    ("{oid}", "{name}"),' for oid, name in names().items())
    yield "];"


def java_names() -> Iterator[str]:
    yield "package cmscanon;"
    yield "import java.util.Map;"
    yield ""
    yield f"/** The names of object identifiers of `{NAMES}`. `scripts/generate` writes this file. */"
    yield "final class Names {"
    yield "    private Names() {}"
    yield ""
    yield "    /** The object identifiers by their names. */"
    yield "    static final Map<String, String> OF = Map.ofEntries("
    yield ",\n".join(f'            Map.entry("{name}", "{oid}")' for oid, name in names().items()) + ");"
    yield "}"


def script_kinds() -> Iterator[str]:
    yield f"// The kinds of fields of {HEADER}, `enum cms_canon_kind`. scripts/generate writes this file."
    for kind in kinds():
        yield f"/** {kind.meaning}. */"
        yield f"export const {kind.name} = {kind.number};"


def script_names() -> Iterator[str]:
    yield f"// The names of object identifiers of {NAMES}. scripts/generate writes this file."
    yield "export const NAMES = new Map(["
    yield from (f'    ["{oid}", "{name}"],' for oid, name in names().items())
    yield "]);"


# Each file that is written, and what gives its lines. An empty line comes after the first.
FILES = {
    "bindings/python/cms_canon/_change_names.py": python_changes,
    "bindings/java/src/cmscanon/ChangeNames.java": java_changes,
    "bindings/rust/src/change_names.rs": rust_changes,
    "web/changes.mjs": script_changes,
    "bindings/python/cms_canon/_kinds.py": python_kinds,
    "bindings/python/cms_canon/_names.py": python_names,
    "bindings/java/src/cmscanon/Kind.java": java_kinds,
    "bindings/java/src/cmscanon/Names.java": java_names,
    "bindings/rust/src/kinds.rs": rust_kinds,
    "bindings/rust/src/names.rs": rust_names,
    "web/kinds.mjs": script_kinds,
    "web/names.mjs": script_names,
}


def text_of(lines: Iterator[str]) -> str:
    first, *others = lines
    return "\n".join([first, "", *others, ""])


def files() -> Dict[str, str]:
    """Returns the texts of the files, by their names."""
    return {name: text_of(lines()) for name, lines in FILES.items()}
