"""What repeats the calls of bindings/c/cms_canon.h: as Python, Java and Rust declare them, as Debian names them, and as docs/USING.md lists them; and the
release, as the header and the library have it. The call that returns it is not declared for the other languages, which have it from their packages."""

import re
import sys
import textwrap
from pathlib import Path
from typing import Dict, Iterator, List, NamedTuple, Tuple

from texts import Region, filled

TOP = Path(__file__).resolve().parent.parent
HEADER = "bindings/c/cms_canon.h"
PYTHON = "bindings/python/cms_canon/_prototypes.py"
JAVA = "bindings/java/src/cmscanon/Library.java"
RUST = "bindings/rust/src/ffi.rs"
SYMBOLS = "packaging/debian/libcms-canon1.symbols"
USING = "docs/USING.md"
VERSION = "crates/cms_cli/src/task.rt"
NUMBER = "crates/cms_c/src/version.rt"

CALL = re.compile(r"^(void|uint32_t) (cms_canon_\w+)\(([^()]*)\);", re.M)
MARKED = re.compile(r"( *)// The calls of the header: scripts/generate writes these\.\n.*?// The end of the calls\.\n", re.S)
WIDTH = 128

JAVA_AND_RUST = {  # each type of the header, as it is declared there
    "bool": ("byte", "bool"),
    "size_t": ("long", "usize"),
    "uint32_t": ("int", "u32"),
    "uint64_t": ("long", "u64"),
    "const uint8_t *": ("byte[]", "*const u8"),
    "uint8_t *": ("byte[]", "*mut u8"),
    "const uint64_t *": ("long[]", "*const u64"),
    "struct cms_canon_outcome *": ("long[]", "*mut Outcome"),
    "struct cms_canon_many *": ("long[]", "*mut ManyOutcome"),
    "struct cms_canon_extent *": ("long[]", "*mut u64"),
    "struct cms_canon_finding *": ("long[]", "*mut Finding"),
    "struct cms_canon_digest_asked *": ("int[]", "*mut DigestAsked"),
    "const struct cms_canon_digest *": ("int[]", "*const Digest"),
    "struct cms_canon_row *": ("long[]", "*mut Row"),
    "struct cms_canon_piece *": ("long[]", "*mut u64"),
    "struct cms_canon_change *": ("long[]", "*mut u64"),
}


class Call(NamedTuple):
    """A call: its name, the type and the name of each argument, and the type of what it returns."""

    name: str
    arguments: List[Tuple[str, str]]
    returns: str


def calls() -> List[Call]:
    """Returns the calls in the order of the header. Raises `SystemExit` if an argument is not understood."""
    found = []
    for returns, name, words in CALL.findall((TOP / HEADER).read_text()):
        arguments = [re.fullmatch(r"(.*?)(\w+)", " ".join(it.split())) for it in words.split(",") if it != "void"]
        typed = [(it[1].strip(), it[2]) for it in arguments if it]
        if len(typed) < len(arguments) or any(it not in JAVA_AND_RUST for it, _ in typed):
            sys.exit(f"{HEADER}: the arguments of {name} are not understood")
        found.append(Call(name, typed, returns))
    return found


def called() -> List[Call]:
    """Returns the calls that have an outcome: all but that which returns the release."""
    return [it for it in calls() if it.returns == "void"]


def version() -> str:
    """Returns the release that the sources are of."""
    return re.search(r'"(\d+\.\d+\.\d+)"', (TOP / VERSION).read_text())[1]


def version_number() -> int:
    """Returns the release as one number, as 203 for 0.2.3."""
    first, second, third = map(int, version().split("."))
    if second > 99 or third > 99:
        sys.exit(f"{VERSION}: the numbers of {version()} are too large to be one number")
    return 10_000 * first + 100 * second + third


def version_in_c() -> Iterator[str]:
    yield "/* The release of this header. */"
    yield f'#define CMS_CANON_VERSION "{version()}"'
    yield "/* The same as one number: 10,000 times the first number, plus 100 times the second, plus the third. */"
    yield f"#define CMS_CANON_VERSION_NUMBER {version_number()}"


def header() -> str:
    region = Region(HEADER, f"/* The version: scripts/generate writes this from {VERSION} */", "/* the end of the version */", version_in_c)
    return filled((TOP / HEADER).read_text(), region)


def number() -> str:
    """Returns the text of the code that returns the release, with its number."""
    text, count = re.subn(r"(result ≡ |NUMBER: u32 = )\d+\b", rf"\g<1>{version_number()}", (TOP / NUMBER).read_text())
    if count != 2:
        sys.exit(f"{NUMBER} does not have the number twice")
    return text


def python() -> Iterator[str]:
    yield f'"""The calls of {HEADER}, with the types of their arguments there. scripts/generate writes this file."""'
    yield ""
    yield "PROTOTYPES = {"
    for call in called():
        yield f'    "{call.name}": ('
        yield from (f'        "{kind}",  # {name}' for kind, name in call.arguments)
        yield "    ),"
    yield "}"


def in_words(name: str) -> str:
    """Returns a name as Java has it, such as `inputLength`."""
    first, *others = name.split("_")
    return first + "".join(it.capitalize() for it in others)


def wrapped(arguments: List[str], indent: str) -> List[str]:
    glued = [it.replace(" ", "\0") for it in arguments]  # an argument is not cut at its blanks
    lines = textwrap.wrap(" ".join(f"{it}," for it in glued), WIDTH, initial_indent=indent, subsequent_indent=indent)
    return [it.replace("\0", " ") for it in lines]


def java(indent: str) -> Iterator[str]:
    for number, call in enumerate(called()):
        if number > 0:
            yield ""
        yield f"{indent}static native void {call.name}("
        *lines, last = wrapped([f"{JAVA_AND_RUST[kind][0]} {in_words(name)}" for kind, name in call.arguments], indent + " " * 8)
        yield from lines
        yield last.rstrip(",") + ");"


def rust(indent: str) -> Iterator[str]:
    for call in called():
        yield f"{indent}fn {call.name}("
        yield from wrapped([f"{name}: {JAVA_AND_RUST[kind][1]}" for kind, name in call.arguments], indent + " " * 4)
        yield f"{indent});"


def marked(name: str, lines_of) -> str:
    """Returns the text of a file with the calls between its marks."""
    text = (TOP / name).read_text()
    found = MARKED.search(text)
    if found is None:
        sys.exit(f"{name} has no marks for the calls")
    indent = found[1]
    lines = "\n".join(lines_of(indent))
    body = f"{indent}// The calls of the header: scripts/generate writes these.\n{lines}\n{indent}// The end of the calls.\n"
    return text[: found.start()] + body + text[found.end() :]


def symbols() -> str:
    """Returns the names for Debian. What is there keeps the version with which it came; a new call comes with the version of now."""
    text = (TOP / SYMBOLS).read_text()
    head, known = re.match(r"(?:[^ ].*\n)*", text)[0], dict(re.findall(r"^ (\w+)@Base (\S+)$", text, re.M))
    names = {it.name for it in calls()}
    if gone := sorted(known.keys() - names):
        sys.exit(f"{SYMBOLS}: {gone[0]} was released, and is not in {HEADER}")
    return head + "".join(f" {name}@Base {known.get(name, version())}\n" for name in sorted(names))


def listed() -> str:
    """Returns the text of docs/USING.md with the calls in its row for C."""
    *others, last = [f"`{it.name}`" for it in called()]
    text, count = re.subn(r"^\| C \| .*? over octets", f"| C | {', '.join(others)} and {last} over octets", (TOP / USING).read_text(), flags=re.M)
    if count != 1:
        sys.exit(f"{USING} has no row for the calls for C")
    return text


def files() -> Dict[str, str]:
    """Returns the texts of the files, by their names."""
    bindings = {PYTHON: "\n".join([*python(), ""]), JAVA: marked(JAVA, java), RUST: marked(RUST, rust)}
    return {**bindings, SYMBOLS: symbols(), USING: listed(), HEADER: header(), NUMBER: number()}
