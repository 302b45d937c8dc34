"""The manual pages of the library for C, in section 3, from the comments of bindings/c/cms_canon.h: cms_canon(3) with what is before and between the calls,
and a page for each call."""

import re
import textwrap
from pathlib import Path
from typing import Dict, Iterator, List, NamedTuple, Sequence

from calls import HEADER

TOP = Path(__file__).resolve().parent.parent
FOLDER = "docs/man"
WIDTH = 72  # of a prototype
SHORT = {  # what each call does, for `apropos`
    "cms_canon_version": "return the release of the library",
    "cms_canon_reason_text": "return what a refusal means",
    "cms_canon_convert": "write a CMS signed message in DER",
    "cms_canon_convert_many": "write CMS signed messages in DER, one after another",
    "cms_canon_extent": "find where a CMS signed message ends",
    "cms_canon_cover": "write the octets that a signature covers",
    "cms_canon_show": "list what is in a CMS signed message",
    "cms_canon_finding_text": "return the text of a finding",
    "cms_canon_check": "find which rules a CMS signed message breaks",
    "cms_canon_digests_asked": "say which digests a check needs",
    "cms_canon_check_digests": "find which rules a CMS signed message breaks, by digests",
    "cms_canon_same": "say whether two CMS signed messages are the same",
    "cms_canon_fields": "find where the fields of a CMS signed message are",
    "cms_canon_tst_info_fields": "find where the fields of a TSTInfo are",
    "cms_canon_pieces": "say of which pieces the DER of a message is put together",
    "cms_canon_changes": "find what conversion changes in a message",
    "cms_canon_list_changes": "list what conversion changes in a message",
}
COMMENT = r"/\*((?:(?!\*/).)*)\*/\n"
HEAD = re.compile(rf"\A{COMMENT}", re.S)
CALL = re.compile(rf"^{COMMENT}((?:void|uint32_t|static inline const char \*)\s?(cms_canon_\w+)\([^()]*\))[;\n]", re.S | re.M)
TYPE = re.compile(rf"^{COMMENT}((?:enum|struct) cms_canon_\w+) \{{\n(.*?)^\}};", re.S | re.M)
CONSTANT = re.compile(rf"^{COMMENT}#define (CMS_CANON_\w+) (\S+)\n", re.S | re.M)
MEMBER = re.compile(r"^    ((?:\w+ ){0,2}\w+(?:\[\d+\])?)(?: = (\w+))?[;,]? *(?:/\*((?:(?!\*/).)*)\*/)?$", re.S | re.M)


class Item(NamedTuple):
    """A name of the header, how it is declared, and the comment above."""

    name: str
    declared: str
    comment: str


def paragraphs(comment: str) -> Iterator[List[str]]:
    """Gives the paragraphs of a comment: the lines of each, without what is to the left of the text."""
    lines = [re.sub(r"^ ?\* ?", "", it).rstrip() for it in comment.strip("\n").split("\n")]
    for some in re.split(r"\n\n+", "\n".join(lines).strip("\n")):
        yield some.split("\n")


def in_page(text: str) -> str:
    """Returns a text with what is between backticks and the names of the header in bold, a sentence a line."""
    text = " ".join(text.split()).replace("\\", "\\e").replace("-", "\\-")
    text = re.sub(r"`([^`]*)`", r"\\fB\1\\fR", text)
    text = re.sub(r"(?<![\w`])((?:cms_canon|CMS_CANON)_[\w]+)", r"\\fB\1\\fR", text)
    return re.sub(r"(?<=[.:]) (?=[A-Z])", "\n", text)


def is_code(lines: Sequence[str]) -> bool:
    return all(it.startswith("    ") or not it for it in lines)


def is_table(lines: Sequence[str]) -> bool:
    return all(it.startswith("  ") for it in lines[1:]) and len(lines) > 1


def verbatim(lines: Sequence[str]) -> Iterator[str]:
    yield from (".PP", ".RS 4", ".nf")
    yield from (it.replace("\\", "\\e").replace("-", "\\-") for it in textwrap.dedent("\n".join(lines)).split("\n"))
    yield from (".fi", ".RE")


def rows_of(lines: Sequence[str]) -> Iterator[str]:
    """Gives a paragraph that ends with a table: lines of two columns, some of which go on."""
    yield from (".PP", in_page(lines[0]))
    for row in re.split(r"\n(?=  \S)", "\n".join(lines[1:])):
        head, text = row.split(maxsplit=1)
        yield from (".TP 10", f".B {head}", in_page(text))


def described(comment: str) -> Iterator[str]:
    """Gives the paragraphs of a comment as the page has them."""
    for lines in paragraphs(comment):
        if is_code(lines):
            yield from verbatim(lines)
        elif is_table(lines):
            yield from rows_of(lines)
        else:
            yield from (".PP", in_page(" ".join(lines)))


def title(name: str, short: str) -> Iterator[str]:
    yield '.\\" scripts/generate writes this from bindings/c/cms_canon.h.'
    yield from (f'.TH {name.upper()} 3 "" "cms-canon @VERSION@" "Library Functions Manual"', ".SH NAME", f"{name} \\- {short}", ".SH LIBRARY")
    yield "The library of cms\\-canon (\\fIlibcms_canon\\fR, \\fI\\-lcms_canon\\fR)"


def prototype(declared: str) -> Iterator[str]:
    """Gives a prototype in lines that are short enough, an argument never cut."""
    whole = re.sub(r"^static inline ", "", " ".join(declared.split()))
    head, arguments = whole.split("(", 1)
    glued = [it.strip().replace(" ", "\0") for it in arguments.rstrip(")").split(",")]
    lines = textwrap.wrap(f"{head.replace(' ', chr(0))}({', '.join(glued)});", WIDTH, subsequent_indent=" " * 4)
    yield from (it.replace("\0", " ") for it in lines)


def page_of(call: Item) -> Iterator[str]:
    yield from title(call.name, SHORT[call.name])
    yield from (".SH SYNOPSIS", ".nf", ".B #include <cms_canon.h>", ".PP", ".ft B", *prototype(call.declared), ".ft R", ".fi", ".SH DESCRIPTION")
    yield from described(call.comment)
    named = sorted({it for it in re.findall(r"\bcms_canon_\w+\b", call.comment) if it in SHORT} - {call.name})
    yield from (".SH RETURN VALUE", *returned(call.declared))
    yield from (".SH SEE ALSO", ".BR cms_canon (3),", *(f".BR {it} (3)," for it in named), ".BR cms\\-canon (1)")


def returned(declared: str) -> Iterator[str]:
    """Gives what a call returns: a number, a string, or nothing but what its last argument says."""
    if "cms_canon_outcome *outcome" in declared or "cms_canon_many *many" in declared:
        yield "None: the outcome has the status, and why a message is refused."
        yield "All statuses and reasons, and the types of the other arguments, are in"
        yield ".BR cms_canon (3)."
    else:
        yield "As above." if not declared.startswith("void") else "None: the last argument says what was found."


def members(body: str) -> Iterator[str]:
    for name, value, comment in MEMBER.findall(body):
        yield from (".TP", f".B {name}" + (f" = {value}" if value else ""), in_page(comment) or "\\&")


def overview(head: str, constants: List[Item], types: List[Item], calls: List[Item]) -> Iterator[str]:
    yield from title("cms_canon", "canonical DER of CMS signed messages and time\\-stamps")
    yield from (".SH SYNOPSIS", ".nf", ".B #include <cms_canon.h>", ".fi", ".SH DESCRIPTION", *described(head), ".SH CALLS")
    for call in calls:
        yield from (".TP", f".BR {call.name} (3)", SHORT[call.name])
    yield ".SH CONSTANTS"
    for constant in constants:
        yield from (".TP", f".B {constant.name} {constant.declared}", in_page(constant.comment))
    yield ".SH TYPES"
    for kind in types:
        yield from (f".SS {kind.name}", *described(kind.comment), *members(kind.declared))
    yield from (".SH SEE ALSO", ".BR cms\\-canon (1)")


def files() -> Dict[str, str]:
    """Returns the texts of the pages, by their names. Raises `SystemExit` if a call has no short description."""
    text = (TOP / HEADER).read_text()
    calls = [Item(name, declared, comment) for comment, declared, name in CALL.findall(text)]
    if {it.name for it in calls} != SHORT.keys():
        raise SystemExit(f"scripts/manual.py: the calls of {HEADER} are others than those described here")
    constants = [Item(name, value, comment) for comment, name, value in CONSTANT.findall(text)]
    types = [Item(name, body, comment) for comment, name, body in TYPE.findall(text)]
    pages = {"cms_canon": overview(HEAD.search(text)[1], constants, types, calls), **{it.name: page_of(it) for it in calls}}
    return {f"{FOLDER}/{name}.3": "".join(f"{line}\n" for line in lines) for name, lines in pages.items()}
