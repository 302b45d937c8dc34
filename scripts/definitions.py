"""The page of definitions, which scripts/proof writes: what each says, from the comment that begins with three dashes right above it in specs/.

    --- `IsFramed b d`: `b` is an element at depth `d`, which is at most 64 [ours]
    --- | its identifier is not 00 and has its form, and its length octets are the shortest
    ---   [X.690, 10.1]

The first line names the definition and says what it is, and in brackets its place in a standard. A line that begins with `|` is a sentence of its
own, and one that is indented goes on. A comment names what is below it, with no more arguments than that takes, and those in a record name each of
its fields, or none: tests/test_lint.py checks both. A public definition that no such comment names has the words of the comment of two dashes
right above it. The definitions are in the order of crates.txt and of the names of files, those of a file as they stand in it.
"""

import re
from pathlib import Path
from typing import Dict, Iterator, List, NamedTuple, Set, Tuple

import crates
from antt import Definition, definitions_of
from texts import head, row

TOP = Path(__file__).resolve().parent.parent
DEFINED = re.compile(r" *(?:(?:abbrev|unfoldable)(?: pub)?|(?:pub )?(?:record|data)) (\S+)|  +pub (\w+) :")
SAID = re.compile(r"(.*?)(?: \[([^][]*)\])?")

INTRODUCTION = """# Definitions

Each definition by its name, what it says, and in brackets its place in the standard. `scripts/proof` writes this page from the comments in
`crates/NAME/specs/`. Otherwise a public contract names only types of the library, and definitions of std, of `clap` and of `jiff_core`. No public
contract cites those in `specs/internal/`, most of which are described only there. docs/HEADLINE.md has the theorem, and all that it rests on, from
below; docs/TRUST.md says on which definitions the exact clause `refines` rests.

- An **octet** is a number below 256, and is written in hexadecimal. An **octet list** is a finite list of octets, counted from 0.
- **X.690** is ITU-T X.690, the encoding rules of ASN.1.
- **Ours** marks what is in no standard: that length octets are at most eight after the first, and a high tag number has at most four octets; that
  countersignatures are nested at most four deep, and the constructed encodings of a string at most eight deep; that the limit of octets is at most
  2^40; that an OBJECT IDENTIFIER has text only if its subidentifiers are below 2^64; that a BIT STRING has the primitive form only; and that opaque
  values have the framing of DER, and are at most 64 elements deep.
- `b`, `c`, `o` and `p` are octet lists, `v` and `w` values, `R` and `S` spellings, and `m` is the rules: BER, BER with minimal lengths, or DER.
- `k` is the octets that a source kept, and `x` spans of them; `old` and `new` are what a call found and what it left; `f` is a fault
  or a reader; `r` is the result of a call. `K` says which contents octets a reason is for.
- A **frame** is an encoding of which only the framing is considered. An **element** has one identifier octet. An **opaque value** is kept octet for
  octet, and only its framing is judged.
- A **field** is one element. **Contents** are the fields between a header and its end. A type that is read and written has three ghost members:
  `Value`, the type of its values; `grammar`, which describes them; and `value k x`, the value that the spans `x` show in the kept octets `k`.
- A **grammar** of values of the type `V`, `Grammar V`, describes a field or contents. A record is one grammar, made from those of its parts, and each
  fact of it is computed from theirs. A name in brackets, as [`Tagged`], is the type of the code that reads and writes by a grammar. An absent part is
  the same as another absent part only; that rule is ours.
- The parts of a type are **distinct** if each identifier octet may be that of a field, a part that may be absent begins with other octets than what
  follows it, and the two alternatives of a choice, of fields or of contents, begin with different octets.
- A **record** of a standard has the type of its value, a projection for each part, and one grammar, in the words of its ASN.1:
  `content_info.spelled m` is how it is spelled by the rules `m`, `content_info.same` which two are the same, and `content_info.reader` its pure reader.
  In a value, an INTEGER and an OBJECT IDENTIFIER are their contents octets, an OCTET STRING its octets, named bits a list of bits, and what is opaque
  its whole encoding. A borrowed record has as its model the value that it lends, so that a contract names the record itself.
- A **pure reader** is a function of the octets to come. It reads from left to right, and gives the value, or the first refusal that it meets, with the
  number of octets consumed by then. The **exact clause** says by it which value a call returns, or which refusal at which octet. The relations, as
  `Frame`, do not mention pure readers; it is proved that they agree.
- A `Bound` says how contents end: `end` is the innermost definite end, `indefinite` says that `00 00` ends these contents, and `strict` says that they
  are inside signed attributes. There is room for octets if they pass neither the innermost definite end nor the limit.
- What a reader has left, and what a writer took, is `Some` octets if the type says which, as readers and writers over memory do. It is `None` if the
  type does not say; `Consumes` and `Appends` of std then claim nothing.
- A **row** says where in a message the octets of one field lie. `entries_of` lists the fields of a message without its octets, and `Show` ties rows
  to them. The kind of a field is a constant of `cms_rows/src/kinds.rt`, which `bindings/c/cms_canon.h` has with its ASN.1. The fields of a field come right after
  it, with a level that is one more.
- `tail` says whether octets may follow a message (`Leave`) or not (`Refuse`), and `with_rest` whether what follows it is read too: as detached content,
  or as data that were time-stamped. An **answer** of a command is a status and a text.
"""


class Said(NamedTuple):
    """What a row of a table says of a definition; only the first row has its name."""

    name: str
    says: str
    place: str


def said_in(lines: List[str]) -> List[Said]:
    """Returns the rows that a comment has."""
    rows: List[str] = []
    for line in lines:
        text = line.strip().removeprefix("---")
        if text.startswith("   "):
            rows[-1] += " " + text.strip()
        else:
            rows.append(text.strip())
    return [row_of(it) for it in rows]


def row_of(text: str) -> Said:
    found = SAID.fullmatch(text)
    assert found is not None
    says, place = found[1], found[2] or ""
    if says.startswith("| "):
        return Said("", says[2:], place)
    name = re.match(r"((?:`[^`]*`|[^`:])*): ", says)
    return Said(name[1], says[name.end() :], place) if name else Said("", says, place)


class Comment(NamedTuple):
    """The rows of a comment, and what is right below it: its name, and the record in which it is a field; none if it is no field."""

    rows: List[Said]
    name: str
    record: str


def comments_in(file: Path) -> Iterator[Comment]:
    """Yields the comments of three dashes in a file. Raises `SystemExit` if one is above no definition."""
    above: List[str] = []
    record = ""
    for line in file.read_text().splitlines():
        defined = DEFINED.match(line)
        record = defined[1] if defined and defined[1] else record
        if line.lstrip().startswith("---"):
            above.append(line)
        elif above and defined:
            yield Comment(said_in(above), defined[1] or defined[2], "" if defined[1] else record)
            above = []
        elif above and not re.match(r" *(?:infix|--|$)", line):
            raise SystemExit(f"{file.relative_to(TOP)}: a comment of three dashes is above no definition: {above[0]}")


def things_in(file: Path) -> Dict[Tuple[str, str], Definition]:
    """Returns what comments may be above: the definitions in a file, and the fields of its records, by the names of these."""
    things: Dict[Tuple[str, str], Definition] = {}
    for it in definitions_of("", file):
        things["", it.name] = it
        lines = it.lines[it.above :]
        starts = [at for at, line in enumerate(lines) if at and re.match(r" +pub \w+ :", line)] if it.is_type else []
        for start, end in zip(starts, [*starts[1:], len(lines)]):
            name = lines[start].split()[1]
            things[it.name, name] = Definition("", name, file, lines[start:end], 0, "")
    return things


def misplaced(file: Path) -> Iterator[str]:
    """Yields each comment that does not name what is below it, or names it with more arguments than that takes."""
    things = things_in(file)
    for rows, name, record in comments_in(file):
        own = [it for row in rows for it in named_in(row) if name.strip("◌") in it]
        most = things[record, name].arguments()
        if not own:
            yield f"a comment of three dashes above `{name}` does not name it"
        if any(len(it) - 1 > most for it in own):
            yield f"the comment of three dashes `{' '.join(own[0])}` is above `{name}`, which takes {most} arguments"


def half_said(file: Path) -> Iterator[str]:
    """Yields each record with fields that its comments leave out, if any of them names a field."""
    said: Dict[str, Set[str]] = {}
    for rows, _, record in comments_in(file):
        said.setdefault(record, set()).update(it[0] for row in rows for it in named_in(row))
    fields = [(record, name) for record, name in things_in(file) if record and record in said]
    left_out = {record: [name for it, name in fields if it == record and name not in said[record]] for record, _ in fields}
    yield from (f"comments of three dashes name fields of `{it}`, but not {', '.join(names)}" for it, names in left_out.items() if names)


def named_in(row: Said) -> List[List[str]]:
    """Returns what a row names, each with its arguments."""
    return [it.split() for it in re.findall(r"`([^`]*)`", row.name)]


def plain_words(definition: Definition) -> str:
    """Returns the words of the comment of two dashes right above a definition, if it is public and has such a comment."""
    above = [it.strip() for it in definition.lines[: definition.above] if it.lstrip().startswith("--")]
    is_public = re.match(r" *(?:(?:abbrev|unfoldable) pub|pub (?:record|data)) ", definition.lines[definition.above])
    return " ".join(it.removeprefix("--").strip() for it in above) if is_public else ""


def described(file: Path) -> Iterator[Said]:
    """Yields the rows that the comments in a file have, in the order of what they are above."""
    comments = {(record, name): rows for rows, name, record in comments_in(file)}
    named = {it[0] for rows in comments.values() for row in rows for it in named_in(row)}
    for (record, name), it in things_in(file).items():
        if (record, name) in comments:
            yield from comments[record, name]
        elif not record and name not in named and (words := plain_words(it)):
            yield row_of(f"`{name}`: {words}")


def table_of(file: Path) -> List[str]:
    """Returns the table of a file: a row for each name, with all that is said of it. It has no lines if nothing is."""
    rows: List[List[str]] = []
    for it in described(file):
        words = (f"{it.says} [{it.place}]" if it.place else it.says).replace("|", "\\|")
        if it.name or not rows:
            rows.append([it.name, words])
        else:
            rows[-1][1] += (" " if re.search(r"[,;]( \[[^]]*\])?$", rows[-1][1]) else "<br>") + words
    return [*head("name", "what it says"), *(row(*it) for it in rows)] if rows else []


def introduction_of(file: Path) -> str:
    """Returns the comment that a file begins with."""
    lines = file.read_text(encoding="utf-8").splitlines()
    ends = [at for at, line in enumerate(lines) if not line.startswith("-- ")]
    return " ".join(it.removeprefix("-- ") for it in lines[: ends[0]])


def sections() -> Iterator[str]:
    """Yields the parts of the page: a heading for each crate, and for each of its files a heading, its introduction and its table."""
    for crate in crates.names():
        specs = TOP / "crates" / crate / "specs"
        tables = {it: table_of(it) for it in sorted(specs.glob("**/*.antt"))}
        yield from [f"## `{crate}`"] * any(tables.values())
        for file, table in tables.items():
            if table:
                yield f"### `{crate}/specs/{file.relative_to(specs)}`"
                yield introduction_of(file)
                yield "\n".join(table)


def page() -> str:
    """Returns the text of the page."""
    return "\n\n".join([INTRODUCTION.rstrip(), *filter(None, sections())]) + "\n"


def name_of(file: Path) -> str:
    crate, _, *rest = file.relative_to(TOP / "crates").parts
    return "/".join([crate, *rest])
