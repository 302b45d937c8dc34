"""The page of promises, which scripts/proof writes: what the edits in must-fail/ break, by what each of them says of that in its head.

    # promise: `pour` writes all octets, or those that its fault reports and no others
    # carried by: `pour`

A further edit of the same promise says `# promise of: FIRST.EDIT`. What more is to be said of the edits, as `below it`, is in a line `# edits:`,
which has all of them. An edit may have several promises. `# wrong body: TEXT` is a row of the table of wrong bodies. Promises without an edit of
their own are rows of crates/NAME/must-fail/none.md. The promises of a crate are in the order of the names of edits, those of an edit as they stand
in it, and those of none.md come after them. docs/TRUST.md says how many there are: scripts/generate counts them.
"""

import re
import textwrap
from pathlib import Path
from typing import Dict, Iterator, List, NamedTuple, Sequence

import crates
from texts import head, row

TOP = Path(__file__).resolve().parent.parent
COUNTING = "docs/TRUST.md"
COUNTED = re.compile(r"<!-- counts -->.*?<!-- the end of counts -->", re.S)
EDIT = re.compile(r"`([a-z_]+\.[a-z0-9_]+)`")

INTRODUCTION = """# Promises

Each row has a promise, the public contract that carries it, and edits of the code that break it (`crates/NAME/must-fail/EDIT.edit`). Each edit names
the function and the goal that the prover must refuse; `./run-tests` tries them all. `scripts/proof` writes this page from the heads of the edits and
from `none.md` beside them, the crates in the order of `crates.txt`. docs/TRUST.md says what is not promised.

{counts}

These words recur:

- Octets taken, or a refusal after them, are **hopeless** for X if, whatever follows them, the whole does not begin with an X that lies
  within the room. The room ends at the innermost definite end and at the limit (`HopelessIn`); for a message, at the limit (`Hopeless`).
- A refusal is **sound** for X if it is hopeless for X; or if it is E1, the reader has ended, and the octets taken are a proper prefix
  of a frame. For contents, X is the contents with their end, and at E1 the reader has ended within them.
- A call **reads** X if it returns what the octets that it took spell as X, and each of its refusals is sound for X.
- A call reads **exactly** if it is promised which value it returns, or which refusal at which octet.
- A kind of value is **lawful** if it is read if and only if it is spelled, its spelling determines where it ends and what it spells, and its
  encodings in DER are equal if and only if the values are the same, so that sameness is an equivalence.
- **Opaque** in a message are signed attributes, certificates, attribute values and all else that is kept octet for octet.
- A **law** is a function that does nothing, and whose contract is a theorem. "None: a law" says that there is no code to edit.
- **Below it** are edits of code that the named function or law rests on.
- The **reading calls** are `peek`, `header`, `contents`, `enter`, `primitive`, `opaque` and `close` of `Source`. Their bound is
  **strict** inside signed attributes, where everything must be DER.
- **It** and **they** at the beginning of a promise are the calls that carry it.
- The **parts** of records in `cms_fields` are `Tagged`, `Primitive`, `Constrained`, `Opaque`, `OpaqueAmong`, `AlreadyDer`, `Choice`,
  `ContentsChoice`, `Selected`, `Then`, `OptionalThen`, `Last`, `Option`, `Box` and `Received`. A record that no promise names is a term of its parts,
  without code: what is read and written for it is promised there.
- **Faults of** calls are what a fault leaves, and what success says. A failure of the reader is never lost: on success its count of failures is
  what it was, and `Read` says that the count rose. `tests/test_faults.py` makes each growth of memory, each read and each write of the built
  programs fail in turn. The other tests are in the crates of tests, which `./run-tests` runs and which are not proved.
- **The octets taken at** a refusal are what its reason says of them. For E1 to E5, E8 to E11, E17 and E18 the clauses `reasons` and `faults` of the
  reading calls carry that, `why` of each call that reads a field or contents, and `faults` of `read_message` and the calls that read by it (`SayWhy`).
  A call that judges no contents says by it that it never refuses for E8 to E11, E17 or E18. `why` counts from the first octet of the field: what
  is before the last header (E2 to E5) or element (E8 to E11, E17) is a path (`IsPath`), if the record has paths (`has_paths`).
  For the other reasons, and for the place, clause `refines` fixes the first refusal that reading comes to, by the definitions of reading in
  `cms_tlv/specs/Reading.antt` and above it. The vectors are those of `tests/vectors`.
- The `limit` of a call of `cms_c` counts as 2^40 if it is larger. Its contracts are about octets in memory: good pointers and lengths are the
  caller's part.
"""

BODIES = """## Wrong bodies by name

The prover refuses each of these wrong bodies, or one of its kind, for a clause of the function that the edit changes, not for a step of its proof.
For one there is no edit: always out of memory.
"""


class Promise(NamedTuple):
    """A promise, the contract that carries it, and the edits that break it, or why there is none."""

    text: str
    carried: str
    edits: str


class Edit:
    """What an edit says of promises."""

    def __init__(self, name: str, text: str) -> None:
        self.name = name
        self.promises: List[Promise] = []
        self.of: List[str] = []
        self.bodies: List[str] = []
        for line in text.splitlines():
            word, _, said = line.partition(": ")
            if word == "# promise":
                self.promises.append(Promise(said, "", ""))
            elif word == "# carried by":
                self.promises[-1] = self.promises[-1]._replace(carried=said)
            elif word == "# edits":
                self.promises[-1] = self.promises[-1]._replace(edits=said)
            elif word == "# promise of":
                self.of.append(said)
            elif word == "# wrong body":
                self.bodies.append(said)


def edits_of(crate: str) -> List[Edit]:
    files = sorted(TOP.glob(f"crates/{crate}/must-fail/*.edit"))
    return [Edit(it.stem, it.read_text(encoding="utf-8")) for it in files]


def promises_without_edits(text: str) -> List[Promise]:
    """Returns the promises that a none.md has."""
    rows = [line for line in text.splitlines() if line.startswith("| ")][1:]
    return [Promise(*(it.strip() for it in line[1:-1].split(" | "))) for line in rows]


def promises_of(crate: str) -> List[Promise]:
    """Returns the promises of a crate: first those of edits, each with the edits that break it, then those without one."""
    edits = edits_of(crate)
    found: List[Promise] = []
    for edit in edits:
        cell = ", ".join(f"`{it}`" for it in (edit.name, *(it.name for it in edits if edit.name in it.of)))
        found += [it if it.edits else it._replace(edits=cell) for it in edit.promises]
    none = TOP / "crates" / crate / "must-fail" / "none.md"
    return found + promises_without_edits(none.read_text(encoding="utf-8") if none.exists() else "")


def all_promises() -> Iterator[Promise]:
    for crate in crates.names():
        yield from promises_of(crate)


def complaints() -> Iterator[str]:
    """Yields each edit that breaks no promise, and each that names an edit which has no promise, or is not there."""
    names = {it.stem for it in TOP.glob("crates/*/must-fail/*.edit")}
    named = {name for it in all_promises() for name in EDIT.findall(it.edits)}
    yield from (f"{it}: it has no promise, and belongs to none" for it in sorted(names - named))
    yield from (f"a promise names the edit {it}, which is not there" for it in sorted(named - names))
    for crate in crates.names():
        edits = {it.name: it for it in edits_of(crate)}
        wrong = [(it, name) for it in edits.values() for name in it.of if name not in edits or not edits[name].promises]
        yield from (f"{it.name}: it names {name}, which has no promise" for it, name in wrong)


def table_of(promises: Sequence[Promise]) -> str:
    lines = [*head("promise", "carried by", "must-fail edits"), *(row(*it) for it in promises)]
    return "\n".join(re.sub(r"\|  (?=\|)", "| ", it) for it in lines)


def table_of_bodies() -> str:
    bodies: Dict[str, List[str]] = {}
    for edit in (it for crate in crates.names() for it in edits_of(crate)):
        for body in edit.bodies:
            bodies.setdefault(body, []).append(f"`{edit.name}`")
    return "\n".join([*head("wrong body", "edit"), *(row(body, ", ".join(names)) for body, names in sorted(bodies.items()))])


def counts() -> str:
    """Returns the sentence that counts promises by what their columns of edits say."""
    edits = [it.edits for it in all_promises()]
    names = {it.stem for it in TOP.glob("crates/*/must-fail/*.edit")}
    named = [it for it in edits if names & {*EDIT.findall(it)}]
    laws = [it for it in edits if it not in named and re.search("none: (a law|laws)", it)]
    others = len(edits) - len(named) - len(laws)
    text = (
        f"There are {len(edits)} promises: {len(named)} name edits, {len(laws)} are laws, which have no code, and the other {others} have no edit of "
        "their own: that the prover would refuse a wrong body is not shown for them."
    )
    return textwrap.fill(text, 140)


def page() -> str:
    """Returns the text of the page."""
    parts = [INTRODUCTION.format(counts=counts())]
    for crate in crates.names():
        if promises := promises_of(crate):
            parts += [f"## `{crate}`\n", table_of(promises) + "\n"]
    return "\n".join([*parts, BODIES, table_of_bodies()]) + "\n"


def files() -> Dict[str, str]:
    """Returns the text of the document that counts promises, by its name. Raises `SystemExit` if an edit and what it names do not fit."""
    if wrong := [*complaints()]:
        raise SystemExit("\n".join(wrong))
    text, found = COUNTED.subn(lambda _: f"<!-- counts -->\n{counts()}\n<!-- the end of counts -->", (TOP / COUNTING).read_text(encoding="utf-8"))
    if found != 1:
        raise SystemExit(f"{COUNTING}: it does not say once how many promises there are")
    return {COUNTING: text}
