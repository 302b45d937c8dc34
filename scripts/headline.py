#!/usr/bin/env python3
"""Writes docs/HEADLINE.md: what the library promises, as the contracts of two functions of crates/cms_example, and each definition that
these contracts reach, in sections from below. `SECTIONS` says which file is in which; what is in none is an error.

    python3 scripts/headline.py [--check | --counts]

With --check nothing is written: if the file is not up to date, that is printed, and the exit status is 1. With --counts the numbers that
docs/TRUST.md states are printed.

Only what a contract reads is followed. Of a grammar these are the rows that are projected somewhere in what is read, as `spelled` is by
`message.spelled`. A parameter of a grammar that occurs in no row that is read is not read, and nor is an argument for it. Nor are the
clauses of a definition for the rules `minimal`, as long as nothing else names these or is of all rules.
"""

import re
import sys
from collections import Counter
from itertools import groupby
from pathlib import Path
from textwrap import wrap
from typing import Counter as CounterOf, Dict, Iterable, Iterator, List, NamedTuple, Set, Tuple, Union

from antt import BUILT_IN, NUMBER, RESERVED, TOP, Definition, Group, Key, Library, Module, Tree
from antt import beginnings, note_imports, telescope, tree, words_in
from definitions import name_of

EXAMPLE = TOP / "crates" / "cms_example" / "src" / "lib.rt"
PAGE = TOP / "docs" / "HEADLINE.md"
FUNCTIONS = ("both", "written_or_refused")
GRAMMAR = ("Rattle.cms_fields.specs.Grammar", "Grammar")
EXACT = ("Rattle.cms_canon.specs.Exact", "ExactFaults")
RULES = ("Rattle.cms_tlv.specs.Spelling", "Rules")
MINIMAL = "minimal"  # the constructor of `Rules` for octets that are read inside signed attributes

Meaning = Union[Definition, str]


class Section(NamedTuple):
    """A section of the page: its title, what it is about, and its files. Each has the names of those of its definitions that are in the section,
    or none if all are that no other section names."""

    title: str
    words: str
    files: Dict[str, str]


SECTIONS = (
    Section(
        "Octets, identifiers and lengths",
        "An octet is a number below 256. An encoding begins with identifier octets and length octets (X.690, 8.1.2 and 8.1.3); by DER the length "
        "octets are the shortest (10.1).",
        {"cms_tlv/Headers.antt": ""},
    ),
    Section(
        "Elements and frames",
        "An element is an identifier octet, length octets and contents, and a frame is an encoding of which only the framing is considered (X.690, "
        "8.1). A spelling says which octets have which value, by BER or by DER.",
        {
            **{"cms_tlv/Frames.antt": "", "cms_tlv/Order.antt": "", "cms_tlv/Spelling.antt": "", "cms_scalars/Image.antt": ""},
            "cms_fields/Received.antt": "as_received",
        },
    ),
    Section(
        "Opaque elements",
        "An opaque element is kept octet for octet. Only its framing is judged, which is in DER (X.690, 8.1, 10.1 and 10.2).",
        {"cms_tlv/Opaque.antt": "", "cms_fields/Received.antt": "IsOpaqueAmong"},
    ),
    Section(
        "Scalars",
        "INTEGER, OBJECT IDENTIFIER, BOOLEAN and BIT STRING follow X.690, 8.2, 8.3, 8.6 and 8.19, and by DER 11.1, 11.2 and 11.5.",
        {f"cms_scalars/{it}.antt": "" for it in ("Scalars", "ObjectIdentifiers", "Booleans", "Bits")},
    ),
    Section(
        "Strings",
        "An OCTET STRING is primitive, or constructed from others (X.690, 8.7); by DER it is primitive (10.2). Its value is its octets, joined.",
        {"cms_scalars/Octets.antt": ""},
    ),
    Section(
        "How records are put together",
        "A grammar describes a field, which is one element, or contents, which are the fields between a header and its end: how they are "
        "spelled, and which values are the same. What is put together follows X.690, 8.9 to 8.14.",
        {
            **{"cms_setof/Same.antt": "", "cms_fields/Choices.antt": "", "cms_fields/Selected.antt": "", "cms_fields/Grammar.antt": ""},
            **{"cms_setof/Grammar.antt": "", "cms_scalars/Grammar.antt": ""},
        },
    ),
    Section(
        "The records of RFC 5652 and RFC 3161",
        "Each type of these standards has the type of its values, which are nested pairs; a definition for each field that the contracts read, which takes the first "
        "part of a pair (`.0`) or the second (`.1`); and a grammar.",
        {
            **{f"cms_message/{it}.antt": "" for it in ("Algorithms", "Choices", "Attributes", "Countersignatures")},
            **{f"cms_message/{it}.antt": "" for it in ("SignerInfo", "SignedData", "ContentInfo")},
            **{"cms_tsp/Requests.antt": "", "cms_tsp/Responses.antt": "", "cms_canon/Kinds.antt": ""},
        },
    ),
    Section(
        "Sameness",
        "Two messages are the same if they differ at most in the order of the members of sets. No standard says so, but by DER the members of a set "
        "ascend (X.690, 11.6).",
        {"cms_fields/Writing.antt": "", "cms_canon/Kinds.antt": "same_message", "cms_canon/Denotes.antt": ""},
    ),
    Section(
        "What is kept",
        "The content, what each signature and countersignature covers (RFC 5652, 5.4 and 11.4), and each list of opaque octets.",
        {
            "cms_fields/Received.antt": "",
            "cms_canon/Kinds.antt": "signed_in signed_data_in",
            **{"cms_message/Cover.antt": "", "cms_message/Received.antt": "", "cms_tsp/Received.antt": "", "cms_canon/Received.antt": ""},
        },
    ),
    Section(
        "What is refused",
        "Octets are hopeless if the whole does not begin with a message within the limit, whatever follows them. With E2 to E5, E8 to E11 and "
        "E17 they also say why: for what X.690, 8.1 to 8.19, does not allow, for a limit of the library, or for their content type.",
        {f"{it}.antt": "" for it in ("cms_tlv/Clauses", "cms_scalars/Malformed", "cms_canon/Reasons", "cms_canon/Messages")},
    ),
)


def is_constructor(word: str, meaning: Meaning) -> bool:
    """Returns whether a word that means this is a constructor."""
    if isinstance(meaning, Definition):
        return meaning.is_data and meaning.name != word
    return ".TheVariants." in meaning or meaning in ("Prim.Native.Nat.zero", "Prim.Native.Nat.suc")


def ends_application(node: Union[str, Group], names: Dict[str, List[str]]) -> bool:
    """Returns whether no application goes on past a node: it is reserved, or a part of an operator."""
    return isinstance(node, str) and (node in RESERVED or any("◌" in it and it != node for it in names.get(node, [])))


def rows_of(nodes: Tree) -> Iterator[str]:
    """Yields the fields that record literals give, and the arguments that have names."""
    for node in nodes:
        if isinstance(node, Group):
            words = node.inside if node.bracket == "{" else []
            yield from (it for it, after in zip(words, words[1:]) if after == "=" and isinstance(it, str))
            yield from rows_of(node.inside)


def bound_in(library: Library, module: Module, definition: Definition) -> Set[str]:
    """Returns the names that a definition binds: its variables, its fields or constructors, and the fields of record literals."""
    bound = {*telescope(definition.signature()), *definition.members()}
    own = {definition.name, *definition.name.split("◌")}
    for clause in definition.clauses():
        bound |= {*rows_of(clause.body)}
        words = {*words_in(clause.patterns)} - own
        constructors = {it for it in words if any(is_constructor(it, meaning) for meaning in library.meanings(module, it))}
        bound |= {*(words - constructors), *telescope(clause.body)}
    return bound


def is_grammar(definition: Definition) -> bool:
    """Returns whether a definition is a grammar, or gives one."""
    signature = definition.signature()
    ends = [at for at, node in enumerate(signature) if node in ("→", ":")]
    return not definition.is_type and signature[ends[-1] + 1 :][:1] == ["Grammar"]


def folded(lines: List[str], indent: str) -> List[str]:
    """Returns the lines of a record with `..` at its end, or between its braces if nothing else is left there."""
    *others, last = lines
    if "}" not in last:
        return [*lines, f"{indent}.."]
    if others[-1].endswith("{"):
        return [*others[:-1], f"{others[-1]} .. {last.strip()}"]
    return [*others, f"{indent}..", last]


def text_without(definition: Definition, fields: Set[str]) -> List[str]:
    """Returns the lines of a definition without those that declare or give these fields; one `..` says that they are left out."""
    lines: List[str] = []
    is_left_out, indent = False, ""
    for line in definition.lines:
        if is_left_out:
            is_left_out = not line.endswith(";")
            continue
        found = re.match(r"( +)(?:pub )?(\w+) [:=] ", line)
        if not found or found[2] not in fields:
            lines.append(line)
            continue
        while lines[-1].startswith(found[1] + "--"):
            lines.pop()
        is_left_out = "pub" not in found[0] and not line.endswith(";")
        indent = found[1]
    return folded(lines, indent) if indent else lines


def text_without_clauses(definition: Definition, constructor: str) -> List[str]:
    """Returns the lines of a definition without the clauses that have a constructor among their patterns."""
    starts = [definition.above + it for it in definition.starts()]
    clauses = zip(starts, [*starts[1:], len(definition.lines)], definition.clauses())
    left_out = {at for start, end, clause in clauses if constructor in words_in(clause.patterns) for at in range(start, end)}
    return [line for at, line in enumerate(definition.lines) if at not in left_out]


def text_without_constructor(definition: Definition, constructor: str) -> List[str]:
    """Returns the lines of a data type without a constructor, and without the row of its comment that is about it."""
    text = "\n".join(definition.lines)
    text = re.sub(rf"^ *--- \| `{constructor}`.*\n(?: *---   .*\n)*", "", text, flags=re.M)
    return re.sub(rf"^((?: *\w+)*) \b{constructor}\b(?=.*:)", r"\1", text, flags=re.M).split("\n")


def ranges_over(nodes: Tree, kind: str) -> bool:
    """Returns whether something in a term is of all values of a type, as with `(m : Rules)`."""
    groups = [it for it in nodes if isinstance(it, Group)]
    return any(it.inside[-2:] == [":", kind] or ranges_over(it.inside, kind) for it in groups)


class Statement:
    """What a statement reads that names these definitions itself."""

    def __init__(self, library: Library, roots: List[Key]) -> None:
        self.library, self.roots = library, roots
        grammar = library.find(*GRAMMAR)
        assert isinstance(grammar, Definition)
        self.left_out = {*grammar.members(), MINIMAL}
        while found := self.follow():
            self.left_out -= found

    def follow(self) -> Set[str]:
        """Finds what is reached, and returns what was left out and is then read: fields that are projected, and `minimal`."""
        self.unread: Dict[Key, Set[int]] = {}
        self.uses: Dict[Key, List[Meaning]] = {}
        self.steps = self.breadth_first()
        self.order = [it for step in self.steps for it in step]
        words = [word for it in self.order for word in words_in(self.read_of(it))]
        projected = {field for word in words for field in word.split(".")[1:]}
        named = {MINIMAL} & {*words, *(name for _, name in self.roots)}
        of_all = {MINIMAL for it in self.order if any(ranges_over(nodes, RULES[1]) for nodes in self.bodies_of(it))}
        return (projected | named | of_all) & self.left_out

    def bodies_of(self, definition: Definition) -> List[Tree]:
        """Returns what is on the right of the clauses of a definition, or the members of a type."""
        if definition.is_type:
            read = self.read_of(definition)
            return [read[read.index("where") :]] if "where" in read else []
        return [it.body for it in definition.clauses()]

    def breadth_first(self) -> List[List[Definition]]:
        """Returns the definitions that the roots are, then those that these use, and so on, each once."""
        steps: List[List[Definition]] = []
        seen: Set[Key] = set()
        found: List[Meaning] = [self.library.find(*it) for it in self.roots]
        while found:
            step = [it for it in dict.fromkeys(found) if isinstance(it, Definition) and it.key not in seen]
            seen |= {it.key for it in step}
            steps.append(step)
            found = [used for it in step for used in self.used_by(it)]
        return steps

    def used_by(self, definition: Definition) -> List[Meaning]:
        """Returns what a definition uses, in the order in which it does."""
        if definition.key not in self.uses:
            module = self.module_of(definition)
            bound = bound_in(self.library, module, definition)
            words = [*words_in(self.followed(definition, self.read_of(definition)))]
            found = [it for word in words if word.split(".")[0] not in bound for it in self.library.meanings(module, word)]
            self.uses[definition.key] = [it for it in dict.fromkeys(found) if it is not definition]
        return self.uses[definition.key]

    def module_of(self, definition: Definition) -> Module:
        module = self.library.module(definition.module)
        assert module
        return module

    def lines_of(self, definition: Definition) -> List[str]:
        """Returns the lines of a definition that are read, with what stands above it."""
        if definition.key == GRAMMAR or is_grammar(definition):
            return text_without(definition, self.left_out)
        meanings = self.library.meanings(self.module_of(definition), MINIMAL) if MINIMAL in self.left_out else []
        if not any(isinstance(it, Definition) and it.key == RULES for it in meanings):
            return definition.lines
        return text_without_constructor(definition, MINIMAL) if definition.key == RULES else text_without_clauses(definition, MINIMAL)

    def read_of(self, definition: Definition) -> Tree:
        """Returns what is read of a definition."""
        return tree("\n".join([definition.around, *self.lines_of(definition)[definition.above :]]))

    def handed_on(self, definition: Definition) -> CounterOf[str]:
        """Returns the words of the arguments that are not read, as often as they stand there."""
        read = self.read_of(definition)
        return Counter(words_in(read)) - Counter(words_in(self.followed(definition, read)))

    def unread_of(self, definition: Definition) -> Set[int]:
        """Returns the places of the arguments of a grammar that are not read."""
        if definition.key not in self.unread:
            self.unread[definition.key] = set()
            if is_grammar(definition):
                self.unread[definition.key] = self.unread_places(definition)
        return self.unread[definition.key]

    def unread_places(self, definition: Definition) -> Set[int]:
        """Returns the places of the parameters that stand in no clause as it is read."""
        lines = self.lines_of(definition)
        cut = Definition(definition.module, definition.name, definition.file, lines, definition.above, definition.around)
        places = []
        for clause in cut.clauses():
            read = {it.split(".")[0] for it in words_in(self.followed(definition, clause.body))}
            patterns = [it for it in clause.patterns[1:] if isinstance(it, str) or it.bracket == "("]
            places.append({place for place, it in enumerate(patterns) if isinstance(it, str) and it not in read})
        return set.intersection(*places)

    def followed(self, definition: Definition, nodes: Tree) -> Tree:
        """Returns a term without the arguments that are not read."""
        module = self.module_of(definition)
        names = module.names
        kept: Tree = []
        unread: Set[int] = set()
        place = 0
        for at, node in enumerate(nodes):
            if isinstance(node, Group):
                if node.bracket == "{" or place not in unread:
                    kept.append(Group(node.bracket, self.followed(definition, node.inside)))
                place += node.bracket == "("
            elif ends_application(node, names):
                kept.append(node)
                place, unread = 0, set()
            elif at == 0 or ends_application(nodes[at - 1], names):
                kept.append(node)
                found = [self.unread_of(it) for it in self.library.meanings(module, node) if isinstance(it, Definition)]
                place, unread = 0, set().union(*found)
            else:
                kept += [node] if place not in unread else []
                place += 1
        return kept


WORDS = """# The headline

What the library promises, in one statement: [the contract](#the-contracts) of `both`, and that of `written_or_refused` for what is refused. Both are functions
of [crates/cms_example](../crates/cms_example/src/lib.rt), which a user of the library could have written: they call it, and what they
promise is proved from its public contracts alone. This page has each definition that the two contracts reach, from below: it comes after
those that it uses, unless they use one another. `scripts/proof` writes a page that says in words what each of them says.

`scripts/headline.py` writes this page from the sources. `tests/test_lint.py` checks that it is up to date, and that each name in it means
a definition of this page, something that the kit or the code declares, or a variable.

## In words

A message is a value: a ContentInfo that holds SignedData (RFC 5652), or a TimeStampReq or a TimeStampResp (RFC 3161), as sections 1 to 7 have them.
Octets spell it. Only structure is judged: numbers of versions, for example, and which attributes are there, are kept and not checked. At most eight
octets encode a length, and at most four follow the first octet of an identifier; what is opaque is framed as in section 3, where DER is asked of the
framing alone; a BIT STRING is primitive; signed attributes are in DER; strings have at most eight levels of segments, and countersignatures four; a
set of countersignatures may be empty. A value does not record forms of lengths or segments, the octet of TRUE, an explicit default, unused bits or
trailing zeros of named bits: what differs only in these spells the same value. Two messages are the same if they differ at most in the order of the
members of sets that are not inside what is opaque (`same_message`). An input denotes a message if it spells one that is the same, and there is DER of
that, and neither the input nor the DER has more than 2^24 octets.

Take any two inputs in memory. If `both` returns two lists of octets, then of each input and what is written for it:

- **`der_of_a`, `der_of_b`**: the whole input spells a message in BER, and what is written is DER of a message that is the same. Neither has
  more than 2^24 octets.
- **`same`**: the two lists are equal if and only if there is a message that both inputs denote.
- **`kept`**: the content is the same; each signature and countersignature is kept, and covers the same octets, whatever detached content is given; and
  signed attributes, certificates, attribute values other than countersignatures, and everything else that is opaque lie in what is written as they
  lie in the input, octet for octet, and the two values have each equally often.
- **`again`**: what is written is accepted, and is DER of a message that is the same as the one that it spells; and whatever follows it, it is the only
  beginning of the whole that spells a message. That it is written again unchanged follows, since DER of one message is unique
  (`what_is_written_is_written_again`, a law that is not here).

What `written_or_refused` writes is DER as above (`der`). If it refuses an input (`refused`) for one of the reasons E1 to E19 (listed under "Types of the
code"), then this is true of the first octets of the input, as many as the refusal counts (`at`):

- with E1 they are the whole input, fewer than 2^24, and a proper prefix of a frame (an encoding of which only the framing is considered); maybe no message
  begins with them;
- with any other reason they are hopeless, and at most 2^24: no list of octets that begins with them begins with a message of at most 2^24 octets;
- or it is E2: they are a message of at most 2^24 octets, and all DER of it has more (that there is some is not said here);
- or it is E18: they are a message of at most 2^24 octets, whose DER has at most 2^24, and one octet that follows it.

If they are hopeless, they are not those of the last two, and so they also say why (`SayWhy`), and it is not E18:

- with E2 they are 2^24 many, or end in a header whose contents would end past the octet 2^24;
- with E3, E4 and E5 they end in identifier octets and one length octet: FF; one of 89 to FE; or 80, if the identifier is primitive;
- with E8, E9, E10 and E11 they end in an element 02, 06, 01 or 03, whose contents are not those of an INTEGER, OBJECT IDENTIFIER, BOOLEAN or
  BIT STRING, respectively;
- with E17 they end in a header with the identifier octet 30, and an element 06 whose contents are those of another OBJECT IDENTIFIER than
  id-signedData;
- with E6, E7, E12 to E16 and E19 nothing more is said of them.

Before that header or element there is a path to it: whole frames, and headers of constructed elements (`IsPath`), whose lengths are not compared
with what follows. So `30 04 04 02 02 00` does not end in a malformed INTEGER, since `04` is not constructed. `SayWhy` leaves open whether the path
is one that a message has: `30 04 31 02 02 00` does end in a malformed INTEGER, though a message has none there, and the reader refuses the `31`
(E7). Nor does this page say that the refusal is the first one that reading from left to right comes to. Both are said by the clause `refines` of
`read_message`, a function of the library that is not on this page; the clause names functions that say what reading gives (`Exact.antt`).

The only other error of `written_or_refused` is `OutOfMemory`. No clause says when: a `both` that always returns none, and a `written_or_refused`
that always says that memory ran out, would meet these contracts.

That the imprint which a request or a token is about is kept too is a law of its own (`same_messages_have_the_same_covers`, clause `imprint`).
"""

READING = """## How to read on

The contracts reach {count} definitions of this repository, of {lines} lines. They are in sections, from below, and the contracts come after
them. They rest on the types of the code, which come first, and on definitions of the kit, which are named last.

A **grammar** says in its rows how a value is spelled, which values are the same, and more that serves reading. The contracts read only its
rows {read}, and no definition here projects another one. So the other rows are left out, as `..` at the end of a record says.
These are handed only to rows that are left out, and do not matter there (section 10 uses some of them too):
{handed}.
A name in brackets after what a grammar is, as [`Tagged`], is the type of the code that reads and writes by it.
{rules}

Notation: `(x : A) × B` is a pair whose second part may speak of the first one, and says that there is such an `x`; `.0` and `.1`, or a name, is a
part of a value; `(x : A) → B` is a function, and says `B` of all `x`; in `{{x : A}}`, `x` is found from what follows; `A → ⊥` says that `A` is
untrue; `A ⊎ B` is one of the two, `inl` of the first and `inr` of the second; `λ x. e` is the function that gives `e` for `x`; `x ∷ xs` is a list
that begins with `x`, and `xs ++ ys` is `xs` and then `ys`; `suc n` is `n + 1`; `/` and `%` are the whole quotient and the remainder; `a.now` is the
octets of a slice, and `.items` those of a `Vec`; after `mutual` come definitions that use one another; `unfoldable` says how the prover treats a
definition, and nothing about it. In a comment, `--- |` begins a further sentence, and [ours] marks what is in no standard. What is said of a reason
beside its name in the code is a summary: `SayWhy` has what is promised; `record g {{ .. }}` is `g` with other rows, and with its `spelled` and `same`
unless others are shown; `abbrev` introduces a synonym; `◌` marks the position of an operand. `⊤` and `Unit {{0}}` hold, and `⊥` does not. The first
clause of a definition that matches counts. `0x30` is hexadecimal; in comments octets are written without `0x`, and other numbers are decimal. The
prefixes `reasons.`, `faults.` and `tails.` precede variants of the types of the code; a variant is the same without its prefix. Of the kit, `IfSome`,
`IfOk` and `IfErr` say nothing in the other case, `slice_index` is 0 past the end of a list, and `AllZip` says that two lists are equally long.
"""

OTHER_RULES = """
The contracts reach two members of `Rules`: BER (`ber`) and DER (`der`). The third, which nothing else here names, is left out with the
clauses for it."""

TYPES = """## Types of the code

How a call ends, why octets are refused, and what may follow a message.
"""

CONTRACTS = """## The contracts

What the two functions promise, in the words of the definitions above.
"""

KIT = """## Definitions of the kit

{count} definitions, of {lines} lines, in the kit's folder `rattle`. In addition there are types of std with their variants,
{declared}, and what antt itself has:
{built_in}.
"""


def wrapped(text: str) -> str:
    """Returns a text in lines that are not longer than a screen."""
    return "\n".join(wrap(text, 140, break_long_words=False, break_on_hyphens=False))


def contract_of(name: str) -> str:
    """Returns the documentation and the contract of a function of the example."""
    found = re.search(rf"^((?:///.*\n)+)(?:#\[.*\n)*(pub fn {name}\(.*\n(?:    ensures .*\n(?:        .*\n)*)+){{\n", EXAMPLE.read_text(), re.M)
    return found[1] + found[2] if found else sys.exit(f"{EXAMPLE}: no contract of {name}")


def roots_of(module: Module, contract: str) -> List[Key]:
    """Returns what the clauses of a contract name, in their order."""
    nodes = tree(contract[contract.index("    ensures ") :])
    bound = {*telescope(nodes), *re.findall(r"ensures (\w+)", contract), *re.findall(r"(\w+): ", contract), "ensures", "result"}
    words = [it for it in words_in(nodes) if not (it in RESERVED or it in BUILT_IN or NUMBER.fullmatch(it))]
    found = {it: module.names.get(it, []) for it in words if it.split(".")[0] not in bound}
    if unknown := [it for it, names in found.items() if not names]:
        sys.exit(f"{EXAMPLE}: {', '.join(unknown)} of a contract means nothing")
    return [module.uses[name] for names in found.values() for name in names]


def headline(library: Library) -> Statement:
    """Returns what the contracts of the two functions read."""
    module = Module("cms_example")
    note_imports(module, EXAMPLE.read_text())
    return Statement(library, [root for name in FUNCTIONS for root in roots_of(module, contract_of(name))])


def section_of(definition: Definition) -> int:
    """Returns the index of the section that a definition is in. Raises `SystemExit` if its file is in none."""
    file = name_of(definition.file)
    named = [at for at, it in enumerate(SECTIONS) if definition.name in it.files.get(file, "").split()]
    found = named or [at for at, it in enumerate(SECTIONS) if it.files.get(file) == ""]
    return found[0] if found else sys.exit(f"scripts/headline.py: no section has {definition.name} of {file}")


def stale_names(definitions: List[Definition]) -> Iterator[str]:
    """Yields each file, and each definition, that a section names and that none of these is, or is in."""
    known = {it for one in definitions for it in (name_of(one.file), f"{name_of(one.file)}: {one.name}")}
    named = [f"{file}: {name}" if name else file for it in SECTIONS for file, names in it.files.items() for name in names.split() or [""]]
    yield from (f"scripts/headline.py: a section names {it}, which is not on the page" for it in named if it not in known)


def from_below(statement: Statement, definitions: List[Definition]) -> List[Definition]:
    """Returns definitions in an order in which each comes after those of them that it uses. Those of a file are given in the order of its lines;
    one that uses a later one, as they use one another, comes before that."""
    places = {it.key: at for at, it in enumerate(definitions)}
    ordered: Dict[Key, Definition] = {}
    seen: Set[Key] = set()

    def place(it: Definition) -> None:
        seen.add(it.key)
        for used in statement.used_by(it):
            if isinstance(used, Definition) and used.key in places.keys() - seen:
                if used.file != it.file or places[used.key] < places[it.key]:
                    place(used)
        ordered[it.key] = it

    for it in definitions:
        if it.key not in seen:
            place(it)
    return [*ordered.values()]


def parts_of(statement: Statement) -> List[List[Definition]]:
    """Returns the definitions of each section, from below: otherwise they are in the order of the files and of their lines."""
    parts: List[List[Definition]] = [[] for _ in SECTIONS]
    for it in statement.order:
        if it.is_ours:
            parts[section_of(it)].append(it)
    places = [{file: at for at, file in enumerate(it.files)} for it in SECTIONS]
    lines = {it.key: [*statement.module_of(it).definitions].index(it.name) for part in parts for it in part}
    sorted_parts = [sorted(part, key=lambda it: (at[name_of(it.file)], lines[it.key])) for at, part in zip(places, parts)]
    return [from_below(statement, part) for part in sorted_parts]


def texts_of(statement: Statement, definitions: List[Definition]) -> Iterator[str]:
    """Yields definitions below the names of their files, and below the lines of the modules that they are in."""
    for file, those in groupby(definitions, lambda it: it.file):
        modules = [(around, [*found]) for around, found in groupby(those, lambda it: it.around)]
        texts = ["\n\n".join("\n".join(statement.lines_of(it)) for it in found) for _, found in modules]
        yield f"`{file.relative_to(TOP)}`\n\n```text"
        yield "\n\n".join(f"{around}\n{text}" if around else text for (around, _), text in zip(modules, texts))
        yield "```\n"


def declared_in(name: str) -> Tuple[Path, str]:
    """Returns the file of the type, or of the variant of a type, that has this full name, and the name of the type."""
    _, crate, _, _, *path = name.split(".")
    path = path[: path.index("TheVariants") + 1] if "TheVariants" in path else path
    return Path("crates", crate, "src", *path[:-2]).with_suffix(".rt"), path[-2]


def types_of(statement: Statement) -> Iterator[str]:
    """Yields the types that the code declares, as the code has them."""
    names = [it for found in statement.uses.values() for it in found if isinstance(it, str) and ".declared." in it]
    for file, name in reversed(dict.fromkeys(declared_in(it) for it in names)):
        if not (TOP / file).exists():
            continue  # of the kit
        found = re.search(rf"^((?:///.*\n)*)(?:#\[.*\n)*(pub (?:enum|struct) {name}\b(?:.*\n)+?}})", (TOP / file).read_text(), re.M)
        if not found:
            sys.exit(f"{file}: no {name}")
        text = re.sub(r"^ *#\[.*\n", "", found[1] + found[2], flags=re.M)
        yield f"`{file}`\n\n```rust\n{text}\n```\n"


def kit_of(statement: Statement) -> Dict[str, List[Definition]]:
    """Returns the definitions of the kit by their files."""
    files: Dict[str, List[Definition]] = {}
    for it in statement.order:
        if not it.is_ours:
            files.setdefault(str(it.file.relative_to(statement.library.kit)), []).append(it)
    return dict(sorted(files.items()))


def count_of(statement: Statement, definitions: List[Definition]) -> int:
    """Returns how many lines definitions have, with their comments."""
    return sum(len(statement.lines_of(it)) for it in definitions)


def names_handed_on(statement: Statement, listed: Set[Key]) -> List[str]:
    """Returns the names of what is only handed to rows that are not read."""
    names: Set[str] = set()
    for definition in statement.order:
        module = statement.module_of(definition)
        for word in statement.handed_on(definition):
            found = statement.library.meanings(module, word)
            names |= {word for it in found if isinstance(it, str) or it.key not in listed}
    return sorted(names)


def code(names: Iterable[str]) -> str:
    """Returns names as code, in a row."""
    return ", ".join(f"`{it}`" for it in names)


def kit_list(statement: Statement) -> Iterator[str]:
    """Yields the definitions of the kit by their files, with how many lines they have."""
    kit = kit_of(statement)
    names = [it for found in statement.uses.values() for it in found if isinstance(it, str)]
    declared = {it.split(".")[-1] for it in names if ".declared." in it and not (TOP / declared_in(it)[0]).exists()}
    built_in = {it.split(".")[-1] for it in names if ".declared." not in it}
    everything = [it for found in kit.values() for it in found]
    yield KIT.format(
        count=len(everything),
        lines=count_of(statement, everything),
        declared=code(sorted(declared)),
        built_in=wrapped(code(sorted(built_in | BUILT_IN))),
    )
    for file, found in kit.items():
        yield f"- `{file}`, {count_of(statement, found)} lines: {code(it.name for it in found)}"


def page_of(statement: Statement) -> str:
    """Returns the text of the page."""
    ours = [it for it in statement.order if it.is_ours]
    read = {*statement.library.find(*GRAMMAR).members()} - statement.left_out
    handed = names_handed_on(statement, {it.key for it in statement.order})
    rules = OTHER_RULES if MINIMAL in statement.left_out else ""
    counts = {"count": len(ours), "lines": count_of(statement, ours)}
    lines = [WORDS, READING.format(**counts, read=code(sorted(read)), handed=wrapped(code(handed)), rules=rules)]
    lines += [TYPES, *types_of(statement)]
    for number, (section, part) in enumerate(zip(SECTIONS, parts_of(statement)), 1):
        lines += [f"## {number}. {section.title}\n", wrapped(section.words) + "\n", *texts_of(statement, part)]
    lines += [CONTRACTS, *(f"```rust\n{contract_of(name)}```\n" for name in FUNCTIONS), *kit_list(statement)]
    return "\n".join(lines) + "\n"


def listed_in(page: str) -> Set[Tuple[str, str]]:
    """Returns the definitions that a page has, or names as those of the kit, each with its file."""
    listed: Set[Tuple[str, str]] = set()
    for file, text in re.findall(r"^`([^`\n]*)`\n\n```text\n(.*?)^```$", page, re.M | re.S):
        listed |= {(file, name) for _, name, _ in beginnings(text.splitlines())}
    for file, names in re.findall(r"^- `(.*)`, \d+ lines: (.*)$", page, re.M):
        listed |= {(file, name) for name in re.findall("`([^`]*)`", names)}
    return listed


def complaints_of(statement: Statement, page: str) -> Iterator[str]:
    """Yields each name in what is read that means nothing, or more than one thing, or something that is not on the page."""
    listed = listed_in(page)
    yield from (f"{it.name}: {wrong}" for it in statement.steps[0] if (wrong := unlisted(statement, it, listed)))
    for definition in statement.order:
        bound = bound_in(statement.library, statement.module_of(definition), definition)
        for word in dict.fromkeys(words_in(statement.followed(definition, statement.read_of(definition)))):
            is_plain = word[0] in ".ℓ" or word in RESERVED or word in BUILT_IN or NUMBER.fullmatch(word)
            if not is_plain and (wrong := complaint_of(statement, definition, word, bound, listed)):
                yield f"{definition.file}: `{word}` in `{definition.name}` {wrong}"


def complaint_of(statement: Statement, definition: Definition, word: str, bound: Set[str], listed: Set[Tuple[str, str]]) -> str:
    """Returns what is wrong with a word of a definition, or nothing."""
    found = statement.library.meanings(statement.module_of(definition), word)
    if word.split(".")[0] in bound:
        is_member = word in definition.members()
        return "is a variable, and the name of a definition" if found and not is_member else ""
    if not found:
        return "means nothing"
    for it in found:
        if isinstance(it, str) and not it.startswith("Prim.") and ".declared." not in it:
            return f"is {it}, which is not there"
        if isinstance(it, Definition) and (wrong := unlisted(statement, it, listed)):
            return wrong
    return ""


def unlisted(statement: Statement, definition: Definition, listed: Set[Tuple[str, str]]) -> str:
    """Returns that a definition is not on the page, or nothing."""
    file = definition.file.relative_to(TOP if definition.is_ours else statement.library.kit)
    return "" if (str(file), definition.name) in listed else f"means a definition of {file} that is not on the page"


def counts_of(statement: Statement) -> Dict[str, int]:
    """Returns how many lines and definitions are read: those of this repository and of the kit; and the lines more for which refusal it is."""
    ours = [it for it in statement.order if it.is_ours]
    kit = [it for it in statement.order if not it.is_ours]
    exact = Statement(statement.library, [*statement.roots, EXACT])
    more = count_of(exact, [it for it in exact.order if it.is_ours]) - count_of(statement, ours)
    numbers = [count_of(statement, ours), len(ours), count_of(statement, kit), len(kit), more]
    return dict(zip(["lines", "definitions", "lines of the kit", "definitions of the kit", "lines more"], numbers))


# Each number of lines that a document states: the document, what is before and after it, and what it counts.
STATED = [
    ("docs/TRUST.md", r"(rests on )[0-9,]+( lines of definitions:)", ("lines", "lines of the kit")),
    ("docs/TRUST.md", r"(rests on [0-9,]+ lines of definitions: )[0-9,]+( of)", ("lines",)),
    ("docs/TRUST.md", r"(, and )\d+( of the kit)", ("lines of the kit",)),
    ("docs/TRUST.md", r"(`refines` rests on )\d+( lines more)", ("lines more",)),
]


def stated(counts: Dict[str, int]) -> Dict[str, str]:
    """Returns the documents that state how many lines there are, by their names. Raises `SystemExit` if one does not."""
    texts = {name: (TOP / name).read_text() for name, _, _ in STATED}
    for name, pattern, counted in STATED:
        number = f"{sum(counts[it] for it in counted):,}"
        texts[name], found = re.subn(pattern, rf"\g<1>{number}\g<2>", texts[name])
        if found != 1:
            raise SystemExit(f"{name}: it does not say once how many {counted[0]} there are")
    return texts


def files() -> Dict[str, str]:
    """Returns the text of the page and of what counts its lines, by their names. Raises `SystemExit` if a name in the page means nothing."""
    statement = headline(Library())
    page = page_of(statement)
    if complaints := [*complaints_of(statement, page), *stale_names([it for it in statement.order if it.is_ours])]:
        raise SystemExit("\n".join(complaints))
    return {str(PAGE.relative_to(TOP)): page, **stated(counts_of(statement))}


if __name__ == "__main__":
    if sys.argv[1:] != ["--counts"]:
        sys.exit("usage: python3 scripts/headline.py --counts")
    print(*(f"{it}: {count}" for it, count in counts_of(headline(Library())).items()), sep="\n")
