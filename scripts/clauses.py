#!/usr/bin/env python3
"""Looks for clauses that say nothing: fields of records that follow from the others, and definitions that hold of anything.

    python3 scripts/clauses.py CRATE[/FILE]..

For each definition in the specs/ of a crate, but for `internal`, it writes lemmas into a copy of the crates, and lets the prover's tactics
try them: of each field of a record, that it follows from the other fields; of a record, and of each clause of an `abbrev` into `Type 0`,
that it holds of any arguments. Where values may be chosen, it tries [], 0, None and what is given of the same type, and supposes one of a
type that has none of these; a statement that applies a parameter, as `P contents`, may be assumed. It prints what was proved, and what it
has no lemma for. That a tactic fails is no proof that something is excluded, so tests/data/clauses.toml says what shows it;
tests/test_lint.py asks for a line for each field of a record there.
"""

import os
import re
import shutil
import subprocess
import sys
import tempfile
import time
from dataclasses import dataclass, field
from itertools import islice, product
from pathlib import Path
from typing import Callable, Dict, Iterator, List, Optional, Tuple

from antt import TOP, Definition, Library, definitions_of

TRIES = "first_of (cc, first_of (search rules, grind (arith, common_steps)))"
IMPORTS = """use Rattle.std.proofs.Common.{rules, arith}
use Rattle.std.proofs.lemmas.Grind.{common_steps}
use mathlib.Core.Logic.{inl, inr}
use Rattle.std.specs.Prelude.{[], None, true}
"""
PROBE = """//! A function whose contract has the lemmas read.

{uses}
/// Does nothing.
pub fn clauses_probe()
    ensures read {{ {read} }}
{{
}}
"""
MOST = 16  # choices of values for one definition
VALUES = {"ℕ": ["0"], "Bool": ["true"]}
TACTICS = re.compile(r"`(cc|search|grind|first_of|omega|assumption)`|\bsteps\b")


@dataclass
class Field:
    """A field of a record, or a parameter: its name and its type. It is a value, or a statement."""

    name: str
    type: str
    is_value: bool = False
    is_implicit: bool = False


@dataclass
class Record:
    """A record: its name, its parameters as they are bound, and its fields."""

    name: str
    parameters: List[Field]
    fields: List[Field]

    def assumed(self, statement: str) -> bool:
        """Returns whether a statement only applies a parameter, as `P contents` does."""
        return statement.split()[0] in [it.name for it in self.parameters if it.type.endswith("Type 0")]


@dataclass
class Lemma:
    """A lemma: what it says in words, its name, and its text."""

    says: str
    name: str
    text: str


@dataclass
class Outcome:
    """What became of the lemmas of a crate."""

    tried: int = 0
    proved: List[str] = field(default_factory=list)
    skipped: List[str] = field(default_factory=list)


def split_at(text: str, mark: str) -> List[str]:
    """Splits a text where a mark is in no bracket."""
    parts, depth = [""], 0
    for word in re.findall(r"[(){}]|[^(){}\s]+|\s+", text):
        depth += (word in "({") - (word in ")}")
        if word == mark and not depth:
            parts.append("")
        else:
            parts[-1] += word
    return [it.strip() for it in parts]


def bracketed(text: str) -> List[str]:
    """Returns what is in brackets in a text, with them: not what is in brackets inside those."""
    found, depth, start = [], 0, 0
    for at, letter in enumerate(text):
        if letter in "({":
            start = start if depth else at
            depth += 1
        if letter in ")}":
            depth -= 1
            if not depth:
                found.append(text[start : at + 1])
    return found


def split_parameters(text: str) -> List[Field]:
    """Returns what a telescope binds."""
    found: List[Field] = []
    for group in bracketed(text):
        names, _, kind = group[1:-1].partition(" : ")
        found += [Field(name, kind.strip(), is_implicit=group[0] == "{") for name in names.split()]
    return found


def is_value_type(library: Library, module: str, kind: str) -> bool:
    """Returns whether a type is that of values, and no statement: one of std or of the code, or a definition `Name : Type 0`."""
    head = kind.strip("(").split()[0].strip("()")
    if head in ("List", "ℕ", "Option", "Bool", "Result"):
        return True
    found = library.find(module, head)
    if isinstance(found, str):
        return ".declared." in found
    line = found.lines[found.above]
    return bool(re.search(rf"\b{re.escape(found.name)} : Type [01]( where)?$", line))


def record_of(definition: Definition, library: Optional[Library] = None) -> Record:
    """Returns what a definition of a record has."""
    text = "\n".join(it for it in definition.lines[definition.above :] if not it.strip().startswith("--"))
    head, _, body = text.partition(" where\n")
    head = re.sub(r"\s+", " ", head)
    fields: List[Field] = []
    for names, kind in re.findall(r"^  pub ((?:[^\s:()]+ )+): ((?:.*\n?)(?:    .*\n?)*)", body, re.M):
        fields += [Field(name, re.sub(r"\s+", " ", kind).strip()) for name in names.split()]
    for at, it in enumerate(fields):
        named = rf"(?<![\w.]){re.escape(it.name)}(?!\w)"
        it.is_value = any(re.search(named, other.type) for other in fields[at + 1 :])
        it.is_value |= bool(library) and is_value_type(library, definition.module, it.type)
    return Record(definition.name, split_parameters(head.partition(definition.name)[2].rpartition(":")[0]), fields)


def binders(pairs: List[Field]) -> str:
    """Returns a telescope that binds these, each of them explicitly."""
    return " ".join(f"({it.name} : {it.type})" for it in pairs)


def arrow(pairs: List[Field]) -> str:
    """Returns the beginning of a type that binds these."""
    return f"{binders(pairs)} → " if pairs else ""


def follows(record: Record) -> Iterator[Lemma]:
    """Yields the lemmas that a field follows from the others."""
    for it in record.fields:
        if it.is_value:
            continue
        pairs = record.parameters + [other for other in record.fields if other is not it]
        name = f"{record.name}_{it.name}"
        left = " ".join([name, *(pair.name for pair in pairs)])
        yield Lemma(f"{record.name}.{it.name} follows", name, f"{name} : {arrow(pairs)}{it.type}\n{left} = {TRIES}\n")


def values_of(kind: str, given: List[Field]) -> List[str]:
    """Returns values to choose for a type: the least one, and what is given."""
    least = VALUES.get(kind, [])
    least = ["[]"] if kind.startswith("List ") else ["None"] if kind.startswith("Option ") else least
    return [*least, *(it.name for it in given if it.type == kind)]


def supposed(wanted: List[Field], given: List[Field]) -> List[Field]:
    """Returns a value to suppose for each type of which there is none to choose."""
    found: List[Field] = []
    for it in wanted:
        if not values_of(it.type, given + found):
            found.append(Field(f"some_{it.name}", it.type))
    return found


def put_in(text: str, chosen: Dict[str, str]) -> str:
    """Puts terms in place of names in a type."""
    for name, term in chosen.items():
        term = f"({term})" if " " in term else term
        text = re.sub(rf"(?<![\w.]){re.escape(name)}(?![\w'])", lambda _, term=term: term, text)
    return text


def made(record: Record, given: List[Field], assume: bool) -> Iterator[Tuple[str, List[str]]]:
    """Yields terms of a record, with values chosen from what is given, no list twice, and the statements that are assumed for them."""
    chosen = [it for it in record.fields if it.is_value]
    for values in product(*(values_of(it.type, given) for it in chosen)):
        known = {it.name: value for it, value in zip(chosen, values)}
        lists = [value for it, value in zip(chosen, values) if it.type.startswith("List ") and value != "[]"]
        if len(set(lists)) < len(lists):
            continue
        assumed: List[str] = []
        parts = [f"{name} = {value}" for name, value in known.items()]
        for it in record.fields:
            if it.is_value:
                continue
            term = TRIES
            if assume and record.assumed(it.type):
                term = f"assumed_{len(assumed)}"
                assumed.append(put_in(it.type, known))
            parts.append(f"{it.name} = {term}")
        yield f"record {{ {'; '.join(parts)} }}", assumed


def holds(record: Record) -> Iterator[Lemma]:
    """Yields the lemmas that a record holds of any arguments, for some choices of its values."""
    if all(it.is_value for it in record.fields):
        return
    goal = " ".join([record.name, *(it.name for it in record.parameters if not it.is_implicit)])
    given = record.parameters + supposed([it for it in record.fields if it.is_value], record.parameters)
    for number, (term, assumed) in enumerate(islice(made(record, given, assume=True), MOST)):
        pairs = given + [Field(f"assumed_{at}", it) for at, it in enumerate(assumed)]
        name = f"any_{record.name}_{number}"
        left = " ".join([name, *(it.name for it in pairs)])
        if_so = f" if {', '.join(assumed)}" if assumed else ""
        yield Lemma(f"{record.name} holds of anything{if_so}, by {shown(term)}", name, f"{name} : {arrow(pairs)}{goal}\n{left} = {term}\n")


def shown(term: str) -> str:
    """Returns a term with `..` for what the tactics find."""
    return term.replace(TRIES, "..")


def terms(body: str, given: List[Field], records: Dict[str, Record]) -> Iterator[str]:
    """Yields terms of a type: by each way of a `⊎`, by a record with chosen values, by chosen values of a `×`, or by tactics."""
    body = body[1:-1] if bracketed(body) == [body] and " : " not in body.split("(")[1] else body
    ways = split_at(body, "⊎")
    if len(ways) > 1:
        for at, way in enumerate(ways):
            for term in terms(way, given, records):
                term = f"inl ({term})" if at + 1 < len(ways) else term
                yield "inr (" * at + term + ")" * at
        return
    parts = split_at(body, "×") if len(split_at(body, "→")) == 1 else [body]
    record = records.get(body.split()[0]) if "→" not in body else None
    if len(parts) > 1:
        choices = [choice for part in parts for choice in choices_of(part, given)]
        yield from (f"({', '.join(it)})" for it in islice(product(*choices), MOST))
    elif record and any(it.is_value for it in record.fields):
        yield from (term for term, _ in islice(made(record, given, assume=False), MOST))
    else:
        yield TRIES


def choices_of(part: str, given: List[Field]) -> List[List[str]]:
    """Returns what to try for a part of a `×`: values for each name that it binds, or tactics for a statement."""
    if re.match(r"\([^():]* : ", part) and bracketed(part) == [part]:
        return [values_of(it.type, given) for it in split_parameters(part)]
    return [[TRIES]]


def variables(patterns: List[str], kinds: List[str], is_constructor: Callable[[str], bool]) -> Iterator[Field]:
    """Yields the variables of the patterns of a clause, with their types, which are `_` in a pattern of the code's types."""
    for pattern, kind in zip(patterns, kinds):
        members = re.findall(r"[^\s()∷]+", pattern)
        for at, word in enumerate(members):
            if not re.match(r"[^\W\d][\w']*$", word) or is_constructor(word):
                continue
            of_list = kind[5:].strip("()") if at + 1 < len(members) else kind
            yield Field(word, kind if word == pattern else of_list if "∷" in pattern and kind.startswith("List ") else "_")


def clauses_of(definition: Definition) -> Tuple[List[str], List[Tuple[List[str], str]]]:
    """Returns the parts of the type of an `abbrev`, and the patterns and the body of each of its clauses, but for implicit ones."""
    lines = [re.sub(r"\s--.*", "", it) for it in definition.lines[definition.above :] if not it.strip().startswith("--")]
    text = "\n".join(lines)
    starts = [*(it.start() for it in re.finditer(rf"^{re.escape(definition.name)}(?= )(?! :)", text, re.M)), len(text)]
    kinds = split_at(re.sub(r"\s+", " ", text[: starts[0]]).partition(" : ")[2], "→")
    found: List[Tuple[List[str], str]] = []
    for start, end in zip(starts, starts[1:]):
        left, _, body = re.sub(r"\s+", " ", text[start:end]).strip().partition(" = ")
        patterns = re.findall(r"\([^()]*(?:\([^()]*\)[^()]*)*\)|\S+", left.partition(" ")[2])
        found.append(([it for it in patterns if not it.startswith("{")], body.strip()))
    return kinds[:-1], found


def is_statement(definition: Definition) -> bool:
    """Returns whether a definition is an `abbrev` into `Type 0`."""
    text = "\n".join(definition.lines[definition.above :])
    head = re.split(rf"\n{re.escape(definition.name)} ", text)[0]
    return head.startswith("abbrev") and bool(re.search(r": [^=]*→ Type 0$", head))


def variants_of(library: Library, module: str) -> Dict[str, Tuple[str, List[str]]]:
    """Returns the enums of the code that a module imports, if no variant has fields: the module of their variants, and the variants."""
    read = library.module(module)
    found: Dict[str, Tuple[str, List[str]]] = {}
    for name, (path, _) in (read.uses if read else {}).items():
        if ".declared." in path and path.startswith("Rattle.cms_"):
            code = "".join(it.read_text() for it in (TOP / "crates" / path.split(".")[1] / "src").glob("*.rt"))
            enum = re.search(rf"^pub enum {name} {{\n(.*?)^}}", code, re.M | re.S)
            lines = [it.strip() for it in enum[1].splitlines()] if enum else []
            lines = [it for it in lines if not it.startswith(("//", "#"))]
            if lines and all(re.fullmatch(r"\w+(?: = \d+)?,", it) for it in lines):
                found[name] = f"{path}.TheVariants", [re.match(r"\w+", it)[0] for it in lines]
    return found


@dataclass
class Context:
    """What the lemmas about clauses need to know of a module."""

    records: Dict[str, Record]
    variants: Dict[str, Tuple[str, List[str]]]
    is_constructor: Callable[[str], bool]

    def bound(self, goal: str) -> Iterator[Field]:
        """Yields the values that a goal binds: by `×`, and by the fields of records that are applied in it."""
        for names, kind in re.findall(r"\(([^():]+) : ([^()]*(?:\([^()]*\)[^()]*)*)\) ×", goal):
            yield from (Field(name, kind) for name in names.split())
        for record in (self.records[it] for it in re.findall(r"[^\s()]+", goal) if it in self.records):
            names = {it.name for it in record.parameters}
            yield from (it for it in record.fields if it.is_value and not names & set(re.findall(r"\w+", it.type)))

    def chosen(self, given: List[Field], body: str) -> Iterator[Dict[str, str]]:
        """Yields variants to put in place of a variable that a clause names: none, and each of one variable."""
        yield {}
        for it in given:
            if it.type in self.variants and re.search(rf"(?<![\w.]){it.name}(?![\w'])", body):
                yield from ({it.name: f"of_{it.type}.{variant}"} for variant in self.variants[it.type][1])


def cases(definition: Definition, context: Context) -> Iterator[Lemma]:
    """Yields the lemmas that a clause of an `abbrev` into `Type 0` holds of any arguments, and with each variant of one of them."""
    kinds, found = clauses_of(definition)
    implicit = [it for kind in kinds if kind.startswith("{") for it in split_parameters(kind)]
    explicit = [it for it in kinds if not it.startswith("{")]
    for number, (patterns, body) in enumerate(found):
        if len(patterns) != len(explicit) or body == "⊥":
            continue
        known = [*variables(patterns, explicit, context.is_constructor)]
        known = [it for it in known if it.type != "_" or re.search(rf"(?<![\w.]){it.name}(?![\w'])", body)]
        for at, chosen in enumerate(context.chosen(known, body)):
            given = [it for it in known if it.name not in chosen]
            goal = put_in(body, chosen)
            given += supposed([*context.bound(goal)], given)
            pairs = [Field(it.name, it.type) for it in implicit] + given
            left = " ".join([definition.name, *(chosen.get(it, it) for it in patterns)])
            for choice, term in enumerate(terms(goal, given, context.records)):
                name = f"any_{definition.name}_{number}_{at}_{choice}"
                own = " ".join([name, *(it.name for it in pairs)])
                yield Lemma(f"{left} holds of anything, by {shown(term)}", name, f"{name} : {arrow(pairs)}{goal}\n{own} = {term}\n")


def lemmas_of(file: Path, crate: str, library: Library, outcome: Outcome) -> Iterator[Lemma]:
    """Yields the lemmas about the definitions of a file, and notes the definitions that have none."""
    module = f"Rattle.{crate}.specs.{file.stem}"
    found = [*definitions_of(module, file)]
    records = {it.name: record_of(it, library) for it in found if it.words[0] == "record"}
    every = {**imported_records(module, library), **records}
    context = Context(every, variants_of(library, module), lambda word: names_constructor(library, module, word))
    for it in found:
        text = "\n".join(it.lines[it.above :])
        if it.around:
            if it.is_type or is_statement(it):
                outcome.skipped.append(f"{it.name}: it is in `{it.around}`")
        elif it.words[0] == "record":
            of_it = [*follows(records[it.name]), *holds(records[it.name])]
            values = all(value.is_value for value in records[it.name].fields)
            if values or "ℓ" in text or " : Type 1 where" in text:
                outcome.skipped.append(f"{it.name}: " + ("its fields are values" if values else "it is of no `Type 0`"))
            else:
                yield from of_it
        elif is_statement(it):
            of_it = [] if "\n  where" in text else [*cases(it, context)]
            if not of_it:
                outcome.skipped.append(f"{it.name}: it has a `where`, leaves out arguments, or is ⊥")
            yield from of_it


def names_constructor(library: Library, module: str, word: str) -> bool:
    """Returns whether a word is a constructor in a module, and so no variable on the left of a clause."""
    read = library.module(module)
    known = library.find(*read.uses.get(word, (module, word))) if read else word
    return ".declared." in known if isinstance(known, str) else known.is_data


def imported_records(module: str, library: Library) -> Dict[str, Record]:
    """Returns the records that a module imports."""
    uses = library.module(module)
    found = {name: library.find(*key) for name, key in uses.uses.items()} if uses else {}
    ours = {name: it for name, it in found.items() if isinstance(it, Definition) and it.is_ours}
    return {name: record_of(it, library) for name, it in ours.items() if it.words[0] == "record"}


def write_module(crate: Path, file: Path, lemmas: List[Lemma], library: Library) -> Dict[int, Lemma]:
    """Writes a file of lemmas about a file of definitions, and returns which is at each of its lines."""
    own = ", ".join(it.name for it in definitions_of("", file) if "pub" in it.lines[it.above].split(it.name)[0] and not it.around)
    uses = "".join(it.removeprefix("pub ") + "\n" for it in file.read_text().splitlines() if re.match("(pub )?use ", it))
    variants = variants_of(library, f"Rattle.{crate.name}.specs.{file.stem}")
    uses += "".join(f"use {path} as of_{name}\n" for name, (path, _) in variants.items())
    text = IMPORTS + uses + (f"use Rattle.{crate.name}.specs.{file.stem}.{{{own}}}\n" if own else "")
    text += f"\nabbrev pub read_{file.stem} : Type 0\nread_{file.stem} = Unit {{0}}\n\n"
    at: Dict[int, Lemma] = {}
    for lemma in lemmas:
        first = text.count("\n") + 1
        at.update({line: lemma for line in range(first, first + lemma.text.count("\n"))})
        text += lemma.text + "\n"
    (crate / "specs" / f"Says{file.stem}.antt").write_text(text)
    return at


def write_probe(crate: Path, files: List[str]) -> None:
    """Writes a function whose contract has the modules of lemmas read."""
    uses = "".join(f"ghost use Rattle.{crate.name}.specs.Says{it}.{{read_{it}}};\n" for it in files)
    (crate / "src/clauses_probe.rt").write_text(PROBE.format(uses=uses, read=" × ".join(f"read_{it}" for it in files)))
    for file, line in [("specs/Lib.antt", f"pub mod Says{it}") for it in files] + [("src/lib.rt", "mod clauses_probe;")]:
        lines = (crate / file).read_text().splitlines()
        if line not in lines:
            (crate / file).write_text("\n".join([*lines, line, ""]))


def errors_of(crate: Path) -> Iterator[Tuple[str, int, str]]:
    """Has the lemmas read, and yields the errors: the module, the line and the message."""
    command = ["rt", "check", "--jobs", "1", "--only", f"{crate.name}::clauses_probe::clauses_probe"]
    ran = subprocess.run(command, cwd=crate, capture_output=True, text=True, check=False)
    printed = ran.stdout + ran.stderr
    parts = re.split(r"^(?=\S+\.antt:\d+:\d+: |fn |note: )", printed, flags=re.M)
    found = [it for part in parts if (it := re.match(r"\S*Says(\w+)\.antt:(\d+):\d+: error: (.*)", part, re.S))]
    if "only=1" not in printed or not found and "only=1 proved=1" not in printed:
        sys.exit(printed)
    yield from ((it[1], int(it[2]), it[3]) for it in found)


def prove(crate: Path, lemmas: Dict[str, List[Lemma]], library: Library, outcome: Outcome) -> None:
    """Leaves out the lemmas that the prover refuses until it refuses none, and notes why each was left out."""
    while any(lemmas.values()):
        at = {name: write_module(crate, crate / "specs" / f"{name}.antt", of_it, library) for name, of_it in lemmas.items()}
        write_probe(crate, [*lemmas])
        errors = [*errors_of(crate)]
        for name, line, message in errors:
            lemma = at[name].get(line)
            if not TACTICS.search(message):
                of_what = lemma.says.partition(" holds of")[0] if lemma else name
                outcome.skipped.append(f"{of_what}: {message.splitlines()[0][:200]}")
            lemmas[name] = [it for it in lemmas[name] if lemma and it is not lemma]
        if not errors:
            break
    outcome.proved = [*dict.fromkeys(it.says for of_it in lemmas.values() for it in of_it)]


def try_crate(crate: Path, only: str) -> Outcome:
    """Tries the lemmas about a crate's definitions, or those of one of its files."""
    outcome, library = Outcome(), Library()
    files = [it for it in sorted((crate / "specs").glob("*.antt")) if it.stem != "Lib" and only in ("", it.stem)]
    lemmas = {it.stem: [*lemmas_of(TOP / it.relative_to(crate.parent.parent), crate.name, library, outcome)] for it in files}
    lemmas = {name: of_it for name, of_it in lemmas.items() if of_it}
    outcome.tried = sum(map(len, lemmas.values()))
    prove(crate, lemmas, library, outcome)
    return outcome


def copy_file(source: str, to: str) -> None:
    """Copies a file, and only links a large one that a check kept: a check changes small ones in place."""
    (os.link if "/out/" in source and os.path.getsize(source) > 1 << 16 else shutil.copy)(source, to)


def main(names: List[str]) -> None:
    """Tries crates, or files of crates, in one copy, and prints what was proved of each."""
    with tempfile.TemporaryDirectory(dir=TOP.parent) as folder:
        copy = Path(folder) / "copy"
        shutil.copytree(TOP, copy, ignore=shutil.ignore_patterns(".git", "dist", "must-fail"), copy_function=copy_file)
        for name in names:
            crate, _, file = name.partition("/")
            began = time.monotonic()
            outcome = try_crate(copy / "crates" / crate, file)
            print(f"{name}: {outcome.tried} lemmas, {time.monotonic() - began:.0f} s")
            print(*(f"  proved: {it}" for it in outcome.proved), sep="\n")
            print(*(f"  skipped: {it}" for it in dict.fromkeys(outcome.skipped)), sep="\n", flush=True)


if __name__ == "__main__":
    if len(sys.argv) < 2:
        sys.exit(__doc__)
    main(sys.argv[1:])
