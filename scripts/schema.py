"""The records of bindings/records.toml, whose head says what each key is. What is wrong there is refused, by its name."""

import re
import tomllib
from pathlib import Path
from typing import Any, Collection, Dict, Iterator, List, NamedTuple, Sequence, Tuple

from kinds import HEADER, kinds

TOP = Path(__file__).resolve().parent.parent
SCHEMA = "bindings/records.toml"
LANGUAGES = ("python", "rust", "java")
SECTION = re.compile(r"RFC \d+, sections? [\d.]+( and [\d.]+)?")


class Type(NamedTuple):
    """What the octets of its row are, and in each language how it is declared, and what reads it."""

    row: str = ""
    python: Sequence[str] = ()
    rust: str = ""
    java: Sequence[str] = ()


class Field(NamedTuple):
    name: str
    type: str  # without `optional` and `list of`
    is_optional: bool
    is_list: bool
    says: str
    kind: str = ""
    member: str = ""
    only: Sequence[str] = LANGUAGES
    empty: Sequence[str] = ()
    given: str = ""  # `with`
    not_given: str = ""  # `without`
    head_of: str = ""
    over: str = ""
    default: str = ""


class Record(NamedTuple):
    name: str
    fields: List[Field]
    section: str
    says: str
    kind: str = ""
    python: str = "Part"
    flat: bool = False

    @property
    def is_signed(self) -> bool:
        """Whether what reads it has to know what the signer that it is or that is around it signs."""
        return any("signed" in (it.type, it.over) for it in self.fields)


class Schema(NamedTuple):
    types: Dict[str, Type]
    records: Dict[str, Record]

    def row_of(self, name: str) -> str:
        """Returns what the octets of the row of a type or of a record are."""
        if name not in self.records:
            return self.types[name].row
        first = self.records[name].fields[0]
        return "none" if first.kind else self.row_of(first.type)


# ---- what is wrong in the file

RENAMED = {"with": "given", "without": "not_given"}  # what is a word of Python
KEYS_OF_FIELD = {*Field._fields, *RENAMED} - {"name", "is_optional", "is_list", *RENAMED.values()}
KEYS_OF_RECORD = {*Record._fields} - {"name"}


def complaints_of_keys(where: str, table: Dict[str, Any], needed: Collection[str], known: Collection[str]) -> Iterator[str]:
    yield from (f"{where} has no `{it}`" for it in needed if it not in table)
    yield from (f"{where} has `{it}`, which is no key" for it in table if it not in known)


def complaints_of_tables(tables: Dict[str, Any]) -> Iterator[str]:
    """Yields each key that is missing or not known."""
    yield from complaints_of_keys("the file", tables, ("types", "records"), ("types", "records"))
    for name, table in tables.get("types", {}).items():
        yield from complaints_of_keys(f"the type {name}", table, (), Type._fields)
    for name, table in tables.get("records", {}).items():
        yield from complaints_of_keys(name, table, ("section", "says", "fields"), KEYS_OF_RECORD)
        for field, words in table.get("fields", {}).items():
            yield from complaints_of_keys(f"{name}.{field}", words, ("type", "says"), KEYS_OF_FIELD)


def complaints_of_type(field: Field, schema: Schema) -> Iterator[str]:
    if field.type in schema.types:
        yield from (f"is in {it}, and its type is not" for it in field.only if not getattr(schema.types[field.type], it, ()))
    elif field.type not in schema.records:
        yield f"is of the type `{field.type}`, which is neither a type nor a record"


def complaints_of_field(field: Field, above: List[str], schema: Schema) -> Iterator[str]:
    """Yields what is wrong in a field that comes after those with these names."""
    yield from complaints_of_type(field, schema)
    named = [field.given, field.not_given, field.head_of, *([field.over] if field.over != "signed" else [])]
    yield from (f"names the field {it}, which is not above it" for it in named if it and it not in above)
    yield from (f"names the language {it}" for it in (*field.only, *field.empty) if it not in LANGUAGES)
    if field.is_optional != ("{none}" in field.says):
        yield "does not say what it is if it is absent, by {none}" if field.is_optional else "is not optional, and has {none}"
    if (field.given or field.not_given or field.head_of or field.empty) and not field.is_optional:
        yield "can be absent, and is not optional"
    if not field.says.endswith("."):
        yield "ends without a full stop"


def complaints_of_rows(record: Record) -> Iterator[str]:
    """Yields each field whose row would be read twice, or is not there."""
    for field in record.fields[1:]:
        if not field.kind and field.type != "signed":
            yield f"{record.name}.{field.name} has no kind, and is not the first field"
    for language in ("rust", "java"):  # Python reads each row by its kind
        taken = [it for it in record.fields if language in it.only and it.kind and not it.head_of]
        kinds_taken = [it.kind for it in taken]
        yield from (f"{record.name}.{it.name} has the kind {it.kind}, which a field above it has in {language}"
                    for number, it in enumerate(taken) if it.kind in kinds_taken[:number])


def kinds_named(schema: Schema) -> Iterator[Tuple[str, str]]:
    for record in schema.records.values():
        yield record.name, record.kind
        for field in record.fields:
            yield from ((f"{record.name}.{field.name}", it) for it in (field.kind, field.member))


def complaints_of_kinds(schema: Schema) -> Iterator[str]:
    known, named = {it.name: it.meaning.partition(":")[0] for it in kinds()}, [*kinds_named(schema)]
    yield from (f"{where} has the kind {it}, which {HEADER} does not have" for where, it in named if it and it not in known)
    yield from (f"nothing has the kind {it} of {HEADER}" for it in known if it not in {kind for _, kind in named})
    for record in schema.records.values():
        for field in record.fields:
            row, octets = schema.row_of(field.type), known.get(field.member or field.kind)
            if octets and octets != row:
                yield f"{record.name}.{field.name} is read from {row or 'no row'}, and the octets of its row are {octets}"


def complaints_of(schema: Schema) -> Iterator[str]:
    for record in schema.records.values():
        if not SECTION.fullmatch(record.section):
            yield f"{record.name} has the section `{record.section}`, which is not as `RFC 5652, section 5.1`"
        for number, field in enumerate(record.fields):
            above = [it.name for it in record.fields[:number]]
            yield from (f"{record.name}.{field.name} {it}" for it in complaints_of_field(field, above, schema))
        yield from complaints_of_rows(record)


# ---- what is in it


def field_of(name: str, words: Dict[str, Any]) -> Field:
    whole = words["type"].removeprefix("optional ")
    others = {RENAMED.get(key, key): it for key, it in words.items() if key != "type"}
    return Field(name, whole.removeprefix("list of "), whole != words["type"], whole.startswith("list of "), **others)


def record_of(name: str, table: Dict[str, Any]) -> Record:
    return Record(name, [field_of(*it) for it in table["fields"].items()], **{key: it for key, it in table.items() if key != "fields"})


def tables_in(text: str) -> Dict[str, Any]:
    try:
        return tomllib.loads(text)
    except tomllib.TOMLDecodeError as wrong:
        line = re.search(r"line (\d+)", str(wrong))
        name = text.splitlines()[int(line[1]) - 1].partition(" =")[0] if line else ""
        raise SystemExit(f"{SCHEMA}: {f'{name} is there twice: ' if 'overwrite' in str(wrong) else ''}{wrong}") from None


def refuse(complaints: Iterator[str]) -> None:
    if found := [f"{SCHEMA}: {it}" for it in complaints]:
        raise SystemExit("\n".join(found))


def schema_in(text: str) -> Schema:
    """Returns the schema in a text. Raises `SystemExit` if it is wrong."""
    tables = tables_in(text)
    refuse(complaints_of_tables(tables))
    types = {name: Type(**words) for name, words in tables["types"].items()}
    schema = Schema(types, {name: record_of(name, table) for name, table in tables["records"].items()})
    refuse(complaints_of(schema))
    refuse(complaints_of_kinds(schema))
    return schema


def schema() -> Schema:
    return schema_in((TOP / SCHEMA).read_text(encoding="utf-8"))
