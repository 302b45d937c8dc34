"""What repeats bindings/records.toml: the records of the packages for Python, Rust and Java, and what reads them from rows; and a table of the keys of
the JSON of a message."""

import re
import textwrap
from pathlib import Path
from typing import Dict, Iterator, List

from calls import in_words
from schema import SCHEMA, Field, Record, Schema, schema
from texts import Region, filled

TOP = Path(__file__).resolve().parent.parent
PYTHON = "bindings/python/cms_canon/_fields.py"
RUST = "bindings/rust/src/records.rs"
JAVA = "bindings/java/src/cmscanon"
FORMATS = "docs/FORMATS.md"
WIDTH = 132
MARK = "    // What follows is written by hand.\n"  # in a record of Java


def what(record: Record) -> str:
    """Returns the documentation of a record, with the section after what it is."""
    before, colon, after = record.says.partition(":")
    return f"{before} ({record.section}){colon}{after}."


def wrapped(text: str, indent: str, more: str = "") -> List[str]:
    return textwrap.wrap(text, WIDTH, initial_indent=indent, subsequent_indent=indent + more, break_on_hyphens=False)


def assigned(to: str, read: str, indent: str) -> List[str]:
    line = f"{to} = {read}"
    return [line] if len(line) <= WIDTH else [f"{to} =", f"{indent}{read}"]


def in_order_of_rows(fields: List[Field]) -> List[Field]:
    """Returns fields in the order in which they are read: the row of a list is looked at before it is taken."""
    found: List[Field] = []
    for field in fields:
        names = [it.name for it in found]
        found.insert(names.index(field.head_of) if field.head_of else len(found), field)
    return found


def row_of(record: Record, field: Field, kinds: str) -> str:
    """Returns the kind and the level of the row of a field, for the code that reads a record."""
    level = "level" if record.flat else "inner"
    return f"{kinds}{field.kind}, {level}" if field.kind else "kind, level"


class Writer:
    """What the languages have in common."""

    language, none, link = "", "", ""

    def __init__(self, known: Schema) -> None:
        self.types, self.records = known.types, known.records

    def fields(self, record: Record) -> List[Field]:
        return [it for it in record.fields if self.language in it.only]

    def is_optional(self, field: Field) -> bool:
        return field.is_optional and self.language not in field.empty

    def said(self, field: Field) -> str:
        text = field.says.replace("{none}", "empty" if self.language in field.empty else self.none)
        return re.sub(r"`([A-Z]\w+)\.(\w+)`", self.link, text)


# ---- Python


class Python(Writer):
    language, none, link = "python", "None", r"`\1.\2`"

    def declared(self, field: Field) -> str:
        item = field.type if field.type in self.records else self.types[field.type].python[0]
        whole = f"Tuple[{item}, ...]" if field.is_list else item
        return f"Optional[{whole}]" if field.is_optional else whole

    def read(self, field: Field) -> str:
        snake = re.sub("(?<=[a-z])(?=[A-Z])", "_", field.type).lower()
        item = f"_{snake}" if field.type in self.records else self.types[field.type].python[1]
        reader = f"self.{item}{'s' if field.is_list else ''}"
        if field.member:
            return f"{reader}(kinds.{field.kind}, kinds.{field.member})"
        return f"self._if({reader}, kinds.{field.kind})" if field.is_optional else f"{reader}(kinds.{field.kind})"

    def property(self, field: Field) -> Iterator[str]:
        more = self.types[field.type].python[2:] if field.type in self.types else ()
        yield ""
        yield "    @cached_property"
        yield f"    def {field.name}(self) -> {self.declared(field)}:"
        yield from wrapped(f'"""{" ".join([self.said(field), *more])}"""', " " * 8)
        yield f"        return {self.read(field)}"

    def record(self, record: Record) -> Iterator[str]:
        yield f"class {record.name}({record.python}):"
        yield from wrapped(f'"""{what(record)}"""', " " * 4)
        if record.python != "NamedTuple":
            yield from (line for it in self.fields(record) for line in self.property(it))
            return
        yield ""
        for it in self.fields(record):
            yield f"    {it.name}: {self.declared(it)}{f' = {it.default}' if it.default else ''}"
            yield from wrapped(f'"""{self.said(it)}"""', " " * 4)

    def of_message(self) -> Iterator[str]:
        """Yields the properties that a message has of its SignedData."""
        for it in self.fields(self.records["SignedData"]):
            is_tuple = it.is_list and not it.is_optional
            yield ""
            yield "    @property"
            yield f"    def {it.name}(self) -> {self.declared(it if is_tuple else it._replace(is_optional=True))}:"
            yield f'        """{"Those" if it.is_list else "That"} of the SignedData."""'
            yield f"        return {'()' if is_tuple else 'None'} if self.signed_data is None else self.signed_data.{it.name}"


# ---- Rust


class Rust(Writer):
    language, none, link = "rust", "none", r"[`\1::\2`]"

    def declared(self, field: Field) -> str:
        item = f"{field.type}<'a>" if field.type in self.records else self.types[field.type].rust
        whole = f"Vec<{item}>" if field.is_list else item
        return f"Option<{whole}>" if self.is_optional(field) else whole

    def is_copied(self, record: Record) -> bool:
        inner = [self.records[it.type] for it in self.fields(record) if it.type in self.records]
        return not re.search("Vec|Cow", "".join(map(self.declared, self.fields(record)))) and all(map(self.is_copied, inner))

    def struct(self, record: Record) -> Iterator[str]:
        yield from wrapped(what(record), "/// ")
        yield f"#[derive(Clone, {'Copy, ' if self.is_copied(record) else ''}Debug, PartialEq, Eq)]"
        yield "#[non_exhaustive]"
        yield f"pub struct {record.name}<'a> {{"
        for it in self.fields(record):
            yield from wrapped(self.said(it), "    /// ")
            yield f"    pub {it.name}: {self.declared(it)},"
        yield "}"

    def read(self, record: Record, field: Field) -> str:
        row = row_of(record, field, "kinds::")
        if field.head_of:
            return f"rows.peek({row})"
        if field.member:
            return f"rows.below({row}, kinds::{field.member})?{'.unwrap_or_default()' if 'rust' in field.empty else ''}"
        if field.given or field.not_given:
            return f"rows.read_if({f'{field.given}.is_some()' if field.given else f'{field.not_given}.is_none()'}, {row})?"
        return f"rows.read({row})?"

    def reader(self, record: Record) -> Iterator[str]:
        fields = self.fields(record)
        yield f"impl<'a> Read<'a> for {record.name}<'a> {{"
        yield "    fn read(rows: &mut Rows<'a, '_>, kind: u32, level: u32) -> Result<Self, Error> {"
        yield from ["        rows.take(kind, level);"] if fields[0].kind else []
        yield from ["        let inner = level + 1;"] if not record.flat else []
        for it in in_order_of_rows(fields):
            yield from assigned(f"        let {it.name}: {self.declared(it)}", f"{self.read(record, it)};", " " * 12)
        line = f"        Ok({record.name} {{ {', '.join(it.name for it in fields)} }})"
        if len(line) <= WIDTH:
            yield line
        else:
            yield from (f"        Ok({record.name} {{", *(f"            {it.name}," for it in fields), "        })")
        yield "    }"
        yield "}"

    def file(self) -> Iterator[str]:
        yield f"//! The records of `{SCHEMA}`, and what reads them from rows. `scripts/generate` writes this file."
        yield ""
        yield "use std::borrow::Cow;"
        yield ""
        yield "use crate::error::Error;"
        yield "use crate::kinds;"
        yield "use crate::rows::{Read, Rows};"
        yield "use crate::values::{GeneralizedTime, Integer, NamedBits, Oid};"
        for record in self.records.values():
            yield from ("", *self.struct(record), "", *self.reader(record))


# ---- Java


class Java(Writer):
    language, none, link = "java", "null", r"{@link \1#\2}"

    def declared(self, field: Field) -> str:
        item = field.type if field.type in self.records else self.types[field.type].java[0]
        return f"List<{item}>" if field.is_list else item

    def noted(self, field: Field) -> str:
        """Returns the annotation of what may be null."""
        return "@Nullable " if self.is_optional(field) or field.type == "signed" else ""

    def parameter(self, field: Field) -> List[str]:
        text = re.sub(r"`([^`]*)`", r"{@code \1}", self.said(field)).removesuffix(".")
        text = text[0].lower() + text[1:] if re.match("[A-Z][a-z ]", text) else text
        return wrapped(f"@param {in_words(field.name)} {text}", " * ", " " * 4)

    def constructor(self, record: Record) -> Iterator[str]:
        """Yields what copies lists and refuses null, if there is anything to copy or to refuse."""
        fields = self.fields(record)
        lists = [it for it in fields if it.is_list]
        needed = [it for it in fields if not it.is_list and not it.is_optional and self.declared(it) != "boolean"]
        if not lists and not needed:
            return
        yield "    /**"
        yield f"     * {'Copies the lists. ' if lists else ''}Refuses null for what is never absent."
        yield "     *"
        yield from (f"     * @param {it} {{@link #{it}}}" for it in (in_words(it.name) for it in fields))
        yield "     */"
        yield f"    public {record.name} {{"
        yield from (f"        Objects.requireNonNull({in_words(it.name)});" for it in needed)
        for it in lists:
            name = in_words(it.name)
            yield f"        {name} = {f'{name} == null ? null : ' if self.is_optional(it) else ''}List.copyOf({name});"
        yield "    }"

    def record(self, record: Record) -> Iterator[str]:
        fields = self.fields(record)
        yield from ("/**", *wrapped(what(record), " * "), " *", *(line for it in fields for line in self.parameter(it)), " */")
        components = [f"{self.noted(it)}{self.declared(it)} {in_words(it.name)}" for it in fields]
        line = f"public record {record.name}({', '.join(components)}) {{"
        if len(line) <= WIDTH:
            yield line
        else:
            yield f"public record {record.name}("
            yield from (f"        {it}," for it in components[:-1])
            yield f"        {components[-1]}) {{"
        yield from self.constructor(record)

    def file(self, record: Record, by_hand: str) -> str:
        """Returns the text of the file of a record, at whose end is what is written by hand, if there is any."""
        lines = "\n".join([*self.record(record), f"\n{MARK}{by_hand}" if by_hand else "}\n"]).replace("{\n}", "{}")
        used = [it for it in ("java.math.BigInteger", "java.util.List", "java.util.Objects") if re.search(rf"\b{it.rpartition('.')[2]}\b", lines)]
        head = [f"// scripts/generate writes this file from {SCHEMA}{', but for its end' if by_hand else ''}.", "package cmscanon;", ""]
        return "\n".join([*head, *(f"import {it};" for it in used), "", lines])

    def item(self, field: Field, row: str) -> str:
        """Returns what reads an item of a list, or what is no list."""
        if field.type not in self.records:
            return f"{self.types[field.type].java[1]}({row})"
        signed = f", {in_words(field.over) or 'null'}" if self.records[field.type].is_signed else ""
        return f"{self.method(field.type)}({row}{signed})"

    def method(self, record: str) -> str:
        return record[0].lower() + record[1:]

    def read(self, record: Record, field: Field) -> str:
        row = row_of(record, field, "Kind.")
        item, reading = self.item(field, row), f"(row, at) -> {self.item(field, 'row, at')}"
        if field.type == "signed":
            return "signed"
        if field.head_of:
            return f"rows.peek({row})"
        if field.member:
            found = f"rows.below({row}, Kind.{field.member}, {reading})"
            return f"Rows.orEmpty({found})" if "java" in field.empty else found
        if field.is_list:
            return f"rows.all({row}, {reading})"
        if field.given or field.not_given:
            return f"{in_words(field.given or field.not_given)} {'!=' if field.given else '=='} null ? {item} : null"
        return f"rows.has({row}) ? {item} : null" if field.is_optional else item

    def reader(self, record: Record) -> Iterator[str]:
        fields, signed = self.fields(record), ", Octets signed" if record.is_signed else ""
        yield f"    {record.name} {self.method(record.name)}(int kind, int level{signed}) {{"
        yield from ["        rows.take(kind, level);"] if fields[0].kind else []
        yield from ["        int inner = level + 1;"] if not record.flat else []
        for it in in_order_of_rows(fields):
            yield from assigned(f"        {self.declared(it)} {in_words(it.name)}", f"{self.read(record, it)};", " " * 16)
        yield from wrapped(f"return new {record.name}({', '.join(in_words(it.name) for it in fields)});", " " * 8, " " * 8)
        yield "    }"

    def readers(self) -> Iterator[str]:
        yield f"// scripts/generate writes this file from {SCHEMA}."
        yield "package cmscanon;"
        yield ""
        yield "import java.math.BigInteger;"
        yield "import java.util.List;"
        yield ""
        yield "/** Makes records of rows. The first row of a record is of the kind and the level that a method takes. */"
        yield "final class RecordReader {"
        yield "    private final Rows rows;"
        yield ""
        yield "    RecordReader(Rows rows) {"
        yield "        this.rows = rows;"
        yield "    }"
        yield from (line for it in self.records.values() for line in ("", *self.reader(it)))
        yield "}"

    def of_message(self) -> Iterator[str]:
        """Yields the methods that a message has of its SignedData."""
        for it in self.fields(self.records["SignedData"]):
            name, absent = in_words(it.name), "List.of()" if it.is_list and not it.is_optional else "null"
            yield ""
            yield f"    /** {{@return {{@link SignedData#{name}}}}} */"
            yield from ["    @Nullable"] if absent == "null" else []
            yield f"    public {self.declared(it)} {name}() {{"
            yield f"        return signedData == null ? {absent} : signedData.{name}();"
            yield "    }"


# ---- JSON

JSON_OF_TYPES = {
    "integer": "a number", "thousandths": "a number", "identifier": "an OBJECT IDENTIFIER", "element": "an element", "long_element": "an element",
    "string": "octets", "long_string": "octets", "flag": "`true` or `false`", "text": "text", "bits": "a list of numbers", "time": "a time, or `null`",
}
TST_INFO = "TstInfo, or `null`"  # which a SignedData has last, and which is no row of it


class Json(Writer):
    """The object of JSON of a message, which has the fields of Python."""

    language = "python"

    def value(self, field: Field) -> str:
        item = field.type if field.type in self.records else JSON_OF_TYPES[field.type]
        whole = f"a list of {field.type if field.type in self.records else f'{item}s'.split(maxsplit=1)[1]}" if field.is_list else item
        return f"{whole}, or `null`" if field.is_optional else whole

    def table(self) -> Iterator[str]:
        yield "| object | key | value |"
        yield "|---|---|---|"
        for record in self.records.values():
            rows = [(it.name, self.value(it)) for it in self.fields(record)]
            for number, (key, value) in enumerate([*rows, *([("tst_info", TST_INFO)] if record.name == "SignedData" else [])]):
                yield f"| {'' if number else record.name} | `{key}` | {value} |"


# ---- files


def region(file: str, begin: str, end: str, lines: Iterator[str]) -> Region:
    return Region(file, f"{begin}: scripts/generate writes this from {SCHEMA}.", end, lambda: [*lines, ""])


def in_formats(lines: Iterator[str]) -> Region:
    return Region(FORMATS, f"<!-- keys: scripts/generate writes this from {SCHEMA} -->", "<!-- the end of keys -->", lambda: ["", *lines, ""])


def regions(python: Python, java: Java, json: Json) -> Iterator[Region]:
    """Yields the parts of files of which others are written by hand."""
    yield in_formats(json.table())
    for it in python.records.values():
        yield region(PYTHON, f"# {it.name}", f"    # The end of {it.name}.", python.record(it))
    yield region(PYTHON, "    # What is in a SignedData", "    # The end of what is in a SignedData.", python.of_message())
    yield region(f"{JAVA}/Message.java", "    // What is in a SignedData", "    // The end of what is in a SignedData.", java.of_message())


def files() -> Dict[str, str]:
    """Returns the texts of the files, by their names. Raises `SystemExit` if the schema is wrong, or if a mark is missing."""
    known = schema()
    python, java, json = Python(known), Java(known), Json(known)
    found = {RUST: "\n".join([*Rust(known).file(), ""]), f"{JAVA}/RecordReader.java": "\n".join([*java.readers(), ""])}
    for record in known.records.values():
        name = f"{JAVA}/{record.name}.java"
        text = (TOP / name).read_text(encoding="utf-8") if (TOP / name).exists() else ""
        found[name] = java.file(record, text.partition(MARK)[2])
    for it in regions(python, java, json):
        found[it.file] = filled(found.get(it.file) or (TOP / it.file).read_text(encoding="utf-8"), it)
    return found
