"""What repeats the tables of refusals and findings in docs/texts/: the texts of the program and its help, the manual, the documents and the packages."""

import json
import re
import textwrap
import tomllib
from pathlib import Path
from typing import Callable, Dict, Iterable, Iterator, List, NamedTuple, Sequence, Tuple

TOP = Path(__file__).resolve().parent.parent
REFUSALS = "docs/texts/refusals.toml"
FINDINGS = "docs/texts/findings.toml"
MAKER = "Only the maker of the message can fix it."
WIDTH = 79  # columns of help
WIDTH_OF_C = 128
Row = Dict[str, object]


class Meaning(NamedTuple):
    """What a refusal or a finding means, and what to do; empty if only the maker of the message can do anything."""

    number: int
    name: str
    means: str
    remedy: str


class Place(NamedTuple):
    """What a message often is that is refused at such a place."""

    refusals: List[int]
    where: str
    means: str
    remedy: str


def tables_in(name: str) -> Dict[str, List[Row]]:
    with open(TOP / name, "rb") as file:
        return tomllib.load(file)


def numbered(rows: Sequence[Row], name: str) -> List[Row]:
    """Returns rows whose numbers are 1 and those after it. Raises `SystemExit` if they are others."""
    if [it["number"] for it in rows] != [*range(1, len(rows) + 1)]:
        raise SystemExit(f"{name}: the numbers are not 1 and those after it")
    return [*rows]


def lacks() -> List[Meaning]:
    """Returns why a message that is accepted has nothing to hand over."""
    return [Meaning(it["number"], it["name"], it["means"], it["remedy"]) for it in tables_in(REFUSALS)["lack"]]


REFUSED = numbered(tables_in(REFUSALS)["refusal"], REFUSALS)
FOUND = numbered(tables_in(FINDINGS)["finding"], FINDINGS)
PLACES = [Place(**it) for it in tables_in(REFUSALS)["place"]]
WHY = [Meaning(it["number"], it["name"], it["means"], it["remedy"]) for it in REFUSED]
LACKS = lacks()
RULES = [Meaning(it["number"], it["text"], it["means"], it.get("remedy", "")) for it in FOUND]


# ---- help


def wrapped(head: str, text: str, indent: int) -> List[str]:
    """Returns lines that begin with a head, and whose other lines are as far to the right as the text in the first."""
    whole = re.sub(r"`[^`]*`", lambda it: it[0].replace(" ", "\0"), text)  # what is to be typed stays on one line
    lines = [it.replace("\0", " ") for it in textwrap.wrap(whole, WIDTH - indent, break_long_words=False, break_on_hyphens=False)]
    return [f"{head:<{indent}}{lines[0]}", *(" " * indent + it for it in lines[1:])]


def groups_of(meanings: Sequence[Meaning]) -> Iterator[List[Meaning]]:
    """Gives meanings, those together that follow one another and say the same."""
    some: List[Meaning] = []
    for it in meanings:
        if some and (it.means, it.remedy) != (some[0].means, some[0].remedy):
            yield some
            some = []
        some.append(it)
    yield some


def name_of(letter: str, some: Sequence[Meaning]) -> str:
    first, last = some[0].number, some[-1].number
    return f"{letter}{first}" + ("" if first == last else f", {letter}{last}" if last == first + 1 else f" to {letter}{last}")


def help_of_refusals() -> Iterator[str]:
    yield ""
    for some in groups_of(WHY):
        yield from wrapped(f"  {name_of('E', some)}", f"{some[0].means} {some[0].remedy}", 13)
    yield ""
    yield "At some places it is clear what the input is:"
    yield ""
    for it in PLACES:
        yield f"  {it.where}"
        yield from wrapped("", f"{it.means} {it.remedy}", 13)
    yield ""


def help_of_findings() -> Iterator[str]:
    yield ""
    for it in RULES:
        yield from wrapped(f"  F{it.number}", f"{it.means} {it.remedy}".strip(), 7)
    yield ""


# ---- the manual page


def in_manual(text: str) -> str:
    """Returns a text with what is between backticks in bold, a sentence a line."""
    text = text.replace("-", "\\-")
    text = re.sub(r"`([^`]*)`", r"\\fB\1\\fR", text)
    return re.sub(r"(?<=[.:]) (?=[A-Z])", "\n", text)


def manual_of_refusals() -> Iterator[str]:
    for it in WHY:
        yield from (".sp", "T{", f"E{it.number}", ".br", it.name, "T}\tT{", in_manual(it.means), "T}\tT{", in_manual(it.remedy), "T}")


def manual_of_places() -> Iterator[str]:
    for it in PLACES:
        yield from (".TP", it.where, in_manual(it.means), in_manual(it.remedy))


def manual_of_findings() -> Iterator[str]:
    for it in RULES:
        yield from (".TP", f".B F{it.number} {it.name}", in_manual(it.means), *([in_manual(it.remedy)] if it.remedy else []))


# ---- documents


def row(*cells: str) -> str:
    return "| " + " | ".join(cells) + " |"


def head(*cells: str) -> Iterator[str]:
    yield row(*cells)
    yield "|" + "---|" * len(cells)


def formats_of_refusals() -> Iterator[str]:
    yield from head("no.", "name", "meaning")
    for it in REFUSED:
        yield row(f"E{it['number']}", it["name"], it["exact"])


def formats_of_findings() -> Iterator[str]:
    yield from head("finding", "for", "meaning", "section")
    for it in FOUND:
        for whose, broken, section in it["broken"]:
            yield row(f"F{it['number']}", whose, broken, section)


def formats_of_remedies() -> Iterator[str]:
    yield from head("finding", "what to do")
    for it in RULES:
        if it.remedy:
            yield row(f"F{it.number}", it.remedy)
    yield row("the others", MAKER + " Conversion does not change what is found, but for the numbers of signers.")


def formats_of_texts() -> Iterator[str]:
    yield from head("finding", "text")
    for it in RULES:
        yield row(f"F{it.number}", it.name)


def table_of_refusals() -> Iterator[str]:
    yield from head("refusal", "what it means", "what to do")
    for some in groups_of(WHY):
        yield row(", ".join(f"E{it.number} {it.name}" for it in some), some[0].means, some[0].remedy)
    for it in PLACES:
        yield row(it.where, it.means, it.remedy)


# ---- code


def rattle_of_findings() -> Iterator[str]:
    for it in RULES:
        yield f'        {it.number} => "{it.name}",'


def test_of_findings() -> Iterator[str]:
    yield f"const LAST: u8 = {len(RULES)};"
    yield ""
    yield 'const LINES: &str = "\\'
    yield from (f"F{it.number} {it.name}" for it in RULES)


def cases_in_c(texts: Iterable[Tuple[int, str]]) -> Iterator[str]:
    for number, text in texts:
        line = f"    case {number}: return {json_of(text)};"
        if len(line) <= WIDTH_OF_C:
            yield line
            continue
        yield f"    case {number}:"
        *lines, last = textwrap.wrap(text, WIDTH_OF_C - 18, drop_whitespace=False, break_on_hyphens=False)
        whole = [*(json_of(it) for it in lines), f"{json_of(last)};"]
        yield f"        return {whole[0]}"
        yield from (f"               {it}" for it in whole[1:])


def findings_in_c() -> Iterator[str]:
    yield from cases_in_c((it.number, it.name) for it in RULES)


def reasons_in_c() -> Iterator[str]:
    usual = PLACES[0]  # what it usually is near the beginning
    place = re.search(r"at \d+ to \d+", usual.where)[0]
    hint = f"If it is refused {place}, {usual.means.partition('. ')[0].replace('It is', 'it is')}: decode it first."
    for it in [*WHY, *LACKS]:
        yield from cases_in_c([(it.number, f"{it.means} {it.remedy}" + (f" {hint}" if it.number in usual.refusals and it.number > 1 else ""))])


def python_texts() -> Iterator[str]:
    yield '"""The texts of findings and refusals, from docs/texts/. scripts/generate writes this file."""'
    yield ""
    yield "FINDINGS = ("
    yield from (f'    "{it.name}",' for it in RULES)
    yield ")"
    yield "MEANINGS = (  # what each finding means"
    yield from (f"    {json_of(it.means)}," for it in RULES)
    yield ")"
    yield "REFUSALS = {  # name, what it means, and what to do"
    for it in WHY:
        yield f"    {it.number}: ("
        yield from (f"        {json_of(text)}," for text in it[1:])
        yield "    ),"
    yield "}"
    yield "PLACES = (  # refusals, where, what it often is there, and what to do"
    for place in PLACES:
        yield f"    ({tuple(place.refusals) if len(place.refusals) > 1 else f'({place.refusals[0]},)'}, {json_of(place.where)},"
        yield f"     {json_of(place.means)},"
        yield f"     {json_of(place.remedy)}),"
    yield ")"


def json_of(text: object) -> str:
    return '"' + str(text).replace("\\", "\\\\").replace('"', '\\"') + '"'


def java_texts() -> Iterator[str]:
    yield "package cmscanon;"
    yield ""
    yield "/** The texts of findings, from `docs/texts/`. `scripts/generate` writes this file. */"
    yield "final class Texts {"
    yield "    private Texts() {}"
    yield ""
    yield "    static final String[] FINDINGS = {"
    yield from (f'        "{it.name}",' for it in RULES)
    yield "    };"
    yield "}"


def rust_texts() -> Iterator[str]:
    yield "//! The texts of findings, from `docs/texts/`. `scripts/generate` writes this file."
    yield ""
    yield f"pub(crate) const FINDINGS: [&str; {len(RULES)}] = ["
    yield from (f'    "{it.name}",' for it in RULES)
    yield "];"


def script_texts() -> Iterator[str]:
    yield "// The texts of refusals and findings, from docs/texts/. scripts/generate writes this file. Each is for the number that is one more than its place."
    yield ""
    for name, meanings in (("REFUSALS", WHY), ("FINDINGS", RULES)):
        yield f"export const {name} = ["
        for it in meanings:
            words = {"name": it.name, "means": it.means, "remedy": it.remedy}
            yield f"    {{ {', '.join(f'{key}: {json.dumps(value)}' for key, value in words.items())} }},"
        yield "];"


WHOLE: Dict[str, Callable[[], Iterable[str]]] = {
    "bindings/python/cms_canon/_texts.py": python_texts,
    "bindings/java/src/cmscanon/Texts.java": java_texts,
    "bindings/rust/src/texts.rs": rust_texts,
    "web/texts.mjs": script_texts,
}


# ---- parts of files


class Region(NamedTuple):
    """The lines of a file between two others, which stay."""

    file: str
    begin: str
    end: str
    lines: Callable[[], Iterable[str]]


def in_document(name: str, what: str, lines: Callable[[], Iterable[str]]) -> Region:
    return Region(name, f"<!-- {what}: scripts/generate writes this from docs/texts/ -->", f"<!-- the end of {what} -->", lambda: ["", *lines(), ""])


def in_page(what: str, lines: Callable[[], Iterable[str]]) -> Region:
    return Region("docs/man/cms-canon.1", f'.\\" {what}: scripts/generate writes this from docs/texts/', f'.\\" the end of {what}', lines)


HELP = "crates/cms_cli/src/texts.rt"
IN_C = "bindings/c/cms_canon.h"
REGIONS = [
    Region(IN_C, "    /* The findings: scripts/generate writes this from docs/texts/findings.toml */", "    /* the end of the findings */", findings_in_c),
    Region(IN_C, "    /* The reasons: scripts/generate writes this from docs/texts/refusals.toml */", "    /* the end of the reasons */", reasons_in_c),
    Region("crates/cms_listing/src/findings.rt", "    match code {", '        _ => "unknown finding",', rattle_of_findings),
    Region("crates/cms_tests/src/listings.rt", "/// The last finding, and a line for each, for the message.", '";', test_of_findings),
    Region(HELP, "What the reasons mean, and what to do:", "Exit status:", help_of_refusals),
    Region(HELP, "maker of the message can fix it:", "Exit status:", help_of_findings),
    in_page("refusals", manual_of_refusals),
    in_page("places", manual_of_places),
    in_page("findings", manual_of_findings),
    in_document("docs/FORMATS.md", "refusals", formats_of_refusals),
    in_document("docs/FORMATS.md", "findings", formats_of_findings),
    in_document("docs/FORMATS.md", "remedies", formats_of_remedies),
    in_document("docs/FORMATS.md", "texts", formats_of_texts),
    in_document("docs/REFUSALS.md", "refusals", table_of_refusals),
]


def filled(text: str, region: Region) -> str:
    """Returns the text of a file with one of its parts written again. Raises `SystemExit` if it is not found."""
    before, begin, rest = text.partition(f"{region.begin}\n")
    _, end, after = rest.partition(f"{region.end}\n")
    if not begin or not end:
        raise SystemExit(f"{region.file}: there is no line {region.begin if not begin else region.end}")
    return before + begin + "".join(f"{it}\n" for it in region.lines()) + end + after


# ---- how far the numbers go

NUMBERED = (
    *("bindings/c/cms_canon.h", "crates/cms_c/src/outcome.rt", "bindings/java/src/cmscanon/CmsCanon.java", "bindings/python/README.md", "bindings/python/cms_canon/__init__.py"),
    *("bindings/python/cms_canon/_calls.py", "bindings/rust/src/check.rs", "bindings/rust/src/error.rs", "docs/man/cms-canon.1", "docs/USING.md"),
    HELP,
)


def with_last_numbers(text: str) -> str:
    """Returns a text in which what says how far the numbers go is right."""
    for letter, last in (("E", len(WHY)), ("F", len(RULES))):
        text = re.sub(rf"\b1 to \d+( stand)? for {letter}1 to {letter}\d+", rf"1 to {last}\1 for {letter}1 to {letter}{last}", text)
        text = re.sub(rf"\b{letter}1 to {letter}\d+", f"{letter}1 to {letter}{last}", text)
    return text


def files() -> Dict[str, str]:
    """Returns the texts of all files that repeat the tables, by their names."""
    texts: Dict[str, str] = {name: "".join(f"{it}\n" for it in lines()) for name, lines in WHOLE.items()}
    for region in REGIONS:
        texts[region.file] = filled(texts.get(region.file) or (TOP / region.file).read_text(), region)
    for name in NUMBERED:
        texts[name] = with_last_numbers(texts.get(name) or (TOP / name).read_text())
    return texts
