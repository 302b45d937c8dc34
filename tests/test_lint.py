"""Checks that the documents say of the sources what is so.

Each count that they state is right, whatever scripts/generate writes is up to date, and the sketches are code that compiles. Each edit has a promise
or belongs to one, each definition that a contract names has words, and each script says what it does. Each public function is called by a test, no two
definitions share a name, and identifier octets have names. Lines of documents but for rows of tables, and of clauses, are no longer than a screen. The
names of refusals, the kinds of fields, the version and the kit are everywhere those of the program and of the release, and each version has a date. A
finding and a call for C are in each place where one has to be, and the prototypes are those of the code.
"""

import json
import re
import runpy
import subprocess
import sys
import tomllib

import pytest
from antt import Module, definitions_of, note_imports
from calls import SYMBOLS, calls
from clauses import clauses_of, is_statement, record_of
from definitions import described, half_said, misplaced, named_in
from programs import TOP
from promises import complaints as complaints_of_edits  # noqa: F401 (by its name, as the others)
from tally import fail_if

RATTLE = "".join(it.read_text() for it in sorted(TOP.glob("crates/*/src/*.rt")))

NARROW = [
    *(f"docs/{it}.md" for it in ("ARCHITECTURE", "AUDITING", "DECISIONS", "FORMATS", "TRUST")), "bench/RESULTS.md",
    *(f"archive/{it}.md" for it in ("README", "bench/RESULTS", "docs/ARCHIVE", "docs/SCALE")),
]
CLAUSE = re.compile(r" *(?:ensures|requires|ghost) (?!use )")
KINDS = TOP / "crates" / "cms_rows" / "src" / "kinds.rt"
# An identifier octet as a number: 80 and those after it are such only in a type, as they are length octets too.
IDENTIFIER = re.compile(r"0x(?:0[12346]|18|3[01]|a[0-3])\b|<0x8[0-9a-f]")
FUNCTION = re.compile(r" *pub fn (\w+)")
DEFINITION = re.compile(r" *(?:(?:abbrev|unfoldable) pub|pub (?:record|data)) (\S+)")
SKETCH = re.compile(r"^```(?:text|rust)\n(.*?)^```$", re.M | re.S)


def complaints_of_wrong_bodies():
    """Yields each edit that makes a wrong body by name and names a step of a proof in place of what the function returns."""
    for edit in sorted(TOP.glob("crates/*/must-fail/*.edit")):
        text = edit.read_text()
        if "\n# wrong body: " in text and not re.search(r"^# refused: \S+ returns", text, re.M):
            yield f"{edit.relative_to(TOP)}: it names a step of a proof"


def complaints_of_surface():
    """Yields each name in the table of what differs from the surface as first planned that the code does not have, or still has."""
    text = (TOP / "docs" / "DECISIONS.md").read_text()
    table = re.search(r"^## The surface as first planned\n.*?(^\| first planned .*?)\n\n", text, re.M | re.S)[1]
    public = set(re.findall(r"\bpub (?:fn|struct|enum|trait|type|const) (\w+)", RATTLE))
    for row in table.splitlines()[2:]:
        planned, now, _ = [it.strip() for it in row[1:-1].split("|")]
        for name in {it for part in re.findall(r"`([^`]*)`", now) for it in re.findall(r"\w+", part)}:
            if not re.search(rf"\b{name}\b", RATTLE):
                yield f"DECISIONS.md: `{name}` is not in the code"
        if (gone := re.match(r"`(\w+)(?: \{.*)?`$|the trait `(\w+)`", planned)) and (gone[1] or gone[2]) in public:
            yield f"DECISIONS.md: `{gone[1] or gone[2]}` is in the code"


def complaints_of_kits():
    """Yields each document that names another kit than the one of the release."""
    kit = re.search(r"^kit: (\S+)", (TOP / "dist" / "x86_64-linux" / "MANIFEST").read_text(), re.M)[1]
    for file in (*sorted(TOP.glob("*.md")), *sorted(TOP.glob("docs/*.md")), *sorted(TOP.glob("archive/**/*.md"))):
        for said in sorted(set(re.findall(r"rattle-kit-\w+", file.read_text())) - {kit}):
            yield f"{file.relative_to(TOP)}: {said}, and the release is made by {kit}"


def numbered(files):
    """Yields each line of some files, and its place."""
    for file in sorted(files):
        yield from ((f"{file.relative_to(TOP)}:{number}", it) for number, it in enumerate(file.read_text().splitlines(), 1))


def own_sources():
    """Returns the files of the code, but for the crates of tests."""
    return [it for it in sorted(TOP.glob("crates/*/src/*.rt")) if not it.parts[-3].endswith("_tests")]


def complaints_of_identifiers():
    """Yields each identifier octet in the code that stands there as a number, outside the table of `cms_tlv` and whole encodings. The
    kinds of rows are other numbers."""
    for place, line in numbered(it for it in own_sources() if it.name != "tags.rt" and it != KINDS):
        if IDENTIFIER.search(line) and "∷" not in line and not line.lstrip().startswith("//"):
            yield f"{place}: {line.strip()}"


# The crates whose public functions are for users, and those that call them: tests, and programs that the vectors drive.
LIBRARIES = [f"cms_{it}" for it in ("tlv", "fields", "setof", "scalars", "message", "tsp", "rows", "check", "listing", "canon", "cli")]
CALLERS = [f"cms_{it}" for it in ("tests", "example", "test_driver", "canon_program")]


def code_of(file):
    return [it for it in file.read_text().splitlines() if not it.lstrip().startswith("//")]


def public_functions(crate):
    """Yields each public function of a crate but for laws, which return nothing and change nothing, with its file."""
    for file in sorted((TOP / "crates" / crate / "src").glob("*.rt")):
        lines = code_of(file)
        for number, line in enumerate(lines):
            if found := FUNCTION.match(line):
                head = "\n".join(lines[number : number + 12])
                head = re.split(r"^ *(?:requires|ensures)\b|\{$", head, maxsplit=1, flags=re.M)[0]
                if "->" in head or "&mut" in head:
                    yield file, found[1]


def calls_of(crate):
    """Returns the names of the functions and methods that a crate calls, except those of the file that calls them."""
    names = set()
    for file in (TOP / "crates" / crate / "src").rglob("*.rt"):
        code = "\n".join(code_of(file))
        own = set(re.findall(r"\bfn (\w+)", code))
        calls = re.findall(r"(?<!\bfn )(\.|::|\b)(\w+)(?:::<[^(]*>)?\(", code)
        names |= {name for before, name in calls if before or name not in own}
    return names


def complaints_of_untested_functions():
    """Yields each public function that no test calls by its name."""
    called = set().union(*(calls_of(it) for it in CALLERS))
    found = (it for crate in LIBRARIES for it in public_functions(crate))
    yield from (f"{file.relative_to(TOP)}: no test calls {name}" for file, name in found if name not in called)


def complaints_of_namesakes():
    """Yields each name that two public definitions have. A module `Spans` has names of its own, and is imported under its own."""
    files = {}
    for file in sorted(TOP.glob("crates/*/specs/**/*.antt")):
        if file.stem == "Spans" or file.relative_to(TOP).parts[1].endswith("_tests"):
            continue
        for name in filter(None, (DEFINITION.match(it) for it in file.read_text().splitlines())):
            files.setdefault(name[1], []).append(str(file.relative_to(TOP)))
    for name, where in sorted(files.items()):
        if len(where) > 1:
            yield f"{name}: {', '.join(where)}"


def complaints_of_comments():
    """Yields each comment of three dashes that is not of what is below it, and each record of which such comments name some fields only."""
    for file in sorted(TOP.glob("crates/*/specs/**/*.antt")):
        yield from (f"{file.relative_to(TOP)}: {it}" for it in (*misplaced(file), *half_said(file)))


def lines_of_sketch(text):
    """Returns the lines of code in a text, without the space around them, the comments at their ends, and a brace that opens a
    body: a contract may come before that."""
    lines = (re.sub(r"(?:^|\s+)//.*", "", it).strip().removesuffix(" {") for it in text.splitlines())
    return [it for it in lines if it and it != ".."]


def complaints_of_sketches():
    """Yields each line of a sketch, in a document or at the top of a crate, that is in no file of sketches, which the prover checks. A sketch in Rust
    itself is part of an example of the crate for Rust."""
    files = [*sorted(TOP.glob("crates/*/src/sketches.rt")), TOP / "crates" / "cms_example" / "src" / "lib.rt"]
    known = {line for file in files for line in lines_of_sketch(file.read_text())}
    in_rust = {line for file in TOP.glob("bindings/rust/examples/*.rs") for line in lines_of_sketch(file.read_text())}
    texts = {name: (TOP / name).read_text() for name in ("docs/TRUST.md", "examples/README.md")}
    for file in sorted(TOP.glob("crates/*/src/lib.rt")):
        lines = file.read_text().splitlines()
        texts[str(file.relative_to(TOP))] = "\n".join(it[3:].removeprefix(" ") for it in lines if it.startswith("//!"))
    for name, text in texts.items():
        for sketch in map(lines_of_sketch, SKETCH.findall(text)):
            if not in_rust.issuperset(sketch):
                yield from (f"{name}: {line}" for line in sketch if line not in known)


def complaints_of_copies():
    """Yields each crate of tests whose asserts are not those of the others."""
    first, *others = sorted(TOP.glob("crates/*_tests/src/asserts.rt"))
    yield from (f"{it.relative_to(TOP)} is not {first.relative_to(TOP)}" for it in others if it.read_text() != first.read_text())


def complaints_of_long_lines():
    """Yields each line of these documents that is longer than a screen, but for rows of tables, and of the definitions but for the import of one name."""
    for files, width in (([TOP / name for name in NARROW], 160), (TOP.glob("crates/*/specs/**/*.antt"), 100)):
        for place, line in numbered(files):
            if len(line) > width and not re.fullmatch(r"use \S+\.\{[^,]*\}|\|.*\|", line):
                yield f"{place}: {len(line)} columns"


def table_in(name, pattern, begin="", end="\0"):
    """Returns the texts of a table by their numbers: a pattern finds each number and its text in the file, between two marks."""
    text = (TOP / name).read_text()
    text = text.partition(begin)[2] if begin else text
    return {int(number): text for number, text in re.findall(pattern, text.partition(end)[0], re.M)}


def differences(name, letter, found, known):
    """Yields each number of a table whose text is not that of the program."""
    for it in sorted(it for it in {*known, *found} if found.get(it) != known.get(it)):
        yield f"{name}: {letter}{it} is {found.get(it)!r}, and in the program {known.get(it)!r}"


JAVA, HEADER = "bindings/java/src/cmscanon/CmsCanon.java", "bindings/c/cms_canon.h"
PYTHON_REASONS, RUST_ERRORS = "bindings/python/cms_canon/_calls.py", "bindings/rust/src/error.rs"
FORMATS = "docs/FORMATS.md"


def complaints_of_generated():
    run = subprocess.run([sys.executable, TOP / "scripts" / "generate", "--check"], capture_output=True, text=True)
    if run.returncode:
        yield (run.stdout + run.stderr).strip() or f"status {run.returncode}"


def complaints_of_scripts():
    """Yields each script that does not say what it does, or how it is called."""
    try:
        listed = runpy.run_path(str(TOP / "scripts" / "commands.py"))  # the tests of the archive have another module of this name
        scripts = (*listed["commands"](), *listed["tests_and_benches"]())
        yield from (f"{it.called}: it does not say what it does" for it in scripts if not it.does)
    except SystemExit as wrong:
        yield str(wrong)


def complaints_of_names():
    """Yields each refusal, and each reason of the library for C, whose name in texts/ is not that of the program, or is another one in REFUSALS."""
    source = (TOP / "crates" / "cms_tlv" / "src" / "fault.rt").read_text()
    names = dict(re.findall(r'Reason::(\w+) => "(\w+)",', source))
    known = {int(number): names[reason] for reason, number in re.findall(r"^    (\w+) = (\d+),$", source, re.M)}
    yield from differences("docs/texts/refusals.toml", "E", table_in("docs/texts/refusals.toml", r'^\[\[refusal\]\]\nnumber = (\d+)\nname = "(.*)"'), known)
    outcomes = (TOP / "crates" / "cms_c" / "src" / "outcome.rt").read_text()
    lacks = {int(number): name for number, name in re.findall(r'refused\((\d+), 0, "([^"]+)"\)', outcomes)}
    yield from differences("docs/texts/refusals.toml", "", table_in("docs/texts/refusals.toml", r'^\[\[lack\]\]\nnumber = (\d+)\nname = "(.*)"'), lacks)
    some = table_in("docs/REFUSALS.md", r"\bE(\d+) ([A-Z]\w+)")
    yield from differences("docs/REFUSALS.md", "E", some, {it: known.get(it) for it in some})


def promises_in(crate):
    """Returns what the edits of a crate say of the promises that they break, and of the calls that carry these."""
    files = sorted(TOP.glob(f"crates/{crate}/must-fail/*.edit"))
    return "\n".join(line for it in files for line in it.read_text().splitlines() if line.startswith(("# promise: ", "# carried by: ")))


def complaints_of_findings():
    """Yields each finding that is defined and has no text, no row in the code, no comment of its definition or no vector that gives it, and each
    text of none that is defined; and each of those after F18 that no edit or not the changelog names."""
    crate = TOP / "crates" / "cms_check"

    def numbers_in(pattern, *files):
        return {int(it) for file in files for it in re.findall(pattern, file if isinstance(file, str) else file.read_text(), re.M)}

    defined, coded = numbers_in(r"\((\d+), ", crate / "specs" / "Findings.antt"), numbers_in(r"\((\d+), ", *crate.glob("src/*.rt"))
    comments = [line for file in crate.glob("specs/*.antt") for line in re.findall(r"^---.*\n", file.read_text(), re.M)]
    said, vectors = numbers_in(r"^number = (\d+)$", TOP / "docs" / "texts" / "findings.toml"), [*TOP.glob("tests/vectors/*.json")]
    listed = {found[0] for file in vectors for it in json.loads(file.read_text())["vectors"] for found in it.get("findings", [])}
    named, later = r"\bF(\d+)\b", {it for it in defined if it > 18}
    for those, why in (
        (defined - said, "is defined, and docs/texts/findings.toml has no text of it"), (said - defined, "has a text, and is not defined"),
        (defined - coded, "has no row in crates/cms_check/src"), (defined - listed - numbers_in(named, *vectors), "is given by no vector"),
        (defined - numbers_in(named, *comments), "is in no comment of three dashes in crates/cms_check/specs"),
        (later - numbers_in(named, promises_in("cms_check")), "is not in a promise of an edit of cms_check"),
        (later - numbers_in(named, TOP / "CHANGELOG.md"), "is not in CHANGELOG.md"),
    ):
        yield from (f"F{it} {why}" for it in sorted(those))


def complaints_of_nulls():
    """Yields each public member for Java whose documentation says that it may be null, and that has no annotation which says so."""
    member = re.compile(r" */\*\*((?:(?!\*/).)*)\*/\n((?: *@\w+\n)*[^\n]*\bpublic\b[^{;]*)", re.S)
    for file in sorted((TOP / "bindings" / "java" / "src").rglob("*.java")):
        for said, declared in member.findall(file.read_text()):
            says_null = re.search(r"\bnull\b", said) and "Refuses" not in said and "{@code null}" not in said
            if says_null and "@Nullable" not in declared and " class " not in declared and "@interface" not in declared:
                yield f"{file.relative_to(TOP)}: {' '.join(declared.split())[:80]} may be null, and is not @Nullable"


def complaints_of_calls():
    """Yields each call of the library for C that is not in each place where a call has to be."""
    source, header = TOP / "crates" / "cms_c" / "src", (TOP / HEADER).read_text()
    exports = re.findall(r"^pub use .*$", (source / "lib.rt").read_text(), re.M)
    functions = {it for file in source.glob("*.rt") for it in re.findall(r"^pub extern \"C\" fn (cms_canon_\w+)", file.read_text(), re.M)}
    places = {
        "crates/cms_c/src": functions,
        "crates/cms_c/src/lib.rt": set(re.findall(r"\bcms_canon_\w+", "".join(exports))),
        HEADER: set(re.findall(r"^(?:void|uint32_t) (cms_canon_\w+)\(", header, re.M)),
        "an edit of cms_c that says `# carried by:`": set(re.findall(r"\bcms_canon_\w+", promises_in("cms_c"))),
        "tests/c": {it for file in TOP.glob("tests/c/*.c") for it in re.findall(r"\b(cms_canon_\w+)\(", file.read_text())},
        **{file: set(re.findall(r"\bcms_canon_\w+", (TOP / file).read_text())) for file in ("CHANGELOG.md", "docs/TRUST.md")},
    }
    for name in sorted(functions | places[HEADER]):
        yield from (f"{name} is not in {place}" for place, names in places.items() if name not in names)


def arguments_in_c(words):
    """Yields the type of each argument of a call of cms_c, as the header has to declare it, and the name, which that of a length begins with."""
    for name, reference, is_list, kind in re.findall(r"(\w+): (&mut |&|)(\[|)(\w+)", words):
        if name != "alloc":
            snake = "_".join(re.findall("[A-Z][a-z]*", kind)).lower()
            in_c = {"u8": "uint8_t", "u32": "uint32_t", "u64": "uint64_t", "bool": "bool"}.get(kind, f"struct cms_canon_{snake}")
            yield f"{'const ' * (reference == '&')}{in_c}{' *' * bool(reference)}", name
            yield from [("size_t", name)] * bool(is_list)


def complaints_of_prototypes():
    """Yields each call whose prototype has other arguments than the code, or no comment, and each whose version the changelog does not name."""
    header, history = (TOP / HEADER).read_text(), (TOP / "CHANGELOG.md").read_text()
    code = "".join(it.read_text() for it in (TOP / "crates" / "cms_c" / "src").glob("*.rt"))
    wanted = {name: [*arguments_in_c(words)] for name, words in re.findall(r'extern "C" fn (\w+)\(([^()]*)\)', code)}
    for call in calls():
        came = [(kind, re.sub("_(length|count|room)$", "", name) if kind == "size_t" else name) for kind, name in call.arguments]
        if came != wanted.get(call.name):
            yield f"{HEADER}: {call.name} takes {came}, and in the code it takes {wanted.get(call.name)}"
        if not re.search(rf"^ \*/\n{call.returns} {call.name}\(", header, re.M):
            yield f"{HEADER}: there is no comment above {call.name}"
    said = dict(re.findall(r"^## (\S+) - .*\n((?:(?!## ).*\n)*)", history, re.M))
    for name, version in re.findall(r"^ (\w+)@Base (\S+)$", (TOP / SYMBOLS).read_text(), re.M):
        if not re.search(rf"\b{name}\b", said.get(version, "")):
            yield f"{SYMBOLS}: {name} is of {version}, and CHANGELOG.md does not name it there"


def complaints_of_lacks():
    """Yields each place whose names of what is lacking are not those of the library. No package hands out `no such part`."""
    known = table_in("crates/cms_c/src/outcome.rt", r'refused\((\d+), 0, "(.*)"\)')
    handed_out = {number: name for number, name in known.items() if name != "no such part"}
    yield from differences(FORMATS, "", table_in(FORMATS, r"(\d+), 0, `([A-Za-z ]+)`"), known)
    for name in (PYTHON_REASONS, JAVA, RUST_ERRORS):
        yield from differences(name, "", table_in(name, r"\b(1\d\d): ([A-Za-z ]+)\."), handed_out)


def complaints_of_fields():
    """Yields each kind of row that the header for C and the library number or name differently."""
    known = dict(re.findall(r"^pub const (\w+): u32 = (0x[0-9a-f]+);$", KINDS.read_text(), re.M))
    said = dict(re.findall(r"\bCMS_CANON_KIND_(\w+) = (0x[0-9a-f]+)\b", (TOP / HEADER).read_text()))
    yield from differences(HEADER, "", said, known)


def complaints_of_versions():
    """Yields each file that does not have the version of the program: the changelog, whose newest counts, the release, and the crate."""
    version = re.search(r'\.version\("([^"]*)"\)', (TOP / "crates" / "cms_cli" / "src" / "task.rt").read_text())[1]
    crate = r"^version = \"(\d+\.\S+)\"$"
    for name, pattern in (
        ("CHANGELOG.md", r"^## (\d\S*) - \d{4}-\d\d-\d\d$"), ("dist/x86_64-linux/MANIFEST", r"^version: (.*)$"),
        ("bindings/rust/Cargo.toml", crate), ("bindings/rust/Cargo.lock", crate),
    ):
        said = re.search(pattern, (TOP / name).read_text(), re.M)[1]
        if said != version:
            yield f"{name}: {said}, and the program says {version}"


def complaints_of_dates():
    """Yields each heading of a version in the changelog that has no date, or a later one than the heading above it. What is above all versions is to be
    released with the next one."""
    above, headings = "9999-12-31", re.findall(r"^## .*$", (TOP / "CHANGELOG.md").read_text(), re.M)
    for heading in headings[headings[:1] == ["## Unreleased"] :]:
        if not (dated := re.fullmatch(r"## \d+\.\d+\.\d+ - (\d{4}-\d\d-\d\d)", heading)):
            yield f"CHANGELOG.md: {heading} has no date, as 2026-11-27"
        elif dated[1] > above:
            yield f"CHANGELOG.md: {heading} is later than the version after it"
        else:
            above = dated[1]


def lines_of_clauses(lines):
    """Yields each line that belongs to a clause, a ghost member or an invariant, with its number."""
    depth = 0
    for number, line in enumerate(lines, 1):
        if depth or CLAUSE.match(line):
            yield number, line
            depth += line.count("{") - line.count("}")


def complaints_of_clauses():
    """Yields each line of a clause that is longer than 100 columns; tests have none to read."""
    for file in own_sources():
        lines = lines_of_clauses(file.read_text().splitlines())
        yield from (f"{file.relative_to(TOP)}:{number}: {len(line)} columns" for number, line in lines if len(line) > 100)


def clauses_of_public_functions(lines):
    """Yields each line of a clause of a function that is public, or of a trait that is, with its number."""
    is_in_trait = is_public = False
    clauses = dict(lines_of_clauses(lines))
    for number, line in enumerate(lines, 1):
        if re.match(r"(?:pub(?:\(crate\))? )?(?:trait|impl)\b", line):
            is_in_trait = line.startswith("pub trait ")
        if re.match(r" *(?:pub(?:\(crate\))? )?fn\b", line):
            is_public = is_in_trait or re.match(r" *pub fn\b", line) is not None
        if is_public and number in clauses:
            yield number, line


def definitions_named_by(file):
    """Yields the file, by its crate and its path there, and the name of each definition that the contracts of public functions name in a file of the
    code."""
    module = Module("")
    text = file.read_text()
    note_imports(module, text)
    clauses = " ".join(line for _, line in clauses_of_public_functions(text.splitlines()))
    words = {*re.findall(r"[^\s(){}.;,]+", clauses)}
    for used, (path, name) in module.uses.items():
        if words & {used, *filter(None, used.split("◌"))} and (found := re.fullmatch(r"Rattle\.(\w+)\.specs\.([\w.]+)", path)):
            yield f"{found[1]}/specs/{found[2].replace('.', '/')}.antt", name


def complaints_of_definitions():
    """Yields each definition that the contract of a public function names and that has no words above it."""
    named = {it for file in own_sources() for it in definitions_named_by(file)}
    for name in sorted({it for it, _ in named}):
        file = TOP / "crates" / name
        if not file.exists():
            continue  # of the kit, or a type that the code declares
        words = {it for row in described(file) for some in named_in(row) for it in some}
        public = {it[1] for it in map(DEFINITION.match, file.read_text().splitlines()) if it}
        wanted = {it for where, it in named if where == name and it in public}
        lacking = [it for it in sorted(wanted) if not words & {it, *filter(None, it.split("◌"))}]
        yield from (f"crates/{name}: {it} has no words" for it in lacking)


def complaints_of_internal_definitions():
    """Yields each clause of a public call that cites a definition of specs/internal/, which readers need not know."""
    for file in sorted(TOP.glob("crates/*/src/*.rt")):
        lines = file.read_text().splitlines()
        cited = [re.findall(r"[\w◌]+", it[1]) for line in lines if (it := re.search(r"\.specs\.internal\.\w+\.\{(.*)\};", line))]
        names = {name for some in cited for name in some}
        for number, line in clauses_of_public_functions(lines):
            for name in sorted(names & set(re.findall(r"\w+", line))):
                yield f"{file.relative_to(TOP)}:{number}: {name}"


def definitions_that_say_something(whole):
    """Yields the crate and each definition on the page of the headline, or of the specs of whole crates, but for internal ones."""
    page = set(DEFINITION.findall((TOP / "docs" / "HEADLINE.md").read_text()))
    for file in sorted(TOP.glob("crates/*/specs/*.antt")):
        crate = file.relative_to(TOP).parts[1]
        found = definitions_of(f"Rattle.{crate}.specs.{file.stem}", file)
        yield from ((crate, it) for it in found if crate in whole or it.name in page)


def complaints_between(lines, wanted, what):
    """Yields each thing that is wanted and has no line, and each line for what is not there or without words."""
    yield from (f"clauses.toml: {what} {it} has no line" for it in sorted(wanted - lines.keys()))
    yield from (f"clauses.toml: there is no {what} {it} that it has to have" for it in sorted(lines.keys() - wanted))
    yield from (f"clauses.toml: {what} {it} has no words" for it, line in lines.items() if not line or line == "redundant: ")


def complaints_of_fields_that_may_say_nothing():
    """Yields where tests/data/clauses.toml differs from the records of the headline and of whole crates, and from their clauses by cases."""
    table = tomllib.loads((TOP / "tests" / "data" / "clauses.toml").read_text())
    fields, empty = {}, {}
    for crate, it in definitions_that_say_something(table.pop("whole")):
        if it.words[0] == "record":
            fields[f"{crate}.{it.name}"] = {field.name for field in record_of(it).fields}
        elif is_statement(it) and len(clauses := clauses_of(it)[1]) > 1:
            empty[f"{crate}.{it.name}"] = {" ".join(patterns) for patterns, body in clauses if body in ("⊤", "Unit {0}")}
    cases = {f"{crate}.{name}": lines for crate, some in table.pop("cases").items() for name, lines in some.items()}
    records = {f"{crate}.{name}": lines for crate, some in table.items() for name, lines in some.items()}
    yield from complaints_between(records, set(fields), "record")
    yield from complaints_between(cases, set(empty), "definition by cases")
    for name in sorted(fields.keys() & records.keys()):
        values = records[name].pop("values", [])
        yield from complaints_between({**records[name], **dict.fromkeys(values, "a value")}, fields[name], f"field of {name},")
    for name in sorted(empty.keys() & cases.keys()):
        yield from complaints_between(cases[name], {"excludes", *empty[name]}, f"clause of {name},")


def complaints_of_the_walk():
    """Yields each frame of the walk of an octet in docs/ARCHITECTURE.md whose function its file does not have."""
    walk = (TOP / "docs" / "ARCHITECTURE.md").read_text().partition("## The walk of an octet")[2].partition("\n## ")[0]
    frames = re.findall(r"^\| (\d+) \| `(\w+)` \| `([^`]*)` \|", walk, re.M)
    if [int(it[0]) for it in frames] != [*range(1, len(frames) + 1)] or not frames:
        yield "the frames are not numbered from 1"
    for _, function, file in frames:
        found = TOP / "crates" / file
        if not found.exists() or not re.search(rf"\bfn {function}\b", found.read_text()):
            yield f"{file} has no function {function}"


# What a command, an option without a value, and one with a value have in files that are written by hand.
OF_COMMANDS = {
    "crates/cms_cli/src/task.rt": '"{}" =>', "crates/cms_cli/specs/CommandLine.antt": 'codes "{}"', "crates/cms_tests/src/commands.rt": '"cms-canon", "{}"',
    "docs/man/cms-canon.1": "{}", "docs/USING.md": "cms-canon {}",
}
OF_OPTIONS = {
    "crates/cms_cli/src/task.rt": '"{}"', "crates/cms_cli/specs/CommandLine.antt": 'codes "{}"', "crates/cms_tests/src/commands.rt": "--{}",
    "docs/man/cms-canon.1": r"\-\-{}", "docs/USING.md": "--{}",
}


def complaints_of_commands():
    """Yields each command and each option of docs/texts/commands.toml that a file lacks which scripts/generate does not write, or has only where
    scripts/generate writes."""
    table = tomllib.loads((TOP / "docs" / "texts" / "commands.toml").read_text())
    for wanted, names in ((OF_COMMANDS, [it["name"] for it in table["command"]]), (OF_OPTIONS, table["options"])):
        for file, form in wanted.items():
            by_hand = re.sub(r"commands: scripts/generate.*?the end of commands", "", (TOP / file).read_text(), flags=re.S)
            yield from (f"{file} does not have {form.format(name)}" for name in names if form.format(name) not in by_hand)


@pytest.mark.tree
@pytest.mark.parametrize("name", [it.removeprefix("complaints_of_") for it in globals() if it.startswith("complaints_of_")])
def test_sources(name):
    fail_if("\n".join(globals()[f"complaints_of_{name}"]()))
