"""Tests that bindings/records.toml is refused if it is wrong, and that a line there is a field in each language.

Each edit breaks one rule of the schema. The refusal has to be the one that names the place and the rule, and no other. Then a line for a field is added,
of a kind that the header does not have yet: the texts for Python, Rust and Java have to have this field in addition, and nothing else.
"""

import difflib

import bindings
import kinds
import pytest
import schema
from programs import TOP
from tally import differing, fail_if

pytestmark = pytest.mark.tree

TEXT = (TOP / schema.SCHEMA).read_text(encoding="utf-8")
STATUS = 'status = { kind = "STATUS", type = "integer", says = "'
STRING = 'status_string = { kind = "STATUS_STRING", type = "optional element"'
POLICY = 'policy = { kind = "TST_POLICY", type = "identifier", '
GEN_TIME = 'type = "text", only = ["python"]'
ORDERING = 'ordering = { kind = "ORDERING", type = "flag", says = "Whether'
MILLIS = 'millis = { kind = "MILLIS", type = "optional thousandths", says = "Milliseconds, from 1 to 999; {none} if they are absent." }\n'
HEADER = "bindings/c/cms_canon.h"

LINE_OF_TOML = " (at line"  # the number and what comes after it are not compared

# What is replaced by what, and how that is refused.
EDITS = [
    (POLICY, f"{POLICY}range = 3, ", "TstInfo.policy has `range`, which is no key"),
    ("flat = true", "level = 0", "MessageImprint has `level`, which is no key"),
    ('flag = { row', 'flag = { ruby = "bool", row', "the type flag has `ruby`, which is no key"),
    ('type = "flag", says = "Whether any', 'says = "Whether any', "TstInfo.ordering has no `type`"),
    (', says = "genTime, in UTC."', "", "TstInfo.gen_time has no `says`"),
    ('section = "RFC 5652, section 5.1"\n', "", "SignedData has no `section`"),
    ('"RFC 5652, section 5.1"', '"RFC 5652"', "SignedData has the section `RFC 5652`, which is not as `RFC 5652, section 5.1`"),
    ('kind = "TST_POLICY"', 'kind = "TST_POLICIES"',
     f"TstInfo.policy has the kind TST_POLICIES, which {HEADER} does not have\nnothing has the kind TST_POLICY of {HEADER}"),
    ('member = "CRL"', 'member = "CRLES"', f"SignedData.crls has the kind CRLES, which {HEADER} does not have\nnothing has the kind CRL of {HEADER}"),
    ('kind = "RESPONSE"', 'kind = "REPLY"', f"TimeStampResp has the kind REPLY, which {HEADER} does not have\nnothing has the kind RESPONSE of {HEADER}"),
    (MILLIS, "", f"nothing has the kind MILLIS of {HEADER}"),
    (MILLIS, MILLIS + MILLIS, "millis is there twice: Cannot overwrite a value (at line"),
    ("[records.Accuracy]", "[records.TstInfo]", "Cannot declare ('records', 'TstInfo') twice (at line"),
    (POLICY, f'name = {{ kind = "TST_POLICY", type = "identifier", says = "A name." }}\n{POLICY}',
     "\n".join(f"TstInfo.policy has the kind TST_POLICY, which a field above it has in {it}" for it in ("rust", "java"))),
    (STRING, 'status_string = { type = "optional element"',
     "TimeStampResp.status_string has no kind, and is not the first field"),
    ('kind = "ISSUER", type = "optional element"', 'kind = "ISSUER", type = "optional string"',
     "SignerInfo.issuer is read from segments, and the octets of its row are element"),
    ('kind = "SIGNER", type = "list of SignerInfo"', 'kind = "SIGNER", type = "list of Attribute"',
     "SignedData.signers is read from contents, and the octets of its row are none"),
    ('member = "CRL", type = "optional list of long_element"', 'member = "CRL", type = "optional list of flag"',
     "SignedData.crls is read from none, and the octets of its row are element"),
    ('type = "optional Accuracy"', 'type = "optional Precision"', "TstInfo.accuracy is of the type `Precision`, which is neither a type nor a record"),
    (GEN_TIME, 'type = "text", only = ["python", "rust"]',
     "TstInfo.gen_time_text is in rust, and its type is not\nTstInfo.gen_time has the kind GEN_TIME, which a field above it has in rust"),
    (GEN_TIME, 'type = "text", only = ["python", "ruby"]',
     "TstInfo.gen_time_text is in ruby, and its type is not\nTstInfo.gen_time_text names the language ruby"),
    ('empty = ["rust", "java"], says', 'empty = ["ruby"], says', "SignerInfo.signed_attributes names the language ruby"),
    ('with = "issuer"', 'with = "sid"', "SignerInfo.serial_number names the field sid, which is not above it"),
    ('without = "issuer"', 'without = "signature"', "SignerInfo.subject_key_identifier names the field signature, which is not above it"),
    ('head_of = "signed_attributes"', 'head_of = "unsigned_attributes"',
     "SignerInfo.signed_attributes_element names the field unsigned_attributes, which is not above it"),
    ('type = "optional integer", with = "issuer", says = "The serial number of the signer\'s certificate; {none}',
     'type = "integer", with = "issuer", says = "The serial number of the signer\'s certificate, none', "SignerInfo.serial_number can be absent, and is not optional"),
    ('over = "content"', 'over = "signers"', "SignedData.signers names the field signers, which is not above it"),
    (f"{STATUS}PKIStatus, as received.", f"{STATUS}PKIStatus; {{none}} if it is absent.", "TimeStampResp.status is not optional, and has {none}"),
    ("PKIFreeText, one element; {none} if it is absent.", "PKIFreeText.",
     "TimeStampResp.status_string does not say what it is if it is absent, by {none}"),
    ('says = "genTime, in UTC."', 'says = "genTime, in UTC"', "TstInfo.gen_time ends without a full stop"),
    ("[records.Accuracy.fields]", "[records.Accuracy.fields", "Expected ']' at the end of a table declaration (at line"),
    (MILLIS, f"{MILLIS}[kinds]\n", "the file has `kinds`, which is no key"),
]

LINE = 'note = { kind = "NOTE", type = "optional integer", says = "A note, as `AlgorithmIdentifier.oid`; {none} if it is absent." }\n'
ADDED = {
    "Python": [
        "    @cached_property", "    def note(self) -> Optional[int]:",
        '        """A note, as `AlgorithmIdentifier.oid`; None if it is absent."""', "        return self._if(self._integer, kinds.NOTE)",
    ],
    "Rust": [
        "    /// A note, as [`AlgorithmIdentifier::oid`]; none if it is absent.", "    pub note: Option<Integer<'a>>,",
        "        let note: Option<Integer<'a>> = rows.read(kinds::NOTE, inner)?;", "        Ok(Accuracy { seconds, millis, micros, note })",
    ],
    "the record of Java": [
        " * @param note a note, as {@link AlgorithmIdentifier#oid}; null if it is absent",
        "public record Accuracy(", "        @Nullable BigInteger seconds,", "        @Nullable Integer millis,", "        @Nullable Integer micros,",
        "        @Nullable BigInteger note) {}",
    ],
    "the reader of Java": [
        "        BigInteger note = rows.has(Kind.NOTE, inner) ? rows.integer(Kind.NOTE, inner) : null;",
        "        return new Accuracy(seconds, millis, micros, note);",
    ],
}


def refusal_of(text):
    try:
        schema.schema_in(text)
    except SystemExit as refused:
        return str(refused)
    return "nothing is refused"


def test_schema_as_it_is():
    fail_if(differing("nothing is refused", refusal_of(TEXT)))


@pytest.mark.parametrize("before, after, why", EDITS)
def test_refusal(before, after, why):
    wanted = "\n".join(f"{schema.SCHEMA}: {it}" for it in why.splitlines())
    came = refusal_of(TEXT.replace(before, after, 1))
    fail_if(differing(wanted, came[: len(wanted)] if why.endswith(LINE_OF_TOML) else came))


def texts_of(known):
    """Returns what is written of the record to which the field is added."""
    accuracy, java = known.records["Accuracy"], bindings.Java(known)
    return {
        "Python": [*bindings.Python(known).record(accuracy)], "Rust": [*bindings.Rust(known).file()],
        "the record of Java": java.file(accuracy, "").splitlines(), "the reader of Java": [*java.readers()],
    }


def test_field(tally, monkeypatch):
    before, known = texts_of(schema.schema()), schema.kinds
    with monkeypatch.context() as changed:
        changed.setattr(schema, "kinds", lambda: [*known(), kinds.Kind("NOTE", "0x5d", "contents: a note")])
        after = texts_of(schema.schema_in(TEXT + LINE))
    for name, lines in after.items():
        added = [it[2:] for it in difflib.ndiff(before[name], lines) if it.startswith("+ ") and it[2:]]
        tally.count(f"a field of {name}", differing(ADDED[name], added))
    by_hand = "    // A method.\n}\n"
    kept = bindings.Java(schema.schema()).file(schema.schema().records["Accuracy"], by_hand)
    tally.count("what is written by hand", "" if kept.endswith(bindings.MARK + by_hand) else f"came {kept!r}")
