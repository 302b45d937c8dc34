"""Asks the WebAssembly module what the library is asked, in Node, by the package in dist/; and tries what the package, its heap and the page rest on.

- The package answers what tests/test_libraries.py asks the library for C, and passes web/tests. Its types are checked by tsc.
- runtime/module gives blocks that do not overlap, at random with a printed seed; changed C is found wrong.
- web/digests.mjs gives what hashlib gives, web/inputs.mjs finds messages in PEM and mail, and does not take long for text that is made to be slow, and
  web/hints.mjs says what other files may be.
- scripts/retarget.py refuses text that it does not understand.
"""

import base64
import hashlib
import json
import os
import random
import re
import subprocess
import sys

import pytest
from callers import C_SOURCES, add_counts, compare, run
from library_requests import asked_of, extents, requests
from needs import needs
from package_tools import PACKAGES, VERSION
from programs import SMALLEST, TOP, octets_of, read_vectors
from tally import differing

WEB, MODULE = TOP / "web", TOP / "runtime" / "module"
UNDER_OTHER_NAMES = ["-Dmalloc=tried_malloc", "-Drealloc=tried_realloc", "-Dfree=tried_free", "-fno-builtin"]
SANITIZED = ["-fsanitize=address,undefined"]
ALGORITHMS = ("sha1", "sha224", "sha256", "sha384", "sha512", "sha512-224", "sha512-256")
EXAMPLE = TOP / "examples" / "message.ber"

pytestmark = pytest.mark.tree


@pytest.fixture(scope="module")
def package(tmp_path_factory):
    """The folder of the package."""
    folder = tmp_path_factory.mktemp("npm")
    run(["tar", "-xzf", PACKAGES / f"cms-canon-{VERSION}.tgz", "-C", folder])
    return folder / "package"


@needs("node")
def test_answers(tally, package):
    asked = [*asked_of(requests(), "pieces", "lines", "jobs"), *extents()]
    compare(tally, "JavaScript", asked, ["node", WEB / "tests" / "answer.mjs", package])


@needs("node")
def test_calls(tally, package):
    said = run(["node", "--test", *sorted((WEB / "tests").glob("*.test.mjs"))], env={**os.environ, "PACKAGE": str(package), "MESSAGE": str(EXAMPLE)})
    counts = {name: int(number) for name, number in re.findall(r"^# (pass|fail|skipped|cancelled|todo) (\d+)$", said, re.M)}
    others = {name: number for name, number in counts.items() if name != "pass" and number}
    tally.count("web/tests", said[-3000:] if others or not counts.get("pass") else "")
    tally.add(counts.get("pass", 0))


TYPED = """
import { CmsCanon, Finding, Refused, load } from "cms-canon";
const canon: CmsCanon = await load();
const der: Uint8Array = canon.convert(new Uint8Array(), { limit: 5n });
const found: Finding[] = canon.check(der, { content: der });
const covered: Uint8Array = canon.cover(der, [0, 1], { content: null });
try { canon.show(der); } catch (error) { if (error instanceof Refused) { const at: number | null = error.at; } }
"""


@needs("tsc")
@pytest.mark.parametrize("wrong", ["", 'canon.convert("text");', "canon.cover(der);", "const n: number = found[0].signer;"], ids=str)
def test_types(tmp_path, package, wrong):
    (tmp_path / "node_modules").mkdir()
    (tmp_path / "node_modules" / "cms-canon").symlink_to(package)
    (tmp_path / "typed.mts").write_text(TYPED + wrong, encoding="ascii")
    words = ["tsc", "--noEmit", "--strict", "--target", "es2022", "--module", "nodenext", "--moduleResolution", "nodenext", "--lib", "es2022,dom", "typed.mts"]
    done = subprocess.run(words, cwd=tmp_path, capture_output=True, text=True)
    assert (done.returncode != 0) == bool(wrong), done.stdout


# ---- the heap

WRONG_BLOCKS = {  # C that is wrong: what is changed, and to what
    "a block too short": ("return (octets + ALIGNMENT - 1) & ~(size)(ALIGNMENT - 1);", "return octets & ~(size)(ALIGNMENT - 1);"),
    "blocks that are not aligned": ("(octets + ALIGNMENT - 1) & ~(size)(ALIGNMENT - 1)", "octets"),
    "a block that is not the last": ("    last = it;\n    return it + 1;", "    return it + 1;"),
    "the last block is not longer": ("        it->length = rounded(octets);\n", ""),
    "any block grows in its place": ("it == last && heap_reaches", "heap_reaches"),
    "nothing is copied": ("    __builtin_memcpy(to, at, it->length);\n", ""),
    "what moved is not freed": ("    free(at);\n", ""),
    "no bound": ("octets > MOST || !heap_reaches((char *)(it + 1) + rounded(octets))", "0"),
    "no bound for another size": ("    if (octets > MOST)\n        return 0;\n", ""),
    "freed blocks stay": ("    while (last && last->length & FREED)\n        last = last->before;\n", ""),
    "all are freed with the last": ("while (last && last->length & FREED)", "while (last)"),
}


def tried_blocks(source, folder, seed):
    """Tries a heap, and returns the status and what is printed."""
    run(["gcc", "-std=gnu11", "-Wall", "-Wextra", *SANITIZED, *UNDER_OTHER_NAMES, "-c", source, "-o", folder / "blocks.o"])
    run(["gcc", "-std=gnu11", "-Wall", "-Wextra", "-Werror", *SANITIZED, C_SOURCES / "blocks.c", folder / "blocks.o", "-o", folder / "blocks"])
    ended = subprocess.run([folder / "blocks", str(seed)], capture_output=True, text=True, timeout=120)
    return ended.returncode, ended.stdout


@needs("gcc")
def test_blocks(tally, tmp_path):
    seed = random.randrange(1 << 32)
    print(f"the seed is {seed}")
    status, said = tried_blocks(MODULE / "blocks.c", tmp_path, seed)
    add_counts(tally, f"runtime/module, seed {seed}", said)
    tally.count("runtime/module: status", differing(0, status))


@needs("gcc")
@pytest.mark.parametrize("name", WRONG_BLOCKS)
def test_wrong_blocks(tmp_path, name):
    old, new = WRONG_BLOCKS[name]
    text = (MODULE / "blocks.c").read_text(encoding="ascii")
    assert text.count(old) == 1
    (tmp_path / "wrong.c").write_text(text.replace(old, new), encoding="ascii")
    status, said = tried_blocks(tmp_path / "wrong.c", tmp_path, 1)
    assert status != 0, said[-300:]


# ---- what the page rests on

def by_node(script, given):
    """Returns what a script prints as JSON, to which the functions of web/ are imported."""
    return json.loads(run(["node", "--input-type=module", "--eval", script], given, cwd=WEB))


SIDES = """
import { sidesOf } from "./sides.mjs";
import { readFileSync } from "node:fs";
const asked = JSON.parse(readFileSync(0, "utf-8")), octets = it => Buffer.from(it, "hex");
const plain = ({ shown, more }) => ({ more, shown: shown.map(it => ({ ...it, octets: Buffer.from(it.octets).toString("hex") })) });
const sides = ([message, der, pieces]) => Object.values(sidesOf(octets(message), octets(der), pieces)).map(plain);
console.log(JSON.stringify(asked.map(sides)));
"""
MOST_PARTS, MOST_OCTETS = 400, 48  # of a side, and of a part, that are shown


def pieces_at_random(choose, message):
    """Returns pieces of a message, which may have octets in common, with octets that are made between them; and the DER that they are."""
    pieces, der = [], b""
    for _ in range(choose.randrange(8) if choose.random() < 0.9 else 300):
        is_made = choose.random() < 0.4
        begin = choose.randrange(len(message))
        octets = choose.randbytes(choose.randrange(1, 60)) if is_made else message[begin : begin + choose.randrange(1, 80)]
        pieces.append({"place": len(der) if is_made else begin, "length": len(octets), "made": is_made})
        der += octets
    return pieces, der


@needs("node")
def test_sides(tally):
    """The parts of each side lie one after another and are all of it; a part that is copied is there on both sides, and has the octets of its piece."""
    choose = random.Random(79)
    cases = [(message := choose.randbytes(choose.randrange(1, 400)), *pieces_at_random(choose, message)) for _ in range(300)]
    came = by_node(SIDES, json.dumps([(message.hex(), der.hex(), pieces) for message, pieces, der in cases]))
    for number, ((message, pieces, der), sides) in enumerate(zip(cases, came)):
        copied = [it for it, piece in enumerate(pieces) if not piece["made"]]
        for name, octets, side in zip(("the message", "the DER"), (message, der), sides):
            at = 0
            for part in side["shown"]:
                wanted = (at, octets[at : at + part["length"]][:MOST_OCTETS].hex())
                tally.count(f"{number}, {name}, at {at}", differing(wanted, (part["begin"], part["octets"])))
                at += part["length"]
            is_cut = side["more"] > 0
            tally.count(f"{number}, {name}: all of it", differing((len(octets), MOST_PARTS), (at, MOST_PARTS) if not is_cut else (len(octets), len(side["shown"]))))
            links = [part["number"] for part in side["shown"] if part["kind"] == "copied"]
            tally.count(f"{number}, {name}: what is copied", differing(copied, sorted(links)) if not is_cut else "")


DIGESTS = """
import { digester } from "./digests.mjs";
import { readFileSync } from "node:fs";
const asked = JSON.parse(readFileSync(0, "utf-8")), hex = it => Buffer.from(it).toString("hex");
const digest = ([name, pieces]) => hex(pieces.reduce((it, piece) => it.update(Buffer.from(piece, "hex")), digester(name)).digest());
console.log(JSON.stringify(asked.map(digest)));
"""


@needs("node")
def test_digests(tally):
    chosen = random.Random(1)
    asked = []
    for name in ALGORITHMS:
        for length in [*range(300), 5000, 70_000]:
            octets, cut = chosen.randbytes(length), chosen.randint(0, length)
            asked.append((name, [octets[:cut].hex(), octets[cut:].hex()]))
    for (name, pieces), came in zip(asked, by_node(DIGESTS, json.dumps(asked)), strict=True):
        octets = bytes.fromhex("".join(pieces))
        hasher = hashlib.new(name.replace("-", "_"), octets)
        tally.count(f"{name} of {len(octets)} octets", differing(hasher.hexdigest(), came))


INPUTS = """
import { NoMessage, messageIn } from "./inputs.mjs";
import { readFileSync } from "node:fs";
const hex = it => it && Buffer.from(it).toString("hex");
function found(text) {
    try {
        const { form, message, content, asItLies } = messageIn(new Uint8Array(Buffer.from(text, "hex")));
        return [form, hex(message), hex(content), hex(asItLies)].slice(0, asItLies ? 4 : 3);
    } catch (error) {
        if (!(error instanceof NoMessage)) throw error;
        return ["none", error.message, null];
    }
}
console.log(JSON.stringify(JSON.parse(readFileSync(0, "utf-8")).map(found)));
"""
OCTETS = octets_of(read_vectors()[SMALLEST], "input")
IN_BASE64 = base64.encodebytes(OCTETS).decode()
SIGNED_MAIL = """From: a@example.org
Content-Type: multipart/signed; protocol="application/pkcs7-signature";
 micalg=sha-256; boundary="x+y"

It is signed.
--x+y
Content-Type: text/plain

The text.
--x+y
Content-Type: application/pkcs7-signature; name=smime.p7s
Content-Transfer-Encoding: base64

{}
--x+y--
"""


def inputs():
    """Gives octets, and what is found in them."""
    yield OCTETS, ["binary", OCTETS.hex(), None]
    yield b"", ["binary", "", None]
    for label in ("CMS", "PKCS7", "ANY OTHER"):
        text = f"before\n-----BEGIN {label}-----\n{IN_BASE64}-----END {label}-----\nafter"
        for it in (text, text.replace("\n", "\r\n"), text.replace("\n", "\n  ")):
            yield it.encode(), [f"PEM ({label})", OCTETS.hex(), None]
    block = f"-----BEGIN CMS-----\n{IN_BASE64}-----END CMS-----\n"
    yield f"-----BEGIN CMS-----\nComment: made-by me\n\n{IN_BASE64}-----END CMS-----\n".encode(), ["PEM (CMS)", OCTETS.hex(), None]
    yield f"\ufeff{block}".encode(), ["PEM (CMS)", OCTETS.hex(), None]
    for end in ("", "-----END PKCS7-----\n"):
        yield f"-----BEGIN CMS-----\n{IN_BASE64}{end}".encode(), ["none", "the text has BEGIN CMS, and no END after it", None]
    several = "the text has more than one block from BEGIN to END: give only the one with the message"
    for it in (block + block, block + block.replace("CMS", "CERTIFICATE"), block.replace("CMS", "CERTIFICATE") + block):
        yield it.encode(), ["none", several, None]
    yield b"-----BEGIN CMS-----\n!!!!\n-----END CMS-----\n", ["none", "the text between BEGIN and END is no base64", None]
    content = b"Content-Type: text/plain\r\n\r\nThe text."
    for it in (SIGNED_MAIL, SIGNED_MAIL.replace("\n", "\r\n")):
        lying = content if "\r" in it else content.replace(b"\r", b"")
        yield it.format(IN_BASE64).encode(), ["mail", OCTETS.hex(), content.hex(), lying.hex()]
    opaque = "Content-Type: application/pkcs7-mime; smime-type=signed-data\nContent-Transfer-Encoding: base64\n\n"
    yield f"{opaque}{IN_BASE64}".encode(), ["mail", OCTETS.hex(), None]
    yield f"{opaque.replace('base64', 'BASE64 (c)')}{IN_BASE64}".encode(), ["mail", OCTETS.hex(), None]
    yield f"{opaque.replace('base64', 'x-other')}{IN_BASE64}".encode(), ["none", "the part with the message is encoded as x-other", None]
    wrong = {
        "the second part of the mail is no signature": SIGNED_MAIL.replace("pkcs7-signature; name", "other; name"),
        "the mail ends before its last part does": SIGNED_MAIL.replace("--x+y--", ""),
        "the mail has a part after its last one": f"{SIGNED_MAIL}--x+y\n\nmore\n--x+y--\n",
        "signed mail has two parts, and this has 3": SIGNED_MAIL.replace("--x+y--", "--x+y\n\nmore\n--x+y--"),
        "signed mail has two parts, and this has 0": SIGNED_MAIL.replace(' boundary="x+y"', ' other="x+y"'),
        "the mail has parameters of its content that are not understood": SIGNED_MAIL.replace(' boundary="x+y"', ' boundary="x+y"; (x); boundary="z"'),
        "the mail has content-type more than once": SIGNED_MAIL.replace("From:", "Content-Type: text/plain\nFrom:"),
        "the mail has more than 100 parts": SIGNED_MAIL.replace("--x+y--", "--x+y\n\nmore\n" * 99 + "--x+y--"),
        "signed mail is encoded as base64": SIGNED_MAIL.replace("Content-Type:", "Content-Transfer-Encoding: base64\nContent-Type:", 1),
        "the mail is signed in another way": SIGNED_MAIL.replace("application/pkcs7-signature", "application/pgp-signature", 1),
        "the part with the message is no base64": SIGNED_MAIL.replace("{}", "{}!"),
        "the mail has more after its last part, which readers do not show: if it is a mailbox, give one mail of it": f"{SIGNED_MAIL}\n\nFrom b\nFrom: b\n",
        "the mail has the parameter boundary more than once": SIGNED_MAIL.replace('"x+y"', '"x+y"; boundary=z'),
    }
    for why, text in wrong.items():
        yield text.format(IN_BASE64).encode(), ["none", why, None]
    inside = SIGNED_MAIL.format(IN_BASE64).replace("The text.", f"{block}The text.")
    lying = f"Content-Type: text/plain\n\n{block}The text."
    yield inside.encode(), ["mail", OCTETS.hex(), lying.replace("\n", "\r\n").encode().hex(), lying.encode().hex()]
    quoted = SIGNED_MAIL.format(IN_BASE64).replace("micalg=sha-256", 'micalg="boundary=no"')
    for it in (quoted, f"From a@example.org Mon\n{SIGNED_MAIL.format(IN_BASE64)}"):
        yield it.encode(), ["mail", OCTETS.hex(), content.hex(), content.replace(b"\r", b"").hex()]
    polyglot = bytes.fromhex("303a303802010230330c310a436f6e74656e742d547970653a6170706c69636174696f6e2f706b6373372d6d696d653b6161610a0a30053003020100")
    for it in (polyglot, b"0-----BEGIN CMS-----\nMA==\n-----END CMS-----\n"):
        yield it, ["binary", it.hex(), None]
    yield f"{SIGNED_MAIL.format(IN_BASE64)}\n \n".encode(), ["mail", OCTETS.hex(), content.hex(), content.replace(b"\r", b"").hex()]
    yield b"Only: text\n\nand no more", ["binary", b"Only: text\n\nand no more".hex(), None]


@needs("node")
def test_inputs(tally):
    asked = [*inputs()]
    came = by_node(INPUTS, json.dumps([octets.hex() for octets, _ in asked]))
    for (octets, wanted), it in zip(asked, came, strict=True):
        tally.count(f"input {octets[:60]!r}", differing(wanted, it))


SLOW = """
import { messageIn } from "./inputs.mjs";
import { readFileSync } from "node:fs";
const seconds = ([before, part, after]) => {
    const octets = new TextEncoder().encode(before + part.repeat(Math.ceil((1 << 24) / part.length)) + after), begun = process.cpuUsage();
    try { messageIn(octets); } catch { /* refused */ }
    const { user, system } = process.cpuUsage(begun);
    return (user + system) / 1e6;
};
console.log(JSON.stringify(JSON.parse(readFileSync(0, "utf-8")).map(seconds)));
"""
SLOWEST = 6  # seconds of the processor for 16 MiB of text
MULTIPART = 'Content-Type: multipart/signed; boundary="b"'


@needs("node")
def test_slow_inputs(tally):
    """Text of 16 MiB that is made to be slow."""
    texts = [
        ("", "-----BEGIN ", ""), ("\n-----BEGIN A-----\n", "-----END A----", ""), ("\n-----BEGIN A-----\n", "\n-----END B-----", ""), ("\n", " " * 99 + "-----BEGIN ", ""),
        ("\n-----BEGIN A-----\n", " \n", "-----END A-----\n"), ("\n-----BEGIN A-----\n", "\r", "-----END A-----\n"), (f"{MULTIPART}\n\n", "--b\n", ""),
        (f"{MULTIPART}\n\n", "--b" + " " * 200 + "\n", ""), (f"{MULTIPART}\n\n--b\n", "\r", "\n--b\n\n--b--\n"), (f"{MULTIPART}\n", "a:b\n", "\n"), (MULTIPART, ";a", "\n\n"),
        (f"{MULTIPART}\n", " a\n", "\n\n"), (f"{MULTIPART}; a=\"", "\\\\a", "\n\n"), (f"{MULTIPART}\nContent-Transfer-Encoding: ", "()", "\n\n"),
    ]
    for text, took in zip(texts, by_node(SLOW, json.dumps(texts)), strict=True):
        tally.count(f"text of {text[1][:20]!r} after {text[0][-20:]!r}", "" if took < SLOWEST else f"{took} s")


HINTS = """
import { hintOf } from "./hints.mjs";
import { readFileSync } from "node:fs";
console.log(JSON.stringify(JSON.parse(readFileSync(0, "utf-8")).map(([form, octets]) => hintOf(form, new Uint8Array(Buffer.from(octets, "hex"))))));
"""


@needs("node", "openssl")
def test_hints(tally, tmp_path):
    """What is said of files that are no messages: of OpenSSL, and others."""
    for words in (
        "req -newkey rsa:2048 -nodes -x509 -subj /CN=a -keyout key.pem -out certificate.pem", "x509 -in certificate.pem -outform DER -out certificate.der",
        "rsa -in key.pem -traditional -outform DER -out key.der", "pkcs8 -topk8 -nocrypt -in key.pem -outform DER -out pkcs8.der",
        "pkcs12 -export -inkey key.pem -in certificate.pem -passout pass:a -out key.p12", "cms -encrypt -in key.pem -outform DER -out encrypted.der certificate.pem",
        "cms -EncryptedData_encrypt -secretkey 00112233445566778899aabbccddeeff -aes128 -in key.pem -outform DER -out data.der",
        "cms -encrypt -aes-128-gcm -in key.pem -outform DER -out sealed.der certificate.pem",
    ):
        run(["openssl", *words.split()], cwd=tmp_path)
    files = {
        "certificate.der": "a certificate", "key.der": "a private key", "pkcs8.der": "a private key", "key.p12": "PKCS #12", "encrypted.der": "an encrypted message",
        "data.der": "an encrypted message", "sealed.der": "an encrypted message",
    }
    octets = {"a PDF": b"%PDF-1.7\n", "a ZIP": b"PK\3\4" + bytes(30), "of OpenPGP": b"-----BEGIN PGP SIGNATURE-----\n", "XML": b'<?xml version="1.0"?>', "is text": b"This is only text.",
              "is empty": b"", "of another kind": b"\xff\xd8\xff\xe0" + bytes(20), "is: CERTIFICATE": None}
    asked = [*(("binary", (tmp_path / it).read_bytes(), said) for it, said in files.items()),
             *(("PEM (CERTIFICATE)" if it is None else "binary", it or b"", said) for said, it in octets.items())]
    came = by_node(HINTS, json.dumps([(form, it[:4096].hex()) for form, it, _ in asked]))
    for (form, it, said), hint in zip(asked, came, strict=True):
        tally.count(f"a hint: {said}", "" if said in hint else f"{it[:20].hex()}: {hint}")
    message = by_node(HINTS, json.dumps([("binary", OCTETS.hex()), ("PEM (CMS)", OCTETS.hex())]))
    tally.count("no hint for a message", differing(["", ""], message))


# ---- retarget.py

LLVM = """target datalayout = "e-m:e-p270:32:32-p271:32:32-p272:64:64-i8:8:32-i16:16:32-i64:64-i128:128-n32:64-S128-Fn32"
target triple = "aarch64-unknown-linux-gnu"

define void @cms_canon_tried(ptr noundef %0, i64 noundef %1) #0 {
  ret void
}

attributes #0 = { nounwind "frame-pointer"="non-leaf" "probe-stack"="inline-asm" "stack-probe-size"="4096" "target-cpu"="generic" }
"""


@pytest.mark.parametrize("name, old, new", [
    ("as it is", "", ""), ("another target", "aarch64-unknown-linux-gnu", "x86_64-unknown-linux-gnu"), ("another layout", "i64:64", "i64:32"),
    ("assembly", "ret void", 'call void asm "nop", ""()\n  ret void'), ("of the processor", "ret void", "call void @llvm.aarch64.clrex()\n  ret void"),
    ("an export that returns", "define void", "define i64"), ("another attribute", '"target-cpu"="generic"', '"target-cpu"="generic" "target-features"="+sve"'),
], ids=lambda it: it if " " in it else "")
def test_retarget(tmp_path, name, old, new):
    (tmp_path / "from.ll").write_text(LLVM.replace(old, new) if old else LLVM, encoding="ascii")
    done = subprocess.run([sys.executable, TOP / "scripts" / "retarget.py", tmp_path / "from.ll", tmp_path / "to.ll"], capture_output=True, text=True)
    assert (done.returncode == 0) == (not old), done.stderr
    assert (tmp_path / "to.ll").exists() == (not old)
