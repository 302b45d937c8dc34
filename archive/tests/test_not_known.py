"""Has `check` look at what could pass for an all-clear: nobody's signature, something else in its place, what was not looked at, and what is not there.

Each ends `check` of the index with another status than 0, and `check` of the file too if there is a file.
"""

import hashlib
import json
import time

import pytest
from cases import SIGNER_INFO, appended, last_of, with_signed
from counting import count_if, count_same, needs
from elements import element, element_at, message as message_of, oid
from making import write_files, zipped
from places import DATA
from running import command, ended, lines_of, load_lines, ran

pytestmark = [pytest.mark.archive, needs("click", "tqdm", "sqlalchemy", "cryptography", tools=["openssl"])]
DOCUMENT = b"A document.\n"
FITS, DIFFERS, NOT_KNOWN = 0, 1, 3
ID_DATA = "1.2.840.113549.1.7.1"
CONTENT_STAMP = "1.2.840.113549.1.9.16.2.20"
IN_PLACE = ", in place of a signature"
NOBODY = message_of(b"\x02\x01\x01\x31\0", element(0x30, oid(ID_DATA), element(0xA0, element(0x04, DOCUMENT))), b"\x31\0")
ENVELOPED = "1.2.840.113549.1.7.3"


def cms_of(oid_of_type):
    """Returns a message of another type, which is known by how it begins."""
    return element(0x30, oid(oid_of_type), element(0xA0, element(0x30, b"\x02\x01\0")))


def jar_with(block, make):
    manifest = b"Manifest-Version: 1.0\r\n\r\n"
    digest = make.run("openssl dgst -sha256 -binary", octets=manifest)
    signed = b"Signature-Version: 1.0\r\nSHA-256-Digest-Manifest: " + make.run("openssl base64 -A", octets=digest) + b"\r\n\r\n"
    return zipped({"META-INF/MANIFEST.MF": manifest, "META-INF/A.SF": signed, "META-INF/A.RSA": block})


@pytest.fixture(scope="module")
def folder(shared_home, make):
    """Files in folders by what `check` has to say of them."""
    certificate = make.run("openssl x509 -in signer.pem -outform DER")
    pem = (make.folder / "signer.pem").read_bytes()
    content = element(0x30, oid(ID_DATA), element(0xA0, element(0x04, DOCUMENT)))
    attached = make.cms(DOCUMENT, "-nodetach")
    multipart = (
        b'Content-Type: multipart/signed; protocol="application/pkcs7-signature"; micalg=sha-256; boundary=b\r\nMIME-Version: 1.0\r\n\r\n--b\r\n\r\ntext\r\n--b\r\n'
        b"Content-Type: application/pkcs7-signature; name=smime.p7s\r\nContent-Transfer-Encoding: base64\r\n\r\n" + make.run("openssl base64", octets=certificate) + b"--b--\r\n"
    )
    request, bad = make.query(DOCUMENT), make.cms(b"Another document.\n", "-nodetach")[:-1]
    only = make.run("openssl crl2pkcs7 -nocrl -certfile signer.pem -outform DER")
    bad_pem = make.cms(b"Another document.\n", form="PEM")
    mail_of = b"MIME-Version: 1.0\r\nContent-Type: %b\r\nContent-Transfer-Encoding: base64\r\n\r\n%b"
    in_base64 = {name: make.run("openssl base64", octets=octets) for name, octets in (("certificate", certificate), ("damaged", b"\x31" + attached[1:]), ("request", request))}
    forged = zipped({
        "META-INF/MANIFEST.MF": b"Manifest-Version: 1.0\r\n\r\n", "META-INF/A.SF": b"Signature-Version: 1.0\r\n\r\n", "META-INF/A.RSA": b"\x30\3\2\1\5",
        "x; a certificate (X.509)": b"text",
    })
    quiet = {
        "request as signature/doc.p7s": request, "request beside/doc.sig": request, "request beside/doc": DOCUMENT, "request in mail/a.eml": mail_of % (b"application/pkcs7-mime", in_base64["request"]),
        "request in a jar/a.jar": jar_with(request, make), "certificates as signature/doc.p7s": only, "in capitals/DOC.P7S": only,
        "certificate in mail/a.eml": mail_of % (b"application/pkcs7-signature", in_base64["certificate"]), "damaged in mail/a.eml": mail_of % (b"application/cms", in_base64["damaged"]),
        "damaged inside/a.p7m": make.cms(bad, "-nodetach"), "after it inside/a.p7m": make.cms(attached + b"\0", "-nodetach"), "compressed inside/a.p7m": make.cms(cms_of("1.2.840.113549.1.9.16.1.9"), "-nodetach"),
        "PEM inside/a.p7m": make.cms(b"-----BEGIN PKCS7-----\nMAMCAQU=\n-----END PKCS7-----\n", "-nodetach"),
        "PEM in XML/doc.p7s": b"http://www.w3.org/2000/09/xmldsig# SignatureValue\n" + bad_pem,
        "XML/a.xml": b'<S xmlns="http://www.w3.org/2000/09/xmldsig#"><SignatureValue/></S>', "7z/a.7z": b"7z\xbc\xaf\x27\x1c" + bytes(26), "OpenPGP/a.sig": b"\x88\x5e\x04",
        "forged name/a.jar": forged, "not CMS/doc.p7b": b"\x31" + attached[1:], "not CMS, sgn/doc.sgn": b"some text",
        "nobody/attached.p7m": NOBODY, "nobody beside/doc.p7s": message_of(b"\x02\x01\x01\x31\0", element(0x30, oid(ID_DATA)), b"\x31\0"), "nobody beside/doc": DOCUMENT,
        "certificate/signature.p7s": certificate, "certificate in PEM/signature.p7s": pem, "certificate beside/doc.sig": certificate, "certificate beside/doc": DOCUMENT,
        "certificate in base64/signature.p7s": make.run("openssl base64", octets=certificate), "jar/a.jar": jar_with(certificate, make), "mail/a.eml": multipart,
        "second block/two.p7m": b"-----BEGIN PKCS7-----\n" + make.run("openssl base64", octets=certificate) + b"-----END PKCS7-----\n" + pem,
        "data before/data.p7m": content + attached, "signed too/signed.p7m": cms_of("1.2.840.113549.1.7.4"), "compressed/packed.p7m": cms_of("1.2.840.113549.1.9.16.1.9"),
        "encrypted after/two.p7m": cms_of(ENVELOPED) + attached, "encrypted for a document/doc.p7s": cms_of(ENVELOPED), "encrypted for a document/doc": DOCUMENT,
    }
    known = {
        "known/certificate.crt": certificate, "known/certificates.p7c": make.run("openssl crl2pkcs7 -nocrl -certfile signer.pem -outform DER"), "known/encrypted.p7m": cms_of(ENVELOPED),
        "known/public.der": make.run("openssl pkey -in signer.key -pubout -outform DER"),
        "known/structure.p7m": make.cms(b"\x30\3\2\1\5", "-nodetach"), "known/attached.p7m": attached, "known/doc.p7s": make.cms(DOCUMENT), "known/doc": DOCUMENT, "known/request.tsq": make.query(DOCUMENT),
    }
    return write_files(shared_home / "not known", {**quiet, **known})


def test_instead_of_a_signature(home, folder, new_store):
    """What is in place of a signature, what nobody signed, and what has something after it."""
    command(home, "index", folder, "--store", new_store)
    for place in sorted(it for it in folder.iterdir()):
        wanted = FITS if place.name == "known" else NOT_KNOWN
        said = ended(home, "check", "--under", place, "--store", new_store)
        count_same(f"{place.name}: the index", said.returncode, wanted)
        files = [it for it in place.iterdir() if it.name != "doc"]
        statuses = {it.name: ended(home, "check", it).returncode for it in files if it.suffix not in (".crt", ".p7c", ".tsq", ".der") and it.name != "encrypted.p7m"}
        count_same(f"{place.name}: its files", statuses, dict.fromkeys(statuses, wanted))
    notes = {it["path"].split("/")[-2]: it["note"] for it in lines_of(home, "refusals", "--store", new_store) if "/known/" not in it["path"]}
    for name in ("certificate", "certificate in base64", "certificate beside", "jar", "mail"):
        count_if(f"what lies there is named: {name}", notes[name].endswith(f"a certificate (X.509){IN_PLACE}"), notes[name])
    (row,) = lines_of(home, "check", "--under", folder / "nobody", "--store", new_store, status=NOT_KNOWN)
    count_same("what nobody signed", (row["kind"], row["state"]), ("signature", "no signature"))
    said = ran(home, "index", folder / "nobody", "--store", f"sqlite:///{home}/nobody.db").stderr
    count_if("it is counted", "could not be judged" in said and "has 1 file with 1 message: 0 fit" in said and said.startswith("1 file read"), said)


# ---- time-stamps of the content


def token_by(make, octets, algorithm):
    """Returns a token whose imprint is by this algorithm."""
    digest = hashlib.new(algorithm, octets).hexdigest()
    (make.folder / "query").write_bytes(make.run(f"openssl ts -query -digest {digest} -{algorithm} -cert"))
    return make.run("openssl ts -reply -queryfile query -token_out -config", DATA / "time-stamping.cnf")


def test_stamps_of_the_content(home, make, tmp_path, new_store):
    """A token in a signed attribute is compared with the content, by the algorithm of the signer or by another, inside or beside."""
    files, wanted, others = {}, {}, b"Another document.\n"
    for where, more in (("inside", ["-nodetach"]), ("beside", [])):
        for name, token, status in (
            ("same", token_by(make, DOCUMENT, "sha256"), FITS), ("other algorithm", token_by(make, DOCUMENT, "sha512"), FITS), ("of another", token_by(make, others, "sha256"), DIFFERS),
            ("of another by another", token_by(make, others, "sha512"), DIFFERS), ("no token", b"\x05\0", NOT_KNOWN), ("no time-stamp", make.cms(DOCUMENT, "-nodetach"), NOT_KNOWN),
        ):
            place = f"{where}, {name}"
            files |= {f"{place}/doc.p7s": with_signed(make.cms(DOCUMENT, *more), CONTENT_STAMP, token), f"{place}/doc": DOCUMENT}
            wanted[place] = status
    write_files(tmp_path, files)
    command(home, "index", tmp_path, "--store", new_store)
    for place, status in wanted.items():
        count_same(f"{place}: the index", ended(home, "check", "--under", tmp_path / place, "--store", new_store).returncode, status)
        said = ran(home, "check", tmp_path / place / "doc.p7s", status=status).stdout
        count_if(f"{place}: the file", "time-stamp content 0/0: " in said, said)
    (tmp_path / "beside, other algorithm/doc").unlink()
    said = ran(home, "check", tmp_path / "beside, other algorithm/doc.p7s", status=NOT_KNOWN).stdout
    count_if("a content that is not there", "time-stamp content 0/0: content not found" in said, said)
    rows = lines_of(home, "renewal", "--by", "2026-12-01", "--under", tmp_path / "inside, same", "--store", new_store, status=1)
    count_same("it does not renew the signature, which came later", len(rows), 1)


NESTED = ("1.2.840.113549.1.9.16.2.14", "1.3.6.1.4.1.311.2.4.1")


def stamped(make, octets, oid_of_attribute, *values):
    """Returns a message whose signer has one unsigned attribute."""
    whole = element(0x30, oid(oid_of_attribute), element(0x31, *values))
    return appended(octets, SIGNER_INFO, element(0xA1, whole))


def test_tokens_of_tokens(home, make, tmp_path, new_store):
    """A token in a token counts too, and so does what lies among attributes to which it does not belong."""
    signed, other = make.cms(DOCUMENT, "-nodetach"), make.token(b"Another document.\n")
    token = make.token(signature_of(signed))
    inner = make.token(signature_of(token))
    cases = {
        "fits": (stamped(make, signed, NESTED[0], token), FITS), "fits, with another": (stamped(make, signed, NESTED[0], stamped(make, token, NESTED[0], inner)), FITS),
        "with one that does not": (stamped(make, signed, NESTED[0], stamped(make, token, NESTED[0], other)), DIFFERS),
        "empty": (stamped(make, signed, NESTED[0]), NOT_KNOWN), "a signature": (stamped(make, signed, NESTED[1], make.cms(DOCUMENT)), NOT_KNOWN),
        "content, unsigned": (stamped(make, signed, CONTENT_STAMP, make.token(DOCUMENT)), NOT_KNOWN), "signed": (with_signed(signed, NESTED[0], token), NOT_KNOWN),
        "countersignature, signed": (with_signed(signed, "1.2.840.113549.1.9.6", b"\x30\0"), NOT_KNOWN),
    }
    deep = inner
    for _ in range(5):
        deep = stamped(make, make.token(DOCUMENT), NESTED[0], deep)
    cases["too deep"] = (stamped(make, signed, NESTED[0], deep), DIFFERS)
    write_files(tmp_path, {f"{name}.p7m": octets for name, (octets, _) in cases.items()})
    command(home, "index", tmp_path, "--store", new_store)
    for name, (_, status) in cases.items():
        path = tmp_path / f"{name}.p7m"
        came = [ended(home, "check", "--under", path, "--store", new_store).returncode, ended(home, "check", path).returncode]
        count_same(name, came, [status, status])


def signature_of(octets):
    """Returns the contents of the signature of the last signer."""
    return element_at(last_of(octets, SIGNER_INFO + 1)).contents


def test_more_than_are_looked_at(archive, make, monkeypatch):
    """Of more time-stamps than are listed it is said that not all were looked at; as many as are listed are no less than all."""
    attribute = with_signed(make.cms(DOCUMENT, "-nodetach"), CONTENT_STAMP, *[token_by(make, DOCUMENT, "sha256") + b"" for _ in range(3)])
    found = archive.found.Found("", "file", archive.found.Class.MESSAGE, len(attribute), attribute)
    for most, outcome in ((4, FITS), (3, FITS), (2, NOT_KNOWN)):
        monkeypatch.setattr(archive.judging, "MOST_LISTED", most)
        facts = archive.judging.judged(found)
        count_same(f"{most} of 3", (int(archive.outcomes.outcome_of(facts)), len(facts.times)), (outcome, min(3, most)))


# ---- notes, filters and gaps


def test_long_note(archive):
    """A note that is cut has its doubt still."""
    found, doubt = archive.found, "readers differ on a.txt: two members have this name"
    entry = archive.reading.Entry("/archive/a.zip", 1, 1, 1)
    for note in (f"{'long ' * 400}; {doubt}", f"{doubt}; {'long ' * 400}", f"{'long ' * 100}; {doubt}; {'long ' * 400}"):
        facts = archive.judging.Facts(found.Class.MESSAGE, state=found.State.FITS, note=note)
        read = archive.reading.read_of(entry, found.Found("", "zip", found.Class.MESSAGE, 1), facts)
        count_if("the doubt", "readers differ on " in read.place.note and len(read.place.note) < 1300, read.place.note)


@pytest.mark.parametrize("note", [
    "a field of the form has another /Contents for this ByteRange, so that readers differ", "no field of the form has this signature, so that readers do not show it",
    "the PDF is damaged, so that readers may differ on its signatures", "12 blanks follow, which some readers take for a change", "readers differ on a.txt",
    "something else than zeros follows the message in /Contents", "not all of its time-stamps are looked at", "a request, in place of a signature",
])
def test_doubts(archive, note):
    """A message that fits is not known to fit with each of these notes, which the containers have, and is with another one."""
    found, facts = archive.found, archive.judging.Facts
    for said, outcome in ((note, NOT_KNOWN), (f"first; {note}; last", NOT_KNOWN), ("its content was found by the digest", FITS)):
        count_same(said, int(archive.outcomes.outcome_of(facts(found.Class.MESSAGE, state=found.State.FITS, note=said))), outcome)


def test_another_release(home, make, tmp_path, new_store):
    """What was read by a release that may have seen something else is not known, until it is read again."""
    folder = write_files(tmp_path, {"a.p7m": make.cms(DOCUMENT, "-nodetach"), "b.txt": b"text", "c.crt": make.run("openssl x509 -in signer.pem -outform DER")})
    rows = [it for it in map(json.loads, command(home, "rows", folder).splitlines()) if "path" in it]
    load_lines(home, [{**it, "reader": it["reader"] - 1} for it in rows], new_store)
    said = ran(home, "check", "--store", new_store, status=NOT_KNOWN).stderr
    count_if("what is said", "3 files or members were read by another release: `cms-canon-archive index` reads them again" in said, said)
    for name in ("a.p7m", "b.txt", "c.crt"):
        ran(home, "check", "--under", folder / name, "--store", new_store, status=NOT_KNOWN)
    command(home, "index", folder, "--store", new_store)
    count_same("read again", ran(home, "check", "--store", new_store).stderr, "")


def test_filters(home, make, tmp_path, new_store):
    """What chooses among the rows chooses what is listed, and not the status."""
    files = {"a/fits.p7m": make.cms(DOCUMENT, "-nodetach"), "b/doc.p7s": make.cms(DOCUMENT), "b/doc": b"Another.\n", "c/cut.p7s": make.cms(DOCUMENT)[:-1]}
    command(home, "index", write_files(tmp_path, files), "--store", new_store)
    for words in ((), ("--state", "fits"), ("--signer", "nobody"), ("--algorithm", "sha256"), ("--since", "2000"), ("--until", "1999"), ("--content-in", tmp_path / "a", "--state", "fits")):
        count_same(f"{words}", ended(home, "check", *words, "--store", new_store).returncode, DIFFERS)
        count_same(f"{words} of what fits", ended(home, "check", "--under", tmp_path / "a", *words, "--store", new_store).returncode, FITS)
        done = ran(home, "check", "--under", tmp_path / "c", *words, "--store", new_store, status=NOT_KNOWN)
        count_if(f"{words} of what is not read", "1 file or member is refused" in done.stderr, done.stderr)
    count_same("what is listed", lines_of(home, "check", "--state", "fits", "--signer", "nobody", "--store", new_store, status=DIFFERS), [])


def test_readers_differ(home, make, tmp_path, new_store):
    """Readers that differ on certificates or on a request differ on what else may be there."""
    command(home, "index", write_files(tmp_path, {"a.tsq": make.query(DOCUMENT)}), "--store", f"sqlite:///{home}/one.db")
    (row,) = lines_of(home, "check", "--all", "--store", f"sqlite:///{home}/one.db")
    row = {key: value for key, value in row.items() if key not in ("file", "stored", "outcome", "wrong_times")}
    lists = {"signed_by": [], "times": []}
    load_lines(home, [{**row, **lists, "note": "readers differ on a.tsq: two parts have this name", "is_settled": True, "beside": ""}], new_store)
    count_same("a request", [it["outcome"] for it in lines_of(home, "check", "--store", new_store, status=NOT_KNOWN)], [NOT_KNOWN])


def test_not_there(home, make, tmp_path, new_store):
    """A path that the last index named and that was not there is said until the next one: a folder above, a link, and a name that never was."""
    write_files(tmp_path, {"m/deep/a.p7m": make.cms(DOCUMENT, "-nodetach")})
    (tmp_path / "link").symlink_to(tmp_path / "m/deep")
    command(home, "index", tmp_path / "link", "--store", new_store)
    count_same("all there", ended(home, "check", "--store", new_store).returncode, FITS)
    (tmp_path / "link").unlink()
    for name in ("link", "never"):
        ran(home, "index", tmp_path / name, "--store", new_store, status=1)
        for words in (("check",), ("changes",)):
            said = ran(home, *words, "--store", new_store, status=NOT_KNOWN).stderr
            count_if(f"{words} of {name}", f"{tmp_path}/{name}: the last index named it, and it was not there\n" in said, said)
    (tmp_path / "m").rename(tmp_path / "away")
    ran(home, "index", tmp_path / "m", "--store", new_store, status=1)
    count_same("a folder above", ended(home, "check", "--store", new_store).returncode, NOT_KNOWN)
    (tmp_path / "away").rename(tmp_path / "m")
    command(home, "index", tmp_path / "m", "--store", new_store)
    count_same("there again", ended(home, "check", "--store", new_store).returncode, FITS)
    ran(home, "index", tmp_path / "never", "--store", f"sqlite:///{home}/empty.db", status=1)
    said = ran(home, "check", "--store", f"sqlite:///{home}/empty.db", status=NOT_KNOWN).stderr
    count_if("an index of nothing", "the index has nothing: `cms-canon-archive index` puts files in\n" in said, said)


def test_other_kind(home, make, tmp_path, new_store):
    """What was a folder and is a file, and the reverse, has no row of what it was."""
    signed = make.cms(DOCUMENT, "-nodetach")
    write_files(tmp_path, {"top/x/deep/a.p7m": signed, "top/y": signed})
    command(home, "index", tmp_path / "top/x", tmp_path / "top/y", "--store", new_store)
    command(home, "index", tmp_path / "top", "--store", new_store)
    for it in ("x", "y"):
        (tmp_path / "top" / it).rename(tmp_path / it)
    time.sleep(1.1)
    write_files(tmp_path, {"top/x": b"text", "top/y/b.p7m": signed[:-1]})
    command(home, "index", tmp_path / "top/x", tmp_path / "top/y", "--store", new_store)
    rows = sorted((it["path"].removeprefix(f"{tmp_path}/top/"), it["what"]) for it in lines_of(home, "files", "--all", "--store", new_store))
    count_same("rows", rows, [("x", "text"), ("y/b.p7m", "refused")])


def test_load_that_was_cut(home, make, tmp_path, new_store):
    """A `load` that had not all is said until the next one that has."""
    folder = write_files(tmp_path, {f"{name}.p7m": make.cms(DOCUMENT, "-nodetach") for name in "abc"})
    lines = command(home, "rows", folder).splitlines(True)
    cut = "".join(lines[:-1])
    for given, status, said in ((cut, NOT_KNOWN, "`rows` was stopped before its end"), (f"[]\n{''.join(lines)}", NOT_KNOWN, "left out 1 line"), ("".join(lines), FITS, "")):
        ran(home, "load", "--store", new_store, input=given, status=int(status != FITS))
        came = ran(home, "check", "--store", new_store, status=status).stderr
        count_if(f"after: {said}", said in came and bool(came) == bool(said), came)
    nothing = ended(home, "rows", tmp_path / "never")
    for given in ("", nothing.stdout):
        said = ran(home, "load", "--store", new_store, input=given, status=1).stderr
        count_if("no line", "`rows` was stopped before its end" in said, said)
    partly = ended(home, "rows", tmp_path / "a.p7m", tmp_path / "never")
    count_same("rows of what is not there", (partly.returncode, '"end"' in partly.stdout), (1, False))


def test_empty_path(home, tmp_path):
    """An empty path, as of a variable that is not set, is a usage fault."""
    command(home, "index", tmp_path)
    for words in (("index", tmp_path, ""), ("rows", ""), ("check", "--sort", "nothing")):
        count_same(f"{words}", ended(home, *words).returncode, 2)
