"""What is said of certificates: names of subjects as openssl writes them, and dates, without a warning of `cryptography`, old and new."""

from datetime import datetime, timezone

import pytest
from counting import count_if, count_same, needs
from making import write_files
from running import environment_of, lines_of, ran

pytestmark = [pytest.mark.archive, needs("click", "tqdm", "sqlalchemy", "cryptography", tools=["openssl"])]
OIDS = (
    *(f"2.5.4.{it}" for it in (4, 5, 12, 13, 15, 16, 17, 18, 20, 41, 42, 43, 44, 45, 46, 65, 97)), *(f"1.2.840.113549.1.9.{it}" for it in (1, 2, 8)),
    *(f"1.3.6.1.4.1.311.60.2.1.{it}" for it in (1, 2)),
)
COUNTRY = "1.3.6.1.4.1.311.60.2.1.3"  # of which openssl takes only two letters
NAMELESS = "2.5.4.54"  # which openssl calls dmdName


@pytest.fixture(scope="module")
def rows(shared_home, make):
    """The signers of a message by a certificate with all of these types in its name, as a store has them, and their name as openssl writes it."""
    subject = "".join(f"/{oid}=value {number}" for number, oid in enumerate(OIDS)) + f"/{COUNTRY}=DE/{NAMELESS}=other/CN=A, B"
    make.run("openssl req -x509 -newkey rsa:2048 -nodes -keyout named.key -out named.pem -days 9 -subj", subject)
    message = make.run("openssl cms -sign -binary -nodetach -signer named.pem -inkey named.key -outform DER", octets=b"content")
    folder = write_files(shared_home / "named", {"named.p7m": message})
    ran(shared_home, "index", folder, "--jobs", 1, "--store", "named.db")
    said = make.run("openssl x509 -in named.pem -noout -subject -nameopt RFC2253,-sname,lname").decode()
    return lines_of(shared_home, "signers", "--store", "named.db"), said


def test_names(rows):
    """Types are those that openssl writes, but for two: CN is in RFC 4514, and what is seldom used has its number. A store has backslashes twice."""
    (row,), said = rows
    wanted = said.strip().partition("subject=")[2].replace("commonName=", "CN=").replace("dmdName=", f"{NAMELESS}=").replace("\\", "\\\\")
    count_same("the subject", row["subject"], wanted)
    count_if("all values are there", wanted.count("value ") == len(OIDS) and f",{NAMELESS}=other," in wanted, wanted)
    count_same("the issuer", row["issuer"], row["subject"])


def test_signer(rows, shared_home):
    """A filter finds a signer by an address of mail with its type."""
    number = OIDS.index("1.2.840.113549.1.9.1")
    for text, count in ((f"emailaddress=value {number},", 1), ("emailaddress=value 99", 0)):
        count_same(f"signers by {text}", len(lines_of(shared_home, "signers", "--signer", text, "--store", "named.db")), count)


class Old:
    """A certificate as `cryptography` before 42 has it."""

    not_valid_before, not_valid_after = datetime(2024, 2, 29, 12), datetime(2025, 1, 1)


class New:
    """The same as it has it since then, where each of the old dates warns."""

    not_valid_before_utc, not_valid_after_utc = (it.replace(tzinfo=timezone.utc) for it in (Old.not_valid_before, Old.not_valid_after))

    @property
    def not_valid_before(self):
        raise DeprecationWarning("not_valid_before")

    not_valid_after = not_valid_before


@pytest.mark.parametrize("certificate", [Old(), New()])
def test_dates(archive, certificate):
    count_same("dates", archive.certificate_texts.dates_of(certificate), ("2024-02-29T12:00:00Z", "2025-01-01T00:00:00Z"))


def test_dates_of_a_certificate(rows, make):
    """The dates are those that openssl says."""
    (row,), _ = rows
    said = make.run("openssl x509 -in named.pem -noout -dates -dateopt iso_8601").decode()
    count_same("dates", [row["not_before"], row["not_after"]], [it.partition("=")[2].replace(" ", "T") for it in said.splitlines()])


def test_no_warning(home, make):
    """With warnings as errors, the names and dates of certificates are read, and nothing is said of a warning."""
    folder, strict = write_files(home / "archive", {"signed.p7m": make.cms(b"content", "-nodetach")}), environment_of(home, PYTHONWARNINGS="error")
    for words, wanted in ((("index", folder, "--verify", "--jobs", 1), ""), (("signers",), "CN=Signer\t"), (("inspect", folder / "signed.p7m"), "from 20")):
        done = ran(home, *words, env=strict)
        count_if(f"{words[0]}: no warning", "Warning" not in done.stderr and wanted in done.stdout, done.stderr, done.stdout)
