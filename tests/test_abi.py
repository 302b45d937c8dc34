"""The calls and the types of the library for C are those of the last release, and what is new: scripts/abi, by abidiff, finds what is gone or other."""

import subprocess
from pathlib import Path

import pytest
from needs import needs

TOP = Path(__file__).resolve().parent.parent
HEADER = TOP / "bindings" / "c" / "cms_canon.h"
BROKEN = {  # by what is edited in the header
    "a call is gone": ("void cms_canon_same(", "void cms_canon_compare("),
    "an argument is another type": ("cms_canon_same(const uint8_t *first, size_t", "cms_canon_same(const uint8_t *first, uint32_t"),
    "an argument more": ("void cms_canon_same(", "void cms_canon_same(bool strict, "),
    "a member is shorter": ("    uint64_t end; ", "    uint32_t end; "),
    "a member more": ("    uint32_t reach; ", "    uint32_t reach, more; "),
    "an array is longer": ("char name[24];", "char name[32];"),
    "a status has another number": ("CMS_CANON_REFUSED = 3", "CMS_CANON_REFUSED = 4"),
    "a member is gone": ("    uint32_t has_signer; /* 1", "    /* 1"),
}
KEPT = {
    "a call more": ("void cms_canon_same(", "void cms_canon_more(uint32_t number);\nvoid cms_canon_same("),
    "a reason more": ("CMS_CANON_NEEDS_CONTENT = 107", "CMS_CANON_NEEDS_CONTENT = 107, CMS_CANON_NEEDS_MORE = 108"),
    "a member has another name": ("    uint64_t end;     /*", "    uint64_t stop;    /*"),
    "a comment": ("Returns the release of the library", "Returns which release the library is of"),
}


def status_of(*words):
    done = subprocess.run([TOP / "scripts" / "abi", *words], capture_output=True, text=True, timeout=120)
    return done.returncode, done.stdout + done.stderr


@needs("abidiff", "gcc")
def test_last_release(tally):
    status, said = status_of()
    tally.count("compared with the last release", "" if status == 0 else said)


@needs("abidiff", "gcc")
@pytest.mark.parametrize("name", [*BROKEN, *KEPT])
def test_edited(tally, tmp_path, name):
    before, after = {**BROKEN, **KEPT}[name]
    text, edited = HEADER.read_text(), tmp_path / "cms_canon.h"
    edited.write_text(text.replace(before, after, 1))
    status, said = status_of(edited)
    tally.count(name, "" if status == (name in BROKEN) and before in text else f"status {status}: {said}")


def test_words(tally):
    """Words that are not understood are refused, and so is a header that is not there."""
    for words in (["--what"], ["a", "b"], ["/no/header.h"]):
        status, said = status_of(*words)
        tally.count(str(words), "" if status != 0 and said.strip() else f"status {status}: {said}")
