"""What the vectors do not ask of the package `cms_canon`: types, limits, exceptions and threads."""

import contextlib
import copy
import gc
import inspect
import io
import json
import pickle
import re
import shutil
import struct
import subprocess
import sys
import tempfile
import threading
import time
import tracemalloc
import typing
import unittest
import warnings
from collections import Counter
from datetime import datetime, timezone
from decimal import Decimal
from hashlib import sha256
from pathlib import Path
from unittest import mock

import cms_canon
from cms_canon import _documents, _restoring
from cms_canon._calls import library
from cms_canon._rows import _short_dotted, dotted

HERE = Path(__file__).resolve().parent

MESSAGE = bytes.fromhex(
    "308006092a864886f70d010702a08030800201013100308006092a864886f70d010701a080248004026869040121"
    "000000000000310000000000" "0000"
)
COUNTERSIGNED = bytes.fromhex(
    "306606092a864886f70d010702a05930570201033100300b06092a864886f70d01070131433041020103800111300506032a0304300506032a0304"
    "0401aaa128302606092a864886f70d01090631193017020103800133300506032a0304300506032a03040401cc"
)
DER = bytes.fromhex("302a06092a864886f70d010702a01d301b0201013100301206092a864886f70d010701a00504036869213100")


TWO_SIGNERS = bytes.fromhex(
    "306606092a864886f70d010702a05930570201033100300b06092a864886f70d01070131433028020103800111300506032a0304300506032a0304"
    "0401aaa10f300d06032a030531060201070201083017020103800122300506032a0304300506032a03040401bb"
)
SIGNER = bytes.fromhex("3017020103800122300506032a0304300506032a03040401bb")
# A signer that is named by an issuer and the serial number -129; a certificate and an attribute certificate, by their framing alone.
OF_AN_ISSUER = bytes.fromhex(
    "305a06092a864886f70d010702a04d304b0201013100301206092a864886f70d010701a0050403616263a0063000a1020500312830260201013008"
    "300231000202ff7f300d060960864801650304020105003004060288370402aabb"
)


def element(identifier, contents):
    length = len(contents)
    octets = bytes([length]) if length < 0x80 else b"\x83" + length.to_bytes(3, "big")
    return bytes([identifier]) + octets + contents


def message_of(certificates, signers):
    """A message without content, with these members of its sets."""
    content = bytes.fromhex("300b06092a864886f70d010701")
    fields = b"\x02\x01\x03\x31\x00" + content + element(0xA0, certificates) + element(0x31, signers)
    return element(0x30, bytes.fromhex("06092a864886f70d010702") + element(0xA0, element(0x30, fields)))


def octets_before(octets, number):
    """How many octets the first messages have, of which there are so many: each is MESSAGE or DER."""
    at = 0
    for _ in range(number):
        at += len(MESSAGE if octets.startswith(MESSAGE, at) else DER)
    return at


class Conversions(unittest.TestCase):
    def test_each_type_of_octets(self):
        for data in (MESSAGE, bytearray(MESSAGE), memoryview(MESSAGE), memoryview(MESSAGE * 2)[: len(MESSAGE)]):
            der = cms_canon.convert(data)
            self.assertEqual(der, DER)
            self.assertIs(type(der), bytes)

    def test_other_types_are_errors(self):
        for data in (MESSAGE.hex(), 5, None, [48, 128]):
            with self.assertRaises(TypeError):
                cms_canon.convert(data)

    def test_limits(self):
        self.assertEqual(cms_canon.convert(MESSAGE, limit=len(MESSAGE)), DER)
        with self.assertRaisesRegex(cms_canon.Refused, "refused E2 TooLarge at"):
            cms_canon.convert(MESSAGE, limit=len(MESSAGE) - 1)
        for limit in (-1, 2**40 + 1):
            with self.assertRaises(ValueError):
                cms_canon.convert(MESSAGE, limit=limit)

    def test_a_limit_is_a_whole_number(self):
        class Whole:
            def __index__(self):
                return len(MESSAGE)

        self.assertEqual(cms_canon.convert(MESSAGE, limit=Whole()), DER)
        with self.assertRaisesRegex(cms_canon.Refused, "refused E2 TooLarge"):
            cms_canon.convert(MESSAGE, limit=True)  # which is 1, as everywhere in Python
        for limit, name in ((1000.0, "float"), (Decimal(1000), "decimal.Decimal"), ("1000", "str"), (None, "NoneType")):
            for call in (cms_canon.convert, cms_canon.convert_many, cms_canon.show, cms_canon.check, cms_canon.read):
                with self.assertRaisesRegex(TypeError, f"^a limit is a whole number, not {name}$"):
                    call(MESSAGE, limit=limit)
            for call in (cms_canon.same, cms_canon.cover):
                with self.assertRaisesRegex(TypeError, f"^a limit is a whole number, not {name}$"):
                    call(MESSAGE, 0 if call is cms_canon.cover else MESSAGE, limit=limit)

    def test_the_command_s_limit_is_the_default(self):
        self.assertEqual(inspect.signature(cms_canon.convert).parameters["limit"].default, 268435456)


class Many(unittest.TestCase):
    def test_messages_cut_anywhere(self):
        octets = MESSAGE + DER + COUNTERSIGNED + MESSAGE
        for size in range(1, len(octets) + 1):
            chunks = (octets[at : at + size] for at in range(0, len(octets), size))
            self.assertEqual([*cms_canon.convert_many(chunks)], [DER, DER, COUNTERSIGNED, DER])

    def test_chunks_of_each_type(self):
        for chunks in ([MESSAGE, DER], (bytearray(MESSAGE + DER),), iter([memoryview(MESSAGE), b"", DER]), [b"", MESSAGE + DER, b""]):
            self.assertEqual([*cms_canon.convert_many(chunks)], [DER, DER])
        self.assertEqual([*cms_canon.convert_many([])], [])
        for chunks in (MESSAGE, [MESSAGE.hex()], [5], 5):
            with self.assertRaises(TypeError):
                [*cms_canon.convert_many(chunks)]

    def test_each_message_is_yielded_as_soon_as_it_has_come(self):
        came = []

        def octet_by_octet():
            for number, message in enumerate([MESSAGE, DER, MESSAGE]):
                for octet in message:
                    self.assertEqual(len(came), number)
                    yield bytes([octet])

        for der in cms_canon.convert_many(octet_by_octet()):
            came.append(der)
        self.assertEqual(came, [DER] * 3)

    def test_refusals(self):
        for octets, number, line in (
            (MESSAGE + b"\x00", 1, "refused E1 Truncated at 1"),
            (MESSAGE + DER + DER[:-1], 2, f"refused E1 Truncated at {len(DER) - 1}"),
            (b"\x31\x00", 0, "refused E7 UnexpectedElement at 2"),
            (MESSAGE + b"\n" + MESSAGE, 1, "refused E7 UnexpectedElement at 2"),
            (DER + b"\x30\xff" + bytes(100), 1, "refused E3 LengthReserved at 2"),
            (DER + b"\x30\x89" + bytes(100), 1, "refused E4 LengthTooLong at 2"),
            (DER + b"\x30\x88" + b"\xff" * 8, 1, "refused E2 TooLarge at 10"),
        ):
            for size in (1, 7, len(octets)):
                ders = []
                with self.assertRaises(cms_canon.Refused) as caught:
                    for der in cms_canon.convert_many(octets[at : at + size] for at in range(0, len(octets), size)):
                        ders.append(der)
                refusal = caught.exception
                self.assertEqual((ders, refusal.number, refusal.message), ([DER] * number, number, None))
                self.assertEqual(refusal.begins, octets_before(octets, number))
                self.assertEqual(str(refusal), f"message {number}: {line}")
                again = pickle.loads(pickle.dumps(refusal))
                self.assertEqual((str(again), again.begins), (str(refusal), refusal.begins))

    def test_where_a_message_begins_that_is_refused(self):
        before = [MESSAGE, DER + COUNTERSIGNED[:50], COUNTERSIGNED[50:], b""]
        with self.assertRaises(cms_canon.Refused) as caught:
            [*cms_canon.convert_many([*before, b"\x31\x00"])]
        self.assertEqual((caught.exception.number, caught.exception.begins), (3, len(b"".join(before))))
        with self.assertRaises(cms_canon.Refused) as caught:
            cms_canon.convert(b"")
        self.assertIsNone(caught.exception.begins)

    def test_a_refusal_waits_for_no_more_octets(self):
        def chunks():
            yield MESSAGE
            yield MESSAGE[:20] + b"\x5f\xff\xff\xff\xff"
            self.fail("asked for more")

        with self.assertRaisesRegex(cms_canon.Refused, "^message 1: refused E7"):
            [*cms_canon.convert_many(chunks())]

    def test_limits(self):
        chunks = [MESSAGE] * 3
        self.assertEqual([*cms_canon.convert_many(chunks, limit=len(MESSAGE))], [DER] * 3)
        with self.assertRaisesRegex(cms_canon.Refused, "^message 0: refused E2 TooLarge at"):
            [*cms_canon.convert_many(chunks, limit=len(MESSAGE) - 1)]
        with self.assertRaisesRegex(cms_canon.Refused, "^message 0: refused E2 TooLarge at 0$"):
            [*cms_canon.convert_many([], limit=0)]
        for limit in (-1, 2**40 + 1):
            with self.assertRaises(ValueError):
                cms_canon.convert_many([], limit=limit)  # before the first message is asked for

    def test_a_message_a_chunk_is_neither_copied_nor_scanned(self):
        handed = []

        def converted(octets, *words):
            handed.append(octets)
            call(octets, *words)

        call = library.cms_canon_convert_many
        chunks = [MESSAGE, DER, COUNTERSIGNED, MESSAGE]
        with mock.patch.object(library, "cms_canon_convert_many", converted):
            with mock.patch.object(library, "cms_canon_extent", side_effect=AssertionError("a header was read")):
                self.assertEqual([*cms_canon.convert_many(chunks)], [DER, DER, COUNTERSIGNED, DER])
        self.assertEqual(len(handed), len(chunks) + 1)  # and what is left after all of them, which is nothing
        for octets, chunk in zip(handed, [*chunks, b""]):
            self.assertIs(octets, chunk)

    def test_a_message_in_pieces_is_asked_for_at_its_first_and_its_last_one(self):
        lengths = []

        def converted(octets, length, *words):
            lengths.append(length)
            call(octets, length, *words)

        call = library.cms_canon_convert_many
        with mock.patch.object(library, "cms_canon_convert_many", converted):
            self.assertEqual([*cms_canon.convert_many(bytes([octet]) for octet in MESSAGE + DER)], [DER] * 2)
        self.assertEqual(lengths, [1, len(MESSAGE), 1, len(DER), 0])

    def test_without_memory_for_an_extent(self):
        def fail(octets, length, limit, extent):
            extent.reach = 3

        with mock.patch.object(library, "cms_canon_extent", fail):
            for chunks in ([MESSAGE[:5], MESSAGE[5:]], [MESSAGE + DER]):
                with self.assertRaises(MemoryError):
                    [*cms_canon.convert_many(chunks)]

    def test_a_message_of_many_chunks_takes_time_in_proportion(self):
        inner = element(0x04, bytes(65530)) * 320
        signed_data = b"\x02\x01\x01\x31\x00\x30\x80" + bytes.fromhex("06092a864886f70d010701") + b"\xa0\x80\x24\x80" + inner
        head = bytes.fromhex("308006092a864886f70d010702a0803080")
        octets = head + signed_data + bytes(6) + b"\x31\x00" + bytes(6)

        def seconds(size):
            start = time.perf_counter()
            chunks = (octets[at : at + size] for at in range(0, len(octets), size))
            self.assertEqual(sum(map(len, cms_canon.convert_many(chunks))), len(cms_canon.convert(octets)))
            return time.perf_counter() - start

        self.assertLess(seconds(1 << 12), 20 * seconds(len(octets)) + 1)
        inner = element(0x04, b"a") * 200_000
        signed_data = b"\x02\x01\x01\x31\x00\x30\x80" + bytes.fromhex("06092a864886f70d010701") + b"\xa0\x80\x24\x80" + inner
        octets = head + signed_data + bytes(6) + b"\x31\x00" + bytes(6)
        self.assertLess(seconds(1 << 9), 20 * seconds(len(octets)) + 1)


class Refusals(unittest.TestCase):
    def test_what_a_refusal_says(self):
        with self.assertRaises(cms_canon.Refused) as caught:
            cms_canon.convert(MESSAGE + b"\n")
        refusal = caught.exception
        self.assertEqual((refusal.reason, refusal.name, refusal.at), (18, "Trailing", len(MESSAGE) + 1))
        self.assertEqual(str(refusal), f"refused E18 Trailing at {len(MESSAGE) + 1}")
        self.assertIsInstance(refusal, ValueError)
        self.assertEqual(str(pickle.loads(pickle.dumps(refusal))), str(refusal))

    def test_signers(self):
        for signer in (0, 1, 2**64 - 1, 2**64, 2**80):
            with self.assertRaises(cms_canon.Refused) as caught:
                cms_canon.cover(MESSAGE, signer)
            self.assertEqual((caught.exception.reason, caught.exception.at), (102, None))
            self.assertEqual(str(caught.exception), "refused: no such signer")
        with self.assertRaisesRegex(ValueError, "a number from 0"):
            cms_canon.cover(MESSAGE, -1)


    def test_the_octets_around(self):
        for octets, at, around in (
            (b"\x30\x06\x05\0", 4, (0, b"\x30\x06\x05\0")), (DER[:12] + b"\x07" + DER[13:], 13, (0, (DER[:12] + b"\x07" + DER[13:])[:29])),
            (DER[:-1], 43, (27, DER[27:43])), (b"", 0, (0, b"")),
        ):
            with self.assertRaises(cms_canon.Refused) as caught:
                cms_canon.show(octets)
            refused = caught.exception
            self.assertEqual((refused.at, refused.octets_around), (at, around))
            self.assertEqual(pickle.loads(pickle.dumps(refused)).octets_around, around)
        with self.assertRaises(cms_canon.Refused) as caught:
            cms_canon.cover(DER, signer=0)
        self.assertIsNone(caught.exception.octets_around)
        with self.assertRaises(cms_canon.Refused) as caught:
            cms_canon.same(DER, DER[:20])
        self.assertEqual(caught.exception.octets_around, (4, DER[4:20]))
        for cuts in ([DER + MESSAGE + DER[:30]], [DER, MESSAGE, DER[:15], DER[15:30]], [*map(bytes, zip(DER + DER[:30]))]):
            with self.assertRaises(cms_canon.Refused) as caught:
                [*cms_canon.convert_many(cuts)]
            self.assertEqual((caught.exception.at, caught.exception.octets_around), (30, (14, DER[14:30])))
        with self.assertRaises(cms_canon.Refused) as caught:
            [*cms_canon.convert_many([DER + b"\x30\x02\x05\0" + bytes(40)])]
        self.assertEqual((caught.exception.at, caught.exception.octets_around), (4, (0, b"\x30\x02\x05\0" + bytes(16))))

    def test_which_argument_is_of_another_type(self):
        for call, name in (
            (lambda: cms_canon.convert("text"), "data"), (lambda: cms_canon.read("text"), "data"), (lambda: cms_canon.same(DER, "text"), "second"),
            (lambda: cms_canon.same("text", DER), "first"), (lambda: cms_canon.cover(DER, 0, "text"), "content"), (lambda: [*cms_canon.convert_many(["text"])], "a chunk"),
        ):
            with self.assertRaisesRegex(TypeError, f"^{name} is octets .*, not str$"):
                call()


class TextDocuments(unittest.TestCase):
    def test_a_document_opened_as_text(self):
        for document in (io.StringIO("content"), ["content"]):
            with self.assertRaisesRegex(TypeError, "^a document is octets, not text: open its file in binary"):
                cms_canon.check(detached(sha256(b"content").digest()), document)


class Imports(unittest.TestCase):
    def test_what_is_public(self):
        self.assertEqual(dir(cms_canon), sorted(cms_canon.__all__))

    def test_what_an_import_loads(self):
        """An import takes no module that it can do without, since each takes as long as the package itself."""
        code = "import sys; sys.path.insert(0, sys.argv[1]); import cms_canon; print(*sorted({*sys.argv[2:]} & {*sys.modules}))"
        slow = ("asyncio", "cryptography", "dataclasses", "hashlib", "inspect", "json", "pathlib", "subprocess", "urllib")
        words = [sys.executable, "-I", "-S", "-c", code, str(Path(cms_canon.__file__).parents[1]), *slow]
        self.assertEqual(subprocess.run(words, check=True, capture_output=True, text=True).stdout, "\n")

    def test_a_library_that_is_not_there(self):
        """It is found in `dist` of a clone; a copy of the modules alone says what to do."""
        script = "import cms_canon; print(len(cms_canon.convert(bytes.fromhex(input()))))"
        with tempfile.TemporaryDirectory() as home:
            package = Path(home) / "site" / "cms_canon"
            package.mkdir(parents=True)
            for it in Path(cms_canon.__file__).parent.glob("*.py"):
                shutil.copy(it, package)
            ended = subprocess.run([sys.executable, "-c", script], cwd=package.parent, input=DER.hex(), capture_output=True, text=True)
            said = f"ImportError: {package}/libcms_canon.so is not there: cms_canon was copied without its library, which `python3 -m pip install --force-reinstall cms-canon` installs"
            self.assertEqual((ended.returncode, ended.stderr.splitlines()[-1]), (1, said))
            (package / "libcms_canon.so").write_bytes(b"no library")
            ended = subprocess.run([sys.executable, "-c", script], cwd=package.parent, input=DER.hex(), capture_output=True, text=True)
            self.assertRegex(ended.stderr.splitlines()[-1], "^ImportError: .*/libcms_canon.so cannot be loaded on this machine .Linux on ")


class Paths(unittest.TestCase):
    def test_what_is_covered(self):
        for signer in ({"signer": 0}, {"path": [0]}, {"path": (0,)}, {"path": range(1)}):
            self.assertEqual(cms_canon.cover(COUNTERSIGNED, content=b"content", **signer), b"content")
            with self.assertRaisesRegex(cms_canon.Refused, "refused: no content"):
                cms_canon.cover(COUNTERSIGNED, **signer)
        self.assertEqual(cms_canon.cover(COUNTERSIGNED, path=[0, 0]), b"\xaa")

    def test_no_such_signer(self):
        for path in ([], [1], [2**64], [0, 1], [1, 0], [0, 2**64 - 1], [0, 2**64], [2**64, 0], [0, 0, 0], [0] * 1000):
            with self.assertRaisesRegex(cms_canon.Refused, "refused: no such signer"):
                cms_canon.cover(COUNTERSIGNED, path=path)

    def test_negative_numbers(self):
        for path in ([-1], [0, -1], [-(2**64), 0]):
            with self.assertRaisesRegex(ValueError, "a number from 0"):
                cms_canon.cover(COUNTERSIGNED, path=path)

    def test_a_signer_or_a_path(self):
        for words in ({}, {"signer": 0, "path": [0]}, {"signer": 0, "path": []}):
            with self.assertRaisesRegex(ValueError, "either a signer or a path"):
                cms_canon.cover(COUNTERSIGNED, **words)

    def test_other_types_are_errors(self):
        for path in (0, "0", [None], [0.5], ["0"]):
            with self.assertRaises(TypeError):
                cms_canon.cover(COUNTERSIGNED, path=path)
        with self.assertRaisesRegex(TypeError, "^the number of a signer is a whole number, not float$"):
            cms_canon.cover(COUNTERSIGNED, 0.0)


class Listings(unittest.TestCase):
    def test_a_line_for_each_part(self):
        lines = cms_canon.show(MESSAGE).splitlines()
        self.assertEqual((lines[0], lines[-1]), ("kind: signed-data", "signers: 0"))

    def test_a_listing_longer_than_the_first_room(self):
        self.assertEqual(cms_canon.show(message_of(b"\x30\x00" * 5000, b"")).count("\n  "), 5000)

    def test_refusals(self):
        with self.assertRaisesRegex(cms_canon.Refused, "^refused E1 Truncated at 0$"):
            cms_canon.show(b"")
        with self.assertRaisesRegex(cms_canon.Refused, "^refused E2 TooLarge at"):
            cms_canon.show(MESSAGE, limit=len(MESSAGE) - 1)


class Comparisons(unittest.TestCase):
    def test_whether_they_are_the_same(self):
        for first in (MESSAGE, bytearray(MESSAGE), memoryview(MESSAGE)):
            self.assertIs(cms_canon.same(first, DER), True)
        self.assertIs(cms_canon.same(MESSAGE, COUNTERSIGNED), False)

    def test_which_message_is_refused(self):
        for first, second, message, which in ((b"", b"", 1, "first"), (MESSAGE, DER[:-1], 2, "second")):
            with self.assertRaises(cms_canon.Refused) as caught:
                cms_canon.same(first, second)
            refusal = caught.exception
            self.assertEqual((refusal.reason, refusal.name, refusal.at, refusal.message), (1, "Truncated", len(second), message))
            self.assertEqual(str(refusal), f"{which}: refused E1 Truncated at {len(second)}")
            self.assertEqual(str(pickle.loads(pickle.dumps(refusal))), str(refusal))

    def test_limits(self):
        with self.assertRaisesRegex(cms_canon.Refused, "^first: refused E2"):
            cms_canon.same(MESSAGE, DER, limit=len(MESSAGE) - 1)
        with self.assertRaises(ValueError):
            cms_canon.same(MESSAGE, DER, limit=-1)


class Findings(unittest.TestCase):
    def test_what_is_found(self):
        found = cms_canon.check(TWO_SIGNERS)
        self.assertEqual(found, [(9, None), (8, 0), (10, 0), (8, 1), (10, 1)])
        self.assertEqual([str(it) for it in found[:2]], ["F9 no content", "F8 signer 0 digest algorithm unknown"])
        self.assertEqual(cms_canon.check(MESSAGE), [])

    def test_more_findings_than_the_first_room(self):
        found = cms_canon.check(message_of(b"", SIGNER * 200), content=b"")
        self.assertEqual([it.signer for it in found if it.code == 18], [*range(200)])

    def test_a_code_that_this_version_does_not_know(self):
        self.assertEqual(str(cms_canon.Finding(19, None)), "F19 token does not fit the status")
        for code in (-1, 0, 20, 2**32 - 1):
            self.assertEqual(str(cms_canon.Finding(code, None)), f"F{code}")
            self.assertEqual(str(cms_canon.Finding(code, 3)), f"F{code} signer 3")

    def test_content_and_data(self):
        self.assertEqual(cms_canon.check(TWO_SIGNERS, b"")[0], (8, 0))
        self.assertEqual(cms_canon.check(TWO_SIGNERS, content=bytearray(b"abc"), stamped=memoryview(b""))[0], (11, None))
        for words in ({"content": "abc"}, {"stamped": 5}):
            with self.assertRaises(TypeError):
                cms_canon.check(TWO_SIGNERS, **words)


def detached(digest, attributes=True, kind=b"\x06\x09\x2a\x86\x48\x86\xf7\x0d\x01\x07\x01"):
    """A message whose content is detached, with a signer whose message-digest is by SHA-256, or who has no signed attributes."""
    sha256 = element(0x30, bytes.fromhex("0609608648016503040201"))
    content_type = element(0x30, bytes.fromhex("06092a864886f70d010903") + element(0x31, kind))
    message_digest = element(0x30, bytes.fromhex("06092a864886f70d010904") + element(0x31, element(0x04, digest)))
    signed = element(0xA0, content_type + message_digest) if attributes else b""
    signer = element(0x30, bytes.fromhex("020103800111") + sha256 + signed + bytes.fromhex("300506032a030404") + b"\x01\xaa")
    fields = bytes.fromhex("020103") + element(0x31, sha256) + element(0x30, kind) + element(0x31, signer)
    return element(0x30, bytes.fromhex("06092a864886f70d010702") + element(0xA0, element(0x30, fields)))


class Reluctant(io.BytesIO):
    """A file of which one octet is read at a time, and whose third read fails."""

    def read(self, size=-1):
        if self.tell() == 2:
            raise OSError(5, "Input/output error")
        return super().read(1)


class Documents(unittest.TestCase):
    """Content and data that come in pieces; tests/test_libraries.py asks for those of the vectors."""

    CONTENT = b"the content of a message" * 100
    MESSAGE = detached(sha256(CONTENT).digest())
    TOKEN = detached(sha256(CONTENT).digest(), kind=bytes.fromhex("060b2a864886f70d0109100104"))
    OVER_CONTENT = detached(b"", attributes=False)

    def test_files_and_pieces(self):
        for content, codes in ((self.CONTENT, [18]), (self.CONTENT[1:], [7, 18]), (b"", [7, 18])):
            apart = bytes(octet for pair in zip(content, content) for octet in pair)
            for form in (io.BytesIO, lambda it: iter([it[:5], bytearray(), memoryview(it[5:])]), lambda it: [memoryview(apart)[::2]], bytearray):
                self.assertEqual([it.code for it in cms_canon.check(self.MESSAGE, form(content))], codes)

    def test_what_is_neither(self):
        for other in ("abc", 5, Path("abc"), print):
            for words in ({"content": other}, {"stamped": other}):
                with self.assertRaisesRegex(TypeError, "is octets, a file opened in binary or pieces of octets, not "):
                    cms_canon.check(MESSAGE, **words)
        file = io.BytesIO(self.CONTENT)
        with self.assertRaisesRegex(ValueError, "^content and what was stamped are not the same file or pieces$"):
            cms_canon.check(self.MESSAGE, file, file)
        for pieces in (io.StringIO("abc"), ["abc"], [97], [b"a", None], iter("abc")):
            for message in (self.MESSAGE, self.TOKEN):
                with self.assertRaises(TypeError):
                    cms_canon.check(message, pieces)

    def test_a_read_that_fails(self):
        for message in (self.MESSAGE, self.TOKEN):
            with self.assertRaises(OSError):
                cms_canon.check(message, Reluctant(self.CONTENT))

    def test_an_end_that_is_an_error(self):
        file = mock.Mock(spec=["read"])
        file.read.side_effect = [self.CONTENT]  # after which it raises StopIteration
        with self.assertRaises(RuntimeError):
            cms_canon.check(self.MESSAGE, file)

    def test_pieces_in_one_buffer(self):
        def pieces():
            buffer = bytearray()
            for at in range(0, len(self.CONTENT), 100):
                buffer += self.CONTENT[at : at + 100]
                yield buffer
                buffer.clear()

        self.assertEqual([it.code for it in cms_canon.check(self.MESSAGE, pieces())], [18])

    def test_a_buffer_that_changes_is_digested_as_it_was(self):
        buffer = bytearray(self.CONTENT)

        def changing(name):
            digest = mock.Mock(wraps=sha256())
            digest.update.side_effect = lambda piece: (digest._mock_wraps.update(piece), buffer.__setitem__(0, 0))
            digest.digest.side_effect = digest._mock_wraps.digest
            return digest

        with mock.patch("hashlib.new", side_effect=changing):
            digests = _documents.digests_of(buffer, [3, 5])
        self.assertEqual(buffer[0], 0)
        whole = sha256(self.CONTENT).digest()
        self.assertEqual(digests, struct.pack("=I64sI64s", 3, whole, 5, whole))

    def test_a_tst_info_is_in_memory_once(self):
        piece = bytes(1 << 20)
        tracemalloc.start()
        octets = _documents.joined((piece for _ in range(16)), 16 << 20)
        peak = tracemalloc.get_traced_memory()[1]
        tracemalloc.stop()
        self.assertEqual(len(octets), 16 << 20)
        self.assertLess(peak, 24 << 20)

    def test_what_is_not_asked_for_is_not_read(self):
        self.assertEqual(cms_canon.check(MESSAGE, content=Reluctant(), stamped=Reluctant())[0].code, 11)

    def test_no_memory_is_taken(self):
        piece = bytes(1 << 20)
        whole = sha256()
        for _ in range(64):
            whole.update(piece)
        tracemalloc.start()
        found = cms_canon.check(detached(whole.digest()), (piece for _ in range(64)))
        peak = tracemalloc.get_traced_memory()[1]
        tracemalloc.stop()
        self.assertEqual(found, [(18, 0)])
        self.assertLess(peak, 1 << 20)

    def test_a_tst_info_that_is_detached_is_read_as_a_whole(self):
        codes = [it.code for it in cms_canon.check(self.TOKEN, self.CONTENT)]
        self.assertIn(13, codes)
        self.assertEqual([it.code for it in cms_canon.check(self.TOKEN, io.BytesIO(self.CONTENT))], codes)
        with self.assertRaisesRegex(cms_canon.Refused, "^refused E2 TooLarge at 2400$"):
            cms_canon.check(self.TOKEN, io.BytesIO(self.CONTENT), limit=len(self.CONTENT) - 1)
        self.assertEqual([it.code for it in cms_canon.check(self.TOKEN, io.BytesIO(self.CONTENT), limit=len(self.CONTENT))], codes)

    def test_a_verifier_has_the_content_that_a_signature_covers(self):
        jobs = []
        found = cms_canon.check(self.OVER_CONTENT, io.BytesIO(self.CONTENT), verifier=jobs.append)
        self.assertEqual((found, [it.covered for it in jobs]), ([(18, 0)], [self.CONTENT]))
        found = cms_canon.check(self.OVER_CONTENT, io.BytesIO(self.CONTENT), iter(lambda: b"endless", None), jobs.append)
        self.assertEqual([it.code for it in found], [11, 18])
        found = cms_canon.check(self.MESSAGE, io.BytesIO(self.CONTENT), verifier=lambda job: job.covered[:1] == b"1")
        self.assertEqual(found, [])

    def test_a_digest_that_is_not_made(self):
        with mock.patch("hashlib.new", side_effect=ValueError("unsupported hash type")), self.assertRaises(ValueError):
            cms_canon.check(self.MESSAGE, io.BytesIO(self.CONTENT))
        with mock.patch("cms_canon._documents.digests_of", return_value=b""), self.assertRaisesRegex(cms_canon.Refused, "digest not given"):
            cms_canon.check(self.MESSAGE, io.BytesIO(self.CONTENT))
        with self.assertRaisesRegex(cms_canon.Refused, "^refused E1 Truncated at 0$"):
            cms_canon.check(b"", Reluctant(self.CONTENT))


class Verifiers(unittest.TestCase):
    def test_verdicts(self):
        for verdict, code in ((True, None), (False, 17), (None, 18)):
            found = cms_canon.check(TWO_SIGNERS, b"", verifier=lambda job: verdict if job.signer == 1 else None)
            self.assertEqual([it.code for it in found if it.signer == 1 and it.code > 16], [] if code is None else [code])
            self.assertIn((18, 0), found)

    def test_nothing_else_is_a_verdict(self):
        async def verdict():
            return True

        class Truthy:
            def __bool__(self):
                return True

            def __eq__(self, other):
                return True

        others = (1, 0, "invalid", "", (False, "bad"), [], ValueError("bad"), Truthy(), mock.Mock(), NotImplemented, (_ for _ in ()))
        with warnings.catch_warnings():
            warnings.simplefilter("error")
            for other in (*others, verdict()):
                kind = type(other)
                name = kind.__qualname__ if kind.__module__ == "builtins" else f"{kind.__module__}.{kind.__qualname__}"
                with self.assertRaises(TypeError) as caught:
                    cms_canon.check(TWO_SIGNERS, b"", verifier=lambda job: other)
                self.assertEqual(str(caught.exception), f"the verdict of a verifier is True, False or None, not {name}")

    def test_a_coroutine_is_closed(self):
        async def verify(job):
            return False

        with warnings.catch_warnings(record=True) as warned:
            warnings.simplefilter("always")
            with self.assertRaisesRegex(TypeError, "not coroutine$"):
                cms_canon.check(TWO_SIGNERS, b"", verifier=verify)
            gc.collect()
        self.assertEqual(warned, [])

    def test_a_signature_that_covers_nothing_is_asked_of_nobody(self):
        self.assertEqual(cms_canon.check(TWO_SIGNERS, verifier=lambda job: self.fail()), cms_canon.check(TWO_SIGNERS))

    def test_an_exception_of_the_verifier(self):
        with self.assertRaises(ZeroDivisionError):
            cms_canon.check(TWO_SIGNERS, b"", verifier=lambda job: 1 / 0)

    def test_what_a_verifier_is_asked(self):
        jobs = []
        cms_canon.check(TWO_SIGNERS, b"content", verifier=jobs.append)
        for number, (job, signature, key) in enumerate(zip(jobs, (b"\xaa", b"\xbb"), (b"\x11", b"\x22"))):
            self.assertEqual((job.signer, job.covered, job.signature), (number, b"content", signature))
            self.assertEqual((job.issuer, job.serial_number, job.subject_key_identifier), (None, None, key))
            self.assertEqual((job.signature_algorithm, job.digest_algorithm, job.certificates), (("1.2.3.4", None),) * 2 + ((),))

    def test_a_signer_of_an_issuer(self):
        jobs = []
        cms_canon.check(OF_AN_ISSUER, verifier=jobs.append)
        (job,) = jobs
        self.assertEqual((job.covered, job.signature), (b"abc", b"\xaa\xbb"))
        self.assertEqual((job.issuer, job.serial_number, job.subject_key_identifier), (b"\x30\x02\x31\x00", -129, None))
        self.assertEqual(job.digest_algorithm, ("2.16.840.1.101.3.4.2.1", b"\x05\x00"))
        self.assertEqual(job.signature_algorithm, ("2.999", None))
        self.assertEqual(job.certificates, (b"\x30\x00", b"\xa1\x02\x05\x00"))
        self.assertEqual((job.message.kind, job.signer_info.signature), ("signed-data", job.signature))

    def test_the_message_is_read_once_for_all_signers(self):
        certificates = tuple(b"\x30\x03\x02\x01" + bytes([number]) for number in range(3))
        message, jobs = message_of(b"".join(certificates), SIGNER * 500), []

        def verify(job):
            jobs.append(job)
            job.covered, job.signature, job.signature_algorithm, job.digest_algorithm
            job.issuer, job.serial_number, job.subject_key_identifier, job.signer_info.unsigned_attributes

        with counted_calls() as calls:
            cms_canon.check(message, b"", verifier=verify)
            self.assertEqual({id(job.certificates) for job in jobs}, {id(jobs[0].certificates)})
        self.assertEqual((len(jobs), jobs[0].certificates), (500, certificates))
        self.assertEqual(calls, {"cms_canon_check": 1, "cms_canon_fields": 1})

    def test_nothing_is_read_for_a_verifier_that_is_not_asked(self):
        with counted_calls() as calls:
            cms_canon.check(MESSAGE, verifier=lambda job: self.fail())
        self.assertEqual(calls, {"cms_canon_check": 1})


TIME_STAMP = bytes.fromhex("06092a864886f70d010702"), bytes.fromhex("060b2a864886f70d0109100104")
REQUEST = bytes.fromhex("3024020101301f300b0609608648016503040201041000112233445566778899aabbccddeeff")


def token_of(gen_time, *others):
    """A token without signers, whose TSTInfo has this genTime and these fields after it."""
    imprint = bytes.fromhex("301f300b0609608648016503040201041000112233445566778899aabbccddeeff")
    fields = b"\x02\x01\x01\x06\x02\x2a\x03" + imprint + b"\x02\x01\x05" + element(0x18, gen_time) + b"".join(others)
    content = element(0x30, TIME_STAMP[1] + element(0xA0, element(0x04, element(0x30, fields))))
    return element(0x30, TIME_STAMP[0] + element(0xA0, element(0x30, b"\x02\x01\x03\x31\x00" + content + b"\x31\x00")))


def objects_of(message):
    """Each object that a message holds and that has fields of its own."""
    (token,) = [message.signed_data]
    yield from (message, token, *message.signers, *message.digest_algorithms, *message.signers[0].countersignatures)
    yield from (*message.signers[0].unsigned_attributes, message.signers[0].digest_algorithm)


@contextlib.contextmanager
def counted_calls():
    """Counts the calls of the library by their names, of all that its header has."""
    names = re.findall(r"^void (\w+)\(", (HERE.parent.parent / "c" / "cms_canon.h").read_text(), re.M)
    calls = Counter()

    def counted(name):
        call = getattr(library, name)
        return lambda *words: (calls.update([name]), call(*words))

    with contextlib.ExitStack() as stack:
        for name in names:
            stack.enter_context(mock.patch.object(library, name, counted(name)))
        yield calls


class Messages(unittest.TestCase):
    def test_what_is_in_a_message(self):
        message = cms_canon.read(OF_AN_ISSUER)
        (signer,) = message.signers
        self.assertEqual((message.kind, message.version, message.content), ("signed-data", 1, b"abc"))
        self.assertEqual(message.content_type, "1.2.840.113549.1.7.1")
        self.assertEqual((message.certificates, message.crls), ((b"\x30\x00", b"\xa1\x02\x05\x00"), None))
        self.assertEqual((signer.serial_number, signer.signature, signer.covered()), (-129, b"\xaa\xbb", b"abc"))
        self.assertEqual((signer.digest_algorithm.name, signer.signature_algorithm.name), ("sha256", None))
        self.assertIsNone(signer.signed_attributes)

    def test_absent_and_empty_are_different(self):
        self.assertEqual(cms_canon.read(message_of(b"", b"")).certificates, ())
        self.assertIsNone(cms_canon.read(MESSAGE).certificates)
        self.assertEqual(cms_canon.read(MESSAGE).content, b"hi!")
        self.assertIsNone(cms_canon.read(COUNTERSIGNED).content)

    def test_each_type_of_octets(self):
        for data in (MESSAGE, bytearray(MESSAGE), memoryview(MESSAGE * 2)[: len(MESSAGE)]):
            self.assertEqual(cms_canon.read(data), cms_canon.read(MESSAGE))
        data = bytearray(OF_AN_ISSUER)
        message = cms_canon.read(data)
        data[:] = bytes(len(data))
        self.assertEqual((message.content, message.signers[0].signature), (b"abc", b"\xaa\xbb"))
        for data in (MESSAGE.hex(), 5, None, [48, 128]):
            with self.assertRaises(TypeError):
                cms_canon.read(data)

    def test_content_is_not_copied_unless_it_comes_in_segments(self):
        self.assertIs(cms_canon.read(DER).content.obj, DER)
        segmented = cms_canon.read(MESSAGE)
        self.assertEqual((type(segmented.content), segmented.content, segmented.content.readonly), (memoryview, b"hi!", True))

    def test_refusals_and_limits(self):
        for octets, limit in ((b"", 100), (MESSAGE + b"\n", 100), (MESSAGE[:-1], 100), (MESSAGE, len(MESSAGE) - 1)):
            with self.assertRaises(cms_canon.Refused) as wanted:
                cms_canon.convert(octets, limit)
            with self.assertRaises(cms_canon.Refused) as came:
                cms_canon.read(octets, limit)
            self.assertEqual((str(came.exception), came.exception.at), (str(wanted.exception), wanted.exception.at))
        for limit, error in ((-1, ValueError), (2**40 + 1, ValueError), (1000.0, TypeError), (None, TypeError)):
            with self.assertRaises(error):
                cms_canon.read(MESSAGE, limit)

    def test_memory_that_runs_out(self):
        def out_of_memory(*words):
            words[-1].status = 5

        token = cms_canon.read(token_of(b"20240229120000Z"))
        with mock.patch.object(library, "cms_canon_fields", out_of_memory), self.assertRaises(MemoryError):
            cms_canon.read(MESSAGE)
        with mock.patch.object(library, "cms_canon_tst_info_fields", out_of_memory), self.assertRaises(MemoryError):
            token.tst_info
        with mock.patch("mmap.mmap", side_effect=OSError), self.assertRaises(MemoryError):
            cms_canon.read(message_of(b"\x30\x00" * 10000, b""))

    def test_more_fields_than_the_first_room(self):
        with counted_calls() as calls:
            message = cms_canon.read(message_of(b"\x30\x00" * 70000, b""))
        self.assertEqual((len(message.certificates), calls["cms_canon_fields"]), (70000, 2))

    def test_what_is_covered(self):
        message = cms_canon.read(COUNTERSIGNED)
        (signer,) = message.signers
        (countersignature,) = signer.countersignatures
        self.assertEqual((signer.covered(b"content"), signer.covered(bytearray(b""))), (b"content", b""))
        self.assertEqual((countersignature.covered(), countersignature.covered(b"content")), (b"\xaa", b"\xaa"))
        with self.assertRaises(cms_canon.Refused) as wanted:
            cms_canon.cover(COUNTERSIGNED, 0)
        with self.assertRaises(cms_canon.Refused) as came:
            signer.covered()
        self.assertEqual(came.exception.args, wanted.exception.args)
        for content in ("content", 5):
            with self.assertRaises(TypeError):
                countersignature.covered(content)

    def test_nothing_can_be_assigned(self):
        for it in objects_of(cms_canon.read(COUNTERSIGNED)):
            names = [name for name in dir(it) if not name.startswith("_") and not callable(getattr(it, name))]
            self.assertTrue(names)
            for name in (*names, "other"):
                with self.assertRaises(AttributeError):
                    setattr(it, name, None)
                with self.assertRaises(AttributeError):
                    delattr(it, name)

    def test_equality(self):
        one, other = (cms_canon.read(bytes(bytearray(COUNTERSIGNED))) for _ in range(2))
        different = cms_canon.read(COUNTERSIGNED.replace(b"\xaa", b"\xab"))
        for it, same, not_same in zip(objects_of(one), objects_of(other), objects_of(different)):
            self.assertEqual((it, hash(it)), (same, hash(same)))
            if isinstance(it, (cms_canon.Message, cms_canon.SignedData, cms_canon.SignerInfo)):
                self.assertNotEqual(it, not_same)
        self.assertNotEqual(one, one.signed_data)
        self.assertNotEqual(one.signers[0], one.signers[0].countersignatures[0])
        self.assertNotEqual(one, COUNTERSIGNED)

    def test_copies(self):
        message = cms_canon.read(OF_AN_ISSUER)
        self.assertEqual((message.certificates, message.signers[0].covered()), ((b"\x30\x00", b"\xa1\x02\x05\x00"), b"abc"))
        for it in (pickle.loads(pickle.dumps(message)), copy.deepcopy(message)):
            self.assertEqual((it, it.to_json()), (message, message.to_json()))
        signer = pickle.loads(pickle.dumps(cms_canon.read(COUNTERSIGNED).signers[0].countersignatures[0]))
        self.assertEqual(signer.covered(), b"\xaa")

    def test_a_request(self):
        message = cms_canon.read(REQUEST)
        request = message.request
        self.assertEqual((message.kind, message.signers, message.version, message.signed_data), ("request", (), None, None))
        self.assertEqual((request.version, request.imprint.hash_algorithm.name, request.policy), (1, "sha256", None))
        self.assertEqual((request.imprint.hashed_message.hex(), request.cert_req), ("00112233445566778899aabbccddeeff", False))

    def test_the_bits_of_a_failure(self):
        cases = {"": None, "030100": (), "03020700": (), "03020780": (0,), "0304070002ff": (14, 16), "030204ff": (0, 1, 2, 3)}
        for contents, bits in cases.items():
            info = element(0x30, b"\x02\x01\x02" + bytes.fromhex(contents))
            response = cms_canon.read(element(0x30, info)).response
            self.assertEqual((response.status, response.fail_info, response.token), (2, bits, None))

    def test_times(self):
        for text, wanted in (
            ("20240229120000Z", "2024-02-29T12:00:00+00:00"),
            ("20240229120000.5Z", "2024-02-29T12:00:00.500000+00:00"),
            ("99991231235959.9999999999Z", "9999-12-31T23:59:59.999999+00:00"),
            ("00010101000000.0000001Z", "0001-01-01T00:00:00+00:00"),
            ("00001231235959Z", None),
        ):
            tst_info = cms_canon.read(token_of(text.encode())).tst_info
            self.assertEqual(tst_info.gen_time_text, text)
            self.assertEqual(None if tst_info.gen_time is None else tst_info.gen_time.isoformat(), wanted)
        for text in (b"20240229120060Z", b"20230229120000Z", b"20240229120000.50Z", b""):
            message = cms_canon.read(token_of(text))
            for _ in range(2):
                with self.assertRaises(cms_canon.Refused) as caught:
                    message.tst_info
            self.assertEqual((caught.exception.reason, str(caught.exception)), (105, "refused: not a TSTInfo in DER"))
            self.assertEqual(message.to_dict()["tst_info"], {"refused": "not a TSTInfo in DER"})
            self.assertIn("not a TSTInfo in DER", repr(message.signed_data))

    def test_accuracy(self):
        for contents, wanted in (("", (None, None, None)), ("020105", (5, None, None)), ("800203e7810101", (None, 999, 1))):
            accuracy = cms_canon.read(token_of(b"20240229120000Z", element(0x30, bytes.fromhex(contents)))).tst_info.accuracy
            self.assertEqual((accuracy.seconds, accuracy.millis, accuracy.micros), wanted)
        self.assertIsNone(cms_canon.read(token_of(b"20240229120000Z")).tst_info.accuracy)

    def test_whole_numbers_in_json(self):
        for contents, wanted in (
            ("80", -128),
            ("1fffffffffffff", 2**53 - 1),
            ("20000000000000", "0x20000000000000"),
            ("e0000000000001", -(2**53) + 1),
            ("e0000000000000", "0xe0000000000000"),
        ):
            message = cms_canon.read(message_of(b"", signer_with_serial(bytes.fromhex(contents))))
            self.assertEqual(json.loads(message.to_json())["signers"][0]["serial_number"], wanted)
        long = cms_canon.read(message_of(b"", signer_with_serial(b"\x7f" * 5000)))
        self.assertEqual(json.loads(long.to_json())["signers"][0]["serial_number"], "0x" + "7f" * 5000)

    def test_what_repr_says(self):
        self.assertEqual(repr(cms_canon.read(TWO_SIGNERS)), "<Message: signed-data, 2 signers, 104 octets>")
        self.assertEqual(repr(cms_canon.read(REQUEST)), f"<Message: request, 0 signers, {len(REQUEST)} octets>")
        long = message_of(element(0x30, element(0x04, bytes(100000))), signer_with_serial(b"\x7f" * 100000))
        message = cms_canon.read(long)
        for it in (message, message.signed_data, *message.signers, cms_canon.AlgorithmIdentifier("1." * 100000, bytes(100000))):
            self.assertLess(len(repr(it)), 1000)
        self.assertIn("serial_number=<100,000 octets>", repr(message.signers[0]))


def signer_with_serial(contents):
    sid = element(0x30, b"\x30\x00" + element(0x02, contents))
    return element(0x30, b"\x02\x01\x01" + sid + bytes.fromhex("300506032a0304300506032a03040401bb"))


def attribute_of(oid, *values):
    return element(0x30, element(0x06, bytes.fromhex(oid)) + element(0x31, b"".join(sorted(values))))


def signer_of(sid, attributes):
    signed = element(0xA0, b"".join(sorted(attributes))) if attributes else b""
    return element(0x30, b"\x02\x01\x01" + sid + bytes.fromhex("300506032a0304") + signed + bytes.fromhex("300506032a03040401bb"))


def certificate_of(serial, identifier=None, name=b"\x30\0"):
    """A certificate of this serial number, by its framing alone, with this key identifier."""
    value = b"" if identifier is None else element(0x30, bytes.fromhex("0603551d0e") + element(0x04, element(0x04, identifier)))
    extensions = b"" if identifier is None else element(0xA3, element(0x30, value))
    return element(0x30, element(0x30, b"\xa0\x03\x02\x01\x02" + element(0x02, bytes([serial])) + b"\x30\0" + name + b"\x30\0\x30\0\x30\0" + extensions) + b"\x30\0\x03\x01\0")


class Attributes(unittest.TestCase):
    CONTENT_TYPE, DIGEST, TIME = "2a864886f70d010903", "2a864886f70d010904", "2a864886f70d010905"

    def signer_with(self, *attributes):
        (signer,) = cms_canon.read(message_of(b"", signer_of(b"\x80\x01\x33", attributes))).signers
        return signer

    def test_signing_times(self):
        def utc(text):
            return element(0x17, text)

        def generalized(text):
            return element(0x18, text)

        for value, wanted in (
            (utc(b"240229120001Z"), datetime(2024, 2, 29, 12, 0, 1, tzinfo=timezone.utc)), (utc(b"500101000000Z"), datetime(1950, 1, 1, tzinfo=timezone.utc)),
            (utc(b"491231235959Z"), datetime(2049, 12, 31, 23, 59, 59, tzinfo=timezone.utc)), (generalized(b"20500101000000Z"), datetime(2050, 1, 1, tzinfo=timezone.utc)),
            *((it, None) for it in (
                utc(b"2402291200Z"), utc(b"230229120000Z"), utc(b"240229120060Z"), utc(b"240229120000"), utc(b"240229120000+0100"), utc(b"20240229120000Z"), utc(b"24022912000 Z"),
                generalized(b"240229120000Z"), generalized(b"20240229120000.5Z"), generalized(b"00000101000000Z"), generalized(b"2024022912000\xb2Z"), utc(b""), b"\x05\0", b"\x30\0",
            )),
        ):
            self.assertEqual(self.signer_with(attribute_of(self.TIME, value)).signing_time, wanted, value)
        good = utc(b"240229120001Z")
        for attributes in ((), (attribute_of(self.TIME, good, utc(b"240229120002Z")),), (attribute_of(self.TIME),), (attribute_of(self.TIME, good), attribute_of(self.TIME, utc(b"240229120002Z")))):
            self.assertIsNone(self.signer_with(*attributes).signing_time)

    def test_message_digests(self):
        digest = element(0x04, bytes(range(32)))
        for attributes, wanted in (
            ((attribute_of(self.DIGEST, digest),), bytes(range(32))), ((attribute_of(self.DIGEST, b"\x04\0"),), b""), ((attribute_of(self.DIGEST, b"\x05\0"),), None),
            ((attribute_of(self.DIGEST, digest, b"\x04\0"),), None), ((), None), ((attribute_of(self.CONTENT_TYPE, digest),), None),
        ):
            self.assertEqual(self.signer_with(*attributes).message_digest, wanted)

    def test_attributes_by_name(self):
        signer = self.signer_with(attribute_of(self.DIGEST, b"\x04\0"), attribute_of(self.TIME, b"\x05\0"), attribute_of(self.TIME, b"\x04\0"))
        self.assertEqual(signer.signed_attribute("messageDigest").values, (b"\x04\0",))
        self.assertEqual(signer.signed_attribute("1.2.840.113549.1.9.4"), signer.signed_attribute("messageDigest"))
        for name in ("signingTime", "contentType", "", "1.2.840.113549.1.9"):
            self.assertIsNone(signer.signed_attribute(name))

    def test_certificates(self):
        of_issuer, of_key = b"\x30\x05\x30\0\x02\x01\x05", b"\x80\x02ab"
        one, other, keyed, named = certificate_of(5), certificate_of(6), certificate_of(5, b"ab"), certificate_of(5, name=b"\x30\x02\x31\0")
        for certificates, sid, wanted in (
            ([one, other], of_issuer, one), ([other], of_issuer, None), ([one, one], of_issuer, one), ([one, keyed], of_issuer, None), ([named, one], of_issuer, one),
            ([one, keyed, other], of_key, keyed), ([one, certificate_of(7, b"ac")], of_key, None), ([b"\x30\x02\x05\0", b"\xa1\0", keyed], of_key, keyed), ([], of_key, None),
        ):
            message = cms_canon.read(message_of(b"".join(certificates), signer_of(sid, ())))
            self.assertEqual(message.certificate_of(message.signers[0]), wanted)


class Changes(unittest.TestCase):
    def test_what_a_change_is(self):
        changes = cms_canon.changes(MESSAGE)
        self.assertEqual(changes[0][:8], ("length made definite", 0, 2, 0, 2, 42, len(MESSAGE) - 2, None))
        self.assertEqual(str(changes[0]), "at 0 length made definite: 30 80 -> 30 2a")
        text = cms_canon.list_changes(MESSAGE)
        self.assertEqual([*map(str, changes)], text.splitlines()[:-1])
        self.assertEqual(text.splitlines()[-1][-10:], f", {len(changes)} changes"[-10:])
        self.assertEqual(len(json.loads(cms_canon.list_changes(MESSAGE, json=True))["changes"]), len(changes))
        for it in changes:
            self.assertTrue(it.place + it.length <= len(MESSAGE) and it.der_place + it.der_length <= len(DER), it)

    def test_a_member_that_moves(self):
        algorithms = element(0x31, bytes.fromhex("300506032a0304" "300506032a0303"))
        fields = b"\x02\x01\x03" + algorithms + bytes.fromhex("300b06092a864886f70d010701") + b"\x31\0"
        message = element(0x30, bytes.fromhex("06092a864886f70d010702") + element(0xA0, element(0x30, fields)))
        self.assertEqual([(it.kind, it.first, it.second, it.set) for it in cms_canon.changes(message)], [
            ("moved", 0, 1, "digestAlgorithms"), ("moved", 1, 0, "digestAlgorithms")])

    def test_der_has_none(self):
        self.assertEqual((cms_canon.changes(DER), cms_canon.list_changes(DER)), ([], "no change\n"))

    def test_refusals_and_limits(self):
        for call in (cms_canon.changes, cms_canon.list_changes):
            for octets, limit in ((DER[:-1], 100), (DER, len(DER) - 1), (b"", 5)):
                with self.assertRaises(cms_canon.Refused) as wanted:
                    cms_canon.convert(octets, limit)
                with self.assertRaises(cms_canon.Refused) as came:
                    call(octets, limit)
                self.assertEqual(str(came.exception), str(wanted.exception))
            self.assertRaises(TypeError, call, "text")

    def test_more_changes_than_the_first_room(self):
        octets = b"\x30\x81" + bytes([len(DER) - 2]) + DER[2:]
        certificates = [element(0x30, b"\x02\x03" + number.to_bytes(3, "big")) for number in range(2000, 0, -1)]
        message = message_of(b"".join(certificates), b"")
        self.assertEqual(len([it for it in cms_canon.changes(message) if it.set == "certificates"]), 2000)
        self.assertEqual([it.kind for it in cms_canon.changes(octets)], ["length in fewest octets"])


class Pieces(unittest.TestCase):
    def test_what_a_piece_is(self):
        pieces = cms_canon.pieces(MESSAGE)
        self.assertEqual(pieces[:2], [(0, 2, True), (2, 12, False)])
        self.assertEqual(str(pieces[1]), "Piece(place=2, length=12, made=False)")
        self.assertEqual([it.end for it in pieces[:2]], [2, 14])
        self.assertEqual({type(it.made) for it in pieces}, {bool})
        self.assertEqual(pickle.loads(pickle.dumps(pieces)), pieces)
        for message in (MESSAGE, bytearray(MESSAGE), memoryview(MESSAGE)):
            self.assertEqual(b"".join(it.octets(message, memoryview(DER)) for it in cms_canon.pieces(message)), DER)

    def test_one_piece_of_der(self):
        for der in (DER, COUNTERSIGNED, cms_canon.convert(TWO_SIGNERS)):
            self.assertEqual(cms_canon.pieces(der), [(0, len(der), False)])

    def test_pieces_of_other_octets(self):
        for piece in (cms_canon.Piece(len(DER), 1, True), cms_canon.Piece(0, len(DER) + 1, True), cms_canon.Piece(-1, 1, True)):
            with self.assertRaisesRegex(ValueError, f"^the piece does not lie in the {len(DER)} octets of the DER$"):
                piece.octets(MESSAGE, DER)
        with self.assertRaisesRegex(ValueError, "^the piece does not lie in the 0 octets of the message$"):
            cms_canon.Piece(0, 1, False).octets(b"", DER)

    def test_more_than_the_first_room(self):
        segments = element(0x04, b"abc") * 20_000
        content = element(0x30, bytes.fromhex("06092a864886f70d010701") + b"\xa0\x80\x24\x80" + segments + bytes(4))
        fields = b"\x02\x01\x01\x31\x00" + content + b"\x31\x00"
        octets = element(0x30, bytes.fromhex("06092a864886f70d010702") + element(0xA0, element(0x30, fields)))
        der, pieces = cms_canon.convert(octets), cms_canon.pieces(octets)
        self.assertGreater(len(pieces), 20_000)
        self.assertEqual(b"".join(it.octets(octets, der) for it in pieces), der)


class Accounts(unittest.TestCase):
    def test_each_type_of_octets(self):
        account = cms_canon.account(MESSAGE)
        self.assertIs(type(account), bytes)
        for kind in (bytes, bytearray, memoryview):
            self.assertEqual(cms_canon.account(kind(MESSAGE)), account)
            message = cms_canon.restore(kind(DER), kind(account))
            self.assertEqual(message, MESSAGE)
            self.assertIs(type(message), bytes)

    def test_other_types_are_errors(self):
        account = cms_canon.account(MESSAGE)
        for data in (MESSAGE.hex(), 5, None, [48, 128]):
            for call in (cms_canon.account, cms_canon.pieces):
                with self.assertRaises(TypeError):
                    call(data)
            for words in ((data, account), (DER, data)):
                with self.assertRaises(TypeError):
                    cms_canon.restore(*words)

    def test_limits(self):
        account = cms_canon.account(MESSAGE, limit=len(MESSAGE))
        for call in (cms_canon.account, cms_canon.pieces):
            with self.assertRaisesRegex(cms_canon.Refused, "refused E2 TooLarge at"):
                call(MESSAGE, limit=len(MESSAGE) - 1)
        self.assertEqual(cms_canon.restore(DER, account, limit=len(MESSAGE)), MESSAGE)
        with self.assertRaisesRegex(cms_canon.NotRestored, f"^not restored: the original has 60 octets, and the limit is 59$"):
            cms_canon.restore(DER, account, limit=len(MESSAGE) - 1)
        for call in (cms_canon.account, cms_canon.pieces, lambda data, limit: cms_canon.restore(DER, account, limit)):
            for limit in (-1, 2**40 + 1):
                with self.assertRaisesRegex(ValueError, "^a limit is from 0 to 2"):
                    call(MESSAGE, limit=limit)
            with self.assertRaisesRegex(TypeError, "^a limit is a whole number, not float$"):
                call(MESSAGE, limit=1000.0)
        for call in (cms_canon.account, cms_canon.pieces, cms_canon.restore):
            self.assertEqual(inspect.signature(call).parameters["limit"].default, cms_canon.LIMIT)

    def test_refusals(self):
        for octets, line in ((b"", "refused E1 Truncated at 0"), (MESSAGE + b"\n", f"refused E18 Trailing at {len(MESSAGE) + 1}")):
            for call in (cms_canon.account, cms_canon.pieces):
                with self.assertRaisesRegex(cms_canon.Refused, f"^{line}$"):
                    call(octets)

    def test_what_the_error_says(self):
        account = cms_canon.account(MESSAGE)
        with self.assertRaises(cms_canon.NotRestored) as caught:
            cms_canon.restore(DER, account[:-1])
        error = caught.exception
        self.assertIsInstance(error, ValueError)
        self.assertNotIsInstance(error, cms_canon.Refused)
        self.assertEqual((error.why, error.at), ("the account is cut off", len(account) - 1))
        self.assertEqual(str(error), f"not restored: the account is cut off, at octet {len(account) - 1} of the account")
        again = pickle.loads(pickle.dumps(error))
        self.assertEqual((str(again), again.why, again.at), (str(error), error.why, error.at))

    def test_why_not(self):
        account = cms_canon.account(MESSAGE)
        head = account[:72]
        for der, wrong, why in (
            (account, DER, "this is no account: it does not begin with CMSACCT, at octet 0 of the account"),
            (DER, b"", "this is no account: it does not begin with CMSACCT, at octet 0 of the account"),
            (DER, account[:7], "the account is cut off, at octet 7 of the account"),
            (DER, account[:7] + b"\2" + account[8:], "the account is of version 2, and this release knows version 1, at octet 7 of the account"),
            (DER, account[:71], "the account is cut off, at octet 71 of the account"),
            (DER, head, "the account is cut off, at octet 72 of the account"),
            (DER, account + b"\0", f"octets follow the last instruction, at octet {len(account)} of the account"),
            (DER, head + b"\x3c\x00", "an instruction gives no octets, at octet 73 of the account"),
            (DER, head + b"\x3c\x01\x00", "an instruction gives no octets, at octet 73 of the account"),
            (DER, head + b"\x3c\x7b\x00", "an instruction gives 61 octets, and the original has 60 more, at octet 73 of the account"),
            (DER, head + b"\x3c\x03\x2c", "1 octets are copied from 44 on, and the DER has 44, at octet 73 of the account"),
            (DER, head + b"\xbc\x00", "a number has more octets than it needs, at octet 72 of the account"),
            (DER, head + b"\xbc" * 6, "a number has more than 6 octets, at octet 72 of the account"),
            (DER, head + b"\xbc" * 5, "the account is cut off, at octet 77 of the account"),
            (DER, head + b"\xff\x7f", "the original has 16383 octets, more than the DER and the account together"),
            (MESSAGE, account, "the DER is not the one that the account was made from"),
            (DER, account[:8] + bytes(32) + account[40:], "what comes is not the original: its SHA-256 is another one"),
            (DER, account[:8] + sha256(b"a").digest() + account[40:72] + b"\x01\x02a", "what comes is no message that has this DER"),
        ):
            with self.assertRaises(cms_canon.NotRestored) as caught:
                cms_canon.restore(der, wrong)
            self.assertEqual(str(caught.exception), f"not restored: {why}")

    def test_another_message_with_digests_that_fit(self):
        other = DER[:-3] + b"\x22" + DER[-2:]  # in which the last octet of the content is another one
        account = cms_canon.account(other)
        forged = account[:40] + sha256(DER).digest() + account[72:73] + b"\x58" + other
        with self.assertRaisesRegex(cms_canon.NotRestored, "^not restored: what comes is no message that has this DER$"):
            cms_canon.restore(DER, forged)

    def test_without_memory(self):
        def fail(*words):
            words[-1].status = 5

        account = cms_canon.account(MESSAGE)
        for name, call in (("pieces", cms_canon.pieces), ("pieces", cms_canon.account), ("convert", cms_canon.account)):
            with mock.patch.object(library, f"cms_canon_{name}", fail), self.assertRaisesRegex(MemoryError, "^out of memory$"):
                call(MESSAGE)
        with mock.patch.object(library, "cms_canon_convert", fail), self.assertRaisesRegex(MemoryError, "^out of memory$"):
            cms_canon.restore(DER, account)
        with mock.patch.object(_restoring, "BytesIO", side_effect=MemoryError), self.assertRaises(MemoryError):
            cms_canon.restore(DER, account)
        self.assertEqual(cms_canon.restore(DER, account), MESSAGE)

    def test_an_account_is_tried_before_it_is_returned(self):
        with mock.patch.object(_restoring, "_instructions", lambda octets, copies: [b"\2\0"]):
            with self.assertRaisesRegex(cms_canon.NotRestored, "^not restored: the account is cut off"):
                cms_canon.account(MESSAGE)
        with mock.patch.object(_restoring, "restore") as restore:
            account = cms_canon.account(MESSAGE, limit=1000)
        restore.assert_called_once_with(DER, account, 1000)

    def test_octets_that_change_meanwhile(self):
        account, given = bytearray(cms_canon.account(MESSAGE)), bytearray(DER)

        def changing(octets):
            given[:], account[:] = bytes(len(given)), bytes(len(account))
            return sha256(octets).digest()

        with mock.patch.object(_restoring, "_sha256", changing):
            self.assertEqual(cms_canon.restore(given, account), MESSAGE)

    def test_four_at_once(self):
        wrong = []

        def restore_often():
            wrong.extend(1 for _ in range(500) if cms_canon.restore(DER, cms_canon.account(MESSAGE)) != MESSAGE)

        in_four_threads(restore_often)
        self.assertEqual(wrong, [])


class Samples(unittest.TestCase):
    def test_samples_in_the_readme(self):
        known = {"cms_canon": cms_canon, "Path": lambda name: HERE.parents[2] / "examples" / name}
        for variable in ("message", "certificate", "original"):  # of the fields, of what has a name, and of accounts
            (sample,) = re.findall(rf"^```python\n({variable} = .*?)^```$", (HERE.parent / "README.md").read_text(), re.M | re.S)
            printed = io.StringIO()
            with contextlib.redirect_stdout(printed):
                exec(sample, known)
            self.assertEqual(printed.getvalue().splitlines(), re.findall(r"  # (.*)$", sample, re.M))


class ObjectIdentifiers(unittest.TestCase):
    def test_numbers_of_any_size(self):
        for contents, text in (
            ("883703", "2.999.3"),
            ("81ffffffffffffffff7f", f"2.{2**64 - 1 - 80}"),
            ("82808080808080808000", "hex:82808080808080808000"),
            ("2a" + "ff" * 5000 + "7f", "hex:2a" + "ff" * 5000 + "7f"),
        ):
            self.assertEqual(dotted(bytes.fromhex(contents)), text)

    def test_long_ones_are_not_kept(self):
        _short_dotted.cache_clear()
        for length in (32, 33, 100000):
            dotted(b"\x2a" * length)
        self.assertEqual(_short_dotted.cache_info().currsize, 1)


class Threads(unittest.TestCase):
    def test_four_at_once(self):
        wrong = []

        def convert_often():
            wrong.extend(1 for _ in range(2000) if cms_canon.convert(MESSAGE) != DER)

        in_four_threads(convert_often)
        self.assertEqual(wrong, [])

    def test_four_at_one_message(self):
        wanted, wrong = cms_canon.read(DER).to_json(), []

        def read_often():
            wrong.extend(1 for message in messages if message.to_json() != wanted)

        messages = [cms_canon.read(DER) for _ in range(200)]
        in_four_threads(read_often)
        self.assertEqual(wrong, [])


def in_four_threads(do):
    threads = [threading.Thread(target=do) for _ in range(4)]
    for thread in threads:
        thread.start()
    for thread in threads:
        thread.join()


class Types(unittest.TestCase):
    def test_the_calls_are_typed(self):
        for name in ("account", "convert", "convert_many", "cover", "show", "same", "check", "pieces", "read", "restore"):
            call = getattr(cms_canon, name)
            hints = typing.get_type_hints(call)
            self.assertEqual(set(hints), {*inspect.signature(call).parameters, "return"})


if __name__ == "__main__":
    unittest.main()
