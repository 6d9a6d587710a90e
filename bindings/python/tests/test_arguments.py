"""Wrong arguments are refused before the library is called, and what is lent is neither shared nor freed early."""
import array
import ctypes
import dataclasses
import gc
import mmap
import os
import pathlib
import pickle
import subprocess
import sys
import tempfile
import unittest
from unittest import mock

import tillsparrow
from tillsparrow import MOST, Limits, Record, Refused, _calls, _lent

from . import files

DATA = files.small()
OWN = tillsparrow.inspect(DATA).record


class Numbers(unittest.TestCase):
    def test_numbers_are_of_64_bits(self):
        calls = (lambda n: tillsparrow.inspect(DATA, budget=n), lambda n: tillsparrow.inspect(DATA, limits=Limits(input=n)),
                 lambda n: tillsparrow.settle(DATA, limits=Limits(side=n)), lambda n: tillsparrow.settle(DATA, budget=n),
                 lambda n: tillsparrow.has_comment(DATA, n), lambda n: tillsparrow.comment(DATA, n),
                 lambda n: tillsparrow.has_comment(DATA, 0, Limits(output=n)), lambda n: tillsparrow.has_comment(DATA, 0, budget=n),
                 lambda n: tillsparrow.decode(DATA, OWN, budget=n), lambda n: tillsparrow.decode(DATA, dataclasses.replace(OWN, work=n)),
                 lambda n: tillsparrow.decode(DATA, dataclasses.replace(OWN, ids=(1, 0, 0, n))))
        for call in calls:
            for wrong in (-1, 2**64, 2**200, -2**64):
                self.assertRaises(ValueError, call, wrong)
            for wrong in (1.0, "1", None, b"1"):
                self.assertRaises(TypeError, call, wrong)
            try:
                call(MOST)
            except Refused as refused:
                self.assertIn(refused.number, (2, 8))

    def test_values_have_their_types(self):
        self.assertRaises(TypeError, tillsparrow.inspect, DATA, 1)
        self.assertRaises(TypeError, tillsparrow.inspect, DATA, True, (1, 2, 3))
        self.assertRaises(TypeError, tillsparrow.decode, DATA, (8, 8))
        self.assertRaises(TypeError, tillsparrow.decode, DATA, dataclasses.replace(OWN, ids=7))
        for wrong, said in (({"ids": (1, 0)}, "record.ids must be 4 whole numbers, not 2"),
                            ({"across": (1, 0, 0)}, "record.across must be 4 whole numbers, not 3"),
                            ({"quants": (7, 0, 0, 0, 0)}, "record.quants must be 4 whole numbers, not 5")):
            with self.assertRaisesRegex(ValueError, said):
                tillsparrow.decode(DATA, dataclasses.replace(OWN, **wrong))


class Buffers(unittest.TestCase):
    def test_bytes_of_every_kind_are_read(self):
        kinds = [DATA, bytearray(DATA), memoryview(DATA), memoryview(b"..." + DATA)[3:], array.array("B", DATA),
                 (ctypes.c_ubyte * len(DATA)).from_buffer_copy(DATA), (ctypes.c_char * len(DATA)).from_buffer_copy(DATA)]
        noted = files.with_comment(DATA, b"row B")
        for data in kinds:
            self.assertEqual(tillsparrow.inspect(data).record, OWN)
            self.assertEqual(tillsparrow.decode(data, OWN).output, b"\x80" * 64)
            self.assertEqual(tillsparrow.settle(data).output, DATA)
            self.assertEqual(bytes(tillsparrow.comment(data, 0)), b"")
        self.assertEqual(bytes(tillsparrow.comment((ctypes.c_ubyte * len(noted)).from_buffer_copy(noted), 0)), b"row B")
        with tempfile.TemporaryFile() as file:
            file.write(noted)
            file.flush()
            with mmap.mmap(file.fileno(), 0, access=mmap.ACCESS_READ) as data:
                self.assertEqual(tillsparrow.read(data), tillsparrow.read(DATA))
                self.assertEqual(bytes(tillsparrow.comment(data, 0)), b"row B")

    def test_what_holds_no_bytes_is_refused(self):
        for wrong in ("text", 7, None, [255, 216], array.array("H", [1, 2]), memoryview(array.array("b", [1]))):
            for call in (tillsparrow.inspect, tillsparrow.settle, lambda data: tillsparrow.decode(data, OWN),
                         lambda data: tillsparrow.has_comment(data, 0)):
                self.assertRaises(TypeError, call, wrong)
            if wrong != "text":  # which is a path to these
                for call in (tillsparrow.read, tillsparrow.settled, tillsparrow.comments):
                    self.assertRaises(TypeError, call, wrong)
        for wrong in ("text", 7, [0] * 64, array.array("i", [0] * 64)):
            self.assertRaises(TypeError, tillsparrow.decode, DATA, OWN, wrong, bytearray(64))
            self.assertRaises(TypeError, tillsparrow.decode, DATA, OWN, bytearray(64), wrong)
            self.assertRaises(TypeError, tillsparrow.settle, DATA, wrong)

    def test_what_is_written_must_be_writable_and_in_one_piece(self):
        for wrong in (bytes(64), memoryview(bytearray(64)).toreadonly()):
            self.assertRaises(TypeError, tillsparrow.decode, DATA, OWN, wrong, bytearray(64))
            self.assertRaises(TypeError, tillsparrow.decode, DATA, OWN, bytearray(64), wrong)
            self.assertRaises(TypeError, tillsparrow.settle, DATA, wrong)
        for apart in (memoryview(bytearray(512))[::2], memoryview(bytearray(512))[::-1]):
            self.assertRaises(ValueError, tillsparrow.decode, DATA, OWN, apart, bytearray(64))
            self.assertRaises(ValueError, tillsparrow.decode, DATA, OWN, bytearray(64), apart)
            self.assertRaises(ValueError, tillsparrow.settle, DATA, apart)
            self.assertRaises(ValueError, tillsparrow.inspect, apart)
        released = memoryview(DATA)
        released.release()
        self.assertRaises(ValueError, tillsparrow.inspect, released)

    def test_shared_memory_is_refused(self):
        whole = bytearray(1024)
        whole[:141] = DATA
        part = memoryview(whole)
        data, there = part[:141], (part[141:205], part[205:269])
        self.assertEqual(tillsparrow.decode(data, OWN, *there).output, b"\x80" * 64)
        before = bytes(whole)
        for output, scratch in ((part[140:204], there[1]), (there[0], part[140:204]), (there[0], part[204:268]), (there[0], there[0]),
                                (part, bytearray(64)), (bytearray(64), part), (part[141:], part[700:])):
            for lent in (data, data.toreadonly()):
                with self.assertRaisesRegex(ValueError, "share memory"):
                    tillsparrow.decode(lent, OWN, output, scratch)
        for output in (part, part[140:], part[:1]):
            with self.assertRaisesRegex(ValueError, "share memory"):
                tillsparrow.settle(data, output)
        self.assertEqual(whole, before)
        self.assertEqual(tillsparrow.settle(data, part[141:]).length, 141)

    def test_empty_buffers_have_an_address(self):
        for empty in (b"", bytearray(), memoryview(b"x")[:0], array.array("B")):
            self.assertNotEqual(_lent.address(memoryview(empty)), 0)
            self.assertRaises(Refused, tillsparrow.inspect, empty)
            self.assertEqual(bytes(tillsparrow.comment(empty, 0)), b"")
        null = mock.Mock(nbytes=0)
        self.assertEqual(_lent.address(null), ctypes.addressof(_lent.NOWHERE))
        empty = bytearray()
        with self.assertRaises(Refused) as raised:
            tillsparrow.decode(b"", Record(), empty, empty)
        self.assertEqual(raised.exception.number, 8)

    def test_addresses_are_those_of_the_memory(self):
        own = bytearray(100)
        base = ctypes.addressof((ctypes.c_char * 100).from_buffer(own))
        gc.collect()
        for start in (0, 1, 63):
            self.assertEqual(_lent.address(memoryview(own)[start:]), base + start)


class Held(unittest.TestCase):
    def during(self, name, check):
        """Runs the check inside a call of that function of the library."""
        real = getattr(_calls.library, name)

        def spied(*arguments):
            check(*arguments)
            return real(*arguments)
        return mock.patch.object(_calls, "library", mock.Mock(**{name: spied}))

    def test_buffers_are_held_during_a_call_and_free_behind_it(self):
        data, output, scratch = bytearray(DATA), bytearray(64), bytearray(64)

        def check(*_):
            for lent in (data, output, scratch):
                self.assertRaises(BufferError, lent.append, 1)
        with self.during("tillsparrow_decode", check):
            tillsparrow.decode(data, OWN, output, scratch)

        def free():
            for lent in (data, output, scratch):
                lent.append(1)
                lent.pop()
        free()
        for record, rooms in ((Record(), (output, scratch)), (OWN, (output, output)), (OWN, (output, bytes(9)))):
            try:
                tillsparrow.decode(data, record, *rooms)
                self.fail("accepted")
            except (Refused, ValueError, TypeError):
                # While the error is kept, and with it every frame that it came through.
                free()

    def test_bytes_that_may_change_are_copied(self):
        for data, copied in ((bytearray(DATA), True), (memoryview(bytearray(DATA)).toreadonly(), True), (DATA, False),
                             (memoryview(DATA), False)):
            own = _lent.address(memoryview(data))
            with self.during("tillsparrow_inspect", lambda place, *_: self.assertEqual(place != own, copied)):  # noqa: B023
                self.assertEqual(tillsparrow.inspect(data).record, OWN)

    def test_nothing_leaks(self):
        data = bytearray(DATA)
        tillsparrow.decode(data, OWN)
        before = sys.getrefcount(data)
        for _ in range(50):
            tillsparrow.decode(data, OWN)
            tillsparrow.comments(data)
            self.assertRaises(Refused, tillsparrow.decode, data, Record())
        self.assertEqual(sys.getrefcount(data), before)


class Errors(unittest.TestCase):
    def test_a_refusal_says_its_number_and_meaning(self):
        with self.assertRaises(Refused) as raised:
            tillsparrow.read(b"GIF89a")
        refused = raised.exception
        self.assertEqual(str(refused), "refused 4: a rule of the format is broken, in header or tables")
        self.assertEqual(refused.meaning, "a rule of the format is broken, in header, tables or scan")
        self.assertEqual((refused.number, refused.left, refused.needed), (4, MOST - 13, None))
        with self.assertRaises(Refused) as raised:
            tillsparrow.settle(DATA, bytearray())
        self.assertEqual(str(raised.exception), "refused 7: a lent buffer is too short; 141 bytes are needed")

    def test_a_refusal_names_the_path_that_was_given(self):
        path = files.ROOT / "README.md"
        for call in (tillsparrow.read, tillsparrow.settled, tillsparrow.comments):
            for given in (path, str(path)):
                with self.assertRaises(Refused) as raised:
                    call(given)
                self.assertEqual(raised.exception.path, str(path))
                self.assertTrue(str(raised.exception).startswith(f"{path}: refused 4: "))
            with self.assertRaises(Refused) as raised:
                call(path.read_bytes())
            self.assertIsNone(raised.exception.path)

    def test_a_refusal_goes_to_another_process(self):
        sent = pickle.loads(pickle.dumps(Refused(7, "a lent buffer is too short", 5, 141, "tray.jpg")))
        self.assertEqual((sent.number, sent.meaning, sent.left, sent.needed, sent.path), (7, "a lent buffer is too short", 5, 141, "tray.jpg"))
        self.assertEqual((sent.block, sent.place, sent.length), (0, 0, None))

    def imported(self, library):
        done = subprocess.run([sys.executable, "-c", "import tillsparrow"], env={**os.environ, "TILLSPARROW_LIBRARY": library},
                              cwd=files.ROOT / "bindings" / "python", stderr=subprocess.PIPE, check=False)
        return done.returncode, done.stderr.decode().strip().split("\n")[-1]

    def test_a_library_that_is_not_there_is_named(self):
        status, said = self.imported("nowhere/libtillsparrow.so")
        self.assertEqual(status, 1)
        self.assertRegex(said, "^ImportError: tillsparrow: .*nowhere/libtillsparrow.so cannot be loaded")
        with open("/proc/self/maps") as loaded:
            other = next(line.split()[-1] for line in loaded if "/libc.so" in line)
        self.assertRegex(self.imported(other)[1], "^ImportError: .*/libc.so.* has no function tillsparrow_inspect$")
        self.assertEqual(self.imported("")[0], 0)

    def test_a_library_is_looked_for_in_order(self):
        native, missing = tillsparrow._native, files.ROOT / "nowhere.so"
        with tempfile.NamedTemporaryFile() as there, mock.patch.dict(os.environ, {"TILLSPARROW_LIBRARY": ""}):
            here = pathlib.Path(there.name)
            with mock.patch.object(native, "BUILT", missing), mock.patch.object(native, "OWN", missing):
                self.assertRaisesRegex(ImportError, "there is neither .*nowhere.so nor .*nowhere.so: install .* run ./library", native.load)
            for own, built in ((here, missing), (missing, here), (here, native.__file__)):
                with mock.patch.object(native, "OWN", own), mock.patch.object(native, "BUILT", built):
                    self.assertEqual(native.place(), here)
            os.environ["TILLSPARROW_LIBRARY"] = str(missing)
            with mock.patch.object(native, "OWN", here):
                self.assertEqual(native.place(), missing)
