"""Worked pieces of the rules on small files made by hand: records, prices and the order of refusals, all known in advance."""
import dataclasses
import pathlib
import re
import unittest

import tillsparrow
from tillsparrow import MEANINGS, MOST, Inspected, Record, Refused, _native

from . import files

SMALL = files.small()
OWN = Record(width=8, height=8, channels=1, across=(1, 0, 0, 0), down=(1, 0, 0, 0), ids=(1, 0, 0, 0), quants=(7, 0, 0, 0),
             dcs=(89, 0, 0, 0), acs=(111, 0, 0, 0), start=138, blocks=1, scratch=64, output=64, work=3200, colour=1)


def restarted(scan):
    """Two blocks of SMALL beside each other, and a restart between them."""
    return files.small(scan=bytes(scan), width=16, interval=1)


TWO = restarted([63, 255, 208, 63])


def price_of(data):
    return 2 * len(data) + 1 + 2 * 3136 + 128


class Rules(unittest.TestCase):
    def test_the_version_is_that_of_the_repository(self):
        told = pathlib.Path(__file__).resolve().parents[3] / "VERSION"
        self.assertEqual(tillsparrow.__version__ + "\n", told.read_text(encoding="ascii"))

    def test_the_record_is_known(self):
        self.assertEqual(len(SMALL), 141)
        self.assertEqual(tillsparrow.inspect(SMALL, budget=3483), Inspected(OWN, 0))
        self.assertEqual(tillsparrow.inspect(SMALL, False, budget=3500), Inspected(dataclasses.replace(OWN, colour=0), 17))

    def test_decode_refuses_in_order(self):
        def at(record, output, scratch, budget):
            try:
                return 0, tillsparrow.decode(SMALL, record, bytearray(output), bytearray(scratch), budget).left
            except Refused as refused:
                return refused.number, refused.left
        self.assertEqual(at(OWN, 63, 64, 0), (7, 0))
        self.assertEqual(at(OWN, 64, 63, 9), (7, 9))
        self.assertEqual(at(OWN, 64, 64, 3482), (2, 3482))
        self.assertEqual(at(OWN, 64, 64, 3483), (0, 0))
        self.assertEqual(at(Record(), 0, 0, 282), (2, 282))
        self.assertEqual(at(Record(), 0, 0, 283), (8, 0))
        self.assertEqual(at(dataclasses.replace(OWN, work=MOST - 282), 64, 64, MOST), (2, MOST))
        self.assertEqual(at(dataclasses.replace(OWN, work=MOST - 283), 64, 64, MOST), (8, 0))
        self.assertEqual(at(dataclasses.replace(OWN, output=MOST), 64, 64, 1), (7, 1))

    def test_a_table_lists_a_symbol_once(self):
        """A table that lists a symbol twice is refused where it is read, though the block takes the first of its two codes alone; its neighbour, which
        lists another symbol there, is accepted."""
        careful, careless = files.small(((1, 0), (2, 1))), files.small(((1, 0), (2, 0)))
        seen = tillsparrow.inspect(careful, budget=3485)
        self.assertEqual((seen.record.start, seen.left, tillsparrow.settled(careful)), (139, 0, careful))
        room, output, scratch = bytearray(b"\x03" * 200), bytearray(b"\x03" * 64), bytearray(b"\x03" * 64)
        for call in (lambda: tillsparrow.inspect(careless, budget=302), lambda: tillsparrow.has_comment(careless, 0, budget=302),
                     lambda: tillsparrow.settle(careless, room, budget=302)):
            with self.assertRaises(Refused) as raised:
                call()
            self.assertEqual((raised.exception.number, raised.exception.left, raised.exception.needed), (4, 17, None))
        with self.assertRaises(Refused) as raised:
            tillsparrow.decode(careless, seen.record, output, scratch, 3485)
        self.assertEqual((raised.exception.number, raised.exception.left), (8, 0))
        self.assertEqual({*room, *output, *scratch}, {3})

    def test_fill_stands_before_a_marker(self):
        """Fill bytes before a restart and before the end are in no record and in no picture, and settling leaves them out. Each costs 2,
        as every byte does."""
        record = tillsparrow.inspect(TWO).record
        self.assertEqual((len(TWO), record.start, record.interval), (150, 144, 1))
        for first, last in ((1, 0), (0, 1), (2, 3), (1000, 2000)):
            filled, price = restarted([63, *[255] * first, 255, 208, 63, *[255] * last]), price_of(TWO) + 2 * (first + last)
            self.assertEqual(tillsparrow.inspect(filled, budget=price), Inspected(record, 0))
            self.assertEqual(tillsparrow.has_comment(filled, 0, budget=price), (False, 0))
            drawn = tillsparrow.decode(filled, record, budget=price)
            self.assertEqual((drawn.output, drawn.scratch, drawn.left), (b"\x80" * 128, b"\x80" * 128, 0))
            made = tillsparrow.settle(filled, budget=price)
            self.assertEqual((made.output, made.length, made.left), (TWO, 150, 0))
            self.assertEqual(tillsparrow.read(filled), tillsparrow.read(TWO))

    def test_a_stray_255_is_refused(self):
        """A 255 before a 255 where a bit is wanted is no fill; fill wants the marker that is due behind it, and nothing stands behind the
        last one."""
        record, ended = tillsparrow.inspect(TWO).record, restarted([63, 255, 208, 63, 255])
        strays = ((restarted([255, 255, 63, 255, 208, 63]), 10), (restarted([63, 255, 208, 255, 255, 63]), 10),
                  (restarted([63, 255, 255, 0, 255, 208, 63]), 4), (restarted([63, 255, 255, 209, 63]), 4), (ended[:-1], 4),
                  (ended + b"\xff", 4))
        for stray, number in strays:
            room, output, scratch = (bytearray(b"\x03" * length) for length in (400, 128, 128))
            budget = price_of(stray) + 17
            for call in (lambda: tillsparrow.inspect(stray, budget=budget), lambda: tillsparrow.has_comment(stray, 0, budget=budget),
                         lambda: tillsparrow.settle(stray, room, budget=budget)):
                with self.assertRaises(Refused) as raised:
                    call()
                self.assertEqual((raised.exception.number, raised.exception.left, raised.exception.needed), (number, 17, None))
            with self.assertRaises(Refused) as raised:
                tillsparrow.decode(stray, record, output, scratch, budget)
            self.assertEqual((raised.exception.number, raised.exception.left), (8, 17))
            self.assertEqual({*room, *output, *scratch}, {3})

    def test_samples_go_to_the_front_of_the_buffers(self):
        output, scratch = bytearray(b"\x09" * 65), bytearray(b"\x07" * 66)
        drawn = tillsparrow.decode(SMALL, OWN, output, scratch, 3484)
        self.assertIs(drawn.output, output)
        self.assertIs(drawn.scratch, scratch)
        self.assertEqual((drawn.left, output, scratch), (1, b"\x80" * 64 + b"\x09", b"\x80" * 64 + b"\x07\x07"))

    def test_settled_files_are_known(self):
        runs = ((1, 0), (2, 240))
        self.assertEqual(tillsparrow.settled(SMALL), SMALL)
        for scan in (79, 84):
            self.assertEqual(tillsparrow.settled(files.small(runs, bytes([scan]))), files.small(runs, b"\x3f"))

    def test_a_settled_file_may_be_shorter(self):
        """Two blocks, each written as three runs of zeros and the end code."""
        runs = ((1, 0), (2, 240))
        shorter = files.small(runs, b"\x0f", width=16)
        made = tillsparrow.settle(files.small(runs, bytes([84, 84]), width=16))
        self.assertEqual((made.output, made.length), (shorter, len(shorter)))
        self.assertEqual(tillsparrow.settled(files.small(runs, bytes([84, 84]), width=16)), shorter)

    def test_a_settled_file_may_be_longer(self):
        """A block that ends in runs of zeros: with a long end code the settled file is longer, with none it is refused 9."""
        scan, ends = bytes([0b00110101, 0b01111111]), ((1, 0xe1), (2, 240), (16, 0))
        longer = files.small(ends, bytes([0b00111000, 0, 0b00011111]))
        made = tillsparrow.settle(files.small(ends, scan))
        self.assertEqual((made.output, made.length), (longer, len(longer)))
        self.assertEqual(tillsparrow.settled(files.small(ends, scan)), longer)
        none = files.small(ends[:2], scan)
        self.assertEqual(len(tillsparrow.read(none).samples), 64)
        with self.assertRaises(Refused) as raised:
            tillsparrow.settle(none)
        self.assertEqual((raised.exception.number, raised.exception.needed), (9, None))

    def test_fresh_buffers_suffice_for_the_most_that_a_byte_can_give(self):
        """Two bits a block, ten blocks for 4096 bytes of output: 20 bits of 0 for each MCU."""
        width, height = 4096, 1024
        bits = 20 * (width // 32) * (height // 32)
        data = files.small(scan=bytes(bits // 8), width=width, height=height, samplings=(0x41, 0x14, 17, 17))
        record = tillsparrow.inspect(data).record
        self.assertGreater(record.output, 1600 * len(data))
        drawn = tillsparrow.decode(data, record)
        self.assertEqual(drawn.output, b"\x80" * record.output)
        self.assertEqual((len(drawn.output), len(drawn.scratch)), (4 * width * height, record.scratch))
        # A record that asks for more than any file of this length can fill gets no memory.
        more = 1639 * len(data) + 1
        for absurd in ({"output": more}, {"scratch": more}, {"output": MOST}, {"scratch": MOST}):
            with self.assertRaises(Refused) as raised:
                tillsparrow.decode(data, dataclasses.replace(record, **absurd))
            self.assertEqual((raised.exception.number, raised.exception.left), (7, MOST))


class Header(unittest.TestCase):
    text = (files.ROOT / "include" / "tillsparrow.h").read_text()

    def test_structs_are_those_of_the_header(self):
        found = re.findall(r"typedef struct tillsparrow_(\w+) \{(.*?)\}", self.text, re.S)
        self.assertEqual(len(found), 6)
        for name, body in found:
            wanted = re.findall(r"(\w+) (\w+)(?:\[(\d)\])?;", re.sub(r"/\*.*?\*/", "", body, flags=re.S))
            kinds = {"uint64_t": _native.Number, "tillsparrow_record": _native.Record}
            ours = [(field, kind._type_, kind._length_) if hasattr(kind, "_length_") else (field, kind, None)
                    for field, kind in getattr(_native, name.capitalize())._fields_]
            self.assertEqual(ours, [(field, kinds[kind], int(count) if count else None) for kind, field, count in wanted], name)

    def test_functions_take_what_the_header_says(self):
        kinds = {"const uint8_t *": _native.Address, "uint8_t *": _native.Address, "bool ": _native.ctypes.c_bool,
                 "size_t ": _native.Number, "uint64_t ": _native.Number, "tillsparrow_record ": _native.Record}
        found = re.findall(r"^tillsparrow_(\w+) (tillsparrow_\w+)\((.*?)\);", self.text, re.S | re.M)
        ours = {name: (answer, takes) for name, (answer, takes) in _native.FUNCTIONS.items()}
        header = {name: (getattr(_native, answer.capitalize()),
                         [kinds[re.sub(r"\w+$", "", argument.strip())] for argument in arguments.split(",")])
                  for answer, name, arguments in found}
        self.assertEqual(ours, header)

    def test_meanings_are_those_of_the_header(self):
        found = re.findall(r"TILLSPARROW_\w+ = (\d+),?\s*/\* (.*?) \*/", self.text)
        self.assertEqual({int(number): meaning.replace("settle: ", "") for number, meaning in found}, MEANINGS)
