"""Why and where a scan broke: the number, the block and the place, on small files made by hand and on real ones; and that nothing is
named where no scan broke."""
import copy
import ctypes
import pickle
import sys
import tempfile
import unittest

import tillsparrow
from tillsparrow import MEANINGS, MOST, Limits, Record, Refused, _native

from . import files


def head(start, **how):
    """A small file up to its first coded byte."""
    data = files.small(scan=b"", **how)[:-2]
    assert len(data) == start, len(data)
    return data


#: A block is two bits 0, so that 63 is one with its padding; 128 begins no code.
ONE, FOUR, TWO = head(138), head(138, width=32), head(144, width=16, interval=1)
#: The code 10 is a run of 16 zeros, of which a block takes three.
RUNS, TWO_RUNS = head(139, ac=((1, 0), (2, 240))), head(145, ac=((1, 0), (2, 240)), width=16, interval=1)
#: A block of 11, 255 and its 0: three runs, and a last level of ten ones.
FULL = head(139, ac=((1, 240), (2, 0xea)), width=16)

#: A head, what stands behind it, and what is answered: the number, the block and the place.
BROKEN = (
    # in the first block
    (ONE, [], (3, 0, 138)), (ONE, [255], (3, 0, 138)), (ONE, [128], (3, 0, 138)), (ONE, [128, 255], (3, 0, 138)),
    (ONE, [255, 217], (10, 0, 138)), (ONE, [255, 255, 63, 255, 217], (10, 0, 138)), (ONE, [128, 255, 217], (10, 0, 138)),
    (ONE, [128, 0, 255, 217], (11, 0, 138)), (ONE, [255, 0, 255, 0, 255, 217], (11, 0, 138)), (ONE, [128, 0], (11, 0, 138)),
    (RUNS, [0b01010101, 0b00111111, 255, 217], (4, 0, 139)), (RUNS, [0b01010101, 0], (4, 0, 139)),
    # in a block behind a restart: the place is before the restart's padding, fill and marker
    (TWO, [63, 255, 208], (3, 1, 145)), (TWO, [63, 255, 208, 255], (3, 1, 145)), (TWO, [63, 255, 255, 208], (3, 1, 145)),
    (TWO, [63, 255, 208, 255, 217], (10, 1, 145)), (TWO, [63, 255, 208, 255, 255, 63, 255, 217], (10, 1, 145)),
    (TWO, [63, 255, 255, 255, 208, 255, 217], (10, 1, 145)), (TWO, [63, 255, 208, 128, 0, 255, 217], (11, 1, 145)),
    (TWO_RUNS, [63, 255, 208, 0b01010101, 0b00111111, 255, 217], (4, 1, 146)),
    # in the restart itself, also where the bytes ran out there
    (TWO, [63], (4, 1, 145)), (TWO, [63, 255], (4, 1, 145)), (TWO, [63, 255, 255], (4, 1, 145)), (TWO, [63, 255, 217], (4, 1, 145)),
    (TWO, [62, 255, 208, 63, 255, 217], (4, 1, 145)), (TWO, [63, 255, 209, 63, 255, 217], (4, 1, 145)),
    # at the end of the scan, where the block count is named
    (ONE, [63], (4, 1, 139)), (ONE, [63, 255], (4, 1, 139)), (ONE, [63, 255, 255], (4, 1, 139)), (ONE, [62, 255, 217], (4, 1, 139)),
    (ONE, [63, 255, 208], (4, 1, 139)), (ONE, [63, 255, 217, 0], (4, 1, 139)), (ONE, [63, 0, 255, 217], (4, 1, 139)),
    (TWO, [63, 255, 208, 63], (4, 2, 148)), (TWO, [63, 255, 208, 63, 255, 209], (4, 2, 148)), (FOUR, [0], (4, 4, 139)),
    # the byte behind the current one, of which bits are unread; and behind the 0 of a 255
    (FOUR, [0b00000011, 255, 0, 255, 0, 255, 217], (11, 3, 139)), (FOUR, [0b00111111, 255], (3, 1, 139)),
    (FULL, [11, 255, 0, 255, 217], (10, 1, 142)), (FULL, [11, 255, 0], (3, 1, 142)), (FULL, [11, 255, 0, 128, 0], (11, 1, 142)),
)

#: Every call that reads a file as inspect does.
CALLS = (tillsparrow.inspect, lambda data: tillsparrow.inspect(data, False), tillsparrow.settle,
         lambda data: tillsparrow.settle(data, bytearray(len(data) + 9)), lambda data: tillsparrow.has_comment(data, 0),
         tillsparrow.read, tillsparrow.settled, tillsparrow.comments)


def refusal(call, *arguments, **named):
    try:
        call(*arguments, **named)
    except Refused as refused:
        return refused
    raise AssertionError("not refused")


def told(refused):
    return refused.number, refused.block, refused.place


class Broken(unittest.TestCase):
    def test_each_call_names_number_block_and_place(self):
        for begun, scan, wanted in BROKEN:
            data = begun + bytes(scan)
            for call in CALLS:
                refused = refusal(call, data)
                self.assertEqual(told(refused), wanted, scan)
                self.assertEqual((refused.meaning, refused.length, refused.needed), (MEANINGS[wanted[0]], len(data), None))
            self.assertEqual(tillsparrow.comment(data, 0), b"")
        self.assertEqual({wanted[0] for _, _, wanted in BROKEN}, {3, 4, 10, 11})

    def test_prices_stay_and_nothing_is_written(self):
        for begun, scan, wanted in BROKEN:
            data, blocks = begun + bytes(scan), {ONE: 1, RUNS: 1, FOUR: 4}.get(begun, 2)
            budget, room = 2 * len(data) + 1 + 3200 * blocks + 17, bytearray(b"\x03" * 400)
            for call in (lambda: tillsparrow.inspect(data, budget=budget), lambda: tillsparrow.has_comment(data, 0, budget=budget),
                         lambda: tillsparrow.settle(data, room, budget=budget)):
                refused = refusal(call)
                self.assertEqual((told(refused), refused.left), (wanted, 17), scan)
            self.assertEqual(set(room), {3})

    def test_a_path_loses_nothing(self):
        with tempfile.NamedTemporaryFile() as file:
            file.write(TWO + bytes([63, 255, 208]))
            file.flush()
            for call in (tillsparrow.read, tillsparrow.settled, tillsparrow.comments):
                refused = refusal(call, file.name)
                self.assertEqual((told(refused), refused.length, refused.path), ((3, 1, 145), 147, file.name))
                self.assertEqual(str(refused), f"{file.name}: refused 3: the bytes ran out in block 1, which begins at byte 145 of 147")

    def test_a_note_before_the_scan_moves_the_place(self):
        for begun, scan, (number, block, place) in BROKEN:
            noted = files.with_comment(begun + bytes(scan), bytes(40000))
            for call in CALLS:
                self.assertEqual(told(refusal(call, noted)), (number, block, place + 40004), scan)


class Unnamed(unittest.TestCase):
    """Block and place are 0 where no scan broke, also of a file whose scan would break."""

    broken = TWO + bytes([63, 255, 208])

    def hold(self, number, call, *arguments, **named):
        self.assertEqual(told(refusal(call, *arguments, **named)), (number, 0, 0))

    def test_success_names_nothing(self):
        calls, room = _native.library, ctypes.create_string_buffer(400)
        for begun, scan in ((ONE, [63]), (FOUR, [0]), (TWO, [63, 255, 208, 63]), (RUNS, [0b01010100]), (FULL, [11, 255, 0] * 2)):
            data = begun + bytes(scan) + b"\xff\xd9"
            lent, limits = (data, len(data)), (MOST, MOST, MOST)
            for seen in (calls.tillsparrow_inspect(*lent, True, *limits, MOST), calls.tillsparrow_has_comment(*lent, 0, *limits, MOST),
                         calls.tillsparrow_settle(*lent, *limits, MOST, room, 400)):
                self.assertEqual(told(seen), (0, 0, 0), scan)
                self.assertEqual(seen.left, MOST - 2 * len(data) - 1 - tillsparrow.inspect(data).record.work)

    def test_the_header_names_nothing(self):
        progressive = self.broken.replace(b"\xff\xc0", b"\xff\xc2")
        careless = head(139, ac=((1, 0), (2, 0)))
        for number, data in ((3, self.broken[:100]), (3, self.broken[:143]), (4, b""), (4, b"GIF89a"), (4, b"\xff\xd8"), (4, careless),
                             (5, progressive)):
            for call in CALLS:
                self.hold(number, call, data)

    def test_limits_and_budget_name_nothing(self):
        length, side, price = len(self.broken), Limits(side=15), 2 * len(self.broken) + 1
        for call in (lambda *more, **named: tillsparrow.inspect(self.broken, True, *more, **named),
                     lambda *more, **named: tillsparrow.settle(self.broken, None, *more, **named),
                     lambda *more, **named: tillsparrow.has_comment(self.broken, 0, *more, **named)):
            self.hold(1, call, Limits(input=length - 1))
            self.hold(6, call, side)
            self.hold(6, call, Limits(output=127))
            for budget in (0, price - 1, price, price + 6399):
                self.hold(2, call, budget=budget)
            self.assertEqual(told(refusal(call, Limits(length, 16, 128), price + 6400)), (3, 1, 145))
        self.hold(1, tillsparrow.read, self.broken, Limits(input=length - 1))
        self.hold(6, tillsparrow.settled, self.broken, side)

    def test_settling_and_decoding_name_nothing(self):
        whole = self.broken + bytes([63, 255, 217])
        record = tillsparrow.inspect(whole).record
        self.hold(7, tillsparrow.settle, whole, bytearray(149))
        self.hold(9, tillsparrow.settle, files.small(((1, 0xe1), (2, 240)), bytes([0b00110101, 0b01111111])))
        self.hold(8, tillsparrow.decode, self.broken, record)
        self.hold(8, tillsparrow.decode, whole, Record())
        self.hold(7, tillsparrow.decode, whole, record, bytearray(127), bytearray(128))
        self.hold(2, tillsparrow.decode, self.broken, record, budget=6000)


class Lines(unittest.TestCase):
    def test_a_line_says_why_and_where(self):
        for scan, wanted in (
                ([63, 255, 208], "refused 3: the bytes ran out in block 1, which begins at byte 145 of 147"),
                ([63, 255, 209, 63, 255, 217],
                 "refused 4: the scan breaks a rule of the format at block 1, whose reading began at byte 145 of 150"),
                ([255, 217], "refused 10: a 255 is followed by neither 0 nor the end in block 0, which begins at byte 144 of 146"),
                ([128, 0, 255, 217], "refused 11: no code of the table matches in block 0, which begins at byte 144 of 148")):
            self.assertEqual(str(refusal(tillsparrow.read, TWO + bytes(scan))), wanted)

    def test_a_line_tells_the_header_from_the_scan(self):
        self.assertEqual(str(refusal(tillsparrow.read, TWO[:143])), "refused 3: the header is cut short")
        self.assertEqual(str(refusal(tillsparrow.read, b"")), "refused 4: a rule of the format is broken, in header or tables")

    def test_large_numbers_have_commas_and_the_length_may_be_unknown(self):
        said = "refused 3: the bytes ran out in block 1207, which begins at byte 31,337"
        self.assertEqual(str(Refused(3, MEANINGS[3], 5, block=1207, place=31337)), said)
        self.assertEqual(str(Refused(3, MEANINGS[3], 5, block=1207, place=31337, length=31352)), said + " of 31,352")
        self.assertEqual(str(Refused(11, MEANINGS[11], 5, path="tray.jpg", block=10000, place=9999)),
                         "tray.jpg: refused 11: no code of the table matches in block 10,000, which begins at byte 9999")

    def test_every_number_has_a_line_of_its_own(self):
        lines = [str(Refused(number, MEANINGS[number], 5, block=block, place=place)) for number in MEANINGS
                 for block, place in ((0, 0), (7, 99))[:2 if number in (3, 4) else 1]]
        self.assertEqual((list(MEANINGS), len(set(lines)), len(lines)), (list(range(1, 12)), 13, 13))

    def test_a_refusal_is_copied_whole(self):
        refused = refusal(tillsparrow.inspect, TWO + bytes([63, 255, 208]), budget=10000)
        for other in (copy.copy(refused), pickle.loads(pickle.dumps(refused)), eval(repr(refused))):
            self.assertEqual((vars(other), str(other), repr(other)), (vars(refused), str(refused), repr(refused)))
        self.assertEqual(vars(refused), {"number": 3, "meaning": MEANINGS[3], "left": 3305, "needed": None, "path": None,
                                         "block": 1, "place": 145, "length": 147})


class Real(unittest.TestCase):
    def test_every_cut_of_a_scan_names_the_block_it_falls_in(self):
        """A longer cut names the same block or a later one, and a block always the same place, not behind the cut."""
        restarts, cuts = files.encoded(["-sample", "2x2", "-restart", "1B"], files.tray, 64, 64), 0
        for jpeg in (files.docs_tray(), restarts):
            record, places, last = tillsparrow.inspect(jpeg).record, {}, 0
            for length in range(record.start, len(jpeg)):
                refused = refusal(tillsparrow.inspect, jpeg[:length])
                self.assertIn(refused.number, (3, 4))
                self.assertTrue(last <= refused.block <= record.blocks and record.start <= refused.place <= length, length)
                self.assertEqual(places.setdefault(refused.block, refused.place), refused.place, length)
                # It is 4 where the cut goes through the last marker or a restart's, and else 3.
                in_marker = refused.block == record.blocks or self.in_restart(jpeg, refused.place, length)
                self.assertEqual(refused.number, 4 if in_marker else 3, length)
                last, cuts = refused.block, cuts + 1
            self.assertEqual(last, record.blocks)
            self.assertEqual(list(places.values()), sorted(places.values()))
        print(f"held: {cuts} cut scans name their block and its place", file=sys.stderr)

    def in_restart(self, jpeg, place, length):
        """Whether a restart stands at that place, and the cut does not leave it whole."""
        return jpeg[place] == 255 and 208 <= jpeg[place + 1] <= 215 and length < place + 2
