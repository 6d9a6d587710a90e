"""One to four channels, each with its own sampling: records, prices and samples of small files made by hand, and the frames beside them
that are refused."""
import dataclasses
import sys
import unittest

import tillsparrow
from tillsparrow import MOST, Inspected, Limits, Record, Refused

from . import files

#: For each channel across and down; of several, ten blocks in an MCU are the most.
SHAPES = (
    ((1, 1),),
    ((1, 1), (1, 1)), ((2, 1), (1, 1)), ((1, 4), (4, 1)), ((3, 2), (2, 1)), ((3, 3), (1, 1)),
    ((2, 2), (1, 2), (1, 2)), ((1, 2), (2, 1), (1, 1)), ((3, 1), (2, 1), (1, 1)), ((4, 2), (1, 1), (1, 1)), ((1, 1), (2, 4), (1, 1)),
    ((1, 1),) * 4, ((2, 2), (1, 1), (1, 1), (2, 2)), ((4, 1), (1, 4), (1, 1), (1, 1)), ((1, 2), (2, 1), (3, 1), (1, 3)),
)
#: Less than an MCU, a few of them, and sides that no MCU divides.
SIDES = ((1, 1), (64, 32), (70, 45))


def zeros(blocks):
    """The scan of so many blocks of two bits 0."""
    bits = "00" * blocks + "1" * (-2 * blocks % 8)
    return bytes(int(bits[at:at + 8], 2) for at in range(0, len(bits), 8))


def four(entries):
    """Numbers for each channel as a record has them."""
    return (*entries, *[0] * (4 - len(entries)))


def shown(factors, width, height, blocks):
    """The picture of given block samples, place by place, as the rules have it."""
    largest = [max(each) for each in zip(*factors)]
    rows, count = -(-width // (8 * largest[0])), sum(across * down for across, down in factors)
    out = bytearray()
    for y in range(height):
        for x in range(width):
            first = count * (y // (8 * largest[1]) * rows + x // (8 * largest[0]))
            for across, down in factors:
                u, v = x % (8 * largest[0]) * across // largest[0], y % (8 * largest[1]) * down // largest[1]
                out.append(blocks[64 * (first + v // 8 * across + u // 8) + 8 * (v % 8) + u % 8])
                first += across * down
    return out


def refusal(call, *arguments, **named):
    try:
        call(*arguments, **named)
    except Refused as refused:
        return refused.number, refused.left
    return 0, None


class Records(unittest.TestCase):
    def hold(self, data, wanted):
        """The record, both choices of colour, and the exact price."""
        price = 2 * len(data) + 1 + wanted.work
        self.assertEqual(tillsparrow.inspect(data, budget=price), Inspected(wanted, 0))
        self.assertEqual(tillsparrow.inspect(data, False, budget=price + 9), Inspected(dataclasses.replace(wanted, colour=0), 9))
        self.assertEqual(refusal(tillsparrow.inspect, data, budget=price - 1), (2, wanted.work - 1))
        self.assertEqual(tillsparrow.decode(data, wanted, budget=price).output, b"\x80" * wanted.output)
        self.assertEqual(refusal(tillsparrow.decode, data, wanted, budget=price - 1), (2, price - 1))

    def test_luma_of_2_x_2_beside_chroma_of_1_x_2(self):
        """Two MCUs of 16 x 16 pixels, eight blocks each."""
        data = files.small(scan=zeros(16), width=17, height=16, samplings=(0x22, 0x12, 0x12))
        self.hold(data, Record(width=17, height=16, channels=3, across=(2, 1, 1, 0), down=(2, 2, 2, 0), ids=(1, 2, 3, 0), quants=(7, 0, 0, 0),
                               dcs=(95, 0, 0, 0), acs=(117, 0, 0, 0), start=148, blocks=16, scratch=1024, output=816, work=50992, colour=1))

    def test_two_channels(self):
        self.hold(files.small(scan=zeros(2), samplings=(17, 17)),
                  Record(width=8, height=8, channels=2, across=(1, 1, 0, 0), down=(1, 1, 0, 0), ids=(1, 2, 0, 0), quants=(7, 0, 0, 0),
                         dcs=(92, 0, 0, 0), acs=(114, 0, 0, 0), start=143, blocks=2, scratch=128, output=128, work=6400, colour=1))

    def test_four_channels(self):
        """One MCU of 16 x 16 pixels, ten blocks, of which 9 x 9 pixels are the picture."""
        self.hold(files.small(scan=zeros(10), width=9, height=9, samplings=(0x22, 17, 17, 0x22), ids=(67, 77, 89, 75)),
                  Record(width=9, height=9, channels=4, across=(2, 1, 1, 2), down=(2, 1, 1, 2), ids=(67, 77, 89, 75), quants=(7, 0, 0, 0),
                         dcs=(98, 0, 0, 0), acs=(120, 0, 0, 0), start=153, blocks=10, scratch=640, output=324, work=31684, colour=1))

    def test_a_single_channel_counts_as_1_x_1(self):
        for sampling in (0x11, 0x21, 0x14, 0x44):
            seen = tillsparrow.inspect(files.small(samplings=(sampling,)))
            self.assertEqual(seen, tillsparrow.inspect(files.small()))
        self.assertEqual((seen.record.across, seen.record.down), ((1, 0, 0, 0), (1, 0, 0, 0)))

    def test_the_largest_pictures(self):
        """What stands in the record of a picture that no file here holds is told by the limits and the prices it meets."""
        for channels, blocks, work in ((3, 201_326_592, 644_244_701_187), (4, 268_435_456, 858_992_934_916)):
            data = files.small(width=65535, height=65535, samplings=(17,) * channels)
            head = 2 * len(data) + 1
            for limit, wanted in ((64 * blocks - 1, (6, 0)), (64 * blocks, (2, 0))):
                self.assertEqual(refusal(tillsparrow.inspect, data, limits=Limits(output=limit), budget=head), wanted)
            self.assertEqual(refusal(tillsparrow.inspect, data, budget=head + work - 1), (2, work - 1))
            self.assertEqual(refusal(tillsparrow.inspect, data, budget=head + work + 5)[1], 5)


class Refusals(unittest.TestCase):
    def answer(self, samplings, **more):
        """The number for one MCU of such channels."""
        blocks = sum((each >> 4) * (each & 15) for each in samplings) if len(samplings) > 1 else 1
        data = files.small(scan=zeros(blocks), samplings=samplings, **more)
        number, left = refusal(tillsparrow.inspect, data)
        self.assertIn((number, left), ((0, None), (5, MOST - 2 * len(data) - 1)))
        return number

    def test_one_to_four_channels_are_read(self):
        self.assertEqual([self.answer((17,) * count) for count in range(6)], [5, 0, 0, 0, 0, 5])

    def test_each_factor_is_1_to_4(self):
        for count in range(1, 5):
            for channel in range(count):
                for sampling, wanted in ((0x14, 0), (0x41, 0), (0x15, 5), (0x51, 5), (0x10, 5), (0x01, 5), (0x00, 5), (0xF1, 5)):
                    samplings = [17] * count
                    samplings[channel] = sampling
                    self.assertEqual(self.answer(samplings), wanted, samplings)

    def test_ten_blocks_are_the_most(self):
        for samplings, wanted in (((0x33, 0x11), 0), ((0x33, 0x21), 5), ((0x42, 0x21), 0), ((0x42, 0x13), 5), ((0x22, 0x22, 0x21), 0),
                                  ((0x22, 0x22, 0x13), 5), ((0x24, 0x11, 0x11), 0), ((0x24, 0x11, 0x12), 5), ((0x22, 0x22, 0x11, 0x11), 0),
                                  ((0x22, 0x22, 0x11, 0x21), 5), ((0x41, 0x14, 0x11, 0x11), 0), ((0x44, 0x44, 0x44, 0x44), 5)):
            self.assertEqual(self.answer(samplings), wanted, samplings)

    def test_all_ids_differ(self):
        for count in (2, 3, 4):
            for one in range(count):
                for other in range(one):
                    ids = [9, 0, 255, 31][:count]
                    self.assertEqual(self.answer((17,) * count, ids=ids), 0)
                    ids[one] = ids[other]
                    self.assertEqual(self.answer((17,) * count, ids=ids), 5, ids)


class Samples(unittest.TestCase):
    def test_each_channel_has_its_own_samples(self):
        """Block by block the samples are those of a grey file with the same blocks in a row; place by place those that the rules name."""
        seen = 0
        for factors in SHAPES:
            for width, height in SIDES:
                data, blocks = files.several(factors, width, height), files.blocks_of(factors, width, height)
                record = tillsparrow.inspect(data, False).record
                self.assertEqual((record.channels, record.across, record.down), (len(factors), *map(four, zip(*factors))))
                self.assertEqual((record.blocks, record.output), (blocks, width * height * len(factors)))
                drawn, name = tillsparrow.decode(data, record), (factors, width, height)
                row = tillsparrow.decode(*self.in_a_row(files.levels_of(factors, width, height)))
                self.assertEqual(drawn.scratch, row.scratch, name)
                self.assertEqual(drawn.output, shown(factors, width, height, drawn.scratch), name)
                seen += record.output
        print(f"held: {seen} samples of {len(SHAPES)} shapes of one to four channels", file=sys.stderr)

    def in_a_row(self, levels):
        data = files.coded(((1, 1),), 8 * len(levels), 8, levels)
        return data, tillsparrow.inspect(data).record

    def test_colour_is_of_three_channels_alone(self):
        for factors in SHAPES:
            data = files.several(factors, 40, 24)
            plain, coloured = (tillsparrow.decode(data, tillsparrow.inspect(data, colour).record).output for colour in (False, True))
            self.assertEqual(plain != coloured, len(factors) == 3, factors)
            self.assertEqual(tillsparrow.inspect(data).record.colour, 1)
            picture = tillsparrow.read(data)
            self.assertEqual((picture.width, picture.height, picture.channels, picture.samples), (40, 24, len(factors), coloured))

    def test_a_restart_is_one_of_all_channels(self):
        for factors in SHAPES:
            plain = tillsparrow.read(files.several(factors, 70, 45))
            for interval in (1, 2, 3):
                data = files.several(factors, 70, 45, interval)
                self.assertEqual((tillsparrow.inspect(data).record.interval, tillsparrow.read(data)), (interval, plain), factors)

    def test_settling_and_notes(self):
        """The files are settled as they were made; fill and notes are taken as in every other."""
        for factors in SHAPES:
            data = files.several(factors, 70, 45, 1)
            self.assertEqual(tillsparrow.settled(data), data)
            filled = files.with_fill(data, tillsparrow.inspect(data).record.start)
            self.assertEqual((tillsparrow.settled(filled), tillsparrow.read(filled)), (data, tillsparrow.read(data)))
            self.assertEqual(tillsparrow.comments(files.with_comment(data, b"row B")), [b"row B"])

    def test_a_record_of_other_factors_is_not_the_files(self):
        data = files.several(((1, 1),) * 4, 16, 16)
        own, room = tillsparrow.inspect(data).record, (bytearray(9999), bytearray(9999))
        self.assertEqual(refusal(tillsparrow.decode, data, own, *room), (0, None))
        for change in ({"across": (2, 1, 1, 1)}, {"down": (1, 1, 1, 2)}, {"channels": 3}, {"channels": 2}, {"ids": (1, 2, 4, 3)},
                       {"channels": 3, "across": (1, 1, 1, 0), "down": (1, 1, 1, 0), "ids": (1, 2, 3, 0)}):
            self.assertEqual(refusal(tillsparrow.decode, data, dataclasses.replace(own, **change), *room)[0], 8, change)
