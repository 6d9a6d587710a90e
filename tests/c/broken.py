"""Files whose scan breaks, and what inspect, settle and has_comment must say of each: the number, the block, and the place, which is that
of the first byte not yet taken when the reading of that block began, before any restart. Most are made by hand, so that what is wanted
follows from the rules alone; the others are good files that are cut, for which expected.py walks through the scan.
"""
from typing import NamedTuple

import expected
import unsettled
from unsettled import END, RUN


class Broken(NamedTuple):
    name: str
    jpeg: bytes
    number: int
    block: int
    place: int


def head(width, shape, interval, dc, ac):
    """The head of a picture of one row of MCUs; each channel has its factors and takes the same tables."""
    pair = unsettled.Table(dc), unsettled.Table(ac)
    return unsettled.Picture(width, 8, shape, len(shape), interval, [pair], []).head()


def broken(front, rows):
    """Rows of a name, the coded bytes, the number, the block, and the place in the coded bytes."""
    for name, coded, number, block, place in rows:
        yield Broken(name, front + bytes(coded), number, block, len(front) + place)


ONE, THREE, FOUR = ([(1, 1)] * channels for channels in (1, 3, 4))
# A code of 0 for the difference 0 and one for the end, and no code that begins with 11: each block is the bits 00.
ZEROS = {1: [0]}, {1: [END], 2: [RUN]}


def one_after_another():
    """Three blocks with a restart before the second and the third. Whole it is 63 255 208 63 255 209 63 255 217. 192 0 is sixteen bits
    in which no code is found; 85 127 begins with a difference and four runs, which lead past place 63."""
    first, second = [63, 255, 208], [63, 255, 208, 63, 255, 209]
    yield from broken(head(24, ONE, 1, *ZEROS), (
        ("no coded byte", [], 3, 0, 0),
        ("a 255 is the only coded byte", [255], 3, 0, 0),
        ("cut in a code of the first block", [192], 3, 0, 0),
        ("a 255 and the end of the file in a code", [192, 255], 3, 0, 0),
        ("the last marker for the first block", [255, 217], 10, 0, 0),
        ("a restart for the first block", [255, 208, 63, 255, 217], 10, 0, 0),
        ("two 255 for the first block", [255, 255], 10, 0, 0),
        ("a 255 without its 0 in a code", [192, 255, 1, 255, 217], 10, 0, 0),
        ("no code in sixteen bits", [192, 0], 11, 0, 0),
        ("sixteen ones", [255, 0, 255, 0, 255, 217], 11, 0, 0),
        ("runs past place 63", [85, 127, *first[1:], 63, 255, 217], 4, 0, 0),
        ("cut before a restart", first[:1], 4, 1, 1),
        ("cut in a restart", first[:2], 4, 1, 1),
        ("cut in the fill before a restart", [*first[:2], 255], 4, 1, 1),
        ("a 0 in the padding before a restart", [62, *second[1:], 63, 255, 217], 4, 1, 1),
        ("no restart where one is due", [63, 63, 63, 255, 217], 4, 1, 1),
        ("the wrong restart", [63, 255, 209, 63, 255, 210, 63, 255, 217], 4, 1, 1),
        ("cut behind a restart", first, 3, 1, 1),
        ("a 255 and the end of the file behind a restart", [*first, 255], 3, 1, 1),
        ("cut behind fill and a restart", [63, 255, 255, 255, 208], 3, 1, 1),
        ("the last marker behind a restart", [*first, 255, 217], 10, 1, 1),
        ("no code behind a restart", [*first, 192, 0], 11, 1, 1),
        ("no code behind fill and a restart", [63, 255, 255, 208, 192, 0], 11, 1, 1),
        ("runs past place 63 behind a restart", [*first, 85, 127, 255, 209, 63, 255, 217], 4, 1, 1),
        ("cut before the second restart", second[:4], 4, 2, 4),
        ("the first restart twice", [*first, *first, 63, 255, 217], 4, 2, 4),
        ("cut behind the second restart", second, 3, 2, 4),
        ("a restart twice", [*second, 255, 209, 63, 255, 217], 10, 2, 4),
        ("no code behind the second restart", [*second, 192, 0, 255, 217], 11, 2, 4),
        ("cut before the last marker", [*second, 63], 4, 3, 7),
        ("cut in the last marker", [*second, 63, 255], 4, 3, 7),
        ("a 0 in the last padding", [*second, 62, 255, 217], 4, 3, 7),
        ("a restart for the last marker", [*second, 63, 255, 210], 4, 3, 7),
        ("data for the last marker", [*second, 63, 63, 255, 217], 4, 3, 7),
        ("a byte behind the last marker", [*second, 63, 255, 217, 0], 4, 3, 7)))


def three_channels():
    """Two MCUs of three blocks with a restart between them. Whole it is 3 255 208 3 255 217. The place of an MCU's first block lies
    before the restart, those of the others behind it."""
    first = [3, 255, 208]
    yield from broken(head(16, THREE, 1, *ZEROS), (
        ("cut in the second block of an MCU", [48, 0], 3, 1, 1),
        ("the last marker in the second block of an MCU", [48, 255, 217], 10, 1, 1),
        ("no code in the second block of an MCU", [48, 0, 0], 11, 1, 1),
        ("no code in the third block of an MCU", [12, 0, 0], 11, 2, 1),
        ("no code in the first block behind a restart", [*first, 192, 0], 11, 3, 1),
        ("cut in the second block behind a restart", [*first, 48, 0], 3, 4, 4),
        ("the last marker in the second block behind a restart", [*first, 48, 255, 217], 10, 4, 4),
        ("no code in the second block behind a restart", [*first, 48, 0, 0], 11, 4, 4),
        ("runs past place 63 in the second block behind a restart", [*first, 21, 95, 255, 217], 4, 4, 4),
        ("the wrong restart between MCUs", [3, 255, 209, 3, 255, 217], 4, 3, 1),
        ("cut before the last marker behind MCUs", [*first, 3], 4, 6, 4)))


def four_blocks():
    """Two MCUs of four blocks with a restart between them: four channels, and two of which one has a block below the other and one a
    block beside the other. Whole it is 0 255 208 0 255 217, and nothing is padded."""
    first = [0, 255, 208]
    for name, front in (("of four channels", head(16, FOUR, 1, *ZEROS)), ("of two channels", head(32, [(1, 2), (2, 1)], 1, *ZEROS))):
        yield from broken(front, (
            (f"cut in the second block {name}", [48, 0], 3, 1, 1),
            (f"cut in the last block {name}", [3, 0], 3, 3, 1),
            (f"the last marker in the last block {name}", [3, 255, 217], 10, 3, 1),
            (f"no code in the last block {name}", [3, 0, 0], 11, 3, 1),
            (f"runs past place 63 in the last block {name}", [1, 85, 255, 217], 4, 3, 1),
            (f"cut before a restart {name}", first[:1], 4, 4, 1),
            (f"the wrong restart {name}", [0, 255, 209, 0, 255, 217], 4, 4, 1),
            (f"cut behind a restart {name}", first, 3, 4, 1),
            (f"cut in the last block behind a restart {name}", [*first, 3, 0], 3, 7, 4),
            (f"no code in the last block behind a restart {name}", [*first, 3, 0, 0], 11, 7, 4),
            (f"cut before the last marker {name}", [*first, 0], 4, 8, 4),
            (f"a byte behind the last marker {name}", [*first, 0, 255, 217, 0], 4, 8, 4)))


def out_of_range():
    """Two MCUs of four channels. Every block adds 2047 to the level of its channel or takes it away; in one channel it is added twice."""
    pair = unsettled.Table({1: [11]}), unsettled.Table({1: [END]})
    for c in range(4):
        levels = [[level] + [0] * 63 for level in [2047] * 4 + [2 * 2047 if k == c else 0 for k in range(4)]]
        jpeg = unsettled.Picture(16, 8, FOUR, 4, 0, [pair], levels).form(unsettled.plain)
        yield Broken(f"a level out of range in channel {c}", jpeg, 4, 4 + c, list(expected.turns(jpeg))[4 + c].place)


def in_one_byte():
    """Blocks that begin where bits of a byte are unread: the place is behind that byte, and behind its 0 too. The first picture's blocks
    are thirteen bits, 0, eleven 1 and 0, and add 2047 each; the second's are 98 and one bit of a 255."""
    yield from broken(head(16, ONE, 0, {1: [11]}, {1: [END]}), (
        ("a level out of range", [127, 243, 255, 0, 191, 255, 217], 4, 1, 2),
        ("cut in the bits of a difference", [127, 243], 3, 1, 2),
        ("a 255 without its 0 in a difference", [127, 243, 255, 191, 255, 217], 10, 1, 2)))
    yield from broken(head(16, ONE, 0, {1: [2]}, {1: [RUN], 2: [16 * 14 + 1]}), (
        ("cut behind the 0 of a 255", [98, 255, 0], 3, 1, 3),
        ("a 255 and the end of the file, bits of another unread", [98, 255, 0, 255], 3, 1, 3),
        ("fifteen bits that no code begins, and the end of the file", [98, 255, 0, 128], 3, 1, 3),
        ("a 255 without its 0 behind one that has it", [98, 255, 0, 255, 217], 10, 1, 3),
        ("no code in the bits of three bytes", [98, 255, 0, 255, 0, 128], 11, 1, 3)))


# the files of unsettled.stray(): the number, the block, and how many coded bytes lie before the place
STRAY = {"fill where a bit is wanted": (10, 0, 0), "fill with no marker behind it": (4, 1, 1), "fill and then a 0": (4, 1, 1),
         "fill and then a restart that is not due": (4, 1, 1), "fill behind padding with a 0 in it": (4, 1, 1),
         "fill behind the last marker": (4, 1, 1), "fill and the last marker twice": (4, 1, 1),
         "fill before the 0 of a padded 255": (10, 0, 0), "fill in place of the 0 of a padded 255": (10, 0, 0),
         "fill and then another restart": (4, 1, 3), "fill and then the end for a restart": (4, 1, 3)}


def stray():
    for name, jpeg in unsettled.stray():
        number, block, place = STRAY[name]
        yield Broken(name, jpeg, number, block, unsettled.first_coded(jpeg) + place)


def by_hand():
    yield from one_after_another()
    yield from three_channels()
    yield from in_one_byte()
    yield from four_blocks()
    yield from out_of_range()


# ---- good files that are cut

def cuts(jpeg):
    """For each byte of the scan: how long the file is that ends before it, and its number, block and place. Where that end is in a block
    the bytes ran out; where it is in a restart, or before the end of the last marker, a rule of the format is broken."""
    turns, block = list(expected.turns(jpeg)), 0
    for length in range(turns[0].place, len(jpeg)):
        while turns[block].end <= length:
            block += 1
        yield length, 3 if turns[block].own <= length else 4, block, turns[block].place


def cut(name, jpeg, less):
    """The file without its last bytes, so many."""
    _, number, block, place = list(cuts(jpeg))[-less]
    return Broken(name, jpeg[:-less], number, block, place)


def with_more(name, jpeg, more):
    """The file with bytes behind its last marker."""
    *_, last = expected.turns(jpeg)
    return Broken(name, jpeg + more, 4, expected.record(jpeg)[expected.BLOCKS], last.place)
