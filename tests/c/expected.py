"""A reader for the tests: the 46 numbers of a file that is known to be good, found from the markers alone, and where each block of its
scan stands. It tests nothing and refuses nothing; what it finds is held against what inspect finds.
"""
import itertools
from typing import NamedTuple

FRAMES, TABLES, QUANTIZERS, INTERVAL, SCAN, COMMENT = (0xC0, 0xC1), 0xC4, 0xDB, 0xDD, 0xDA, 0xFE
PRICE_OF_A_BLOCK = 3136
# where the numbers of a record stand: those by channel, those by id, and the others
NUMBERS = 46
CHANNELS, ACROSS, DOWN, IDS, QIDS, DCIDS, ACIDS = 2, 3, 7, 11, 15, 19, 23
QUANTS, DCS, ACS = 27, 31, 35
INTERVAL_AT, START, BLOCKS, SCRATCH, OUTPUT, WORK, COLOUR = range(39, NUMBERS)


def segments(jpeg):
    """The marker, the place of the body and the body of each segment up to the scan's, which is the last."""
    at = 2
    while True:
        assert jpeg[at] == 0xFF, f"no marker at {at}"
        while jpeg[at + 1] == 0xFF:
            at += 1
        end = at + 2 + int.from_bytes(jpeg[at + 2:at + 4], "big")
        yield jpeg[at + 1], at + 4, jpeg[at + 4:end]
        if jpeg[at + 1] == SCAN:
            return
        at = end


def comments(jpeg):
    return [body for marker, _, body in segments(jpeg) if marker == COMMENT]


def quantizers(places, at, body):
    for i in range(0, len(body), 65):
        places[body[i]] = at + i + 1


def tables(dcs, acs, at, body):
    i = 0
    while i < len(body):
        (acs if body[i] >> 4 else dcs)[body[i] & 15] = at + i + 1
        i += 17 + sum(body[i + 1:i + 17])


def padded(numbers):
    """By channel, and 0 behind the last."""
    return numbers + [0] * (4 - len(numbers))


def factors(frame):
    """Across and down of each channel; a single one is 1 x 1 whatever its byte says."""
    return [divmod(byte, 16) for byte in frame[7::3]] if frame[5] > 1 else [(1, 1)]


def lengths(width, height, shape):
    """Blocks, scratch, output, work; MCUs are counted by the largest factors."""
    most_across, most_down = map(max, zip(*shape))
    mcus = -(-width // (8 * most_across)) * -(-height // (8 * most_down))
    blocks = mcus * sum(across * down for across, down in shape)
    output = width * height * len(shape)
    return [blocks, 64 * blocks, output, PRICE_OF_A_BLOCK * blocks + output]


def record(jpeg):
    quants, dcs, acs, interval = [0] * 4, [0] * 4, [0] * 4, 0
    for marker, at, body in segments(jpeg):
        if marker == QUANTIZERS:
            quantizers(quants, at, body)
        elif marker == TABLES:
            tables(dcs, acs, at, body)
        elif marker == INTERVAL:
            interval = int.from_bytes(body, "big")
        elif marker in FRAMES:
            frame = body
    # the last segment was the scan's
    height, width, channels = int.from_bytes(frame[1:3], "big"), int.from_bytes(frame[3:5], "big"), frame[5]
    shape, named = factors(frame), body[2:2 * channels + 1:2]
    by_channel = (list(each) for each in (*zip(*shape), frame[6::3], frame[8::3], (v >> 4 for v in named), (v & 15 for v in named)))
    return [width, height, channels, *itertools.chain(*map(padded, by_channel)), *quants, *dcs, *acs, interval, at + len(body),
            *lengths(width, height, shape), 1]


# ---- the scan

class Turn(NamedTuple):
    """The reading of a block, or behind the last block of the final marker."""

    place: int  # of the first byte not yet taken when it begins
    own: int  # the same behind the restart, where one is due
    end: int  # the same when it ends


def codes(jpeg, at):
    """The symbols of the table at this place, by the lengths and the values of their codes."""
    found, code, i = {}, 0, at + 16
    for length in range(1, 17):
        for _ in range(jpeg[at + length - 1]):
            found[length, code] = jpeg[i]
            code, i = code + 1, i + 1
        code *= 2
    return found


class Bits:
    """A place in a scan, and the bits of the byte before it that are unread."""

    def __init__(self, jpeg, place):
        self.jpeg, self.place, self.unread, self.byte = jpeg, place, 0, 0

    def bit(self):
        if self.unread == 0:
            self.byte, self.unread = self.jpeg[self.place], 8
            self.place += 2 if self.byte == 255 else 1
        self.unread -= 1
        return self.byte >> self.unread & 1

    def skip(self, count):
        for _ in range(count):
            self.bit()

    def symbol(self, table):
        code, length = self.bit(), 1
        while (length, code) not in table:
            code, length = 2 * code + self.bit(), length + 1
        return table[length, code]

    def block(self, dc, ac):
        self.skip(self.symbol(dc))
        k = 1
        while k < 64:
            symbol = self.symbol(ac)
            self.skip(symbol & 15)
            k = 64 if symbol == 0 else k + (symbol >> 4) + 1

    def marker(self):
        """Padding, fill and the marker are left behind."""
        self.unread = 0
        while self.jpeg[self.place + 1] == 255:
            self.place += 1
        self.place += 2


def per_mcu(numbers):
    """The channel of each block of an MCU: as many as its factors say, channel after channel."""
    return [c for c in range(numbers[CHANNELS]) for _ in range(numbers[ACROSS + c] * numbers[DOWN + c])]


def turns(jpeg):
    """A turn for each block, and one for the final marker."""
    numbers = record(jpeg)
    order, interval = per_mcu(numbers), numbers[INTERVAL_AT]
    pairs = [(codes(jpeg, numbers[DCS + numbers[DCIDS + c]]), codes(jpeg, numbers[ACS + numbers[ACIDS + c]]))
             for c in range(numbers[CHANNELS])]
    bits = Bits(jpeg, numbers[START])
    for k in range(numbers[BLOCKS]):
        place = bits.place
        if interval and k and k % (interval * len(order)) == 0:
            bits.marker()
        own = bits.place
        bits.block(*pairs[order[k % len(order)]])
        yield Turn(place, own, bits.place)
    place = bits.place
    bits.marker()
    yield Turn(place, bits.place, bits.place)
