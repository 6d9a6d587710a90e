"""Files of one picture in more than one form, made from nothing: a bit writer, tables and blocks of our own, written from the rules
alone. A block may have runs of 16 zeros before its end code, or up to its last place instead of one, and fill bytes may stand before the
markers of the scan (`filled`); nothing else is free, since a table has one code for a symbol. `plain` takes no such choice: it is the form
that settling must give. `careless` makes files whose tables are refused, `unread` files whose frame is, and `stray` files with a 255 too
many in the scan.
"""
import random
import re

END, RUN = 0, 240
MOST_FILL = 3


class Table:
    """A Huffman table: symbols by the length of their codes. Of one that is listed twice, for which the table is refused, the coder
    takes the first code."""

    def __init__(self, by_length):
        self.counts = [len(by_length.get(n, [])) for n in range(1, 17)]
        self.symbols = [x for n in range(1, 17) for x in by_length.get(n, [])]
        self.codes = {}
        code = 0
        for n in range(1, 17):
            for x in by_length.get(n, []):
                self.codes.setdefault(x, (code, n))
                code += 1
            assert code < 2 ** n, "all ones is no code"
            code *= 2

    def segment(self, kind):
        body = bytes([kind, *self.counts, *self.symbols])
        return b"\xff\xc4" + (len(body) + 2).to_bytes(2, "big") + body


class Writer:
    """Bits, highest first; 0 behind every 255; padding of ones."""

    def __init__(self):
        self.bytes, self.value, self.count = bytearray(), 0, 0

    def put(self, field, size):
        for i in reversed(range(size)):
            self.value = 2 * self.value + (field >> i) % 2
            self.count += 1
            if self.count == 8:
                self.bytes.append(self.value)
                if self.value == 255:
                    self.bytes.append(0)
                self.value, self.count = 0, 0

    def marker(self, code):
        while self.count:
            self.put(1, 1)
        self.bytes += bytes([255, code])


def plain(choices):
    """No run that is not needed, and no fill byte."""
    return 0


def most(choices):
    """As many of them as there may be."""
    return choices - 1


def size_of(value):
    return abs(value).bit_length()


def field_of(value, size):
    return value if value >= 0 else value + 2 ** size - 1


class Coder:
    """One form of a scan: `choose` is asked for a number below the one given."""

    def __init__(self, choose):
        self.choose, self.writer = choose, Writer()

    def symbol(self, table, x):
        self.writer.put(*table.codes[x])

    def value(self, table, run, value):
        size = size_of(value)
        self.symbol(table, 16 * run + size)
        self.writer.put(field_of(value, size), size)

    def block(self, dc, ac, prediction, levels):
        """64 levels in zigzag order."""
        self.value(dc, 0, levels[0] - prediction)
        place = 1
        for k in [k for k in range(1, 64) if levels[k]]:
            for _ in range((k - place) // 16):
                self.symbol(ac, RUN)
            self.value(ac, (k - place) % 16, levels[k])
            place = k + 1
        if place == 64:
            return
        # so many runs fit before the end code, or instead of it where they reach the last place
        for _ in range(self.choose((64 - place) // 16 + 1)):
            self.symbol(ac, RUN)
            place += 16
        if place < 64:
            self.symbol(ac, END)


def shape_of(sampling, channels):
    """Across and down of each channel: those given, or those of the first channel, beside which the others are 1 x 1."""
    return list(sampling) if isinstance(sampling[0], tuple) else [sampling, *[(1, 1)] * (channels - 1)]


class Picture:
    """Levels of blocks in the order of the scan, and the tables that they are written by. `sampling` is a pair for each channel, across
    and down, or the first channel's alone."""

    def __init__(self, width, height, sampling, channels, interval, tables, levels):
        self.width, self.height, self.sampling, self.channels = width, height, shape_of(sampling, channels), channels
        self.interval, self.tables, self.levels = interval, tables, levels
        # a single channel counts as 1 x 1, whatever its frame says
        self.shape = self.sampling if channels > 1 else [(1, 1)]

    def per_mcu(self):
        """The channel of each block of an MCU."""
        return [c for c, (across, down) in enumerate(self.shape) for _ in range(across * down)]

    def largest(self):
        """The largest factors, across and down."""
        return tuple(map(max, zip(*self.shape)))

    def mcus(self):
        """How many there are across and down."""
        across, down = self.largest()
        return -(-self.width // (8 * across)), -(-self.height // (8 * down))

    def blocks(self):
        across, down = self.mcus()
        return across * down * len(self.per_mcu())

    def pair(self, c):
        """The tables of a channel: its own, or the last."""
        return self.tables[min(c, len(self.tables) - 1)]

    def head(self):
        frame = bytes([8]) + self.height.to_bytes(2, "big") + self.width.to_bytes(2, "big") + bytes([self.channels])
        scan = bytes([self.channels])
        for c, (across, down) in enumerate(self.sampling):
            frame += bytes([c + 1, 16 * across + down, 0])
            scan += bytes([c + 1, 17 * min(c, len(self.tables) - 1)])
        out = b"\xff\xd8\xff\xdb\x00\x43\x00" + bytes([1 + k % 3 for k in range(64)])
        out += b"\xff\xc0" + (len(frame) + 2).to_bytes(2, "big") + frame
        for i, (dc, ac) in enumerate(self.tables):
            out += dc.segment(i) + ac.segment(16 + i)
        if self.interval:
            out += b"\xff\xdd\x00\x04" + self.interval.to_bytes(2, "big")
        scan += b"\x00\x3f\x00"
        return out + b"\xff\xda" + (len(scan) + 2).to_bytes(2, "big") + scan

    def form(self, choose):
        coder, order, prediction = Coder(choose), self.per_mcu(), [0] * self.channels
        for k, levels in enumerate(self.levels):
            mcu, c = k // len(order), order[k % len(order)]
            if self.interval and k % len(order) == 0 and mcu and mcu % self.interval == 0:
                coder.writer.marker(208 + (mcu // self.interval - 1) % 8)
                prediction = [0] * self.channels
            coder.block(*self.pair(c), prediction[c], levels)
            prediction[c] = levels[0]
        coder.writer.marker(217)
        return self.head() + bytes(coder.writer.bytes)

    def plane(self, c):
        """The blocks of one channel as a picture of their own, with tables for any levels: row by row, where here they come MCU by MCU."""
        (across, down), (wide, high), order = self.shape[c], self.mcus(), self.per_mcu()
        levels = [self.levels[(row // down * wide + column // across) * len(order) + order.index(c) + row % down * across + column % across]
                  for row in range(high * down) for column in range(wide * across)]
        return Picture(8 * wide * across, 8 * high * down, (1, 1), 1, 0, [tables(random.Random(c))], levels)


def tables(source):
    """The largest that are taken: every category, and every pair of run and size, each once, in an order and at lengths of no other
    table."""
    categories = list(range(12))
    more = [16 * run + size for run in range(16) for size in range(1, 11)] + [RUN]
    source.shuffle(categories)
    source.shuffle(more)
    dc = Table({2: categories[:1], 3: categories[1:3], 5: categories[3:9], 7: categories[9:]})
    ac = Table({3: more[:1] + [END], 4: more[1:3], 5: more[3:7], 8: more[7:60], 10: more[60:130], 16: more[130:]})
    return dc, ac


def block(source, last):
    """A block whose last level that is not zero is at one of the places given."""
    levels = [source.randrange(-300, 300)] + [0] * 63
    end = source.choice(last)
    for k in range(1, end):
        if source.random() < source.choice((0.02, 0.3)):
            levels[k] = source.randrange(-40, 40)
    if end:
        levels[end] = source.choice((-1, 1)) * source.randrange(1, 1024)
    return levels


def made(seed, width, height, sampling=(1, 1), channels=1, interval=0, pairs=1, last=(0, 1, 5, 15, 31, 47, 60, 63)):
    source = random.Random(seed)
    picture = Picture(width, height, sampling, channels, interval, [tables(source) for _ in range(pairs)], [])
    picture.levels = [block(source, last) for _ in range(picture.blocks())]
    return picture


def soft_block(source):
    """A block with few and small levels: no sample lies so far outside 0 to 255 that decoders differ in it."""
    levels = [source.randrange(-600, 600)] + [0] * 63
    for k in range(1, 9):
        levels[k] = source.choice((0, source.randrange(-40, 41)))
    return levels


def soft(seed, width, height, *shape, interval=0):
    """A picture of such blocks with these factors, a pair for each channel, which has tables of its own."""
    source = random.Random(seed)
    picture = Picture(width, height, shape, len(shape), interval, [tables(source) for _ in shape], [])
    picture.levels = [soft_block(source) for _ in range(picture.blocks())]
    return picture


def without_end_code(end):
    """One block that ends at place 15: a table with no end code, or with a long one, and 240 as the code 0."""
    ac = Table({1: [RUN], 2: [16 * 14 + 1], 16: [END] if end else []})
    return Picture(8, 8, (1, 1), 1, 0, [(Table({1: [0]}), ac)], [[0] * 15 + [1] + [0] * 48])


def flat(dc=(0, 1), ac=(END, 1)):
    """One block of zeros. Of each table the code 0 is taken, and the code 10 never: its symbol may be any."""
    pair = Table({1: dc[:1], 2: dc[1:]}), Table({1: ac[:1], 2: ac[1:]})
    return Picture(8, 8, (1, 1), 1, 0, [pair], [[0] * 64]).form(plain)


def careless():
    """A name and a file each, refused 4. It differs from `flat()`, which is accepted, in one symbol, and its block does not take it."""
    yield "a DC table lists a symbol twice", flat(dc=(0, 0))
    yield "an AC table lists a symbol twice", flat(ac=(END, END))
    yield "a DC table lists the symbol 12", flat(dc=(0, 12))
    yield "an AC table lists the symbol 16", flat(ac=(END, 16))


def with_frame(*shape):
    """Blocks of zeros, one MCU of them, with these factors."""
    pair = Table({1: [0]}), Table({1: [END]})
    picture = Picture(8, 8, shape, len(shape), 0, [pair], [])
    picture.levels = [[0] * 64] * sum(across * down for across, down in picture.shape)
    return picture.form(plain)


def in_frame(jpeg, place, value):
    """The file with another byte at this place of its frame's body."""
    at = jpeg.index(b"\xff\xc0") + 4 + place
    return jpeg[:at] + bytes([value]) + jpeg[at + 1:]


def unread():
    """A name and a file each, refused 5 for the frame alone."""
    two, four = with_frame((1, 1), (1, 1)), with_frame(*[(1, 1)] * 4)
    yield "five channels", with_frame(*[(1, 1)] * 5)
    yield "eleven blocks in an MCU", with_frame((4, 2), (1, 2), (1, 1))
    yield "32 blocks in an MCU", with_frame((4, 4), (4, 4))
    yield "a factor of 5", with_frame((1, 1), (5, 1), (1, 1))
    yield "a factor of 5 down in the last channel", with_frame((1, 1), (1, 1), (1, 1), (1, 5))
    yield "a factor of 5 in grey", in_frame(flat(), 7, 0x51)
    yield "a factor of 0", in_frame(two, 10, 0x01)
    yield "a factor of 0 down in the last channel", in_frame(four, 16, 0x10)
    yield "two channels of one id", in_frame(two, 9, 1)
    yield "four channels, the last with the id of the first", in_frame(four, 15, 1)


# ---- fill bytes in the scan

def first_coded(jpeg):
    """The place of the first coded byte."""
    at, code = 2, 0
    while code != 218:
        while jpeg[at + 1] == 255:
            at += 1
        code, at = jpeg[at + 1], at + 2 + int.from_bytes(jpeg[at + 2:at + 4], "big")
    return at


def filled(jpeg, choose):
    """The file with up to three fill bytes before each marker of its scan, the restarts' and 217; `choose` says how many."""
    start = first_coded(jpeg)
    return jpeg[:start] + re.sub(rb"\xff[\xd0-\xd7\xd9]", lambda marker: b"\xff" * choose(MOST_FILL + 1) + marker.group(), jpeg[start:])


def to_full_bytes():
    """Two blocks and a restart between them. Of each block one bit stands in the last byte, which is 255 when it is padded: its 0
    follows, and fill comes behind that."""
    pair = Table({1: [2]}), Table({1: [RUN], 2: [16 * 14 + 1]})
    return Picture(16, 8, (1, 1), 1, 1, [pair], [[3] + [0] * 62 + [1]] * 2)


def stray():
    """A name and a file each, refused in the scan: 10 where a bit is wanted, and 4 where padding or a marker is. What is accepted, with
    fill or without, is 63 255 217 for the first ones, and 98 255 0 255 208 98 255 0 255 217 for the others."""
    one, two = flat()[:-3], to_full_bytes().head()
    yield "fill where a bit is wanted", one + bytes([255, 255, 63, 255, 217])
    yield "fill with no marker behind it", one + bytes([63, 255, 255])
    yield "fill and then a 0", one + bytes([63, 255, 255, 0, 255, 217])
    yield "fill and then a restart that is not due", one + bytes([63, 255, 255, 208, 255, 217])
    yield "fill behind padding with a 0 in it", one + bytes([62, 255, 255, 217])
    yield "fill behind the last marker", one + bytes([63, 255, 217, 255])
    yield "fill and the last marker twice", one + bytes([63, 255, 255, 217, 255, 217])
    yield "fill before the 0 of a padded 255", two + bytes([98, 255, 255, 0, 255, 208, 98, 255, 0, 255, 217])
    yield "fill in place of the 0 of a padded 255", two + bytes([98, 255, 255, 255, 208, 98, 255, 0, 255, 217])
    yield "fill and then another restart", two + bytes([98, 255, 0, 255, 255, 209, 98, 255, 0, 255, 217])
    yield "fill and then the end for a restart", two + bytes([98, 255, 0, 255, 255, 217])
