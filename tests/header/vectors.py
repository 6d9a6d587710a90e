#!/usr/bin/env python3
"""Header vectors: files, and what the rules answer for each.

Makes the two files of the program `test_header`: `stdin`, the list of vectors that it runs, and `stdout`, the lines that it
must write. Nothing here comes from the library. A vector's number is written down beside it, or follows from a formula that
stands beside its group; `read_header` below reads the rules once more, gives the record of an accepted file, and must agree with
each number.

    vectors.py           writes both files
    vectors.py --check   compares them with what is there; exit 1 where they differ
    vectors.py --list    the names, numbers and lengths

The list of vectors: two bytes say where the vectors start; before that stands a store of bytes. A vector is a count of parts, for
each part its place in the store and its length (two bytes each), the colour choice, a count of patches, and for each patch a place
in the file (two bytes) and a value. The file is the parts one behind another, then patched. Numbers have the high byte first.
A line has the vector's place in the list and its number, and for an accepted one the record, field by field.
"""

import sys
from pathlib import Path

CUT, MALFORMED, UNSUPPORTED = 3, 4, 5
# the symbols that a block takes, by class: categories, and the end, 16 zeros, or a run and a size
TAKEN = [list(range(12)), [0, 240] + [16 * run + size for run in range(16) for size in range(1, 11)]]
FOLDER = Path(__file__).resolve().parents[2] / "crates" / "test_header"


# ---- the rules, read once more


class Refused(Exception):
    def __init__(self, number):
        super().__init__(number)
        self.number = number


def demand(holds, number):
    if not holds:
        raise Refused(number)


def segments(file):
    """Code, body and the body's place of each marker segment, for as long as the tests on markers and lengths pass."""
    demand(file[:2] == b"\xff\xd8", MALFORMED)
    at = 2
    while True:
        while file[at : at + 2] == b"\xff\xff":
            at += 1
        demand(len(file) >= at + 2 and file[at] == 255, MALFORMED)
        code = file[at + 1]
        demand(code != 217, MALFORMED)
        demand(len(file) >= at + 4, CUT)
        length = int.from_bytes(file[at + 2 : at + 4], "big")
        demand(length >= 2 and at + 2 + length <= len(file), CUT)
        yield code, file[at + 4 : at + 2 + length], at + 4
        at += 2 + length


def quantizer_places(body, place):
    demand(body, MALFORMED)
    found = {}
    for k in range(0, len(body), 65):
        table = body[k : k + 65]
        demand(len(table) == 65 and table[0] <= 3 and 0 not in table[1:], MALFORMED)
        found[table[0]] = place + k + 1
    return found


def huffman_places(body, place):
    demand(body, MALFORMED)
    found = {}
    k = 0
    while k < len(body):
        counts = body[k + 1 : k + 17]
        kind, name = divmod(body[k], 16)
        demand(len(counts) == 16 and kind <= 1 and name <= 3, MALFORMED)
        demand(1 <= sum(counts) <= 256 and k + 17 + sum(counts) <= len(body), MALFORMED)
        # how much of the code space is spent, in parts of 2^16: all ones of no length may be spent
        spent = 0
        for length, count in enumerate(counts, 1):
            spent += count << (16 - length)
            demand(spent <= (1 << 16) - (1 << (16 - length)), MALFORMED)
        symbols = body[k + 17 : k + 17 + sum(counts)]
        demand(len(set(symbols)) == len(symbols) and set(symbols) <= set(TAKEN[kind]), MALFORMED)
        found[kind, name] = place + k + 1
        k += 17 + sum(counts)
    return found


def read_frame(body):
    demand(len(body) >= 6 and body[0] == 8 and 1 <= body[5] <= 4, UNSUPPORTED)
    channels = body[5]
    demand(len(body) == 6 + 3 * channels, MALFORMED)
    height, width = int.from_bytes(body[1:3], "big"), int.from_bytes(body[3:5], "big")
    ids, quants = list(body[6::3]), list(body[8::3])
    factors = [divmod(b, 16) for b in body[7::3]]
    demand(width and height and all(1 <= f <= 4 for pair in factors for f in pair) and max(quants) <= 3, UNSUPPORTED)
    if channels == 1:
        factors = [(1, 1)]
    demand(sum(h * v for h, v in factors) <= 10 and len(set(ids)) == channels, UNSUPPORTED)
    across, down = [h for h, v in factors], [v for h, v in factors]
    return dict(width=width, height=height, channels=channels, across=across, down=down, ids=ids, qids=quants)


def read_header(file, colour):
    """The record of a file as a dictionary, or Refused."""
    frame, interval = None, 0
    quants, tables = {}, {}
    for code, body, place in segments(file):
        if code in (192, 193):
            demand(frame is None, MALFORMED)
            frame = read_frame(body)
        elif code == 196:
            tables |= huffman_places(body, place)
        elif code == 219:
            quants |= quantizer_places(body, place)
        elif code == 221:
            demand(len(body) == 2, MALFORMED)
            interval = int.from_bytes(body, "big")
        elif code == 218:
            break
        else:
            demand(224 <= code <= 239 or code == 254, UNSUPPORTED)
    demand(frame is not None, MALFORMED)
    channels = frame["channels"]
    demand(len(body) == 4 + 2 * channels and body[0] == channels and body[-3:] == b"\x00\x3f\x00", UNSUPPORTED)
    named, chosen = list(body[1:-3:2]), [divmod(b, 16) for b in body[2:-3:2]]
    demand(named == frame["ids"], MALFORMED)
    demand(all(dc <= 3 and ac <= 3 for dc, ac in chosen), UNSUPPORTED)
    for quant, (dc, ac) in zip(frame["qids"], chosen):
        demand(quant in quants and (0, dc) in tables and (1, ac) in tables, MALFORMED)
    wide, high = 8 * max(frame["across"]), 8 * max(frame["down"])
    mcus = -(-frame["width"] // wide) * -(-frame["height"] // high)
    blocks = mcus * sum(h * v for h, v in zip(frame["across"], frame["down"]))
    output = frame["width"] * frame["height"] * channels
    return dict(
        frame,
        dcids=[dc for dc, ac in chosen],
        acids=[ac for dc, ac in chosen],
        quants=[quants.get(i, 0) for i in range(4)],
        dcs=[tables.get((0, i), 0) for i in range(4)],
        acs=[tables.get((1, i), 0) for i in range(4)],
        interval=interval,
        start=place + len(body),
        blocks=blocks,
        scratch=64 * blocks,
        output=output,
        work=3136 * blocks + output,
        colour=int(colour),
    )


def numbers(record):
    """The record's fields, in the order of a line."""

    def four(key):
        return (record[key] + [0, 0, 0])[:4]

    return (
        [record[k] for k in ("width", "height", "channels")]
        + four("across") + four("down") + four("ids") + four("qids") + four("dcids") + four("acids")
        + record["quants"] + record["dcs"] + record["acs"]
        + [record[k] for k in ("interval", "start", "blocks", "scratch", "output", "work", "colour")]
    )


# ---- pieces of files

SOI = b"\xff\xd8"
ONES = [1] * 64
ONE_CODE = [1] + [0] * 15


def segment(code, body, length=None):
    length = 2 + len(body) if length is None else length
    return bytes([255, code]) + length.to_bytes(2, "big") + bytes(body)


def dqt(*tables):
    return segment(219, b"".join(bytes([name]) + bytes(values) for name, values in tables))


def table(first, counts=ONE_CODE, symbols=(0,)):
    return bytes([first]) + bytes(counts) + bytes(symbols)


def dht(*tables):
    return segment(196, b"".join(tables))


def frame_body(width, height, components, precision=8, channels=None):
    channels = len(components) if channels is None else channels
    head = bytes([precision]) + height.to_bytes(2, "big") + width.to_bytes(2, "big") + bytes([channels])
    return head + b"".join(bytes(c) for c in components)


def sof(width, height, components, code=192, **others):
    return segment(code, frame_body(width, height, components, **others))


def scan_body(components, channels=None, last=(0, 63, 0)):
    channels = len(components) if channels is None else channels
    return bytes([channels]) + b"".join(bytes(c) for c in components) + bytes(last)


def sos(components, **others):
    return segment(218, scan_body(components, **others))


def dri(interval):
    return segment(221, interval.to_bytes(2, "big"))


CODED = b"\x3f\xff\xd9"
Q0, DC0, AC0 = dqt((0, ONES)), dht(table(0)), dht(table(16))
GREY = [(1, 17, 0)]
GREY_FRAME = sof(8, 8, GREY)
GREY_SCAN = sos([(1, 0)])
F = SOI + Q0 + GREY_FRAME + DC0 + AC0 + GREY_SCAN + CODED
assert len(F) == 141

# three channels, 20 x 10 at 2 x 2: two MCUs of six blocks; quantizers 0, 1, 1, tables 0, 1, 1
YCC = [(1, 34, 0), (2, 17, 1), (3, 17, 1)]
YCC_TABLES = dqt((0, ONES), (1, ONES)) + dht(table(0), table(16), table(1), table(17))
YCC_FRAME = sof(20, 10, YCC)
YCC_SCAN = sos([(1, 0), (2, 17), (3, 17)])
COLOURS = SOI + YCC_TABLES + YCC_FRAME + YCC_SCAN + CODED

# four channels, 20 x 40, each with its own sampling: 3 x 1, 1 x 2, 2 x 2, 1 x 1, so three MCUs, one below the other, of ten blocks;
# quantizers 0 to 3, DC tables 0 to 3, AC tables 3 to 0
FOUR = [(1, 49, 0), (2, 18, 1), (3, 34, 2), (4, 17, 3)]
FOUR_TABLES = dqt(*((i, ONES) for i in range(4))) + dht(*(table(i) for i in range(4)), *(table(16 + i) for i in range(4)))
FOUR_CHOSEN = [(1, 3), (2, 18), (3, 33), (4, 48)]
FOURS = SOI + FOUR_TABLES + sof(20, 40, FOUR) + sos(FOUR_CHOSEN) + CODED


def grey(*parts):
    """SOI, the parts given, and the coded bytes."""
    return SOI + b"".join(parts) + CODED


def grey_with(frame=GREY_FRAME, scan=GREY_SCAN, quant=Q0, dc=DC0, ac=AC0, before=b"", after=b""):
    """F with some of its segments replaced, and with segments before the frame and after the tables."""
    return grey(quant, before, frame, dc, ac, after, scan)


def ycc_with(frame=YCC_FRAME, scan=YCC_SCAN, tables=YCC_TABLES):
    return grey(tables, frame, scan)


def four_with(frame=None, scan=None, channels=4):
    """FOURS with its frame or its scan replaced, or with its first channels alone."""
    frame = sof(20, 40, FOUR[:channels]) if frame is None else frame
    return grey(FOUR_TABLES, frame, sos(FOUR_CHOSEN[:channels]) if scan is None else scan)


def sampled(*samplings, ids=(1, 2, 3, 4)):
    """A file with these sampling bytes, one for each channel, and with these component ids."""
    return four_with(sof(20, 40, [(i, s, 0) for i, s in zip(ids, samplings)]), sos([(i, 0) for i, s in zip(ids, samplings)]))


def changed(base, *patches):
    out = bytearray(base)
    for place, value in patches:
        out[place] = value
    return bytes(out)


# ---- the vectors: a name, the file as a base with patches and a length, the number

vectors = []
records = []


def vector(name, file, number, record=None, colour=False, patches=(), length=None):
    """`number` is what the rules say; `record`, where given, the whole record in the order of a line."""
    vectors.append((name, bytes(file), tuple(patches), len(file) if length is None else length, bool(colour), number))
    if record is not None:
        records.append((len(vectors) - 1, record))


# The base files, their records written out by hand: the sides and the channels, six numbers for each of four channels, twelve places,
# and the rest.
F_RECORD = [8, 8, 1] + [1, 0, 0, 0, 1, 0, 0, 0, 1, 0, 0, 0, 0, 0, 0, 0, 0, 0, 0, 0, 0, 0, 0, 0]
F_RECORD += [7, 0, 0, 0, 89, 0, 0, 0, 111, 0, 0, 0] + [0, 138, 1, 64, 64, 3200]
C_RECORD = [20, 10, 3] + [2, 1, 1, 0, 2, 1, 1, 0, 1, 2, 3, 0, 0, 1, 1, 0, 0, 1, 1, 0, 0, 1, 1, 0]
C_RECORD += [7, 72, 0, 0, 141, 177, 0, 0, 159, 195, 0, 0] + [0, 245, 12, 768, 600, 38232]
D_RECORD = [20, 40, 4] + [3, 1, 2, 1, 1, 2, 2, 1, 1, 2, 3, 4, 0, 1, 2, 3, 0, 1, 2, 3, 3, 2, 1, 0]
D_RECORD += [7, 72, 137, 202, 271, 289, 307, 325, 343, 361, 379, 397] + [0, 452, 30, 1920, 3200, 97280]
# its first two channels: the largest factors are 3 and 2, so three MCUs of five blocks
E_RECORD = [20, 40, 2] + [3, 1, 0, 0, 1, 2, 0, 0, 1, 2, 0, 0, 0, 1, 0, 0, 0, 1, 0, 0, 3, 2, 0, 0]
E_RECORD += [7, 72, 137, 202, 271, 289, 307, 325, 343, 361, 379, 397] + [0, 442, 15, 960, 1600, 48640]
for colour in (False, True):
    vector("F", F, 0, F_RECORD + [int(colour)], colour)
    vector("three channels", COLOURS, 0, C_RECORD + [int(colour)], colour)
    vector("four channels", FOURS, 0, D_RECORD + [int(colour)], colour)
    vector("two channels", four_with(channels=2), 0, E_RECORD + [int(colour)], colour)

# SOI: the file opens 255 216, else 4; no fill before it.
vector("empty", b"", MALFORMED)
vector("one byte 255", b"\xff", MALFORMED)
vector("first byte not 255", changed(F, (0, 254)), MALFORMED)
vector("second byte not 216", changed(F, (1, 217)), MALFORMED)
vector("fill before SOI", b"\xff" + F, MALFORMED)
vector("SOI twice: 216 is any other code", SOI + F, CUT)
vector("SOI as a segment", SOI + segment(216, b"") + F[2:], UNSUPPORTED)

# Markers: fewer than two bytes or a first byte other than 255: 4.
vector("nothing behind SOI", SOI, MALFORMED)
vector("one byte behind SOI", SOI + b"\xff", MALFORMED)
vector("a byte other than 255 behind SOI", changed(F, (2, 254)), MALFORMED)
vector("a byte other than 255 alone", SOI + b"\x00", MALFORMED)
vector("a byte other than 255 before 217", SOI + b"\x00\xd9", MALFORMED)
vector("a byte other than 255 behind a segment", changed(F, (71, 0)), MALFORMED)

# 217 is 4, wherever it stands and whatever its length.
vector("217 alone", SOI + b"\xff\xd9", MALFORMED)
vector("217 with a length of 0", SOI + segment(217, b"", 0), MALFORMED)
vector("217 with a length past the end", SOI + segment(217, b"", 900), MALFORMED)
vector("217 as a whole segment", SOI + segment(217, b"") + F[2:], MALFORMED)
vector("217 behind the tables", grey(Q0, GREY_FRAME, DC0, AC0, b"\xff\xd9", GREY_SCAN), MALFORMED)

# Fill: any number of 255 before a marker; a run of them to the end is 4.
for count in (1, 2, 7, 100):
    vector(f"{count} fill before the first marker", SOI + b"\xff" * count + F[2:], 0)
    vector(f"{count} fill before the scan", F[:128] + b"\xff" * count + F[128:], 0)
    vector(f"{count} of 255 to the end", SOI + b"\xff" * count, MALFORMED)
vector("fill before every marker", grey(*(b"\xff" + part for part in (Q0, GREY_FRAME, DC0, AC0, GREY_SCAN))), 0)
vector("fill, then no room for a length", SOI + b"\xff\xff\xe0\x00", CUT)
vector("fill, then 217", SOI + b"\xff\xff\xd9", MALFORMED)

# The length test: fewer than four bytes, a length below 2 or past the end: 3. It comes before every test of a body.
for code, what in ((224, "skipped"), (192, "frame"), (196, "tables"), (219, "quantizers"), (218, "scan"), (221, "interval"), (0, "other")):
    vector(f"{what}: three bytes", SOI + bytes([255, code, 0]), CUT)
    vector(f"{what}: a length of 0", SOI + segment(code, b"", 0) + F[2:], CUT)
    vector(f"{what}: a length of 1", SOI + segment(code, b"", 1) + F[2:], CUT)
    vector(f"{what}: a length one past the end", SOI + segment(code, b"\x00" * 9, 12), CUT)
vector("a second frame, past the end", grey(Q0, GREY_FRAME, segment(192, b"", 300)), CUT)
vector("a second frame, a length of 1", grey(Q0, GREY_FRAME, segment(192, b"", 1)), CUT)
vector("a scan with no frame, past the end", grey(Q0, segment(218, b"", 300)), CUT)
vector("a length that ends with the file", SOI + segment(224, b"\x00" * 9), MALFORMED)

# Every code, with no room for a length, as an empty segment, with a length of 1, and with one past the end.
EMPTY = {192: UNSUPPORTED, 193: UNSUPPORTED, 196: MALFORMED, 217: MALFORMED, 218: MALFORMED, 219: MALFORMED, 221: MALFORMED}
ROOM = SOI + segment(0, b"") + F[2:]
for code in range(256):
    vector(f"code {code}: no room", SOI + b"\xff\x00", MALFORMED if code in (217, 255) else CUT, patches=[(3, code)])
    skipped = 224 <= code <= 239 or code == 254
    # 255 is fill: the code behind it is 0, with the length 2 * 256 + 255
    number = CUT if code == 255 else 0 if skipped else EMPTY.get(code, UNSUPPORTED)
    vector(f"code {code}: an empty segment", ROOM, number, patches=[(3, code)])
    # 255: the code 0 again, with the length 256 + 255
    number = MALFORMED if code == 217 else CUT
    vector(f"code {code}: a length of 1", ROOM, number, patches=[(3, code), (5, 1)])
    # 255: the code 3, with the length 255 * 256 + 255
    vector(f"code {code}: past the end", ROOM, number, patches=[(3, code), (4, 3), (5, 255)])

# F cut at every byte: 4 at a segment's first two bytes, 3 inside one; from the first coded byte on nothing is missing.
STARTS = [0, 2, 71, 84, 106, 128, 138]
for length in range(142):
    number = 0 if length >= 138 else MALFORMED if length < 2 or any(length - s in (0, 1) for s in STARTS) else CUT
    vector(f"F cut to {length}", F, number, length=length)

# Skipped segments may be empty or long, anywhere.
for code in (224, 231, 239, 254):
    vector(f"skipped {code} with 255 217 inside", grey_with(before=segment(code, b"\xff\xd9\xff\xd9")), 0)
    vector(f"skipped {code} behind the tables", grey_with(after=segment(code, b"") + segment(code, b"\x00" * 200)), 0)

# Quantizers: one or more; an id 0..3, compared whole, and 64 nonzero bytes, else 4.
vector("quantizers: empty", grey_with(quant=segment(219, b"")), MALFORMED)
for name in (4, 16, 128, 255):
    vector(f"quantizer id byte {name}", grey_with(quant=dqt((name, ONES))), MALFORMED)
for name in (1, 2, 3):
    vector(f"quantizer {name} used", grey_with(quant=dqt((name, ONES)), frame=sof(8, 8, [(1, 17, name)])), 0)
for place in (0, 1, 31, 62, 63):
    vector(f"quantizer: 0 at place {place}", changed(F, (7 + place, 0)), MALFORMED)
vector("quantizer: 255 everywhere", grey_with(quant=dqt((0, [255] * 64))), 0)
vector("quantizer: 63 values", grey_with(quant=dqt((0, ONES[1:]))), MALFORMED)
vector("quantizer: an id alone", grey_with(quant=segment(219, b"\x00")), MALFORMED)
vector("quantizer: 65 values", grey_with(quant=dqt((0, ONES + [1]))), MALFORMED)
vector("quantizers: a second one with a bad id", grey_with(quant=dqt((0, ONES), (4, ONES))), MALFORMED)
vector("quantizers: an unused one with a zero", grey_with(quant=dqt((0, ONES), (3, ONES[1:] + [0]))), MALFORMED)
vector("quantizers: a second one cut", grey_with(quant=dqt((0, ONES), (1, ONES[1:]))), MALFORMED)
vector("quantizers: four in one segment", grey_with(quant=dqt(*((i, ONES) for i in range(4)))), 0)
vector("quantizers: replaced in its segment", grey_with(quant=dqt((0, ONES), (0, [2] * 64))), 0)
vector("quantizers: replaced behind the frame", grey_with(after=dqt((0, [2] * 64))), 0)
vector("quantizers: thrice", grey_with(after=dqt((0, [2] * 64), (1, ONES)) + dqt((0, [3] * 64))), 0)
vector("quantizers: only behind the frame", grey(GREY_FRAME, DC0, AC0, Q0, GREY_SCAN), 0)

# Huffman tables: class 0 or 1, id 0..3, 16 counts, 1 to 256 symbols, inside the segment; all ones is no code; each symbol once, and
# one that a block takes; else 4.
vector("tables: empty", grey_with(dc=segment(196, b"")), MALFORMED)
for first in (4, 15, 20, 32, 33, 240):
    vector(f"table's first byte {first}", grey_with(dc=dht(table(first))), MALFORMED)
for name in (1, 2, 3):
    vector(f"DC and AC {name}", grey(Q0, GREY_FRAME, dht(table(name)), dht(table(16 + name)), sos([(1, 17 * name)])), 0)
vector("DC 3, AC 2", grey(Q0, GREY_FRAME, dht(table(3), table(18)), sos([(1, 50)])), 0)
vector("table: no symbols", grey_with(dc=dht(table(0, [0] * 16, ()))), MALFORMED)
vector("table: a first byte alone", grey_with(dc=segment(196, b"\x00")), MALFORMED)
vector("table: fifteen counts", grey_with(dc=segment(196, bytes([0] + ONE_CODE[:15]))), MALFORMED)
vector("table: counts, and no symbol", grey_with(dc=segment(196, bytes([0] + ONE_CODE))), MALFORMED)
vector("table: a symbol too few", grey_with(dc=dht(table(0, [0, 3] + [0] * 14, (1, 2)))), MALFORMED)
vector("table: a symbol too many", grey_with(dc=dht(table(0, ONE_CODE, (1, 2)))), MALFORMED)
vector("table: 12 symbols, the most of a DC table", grey_with(dc=dht(table(0, [0] * 15 + [12], TAKEN[0]))), 0)
vector("table: 162 symbols, the most of an AC table", grey_with(ac=dht(table(16, [0] * 15 + [162], TAKEN[1]))), 0)
vector("table: 256 symbols, every byte once", grey_with(ac=dht(table(16, [0] * 14 + [1, 255], range(256)))), MALFORMED)
vector("table: 257 symbols", grey_with(dc=dht(table(0, [0] * 14 + [2, 255], [0] * 257))), MALFORMED)
vector("table: both codes of one bit", grey_with(dc=dht(table(0, [2] + [0] * 15, (0, 1)))), MALFORMED)
vector("table: one code of one bit, one of two", grey_with(dc=dht(table(0, [1, 1] + [0] * 14, (0, 1)))), 0)
vector("table: all codes of two bits", grey_with(dc=dht(table(0, [0, 4] + [0] * 14, range(4)))), MALFORMED)
vector("table: three codes of two bits", grey_with(dc=dht(table(0, [0, 3] + [0] * 14, range(3)))), 0)
vector("table: one code of each length", grey_with(ac=dht(table(16, [1] * 16, TAKEN[1][:16]))), 0)
vector("table: one code of each length from five bits on", grey_with(dc=dht(table(0, [0] * 4 + [1] * 12, TAKEN[0]))), 0)
vector("table: and all ones of sixteen", grey_with(ac=dht(table(16, [1] * 15 + [2], TAKEN[1][:17]))), MALFORMED)
vector("table: more codes than there are", grey_with(ac=dht(table(16, [1, 0, 100] + [0] * 13, TAKEN[1][:101]))), MALFORMED)
vector("tables: DC and AC in one segment", grey(Q0, GREY_FRAME, dht(table(0), table(16)), GREY_SCAN), 0)
vector("tables: a bad one that is never used", grey_with(after=dht(table(19, [2] + [0] * 15, (0, 1)))), MALFORMED)
for extra in (1, 16, 17):
    vector(f"tables: {extra} bytes behind the last", grey_with(dc=segment(196, table(0) + b"\x00" * extra)), MALFORMED)
vector("tables: DC replaced in its segment", grey_with(dc=dht(table(0), table(0, ONE_CODE, (5,)))), 0)
vector("tables: AC replaced by a later segment", grey_with(after=dht(table(16))), 0)
vector("tables: another id does not replace", grey_with(after=dht(table(1), table(17))), 0)
vector("tables: only before the frame", grey(DC0, AC0, Q0, GREY_FRAME, GREY_SCAN), 0)

# Every symbol, alone in its table: a DC table has none above 11; an AC table has 0, 240, or a size of 1 to 10 in its low four bits.
DC_SYMBOL, AC_SYMBOL = 105, 127
for byte in range(256):
    vector(f"DC symbol {byte}", F, 0 if byte <= 11 else MALFORMED, patches=[(DC_SYMBOL, byte)])
    fits = byte in (0, 240) or 1 <= byte % 16 <= 10
    vector(f"AC symbol {byte}", F, 0 if fits else MALFORMED, patches=[(AC_SYMBOL, byte)])


def all_but(symbols, place, symbol):
    """Counts and symbols of a table: the symbols in codes of 16 bits, one of them replaced."""
    return [0] * 15 + [len(symbols)], [*symbols[:place], symbol, *symbols[place + 1 :]]


# The same beside others, at the first, a middle and the last place of the largest tables.
for first, kind, symbol in ((0, "DC", 12), (16, "AC", 16), (16, "AC", 251)):
    symbols = TAKEN[first // 16]
    for place in (0, len(symbols) // 2, len(symbols) - 1):
        bad = table(first, *all_but(symbols, place, symbol))
        vector(f"{kind} symbol {symbol} at place {place}", grey_with(after=dht(bad)), MALFORMED)


def twice(symbols, one, other):
    """Tables that list a symbol twice: a name, counts and symbols."""
    last = len(symbols) - 1
    for place, again in ((1, 0), (last, last - 1), (last, 0), (0, last), (last // 2, 0), (last, last // 2)):
        yield f"the symbol of place {again} again at {place}", *all_but(symbols, place, symbols[again])
    yield "every symbol, and the first again", [0] * 15 + [last + 2], symbols + symbols[:1]
    yield "neighbours", [0, 3] + [0] * 14, (one, one, other)
    yield "first and last", [0, 3] + [0] * 14, (one, other, one)
    yield "codes of one bit and of two", [1, 1] + [0] * 14, (one, one)
    yield "codes of one bit and of sixteen", [1] + [0] * 14 + [2], (one, other, one)
    yield "0 and 0", [1, 1] + [0] * 14, (0, 0)


for first, kind, one, other in ((0, "DC", 5, 3), (16, "AC", 240, 225)):
    for name, counts, symbols in twice(TAKEN[first // 16], one, other):
        vector(f"{kind}, twice: {name}", grey_with(after=dht(table(first, counts, symbols))), MALFORMED)
    vector(f"{kind}, each once", grey_with(after=dht(table(first, [1] + [0] * 14 + [2], (one, other, 0)))), 0)

# A symbol is listed twice by one table alone: others may have it too.
SAME = [1, 1] + [0] * 13 + [2], (0, 1, 2, 3)
EVERY = [table(first + name, *SAME) for first in (0, 16) for name in range(4)]
vector("tables: the same symbols in every table of a segment", grey_with(after=dht(*EVERY)), 0)
vector("tables: the same symbols in a segment each", grey_with(after=b"".join(dht(each) for each in EVERY)), 0)
vector("tables: one table again and again", grey_with(after=dht(EVERY[0], EVERY[0]) + dht(EVERY[0])), 0)


def around(first, listed):
    """Where a table may stand: a name, the file, and its number where this table is taken. Where that is a number at all, it is that of
    a fault behind the table."""
    this, good = table(first, *listed), table(first)
    for name in (1, 2, 3):
        yield f"never used, id {name}", grey_with(after=dht(table(first + name, *listed))), 0
    yield "before the frame", grey_with(before=dht(this)), 0
    yield "first of all", grey(dht(this), Q0, GREY_FRAME, DC0, AC0, GREY_SCAN), 0
    yield "replaced in its segment", grey_with(after=dht(this, good)), 0
    yield "replaced by a later segment", grey_with(after=dht(this) + dht(good)), 0
    yield "replaces one of its segment", grey_with(after=dht(good, this)), 0
    yield "replaces one of an earlier segment", grey_with(after=dht(good) + dht(this)), 0
    yield "a segment behind it is cut", grey_with(after=dht(this) + segment(254, b"", 900)), CUT
    yield "the file ends in the marker behind it", SOI + dht(this) + b"\xff\xdb\x00", CUT
    yield "a code that is not read behind it", grey_with(before=dht(this), frame=sof(8, 8, GREY, code=194)), UNSUPPORTED
    yield "the frame's precision behind it", grey_with(before=dht(this), frame=sof(8, 8, GREY, precision=12)), UNSUPPORTED
    yield "the scan's table ids behind it", grey_with(after=dht(this), scan=sos([(1, 64)])), UNSUPPORTED


def behind_a_fault(first, listed):
    """A table that is not come to: a name, the file and its number, whatever the table lists."""
    this = dht(table(first, *listed))
    yield "its own segment is cut", grey_with(after=segment(196, table(first, *listed), 900)), CUT
    yield "a segment before it is cut", grey_with(before=segment(254, b"", 900), after=this), CUT
    yield "a code that is not read before it", grey_with(frame=sof(8, 8, GREY, code=194), after=this), UNSUPPORTED
    yield "the frame's precision before it", grey_with(frame=sof(8, 8, GREY, precision=12), after=this), UNSUPPORTED
    yield "the scan's header before it, where the header ends", grey_with(scan=GREY_SCAN + this), 0


# A table that is refused for its symbols is refused where it is read, used or not, replaced later or not; the first fault met counts.
TWO = [1, 1] + [0] * 14
for first, what, bad, mended in ((0, "DC 3 twice", (TWO, (3, 3)), (TWO, (3, 4))), (0, "DC 12", (ONE_CODE, (12,)), (ONE_CODE, (11,))),
                                 (16, "AC 3 twice", (TWO, (3, 3)), (TWO, (3, 4))), (16, "AC 16", (ONE_CODE, (16,)), (ONE_CODE, (17,)))):
    for name, file, number in around(first, bad):
        vector(f"{what}: {name}" + (f": not {number}, the table is met first" if number else ""), file, MALFORMED)
    for name, file, number in around(first, mended):
        vector(f"{what}, mended: {name}", file, number)
    for name, file, number in behind_a_fault(first, bad):
        vector(f"{what}: {name}: not 4, the table is not come to", file, number)

# The frame. A second one: 4; body under 6, precision, channels: 5; body not 6 + 3 x channels: 4; the rest: 5.
vector("frame 193", grey_with(frame=sof(8, 8, GREY, code=193)), 0)
vector("three channels, 193", ycc_with(frame=sof(20, 10, YCC, code=193)), 0)
vector("a second frame, the same", grey_with(after=GREY_FRAME), MALFORMED)
vector("a second frame, 193", grey_with(after=sof(8, 8, GREY, code=193)), MALFORMED)
vector("a second frame before a body under 6", grey_with(after=segment(192, b"")), MALFORMED)
vector("a second frame before the precision", grey_with(after=sof(8, 8, GREY, precision=12)), MALFORMED)
for length in range(6):
    vector(f"frame: a body of {length}", grey_with(frame=segment(192, frame_body(8, 8, GREY)[:length])), UNSUPPORTED)
for precision in (0, 7, 9, 12, 16, 255):
    vector(f"frame: precision {precision}", grey_with(frame=sof(8, 8, GREY, precision=precision)), UNSUPPORTED)
for channels in (0, 5, 6, 255):
    body = frame_body(8, 8, [(i, 17, 0) for i in range(channels % 64)], channels=channels)
    vector(f"frame: {channels} channels", grey_with(frame=segment(192, body)), UNSUPPORTED)
vector("frame: one byte too many", grey_with(frame=segment(192, frame_body(8, 8, GREY) + b"\x00")), MALFORMED)
vector("frame: one byte too few", grey_with(frame=segment(192, frame_body(8, 8, GREY)[:-1])), MALFORMED)
vector("frame: one channel, a body for three", grey_with(frame=sof(8, 8, YCC, channels=1)), MALFORMED)
vector("frame: three channels, a body for one", grey_with(frame=sof(8, 8, GREY, channels=3)), MALFORMED)
vector("frame: a body of 6 that counts one channel", grey_with(frame=segment(192, frame_body(8, 8, [], channels=1))), MALFORMED)
vector("frame: precision before the length", grey_with(frame=segment(192, frame_body(8, 8, GREY, precision=12) + b"\x00")), UNSUPPORTED)
vector("frame: five channels before the length", grey_with(frame=sof(8, 8, GREY, channels=5)), UNSUPPORTED)
for channels in (2, 4):
    vector(f"frame: {channels} channels, a body for one", grey_with(frame=sof(8, 8, GREY, channels=channels)), MALFORMED)
    vector(f"frame: {channels} channels, a body for three", ycc_with(frame=sof(8, 8, YCC, channels=channels)), MALFORMED)
    vector(f"frame: four channels, a count of {channels - 1}", four_with(frame=sof(20, 40, FOUR, channels=channels - 1)), MALFORMED)
vector("frame: the length before a zero side", grey_with(frame=segment(192, frame_body(0, 8, GREY) + b"\x00")), MALFORMED)
vector("frame: the length before the sampling", grey_with(frame=segment(192, frame_body(8, 8, [(1, 0, 0)]) + b"\x00")), MALFORMED)
vector("frame: the length before the quantizer id", grey_with(frame=segment(192, frame_body(8, 8, [(1, 17, 4)]) + b"\x00")), MALFORMED)
vector("frame: width 0", grey_with(frame=sof(0, 8, GREY)), UNSUPPORTED)
vector("frame: height 0", grey_with(frame=sof(8, 0, GREY)), UNSUPPORTED)
for quant in (4, 16, 255):
    vector(f"frame: quantizer id {quant}", grey_with(frame=sof(8, 8, [(1, 17, quant)])), UNSUPPORTED)
    for channel in range(3):
        patch = (len(SOI + YCC_TABLES) + 4 + 8 + 3 * channel, quant)
        vector(f"frame: quantizer id {quant} in channel {channel}", changed(COLOURS, patch), UNSUPPORTED)
    for channel in range(4):
        patch = (len(SOI + FOUR_TABLES) + 4 + 8 + 3 * channel, quant)
        vector(f"frame: quantizer id {quant} in channel {channel} of four", FOURS, UNSUPPORTED, patches=[patch])
for ids in ((1, 1), (1, 1, 1, 1), (1, 1, 3, 4), (1, 2, 1, 4), (1, 2, 3, 1), (1, 2, 2, 4), (1, 2, 3, 2), (1, 2, 3, 3), (1, 1, 2, 2)):
    vector(f"frame: ids {ids}", sampled(*[17] * len(ids), ids=ids), UNSUPPORTED)
for ids in ((1, 0), (255, 0), (0, 1, 2, 3), (4, 3, 2, 1), (67, 77, 89, 75), (255, 0, 128, 127)):
    vector(f"frame: ids {ids}", sampled(*[17] * len(ids), ids=ids), 0)
for ids in ((1, 1, 3), (1, 2, 1), (1, 2, 2), (5, 5, 5)):
    components = [(i, 17, 0) for i in ids]
    vector(f"frame: ids {ids}", ycc_with(sof(8, 8, components), sos([(i, 0) for i in ids])), UNSUPPORTED)
for ids in ((0, 1, 2), (255, 0, 128), (3, 2, 1), (82, 71, 66)):
    components = [(i, 17, 0) for i in ids]
    vector(f"frame: ids {ids}", ycc_with(sof(8, 8, components), sos([(i, 0) for i in ids])), 0)

# Every sampling byte: nibbles 1..4; in several channels a sum of products up to 10 too; one channel counts as 1 x 1.
GREY_SAMPLING, COLOUR_SAMPLING, FOUR_SAMPLING = 71 + 11, len(SOI + YCC_TABLES) + 11, len(SOI + FOUR_TABLES) + 11
assert F[GREY_SAMPLING] == 17 and COLOURS[COLOUR_SAMPLING] == 34 and FOURS[FOUR_SAMPLING] == 49
for byte in range(256):
    high, low = divmod(byte, 16)
    nibbles = 1 <= high <= 4 and 1 <= low <= 4
    vector(f"one channel, sampling {byte}", F, 0 if nibbles else UNSUPPORTED, patches=[(GREY_SAMPLING, byte)])
    # 1 and 1 for the second and the third
    fits = nibbles and high * low + 1 + 1 <= 10
    vector(f"three channels, sampling {byte}", COLOURS, 0 if fits else UNSUPPORTED, patches=[(COLOUR_SAMPLING, byte)])
# The same in every other channel: 4 for the first of three, 3, 2, 4 and 1 for the four.
ODD = (0, 1, 5, 16, 21, 69, 80, 81, 84, 85, 136, 255)
for byte in sorted([16 * high + low for high in range(1, 5) for low in range(1, 5)] + list(ODD)):
    product = byte // 16 * (byte % 16)
    for channel in (1, 2):
        number = 0 if byte not in ODD and 4 + product + 1 <= 10 else UNSUPPORTED
        vector(f"sampling {byte} in channel {channel}", COLOURS, number, patches=[(COLOUR_SAMPLING + 3 * channel, byte)])
    for channel, others in enumerate((7, 8, 6, 9)):
        number = 0 if byte not in ODD and others + product <= 10 else UNSUPPORTED
        vector(f"sampling {byte} in channel {channel} of four", FOURS, number, patches=[(FOUR_SAMPLING + 3 * channel, byte)])
# Sums of 10 and of 11, by two channels, three and four; 16 blocks of one channel are one.
TEN = [(33, 36), (36, 33), (66, 18), (51, 17), (34, 34, 33), (33, 34, 34), (65, 20, 18)]
TEN += [(34, 34, 17, 17), (17, 17, 34, 34), (33, 18, 33, 20), (65, 19, 33, 17)]
ELEVEN = [(36, 49), (49, 36), (66, 19), (19, 66), (34, 34, 49), (49, 34, 34), (65, 20, 49)]
ELEVEN += [(34, 34, 33, 17), (17, 33, 34, 34), (33, 18, 49, 20), (65, 19, 49, 17)]
for samplings in TEN + [(68,)]:
    vector(f"samplings {samplings}: 10 blocks at most", sampled(*samplings), 0)
for samplings in ELEVEN + [(68, 68, 68, 68), (68, 17)]:
    vector(f"samplings {samplings}: 11 blocks or more", sampled(*samplings), UNSUPPORTED)
# The largest factors may stand in different channels; the record has the blocks.
for samplings, blocks in (((17, 17), 3 * 5 * 2), ((65, 20), 1 * 2 * 8), ((20, 65), 1 * 2 * 8), ((17, 65, 20), 1 * 2 * 9), ((33, 18, 17), 2 * 3 * 5),
                          ((17, 49, 17, 19), 1 * 2 * 8)):
    vector(f"samplings {samplings}: {blocks} blocks", sampled(*samplings), 0)
    records.append((len(vectors) - 1, {"blocks": blocks}))

# Sizes: the largest pictures, and sides around an MCU.
big = sof(65535, 65535, [(i, 17, 0) for i in (1, 2, 3)])
vector("65535 x 65535, 1 x 1", ycc_with(big), 0)
records.append((len(vectors) - 1, {"blocks": 201326592, "work": 644244701187}))
vector("65535 x 65535, four channels", four_with(sof(65535, 65535, [(i, 17, 0) for i in (1, 2, 3, 4)])), 0)
records.append((len(vectors) - 1, {"blocks": 268435456, "work": 858992934916}))
vector("65535 x 65535, two channels", four_with(sof(65535, 65535, [(1, 17, 0), (2, 17, 0)]), sos(FOUR_CHOSEN[:2])), 0)
vector("65535 x 65535, one channel", grey_with(frame=sof(65535, 65535, GREY)), 0)
for sampling in (65, 20, 34, 49, 19):
    vector(f"65535 x 65535, sampling {sampling}", ycc_with(sof(65535, 65535, [(1, sampling, 0), (2, 17, 1), (3, 17, 1)])), 0)
for width, height in ((1, 1), (8, 8), (9, 8), (8, 9), (16, 17), (65535, 1), (1, 65535), (255, 256)):
    vector(f"{width} x {height}", grey_with(frame=sof(width, height, GREY)), 0)
    vector(f"{width} x {height}, 2 x 1", ycc_with(sof(width, height, [(1, 33, 0), (2, 17, 1), (3, 17, 1)])), 0)
    vector(f"{width} x {height}, four channels", four_with(sof(width, height, FOUR)), 0)

# The restart interval: body 2, else 4; before or after the frame; the last one counts, also back to 0.
for length in (0, 1, 3, 4):
    vector(f"interval: a body of {length}", grey_with(before=segment(221, b"\x00" * length)), MALFORMED)
for interval in (0, 1, 255, 256, 65535):
    vector(f"interval {interval} before the frame", grey_with(before=dri(interval)), 0)
    vector(f"interval {interval} after the frame", grey_with(after=dri(interval)), 0)
vector("intervals 5, 7", grey_with(before=dri(5), after=dri(7)), 0)
vector("intervals 7, 5", grey_with(before=dri(7) + dri(5)), 0)
vector("intervals 5, 0", grey_with(before=dri(5), after=dri(0)), 0)
vector("intervals 0, 5", grey_with(before=dri(0), after=dri(5)), 0)
vector("intervals 5, 7, 5 around the frame", grey_with(before=dri(5), after=dri(7) + dri(5)), 0)
vector("a good interval, then a bad one", grey_with(before=dri(5), after=segment(221, b"\x00")), MALFORMED)

# The scan. No frame: 4; length, count, last three bytes: 5; component ids: 4; table ids: 5; an absent table: 4.
vector("scan: no frame", grey(Q0, DC0, AC0, GREY_SCAN), MALFORMED)
vector("scan: first of all", grey(GREY_SCAN), MALFORMED)
vector("scan: no frame before the length", grey(Q0, DC0, AC0, segment(218, b"")), MALFORMED)
vector("scan: no frame before the table ids", grey(Q0, DC0, AC0, sos([(1, 255)])), MALFORMED)
for length in (0, 1, 5):
    vector(f"scan: a body of {length}", grey_with(scan=segment(218, scan_body([(1, 0)])[:length])), UNSUPPORTED)
vector("scan: one byte too many", grey_with(scan=segment(218, scan_body([(1, 0)]) + b"\x00")), UNSUPPORTED)
vector("scan: one channel, a scan of three", grey_with(scan=YCC_SCAN), UNSUPPORTED)
vector("scan: three channels, a scan of one", ycc_with(scan=GREY_SCAN), UNSUPPORTED)
for count in (0, 2, 3, 255):
    vector(f"scan: counts {count}", grey_with(scan=sos([(1, 0)], channels=count)), UNSUPPORTED)
for last in ((1, 63, 0), (0, 62, 0), (0, 64, 0), (0, 63, 1), (0, 63, 16), (63, 0, 0), (0, 0, 63)):
    vector(f"scan: last three {last}", grey_with(scan=sos([(1, 0)], last=last)), UNSUPPORTED)
    vector(f"scan: last three {last}, three channels", ycc_with(scan=sos([(1, 0), (2, 17), (3, 17)], last=last)), UNSUPPORTED)
for count in (1, 2, 3):
    vector(f"scan: four channels, a scan of {count}", four_with(scan=sos(FOUR_CHOSEN[:count])), UNSUPPORTED)
    vector(f"scan: {count} channels, a scan of four", four_with(scan=sos(FOUR_CHOSEN), channels=count), UNSUPPORTED)
vector("scan: four channels, five components", four_with(scan=sos(FOUR_CHOSEN + [(5, 0)])), UNSUPPORTED)
for name in (0, 2, 255):
    vector(f"scan: component {name}", grey_with(scan=sos([(name, 0)])), MALFORMED)
for order in ((1, 3, 2), (2, 1, 3), (3, 2, 1), (1, 2, 2), (1, 2, 4), (1, 1, 1)):
    vector(f"scan: components {order}", ycc_with(scan=sos([(i, 0) for i in order])), MALFORMED)
for tables in (64, 4, 68, 240, 15, 255):
    vector(f"scan: table ids {tables}", grey_with(scan=sos([(1, tables)])), UNSUPPORTED)
for channel in range(3):
    for tables in (4, 64):
        chosen = [(1, 0), (2, 17), (3, 17)]
        chosen[channel] = (channel + 1, tables)
        vector(f"scan: table ids {tables} in channel {channel}", ycc_with(scan=sos(chosen)), UNSUPPORTED)
for order in ((2, 1, 3, 4), (1, 3, 2, 4), (1, 2, 4, 3), (4, 3, 2, 1), (1, 2, 3, 3), (1, 2, 3, 5)):
    vector(f"scan: components {order}", four_with(scan=sos([(i, 0) for i in order])), MALFORMED)
vector("scan: components (2, 1)", four_with(scan=sos([(2, 0), (1, 0)]), channels=2), MALFORMED)
for channel in range(4):
    for tables in (4, 64):
        chosen = list(FOUR_CHOSEN)
        chosen[channel] = (channel + 1, tables)
        vector(f"scan: table ids {tables} in channel {channel} of four", four_with(scan=sos(chosen)), UNSUPPORTED)
vector("scan: DC absent", grey(Q0, GREY_FRAME, AC0, GREY_SCAN), MALFORMED)
vector("scan: AC absent", grey(Q0, GREY_FRAME, DC0, GREY_SCAN), MALFORMED)
vector("scan: quantizer absent", grey(GREY_FRAME, DC0, AC0, GREY_SCAN), MALFORMED)
vector("scan: DC in another place", grey_with(scan=sos([(1, 16)])), MALFORMED)
vector("scan: AC in another place", grey_with(scan=sos([(1, 1)])), MALFORMED)
vector("scan: quantizer in another place", grey_with(frame=sof(8, 8, [(1, 17, 1)])), MALFORMED)
for channel in range(3):
    for tables in (33, 18, 2, 32):
        chosen = [(1, 0), (2, 17), (3, 17)]
        chosen[channel] = (channel + 1, tables)
        vector(f"scan: tables {tables} absent in channel {channel}", ycc_with(scan=sos(chosen)), MALFORMED)
    components = [list(c) for c in YCC]
    components[channel][2] = 2
    vector(f"scan: quantizer absent in channel {channel}", ycc_with(frame=sof(20, 10, components)), MALFORMED)
# four channels and tables 0 and 1 alone: 2 and 3 are absent
TWO_TABLES = dqt((0, ONES), (1, ONES)) + dht(table(0), table(16), table(1), table(17))
for channel in range(4):
    for tables, quant in ((32, 0), (2, 0), (48, 1), (3, 1), (0, 2), (17, 3)):
        components = [(i + 1, 17, quant if i == channel else 0) for i in range(4)]
        chosen = [(i + 1, tables if i == channel else 16 * (i % 2)) for i in range(4)]
        vector(f"scan: {tables} and quantizer {quant} in channel {channel} of four: absent", grey(TWO_TABLES, sof(8, 8, components), sos(chosen)), MALFORMED)
vector("scan: four channels with the tables of two", grey(TWO_TABLES, sof(8, 8, [(i, 17, i % 2) for i in range(4)]), sos([(i, 17 * (i % 2)) for i in range(4)])), 0)
vector("scan: length before component ids", grey_with(scan=segment(218, scan_body([(9, 0)]) + b"\x00")), UNSUPPORTED)
vector("scan: count before component ids", grey_with(scan=sos([(9, 0)], channels=2)), UNSUPPORTED)
vector("scan: last three before component ids", grey_with(scan=sos([(9, 0)], last=(0, 63, 1))), UNSUPPORTED)
vector("scan: component ids before table ids", grey_with(scan=sos([(9, 255)])), MALFORMED)
vector("scan: the third component before the first table", ycc_with(scan=sos([(1, 255), (2, 17), (9, 17)])), MALFORMED)
vector("scan: component ids before an absent table", grey(Q0, GREY_FRAME, DC0, sos([(9, 0)])), MALFORMED)
vector("scan: table ids before an absent table", grey(Q0, GREY_FRAME, sos([(1, 64)])), UNSUPPORTED)
vector("scan: the third table id before the first table", ycc_with(scan=sos([(1, 34), (2, 17), (3, 4)])), UNSUPPORTED)
vector("scan: last three before an absent table", grey(Q0, GREY_FRAME, sos([(1, 0)], last=(0, 63, 1))), UNSUPPORTED)
vector("scan: ends with the file", F[:138], 0)
vector("three channels, the coded bytes left out", COLOURS[:245], 0)


# ---- the two files


def whole(base, patches, length):
    return changed(base, *patches)[:length]


def answer(file, colour):
    try:
        return 0, numbers(read_header(file, colour))
    except Refused as refused:
        return refused.number, []


def lines():
    found = []
    for index, (name, base, patches, length, colour, number) in enumerate(vectors):
        got, fields = answer(whole(base, patches, length), colour)
        if got != number:
            sys.exit(f"{name}: {number} is written down, the rules read once more give {got}")
        found.append([index, number] + fields)
    for index, record in records:
        if isinstance(record, dict):
            got = read_header(whole(*vectors[index][1:4]), vectors[index][4])
            same = all(got[key] == value for key, value in record.items())
        else:
            same = found[index][2:] == record
        if not same:
            sys.exit(f"{vectors[index][0]}: the record written down is not {found[index][2:]}")
    return "".join(" ".join(map(str, line)) + "\n" for line in found)


def parts(file):
    """A file as parts: what it shares with F, the three-channel or the four-channel file at both ends, and what it has between."""
    best = [file]
    for base in (F, COLOURS, FOURS):
        head = 0
        while head < min(len(file), len(base)) and file[head] == base[head]:
            head += 1
        tail = 0
        while tail < min(len(file), len(base)) - head and file[-1 - tail] == base[-1 - tail]:
            tail += 1
        split = [file[:head], file[head : len(file) - tail], file[len(file) - tail :]]
        if len(split[1]) < len(max(best, key=len) if len(best) == 1 else best[1]):
            best = split
    return [part for part in best if part]


def script():
    store, entries = bytearray(2) + F + COLOURS + FOURS, bytearray()
    for name, base, patches, length, colour, number in vectors:
        pieces = parts(base[:length])
        entries.append(len(pieces))
        for piece in pieces:
            if store.find(piece, 2) < 0:
                store += piece
            entries += store.index(piece, 2).to_bytes(2, "big") + len(piece).to_bytes(2, "big")
        entries += bytes([colour, len(patches)])
        for place, value in patches:
            entries += place.to_bytes(2, "big") + bytes([value])
    store[:2] = len(store).to_bytes(2, "big")
    assert len(store + entries) <= 65536 and max(length for _, _, _, length, _, _ in vectors) <= 1024
    return bytes(store + entries)


def main(words):
    wanted = {"stdin": script(), "stdout": lines().encode()}
    if words == ["--list"]:
        for index, (name, base, patches, length, colour, number) in enumerate(vectors):
            print(index, number, length, name)
    elif words == ["--check"]:
        stale = [name for name, text in wanted.items() if (FOLDER / name).read_bytes() != text]
        if stale:
            sys.exit(f"header vectors: {', '.join(stale)} differ")
        print(f"header vectors: {len(vectors)}, both files as they must be")
    else:
        for name, text in wanted.items():
            (FOLDER / name).write_bytes(text)
        print(f"header vectors: {len(vectors)} written")


main(sys.argv[1:])
