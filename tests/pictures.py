"""Pictures for the tests of the command: the samples of a file by the library's Python module, readers of PNG, PPM and PGM that know
nothing of the command, and large files that are made quickly.
"""
import functools
import itertools
import os
import random
import struct
import sys
import zlib
from typing import NamedTuple

ROOT = os.path.dirname(os.path.dirname(os.path.abspath(__file__)))
sys.dont_write_bytecode = True
sys.path[:0] = [os.path.join(ROOT, "tests"), os.path.join(ROOT, "tests", "c"), os.path.join(ROOT, "bindings", "python")]
import files  # noqa: E402
import unsettled  # noqa: E402
from files import Off  # noqa: E402


class Picture(NamedTuple):
    """What must be the same whichever way a file is read."""

    width: int
    height: int
    channels: int
    samples: bytes


def hold_same(name, seen, wanted):
    if seen[:3] != wanted[:3]:
        raise Off(f"{name}: width, height and channels are {seen[:3]}, and not {wanted[:3]}")
    if seen.samples == wanted.samples:
        return
    at = next(i for i, (a, b) in enumerate(zip(seen.samples, wanted.samples)) if a != b)
    raise Off(f"{name}: sample {at} is {seen.samples[at]}, and not {wanted.samples[at]}")


# ---- by the library

@functools.lru_cache(maxsize=None)
def library():
    """The Python module over the shared library, which is built first where no other is named."""
    if "TILLSPARROW_LIBRARY" not in os.environ:
        files.build_library()
    import tillsparrow  # pylint: disable=import-outside-toplevel
    return tillsparrow


@functools.lru_cache(maxsize=100)
def samples_of(jpeg, colour=True):
    record = library().inspect(jpeg, colour).record
    return Picture(record.width, record.height, record.channels, bytes(library().decode(jpeg, record).output))


def shown(picture):
    """The picture as it is written and shown: of two and four channels each in grey, beside the one before it."""
    if picture.channels in (1, 3):
        return picture
    laid = files.side_by_side(picture.samples, picture.width, picture.channels)
    return Picture(picture.width * picture.channels, picture.height, 1, laid)


def refusal_of(jpeg):
    """The refusal of the file, or None."""
    try:
        library().inspect(jpeg)
    except library().Refused as refused:
        return refused
    return None


def number_of(jpeg):
    """The number of the file's refusal, or 0."""
    refused = refusal_of(jpeg)
    return refused.number if refused else 0


# ---- by readers of our own

def from_pnm(data, name):
    kind, width, height, samples = files.parse(data, name)
    return Picture(width, height, 3 if kind == b"P6" else 1, samples)


# what a reader of PNG may take as a reason to show other colours than the samples say
COLOURING = {b"gAMA", b"cHRM", b"iCCP", b"sRGB", b"sBIT", b"cICP", b"PLTE", b"tRNS", b"bKGD"}


def chunks_of(data, name):
    """The kind and the body of each chunk, whose checksums are tested."""
    if data[:8] != b"\x89PNG\r\n\x1a\n":
        raise Off(f"{name}: not a PNG file: {data[:20]!r}")
    at = 8
    while at < len(data):
        length, kind = struct.unpack_from(">I4s", data, at)
        body = data[at + 8:at + 8 + length]
        if data[at + 8 + length:at + 12 + length] != struct.pack(">I", zlib.crc32(kind + body)):
            raise Off(f"{name}: the chunk {kind} is cut or has a wrong checksum")
        yield kind, body
        at += 12 + length


def added(one, other):
    """The sums of two rows, byte by byte, in one go: the upper bit of each byte is added by itself."""
    low, high = (int.from_bytes(bytes([v]) * len(one), "big") for v in (0x7F, 0x80))
    a, b = int.from_bytes(one, "big"), int.from_bytes(other, "big")
    return bytearray((((a & low) + (b & low)) ^ ((a ^ b) & high)).to_bytes(len(one), "big"))


def from_left(row, step):
    for c in range(step):
        row[c::step] = bytes(v & 255 for v in itertools.accumulate(row[c::step]))
    return row


def by_mean(row, above, step):
    for i, up in enumerate(above):
        row[i] = row[i] + ((row[i - step] if i >= step else 0) + up) // 2 & 255
    return row


def by_nearest(row, above, step):
    """The neighbour, left, above or above left, that is nearest to left + above - above left."""
    for i, up in enumerate(above):
        left, corner = (row[i - step], above[i - step]) if i >= step else (0, 0)
        to_left, to_up, to_corner = abs(up - corner), abs(left - corner), abs(left + up - 2 * corner)
        near = left if to_left <= to_up and to_left <= to_corner else up if to_up <= to_corner else corner
        row[i] = row[i] + near & 255
    return row


def unfiltered(kind, row, above, step, name):
    if kind > 4:
        raise Off(f"{name}: a row has the filter {kind}")
    undo = (lambda: row, lambda: from_left(row, step), lambda: added(row, above), lambda: by_mean(row, above, step),
            lambda: by_nearest(row, above, step))
    return undo[kind]()


def from_png(data, name):
    """A PNG of 8 bits, grey or red, green and blue, that says nothing of colours but the samples."""
    chunks = list(chunks_of(data, name))
    kinds = [kind for kind, _ in chunks]
    if kinds[0] != b"IHDR" or kinds[-1] != b"IEND" or COLOURING & set(kinds):
        raise Off(f"{name}: a PNG of the chunks {sorted(set(kinds))}")
    width, height, depth, colour, *rest = struct.unpack(">IIBBBBB", chunks[0][1])
    if depth != 8 or colour not in (0, 2) or rest != [0, 0, 0]:
        raise Off(f"{name}: a PNG of depth {depth}, colour {colour} and {rest}")
    step = 3 if colour else 1
    packed = zlib.decompress(b"".join(body for kind, body in chunks if kind == b"IDAT"))
    across = width * step
    if len(packed) != height * (across + 1):
        raise Off(f"{name}: a PNG of {len(packed)} bytes for {width} x {height}")
    above, samples = bytearray(across), bytearray()
    for at in range(0, len(packed), across + 1):
        above = unfiltered(packed[at], bytearray(packed[at + 1:at + 1 + across]), above, step, name)
        samples += above
    return Picture(width, height, step, bytes(samples))


def from_any(data, name):
    return from_png(data, name) if data[:1] == b"\x89" else from_pnm(data, name)


# ---- large files

def tile(picture, count, source):
    """The bytes of so many MCUs that end with a whole byte and with the levels that they began from, so that they may be repeated."""
    order = picture.per_mcu()
    while True:
        coder, prediction = unsettled.Coder(unsettled.plain), [0] * picture.channels
        for mcu, c in itertools.product(range(count), order):
            levels = unsettled.block(source, (0, 1, 5))
            levels[0] = 0 if mcu == count - 1 else levels[0] // 3
            coder.block(*picture.tables[0], prediction[c], levels)
            prediction[c] = levels[0]
        if coder.writer.count == 0:
            return bytes(coder.writer.bytes)


@functools.lru_cache(maxsize=None)
def large(width, height, channels=3):
    """A picture of that size, whose sides are multiples of 80, with ten MCUs over and over."""
    source = random.Random(width * height)
    picture = unsettled.Picture(width, height, (1, 1), channels, 0, [unsettled.tables(source)], [])
    return picture.head() + tile(picture, 10, source) * (width * height // 640) + b"\xff\xd9"
