"""Files for the tests: pictures painted here, written and read by the distribution's libjpeg-turbo tools, and small ones made by
hand."""
import functools
import random
import re
import subprocess
from pathlib import Path

ROOT = Path(__file__).resolve().parents[3]


def run(command, data):
    return subprocess.run(command, input=data, stdout=subprocess.PIPE, check=True).stdout


def docs_tray():
    return (ROOT / "docs" / "tray.jpg").read_bytes()


# ---- pictures

def gradient(x, y, w, h):
    return (255 * x // w, 255 * y // h, 255 * (x + y) // (w + h))


def noise(x, y, w, h):
    source = random.Random(f"{x} {y}")
    return (source.randrange(256), source.randrange(256), source.randrange(256))


def tray(x, y, w, h):
    """Discs in rows, as seeds lie in a tray."""
    dx, dy = x % 16 - 8, y % 16 - 8
    return (200, 170, 90) if dx * dx + dy * dy < 36 else (60, 90 + x % 7, 50 + y % 5)


def encoded(options, paint, w, h):
    """A file of the encoder."""
    body = bytes(v for y in range(h) for x in range(w) for v in paint(x, y, w, h))
    return run(["cjpeg", *options], b"P6\n%d %d\n255\n" % (w, h) + body)


def by_djpeg(jpeg, options=()):
    """The picture as the other decoder reads it: channels, width, height, samples."""
    kind, sides, most, samples = run(["djpeg", "-dct", "int", "-nosmooth", "-pnm", *options], jpeg).split(b"\n", 3)
    assert most == b"255"
    width, height = (int(side) for side in sides.split())
    return {b"P5": 1, b"P6": 3}[kind], width, height, samples


@functools.lru_cache(maxsize=None)
def accepted():
    """Real files of every form that is read, each with a name."""
    files = [("docs/tray.jpg", docs_tray())]
    forms = (["-grayscale"], ["-sample", "1x1"], ["-sample", "2x1"], ["-sample", "1x2"], ["-sample", "2x2"], ["-sample", "1x4"],
             ["-sample", "2x2,1x2,1x2"], ["-sample", "1x1,2x2,1x2"], ["-sample", "4x2"], ["-grayscale", "-optimize"])
    for paint, w, h in ((gradient, 97, 61), (noise, 64, 48), (tray, 120, 90)):
        for form in forms:
            for extra in (["-quality", "75"], ["-quality", "92", "-restart", "3B"]):
                files.append((f"{paint.__name__} {' '.join(form + extra)}", encoded(form + extra, paint, w, h)))
    for w, h in ((1, 1), (8, 8), (9, 17), (255, 1), (1, 255)):
        files.append((f"gradient {w} x {h}", encoded(["-sample", "2x2"], gradient, w, h)))
    return tuple(files)


def with_comment(jpeg, text):
    """The file with a comment segment as its first one."""
    return jpeg[:2] + b"\xff\xfe" + (len(text) + 2).to_bytes(2, "big") + text + jpeg[2:]


def with_fill(jpeg, start):
    """The file with three fill bytes before each marker behind its first coded byte: before the restarts and before the end."""
    return jpeg[:start] + re.sub(rb"(?=\xff[\xd0-\xd7\xd9])", b"\xff" * 3, jpeg[start:])


# ---- small files made by hand

def segment(code, body):
    return bytes([255, code]) + (len(body) + 2).to_bytes(2, "big") + body


def table(class_and_id, codes):
    """A Huffman segment of one table: codes given as (length, symbol), shortest first."""
    counts = bytes(sum(1 for length, _ in codes if length == each) for each in range(1, 17))
    return segment(196, bytes([class_and_id]) + counts + bytes(symbol for _, symbol in codes))


def small(ac=((1, 0),), scan=b"\x3f", width=8, height=8, samplings=(17,), interval=None, dc=((1, 0),), ids=(1, 2, 3, 4, 5), step=1):
    """A channel for each sampling byte, all with the same tables and the same step in their quantizer. Without arguments a file of 141
    bytes, grey, whose first level is 0 and has the code 0."""
    ids = ids[:len(samplings)]
    frame = bytes([8]) + height.to_bytes(2, "big") + width.to_bytes(2, "big") + bytes([len(ids)])
    frame += b"".join(bytes([i, each, 0]) for i, each in zip(ids, samplings))
    chosen = bytes([len(ids)]) + b"".join(bytes([i, 0]) for i in ids) + b"\x00\x3f\x00"
    head = b"\xff\xd8" + segment(219, b"\x00" + bytes([step] * 64)) + segment(192, frame) + table(0, dc) + table(16, ac)
    head += b"" if interval is None else segment(221, interval.to_bytes(2, "big"))
    return head + segment(218, chosen) + scan + b"\xff\xd9"


# ---- files of any channels, made by hand

#: First levels up to category 10, and behind them in a block levels of up to 2 bits without a zero between them.
DC, AC = tuple((4, category) for category in range(11)), ((2, 0), (2, 1), (2, 2))


class Bits:
    """A scan that is being written: highest bit first, 0 behind every 255."""

    def __init__(self):
        self.scan, self.bits = b"", ""

    def level(self, codes, value):
        """The code of a level's size, and its bits."""
        size = abs(value).bit_length()
        # all codes of a table have one length
        self.bits += format([symbol for _, symbol in codes].index(size), f"0{codes[0][0]}b")
        self.bits += format(value if value >= 0 else value + 2**size - 1, f"0{size}b") if size else ""

    def fill(self):
        """Ones up to the end of the byte."""
        padded = self.bits + "1" * (-len(self.bits) % 8)
        self.scan += bytes(int(padded[at:at + 8], 2) for at in range(0, len(padded), 8)).replace(b"\xff", b"\xff\x00")
        self.bits = ""


def coded(factors, width, height, levels, interval=None):
    """A file with these blocks in its scan: `factors` has across and down for each channel, and a block is its first levels, which go on
    with zeros."""
    written, seen = Bits(), [0] * len(factors)
    order = [channel for channel, (across, down) in enumerate(factors) for _ in range(across * down)]
    for k, block in enumerate(levels):
        mcu, channel = k // len(order), order[k % len(order)]
        if interval and k and k % (interval * len(order)) == 0:
            written.fill()
            written.scan, seen = written.scan + bytes([255, 208 + (mcu // interval - 1) % 8]), [0] * len(factors)
        written.level(DC, block[0] - seen[channel])
        seen[channel] = block[0]
        for value in block[1:]:
            written.level(AC, value)
        written.level(AC, 0)
    written.fill()
    return small(AC, written.scan, width, height, [16 * across + down for across, down in factors], interval, DC, step=8)


def blocks_of(factors, width, height):
    """How many blocks such a picture has."""
    across, down = (8 * max(each) for each in zip(*factors))
    return -(-width // across) * -(-height // down) * sum(a * d for a, d in factors)


def levels_of(factors, width, height):
    """Blocks for such a picture, hardly two of them alike; always the same ones."""
    source = random.Random(f"{factors} {width} {height}")
    return [(source.randrange(-110, 110), *(source.choice((-3, -2, -1, 1, 2, 3)) for _ in range(source.randrange(6))))
            for _ in range(blocks_of(factors, width, height))]


def several(factors, width, height, interval=None):
    """A file of these sides and factors."""
    return coded(factors, width, height, levels_of(factors, width, height), interval)
