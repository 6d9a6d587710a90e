"""The files that the tests for C run on, made here by libjpeg-turbo's tools and by hand; and the tools themselves."""
import os
import subprocess
import sys
from typing import NamedTuple

ROOT = os.path.dirname(os.path.dirname(os.path.dirname(os.path.abspath(__file__))))
sys.dont_write_bytecode = True
sys.path.insert(0, os.path.join(ROOT, "tests"))
import broken  # noqa: E402
import expected  # noqa: E402
import unsettled  # noqa: E402

# the distribution's packages that these tests use
PACKAGES = ["libjpeg-turbo-progs", "gcc", "g++", "binutils", "pkg-config"]


class Off(Exception):
    """What does not hold, as one line."""


def need(*packages):
    """The distribution's packages, installed where one is absent."""
    if subprocess.run([os.path.join(ROOT, "scripts", "need"), *packages], check=False).returncode:
        raise Off("cannot be run without what could not be installed")


def run(command, data=b"", ok=(0,), env=None):
    done = subprocess.run(command, input=data, stdout=subprocess.PIPE, stderr=subprocess.PIPE, check=False, env=env)
    if done.returncode not in ok:
        how = f"ended with {done.returncode}" if done.returncode >= 0 else f"was stopped by signal {-done.returncode}"
        raise Off(f"{' '.join(command)} {how}: {done.stderr.decode(errors='replace').strip() or 'nothing is said'}")
    return done


def write(folder, name, data):
    path = os.path.join(folder, name)
    with open(path, "wb") as file:
        file.write(data)
    return path


def build_library():
    """Builds target/library where it is not there or older than the sources; what is done is seen on standard error."""
    if subprocess.run([os.path.join(ROOT, "library")], stdin=subprocess.DEVNULL, check=False).returncode:
        raise Off("./library did not build target/library")
    return os.path.join(ROOT, "target", "library")


# ---- pictures

def tray(x, y):
    """Discs in rows, as seeds lie in a tray, no two alike."""
    dx, dy = x % 16 - 8, y % 16 - 8
    seed = (200 - x % 50, 170 - y % 40, 90 + (x // 16 * 7 + y // 16 * 13) % 60)
    return seed if dx * dx + dy * dy < 36 else (60, 90 + x % 7, 50 + y % 5)


def pixmap(width, height):
    body = bytes(v for y in range(height) for x in range(width) for v in tray(x, y))
    return b"P6\n%d %d\n255\n" % (width, height) + body


def encode(width, height, *options):
    return run(["cjpeg", *options], pixmap(width, height)).stdout


def djpeg(jpeg):
    return run(["djpeg", "-dct", "int", "-nosmooth", "-pnm"], jpeg).stdout


def parse(pnm, name):
    """Kind, width, height and samples of a PGM or PPM."""
    fields = pnm.split(b"\n", 3)
    if len(fields) != 4 or fields[0] not in (b"P5", b"P6") or fields[2] != b"255":
        raise Off(f"{name}: not a picture: {pnm[:30]!r}")
    width, height = (int(v) for v in fields[1].split())
    if len(fields[3]) != width * height * (1 if fields[0] == b"P5" else 3):
        raise Off(f"{name}: {len(fields[3])} samples for {width} x {height}")
    return fields[0], width, height, fields[3]


def near(name, ours, theirs, most):
    """Samples may differ from djpeg's by as much as this, and fewer than one in five at all."""
    gaps = [abs(a - b) for a, b in zip(ours, theirs)]
    if len(ours) != len(theirs) or max(gaps) > most:
        raise Off(f"{name}: a sample differs from djpeg's by {max(gaps)}")
    if 5 * sum(1 for gap in gaps if gap) >= len(gaps):
        raise Off(f"{name}: one sample in five differs from djpeg's, or more")


def near_djpeg(name, pnm, jpeg):
    """By at most 1 in a grey picture and by at most 3 in a colour one."""
    ours, theirs = parse(pnm, name), parse(djpeg(jpeg), name)
    if ours[:3] != theirs[:3]:
        raise Off(f"{name}: {ours[:3]} here, {theirs[:3]} by djpeg")
    near(name, ours[3], theirs[3], 1 if ours[0] == b"P5" else 3)


def same_as_program(name, jpeg, pnm):
    """Whether ./tillsparrow, which takes 65,536 bytes and samples, was asked; its bytes are the same, and two or four channels it
    refuses."""
    numbers = expected.record(jpeg)
    if len(jpeg) > 65536 or max(numbers[expected.SCRATCH], numbers[expected.OUTPUT]) > 65536:
        return False
    refused = numbers[expected.CHANNELS] in (2, 4)
    done = run([os.path.join(ROOT, "tillsparrow")], jpeg, ok=(1,) if refused else (0,))
    if done.stdout != (b"refused 5\n" if refused else pnm):
        raise Off(f"{name}: ./tillsparrow writes another picture, or one of two or four channels")
    return True


# ---- what djpeg does not show as it is coded: two and four channels, and factors that do not divide each other

def red_green_blue(luma, cb, cr):
    """Of the three sums the nearest whole numbers, from 0 to 255."""
    sums = 91881 * (cr - 128), -22554 * (cb - 128) - 46802 * (cr - 128), 116130 * (cb - 128)
    return [min(max((65536 * luma + each + 32768) // 65536, 0), 255) for each in sums]


def samples_by_djpeg(name, picture):
    """The samples of a picture that was made here, channels interleaved, as they are coded. djpeg decodes each channel alone, as a grey
    picture of its own size; in it a pixel's place times the channel's factor by the largest one is the place of the sample."""
    planes = [parse(djpeg(picture.plane(c).form(unsettled.plain)), name) for c in range(picture.channels)]
    (most_across, most_down), samples = picture.largest(), bytearray()
    for y in range(picture.height):
        rows = [plane[3][y * down // most_down * plane[1]:][:plane[1]] for (_, down), plane in zip(picture.shape, planes)]
        for x in range(picture.width):
            samples += bytes(row[x * across // most_across] for (across, _), row in zip(picture.shape, rows))
    return bytes(samples)


def near_planes(name, samples, picture, colour=True):
    """The samples as decode gives them, in colour where that is chosen and there are three channels."""
    theirs = samples_by_djpeg(name, picture)
    if colour and picture.channels == 3:
        theirs = bytes(v for i in range(0, len(theirs), 3) for v in red_green_blue(*theirs[i:i + 3]))
    near(name, samples, theirs, 3 if colour and picture.channels == 3 else 1)


def side_by_side(samples, width, channels):
    """The samples of a grey picture that has each channel beside the one before it, as the viewer shows two and four of them."""
    across = width * channels
    rows = (samples[at:at + across] for at in range(0, len(samples), across))
    return b"".join(row[c::channels] for row in rows for c in range(channels))


# ---- comments

def segment(marker, body):
    return b"\xff" + bytes([marker]) + (len(body) + 2).to_bytes(2, "big") + body


def with_comment(jpeg, text):
    """As a camera's tool writes it: behind the comments that are there, before the frame."""
    return run(["wrjpgcom", "-comment", text], jpeg).stdout


def with_segment(jpeg, marker, body, before=None):
    """A segment behind the first two bytes, or before the first segment of another marker."""
    at = 2 if before is None else jpeg.index(b"\xff" + bytes([before]))
    return jpeg[:at] + segment(marker, body) + jpeg[at:]


# ---- the files: a name, the file, its comments

def shapes():
    with open(os.path.join(ROOT, "docs", "tray.jpg"), "rb") as file:
        yield "docs/tray.jpg", file.read(), []
    yield "4:2:0", encode(90, 70, "-sample", "2x2"), []
    yield "4:4:4", encode(64, 48, "-sample", "1x1", "-quality", "95", "-optimize"), []
    yield "4:2:2 with restarts", encode(97, 61, "-sample", "2x1", "-restart", "3B"), []
    yield "grey", encode(120, 90, "-grayscale"), []
    yield "grey with restarts", encode(65, 31, "-grayscale", "-restart", "1"), []
    yield "1 x 1", encode(1, 1), []
    yield "large", encode(640, 480, "-sample", "2x2", "-quality", "85"), []
    yield "large grey", encode(500, 400, "-grayscale", "-quality", "90"), []
    yield from ((name, jpeg, []) for name, _, jpeg in filled())


def sampled():
    """Channels with factors of their own, of which the largest is a multiple of each: only then does djpeg show the same samples."""
    for sampling, restart in (("1x2", "1B"), ("2x2,1x2,1x2", "3B"), ("2x2,2x1,1x2", "1"), ("2x2,2x2,1x1", "2B"), ("4x1,2x1,2x1", "2B"),
                              ("1x1,2x2,1x2", "1"), ("1x4,4x1,1x1", "1B"), ("3x2,1x1,3x1", "2B"), ("4x2,1x1,1x1", "1")):
        yield sampling, encode(90, 70, "-sample", sampling), []
        yield f"{sampling} with restarts", encode(61, 83, "-sample", sampling, "-restart", restart, "-optimize"), []
    # a single channel counts as 1 x 1
    yield "grey whose frame says 2 x 2", encode(41, 23, "-grayscale", "-sample", "2x2"), []
    yield "large, chroma 1x2", encode(640, 480, "-sample", "2x2,1x2,1x2", "-quality", "85"), []


class Made(NamedTuple):
    """A picture that was made here, and how its file is called."""

    name: str
    picture: unsettled.Picture

    def jpeg(self):
        return self.picture.form(unsettled.plain)


def several():
    """Pictures of two and four channels, and of three with factors that do not divide each other: djpeg refuses them, or mixes
    other colours of four."""
    shapes = ([(1, 1)] * 2, [(2, 1), (1, 1)], [(1, 2), (2, 1)], [(3, 2), (2, 1)], [(1, 1), (3, 3)], [(2, 3), (1, 4)],
              [(3, 1), (2, 1), (1, 1)], [(1, 3), (1, 2), (2, 1)], [(2, 2), (3, 1), (1, 3)], [(1, 1), (4, 1), (3, 1)],
              [(1, 1)] * 4, [(2, 2), (1, 1), (1, 1), (2, 2)], [(2, 1), (1, 2), (1, 1), (3, 1)], [(1, 1), (1, 1), (1, 1), (2, 3)],
              [(4, 1), (2, 1), (3, 1), (1, 1)], [(1, 4), (1, 2), (1, 3), (1, 1)])
    for seed, shape in enumerate(shapes):
        name = ", ".join(f"{across} x {down}" for across, down in shape)
        yield Made(name, unsettled.soft(seed, 53, 37, *shape))
        yield Made(f"{name}, restarts", unsettled.soft(100 + seed, 70, 45, *shape, interval=1 + seed % 3))
    yield Made("two channels of one pixel", unsettled.soft(7, 1, 1, (2, 1), (1, 2)))
    # every block adds 2047 to what a restart has made 0, in each of four channels
    pair = unsettled.Table({1: [11]}), unsettled.Table({1: [unsettled.END]})
    yield Made("four levels that a restart makes 0", unsettled.Picture(24, 8, [(1, 1)] * 4, 4, 1, [pair], [[2047] + [0] * 63] * 12))


def filled():
    """A name, a file, and the same file with fill bytes in its scan, before restarts and before the end."""
    restarts, grey = encode(70, 90, "-sample", "1x2", "-restart", "2B"), encode(65, 31, "-grayscale")
    yield "fill bytes before each marker", restarts, unsettled.filled(restarts, unsettled.most)
    full = unsettled.to_full_bytes().form(unsettled.plain)
    yield "fill bytes behind a padded 255", full, unsettled.filled(full, unsettled.most)
    yield "100,000 fill bytes", grey, grey[:-2] + b"\xff" * 100_000 + grey[-2:]


def noted():
    plain, grey = encode(64, 64, "-quality", "75"), encode(40, 24, "-grayscale")
    yield "one comment", with_comment(plain, "tray 7, row B"), [b"tray 7, row B"]
    two = with_comment(with_comment(grey, "tray 12, row A\nsown 3 May"), "scored twice")
    yield "two comments, grey", two, [b"tray 12, row A\nsown 3 May", b"scored twice"]
    empty = with_comment(with_segment(plain, 0xFE, b""), "behind an empty one")
    yield "an empty comment", empty, [b"", b"behind an empty one"]
    every = bytes(range(256))
    yield "every byte, before the scan", with_segment(plain, 0xFE, every, before=0xDA), [every]
    longest = bytes(i % 251 for i in range(65533))
    yield "the longest comment", with_segment(plain, 0xFE, longest), [longest]
    # the bytes of a comment inside another segment are none
    hidden = with_segment(with_comment(plain, "seen"), 0xE5, segment(0xFE, b"hidden"))
    yield "a comment's bytes in another segment", hidden, [b"seen"]


def refused():
    """A name, the file, its number, and the block and the place where its scan broke; 0 and 0 where it was not read."""
    plain = encode(64, 64, "-quality", "75")
    yield "cut in the header", plain[:30], 3, 0, 0
    yield "empty", b"", 4, 0, 0
    yield "no JPEG file", b"tray 7, row B\n", 4, 0, 0
    yield "progressive", encode(64, 64, "-progressive"), 5, 0, 0
    yield "arithmetic", encode(64, 64, "-arithmetic"), 5, 0, 0
    for name, jpeg in unsettled.careless():
        yield name, jpeg, 4, 0, 0
    for name, jpeg in unsettled.unread():
        yield name, jpeg, 5, 0, 0
    yield broken.cut("cut in the scan", plain, 40)
    yield broken.with_more("a byte behind the end", plain, b"\0")
    yield from broken.by_hand()
    yield from broken.stray()


def to_be_cut():
    """A name and a file each: every byte of its scan is once the first that is not there."""
    yield "grey with restarts", encode(65, 31, "-grayscale", "-restart", "1")
    yield "4:2:0", encode(90, 70, "-sample", "2x2")
    yield "1 x 1", encode(1, 1)
    yield "luma 2x2 beside chroma 1x2, with restarts", encode(61, 47, "-sample", "2x2,1x2,1x2", "-restart", "1B")
    yield "four channels with restarts", unsettled.soft(3, 40, 24, (2, 1), (1, 2), (1, 1), (2, 1), interval=2).form(unsettled.most)
    yield from ((name, jpeg) for name, _, jpeg in filled() if len(jpeg) < 100_000)


def careful():
    """What the files with a table that is refused for one of its symbols differ from."""
    return unsettled.flat()


def without_end_code():
    return unsettled.without_end_code(False).form(lambda n: n - 1)
