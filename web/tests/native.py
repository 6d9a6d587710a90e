"""What the native library answers, for the page to be held against: target/library, through the module for Python."""
import ctypes
import hashlib
import os
import random
import sys

ROOT = os.path.dirname(os.path.dirname(os.path.dirname(os.path.abspath(__file__))))
os.environ.pop("TILLSPARROW_LIBRARY", None)
sys.dont_write_bytecode = True
sys.path.insert(0, os.path.join(ROOT, "bindings", "python"))
sys.path.insert(0, os.path.join(ROOT, "tests", "c"))
import files  # noqa: E402
import tillsparrow  # noqa: E402
import unsettled  # noqa: E402
from tests.files import several, small  # noqa: E402: those of the module for Python
from tillsparrow._native import library  # noqa: E402

MOST = 2**64 - 1
PATTERN, COMMENTS = b"\xa5", 3
CHANGED = 300
ALL = {"colour": True, "input": MOST, "side": MOST, "output": MOST, "budget": MOST}


def digest(data):
    return hashlib.sha256(data).hexdigest()


def painted(length):
    """A buffer that holds a pattern; a byte more than asked for, so that there is always one to point to."""
    return ctypes.create_string_buffer(PATTERN * (length + 1), length + 1)


def comments(data):
    return [bytes(text) for text in tillsparrow.comments(data)]


def answers(data, asked):
    """All that the five calls answer for one file, by part, as answers.js has it."""
    file, size = ctypes.create_string_buffer(data, len(data) + 1), len(data)
    limits, budget = (asked["input"], asked["side"], asked["output"]), asked["budget"]
    seen = library.tillsparrow_inspect(file, size, asked["colour"], *limits, budget)
    found = seen.found
    output, scratch, settled = painted(found.output), painted(found.scratch), painted(asked["room"])
    drawn = library.tillsparrow_decode(file, size, found, output, found.output, scratch, found.scratch, budget)
    made = library.tillsparrow_settle(file, size, *limits, budget, settled, asked["room"])
    parts = {"inspect": bytes(seen), "decode": bytes(drawn), "picture": output.raw[:-1], "scratch": scratch.raw[:-1],
             "settle": bytes(made), "settled": settled.raw[:-1]}
    told = [library.tillsparrow_has_comment(file, size, i, *limits, budget) for i in range(COMMENTS)]
    for i, presence in enumerate(told):
        parts[f"comment {i}"] = bytes(library.tillsparrow_comment(file, size, i))
        parts[f"has_comment {i}"] = bytes(presence)
    digests = {name: digest(part) for name, part in parts.items()}
    # as the calls of library.js give them, and not as they stand in memory
    digests["fronts"] = "; ".join(f"{each.number} {each.left} {each.block} {each.place}" for each in (seen, made, *told))
    digests["notes"] = "" if seen.number else str(len(comments(data)))
    return seen.number, digests


# ---- the files

def change(data, source):
    """The file with one to three changes: a byte, a bit, a part lost, a part doubled, a cut."""
    data = bytearray(data)
    for _ in range(source.randint(1, 3)):
        at = source.randrange(len(data))
        kind = source.randrange(10)
        if kind < 4:
            data[at] = source.choice((0, 1, 254, 255, source.randrange(256)))
        elif kind < 7:
            data[at] ^= 1 << source.randrange(8)
        elif kind == 7:
            del data[at:at + source.randint(1, 4)]
        elif kind == 8:
            data[at:at] = data[at:at + source.randint(1, 20)]
        else:
            del data[max(1, at):]
    return bytes(data)


def channelled():
    """Files of two, three and four channels with a sampling each: a name and the file each. The encoder makes those of three."""
    yield "chroma of 1 x 2", files.encode(70, 50, "-sample", "2x2,1x2,1x2", "-restart", "2B")
    yield "chroma of 2 x 2", files.encode(70, 50, "-sample", "1x1,2x2,1x2")
    yield "three that do not divide", several(((3, 1), (2, 1), (1, 1)), 70, 50)
    yield "two channels", several(((1, 1), (1, 1)), 45, 37)
    yield "two channels of 4 and 1", several(((4, 1), (1, 4)), 70, 50, 1)
    yield "four channels", several(((1, 1),) * 4, 45, 37)
    yield "four channels, the first and the last finer", several(((2, 2), (1, 1), (1, 1), (2, 2)), 61, 50, 2)


def accepted():
    """Files of every form, with and without notes: a name and the file each."""
    for name, data, *_ in [*files.shapes(), *files.noted(), *channelled()]:
        yield name, data
    yield "a table with no end code", files.without_end_code()
    yield "a settled file that is longer", longer_when_settled()


def whole():
    """These, and files that are refused."""
    yield from accepted()
    for name, data, *_ in files.refused():
        yield name, data


def longer_when_settled():
    return unsettled.without_end_code(True).form(lambda n: n - 1)


def changed():
    """The changed files, always the same. A change near a file's end leaves more of it to be read, so small files are taken, and those
    that are accepted."""
    source = random.Random(23)
    seeds = [(name, data) for name, data in accepted() if len(data) < 12_000]
    for i in range(CHANGED):
        name, data = seeds[i % len(seeds)]
        yield f"{name}, change {i}", change(data, source)


def asked(data, source):
    """Without limits, and with limits and a budget that are about what the file needs."""
    yield {**ALL, "room": 2 * len(data) + 100}
    price = 2 * len(data) + 1
    seen = library.tillsparrow_inspect(ctypes.create_string_buffer(data, len(data) + 1), len(data), True, MOST, MOST, MOST, MOST)
    found, near = seen.found, lambda value: max(0, value + source.choice((-1, 0, 0, 1)))
    yield {"colour": source.random() < 0.5, "input": near(len(data)), "side": near(max(found.width, found.height)),
           "output": near(max(found.output, found.scratch)), "budget": near(price + found.work), "room": near(len(data))}


# ---- pictures

def shown(picture):
    """What is seen of it: grey, or red, green and blue; of two and four channels a grey picture, in whose rows they stand one behind the
    other."""
    if picture.channels in (1, 3):
        return picture
    row = picture.width * picture.channels
    rows = [picture.samples[at:at + row] for at in range(0, len(picture.samples), row)]
    samples = b"".join(each[channel::picture.channels] for each in rows for channel in range(picture.channels))
    return tillsparrow.Picture(row, picture.height, 1, samples)


def rgba(picture):
    """The samples as a canvas has them."""
    picture = shown(picture)
    count, step = picture.width * picture.height, picture.channels
    out = bytearray(b"\xff" * (4 * count))
    for channel in range(3):
        out[channel::4] = picture.samples[channel % step::step]
    return bytes(out)


def values(picture, x, y, channel=0):
    """What the page says of a pixel, pointed at in a channel where several stand side by side."""
    at = (y * picture.width + x) * picture.channels
    samples = picture.samples[at:at + picture.channels]
    if picture.channels in (2, 4):
        return f"x {x}, y {y}, channel {channel + 1}: {samples[channel]}; all channels: {', '.join(map(str, samples))}"
    names = ["grey"] if picture.channels == 1 else ["red", "green", "blue"]
    return f"x {x}, y {y}: " + ", ".join(f"{name} {sample}" for name, sample in zip(names, samples))
