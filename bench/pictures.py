"""The pictures that are timed: photographs of the distribution at 1280 x 960, one of them in several samplings and as four channels, a
noisy picture from a fixed seed, and one photograph cut and laid out as tiles for pictures of 1, 4, 16 and 64 times the blocks."""
import os
import random
import subprocess

NATURE = "/usr/share/backgrounds/mate/nature"
NAMES = ["Storm", "Aqua", "FreshFlower", "Garden", "TwoWings", "Wood", "YellowFlower", "LadyBird", "Blinds", "RainDrops",
         "GreenMeadow", "Dune"]
WIDTH, HEIGHT = 1280, 960
TILE = (320, 240)
ONE = "Blinds"


def run(command, data=b""):
    return subprocess.run(command, input=data, stdout=subprocess.PIPE, check=True).stdout


def encode(place, name, pnm, options):
    path = os.path.join(place, name + ".jpg")
    with open(path, "wb") as out:
        out.write(run(["cjpeg", "-quality", "85", *options], pnm))
    return path


def encode_four(place, coder, name, pnm):
    """As four channels, by bench/four.c."""
    path = os.path.join(place, name + ".jpg")
    with open(path, "wb") as out:
        out.write(run([coder], pnm))
    return path


def photograph(scaler, name):
    """The photograph as PPM, 1280 x 960."""
    return run([scaler, f"{NATURE}/{name}.jpg", "-resize", f"{WIDTH}x{HEIGHT}!", "-depth", "8", "ppm:-"])


def noisy():
    """Gradients under noise that differs from pixel to pixel."""
    source = random.Random(7)
    noise = source.randbytes(3 * WIDTH * HEIGHT)
    body = bytearray(len(noise))
    for y in range(HEIGHT):
        base = 3 * WIDTH * y
        for x in range(WIDTH):
            at = base + 3 * x
            body[at] = (x * 191 // WIDTH) + (noise[at] >> 2)
            body[at + 1] = (y * 191 // HEIGHT) + (noise[at + 1] >> 2)
            body[at + 2] = ((x + y) * 191 // (WIDTH + HEIGHT)) + (noise[at + 2] >> 2)
    return header(WIDTH, HEIGHT) + bytes(body)


def header(width, height):
    return b"P6\n%d %d\n255\n" % (width, height)


def tiled(pnm, times):
    """The photograph's middle, 320 x 240, times x times."""
    body = pnm[len(header(WIDTH, HEIGHT)):]
    width, height = TILE
    rows = []
    for y in range(height):
        start = 3 * (WIDTH * (y + (HEIGHT - height) // 2) + (WIDTH - width) // 2)
        rows.append(body[start:start + 3 * width] * times)
    return header(width * times, height * times) + b"".join(rows) * times


# the same blocks and the same bytes of picture: drawn in the way that most files take, and in the one that takes any factors
WAYS = {"2x1, chroma 1x1": "2x1,1x1,1x1", "1x1, chroma 2x1 and 1x1": "1x1,2x1,1x1"}


def make(place, scaler, coder, brief):
    """Paths by class: twelve photographs (one in brief) 4:2:0, and one of them 4:4:4, grey, 4:4:0, with a luma of 2x2 beside a chroma of
    1x2, and as four channels; the noisy one; then the growing ones, and one photograph for each way of drawing."""
    names = NAMES if not brief else [ONE]
    photographs = {name: photograph(scaler, name) for name in names}
    one = photographs[ONE]
    classes = {"4:2:0": [encode(place, name, pnm, ["-sample", "2x2"]) for name, pnm in photographs.items()]}
    classes["4:4:4"] = [encode(place, ONE + "-444", one, ["-sample", "1x1"])]
    classes["grey"] = [encode(place, ONE + "-grey", one, ["-grayscale"])]
    classes["4:4:0"] = [encode(place, ONE + "-440", one, ["-sample", "1x2"])]
    classes["2x2, chroma 1x2"] = [encode(place, ONE + "-22-12", one, ["-sample", "2x2,1x2,1x2"])]
    classes["four channels"] = [encode_four(place, coder, ONE + "-four", one)]
    classes["noisy 4:2:0"] = [encode(place, "noisy", noisy(), ["-sample", "2x2"])]
    growing = [encode(place, f"growth-{times * times:02}", tiled(one, times), ["-sample", "2x2"]) for times in (1, 2, 4, 8)]
    ways = {way: encode(place, "way-" + sampling.replace(",", "-"), one, ["-sample", sampling]) for way, sampling in WAYS.items()}
    return classes, growing, ways
