"""The table of bench/run, and docs/SPEED.md around it."""
import datetime
import os
import platform
import re
import statistics
import subprocess
import sys

PROCESSOR = platform.machine()
# the crate's vector code for other processors than x86-64 wants a compiler that is no stable one: there its two builds are the same code
VECTORS = [("crate-vectors", "jpeg-decoder, SSSE3")] if PROCESSOR == "x86_64" else []
OTHERS = [("turbo-vectors", "turbo, SIMD"), ("turbo", "turbo, no SIMD"), *VECTORS, ("crate", "jpeg-decoder, scalar"), ("stb", "stb_image")]
OURS = ["inspect", "decode", "settle"]
TARGETS = [("turbo", 0.45), *((name, 0.8) for name, _ in VECTORS), ("crate", 0.8)]
START, END = f"<!-- made by bench/run on {PROCESSOR}: from here -->", f"<!-- made by bench/run on {PROCESSOR}: to here -->"

TEXT = """# Speed

How fast the calls are, beside decoders that people use, on each kind of processor that they were timed on. `bench/run` measures it all
again and writes the part below that is its processor's; a machine on which nothing else runs gives times that mean something.

Ours is the proved archive as `./library` builds it for that processor (no vector code by hand). `decode` is given the record and both
buffers, and does what its contract says: it reads the whole scan, writes nothing, and then reads it again and writes. `inspect` reads
the scan once. `settle` has a buffer of four times the file. Times of the others are of a whole decoding from the file's bytes to RGB, to
grey, or to four channels as they are coded:

- libjpeg-turbo as the distribution builds it, accurate integer transform, chroma not smoothed: nearest to what ours does. Without
  SIMD is the same library with `JSIMD_FORCENONE=1`.
- jpeg-decoder, the Rust crate, with one worker (its source is changed in that one word); on x86-64 with its SSSE3 code and without, on
  others without, since its code for them wants a compiler that is no stable one.
- stb_image, on x86-64 with its SSE2 code. It and jpeg-decoder smooth chroma, which costs them time and cannot be turned off. Of four
  channels stb_image makes three, so it is not timed on them.

All are in one process and take turns; a time is processor time, the best of all turns, and of that the median over programs in which
the parts are linked in another order and with other padding, since the place of the code alone moves a time by some per cent. Before
anything is timed the pictures are compared: libjpeg-turbo's differ from ours by at most 3 in a colour, and by at most 1 in grey and in
four channels.

A ratio is the other's time by ours: our speed as a part of theirs, so that more is better for us.
"""


def off(text):
    print(f"bench: {text}", file=sys.stderr)
    sys.exit(1)


def median_over(found, which, path, name):
    """Milliseconds: the best of each order, and of those the median."""
    return statistics.median(one[which][path, name][0] for one in found) / 1e6


def spread(values, digits):
    """A value, or the median and the range of several; a dash for none."""
    if not values:
        return "-"
    if len(values) == 1:
        return f"{values[0]:.{digits}f}"
    return f"{statistics.median(values):.{digits}f} ({min(values):.{digits}f} to {max(values):.{digits}f})"


def row(cells):
    return "| " + " | ".join(cells) + " |"


def rule(count):
    return "|---" * count + "|"


def version(command):
    return subprocess.run(command, stdout=subprocess.PIPE, stderr=subprocess.STDOUT, check=False).stdout.decode().splitlines()[0]


def package(name):
    done = subprocess.run(["dpkg-query", "-W", "-f", "${Version}", name], stdout=subprocess.PIPE, stderr=subprocess.DEVNULL, check=False)
    return done.stdout.decode() or "?"


def machine():
    told = subprocess.run(["lscpu"], stdout=subprocess.PIPE, stderr=subprocess.DEVNULL, check=False, env={**os.environ, "LC_ALL": "C"})
    name = re.search(r"Model name:\s*(.*)", told.stdout.decode())
    packages = (("libjpeg-turbo", "libjpeg62-turbo"), ("jpeg-decoder", "librust-jpeg-decoder-dev"), ("stb", "libstb-dev"))
    versions = [f"{label} {package(name)}" for label, name in packages]
    compilers = [version(["gcc", "--version"]), version(["rustc", "--version"])]
    return [f"{name[1] if name else 'unknown processor'} ({PROCESSOR}), one thread; {datetime.date.today().isoformat()}.",
            f"{'; '.join(versions)}. Built by {' and '.join(compilers)}; the archive by the toolchain's own compiler."]


def times(classes, found):
    """By class and decoder the milliseconds of each picture; none where a decoder does not take the class."""
    names = OURS + [name for name, _ in OTHERS]
    return {kind: {name: [median_over(found, 0, path, name) for path in paths if (path, name) in found[0][0]] for name in names}
            for kind, paths in classes.items()}


def kind_label(kind, paths):
    size = [os.path.getsize(path) / 1000 for path in paths]
    label = f"{kind}, {len(paths)} photographs" if len(paths) > 1 else kind
    return f"{label}, {spread(size, 0)} kB"


def time_table(classes, taken):
    lines = ["Milliseconds, 1280 x 960; of several pictures the median, and the least and the most:", "",
             row(["picture", *OURS, *(label for _, label in OTHERS)]), rule(1 + len(OURS) + len(OTHERS))]
    for kind, paths in classes.items():
        lines.append(row([kind_label(kind, paths)] + [spread(taken[kind][name], 2) for name in OURS + [name for name, _ in OTHERS]]))
    return lines


def ratios(taken, kind, name):
    return [theirs / ours for theirs, ours in zip(taken[kind][name], taken[kind]["decode"])]


def ratio_table(classes, taken):
    lines = ["Speed of `decode` as a part of theirs (and settle's time by inspect's):", "",
             row(["picture", *(label for _, label in OTHERS), "settle by inspect"]), rule(2 + len(OTHERS))]
    for kind in classes:
        settle = [a / b for a, b in zip(taken[kind]["settle"], taken[kind]["inspect"])]
        lines.append(row([kind] + [spread(ratios(taken, kind, name), 2) for name, _ in OTHERS] + [spread(settle, 2)]))
    return lines


def target_lines(taken):
    lines = []
    for name, least in TARGETS:
        got = statistics.median(ratios(taken, "4:2:0", name))
        word = "met" if got >= least else "NOT met"
        lines.append(f"- decode at least {least} of {dict(OTHERS)[name]} on the 4:2:0 photographs: {got:.3f}, {word}.")
    return ["What was aimed at:", "", *lines]


def growth_table(growing, found):
    lines = ["Growth: one piece of a photograph, laid out 1, 4, 16 and 64 times, 4:2:0; nanoseconds for each block, and that by the "
             "smallest picture's:", "", row(["blocks", *OURS]), rule(1 + len(OURS))]
    first = {}
    for path in growing:
        blocks = found[0][1][path, "inspect"][1]
        cells = [f"{blocks:,}"]
        for name in OURS:
            each = median_over(found, 1, path, name) * 1e6 / blocks
            first.setdefault(name, each)
            cells.append(f"{each:.1f} ({each / first[name]:.2f})")
        lines.append(row(cells))
    return lines


WAYS = """Ways of drawing: one photograph in two samplings, with the same number of blocks and of bytes of picture. The first is drawn in
the way that most files take (a luma as wide as the MCU, beside two chroma channels of one block across), the second in the one that
takes any factors and one to four channels. Milliseconds; the last column is `decode` without its two readings of the scan, of which
`inspect` is one:"""


def ways_table(ways, found):
    lines = [WAYS, "", row(["sampling", *OURS, "decode less twice inspect"]), rule(2 + len(OURS))]
    for way, path in ways.items():
        taken = {name: median_over(found, 1, path, name) for name in OURS}
        lines.append(row([way, *(f"{taken[name]:.2f}" for name in OURS), f"{taken['decode'] - 2 * taken['inspect']:.2f}"]))
    return lines


def each_table(classes, found):
    lines = ["Nanoseconds of `decode` for each block and for each byte of the picture:", "",
             row(["picture", "for each block", "for each byte"]), rule(3)]
    for kind, paths in classes.items():
        seen = [(median_over(found, 0, path, "decode") * 1e6, *found[0][0][path, "decode"][1:]) for path in paths]
        by_block, by_byte = [time / blocks for time, blocks, _ in seen], [time / output for time, _, output in seen]
        lines.append(row([kind, spread(by_block, 1), spread(by_byte, 2)]))
    return lines


def check(classes, taken):
    """Without SIMD must be slower than with it, else the one was timed twice."""
    for kind in classes:
        if statistics.median(taken[kind]["turbo"]) < 1.05 * statistics.median(taken[kind]["turbo-vectors"]):
            off(f"libjpeg-turbo is as fast without SIMD as with it on {kind}: JSIMD_FORCENONE had no effect")


def table(classes, growing, ways, found, turns, orders, brief):
    taken = times(classes, found)
    if not brief:
        check(classes, taken)  # a few turns beside other work say too little for it
    parts = [machine(), [f"Best of {turns} turns; median over {orders} order{'s' if orders > 1 else ''} of linking."],
             time_table(classes, taken), ratio_table(classes, taken), target_lines(taken), each_table(classes, found),
             ways_table(ways, found), growth_table(growing, found)]
    return "\n\n".join("\n".join(part) for part in parts)


def write(path, text):
    """The page around the parts; this processor's part is made anew, and those of other processors stay."""
    with open(path) as old:
        others = [part for part in re.findall(r"<!-- made by bench/run on .*?: from here -->.*?: to here -->\n", old.read(), re.S)
                  if not part.startswith(START)]
    with open(path, "w") as out:
        out.write("\n".join([TEXT, *others, f"{START}\n\n{text}\n\n{END}\n"]))
