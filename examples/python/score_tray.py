# %% [markdown]
# # Scores a tray of grains
#
# Reads a photograph of a seed tray through Tillsparrow, takes the mean of red, green and blue in each well, and writes them as a table
# (`tray-scored.csv`) and as a picture (`tray-scored.png`), both named after the photograph. It runs from top to bottom as a script, and cell
# by cell in a notebook:
#
#     python3 examples/python/score_tray.py                                       # docs/tray.jpg, 6 x 6 wells, into target/scored
#     python3 examples/python/score_tray.py my.jpg --rows 8 --columns 12 --out scores
#
# Needed: the module (`pip install ./bindings/python`), numpy and matplotlib.

# %% What is scored
import argparse
import csv
import sys
from pathlib import Path

import tillsparrow

HERE = Path(__file__).resolve().parent if "__file__" in globals() else Path.cwd()
TRAY = HERE.parent.parent / "docs" / "tray.jpg"
IN_NOTEBOOK = "ipykernel" in sys.modules


def whole(text):
    number = int(text)
    if number < 1:
        raise argparse.ArgumentTypeError("must be 1 or more")
    return number


parser = argparse.ArgumentParser(description="Scores a tray of grains: the mean of red, green and blue in each well.")
parser.add_argument("input", nargs="?", default=TRAY, help="the photograph (docs/tray.jpg)")
parser.add_argument("--rows", type=whole, default=6, help="rows of wells (6)")
parser.add_argument("--columns", type=whole, default=6, help="columns of wells (6)")
parser.add_argument("--out", type=Path, default=Path("target/scored"), help="the folder for the table and the picture (target/scored)")
chosen = parser.parse_args([] if IN_NOTEBOOK else None)

# %% Read the photograph
# The samples are those of the proved library: whole numbers from 0 to 255, one or three for each pixel. Two and four channels have no
# colours that could be named, so they are not scored.
try:
    picture = tillsparrow.read(chosen.input)
except OSError as error:
    sys.exit(f"score_tray: {chosen.input}: {error}")
except tillsparrow.Refused as refused:
    sys.exit(f"score_tray: {refused}")
if picture.channels not in (1, 3):
    sys.exit(f"score_tray: {chosen.input}: {picture.channels} channels, which are not converted to colours; score a grey or a colour photograph")
NAMES = ("red", "green", "blue") if picture.channels == 3 else ("grey",)
pixels = picture.array().reshape(picture.height, picture.width, picture.channels)
if picture.height < chosen.rows or picture.width < chosen.columns:
    sys.exit(f"score_tray: {picture.width} x {picture.height} pixels have no room for {chosen.columns} x {chosen.rows} wells")


# %% Score each well
# The tray is cut into equal cells. A well is its cell without the outer sixth at each side, where the tray itself is seen. Sums and counts
# are whole and exact; a mean is the nearest whole number, and the upper one of two that are equally near.
def span(index, parts, length):
    """The first pixel of a well along one side of the photograph, and the one behind its last."""
    first, last = index * length // parts, (index + 1) * length // parts
    trimmed = (last - first) // 6
    return first + trimmed, last - trimmed


def score(row, column):
    (top, bottom), (left, right) = span(row, chosen.rows, picture.height), span(column, chosen.columns, picture.width)
    well = pixels[top:bottom, left:right]
    count = (bottom - top) * (right - left)
    sums = [int(total) for total in well.sum(axis=(0, 1), dtype="uint64")]
    return {"row": row + 1, "column": column + 1, "pixels": count,
            **{f"sum of {name}": total for name, total in zip(NAMES, sums)},
            **{f"mean of {name}": (2 * total + count) // (2 * count) for name, total in zip(NAMES, sums)}}


scores = [score(row, column) for row in range(chosen.rows) for column in range(chosen.columns)]

# %% Write the table
chosen.out.mkdir(parents=True, exist_ok=True)
table = chosen.out / f"{Path(chosen.input).stem}-scored.csv"
with open(table, "w", newline="", encoding="utf-8") as file:
    writer = csv.DictWriter(file, scores[0].keys(), lineterminator="\n")
    writer.writeheader()
    writer.writerows(scores)
print(f"{table}: {len(scores)} wells")

# %% Draw the picture
# On the left the tray with what was scored, on the right the means of each channel.
import matplotlib  # noqa: E402: what comes before needs none of it

if not IN_NOTEBOOK:
    matplotlib.use("Agg")
from matplotlib import pyplot  # noqa: E402
from matplotlib.patches import Rectangle  # noqa: E402


def draw_tray(axes):
    axes.imshow(picture.array(), cmap="gray", vmin=0, vmax=255, interpolation="nearest")
    for row in range(chosen.rows):
        for column in range(chosen.columns):
            (top, bottom), (left, right) = span(row, chosen.rows, picture.height), span(column, chosen.columns, picture.width)
            place = (left - 0.5, top - 0.5)
            axes.add_patch(Rectangle(place, right - left, bottom - top, fill=False, edgecolor="white", linewidth=1))
    axes.set_title(Path(chosen.input).name)
    axes.set_xticks([(column + 0.5) * picture.width / chosen.columns - 0.5 for column in range(chosen.columns)])
    axes.set_yticks([(row + 0.5) * picture.height / chosen.rows - 0.5 for row in range(chosen.rows)])


def draw_means(axes, name, colours):
    means = [[scores[row * chosen.columns + column][f"mean of {name}"] for column in range(chosen.columns)] for row in range(chosen.rows)]
    least, most = min(map(min, means)), max(map(max, means))
    axes.imshow(means, cmap=colours, aspect=picture.height * chosen.columns / (picture.width * chosen.rows))
    for row, line in enumerate(means):
        for column, mean in enumerate(line):
            dark = 2 * mean > least + most
            axes.text(column, row, mean, ha="center", va="center", color="white" if dark else "black")
    axes.set_title(f"mean of {name}")
    axes.set_xticks(range(chosen.columns))
    axes.set_yticks(range(chosen.rows))


COLOURS = {"red": "Reds", "green": "Greens", "blue": "Blues", "grey": "Greys"}
figure, panels = pyplot.subplots(1, 1 + len(NAMES), figsize=(3.2 * (1 + len(NAMES)), 3.7), layout="constrained")
draw_tray(panels[0])
for axes, name in zip(panels[1:], NAMES):
    draw_means(axes, name, COLOURS[name])
for axes in panels:
    axes.set_xticklabels(range(1, chosen.columns + 1))
    axes.set_yticklabels(range(1, chosen.rows + 1))
    axes.set_xlabel("column")
    axes.tick_params(length=0)
panels[0].set_ylabel("row")
drawn = table.with_suffix(".png")
figure.savefig(drawn, dpi=100, bbox_inches="tight")
print(drawn)
