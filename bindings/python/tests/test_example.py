"""The example that scores a tray: its table is what plain Python finds in the samples of the proved program."""
import csv
import importlib.util
import os
import platform
import subprocess
import sys
import tempfile
import unittest
from fractions import Fraction
from math import floor
from pathlib import Path

import tillsparrow

from . import files

EXAMPLE = files.ROOT / "examples" / "python" / "score_tray.py"
MACHINE = {"arm64": "aarch64"}.get(platform.machine(), platform.machine())
#: A PNG file begins so, with its width and height behind.
PNG = b"\x89PNG\r\n\x1a\n\0\0\0\rIHDR"


def scored(*words, out, name="tray"):
    """Runs the example; its exit status, what it said, and the lines of its table."""
    done = subprocess.run([sys.executable, str(EXAMPLE), *map(str, words), "--out", str(out)], cwd=out, check=False,
                          env={**os.environ, "PYTHONPATH": str(files.ROOT / "bindings" / "python")},
                          stdout=subprocess.PIPE, stderr=subprocess.PIPE)
    table = Path(out) / f"{name}-scored.csv"
    lines = list(csv.reader(table.read_text().splitlines())) if table.exists() else []
    return done.returncode, (done.stdout + done.stderr).decode(), lines


def proved_samples(room):
    """docs/tray.jpg as the proved program writes it: the program is linked from dist."""
    program = Path(room) / "tillsparrow"
    subprocess.run([os.environ.get("CC", "cc"), str(files.ROOT / "dist" / MACHINE / "tillsparrow.s"), "-o", str(program)], check=True)
    kind, sides, most, samples = files.run([str(program)], files.docs_tray()).split(b"\n", 3)
    assert (kind, sides, most, len(samples)) == (b"P6", b"144 144", b"255", 3 * 144 * 144)
    return samples


def side_of(path):
    """The width and height of a PNG file."""
    begun = path.read_bytes()[:24]
    assert begun[:16] == PNG
    return int.from_bytes(begun[16:20], "big"), int.from_bytes(begun[20:], "big")


@unittest.skipIf(os.environ.get("TILLSPARROW_HIDE_NUMPY"), "needs numpy")
@unittest.skipUnless(importlib.util.find_spec("matplotlib"), "matplotlib is not installed")
class Scores(unittest.TestCase):
    def setUp(self):
        room = tempfile.TemporaryDirectory()
        self.addCleanup(room.cleanup)
        self.room = Path(room.name)

    def test_the_table_is_that_of_the_proved_program(self):
        samples, wanted = proved_samples(self.room), []
        for row in range(6):
            for column in range(6):
                inside = [(x, y) for y in range(144) for x in range(144)
                          if (y // 24, x // 24) == (row, column) and 4 <= y % 24 < 20 and 4 <= x % 24 < 20]
                sums = [sum(samples[3 * (144 * y + x) + channel] for x, y in inside) for channel in range(3)]
                means = [floor(Fraction(total, len(inside)) + Fraction(1, 2)) for total in sums]
                wanted.append([str(number) for number in (row + 1, column + 1, 256, *sums, *means)])
        status, said, lines = scored(out=self.room)
        self.assertEqual((status, said.count("\n")), (0, 2), said)
        names = ["red", "green", "blue"]
        self.assertEqual(lines[0], ["row", "column", "pixels", *(f"{kind} of {name}" for kind in ("sum", "mean") for name in names)])
        self.assertEqual(lines[1:], wanted)
        self.assertGreater(len({tuple(line[6:]) for line in wanted}), 20)
        width, height = side_of(self.room / "tray-scored.png")
        self.assertTrue(1000 < width < 2000 and 250 < height < 800, (width, height))

    def test_other_trays_are_scored(self):
        photograph = self.room / "grey tray.jpg"
        photograph.write_bytes(files.encoded(["-grayscale"], files.noise, 97, 61))
        samples = tillsparrow.read(photograph).samples
        status, said, lines = scored(photograph, "--rows", 1, "--columns", 2, out=self.room, name="grey tray")
        self.assertEqual((status, lines[0]), (0, ["row", "column", "pixels", "sum of grey", "mean of grey"]), said)
        # 61 rows without 10 at either side; 48 and 49 columns without 8.
        for line, (left, right) in zip(lines[1:], ((8, 40), (56, 89))):
            inside = [samples[97 * y + x] for y in range(10, 51) for x in range(left, right)]
            self.assertEqual(line[2:4], [str(len(inside)), str(sum(inside))])
        self.assertEqual(len(lines), 3)
        self.assertLess(side_of(self.room / "grey tray-scored.png")[0], 1000)

    def test_what_cannot_be_scored_is_said(self):
        cut = self.room / "cut.jpg"
        cut.write_bytes(files.docs_tray()[:-9])
        broke = f"{cut}: refused 3: the bytes ran out in block 485, which begins at byte 10,677 of 10,679"
        for words, wanted in (([cut], broke), (["nowhere.jpg"], "nowhere.jpg: .*No such file"),
                              (["--rows", "145"], "144 x 144 pixels have no room for 6 x 145 wells")):
            status, said, lines = scored(*words, out=self.room)
            self.assertEqual((status, lines), (1, []), said)
            self.assertRegex(said, f"^score_tray: {wanted}.*\n$")
        for wrong in ("0", "six"):
            self.assertEqual(scored("--rows", wrong, out=self.room)[0], 2)

    def test_the_picture_of_the_page_is_small(self):
        shown = files.ROOT / "docs" / "tray-scored.png"
        self.assertGreater(side_of(shown)[0], 1000)
        self.assertLess(shown.stat().st_size, 100_000)
