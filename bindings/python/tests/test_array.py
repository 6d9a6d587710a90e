"""Pictures as numpy arrays, buffers that are numpy arrays, and what is said where numpy is not installed."""
import contextlib
import io
import os
import re
import sys
import unittest
from unittest import mock

import tillsparrow

from . import files

try:
    import numpy
except ImportError:
    numpy = None


@unittest.skipUnless(numpy, "numpy is not installed")
class WithNumpy(unittest.TestCase):
    def test_an_array_is_the_picture_and_no_copy(self):
        grey, colour, chroma = (files.encoded(options, files.gradient, 97, 61)
                                for options in (["-grayscale"], ["-sample", "2x2"], ["-sample", "2x2,1x2,1x2"]))
        two, four = files.several(((2, 1), (1, 1)), 97, 61), files.several(((2, 2), (1, 1), (1, 1), (2, 2)), 97, 61)
        for data, shape in ((grey, (61, 97)), (two, (61, 97, 2)), (colour, (61, 97, 3)), (chroma, (61, 97, 3)), (four, (61, 97, 4))):
            picture = tillsparrow.read(data)
            pixels = picture.array()
            self.assertEqual((pixels.shape, pixels.dtype), (shape, numpy.uint8))
            self.assertEqual(pixels.tobytes(), picture.samples)
            self.assertEqual(pixels.ctypes.data, numpy.frombuffer(picture.samples, numpy.uint8).ctypes.data)
            self.assertFalse(pixels.flags.writeable)
            x, y = 40, 20
            at = (y * 97 + x) * picture.channels
            self.assertEqual(list(numpy.atleast_1d(pixels[y, x])), list(picture.samples[at:at + picture.channels]))

    def test_channels_are_planes_as_they_are_coded(self):
        """Four channels at 1 x 1, each block of one value: each channel's plane is that of a grey file with its blocks."""
        planes = [[(11 * k - 60 + 29 * channel,) for k in range(6)] for channel in range(4)]
        for count in (2, 4):
            levels = [planes[channel][k] for k in range(6) for channel in range(count)]
            pixels = tillsparrow.read(files.coded(((1, 1),) * count, 24, 16, levels)).array()
            for channel in range(count):
                grey = tillsparrow.read(files.coded(((1, 1),), 24, 16, planes[channel])).array()
                self.assertTrue((pixels[:, :, channel] == grey).all())
                self.assertEqual(list(grey[::8, ::8].flat), [128 + level for level, in planes[channel]])

    def test_arrays_are_lent(self):
        data = files.docs_tray()
        record = tillsparrow.inspect(numpy.frombuffer(data, numpy.uint8)).record
        output, scratch = numpy.zeros((144, 144, 3), numpy.uint8), numpy.zeros(record.scratch, numpy.uint8)
        drawn = tillsparrow.decode(numpy.frombuffer(data, numpy.uint8), record, output, scratch)
        self.assertIs(drawn.output, output)
        self.assertTrue((output == tillsparrow.read(data).array()).all())
        room = numpy.full(len(data) + 9, 3, numpy.uint8)
        made = tillsparrow.settle(data, room)
        self.assertEqual(room[:made.length].tobytes(), tillsparrow.settled(data))
        self.assertTrue((room[made.length:] == 3).all())

    def test_arrays_that_do_not_serve_are_refused(self):
        data = files.docs_tray()
        record = tillsparrow.inspect(data).record
        scratch = numpy.zeros(record.scratch, numpy.uint8)
        fixed = numpy.zeros(record.output, numpy.uint8)
        fixed.flags.writeable = False
        wrong_type = (numpy.zeros(record.output, numpy.int8), numpy.zeros(record.output, bool), numpy.zeros(record.output), fixed)
        for output in wrong_type:
            self.assertRaises(TypeError, tillsparrow.decode, data, record, output, scratch)
        wide = numpy.zeros((144, 288, 3), numpy.uint8)
        for output in (wide[:, :144], wide[:, ::2], numpy.zeros((144, 144, 3), numpy.uint8, order="F")):
            self.assertRaises(ValueError, tillsparrow.decode, data, record, output, scratch)
        both = numpy.zeros(record.output + record.scratch, numpy.uint8)
        with self.assertRaisesRegex(ValueError, "share memory"):
            tillsparrow.decode(data, record, both[:record.output], both[record.output - 1:])
        self.assertFalse(both.any() or wide.any())
        tillsparrow.decode(data, record, both[:record.output], both[record.output:])
        self.assertTrue(both.any())

    def test_arrays_of_any_shape_are_read(self):
        noted = numpy.frombuffer(files.with_comment(files.small(), b"row B"), numpy.uint8).reshape(2, 25, 3)
        self.assertEqual(tillsparrow.comments(noted), [b"row B"])
        self.assertTrue(numpy.shares_memory(numpy.asarray(tillsparrow.comment(noted, 0)), noted))
        self.assertEqual(tillsparrow.comment(numpy.zeros((0, 3), numpy.uint8), 0), b"")
        self.assertEqual(tillsparrow.inspect(noted).record.width, 8)

    def test_numbers_of_numpy_are_numbers(self):
        data = files.small()
        self.assertEqual(tillsparrow.inspect(data, budget=numpy.uint64(3484)).left, 1)
        self.assertRaises(ValueError, tillsparrow.inspect, data, budget=numpy.int64(-1))
        self.assertRaises(TypeError, tillsparrow.inspect, data, budget=numpy.float64(4000))

    def test_the_code_of_the_page_runs(self):
        page = (files.ROOT / "bindings" / "python" / "README.md").read_text()
        blocks, values, said, home = re.findall(r"```python\n(.*?)```", page, re.S), {}, io.StringIO(), os.getcwd()
        os.chdir(files.ROOT)
        try:
            with contextlib.redirect_stdout(said):
                for code in blocks:
                    exec(code, values)
            import imageio
            from PIL import Image
            self.assertEqual(Image.open("docs/tray.jpg").format, "TILLSPARROW")
            self.assertEqual(imageio.get_reader("docs/tray.jpg").format.name, "JPEG-TILLSPARROW")
        finally:
            os.chdir(home)
            values["tillsparrow"].pillow.unregister()
            values["tillsparrow"].imageio.unregister()
        self.assertEqual((len(blocks), said.getvalue()), (3, "144 144 3 62208\n"))
        self.assertTrue(0 < values["green"] < 255)


class WithoutNumpy(unittest.TestCase):
    def test_the_rest_works_and_array_says_what_it_needs(self):
        with mock.patch.dict(sys.modules, {"numpy": None}):
            picture = tillsparrow.read(files.docs_tray())
            self.assertEqual(len(picture.samples), 3 * 144 * 144)
            self.assertRaisesRegex(ImportError, "needs numpy, which is not installed", picture.array)
