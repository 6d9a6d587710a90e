"""imageio reads JPEG files through Tillsparrow while it is registered."""
import io
import os
import sys
import tempfile
import unittest
import warnings
import zipfile
from pathlib import Path
from unittest import mock

import tillsparrow
from tillsparrow import Limits, Refused

from . import files
from .test_pillow import CHANNELS, of_channels, with_exif

try:
    import imageio
    import numpy
    from PIL import Image, ImageOps

    from tillsparrow import imageio as ours
except ImportError:
    imageio = None

TRAY = files.ROOT / "docs" / "tray.jpg"


def orders():
    return [list(order) for order in (imageio.formats._formats, imageio.formats._formats_sorted)]


@unittest.skipUnless(imageio, "imageio is not installed")
class WithImageio(unittest.TestCase):
    def setUp(self):
        ours.register()
        self.addCleanup(ours.unregister)

    def test_samples_are_those_of_tillsparrow(self):
        for name, jpeg in files.accepted():
            pixels = imageio.imread(jpeg)
            self.assertEqual((pixels.dtype, pixels.tobytes()), (numpy.uint8, tillsparrow.read(jpeg).samples), name)
            self.assertEqual(pixels.shape, tillsparrow.read(jpeg).array().shape, name)
        pixels[0, 0] = 7
        print(f"held: imageio has Tillsparrow's samples of {len(files.accepted())} files", file=sys.stderr)

    def test_files_of_every_kind_are_read(self):
        wanted = tillsparrow.read(TRAY).samples
        with tempfile.TemporaryDirectory() as room:
            packed = Path(room) / "trays.zip"
            with zipfile.ZipFile(packed, "w") as archive:
                archive.writestr("tray.jpg", files.docs_tray())
            sources = [str(TRAY), TRAY, files.docs_tray(), io.BytesIO(files.docs_tray()), f"{packed}/tray.jpg"]
            for ending in ("jpg", "JPEG", "jfif", "png", "dat", "mpo", ""):
                sources.append(Path(room) / f"tray.{ending}")
                sources[-1].write_bytes(files.docs_tray())
            for source in sources:
                with imageio.get_reader(source, mode="i") as reader:
                    self.assertEqual(reader.format.name, "JPEG-TILLSPARROW", source)
                    self.assertEqual((len(reader), reader.get_data(0).tobytes()), (1, wanted), source)
                    self.assertRaises(IndexError, reader.get_data, 1)
        for named in ("JPEG", "jpg", ".jpg", "JPEG-TILLSPARROW"):
            self.assertEqual(imageio.get_reader(TRAY, named).format.name, "JPEG-TILLSPARROW")

    def test_a_refused_file_is_refused(self):
        before = len(os.listdir("/proc/self/fd"))
        progressive = files.encoded(["-progressive"], files.tray, 64, 64)
        for data, wanted in ((progressive, (5, 0, 0)), (files.docs_tray()[:-40], (3, 483, 10634)),
                             (files.docs_tray()[:-2], (4, 486, 10686)), (b"\xff\xd8", (4, 0, 0))):
            with tempfile.NamedTemporaryFile(suffix=".jpg") as file:
                file.write(data)
                file.flush()
                for source in (file.name, data):
                    with self.assertRaises(Refused) as raised:
                        imageio.imread(source)
                    refused = raised.exception
                    self.assertEqual((refused.number, refused.block, refused.place), wanted)
                    refused.__traceback__ = None
        del raised, refused
        self.assertEqual(len(os.listdir("/proc/self/fd")), before)
        ours.register(Limits(side=143))
        self.assertRaisesRegex(Refused, "refused 6", imageio.imread, TRAY)
        self.assertRaises(TypeError, ours.register, 143)

    def test_two_and_four_channels_are_refused(self):
        for count in (2, 4):
            with self.assertRaises(Refused) as raised:
                imageio.imread(of_channels(count))
            self.assertEqual((raised.exception.number, str(raised.exception)), (5, CHANNELS.format(count)))
            self.assertEqual(tillsparrow.read(of_channels(count)).array().shape, (24, 40, count))
        for count in (1, 3):
            self.assertTrue((imageio.imread(of_channels(count)) == tillsparrow.read(of_channels(count)).array()).all())

    def test_pictures_are_turned_as_exif_data_say(self):
        plain = files.encoded(["-sample", "1x1"], files.noise, 24, 16)
        for orientation in range(1, 9):
            jpeg = with_exif(plain, orientation)
            upright = ImageOps.exif_transpose(self.by_pillow(jpeg, orientation))
            self.assertTrue((imageio.imread(jpeg) == numpy.asarray(upright)).all(), orientation)
            self.assertEqual(imageio.imread(jpeg).shape, imageio.imread(jpeg, "JPEG-PIL").shape)
            self.assertEqual(imageio.imread(jpeg, exifrotate=False).tobytes(), tillsparrow.read(plain).samples)

    def test_exif_data_that_cannot_be_read_are_told(self):
        plain = files.docs_tray()
        for broken in (b"", b"II", b"no such data", b"MM\0*\0\0\0\x08\0\1", b"MM\0*\xff\xff\xff\xff"):
            jpeg = plain[:2] + files.segment(225, b"Exif\0\0" + broken) + plain[2:]
            with warnings.catch_warnings(record=True) as told:
                warnings.simplefilter("always")
                self.assertEqual(imageio.imread(jpeg).tobytes(), tillsparrow.read(plain).samples)
            self.assertEqual(bool(told), broken != b"", broken)

    def by_pillow(self, jpeg, orientation):
        """Tillsparrow's samples as a picture of Pillow's, with the same orientation."""
        picture = Image.fromarray(tillsparrow.read(jpeg).array())
        picture.getexif()[0x0112] = orientation
        return picture

    def test_notes_are_kept(self):
        noted = files.with_comment(files.with_comment(files.docs_tray(), b"counted twice"), b"row B")
        meta = imageio.imread(noted).meta
        self.assertEqual((meta["comment"], meta["comments"]), (b"counted twice", [b"row B", b"counted twice"]))
        self.assertEqual(imageio.get_reader(noted).get_meta_data()["jfif_version"], (1, 1))

    def test_the_rest_is_imageios(self):
        pixels = numpy.arange(60, dtype=numpy.uint8).reshape(4, 5, 3)
        png = imageio.imwrite("<bytes>", pixels, "png")
        self.assertEqual(imageio.imread(png).tobytes(), pixels.tobytes())
        with tempfile.TemporaryDirectory() as room:
            imageio.imwrite(f"{room}/written.jpg", pixels)
            self.assertEqual(imageio.imread(f"{room}/written.jpg").shape, (4, 5, 3))
        self.assertEqual(imageio.get_reader(TRAY, "JPEG-PIL").format.name, "JPEG-PIL")

    def test_an_order_of_the_users_keeps_it_first(self):
        self.addCleanup(imageio.formats.sort)
        imageio.formats.sort("TIFF", "-PIL")
        self.assertEqual(imageio.get_reader(TRAY).format.name, "JPEG-PIL")
        imageio.formats.sort("TIFF")
        self.assertEqual(imageio.get_reader(TRAY).format.name, "JPEG-TILLSPARROW")

    def test_unregister_gives_the_old_state_back(self):
        ours.unregister()
        before = orders()
        ours.unregister()
        ours.register()
        ours.register()
        self.assertEqual([len(order) for order in orders()], [len(order) + 1 for order in before])
        ours.unregister()
        self.assertEqual(orders(), before)
        self.assertEqual(imageio.get_reader(TRAY).format.name, "JPEG-PIL")

    def test_another_imageio_is_told_apart(self):
        with mock.patch.object(imageio, "formats", object()):
            self.assertRaisesRegex(ImportError, "imageio .* in another way than 2.4.1", ours.register)
        imageio.formats.sort()
