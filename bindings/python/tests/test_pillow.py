"""Pillow reads JPEG files through Tillsparrow while it is registered, and its own decoder is never taken in its place."""
import io
import os
import pickle
import random
import struct
import subprocess
import sys
import tempfile
import unittest
import warnings
from concurrent.futures import ThreadPoolExecutor
from pathlib import Path
from unittest import mock

import tillsparrow
from tillsparrow import Limits, Refused

from . import files

try:
    from PIL import Image, ImageFile, ImageOps, JpegImagePlugin

    from tillsparrow import pillow
except ImportError:
    Image = None


def said_by(call, *arguments, **named):
    """The refusal that Pillow raises."""
    try:
        call(*arguments, **named)
    except pillow.RefusedImage as refused:
        return refused
    raise AssertionError("not refused")


def opened(data, **named):
    return Image.open(io.BytesIO(data), **named)


def state():
    return list(Image.ID), dict(Image.OPEN), dict(Image.MIME), dict(Image.EXTENSION), dict(Image.SAVE), dict(Image.DECODERS)


#: What the line of a refusal says of two and four channels.
CHANNELS = ("refused 5: it has {} channels, which are neither grey nor red, green and blue: "
            "tillsparrow.read(..).array() gives them as they are coded")


def of_channels(count):
    """A small file that the library reads, of so many channels."""
    return files.several(((1, 1),) * count, 40, 24)


def with_exif(jpeg, orientation):
    exif = Image.Exif()
    exif[0x0112] = orientation
    return jpeg[:2] + files.segment(225, exif.tobytes()) + jpeg[2:]


@unittest.skipUnless(Image, "Pillow is not installed")
class WithPillow(unittest.TestCase):
    def setUp(self):
        pillow.register()
        self.addCleanup(pillow.unregister)


class Reading(WithPillow):
    def test_samples_are_those_of_tillsparrow(self):
        modes = set()
        for name, jpeg in files.accepted():
            picture, wanted = opened(jpeg), tillsparrow.read(jpeg)
            self.assertEqual((picture.format, picture.size), ("TILLSPARROW", (wanted.width, wanted.height)), name)
            self.assertEqual(picture.mode, "L" if wanted.channels == 1 else "RGB", name)
            self.assertEqual(picture.tobytes(), wanted.samples, name)
            modes.add(picture.mode)
        self.assertEqual(modes, {"L", "RGB"})
        print(f"held: Pillow has Tillsparrow's samples of {len(files.accepted())} files", file=sys.stderr)

    def test_paths_and_files_are_opened(self):
        # Grey too: Pillow would map a file of raw grey samples into memory.
        for jpeg in (files.encoded(["-grayscale"], files.noise, 40, 30), files.docs_tray()):
            with tempfile.NamedTemporaryFile(suffix=".jpg") as file:
                file.write(jpeg)
                file.flush()
                for source in (file.name, Path(file.name), file):
                    with Image.open(source) as picture:
                        self.assertEqual(picture.tobytes(), tillsparrow.read(jpeg).samples)

    def test_samples_come_when_they_are_asked_for(self):
        with mock.patch.object(pillow, "decode", wraps=pillow.decode) as decode:
            picture = opened(files.docs_tray())
            self.assertEqual((picture.size, picture.mode, decode.call_count), ((144, 144), "RGB", 0))
            picture.load()
            picture.getpixel((3, 4))
            self.assertEqual((decode.call_count, picture.tile), (1, []))

    def test_what_was_looked_through_is_decoded(self):
        with tempfile.NamedTemporaryFile() as file:
            file.write(files.docs_tray())
            file.flush()
            picture = Image.open(file.name)
            file.seek(0)
            file.truncate()
            self.assertEqual(picture.tobytes(), tillsparrow.read(files.docs_tray()).samples)

    def test_drafts_change_nothing(self):
        wanted = tillsparrow.read(files.docs_tray())
        picture = opened(files.docs_tray())
        self.assertIsNone(picture.draft("L", (18, 18)))
        self.assertEqual((picture.size, picture.mode, picture.tobytes()), ((144, 144), "RGB", wanted.samples))
        small, plain = opened(files.docs_tray()), Image.frombytes("RGB", (144, 144), wanted.samples)
        small.thumbnail((20, 20))
        plain.thumbnail((20, 20))
        self.assertEqual((small.size, small.tobytes()), (plain.size, plain.tobytes()))

    def test_pieces_threads_and_other_processes(self):
        data, wanted = files.docs_tray(), tillsparrow.read(files.docs_tray()).samples
        parser = ImageFile.Parser()
        for at in range(0, len(data), 1000):
            parser.feed(data[at:at + 1000])
        self.assertEqual(parser.close().tobytes(), wanted)
        with ThreadPoolExecutor(4) as readers:
            self.assertTrue(all(found == wanted for found in readers.map(lambda each: opened(each).tobytes(), [data] * 20)))
        self.assertEqual(pickle.loads(pickle.dumps(opened(data))).tobytes(), wanted)
        self.assertEqual(opened(data).copy().tobytes(), wanted)

    def test_what_stands_beside_the_picture_is_kept(self):
        plain = files.encoded(["-sample", "2x2"], files.tray, 40, 24)
        self.assertNotIn("comment", opened(plain).info)
        noted = files.with_comment(files.with_comment(plain, b"counted twice"), b"row B")
        info = opened(noted).info
        self.assertEqual((info["comment"], info["comments"]), (b"counted twice", [b"row B", b"counted twice"]))
        dense = plain.replace(b"JFIF\0\1\1\0\0\1\0\1", b"JFIF\0\1\1\1\1\x2c\1\x2c")
        profiled = dense[:2] + files.segment(226, b"ICC_PROFILE\0\1\1" + bytes(200)) + dense[2:]
        for jpeg in (plain, dense, profiled, with_exif(dense, 6), noted):
            ours, theirs = opened(jpeg), JpegImagePlugin.JpegImageFile(io.BytesIO(jpeg))
            self.assertEqual({**ours.info, "comments": 0}, {**theirs.info, "comments": 0})
            self.assertEqual((dict(ours.getexif()), ours._getexif()), (dict(theirs.getexif()), theirs._getexif()))
        self.assertEqual(opened(dense).info["dpi"], (300, 300))
        self.assertEqual(ImageOps.exif_transpose(opened(with_exif(plain, 6))).size, (24, 40))
        self.assertEqual(opened(plain).get_format_mimetype(), "image/jpeg")

    def test_a_header_that_pillow_cannot_read_does_not_hide_the_picture(self):
        jpeg = files.with_comment(files.docs_tray(), b"row B")
        odd = jpeg[:2] + files.segment(224, b"JFIF") + jpeg[2:]
        with warnings.catch_warnings(record=True) as told:
            warnings.simplefilter("always")
            picture = opened(odd)
        self.assertEqual([str(each.message)[:22] for each in told], ["tillsparrow: Pillow fi"])
        self.assertEqual((picture.info["comment"], picture.tobytes()), (b"row B", tillsparrow.read(odd).samples))

    def test_other_files_are_pillows(self):
        plain = Image.frombytes("RGB", (5, 4), bytes(range(60)))
        for kind in ("PNG", "GIF", "PPM", "BMP", "TIFF"):
            written = io.BytesIO()
            plain.save(written, kind)
            self.assertEqual((Image.open(written).format, Image.open(written).size), (kind, (5, 4)))
        self.assertRaises(Image.UnidentifiedImageError, opened, b"tray 7, row B")

    def test_pictures_are_saved(self):
        written = io.BytesIO()
        opened(files.docs_tray()).save(written, "JPEG", quality=90)
        self.assertEqual(tillsparrow.read(written.getvalue()).width, 144)
        # Which would copy the tables of a file that Pillow has read.
        self.assertRaises(ValueError, opened(files.docs_tray()).save, io.BytesIO(), "JPEG", quality="keep")


class Refusing(WithPillow):
    def test_a_refusal_says_number_and_meaning(self):
        plain = files.encoded(["-sample", "2x2"], files.tray, 64, 64)
        progressive = files.encoded(["-progressive"], files.tray, 64, 64)
        self.hold(progressive, 5, 0, 0, "refused 5: a form of JPEG that is not read")
        self.hold(plain[:100], 3, 0, 0, "refused 3: the header is cut short")
        self.hold(b"\xff\xd8", 4, 0, 0, "refused 4: a rule of the format is broken, in header or tables")
        sent = pickle.loads(pickle.dumps(said_by(opened, progressive)))
        self.assertEqual((sent.number, str(sent)), (5, "refused 5: a form of JPEG that is not read"))

    def test_a_refusal_says_where_a_scan_broke(self):
        plain, bare = files.docs_tray(), bytearray(files.docs_tray())
        bare[3000:3002] = b"\xff\xfe"
        self.hold(plain[:-40], 3, 483, 10634, "refused 3: the bytes ran out in block 483, which begins at byte 10,634 of 10,648")
        self.hold(bytes(bare), 10, 120, 2993,
                  "refused 10: a 255 is followed by neither 0 nor the end in block 120, which begins at byte 2993 of 10,688")
        self.hold(plain + b"\0", 4, 486, 10686,
                  "refused 4: the scan breaks a rule of the format at block 486, whose reading began at byte 10,686 of 10,689")
        sent = pickle.loads(pickle.dumps(said_by(opened, plain[:-40])))
        self.assertEqual((sent.number, sent.meaning, sent.block, sent.place), (3, tillsparrow.MEANINGS[3], 483, 10634))

    def test_two_and_four_channels_are_refused(self):
        """Behind all that the library refuses, limits among it; the line says what gives them."""
        for count in (2, 4):
            data, line = of_channels(count), CHANNELS.format(count)
            for named in ({}, {"formats": ["JPEG"]}, {"formats": ["TILLSPARROW", "JPEG"]}):
                refused = said_by(opened, data, **named)
                self.assertEqual((refused.number, refused.block, refused.place, str(refused)), (5, 0, 0, line))
                self.assertEqual(refused.meaning, line[len("refused 5: "):])
                self.assertEqual((refused.__cause__.number, refused.__cause__.length), (5, len(data)))
            with tempfile.NamedTemporaryFile(suffix=".jpg") as file:
                file.write(data)
                file.flush()
                self.assertEqual(str(said_by(Image.open, file.name)), f"{file.name}: {line}")
            self.assertEqual(tillsparrow.read(data).channels, count)
            self.assertEqual(said_by(opened, data[:-2]).number, 4)
            pillow.register(Limits(side=39))
            self.assertEqual(said_by(opened, data).number, 6)
            pillow.register()
        for count in (1, 3):
            self.assertEqual(opened(of_channels(count)).tobytes(), tillsparrow.read(of_channels(count)).samples)

    def test_four_channels_that_pillow_writes_are_read(self):
        """Pillow writes and reads them turned over, as Adobe's programs do; behind that its own decoder has the same samples."""
        painted = Image.merge("CMYK", [Image.frombytes("L", (40, 24), bytes(files.tray(x, y, 40, 24)[i % 3] // (1 + i // 3)
                              for y in range(24) for x in range(40))) for i in range(4)])
        written = io.BytesIO()
        painted.save(written, "JPEG", quality=90)
        ours = tillsparrow.read(written.getvalue())
        self.assertEqual((ours.width, ours.height, ours.channels), (40, 24, 4))
        self.assertEqual(str(said_by(opened, written.getvalue())), CHANNELS.format(4))
        pillow.unregister()
        theirs = opened(written.getvalue())
        self.assertEqual((theirs.format, theirs.mode), ("JPEG", "CMYK"))
        gaps = [abs(a - (255 - b)) for a, b in zip(ours.samples, theirs.tobytes())]
        self.assertLessEqual(max(gaps), 1)
        self.assertLess(5 * sum(gaps), len(gaps))

    def hold(self, data, number, block, place, line):
        for named in ({}, {"formats": ["JPEG"]}, {"formats": ["TILLSPARROW", "JPEG"]}):
            refused = said_by(opened, data, **named)
            self.assertEqual((refused.number, refused.meaning), (number, tillsparrow.MEANINGS[number]))
            self.assertEqual((refused.block, refused.place, str(refused)), (block, place, line))
            self.assertIsInstance(refused.__cause__, Refused)

    def test_a_cut_file_is_refused_where_pillow_is_told_to_take_it(self):
        with mock.patch.object(ImageFile, "LOAD_TRUNCATED_IMAGES", True):
            self.assertEqual(said_by(opened, files.docs_tray()[:-40]).number, 3)

    def test_a_refused_file_is_named_and_closed(self):
        with tempfile.NamedTemporaryFile(suffix=".jpg") as file:
            file.write(files.docs_tray()[:-2])
            file.flush()
            before = os.listdir("/proc/self/fd")
            for _ in range(20):
                self.assertEqual(str(said_by(Image.open, file.name)), f"{file.name}: refused 4: the scan breaks a rule of the format "
                                 "at block 486, whose reading began at byte 10,686 of 10,686")
            self.assertEqual(len(os.listdir("/proc/self/fd")), len(before))

    def test_pillows_decoder_is_never_taken_instead(self):
        source, accepted, theirs = random.Random(7), 0, 0
        for _ in range(500):
            data = bytearray(files.docs_tray())
            for _ in range(source.randrange(1, 4)):
                data[source.randrange(2, source.choice((620, len(data))))] = source.randrange(256)
            data = bytes(data[:source.choice((len(data), source.randrange(2, len(data))))])
            try:
                wanted = tillsparrow.read(data, Limits(output=1 << 22)).samples
            except Refused as refused:
                self.assertEqual(said_by(lambda: opened(data).load()).number, refused.number)  # noqa: B023
                theirs += self.pillow_opens(data)
            else:
                self.assertEqual(opened(data).tobytes(), wanted)
                accepted += 1
        # Files that Pillow alone would open are among those that were refused.
        self.assertTrue(accepted > 20 and theirs > 20, (accepted, theirs))

    def pillow_opens(self, data):
        pillow.unregister()
        try:
            return opened(data).format == "JPEG"
        except (OSError, ValueError):
            return False
        finally:
            pillow.register(Limits(output=1 << 22))

    def test_no_error_sends_pillow_on_to_its_own_decoder(self):
        for error in (SyntaxError("odd"), IndexError("odd"), TypeError("odd"), struct.error("odd"), KeyError("odd"), EOFError("odd")):
            class Odd(io.BytesIO):
                def read(self, size=-1):
                    if size == -1:
                        raise error  # noqa: B023
                    return super().read(size)
            self.assertRaisesRegex(OSError, "odd", Image.open, Odd(files.docs_tray()))
            pillow.unregister()
            self.assertEqual(Image.open(Odd(files.docs_tray())).format, "JPEG")
            pillow.register()

    def test_a_refused_decode_leaves_no_picture(self):
        picture, short = opened(files.docs_tray()), Refused(7, tillsparrow.MEANINGS[7], 5)
        with mock.patch.object(pillow, "decode", side_effect=short):
            for call in (picture.load, picture.tobytes, lambda: picture.getpixel((0, 0)), picture.copy):
                self.assertEqual(said_by(call).number, 7)
        self.assertEqual(picture.tobytes(), tillsparrow.read(files.docs_tray()).samples)

    def test_limits_are_kept(self):
        pillow.register(Limits(side=143))
        self.assertEqual(said_by(opened, files.docs_tray()).number, 6)
        pillow.register()
        self.assertEqual(opened(files.docs_tray()).size, (144, 144))
        self.assertRaises(TypeError, pillow.register, 143)


@unittest.skipUnless(Image, "Pillow is not installed")
class Registering(unittest.TestCase):
    def test_unregister_gives_the_old_state_back(self):
        Image.init()
        before = state()
        pillow.unregister()
        self.assertEqual(state(), before)
        for _ in range(2):
            pillow.register()
            pillow.register()
            self.assertEqual(Image.ID[0], "TILLSPARROW")
            picture = opened(files.docs_tray())
            pillow.unregister()
            self.assertEqual(state(), before)
            self.assertEqual(opened(files.docs_tray()).format, "JPEG")
            self.assertEqual(picture.tobytes(), tillsparrow.read(files.docs_tray()).samples)

    def test_it_comes_before_readers_that_are_loaded_later(self):
        code = """if True:
            import sys, PIL.Image, tillsparrow.pillow
            tillsparrow.pillow.register()
            seen = [PIL.Image.open(sys.argv[1]).format]
            PIL.Image.init()
            for named in (None, ["JPEG"], ("PNG", "jpeg")):
                seen.append(PIL.Image.open(sys.argv[1], formats=named).format)
            tillsparrow.pillow.unregister()
            print(*seen, PIL.Image.open(sys.argv[1]).format)"""
        done = subprocess.run([sys.executable, "-c", code, str(files.ROOT / "docs" / "tray.jpg")], stdout=subprocess.PIPE, check=True,
                              cwd=files.ROOT / "bindings" / "python")
        self.assertEqual(done.stdout.decode().split(), ["TILLSPARROW"] * 4 + ["JPEG"])

    def test_the_module_alone_loads_no_other_package(self):
        code = "import sys, tillsparrow; print(sorted({'PIL', 'imageio', 'numpy'} & set(sys.modules)))"
        done = subprocess.run([sys.executable, "-c", code], stdout=subprocess.PIPE, check=True, cwd=files.ROOT / "bindings" / "python")
        self.assertEqual(done.stdout, b"[]\n")
