"""Makes Pillow read JPEG files through Tillsparrow.

    import tillsparrow.pillow
    tillsparrow.pillow.register()
    picture = PIL.Image.open("tray.jpg")        # its samples are those of tillsparrow.read

From ``register`` to ``unregister`` every file that begins with the bytes 255 216 is read by Tillsparrow or raises RefusedImage: Pillow's
own decoder is never taken in its place. A file of two or four channels raises it too: they come as they are coded, for which Pillow has
no mode; ``tillsparrow.read(..).array()`` gives them. Files of other kinds, and all writing, are Pillow's as before. Tested with
Pillow 9.4.0.
"""
from __future__ import annotations

import io
import struct
import warnings
from typing import Any, Dict, Tuple

from PIL import Image, ImageFile, JpegImagePlugin

from ._calls import decode, inspect
from ._own import notes
from ._values import NO_LIMITS, Limits, Record, Refused

#: The name of the format, as ``Image.format`` says it.
FORMAT = "TILLSPARROW"
#: Pillow's name for its own JPEG reader, whose place is taken too: a caller may ask for the format by name.
THEIRS = "JPEG"
DECODER = "tillsparrow"
#: A property of Pillow from version 10.1 on, which this attribute is behind.
MODE = "_mode" if hasattr(Image.Image, "mode") else "mode"
#: Pillow's modes, by channels. LA and CMYK would give two and four channels a meaning that the file may not have.
MODES = {1: "L", 3: "RGB"}

_limits = NO_LIMITS
_replaced: Any = None


class RefusedImage(OSError):
    """A JPEG file that Tillsparrow refuses, or one of two or four channels. The refusal itself is the cause; these are its numbers and
    its meaning."""

    number: int = 0
    meaning: str = ""
    block: int = 0
    place: int = 0


def _refusal(name: Any, refused: Refused) -> RefusedImage:
    error = RefusedImage(f"{name}: {refused}" if name else str(refused))
    error.number, error.meaning, error.block, error.place = refused.number, refused.meaning, refused.block, refused.place
    return error


def looked_through(data: bytes, limits: Limits) -> Record:
    """The record of a file that is grey, or red, green and blue. One of two or four channels, which inspect accepts, is refused 5 here, as
    the program that writes PGM and PPM refuses it."""
    seen = inspect(data, limits=limits)
    if seen.record.channels not in MODES:
        raise Refused(5, f"it has {seen.record.channels} channels, which are neither grey nor red, green and blue: "
                      "tillsparrow.read(..).array() gives them as they are coded", seen.left, length=len(data))
    return seen.record


def about(data: bytes, record: Record) -> Dict[str, Any]:
    """What an accepted file says beside its picture: density, EXIF data, colour profile and the like, as Pillow's own reader finds
    them in the header; all notes as "comments", and the last one as "comment", as Pillow has it."""
    try:
        found = dict(JpegImagePlugin.JpegImageFile(io.BytesIO(data)).info)
    except Exception as error:  # Whatever it stumbles over, the picture can be read.
        warnings.warn(f"tillsparrow: Pillow finds no density, EXIF data or profile in this file: {error}", stacklevel=2)
        found = {}
    texts = [bytes(text) for text in notes(memoryview(data), record.start)]
    found.pop("comment", None)
    if texts:
        found.update(comment=texts[-1], comments=texts)
    return found


class TillsparrowImageFile(ImageFile.ImageFile):
    """A JPEG file: looked through when it is opened, and decoded when the samples are first asked for."""

    format = FORMAT
    format_description = "JPEG, read by Tillsparrow"

    def _open(self) -> None:
        data = self.fp.read()
        try:
            record = looked_through(data, _limits)
        except Refused as refused:
            raise _refusal(self.filename, refused) from refused
        self._size = (record.width, record.height)
        setattr(self, MODE, MODES[record.channels])
        self.info = about(data, record)
        # The file's own bytes go along, so that what was looked through is what is decoded.
        self.tile = [(DECODER, (0, 0, *self._size), 0, (data, record, self.filename))]

    def _getexif(self) -> Any:
        """What older programs call for EXIF data."""
        return JpegImagePlugin._getexif(self)


class _Decoder(ImageFile.PyDecoder):
    # Nothing is to be read from the file.
    _pulls_fd = True

    def decode(self, buffer: Any) -> Tuple[int, int]:
        data, record, name = self.args
        try:
            samples = decode(data, record).output
        except Refused as refused:
            raise _refusal(name, refused) from refused
        self.set_as_raw(bytes(samples))
        return -1, 0


def accepts(prefix: bytes) -> bool:
    """Whether a file with these first bytes is one for Tillsparrow."""
    return prefix[:2] == b"\xff\xd8"


def open_or_raise(fp: Any, filename: Any = None) -> TillsparrowImageFile:
    """The file's picture, or an error. Pillow goes on to another decoder where an opener raises certain errors; none comes from here."""
    try:
        return TillsparrowImageFile(fp, filename)
    except (SyntaxError, IndexError, TypeError, struct.error) as error:
        raise OSError(f"tillsparrow: the file cannot be read: {error}") from error


def register(limits: Limits = NO_LIMITS) -> None:
    """Has ``Image.open`` read JPEG files through Tillsparrow, within the limits. A second call changes the limits."""
    global _limits, _replaced
    if not isinstance(limits, Limits):
        raise TypeError(f"limits must be Limits, not {type(limits).__name__}")
    _limits = limits
    if FORMAT in Image.OPEN:
        return
    # Pillow's own is there: it came with the module that has it, above.
    _replaced = Image.OPEN[THEIRS]
    Image.register_open(FORMAT, open_or_raise, accepts)
    Image.register_mime(FORMAT, "image/jpeg")
    Image.ID.remove(FORMAT)
    Image.ID.insert(0, FORMAT)
    Image.OPEN[THEIRS] = open_or_raise, accepts


def unregister() -> None:
    """Gives JPEG files back to Pillow's own decoder. A picture that is open already stays Tillsparrow's."""
    if FORMAT not in Image.OPEN:
        return
    Image.ID.remove(FORMAT)
    del Image.OPEN[FORMAT], Image.MIME[FORMAT]
    Image.OPEN[THEIRS] = _replaced


Image.register_decoder(DECODER, _Decoder)
