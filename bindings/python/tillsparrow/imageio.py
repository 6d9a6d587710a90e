"""Makes imageio read JPEG files through Tillsparrow.

    import tillsparrow.imageio
    tillsparrow.imageio.register()
    pixels = imageio.imread("tray.jpg")         # its samples are those of tillsparrow.read

From ``register`` to ``unregister`` imageio takes the format JPEG-TILLSPARROW for every JPEG file that its other formats do not claim by
the name's ending; what is refused raises Refused. A file of two or four channels raises it too: they come as they are coded, and in
imageio's arrays the last of two or four is opacity; ``tillsparrow.read(..).array()`` gives them. As with imageio's own JPEG reader, a
picture is turned as its EXIF data say, unless ``exifrotate=False`` is given, and ``pixels.meta`` has what stands beside the picture.
Writing is imageio's as before. For imageio's formats of before version 2.11; tested with imageio 2.4.1.
"""
from __future__ import annotations

import warnings
from typing import Any, Dict, Tuple

import imageio
import numpy
from PIL import Image

from ._calls import decode
from ._values import NO_LIMITS, Limits
from .pillow import about, accepts, looked_through

ORIENTATION = 0x0112
#: By orientation, how often a quarter turn to the left, and whether mirrored behind it.
TURNS = {2: (0, True), 3: (2, False), 4: (2, True), 5: (3, True), 6: (3, False), 7: (1, True), 8: (1, False)}


def _orientation(found: Dict[str, Any]) -> Any:
    """What the EXIF data say of it; 1, upright, where there is nothing that can be read."""
    try:
        exif = Image.Exif()
        exif.load(found.get("exif", b""))
        return exif.get(ORIENTATION, 1)
    except Exception as error:  # Whatever Pillow stumbles over, the samples are right.
        warnings.warn(f"tillsparrow: the EXIF data cannot be read, and the picture is not turned: {error}", stacklevel=2)
        return 1


def _turned(pixels: Any, found: Dict[str, Any]) -> Any:
    """The picture upright: the same samples at other places."""
    quarters, mirrored = TURNS.get(_orientation(found), (0, False))
    pixels = numpy.rot90(pixels, quarters)
    return numpy.fliplr(pixels) if mirrored else pixels


class TillsparrowFormat(imageio.core.Format):
    """Baseline JPEG files, grey or red, green and blue, read by Tillsparrow.

    Parameters for reading
    ----------------------
    exifrotate : bool
        Turn the picture as its EXIF data say. Default True.
    """

    #: What a file may hold before it is refused.
    limits = NO_LIMITS

    def _can_read(self, request: Any) -> bool:
        return request.mode[1] in self.modes + "?" and accepts(request.firstbytes)

    def _can_write(self, request: Any) -> bool:
        return False

    class Reader(imageio.core.Format.Reader):
        def _open(self, exifrotate: bool = True) -> None:
            self._turn = exifrotate
            self._data = self.request.get_file().read()
            self._record = looked_through(self._data, self.format.limits)

        def _close(self) -> None:
            self._data = b""

        def _get_length(self) -> int:
            return 1

        def _get_data(self, index: int) -> Tuple[Any, Dict[str, Any]]:
            found, record = self._get_meta_data(index), self._record
            shape = (record.height, record.width, 3)[:2 if record.channels == 1 else 3]
            pixels = numpy.frombuffer(decode(self._data, record).output, dtype=numpy.uint8).reshape(shape)
            return (_turned(pixels, found) if self._turn else pixels), found

        def _get_meta_data(self, index: Any) -> Dict[str, Any]:
            if index not in (None, 0):
                raise IndexError(f"a JPEG file has one picture, number 0, and not number {index}")
            return about(self._data, self._record)


FORMAT = TillsparrowFormat("JPEG-TILLSPARROW", "JPEG, read by Tillsparrow", "jpg jpeg jpe jfif jif", "i")


def _orders() -> Tuple[Any, Any]:
    """The orders in which imageio asks its formats: the first, and the one in use."""
    try:
        return imageio.formats._formats, imageio.formats._formats_sorted
    except AttributeError:
        raise ImportError(
            f"tillsparrow: imageio {imageio.__version__} orders its formats in another way than 2.4.1, for which this was made: "
            "use tillsparrow.read(..).array(), or tillsparrow.pillow") from None


def register(limits: Limits = NO_LIMITS) -> None:
    """Has ``imageio.imread`` read JPEG files through Tillsparrow, within the limits. A second call changes the limits."""
    if not isinstance(limits, Limits):
        raise TypeError(f"limits must be Limits, not {type(limits).__name__}")
    unregister()
    FORMAT.limits = limits
    # First in both, so that imageio.formats.sort keeps it before imageio's own.
    for order in _orders():
        order.insert(0, FORMAT)


def unregister() -> None:
    """Gives JPEG files back to imageio's own formats."""
    for order in _orders():
        if FORMAT in order:
            order.remove(FORMAT)
