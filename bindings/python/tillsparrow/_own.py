"""The calls with memory of their own. Each is given the budget that suffices for every file."""
from __future__ import annotations

import os
from contextlib import contextmanager
from dataclasses import dataclass, field
from typing import Any, Iterator, List, Union

from ._calls import decode, inspect, settle
from ._lent import flat_view
from ._values import NO_LIMITS, Limits, Refused

#: The code of a comment segment.
COMMENT = 254


@dataclass(frozen=True)
class Picture:
    """A picture that was read."""

    width: int
    height: int
    #: 1 for grey; 3 for red, green and blue; 2 and 4 for channels as they are coded, whatever they show.
    channels: int
    #: Row by row, channels interleaved.
    samples: bytes = field(repr=False)

    def array(self) -> Any:
        """The samples as a numpy array of uint8: (height, width) of one channel, else (height, width, channels). It is the same
        memory, which is not writable. Where numpy is not installed, an ImportError."""
        try:
            import numpy
        except ImportError:
            raise ImportError("Picture.array needs numpy, which is not installed") from None
        flat = numpy.frombuffer(self.samples, dtype=numpy.uint8)
        shape = (self.height, self.width) if self.channels == 1 else (self.height, self.width, self.channels)
        return flat.reshape(shape)


def _bytes_of(source: Any) -> Any:
    """A path is read; all else is the file's bytes."""
    if isinstance(source, (str, os.PathLike)):
        with open(source, "rb") as file:
            return file.read()
    return source


@contextmanager
def _lent(source: Any) -> Iterator[Any]:
    """The file's bytes; a refusal names the path that was given."""
    try:
        yield _bytes_of(source)
    except Refused as refused:
        if not isinstance(source, (str, os.PathLike)):
            raise
        raise Refused(refused.number, refused.meaning, refused.left, refused.needed, os.fsdecode(source),
                      refused.block, refused.place, refused.length) from None


def read(source: Union[str, "os.PathLike[str]", Any], limits: Limits = NO_LIMITS) -> Picture:
    """The picture of a file, given by its path or its bytes: grey; red, green and blue; or two or four channels as they are coded.

    Where files come from others, give limits. Refused 7 where there is not enough memory.
    """
    with _lent(source) as data:
        record = inspect(data, True, limits).record
        output = decode(data, record).output
    return Picture(record.width, record.height, record.channels, bytes(output))


def settled(source: Union[str, "os.PathLike[str]", Any], limits: Limits = NO_LIMITS) -> bytes:
    """The settled file of a file, given by its path or its bytes. Refused 7 where there is not enough memory."""
    with _lent(source) as data:
        return bytes(settle(data, None, limits).output)


def notes(flat: memoryview, start: int) -> List[memoryview]:
    """The texts of the comment segments before ``start``, the place of the first coded byte of a file that was accepted.

    The segments stand one behind the other: 255 once or more, a code, a length of two bytes that counts itself, high byte first.
    Bytes that were changed since can end the walk early; no text then goes beyond the bytes.
    """
    texts: List[memoryview] = []
    end, at = min(start, len(flat)), 2
    while at < end and flat[at] == 255:
        while at < end and flat[at] == 255:
            at += 1
        if at + 3 > end:
            break
        length = 256 * flat[at + 1] + flat[at + 2]
        if flat[at] == COMMENT and 2 <= length <= end - at - 1:
            texts.append(flat[at + 3:at + 1 + length])
        at += 1 + length
    return texts


def comments(source: Union[str, "os.PathLike[str]", Any]) -> List[memoryview]:
    """The texts of all comments of a file, given by its path or its bytes; each is a part of those bytes, not a copy. The file is
    read once. Refused where inspect refuses, limits aside."""
    with _lent(source) as data:
        record = inspect(data).record
        return notes(flat_view(data), record.start)
