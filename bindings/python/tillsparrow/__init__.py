"""Reads baseline JPEG files with the proved library Tillsparrow.

    import tillsparrow
    picture = tillsparrow.read("tray.jpg")      # a path, or the file's bytes
    picture.width, picture.height, picture.channels
    picture.samples                             # bytes, row by row, channels interleaved
    picture.array()                             # the same as a numpy array, where numpy is installed

A file has one to four channels. One is grey, three come as red, green and blue, and two and four as they are coded.

The calls of the library are ``inspect``, ``decode``, ``settle``, ``comment`` and ``has_comment``; ``read``, ``settled`` and
``comments`` are built on them. What is refused raises ``Refused``, with the number of the refusal, its meaning, what is left of the
budget and, where a scan broke, the block and the place in the file; every lent buffer is then as it was. A wrong argument raises
``TypeError`` or ``ValueError`` before the library is called.
"""
from pathlib import Path

from ._calls import Decoded, Inspected, Presence, Settled, comment, decode, has_comment, inspect, settle
from ._own import Picture, comments, read, settled
from ._values import MEANINGS, MOST, NO_LIMITS, Limits, Record, Refused

#: The version of the repository; the file is a link to its own.
__version__ = Path(__file__).with_name("VERSION").read_text(encoding="ascii").strip()

__all__ = [
    "Decoded", "Inspected", "Limits", "MEANINGS", "MOST", "NO_LIMITS", "Picture", "Presence", "Record", "Refused", "Settled",
    "comment", "comments", "decode", "has_comment", "inspect", "read", "settle", "settled",
]
