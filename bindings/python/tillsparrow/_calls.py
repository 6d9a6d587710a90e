"""The calls of the library: each tests its arguments, lends them, and raises Refused where the answer has a number."""
from __future__ import annotations

import dataclasses
from typing import Any, Dict, NamedTuple, Optional, Tuple

from . import _native
from ._lent import Lent, flat_view, view_of
from ._native import library
from ._values import MEANINGS, MOST, NO_LIMITS, Limits, Record, Refused, number

#: No byte of a file gives more bytes of output than this. A byte has four blocks at most, of 2 bits each. Ten blocks give the most where
#: the four channels are sampled 4 x 1, 1 x 4, 1 x 1 and 1 x 1: 32 x 32 pixels of four bytes, which is 1638.4 bytes for each byte.
FILLED = 1639


class Inspected(NamedTuple):
    """What inspect answers."""

    record: Record
    left: int


class Decoded(NamedTuple):
    """What decode answers: the two buffers, lent or fresh, and what is left of the budget."""

    output: Any
    scratch: Any
    left: int


class Settled(NamedTuple):
    """What settle answers: the buffer, lent or fresh, the length of the settled file at its front, what is left of the budget."""

    output: Any
    length: int
    left: int


class Presence(NamedTuple):
    """What has_comment answers."""

    there: bool
    left: int


def _test(length: int, refusal: int, left: int, block: int = 0, place: int = 0, needed: Optional[int] = None) -> None:
    """Raises a refusal of a file of so many bytes."""
    if refusal:
        meaning = MEANINGS.get(refusal, "a number that this module does not know")
        raise Refused(refusal, meaning, left, needed, None, block, place, length)


def _limits(limits: Limits) -> Tuple[int, int, int]:
    if not isinstance(limits, Limits):
        raise TypeError(f"limits must be Limits, not {type(limits).__name__}")
    return number("limits.input", limits.input), number("limits.side", limits.side), number("limits.output", limits.output)


def _numbers(name: str, value: Any, count: int) -> Tuple[int, ...]:
    """A field of a record that holds more than one number."""
    try:
        entries = tuple(value)
    except TypeError:
        raise TypeError(f"{name} must be {count} whole numbers, not {type(value).__name__}") from None
    if len(entries) != count:
        raise ValueError(f"{name} must be {count} whole numbers, not {len(entries)}")
    return tuple(number(name, entry) for entry in entries)


def _to_native(record: Record) -> _native.Record:
    if not isinstance(record, Record):
        raise TypeError(f"record must be a Record, not {type(record).__name__}")
    native = _native.Record()
    for field in dataclasses.fields(Record):
        value, called = getattr(record, field.name), f"record.{field.name}"
        place = getattr(native, field.name)
        if isinstance(place, int):
            setattr(native, field.name, number(called, value))
        else:
            place[:] = _numbers(called, value, len(place))
    return native


def _from_native(native: _native.Record) -> Record:
    values: Dict[str, Any] = {}
    for field in dataclasses.fields(Record):
        value = getattr(native, field.name)
        values[field.name] = value if isinstance(value, int) else tuple(value)
    return Record(**values)


def _fresh(length: int, most: int = MOST) -> bytearray:
    """That many bytes; or none where that is above the most, or above what memory there is. The library then refuses 7."""
    try:
        return bytearray(length if length <= most else 0)
    except (MemoryError, OverflowError):
        return bytearray()


def _length(data: Any) -> int:
    with view_of("data", data) as view:
        return view.nbytes


def inspect(data: Any, colour: bool = True, limits: Limits = NO_LIMITS, budget: int = MOST) -> Inspected:
    """What a file holds.

    It takes 2 for each byte of the file and 1 from the budget, and the record's work where it comes to the scan. ``colour``
    chooses what decode writes for three channels: red, green and blue, or the channels as they are coded. One, two and four channels
    always come as they are coded. Where the scan broke, the refusal names the block and the place in the file.
    """
    if not isinstance(colour, bool):
        raise TypeError(f"colour must be True or False, not {type(colour).__name__}")
    bounds, budget = _limits(limits), number("budget", budget)
    with Lent() as lent:
        at, length = lent.read("data", data)
        seen = library.tillsparrow_inspect(at, length, colour, *bounds, budget)
    _test(length, seen.number, seen.left, seen.block, seen.place)
    return Inspected(_from_native(seen.found), seen.left)


def decode(data: Any, record: Record, output: Any = None, scratch: Any = None, budget: int = MOST) -> Decoded:
    """The picture of a file whose record is given, row by row, channels interleaved, at the front of ``output``, and the samples
    of its blocks at the front of ``scratch``.

    Both are the caller's (writable, contiguous and apart: a bytearray, a numpy array of uint8) or, where None, fresh bytearrays
    of the record's lengths. No other thread may write to them during the call. Any record may come in; one that is not the
    file's is refused 8, or 7 where it asks for fresh buffers that this file cannot fill. Limits are set aside. It takes what
    inspect takes.
    """
    native, budget = _to_native(record), number("budget", budget)
    # A record that wants more than the file's bytes can give is not this file's.
    most = FILLED * _length(data)
    output = _fresh(native.output, most) if output is None else output
    scratch = _fresh(native.scratch, most) if scratch is None else scratch
    with Lent() as lent:
        at, length = lent.read("data", data)
        drawn = library.tillsparrow_decode(at, length, native, *lent.write("output", output), *lent.write("scratch", scratch), budget)
    _test(length, drawn.number, drawn.left)
    return Decoded(output, scratch, drawn.left)


def _settle_into(data: Any, output: Any, bounds: Tuple[int, int, int], budget: int) -> Settled:
    with Lent() as lent:
        at, length = lent.read("data", data)
        made = library.tillsparrow_settle(at, length, *bounds, budget, *lent.write("output", output))
    _test(length, made.number, made.left, made.block, made.place, made.length if made.number == 7 else None)
    return Settled(output, made.length, made.left)


def settle(data: Any, output: Any = None, limits: Limits = NO_LIMITS, budget: int = MOST) -> Settled:
    """The settled file at the front of ``output``: the same head and the same coefficients, coded in the one settled way, without the
    fill bytes that may stand before a scan's markers.

    ``output`` is the caller's (writable, contiguous, apart from the data) or, where None, a fresh bytearray of just the settled
    file. Where the caller's is too short, the refusal's ``needed`` says how long it must be. At inspect's price, and with the block
    and the place that inspect names.
    """
    bounds, budget = _limits(limits), number("budget", budget)
    if output is not None:
        return _settle_into(data, output, bounds, budget)
    # A settled file is seldom longer than the file; where it is, the refusal says by how much.
    try:
        made = _settle_into(data, _fresh(_length(data)), bounds, budget)
    except Refused as refused:
        if refused.needed is None:
            raise
        made = _settle_into(data, _fresh(refused.needed), bounds, budget)
    del made.output[made.length:]
    return made


def comment(data: Any, i: int) -> memoryview:
    """The text of comment i, counted from 0 over the comment segments before the scan: a part of the caller's own bytes, not a
    copy. Empty where there is none, or where the file is not accepted, limits aside."""
    i = number("i", i)
    with Lent() as lent:
        part = library.tillsparrow_comment(*lent.read("data", data), i)
    return flat_view(data)[part.at:part.at + part.length]


def has_comment(data: Any, i: int, limits: Limits = NO_LIMITS, budget: int = MOST) -> Presence:
    """Whether comment i is there, which an empty text does not tell. At inspect's price, with its numbers, and with the block and the
    place that it names."""
    i, bounds, budget = number("i", i), _limits(limits), number("budget", budget)
    with Lent() as lent:
        at, length = lent.read("data", data)
        found = library.tillsparrow_has_comment(at, length, i, *bounds, budget)
    _test(length, found.number, found.left, found.block, found.place)
    return Presence(found.there == 1, found.left)
