"""Memory that is lent to the library: tested, held while the call runs, and given as an address and a length."""
from __future__ import annotations

import ctypes
from contextlib import ExitStack
from typing import Any, List, Tuple

#: A place for buffers of no bytes: an address that is never null, whatever the buffer says of itself.
NOWHERE = ctypes.create_string_buffer(1)
#: The formats of a buffer whose items are bytes, as Python, ctypes and numpy write them.
BYTE_FORMATS = ("B", "c", "<B", "<c", "=B", "=c", "|B")


class _Buffer(ctypes.Structure):
    """Python's own Py_buffer, of which only the address is read."""

    _fields_ = [
        ("buf", ctypes.c_void_p), ("obj", ctypes.c_void_p), ("len", ctypes.c_ssize_t), ("itemsize", ctypes.c_ssize_t),
        ("readonly", ctypes.c_int), ("ndim", ctypes.c_int), ("format", ctypes.c_void_p), ("shape", ctypes.c_void_p),
        ("strides", ctypes.c_void_p), ("suboffsets", ctypes.c_void_p), ("internal", ctypes.c_void_p),
    ]


def _function(name: str, answer: Any, takes: List[Any]) -> Any:
    """A function of Python itself, which raises what it raises."""
    return ctypes.PYFUNCTYPE(answer, *takes)((name, ctypes.pythonapi))


_get = _function("PyObject_GetBuffer", ctypes.c_int, [ctypes.py_object, ctypes.POINTER(_Buffer), ctypes.c_int])
_release = _function("PyBuffer_Release", None, [ctypes.POINTER(_Buffer)])


def address(view: memoryview) -> int:
    """Where the bytes of a view stand. The view holds them there for as long as it is not released."""
    if view.nbytes == 0:
        return ctypes.addressof(NOWHERE)
    buffer = _Buffer()
    _get(view, ctypes.byref(buffer), 0)
    try:
        return int(buffer.buf)
    finally:
        _release(ctypes.byref(buffer))


def view_of(name: str, lent: Any) -> memoryview:
    """A view of bytes that lie in one piece, or the error that says what they are not."""
    try:
        view = memoryview(lent)
    except TypeError:
        raise TypeError(f"{name} must be bytes-like, not {type(lent).__name__}") from None
    except (ValueError, BufferError) as error:
        raise ValueError(f"{name} cannot be lent: {error}") from None
    form, contiguous = view.format, view.c_contiguous
    if form in BYTE_FORMATS and contiguous:
        return view
    # Released here, so that nothing is held for as long as somebody keeps the error.
    view.release()
    if form not in BYTE_FORMATS:
        raise TypeError(f"{name} must hold bytes, not items of format {form!r}")
    raise ValueError(f"{name} must be contiguous, row by row")


def flat_view(data: Any) -> memoryview:
    """The caller's own bytes, one behind the other."""
    view = view_of("data", data)
    # A view of no bytes in rows of some cannot be cast; it has no part but the empty one.
    return view.cast("B") if view.nbytes else memoryview(b"")


class Lent:
    """The buffers of one call: ``with Lent() as lent`` holds each of them until the call is done, so that none can be freed,
    moved or resized meanwhile, and knows that none shares memory with another."""

    def __init__(self) -> None:
        self._held = ExitStack()
        self._ranges: List[Tuple[str, int, int]] = []

    def __enter__(self) -> "Lent":
        return self

    def __exit__(self, *raised: Any) -> None:
        self._held.close()

    def _apart(self, name: str, view: memoryview) -> int:
        start = address(view)
        end = start + view.nbytes
        for other, first, last in self._ranges:
            if start < last and first < end:
                raise ValueError(f"{name} and {other} share memory")
        self._ranges.append((name, start, end))
        return start

    def read(self, name: str, lent: Any) -> Tuple[int, int]:
        """Bytes to read. What is not immutable is copied: other threads run during a call, and the library counts on bytes that
        stay as they are."""
        view = self._held.enter_context(view_of(name, lent))
        start = self._apart(name, view)
        if isinstance(view.obj, bytes) or view.nbytes == 0:
            return start, view.nbytes
        copy = self._held.enter_context(memoryview(view.tobytes()))
        return address(copy), copy.nbytes

    def write(self, name: str, lent: Any) -> Tuple[int, int]:
        """A buffer to write into."""
        view = self._held.enter_context(view_of(name, lent))
        if view.readonly:
            raise TypeError(f"{name} must be writable")
        return self._apart(name, view), view.nbytes
