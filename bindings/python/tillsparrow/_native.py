"""The shared library and the structs of its functions, as include/tillsparrow.h declares them."""
from __future__ import annotations

import ctypes
import os
from pathlib import Path

VARIABLE = "TILLSPARROW_LIBRARY"
#: Where pip puts it, beside this file; in a checkout there is none.
OWN = Path(__file__).resolve().with_name("libtillsparrow.so")
#: Where ./library puts it at the top of the repository.
BUILT = Path(os.path.normpath(OWN.parent / "../../../target/library/libtillsparrow.so"))

Number = ctypes.c_uint64
Address = ctypes.c_void_p


class Record(ctypes.Structure):
    _fields_ = [
        ("width", Number), ("height", Number), ("channels", Number), ("across", Number * 4), ("down", Number * 4),
        ("ids", Number * 4), ("qids", Number * 4), ("dcids", Number * 4), ("acids", Number * 4),
        ("quants", Number * 4), ("dcs", Number * 4), ("acs", Number * 4),
        ("interval", Number), ("start", Number), ("blocks", Number), ("scratch", Number), ("output", Number),
        ("work", Number), ("colour", Number),
    ]


class Inspected(ctypes.Structure):
    _fields_ = [("number", Number), ("left", Number), ("block", Number), ("place", Number), ("found", Record)]


class Decoded(ctypes.Structure):
    _fields_ = [("number", Number), ("left", Number)]


class Settled(ctypes.Structure):
    _fields_ = [("number", Number), ("left", Number), ("block", Number), ("place", Number), ("length", Number)]


class Part(ctypes.Structure):
    _fields_ = [("at", Number), ("length", Number)]


class Presence(ctypes.Structure):
    _fields_ = [("number", Number), ("left", Number), ("block", Number), ("place", Number), ("there", Number)]


LIMITS = [Number, Number, Number]
BUFFER = [Address, Number]

#: Each function: what it answers and what it takes.
FUNCTIONS = {
    "tillsparrow_inspect": (Inspected, [*BUFFER, ctypes.c_bool, *LIMITS, Number]),
    "tillsparrow_decode": (Decoded, [*BUFFER, Record, *BUFFER, *BUFFER, Number]),
    "tillsparrow_settle": (Settled, [*BUFFER, *LIMITS, Number, *BUFFER]),
    "tillsparrow_comment": (Part, [*BUFFER, Number]),
    "tillsparrow_has_comment": (Presence, [*BUFFER, Number, *LIMITS, Number]),
}


def place() -> Path:
    """The path of the shared library: the one that the variable names, else the installed module's own, else the checkout's. An
    empty variable counts as none."""
    named = os.environ.get(VARIABLE)
    if named:
        return Path(named).absolute()
    for path in (OWN, BUILT):
        if path.is_file():
            return path
    raise ImportError(
        f"tillsparrow: there is neither {OWN} nor {BUILT}: install the repository's folder bindings/python with pip, "
        f"or run ./library at the top of the repository, or set {VARIABLE} to the path of libtillsparrow.so")


def load() -> ctypes.CDLL:
    """The library with its functions declared, or an ImportError that says what is wrong with it."""
    path = place()
    try:
        library = ctypes.CDLL(str(path))
    except OSError as error:
        raise ImportError(f"tillsparrow: {path} cannot be loaded: {error}") from None
    for name, (answer, takes) in FUNCTIONS.items():
        try:
            function = getattr(library, name)
        except AttributeError:
            raise ImportError(f"tillsparrow: {path} has no function {name}") from None
        function.restype, function.argtypes = answer, takes
    return library


library = load()
