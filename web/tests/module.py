"""The page's module held against the native library: all that the five calls answer, on real files and on changed ones."""
import base64
import ctypes
import json
import os
import random
import re
import struct
import zlib

import native
from browser import Off, Page
from native import tillsparrow

WEB = os.path.dirname(os.path.dirname(os.path.abspath(__file__)))


def script(name):
    with open(os.path.join(WEB, name), encoding="utf-8") as file:
        return file.read()


def module_of_page():
    packed = re.search(r'^const MODULE = "(.*)";$', script("tillsparrow.html"), re.MULTILINE)
    return zlib.decompress(base64.b64decode(packed[1]))


def text(data):
    return json.dumps(base64.b64encode(data).decode())


def blank(browser, room, *scripts):
    """A page without a policy, with these scripts, or with the library's calls and the tests' own functions."""
    path = os.path.join(room, "blank.html")
    with open(path, "w", encoding="utf-8") as file:
        file.write("<!doctype html><meta charset=utf-8><title>blank</title>")
    page = Page(browser, "file://" + path)
    for name in scripts or ("src/library.js", "tests/answers.js"):
        page.value(script(name) + "\n0")
    return page


def fields(value):
    """A struct by the names of its fields, and an array as a list."""
    if isinstance(value, ctypes.Structure):
        return {name: fields(getattr(value, name)) for name, _ in value._fields_}
    return list(value) if isinstance(value, ctypes.Array) else value


def test_layout(browser, room, shots):
    """library.js finds each number of an answer at the place that the header gives it, and has room for the longest answer. It needs
    no module: the answers are written by the test."""
    page = blank(browser, room)
    got, kinds = page.value("layoutOf()"), tillsparrow._native
    for name, kind in (("inspected", kinds.Inspected), ("settled", kinds.Settled), ("presence", kinds.Presence)):
        count = ctypes.sizeof(kind) // 8
        wanted = fields(kind.from_buffer_copy(struct.pack(f"<{count}Q", 3, *range(102, 101 + count))))
        if got[name] != wanted:
            raise Off(f"{name}: library.js gives {got[name]}, and the header {wanted}")
    needed = ctypes.sizeof(kinds.Inspected), ctypes.sizeof(kinds.Record)
    if got["answer"] < needed[0] or got["record"] < needed[1] or got["settled_bytes"]:
        raise Off(f"library.js keeps {got['answer']} and {got['record']} bytes for an answer and a record, and {needed} are needed; "
                  f"of a refused file it gives {got['settled_bytes']} bytes that are settled")
    page.close()


def test_answers(browser, room, shots):
    """Every answer, and every byte that is written, is that of the native library."""
    page = blank(browser, room)
    page.value(f"WebAssembly.compile(fromBase64({text(module_of_page())})).then(Library.of).then(made => {{ globalThis.library = made; }})")
    source, numbers, compared = random.Random(7), set(), 0
    taken = [*native.whole(), *native.changed()]
    for name, data in taken:
        page.value(f"globalThis.file = fromBase64({text(data)}); 0")
        for asked in native.asked(data, source):
            number, wanted = native.answers(data, asked)
            sent = {key: str(value) if key in ("input", "side", "output", "budget") else value for key, value in asked.items()}
            got = page.value(f"answersOf(library, file, {json.dumps(sent)})")
            if got != wanted:
                parts = [part for part in wanted if got.get(part) != wanted[part]]
                raise Off(f"{name}: the module differs from the native library in {', '.join(parts)}, asked {asked}")
            numbers.add(number)
            compared += len(wanted)
    page.close()
    if not {0, 1, 2, 3, 4, 5, 6, 10, 11} <= numbers:
        raise Off(f"only the numbers {sorted(numbers)} came up")
    return f"{compared} answers of the module on {len(taken)} files, {native.CHANGED} of them changed, are the native library's"
