"""All comments in one reading of the file: the same texts, and the same refusals, as comment by comment."""
import collections
import io
import random
import sys
import unittest
from unittest import mock

import tillsparrow
from tillsparrow import Refused, _calls, _own

from . import files


def one_by_one(data):
    """What the library's own calls say, a reading for each comment and one more."""
    texts = []
    while tillsparrow.has_comment(data, len(texts)).there:
        texts.append(tillsparrow.comment(data, len(texts)))
    return texts


def answer(call, data):
    """The texts, or the refusal's numbers and what is left of the budget."""
    try:
        return [bytes(text) for text in call(data)]
    except Refused as refused:
        return refused.number, refused.left, refused.block, refused.place


def filled(jpeg, source):
    """The file with fill bytes before some of its segments."""
    start, at, head = tillsparrow.inspect(jpeg).record.start, 2, jpeg[:2]
    while at < start:
        end = at + 2 + int.from_bytes(jpeg[at + 2:at + 4], "big")
        head += b"\xff" * source.choice((0, 0, 1, 2, 300)) + jpeg[at:end]
        at = end
    return head + jpeg[start:]


class AllComments(unittest.TestCase):
    texts = (b"tray 7, row B", b"", b"\xff\xfe\x00\x05abc", b"\xff" * 40, bytes(65533))

    def noted(self, count):
        jpeg = files.encoded(["-sample", "2x2"], files.tray, 32, 32)
        for text in reversed(self.texts[:count]):
            jpeg = files.with_comment(jpeg, text)
        return jpeg

    def test_texts_are_those_of_the_library(self):
        source = random.Random(3)
        for count in range(len(self.texts) + 1):
            jpeg = self.noted(count)
            for data in (jpeg, filled(jpeg, source), bytearray(jpeg), memoryview(b"--" + jpeg)[2:]):
                self.assertEqual(tillsparrow.comments(data), list(self.texts[:count]))
                self.assertEqual(one_by_one(data), list(self.texts[:count]))

    def test_changed_files_are_answered_alike(self):
        source, seen = random.Random(23), collections.Counter()
        sound = filled(self.noted(4), source), files.with_comment(files.with_comment(files.small(), b""), b"row B")
        for turn in range(600):
            data = bytearray(sound[turn % 2])
            head = tillsparrow.inspect(sound[turn % 2]).record.start
            for _ in range(source.randrange(1, 4)):
                data[source.randrange(head)] = source.choice((0, 2, 254, 255, source.randrange(256)))
            told = answer(tillsparrow.comments, data)
            self.assertEqual(told, answer(one_by_one, data), bytes(data))
            seen[told[0] if isinstance(told, tuple) else "texts"] += 1
        self.assertTrue({"texts", 3, 4} <= seen.keys() and seen["texts"] >= 100, seen)
        print(f"held: 600 changed files have the same comments in one reading, {seen['texts']} of them accepted", file=sys.stderr)

    def test_the_file_is_read_once(self):
        called = []
        real = _calls.library.tillsparrow_inspect

        def spied(*arguments):
            called.append(arguments)
            return real(*arguments)
        with mock.patch.object(_calls, "library", mock.Mock(spec=["tillsparrow_inspect"], tillsparrow_inspect=spied)):
            self.assertEqual(len(tillsparrow.comments(self.noted(5))), 5)
        self.assertEqual(len(called), 1)

    def test_texts_are_parts_of_the_callers_bytes(self):
        own = bytearray(files.with_comment(files.docs_tray(), b"tray 36"))
        text, = tillsparrow.comments(own)
        own[6:10] = b"TRAY"
        self.assertEqual(text, b"TRAY 36")

    def test_a_path_is_read(self):
        path = files.ROOT / "docs" / "tray.jpg"
        self.assertEqual((tillsparrow.comments(path), tillsparrow.comments(str(path))), ([], []))
        self.assertRaises(FileNotFoundError, tillsparrow.comments, "no such file.jpg")
        self.assertRaises(TypeError, tillsparrow.comments, io.BytesIO(files.docs_tray()))

    def test_no_bytes_lead_the_walk_astray(self):
        """Bytes may be changed by their owner between the call and the walk: no text then goes beyond them."""
        source = random.Random(11)
        for _ in range(2000):
            data = bytes(source.choice((0, 1, 2, 3, 254, 255, 255)) for _ in range(source.randrange(40)))
            start = source.randrange(60)
            for text in _own.notes(memoryview(data), start):
                self.assertIn(b"\xfe" + (len(text) + 2).to_bytes(2, "big") + bytes(text), data[:start])
        self.assertEqual(_own.notes(memoryview(b"\xff\xd8\xff\xfe\x00\x05abc"), 9), [b"abc"])
        for cut in range(9):
            self.assertEqual(_own.notes(memoryview(b"\xff\xd8\xff\xfe\x00\x05abc"), cut), [])
