"""Files as cameras and tools write them: read as djpeg reads them, at the exact price, and refused by the right number with nothing
written."""
import dataclasses
import random
import sys
import unittest
from concurrent.futures import ThreadPoolExecutor

import tillsparrow
from tillsparrow import MOST, Inspected, Limits, Record, Refused

from . import files


def refusal(call, *arguments, **named):
    """The number of the refusal and what is left, or 0 and None where there is none."""
    try:
        call(*arguments, **named)
    except Refused as refused:
        return refused.number, refused.left
    return 0, None


class Samples(unittest.TestCase):
    def test_samples_are_those_of_djpeg(self):
        samples = different = 0
        for name, jpeg in files.accepted():
            ours, theirs = tillsparrow.read(jpeg), files.by_djpeg(jpeg)
            self.assertEqual((ours.channels, ours.width, ours.height), theirs[:3], name)
            self.assertEqual(len(ours.samples), len(theirs[3]), name)
            gaps = [abs(a - b) for a, b in zip(ours.samples, theirs[3])]
            self.assertLessEqual(max(gaps), 1 if ours.channels == 1 else 3, name)
            samples += len(gaps)
            different += sum(1 for gap in gaps if gap)
        self.assertLess(5 * different, samples)
        share = 100 * different / samples
        print(f"held: {len(files.accepted())} files, {samples} samples, {share:.2f} % of them off djpeg's by at most 3", file=sys.stderr)

    def test_forms_are_what_they_were_made_to_be(self):
        def seen(options):
            record = tillsparrow.inspect(files.encoded(options, files.tray, 120, 90)).record
            return record.channels, record.across, record.down, record.interval > 0
        self.assertEqual(seen(["-grayscale"]), (1, (1, 0, 0, 0), (1, 0, 0, 0), False))
        self.assertEqual(seen(["-sample", "1x1"]), (3, (1, 1, 1, 0), (1, 1, 1, 0), False))
        self.assertEqual(seen(["-sample", "2x1"]), (3, (2, 1, 1, 0), (1, 1, 1, 0), False))
        self.assertEqual(seen(["-sample", "2x2", "-restart", "3B"]), (3, (2, 1, 1, 0), (2, 1, 1, 0), True))
        self.assertEqual(seen(["-sample", "2x2,1x2,1x2"]), (3, (2, 1, 1, 0), (2, 2, 2, 0), False))
        self.assertEqual(seen(["-sample", "1x1,2x2,1x2", "-restart", "3B"]), (3, (1, 2, 1, 0), (1, 2, 2, 0), True))
        self.assertEqual(seen(["-sample", "4x2"]), (3, (4, 1, 1, 0), (2, 1, 1, 0), False))

    def test_both_choices_of_colour_are_kept(self):
        data = files.docs_tray()
        coded, coloured = (tillsparrow.inspect(data, colour).record for colour in (False, True))
        self.assertEqual((coded.colour, coloured.colour), (0, 1))
        self.assertEqual(dataclasses.replace(coded, colour=1), coloured)
        plain = tillsparrow.decode(data, coded).output
        self.assertNotEqual(plain, tillsparrow.decode(data, coloured).output)
        luma = files.by_djpeg(data, ["-grayscale"])[3]
        self.assertTrue(all(abs(a - b) <= 1 for a, b in zip(plain[::3], luma)))

    def test_a_path_is_read(self):
        path = files.ROOT / "docs" / "tray.jpg"
        picture = tillsparrow.read(files.docs_tray())
        self.assertEqual(tillsparrow.read(path), picture)
        self.assertEqual(tillsparrow.read(str(path)), picture)
        self.assertEqual(tillsparrow.settled(path), tillsparrow.settled(files.docs_tray()))
        self.assertRaises(FileNotFoundError, tillsparrow.read, "no such file.jpg")

    def test_threads_read_one_file(self):
        data = files.docs_tray()
        picture = tillsparrow.read(data)
        with ThreadPoolExecutor(4) as readers:
            self.assertTrue(all(read == picture for read in readers.map(tillsparrow.read, [data] * 40)))


class Prices(unittest.TestCase):
    def test_each_call_takes_exactly_its_price(self):
        for name, jpeg in files.accepted():
            record = tillsparrow.inspect(jpeg).record
            head = 2 * len(jpeg) + 1
            price = head + record.work
            for extra in (0, 7):
                left = (tillsparrow.inspect(jpeg, budget=price + extra).left, tillsparrow.settle(jpeg, budget=price + extra).left,
                        tillsparrow.has_comment(jpeg, 0, budget=price + extra).left,
                        tillsparrow.decode(jpeg, record, budget=price + extra).left)
                self.assertEqual(left, (extra,) * 4, name)
            for budget, behind in ((price - 1, record.work - 1), (head, 0), (head - 1, head - 1), (0, 0)):
                self.assertEqual(refusal(tillsparrow.inspect, jpeg, budget=budget), (2, behind), name)
                self.assertEqual(refusal(tillsparrow.settle, jpeg, budget=budget), (2, behind), name)
                self.assertEqual(refusal(tillsparrow.has_comment, jpeg, 0, budget=budget), (2, behind), name)
                self.assertEqual(refusal(tillsparrow.decode, jpeg, record, budget=budget), (2, budget), name)

    def test_limits_are_kept(self):
        data = files.docs_tray()
        record = tillsparrow.inspect(data).record
        most, behind = max(record.output, record.scratch), MOST - 2 * len(data) - 1
        fits = Limits(len(data), 144, most)
        calls = (lambda limits: tillsparrow.inspect(data, limits=limits), lambda limits: tillsparrow.settle(data, limits=limits),
                 lambda limits: tillsparrow.has_comment(data, 0, limits), lambda limits: tillsparrow.read(data, limits))
        for call in calls:
            self.assertEqual(refusal(call, fits), (0, None))
            self.assertEqual(refusal(call, dataclasses.replace(fits, input=len(data) - 1)), (1, MOST))
            self.assertEqual(refusal(call, dataclasses.replace(fits, side=143)), (6, behind))
            self.assertEqual(refusal(call, dataclasses.replace(fits, output=most - 1)), (6, behind))


class Refusals(unittest.TestCase):
    def all_refuse(self, name, data, number):
        room = bytearray(b"\x07" * (2 * len(data)))
        calls = (tillsparrow.inspect, tillsparrow.settle, tillsparrow.read, tillsparrow.settled, tillsparrow.comments,
                 lambda data: tillsparrow.inspect(data, False), lambda data: tillsparrow.settle(data, room),
                 lambda data: tillsparrow.has_comment(data, 0))
        for call in calls:
            self.assertEqual(refusal(call, data)[0], number, name)
        self.assertEqual(room, b"\x07" * (2 * len(data)), name)
        self.assertEqual(tillsparrow.comment(data, 0), b"", name)

    def test_other_files_are_refused_by_number(self):
        plain = files.encoded(["-sample", "2x2"], files.tray, 64, 64)
        noted = files.run(["wrjpgcom", "-comment", "row B"], plain)
        self.all_refuse("progressive", files.encoded(["-progressive"], files.tray, 64, 64), 5)
        self.all_refuse("arithmetic", files.encoded(["-arithmetic"], files.tray, 64, 64), 5)
        self.all_refuse("cut in the scan", noted[:-40], 3)
        self.all_refuse("cut in the last marker", noted[:-1], 4)
        self.all_refuse("a byte behind the end", plain + b"\0", 4)
        self.all_refuse("cut in the head", noted[:100], 3)
        self.all_refuse("empty", b"", 4)
        self.all_refuse("no JPEG", b"GIF89a and so on", 4)

    def test_no_cut_file_is_accepted(self):
        data = files.docs_tray()
        for length in range(0, len(data), 7):
            self.assertIn(refusal(tillsparrow.inspect, data[:length])[0], (3, 4), length)

    def test_damaged_files_are_answered(self):
        source, seen = random.Random(5), {}
        for _ in range(300):
            data = bytearray(files.docs_tray())
            for _ in range(source.randrange(1, 4)):
                data[source.randrange(source.choice((620, len(data))))] = source.randrange(256)
            limits = Limits(output=1 << 24)
            number = refusal(tillsparrow.inspect, data, limits=limits)[0]
            self.assertEqual(refusal(tillsparrow.read, data, limits)[0], number)
            self.assertEqual(refusal(tillsparrow.has_comment, data, 0, limits)[0], number)
            seen[number] = seen.get(number, 0) + 1
        self.assertTrue({0, 4, 5, 10, 11} <= seen.keys(), seen)
        print(f"held: 300 damaged files answered, {seen[0]} of them accepted", file=sys.stderr)

    def test_a_refused_decode_writes_nothing(self):
        data = files.docs_tray()
        record = tillsparrow.inspect(data).record
        behind = MOST - 2 * len(data) - 1 - record.work

        def tried(record, output, scratch, budget=MOST):
            rooms = bytearray(b"\x05" * output), bytearray(b"\x06" * scratch)
            answer = refusal(tillsparrow.decode, data, record, *rooms, budget)
            self.assertEqual(rooms, (b"\x05" * output, b"\x06" * scratch))
            return answer
        self.assertEqual(tried(record, record.output - 1, record.scratch), (7, MOST))
        self.assertEqual(tried(record, record.output, record.scratch - 1), (7, MOST))
        self.assertEqual(tried(record, record.output, record.scratch, 100), (2, 100))
        self.assertEqual(tried(dataclasses.replace(record, width=143), record.output, record.scratch), (8, behind))

    def test_a_changed_record_is_not_the_files(self):
        data = files.docs_tray()
        own = tillsparrow.inspect(data, False).record
        room = bytearray(own.output + 1), bytearray(own.scratch + 1)
        changes = 0
        for field in dataclasses.fields(Record):
            value = getattr(own, field.name)
            if isinstance(value, int):
                changed = [value + 1]
            else:
                changed = [value[:i] + (value[i] + 1,) + value[i + 1:] for i in range(len(value))]
            for other in changed:
                number = refusal(tillsparrow.decode, data, dataclasses.replace(own, **{field.name: other}), *room)[0]
                # Both choices of colour are the file's.
                self.assertEqual(number, 0 if field.name == "colour" else 8, field.name)
                changes += 1
        self.assertEqual(changes, 46)
        for colour in (2, 256, 2**32, MOST):
            self.assertEqual(refusal(tillsparrow.decode, data, dataclasses.replace(own, colour=colour), *room)[0], 8, colour)
        self.assertEqual(refusal(tillsparrow.decode, data, Record(), *room)[0], 8)


class Settling(unittest.TestCase):
    def test_settling_twice_is_settling_once(self):
        for name, jpeg in files.accepted():
            once = tillsparrow.settled(jpeg)
            self.assertEqual(tillsparrow.settled(once), once, name)
            self.assertEqual(tillsparrow.read(once), tillsparrow.read(jpeg), name)
            self.assertEqual(files.by_djpeg(once), files.by_djpeg(jpeg), name)
            room = bytearray(b"\x09" * (len(once) + 5))
            made = tillsparrow.settle(jpeg, room)
            self.assertIs(made.output, room)
            self.assertEqual((made.length, room), (len(once), once + b"\x09" * 5), name)
            short = bytearray(b"\x03" * (len(once) - 1))
            with self.assertRaises(Refused) as raised:
                tillsparrow.settle(jpeg, short)
            refused = raised.exception
            self.assertEqual((refused.number, refused.left, refused.needed), (7, made.left, len(once)), name)
            self.assertEqual(short, b"\x03" * (len(once) - 1), name)

    def test_fill_changes_the_price_alone(self):
        """Fill bytes in the scan cost 2 each, and settling leaves them out."""
        for name, jpeg in files.accepted():
            record = tillsparrow.inspect(jpeg).record
            filled = files.with_fill(jpeg, record.start)
            self.assertGreaterEqual(len(filled), len(jpeg) + 3, name)
            self.assertEqual(tillsparrow.inspect(filled, budget=2 * len(filled) + 1 + record.work), Inspected(record, 0), name)
            self.assertEqual(tillsparrow.read(filled), tillsparrow.read(jpeg), name)
            self.assertEqual(tillsparrow.settled(filled), tillsparrow.settled(jpeg), name)


class Comments(unittest.TestCase):
    def test_comments_are_parts_of_the_callers_bytes(self):
        plain = files.encoded(["-sample", "2x2"], files.tray, 64, 64)
        one = files.run(["wrjpgcom", "-comment", "tray 7, row B"], plain)
        two = files.run(["wrjpgcom", "-comment", "counted twice"], one)
        empty = files.with_comment(two, b"")
        self.assertEqual(tillsparrow.comments(plain), [])
        self.assertEqual(tillsparrow.comments(one), [b"tray 7, row B"])
        self.assertEqual(tillsparrow.comments(two), [b"tray 7, row B", b"counted twice"])
        self.assertEqual(tillsparrow.comments(empty), [b"", b"tray 7, row B", b"counted twice"])
        there = [tillsparrow.has_comment(empty, i).there for i in (0, 1, 2, 3, MOST)]
        self.assertEqual(there, [True, True, True, False, False])
        self.assertEqual((tillsparrow.comment(empty, 3), tillsparrow.comment(empty, MOST)), (b"", b""))
        self.assertTrue(all(text.obj is empty for text in tillsparrow.comments(empty)))

    def test_a_comment_is_no_copy(self):
        own = bytearray(files.with_comment(files.docs_tray(), b"tray 36"))
        text = tillsparrow.comment(own, 0)
        self.assertEqual(text, b"tray 36")
        own[6:10] = b"TRAY"
        self.assertEqual(text, b"TRAY 36")
        text[5:] = b"37"
        self.assertEqual(own[6:13], b"TRAY 37")
        inner = tillsparrow.comment(memoryview(b"--" + own)[2:], 0)
        self.assertEqual(inner, b"TRAY 37")
