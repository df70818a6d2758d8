"""Bitmaps against Python's sets, and against forms laid out by the rules."""

from __future__ import annotations

import copy
import operator
import pickle
import random
import tracemalloc
import unittest
from array import array
from collections import deque

from barcovento import Bitmap, Refused, combine
from support import Case, foreign, form, hexed, random_set, sample

LAST = 2_097_151

# The worked examples of the rules.
EXAMPLES = {
    "01 00 00 00 00 00": set(),
    "01 01 00 00 01 00 00 00 01 00": {0},
    "01 03 00 00 01 00 00 00 03 00 22 FF": {0, 34, 255},
    "01 01 00 00 02 00 01 00 00 40 00": {256},
    "01 02 00 00 02 00 00 00 01 00 00": {0, 256},
}

# Forms of other writers.
FOREIGN = {
    "01 01 00 00 02 00 10 01 00 01 80 00": {256},
    "01 01 00 00 02 00 10 01 00 00 80 00": {0},
    "01 00 00 00 01 00 00 00 00": set(),
}

OPERATIONS = {
    "union": operator.or_,
    "intersection": operator.and_,
    "difference": operator.sub,
    "symmetric_difference": operator.xor,
}


class Forms(Case):
    """What is written, and what is read."""

    def test_worked_examples(self) -> None:
        for words, members in EXAMPLES.items():
            self.assertEqual(bytes(Bitmap(members)), hexed(words))
            self.assertEqual(set(Bitmap.from_bytes(hexed(words))), members)

    def test_other_writers(self) -> None:
        for words, members in FOREIGN.items():
            bitmap = Bitmap.from_bytes(hexed(words))
            self.assertEqual(bitmap, Bitmap(members))
            self.assertEqual(bytes(bitmap), form(members))

    def test_samples(self) -> None:
        expected = {"zone": {0, 34, 255}, "dense": set(range(32)), "last": {LAST}}
        for name, members in expected.items():
            data = sample(f"{name}.bitmap")
            self.assertEqual(bytes(Bitmap(members)), data)
            self.assertEqual(Bitmap.check(data), len(members))
            self.assertEqual(list(Bitmap.from_bytes(data)), sorted(members))

    def test_lengths_of_the_rules(self) -> None:
        self.assertEqual(len(bytes(Bitmap(range(31)))), 40)
        self.assertEqual(len(bytes(Bitmap(range(32)))), 41)
        self.assertEqual(len(bytes(Bitmap([LAST]))), 105)

    def test_longest_forms(self) -> None:
        rng = random.Random(3)
        everything = Bitmap(range(LAST + 1))
        self.assertEqual(len(everything), LAST + 1)
        self.assertEqual(everything.max(), LAST)
        for count in (31, 32, 33):
            members = {256 * k + low for k in range(8192) for low in rng.sample(range(256), count)}
            self.assertEqual(bytes(Bitmap(members)), form(members))
        mixed = {256 * k + low for k in range(8192) for low in range(0 if k % 9 else 40)}
        mixed |= {256 * k + 7 for k in range(8192)}
        self.assertEqual(bytes(Bitmap(mixed)), form(mixed))

    def test_random_sets(self) -> None:
        rng = random.Random(1)
        for _ in range(150):
            members = random_set(rng)
            bitmap = Bitmap(members)
            self.assertEqual(bytes(bitmap), form(members))
            other = foreign(members, rng)
            self.assertEqual(Bitmap.check(other), len(members))
            self.assertEqual(Bitmap.from_bytes(other), bitmap)
            self.same(list(bitmap), sorted(members))

    def test_any_bytes_like(self) -> None:
        data = sample("zone.bitmap")
        for lent in (bytearray(data), memoryview(data), memoryview(data + data)[: len(data)]):
            self.assertEqual(bytes(Bitmap.from_bytes(lent)), data)
            self.assertEqual(Bitmap.check(lent), 3)
        every_second = memoryview(bytes(b for byte in data for b in (byte, 0)))[::2]
        self.assertEqual(bytes(Bitmap.from_bytes(every_second)), data)
        for wrong in (5, "01", None, [1, 0, 0, 0, 0, 0]):
            self.assertRaises(TypeError, Bitmap.from_bytes, wrong)
            self.assertRaises(TypeError, Bitmap.check, wrong)


class Positions(Case):
    """Making bitmaps from positions."""

    def test_any_order_and_repeats(self) -> None:
        self.assertEqual(list(Bitmap([255, 0, 34, 0, 255])), [0, 34, 255])
        self.assertEqual(list(Bitmap(iter((9, 3)))), [3, 9])
        self.assertEqual(list(Bitmap({True, 5})), [1, 5])
        self.assertEqual(list(Bitmap()), [])

    def test_out_of_range(self) -> None:
        for wrong in ([LAST + 1], [-1], [3, 1 << 32], [1 << 90], [-(1 << 90), 4]):
            with self.assertRaises(Refused) as caught:
                Bitmap(wrong)
            self.assertEqual(caught.exception.number, 12)
            self.assertIsNone(caught.exception.fault)

    def test_no_integers(self) -> None:
        for wrong in ([1.0], ["1"], [None], "12", 5, b"\x01\x02", bytearray(3), memoryview(b"12")):
            self.assertRaises(TypeError, Bitmap, wrong)

    def test_from_positions(self) -> None:
        for given in ([], [5], [0, 34, 255], [255, 0, 34, 0], [LAST, 0], [0, LAST]):
            for code in "IHLQbq":
                if max(given, default=0) < 1 << 7 or code in "ILQq":
                    bitmap = Bitmap.from_positions(array(code, given))
                    self.assertEqual(list(bitmap), sorted(set(given)))
        for wrong in (array("I", [LAST + 1]), array("I", [7, 1 << 31, 3]), array("q", [-1])):
            self.assertRaises(Refused, Bitmap.from_positions, wrong)
        self.assertRaises(TypeError, Bitmap.from_positions, array("d", [1.0]))

    def test_positions(self) -> None:
        for members in (set(), {7}, set(range(0, 100_000, 3))):
            given = Bitmap(members).positions()
            self.assertEqual(given.itemsize, 4)
            self.same(list(given), sorted(members))


class Questions(Case):
    """Members, ranks, ends."""

    def test_members(self) -> None:
        rng = random.Random(2)
        for _ in range(40):
            members = random_set(rng)
            bitmap = Bitmap(members)
            self.assertEqual(len(bitmap), len(members))
            self.assertEqual(bool(bitmap), bool(members))
            near = [m + step for m in rng.sample(sorted(members), min(9, len(members)))
                    for step in (-1, 0, 1)]
            for asked in [*near, 0, LAST, LAST + 1, -1, 1 << 31, 1 << 32, (1 << 32) + 1]:
                self.assertEqual(asked in bitmap, asked in members)
                self.assertEqual(bitmap.rank(asked), sum(m < asked for m in members))

    def test_other_objects_are_no_members(self) -> None:
        bitmap = Bitmap([0, 1])
        for other in (0.0, 1.5, "0", None, b"\x00", (0,), [0], object()):
            self.assertNotIn(other, bitmap)
        self.assertIn(True, bitmap)
        self.assertRaises(TypeError, bitmap.rank, 1.0)

    def test_ends(self) -> None:
        rng = random.Random(4)
        for members in [{0}, {LAST}, {0, LAST}, {255, 256}, *(random_set(rng) for _ in range(30))]:
            if members:
                self.assertEqual(Bitmap(members).min(), min(members))
                self.assertEqual(Bitmap(members).max(), max(members))
        self.assertRaises(ValueError, Bitmap().min)
        self.assertRaises(ValueError, Bitmap().max)

    def test_iteration_goes_by_pages(self) -> None:
        members = range(0, 200_000, 2)
        listing = iter(Bitmap(members))
        self.assertEqual(next(listing), 0)
        self.assertEqual(next(listing), 2)
        self.same(list(listing), list(members[2:]))

    def test_iteration_takes_little_memory(self) -> None:
        bitmap = Bitmap(range(400_000))
        tracemalloc.start()
        self.addCleanup(tracemalloc.stop)
        deque(bitmap, maxlen=0)
        self.assertLess(tracemalloc.get_traced_memory()[1], 2_000_000)


class Combining(Case):
    """Operators and methods as those of frozenset."""

    def test_against_sets(self) -> None:
        rng = random.Random(5)
        for _ in range(80):
            a, b = random_set(rng), random_set(rng)
            if rng.random() < 0.3:
                b = a | b if rng.random() < 0.5 else a & b
            for name, operate in OPERATIONS.items():
                expected = form(operate(a, b))
                self.assertEqual(bytes(operate(Bitmap(a), Bitmap(b))), expected)
                self.assertEqual(bytes(getattr(Bitmap(a), name)(b)), expected)
                self.assertEqual(bytes(combine(name, foreign(a, rng), Bitmap(b))), expected)
            for compare in (operator.le, operator.lt, operator.ge, operator.gt, operator.eq):
                self.assertEqual(compare(Bitmap(a), Bitmap(b)), compare(a, b))
            for name in ("isdisjoint", "issubset", "issuperset"):
                self.assertEqual(getattr(Bitmap(a), name)(b), getattr(a, name)(b))

    def test_many_at_once(self) -> None:
        a, b, c = {1, 2, 3, 600}, {3, 4, 600}, {3, 5}
        for name in ("union", "intersection", "difference"):
            for others in ((), (b,), (b, c), ([4, 3, 3], Bitmap(c), range(4))):
                expected = getattr(a, name)(*others)
                self.assertEqual(set(getattr(Bitmap(a), name)(*others)), expected)
            expected = getattr(a, name)(iter(b))
            self.assertEqual(set(getattr(Bitmap(a), name)(iter(b))), expected)

    def test_other_operands(self) -> None:
        bitmap = Bitmap([1])
        orders = (operator.le, operator.lt, operator.ge, operator.gt)
        for other in ({1}, [1], frozenset(), b"", None):
            for operate in (*OPERATIONS.values(), *orders):
                self.assertRaises(TypeError, operate, bitmap, other)
                self.assertRaises(TypeError, operate, other, bitmap)
            self.assertNotEqual(bitmap, other)
        self.assertRaises(Refused, bitmap.union, [-1])
        self.assertRaises(TypeError, bitmap.union, ["x"])

    def test_combine(self) -> None:
        self.assertRaises(ValueError, combine, "plus", Bitmap(), Bitmap())
        self.assertRaises(TypeError, combine, "union", [1], Bitmap())

    def test_fault_of_the_input_at_fault(self) -> None:
        good, short = sample("zone.bitmap"), b"\x01\x00"
        old = b"\x02" + good[1:]
        cases = ((short, good, 1), (good, old, 2), (old, short, 2), (short, old, 1))
        for name in OPERATIONS:
            for a, b, number in cases:
                with self.assertRaises(Refused) as caught:
                    combine(name, a, b)
                self.assertEqual(caught.exception.number, number)
                self.assertEqual(caught.exception.fault.number, number)


class Objects(Case):
    """What every Python object is expected to do."""

    def test_equal_and_hash(self) -> None:
        a, b = Bitmap([1, 300]), Bitmap.from_bytes(foreign({1, 300}, random.Random(9)))
        self.assertEqual(a, b)
        self.assertEqual(len({a, b, Bitmap([1])}), 2)

    def test_repr(self) -> None:
        self.assertEqual(repr(Bitmap([0, 34, 255])), "Bitmap(3 positions, 12 bytes)")
        self.assertEqual(repr(Bitmap([0])), "Bitmap(1 position, 10 bytes)")

    def test_pickle_and_copy(self) -> None:
        bitmap = Bitmap(range(0, 5000, 7))
        for protocol in range(pickle.HIGHEST_PROTOCOL + 1):
            self.assertEqual(pickle.loads(pickle.dumps(bitmap, protocol)), bitmap)
        self.assertEqual(copy.copy(bitmap), bitmap)
        self.assertEqual(copy.deepcopy([bitmap]), [bitmap])
        self.assertEqual(bitmap.copy(), bitmap)

    def test_does_not_change(self) -> None:
        bitmap = Bitmap([1])
        for name in ("_form", "other"):
            self.assertRaises(AttributeError, setattr, bitmap, name, b"")
            self.assertRaises(AttributeError, delattr, bitmap, name)
        bitmap.__init__([2])
        self.assertEqual(list(bitmap), [1])
        before = bitmap
        bitmap |= Bitmap([2])
        self.assertEqual((list(before), list(bitmap)), ([1], [1, 2]))


if __name__ == "__main__":
    unittest.main()
