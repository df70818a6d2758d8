"""Every refusal that a caller can meet, with its words."""

from __future__ import annotations

import pickle
import re
import unittest
from collections.abc import Callable
from typing import Any

from barcovento import Bitmap, Block, Bucket, Fault, Refused, Schema, Store, read_number
from barcovento.library import _CALLS
from barcovento.refusals import WORDS
from support import ROOT, hexed, number, sample

# Damaged bitmaps: the bytes, the fault (number, index, byte, found, wanted), the words.
BITMAPS = [
    ("01 00 00 00 00", (1, 0, 0, 5, 6), "5 bytes, under 6"),
    ("03 00 00 00 00 00", (2, 0, 0, 3, 1), "version 3, not 1"),
    ("01 00 00 00 28 23", (3, 0, 4, 9000, 8192), "9000 containers, over 8192"),
    (
        "01 00 00 00 00 03 00 00 00 00 00 00 01 00 00" + 31 * " 00",
        (4, 2, 12, 0, 0),
        "chunk 2 at byte 12: descriptors cut short",
    ),
    (
        "01 00 00 00 00 03 00 00 00 09 00 00 00 00 00",
        (5, 1, 9, 0, 0),
        "chunk 1 at byte 9: b1, b2 and e break the width rules",
    ),
    (
        "01 00 00 00 02 00 00 02 00 01 01",
        (6, 0, 10, 0, 0),
        "chunk 0: the exception offset at byte 10 is not rising or too high",
    ),
    ("01 00 00 00 01 00 01 00 00 01", (7, 0, 9, 0, 0), "chunk 0: spare bits set at byte 9"),
    ("01 00 00 00 01 00 00 00 40", (8, 0, 6, 64, 63), "chunk 0 at byte 6: descriptor 64, over 63"),
    (
        "01 01 00 00 01 00 00 00 01 00 00",
        (9, 0, 9, 2, 1),
        "the containers start at byte 9: 2 bytes there, 1 asked for",
    ),
    (
        "01 04 00 00 02 00 00 00 02 01 02 22 22",
        (10, 1, 11, 0, 0),
        "container 1 at byte 11 is not rising, or is dense with under 32 members",
    ),
    (
        "01 03 00 00 01 00 00 00 04 01 02 03 04",
        (11, 0, 1, 3, 4),
        "cardinality 3 stored, 4 counted",
    ),
]

TINY = hexed("01 01 00")  # TINYINT NOT NULL
READINGS = sample("readings.schema")
TOO_LONG = bytes(16_777_217)

# Tables and schemas: the refusal, and what meets it.
TABLES: list[tuple[int, Callable[[], Any]]] = [
    (20, lambda: Schema(b"")),
    (20, lambda: Block(hexed("01 11 00"), bytes(4))),
    (20, lambda: Bucket(hexed("01 01 02"), 0, hexed("01 00 00 00"))),
    (21, lambda: Block(TINY, bytes(3))),
    (21, lambda: Block(TINY, TOO_LONG)),
    (22, lambda: Block(TINY, hexed("FF FF FF FF"))),
    (22, lambda: Block(TINY, hexed("01 00 01 00"))),
    (23, lambda: Block(TINY, hexed("00 05 01 00 00 00 01 00 00 00"))),
    (24, lambda: Block(TINY, hexed("01 00 00 00 00 01 00 00 00"))),
    (25, lambda: Block(READINGS, sample("readings.block")).field(3, 0)),
    (25, lambda: Block(READINGS, sample("readings.block")).field(0, 4)),
    (25, lambda: Block(READINGS, sample("readings.block")).field(-1, 0)),
    (25, lambda: Block(READINGS, sample("readings.block")).column(4)),
    (25, lambda: Block(READINGS, sample("readings.block")).column(-1)),
    (25, lambda: Bucket(READINGS, 3, sample("readings.bucket")).field(0, 4)),
    (25, lambda: Bucket(READINGS, 3, sample("readings.bucket")).field(1 << 40, 0)),
    (25, lambda: Bucket(READINGS, 3, sample("readings.bucket")).column(4)),
    (30, lambda: Bucket(TINY, 1, hexed("02 00 00 00 05"))),
    (30, lambda: Bucket(TINY, 1, hexed("01 01 00 00 05"))),
    (31, lambda: Bucket(TINY, 1, hexed("01 00 00 00"))),
    (32, lambda: Bucket(hexed("01 00 00"), 1, hexed("01 00 00 00 02"))),
    (33, lambda: Bucket(TINY, 1, hexed("01 00 02 00 01 07 00"))),
    (33, lambda: Bucket(TINY, 1, hexed("01 00 02 00 03 07 08 09 03"))),
    (34, lambda: Bucket(TINY, 1, hexed("01 00 80 00 05"))),
    (35, lambda: Bucket(TINY, 1, hexed("01 00 00 01 01"))),
    (36, lambda: Bucket(TINY, 1, hexed("01 00 00 00 05 06"))),
    (37, lambda: Bucket(TINY, 65_537, hexed("01 00 00 00"))),
    (37, lambda: Bucket(TINY, -1, hexed("01 00 00 00"))),
    (37, lambda: Bucket(TINY, 1, TOO_LONG)),
]

BITMAP = Bitmap([0, 34, 255])  # 12 bytes

STORES: list[tuple[int, Callable[[], Any]]] = [
    (13, lambda: Store(23).owner(0).__setitem__(0, BITMAP)),
    (40, lambda: Store(99).owner(0).__setitem__(64, BITMAP)),
    (40, lambda: Store(99).owner(1)[-1]),
    (40, lambda: Store(99).owner(1).pop(1 << 70)),
    (44, lambda: Store(99).owner(0).__setitem__(32, BITMAP)),
    (44, lambda: Store(99).owner(1)[31]),
    (44, lambda: Store(99).owner(1).__delitem__(0)),
    (42, lambda: Store.load(bytes(63), 99)),
    (42, lambda: Store.load(sample("store.saved"), 209)),
    (42, lambda: Store.load(b"\x0b" + sample("store.saved")[1:], 999)),
]


class Refusals(unittest.TestCase):
    """Numbers, words, faults."""

    def refused(self, wanted: int, call: Callable[[], Any]) -> Refused:
        """What the call raised."""
        with self.assertRaises(Refused) as caught:
            call()
        self.assertEqual(caught.exception.number, wanted)
        return caught.exception

    def test_bitmaps(self) -> None:
        for words, fault, said in BITMAPS:
            data = hexed(words)
            for call in (Bitmap.from_bytes, Bitmap.check):
                error = self.refused(fault[0], lambda: call(data))
                self.assertEqual(error.fault, Fault(*fault))
                self.assertEqual(error.words, said)
                self.assertEqual(str(error), f"refused {fault[0]}: {said}")

    def test_tables_and_stores(self) -> None:
        for wanted, call in TABLES + STORES:
            error = self.refused(wanted, call)
            self.assertIsNone(error.fault)
            self.assertEqual(str(error), f"refused {wanted}: {error.words}")

    def test_all_are_reached(self) -> None:
        reached = {fault[0] for _, fault, _ in BITMAPS} | {n for n, _ in TABLES + STORES}
        reached |= {12, 41}  # test_bitmap.py; an empty slot is a KeyError (test_store.py)
        self.assertEqual(reached, set(WORDS))

    def test_the_header_has_the_same_numbers_and_calls(self) -> None:
        header = (ROOT / "include" / "barcovento.h").read_text()
        table = header[header.index("Refusals:") : header.index("#ifndef")]
        numbers = {int(found) for found in re.findall(r"\b(\d+)  \S", table)}
        self.assertEqual(numbers, set(WORDS))
        self.assertEqual(set(re.findall(r"^uint32_t (bv_\w+)", header, re.M)), set(_CALLS))

    def test_is_a_value_error_that_can_be_sent(self) -> None:
        error = self.refused(11, lambda: Bitmap.check(hexed(BITMAPS[-1][0])))
        self.assertIsInstance(error, ValueError)
        sent = pickle.loads(pickle.dumps(error))
        self.assertEqual((str(sent), sent.fault), (str(error), error.fault))

    def test_every_damaged_byte(self) -> None:
        data = sample("zone.bitmap")
        for at in range(len(data)):
            for value in range(256):
                damaged = data[:at] + bytes([value]) + data[at + 1 :]
                try:
                    bitmap = Bitmap.from_bytes(damaged)
                except Refused as error:
                    self.assertEqual(error.number, error.fault.number)
                else:
                    self.assertEqual(len(set(bitmap)), Bitmap.check(damaged))


class Numbers(unittest.TestCase):
    """Numbers in groups of seven bits."""

    def test_numbers(self) -> None:
        for value in (0, 1, 127, 128, 16_383, 16_384, 1 << 31, (1 << 32) - 1):
            short = number(value)
            self.assertEqual(read_number(short + b"\xff"), (value, len(short), True))
            self.assertEqual(read_number(number(value, True)), (value, 5, len(short) == 5))

    def test_faults(self) -> None:
        for data, words in ((b"", "cut short"), (b"\x80" * 4, "cut short"),
                            (b"\x80\x80\x80\x80\x10", "ill-formed")):
            with self.assertRaisesRegex(ValueError, words):
                read_number(data)


if __name__ == "__main__":
    unittest.main()
