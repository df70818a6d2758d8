"""Schemas, blocks and buckets: samples, bytes laid out by hand, random tables."""

from __future__ import annotations

import decimal
import math
import pickle
import random
import struct
import unittest
from decimal import Decimal
from typing import Any

from barcovento import Block, Bucket, Column, Schema, Time, Type
from support import (
    Case,
    block_bytes,
    bucket_bytes,
    hexed,
    random_column,
    random_value,
    sample,
    schema_bytes,
)

BLOCK_ROWS = [
    (Time(1794700000000, 0), 1250, 0.5, "north"),
    (Time(1794700001000, 0), None, -1.0, None),
    (Time(1794700002000, 0), -3, 2.25, ""),
]
BUCKET_ROWS = [*BLOCK_ROWS[:2], (Time(1794700002000, 0), -3, 0.5, None)]

# One row of one column: schema, row without its null byte, bucket value, value.
VALUES: list[tuple[str, str, str, Any]] = [
    ("00 00", "01", "01", True),
    ("01 00", "FF", "FF", -1),
    ("02 00", "FE FF", "FF FE", -2),
    ("03 00", "00 00 00 80", "80 00 00 00", -(1 << 31)),
    ("04 00", "FE FF FF FF FF FF FF FF", "FF FF FF FF FF FF FF FE", -2),
    ("05 00", "00 00 C0 3F", "3F C0 00 00", 1.5),
    ("06 00", "00 00 00 00 00 00 00 80", "80 00 00 00 00 00 00 00", -0.0),
    ("07 00", "07 00 00 00", "00 00 00 07", 7),
    ("08 00 02", "02 68 69", "02 68 69", "hi"),
    ("09 00 01", "02 C3 BC", "02 C3 BC", "ü"),
    ("0A 00", "02 C3 28", "02 C3 28", b"\xc3("),
    ("0B 00 01", "01 61", "01 61", b"a"),
    ("0C 00 00", "00", "00", b""),
    ("0D 00", "02 FF 00", "02 FF 00", b"\xff\x00"),
    ("0E 00 0A 02", "9C FF FF FF FF FF FF FF", "FF FF FF FF FF FF FF 9C", Decimal("-1.00")),
    ("0E 00 13 13", "01 80", "01 80", Decimal("-1.28E-17")),
    ("0E 00 26 00", "02 01 00", "02 01 00", Decimal(256)),
    ("0F 00 09", "10 27 00 00", "00 00 27 10", 10_000),
    ("10 00 03", "FF FF FF FF FF FF FF FF", "FF FF FF FF FF FF FF FF", Time(-1, 0)),
    ("10 00 09", "01 00 00 00 00 00 00 00 BF 84 3D",
     "00 00 00 00 00 00 00 01 00 0F 42 3F", Time(1, 999_999)),
]

NAMES = [
    "BOOLEAN", "TINYINT NOT NULL", "SMALLINT", "INT", "BIGINT", "FLOAT", "DOUBLE", "DATE",
    "CHAR(3)", "VARCHAR(200)", "STRING NOT NULL", "BINARY(1)", "VARBINARY(0)", "BYTES",
    "DECIMAL(10,2)", "TIME(0) NOT NULL", "TIMESTAMP(3) NOT NULL",
]
NAMES_BYTES = hexed(
    "11 0001 0100 0201 0301 0401 0501 0601 0701 080103 0901C801 0A00 0B0101 0C0100 0D01 0E010A02"
    "0F0000 100003"
)


def one_row(value: str) -> bytes:
    """A block of one row of one column that is not null."""
    return b"\0" + hexed(value) + bytes(4) + b"\1\0\0\0"


def stored_bits(value: float) -> bytes:
    """The bits of a double."""
    return struct.pack(">d", value)


class Schemas(Case):
    """Columns and their names."""

    def test_sample(self) -> None:
        schema = Schema(sample("readings.schema"))
        self.assertEqual(
            str(schema), "TIMESTAMP(3) NOT NULL, SMALLINT, FLOAT NOT NULL, VARCHAR(10)"
        )
        self.assertEqual(schema[3], Column(Type.VARCHAR, True, 10, 0))
        self.assertEqual(schema[-1], schema[3])
        self.assertEqual(schema[:1], (Column(Type.TIMESTAMP, False, 3, 0),))
        self.assertEqual(bytes(schema), sample("readings.schema"))

    def test_padded_is_equal(self) -> None:
        plain, padded = Schema(sample("readings.schema")), Schema(sample("padded.schema"))
        self.assertEqual(plain, padded)
        self.assertEqual(hash(plain), hash(padded))
        self.assertNotEqual(bytes(plain), bytes(padded))
        self.assertNotEqual(plain, Schema(hexed("01 01 00")))

    def test_every_type(self) -> None:
        self.assertEqual([str(column) for column in Schema(NAMES_BYTES)], NAMES)
        self.assertEqual([int(column.type) for column in Schema(NAMES_BYTES)], list(range(17)))

    def test_pickle_and_repr(self) -> None:
        schema = Schema(NAMES_BYTES)
        self.assertEqual(pickle.loads(pickle.dumps(schema)), schema)
        self.assertEqual(repr(Schema(hexed("01 01 00"))), "Schema(TINYINT NOT NULL)")


class Samples(Case):
    """The sample tables, plain and padded."""

    def tables(self) -> list[tuple[Any, list[Any]]]:
        """Each table and its rows."""
        out = []
        for name in ("readings", "padded"):
            schema = sample(f"{name}.schema")
            out.append((Block(schema, sample(f"{name}.block")), BLOCK_ROWS))
            out.append((Bucket(Schema(schema), 3, sample(f"{name}.bucket")), BUCKET_ROWS))
        return out

    def test_rows(self) -> None:
        for table, rows in self.tables():
            self.assertEqual(len(table), 3)
            self.same(list(table), rows)
            self.same(list(reversed(table)), rows[::-1])
            for at in range(-3, 3):
                self.assertEqual(table[at], rows[at])
            for wrong in (3, -4):
                self.assertRaises(IndexError, table.__getitem__, wrong)
            self.assertRaises(TypeError, table.__getitem__, "0")

    def test_columns_and_fields(self) -> None:
        for table, rows in self.tables():
            for column in range(4):
                self.assertEqual(table.column(column), [row[column] for row in rows])
                for row in range(3):
                    self.assertEqual(table.field(row, column), rows[row][column])

    def test_sequence(self) -> None:
        for table, rows in self.tables():
            self.assertEqual(table.index(rows[2]), 2)
            self.assertEqual(table.count(rows[1]), 1)
            self.assertIn(rows[0], table)
            self.assertRaises(ValueError, table.index, rows[0], 1)
            self.assertRaises(ValueError, table.index, ("no", "such", "row"))
            self.assertEqual(list(pickle.loads(pickle.dumps(table))), rows)
        block = self.tables()[0][0]
        self.assertEqual(repr(block), f"Block(3 rows of {block.schema})")
        self.assertEqual(bytes(block), sample("readings.block"))


class Values(Case):
    """One value of every type."""

    def test_in_blocks_and_buckets(self) -> None:
        for schema, row, stored, value in VALUES:
            columns = b"\1" + hexed(schema)
            block = Block(columns, one_row(row))
            bucket = Bucket(columns, 1, b"\1\0\0\0" + hexed(stored))
            for given in (block[0][0], block.field(0, 0), bucket[0][0], bucket.field(0, 0)):
                self.assertEqual(given, value)
                self.assertIs(type(given), type(value))
                self.assertEqual(repr(given), repr(value))

    def test_examples_of_the_rules(self) -> None:
        self.assertEqual(
            list(Block(hexed("01 03 00"), hexed("00 05 00 00 00 00 00 00 00 01 00 00 00"))), [(5,)]
        )
        bucket = Bucket(hexed("01 01 00"), 3, hexed("01 00 02 00 02 01 02 02"))
        self.assertEqual(bucket.column(0), [1, 2, 1])

    def test_timestamps_of_middling_precision(self) -> None:
        schema = hexed("01 10 00 06")
        block = Block(schema, one_row("02 00 00 00 00 00 00 00 07"))
        bucket = Bucket(schema, 1, hexed("01 00 00 00 00 00 00 00 00 00 00 02"))
        self.assertEqual((block[0][0], bucket[0][0]), (Time(2, 7), Time(2, 0)))

    def test_nan_keeps_its_bits(self) -> None:
        quiet = Block(hexed("01 06 00"), one_row("01 00 00 00 00 00 F8 FF"))[0][0]
        self.assertEqual(stored_bits(quiet), hexed("FF F8 00 00 00 00 00 01"))
        signalling = Block(hexed("01 05 00"), one_row("01 00 80 FF"))[0][0]
        self.assertTrue(math.isnan(signalling))
        self.assertEqual(stored_bits(signalling), hexed("FF F0 00 00 20 00 00 00"))

    def test_decimals_are_exact(self) -> None:
        whole = -(10**38 - 1)
        stored = whole.to_bytes(17, "big", signed=True)
        block = Block(hexed("01 0E 00 26 05"), one_row("11 " + stored.hex()))
        with decimal.localcontext() as context:
            context.prec = 3
            self.assertEqual(str(block[0][0]), "-" + 33 * "9" + "." + 5 * "9")
        large = (1 << 40_000) - 1
        stored = large.to_bytes(5001, "big", signed=True)
        block = Block(hexed("01 0E 00 13 00"), one_row("89 27 " + stored.hex()))
        self.assertEqual(int(block[0][0]), large)


class RandomTables(Case):
    """Random tables, laid out with shortest and with padded numbers."""

    def random_table(self, rng: random.Random, bucket: bool) -> tuple[Any, list[Any]]:
        """A table and its rows."""
        columns = [random_column(rng) for _ in range(rng.choice([1, 2, 7, 8, 9, 40]))]
        count = rng.choice([0, 1, 5, 60])
        rows = [
            tuple(random_value(column, rng, bucket) for column in columns) for _ in range(count)
        ]
        padded = rng.random() < 0.5
        schema = schema_bytes(columns, padded)
        if bucket:
            return Bucket(schema, count, bucket_bytes(columns, rows, padded)), rows
        return Block(schema, block_bytes(columns, rows, padded)), rows

    def test_against_rows(self) -> None:
        rng = random.Random(8)
        for turn in range(60):
            table, rows = self.random_table(rng, turn % 2 == 1)
            self.same(list(table), rows)
            for column in range(len(table.schema)):
                self.assertEqual(table.column(column), [row[column] for row in rows])
                if rows:
                    row = rng.randrange(len(rows))
                    self.assertEqual(table.field(row, column), rows[row][column])

    def test_pages_and_slices(self) -> None:
        rng = random.Random(10)
        rows = [(at, rng.choice(["", "a", "bc"])) for at in range(65_536)]
        columns = [(3, False, 0, 0), (10, True, 0, 0)]
        schema = schema_bytes(columns)
        block = b"".join(
            b"\0" + at.to_bytes(4, "little") + bytes([len(word)]) + word.encode()
            for at, word in rows
        )
        offsets, end = [], 0
        for _, word in rows:
            offsets.append(end)
            end += 6 + len(word)
        block += struct.pack(f"<{len(offsets)}I", *offsets) + struct.pack("<I", len(rows))
        for table in (Block(schema, block), Bucket(schema, 65_536, bucket_bytes(columns, rows))):
            self.same(list(table), rows)
            self.same(list(reversed(table)), rows[::-1])
            self.same(table.column(0), list(range(65_536)))
            self.assertEqual(table.index(rows[65_000]), 65_000)
            for part in (slice(5, 9), slice(-3, None), slice(None, None, 999), slice(9, 2, -2),
                         slice(None, None, -1), slice(7, 7), slice(30_000, 40_000, 7)):
                self.same(table[part], rows[part])


if __name__ == "__main__":
    unittest.main()
