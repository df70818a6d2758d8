"""NumPy arrays of columns and positions."""

from __future__ import annotations

import random
import sys
import unittest
from decimal import Decimal

from barcovento import Bitmap, Block, Bucket, Column, Refused, Schema, Type
from support import (
    Case,
    block_bytes,
    bucket_bytes,
    hexed,
    random_column,
    random_set,
    random_value,
    sample,
    schema_bytes,
)

try:
    import numpy
except ImportError:
    numpy = None


def tables() -> tuple[Block, Bucket]:
    """The sample block and bucket."""
    schema = Schema(sample("readings.schema"))
    return Block(schema, sample("readings.block")), Bucket(schema, 3, sample("readings.bucket"))


def setUpModule() -> None:
    """One plain line where NumPy is missing."""
    if numpy is None:
        print("NumPy is missing: the tests of its arrays are not run", file=sys.stderr)
        raise unittest.SkipTest("NumPy is missing")


class Columns(Case):
    """Columns as masked arrays."""

    def test_samples(self) -> None:
        for table in tables():
            counts, nanos = table.array(0)
            self.assertEqual(counts.tolist(), [1794700000000, 1794700001000, 1794700002000])
            self.assertEqual(nanos.tolist(), [0, 0, 0])
            self.assertEqual(table.array(1).tolist(), [1250, None, -3])
            self.assertEqual(table.array(1).dtype, numpy.int64)
            self.assertEqual(table.array(2).dtype, numpy.float32)
            self.assertEqual(table.array(2).tolist(), table.column(2))
            starts, lengths = table.array(3)
            data = bytes(table)
            texts = [
                None if start is None else data[start : start + length].decode()
                for start, length in zip(starts.tolist(), lengths.tolist())
            ]
            self.assertEqual(texts, table.column(3))
            self.assertRaises(Refused, table.array, 4)

    def test_random_tables(self) -> None:
        rng = random.Random(11)
        for turn in range(60):
            columns = [random_column(rng) for _ in range(rng.choice([1, 3, 17]))]
            bucket = turn % 2 == 1
            rows = [
                tuple(random_value(column, rng, bucket) for column in columns)
                for _ in range(rng.choice([0, 1, 50]))
            ]
            schema = schema_bytes(columns)
            if bucket:
                table = Bucket(schema, len(rows), bucket_bytes(columns, rows))
            else:
                table = Block(schema, block_bytes(columns, rows))
            for at in range(len(columns)):
                self.compare(table, at)

    def compare(self, table: Block | Bucket, at: int) -> None:
        """An array against the column's list."""
        values, array, column = table.column(at), table.array(at), table.schema[at]
        name = column.type.name
        if name == "TIMESTAMP":
            pairs = zip(array[0].tolist(), array[1].tolist())
            self.assertEqual([None if c is None else (c, n) for c, n in pairs], values)
        elif isinstance(array, tuple):
            data = bytes(table)
            pairs = zip(array[0].tolist(), array[1].tolist())
            places = [None if start is None else data[start : start + n] for start, n in pairs]
            self.assertEqual([self.meant(column, place) for place in places], values)
        elif name == "DECIMAL":
            scaled = [None if v is None else int(v.scaleb(column.scale)) for v in values]
            self.assertEqual(array.tolist(), scaled)
        else:
            self.assertEqual(array.tolist(), values)
            widths = {"BOOLEAN": "bool", "FLOAT": "float32", "DOUBLE": "float64"}
            self.assertEqual(array.dtype, widths.get(name, "int64"))

    @staticmethod
    def meant(column: Column, place: bytes | None) -> object:
        """What the bytes at a place mean."""
        if place is None:
            return None
        if column.type == Type.DECIMAL:
            whole = int.from_bytes(place, "big", signed=True)
            digits = tuple(map(int, str(abs(whole))))
            return Decimal((int(whole < 0), digits, -column.scale))
        return place.decode() if column.type <= Type.STRING else place

    def test_many_pages(self) -> None:
        columns = [(3, False, 0, 0), (1, True, 0, 0)]
        rows = [(at, None if at % 3 else at % 100) for at in range(65_536)]
        table = Bucket(schema_bytes(columns), 65_536, bucket_bytes(columns, rows))
        self.assertEqual(table.array(0).sum(), sum(range(65_536)))
        self.same(table.array(1).tolist(), [row[1] for row in rows])

    def test_nan_keeps_its_bits(self) -> None:
        block = Block(hexed("01 05 00"), hexed("00 01 00 80 FF 00 00 00 00 01 00 00 00"))
        self.assertEqual(block.array(0).data.tobytes(), hexed("01 00 80 FF"))


class Positions(Case):
    """Positions in and out of bitmaps."""

    def test_there_and_back(self) -> None:
        rng = random.Random(12)
        for _ in range(40):
            members = random_set(rng)
            bitmap = Bitmap(members)
            given = bitmap.positions()
            self.assertEqual(given.dtype, numpy.uint32)
            self.same(given.tolist(), sorted(members))
            for kind in ("uint32", "int64", "uint64", "int32"):
                self.assertEqual(Bitmap.from_positions(given.astype(kind)), bitmap)
            mixed = rng.sample(sorted(members), len(members)) * 2
            self.assertEqual(Bitmap.from_positions(numpy.array(mixed, dtype="int64")), bitmap)
            self.assertEqual(Bitmap(numpy.array(mixed, dtype="uint32")), bitmap)

    def test_a_frame(self) -> None:
        frame = numpy.random.default_rng(13).random((480, 640))
        hot = Bitmap.from_positions(numpy.flatnonzero(frame > 0.8))
        self.same(list(hot), [at for at, t in enumerate(frame.ravel()) if t > 0.8])
        self.assertEqual(Bitmap.from_positions(numpy.arange(600).reshape(2, 300)[:, ::2]),
                         Bitmap(range(0, 600, 2)))

    def test_wrong_arrays(self) -> None:
        for wrong in ([-1], [2_097_152], [1 << 40], [5, -1, 7]):
            with self.assertRaises(Refused) as caught:
                Bitmap.from_positions(numpy.array(wrong))
            self.assertEqual(caught.exception.number, 12)
        for wrong in (numpy.array([1.0]), numpy.array([True]), numpy.array(["1"])):
            self.assertRaises(TypeError, Bitmap.from_positions, wrong)
        self.assertIn(numpy.int64(3), Bitmap([3]))
        self.assertEqual(Bitmap([numpy.uint8(3)]), Bitmap([3]))


if __name__ == "__main__":
    unittest.main()
