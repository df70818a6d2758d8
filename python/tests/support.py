"""What the tests compare the package with: readers and writers made from the rules alone.

Nothing here calls the library. Forms, blocks and buckets are laid out in plain Python.
"""

from __future__ import annotations

import random
import struct
import unittest
from collections.abc import Iterable
from decimal import Decimal
from pathlib import Path
from typing import Any

ROOT = Path(__file__).resolve().parents[2]
SAMPLES = ROOT / "samples"


class Case(unittest.TestCase):
    """A test case that can compare long lists."""

    def same(self, found: object, expected: object) -> None:
        """Equal, without the list of differences: of long lists that would take hours."""
        self.assertTrue(found == expected, "not the same")


def sample(name: str) -> bytes:
    """The bytes of a sample file."""
    return (SAMPLES / name).read_bytes()


def hexed(words: str) -> bytes:
    """Bytes from hexadecimal digits and blanks."""
    return bytes.fromhex(words)


# Bitmaps.


def packed(values: Iterable[int], width: int) -> bytes:
    """Values of one width, the first in the highest bits."""
    bits = "".join(format(value, f"0{width}b") for value in values) if width else ""
    bits += "0" * (-len(bits) % 8)
    return bytes(int(bits[at : at + 8], 2) for at in range(0, len(bits), 8))


def containers(members: set[int]) -> list[list[int]]:
    """The low bytes of the members of each container, up to the last that has one."""
    held: list[list[int]] = [[] for _ in range(max(members) // 256 + 1)] if members else []
    for member in sorted(members):
        held[member // 256].append(member % 256)
    return held


def container_bytes(low: list[int]) -> bytes:
    """A container: sparse under 32 members, else 256 bits."""
    if len(low) < 32:
        return bytes(low)
    bits = sum(1 << (255 - value) for value in low)
    return bits.to_bytes(32, "big")


def chunk(values: list[int], least: int, b1: int, b2: int, extra: set[int] = frozenset()) -> bytes:
    """A chunk of descriptors; `extra` are exceptions that none asks for."""
    rest = [value - least for value in values]
    wide = sorted({at for at, value in enumerate(rest) if value >> b1} | set(extra))
    head = bytes([b1 | b2 << 4, len(wide), least])
    low = packed([value & (1 << b1) - 1 for value in rest], b1)
    return head + low + bytes(wide) + packed([rest[at] >> b1 for at in wide], b2)


def best_chunk(values: list[int]) -> bytes:
    """The chunk of the one written form: the least cost, the smaller width on a tie."""
    least = min(values)
    widths = [(value - least).bit_length() for value in values]
    choices = []
    for b1 in range(max(widths) + 1):
        wide = sum(width > b1 for width in widths)
        b2 = max(widths) - b1 if wide else 0
        cost = (len(values) * b1 + 7) // 8 + wide + (wide * b2 + 7) // 8
        choices.append((cost, b1, b2))
    _, b1, b2 = min(choices)
    return chunk(values, least, b1, b2)


def header(cardinality: int, count: int) -> bytes:
    """A bitmap's header."""
    return b"\x01" + cardinality.to_bytes(3, "little") + count.to_bytes(2, "little")


def form(members: set[int]) -> bytes:
    """The one written form of a set."""
    held = containers(members)
    values = [min(len(low), 32) for low in held]
    chunks = (best_chunk(values[at : at + 256]) for at in range(0, len(values), 256))
    parts = (container_bytes(low) for low in held)
    return header(len(members), len(held)) + b"".join(chunks) + b"".join(parts)


def foreign_chunk(values: list[int], rng: random.Random) -> bytes:
    """A chunk as some other writer may choose it."""
    least = rng.randint(0, min(values))
    width = max(value - least for value in values).bit_length()
    b1 = rng.randint(0, 8)
    if b1 == 8:
        return chunk(values, least, 8, 0)
    b2 = rng.randint(max(width - b1, 0), 8 - b1)
    extra = {at for at in range(len(values)) if rng.random() < 0.05}
    return chunk(values, least, b1, b2, extra)


def foreign(members: set[int], rng: random.Random) -> bytes:
    """A set as some other writer may write it: other widths, empty containers at the end."""
    held = containers(members)
    held += [[] for _ in range(rng.randint(0, min(3, 8192 - len(held))))]
    values = [len(low) if len(low) < 32 else rng.randint(32, 63) for low in held]
    chunks = (foreign_chunk(values[at : at + 256], rng) for at in range(0, len(values), 256))
    parts = (container_bytes(low) for low in held)
    return header(len(members), len(held)) + b"".join(chunks) + b"".join(parts)


def random_set(rng: random.Random) -> set[int]:
    """A set of one of several shapes: few members, many, runs, up to the last position."""
    top = rng.choice([1, 300, 5_000, 70_000, 2_097_152])
    members = {rng.randrange(top) for _ in range(rng.choice([0, 1, 10, 200, 3_000]))}
    for _ in range(rng.randint(0, 3)):
        start = rng.randrange(top)
        members |= set(range(start, min(start + rng.randint(1, 900), top)))
    return members


# Numbers, schemas, rows. A column is (type id, nullable, size, scale).

Column = tuple[int, bool, int, int]


def number(value: int, padded: bool = False) -> bytes:
    """A number in groups of seven bits, shortest or in five bytes."""
    groups = [value & 127]
    while value >> 7 * len(groups) or (padded and len(groups) < 5):
        groups.append(value >> 7 * len(groups) & 127)
    return bytes([group | 128 for group in groups[:-1]] + groups[-1:])


def schema_bytes(columns: list[Column], padded: bool = False) -> bytes:
    """A schema."""
    out = number(len(columns), padded)
    for kind, nullable, size, scale in columns:
        out += bytes([kind, nullable])
        if kind in (8, 9, 11, 12, 14, 15, 16):
            out += number(size, padded)
        if kind == 14:
            out += number(scale, padded)
    return out


WIDTHS = {1: 1, 2: 2, 3: 4, 4: 8, 7: 4, 15: 4}


def unscaled(value: Decimal, scale: int) -> int:
    """The whole number that a DECIMAL stores."""
    sign, digits, exponent = value.as_tuple()
    assert exponent == -scale
    whole = int("".join(map(str, digits)))
    return -whole if sign else whole


def plain_value(column: Column, value: Any, order: str, padded: bool) -> bytes:
    """A value as rows (little endian) and buckets (big endian) have it, but for TIMESTAMP."""
    kind, _, size, scale = column
    if kind == 0:
        return bytes([value])
    if kind in WIDTHS:
        return value.to_bytes(WIDTHS[kind], order, signed=True)
    if kind in (5, 6):
        return struct.pack(("<" if order == "little" else ">") + "fd"[kind - 5], value)
    if kind == 14:
        whole = unscaled(value, scale)
        if size <= 18:
            return whole.to_bytes(8, order, signed=True)
        stored = whole.to_bytes(whole.bit_length() // 8 + 1, "big", signed=True)
    else:
        stored = value.encode() if isinstance(value, str) else value
    return number(len(stored), padded) + stored


def row_value(column: Column, value: Any, padded: bool) -> bytes:
    """A value in a row."""
    if column[0] != 16:
        return plain_value(column, value, "little", padded)
    nanos = number(value[1], padded) if column[2] > 3 else b""
    return value[0].to_bytes(8, "little", signed=True) + nanos


def bucket_value(column: Column, value: Any, padded: bool) -> bytes:
    """A value in a bucket."""
    if column[0] != 16:
        return plain_value(column, value, "big", padded)
    nanos = value[1].to_bytes(4, "big") if column[2] > 6 else b""
    return value[0].to_bytes(8, "big", signed=True) + nanos


def low_bits(bits: list[bool]) -> bytes:
    """Bits from the low end of each byte."""
    out = bytearray((len(bits) + 7) // 8)
    for at, bit in enumerate(bits):
        out[at // 8] |= bit << at % 8
    return bytes(out)


def block_bytes(columns: list[Column], rows: list[tuple[Any, ...]], padded: bool = False) -> bytes:
    """A row block."""
    data, offsets = b"", []
    for row in rows:
        offsets.append(len(data))
        data += low_bits([value is None for value in row])
        for column, value in zip(columns, row):
            data += b"" if value is None else row_value(column, value, padded)
    ends = b"".join(offset.to_bytes(4, "little") for offset in offsets)
    return data + ends + len(rows).to_bytes(4, "little")


class BucketWriter:
    """Lays out a bucket: each column as ALL_NULL, CONST, DICT or PLAIN, the first that can be."""

    def __init__(self, columns: list[Column], rows: list[tuple[Any, ...]], padded: bool) -> None:
        self.padded = padded
        self.tags: list[bool] = []
        self.nulls: list[bool] = []
        self.consts = self.tables = self.bitmaps = self.data = b""
        for at, column in enumerate(columns):
            self.add(column, [row[at] for row in rows])

    def add(self, column: Column, values: list[Any]) -> None:
        """One column's tag, CONST value or table, bitmap and data."""
        stored = [bucket_value(column, value, self.padded) for value in values if value is not None]
        entries = sorted(set(stored))
        tag = 3 if values and not stored else 1 if len(entries) == 1 else 2
        tag = 0 if not values or (tag == 2 and len(entries) > 20) else tag
        self.tags += [bool(tag & 1), bool(tag & 2)]
        self.nulls.append(None in values)
        if None in values and tag != 3:
            self.bitmaps += low_bits([value is None for value in values])
        if tag == 0:
            self.data += b"".join(stored)
        elif tag == 1:
            self.consts += entries[0]
        elif tag == 2:
            self.tables += number(len(entries), self.padded) + b"".join(entries)
            self.data += self.indexes(stored, entries)

    @staticmethod
    def indexes(stored: list[bytes], entries: list[bytes]) -> bytes:
        """The indexes of a DICT column, low bits first."""
        width = (len(entries) - 1).bit_length()
        places = [entries.index(value) for value in stored]
        return low_bits([bool(place >> bit & 1) for place in places for bit in range(width)])

    def bytes(self) -> bytes:
        """The whole bucket."""
        head = number(len(self.nulls), self.padded) + number(0, self.padded)
        return head + low_bits(self.tags) + low_bits(self.nulls) + self.consts + (
            self.tables + self.bitmaps + self.data
        )


def bucket_bytes(columns: list[Column], rows: list[tuple[Any, ...]], padded: bool = False) -> bytes:
    """A bucket."""
    return BucketWriter(columns, rows, padded).bytes()


def random_column(rng: random.Random) -> Column:
    """A column of any type."""
    kind = rng.randrange(17)
    size = scale = 0
    if kind in (8, 9, 11, 12):
        size = rng.randint(0, 300)
    elif kind in (15, 16):
        size = rng.randint(0, 9)
    elif kind == 14:
        size = rng.randint(1, 38)
        scale = rng.randint(0, size)
    return kind, rng.random() < 0.6, size, scale


def random_value(column: Column, rng: random.Random, bucket: bool) -> Any:
    """A value of the column, sometimes None where it may be."""
    kind, nullable, size, scale = column
    if nullable and rng.random() < 0.3:
        return None
    if kind == 0:
        return rng.random() < 0.5
    if kind in WIDTHS:
        return rng.getrandbits(8 * WIDTHS[kind]) - (1 << 8 * WIDTHS[kind] - 1)
    if kind in (5, 6):
        return rng.choice([0.0, 0.5, -1.0, 2.25, 1024.0, float("inf")])
    if kind == 14:
        digits = tuple(rng.randrange(10) for _ in range(min(size, 18) if size <= 18 else size))
        return Decimal((rng.randrange(2) if any(digits) else 0, digits, -scale))
    if kind == 16:
        nanos = size > (6 if bucket else 3)
        return (rng.getrandbits(63) - (1 << 62), rng.randrange(1_000_000) if nanos else 0)
    if kind in (8, 9, 10):
        return rng.choice(["", "north", "süd", "x" * 200])
    return rng.choice([b"", b"\xff\x00", b"raw" * 50])
