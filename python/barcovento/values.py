"""Values: what the three numbers of a field mean in Python, and in NumPy."""

from __future__ import annotations

import struct
from collections.abc import Callable, Iterable
from decimal import MAX_EMAX, MAX_PREC, MIN_EMIN, Context, Decimal
from typing import Any, NamedTuple, Union

from .optional import needed_numpy
from .schema import Column, Type

NULL, YES_NO, WHOLE, FLOAT, DOUBLE, TIME, PLACE = range(7)

LARGEST_COMPACT = 18

# Decimals are made without rounding, whatever the caller's context says.
_EXACT = Context(prec=MAX_PREC, Emax=MAX_EMAX, Emin=MIN_EMIN, traps=[])


class Time(NamedTuple):
    """A TIMESTAMP: the stored count, in the unit of its precision, and nanoseconds beside it."""

    count: int  # type: ignore[assignment]
    nanos: int


Value = Union[None, bool, int, float, Decimal, Time, str, bytes]
Converter = Callable[[int, int], Value]


def double(bits: int) -> float:
    """The double of 64 stored bits, which may come as a signed number; a NaN keeps its bits."""
    stored = (bits & 0xFFFF_FFFF_FFFF_FFFF).to_bytes(8, "little")
    return float(struct.unpack("<d", stored)[0])


def single(bits: int) -> float:
    """The float of 32 stored bits, widened; a NaN keeps its sign and payload."""
    if bits & 0x7FFF_FFFF > 0x7F80_0000:
        return double((bits >> 31) << 63 | 0x7FF << 52 | (bits & 0x7F_FFFF) << 29)
    return float(struct.unpack("<f", bits.to_bytes(4, "little"))[0])


def text(stored: bytes) -> str | bytes:
    """The text, or the bytes as they are where they are not UTF-8."""
    try:
        return stored.decode("utf-8")
    except UnicodeDecodeError:
        return stored


def _decimal(unscaled: int, scale: int) -> Decimal:
    """The exact decimal."""
    return _EXACT.scaleb(Decimal(unscaled), -scale)


def _converter(column: Column, data: bytes) -> Converter | None:
    """How the second and third number of a field become its value; None: the second is it."""
    kind = column.type
    if kind == Type.BOOLEAN:
        return lambda number, _: number == 1
    if kind == Type.FLOAT:
        return lambda bits, _: single(bits)
    if kind == Type.DOUBLE:
        return lambda bits, _: double(bits)
    if kind in (Type.CHAR, Type.VARCHAR, Type.STRING):
        return lambda start, length: text(data[start : start + length])
    if kind in (Type.BINARY, Type.VARBINARY, Type.BYTES):
        return lambda start, length: data[start : start + length]
    if kind == Type.TIMESTAMP:
        return Time
    if kind == Type.DECIMAL:
        return _decimal_converter(column, data)
    return None


def _decimal_converter(column: Column, data: bytes) -> Converter:
    """How a DECIMAL becomes its value: a whole number, or a place of big-endian bytes."""
    scale = column.scale
    if column.size <= LARGEST_COMPACT:
        return lambda number, _: _decimal(number, scale)
    return lambda start, length: _decimal(
        int.from_bytes(data[start : start + length], "big", signed=True), scale
    )


def decode(
    column: Column,
    data: bytes,
    kinds: Iterable[int],
    numbers: Iterable[int],
    others: Iterable[int],
) -> list[Value]:
    """The values of fields of one column, given by their first, second and third numbers."""
    convert = _converter(column, data)
    if convert is None:
        return [None if kind == NULL else number for kind, number in zip(kinds, numbers)]
    return [
        None if kind == NULL else convert(number, other)
        for kind, number, other in zip(kinds, numbers, others)
    ]


def masked(column: Column, kinds: Any, numbers: Any, others: Any) -> Any:
    """The same as masked arrays: nulls are masked.

    One array, or a pair: counts and nanoseconds, or the starts and lengths of places.
    """
    numpy = needed_numpy()
    null = kinds == NULL
    kind = column.type
    if kind == Type.BOOLEAN:
        return numpy.ma.masked_array(numbers == 1, null)
    if kind == Type.FLOAT:
        return numpy.ma.masked_array(numbers.astype(numpy.uint32).view(numpy.float32), null)
    if kind == Type.DOUBLE:
        return numpy.ma.masked_array(numbers.view(numpy.float64), null)
    if kind == Type.TIMESTAMP or is_place(column):
        return numpy.ma.masked_array(numbers, null), numpy.ma.masked_array(others, null.copy())
    return numpy.ma.masked_array(numbers, null)


def is_place(column: Column) -> bool:
    """Whether values of the column are places: text, bytes and large DECIMAL."""
    if column.type == Type.DECIMAL:
        return column.size > LARGEST_COMPACT
    return Type.CHAR <= column.type <= Type.BYTES
