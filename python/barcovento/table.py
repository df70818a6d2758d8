"""Tables: row blocks and buckets, as sequences of rows."""

from __future__ import annotations

from abc import abstractmethod
from array import array
from collections.abc import Iterator, Sequence
from ctypes import byref, c_int64, c_size_t, c_uint8, c_uint32, c_uint64
from typing import Any, SupportsIndex, overload

from .library import LIBRARY, BytesLike, number32, plain
from .optional import needed_numpy
from .refusals import Refused, answer
from .schema import Schema, SchemaLike, schema_of
from .values import DOUBLE, FLOAT, PLACE, Value, decode, masked

Row = tuple[Value, ...]

# How many numbers of 64 bits a page has at most: 1.5 MB. A row takes three for each column.
PAGE = 196_608


class _Answer:
    """The six outputs of a field call."""

    __slots__ = ("kind", "whole", "bits", "nanos", "start", "length")

    def __init__(self) -> None:
        self.kind, self.whole, self.bits = c_uint8(), c_int64(), c_uint64()
        self.nanos, self.start, self.length = c_uint32(), c_size_t(), c_size_t()

    def outputs(self) -> tuple[Any, ...]:
        """The outputs in the order of the call."""
        return tuple(byref(getattr(self, name)) for name in self.__slots__)

    def numbers(self) -> tuple[int, int, int]:
        """The field's three numbers, as a page has them."""
        kind = self.kind.value
        if kind == PLACE:
            return kind, self.start.value, self.length.value
        if kind in (FLOAT, DOUBLE):
            return kind, self.bits.value, 0
        return kind, self.whole.value, self.nanos.value


class _Table(Sequence[Row]):
    """A judged table. Rows are tuples; `table[i]`, slices and iteration work as for a list.

    Every call judges the whole table first, so a whole table is read faster by iteration, `column`
    or `array` than row by row.
    """

    __slots__ = ("_schema", "_data", "_rows")
    _schema: Schema
    _data: bytes
    _rows: int

    @property
    def schema(self) -> Schema:
        """The schema."""
        return self._schema

    def __bytes__(self) -> bytes:
        """The bytes that it was read from."""
        return self._data

    def __len__(self) -> int:
        return self._rows

    @abstractmethod
    def _read(self, start: int, stop: int) -> list[Row]:
        """The rows from start up to stop, which lie in one page."""

    @abstractmethod
    def _numbers(self, column: int, start: int, stop: int) -> tuple[array[int], int, int]:
        """A page that has these rows, the place of the column's first number, and its stride."""

    @abstractmethod
    def _ask(self, row: int, column: int, outputs: tuple[Any, ...]) -> int:
        """A field call; its status."""

    def _pages(self, start: int, stop: int) -> Iterator[tuple[int, int]]:
        """The rows from start up to stop, in parts that fit a page."""
        step = PAGE // (3 * len(self._schema))
        return ((at, min(at + step, stop)) for at in range(start, stop, step))

    def __iter__(self) -> Iterator[Row]:
        """The rows in order, read by pages: the memory used does not grow."""
        for start, stop in self._pages(0, self._rows):
            yield from self._read(start, stop)

    def __reversed__(self) -> Iterator[Row]:
        for start, stop in reversed(list(self._pages(0, self._rows))):
            yield from reversed(self._read(start, stop))

    @overload
    def __getitem__(self, index: int) -> Row: ...

    @overload
    def __getitem__(self, index: slice) -> list[Row]: ...

    def __getitem__(self, index: int | slice) -> Row | list[Row]:
        if isinstance(index, slice):
            return self._slice(range(*index.indices(self._rows)))
        row = range(self._rows)[index]
        return self._read(row, row + 1)[0]

    def _slice(self, wanted: range) -> list[Row]:
        """The wanted rows, in their order."""
        if not wanted:
            return []
        low, high = sorted((wanted[0], wanted[-1]))
        between = [row for page in self._pages(low, high + 1) for row in self._read(*page)]
        return between[:: wanted.step]

    def index(self, value: Any, start: int = 0, stop: int | None = None) -> int:
        """The number of the first row that equals the value; ValueError if there is none."""
        low, high, _ = slice(start, stop).indices(self._rows)
        for page in self._pages(low, high):
            rows = self._read(*page)
            if value in rows:
                return page[0] + rows.index(value)
        raise ValueError("no such row")

    def field(self, row: SupportsIndex, column: SupportsIndex) -> Value:
        """One field. Refused 25 if there is no such row or column."""
        found = _Answer()
        at = number32(column)
        answer(self._ask(number32(row), at, found.outputs()))
        kind, number, other = found.numbers()
        return decode(self._schema[at], self._data, (kind,), (number,), (other,))[0]

    def _column(self, column: SupportsIndex) -> int:
        """The number of a column; Refused 25 if there is no such column."""
        number = number32(column)
        if number >= len(self._schema):
            raise Refused(25)
        return number

    def column(self, column: SupportsIndex) -> list[Value]:
        """One column's values in all rows. Refused 25 if there is no such column."""
        number = self._column(column)
        values: list[Value] = []
        for start, stop in self._pages(0, self._rows):
            page, at, step = self._numbers(number, start, stop)
            parts = (page[at + part :: step] for part in range(3))
            values += decode(self._schema[number], self._data, *parts)
        return values

    def array(self, column: SupportsIndex) -> Any:
        """One column's values in all rows as a NumPy masked array: nulls are masked.

        bool for BOOLEAN, float32 for FLOAT, float64 for DOUBLE, int64 for integers, DATE, TIME and
        DECIMAL up to precision 18 (without its scale). For TIMESTAMP two arrays: counts and
        nanoseconds. For text, bytes and larger DECIMAL two arrays: where each value starts in
        `bytes(table)`, and its length. Refused 25; ImportError without NumPy.
        """
        numpy = needed_numpy()
        number = self._column(column)
        fields = numpy.empty((self._rows, 3), dtype=numpy.int64)
        for start, stop in self._pages(0, self._rows):
            page, at, step = self._numbers(number, start, stop)
            given = numpy.frombuffer(page, dtype=numpy.int64).reshape(stop - start, step)
            fields[start:stop] = given[:, at : at + 3]
        kinds, numbers, others = (fields[:, part].copy() for part in range(3))
        return masked(self._schema[number], kinds, numbers, others)

    def __repr__(self) -> str:
        return f"{type(self).__name__}({len(self)} rows of {self._schema})"


class Block(_Table):
    """A row block: its rows as tuples."""

    __slots__ = ()

    def __init__(self, schema: SchemaLike, data: BytesLike) -> None:
        """The block in the bytes, of a schema or a schema's bytes. Refused 20 to 24."""
        self._schema = schema_of(schema)
        self._data = plain(data)
        rows = c_uint32()
        answer(LIBRARY.bv_block_check(*self._slices(), byref(rows)))
        self._rows = rows.value

    def _slices(self) -> tuple[bytes, int, bytes, int]:
        """Schema and block as each call takes them."""
        schema = bytes(self._schema)
        return schema, len(schema), self._data, len(self._data)

    def _page(self, start: int, stop: int) -> array[int]:
        """The numbers of the rows from start up to stop."""
        page = array("q", [0]) * (3 * len(self._schema) * (stop - start))
        place, given, rows = c_uint32(start), c_uint32(), c_uint32()
        address, room = page.buffer_info()
        status = LIBRARY.bv_block_page(
            *self._slices(), byref(place), address, room, byref(given), byref(rows)
        )
        answer(status)
        return page

    def _read(self, start: int, stop: int) -> list[Row]:
        page = self._page(start, stop)
        step = 3 * len(self._schema)
        columns = (
            decode(column, self._data, *(page[3 * at + part :: step] for part in range(3)))
            for at, column in enumerate(self._schema)
        )
        return list(zip(*columns))

    def _numbers(self, column: int, start: int, stop: int) -> tuple[array[int], int, int]:
        return self._page(start, stop), 3 * column, 3 * len(self._schema)

    def _ask(self, row: int, column: int, outputs: tuple[Any, ...]) -> int:
        return int(LIBRARY.bv_block_field(*self._slices(), row, column, *outputs))

    def __reduce__(self) -> tuple[object, tuple[Schema, bytes]]:
        return Block, (self._schema, self._data)


class Bucket(_Table):
    """A bucket of a given number of rows: its rows as tuples."""

    __slots__ = ()

    def __init__(self, schema: SchemaLike, rows: SupportsIndex, data: BytesLike) -> None:
        """The bucket in the bytes, of a schema or a schema's bytes. Refused 20, 37, 30 to 36."""
        self._schema = schema_of(schema)
        self._data = plain(data)
        self._rows = number32(rows)
        answer(LIBRARY.bv_bucket_check(*self._slices()))

    def _slices(self) -> tuple[bytes, int, int, bytes, int]:
        """Schema, rows and bucket as each call takes them."""
        schema = bytes(self._schema)
        return schema, len(schema), self._rows, self._data, len(self._data)

    def _page(self, column: int, start: int, stop: int) -> array[int]:
        """The numbers of one column in the rows from start up to stop."""
        page = array("q", [0]) * (3 * (stop - start))
        place, given = c_uint32(start), c_uint32()
        address, room = page.buffer_info()
        status = LIBRARY.bv_bucket_page(
            *self._slices(), column, byref(place), address, room, byref(given)
        )
        answer(status)
        return page

    def _read(self, start: int, stop: int) -> list[Row]:
        columns = []
        for at, column in enumerate(self._schema):
            page = self._page(at, start, stop)
            columns.append(decode(column, self._data, page[0::3], page[1::3], page[2::3]))
        return list(zip(*columns))

    def _numbers(self, column: int, start: int, stop: int) -> tuple[array[int], int, int]:
        return self._page(column, start, stop), 0, 3

    def _ask(self, row: int, column: int, outputs: tuple[Any, ...]) -> int:
        return int(LIBRARY.bv_bucket_field(*self._slices(), row, column, *outputs))

    def __reduce__(self) -> tuple[object, tuple[Schema, int, bytes]]:
        return Bucket, (self._schema, self._rows, self._data)
