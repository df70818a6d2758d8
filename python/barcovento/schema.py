"""Schemas: the columns of a row block or a bucket."""

from __future__ import annotations

from collections.abc import Iterator, Sequence
from ctypes import byref, c_uint8, c_uint32
from enum import IntEnum
from typing import NamedTuple, Union, overload

from .library import LIBRARY, BytesLike, plain
from .refusals import answer


class Type(IntEnum):
    """The 17 types, by their ids."""

    BOOLEAN = 0
    TINYINT = 1
    SMALLINT = 2
    INT = 3
    BIGINT = 4
    FLOAT = 5
    DOUBLE = 6
    DATE = 7
    CHAR = 8
    VARCHAR = 9
    STRING = 10
    BINARY = 11
    VARBINARY = 12
    BYTES = 13
    DECIMAL = 14
    TIME = 15
    TIMESTAMP = 16


_SIZED = frozenset(
    {Type.CHAR, Type.VARCHAR, Type.BINARY, Type.VARBINARY, Type.TIME, Type.TIMESTAMP}
)


class Column(NamedTuple):
    """One column: its type, whether it may be null, its length or precision, its scale.

    `size` is 0 where the type has neither length nor precision, `scale` for all but DECIMAL.
    """

    type: Type
    nullable: bool
    size: int
    scale: int

    def __str__(self) -> str:
        """As in SQL: `TIMESTAMP(3) NOT NULL`, `DECIMAL(10,2)`."""
        words = self.type.name
        if self.type == Type.DECIMAL:
            words += f"({self.size},{self.scale})"
        elif self.type in _SIZED:
            words += f"({self.size})"
        return words if self.nullable else words + " NOT NULL"


def _column(data: bytes, number: int) -> Column:
    """One column of a schema."""
    kind, nullable, size, scale = c_uint8(), c_uint8(), c_uint32(), c_uint32()
    status = LIBRARY.bv_schema_column(
        data, len(data), number, byref(kind), byref(nullable), byref(size), byref(scale)
    )
    answer(status)
    return Column(Type(kind.value), nullable.value == 1, size.value, scale.value)


class Schema(Sequence[Column]):
    """The columns of a table, 1 to 64. Schemas are equal if their columns are."""

    __slots__ = ("_data", "_columns")
    _data: bytes
    _columns: tuple[Column, ...]

    def __init__(self, data: BytesLike) -> None:
        """The schema in the bytes. Refused 20."""
        judged = plain(data)
        count = c_uint32()
        answer(LIBRARY.bv_schema_check(judged, len(judged), byref(count)))
        self._data = judged
        self._columns = tuple(_column(judged, number) for number in range(count.value))

    def __bytes__(self) -> bytes:
        """The bytes that it was read from."""
        return self._data

    def __len__(self) -> int:
        return len(self._columns)

    @overload
    def __getitem__(self, index: int) -> Column: ...

    @overload
    def __getitem__(self, index: slice) -> tuple[Column, ...]: ...

    def __getitem__(self, index: int | slice) -> Column | tuple[Column, ...]:
        return self._columns[index]

    def __iter__(self) -> Iterator[Column]:
        return iter(self._columns)

    def __eq__(self, other: object) -> bool:
        if not isinstance(other, Schema):
            return NotImplemented
        return self._columns == other._columns

    def __hash__(self) -> int:
        return hash((Schema, self._columns))

    def __str__(self) -> str:
        return ", ".join(map(str, self._columns))

    def __repr__(self) -> str:
        return f"Schema({self})"

    def __reduce__(self) -> tuple[object, tuple[bytes]]:
        return Schema, (self._data,)


SchemaLike = Union[Schema, BytesLike]


def schema_of(schema: SchemaLike) -> Schema:
    """A schema as it is, or the one in the bytes."""
    return schema if isinstance(schema, Schema) else Schema(schema)
