"""Refusals: their numbers, plain words, and what is at fault in a bitmap."""

from __future__ import annotations

from ctypes import byref, c_size_t, c_uint32
from typing import NamedTuple

from .library import LIBRARY

WORDS: dict[int, str] = {
    1: "bitmap under 6 bytes",
    2: "version not 1",
    3: "over 8192 containers",
    4: "descriptors cut short",
    5: "b1, b2 and e break the width rules",
    6: "exception offsets not rising or too high",
    7: "spare bits set in a chunk",
    8: "descriptor over 63",
    9: "the bytes after the descriptors are not the containers",
    10: "a container not rising, or dense with under 32 members",
    11: "cardinality wrong",
    12: "a position that is not 0 to 2097151",
    13: "the written form is longer than the room there is for it",
    20: "bad schema",
    21: "block under 4 bytes or over 16777216",
    22: "row count negative or over 65536, or the offsets do not fit",
    23: "rows and offsets do not touch",
    24: "bad row bytes",
    25: "no such row or column",
    30: "bucket with a wrong column count, children, or an ill-formed header number",
    31: "bucket cut short",
    32: "bad value or ill-formed length",
    33: "bad number of entries, or an index past them",
    34: "spare bits set",
    35: "null in a NOT NULL column",
    36: "bytes left over",
    37: "bucket over 16777216 bytes, or rows not 0 to 65536",
    40: "slot number not 0 to 63",
    41: "empty slot",
    42: "a store that is not forms lying apart, or saved bytes that are bad or do not fit",
    44: "a slot that is not the owner's",
}


class Fault(NamedTuple):
    """Why a bitmap is refused: the first rule broken, and where (see bv_bitmap_explain)."""

    number: int
    index: int  # type: ignore[assignment]
    byte: int
    found: int
    wanted: int

    @property
    def words(self) -> str:
        """The fault in plain words."""
        return _FAULT_WORDS[self.number].format(*self)


# {0} the number, {1} the chunk or container, {2} the byte, {3} found, {4} wanted.
_FAULT_WORDS: dict[int, str] = {
    1: "{3} bytes, under {4}",
    2: "version {3}, not {4}",
    3: "{3} containers, over {4}",
    4: "chunk {1} at byte {2}: descriptors cut short",
    5: "chunk {1} at byte {2}: b1, b2 and e break the width rules",
    6: "chunk {1}: the exception offset at byte {2} is not rising or too high",
    7: "chunk {1}: spare bits set at byte {2}",
    8: "chunk {1} at byte {2}: descriptor {3}, over {4}",
    9: "the containers start at byte {2}: {3} bytes there, {4} asked for",
    10: "container {1} at byte {2} is not rising, or is dense with under 32 members",
    11: "cardinality {3} stored, {4} counted",
}


class Refused(ValueError):
    """The library refused an input. `number` is the refusal, `words` says it in plain words.

    `fault` says what is wrong with a bitmap, and where (refusals 1 to 11); else it is None.
    """

    number: int
    fault: Fault | None

    def __init__(self, number: int, fault: Fault | None = None) -> None:
        super().__init__(number, fault)
        self.number = number
        self.fault = fault

    @property
    def words(self) -> str:
        """The refusal in plain words; for a bitmap, with what was found and where."""
        return WORDS[self.number] if self.fault is None else self.fault.words

    def __str__(self) -> str:
        return f"refused {self.number}: {self.words}"


def explain(data: bytes) -> Fault | None:
    """What is wrong with the bytes as a bitmap; None if they are accepted."""
    number, index, byte = c_uint32(), c_size_t(), c_size_t()
    found, wanted = c_size_t(), c_size_t()
    LIBRARY.bv_bitmap_explain(
        data, len(data), byref(number), byref(index), byref(byte), byref(found), byref(wanted)
    )
    if number.value == 0:
        return None
    return Fault(number.value, index.value, byte.value, found.value, wanted.value)


def answer(status: int, *bitmaps: bytes) -> None:
    """Nothing for status 0; else Refused, with the fault of the first bitmap that has one."""
    if status == 0:
        return
    faults = (explain(data) for data in bitmaps) if status <= 11 else ()
    raise Refused(status, next((fault for fault in faults if fault is not None), None))
