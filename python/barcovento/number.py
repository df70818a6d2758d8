"""Numbers in groups of seven bits, as schemas, rows and buckets hold them."""

from __future__ import annotations

from ctypes import byref, c_uint8, c_uint32
from typing import NamedTuple

from .library import LIBRARY, BytesLike, plain

_FAULTS = {1: "number cut short", 2: "ill-formed number"}


class Number(NamedTuple):
    """A number, how many bytes it has, and whether no form of it is shorter."""

    value: int
    used: int
    shortest: bool


def read_number(data: BytesLike) -> Number:
    """The number at the front of the bytes; ValueError if it is cut short or ill-formed."""
    judged = plain(data)
    found, value, used, shortest = c_uint8(), c_uint32(), c_uint32(), c_uint8()
    LIBRARY.bv_number_read(
        judged, len(judged), byref(found), byref(value), byref(used), byref(shortest)
    )
    if found.value:
        raise ValueError(_FAULTS[found.value])
    return Number(value.value, used.value, shortest.value == 1)
