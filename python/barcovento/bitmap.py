"""Bitmaps: immutable sets of positions, each held as its one written form."""

from __future__ import annotations

import operator
from array import array
from collections.abc import Callable, Iterable, Iterator
from ctypes import addressof, byref, c_size_t, c_uint8, c_uint32, create_string_buffer, string_at
from typing import Any, NoReturn, SupportsIndex, Union, final

from .library import HIGHEST, LIBRARY, BytesLike, number32, plain
from .optional import is_array, needed_numpy, numpy_or_none
from .refusals import Refused, answer

POSITIONS = 2_097_152
CONTAINERS = 8_192
PAGE = 16_384

_SET = object.__setattr__


def _room(containers: int) -> int:
    """No written form of so many containers is longer.

    A container has at most 32 bytes. A chunk of 256 descriptors has 3 bytes and, as no descriptor
    is over 32 and the cheapest width is chosen, at most 6 bits for each.
    """
    full, rest = divmod(containers, 256)
    return 6 + 32 * containers + 195 * full + (3 + (6 * rest + 7) // 8 if rest else 0)


def _containers(data: bytes) -> int:
    """The container count in the header, at most 8,192; 0 where the bytes have no header."""
    return min(int.from_bytes(data[4:6], "little"), CONTAINERS)


# Each operation's bound on the containers of its result, by those of its inputs.
_BOUNDS: dict[str, Callable[[int, int], int]] = {
    "union": max,
    "intersection": min,
    "difference": lambda a, b: a,
    "symmetric_difference": max,
}


def _combined(operation: str, a: bytes, b: bytes) -> bytes:
    """The written form of the combined set; Refused with the fault of a, or else of b."""
    room = _room(_BOUNDS[operation](_containers(a), _containers(b)))
    out = create_string_buffer(room)
    length = c_size_t()
    call = getattr(LIBRARY, "bv_bitmap_" + operation)
    answer(call(a, len(a), b, len(b), out, room, byref(length)), a, b)
    return string_at(out, length.value)


def _written(address: int, count: int, last: int) -> bytes | None:
    """The written form of rising positions at an address; None if they are refused, 12.

    12 is judged before the room, and the last of rising positions is the highest: the room is
    enough for whatever is not refused.
    """
    room = _room(min(last // 256 + 1, CONTAINERS))
    out = create_string_buffer(room)
    length = c_size_t()
    status = LIBRARY.bv_bitmap_write(address, count, out, room, byref(length))
    return string_at(out, length.value) if status == 0 else None


def _written_rising(positions: array[int]) -> bytes:
    """The written form of a strictly rising array of type I; Refused 12 if one is too big."""
    if not positions:
        return _EMPTY
    form = _written(positions.buffer_info()[0], len(positions), positions[-1])
    if form is None:
        raise Refused(12)
    return form


def _written_iterable(positions: Iterable[SupportsIndex]) -> bytes:
    """The written form of positions in any order."""
    if isinstance(positions, (bytes, bytearray, memoryview)):
        raise TypeError("a bitmap's bytes go to Bitmap.from_bytes; Bitmap() takes positions")
    rising = sorted(set(map(operator.index, positions)))
    if rising and (rising[0] < 0 or rising[-1] > HIGHEST):
        raise Refused(12)
    return _written_rising(array("I", rising))


def _written_numpy(positions: Any) -> bytes:
    """The written form of a NumPy array of integers in any order."""
    numpy = needed_numpy()
    if positions.dtype.kind not in "iu":
        raise TypeError(f"positions are integers, not {positions.dtype}")
    if positions.size == 0:
        return _EMPTY
    if positions.min() < 0 or positions.max() >= POSITIONS:
        raise Refused(12)
    flat = numpy.ascontiguousarray(positions.reshape(-1), dtype=numpy.uint32)
    form = _written(flat.ctypes.data, flat.size, int(flat[-1]))
    if form is None:
        flat = numpy.unique(flat)
        form = _written(flat.ctypes.data, flat.size, int(flat[-1]))
    if form is None:
        raise Refused(12)
    return form


_EMPTY = b"\x01\x00\x00\x00\x00\x00"


@final
class Bitmap:
    """An immutable set of positions, 0 to 2,097,151, held as its one written form.

    It works as a frozenset does; `bytes(bitmap)` is the form. Equal sets have equal bytes.
    """

    __slots__ = ("_form",)
    _form: bytes

    def __new__(cls, positions: Iterable[SupportsIndex] = ()) -> Bitmap:
        """The set of the positions, which may come in any order and repeat.

        Refused 12 if one is not 0 to 2,097,151; TypeError if one is no integer.
        """
        return cls._of(_form_of(positions))

    @classmethod
    def _of(cls, form: bytes) -> Bitmap:
        """The bitmap of a written form, which is not judged."""
        bitmap = object.__new__(cls)
        _SET(bitmap, "_form", form)
        return bitmap

    @classmethod
    def from_bytes(cls, data: BytesLike) -> Bitmap:
        """The bitmap in the bytes, of whatever writer. Refused 1 to 11, with the fault."""
        return cls._of(_combined("union", plain(data), _EMPTY))

    @classmethod
    def from_positions(cls, positions: Any) -> Bitmap:
        """The set of the positions in a NumPy array of integers or an array of type I.

        As Bitmap(positions), without a loop in Python; fastest where they rise strictly.
        """
        if is_array(positions):
            return cls._of(_written_numpy(positions))
        if isinstance(positions, array) and positions.typecode == "I" and positions:
            form = _written(positions.buffer_info()[0], len(positions), positions[-1])
            if form is not None:
                return cls._of(form)
        return cls(positions)

    @staticmethod
    def check(data: BytesLike) -> int:
        """The number of members of the bitmap in the bytes. Refused 1 to 11, with the fault."""
        judged = plain(data)
        cardinality = c_uint32()
        status = LIBRARY.bv_bitmap_check(judged, len(judged), byref(cardinality))
        answer(status, judged)
        return cardinality.value

    def __bytes__(self) -> bytes:
        return self._form

    def __len__(self) -> int:
        return int.from_bytes(self._form[1:4], "little")

    def __contains__(self, position: object) -> bool:
        """Whether the position is a member; no other object is one."""
        try:
            number = number32(position)  # type: ignore[arg-type]
        except TypeError:
            return False
        member = c_uint8()
        form = self._form
        answer(LIBRARY.bv_bitmap_probe(form, len(form), number, byref(member)), form)
        return member.value == 1

    def rank(self, position: SupportsIndex) -> int:
        """How many members lie below the position, any integer."""
        number = operator.index(position)
        if number <= 0:
            return 0
        below = c_uint32()
        form = self._form
        answer(LIBRARY.bv_bitmap_rank(form, len(form), number32(number), byref(below)), form)
        return below.value

    def _page(self, place: int, address: int, room: int) -> int:
        """Up to `room` members from the place on, to the address; how many."""
        form = self._form
        start, finished, given = c_uint32(place), c_uint8(), c_uint32()
        status = LIBRARY.bv_bitmap_page(
            form, len(form), byref(start), byref(finished), address, room, byref(given)
        )
        answer(status, form)
        return given.value

    def __iter__(self) -> Iterator[int]:
        """The members in rising order, read by pages: the memory used does not grow."""
        left = len(self)
        page = (c_uint32 * min(left, PAGE))()
        place = 0
        while left > 0:
            given = self._page(place, addressof(page), len(page))
            yield from page[:given]
            left -= given
            place = page[given - 1] + 1

    def positions(self) -> Any:
        """The members in rising order: a NumPy array of uint32, or without NumPy an array('I')."""
        count = len(self)
        numpy = numpy_or_none()
        members: Any
        if numpy is not None:
            members = numpy.empty(count, dtype=numpy.uint32)
            address = members.ctypes.data
        else:
            members = array("I", [0]) * count
            address = members.buffer_info()[0]
        if count:
            self._page(0, address, count)
        return members

    def min(self) -> int:
        """The lowest member; ValueError if there is none."""
        return self._end(0, 1)

    def max(self) -> int:
        """The highest member; ValueError if there is none."""
        return self._end(max(_containers(self._form) - 1, 0) * 256, 256)

    def _end(self, place: int, room: int) -> int:
        """The last of up to `room` members from the place on."""
        page = (c_uint32 * room)()
        given = self._page(place, addressof(page), room)
        if given == 0:
            raise ValueError("an empty bitmap has no lowest or highest member")
        return page[given - 1]

    def __or__(self, other: object) -> Bitmap:
        return self._with("union", other)

    def __and__(self, other: object) -> Bitmap:
        return self._with("intersection", other)

    def __sub__(self, other: object) -> Bitmap:
        return self._with("difference", other)

    def __xor__(self, other: object) -> Bitmap:
        return self._with("symmetric_difference", other)

    def _with(self, operation: str, other: object) -> Bitmap:
        """The combined set; NotImplemented for anything but a bitmap."""
        if not isinstance(other, Bitmap):
            return NotImplemented
        return Bitmap._of(_combined(operation, self._form, other._form))

    def _fold(self, operation: str, others: Iterable[Iterable[SupportsIndex]]) -> Bitmap:
        """The combination with one set after the other."""
        form = self._form
        for other in others:
            form = _combined(operation, form, _form_of(other))
        return Bitmap._of(form)

    def union(self, *others: Iterable[SupportsIndex]) -> Bitmap:
        """The positions in this set or in any of the others, which are iterables of positions."""
        return self._fold("union", others)

    def intersection(self, *others: Iterable[SupportsIndex]) -> Bitmap:
        """The positions in this set and in all of the others."""
        return self._fold("intersection", others)

    def difference(self, *others: Iterable[SupportsIndex]) -> Bitmap:
        """The positions in this set and in none of the others."""
        return self._fold("difference", others)

    def symmetric_difference(self, other: Iterable[SupportsIndex]) -> Bitmap:
        """The positions in exactly one of this set and the other."""
        return self._fold("symmetric_difference", (other,))

    def isdisjoint(self, other: Iterable[SupportsIndex]) -> bool:
        """Whether no position is in both."""
        return not self.intersection(other)

    def issubset(self, other: Iterable[SupportsIndex]) -> bool:
        """Whether every position of this set is in the other."""
        return not self.difference(other)

    def issuperset(self, other: Iterable[SupportsIndex]) -> bool:
        """Whether every position of the other is in this set."""
        return _combined("difference", _form_of(other), self._form) == _EMPTY

    def __le__(self, other: object) -> bool:
        if not isinstance(other, Bitmap):
            return NotImplemented
        return self.issubset(other)

    def __lt__(self, other: object) -> bool:
        if not isinstance(other, Bitmap):
            return NotImplemented
        return len(self) < len(other) and self.issubset(other)

    def __ge__(self, other: object) -> bool:
        if not isinstance(other, Bitmap):
            return NotImplemented
        return self.issuperset(other)

    def __gt__(self, other: object) -> bool:
        if not isinstance(other, Bitmap):
            return NotImplemented
        return len(self) > len(other) and self.issuperset(other)

    def __eq__(self, other: object) -> bool:
        if not isinstance(other, Bitmap):
            return NotImplemented
        return self._form == other._form

    def __hash__(self) -> int:
        return hash((Bitmap, self._form))

    def __repr__(self) -> str:
        members = "1 position" if len(self) == 1 else f"{len(self)} positions"
        return f"Bitmap({members}, {len(self._form)} bytes)"

    def __setattr__(self, name: str, value: object) -> NoReturn:
        raise AttributeError("a Bitmap does not change")

    def __delattr__(self, name: str) -> NoReturn:
        raise AttributeError("a Bitmap does not change")

    def copy(self) -> Bitmap:
        """This bitmap itself: it does not change."""
        return self

    def __copy__(self) -> Bitmap:
        return self

    def __deepcopy__(self, memo: object) -> Bitmap:
        return self

    def __reduce__(self) -> tuple[object, tuple[bytes]]:
        return Bitmap.from_bytes, (self._form,)


def _form_of(positions: Iterable[SupportsIndex]) -> bytes:
    """The written form of a bitmap, or of positions in any order."""
    if isinstance(positions, Bitmap):
        return positions._form
    if is_array(positions):
        return _written_numpy(positions)
    return _written_iterable(positions)


def combine(operation: str, a: Union[Bitmap, BytesLike], b: Union[Bitmap, BytesLike]) -> Bitmap:
    """Two bitmaps, or the bytes of bitmaps, in one call: each is judged once and combined.

    The operation is union, intersection, difference or symmetric_difference. Refused 1 to 11 with
    the fault of the first of the two that has one.
    """
    if operation not in _BOUNDS:
        raise ValueError(f"no such operation: {operation!r}")
    first, second = (bytes(x) if isinstance(x, Bitmap) else plain(x) for x in (a, b))
    return Bitmap._of(_combined(operation, first, second))
