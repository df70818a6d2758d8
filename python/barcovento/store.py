"""Stores: up to 64 numbered bitmaps that two owners share."""

from __future__ import annotations

import operator
import threading
from collections.abc import Iterator, MutableMapping
from ctypes import byref, c_size_t, c_uint8, c_uint32, create_string_buffer, string_at
from typing import Any, SupportsIndex

from .bitmap import Bitmap
from .library import LIBRARY, BytesLike, number32, plain
from .refusals import Refused, answer

SLOTS = 64
OWNERS = 2
DIRECTORY = 128
EMPTY_SLOT = 41


class Store:
    """A store of up to 64 bitmaps in a given number of bytes, shared by two owners.

    Owner 0 has slots 0 to 31 and half the bytes, rounded down; owner 1 has slots 32 to 63 and the
    other half. Threads may share a store: one call on it runs at a time.
    """

    __slots__ = ("_room", "_buffer", "_directory", "_lock")

    def __init__(self, room: SupportsIndex) -> None:
        """An empty store of so many bytes."""
        self._room = operator.index(room)
        if self._room < 0:
            raise ValueError("a store cannot have fewer than 0 bytes")
        self._buffer = (c_uint8 * max(self._room, 1))()
        self._directory = (c_uint32 * DIRECTORY)()
        self._lock = threading.Lock()

    @classmethod
    def load(cls, saved: BytesLike, room: SupportsIndex) -> Store:
        """The store that was saved, in so many bytes. Refused 42 if it is bad or does not fit."""
        store = cls(room)
        entries = plain(saved)
        answer(LIBRARY.bv_store_load(*store._slices(), entries, len(entries)))
        return store

    def save(self) -> bytes:
        """All slots of both owners as bytes."""
        with self._lock:
            room = SLOTS * 5 + sum(self._directory[1::2])
            out = create_string_buffer(room)
            length = c_size_t()
            answer(LIBRARY.bv_store_save(*self._slices(), out, room, byref(length)))
            return string_at(out, length.value)

    def owner(self, number: SupportsIndex) -> Owner:
        """The slots of owner 0 or 1, as a mapping from slot numbers to bitmaps."""
        return Owner(self, number)

    @property
    def room(self) -> int:
        """The number of bytes; each owner has half of them, rounded down."""
        return self._room

    def _slices(self) -> tuple[Any, int, Any, int]:
        """Buffer and directory as each call takes them."""
        return self._buffer, self._room, self._directory, DIRECTORY

    def _used(self, slot: int) -> bool:
        """Whether a slot holds a bitmap."""
        return self._directory[2 * slot + 1] > 0

    def __repr__(self) -> str:
        used = sum(map(self._used, range(SLOTS)))
        return f"Store({self._room} bytes, {used} of {SLOTS} slots used)"

    def __reduce__(self) -> tuple[object, tuple[bytes, int]]:
        return Store.load, (self.save(), self._room)


class Owner(MutableMapping[int, Bitmap]):
    """The slots of one owner of a store: a mapping from slot numbers to bitmaps.

    An empty slot raises KeyError. Refused 40 for a slot number that is not 0 to 63, 44 for a slot
    of the other owner, 13 where the owner's half has no room for what is set.
    """

    __slots__ = ("_store", "_owner", "_slots")

    def __init__(self, store: Store, number: SupportsIndex) -> None:
        self._store = store
        self._owner = operator.index(number)
        if self._owner not in range(OWNERS):
            raise ValueError(f"no owner {self._owner}: a store has owners 0 and 1")
        each = SLOTS // OWNERS
        self._slots = range(each * self._owner, each * (self._owner + 1))

    def __getitem__(self, slot: SupportsIndex) -> Bitmap:
        number = number32(slot)
        store = self._store
        with store._lock:
            room = store._directory[2 * number + 1] if number in self._slots else 0
            out = create_string_buffer(max(room, 1))
            length = c_size_t()
            status = LIBRARY.bv_store_fetch(
                *store._slices(), self._owner, number, out, room, byref(length)
            )
        self._answer(status, slot)
        return Bitmap._of(string_at(out, length.value))

    def __setitem__(self, slot: SupportsIndex, bitmap: Bitmap) -> None:
        if not isinstance(bitmap, Bitmap):
            raise TypeError(f"a store holds bitmaps, not {type(bitmap).__name__}")
        form = bytes(bitmap)
        store = self._store
        with store._lock:
            status = LIBRARY.bv_store_put(
                *store._slices(), self._owner, number32(slot), form, len(form)
            )
        answer(status, form)

    def __delitem__(self, slot: SupportsIndex) -> None:
        store = self._store
        with store._lock:
            status = LIBRARY.bv_store_drop(*store._slices(), self._owner, number32(slot))
        self._answer(status, slot)

    def __contains__(self, slot: object) -> bool:
        """Whether the slot is the owner's and holds a bitmap."""
        try:
            number = number32(slot)  # type: ignore[arg-type]
        except TypeError:
            return False
        return number in self._slots and self._store._used(number)

    def __iter__(self) -> Iterator[int]:
        return filter(self._store._used, self._slots)

    def __len__(self) -> int:
        return sum(map(self._store._used, self._slots))

    def _answer(self, status: int, slot: SupportsIndex) -> None:
        """Nothing for status 0; KeyError for an empty slot, as of a mapping; else Refused."""
        if status == EMPTY_SLOT:
            raise KeyError(slot)
        if status:
            raise Refused(status)

    def __repr__(self) -> str:
        return f"Owner({self._owner}, slots {list(self)})"
