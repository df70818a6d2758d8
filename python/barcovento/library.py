"""The shared library: where it is found, and the calls of include/barcovento.h.

ctypes lets go of the interpreter's lock while a call runs, and the library keeps no state: any
number of threads may call it at once.
"""

from __future__ import annotations

import ctypes
import ctypes.util
import operator
import os
import subprocess
from collections.abc import Iterator
from ctypes import POINTER, c_char_p, c_int64, c_size_t, c_uint8, c_uint32, c_uint64, c_void_p
from pathlib import Path
from typing import SupportsIndex, Union

BytesLike = Union[bytes, bytearray, memoryview]

VARIABLE = "BARCOVENTO_LIBRARY"
SONAME = "libbarcovento.so.0"
HIGHEST = 0xFFFF_FFFF

_BYTES = (c_char_p, c_size_t)
_NUMBER8 = POINTER(c_uint8)
_NUMBER32 = POINTER(c_uint32)
_NUMBER64 = POINTER(c_uint64)
_SIZE = POINTER(c_size_t)
_OUT = (c_void_p, c_size_t)
_STORE = (c_void_p, c_size_t, c_void_p, c_size_t)
_COMBINE = (*_BYTES, *_BYTES, *_OUT, _SIZE)
_ANSWER = (_NUMBER8, POINTER(c_int64), _NUMBER64, _NUMBER32, _SIZE, _SIZE)

# Arguments of each call. Slices that are only read are bytes objects; lists and buffers that are
# written go by their address.
_CALLS: dict[str, tuple[object, ...]] = {
    "bv_bitmap_check": (*_BYTES, _NUMBER32),
    "bv_bitmap_explain": (*_BYTES, _NUMBER32, _SIZE, _SIZE, _SIZE, _SIZE),
    "bv_bitmap_probe": (*_BYTES, c_uint32, _NUMBER8),
    "bv_bitmap_rank": (*_BYTES, c_uint32, _NUMBER32),
    "bv_bitmap_page": (*_BYTES, _NUMBER32, _NUMBER8, *_OUT, _NUMBER32),
    "bv_bitmap_write": (*_OUT, *_OUT, _SIZE),
    "bv_bitmap_union": _COMBINE,
    "bv_bitmap_intersection": _COMBINE,
    "bv_bitmap_difference": _COMBINE,
    "bv_bitmap_symmetric_difference": _COMBINE,
    "bv_store_put": (*_STORE, c_uint32, c_uint32, *_BYTES),
    "bv_store_fetch": (*_STORE, c_uint32, c_uint32, *_OUT, _SIZE),
    "bv_store_drop": (*_STORE, c_uint32, c_uint32),
    "bv_store_save": (*_STORE, *_OUT, _SIZE),
    "bv_store_load": (*_STORE, *_BYTES),
    "bv_number_read": (*_BYTES, _NUMBER8, _NUMBER32, _NUMBER32, _NUMBER8),
    "bv_schema_check": (*_BYTES, _NUMBER32),
    "bv_schema_column": (*_BYTES, c_uint32, _NUMBER8, _NUMBER8, _NUMBER32, _NUMBER32),
    "bv_block_check": (*_BYTES, *_BYTES, _NUMBER32),
    "bv_block_field": (*_BYTES, *_BYTES, c_uint32, c_uint32, *_ANSWER),
    "bv_block_page": (*_BYTES, *_BYTES, _NUMBER32, *_OUT, _NUMBER32, _NUMBER32),
    "bv_bucket_check": (*_BYTES, c_uint32, *_BYTES),
    "bv_bucket_field": (*_BYTES, c_uint32, *_BYTES, c_uint32, c_uint32, *_ANSWER),
    "bv_bucket_page": (*_BYTES, c_uint32, *_BYTES, c_uint32, _NUMBER32, *_OUT, _NUMBER32),
}


def _from_pkg_config() -> str | None:
    """The library in the directory that pkg-config names, if it knows one."""
    command = ["pkg-config", "--variable=libdir", "barcovento"]
    try:
        found = subprocess.run(command, capture_output=True, text=True, check=True).stdout.strip()
    except (OSError, subprocess.CalledProcessError):
        return None
    paths = (Path(found) / name for name in (SONAME, "libbarcovento.so"))
    return next((str(path) for path in paths if found and path.exists()), None)


def _candidates() -> Iterator[tuple[str, str | None]]:
    """Where the library may be, in order: what is tried, and the path or None."""
    named = os.environ.get(VARIABLE)
    if named:
        yield f"{VARIABLE}={named}", named
        return
    yield f"{VARIABLE} (not set)", None
    built = Path(__file__).resolve().parents[2] / "target" / "library" / "libbarcovento.so"
    yield str(built), str(built) if built.exists() else None
    yield f"{SONAME}, by the loader", SONAME
    yield "ctypes.util.find_library('barcovento')", ctypes.util.find_library("barcovento")
    yield "pkg-config --variable=libdir barcovento", _from_pkg_config()


def _declare(library: ctypes.CDLL) -> ctypes.CDLL:
    """The library with the arguments of each call declared; AttributeError if it lacks one."""
    for name, arguments in _CALLS.items():
        call = getattr(library, name)
        call.argtypes = arguments
        call.restype = c_uint32
    return library


def find() -> ctypes.CDLL:
    """The first library that can be loaded and has every call; ImportError if there is none."""
    tried = []
    for words, path in _candidates():
        if path is None:
            tried.append(f"{words}: nothing there")
            continue
        try:
            return _declare(ctypes.CDLL(path))
        except (OSError, AttributeError) as error:
            tried.append(f"{words}: {error}")
    raise ImportError(
        "the shared library of Barcovento was not found. Tried, in order:\n  "
        + "\n  ".join(tried)
        + f"\nInstall it by ./install in the repository, or set {VARIABLE} to the path of the "
        "library (libbarcovento.so)."
    )


LIBRARY = find()


def plain(data: BytesLike) -> bytes:
    """The bytes of any object that lends its bytes; TypeError for any other."""
    return data if type(data) is bytes else memoryview(data).tobytes()


def number32(value: SupportsIndex) -> int:
    """An integer as a number of 32 bits; what does not fit is the highest, which names nothing."""
    number = operator.index(value)
    return number if 0 <= number <= HIGHEST else HIGHEST
