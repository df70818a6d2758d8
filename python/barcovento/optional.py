"""NumPy, where it can be imported. It is imported when it is first needed."""

from __future__ import annotations

import functools
import importlib
import sys
from typing import Any


@functools.lru_cache(maxsize=None)
def numpy_or_none() -> Any:
    """NumPy, or None."""
    try:
        return importlib.import_module("numpy")
    except ImportError:
        return None


def needed_numpy() -> Any:
    """NumPy; ImportError with a plain message where it is missing."""
    numpy = numpy_or_none()
    if numpy is None:
        raise ImportError("arrays need NumPy, which cannot be imported here")
    return numpy


def is_array(value: object) -> bool:
    """Whether the value is a NumPy array."""
    numpy: Any = sys.modules.get("numpy")
    return numpy is not None and isinstance(value, numpy.ndarray)
