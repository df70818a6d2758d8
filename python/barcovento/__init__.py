"""Barcovento: pixel masks (Mumbling bitmaps), Paimon row blocks and Mosaic buckets.

>>> from barcovento import Bitmap
>>> mask = Bitmap([255, 0, 34])
>>> bytes(mask).hex(" ")
'01 03 00 00 01 00 00 00 03 00 22 ff'
>>> list(mask | Bitmap([256]))
[0, 34, 255, 256]
"""

from __future__ import annotations

from .bitmap import Bitmap, combine
from .number import Number, read_number
from .refusals import Fault, Refused
from .schema import Column, Schema, Type
from .store import Owner, Store
from .table import Block, Bucket
from .values import Time
from .version import VERSION as __version__

__all__ = [
    "Bitmap",
    "Block",
    "Bucket",
    "Column",
    "Fault",
    "Number",
    "Owner",
    "Refused",
    "Schema",
    "Store",
    "Time",
    "Type",
    "combine",
    "read_number",
    "__version__",
]
