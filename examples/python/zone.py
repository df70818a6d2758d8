"""A mask written, asked and combined, a refusal, and a block's rows. Run from the repository's root."""

from pathlib import Path
from barcovento import Bitmap, Block, Refused

mask = Bitmap([255, 0, 34])                                  # as set(): any order, repeats
print(bytes(mask).hex(" "), 34 in mask, mask.rank(255), list(mask | Bitmap([256])))
zone = Bitmap.from_bytes(Path("samples/zone.bitmap").read_bytes())
print(zone == mask, len(zone & Bitmap(range(100))))          # equal sets, equal bytes
try:
    Bitmap.from_bytes(Path("samples/refused/10-not-rising.bitmap").read_bytes())
except Refused as refused:
    print(refused)
readings = Block(Path("samples/readings.schema").read_bytes(), Path("samples/readings.block").read_bytes())
print(readings[0], readings.column(1))
