"""A season made up from a seed: masks of 640 x 480 pixels with hot spots and single hot pixels."""

from __future__ import annotations

import random
from collections.abc import Iterator
from datetime import date, timedelta
from pathlib import Path
from typing import NamedTuple

from barcovento import Bitmap

WIDTH, HEIGHT = 640, 480
FIRST_NIGHT = date(2026, 6, 1)


class Season(NamedTuple):
    """How large a season is, its seed, and that every so many masks one is damaged (0: none)."""

    burners: int
    nights: int
    seed: int
    damage: int = 0


def burner_name(number: int) -> str:
    """A burner's folder."""
    return f"burner-{number:02}"


def night_name(number: int) -> str:
    """A night's file, without its ending."""
    return (FIRST_NIGHT + timedelta(days=number)).isoformat()


def spot(rng: random.Random) -> set[int]:
    """A rectangle of hot pixels."""
    wide, high = rng.randint(4, 60), rng.randint(4, 60)
    left, top = rng.randrange(WIDTH - wide), rng.randrange(HEIGHT - high)
    rows = range(top, top + high)
    return {at for row in rows for at in range(row * WIDTH + left, row * WIDTH + left + wide)}


def stage(burner: int, night: int) -> int:
    """A burner's mask stays as it is for three nights: a stage."""
    return (night + burner) // 3


def members(season: Season, burner: int, night: int) -> set[int]:
    """A mask's positions: some spots of the burner's, and others of the stage."""
    rng = random.Random(f"{season.seed} {burner}")
    hot = spot(rng) | spot(rng) | spot(rng)
    rng = random.Random(f"{season.seed} {burner} {stage(burner, night)}")
    hot |= spot(rng) | spot(rng)
    return hot | {rng.randrange(WIDTH * HEIGHT) for _ in range(rng.choice([30, 300, 3000]))}


def damaged(season: Season, burner: int, night: int) -> bool:
    """Whether this mask is one that gets damaged."""
    return season.damage > 0 and (burner * season.nights + night) % season.damage == 1


def spoil(data: bytes, way: int) -> bytes:
    """The bytes damaged in one of four ways: cut, longer, of another version, miscounted."""
    ways = (
        data[: len(data) // 2],
        data + b"\0",
        b"\x03" + data[1:],
        data[:1] + bytes([data[1] ^ 1]) + data[2:],
    )
    return ways[way % len(ways)]


def every_mask(season: Season) -> Iterator[tuple[int, int]]:
    """Burner and night of every mask."""
    return ((b, n) for b in range(season.burners) for n in range(season.nights))


def write_season(season: Season, folder: Path) -> list[str]:
    """The season's masks into a folder; the paths of those that were damaged."""
    spoiled: list[str] = []
    written, form = (-1, -1), b""
    for burner, night in every_mask(season):
        path = folder / burner_name(burner) / f"{night_name(night)}.bitmap"
        path.parent.mkdir(parents=True, exist_ok=True)
        if written != (burner, stage(burner, night)):
            written = burner, stage(burner, night)
            form = bytes(Bitmap(members(season, burner, night)))
        data = form
        if damaged(season, burner, night):
            data = spoil(data, len(spoiled))
            spoiled.append(str(path))
        path.write_bytes(data)
    return spoiled
