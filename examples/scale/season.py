"""A season's masks: for every burner the union of its nights, and what changed between two nights.

Masks lie in a folder as BURNER/NIGHT.bitmap. The job is a list of independent tasks, which a `run`
given from outside maps over: the built-in map, the map of a process pool, or one over a cluster.
Tasks only read; what they give is put together and written by the caller alone. A set has one
written form, so the result is the same, byte for byte, however the tasks were split, in whatever
order they ran, and however often one was run again.
"""

from __future__ import annotations

import os
import tempfile
from collections.abc import Callable, Iterable
from pathlib import Path
from typing import Any, NamedTuple, Optional

from barcovento import Bitmap, Refused, combine

SUFFIX = ".bitmap"
PART = 32

Run = Callable[[Callable[[Any], Any], Iterable[Any]], Iterable[Any]]


class Refusal(NamedTuple):
    """A mask that was not taken, and why."""

    path: str
    words: str


class Part(NamedTuple):
    """Some masks of one burner: a task."""

    burner: str
    paths: tuple[str, ...]


class Union(NamedTuple):
    """The union of masks of one burner, how many there were, and those that were refused."""

    burner: str
    form: bytes
    masks: int
    refused: tuple[Refusal, ...]


class Pair(NamedTuple):
    """A burner's masks of two nights: a task."""

    burner: str
    before: str
    after: str


class Change(NamedTuple):
    """In how many positions a burner's masks of two nights differ; None if one was not taken."""

    burner: str
    positions: Optional[int]
    refused: tuple[Refusal, ...]


class Report(NamedTuple):
    """What a season's job found."""

    unions: list[Union]
    changes: list[Change]
    unpaired: list[str]
    refused: list[Refusal]


def burners(masks: Path) -> list[str]:
    """The burners of a season, in order."""
    return sorted(entry.name for entry in os.scandir(masks) if entry.is_dir())


def parts(masks: Path, size: int = PART) -> list[Part]:
    """The masks of a season in parts of one burner each, in order."""
    found = []
    for burner in burners(masks):
        nights = sorted(e.path for e in os.scandir(masks / burner) if e.name.endswith(SUFFIX))
        found += [Part(burner, tuple(nights[at : at + size])) for at in range(0, len(nights), size)]
    return found


def pairs(masks: Path, before: str, after: str) -> tuple[list[Pair], list[str]]:
    """The burners' masks of two nights, and the burners that lack one of them."""
    found, unpaired = [], []
    for burner in burners(masks):
        paths = [masks / burner / (night + SUFFIX) for night in (before, after)]
        if all(path.exists() for path in paths):
            found.append(Pair(burner, *map(str, paths)))
        else:
            unpaired.append(burner)
    return found, unpaired


def unite(part: Part) -> Union:
    """The union of a part's masks. A mask that is refused or cannot be read is left out."""
    form = bytes(Bitmap())
    refused = []
    for path in part.paths:
        try:
            form = bytes(combine("union", form, Path(path).read_bytes()))
        except (Refused, OSError) as error:
            refused.append(Refusal(path, str(error)))
    return Union(part.burner, form, len(part.paths) - len(refused), tuple(refused))


def compare(pair: Pair) -> Change:
    """In how many positions two masks differ."""
    read, refused = [], []
    for path in (pair.before, pair.after):
        try:
            read.append(Bitmap.from_bytes(Path(path).read_bytes()))
        except (Refused, OSError) as error:
            refused.append(Refusal(path, str(error)))
    positions = None if refused else len(read[0] ^ read[1])
    return Change(pair.burner, positions, tuple(refused))


def put_together(unions: Iterable[Union]) -> list[Union]:
    """One union for each burner out of those of its parts."""
    found: dict[str, Union] = {}
    for part in unions:
        first = found.get(part.burner)
        if first is not None:
            form = bytes(combine("union", first.form, part.form))
            refused = first.refused + part.refused
            part = Union(part.burner, form, first.masks + part.masks, refused)
        found[part.burner] = part
    return [found[burner] for burner in sorted(found)]


def write(path: Path, data: bytes) -> None:
    """The bytes into a file: beside it first and then renamed, so that it is whole or as before."""
    handle, name = tempfile.mkstemp(dir=path.parent, prefix=f".{path.name}.")
    try:
        with os.fdopen(handle, "wb") as file:
            file.write(data)
            file.flush()
            os.fsync(file.fileno())
        os.chmod(name, 0o644)
        os.replace(name, path)
    except BaseException:
        os.unlink(name)
        raise


def season(masks: Path, out: Path, nights: tuple[str, str] | None, run: Run) -> Report:
    """The whole job: unions are written to `out` as BURNER.bitmap, the rest is reported."""
    unions = put_together(run(unite, parts(masks)))
    out.mkdir(parents=True, exist_ok=True)
    for union in unions:
        write(out / (union.burner + SUFFIX), union.form)
    found, unpaired = pairs(masks, *nights) if nights else ([], [])
    changes = sorted(run(compare, found))
    everything = {refusal for result in [*unions, *changes] for refusal in result.refused}
    return Report(unions, changes, unpaired, sorted(everything))


def lines(report: Report, nights: tuple[str, str] | None) -> list[str]:
    """The report in plain lines; refusals are not among them."""
    said = []
    for union in report.unions:
        count = Bitmap.check(union.form)
        said.append(f"{union.burner}: {union.masks} masks, {count} positions")
    if nights:
        said += changed_lines(report, nights)
    return said


def changed_lines(report: Report, nights: tuple[str, str]) -> list[str]:
    """What changed between the two nights, in plain lines."""
    compared = [change for change in report.changes if change.positions is not None]
    changed = [change for change in compared if change.positions]
    said = [f"{nights[0]} to {nights[1]}: {len(changed)} of {len(compared)} masks changed"]
    said += [f"{change.burner}: {change.positions} positions changed" for change in changed]
    said += [f"{burner}: no mask of one of the nights" for burner in report.unpaired]
    return said
