"""The lines of the proved programs' vectors, put to the package."""

from __future__ import annotations

import re
import struct
import unittest
from collections.abc import Callable, Iterator
from decimal import Decimal
from typing import Any

from barcovento import Bitmap, Block, Bucket, Fault, Refused, Time, read_number
from support import ROOT, Case

TABLE = re.compile(
    r"schema (\S+),(?: rows (\d+),)? (?:block|bucket) (\S+?)"
    r"(?:, row (\d+), column (\d+), whole (-?\d+))?$"
)
ANSWER = re.compile(r"kind (\d) as wanted (\d+) (\d+) (\d+) (\d+) part \d+$")
REFUSED = re.compile(r"refused (\d+)(?: part 0)?$")


def vectors(crate: str) -> Iterator[tuple[str, str]]:
    """The questions of a crate's vectors, and the answers."""
    folder = ROOT / "crates" / crate
    questions = (folder / "stdin").read_text().splitlines()
    answers = (folder / "stdout").read_text().splitlines()
    for question, answer in zip(questions, answers):
        if not question.startswith("#"):
            yield question, answer


def part(digits: str) -> bytes:
    """Bytes in hexadecimal; a dash is none."""
    return b"" if digits == "-" else bytes.fromhex(digits)


def repeated(line: str) -> bytes:
    """Bytes in groups, some of them repeated: 31*00."""
    groups = (group.rpartition("*") for group in line.split())
    return b"".join(int(times or 1) * bytes.fromhex(digits) for times, _, digits in groups)


def stored(value: Any, scale: int) -> bytes:
    """The bytes that a place has, from its value."""
    if isinstance(value, Decimal):
        whole = int(value.scaleb(scale))
        return whole.to_bytes((8 + (whole + (whole < 0)).bit_length()) // 8, "big", signed=True)
    return value.encode() if isinstance(value, str) else value


class Vectors(Case):
    """Refusals, faults and values, line by line."""

    def test_faults_of_bitmaps(self) -> None:
        asked = 0
        for line, answer in vectors("bitmap_explain_vectors"):
            data, wanted = repeated(line), Fault(*map(int, answer.split()))
            try:
                found = Bitmap.check(data)
                self.assertEqual((wanted.number, len(Bitmap.from_bytes(data))), (0, found))
            except Refused as refused:
                self.assertEqual((refused.number, refused.fault), (wanted.number, wanted), line)
                with self.assertRaises(Refused):
                    Bitmap.from_bytes(data)
            asked += 1
        self.assertGreater(asked, 100)

    def test_numbers(self) -> None:
        asked = 0
        for line, answer in vectors("row_vectors"):
            name, _, digits = line.rpartition(": number ")
            if not name:
                continue
            asked += 1
            said = answer.rpartition(": ")[2]
            try:
                value, used, shortest = read_number(part(digits))
                words = f"value {value}, bytes {used}, {'shortest' if shortest else 'padded'}"
            except ValueError as error:
                words = str(error).replace("number", "").strip()
            self.assertEqual(words, said, line)
        self.assertGreater(asked, 50)

    def test_blocks(self) -> None:
        self.assertGreater(self.tables("row_vectors"), 90)

    def test_buckets(self) -> None:
        self.assertGreater(self.tables("bucket_vectors"), 140)

    def tables(self, crate: str) -> int:
        """Every question about a whole table or a field; how many."""
        asked = 0
        for line, answer in vectors(crate):
            found = TABLE.search(line)
            if found is None:
                continue
            asked += 1
            schema, rows, data, row, column, whole = found.groups()
            arguments = (part(schema), part(data)) if rows is None else (
                part(schema), int(rows), part(data)
            )
            kind = Block if rows is None else Bucket
            with self.subTest(line):
                if row is None:
                    self.ask(lambda: len(kind(*arguments)), answer)
                else:
                    place = int(row), int(column)
                    self.field(lambda: kind(*arguments), place, int(whole), answer)
        return asked

    def ask(self, call: Callable[[], Any], answer: str) -> Any:
        """What the call gives, or None where the answer is a refusal, which it has to be then."""
        refused = REFUSED.search(answer)
        if refused is None and not re.search(r": [1-9]\d$", answer):
            return call()
        with self.assertRaises(Refused) as caught:
            call()
        wanted = refused.group(1) if refused else answer.rpartition(" ")[2]
        self.assertEqual(caught.exception.number, int(wanted))
        return None

    def field(
        self, table: Callable[[], Any], place: tuple[int, int], whole: int, said: str
    ) -> None:
        """One field, as the answer says it."""
        value = self.ask(lambda: table().field(*place), said)
        found = ANSWER.search(said)
        if found is None:
            return
        kind, bits, nanos, start, length = map(int, found.groups())
        scale = table().schema[place[1]].scale
        wanted: dict[int, Callable[[], tuple[Any, Any]]] = {
            0: lambda: (value, None),
            1: lambda: (value, whole == 1),
            2: lambda: (int(Decimal(value).scaleb(scale)), whole),
            3: lambda: (struct.unpack("<f", struct.pack("<I", bits))[0], value),
            4: lambda: (struct.pack("<d", value), struct.pack("<Q", bits)),
            5: lambda: (value, Time(whole, nanos)),
            6: lambda: (stored(value, scale), bytes(table())[start : start + length]),
        }
        found_value, wanted_value = wanted[kind]()
        if found_value == found_value:
            self.assertEqual(found_value, wanted_value)


if __name__ == "__main__":
    unittest.main()
