"""Stores: two owners, each a mapping from slots to bitmaps."""

from __future__ import annotations

import pickle
import random
import unittest
from collections.abc import MutableMapping

from barcovento import Bitmap, Refused, Store
from support import number, sample


class Stores(unittest.TestCase):
    """Putting, fetching, dropping, saving, loading."""

    def test_sample(self) -> None:
        saved = sample("store.saved")
        store = Store.load(saved, 210)
        zone, dense, last = (
            Bitmap.from_bytes(sample(f"{name}.bitmap")) for name in ("zone", "dense", "last")
        )
        self.assertEqual(dict(store.owner(0)), {0: zone, 7: dense})
        self.assertEqual(dict(store.owner(1)), {63: last})
        self.assertEqual(store.save(), saved)
        self.assertEqual(repr(store), "Store(210 bytes, 3 of 64 slots used)")
        self.assertEqual(pickle.loads(pickle.dumps(store)).save(), saved)

    def test_mapping(self) -> None:
        owner = Store(1000).owner(0)
        self.assertIsInstance(owner, MutableMapping)
        owner[7] = Bitmap([1, 2])
        owner.update({3: Bitmap(), 31: Bitmap([9])})
        self.assertEqual(list(owner), [3, 7, 31])
        self.assertEqual(len(owner), 3)
        self.assertEqual(list(owner.values()), [Bitmap(), Bitmap([1, 2]), Bitmap([9])])
        self.assertIn(7, owner)
        for slot in (8, 32, 64, -1, "7", None):
            self.assertNotIn(slot, owner)
        self.assertEqual(owner.get(8), None)
        self.assertEqual(owner.pop(7), Bitmap([1, 2]))
        owner[31] = Bitmap([10])
        self.assertEqual(dict(owner), {3: Bitmap(), 31: Bitmap([10])})
        owner.clear()
        self.assertEqual(dict(owner), {})

    def test_empty_slots(self) -> None:
        owner = Store(100).owner(1)
        with self.assertRaises(KeyError):
            owner[40]
        with self.assertRaises(KeyError):
            del owner[40]

    def test_wrong_keys_and_values(self) -> None:
        owner = Store(100).owner(0)
        for value in (b"", sample("zone.bitmap"), {1}, None):
            self.assertRaises(TypeError, owner.__setitem__, 1, value)
        self.assertRaises(TypeError, owner.__setitem__, "1", Bitmap())
        self.assertRaises(TypeError, owner.__getitem__, 1.0)
        for wrong in (2, -1):
            self.assertRaises(ValueError, Store(100).owner, wrong)
        self.assertRaises(ValueError, Store, -1)

    def test_room_is_each_owners_half(self) -> None:
        store = Store(25)
        zone = Bitmap([0, 34, 255])
        store.owner(0)[0] = zone
        for slot in (1, 31):
            self.assertRaises(Refused, store.owner(0).__setitem__, slot, Bitmap())
        store.owner(0)[0] = zone
        store.owner(1)[32] = zone
        self.assertEqual(store.owner(0)[0], store.owner(1)[32])
        for room in (0, 1, 11):
            self.assertRaises(Refused, Store(room).owner(0).__setitem__, 0, Bitmap())

    def test_long_forms(self) -> None:
        store = Store(20_000_000)
        kinds = [Bitmap(range(0, 2_097_152, 2)), Bitmap(range(0, 100_000, 3))]
        for slot in range(64):
            store.owner(slot // 32)[slot] = kinds[slot % 2]
        entries = [number(len(bytes(kind))) + bytes(kind) for kind in kinds]
        self.assertEqual(store.save(), 32 * b"".join(entries))

    def test_random_against_a_dictionary(self) -> None:
        rng = random.Random(6)
        store, room = Store(600), 300
        held: dict[int, Bitmap] = {}
        refused = 0
        for _ in range(2000):
            slot = rng.randrange(64)
            owner = store.owner(slot // 32)
            if rng.random() < 0.4 and slot in held:
                del owner[slot], held[slot]
                continue
            bitmap = Bitmap(rng.sample(range(3000), rng.randint(0, 60)))
            after = {**held, slot: bitmap}
            if sum(len(bytes(after[s])) for s in after if s // 32 == slot // 32) > room:
                self.assertRaises(Refused, owner.__setitem__, slot, bitmap)
                refused += 1
            else:
                owner[slot] = held[slot] = bitmap
            self.assertEqual({**store.owner(0), **store.owner(1)}, held)
        self.assertGreater(refused, 50)
        entries = (bytes(held[slot]) if slot in held else b"" for slot in range(64))
        saved = b"".join(number(len(entry)) + entry for entry in entries)
        self.assertEqual(store.save(), saved)
        again = Store.load(saved, 600)
        self.assertEqual({**again.owner(0), **again.owner(1)}, held)


if __name__ == "__main__":
    unittest.main()
