"""The package as a whole: its version, how it finds the library, threads."""

from __future__ import annotations

import ctypes
import ctypes.util
import doctest
import os
import random
import re
import shutil
import subprocess
import sys
import tempfile
import unittest
from concurrent.futures import ThreadPoolExecutor
from pathlib import Path

import barcovento
from barcovento import Bitmap, Block, Store
from barcovento.library import LIBRARY
from support import ROOT, form, random_set, sample

PACKAGE = ROOT / "python"
LIBRARY_PATH = Path(LIBRARY._name).resolve()


def imported(path: Path, **variables: str) -> subprocess.CompletedProcess[str]:
    """An import of the package from a directory, with these variables set."""
    environment = {"PATH": os.environ.get("PATH", ""), "PYTHONPATH": str(path), **variables}
    words = "import barcovento; print(len(barcovento.Bitmap([1, 2])))"
    return subprocess.run(
        [sys.executable, "-c", words], env=environment, capture_output=True, text=True, cwd=path
    )


class Package(unittest.TestCase):
    """Version, examples, the way to the library."""

    def test_version(self) -> None:
        project = (PACKAGE / "pyproject.toml").read_text()
        self.assertEqual(re.findall(r'^version = "(.*)"', project, re.M), [barcovento.__version__])

    def test_examples(self) -> None:
        failed, tried = doctest.testmod(barcovento)
        self.assertEqual((failed, tried > 0), (0, True))
        failed, tried = doctest.testfile(str(PACKAGE / "README.md"), module_relative=False)
        self.assertEqual((failed, tried > 0), (0, True))

    def test_names(self) -> None:
        for name in barcovento.__all__:
            self.assertTrue(hasattr(barcovento, name), name)

    @unittest.skipUnless(LIBRARY_PATH.exists(), "the library was found by the loader")
    def test_library_by_variable(self) -> None:
        done = imported(PACKAGE, BARCOVENTO_LIBRARY=str(LIBRARY_PATH))
        self.assertEqual((done.returncode, done.stdout), (0, "2\n"), done.stderr)

    def test_wrong_variable_is_not_passed_over(self) -> None:
        for wrong in ("/no/such/file.so", str(ROOT / "README.md")):
            done = imported(PACKAGE, BARCOVENTO_LIBRARY=wrong)
            self.assertNotEqual(done.returncode, 0)
            self.assertIn(f"BARCOVENTO_LIBRARY={wrong}", done.stderr)
            self.assertIn("./install", done.stderr)

    def test_other_library(self) -> None:
        done = imported(PACKAGE, BARCOVENTO_LIBRARY=ctypes.util.find_library("c"))
        self.assertNotEqual(done.returncode, 0)
        self.assertIn("bv_bitmap_check", done.stderr)

    def test_without_numpy(self) -> None:
        words = (
            "import sys; sys.modules['numpy'] = None\n"
            "from support import sample; from barcovento import Bitmap, Block\n"
            "print(Bitmap([3, 1]).positions())\n"
            "Block(sample('readings.schema'), sample('readings.block')).array(0)"
        )
        path = f"{PACKAGE}:{PACKAGE / 'tests'}"
        environment = {**os.environ, "PYTHONPATH": path}
        done = subprocess.run(
            [sys.executable, "-c", words], env=environment, capture_output=True, text=True
        )
        self.assertEqual(done.stdout, "array('I', [1, 3])\n")
        self.assertIn("ImportError: arrays need NumPy", done.stderr)


class OutsideTheRepository(unittest.TestCase):
    """A copy of the package that lies elsewhere."""

    def setUp(self) -> None:
        folder = tempfile.TemporaryDirectory()
        self.addCleanup(folder.cleanup)
        self.path = Path(folder.name) / "python"
        self.lib = Path(folder.name) / "lib"
        self.lib.mkdir()
        copy = self.path / "barcovento"
        copy.mkdir(parents=True)
        for file in (PACKAGE / "barcovento").glob("*.py"):
            (copy / file.name).write_bytes(file.read_bytes())

    def test_nothing_found(self) -> None:
        done = imported(self.path)
        if done.returncode == 0:
            self.skipTest("the library is installed on this machine")
        for tried in ("BARCOVENTO_LIBRARY", "target/library", "by the loader", "pkg-config"):
            self.assertIn(tried, done.stderr)
        self.assertIn("./install", done.stderr)

    @unittest.skipUnless(LIBRARY_PATH.exists(), "the library was found by the loader")
    def test_by_the_loader(self) -> None:
        os.symlink(LIBRARY_PATH, self.lib / "libbarcovento.so.0")
        done = imported(self.path, LD_LIBRARY_PATH=str(self.lib))
        self.assertEqual((done.returncode, done.stdout), (0, "2\n"), done.stderr)

    @unittest.skipUnless(LIBRARY_PATH.exists(), "the library was found by the loader")
    @unittest.skipIf(shutil.which("pkg-config") is None, "pkg-config is missing")
    def test_by_pkg_config(self) -> None:
        os.symlink(LIBRARY_PATH, self.lib / "libbarcovento.so")
        words = f"libdir={self.lib}\nName: barcovento\nDescription: x\nVersion: 0.1.0\n"
        (self.lib / "barcovento.pc").write_text(words)
        done = imported(self.path, PKG_CONFIG_PATH=str(self.lib))
        self.assertEqual((done.returncode, done.stdout), (0, "2\n"), done.stderr)


class Threads(unittest.TestCase):
    """Calls from several threads at once: the interpreter's lock is free while a call runs."""

    def test_lock_is_let_go(self) -> None:
        self.assertIs(type(LIBRARY), ctypes.CDLL)

    def test_bitmaps_and_tables(self) -> None:
        block = Block(sample("readings.schema"), sample("readings.block"))
        rows = list(block)

        def work(seed: int) -> int:
            rng = random.Random(seed)
            for _ in range(12):
                a, b = random_set(rng), random_set(rng)
                first, second = Bitmap(a), Bitmap(b)
                if bytes(first | second) != form(a | b) or list(first & second) != sorted(a & b):
                    return 0
                if list(block) != rows:
                    return 0
            return 1

        with ThreadPoolExecutor(4) as pool:
            self.assertEqual(list(pool.map(work, range(8))), 8 * [1])

    def test_one_store(self) -> None:
        store = Store(1_000_000)

        def work(owner: int) -> bool:
            rng = random.Random(owner)
            mine = store.owner(owner % 2)
            first = 32 * (owner % 2) + 8 * (owner // 2)
            slots = range(first, first + 8)
            for _ in range(200):
                slot = rng.choice(slots)
                bitmap = Bitmap(rng.sample(range(5000), 40))
                mine[slot] = bitmap
                if mine[slot] != bitmap:
                    return False
            return True

        with ThreadPoolExecutor(8) as pool:
            self.assertEqual(list(pool.map(work, range(8))), 8 * [True])
        again = Store.load(store.save(), 1_000_000)
        self.assertEqual(dict(again.owner(0)), dict(store.owner(0)))


if __name__ == "__main__":
    unittest.main()
