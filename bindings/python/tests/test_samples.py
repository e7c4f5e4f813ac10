"""The sample of silicon: its recipe gives its files, and what samples/README.md says of it is so."""
import contextlib
import io
import itertools
import os
import shutil
import subprocess
import sys
import tempfile
import unittest

import numpy as np

import gullyfork as gf
from gullyfork.__main__ import main
from common import ROOT, read_out

SILICON = os.path.join(ROOT, "samples", "si-2x2x2")
sys.path.insert(0, os.path.join(ROOT, "samples"))
import damage

ROUNDED = 1e-8  # a unit of the last digit of a force


def widest(full):
    """The widest difference between two orders of the same legs."""
    n = full.ndim // 2
    orders = itertools.permutations(range(n))
    return max(np.abs(full - full.transpose([*p, *(n + k for k in p)])).max() for p in orders)


class Silicon(unittest.TestCase):
    @classmethod
    def setUpClass(cls):
        cls.room = tempfile.TemporaryDirectory()
        cls.addClassCleanup(cls.room.cleanup)
        subprocess.run([sys.executable, os.path.join(SILICON, "make.py"), "--fourth", cls.room.name], check=True)
        t = damage.read_tables(damage.read(SILICON, "tables.txt"))
        cls.tables = gf.Tables(t["p2s"], t["s2pp"], t["nsym_list"], t["perms"])
        cls.fc2 = np.fromfile(os.path.join(SILICON, "fc2.f64")).reshape(16, 16, 3, 3)
        cls.fc3 = np.fromfile(os.path.join(SILICON, "fc3.f64")).reshape(2, 16, 16, 3, 3, 3)
        cls.fc4 = np.fromfile(os.path.join(cls.room.name, "fc4.f64")).reshape(2, 16, 16, 16, 3, 3, 3, 3)

    def test_recipe(self):
        """The files made again: the same texts, and numbers that differ by the rounding of four forces (of two at second order) at most."""
        for name in ("tables.txt", "cell.txt"):
            self.assertEqual(damage.read(self.room.name, name), damage.read(SILICON, name))
        for name, fc, unit in (("fc2.f64", self.fc2, ROUNDED / 0.02), ("fc3.f64", self.fc3, ROUNDED / 0.02**2)):
            again = np.fromfile(os.path.join(self.room.name, name)).reshape(fc.shape)
            self.assertLess(np.abs(again - fc).max(), 4.1 * unit)
            self.assertLess(np.abs(again / unit - np.round(again / unit)).max(), 1e-3)

    def test_half_shifts(self):
        for row in self.tables.perms:
            self.assertEqual([int(row[a]) for a in row], list(range(16)))

    def test_orders(self):
        """What samples/README.md says of the orders of the same legs, and of a swapped one."""
        self.assertAlmostEqual(np.abs(self.fc3).max(), 27.39, places=2)
        self.assertLess(widest(self.fc2), 1e-5)
        self.assertLess(widest(read_out(self.fc3, self.tables)), 1.6e-4)
        swapped = np.abs(self.fc3 - self.fc3.transpose(0, 1, 2, 3, 5, 4))
        self.assertGreater(swapped.max(), 0.99)
        three = [swapped[p, j, k].max() for p, i in enumerate((0, 8)) for j in range(16) for k in range(16) if len({i, j, k}) == 3]
        self.assertGreater(max(three), 0.4)

    def test_sum_rule(self):
        """The acoustic sum rule over every leg but the first, as far as the rounding of forces goes: a part of the largest number."""
        for fc, largest, part in ((self.fc2, 17.7, 2e-7), (self.fc3, 27.4, 2e-5), (self.fc4, 21.6, 2e-3)):
            self.assertAlmostEqual(np.abs(fc).max(), largest, places=1)
            for leg in range(1, fc.ndim // 2):
                self.assertLess(np.abs(fc.sum(leg)).max(), part * largest)

    def test_symmetrized(self):
        """Third and fourth order: after the symmetrizers all orders are alike, and no number moved by more than the orders were apart."""
        fc3, fc4 = self.fc3.copy(), self.fc4.copy()
        gf.set_permutation_symmetry_compact_fc3(fc3, self.tables)
        gf.set_permutation_symmetry_compact_fc4(fc4, self.tables)
        self.assertEqual(widest(read_out(fc3, self.tables)), 0.0)
        self.assertLess(np.abs(fc3 - self.fc3).max(), 1.6e-4)
        self.assertLess(np.abs(fc4 - self.fc4).max(), 0.02)
        self.assertFalse(np.array_equal(fc4, self.fc4))
        self.assertEqual(widest(read_out(fc4, self.tables)), 0.0)


    def test_delivery(self):
        """With fourth order through the job: it holds, in the same words of both, and the checker is clean."""
        folder, out = os.path.join(self.room.name, "in"), os.path.join(self.room.name, "out")
        os.mkdir(folder)
        for name in ("tables.txt", "cell.txt", "fc2.f64", "fc3.f64", "fc4.f64"):
            shutil.copy(os.path.join(self.room.name, name), folder)
        shutil.copy(os.path.join(SILICON, "operations.txt"), folder)
        for words in (["run", folder, out], ["compile", "verify"]):
            subprocess.run(["sh", os.path.join(ROOT, "delivery", words[0]), *words[1:]], check=True, stdout=subprocess.DEVNULL)
        p = subprocess.run([os.path.join(ROOT, "target", "bin", "verify"), out], capture_output=True, text=True)
        self.assertEqual((p.returncode, p.stdout.splitlines()[-1]), (0, "HOLDS"))
        self.assertEqual([line.words for line in gf.certificate.verify(out)], p.stdout.splitlines()[:-1])
        said = io.StringIO()
        with contextlib.redirect_stdout(said):
            self.assertEqual(main(["check", out]), 0, said.getvalue())
        self.assertTrue(said.getvalue().endswith("\nVERDICT clean\n"))
        d = gf.files.read_delivery(out)
        self.assertLess(gf.drift_report_compact_fc4(d.fc4, d.tables).value, 1e-13)


if __name__ == "__main__":
    unittest.main()
