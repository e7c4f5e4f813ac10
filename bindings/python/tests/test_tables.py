"""Shift tables from cells, as people have them: beside phonopy's, with its numbering, and what is wrong named by its atom."""
import unittest

import numpy as np

import gullyfork as gf
from common import random

try:
    from phonopy import Phonopy
    from phonopy.structure.atoms import PhonopyAtoms
except ImportError:
    Phonopy = None
try:
    import ase
    import ase.build
except ImportError:
    ase = None

FCC = np.array([[0, 0, 0], [0, .5, .5], [.5, 0, .5], [.5, .5, 0]])
SALT = 5.64 * np.eye(3), np.concatenate([FCC, FCC + 0.5]), ["Na"] * 4 + ["Cl"] * 4
OBLIQUE = [[3.0, 0.1, 0.2], [-1.4, 2.7, 0.0], [0.3, 0.5, 4.1]], [[0.1, 0.2, 0.3], [0.6, 0.75, 0.8], [0.35, 0.9, 0.05]], ["Ti", "O", "O"]
MATRICES = (1, 2, [3, 1, 2], [[2, 0, 0], [0, 2, 0], [0, 0, 3]], [[-1, 1, 1], [1, -1, 1], [1, 1, -1]], [[2, 1, 0], [0, 2, 0], [0, 0, 1]],
            [[1, 0, 0], [1, 2, 0], [-1, 0, 3]], [[0, 1, 1], [1, 0, 1], [1, 1, 0]])


class FromCell(unittest.TestCase):
    @unittest.skipUnless(Phonopy, "needs phonopy")
    def test_beside_phonopy(self):
        for lattice, positions, elements in (SALT, OBLIQUE):
            atoms = PhonopyAtoms(symbols=elements, cell=lattice, scaled_positions=positions)
            for matrix in MATRICES:
                for primitive in ("P", "F", [[0, .5, .5], [.5, 0, .5], [.5, .5, 0]], "auto") if elements is SALT[2] else (None, np.eye(3)):
                    full = np.diag(np.ravel(matrix) * np.ones(3, int)) if np.ndim(matrix) < 2 else matrix
                    try:
                        theirs = Phonopy(atoms, full, primitive_matrix=primitive, is_symmetry=False)
                    except RuntimeError:
                        self.assertRaisesRegex(ValueError, "do not fit", gf.Tables.from_cell, atoms, matrix, primitive)
                        continue
                    ours = gf.Tables.from_cell((lattice, positions, elements), matrix, primitive)
                    self.assertEqual(ours, gf.Tables.of(theirs.primitive), (matrix, primitive))
                    self.assertEqual(gf.Tables.from_cell(atoms, matrix, primitive), ours)
                    ours.check()

    @unittest.skipUnless(ase, "needs ASE")
    def test_ase(self):
        atoms = ase.build.bulk("NaCl", "rocksalt", a=5.64, cubic=True)
        plain = atoms.cell.array, atoms.get_scaled_positions(), atoms.get_chemical_symbols()
        self.assertEqual(gf.Tables.from_cell(atoms, 2, "F"), gf.Tables.from_cell(plain, 2, "F"))
        supercell = atoms.repeat(2)  # in ASE's numbering
        rng = np.random.default_rng(5).permutation(len(supercell))
        t = gf.Tables.from_cell(supercell[rng], primitive_matrix=np.array([[0, .5, .5], [.5, 0, .5], [.5, .5, 0]]) / 2)
        t.check()
        self.assertEqual(t.counts, (64, 2, 32))
        self.assertEqual(gf.Tables.from_cell(ase.build.bulk("Si"), 3).counts, (54, 2, 27))

    def test_other_centrings(self):
        for letter, extra in (("I", [[.5, .5, .5]]), ("A", [[0, .5, .5]]), ("C", [[.5, .5, 0]]), ("R", [[2 / 3, 1 / 3, 1 / 3], [1 / 3, 2 / 3, 2 / 3]])):
            lattice = np.diag([3.0, 4.0, 5.0]) if letter != "R" else [[3, 0, 0], [-1.5, 1.5 * 3 ** 0.5, 0], [0, 0, 5]]
            t = gf.Tables.from_cell((lattice, [[0, 0, 0], *extra], ["Fe"] * (1 + len(extra))), 2, letter)
            t.check()
            self.assertEqual(t.counts, (8 * (1 + len(extra)), 1, 8 * (1 + len(extra))))

    def test_errors_name_the_atom(self):
        lattice, positions, elements = SALT
        moved = positions.copy()
        moved[6] += [0.01, 0, 0]
        cases = (
            ((lattice, moved, elements), "F", r"atom \d+ \(Cl\): no atom where the shift \(.*\) sends it; the nearest, atom \d+ \(Cl\), is 0.0564 away"),
            ((lattice, positions, elements[:7] + ["Br"]), "F", r"atom \d+ \((Cl|Br)\): the shift \(.*\) sends it to atom \d+ \((Cl|Br)\)"),
            ((lattice, positions * [[np.nan]] + 0, elements), "F", r"atom 0 \(Na\): its position is not finite"),
            ((lattice, np.where(np.arange(8)[:, None] == 3, positions[1], positions), elements), "F", r"atom 3 \(Na\) and atom 1 \(Na\) stand at the same place"),
            ((lattice, positions, elements[:3]), "F", r"positions has the shape \(8, 3\), 3 elements ask for \(3, 3\)"),
            ((np.zeros((3, 3)), positions, elements), "F", "span a volume"),
            (SALT, "X", "primitive_matrix is 'X'"),
            (SALT, np.eye(3) * 0.75, "do not fit"),
            (SALT, np.eye(3) / 3, r"atom 0 \(Na\): no atom where the shift"),
        )
        for cell, primitive, words in cases:
            with self.subTest(words), self.assertRaisesRegex(ValueError, words):
                gf.Tables.from_cell(cell, 2, primitive)
        for matrix in (0, -1, [1.5, 1, 1], [1, 2], np.eye(3) * np.nan):
            self.assertRaisesRegex(ValueError, "supercell_matrix", gf.Tables.from_cell, SALT, matrix)
        self.assertRaises(TypeError, gf.Tables.from_cell, 7)
        self.assertRaises(TypeError, gf.Tables.from_cell, SALT[:2])
        with self.assertRaises(gf.Refused) as caught:
            gf.Tables.from_cell(SALT, 6)
        self.assertEqual(caught.exception.number, 1)

    def test_tolerance(self):
        lattice, positions, elements = SALT
        moved = positions + 1e-4 * random(8, 3)
        self.assertRaises(ValueError, gf.Tables.from_cell, (lattice, moved, elements), 2, "F")
        self.assertEqual(gf.Tables.from_cell((lattice, moved, elements), 2, "F", symprec=1e-2), gf.Tables.from_cell(SALT, 2, "F"))


if __name__ == "__main__":
    unittest.main()
