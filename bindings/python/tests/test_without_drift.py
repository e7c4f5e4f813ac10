"""Third and fourth order without drift: the calls beside their steps in numpy, and third order beside phono3py's steps."""
import unittest

import numpy as np

import gullyfork as gf
from common import grid_tables, phono3py_steps, random, same_bits, without_drift

try:
    import test_phonopy
except unittest.SkipTest:
    test_phonopy = None

HALF = [grid_tables(g, p, seed=5) for g, p in (((2, 1, 1), 1), ((2, 1, 1), 2), ((4, 1, 1), 1), ((2, 2, 1), 1))]
ODD = [grid_tables(g, p, seed=5) for g, p in (((1, 1, 1), 2), ((3, 1, 1), 1), ((3, 1, 1), 2), ((5, 1, 1), 1))]
SPOILED = [np.nan, np.inf, -np.inf, 1e308, -0.0]


def drift(fc, t):
    return call("drift_report", fc, t)(fc).value


def call(name, fc, t):
    """The call for sets of this order, full ones where there are no tables: all that it takes after the set stays to be given."""
    by_name = getattr(gf, f"{name}{'' if t is None else '_compact'}_fc{fc.ndim // 2}")
    return by_name if t is None else lambda some, *more, **lent: by_name(some, t, *more, **lent)


def sets():
    """Random sets of both orders, full and compact, with the tables."""
    for order in (3, 4):
        for n in range(1, 5):
            yield random(*[n] * order, *[3] * order, seed=n), None
        for t in HALF + ODD:
            yield random(t.n_patom, *[t.n_satom] * (order - 1), *[3] * order), t


class WithoutDrift(unittest.TestCase):
    def test_steps(self):
        """The same bits as the steps, also with numbers that are not finite; what is left is alike."""
        gf.perm_trans_symmetrize_fc3(np.zeros((0, 0, 0, 3, 3, 3)), 2)
        gf.perm_trans_symmetrize_fc4(np.zeros((0, 0, 0, 0, 3, 3, 3, 3)), 2)
        for fc, t in sets():
            mean = call("set_permutation_symmetry", fc, t)
            for x in [None, *SPOILED]:
                if x is not None:
                    fc.flat[23 % fc.size] = x
                for level in range(4 if fc.ndim == 6 else 3):
                    expected = without_drift(fc, t, level, mean)
                    got = fc.copy()
                    call("perm_trans_symmetrize", fc, t)(got, level)
                    np.testing.assert_array_equal(got, expected)
                    self.assertTrue(call("audit", fc, t)(got).alike)
                    if level == 0:
                        mean(expected := fc.copy())
                        self.assertTrue(same_bits(np.where(np.isnan(got), 0.0, got), np.where(np.isnan(expected), 0.0, expected)))

    def test_one_level_leaves_rounding(self):
        for fc, t in sets():
            if t is not None:
                full = call("compact_to_full", fc, None)(fc, t)
                call("perm_trans_symmetrize", fc, t)(fc)
                call("perm_trans_symmetrize", full, None)(full)
                self.assertLess(drift(fc, t), 1e-14)
                self.assertLess(drift(full, None), 1e-14)
                np.testing.assert_allclose(call("compact_to_full", fc, None)(fc, t), full, atol=1e-14)

    def test_where_sums_are_exact_a_clean_set_stays(self):
        """Whole numbers, and atoms whose number is a power of two."""
        signs, directions = np.array([1.0, -1.0, 1.0, -1.0]), np.arange(1.0, 4.0)
        for legs, letters in ((3, "i,j,k,a,b,c->ijkabc"), (4, "i,j,k,l,a,b,c,d->ijklabcd")):
            whole = np.einsum(letters, *[signs] * legs, *[directions] * legs)
            for level in range(4):
                fc = whole.copy()
                call("perm_trans_symmetrize", fc, None)(fc, level)
                self.assertTrue(same_bits(fc, whole))

    def test_beside_phono3py(self):
        """Its steps leave drift in an even cell, and only there."""
        for t in ODD:
            fc = random(t.n_patom, t.n_satom, t.n_satom, 3, 3, 3)
            self.assertLess(drift(phono3py_steps(fc, t), t), 1e-14)
        for t in HALF:
            fc = random(t.n_patom, t.n_satom, t.n_satom, 3, 3, 3)
            self.assertGreater(drift(phono3py_steps(fc, t), t), 0.01)
        # the smallest: two atoms that a shift exchanges, one number
        fc = np.zeros((1, 2, 2, 3, 3, 3))
        fc[0, 0, 0, 0, 0, 0] = 1.0
        left = phono3py_steps(fc, HALF[0])
        self.assertAlmostEqual(drift(left, HALF[0]), 1 / 6)
        self.assertAlmostEqual(drift(phono3py_steps(left, HALF[0]), HALF[0]), 1 / 18)
        gf.perm_trans_symmetrize_compact_fc3(fc, HALF[0])
        self.assertFalse(fc.any())

    @unittest.skipUnless(test_phonopy, "needs phonopy")
    def test_two_lines_for_phono3py(self):
        """With phono3py's `primitive`, which is phonopy's, and its compact fc3: 2 x 64 x 64 atoms, half shifts among the 32."""
        primitive = test_phonopy.cell("Si-222").primitive
        fc3 = random(2, 64, 64, 3, 3, 3)
        t = gf.Tables.of(primitive)
        gf.perm_trans_symmetrize_compact_fc3(fc3, t)
        self.assertLess(drift(fc3, t), 1e-13)
        self.assertTrue(gf.audit_compact_fc3(fc3, t).alike)

    def test_work_and_refusals(self):
        t = HALF[1]
        bad = gf.Tables(t.p2s, t.s2pp, [0] * 4, t.perms)
        for order in (3, 4):
            fc = random(2, *[4] * (order - 1), *[3] * order)
            marks, lent = 2 * 4 ** (order - 1), (2, *[4] * (order - 2), 3**order)
            work, sums = np.full(marks, 7, np.uint8), np.full(lent, np.nan)
            count = sums.size
            expected, symmetrize = fc.copy(), call("perm_trans_symmetrize", fc, t)
            symmetrize(expected, 2)
            symmetrize(fc, 2, work=work, drift=sums)
            self.assertTrue(same_bits(fc, expected) and not work.any() and same_bits(sums, np.zeros(lent)))
            before, one = fc.copy(), np.zeros((1,) * order + (3,) * order)
            for words, refused in (
                    (r"level: 1001, limit 1000", lambda: symmetrize(fc, 1001)),
                    (r"level: 1001, limit 1000", lambda: call("perm_trans_symmetrize", one, None)(one, 1001)),
                    (rf"drift: shape \({count - 1},\), asked for \({count},\)", lambda: symmetrize(fc, drift=np.empty(count - 1))),
                    (rf"work: shape \({marks - 1},\), asked for \({marks},\)", lambda: symmetrize(fc, work=work[:-1])),
                    (r"refusal 6", lambda: call("perm_trans_symmetrize", fc, bad)(fc))):
                with self.assertRaisesRegex(gf.Refused, words):
                    refused()
            self.assertTrue(same_bits(fc, before))


if __name__ == "__main__":
    unittest.main()
