"""The reports beside numpy: the worst of all differences, the first place that has it, and what NaN and infinities do."""
import itertools
import unittest

import numpy as np

import gullyfork as gf
from common import grid_tables, random, read_out


def worst(numbers):
    """The rule of a report over a family of numbers, and the number of the place."""
    numbers = np.asarray(numbers).ravel()
    if np.isnan(numbers).any():
        return gf.DriftKind.NO_NUMBER, np.nan, int(np.argmax(np.isnan(numbers)))
    if not numbers.any():
        return gf.DriftKind.STILL, 0.0, 0
    return gf.DriftKind.WORST, float(np.abs(numbers).max()), int(np.argmax(np.abs(numbers)))


def orders_of(fc, full, p2s):
    """What each permutation of the pairs reads out at the places of a set."""
    order = fc.ndim // 2
    inverse = [np.argsort(p) for p in itertools.permutations(range(order))]
    return np.array([full.transpose(*p, *(order + k for k in p))[p2s] for p in inverse])


def told(fc, orders):
    with np.errstate(invalid="ignore"):
        kind, value, k = worst(np.moveaxis(orders - fc, 0, -1))
    if kind is gf.DriftKind.STILL:
        return gf.Report(kind, value)
    place = tuple(int(i) for i in np.unravel_index(k // len(orders), fc.shape))
    return gf.Report(kind, value, place, list(itertools.permutations(range(fc.ndim // 2)))[k % len(orders)])


REPORTS = {n: (getattr(gf, f"difference_report_fc{n}"), getattr(gf, f"difference_report_compact_fc{n}")) for n in (2, 3, 4)}
SPOILED = [7.0, -0.0, np.nan, np.inf, -np.inf, 1e300]


class Reports(unittest.TestCase):
    def same(self, got, want):
        self.assertEqual((got.kind, got.place, got.order), (want.kind, want.place, want.order))
        self.assertEqual(np.float64(got.value).tobytes(), np.float64(want.value).tobytes())

    def test_full(self):
        for order, (report, _) in REPORTS.items():
            for n in range(4 if order < 4 else 3):
                fc = random(*[n] * order, *[3] * order)
                self.same(report(fc), told(fc, orders_of(fc, fc, np.arange(n))))
                self.assertIs(report(np.ones_like(fc)).kind, gf.DriftKind.STILL)
                for seed, x in enumerate(SPOILED):
                    if fc.size:
                        one = np.ones_like(fc)
                        one.flat[np.random.default_rng(seed).integers(fc.size)] = x
                        self.same(report(one), told(one, orders_of(one, one, np.arange(n))))

    def test_compact(self):
        for order, (_, report) in REPORTS.items():
            for grid, p in (((1, 1, 1), 1), ((2, 1, 1), 1), ((3, 1, 1), 2), ((2, 2, 1), 1)):
                t = grid_tables(grid, p, seed=order)
                if order == 4 and t.n_satom > 4:
                    continue
                fc = random(p, *[t.n_satom] * (order - 1), *[3] * order)
                self.same(report(fc, t), told(fc, orders_of(fc, read_out(fc, t), t.p2s)))
                if order > 2:
                    getattr(gf, f"set_permutation_symmetry_compact_fc{order}")(fc, t)
                    self.assertIs(report(fc, t).kind, gf.DriftKind.STILL)
                for seed, x in enumerate(SPOILED):
                    one = fc.copy()
                    one.flat[np.random.default_rng(seed).integers(fc.size)] = x
                    self.same(report(one, t), told(one, orders_of(one, read_out(one, t), t.p2s)))

    def test_set_difference(self):
        a = random(2, 2, 3, 3)
        self.assertEqual(gf.set_difference(a, a), (gf.DriftKind.STILL, 0.0, None, None))
        b = a.copy()
        b[1, 0, 2, 1], b[1, 1, 0, 0] = a[1, 0, 2, 1] + 0.5, a[1, 1, 0, 0] - 0.5
        report = gf.set_difference(a, b)
        self.assertEqual((report.kind, report.place), (gf.DriftKind.WORST, (1, 0, 2, 1)))
        self.assertEqual(report.value, np.abs(a - b).max())
        b[0, 1, 1, 1] = np.nan
        self.assertEqual(gf.set_difference(a, b)[::2], (gf.DriftKind.NO_NUMBER, (0, 1, 1, 1)))
        self.assertIs(gf.set_difference(np.full((1, 1), np.inf), np.full((1, 1), np.inf)).kind, gf.DriftKind.NO_NUMBER)
        self.assertRaises(ValueError, gf.set_difference, a, b[0])

    def test_crystal(self):
        rng = np.random.default_rng(7)
        for order in (2, 3, 4):
            report, compact = getattr(gf, f"crystal_report_fc{order}"), getattr(gf, f"crystal_report_compact_fc{order}")
            for grid, p in (((1, 1, 1), 1), ((2, 1, 1), 1), ((3, 1, 1), 1)):
                t = grid_tables(grid, p, seed=order)
                n = t.n_satom
                maps = np.array([rng.permutation(n) for _ in range(3)])
                for matrices in (rng.standard_normal((3, 3, 3)), CUBIC[rng.integers(len(CUBIC), size=3)]):
                    fc = random(p, *[n] * (order - 1), *[3] * order)
                    self.crystal(compact(fc, t, matrices, maps), fc, read_out(fc, t), t.p2s, matrices, maps)
                    fc = np.round(4 * random(*[n] * order, *[3] * order))
                    self.crystal(report(fc, matrices, maps), fc, fc, np.arange(n), matrices, maps)
                self.assertIs(compact(np.zeros_like(fc[:p]), t, np.zeros((0, 3, 3)), np.zeros((0, n), int)).kind, gf.DriftKind.STILL)

    def crystal(self, got, fc, full, p2s, matrices, maps):
        order = fc.ndim // 2
        deviations = []
        for matrix, images in zip(matrices, maps):
            left = full[np.ix_(*[images] * order)][p2s]
            deviations.append(left - rotated(fc, matrix))
        kind, value, k = worst(deviations)
        self.assertEqual((got.kind, np.float64(got.value).tobytes()), (kind, np.float64(value).tobytes()))
        if kind is not gf.DriftKind.STILL:
            self.assertEqual((got.operation, got.place), (k // fc.size, tuple(int(i) for i in np.unravel_index(k % fc.size, fc.shape))))

    def test_obeyed(self):
        """One block averaged over the cubic group obeys it, and with one number changed it does not."""
        for order in (2, 3, 4):
            block = np.round(8 * random(*[1] * order, *[3] * order, seed=order))
            mean = sum(rotated(block, m) for m in CUBIC)
            one = np.zeros((len(CUBIC), 1), int)
            report = getattr(gf, f"crystal_report_fc{order}")
            self.assertIs(report(mean, CUBIC, one).kind, gf.DriftKind.STILL)
            mean.flat[1] += 1.0
            self.assertIs(report(mean, CUBIC, one).kind, gf.DriftKind.WORST)

    def test_leg_sums(self):
        for order in (3, 4):
            for grid, p in (((1, 1, 1), 1), ((2, 1, 1), 1), ((3, 1, 1), 1)):
                t = grid_tables(grid, p, seed=order)
                n = t.n_satom
                fc = random(p, *[n] * (order - 1), *[3] * order)
                self.legs(getattr(gf, f"drift_report_compact_fc{order}")(fc, t), read_out(fc, t))
                if order == 4:
                    fc = random(n, n, n, n, 3, 3, 3, 3)
                    self.legs(gf.drift_report_fc4(fc), fc)
                    fc.flat[fc.size // 2] = np.nan
                    self.legs(gf.drift_report_fc4(fc), fc)
            still = getattr(gf, f"drift_report_compact_fc{order}")(np.zeros_like(fc[:1]), t)
            self.assertEqual(still, (gf.DriftKind.STILL, 0.0, order - 1, (0,) * (order - 1), (0,) * order))

    def legs(self, got, full):
        order, n, sums = full.ndim // 2, full.shape[0], []
        for leg in reversed(range(order)):
            s = np.zeros(full.shape[1:])
            for i in range(n):
                s = s + full.take(i, axis=leg)
            sums.append(s)
        kind, value, k = worst(sums)
        leg, *place = (int(i) for i in np.unravel_index(k, np.shape(sums)))
        self.assertEqual((got.kind, np.float64(got.value).tobytes()), (kind, np.float64(value).tobytes()))
        self.assertEqual((got.leg, got.atoms, got.directions), (order - 1 - leg, tuple(place[:order - 1]), tuple(place[order - 1:])))


def rotated(fc, matrix):
    """Every block rotated by one matrix on each leg: the terms of each sum from 0.0, rising."""
    order = fc.ndim // 2
    coefficients = np.eye(1)
    for k in range(order):
        coefficients = np.kron(coefficients, matrix) if k else np.array(matrix)
    flat = fc.reshape(-1, 3 ** order)
    s = np.zeros_like(flat)
    for q in range(3 ** order):
        s = s + coefficients[:, q] * flat[:, q, None]
    return s.reshape(fc.shape)


CUBIC = np.array([np.diag(signs)[list(p)] for p in itertools.permutations(range(3)) for signs in itertools.product((1.0, -1.0), repeat=3)])


if __name__ == "__main__":
    unittest.main()
