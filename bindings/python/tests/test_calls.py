"""Every call, beside numpy from the definitions; every C name is in the package; threads."""
import inspect
import itertools
import os
import pathlib
import pickle
import shutil
import subprocess
import sys
import tempfile
import threading
import unittest

import numpy as np

import gullyfork as gf
from gullyfork import _library
from common import CIRCLE, grid_tables, random, read_out, same_bits

TABLES = [grid_tables(g, p, s) for s, (g, p) in enumerate((((1, 1, 1), 2), ((2, 1, 1), 2), ((3, 1, 1), 1), ((2, 2, 1), 1), ((3, 2, 1), 1)))]


def exchanged(full, legs):
    """A read-out set with its (atom, direction) pairs in another order."""
    order = full.ndim // 2
    return full.transpose(*legs, *(order + k for k in legs))


def mean_of_orders(full):
    return np.mean([exchanged(full, p) for p in itertools.permutations(range(full.ndim // 2))], axis=0)


class Package(unittest.TestCase):
    def test_every_c_name_is_there(self):
        with open(_library.HEADER, encoding="utf-8") as f:
            names = [d.name[3:] for d in _library.declarations(f.read())]
        self.assertGreaterEqual(len(names), 30)
        for name in names:
            call = getattr(gf, name)
            self.assertTrue(inspect.isfunction(call) and call.__doc__, name)
            self.assertTrue(name in gf.__all__ or name == "round", name)

    def test_version_and_words(self):
        self.assertEqual(gf.__version__, _library.HEADER_VERSION)
        self.assertEqual(gf.version(), gf.__version__)
        self.assertEqual(gf.words(6), "the shift tables break a rule")
        with self.assertRaises(ValueError):
            gf.words(256)

    def test_another_library(self):
        """GULLYFORK_SO names the library; what is none, or lacks a name, is an ImportError."""
        for path, words in (("/nowhere/lib.so", "cannot be loaded"), ("libc.so.6", "has no gf_")):
            p = subprocess.run([sys.executable, "-c", "import gullyfork"], capture_output=True, text=True, env=dict(os.environ, GULLYFORK_SO=path))
            self.assertIn("ImportError: gullyfork:", p.stderr)
            self.assertIn(words, p.stderr)

    def test_a_library_of_another_version(self):
        if not shutil.which("cc"):
            self.skipTest("no C compiler")
        with tempfile.TemporaryDirectory() as folder:
            names = [f"gf_{name}" for name in _library.CALLS if name != "version"]
            with open(os.path.join(folder, "other.c"), "w") as f:
                f.write('const char *gf_version(void) { return "9.9.9"; }\n' + "".join(f"int {name}(void) {{ return 0; }}\n" for name in names))
            path = os.path.join(folder, "other.so")
            subprocess.run(["cc", "-shared", "-fPIC", os.path.join(folder, "other.c"), "-o", path], check=True)
            p = subprocess.run([sys.executable, "-c", "import gullyfork"], capture_output=True, text=True, env=dict(os.environ, GULLYFORK_SO=path))
            self.assertIn(f"is version 9.9.9, the package is {gf.__version__}", p.stderr)

    def test_exceptions_can_be_sent(self):
        with self.assertRaises(gf.Refused) as caught:
            gf.perm_trans_symmetrize_fc(np.zeros((1, 1, 3, 3)), 1001)
        again = pickle.loads(pickle.dumps(caught.exception))
        self.assertEqual((str(again), again.number, again.argument), (str(caught.exception), 1, "level"))
        t = pickle.loads(pickle.dumps(gf.Tables(*CIRCLE)))
        self.assertEqual(t, gf.Tables(*CIRCLE))


def on_site(full):
    """The on-site blocks anew, from the sums of the others and their transposes."""
    for i in range(len(full)):
        others = full[i].sum(axis=0) - full[i, i]
        full[i, i] = -(others + others.T) / 2
    return full


class Second(unittest.TestCase):
    def test_full(self):
        for n, level in itertools.product((1, 2, 5), range(4)):
            fc = random(n, n, 3, 3, seed=n)
            expected = fc.copy()
            for _ in range(level):
                expected -= expected.sum(axis=0) / n
                expected -= expected.sum(axis=1, keepdims=True) / n
                expected = (expected + exchanged(expected, (1, 0))) / 2
            gf.perm_trans_symmetrize_fc(fc, level)
            np.testing.assert_allclose(fc, on_site(expected), atol=1e-14)

    def test_compact(self):
        for t, level in itertools.product(TABLES, range(3)):
            fc = random(t.n_patom, t.n_satom, 3, 3)
            full = read_out(fc, t)
            for _ in range(level):
                for _ in range(2):
                    full = exchanged(full, (1, 0)).copy()
                    full -= full.sum(axis=1, keepdims=True) / len(full)
                full = (full + exchanged(full, (1, 0))) / 2
            gf.perm_trans_symmetrize_compact_fc(fc, t, level)
            if t.num_trans % 2 or level == 0:  # no half shifts, which leave blocks behind
                np.testing.assert_allclose(read_out(fc, t), on_site(full), atol=1e-14)
            fc = random(t.n_patom, t.n_satom, 3, 3)
            full = read_out(fc, t)
            gf.set_index_permutation_symmetry_compact_fc(fc, t, False)
            np.testing.assert_allclose(read_out(fc, t), (full + exchanged(full, (1, 0))) / 2, atol=1e-15)

    def test_transposes(self):
        for t in TABLES:
            fc = random(t.n_patom, t.n_satom, 3, 3)
            full = read_out(fc, t)
            true, old = fc.copy(), fc.copy()
            gf.true_transpose_compact_fc2(true, t)
            self.assertTrue(same_bits(read_out(true, t), np.ascontiguousarray(exchanged(full, (1, 0)))))
            gf.set_index_permutation_symmetry_compact_fc(old, t, True)
            if t.num_trans % 2:
                self.assertTrue(same_bits(old, true))

    def test_drift(self):
        fc = np.zeros((3, 3, 3, 3))
        self.assertEqual(gf.drift_report(fc), (gf.DriftKind.STILL, 0.0, gf.Along.ROWS, 0, (0, 0)))
        fc[1, 2, 0, 1], fc[0, 2, 0, 1] = 2.0, 1.0
        self.assertEqual(gf.drift_report(fc), (gf.DriftKind.WORST, 3.0, gf.Along.COLUMNS, 2, (0, 1)))
        fc[2, 1, 2, 2] = np.nan
        kind, value, *place = gf.drift_report(fc)
        self.assertTrue(kind is gf.DriftKind.NO_NUMBER and np.isnan(value))
        self.assertEqual(place, [gf.Along.ROWS, 2, (2, 2)])

    def test_drift_of_a_compact_set(self):
        """The report of the full set that it reads out to; sums are exact on the grid."""
        for t in TABLES:
            fc = np.round(random(t.n_patom, t.n_satom, 3, 3) * 64) / 64
            self.assertEqual(gf.drift_report_compact_fc2(fc, t), gf.drift_report(np.ascontiguousarray(read_out(fc, t))))
            fc[0, -1, 1, 2] = np.nan
            self.assertEqual(gf.drift_report_compact_fc2(fc, t)[2:], gf.drift_report(np.ascontiguousarray(read_out(fc, t)))[2:])

    def test_distribute(self):
        t = grid_tables((3, 1, 1), 2)
        compact = random(2, 6, 3, 3)
        full = np.zeros((6, 6, 3, 3))
        full[t.p2s] = compact
        gf.distribute_fc2(full, range(6), range(6), [np.eye(3)] * 3, t.perms, t.p2s[t.s2pp], t.nsym_list)
        self.assertTrue(same_bits(full, read_out(compact, t)))

    def test_row_sums(self):
        fc = np.round(random(4, 4, 3, 3) * 64) / 64
        sums = gf.row_sums_fc2(fc)
        self.assertTrue(same_bits(sums, fc.sum(axis=1)))  # exact on the grid
        for k in range(20):
            gf.replace_block_fc2(fc, sums, np.round(random(3, 3, seed=k) * 64) / 64, k % 4, (k * 3) % 4)
        self.assertTrue(same_bits(sums, gf.row_sums_fc2(fc)))
        out = np.full((4, 3, 3), np.nan)
        self.assertIs(gf.row_sums_fc2(fc, out=out), out)
        self.assertTrue(same_bits(out, sums))


class FullSets(unittest.TestCase):
    def test_read_out(self):
        for t, order in itertools.product(TABLES, (2, 3, 4)):
            fc = random(t.n_patom, *[t.n_satom] * (order - 1), *[3] * order)
            call = getattr(gf, f"compact_to_full_fc{order}")
            out = np.full((t.n_satom,) * order + (3,) * order, np.nan)
            self.assertIs(call(fc, t, out=out), out)
            self.assertTrue(same_bits(out, np.ascontiguousarray(read_out(fc, t))))
            self.assertTrue(same_bits(call(fc, tuple(t)), out))

    def test_both_ways_agree_on_the_grid(self):
        for t, order in itertools.product(TABLES, (3, 4)):
            compact = np.round(random(t.n_patom, *[t.n_satom] * (order - 1), *[3] * order) * 64) / 64
            read, full = (getattr(gf, f"{name}_fc{order}") for name in ("compact_to_full", "set_permutation_symmetry"))
            one = read(compact, t)
            full(one)
            getattr(gf, f"set_permutation_symmetry_compact_fc{order}")(compact, t)
            self.assertTrue(same_bits(one, read(compact, t)))

    def test_refused(self):
        out = np.full((3, 3, 3, 3), 7.0)
        with self.assertRaises(gf.Refused) as caught:
            gf.compact_to_full_fc2(random(1, 3, 3, 3), (CIRCLE[0], CIRCLE[1], [0, 1, 2], CIRCLE[3]), out=out)
        self.assertEqual((caught.exception.number, caught.exception.argument, float(out.min())), (6, "nsym_list", 7.0))
        for given in (random(1, 3, 3, 3), random(2, 3, 3, 3, 3, 3), random(3, 1, 3, 3, 3, 3)):
            with self.assertRaises(ValueError):
                gf.compact_to_full_fc3(given, gf.Tables(*CIRCLE))
        many = np.arange(65)
        with self.assertRaises(gf.Refused) as caught:
            gf.compact_to_full_fc4(np.zeros((0, 3, 3, 3, 3)), (many, many, many * 0, many[None]))
        self.assertEqual((caught.exception.number, caught.exception.argument), (1, "n_satom"))


def line(places):
    """Positions on the first axis."""
    return np.array([[x, 0, 0] for x in places], float)


class Matching(unittest.TestCase):
    def test_rotated(self):
        rng = np.random.default_rng(1)
        pos = rng.random((20, 3))
        order = rng.permutation(20)
        match = gf.compute_permutation(np.array([[3, 1, 0], [0, 2, 0], [0, 0, 4.0]]), 1e-5, pos, pos[order] + [1, -2, 0])
        self.assertTrue(match.found)
        self.assertEqual(match.slots.tolist(), order.tolist())
        self.assertIsNone(match.pair)
        lost = gf.compute_permutation(np.eye(3), 1e-5, pos, pos + 0.5)
        self.assertEqual((lost.found, set(lost.slots.tolist()), lost.pair, lost.words), (False, {-1}, None, "20 slots are left free"))
        bad = pos.copy()
        bad[3, 1] = np.nan
        match = gf.compute_permutation(np.eye(3), 1e-5, bad, pos)
        self.assertEqual((match.found, match.pair, int(match.slots[4])), (False, (3, 3), 4))

    def test_slabs(self):
        """Beside numpy: a difference loses its rounding along the axes that repeat alone."""
        rng = np.random.default_rng(5)
        counts = {True: 0, False: 0}
        for _ in range(400):
            pbc = rng.random(3) < 0.5
            cell, (p, q) = np.eye(3) + 0.3 * rng.random((3, 3)), rng.integers(-16, 16, (2, 1, 3)) / 16
            whole = np.trunc(p - q + np.copysign(0.5, p - q))
            d = p - q - np.where(pbc, whole, 0.0)
            near = bool(np.linalg.norm(cell @ d[0]) < 0.7)
            flags = pbc if rng.random() < 0.5 else [int(f) for f in pbc]
            self.assertIs(gf.compute_permutation(cell, 0.7, p, q, pbc=flags).found, near)
            self.assertIs(gf.find_permutation(cell, 0.7, p, q, pbc=flags).found, near)
            counts[near] += 1
        self.assertGreaterEqual(min(counts.values()), 40, counts)
        top, bottom = line([0.9375]), line([0.0625])
        for call in (gf.compute_permutation, gf.find_permutation):
            near = [call(np.eye(3), 0.25, top, bottom, pbc=pbc).found for pbc in (True, False, [1, 0, 0], (False, True, True))]
            self.assertEqual(near, [True, False, True, False])

    def test_a_match_whenever_one_exists(self):
        """Beside every order of up to five positions on a line of places, of which neighbours are near."""
        rng = np.random.default_rng(2)
        kinds = {"greedy": 0, "chains": 0, "none": 0}
        for _ in range(600):
            n = int(rng.integers(1, 6))
            p, q = rng.integers(0, 6, n), rng.integers(0, 6, n)
            near = abs(p[:, None] - q) <= 1
            exists = any(near[list(order), range(n)].all() for order in itertools.permutations(range(n)))
            arguments = np.eye(3), 0.1, line(p / 16), line(q / 16)
            pairing, greedy = gf.find_permutation(*arguments), gf.compute_permutation(*arguments)
            self.assertIs(pairing.found, exists)
            if exists:
                self.assertEqual((sorted(pairing.slots), pairing.crowded.size), (list(range(n)), 0))
                self.assertTrue(near[pairing.slots, range(n)].all())
            else:
                self.assertEqual(pairing.slots.tolist(), [-1] * n)
                self.assertLess(near[pairing.crowded].any(axis=0).sum(), pairing.crowded.size)
            if greedy.found:
                self.assertEqual(pairing.slots.tolist(), greedy.slots.tolist())
            kinds["greedy" if greedy.found else "chains" if exists else "none"] += 1
        self.assertGreaterEqual(min(kinds.values()), 10, kinds)

    def test_who_has_too_few_places(self):
        pos, rot_pos = line([0.60, 0.10, 0.11, 0.12, 0.13, 0.14]), line([0.11, 0.12, 0.13, 0.14, 0.35, 0.60])
        pairing = gf.find_permutation(np.eye(3), 0.05, pos, rot_pos)
        self.assertEqual((pairing.found, pairing.slots.tolist(), pairing.crowded.tolist()), (False, [-1] * 6, [1, 2, 3, 4, 5]))
        self.assertEqual(pairing.words, "positions 1, 2, 3, 4, 5: these 5 have at most 4 near slots")
        self.assertEqual(gf.find_permutation(np.eye(3), 0.1, line([0.25, np.nan]), line([0.25, 0.25])).words, "position 1 has no near slot")
        self.assertEqual(gf.find_permutation(np.eye(3), 0.1, pos, pos).words, "every slot is filled")
        self.assertEqual(gf.words(72), "no bijection of near pairs exists")
        with self.assertRaises(gf.Refused) as caught:
            gf.find_permutation(np.eye(3), 0.1, pos, rot_pos[:5])
        self.assertEqual((caught.exception.number, caught.exception.argument), (2, "rot_pos"))


class HigherOrders(unittest.TestCase):
    def test_symmetrizers(self):
        for order, full_call, compact_call in ((3, gf.set_permutation_symmetry_fc3, gf.set_permutation_symmetry_compact_fc3),
                                               (4, gf.set_permutation_symmetry_fc4, gf.set_permutation_symmetry_compact_fc4)):
            fc = random(*(2,) * order, *(3,) * order)
            expected = mean_of_orders(fc)
            full_call(fc)
            np.testing.assert_allclose(fc, expected, atol=1e-15)
            for t in TABLES[:4]:
                fc = random(t.n_patom, *(t.n_satom,) * (order - 1), *(3,) * order)
                expected = mean_of_orders(read_out(fc, t))
                compact_call(fc, t)
                full = read_out(fc, t)
                np.testing.assert_allclose(full, expected, atol=1e-15)
                for p in itertools.permutations(range(order)):
                    self.assertTrue(same_bits(np.ascontiguousarray(exchanged(full, p)), full))

    def test_transposes(self):
        for order, old_call, true_call, legs in ((3, gf.transpose_compact_fc3, gf.true_transpose_compact_fc3, ((1, 0, 2), (2, 1, 0), (0, 2, 1))),
                                                 (4, gf.transpose_compact_fc4, gf.true_transpose_compact_fc4, ((1, 0, 2, 3),))):
            for t, (t_type, exchange) in itertools.product(TABLES[:4], enumerate(legs)):
                fc = random(t.n_patom, *(t.n_satom,) * (order - 1), *(3,) * order)
                full = read_out(fc, t)
                old, true, other = fc.copy(), fc.copy(), fc.copy()
                true_call(true, t, t_type)
                self.assertTrue(same_bits(read_out(true, t), np.ascontiguousarray(exchanged(full, exchange))))
                old_call(old, t, t_type)
                if t.num_trans % 2 or exchange == (0, 2, 1):
                    self.assertTrue(same_bits(old, true))
                true_call(other, t, -1)
                self.assertTrue(same_bits(other, fc))

    def test_swaps(self):
        for t, (a, b) in itertools.product(TABLES[:4], itertools.product(range(4), repeat=2)):
            fc = random(t.n_patom, *(t.n_satom,) * 3, *(3,) * 4)
            full, legs = read_out(fc, t), [0, 1, 2, 3]
            legs[a], legs[b] = b, a
            gf.swap_pairs_compact_fc4(fc, t, a, b)
            self.assertTrue(same_bits(read_out(fc, t), np.ascontiguousarray(exchanged(full, tuple(legs)))))
        for a, b, to_blame in ((4, 4, "leg_a"), (0, 4, "leg_b")):
            before = fc.copy()
            with self.assertRaises(gf.Refused) as told:
                gf.swap_pairs_compact_fc4(fc, t, a, b)
            self.assertEqual((told.exception.number, told.exception.argument), (3, to_blame))
            self.assertTrue(same_bits(fc, before))

    def test_distributors(self):
        mirror = np.array([[0, 1, 0], [1, 0, 0], [0, 0, 1.0]])
        for order, call in ((3, gf.distribute_fc3), (4, gf.distribute_fc4)):
            fc = random(2, *(3,) * (order - 1), *(3,) * order)
            mapping = np.array([2, 0, 1])
            expected = fc[0][np.ix_(*[mapping] * (order - 1))]
            for leg in range(order - 1, 2 * order - 1):
                expected = np.moveaxis(np.tensordot(mirror, expected, (1, leg)), 0, leg)
            call(fc, 1, 0, mapping, mirror)
            np.testing.assert_allclose(fc[1], expected, atol=1e-15)

    def test_deltas(self):
        for order, call in ((2, gf.rotate_delta_fc2s), (3, gf.rotate_delta_fc3s)):
            n, num_disp, num_sym = 3, 2, 2
            deltas = random(num_disp, *(n,) * order, *(3,) * order)
            inv_u, rotations = random(3, num_disp * num_sym), random(num_sym, 3, 3)
            maps = np.array([[0, 1, 2], [2, 0, 1]])
            expected = np.zeros((n,) * order + (3,) * (order + 1))
            for d, s in itertools.product(range(num_disp), range(num_sym)):
                turned = deltas[d][np.ix_(*[maps[s]] * order)]
                for leg in range(order, 2 * order):
                    turned = np.moveaxis(np.tensordot(rotations[s], turned, (1, leg)), 0, leg)
                for k in range(3):
                    expected[(slice(None),) * order + (k,)] += inv_u[k, d * num_sym + s] * turned
            np.testing.assert_allclose(call(deltas, inv_u, rotations, maps), expected, atol=1e-12)


class Drifts(unittest.TestCase):
    """Of third order, beside sums that are exact on the grid."""

    def test_worst(self):
        for n in (1, 2, 3):
            for seed in range(8):
                fc = np.round(random(n, n, n, 3, 3, 3, seed=seed) * 8) / 8
                sums = [np.abs(fc.sum(axis=leg)) for leg in (2, 1, 0)]
                worst = max(float(s.max()) for s in sums)
                k, s = next((k, s) for k, s in enumerate(sums) if s.max() == worst)
                place = [int(i) for i in np.unravel_index(np.argmax(s), s.shape)]
                self.assertEqual(gf.drift_report_fc3(fc), (gf.DriftKind.WORST, worst, 2 - k, tuple(place[:2]), tuple(place[2:])))

    def test_still_and_no_number(self):
        fc = np.zeros((2, 2, 2, 3, 3, 3))
        self.assertEqual(gf.drift_report_fc3(fc), (gf.DriftKind.STILL, 0.0, 2, (0, 0), (0, 0, 0)))
        fc[1, 0, 1, 2, 1, 0] = np.nan
        kind, value, *place = gf.drift_report_fc3(fc)
        self.assertTrue(kind is gf.DriftKind.NO_NUMBER and np.isnan(value))
        self.assertEqual(place, [2, (1, 0), (2, 1, 0)])


class Roll(unittest.TestCase):
    def test_growing(self):
        roll, expected = gf.roll.EMPTY, []
        for k in range(1, 40):
            kind = gf.roll.Kind(k % 3 + 1)
            earlier = k + 100 if kind is gf.roll.Kind.REPLACEMENT else 0
            label = b"x" * (k % 5)
            roll = gf.roll.appended(roll, kind, k, earlier, label)
            expected.append((kind, k, earlier, label))
        self.assertTrue(gf.is_roll(roll))
        self.assertEqual([tuple(r)[:4] for r in gf.roll.records(roll)], expected)
        self.assertEqual(len(roll), 8 + sum(14 + len(e[3]) for e in expected))

    def test_older(self):
        roll = gf.roll.EMPTY
        for k in range(1, 20):
            roll = gf.roll.appended(roll, 1, k, label=b"x" * (k % 5))
        starts = len(roll) - 8 - 4 * 19
        older = roll[:starts] + np.frombuffer(roll[starts:-8], "<u4")[::-1].tobytes() + roll[-8:]
        self.assertEqual((gf.is_roll(older), gf.is_roll_former(older), gf.is_roll_former(roll)), (False, True, True))
        for call in (lambda: gf.read_roll(older), lambda: gf.roll.appended(older, 1, 50), lambda: gf.stands_now(older, 1), lambda: gf.roll.retired(older, 1)):
            with self.assertRaises(gf.Refused) as caught:
                call()
            self.assertEqual((caught.exception.number, caught.exception.detail.split(":")[0]), (7, "an older roll"))
        new = gf.roll.EMPTY
        for r in gf.roll.records_former(older):
            new = gf.roll.appended(new, r.kind, r.set, r.earlier, r.label)
        self.assertEqual(new, roll)

    def test_which_set_stands_now(self):
        kind, state = gf.roll.Kind, gf.roll.State
        roll = gf.roll.EMPTY
        self.assertEqual(gf.stands_now(roll, 7), (state.UNKNOWN, None))
        for record in ((kind.DELIVERY, 7), (kind.REPLACEMENT, 41, 7), (kind.REPLACEMENT, 57, 41)):
            roll = gf.roll.appended(roll, *record)
        self.assertEqual(gf.stands_now(roll, 7), (state.CURRENT, 57))
        retired = gf.roll.appended(roll, kind.RETIREMENT, 41)
        self.assertEqual([gf.stands_now(retired, k) for k in (7, 41, 57)], [(state.CURRENT, 57)] * 3)  # 41 was replaced
        ended = gf.roll.appended(retired, kind.RETIREMENT, 57)
        self.assertEqual([gf.stands_now(ended, k).state for k in (7, 41, 57)], [state.RETIRED] * 3)
        for record, words in (((kind.DELIVERY, 7), "delivery 7, line 4 of the list, delivers set 7, which was delivered before"),
                              ((kind.RETIREMENT, 8), "retirement 8, line 4 of the list, names set 8, which no earlier record delivers"),
                              ((kind.REPLACEMENT, 9, 9), "replacement 9 of 9, line 4 of the list, names set 9, which no earlier record delivers"),
                              ((kind.REPLACEMENT, 58, 41), "replacement 58 of 41, line 4 of the list, replaces set 41, which was replaced before")):
            with self.assertRaises(gf.Refused) as caught:
                gf.stands_now(gf.roll.appended(roll, *record), 57)
            self.assertEqual((caught.exception.number, caught.exception.detail), (9, words))
        with self.assertRaises(gf.Refused) as caught:
            gf.stands_now(roll[:-1], 7)
        self.assertEqual(caught.exception.number, 7)

    def test_a_set_retired_everywhere(self):
        kind, state = gf.roll.Kind, gf.roll.State
        roll = gf.roll.EMPTY
        for record in ((kind.DELIVERY, 7), (kind.REPLACEMENT, 5, 7), (kind.DELIVERY, 6), (kind.REPLACEMENT, 9, 5), (kind.RETIREMENT, 5)):
            roll = gf.roll.appended(roll, *record)
        for number in (5, 7, 9):
            new = gf.roll.retired(roll, number)
            self.assertEqual([tuple(r)[:4] for r in gf.roll.records(new)][5:], [(kind.RETIREMENT, 7, 0, b""), (kind.RETIREMENT, 9, 0, b"")])
            self.assertEqual([gf.stands_now(new, k).state for k in (5, 6, 7, 9)], [state.RETIRED, state.CURRENT, state.RETIRED, state.RETIRED])
            self.assertEqual(gf.roll.retired(new, number), new)
        lent = np.frombuffer(roll + bytes(27), np.uint8).copy()
        for count, set, number in ((len(roll), 7, 8), (len(roll), 4, 11), (len(roll) - 1, 7, 7)):
            with self.assertRaises(gf.Refused) as caught:
                gf.retire_all(lent, set, count=count)
            self.assertEqual(caught.exception.number, number)
            self.assertEqual(lent.tobytes(), roll + bytes(27))

    def test_files(self):
        """What the command does is tried in tests/roll; here, what a program gets."""
        kind, at = gf.roll.Kind, tempfile.mkdtemp()
        self.addCleanup(shutil.rmtree, at)
        file = os.path.join(at, "roll.bin")
        gf.roll.begin(file)
        self.assertEqual(gf.roll.load(file), gf.roll.EMPTY)
        for record in ((kind.DELIVERY, 7), (kind.REPLACEMENT, 8, 7, b"MgO")):
            gf.roll.append(pathlib.Path(file), *record)
        roll = gf.roll.load(os.fsencode(file))
        self.assertEqual(roll, gf.roll.appended(gf.roll.appended(gf.roll.EMPTY, kind.DELIVERY, 7), kind.REPLACEMENT, 8, 7, b"MgO"))
        for call, number, argument in ((lambda: gf.roll.append(file, kind.DELIVERY, 7), 9, "path"), (lambda: gf.roll.retire(file, 9), 11, "set"),
                                       (lambda: gf.roll.append(file, kind.DELIVERY, 9, label=bytes(256)), 7, "label")):
            with self.assertRaises(gf.Refused) as caught:
                call()
            self.assertEqual((caught.exception.number, caught.exception.argument, gf.roll.load(file)), (number, argument, roll))
        with self.assertRaises(FileExistsError):
            gf.roll.begin(file)
        self.assertEqual((gf.roll.retire(file, 7), gf.roll.retire(file, 7)), ([7, 8], []))
        gf.roll.append(file, kind.RETIREMENT, 99, anyway=True)
        with self.assertRaises(gf.Refused) as caught:
            gf.stands_now(gf.roll.load(file), 7)
        self.assertEqual(caught.exception.detail, "retirement 99, line 5 of the list, names set 99, which no earlier record delivers")
        for call in (lambda: gf.roll.renew(file, file + ".new"), lambda: gf.roll.retire(file, 7)):
            with self.assertRaises(gf.Refused) as caught:
                call()
            self.assertEqual(caught.exception.number, 9)
        gf.roll.renew(file, file + ".new", anyway=True)
        self.assertEqual(gf.roll.load(file + ".new"), gf.roll.load(file))
        with open(file, "wb") as f:
            f.write(b"no roll")
        for call in (lambda: gf.roll.load(file), lambda: gf.roll.append(file, kind.DELIVERY, 1), lambda: gf.roll.retire(file, 1),
                     lambda: gf.roll.renew(file, file + ".other")):
            with self.assertRaises(gf.Refused) as caught:
                call()
            self.assertEqual(caught.exception.number, 7)
        self.assertEqual(sorted(os.listdir(at)), ["roll.bin", "roll.bin.new"])


class Threads(unittest.TestCase):
    def test_disjoint_sets(self):
        """Several threads on sets of their own leave the bits that one leaves."""
        t = grid_tables((2, 2, 2), 2)
        jobs = []
        for k in range(4):
            jobs.append((random(48, 48, 3, 3, seed=k), lambda fc: gf.perm_trans_symmetrize_fc(fc, 20)))
            jobs.append((random(2, 16, 3, 3, seed=k), lambda fc: [gf.perm_trans_symmetrize_compact_fc(fc, t, 5) for _ in range(20)]))
            jobs.append((random(2, 16, 16, 3, 3, 3, seed=k), lambda fc: [gf.true_transpose_compact_fc3(fc, t, k % 3) for _ in range(20)]))
            jobs.append((random(12, 12, 12, 3, 3, 3, seed=k), gf.set_permutation_symmetry_fc3))
        alone = [fc.copy() for fc, _ in jobs]
        for fc, (_, work) in zip(alone, jobs):
            work(fc)
        for _ in range(3):
            sets = [fc.copy() for fc, _ in jobs]
            threads = [threading.Thread(target=work, args=(fc,)) for fc, (_, work) in zip(sets, jobs)]
            for thread in threads:
                thread.start()
            for thread in threads:
                thread.join()
            for fc, expected in zip(sets, alone):
                self.assertTrue(same_bits(fc, expected))


if __name__ == "__main__":
    unittest.main()
