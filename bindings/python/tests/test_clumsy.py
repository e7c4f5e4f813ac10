"""Arrays as a hurried user gives them: taken, or an exception in words and no byte changed."""
import os
import pathlib
import tempfile
import unittest

import numpy as np

import gullyfork as gf
from common import CIRCLE, random

ROWS = CIRCLE[3]


class Clumsy(unittest.TestCase):
    def refuses(self, error, words, call, *arrays):
        """The call raises the error with the words, and the bytes of every array are as they were."""
        before = [(a, a.tobytes()) for a in arrays]
        with self.assertRaises(error) as caught:
            call()
        self.assertIs(type(caught.exception), error, caught.exception)
        self.assertIn(words, str(caught.exception))
        for a, was in before:
            self.assertEqual(a.tobytes(), was)
        return caught.exception

    def set_refused(self, error, words, fc):
        self.refuses(error, words, lambda: gf.perm_trans_symmetrize_fc(fc), *([fc] if isinstance(fc, np.ndarray) else []))

    def test_types_of_a_set(self):
        full = random(2, 2, 3, 3)
        self.set_refused(TypeError, "float32", full.astype("f4"))
        self.set_refused(TypeError, ">f8", full.astype(">f8"))
        self.set_refused(TypeError, "complex128", full.astype(complex))
        self.set_refused(TypeError, "int64", np.zeros((2, 2, 3, 3), int))
        self.set_refused(TypeError, "longdouble" if np.longdouble is np.float64 else "float128", full.astype(np.longdouble))
        self.set_refused(TypeError, "object", full.astype(object))
        self.set_refused(TypeError, "a numpy array, not list", full.tolist())
        self.set_refused(TypeError, "a masked one", np.ma.masked_greater(full, 0.5))

    def test_memory_of_a_set(self):
        full = random(4, 4, 3, 3)
        self.set_refused(ValueError, "C-contiguous", np.asfortranarray(full))
        self.set_refused(ValueError, "C-contiguous", full[::2, ::2])
        self.set_refused(ValueError, "C-contiguous", full[:, :, ::-1])
        self.set_refused(ValueError, "read-only", np.broadcast_to(full[:1, :1], (2, 2, 3, 3)))
        still = full.copy()
        still.flags.writeable = False
        self.set_refused(ValueError, "read-only", still)
        self.assertEqual(gf.drift_report(still), gf.drift_report(full))
        odd = np.zeros(2 * 2 * 9 * 8 + 1, np.uint8)[1:].view(np.float64).reshape(2, 2, 3, 3)
        self.set_refused(ValueError, "not aligned", odd)

    def test_memory_mapped(self):
        with tempfile.TemporaryDirectory() as folder:
            path = os.path.join(folder, "fc.npy")
            full = random(3, 3, 3, 3)
            np.save(path, full)
            before = pathlib.Path(path).read_bytes()
            self.set_refused(ValueError, "read-only", np.load(path, mmap_mode="r"))
            copy = np.load(path, mmap_mode="c")
            gf.perm_trans_symmetrize_fc(copy)  # copy-on-write: the array changes, the file does not
            self.assertEqual(pathlib.Path(path).read_bytes(), before)
            gf.perm_trans_symmetrize_fc(full)
            self.assertEqual(copy.tobytes(), full.tobytes())
            on_disk = np.load(path, mmap_mode="r+")
            gf.perm_trans_symmetrize_fc(on_disk)
            on_disk.flush()
            self.assertEqual(np.load(path).tobytes(), full.tobytes())

    def test_shapes_of_a_set(self):
        self.set_refused(ValueError, "(36,)", random(36))
        self.set_refused(ValueError, "(6, 6)", random(6, 6))
        self.set_refused(ValueError, "a compact set", random(1, 3, 3, 3))
        self.set_refused(ValueError, "of order 2", random(2, 2, 2, 3, 3, 3))
        exchanged = random(3, 1, 3, 3)
        e = self.refuses(ValueError, "fc has the shape (3, 1, 3, 3), true_transpose_compact_fc2 asks for (1, 3, 3, 3)",
                         lambda: gf.true_transpose_compact_fc2(exchanged, CIRCLE), exchanged)
        self.assertNotIsInstance(e, gf.Refused)

    def test_counts(self):
        full = random(2, 2, 3, 3)
        self.refuses(ValueError, "level is -1", lambda: gf.perm_trans_symmetrize_fc(full, -1), full)
        self.refuses(ValueError, f"level is {2**64 + 1}", lambda: gf.perm_trans_symmetrize_fc(full, 2**64 + 1), full)
        self.refuses(TypeError, "level has to be a whole number, not float", lambda: gf.perm_trans_symmetrize_fc(full, 1.5), full)
        self.refuses(TypeError, "level has to be a whole number, not a bool", lambda: gf.perm_trans_symmetrize_fc(full, True), full)
        e = self.refuses(gf.Refused, "level: 1001, limit 1000", lambda: gf.perm_trans_symmetrize_fc(full, 1001), full)
        self.assertEqual((e.number, e.call, e.argument, e.detail), (1, "perm_trans_symmetrize_fc", "level", "1001, limit 1000"))
        self.assertEqual(e.words, gf.words(1))
        e = self.refuses(gf.Refused, "n_satom: 1025, limit 1024", lambda: gf.perm_trans_symmetrize_fc(np.zeros((1025, 1025, 3, 3))))
        self.assertEqual(e.number, 1)
        gf.perm_trans_symmetrize_fc(np.zeros((0, 0, 3, 3)))
        gf.perm_trans_symmetrize_fc(full, np.int32(1))
        fc3 = random(1, 3, 3, 3, 3, 3)
        self.refuses(ValueError, "t_type", lambda: gf.transpose_compact_fc3(fc3, CIRCLE, 2**64), fc3)
        self.refuses(TypeError, "True or False", lambda: gf.set_index_permutation_symmetry_compact_fc(random(1, 3, 3, 3), CIRCLE, 1))

    def test_types_of_tables(self):
        for dtype in ("i1", "i4", "i8", "u1", "u8", ">i4"):
            fc, as_lists = random(1, 3, 3, 3), random(1, 3, 3, 3)
            gf.perm_trans_symmetrize_compact_fc(fc, [np.array(t).astype(dtype) for t in CIRCLE])
            gf.perm_trans_symmetrize_compact_fc(as_lists, CIRCLE)
            self.assertEqual(fc.tobytes(), as_lists.tobytes())
        for dtype in ("f8", "?", "O", "c16", "U1", "M8[s]"):
            fc = random(1, 3, 3, 3)
            tables = [np.array(t).astype(dtype) for t in CIRCLE]
            self.refuses(TypeError, "index table", lambda: gf.perm_trans_symmetrize_compact_fc(fc, tables), fc)
        fc = random(1, 3, 3, 3)
        big = np.array([2**64 - 1, 0, 0], np.uint64)
        self.refuses(ValueError, "beyond int64", lambda: gf.Tables([0], big, [0, 2, 1], ROWS))
        gf.perm_trans_symmetrize_compact_fc(fc, (*CIRCLE[:3], np.asfortranarray(ROWS)))
        self.refuses(ValueError, "ragged", lambda: gf.Tables([0], [0, 0, 0], [0, 2, 1], [[0, 1, 2], [1, 2]]))
        self.refuses(ValueError, "perms has 1 axes", lambda: gf.Tables([0], [0, 0, 0], [0, 2, 1], np.ravel(ROWS)))
        self.refuses(TypeError, "gullyfork.Tables", lambda: gf.perm_trans_symmetrize_compact_fc(fc, None), fc)

    def test_wrong_tables(self):
        cases = (
            (3, "perms", "entry (0, 2) is 3, count 3", (*CIRCLE[:3], np.array(ROWS) + 1)),
            (3, "nsym_list", "entry 1 is -1, count 3", ([0], [0, 0, 0], [0, -1, 1], ROWS)),
            (2, "nsym_list", "2 entries, s2pp has 3", ([0], [0, 0, 0], [0, 1], ROWS)),
            (2, "perms", "rows of 2 entries, s2pp has 3", ([0], [0, 0, 0], [0, 2, 1], [[0, 1], [1, 0], [0, 1]])),
            (6, "perms", "n_satom 3 is not n_patom 1 x num_trans 2", ([0], [0, 0, 0], [0, 1, 1], ROWS[:2])),
            (6, "perms", "no row sends each atom to itself", ([0], [0, 0, 0], [0, 1, 2], [ROWS[1], ROWS[2], ROWS[1]])),
            (6, "perms", "row 1 sends atoms 0 and 1 to the same place", ([0], [0, 0, 0], [0, 2, 1], [ROWS[0], [1, 1, 0], ROWS[2]])),
            (6, "perms", "row 2 and then row 2 is no row: a shift is missing", ([0], [0, 0, 0], [0, 2, 1], [ROWS[0], ROWS[0], ROWS[2]])),
            (6, "nsym_list", "entry 1 is 1, which sends atom 1 to 2, not to 0", ([0], [0, 0, 0], [0, 1, 2], ROWS)),
        )
        for number, argument, detail, tables in cases:
            with self.subTest(detail):
                fc = random(1, 3, 3, 3)
                e = self.refuses(gf.Refused, detail, lambda: gf.perm_trans_symmetrize_compact_fc(fc, tables), fc)
                self.assertEqual((e.number, e.argument), (number, argument))
                e = self.refuses(gf.Refused, detail, lambda: gf.check_shift_tables(tables))
                self.assertEqual((e.number, e.call), (number, "check_shift_tables"))
        four = np.array([[0, 1, 2, 3, 4], [1, 0, 3, 4, 2], [2, 4, 0, 1, 3], [3, 2, 4, 0, 1], [4, 3, 1, 2, 0]])  # a Latin square, no group
        e = self.refuses(gf.Refused, "is no row: a shift is missing", lambda: gf.Tables([0], [0] * 5, [0, 1, 2, 3, 4], four).check())
        two = ([0, 2], [0, 0, 2, 2], [0, 1, 0, 1], [[0, 1, 2, 3], [1, 0, 3, 2]])
        self.refuses(gf.Refused, "s2pp: entry 2 is 2, count 2", lambda: gf.Tables(*two).check())
        two = ([0, 2], [0, 1, 1, 1], [0, 1, 0, 1], two[3])
        self.refuses(gf.Refused, "s2pp: it is", lambda: gf.Tables(*two).check())
        two = ([0, 2], [1, 1, 0, 0], [0, 1, 0, 1], two[3])
        self.refuses(gf.Refused, "s2pp: entry 0 is 1, and p2s[0] is 0", lambda: gf.Tables(*two).check())
        same = ([0], [0, 0], [0, 1], [[0, 1], [0, 1]])
        self.refuses(gf.Refused, "perms: rows 0 and 1 both send atom 0 to atom 0", lambda: gf.Tables(*same).check())

    def test_explained(self):
        """The number, which and place of each answer, and the words of refusal 6."""
        self.assertEqual(gf.explain_shift_tables(CIRCLE), (0, 0, (0, 0, 0), None))
        self.assertEqual(gf.explain_shift_tables(([0], [0, 0, 0], [0, -1, 1], ROWS)), (3, 3, (1, 0, 0), None))
        self.assertEqual(gf.explain_shift_tables(([0], [0, 0, 0], [0, 1], ROWS)), (2, 3, (0, 0, 0), None))
        self.assertEqual(gf.explain_shift_tables(([0] * 1025, [0] * 2, [0] * 2, [[0, 1]])), (1, 1, (0, 0, 0), None))
        rows = [[0, 1, 2], [1, 0, 2], [2, 1, 0]]
        self.assertEqual(gf.explain_shift_tables(([0], [0, 0, 0], [0, 1, 2], rows)),
                         (6, 3, (1, 2, 0), "perms: row 1 and then row 2 is no row: a shift is missing"))

    def test_tables_are_their_own(self):
        """A change of the arrays after Tables was made is not seen, and nobody changes what Tables holds."""
        perms = np.array(ROWS)
        t = gf.Tables(*CIRCLE[:3], perms)
        t.check()
        perms[0, 0] = 2
        t.check()
        self.assertEqual(t.perms.tolist(), ROWS)
        with self.assertRaises(ValueError):
            t.perms[0, 0] = 1
        broken = gf.Tables(*CIRCLE[:3], perms)
        for _ in range(2):
            with self.assertRaises(gf.Refused):
                broken.check()

    def test_overlap(self):
        memory = random(2 * 27 + 9)
        fc3 = memory[:54].reshape(2, 1, 1, 3, 3, 3)
        self.refuses(ValueError, "rot_cart shares memory", lambda: gf.distribute_fc3(fc3, 1, 0, [0], memory[45:54].reshape(3, 3)), memory)
        gf.distribute_fc3(fc3, 1, 0, [0], memory[54:].reshape(3, 3))
        fc = np.zeros((2, 2, 3, 3))
        self.refuses(ValueError, "sums shares memory", lambda: gf.replace_block_fc2(fc, fc[0], np.zeros((3, 3)), 0, 0), fc)
        self.refuses(ValueError, "block shares memory", lambda: gf.replace_block_fc2(fc, np.zeros((2, 3, 3)), fc[0, 1], 0, 0), fc)
        bytes_too = random(1, 3, 3, 3)
        work = bytes_too.view(np.uint8).ravel()[:3]
        self.refuses(ValueError, "work shares memory", lambda: gf.true_transpose_compact_fc2(bytes_too, CIRCLE, work=work), bytes_too)
        self.refuses(ValueError, "out is changed in place, and fc shares memory with it", lambda: gf.row_sums_fc2(fc, out=fc[0]), fc)
        self.refuses(gf.Refused, "out: shape (1, 3, 3), asked for (2, 3, 3)", lambda: gf.row_sums_fc2(fc, out=np.zeros((1, 3, 3))), fc)
        self.refuses(gf.Refused, "sums: shape (3, 3, 3), asked for (2, 3, 3)",
                     lambda: gf.replace_block_fc2(fc, np.zeros((3, 3, 3)), np.zeros((3, 3)), 0, 0), fc)

    def test_work(self):
        fc, expected = random(1, 3, 3, 3), random(1, 3, 3, 3)
        gf.true_transpose_compact_fc2(expected, CIRCLE)
        work = np.full(3, 7, np.uint8)
        gf.true_transpose_compact_fc2(fc, CIRCLE, work=work)
        self.assertEqual((fc.tobytes(), work.tolist()), (expected.tobytes(), [0, 0, 0]))
        for lent, error in ((np.zeros(2, np.uint8), gf.Refused), (np.zeros(3), TypeError), (np.zeros(6, np.uint8)[::2], ValueError),
                            ([0, 0, 0], TypeError)):
            self.refuses(error, "work", lambda: gf.true_transpose_compact_fc2(fc, CIRCLE, work=lent), fc)
        again = np.zeros((2, 2, 3, 3))
        self.refuses(gf.Refused, "work: shape (1,), asked for (2,)", lambda: gf.distribute_fc2(
            again, [0, 1], [0, 1], [np.eye(3)], [[0, 1]], [0, 1], [0, 0], work=np.zeros(1, np.int64)), again)

    def test_matching(self):
        pos = random(2, 3)
        for match in (gf.compute_permutation, gf.find_permutation):
            self.refuses(gf.Refused, "rot_pos: shape (1, 3), asked for (2, 3)", lambda: match(np.eye(3), 1e-5, pos, pos[:1]), pos)
            self.refuses(ValueError, "ragged", lambda: match(np.eye(3), 1e-5, [[0, 0, 0], [0, 0]], pos))
            self.refuses(ValueError, "positions have (n, 3)", lambda: match(np.eye(3), 1e-5, pos.T, pos))
            self.refuses(ValueError, "lattice has the shape (9,)", lambda: match(np.eye(3).ravel(), 1e-5, pos, pos))
            self.refuses(TypeError, "lattice", lambda: match(np.eye(3) * 1j, 1e-5, pos, pos))
            self.refuses(TypeError, "symprec", lambda: match(np.eye(3), "1e-5", pos, pos))
            self.refuses(TypeError, "masked", lambda: match(np.eye(3), 1e-5, np.ma.masked_greater(pos, 0), pos))
            self.refuses(gf.Refused, "num_pos: 1025, limit 1024", lambda: match(np.eye(3), 1e-5, np.zeros((1025, 3)), np.zeros((1025, 3))))
            for pbc in ("TTF", 2, 1.0, [1, 1, 255], None, []):
                self.refuses(TypeError, "pbc has to be True or False", lambda: match(np.eye(3), 1e-5, pos, pos, pbc=pbc))
            for pbc in ([True, False], [1] * 4, [[True] * 3]):
                self.refuses(ValueError, "pbc has the shape", lambda: match(np.eye(3), 1e-5, pos, pos, pbc=pbc))
            for strided in (np.repeat(pos, 2, axis=0)[::2], np.asfortranarray(pos), pos.astype(">f8")):
                self.assertTrue(match(np.eye(3, dtype=int), 1e-5, strided, pos).found)
            self.assertEqual(match(np.eye(3), 1e-5, np.zeros((0, 3)), np.zeros((0, 3))).slots.tolist(), [])

    def test_distributors(self):
        fc3 = np.zeros((2, 2, 2, 3, 3, 3))
        self.refuses(gf.Refused, "target: 1, and the source is the same", lambda: gf.distribute_fc3(fc3, 1, 1, [0, 1], np.eye(3)), fc3)
        self.refuses(gf.Refused, "source: 2, num_first 2", lambda: gf.distribute_fc3(fc3, 1, 2, [0, 1], np.eye(3)), fc3)
        self.refuses(gf.Refused, "atom_mapping: entry 1 is 2, count 2", lambda: gf.distribute_fc3(fc3, 1, 0, [0, 2], np.eye(3)), fc3)
        self.refuses(gf.Refused, "rot_cart: shape (2, 2)", lambda: gf.distribute_fc3(fc3, 1, 0, [0, 1], np.eye(2)), fc3)
        fc2, eye = np.zeros((1, 2, 3, 3)), [np.eye(3)]
        e = self.refuses(gf.Refused, "atom 1 is represented by atom 0, which is not listed",
                         lambda: gf.distribute_fc2(fc2, [1], [0], eye, [[1, 0]], [0, 0], [0, 0]), fc2)
        self.assertEqual((e.number, e.argument), (5, "atom_list"))
        full = np.zeros((2, 2, 3, 3))
        self.refuses(gf.Refused, "map_atoms: atom 1 is represented by atom 0, which is represented by atom 1",
                     lambda: gf.distribute_fc2(full, [1, 0], [1, 0], eye, [[0, 1]], [1, 0], [0, 0]), full)
        many = np.zeros((1025, 3, 3))
        self.refuses(gf.Refused, "num_rot: 1025, limit 1024",
                     lambda: gf.distribute_fc2(full, [0, 1], [0, 1], many, np.zeros((1025, 2), int), [0, 1], [0, 0]), full)
        self.refuses(ValueError, "permutations has the shape (2, 3)",
                     lambda: gf.distribute_fc2(np.zeros((3, 2, 3, 3)), [0], [0], [np.eye(3)] * 3, np.zeros((2, 3), int), [0, 1], [0, 0]))

    def test_deltas(self):
        deltas, inv_u, maps = np.ones((1, 2, 2, 3, 3)), np.ones((3, 1)), [[0, 1]]
        self.refuses(gf.Refused, "inv_u: shape (3, 2), asked for (3, 1)", lambda: gf.rotate_delta_fc2s(deltas, np.ones((3, 2)), [np.eye(3)], maps))
        self.refuses(ValueError, "inv_u has the shape (1, 3)", lambda: gf.rotate_delta_fc2s(deltas, inv_u.T, [np.eye(3)], maps))
        self.refuses(gf.Refused, "rot_map_syms: entry (0, 1) is 2, count 2", lambda: gf.rotate_delta_fc2s(deltas, inv_u, [np.eye(3)], [[0, 2]]))
        self.refuses(ValueError, "delta_fc2s has the shape", lambda: gf.rotate_delta_fc2s(deltas[0], inv_u, [np.eye(3)], maps))
        out = np.full((2, 2, 3, 3, 3), 7.0)
        given = gf.rotate_delta_fc2s(deltas, inv_u, [np.eye(3)], maps, out=out)
        self.assertIs(given, out)
        self.assertEqual(out.tobytes(), gf.rotate_delta_fc2s(deltas, inv_u, [np.eye(3)], maps).tobytes())
        self.refuses(ValueError, "read-only", lambda: gf.rotate_delta_fc2s(deltas, inv_u, [np.eye(3)], maps, out=np.broadcast_to(out[:1], out.shape)))
        self.refuses(ValueError, "out has the shape", lambda: gf.rotate_delta_fc2s(deltas, inv_u, [np.eye(3)], maps, out=out.reshape(4, 1, 3, 3, 3)), out)

    def test_row_sums(self):
        fc, sums = np.zeros((2, 2, 3, 3)), np.zeros((2, 3, 3))
        e = self.refuses(gf.Refused, "block: entry (0, 0) is 0.1", lambda: gf.replace_block_fc2(fc, sums, np.full((3, 3), 0.1), 0, 0), fc, sums)
        self.assertEqual(e.number, 10)
        fc[1, 0, 2, 2] = np.nan
        self.refuses(gf.Refused, "fc: entry (1, 0, 2, 2) is nan", lambda: gf.replace_block_fc2(fc, sums, np.zeros((3, 3)), 1, 0), fc, sums)
        self.refuses(gf.Refused, "i: 2, n_satom 2", lambda: gf.replace_block_fc2(fc, sums, np.zeros((3, 3)), 2, 0), fc, sums)
        self.refuses(ValueError, "j is -1", lambda: gf.replace_block_fc2(fc, sums, np.zeros((3, 3)), 0, -1), fc, sums)
        self.refuses(ValueError, "sums has the shape (18,), replace_block_fc2 asks for (2, 3, 3)",
                     lambda: gf.replace_block_fc2(fc, sums.ravel(), np.zeros((3, 3)), 0, 0), fc, sums)

    def test_rolls(self):
        self.assertFalse(gf.is_roll(b"1234567"))
        self.refuses(gf.Refused, "lent: its first 7 bytes are not a roll", lambda: gf.read_roll(b"1234567"))
        self.refuses(gf.Refused, "count 9 passes its 8 bytes", lambda: gf.read_roll(gf.roll.EMPTY, 0, count=9))
        self.refuses(gf.Refused, "at: neither a record nor the trailer starts at 1", lambda: gf.read_roll(gf.roll.EMPTY, 1))
        lent = np.zeros(22, np.uint8)
        for values, words in (((8, 4, 1), "kind: 4"), ((8, 1, 0), "set: 0"), ((8, 1, 1, 5), "earlier: 5"), ((8, 2, 1), "earlier: 0"),
                              ((8, 1, 1, 0, bytes(256)), "label: 256 bytes"), ((8, 1, 1, 0, b"x"), "lent: 22 bytes, the roll would have 23"),
                              ((9, 1, 1), "lent: its first 9 bytes")):
            self.refuses(gf.Refused, words, lambda: gf.append_roll(lent, *values[1:], count=values[0]), lent)
        self.refuses(ValueError, "kind is 257", lambda: gf.append_roll(lent, 257, 1, count=8), lent)
        self.refuses(ValueError, "set is 4294967297", lambda: gf.append_roll(lent, 1, 2**32 + 1, count=8), lent)
        self.refuses(TypeError, "encode the text", lambda: gf.append_roll(lent, 1, 1, 0, "MgO", count=8), lent)
        self.refuses(ValueError, "read-only", lambda: gf.append_roll(bytes(22), 1, 1, count=8))
        self.assertEqual(gf.append_roll(lent, 1, 1, count=8), 22)

    def test_numbers(self):
        for call in (gf.nint, gf.round, gf.sqrt):
            for x in ("1.5", None, 1j, [1.0], 2**53 + 1):
                with self.assertRaises((TypeError, ValueError)):
                    call(x)
        self.assertEqual([gf.nint(np.float32(2.5)), gf.nint(7), gf.sqrt(np.int64(4))], [3, 7, 2.0])


if __name__ == "__main__":
    unittest.main()
