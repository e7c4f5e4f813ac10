"""Good input of every call, spoiled at random: a call ends well or raises TypeError or ValueError, and then no byte of any array has changed; what it
only reads is never changed."""
import inspect
import unittest

import numpy as np

import gullyfork as gf
from common import grid_tables

ROUNDS = 120  # of each call


def good(rng):
    """For each call: its function, its arguments by name, and those that it changes."""
    t = grid_tables([(1, 1, 1), (2, 1, 1), (3, 1, 1), (2, 2, 1)][rng.integers(4)], int(rng.integers(1, 3)), int(rng.integers(100)))
    p, n, set_of = t.n_patom, t.n_satom, lambda *shape: rng.standard_normal(shape)
    tables = {k: np.array(a) for k, a in zip(("p2s", "s2pp", "nsym_list", "perms"), t)}
    r = int(rng.integers(1, 4))
    maps = {"permutations": np.array([rng.permutation(n) for _ in range(r)]), "map_atoms": np.arange(n), "map_syms": rng.integers(0, r, n)}
    deltas = {"inv_u": set_of(3, 2 * r), "site_sym_cart": set_of(r, 3, 3), "rot_map_syms": np.array([rng.permutation(n) for _ in range(r)])}
    slabs = {"target": 1, "source": 0, "atom_mapping": rng.permutation(n), "rot_cart": set_of(3, 3)}
    grid = np.round(set_of(n, n, 3, 3) * 64) / 64
    return {
        "perm_trans_symmetrize_fc": ({"fc": set_of(n, n, 3, 3), "level": 2}, {"fc"}),
        "perm_trans_symmetrize_compact_fc": ({"fc": set_of(p, n, 3, 3), **tables, "level": 1}, {"fc"}),
        "set_index_permutation_symmetry_compact_fc": ({"fc": set_of(p, n, 3, 3), **tables, "transpose": True}, {"fc"}),
        "true_transpose_compact_fc2": ({"fc": set_of(p, n, 3, 3), **tables, "work": np.ones(p * n, np.uint8)}, {"fc", "work"}),
        "drift_report": ({"fc": set_of(n, n, 3, 3)}, set()),
        "drift_report_compact_fc2": ({"fc": set_of(p, n, 3, 3), **tables}, set()),
        "drift_report_fc3": ({"fc": set_of(n, n, n, 3, 3, 3)}, set()),
        "distribute_fc2": ({"fc2": set_of(n, n, 3, 3), "atom_list": np.arange(n), "fc_indices_of_atom_list": np.arange(n),
                            "r_carts": set_of(r, 3, 3), **maps}, {"fc2"}),
        "row_sums_fc2": ({"fc": grid, "out": np.ones((n, 3, 3))}, {"out"}),
        "replace_block_fc2": ({"fc": grid.copy(), "sums": set_of(n, 3, 3), "block": np.ones((3, 3)), "i": 0, "j": n - 1}, {"fc", "sums"}),
        "compact_to_full_fc2": ({"fc2": set_of(p, n, 3, 3), **tables, "out": np.ones((n, n, 3, 3))}, {"out"}),
        "compute_permutation": ({"lattice": np.eye(3), "symprec": 1e-5, "pos": set_of(n, 3), "rot_pos": set_of(n, 3), "pbc": rng.random(3) < 0.5}, set()),
        "find_permutation": ({"lattice": np.eye(3), "symprec": 0.3, "pos": set_of(n, 3), "rot_pos": set_of(n, 3), "pbc": True}, set()),
        "set_permutation_symmetry_fc3": ({"fc3": set_of(n, n, n, 3, 3, 3)}, {"fc3"}),
        "set_permutation_symmetry_compact_fc3": ({"fc3": set_of(p, n, n, 3, 3, 3), **tables, "work": np.ones(p * n * n, np.uint8)}, {"fc3", "work"}),
        "perm_trans_symmetrize_fc3": ({"fc3": set_of(n, n, n, 3, 3, 3), "level": 1, "drift": np.ones(n * n * 27)}, {"fc3", "drift"}),
        "perm_trans_symmetrize_compact_fc3": ({"fc3": set_of(p, n, n, 3, 3, 3), **tables, "level": 2, "work": np.ones(p * n * n, np.uint8),
                                               "drift": np.ones(p * n * 27)}, {"fc3", "work", "drift"}),
        "transpose_compact_fc3": ({"fc3": set_of(p, n, n, 3, 3, 3), **tables, "t_type": 1}, {"fc3"}),
        "true_transpose_compact_fc3": ({"fc3": set_of(p, n, n, 3, 3, 3), **tables, "t_type": 0}, {"fc3"}),
        "distribute_fc3": ({"fc3": set_of(2, n, n, 3, 3, 3), **slabs}, {"fc3"}),
        "rotate_delta_fc2s": ({"delta_fc2s": set_of(2, n, n, 3, 3), **deltas, "out": np.ones((n, n, 3, 3, 3))}, {"out"}),
        "compact_to_full_fc3": ({"fc3": set_of(p, n, n, 3, 3, 3), **tables}, set()),
        "set_permutation_symmetry_fc4": ({"fc4": set_of(2, 2, 2, 2, 3, 3, 3, 3)}, {"fc4"}),
        "set_permutation_symmetry_compact_fc4": ({"fc4": set_of(p, n, n, n, 3, 3, 3, 3), **tables}, {"fc4"}),
        "perm_trans_symmetrize_fc4": ({"fc4": set_of(2, 2, 2, 2, 3, 3, 3, 3), "level": 1, "work": np.ones(16, np.uint8), "drift": np.ones(8 * 81)},
                                      {"fc4", "work", "drift"}),
        "perm_trans_symmetrize_compact_fc4": ({"fc4": set_of(p, n, n, n, 3, 3, 3, 3), **tables, "level": 2, "work": np.ones(p * n**3, np.uint8),
                                               "drift": np.ones(p * n * n * 81)}, {"fc4", "work", "drift"}),
        "transpose_compact_fc4": ({"fc4": set_of(p, n, n, n, 3, 3, 3, 3), **tables, "t_type": 0}, {"fc4"}),
        "true_transpose_compact_fc4": ({"fc4": set_of(p, n, n, n, 3, 3, 3, 3), **tables, "t_type": 0}, {"fc4"}),
        "swap_pairs_compact_fc4": ({"fc4": set_of(p, n, n, n, 3, 3, 3, 3), **tables, "leg_a": 3, "leg_b": 1}, {"fc4"}),
        "distribute_fc4": ({"fc4": set_of(2, n, n, n, 3, 3, 3, 3), **slabs}, {"fc4"}),
        "rotate_delta_fc3s": ({"delta_fc3s": set_of(2, n, n, n, 3, 3, 3), **deltas, "work": np.ones(2 * r * 27)}, {"work"}),
        "compact_to_full_fc4": ({"fc4": set_of(p, n, n, n, 3, 3, 3, 3), **tables}, set()),
        "same_set": ({"a": set_of(n, n, 3, 3), "b": set_of(n, n, 3, 3)}, set()),
        "audit_fc2": ({"fc": set_of(n, n, 3, 3)}, set()),
        "audit_fc3": ({"fc": set_of(n, n, n, 3, 3, 3)}, set()),
        "audit_fc4": ({"fc": set_of(2, 2, 2, 2, 3, 3, 3, 3)}, set()),
        "audit_compact_fc2": ({"fc": set_of(p, n, 3, 3), **tables}, set()),
        "audit_compact_fc3": ({"fc": set_of(p, n, n, 3, 3, 3), **tables}, set()),
        "audit_compact_fc4": ({"fc": set_of(p, n, n, n, 3, 3, 3, 3), **tables}, set()),
        "set_difference": ({"a": set_of(n, n, 3, 3), "b": set_of(n, n, 3, 3)}, set()),
        "difference_report_fc2": ({"fc": set_of(n, n, 3, 3)}, set()),
        "difference_report_fc3": ({"fc": set_of(n, n, n, 3, 3, 3)}, set()),
        "difference_report_fc4": ({"fc": set_of(2, 2, 2, 2, 3, 3, 3, 3)}, set()),
        "difference_report_compact_fc2": ({"fc": set_of(p, n, 3, 3), **tables}, set()),
        "difference_report_compact_fc3": ({"fc": set_of(p, n, n, 3, 3, 3), **tables}, set()),
        "difference_report_compact_fc4": ({"fc": set_of(p, n, n, n, 3, 3, 3, 3), **tables}, set()),
        "crystal_report_fc2": ({"fc": set_of(n, n, 3, 3), "r_carts": set_of(r, 3, 3), "operations": np.array([rng.permutation(n) for _ in range(r)])}, set()),
        "crystal_report_compact_fc2": ({"fc": set_of(p, n, 3, 3), **tables, "r_carts": set_of(r, 3, 3), "operations": np.array([rng.permutation(n) for _ in range(r)])}, set()),
        "crystal_report_fc3": ({"fc": set_of(n, n, n, 3, 3, 3), "r_carts": set_of(r, 3, 3), "operations": np.array([rng.permutation(n) for _ in range(r)])}, set()),
        "crystal_report_compact_fc3": ({"fc": set_of(p, n, n, 3, 3, 3), **tables, "r_carts": set_of(r, 3, 3), "operations": np.array([rng.permutation(n) for _ in range(r)])}, set()),
        "crystal_report_fc4": ({"fc": set_of(2, 2, 2, 2, 3, 3, 3, 3), "r_carts": set_of(r, 3, 3), "operations": np.array([rng.permutation(2) for _ in range(r)])}, set()),
        "crystal_report_compact_fc4": ({"fc": set_of(p, n, n, n, 3, 3, 3, 3), **tables, "r_carts": set_of(r, 3, 3), "operations": np.array([rng.permutation(n) for _ in range(r)])}, set()),
        "drift_report_compact_fc3": ({"fc": set_of(p, n, n, 3, 3, 3), **tables}, set()),
        "drift_report_compact_fc4": ({"fc": set_of(p, n, n, n, 3, 3, 3, 3), **tables}, set()),
        "drift_report_fc4": ({"fc": set_of(2, 2, 2, 2, 3, 3, 3, 3)}, set()),
        "append_roll": ({"lent": np.zeros(40, np.uint8), "count": 8, "kind": 1, "set": 5, "label": b"MgO"}, {"lent"}),
        "read_roll": ({"lent": np.zeros(8, np.uint8), "at": 0}, set()),
        "stands_now": ({"lent": np.zeros(8, np.uint8), "set": 1}, set()),
        "retire_all": ({"lent": np.frombuffer(gf.roll.appended(gf.roll.EMPTY, 1, 5) + bytes(14), np.uint8).copy(), "count": 22, "set": 5}, {"lent"}),
        "is_roll": ({"lent": np.zeros(8, np.uint8)}, set()),
        "read_roll_former": ({"lent": np.zeros(8, np.uint8), "at": 0}, set()),
        "is_roll_former": ({"lent": np.zeros(8, np.uint8)}, set()),
        "check_shift_tables": (dict(tables), set()),
        "explain_shift_tables": (dict(tables), set()),
    }


def spoil_array(rng, a):
    kind = rng.integers(14)
    if kind == 0:
        return a.astype(rng.choice(["f4", ">f8", "c16", "i4", ">i8", "u1", "?", "O", "f2", "u8"]))
    if kind == 1:
        return np.asfortranarray(a)
    if kind == 2:
        return np.repeat(a, 2, axis=0)[::2] if a.ndim else a
    if kind == 3:
        still = a.copy()
        still.flags.writeable = False
        return still
    if kind == 4:
        return a.ravel()
    if kind == 5:
        return a[:-1] if a.shape[0] else a
    if kind == 6:
        return np.concatenate([a, a[:1]])
    if kind == 7 and a.size:
        out = a.copy()
        out.ravel()[rng.integers(a.size)] = rng.choice([-1, 1000, 3]) if a.dtype != np.uint8 else 200
        return out
    if kind == 8:
        return a.tolist()
    if kind == 9:
        return a[None]
    if kind == 10:
        return np.ma.masked_array(a, np.zeros(a.shape, bool))
    if kind == 11 and not a.dtype.hasobject:
        memory = np.zeros(a.nbytes + 1, np.uint8)[1:]
        out = memory.view(a.dtype).reshape(a.shape)
        out[...] = a
        return out
    if kind == 12:
        return a[:0]
    return np.broadcast_to(a[:1], a.shape) if a.shape[0] else a


def spoil(rng, arguments):
    """One or two arguments are changed, or two are made to share memory."""
    names = list(arguments)
    for _ in range(int(rng.integers(1, 3))):
        name = names[rng.integers(len(names))]
        x = arguments[name]
        if isinstance(x, np.ndarray):
            others = [k for k in names if k != name and isinstance(arguments[k], np.ndarray) and arguments[k].dtype == x.dtype
                      and arguments[k].size >= x.size]
            if others and rng.integers(5) == 0:
                arguments[name] = arguments[others[rng.integers(len(others))]].ravel()[:x.size].reshape(x.shape)
            else:
                arguments[name] = spoil_array(rng, x)
        else:
            arguments[name] = [None, -1, 2**63, 2**64, 1.5, "1", 10**6, True, 0, [1], np.nan, b"x" * 300][rng.integers(12)]


def call(name, arguments):
    tables = [arguments.pop(k) for k in ("p2s", "s2pp", "nsym_list", "perms") if k in arguments]
    if tables:
        arguments["tables"] = tables
    return getattr(gf, name)(**arguments)


class AnyInput(unittest.TestCase):
    def test_every_call_is_here(self):
        missing = {k for k, f in vars(gf).items() if inspect.isfunction(f)} - set(good(np.random.default_rng(0))) - {
            "nint", "round", "sqrt", "version", "words"}
        self.assertEqual(missing, set())

    def test_good_input(self):
        for seed in range(5):
            for name, (arguments, changed) in good(np.random.default_rng(seed)).items():
                before = {k: a.tobytes() for k, a in arguments.items() if isinstance(a, np.ndarray)}
                call(name, dict(arguments))
                for k, was in before.items():
                    self.assertTrue(k in changed or arguments[k].tobytes() == was, (name, k))

    def test_spoiled_input(self):
        ended = raised = 0
        for seed in range(ROUNDS):
            rng = np.random.default_rng(seed)
            for name, (arguments, changed) in good(rng).items():
                spoil(rng, arguments)
                arrays = {k: a for k, a in arguments.items() if isinstance(a, np.ndarray)}
                before = {k: a.tobytes() for k, a in arrays.items()}
                try:
                    call(name, dict(arguments))
                    ended += 1
                    kept = set(arrays) - changed
                except (TypeError, ValueError):
                    raised += 1
                    kept = set(arrays)
                for k in kept:
                    self.assertEqual(arrays[k].tobytes(), before[k], (seed, name, k))
        self.assertGreater(ended, 300)
        self.assertGreater(raised, 1000)


if __name__ == "__main__":
    unittest.main()
