"""What the tests share."""
import itertools
import os
import shutil

import numpy as np

import gullyfork as gf

HERE = os.path.dirname(os.path.abspath(__file__))
ROOT = os.path.dirname(os.path.dirname(os.path.dirname(HERE)))
SAMPLE = os.path.join(ROOT, "samples", "mgo-2x2x2")

# three atoms, one in the primitive cell, shifts in a circle
CIRCLE = ([0], [0, 0, 0], [0, 2, 1], [[0, 1, 2], [1, 2, 0], [2, 0, 1]])


def random(*shape, seed=0):
    return np.random.default_rng(seed).standard_normal(shape)


def grid_tables(grid, n_patom, seed=0):
    """Shift tables of a grid of shifts, atoms in any numbering."""
    rng = np.random.default_rng(seed)
    shifts = list(itertools.product(*(range(g) for g in grid)))
    atoms = [(p, s) for p in range(n_patom) for s in shifts]
    atoms = [atoms[k] for k in rng.permutation(len(atoms))]
    number = {a: i for i, a in enumerate(atoms)}
    perms = np.array([[number[p, tuple((x + y) % g for x, y, g in zip(s, t, grid))] for p, s in atoms] for t in shifts])
    p2s = np.array([number[p, shifts[rng.integers(len(shifts))]] for p in range(n_patom)])
    s2pp = np.array([p for p, _ in atoms])
    nsym = np.array([np.flatnonzero(perms[:, a] == p2s[s2pp[a]])[0] for a in range(len(atoms))])
    return gf.Tables(p2s, s2pp, nsym, perms)


def read_out(fc, t):
    """A compact set read out to all atoms, from the definition: block (i, j, ..) is that of s2pp[i] and the images of j, .. ."""
    legs = fc.ndim // 2 - 1
    rows = t.perms[t.nsym_list]
    return np.array([fc[t.s2pp[i]][np.ix_(*[rows[i]] * legs)] for i in range(t.n_satom)])


def drift_off(fc, t, leg):
    """A set less the mean over a leg's atom, from the definition: the sums from 0.0, the atom rising, times 1 / n, of the read-out, where the
    first of the other atoms stands for the primitive cell's. t: None for a full set."""
    full = fc if t is None else read_out(fc, t)
    p2s = np.arange(len(fc)) if t is None else t.p2s
    lines = np.moveaxis(full, leg, 0)[:, p2s]
    sums = np.zeros(lines.shape[1:])
    for line in lines:
        sums = sums + line
    means = sums * (1.0 / len(full))
    with np.errstate(invalid="ignore", over="ignore"):
        if leg > 0:
            return fc - np.expand_dims(means, leg)
        return fc - (means if t is None else read_out(means, t))


def without_drift(fc, t, level, mean):
    """The symmetrizer of third or fourth order with the drift off, step by step; mean, over the orders of the legs, changes a set in place."""
    fc = fc.copy()
    for _ in range(max(level, 1)):
        for leg in range(fc.ndim // 2 if level else 0):
            fc = drift_off(fc, t, leg)
        mean(fc)
    return fc


def phono3py_steps(fc, t):
    """What phono3py does in place of one level: the first two pairs are exchanged by its transpose, which leaves blocks behind that a half shift
    exchanges, to take the mean over the first atom off as that over the second."""
    fc = fc.copy()
    gf.transpose_compact_fc3(fc, t, 0)
    fc -= fc.mean(axis=1, keepdims=True)
    gf.transpose_compact_fc3(fc, t, 0)
    fc -= fc.mean(axis=1, keepdims=True)
    fc -= fc.mean(axis=2, keepdims=True)
    gf.set_permutation_symmetry_compact_fc3(fc, t)
    return fc


def same_bits(a, b):
    return a.shape == b.shape and a.tobytes() == b.tobytes()


# ---- crystals as phonopy and phono3py leave them in a folder

def phonopy_files(folder, name="NaCl-222"):
    """POSCAR, FORCE_SETS, phonopy.yaml and FORCE_CONSTANTS (compact, symmetrized), as the command leaves them; what phonopy holds."""
    from phonopy import Phonopy
    from phonopy.file_IO import parse_FORCE_SETS, write_FORCE_CONSTANTS
    from phonopy.interface.vasp import read_vasp

    data = os.path.join(HERE, "data", name)
    for one in ("POSCAR", "FORCE_SETS"):
        shutil.copy(os.path.join(data, one), folder)
    ph = Phonopy(read_vasp(os.path.join(data, "POSCAR")), np.diag([2, 2, 2]), primitive_matrix="auto")
    ph.save(os.path.join(folder, "phonopy.yaml"))
    ph.dataset = parse_FORCE_SETS(filename=os.path.join(data, "FORCE_SETS"))
    ph.produce_force_constants(calculate_full_force_constants=False)
    ph.symmetrize_force_constants(show_drift=False)
    write_FORCE_CONSTANTS(ph.force_constants, os.path.join(folder, "FORCE_CONSTANTS"), p2s_map=ph.primitive.p2s_map)
    return ph


def phono3py_files(folder):
    """Silicon: phono3py.yaml, fc3.hdf5 (dim 1 1 1, compact) and fc2.hdf5 (dim-fc2 2 2 2, compact) by phono3py's layout. The numbers of third order
    are drawn at random, made to obey the crystal, and spoiled a little."""
    import h5py

    ph = phonopy_files(folder, "Si-222")
    with open(os.path.join(folder, "phonopy.yaml"), encoding="utf-8") as f:
        text = f.read().replace("phonopy:", "phono3py:")
    first, rest = text.split("supercell_matrix:\n")
    matrix, rest = rest.split("\n\n", 1)
    small = matrix.replace("2", "1")
    with open(os.path.join(folder, "phono3py.yaml"), "w", encoding="utf-8") as f:
        f.write(f"{first}supercell_matrix:\n{small}\n\nphonon_supercell_matrix:\n{matrix}\n\n{rest}")
    unit = ph.unitcell
    t, found = gf.Tables.from_cell(unit, 1, ph.primitive_matrix), gf.crystal.operations(unit)
    drawn = random(8, 8, 8, 3, 3, 3)
    mean = np.zeros_like(drawn)
    for turn, sent in zip(found.rotations, found.maps):
        for shift in t.perms:
            to = shift[sent]
            mean[np.ix_(to, to, to)] += np.einsum("ai,bj,ck,xyzijk->xyzabc", turn, turn, turn, drawn)
    fc3 = np.ascontiguousarray(mean[t.p2s]) / (len(found.maps) * t.num_trans) + 1e-5 * random(2, 8, 8, 3, 3, 3, seed=1)
    for name, key, fc, rows in (("fc3.hdf5", "fc3", fc3, t.p2s), ("fc2.hdf5", "force_constants", ph.force_constants, ph.primitive.p2s_map)):
        with h5py.File(os.path.join(folder, name), "w") as f:
            f.create_dataset(key, data=fc, compression="gzip")
            f.create_dataset("p2s_map", data=np.array(rows, "intc"))
            f.create_dataset("version", data=np.string_("2.5.1"))
    return ph
