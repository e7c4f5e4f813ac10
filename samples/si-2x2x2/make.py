#!/usr/bin/env python3
"""Makes the sample delivery of silicon in a 2 x 2 x 2 cell: python3 samples/si-2x2x2/make.py [--fourth] [OUT]

The crystal: diamond, a = 5.431 Angstrom, primitive cell of two atoms, eight of them: 16 atoms.
The model: Stillinger and Weber's potential (Phys. Rev. B 31, 5262 (1985)), whose three-body term holds the angles between neighbours at
109.47 degrees. So three different atoms have third derivatives too, and exchanging two directions of a block changes its numbers.
The force constants: central differences of forces by displacements of 0.01 Angstrom, one for each leg but the last; forces are rounded to
1e-8 eV/Angstrom, as a program prints them. Of third order the largest number is 27.4 eV/Angstrom^3; the steps make numbers wrong by up to
0.0025, and the orders of the same legs differ by up to 0.00015.

Writes to OUT (default: its own folder) cell.txt, tables.txt, fc2.f64 (full set, 16 x 16 x 9 numbers), fc3.f64 (compact set, 2 x 16 x 16 x 27
numbers) and, with --fourth, fc4.f64 (compact set, 2 x 16 x 16 x 16 x 81 numbers, 5.3 megabytes); numbers of 8 bytes, the lowest byte first.
Before, the forces are compared with differences of the energy. Needs numpy.
"""
import itertools
import os
import sys

import numpy as np

A0 = 5.431
EPSILON, SIGMA = 2.1683, 2.0951  # eV, Angstrom
A, B, P = 7.049556277, 0.6022245584, 4
CUT, LAMBDA, GAMMA = 1.80 * SIGMA, 21.0, 1.20
STEP = 0.01  # Angstrom
VECTORS = A0 / 2 * np.array([(1.0, 1.0, 0.0), (0.0, 1.0, 1.0), (1.0, 0.0, 1.0)])  # no symmetric matrix: rows taken for columns show
SHIFTS = list(itertools.product(range(2), repeat=3))
ATOMS = [(kind, s) for kind in range(2) for s in SHIFTS]  # the eight of the first kind, then the eight of the second
P2S = [0, 8]
PLACES = np.array([(np.array(s) + 0.25 * kind) / 2 for kind, s in ATOMS])  # in the supercell's vectors
REST = PLACES @ (2 * VECTORS)


def neighbours():
    """For each atom its four neighbours, and the lattice vectors to their images."""
    images = [np.array(t) @ (2 * VECTORS) for t in itertools.product((-1, 0, 1), repeat=3)]
    found = [[(b, v) for b in range(16) for v in images if 0.1 < np.linalg.norm(REST[b] + v - REST[a]) < CUT] for a in range(16)]
    assert all(len(near) == 4 for near in found)
    return np.array([[b for b, _ in near] for near in found]), np.array([[v for _, v in near] for near in found])


NEAR, IMAGE = neighbours()
BACK = np.array([[(b, list(NEAR[b]).index(a)) for b in range(16) if a in NEAR[b]] for a in range(16)])  # bonds that end at an atom
PAIRS = list(itertools.combinations(range(4), 2))


def bonds(x):
    """Vectors and lengths of the bonds, of many configurations at once: x has an axis for them, then atoms and directions."""
    d = x[:, NEAR] + IMAGE - x[:, :, None]
    return d, np.sqrt((d * d).sum(-1))


def energy(x):
    d, r = bonds(x)
    g = np.exp(GAMMA * SIGMA / (r - CUT))
    two = A * EPSILON * (B * (SIGMA / r) ** P - 1) * np.exp(SIGMA / (r - CUT))
    three = sum((((d[:, :, j] * d[:, :, k]).sum(-1) / (r[:, :, j] * r[:, :, k]) + 1 / 3) ** 2 * g[:, :, j] * g[:, :, k]) for j, k in PAIRS)
    return two.sum((1, 2)) / 2 + LAMBDA * EPSILON * three.sum(1)


def forces(x):
    d, r = bonds(x)
    g, cut = np.exp(GAMMA * SIGMA / (r - CUT)), np.exp(SIGMA / (r - CUT))
    slope = -A * EPSILON * cut * (P * B * (SIGMA / r) ** P / r + (B * (SIGMA / r) ** P - 1) * SIGMA / (r - CUT) ** 2)
    by_bond = (slope / (2 * r))[..., None] * d  # derivatives of the energy by the bonds' vectors
    for j, k in itertools.permutations(range(4), 2):
        rj, rk, dj, dk = r[:, :, j], r[:, :, k], d[:, :, j], d[:, :, k]
        c = (dj * dk).sum(-1) / (rj * rk)
        both = LAMBDA * EPSILON * g[:, :, j] * g[:, :, k] * (c + 1 / 3)
        along = -2 * c / rj**2 - (c + 1 / 3) * GAMMA * SIGMA / (rj - CUT) ** 2 / rj
        by_bond[:, :, j] += both[..., None] * (along[..., None] * dj + (2 / (rj * rk))[..., None] * dk)
    return by_bond.sum(2) - by_bond[:, BACK[..., 0], BACK[..., 1]].sum(2)


def check_forces():
    """The forces are the differences of the energy, away from rest too, and the energy at rest is the published one, -2 epsilon an atom."""
    x = REST + 0.05 * np.sin(np.arange(48.0).reshape(16, 3))
    step = 1e-5 * np.eye(48).reshape(48, 16, 3)
    by_energy = (energy(x - step) - energy(x + step)).reshape(16, 3) / 2e-5
    off = np.abs(forces(x[None])[0] - by_energy).max() / np.abs(by_energy).max()
    an_atom = energy(REST[None])[0] / 16
    assert off < 1e-8 and abs(an_atom + 2 * EPSILON) < 1e-4 and np.abs(forces(REST[None])).max() < 1e-12, (off, an_atom)


def derivatives(first, legs):
    """The derivatives of the energy by `legs` legs, the first of them an atom of `first`; the array has the atoms, then the directions."""
    moves = STEP * np.eye(48).reshape(48, 16, 3)
    out = np.zeros([3 * len(first)] + [48] * (legs - 1))
    for q, a in enumerate(3 * p + x for p in first for x in range(3)):
        for others in itertools.product(range(48), repeat=max(legs - 3, 0)):
            for signs in itertools.product((1, -1), repeat=legs - 1):
                shared = REST + sum(s * moves[m] for s, m in zip(signs, (a, *others)))
                x = shared + signs[-1] * moves if legs > 2 else shared[None]
                f = np.round(forces(x), 8).reshape(-1, 48) / (2 * STEP) ** (legs - 1)
                out[(q, *others)] -= np.prod(signs) * (f if legs > 2 else f[0])
    shape = [n for k in range(legs) for n in (len(first) if k == 0 else 16, 3)]
    return out.reshape(shape).transpose([*range(0, 2 * legs, 2), *range(1, 2 * legs, 2)])


def tables():
    number = {a: i for i, a in enumerate(ATOMS)}
    perms = [[number[(kind, tuple((s[x] + t[x]) % 2 for x in range(3)))] for kind, s in ATOMS] for t in SHIFTS]
    s2pp = [kind for kind, _ in ATOMS]
    return s2pp, [next(t for t in range(8) if perms[t][a] == P2S[s2pp[a]]) for a in range(16)], perms


def write_text(out):
    s2pp, nsym_list, perms = tables()
    with open(os.path.join(out, "tables.txt"), "w") as f:
        f.write("n_satom 16\nn_patom 2\nnum_trans 8\n")
        for name, row in [("p2s", P2S), ("s2pp", s2pp), ("nsym_list", nsym_list), *(("perms", row) for row in perms)]:
            f.write(name + " " + " ".join(map(str, row)) + "\n")
    with open(os.path.join(out, "cell.txt"), "w") as f:
        for v in 2 * VECTORS:
            f.write("lattice " + " ".join(repr(float(x)) for x in v) + "\n")
        for place in PLACES:
            f.write("Si " + " ".join(repr(float(x)) for x in place) + "\n")


def main(fourth, out):
    check_forces()
    write_text(out)
    sets = {"fc2.f64": (range(16), 2), "fc3.f64": (P2S, 3), **({"fc4.f64": (P2S, 4)} if fourth else {})}
    for name, (first, legs) in sets.items():
        derivatives(first, legs).astype("<f8").tofile(os.path.join(out, name))


if __name__ == "__main__":
    words = [w for w in sys.argv[1:] if w != "--fourth"]
    if len(words) > 1:
        sys.exit("usage: make.py [--fourth] [OUT]")
    main("--fourth" in sys.argv, words[0] if words else os.path.dirname(os.path.abspath(__file__)))
