#!/usr/bin/env python3
"""Makes the sample delivery: force constants of MgO in a 2 x 2 x 2 cell, as a fit would give them.

The crystal: rock salt, a = 4.212 Angstrom, primitive cell of one Mg and one O, eight of them: 16 atoms.
The model: a rigid-ion pair potential, A exp(-r / rho) - C / r^6 and the Coulomb term of full charges damped by
erfc(r / 2.5), all cut off at 7 Angstrom. Second and third derivatives are summed over all images.
The noise: each number is off by up to a thousandth of itself and 1e-4 (eV/Angstrom^2 and eV/Angstrom^3), as from a
fit that knows nothing of symmetry. The symmetrizers are there to take this out.

Writes: cell.txt (lattice, positions), tables.txt (shift tables), fc2.f64 (full set, 16 x 16 x 9 numbers),
fc3.f64 (compact set, 2 x 16 x 16 x 27 numbers); numbers of 8 bytes, the lowest byte first.
"""
import itertools
import math
import os
import struct

A0 = 4.212
CUT = 7.0
ALPHA = 1 / 2.5
COULOMB = 14.399645  # e^2 / (4 pi eps0) in eV Angstrom
CHARGE = (2.0, -2.0)  # Mg, O
BUCKINGHAM = {  # eV, Angstrom, eV Angstrom^6
    (0, 0): (0.0, 1.0, 0.0),
    (0, 1): (1428.5, 0.2945, 0.0),
    (1, 1): (22764.3, 0.149, 27.88),
}
HERE = os.path.dirname(os.path.abspath(__file__))
VECTORS = [(0.0, A0 / 2, A0 / 2), (A0 / 2, 0.0, A0 / 2), (A0 / 2, A0 / 2, 0.0)]
SHIFTS = list(itertools.product(range(2), repeat=3))
BASIS = [(0.0, 0.0, 0.0), (0.5, 0.5, 0.5)]  # in primitive vectors


def cartesian(p):
    return tuple(sum(p[i] * VECTORS[i][x] for i in range(3)) for x in range(3))


def fractional(kind, shift):
    """Position in the supercell's vectors, which are twice the primitive ones."""
    return tuple((BASIS[kind][i] + shift[i]) / 2 for i in range(3))


# atoms: the eight Mg first, then the eight O; the shift is the place in the cell
ATOMS = [(kind, s) for kind in range(2) for s in SHIFTS]


def radial(kinds, r):
    """The first three derivatives of the pair potential at r."""
    a, rho, c = BUCKINGHAM[tuple(sorted(kinds))]
    e = a * math.exp(-r / rho)
    d1 = -e / rho + 6 * c / r**7
    d2 = e / rho**2 - 42 * c / r**8
    d3 = -e / rho**3 + 336 * c / r**9
    q = COULOMB * CHARGE[kinds[0]] * CHARGE[kinds[1]]
    f = math.erfc(ALPHA * r)
    g = 2 * ALPHA / math.sqrt(math.pi) * math.exp(-(ALPHA * r) ** 2)
    d1 += q * (-f / r**2 - g / r)
    d2 += q * (2 * f / r**3 + 2 * g / r**2 + 2 * ALPHA**2 * g)
    d3 += q * (-6 * f / r**4 - 6 * g / r**3 - 4 * ALPHA**2 * g / r - 4 * ALPHA**4 * r * g)
    return d1, d2, d3


def second(kinds, d):
    r = math.sqrt(sum(x * x for x in d))
    d1, d2, _ = radial(kinds, r)
    n = [x / r for x in d]
    delta = lambda i, j: 1.0 if i == j else 0.0
    return [[(d2 - d1 / r) * n[i] * n[j] + d1 / r * delta(i, j) for j in range(3)] for i in range(3)]


def third(kinds, d):
    r = math.sqrt(sum(x * x for x in d))
    d1, d2, d3 = radial(kinds, r)
    n = [x / r for x in d]
    delta = lambda i, j: 1.0 if i == j else 0.0
    u = d2 / r - d1 / r**2
    return [
        [
            [
                (d3 - 3 * u) * n[i] * n[j] * n[k] + u * (delta(i, j) * n[k] + delta(j, k) * n[i] + delta(i, k) * n[j])
                for k in range(3)
            ]
            for j in range(3)
        ]
        for i in range(3)
    ]


def images(i, j):
    """The vectors from atom i to the images of atom j within the cutoff, atom i itself not among them."""
    (ki, si), (kj, sj) = ATOMS[i], ATOMS[j]
    for t in itertools.product(range(-2, 3), repeat=3):
        p = tuple(BASIS[kj][x] - BASIS[ki][x] + sj[x] - si[x] + 2 * t[x] for x in range(3))
        d = cartesian(p)
        r2 = sum(x * x for x in d)
        if 1e-9 < r2 < CUT * CUT:
            yield d


def derivatives():
    n = len(ATOMS)
    fc2 = [0.0] * (n * n * 9)
    fc3 = [0.0] * (n * n * n * 27)
    for i in range(n):
        for j in range(n):
            if i == j:
                continue
            kinds = (ATOMS[i][0], ATOMS[j][0])
            for d in images(i, j):
                t2, t3 = second(kinds, d), third(kinds, d)
                sign = {i: -1.0, j: 1.0}
                for u, v in itertools.product((i, j), repeat=2):
                    for x, y in itertools.product(range(3), repeat=2):
                        fc2[(u * n + v) * 9 + x * 3 + y] += 0.5 * sign[u] * sign[v] * t2[x][y]
                for u, v, w in itertools.product((i, j), repeat=3):
                    s = 0.5 * sign[u] * sign[v] * sign[w]
                    for x, y, z in itertools.product(range(3), repeat=3):
                        fc3[((u * n + v) * n + w) * 27 + x * 9 + y * 3 + z] += s * t3[x][y][z]
    return fc2, fc3


def noisy(numbers, seed):
    out = []
    for x in numbers:
        seed = (seed * 6364136223846793005 + 1442695040888963407) % 2**64
        u = (seed >> 11) / 2.0**52 - 1.0
        seed = (seed * 6364136223846793005 + 1442695040888963407) % 2**64
        v = (seed >> 11) / 2.0**52 - 1.0
        out.append(x * (1 + 1e-3 * u) + 1e-4 * v)
    return out


def tables():
    n = len(ATOMS)
    number = {a: i for i, a in enumerate(ATOMS)}
    perms = [
        [number[(kind, tuple((s[x] + t[x]) % 2 for x in range(3)))] for kind, s in ATOMS]
        for t in SHIFTS
    ]
    p2s = [0, 8]
    s2pp = [0] * 8 + [1] * 8
    nsym = [next(t for t in range(8) if perms[t][a] == p2s[s2pp[a]]) for a in range(n)]
    return p2s, s2pp, nsym, perms


def write_text():
    p2s, s2pp, nsym, perms = tables()
    with open(os.path.join(HERE, "tables.txt"), "w") as f:
        f.write("n_satom 16\nn_patom 2\nnum_trans 8\n")
        for name, row in (("p2s", p2s), ("s2pp", s2pp), ("nsym_list", nsym)):
            f.write(name + " " + " ".join(map(str, row)) + "\n")
        for row in perms:
            f.write("perms " + " ".join(map(str, row)) + "\n")
    with open(os.path.join(HERE, "cell.txt"), "w") as f:
        for v in VECTORS:
            f.write("lattice " + " ".join(repr(2 * x) for x in v) + "\n")
        for kind, s in ATOMS:
            f.write(("Mg", "O")[kind] + " " + " ".join(map(repr, fractional(kind, s))) + "\n")
    return p2s


def write_numbers(name, numbers):
    with open(os.path.join(HERE, name), "wb") as f:
        f.write(struct.pack("<%dd" % len(numbers), *numbers))


def main():
    p2s = write_text()
    fc2, fc3 = derivatives()
    slab = 16 * 16 * 27
    compact = [x for p in p2s for x in fc3[p * slab : (p + 1) * slab]]
    write_numbers("fc2.f64", noisy(fc2, 1))
    write_numbers("fc3.f64", noisy(compact, 2))


main()
