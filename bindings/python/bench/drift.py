#!/usr/bin/env python3
"""How much drift symmetrizing leaves, as a part of the largest number before: by the library, by the same steps in numpy, and by phono3py's steps.

    target/python/bin/python bindings/python/bench/drift.py [SETS]

Third order, one level, on the samples and on SETS random compact sets (1,000), half of them in cells with half shifts; each in its compact form and
read out to the full one. Then second order, compact: the library's call, which is the Rust's algorithm, by level, and the full call on what the set
reads out to. A cell of the table is the worst of its sets.
"""
import itertools
import os
import sys

import numpy as np

HERE = os.path.dirname(os.path.abspath(__file__))
sys.path.insert(0, os.path.join(HERE, "..", "tests"))

import gullyfork as gf  # noqa: E402
from common import ROOT, grid_tables, phono3py_steps, read_out, without_drift  # noqa: E402

HALF = [((2, 1, 1), 1), ((2, 1, 1), 2), ((4, 1, 1), 1), ((2, 2, 1), 1), ((2, 2, 1), 2), ((2, 3, 1), 1), ((2, 2, 2), 1)]
ODD = [((1, 1, 1), 2), ((3, 1, 1), 1), ((3, 1, 1), 2), ((5, 1, 1), 1), ((7, 1, 1), 1), ((3, 3, 1), 1)]


def mean_of_six(fc, t):
    """In numpy, in place."""
    full = fc if t is None else read_out(fc, t)
    mean = sum(full.transpose(*p, *(3 + k for k in p)) for p in itertools.permutations(range(3))) / 6
    fc[...] = mean if t is None else mean[t.p2s]


def drift(fc, t):
    return (gf.drift_report_fc3(fc) if t is None else gf.drift_report_compact_fc3(fc, t)).value


def measured(fc, t):
    """The drift before, and after one level of each way; and whether the library's is alike."""
    by_library = fc.copy()
    if t is None:
        gf.perm_trans_symmetrize_fc3(by_library)
    else:
        gf.perm_trans_symmetrize_compact_fc3(by_library, t)
    by_numpy = without_drift(fc, t, 1, lambda some: mean_of_six(some, t))
    alike = (gf.audit_fc3(by_library) if t is None else gf.audit_compact_fc3(by_library, t)).alike
    theirs = np.nan if t is None else drift(phono3py_steps(fc, t), t)
    return np.array([drift(fc, t), drift(by_library, t), drift(by_numpy, t), theirs]) / np.abs(fc).max(), alike


def row(what, form, sets):
    found = [measured(fc, t) for fc, t in sets]
    worst = np.max([numbers for numbers, _ in found], axis=0)
    cells = ["" if np.isnan(x) else f"{x:.1e}" for x in worst]
    print(f"| {what} | {form} | {len(found)} | {' | '.join(cells)} | {sum(alike for _, alike in found)} |", flush=True)


def random_sets(cells, count):
    rng = np.random.default_rng(43)
    for k in range(count):
        grid, p = cells[k % len(cells)]
        t = grid_tables(grid, p, seed=k)
        yield rng.standard_normal((p, t.n_satom, t.n_satom, 3, 3, 3)) * 10.0 ** rng.integers(-3, 4), t


def third(count):
    print("| sets of third order | form | sets | before | the library | the same steps in numpy | phono3py's steps | alike |")
    print("|---|---|---|---|---|---|---|---|")
    for name in ("mgo-2x2x2", "si-2x2x2"):
        d = gf.files.read_delivery(os.path.join(ROOT, "samples", name))
        row(name, "compact", [(d.fc3, d.tables)])
        row(name, "full", [(gf.compact_to_full_fc3(d.fc3, d.tables), None)])
    for what, cells in (("random, no half shifts", ODD), ("random, half shifts", HALF)):
        row(what, "compact", random_sets(cells, count // 2))
        row(what, "full", ((gf.compact_to_full_fc3(fc, t), None) for fc, t in random_sets(cells, count // 2)))


def smallest():
    """Two atoms that a shift exchanges, one number."""
    t = gf.Tables([0], [0, 0], [0, 1], [[0, 1], [1, 0]])
    fc = np.zeros((1, 2, 2, 3, 3, 3))
    fc[0, 0, 0, 0, 0, 0] = 1.0
    print("\ntwo atoms that a shift exchanges, 1.0 at atoms 0 0 0, x x x, and 0.0 elsewhere; the largest sum after a level of phono3py's steps:", end=" ")
    for _ in range(4):
        fc = phono3py_steps(fc, t)
        print(f"{drift(fc, t):.3g}", end=", ")
    fc = np.zeros((1, 2, 2, 3, 3, 3))
    fc[0, 0, 0, 0, 0, 0] = 1.0
    gf.perm_trans_symmetrize_compact_fc3(fc, t)
    print(f"..; of the library's {drift(fc, t):.3g}")


def second():
    print("\n| sets of second order, compact | before | level 1 | level 3 | level 10 | read out, level 1, stored rows |\n|---|---|---|---|---|---|")
    for name in ("mgo-2x2x2", "si-2x2x2"):
        d = gf.files.read_delivery(os.path.join(ROOT, "samples", name))
        fc, t = np.ascontiguousarray(d.fc2[d.tables.p2s]), d.tables
        numbers = [gf.drift_report_compact_fc2(fc, t).value]
        for level in (1, 3, 10):
            some = fc.copy()
            gf.perm_trans_symmetrize_compact_fc(some, t, level)
            numbers.append(gf.drift_report_compact_fc2(some, t).value)
        full = gf.compact_to_full_fc2(fc, t)
        gf.perm_trans_symmetrize_fc(full, 1)
        numbers.append(gf.drift_report_compact_fc2(np.ascontiguousarray(full[t.p2s]), t).value)
        print(f"| {name} | {' | '.join(f'{x / np.abs(fc).max():.1e}' for x in numbers)} |")


if __name__ == "__main__":
    third(int(sys.argv[1]) if len(sys.argv) > 1 else 1000)
    smallest()
    second()
