#!/usr/bin/env python3
"""What a call costs through Python, beside the library's own time and beside phonopy's function; and threads on disjoint sets.

    target/python/bin/python bindings/python/bench/speed.py [calls|threads]

Microseconds, the least of many runs; best on a machine with nothing else to do.
"""
import itertools
import sys
import threading
import time
import timeit

import numpy as np

import gullyfork as gf
from gullyfork import _arrays, _library

try:
    import phonopy._phonopy as phonoc

    import gullyfork.phonopy as under
except ImportError:
    phonoc = None


def grid(shifts, n_patom):
    """Shift tables of a grid of shifts, atoms in plain order."""
    all_shifts = list(itertools.product(*(range(g) for g in shifts)))
    atoms = [(p, s) for p in range(n_patom) for s in all_shifts]
    number = {a: i for i, a in enumerate(atoms)}
    perms = np.array([[number[p, tuple((x + y) % g for x, y, g in zip(s, t, shifts))] for p, s in atoms] for t in all_shifts])
    p2s = np.array([number[p, all_shifts[0]] for p in range(n_patom)])
    s2pp = np.array([p for p, _ in atoms])
    nsym = np.array([np.flatnonzero(perms[:, a] == p2s[s2pp[a]])[0] for a in range(len(atoms))])
    return gf.Tables(p2s, s2pp, nsym, perms)


def least(call, seconds=0.4):
    once = max(timeit.timeit(call, number=5) / 5, 1e-7)
    number = max(1, int(0.01 / once))
    runs = max(5, int(seconds / (once * number)))
    return min(timeit.repeat(call, number=number, repeat=runs)) / number * 1e6


def bare(name, *arguments):
    """The C name by ctypes, its arguments ready."""
    function = _library.CALLS[name].function
    return lambda: function(*arguments)


def slices(*arrays):
    return [x for a in arrays for x in (_arrays.address(a), a.size)]


def row(what, size, call, c, theirs=None, inside=None, check=None):
    cells = [least(call), least(c), None if check is None else least(check), None if theirs is None else least(theirs),
             None if inside is None else inside(theirs)]
    print(f"| {what} | {size} | " + " | ".join("" if x is None else f"{x:.2f}" for x in cells) + " |", flush=True)


def with_library(call):
    with under.using():
        return least(call)


def calls():
    print("| call | size | the package | the C name by ctypes, arguments ready | of that the check of the tables | phonopy's function | "
          "phonopy with the library inside |")
    print("|---|---|---|---|---|---|---|")
    tables_of = {"2 x 64": grid((4, 4, 2), 2), "2 x 16": grid((2, 2, 2), 2), "4 x 512": grid((8, 4, 4), 4)}
    for size, t in tables_of.items():
        fc, done = np.random.rand(t.n_patom, t.n_satom, 3, 3), np.zeros(t.n_patom * t.n_satom, np.uint8)
        phonopys = [a.astype("intc") for a in (t.perms, t.s2pp, t.p2s, t.nsym_list)]
        arguments = [*slices(fc), *t.slices, *slices(done), *t.counts]
        check = bare("check_shift_tables", *t.slices, *t.counts)
        row("transpose, `Tables`", size, lambda: gf.set_index_permutation_symmetry_compact_fc(fc, t, True),
            bare("set_index_permutation_symmetry_compact_fc", *arguments, True),
            phonoc and (lambda: phonoc.transpose_compact_fc(fc, *phonopys)), phonoc and with_library, check)
        row("transpose, four arrays", size, lambda: gf.set_index_permutation_symmetry_compact_fc(fc, tuple(t), True),
            bare("set_index_permutation_symmetry_compact_fc", *arguments, True))
        row("`perm_trans_symmetrize_compact_fc`, `Tables`", size, lambda: gf.perm_trans_symmetrize_compact_fc(fc, t),
            bare("perm_trans_symmetrize_compact_fc", *arguments, 1),
            phonoc and (lambda: phonoc.perm_trans_symmetrize_compact_fc(fc, *phonopys, 1)), phonoc and with_library, check)
    for n in (2, 64):
        fc = np.random.rand(n, n, 3, 3)
        row("`perm_trans_symmetrize_fc`", n, lambda: gf.perm_trans_symmetrize_fc(fc), bare("perm_trans_symmetrize_fc", *slices(fc), n, 1),
            phonoc and (lambda: phonoc.perm_trans_symmetrize_fc(fc, 1)), phonoc and with_library)
        pos, lattice, found = np.random.rand(n, 3), np.eye(3), np.zeros(n, "intc")
        slots, pair, axes = np.empty(n, np.int64), np.empty(2, np.uintp), np.ones(3, np.uint8)
        row("`compute_permutation`", n, lambda: gf.compute_permutation(lattice, 1e-5, pos, pos),
            bare("compute_permutation", *slices(slots, lattice), 1e-5, *slices(axes, pos, pos, pair), n),
            phonoc and (lambda: phonoc.compute_permutation(found, lattice, pos, pos, 1e-5)), phonoc and with_library)
        value, place = np.zeros(1), np.zeros(4, np.uintp)
        row("`drift_report`", n, lambda: gf.drift_report(fc), bare("drift_report", *slices(fc, value, place), n))


def seconds_of(jobs, threads):
    """The time for all jobs, dealt out to so many threads."""
    def work(mine):
        for job in mine:
            job()

    workers = [threading.Thread(target=work, args=(jobs[k::threads],)) for k in range(threads)]
    start = time.perf_counter()
    for worker in workers:
        worker.start()
    for worker in workers:
        worker.join()
    return time.perf_counter() - start


def threads():
    print("| calls on disjoint sets | one thread, s | two threads, s | faster by |")
    print("|---|---|---|---|")
    t = grid((4, 4, 2), 2)
    small = grid((4, 4, 2), 2)
    made = (
        ("`perm_trans_symmetrize_fc`, 256 atoms, level 5", lambda: np.random.rand(256, 256, 3, 3), lambda fc: gf.perm_trans_symmetrize_fc(fc, 5), 24),
        ("`set_permutation_symmetry_fc3`, 48 atoms", lambda: np.random.rand(48, 48, 48, 3, 3, 3), gf.set_permutation_symmetry_fc3, 24),
        ("`set_permutation_symmetry_compact_fc3`, 2 x 64", lambda: np.random.rand(2, 64, 64, 3, 3, 3),
         lambda fc: gf.set_permutation_symmetry_compact_fc3(fc, t), 120),
        ("transpose of second order, 2 x 64 (a call of microseconds)", lambda: np.random.rand(2, 64, 3, 3),
         lambda fc: [gf.set_index_permutation_symmetry_compact_fc(fc, small, True) for _ in range(2000)], 16),
    )
    for name, make, call, count in made:
        sets = [make() for _ in range(4)]
        jobs = [lambda fc=sets[k % 4]: call(fc) for k in range(count)]  # thread k of two works on sets k, k + 2
        one = min(seconds_of(jobs, 1) for _ in range(4))
        two = min(seconds_of(jobs, 2) for _ in range(4))
        print(f"| {name} | {one:.3f} | {two:.3f} | {one / two:.2f} |", flush=True)


if __name__ == "__main__":
    what = sys.argv[1:] or ["calls", "threads"]
    if "calls" in what:
        calls()
    if "threads" in what:
        threads()
