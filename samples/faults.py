#!/usr/bin/env python3
"""Which report finds which fault: prints the table of docs/GUIDE.md, by running the reports on silicon with faults put in.

    target/python/bin/python samples/faults.py

Every fault is put into the third-order set of samples/si-2x2x2 as it comes from the forces; then the set is symmetrized. A number is a part of
the largest number of the set, and stands in bold where it is more than ten times that of the sample without a fault. The operations of the
crystal are spglib's.
"""
import os

import numpy as np

import gullyfork as gf

SAMPLES = os.path.dirname(os.path.abspath(__file__))
HEAD = ("fault", "drift", "difference", "crystal", "change", "audit after", "drift after", "crystal after")
ROUNDING = 1e-12  # what is less is rounding, of which the digits depend on the machine
FOUND = 10.0  # times the number of the sample without a fault


def swapped_leg(fc3):
    """The last two directions exchanged in the one block in which that changes a number the most."""
    out, swapped = fc3.copy(), fc3.swapaxes(4, 5)
    block = np.unravel_index(np.abs(fc3 - swapped).max(axis=(3, 4, 5)).argmax(), fc3.shape[:3])
    out[block] = swapped[block]
    return out


def exchanged_atoms(fc3, tables):
    """Atoms 1 and 2 of the supercell exchanged in every leg of the full set."""
    order = np.arange(tables.n_satom)
    order[[1, 2]] = 2, 1
    return gf.compact_to_full_fc3(fc3, tables)[np.ix_(order, order, order)]


def turned(fc3, matrix):
    """The set with every direction turned by a matrix, the atoms as they are."""
    return np.einsum("ax,by,cz,ijkxyz->ijkabc", matrix, matrix, matrix, fc3)


def about_z(degrees):
    c, s = np.cos(np.radians(degrees)), np.sin(np.radians(degrees))
    return np.array([[c, -s, 0], [s, c, 0], [0, 0, 1]])


def faults(fc3, tables, other):
    """Each fault with the set that has it; a full set has as many first atoms as others."""
    noise = np.random.default_rng(1).normal(0.0, 1e-3 * np.abs(fc3).max(), fc3.shape)
    exchanged = exchanged_atoms(fc3, tables)
    yield "none", fc3
    yield "a swapped leg in one block", swapped_leg(fc3)
    yield "two atoms exchanged everywhere", exchanged[tables.p2s]
    yield "the same in the full set", exchanged
    yield "x and y exchanged everywhere", turned(fc3, np.eye(3)[[1, 0, 2]])
    yield "the set of another crystal (MgO)", other
    yield "the crystal rotated by 30 degrees", turned(fc3, about_z(30))
    yield "noise of a thousandth", fc3 + noise
    yield "all numbers times two", 2.0 * fc3


def reports(fc3, tables, crystal):
    """The columns of a row: the reports on the set, how much symmetrizing changes it, and the reports on the result."""
    before = np.ascontiguousarray(fc3)
    after, largest = before.copy(), np.abs(before).max()
    kind, more = ("fc3", ()) if before.shape[0] == before.shape[1] else ("compact_fc3", (tables,))

    def call(name, fc, *arguments):
        return getattr(gf, f"{name}_{kind}")(fc, *more, *arguments)

    call("set_permutation_symmetry", after)
    return [
        call("drift_report", before).value / largest,
        call("difference_report", before).value / largest,
        call("crystal_report", before, *crystal).value / largest,
        gf.set_difference(before, after).value / largest,
        "alike" if call("audit", after).alike else "**unlike**",
        call("drift_report", after).value / largest,
        call("crystal_report", after, *crystal).value / largest,
    ]


def cell(found, good):
    if isinstance(found, str):
        return found
    words = f"{found:.0e}" if found >= ROUNDING else "0"
    return f"**{words}**" if found > FOUND * max(good, ROUNDING) else words


def table():
    """The lines of the table, in Markdown."""
    silicon, other = (gf.files.read_delivery(os.path.join(SAMPLES, name)) for name in ("si-2x2x2", "mgo-2x2x2"))
    crystal = gf.crystal.operations((silicon.lattice, silicon.positions, silicon.elements))
    names, sets = zip(*faults(silicon.fc3, silicon.tables, other.fc3))
    found = [reports(fc3, silicon.tables, crystal) for fc3 in sets]
    rows = [HEAD, ["---"] * len(HEAD), *([name, *map(cell, row, found[0])] for name, row in zip(names, found))]
    return ["| " + " | ".join(row) + " |" for row in rows]


if __name__ == "__main__":
    print("\n".join(table()))
