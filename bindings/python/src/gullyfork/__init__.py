"""Force constants up to fourth order, the matching of atoms, and delivery rolls: the proved library Gullyfork on numpy.

>>> import numpy as np, gullyfork
>>> fc = np.random.default_rng(1).standard_normal((4, 4, 3, 3))
>>> gullyfork.perm_trans_symmetrize_fc(fc, level=3)
>>> gullyfork.drift_report(fc).value < 1e-14
True

A set is an array of doubles, (n, m, 3, 3) at second order and so on, the last atom and the last direction fastest, as in phonopy. A full
set has all atoms of the supercell in every place; in a compact set the first atom is one of the primitive cell, and calls take its shift
tables after it. Every call takes the set first, then the tables, then values; memory to work in (`work=`) or for a result (`out=`) is
lent by name.

Calls, by what they do (the number is the order):

    symmetrize      perm_trans_symmetrize_fc, perm_trans_symmetrize_compact_fc, set_index_permutation_symmetry_compact_fc (2);
                    perm_trans_symmetrize_fc3, .._fc4, perm_trans_symmetrize_compact_fc3, .._fc4 (without drift);
                    set_permutation_symmetry_fc3, .._fc4, set_permutation_symmetry_compact_fc3, .._fc4
    exchange atoms  true_transpose_compact_fc2, .._fc3, .._fc4, swap_pairs_compact_fc4 (any two of four); as phonopy and phono3py have
                    it, half shifts left out: transpose_compact_fc3, .._fc4
    report          drift_report, drift_report_compact_fc2, drift_report_fc3; audit_fc2, .._fc3, .._fc4, audit_compact_fc2, .._fc3,
                    .._fc4; same_set; row_sums_fc2; set_difference; drift_report_compact_fc3, .._fc4, drift_report_fc4;
                    difference_report_fc2, .._fc3, .._fc4, difference_report_compact_fc2, .._fc3, .._fc4;
                    crystal_report_fc2, .._fc3, .._fc4, crystal_report_compact_fc2, .._fc3, .._fc4
    make            distribute_fc2, .._fc3, .._fc4; rotate_delta_fc2s, rotate_delta_fc3s; compact_to_full_fc2, .._fc3, .._fc4;
                    replace_block_fc2
    match atoms     compute_permutation, find_permutation
    shift tables    Tables, Tables.of (phonopy), Tables.from_cell (ASE, phonopy, arrays), check_shift_tables, explain_shift_tables
    rolls           append_roll, read_roll, is_roll, stands_now, retire_all, read_roll_former, is_roll_former
    numbers         nint, round, sqrt; version, words

Beside the calls:

    gullyfork.files         sets in FORCE_CONSTANTS, hdf5 and .npy files, and delivery folders
    gullyfork.check         what is wrong with a set; python -m gullyfork check FILE --cell phonopy.yaml
    gullyfork.crystal       the cell of a set, its symmetry operations, its frequencies
    gullyfork.picture       a drawing of a set
    gullyfork.certificate   the certificate of a delivery
    gullyfork.roll          delivery rolls
    gullyfork.phonopy       phonopy with the library inside (import it by its name: it needs phonopy)

Every call takes every input: it does its work, or raises and leaves every array as it was. What it changes is changed in place and never
copied: float64 of this machine's byte order, C-contiguous, aligned, writeable, and apart from every other argument; otherwise TypeError or
ValueError. What it only reads is copied where it has to be. `Refused`, a ValueError, has the library's number and what is to blame.

>>> gullyfork.perm_trans_symmetrize_fc(fc, level=1001)
Traceback (most recent call last):
    ...
gullyfork.Refused: perm_trans_symmetrize_fc: refusal 1, a count is above its limit (level: 1001, limit 1000)

The library has no state, and a call gives the interpreter's lock up: threads may work on disjoint arrays at the same time.
"""
from __future__ import annotations

from . import audit, cells, common, fc2, fc3, fc4, report, roll, tables
from ._library import version, words
from ._refused import Refused
from .audit import Audit, audit_compact_fc2, audit_compact_fc3, audit_compact_fc4, audit_fc2, audit_fc3, audit_fc4, same_set
from .cells import Match, Pairing, compute_permutation, find_permutation
from .common import nint, round, sqrt
from .fc2 import (
    Along, Drift, DriftKind, compact_to_full_fc2, distribute_fc2, drift_report, drift_report_compact_fc2, perm_trans_symmetrize_compact_fc,
    perm_trans_symmetrize_fc, replace_block_fc2, row_sums_fc2, set_index_permutation_symmetry_compact_fc, true_transpose_compact_fc2,
)
from .fc3 import (
    LegDrift, compact_to_full_fc3, distribute_fc3, drift_report_fc3, perm_trans_symmetrize_compact_fc3, perm_trans_symmetrize_fc3,
    rotate_delta_fc2s, set_permutation_symmetry_compact_fc3, set_permutation_symmetry_fc3, transpose_compact_fc3,
    true_transpose_compact_fc3,
)
from .fc4 import (
    compact_to_full_fc4, distribute_fc4, perm_trans_symmetrize_compact_fc4, perm_trans_symmetrize_fc4, rotate_delta_fc3s,
    set_permutation_symmetry_compact_fc4, set_permutation_symmetry_fc4, swap_pairs_compact_fc4, transpose_compact_fc4,
    true_transpose_compact_fc4,
)
from .report import (
    CrystalReport, LegSums, Report, crystal_report_compact_fc2, crystal_report_compact_fc3, crystal_report_compact_fc4,
    crystal_report_fc2, crystal_report_fc3, crystal_report_fc4, difference_report_compact_fc2, difference_report_compact_fc3,
    difference_report_compact_fc4, difference_report_fc2, difference_report_fc3, difference_report_fc4, drift_report_compact_fc3,
    drift_report_compact_fc4, drift_report_fc4, set_difference,
)
from .roll import append_roll, is_roll, is_roll_former, read_roll, read_roll_former, retire_all, stands_now
from .tables import Explanation, Tables, check_shift_tables, explain_shift_tables

from . import certificate, check, crystal, files, picture  # isort: skip  # they stand on the calls

__version__ = version()
# a plain list: type checkers read no other, and take a name that it leaves out for private
__all__ = [
    "Along", "Audit", "CrystalReport", "Drift", "DriftKind", "Explanation", "LegDrift", "LegSums", "Match", "Pairing", "Refused", "Report",
    "Tables", "append_roll", "audit", "audit_compact_fc2", "audit_compact_fc3", "audit_compact_fc4", "audit_fc2", "audit_fc3",
    "audit_fc4", "cells", "certificate", "check", "check_shift_tables", "common", "compact_to_full_fc2", "compact_to_full_fc3",
    "compact_to_full_fc4", "compute_permutation", "crystal", "crystal_report_compact_fc2", "crystal_report_compact_fc3",
    "crystal_report_compact_fc4", "crystal_report_fc2", "crystal_report_fc3", "crystal_report_fc4",
    "difference_report_compact_fc2", "difference_report_compact_fc3", "difference_report_compact_fc4", "difference_report_fc2",
    "difference_report_fc3", "difference_report_fc4", "distribute_fc2", "distribute_fc3", "distribute_fc4", "drift_report",
    "drift_report_compact_fc2", "drift_report_compact_fc3", "drift_report_compact_fc4", "drift_report_fc3", "drift_report_fc4",
    "explain_shift_tables", "fc2", "fc3", "fc4", "files", "find_permutation", "is_roll", "is_roll_former", "nint",
    "perm_trans_symmetrize_compact_fc", "perm_trans_symmetrize_compact_fc3", "perm_trans_symmetrize_compact_fc4",
    "perm_trans_symmetrize_fc", "perm_trans_symmetrize_fc3", "perm_trans_symmetrize_fc4", "picture", "read_roll", "read_roll_former",
    "replace_block_fc2", "retire_all", "roll", "rotate_delta_fc2s", "rotate_delta_fc3s", "row_sums_fc2", "same_set", "set_difference",
    "set_index_permutation_symmetry_compact_fc", "set_permutation_symmetry_compact_fc3", "set_permutation_symmetry_compact_fc4",
    "set_permutation_symmetry_fc3", "set_permutation_symmetry_fc4", "sqrt", "stands_now", "swap_pairs_compact_fc4", "tables",
    "transpose_compact_fc3", "transpose_compact_fc4", "true_transpose_compact_fc2", "true_transpose_compact_fc3",
    "true_transpose_compact_fc4", "version", "words",
]
