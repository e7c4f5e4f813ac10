"""Second order: sets of shape (n, m, 3, 3)."""
from __future__ import annotations

import enum
from typing import TYPE_CHECKING, NamedTuple, Optional, Tuple

import numpy as np

from . import _arrays
from ._compact import compact, full_set
from ._run import memory, run
from .tables import Tables

if TYPE_CHECKING:
    from ._types import ArrayLike, Bytes, Doubles, Integers, NDArray, TablesLike

__all__ = ["Along", "Drift", "DriftKind", "compact_to_full_fc2", "distribute_fc2", "drift_report", "drift_report_compact_fc2",
           "perm_trans_symmetrize_compact_fc", "perm_trans_symmetrize_fc", "replace_block_fc2", "row_sums_fc2",
           "set_index_permutation_symmetry_compact_fc", "true_transpose_compact_fc2"]


def perm_trans_symmetrize_fc(fc: Doubles, level: int = 1) -> None:
    """Symmetrize a full set in place: acoustic sum rule and index permutation.

    The drift of columns and of rows is taken away and pairs are averaged, `level` times; at the end the on-site blocks are made from
    the sums of the others.

    Parameters
    ----------
    fc : ndarray of float64, shape (n, n, 3, 3)
        The set, changed in place.
    level : int
        How often.

    Raises
    ------
    Refused
        1: more than 1,024 atoms, or a level above 1,000.

    Examples
    --------
    >>> fc = np.arange(1.0, 10.0).reshape(1, 1, 3, 3)
    >>> perm_trans_symmetrize_fc(fc)
    >>> bool(fc.any())
    False
    """
    n = _arrays.full(fc, "fc", 2)
    run("perm_trans_symmetrize_fc", 2, changed={"fc": (fc, (n, n, 3, 3))}, values={"n_satom": n, "level": level})


def perm_trans_symmetrize_compact_fc(fc: Doubles, tables: TablesLike, level: int = 1, *, work: Optional[Bytes] = None) -> None:
    """Symmetrize a compact set in place, as phonors and phonopy do.

    Some drift may be left (1e-5 of the largest number of the sample in samples/ at level 3); a set that is read out, symmetrized with
    `perm_trans_symmetrize_fc` and cut to its rows keeps none.

    Parameters
    ----------
    fc : ndarray of float64, shape (n_patom, n_satom, 3, 3)
        The set, changed in place.
    tables : Tables, or p2s, s2pp, nsym_list and perms
    level : int
        How often.
    work : ndarray of uint8, shape (n_patom * n_satom,), optional
        Memory to work in.

    Raises
    ------
    Refused
        1: a count above 1,024, or a level above 1,000; 2; 3; 6: the tables break a rule.

    Examples
    --------
    >>> fc = np.ones((1, 2, 3, 3))
    >>> perm_trans_symmetrize_compact_fc(fc, ([0], [0, 0], [0, 1], [[0, 1], [1, 0]]))
    >>> bool(fc.any())
    False
    """
    compact("perm_trans_symmetrize_compact_fc", fc, 2, tables, 2, work, level=level)


def set_index_permutation_symmetry_compact_fc(fc: Doubles, tables: TablesLike, transpose: bool, *, work: Optional[Bytes] = None) -> None:
    """Average the numbers of a compact set with their counterparts, or exchange the two, in place.

    The counterpart of a number has its two (atom, direction) pairs exchanged.

    Parameters
    ----------
    fc : ndarray of float64, shape (n_patom, n_satom, 3, 3)
        The set, changed in place.
    tables : Tables, or p2s, s2pp, nsym_list and perms
    transpose : bool
        True: numbers change places with their counterparts, but for blocks that a half shift exchanges
        (`true_transpose_compact_fc2` moves those too). False: each becomes the mean of itself and its counterpart.
    work : ndarray of uint8, shape (n_patom * n_satom,), optional
        Memory to work in.

    Raises
    ------
    Refused
        1: a count above 1,024; 2; 3; 6: the tables break a rule.

    Examples
    --------
    >>> fc = np.arange(9.0).reshape(1, 1, 3, 3)
    >>> set_index_permutation_symmetry_compact_fc(fc, ([0], [0], [0], [[0]]), False)
    >>> fc[0, 0].tolist()
    [[0.0, 2.0, 4.0], [2.0, 4.0, 6.0], [4.0, 6.0, 8.0]]
    """
    compact("set_index_permutation_symmetry_compact_fc", fc, 2, tables, 2, work, transpose=transpose)


def true_transpose_compact_fc2(fc: Doubles, tables: TablesLike, *, work: Optional[Bytes] = None) -> None:
    """Exchange every number of a compact set with its counterpart, in place, half shifts or not.

    Parameters
    ----------
    fc : ndarray of float64, shape (n_patom, n_satom, 3, 3)
        The set, changed in place.
    tables : Tables, or p2s, s2pp, nsym_list and perms
    work : ndarray of uint8, shape (n_patom * n_satom,), optional
        Memory to work in.

    Raises
    ------
    Refused
        1: a count above 1,024; 2; 3; 6: the tables break a rule.

    Examples
    --------
    >>> fc = np.arange(9.0).reshape(1, 1, 3, 3)
    >>> true_transpose_compact_fc2(fc, ([0], [0], [0], [[0]]))
    >>> fc[0, 0, 0].tolist()
    [0.0, 3.0, 6.0]
    """
    compact("true_transpose_compact_fc2", fc, 2, tables, 2, work)


class DriftKind(enum.Enum):
    """What a report says of its numbers (sums of a drift report, differences of the others): all are zero (STILL), the worst (WORST), or one is NaN (NO_NUMBER)."""

    STILL, WORST, NO_NUMBER = 65, 66, 67


class Along(enum.Enum):
    """Whose sum a drift report names: of a row (ROWS), over the second atom, or of a column (COLUMNS), over the first."""

    ROWS, COLUMNS = 0, 1


class Drift(NamedTuple):
    """A drift report of second order.

    Attributes
    ----------
    kind : DriftKind
    value : float
        The largest absolute value of a sum.
    along, atom, directions : Along, int, (int, int)
        The first sum that has it, or the first that is NaN.
    """

    kind: DriftKind
    value: float
    along: Along
    atom: int
    directions: Tuple[int, int]


def drift_report(fc: ArrayLike) -> Drift:
    """Report how far the rows and the columns of a full set are from adding up to zero (acoustic sum rule).

    Parameters
    ----------
    fc : array_like of float, shape (n, n, 3, 3)

    Returns
    -------
    Drift

    Raises
    ------
    Refused
        1: more than 1,024 atoms.

    Examples
    --------
    >>> fc = np.zeros((2, 2, 3, 3))
    >>> fc[1, 0, 0, 2] = -0.5
    >>> drift = drift_report(fc)
    >>> drift.kind.name, drift.value, drift.along.name, drift.atom, drift.directions
    ('WORST', 0.5, 'ROWS', 1, (0, 2))
    """
    numbers = _arrays.numbers(fc, "fc")
    n = _arrays.full(numbers, "fc", 2)
    value, place = np.zeros(1), np.zeros(4, np.uintp)
    answer = run("drift_report", 2, read={"fc": (numbers, numbers.shape)}, made={"value": value, "place": place}, values={"n_satom": n})
    return _report(answer, value, place)


def _report(answer: int, value: Doubles, place: NDArray[np.uintp]) -> Drift:
    along, atom, i, j = place.tolist()
    return Drift(DriftKind(answer), float(value[0]), Along(along), atom, (i, j))


def drift_report_compact_fc2(fc: ArrayLike, tables: TablesLike) -> Drift:
    """Report how far the rows and the columns of a compact set, read out to all atoms, are from adding up to zero.

    Parameters
    ----------
    fc : array_like of float, shape (n_patom, n_satom, 3, 3)
    tables : Tables, or p2s, s2pp, nsym_list and perms

    Returns
    -------
    Drift

    Raises
    ------
    Refused
        1: a count above 1,024; 2; 3; 6: the tables break a rule.

    Examples
    --------
    >>> drift = drift_report_compact_fc2(np.eye(3).reshape(1, 1, 3, 3), ([0], [0], [0], [[0]]))
    >>> drift.kind.name, drift.value, drift.along.name, drift.atom, drift.directions
    ('WORST', 1.0, 'ROWS', 0, (0, 0))
    """
    numbers = _arrays.numbers(fc, "fc")
    t = tables if type(tables) is Tables else Tables.given(tables)
    _arrays.of_order(numbers, "fc", 2)
    value, place = np.zeros(1), np.zeros(4, np.uintp)
    answer = run("drift_report_compact_fc2", 2, read={"fc": (numbers, t.shapes[0])}, made={"value": value, "place": place}, tables=t)
    return _report(answer, value, place)


def distribute_fc2(fc2: Doubles, atom_list: ArrayLike, fc_indices_of_atom_list: ArrayLike, r_carts: ArrayLike, permutations: ArrayLike,
                   map_atoms: ArrayLike, map_syms: ArrayLike, *, work: Optional[Integers] = None) -> None:
    """Fill the rows of the listed atoms from those of their representatives, in place.

    The rows that are filled should be zero before. Row fc_indices_of_atom_list[i] is that of atom atom_list[i]; atom a is represented by
    map_atoms[a], where rotation map_syms[a] sends it.

    Parameters
    ----------
    fc2 : ndarray of float64, shape (num_first, n, 3, 3)
        The set, changed in place.
    atom_list, fc_indices_of_atom_list : array_like of int, shape (num_list,)
    r_carts : array_like of float, shape (num_rot, 3, 3)
        Cartesian rotations.
    permutations : array_like of int, shape (num_rot, n)
        Where each rotation sends every atom.
    map_atoms, map_syms : array_like of int, shape (n,)
    work : ndarray of int64, shape (n,), optional
        Memory to work in.

    Raises
    ------
    Refused
        1: a count above 1,024; 2; 3; 5: a representative is not listed, or does not represent itself.

    Examples
    --------
    >>> fc2 = np.zeros((2, 2, 3, 3))
    >>> fc2[0, 0] = np.eye(3)
    >>> distribute_fc2(fc2, [0, 1], [0, 1], [np.eye(3), np.eye(3)], [[0, 1], [1, 0]], [0, 0], [0, 1])
    >>> fc2[1, 1, 0].tolist()
    [1.0, 0.0, 0.0]
    """
    num_first, n = _arrays.of_order(fc2, "fc2", 2)
    rotations, listed = _arrays.numbers(r_carts, "r_carts"), (_arrays.table(atom_list, "atom_list").size,)
    if rotations.ndim != 3:
        raise ValueError(f"r_carts has the shape {rotations.shape}, rotations have (num_rot, 3, 3)")
    num_rot = rotations.shape[0]
    run("distribute_fc2", 2, changed={"fc2": (fc2, (num_first, n, 3, 3))}, **memory("atom_list_reverse", work, "work", n, np.int64),
        read={"atom_list": (atom_list, listed, "num_pos"), "fc_indices_of_atom_list": (fc_indices_of_atom_list, listed, "num_first"),
              "r_carts": (r_carts, (num_rot, 3, 3)), "permutations": (permutations, (num_rot, n), "num_pos"),
              "map_atoms": (map_atoms, (n,), "num_pos"), "map_syms": (map_syms, (n,), "num_rot")},
        values={"num_pos": n, "num_first": num_first, "num_rot": num_rot})


def row_sums_fc2(fc: ArrayLike, *, out: Optional[Doubles] = None) -> Doubles:
    """Return the row sums of a full set: for each atom and pair of directions its numbers added up over the second atom.

    Parameters
    ----------
    fc : array_like of float, shape (n, n, 3, 3)
    out : ndarray of float64, shape (n, 3, 3), optional
        Memory for the result.

    Returns
    -------
    ndarray of float64, shape (n, 3, 3)

    Raises
    ------
    Refused
        1: more than 1,024 atoms; 2.

    Examples
    --------
    >>> row_sums_fc2(np.ones((2, 2, 3, 3)))[0, 0].tolist()
    [2.0, 2.0, 2.0]
    """
    n = _arrays.full(_arrays.numbers(fc, "fc"), "fc", 2)
    sums = np.empty((n, 3, 3)) if out is None else out
    run("row_sums_fc2", 2, read={"fc": (fc, (n, n, 3, 3))}, **memory("sums", sums, "out", (n, 3, 3)), values={"n_satom": n})
    return sums


def replace_block_fc2(fc: Doubles, sums: Doubles, block: ArrayLike, i: int, j: int) -> None:
    """Replace block (i, j) of a full set and correct the nine sums of atom i, in place.

    If every number of the set is on the grid (multiples of 2^-20 from -2^20 to 2^20), right sums stay right,
    bit for bit.

    Parameters
    ----------
    fc : ndarray of float64, shape (n, n, 3, 3)
        The set, changed in place.
    sums : ndarray of float64, shape (n, 3, 3)
        As `row_sums_fc2` returns them, changed in place.
    block : array_like of float, shape (3, 3)
    i, j : int
        From 0; a negative number is no atom.

    Raises
    ------
    Refused
        1: more than 1,024 atoms; 2; 3; 10: a number of the old block or of the new one is off the grid.

    Examples
    --------
    >>> fc = np.zeros((2, 2, 3, 3))
    >>> sums = row_sums_fc2(fc)
    >>> replace_block_fc2(fc, sums, np.diag([1.5, 1.5, -0.25]), 1, 0)
    >>> float(sums[1, 2, 2])
    -0.25
    """
    n = _arrays.full(fc, "fc", 2)
    run("replace_block_fc2", 2, changed={"fc": (fc, (n, n, 3, 3)), "sums": (sums, (n, 3, 3))}, read={"block": (block, (3, 3))},
        values={"i": i, "j": j, "n_satom": n})


def compact_to_full_fc2(fc2: ArrayLike, tables: TablesLike, *, out: Optional[Doubles] = None) -> Doubles:
    """Return the full set that a compact set stands for: for any atoms and directions of the supercell the number that it has for them.

    Parameters
    ----------
    fc2 : array_like of float, shape (n_patom, n_satom, 3, 3)
    tables : Tables, or p2s, s2pp, nsym_list and perms
    out : ndarray of float64, shape (n_satom, n_satom, 3, 3), optional
        Memory for the result.

    Returns
    -------
    ndarray of float64, shape (n_satom, n_satom, 3, 3)

    Raises
    ------
    Refused
        1: a count above 1,024; 2; 3; 6: the tables break a rule.

    Examples
    --------
    >>> fc2 = np.arange(18.0).reshape(1, 2, 3, 3)
    >>> full = compact_to_full_fc2(fc2, ([0], [0, 0], [0, 1], [[0, 1], [1, 0]]))
    >>> full.shape, float(full[1, 0, 0, 0]), float(full[1, 1, 0, 0])
    ((2, 2, 3, 3), 9.0, 0.0)
    """
    return full_set("compact_to_full_fc2", fc2, 2, tables, out)
