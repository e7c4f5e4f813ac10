"""Third order: sets of shape (n, m, m, 3, 3, 3), phono3py's fc3."""
from __future__ import annotations

from typing import TYPE_CHECKING, NamedTuple, Optional, Tuple

import numpy as np

from . import _arrays
from ._compact import compact, full_set, without_drift
from ._deltas import distribute, rotate
from ._refused import LIMITS
from ._run import memory, room, run
from .fc2 import DriftKind

if TYPE_CHECKING:
    from ._types import ArrayLike, Bytes, Doubles, TablesLike

__all__ = ["LegDrift", "compact_to_full_fc3", "distribute_fc3", "drift_report_fc3", "perm_trans_symmetrize_compact_fc3",
           "perm_trans_symmetrize_fc3", "rotate_delta_fc2s", "set_permutation_symmetry_compact_fc3", "set_permutation_symmetry_fc3",
           "transpose_compact_fc3", "true_transpose_compact_fc3"]


def set_permutation_symmetry_fc3(fc3: Doubles) -> None:
    """Symmetrize a full set in place: the six permutations of any three (atom, direction) pairs get their mean.

    Parameters
    ----------
    fc3 : ndarray of float64, shape (n, n, n, 3, 3, 3)
        The set, changed in place.

    Raises
    ------
    Refused
        1: more than 256 atoms.

    Examples
    --------
    >>> fc3 = np.zeros((1, 1, 1, 3, 3, 3))
    >>> fc3[0, 0, 0, 0, 1, 2] = 6.0
    >>> set_permutation_symmetry_fc3(fc3)
    >>> float(fc3[0, 0, 0, 2, 1, 0])
    1.0
    """
    n = _arrays.full(fc3, "fc3", 3)
    run("set_permutation_symmetry_fc3", 3, changed={"fc3": (fc3, (n, n, n, 3, 3, 3))}, values={"num_atom": n})


def set_permutation_symmetry_compact_fc3(fc3: Doubles, tables: TablesLike, *, work: Optional[Bytes] = None) -> None:
    """Symmetrize a compact set in place.

    Read out to all atoms, the six permutations of any three (atom, direction) pairs then hold the same bits.

    Parameters
    ----------
    fc3 : ndarray of float64, shape (n_patom, n_satom, n_satom, 3, 3, 3)
        The set, changed in place.
    tables : Tables, or p2s, s2pp, nsym_list and perms
    work : ndarray of uint8, shape (n_patom * n_satom**2,), optional
        Memory to work in.

    Raises
    ------
    Refused
        1: a count above 256; 2; 3; 6: the tables break a rule.

    Examples
    --------
    >>> fc3 = np.zeros((1, 1, 1, 3, 3, 3))
    >>> fc3[0, 0, 0, 0, 1, 2] = 6.0
    >>> set_permutation_symmetry_compact_fc3(fc3, ([0], [0], [0], [[0]]))
    >>> float(fc3[0, 0, 0, 2, 1, 0])
    1.0
    """
    compact("set_permutation_symmetry_compact_fc3", fc3, 3, tables, 3, work)


def perm_trans_symmetrize_fc3(fc3: Doubles, level: int = 1, *, drift: Optional[Doubles] = None) -> None:
    """Symmetrize a full set in place: acoustic sum rule and index permutation.

    Of each leg in turn the mean over its atom is taken off every number, and then the six permutations of any three (atom, direction)
    pairs get their mean, `level` times. One level leaves sums of the size of rounding. Level 0 is `set_permutation_symmetry_fc3`.

    Parameters
    ----------
    fc3 : ndarray of float64, shape (n, n, n, 3, 3, 3)
        The set, changed in place.
    level : int
        How often.
    drift : ndarray of float64, shape (n**2 * 27,), optional
        Memory to work in.

    Raises
    ------
    Refused
        1: more than 256 atoms, or a level above 1,000; 2.

    Examples
    --------
    >>> fc3 = np.random.default_rng(1).standard_normal((3, 3, 3, 3, 3, 3))
    >>> perm_trans_symmetrize_fc3(fc3)
    >>> drift_report_fc3(fc3).value < 1e-14
    True
    """
    n, limit = _arrays.full(fc3, "fc3", 3), LIMITS[3]
    sums = memory("drift", drift, "drift", room((n, limit), (n, limit), (27, 27)))
    run("perm_trans_symmetrize_fc3", 3, changed={"fc3": (fc3, (n, n, n, 3, 3, 3))}, **sums, values={"num_atom": n, "level": level})


def perm_trans_symmetrize_compact_fc3(fc3: Doubles, tables: TablesLike, level: int = 1, *, work: Optional[Bytes] = None,
                                      drift: Optional[Doubles] = None) -> None:
    """Symmetrize a compact set in place: acoustic sum rule and index permutation, in place of phono3py's.

    The steps of `perm_trans_symmetrize_fc3`, with the sums over all atoms of the supercell of what the set reads out to. phono3py takes
    the sums over the first atom with transposes that leave blocks behind where a shift is half a supercell, and so leaves drift there.

    Parameters
    ----------
    fc3 : ndarray of float64, shape (n_patom, n_satom, n_satom, 3, 3, 3)
        The set, changed in place.
    tables : Tables, or p2s, s2pp, nsym_list and perms
    level : int
        How often.
    work : ndarray of uint8, shape (n_patom * n_satom**2,), optional
        Memory to work in.
    drift : ndarray of float64, shape (n_patom * n_satom * 27,), optional
        Memory to work in.

    Raises
    ------
    Refused
        1: a count above 256, or a level above 1,000; 2; 3; 6: the tables break a rule.

    Examples
    --------
    >>> tables = [0], [0, 0, 0], [0, 2, 1], [[0, 1, 2], [1, 2, 0], [2, 0, 1]]
    >>> fc3 = np.random.default_rng(1).standard_normal((1, 3, 3, 3, 3, 3))
    >>> perm_trans_symmetrize_compact_fc3(fc3, tables)
    >>> drift_report_fc3(compact_to_full_fc3(fc3, tables)).value < 1e-14
    True
    """
    without_drift("perm_trans_symmetrize_compact_fc3", fc3, 3, tables, level, work, drift)


def transpose_compact_fc3(fc3: Doubles, tables: TablesLike, t_type: int, *, work: Optional[Bytes] = None) -> None:
    """Exchange two of the three (atom, direction) pairs of every number of a compact set, in place, as phonors and phono3py do.

    With types 0 and 1, blocks that a half shift exchanges stay as they are; `true_transpose_compact_fc3` moves those too.

    Parameters
    ----------
    fc3 : ndarray of float64, shape (n_patom, n_satom, n_satom, 3, 3, 3)
        The set, changed in place.
    tables : Tables, or p2s, s2pp, nsym_list and perms
    t_type : int
        0: the first two pairs; 1: the first and the third; 2: the last two; any other changes nothing.
    work : ndarray of uint8, shape (n_patom * n_satom,), optional
        Memory to work in.

    Raises
    ------
    Refused
        1: a count above 256; 2; 3; 6: the tables break a rule.

    Examples
    --------
    >>> fc3 = np.arange(27.0).reshape(1, 1, 1, 3, 3, 3)
    >>> transpose_compact_fc3(fc3, ([0], [0], [0], [[0]]), 2)
    >>> fc3[0, 0, 0, 0, 0].tolist()
    [0.0, 3.0, 6.0]
    """
    compact("transpose_compact_fc3", fc3, 3, tables, 2, work, t_type=t_type)


def true_transpose_compact_fc3(fc3: Doubles, tables: TablesLike, t_type: int, *, work: Optional[Bytes] = None) -> None:
    """Exchange two of the three (atom, direction) pairs of every number of a compact set, in place, half shifts or not.

    Parameters
    ----------
    fc3 : ndarray of float64, shape (n_patom, n_satom, n_satom, 3, 3, 3)
        The set, changed in place.
    tables : Tables, or p2s, s2pp, nsym_list and perms
    t_type : int
        0: the first two pairs; 1: the first and the third; 2: the last two; any other changes nothing.
    work : ndarray of uint8, shape (n_patom * n_satom,), optional
        Memory to work in.

    Raises
    ------
    Refused
        1: a count above 256; 2; 3; 6: the tables break a rule.

    Examples
    --------
    >>> fc3 = np.arange(108.0).reshape(1, 2, 2, 3, 3, 3)
    >>> true_transpose_compact_fc3(fc3, ([0], [0, 0], [0, 1], [[0, 1], [1, 0]]), 0)
    >>> float(fc3[0, 1, 0, 0, 1, 0])
    90.0
    """
    compact("true_transpose_compact_fc3", fc3, 3, tables, 2, work, t_type=t_type)


def distribute_fc3(fc3: Doubles, target: int, source: int, atom_mapping: ArrayLike, rot_cart: ArrayLike) -> None:
    """Fill slab `target` from slab `source`, in place: blocks at the images of their atoms, rotated on each leg.

    Parameters
    ----------
    fc3 : ndarray of float64, shape (num_first, n, n, 3, 3, 3)
        The set, changed in place.
    target, source : int
        Two different first atoms.
    atom_mapping : array_like of int, shape (n,)
        Block (j, k) of the target is block (atom_mapping[j], atom_mapping[k]) of the source.
    rot_cart : array_like of float, shape (3, 3)
        The Cartesian rotation.

    Raises
    ------
    Refused
        1: a count above 256; 2; 3; 4: source or target not below num_first, or equal.

    Examples
    --------
    >>> fc3 = np.zeros((2, 1, 1, 3, 3, 3))
    >>> fc3[0] = 1.0
    >>> distribute_fc3(fc3, 1, 0, [0], np.eye(3))
    >>> bool(fc3[1].all())
    True
    """
    distribute("distribute_fc3", fc3, 3, target, source, atom_mapping, rot_cart)


def rotate_delta_fc2s(delta_fc2s: ArrayLike, inv_u: ArrayLike, site_sym_cart: ArrayLike, rot_map_syms: ArrayLike, *,
                      out: Optional[Doubles] = None, work: Optional[Doubles] = None) -> Doubles:
    """Return the blocks of third order of one displaced atom with all pairs of atoms.

    Parameters
    ----------
    delta_fc2s : array_like of float, shape (num_disp, n, n, 3, 3)
        The changes that the displacements make to a set of second order.
    inv_u : array_like of float, shape (3, num_disp * num_site_sym)
    site_sym_cart : array_like of float, shape (num_site_sym, 3, 3)
    rot_map_syms : array_like of int, shape (num_site_sym, n)
    out : ndarray of float64, shape (n, n, 3, 3, 3), optional
        Memory for the result.
    work : ndarray of float64, shape (num_disp * num_site_sym * 9,), optional
        Memory to work in.

    Returns
    -------
    ndarray of float64, shape (n, n, 3, 3, 3)

    Raises
    ------
    Refused
        1: more than 256 atoms, or another count above 1,024; 2; 3.

    Examples
    --------
    >>> rotate_delta_fc2s(np.ones((1, 1, 1, 3, 3)), [[2.0], [0.0], [0.0]], [np.eye(3)], [[0]])[0, 0, :, 0, 0].tolist()
    [2.0, 0.0, 0.0]
    """
    return rotate("rotate_delta_fc2s", "fc3", "delta_fc2s", 3, delta_fc2s, inv_u, site_sym_cart, rot_map_syms, out, work)


def compact_to_full_fc3(fc3: ArrayLike, tables: TablesLike, *, out: Optional[Doubles] = None) -> Doubles:
    """Return the full set that a compact set stands for: for any atoms and directions of the supercell the number that it has for them.

    If every number is on the grid (multiples of 2^-20 from -2^20 to 2^20), reading out and then symmetrizing gives the
    same bits as symmetrizing and then reading out.

    Parameters
    ----------
    fc3 : array_like of float, shape (n_patom, n_satom, n_satom, 3, 3, 3)
    tables : Tables, or p2s, s2pp, nsym_list and perms
    out : ndarray of float64, shape (n_satom, n_satom, n_satom, 3, 3, 3), optional
        Memory for the result.

    Returns
    -------
    ndarray of float64, shape (n_satom, n_satom, n_satom, 3, 3, 3)

    Raises
    ------
    Refused
        1: a count above 256; 2; 3; 6: the tables break a rule.

    Examples
    --------
    >>> tables = [0], [0, 0], [0, 1], [[0, 1], [1, 0]]
    >>> compact = np.arange(108.0).reshape(1, 2, 2, 3, 3, 3)
    >>> full = compact_to_full_fc3(compact, tables)
    >>> set_permutation_symmetry_fc3(full)
    >>> set_permutation_symmetry_compact_fc3(compact, tables)
    >>> np.array_equal(full, compact_to_full_fc3(compact, tables))
    True
    """
    return full_set("compact_to_full_fc3", fc3, 3, tables, out)


class LegDrift(NamedTuple):
    """A drift report of third order.

    Attributes
    ----------
    kind : DriftKind
    value : float
        The largest absolute value of a sum over a leg.
    leg : int
        The leg that is summed over; the sums over the last one come first.
    atoms, directions : (int, int), (int, int, int)
        The atoms of the two other legs, and the directions, of the first sum that has the value, or of the first that is NaN.
    """

    kind: DriftKind
    value: float
    leg: int
    atoms: Tuple[int, int]
    directions: Tuple[int, int, int]


def drift_report_fc3(fc: ArrayLike) -> LegDrift:
    """Report how far the sums over each leg of a full set are from zero: what phono3py prints as drift.

    Parameters
    ----------
    fc : array_like of float, shape (n, n, n, 3, 3, 3)

    Returns
    -------
    LegDrift

    Raises
    ------
    Refused
        1: more than 256 atoms.

    Examples
    --------
    >>> fc3 = np.zeros((2, 2, 2, 3, 3, 3))
    >>> fc3[1, 0, 0, 0, 0, 0], fc3[1, 0, 1, 0, 0, 0] = 1.0, -1.0
    >>> drift = drift_report_fc3(fc3)
    >>> drift.kind.name, drift.value, drift.leg, drift.atoms, drift.directions
    ('WORST', 1.0, 1, (1, 0), (0, 0, 0))
    """
    numbers = _arrays.numbers(fc, "fc")
    n = _arrays.full(numbers, "fc", 3)
    value, place = np.zeros(1), np.zeros(6, np.uintp)
    answer = run("drift_report_fc3", 3, read={"fc": (numbers, numbers.shape)}, made={"value": value, "place": place}, values={"num_atom": n})
    leg, a, b, i, j, k = place.tolist()
    return LegDrift(DriftKind(answer), float(value[0]), leg, (a, b), (i, j, k))
