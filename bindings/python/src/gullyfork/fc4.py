"""Fourth order: sets of shape (n, m, m, m, 3, 3, 3, 3)."""
from __future__ import annotations

from typing import TYPE_CHECKING, Optional

import numpy as np

from . import _arrays
from ._compact import compact, full_set, without_drift
from ._deltas import distribute, rotate
from ._refused import LIMITS
from ._run import both, memory, room, run

if TYPE_CHECKING:
    from ._types import ArrayLike, Bytes, Doubles, TablesLike

__all__ = ["compact_to_full_fc4", "distribute_fc4", "perm_trans_symmetrize_compact_fc4", "perm_trans_symmetrize_fc4", "rotate_delta_fc3s",
           "set_permutation_symmetry_compact_fc4", "set_permutation_symmetry_fc4", "swap_pairs_compact_fc4", "transpose_compact_fc4",
           "true_transpose_compact_fc4"]


def set_permutation_symmetry_fc4(fc4: Doubles, *, work: Optional[Bytes] = None) -> None:
    """Symmetrize a full set in place: the 24 permutations of any four (atom, direction) pairs get their mean.

    Parameters
    ----------
    fc4 : ndarray of float64, shape (n, n, n, n, 3, 3, 3, 3)
        The set, changed in place.
    work : ndarray of uint8, shape (n**4,), optional
        Memory to work in.

    Raises
    ------
    Refused
        1: more than 64 atoms; 2.

    Examples
    --------
    >>> fc4 = np.zeros((1,) * 4 + (3,) * 4)
    >>> fc4[0, 0, 0, 0, 0, 0, 1, 2] = 12.0
    >>> set_permutation_symmetry_fc4(fc4)
    >>> float(fc4[0, 0, 0, 0, 2, 1, 0, 0])
    1.0
    """
    n = _arrays.full(fc4, "fc4", 4)
    run("set_permutation_symmetry_fc4", 4, changed={"fc4": (fc4, (n,) * 4 + (3,) * 4)},
        **memory("done", work, "work", room((n, LIMITS[4])) ** 4, np.uint8), values={"num_atom": n})


def set_permutation_symmetry_compact_fc4(fc4: Doubles, tables: TablesLike, *, work: Optional[Bytes] = None) -> None:
    """Symmetrize a compact set in place.

    Read out to all atoms, the 24 permutations of any four (atom, direction) pairs then hold the same bits.

    Parameters
    ----------
    fc4 : ndarray of float64, shape (n_patom, n_satom, n_satom, n_satom, 3, 3, 3, 3)
        The set, changed in place.
    tables : Tables, or p2s, s2pp, nsym_list and perms
    work : ndarray of uint8, shape (n_patom * n_satom**3,), optional
        Memory to work in.

    Raises
    ------
    Refused
        1: a count above 64; 2; 3; 6: the tables break a rule.

    Examples
    --------
    >>> fc4 = np.zeros((1,) * 4 + (3,) * 4)
    >>> fc4[0, 0, 0, 0, 0, 0, 1, 2] = 12.0
    >>> set_permutation_symmetry_compact_fc4(fc4, ([0], [0], [0], [[0]]))
    >>> float(fc4[0, 0, 0, 0, 2, 1, 0, 0])
    1.0
    """
    compact("set_permutation_symmetry_compact_fc4", fc4, 4, tables, 4, work)


def perm_trans_symmetrize_fc4(fc4: Doubles, level: int = 1, *, work: Optional[Bytes] = None, drift: Optional[Doubles] = None) -> None:
    """Symmetrize a full set in place: acoustic sum rule and index permutation.

    Of each leg in turn the mean over its atom is taken off every number, and then the 24 permutations of any four (atom, direction)
    pairs get their mean, `level` times. One level leaves sums of the size of rounding. Level 0 is `set_permutation_symmetry_fc4`.

    Parameters
    ----------
    fc4 : ndarray of float64, shape (n, n, n, n, 3, 3, 3, 3)
        The set, changed in place.
    level : int
        How often.
    work : ndarray of uint8, shape (n**4,), optional
        Memory to work in.
    drift : ndarray of float64, shape (n**3 * 81,), optional
        Memory to work in.

    Raises
    ------
    Refused
        1: more than 64 atoms, or a level above 1,000; 2.

    Examples
    --------
    >>> from gullyfork import drift_report_fc4
    >>> fc4 = np.random.default_rng(1).standard_normal((2,) * 4 + (3,) * 4)
    >>> perm_trans_symmetrize_fc4(fc4)
    >>> drift_report_fc4(fc4).value < 1e-14
    True
    """
    n = _arrays.full(fc4, "fc4", 4)
    atoms = room((n, LIMITS[4]))
    slices = both(memory("done", work, "work", atoms**4, np.uint8), memory("drift", drift, "drift", atoms**3 * 81))
    run("perm_trans_symmetrize_fc4", 4, changed={"fc4": (fc4, (n,) * 4 + (3,) * 4)}, **slices, values={"num_atom": n, "level": level})


def perm_trans_symmetrize_compact_fc4(fc4: Doubles, tables: TablesLike, level: int = 1, *, work: Optional[Bytes] = None,
                                      drift: Optional[Doubles] = None) -> None:
    """Symmetrize a compact set in place: acoustic sum rule and index permutation.

    The steps of `perm_trans_symmetrize_fc4`, with the sums over all atoms of the supercell of what the set reads out to.

    Parameters
    ----------
    fc4 : ndarray of float64, shape (n_patom, n_satom, n_satom, n_satom, 3, 3, 3, 3)
        The set, changed in place.
    tables : Tables, or p2s, s2pp, nsym_list and perms
    level : int
        How often.
    work : ndarray of uint8, shape (n_patom * n_satom**3,), optional
        Memory to work in.
    drift : ndarray of float64, shape (n_patom * n_satom**2 * 81,), optional
        Memory to work in.

    Raises
    ------
    Refused
        1: a count above 64, or a level above 1,000; 2; 3; 6: the tables break a rule.

    Examples
    --------
    >>> from gullyfork import drift_report_compact_fc4
    >>> tables = [0], [0, 0, 0], [0, 2, 1], [[0, 1, 2], [1, 2, 0], [2, 0, 1]]
    >>> fc4 = np.random.default_rng(1).standard_normal((1, 3, 3, 3, 3, 3, 3, 3))
    >>> perm_trans_symmetrize_compact_fc4(fc4, tables)
    >>> drift_report_compact_fc4(fc4, tables).value < 1e-14
    True
    """
    without_drift("perm_trans_symmetrize_compact_fc4", fc4, 4, tables, level, work, drift)


def transpose_compact_fc4(fc4: Doubles, tables: TablesLike, t_type: int, *, work: Optional[Bytes] = None) -> None:
    """Exchange the first two of the four (atom, direction) pairs of every number of a compact set, in place.

    Blocks that a half shift exchanges stay as they are; `true_transpose_compact_fc4` moves those too.

    Parameters
    ----------
    fc4 : ndarray of float64, shape (n_patom, n_satom, n_satom, n_satom, 3, 3, 3, 3)
        The set, changed in place.
    tables : Tables, or p2s, s2pp, nsym_list and perms
    t_type : int
        0: the first two pairs; any other changes nothing.
    work : ndarray of uint8, shape (n_patom * n_satom,), optional
        Memory to work in.

    Raises
    ------
    Refused
        1: a count above 64; 2; 3; 6: the tables break a rule.

    Examples
    --------
    >>> fc4 = np.arange(81.0).reshape((1,) * 4 + (3,) * 4)
    >>> transpose_compact_fc4(fc4, ([0], [0], [0], [[0]]), 0)
    >>> fc4[0, 0, 0, 0, 0, :, 0, 0].tolist()
    [0.0, 27.0, 54.0]
    """
    compact("transpose_compact_fc4", fc4, 4, tables, 2, work, t_type=t_type)


def true_transpose_compact_fc4(fc4: Doubles, tables: TablesLike, t_type: int, *, work: Optional[Bytes] = None) -> None:
    """Exchange the first two of the four (atom, direction) pairs of every number of a compact set, in place, half shifts or not.

    Parameters
    ----------
    fc4 : ndarray of float64, shape (n_patom, n_satom, n_satom, n_satom, 3, 3, 3, 3)
        The set, changed in place.
    tables : Tables, or p2s, s2pp, nsym_list and perms
    t_type : int
        0: the first two pairs; any other changes nothing.
    work : ndarray of uint8, shape (n_patom * n_satom,), optional
        Memory to work in.

    Raises
    ------
    Refused
        1: a count above 64; 2; 3; 6: the tables break a rule.

    Examples
    --------
    >>> fc4 = np.arange(81.0).reshape((1,) * 4 + (3,) * 4)
    >>> true_transpose_compact_fc4(fc4, ([0], [0], [0], [[0]]), 0)
    >>> fc4[0, 0, 0, 0, 0, :, 0, 0].tolist()
    [0.0, 27.0, 54.0]
    """
    compact("true_transpose_compact_fc4", fc4, 4, tables, 2, work, t_type=t_type)


def swap_pairs_compact_fc4(fc4: Doubles, tables: TablesLike, leg_a: int, leg_b: int, *, work: Optional[Bytes] = None) -> None:
    """Exchange any two of the four (atom, direction) pairs of every number of a compact set, in place, half shifts or not.

    Parameters
    ----------
    fc4 : ndarray of float64, shape (n_patom, n_satom, n_satom, n_satom, 3, 3, 3, 3)
        The set, changed in place.
    tables : Tables, or p2s, s2pp, nsym_list and perms
    leg_a, leg_b : int
        The legs 0 to 3, in either order; with equal legs nothing moves.
    work : ndarray of uint8, shape (n_patom * n_satom,), optional
        Memory to work in.

    Raises
    ------
    Refused
        1: a count above 64; 2; 3: a leg above 3, or an entry of a table; 6: the tables break a rule.

    Examples
    --------
    >>> fc4 = np.arange(81.0).reshape((1,) * 4 + (3,) * 4)
    >>> swap_pairs_compact_fc4(fc4, ([0], [0], [0], [[0]]), 1, 3)
    >>> fc4[0, 0, 0, 0, 0, :, 0, 0].tolist()
    [0.0, 1.0, 2.0]
    """
    compact("swap_pairs_compact_fc4", fc4, 4, tables, 2, work, leg_a=leg_a, leg_b=leg_b)


def distribute_fc4(fc4: Doubles, target: int, source: int, atom_mapping: ArrayLike, rot_cart: ArrayLike) -> None:
    """Fill slab `target` from slab `source`, in place, as `distribute_fc3` does one order below.

    Parameters
    ----------
    fc4 : ndarray of float64, shape (num_first, n, n, n, 3, 3, 3, 3)
        The set, changed in place.
    target, source : int
        Two different first atoms.
    atom_mapping : array_like of int, shape (n,)
    rot_cart : array_like of float, shape (3, 3)
        The Cartesian rotation.

    Raises
    ------
    Refused
        1: a count above 64; 2; 3; 4: source or target not below num_first, or equal.

    Examples
    --------
    >>> fc4 = np.zeros((2, 1, 1, 1, 3, 3, 3, 3))
    >>> fc4[0] = 1.0
    >>> distribute_fc4(fc4, 1, 0, [0], np.eye(3))
    >>> bool(fc4[1].all())
    True
    """
    distribute("distribute_fc4", fc4, 4, target, source, atom_mapping, rot_cart)


def rotate_delta_fc3s(delta_fc3s: ArrayLike, inv_u: ArrayLike, site_sym_cart: ArrayLike, rot_map_syms: ArrayLike, *,
                      out: Optional[Doubles] = None, work: Optional[Doubles] = None) -> Doubles:
    """Return the blocks of fourth order of one displaced atom with all triples of atoms.

    Parameters
    ----------
    delta_fc3s : array_like of float, shape (num_disp, n, n, n, 3, 3, 3)
        The changes that the displacements make to a set of third order.
    inv_u : array_like of float, shape (3, num_disp * num_site_sym)
    site_sym_cart : array_like of float, shape (num_site_sym, 3, 3)
    rot_map_syms : array_like of int, shape (num_site_sym, n)
    out : ndarray of float64, shape (n, n, n, 3, 3, 3, 3), optional
        Memory for the result.
    work : ndarray of float64, shape (num_disp * num_site_sym * 27,), optional
        Memory to work in.

    Returns
    -------
    ndarray of float64, shape (n, n, n, 3, 3, 3, 3)

    Raises
    ------
    Refused
        1: more than 64 atoms, or another count above 1,024; 2; 3.

    Examples
    --------
    >>> rotate_delta_fc3s(np.ones((1, 1, 1, 1, 3, 3, 3)), [[2.0], [0.0], [0.0]], [np.eye(3)], [[0]])[0, 0, 0, :, 0, 0, 0].tolist()
    [2.0, 0.0, 0.0]
    """
    return rotate("rotate_delta_fc3s", "fc4", "delta_fc3s", 4, delta_fc3s, inv_u, site_sym_cart, rot_map_syms, out, work)


def compact_to_full_fc4(fc4: ArrayLike, tables: TablesLike, *, out: Optional[Doubles] = None) -> Doubles:
    """Return the full set that a compact set stands for: for any atoms and directions of the supercell the number that it has for them.

    If every number is on the grid (multiples of 2^-20 from -2^20 to 2^20), reading out and then symmetrizing gives the
    same bits as symmetrizing and then reading out.

    Parameters
    ----------
    fc4 : array_like of float, shape (n_patom, n_satom, n_satom, n_satom, 3, 3, 3, 3)
    tables : Tables, or p2s, s2pp, nsym_list and perms
    out : ndarray of float64, shape (n_satom, n_satom, n_satom, n_satom, 3, 3, 3, 3), optional
        Memory for the result.

    Returns
    -------
    ndarray of float64, shape (n_satom, n_satom, n_satom, n_satom, 3, 3, 3, 3)

    Raises
    ------
    Refused
        1: a count above 64; 2; 3; 6: the tables break a rule.

    Examples
    --------
    >>> tables = [0], [0, 0], [0, 1], [[0, 1], [1, 0]]
    >>> compact = np.arange(648.0).reshape(1, 2, 2, 2, 3, 3, 3, 3)
    >>> full = compact_to_full_fc4(compact, tables)
    >>> set_permutation_symmetry_fc4(full)
    >>> set_permutation_symmetry_compact_fc4(compact, tables)
    >>> np.array_equal(full, compact_to_full_fc4(compact, tables))
    True
    """
    return full_set("compact_to_full_fc4", fc4, 4, tables, out)
