"""Reports: how far a set is from what it must obey, as the largest of all differences with its place. Sets are only read."""
from __future__ import annotations

from itertools import permutations
from typing import TYPE_CHECKING, Dict, NamedTuple, Optional, Tuple, Union

import numpy as np

from . import _arrays
from ._run import run
from .fc2 import DriftKind
from .tables import Tables

if TYPE_CHECKING:
    from ._types import ArrayLike, Doubles, Given, NDArray, TablesLike

__all__ = [
    "CrystalReport", "LegSums", "Report", "crystal_report_compact_fc2", "crystal_report_compact_fc3",
    "crystal_report_compact_fc4", "crystal_report_fc2", "crystal_report_fc3", "crystal_report_fc4",
    "difference_report_compact_fc2", "difference_report_compact_fc3", "difference_report_compact_fc4", "difference_report_fc2",
    "difference_report_fc3", "difference_report_fc4", "drift_report_compact_fc3", "drift_report_compact_fc4", "drift_report_fc4",
    "set_difference",
]


class Report(NamedTuple):
    """The worst of all differences (0.0 if all are zero, NaN if one is) and the first place that has it, with the permutation of the (atom,
    direction) pairs that reads the other number."""

    kind: DriftKind
    value: float
    place: Optional[Tuple[int, ...]] = None
    order: Optional[Tuple[int, ...]] = None


def _told(answer: int, value: Doubles, place: NDArray[np.uintp], shape: Tuple[int, ...], legs: int) -> Report:
    kind = DriftKind(answer)
    if kind is DriftKind.STILL:
        return Report(kind, 0.0)
    where = tuple(int(k) for k in np.unravel_index(int(place[0]), shape))
    return Report(kind, float(value[0]), where, list(permutations(range(legs)))[int(place[1])] if legs else None)


def set_difference(a: ArrayLike, b: ArrayLike) -> Report:
    """How far two sets of one shape are apart: the numbers of a minus those of b.

    Parameters
    ----------
    a, b : array_like of float
        Of one shape.

    Returns
    -------
    Report

    Raises
    ------
    ValueError
        The shapes differ.

    Examples
    --------
    >>> report = set_difference([[1.0, 0.5]], [[1.0, -0.5]])
    >>> report.kind.name, report.value, report.place
    ('WORST', 1.0, (0, 1))
    """
    first, second = _arrays.numbers(a, "a"), _arrays.numbers(b, "b")
    if first.shape != second.shape:
        raise ValueError(f"a has the shape {first.shape}, b {second.shape}")
    value, place = np.zeros(1), np.zeros(2, np.uintp)
    answer = run("set_difference", 2, read={"a": (first, first.shape), "b": (second, second.shape)}, made={"value": value, "place": place})
    return _told(answer, value, place, first.shape, 0)


def _full(fc: ArrayLike, order: int) -> Report:
    a = _arrays.numbers(fc, "fc")
    n = _arrays.full(a, "fc", order)
    value, place = np.zeros(1), np.zeros(2, np.uintp)
    answer = run(f"difference_report_fc{order}", order, read={"fc": (a, a.shape)}, made={"value": value, "place": place}, values={"num_atom": n})
    return _told(answer, value, place, a.shape, order)


def _compact(fc: ArrayLike, tables: TablesLike, order: int) -> Report:
    a = _arrays.numbers(fc, "fc")
    t = tables if type(tables) is Tables else Tables.given(tables)
    _arrays.of_order(a, "fc", order)
    value, place = np.zeros(1), np.zeros(2, np.uintp)
    answer = run(f"difference_report_compact_fc{order}", order, read={"fc": (a, t.shapes[order - 2])}, made={"value": value, "place": place}, tables=t)
    return _told(answer, value, place, a.shape, order)


def difference_report_fc2(fc: ArrayLike) -> Report:
    """The worst difference between the two orders of any two (atom, direction) pairs of a full set.

    Parameters
    ----------
    fc : array_like of float, (n, n, 3, 3)
        A full set.

    Returns
    -------
    Report

    Examples
    --------
    >>> fc = np.zeros((2, 2, 3, 3))
    >>> fc[0, 1, 0, 2], fc[1, 0, 2, 0] = 1.5, 1.0
    >>> report = difference_report_fc2(fc)
    >>> report.value, report.place, report.order
    (0.5, (0, 1, 0, 2), (1, 0))
    """
    return _full(fc, 2)


def difference_report_fc3(fc: ArrayLike) -> Report:
    """The worst difference between any two orders of any three (atom, direction) pairs of a full set.

    Parameters
    ----------
    fc : array_like of float, (n, n, n, 3, 3, 3)
        A full set.

    Returns
    -------
    Report

    Examples
    --------
    >>> difference_report_fc3(np.ones((2, 2, 2, 3, 3, 3))).kind.name
    'STILL'
    """
    return _full(fc, 3)


def difference_report_fc4(fc: ArrayLike) -> Report:
    """The worst difference between any two orders of any four (atom, direction) pairs of a full set.

    Parameters
    ----------
    fc : array_like of float, (n, n, n, n, 3, 3, 3, 3)
        A full set.

    Returns
    -------
    Report

    Examples
    --------
    >>> difference_report_fc4(np.arange(81.0).reshape(1, 1, 1, 1, 3, 3, 3, 3)).value
    64.0
    """
    return _full(fc, 4)


def difference_report_compact_fc2(fc: ArrayLike, tables: TablesLike) -> Report:
    """The worst difference between the two orders of any two (atom, direction) pairs of a compact set, read out to all atoms.

    Parameters
    ----------
    fc : array_like of float, (m, n, 3, 3)
        A compact set.
    tables : Tables, or the four arrays p2s, s2pp, nsym_list and perms
        The shift tables of the set.

    Returns
    -------
    Report

    Examples
    --------
    >>> difference_report_compact_fc2(np.eye(3).reshape(1, 1, 3, 3), ([0], [0], [0], [[0]])).kind.name
    'STILL'
    """
    return _compact(fc, tables, 2)


def difference_report_compact_fc3(fc: ArrayLike, tables: TablesLike) -> Report:
    """The worst difference between any two orders of any three (atom, direction) pairs of a compact set, read out to all atoms.

    Parameters
    ----------
    fc : array_like of float, (m, n, n, 3, 3, 3)
        A compact set.
    tables : Tables, or the four arrays p2s, s2pp, nsym_list and perms
        The shift tables of the set.

    Returns
    -------
    Report

    Examples
    --------
    >>> fc3 = np.zeros((1, 1, 1, 3, 3, 3))
    >>> fc3[0, 0, 0, 0, 1, 2] = 6.0
    >>> report = difference_report_compact_fc3(fc3, ([0], [0], [0], [[0]]))
    >>> report.value, report.place, report.order
    (6.0, (0, 0, 0, 0, 1, 2), (0, 2, 1))
    """
    return _compact(fc, tables, 3)


def difference_report_compact_fc4(fc: ArrayLike, tables: TablesLike) -> Report:
    """The worst difference between any two orders of any four (atom, direction) pairs of a compact set, read out to all atoms.

    Parameters
    ----------
    fc : array_like of float, (m, n, n, n, 3, 3, 3, 3)
        A compact set.
    tables : Tables, or the four arrays p2s, s2pp, nsym_list and perms
        The shift tables of the set.

    Returns
    -------
    Report

    Examples
    --------
    >>> difference_report_compact_fc4(np.zeros((1, 1, 1, 1, 3, 3, 3, 3)), ([0], [0], [0], [[0]])).kind.name
    'STILL'
    """
    return _compact(fc, tables, 4)


class CrystalReport(NamedTuple):
    """How far a set is from obeying the crystal's own operations: the worst deviation, the operation and the entry that has it first."""

    kind: DriftKind
    value: float
    operation: Optional[int] = None
    place: Optional[Tuple[int, ...]] = None


def _crystal(fc: ArrayLike, r_carts: ArrayLike, operations: ArrayLike, order: int, tables: Optional[TablesLike] = None) -> CrystalReport:
    a, matrices, images = _arrays.numbers(fc, "fc"), _arrays.numbers(r_carts, "r_carts"), _arrays.table(operations, "operations")
    value, place = np.zeros(1), np.zeros(2, np.uintp)
    made: Dict[str, Union[Doubles, NDArray[np.uintp]]] = {"value": value, "place": place}
    count = matrices.shape[0] if matrices.ndim else 0
    if tables is None:
        n = _arrays.full(a, "fc", order)
        read: Dict[str, Given] = {"fc": (a, a.shape), "r_carts": (matrices, (count, 3, 3)), "operations": (images, (count, n), "num_atom")}
        answer = run(f"crystal_report_fc{order}", order, read=read, made=made, values={"num_atom": n, "num_rot": count})
    else:
        t = tables if type(tables) is Tables else Tables.given(tables)
        _arrays.of_order(a, "fc", order)
        read = {"fc": (a, t.shapes[order - 2]), "r_carts": (matrices, (count, 3, 3)), "operations": (images, (count, t.n_satom), "n_satom")}
        answer = run(f"crystal_report_compact_fc{order}", order, read=read, made=made, tables=t, values={"num_rot": count})
    kind = DriftKind(answer)
    if kind is DriftKind.STILL:
        return CrystalReport(kind, 0.0)
    return CrystalReport(kind, float(value[0]), int(place[0]), tuple(int(k) for k in np.unravel_index(int(place[1]), a.shape)))


def crystal_report_fc2(fc: ArrayLike, r_carts: ArrayLike, operations: ArrayLike) -> CrystalReport:
    """The worst deviation of a full set of second order from the crystal's operations.

    Parameters
    ----------
    fc : array_like of float, (n, n, 3, 3)
        A full set.
    r_carts : array_like of float, (num_rot, 3, 3)
        The Cartesian matrix of each operation.
    operations : array_like of int, (num_rot, n)
        Where each operation sends each atom.

    Returns
    -------
    CrystalReport

    Examples
    --------
    >>> crystal_report_fc2(np.eye(3).reshape(1, 1, 3, 3), np.eye(3)[None], [[0]]).kind.name
    'STILL'
    """
    return _crystal(fc, r_carts, operations, 2)


def crystal_report_compact_fc2(fc: ArrayLike, tables: TablesLike, r_carts: ArrayLike, operations: ArrayLike) -> CrystalReport:
    """The worst deviation of a compact set of second order from the crystal's operations, read out to all atoms.

    Parameters
    ----------
    fc : array_like of float, (m, n, 3, 3)
        A compact set.
    tables : Tables, or the four arrays p2s, s2pp, nsym_list and perms
        The shift tables of the set.
    r_carts : array_like of float, (num_rot, 3, 3)
        The Cartesian matrix of each operation.
    operations : array_like of int, (num_rot, n)
        Where each operation sends each atom.

    Returns
    -------
    CrystalReport

    Examples
    --------
    >>> crystal_report_compact_fc2(np.eye(3).reshape(1, 1, 3, 3), ([0], [0], [0], [[0]]), np.eye(3)[None], [[0]]).kind.name
    'STILL'
    """
    return _crystal(fc, r_carts, operations, 2, tables)


def crystal_report_fc3(fc: ArrayLike, r_carts: ArrayLike, operations: ArrayLike) -> CrystalReport:
    """The worst deviation of a full set of third order from the crystal's operations.

    Parameters
    ----------
    fc : array_like of float, (n, n, n, 3, 3, 3)
        A full set.
    r_carts : array_like of float, (num_rot, 3, 3)
        The Cartesian matrix of each operation.
    operations : array_like of int, (num_rot, n)
        Where each operation sends each atom.

    Returns
    -------
    CrystalReport

    Examples
    --------
    >>> crystal_report_fc3(np.zeros((1, 1, 1, 3, 3, 3)), np.eye(3)[None], [[0]]).kind.name
    'STILL'
    """
    return _crystal(fc, r_carts, operations, 3)


def crystal_report_compact_fc3(fc: ArrayLike, tables: TablesLike, r_carts: ArrayLike, operations: ArrayLike) -> CrystalReport:
    """The worst deviation of a compact set of third order from the crystal's operations, read out to all atoms.

    Parameters
    ----------
    fc : array_like of float, (m, n, n, 3, 3, 3)
        A compact set.
    tables : Tables, or the four arrays p2s, s2pp, nsym_list and perms
        The shift tables of the set.
    r_carts : array_like of float, (num_rot, 3, 3)
        The Cartesian matrix of each operation.
    operations : array_like of int, (num_rot, n)
        Where each operation sends each atom.

    Returns
    -------
    CrystalReport

    Examples
    --------
    >>> crystal_report_compact_fc3(np.zeros((1, 1, 1, 3, 3, 3)), ([0], [0], [0], [[0]]), np.eye(3)[None], [[0]]).kind.name
    'STILL'
    """
    return _crystal(fc, r_carts, operations, 3, tables)


def crystal_report_fc4(fc: ArrayLike, r_carts: ArrayLike, operations: ArrayLike) -> CrystalReport:
    """The worst deviation of a full set of fourth order from the crystal's operations.

    Parameters
    ----------
    fc : array_like of float, (n, n, n, n, 3, 3, 3, 3)
        A full set.
    r_carts : array_like of float, (num_rot, 3, 3)
        The Cartesian matrix of each operation.
    operations : array_like of int, (num_rot, n)
        Where each operation sends each atom.

    Returns
    -------
    CrystalReport

    Examples
    --------
    >>> crystal_report_fc4(np.zeros((1, 1, 1, 1, 3, 3, 3, 3)), np.eye(3)[None], [[0]]).kind.name
    'STILL'
    """
    return _crystal(fc, r_carts, operations, 4)


def crystal_report_compact_fc4(fc: ArrayLike, tables: TablesLike, r_carts: ArrayLike, operations: ArrayLike) -> CrystalReport:
    """The worst deviation of a compact set of fourth order from the crystal's operations, read out to all atoms.

    Parameters
    ----------
    fc : array_like of float, (m, n, n, n, 3, 3, 3, 3)
        A compact set.
    tables : Tables, or the four arrays p2s, s2pp, nsym_list and perms
        The shift tables of the set.
    r_carts : array_like of float, (num_rot, 3, 3)
        The Cartesian matrix of each operation.
    operations : array_like of int, (num_rot, n)
        Where each operation sends each atom.

    Returns
    -------
    CrystalReport

    Examples
    --------
    >>> crystal_report_compact_fc4(np.zeros((1, 1, 1, 1, 3, 3, 3, 3)), ([0], [0], [0], [[0]]), np.eye(3)[None], [[0]]).kind.name
    'STILL'
    """
    return _crystal(fc, r_carts, operations, 4, tables)


class LegSums(NamedTuple):
    """How far the sums over each leg of the read-out are from zero: the worst sum, by the leg that is summed over, the atoms of the other legs and
    the directions. The sums over the last leg come first."""

    kind: DriftKind
    value: float
    leg: int
    atoms: Tuple[int, ...]
    directions: Tuple[int, ...]


def _legs(answer: int, value: Doubles, place: NDArray[np.uintp], n: int, order: int) -> LegSums:
    line, position = int(place[0]), int(place[1])
    atoms = tuple(line // max(n, 1) ** k % max(n, 1) for k in reversed(range(order - 1)))
    return LegSums(DriftKind(answer), float(value[0]), order - 1 - line // max(n, 1) ** (order - 1), atoms,
                   tuple(position // 3 ** k % 3 for k in reversed(range(order))))


def _leg_sums(fc: ArrayLike, tables: TablesLike, order: int) -> LegSums:
    a = _arrays.numbers(fc, "fc")
    t = tables if type(tables) is Tables else Tables.given(tables)
    _arrays.of_order(a, "fc", order)
    value, place = np.zeros(1), np.zeros(2, np.uintp)
    answer = run(f"drift_report_compact_fc{order}", order, read={"fc": (a, t.shapes[order - 2])}, made={"value": value, "place": place}, tables=t)
    return _legs(answer, value, place, t.n_satom, order)


def drift_report_compact_fc3(fc: ArrayLike, tables: TablesLike) -> LegSums:
    """How far the sums over each leg of the full set that a compact set reads out to are from zero. The full set is not made.

    Parameters
    ----------
    fc : array_like of float, (m, n, n, 3, 3, 3)
        A compact set.
    tables : Tables, or the four arrays p2s, s2pp, nsym_list and perms
        The shift tables of the set.

    Returns
    -------
    LegSums

    Examples
    --------
    >>> fc3 = np.zeros((1, 1, 1, 3, 3, 3))
    >>> fc3[0, 0, 0, 0, 1, 2] = 6.0
    >>> drift_report_compact_fc3(fc3, ([0], [0], [0], [[0]]))[1:]
    (6.0, 2, (0, 0), (0, 1, 2))
    """
    return _leg_sums(fc, tables, 3)


def drift_report_compact_fc4(fc: ArrayLike, tables: TablesLike) -> LegSums:
    """How far the sums over each leg of the full set that a compact set of fourth order reads out to are from zero.

    Parameters
    ----------
    fc : array_like of float, (m, n, n, n, 3, 3, 3, 3)
        A compact set.
    tables : Tables, or the four arrays p2s, s2pp, nsym_list and perms
        The shift tables of the set.

    Returns
    -------
    LegSums

    Examples
    --------
    >>> drift_report_compact_fc4(np.zeros((1, 1, 1, 1, 3, 3, 3, 3)), ([0], [0], [0], [[0]])).kind.name
    'STILL'
    """
    return _leg_sums(fc, tables, 4)


def drift_report_fc4(fc: ArrayLike) -> LegSums:
    """How far the sums over each leg of a full set of fourth order are from zero.

    Parameters
    ----------
    fc : array_like of float, (n, n, n, n, 3, 3, 3, 3)
        A full set.

    Returns
    -------
    LegSums

    Examples
    --------
    >>> drift_report_fc4(np.ones((2, 2, 2, 2, 3, 3, 3, 3)))[1:]
    (2.0, 3, (0, 0, 0), (0, 0, 0, 0))
    """
    a = _arrays.numbers(fc, "fc")
    n = _arrays.full(a, "fc", 4)
    value, place = np.zeros(1), np.zeros(2, np.uintp)
    answer = run("drift_report_fc4", 4, read={"fc": (a, a.shape)}, made={"value": value, "place": place}, values={"num_atom": n})
    return _legs(answer, value, place, n, 4)
