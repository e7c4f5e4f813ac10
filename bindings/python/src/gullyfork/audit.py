"""Audits: whether numbers that are to be the same are. Sets are only read."""
from __future__ import annotations

from itertools import permutations
from typing import TYPE_CHECKING, NamedTuple, Optional, Tuple

import numpy as np

from . import _arrays
from ._run import run
from .tables import Tables

if TYPE_CHECKING:
    from ._types import ArrayLike, Doubles, NDArray, TablesLike

__all__ = ["Audit", "audit_compact_fc2", "audit_compact_fc3", "audit_compact_fc4", "audit_fc2", "audit_fc3", "audit_fc4", "same_set"]

_ALIKE = 73


class Audit(NamedTuple):
    """What an audit says. Any NaN is the same as any NaN.

    Attributes
    ----------
    alike : bool
        Whether all numbers that are to be the same have the same bits.
    place : tuple of int, or None
        The first place, in the order of the set, at which a permutation of the (atom, direction) pairs reads another number.
    order : tuple of int, or None
        That permutation.
    here, there : float, or None
        The number that stands at the place, and the other one.
    """

    alike: bool
    place: Optional[Tuple[int, ...]] = None
    order: Optional[Tuple[int, ...]] = None
    here: Optional[float] = None
    there: Optional[float] = None

    @property
    def words(self) -> str:
        """The result in words."""
        if self.alike:
            return "alike"
        assert self.place is not None
        read = "" if self.order is None else f", and {self.there!r} is read with the pairs in the order {' '.join(map(str, self.order))}"
        return f"entry {self.place} is {self.here!r}{read or f', and {self.there!r} in the other set'}"


def _told(answer: int, place: NDArray[np.uintp], numbers: Doubles, shape: Tuple[int, ...], legs: int) -> Audit:
    if answer == _ALIKE:
        return Audit(True)
    where = tuple(int(k) for k in np.unravel_index(int(place[0]), shape))
    order = list(permutations(range(legs)))[int(place[1])] if legs else None
    return Audit(False, where, order, float(numbers[0]), float(numbers[1]))


def same_set(a: ArrayLike, b: ArrayLike) -> Audit:
    """Say whether two sets of one shape have the same bits.

    Parameters
    ----------
    a, b : array_like of float
        Of any shape.

    Returns
    -------
    Audit

    Raises
    ------
    ValueError
        The shapes differ.

    Examples
    --------
    >>> same_set([[1.0, 0.0]], [[1.0, -0.0]])
    Audit(alike=False, place=(0, 1), order=None, here=0.0, there=-0.0)
    """
    first, second = _arrays.numbers(a, "a"), _arrays.numbers(b, "b")
    if first.shape != second.shape:
        raise ValueError(f"a has the shape {first.shape}, b {second.shape}")
    place, numbers = np.zeros(2, np.uintp), np.zeros(2)
    answer = run("same_set", 2, read={"a": (first, first.shape), "b": (second, second.shape)}, made={"place": place, "numbers": numbers})
    return _told(answer, place, numbers, first.shape, 0)


def _full(fc: ArrayLike, order: int) -> Audit:
    a = _arrays.numbers(fc, "fc")
    n = _arrays.full(a, "fc", order)
    place, numbers = np.zeros(2, np.uintp), np.zeros(2)
    answer = run(f"audit_fc{order}", order, read={"fc": (a, a.shape)}, made={"place": place, "numbers": numbers}, values={"num_atom": n})
    return _told(answer, place, numbers, a.shape, order)


def _compact(fc: ArrayLike, tables: TablesLike, order: int) -> Audit:
    a = _arrays.numbers(fc, "fc")
    t = tables if type(tables) is Tables else Tables.given(tables)
    _arrays.of_order(a, "fc", order)
    place, numbers = np.zeros(2, np.uintp), np.zeros(2)
    answer = run(f"audit_compact_fc{order}", order, read={"fc": (a, t.shapes[order - 2])}, made={"place": place, "numbers": numbers}, tables=t)
    return _told(answer, place, numbers, a.shape, order)


def audit_fc2(fc: ArrayLike) -> Audit:
    """Say whether both permutations of any two (atom, direction) pairs of a full set hold the same bits.

    Parameters
    ----------
    fc : array_like of float, shape (n, n, 3, 3)

    Returns
    -------
    Audit

    Raises
    ------
    Refused
        1: more than 1,024 atoms.

    Examples
    --------
    >>> fc = np.zeros((2, 2, 3, 3))
    >>> fc[0, 1, 0, 2] = 1.5
    >>> audit_fc2(fc).words
    'entry (0, 1, 0, 2) is 1.5, and 0.0 is read with the pairs in the order 1 0'
    """
    return _full(fc, 2)


def audit_fc3(fc: ArrayLike) -> Audit:
    """Say whether all six permutations of any three (atom, direction) pairs of a full set hold the same bits.

    Parameters
    ----------
    fc : array_like of float, shape (n, n, n, 3, 3, 3)

    Returns
    -------
    Audit

    Raises
    ------
    Refused
        1: more than 256 atoms.

    Examples
    --------
    >>> audit_fc3(np.ones((2, 2, 2, 3, 3, 3))).alike
    True
    """
    return _full(fc, 3)


def audit_fc4(fc: ArrayLike) -> Audit:
    """Say whether all 24 permutations of any four (atom, direction) pairs of a full set hold the same bits.

    Parameters
    ----------
    fc : array_like of float, shape (n, n, n, n, 3, 3, 3, 3)

    Returns
    -------
    Audit

    Raises
    ------
    Refused
        1: more than 64 atoms.

    Examples
    --------
    >>> audit_fc4(np.arange(81.0).reshape(1, 1, 1, 1, 3, 3, 3, 3)).place
    (0, 0, 0, 0, 0, 0, 0, 1)
    """
    return _full(fc, 4)


def audit_compact_fc2(fc: ArrayLike, tables: TablesLike) -> Audit:
    """Say whether both permutations of any two (atom, direction) pairs of a compact set, read out to all atoms, hold the same bits.

    Parameters
    ----------
    fc : array_like of float, shape (n_patom, n_satom, 3, 3)
    tables : Tables, or p2s, s2pp, nsym_list and perms

    Returns
    -------
    Audit

    Raises
    ------
    Refused
        1: a count above 1,024; 2; 3; 6: the tables break a rule.

    Examples
    --------
    >>> audit_compact_fc2(np.eye(3).reshape(1, 1, 3, 3), ([0], [0], [0], [[0]])).alike
    True
    """
    return _compact(fc, tables, 2)


def audit_compact_fc3(fc: ArrayLike, tables: TablesLike) -> Audit:
    """Say whether all six permutations of any three (atom, direction) pairs of a compact set, read out to all atoms, hold the same bits.

    Parameters
    ----------
    fc : array_like of float, shape (n_patom, n_satom, n_satom, 3, 3, 3)
    tables : Tables, or p2s, s2pp, nsym_list and perms

    Returns
    -------
    Audit

    Raises
    ------
    Refused
        1: a count above 256; 2; 3; 6: the tables break a rule.

    Examples
    --------
    >>> fc3 = np.zeros((1, 1, 1, 3, 3, 3))
    >>> fc3[0, 0, 0, 0, 1, 2] = 6.0
    >>> audit_compact_fc3(fc3, ([0], [0], [0], [[0]])).order
    (0, 2, 1)
    """
    return _compact(fc, tables, 3)


def audit_compact_fc4(fc: ArrayLike, tables: TablesLike) -> Audit:
    """Say whether all 24 permutations of any four (atom, direction) pairs of a compact set, read out to all atoms, hold the same bits.

    Parameters
    ----------
    fc : array_like of float, shape (n_patom, n_satom, n_satom, n_satom, 3, 3, 3, 3)
    tables : Tables, or p2s, s2pp, nsym_list and perms

    Returns
    -------
    Audit

    Raises
    ------
    Refused
        1: a count above 64; 2; 3; 6: the tables break a rule.

    Examples
    --------
    >>> audit_compact_fc4(np.zeros((1, 1, 1, 1, 3, 3, 3, 3)), ([0], [0], [0], [[0]])).words
    'alike'
    """
    return _compact(fc, tables, 4)
