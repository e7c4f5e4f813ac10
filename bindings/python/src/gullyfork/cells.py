"""The matching of atoms."""
from __future__ import annotations

from ctypes import addressof
from typing import TYPE_CHECKING, NamedTuple, Optional, Tuple

import numpy as np

from . import _arrays
from ._library import CALLS
from ._run import run

if TYPE_CHECKING:
    from ._types import ArrayLike, Doubles, Integers

__all__ = ["Match", "Pairing", "compute_permutation", "find_permutation"]

_FOUND, _NO_NUMBER, _MOST = 0, 69, 1024
_compute = CALLS["compute_permutation"].function
_ready, _lent, _at = _arrays.ready, _arrays.lent, addressof
_ALL_AXES = np.ones(3, np.uint8)
_all_axes = _arrays.address(_ALL_AXES)


class Match(NamedTuple):
    """What `compute_permutation` found.

    Attributes
    ----------
    found : bool
        Whether every slot is filled.
    slots : ndarray of int64, shape (n,)
        Slot j holds the position that rotated position j comes from, or -1.
    pair : (int, int) or None
        Where a match fails and a distance was NaN: the first pair of position and slot for which it was.
    """

    found: bool
    slots: Integers
    pair: Optional[Tuple[int, int]]

    @property
    def words(self) -> str:
        """The result in words."""
        if self.pair:
            return f"position {self.pair[0]} against slot {self.pair[1]}: the distance is not a number"
        return "every slot is filled" if self.found else f"{int((self.slots < 0).sum())} slots are left free"


class Pairing(NamedTuple):
    """What `find_permutation` found.

    Attributes
    ----------
    found : bool
        Whether a match exists.
    slots : ndarray of int64, shape (n,)
        Slot j holds the position that rotated position j comes from; all -1 where no match exists.
    crowded : ndarray of int64
        Where no match exists: the positions of a group that has fewer near slots than members, which rules every match out.
    """

    found: bool
    slots: Integers
    crowded: Integers

    @property
    def words(self) -> str:
        """The result in words."""
        if self.found:
            return "every slot is filled"
        n = self.crowded.size
        if n == 1:
            return f"position {self.crowded[0]} has no near slot"
        return f"positions {', '.join(map(str, self.crowded))}: these {n} have at most {n - 1} near slot{'s' if n > 2 else ''}"


def at_once(lattice: ArrayLike, symprec: float, pos: ArrayLike, rot_pos: ArrayLike) -> Optional[Tuple[int, Integers]]:
    """The short way of compute_permutation, since phonopy makes thousands of these calls: where every array can be handed on as it is, the
    answer, and the slots with the pair behind them; None otherwise."""
    if type(symprec) is not float or not (_ready(lattice) and _ready(pos) and _ready(rot_pos)):
        return None
    n = len(pos)
    if not 0 < n <= _MOST or lattice.shape != (3, 3) or not pos.shape == rot_pos.shape == (n, 3):
        return None
    slots = np.empty(n + 2, np.int64)
    at = _at(_lent(slots))
    answer: int = _compute(at, n, _at(_lent(lattice)), 9, symprec, _all_axes, 3, _at(_lent(pos)), 3 * n, _at(_lent(rot_pos)), 3 * n,
                           at + 8 * n, 2, n)
    return answer, slots


def compute_permutation(lattice: ArrayLike, symprec: float, pos: ArrayLike, rot_pos: ArrayLike, *, pbc: ArrayLike = True) -> Match:
    """Find which position each rotated position comes from.

    For each position in order, the lowest free slot that is near takes it; a slot once taken is not given up.

    Parameters
    ----------
    lattice : array_like of float, shape (3, 3)
        The basis vectors stand in the COLUMNS, as in phonopy's `cell.T`.
    symprec : float
        Shorter differences than this are near, in the unit of the lattice.
    pos, rot_pos : array_like of float, shape (n, 3)
        Positions and rotated positions, in the basis vectors.
    pbc : bool or three bools
        Along which basis vectors the cell repeats. Along one that does not, a difference is taken whole.

    Returns
    -------
    Match

    Raises
    ------
    Refused
        1: more than 1,024 positions; 2: another number of rotated positions.

    Examples
    --------
    >>> import numpy as np
    >>> match = compute_permutation(np.eye(3), 1e-5, [[0, 0, 0], [0.5, 0, 0]], [[0.5, 0, 0], [1, 0, 0]])
    >>> match.found, match.slots.tolist()
    (True, [1, 0])
    >>> compute_permutation(np.eye(3), 1e-5, [[np.nan, 0, 0]], [[0, 0, 0]]).words
    'position 0 against slot 0: the distance is not a number'
    >>> top, bottom = [[0, 0, 0.9375]], [[0, 0, 0.0625]]
    >>> [compute_permutation(np.eye(3), 0.25, top, bottom, pbc=pbc).found for pbc in (True, [True, True, False])]
    [True, False]
    """
    short = at_once(lattice, symprec, pos, rot_pos) if pbc is True else None
    if short is not None:
        answer, slots = short
        return Match(answer == _FOUND, slots[:-2], (int(slots[-2]), int(slots[-1])) if answer == _NO_NUMBER else None)
    pos = _positions(pos, "pos")
    rot_pos = _positions(rot_pos, "rot_pos")
    n = pos.shape[0]
    slots, pair = np.empty(n, np.int64), np.empty(2, np.uintp)
    answer = run("compute_permutation", 2, read={"lattice": (lattice, (3, 3)), "pos": (pos, (n, 3)), "rot_pos": (rot_pos, (n, 3))},
                 made={"rot_atom": slots, "periodic": _arrays.flags(pbc, "pbc"), "pair": pair}, values={"symprec": symprec, "num_pos": n})
    return Match(answer == _FOUND, slots, (int(pair[0]), int(pair[1])) if answer == _NO_NUMBER else None)


def find_permutation(lattice: ArrayLike, symprec: float, pos: ArrayLike, rot_pos: ArrayLike, *, pbc: ArrayLike = True) -> Pairing:
    """Find a match whenever one exists; otherwise say which positions have too few places to go.

    Where `compute_permutation` finds a match it is that one. A NaN distance counts as far. Where several matches or groups exist any may
    be returned. The search goes up to n calls deep: a thread that calls it should have a megabyte of stack.

    Parameters
    ----------
    lattice, symprec, pos, rot_pos, pbc
        As for `compute_permutation`.

    Returns
    -------
    Pairing

    Raises
    ------
    Refused
        1: more than 1,024 positions; 2: another number of rotated positions.

    Examples
    --------
    >>> import numpy as np
    >>> at = lambda *x: [[c, 0, 0] for c in x]
    >>> compute_permutation(np.eye(3), 0.1875, at(0.25, 0), at(0.125, 0.375)).found
    False
    >>> pairing = find_permutation(np.eye(3), 0.1875, at(0.25, 0), at(0.125, 0.375))
    >>> pairing.found, pairing.slots.tolist()
    (True, [1, 0])
    >>> pairing = find_permutation(np.eye(3), 0.05, at(0.5, 0.1, 0.11), at(0.11, 0.3, 0.5))
    >>> pairing.found, pairing.slots.tolist(), pairing.words
    (False, [-1, -1, -1], 'positions 1, 2: these 2 have at most 1 near slot')
    """
    pos = _positions(pos, "pos")
    rot_pos = _positions(rot_pos, "rot_pos")
    n = pos.shape[0]
    slots, marks = np.empty(n, np.int64), np.empty(n, np.uint8)
    answer = run("find_permutation", 2, read={"lattice": (lattice, (3, 3)), "pos": (pos, (n, 3)), "rot_pos": (rot_pos, (n, 3))},
                 made={"rot_atom": slots, "marks": marks, "periodic": _arrays.flags(pbc, "pbc")}, values={"symprec": symprec, "num_pos": n})
    return Pairing(answer == 0, slots, np.flatnonzero(marks))


def _positions(a: ArrayLike, name: str) -> Doubles:
    found = _arrays.numbers(a, name)
    if found.ndim != 2 or found.shape[1] != 3:
        raise ValueError(f"{name} has the shape {found.shape}, positions have (n, 3)")
    return found
