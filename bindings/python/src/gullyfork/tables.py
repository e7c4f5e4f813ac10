"""Shift tables: how the translations of the primitive cell permute the atoms of the supercell."""
from __future__ import annotations

from typing import TYPE_CHECKING, Iterator, List, NamedTuple, Optional, Tuple, Type, Union

import numpy as np

from . import _arrays, _shifts
from ._refused import Refused, broken_rule, reason
from ._run import run

if TYPE_CHECKING:
    from ._shifts import CellLike
    from ._types import ArrayLike, Integers, PrimitiveLike, TablesLike

__all__ = ["Explanation", "Tables", "check_shift_tables", "explain_shift_tables"]


class Tables:
    """Shift tables, converted once, for any number of calls.

    The tables are copied to int64 arrays, which are read-only: a later change of what was given is not seen.

    Parameters
    ----------
    p2s : array_like of int, shape (n_patom,)
        p2s[p] is the atom of the supercell that stands for atom p of the primitive cell.
    s2pp : array_like of int, shape (n_satom,)
        s2pp[a] is the atom of the primitive cell that a is an image of.
    nsym_list : array_like of int, shape (n_satom,)
        nsym_list[a] is the shift that sends a to p2s[s2pp[a]].
    perms : array_like of int, shape (num_trans, n_satom)
        perms[t, a] is where shift t sends atom a.

    Attributes
    ----------
    n_satom, n_patom, num_trans : int
        The counts.

    Raises
    ------
    TypeError, ValueError
        What is no table of integers, or has another number of axes. Whether the rules are kept, `check` says.

    Examples
    --------
    >>> t = Tables([0], [0, 0, 0], [0, 2, 1], [[0, 1, 2], [1, 2, 0], [2, 0, 1]])
    >>> t
    Tables(n_satom=3, n_patom=1, num_trans=3)
    >>> t.check()
    >>> Tables([0], [0, 0, 0], [0, 1, 2], t.perms).check()
    Traceback (most recent call last):
        ...
    gullyfork.Refused: check_shift_tables: refusal 6, the shift tables break a rule (nsym_list: entry 1 is 1, which sends atom 1 to 2, not to 0)
    """

    __slots__ = ("p2s", "s2pp", "nsym_list", "perms", "n_satom", "n_patom", "num_trans", "slices", "counts", "shapes", "_judged",
                 "_refusal")

    def __init__(self, p2s: ArrayLike, s2pp: ArrayLike, nsym_list: ArrayLike, perms: ArrayLike) -> None:
        self.p2s, self.s2pp, self.nsym_list = _own(p2s, "p2s", 1), _own(s2pp, "s2pp", 1), _own(nsym_list, "nsym_list", 1)
        self.perms = _own(perms, "perms", 2)
        self.n_satom, self.n_patom, self.num_trans = self.s2pp.size, self.p2s.size, self.perms.shape[0]
        if self.perms.shape[1] != self.n_satom and self.perms.size == self.num_trans * self.n_satom:
            raise ValueError(f"perms has the shape {self.perms.shape}, s2pp has {self.n_satom} entries")
        slices: List[int] = []
        for a in (self.p2s, self.s2pp, self.nsym_list, self.perms):
            slices += _arrays.address(a), a.size
            a.flags.writeable = False
        p, n = self.n_patom, self.n_satom
        self.slices, self.counts = tuple(slices), (n, p, self.num_trans)
        self.shapes = (p, n, 3, 3), (p, n, n, 3, 3, 3), (p, n, n, n, 3, 3, 3, 3)
        self._judged, self._refusal = False, None  # type: bool, Optional[Refused]

    @classmethod
    def of(cls, primitive: PrimitiveLike) -> "Tables":
        """Return the tables of a phonopy `Primitive` (phono3py's `primitive` and `phonon_primitive` too).

        Parameters
        ----------
        primitive : phonopy.structure.cells.Primitive
            Its p2s_map, s2p_map, p2p_map and atomic_permutations are read.

        Raises
        ------
        ValueError
            No shift sends an atom to its image in the primitive cell.
        """
        perms = _arrays.table(primitive.atomic_permutations, "atomic_permutations")
        s2p = _arrays.table(primitive.s2p_map, "s2p_map")
        goes = perms == s2p
        lost = np.flatnonzero(~goes.any(axis=0))
        if lost.size:
            raise ValueError(f"atomic_permutations: no shift sends atom {lost[0]} to atom {s2p[lost[0]]}, its image in the primitive cell")
        return cls(primitive.p2s_map, [primitive.p2p_map[a] for a in s2p.tolist()], goes.argmax(axis=0), perms)

    @classmethod
    def from_cell(cls, cell: CellLike, supercell_matrix: ArrayLike = 1, primitive_matrix: Union[ArrayLike, str, None] = None,
                  symprec: float = 1e-5) -> "Tables":
        """Return the tables of a supercell, by the library's matching of atoms.

        The atoms of the supercell are numbered as phonopy numbers them. Somebody who has the supercell itself, in any numbering, gives
        it as `cell`, leaves `supercell_matrix` out and takes the primitive matrix relative to the supercell.

        Parameters
        ----------
        cell : ASE Atoms, PhonopyAtoms, or (lattice, positions, elements)
            The unit cell. As plain arrays: basis vectors in the rows, positions in them, and an element or a number for each atom.
        supercell_matrix : int, three ints, or array_like of int, shape (3, 3)
            As phonopy's: the supercell's basis vectors are supercell_matrix.T @ lattice. One or three numbers are the diagonal.
        primitive_matrix : array_like of float, shape (3, 3), or str, optional
            As phonopy's: the primitive vectors are primitive_matrix.T @ lattice; or one of the centrings P, F, I, A, C, R. Left out:
            the unit cell is primitive.
        symprec : float
            How near to its place an image has to be, in the unit of the lattice.

        Raises
        ------
        ValueError
            An atom has no image where a shift sends it, an image is of another element, or the matrices do not fit each other. The
            message names the atom.
        Refused
            1: more than 1,024 atoms.

        Examples
        --------
        Rock salt, two conventional cells along each axis, whose primitive cell has two atoms:

        >>> import numpy as np
        >>> na = np.array([[0, 0, 0], [0, .5, .5], [.5, 0, .5], [.5, .5, 0]])
        >>> cell = 5.64 * np.eye(3), np.concatenate([na, na + 0.5]), ["Na"] * 4 + ["Cl"] * 4
        >>> Tables.from_cell(cell, 2, "F")
        Tables(n_satom=64, n_patom=2, num_trans=32)
        >>> cell[1][5] += 0.01
        >>> Tables.from_cell(cell, 2, "F")
        Traceback (most recent call last):
            ...
        ValueError: atom 32 (Cl): no atom where the shift (0, 0.25, 0.25) sends it; the nearest, atom 40 (Cl), is 0.0977 away
        """
        return cls(*_shifts.tables_of(cell, supercell_matrix, primitive_matrix, symprec))

    @classmethod
    def given(cls, tables: TablesLike) -> "Tables":
        """Return tables themselves, or those of four arrays in their place.

        Parameters
        ----------
        tables : Tables, or p2s, s2pp, nsym_list and perms

        Raises
        ------
        TypeError
            Neither of the two.
        """
        if isinstance(tables, Tables):
            return tables
        try:
            p2s, s2pp, nsym_list, perms = tables
        except (TypeError, ValueError):
            raise TypeError("tables has to be a gullyfork.Tables, or p2s, s2pp, nsym_list and perms") from None
        return cls(p2s, s2pp, nsym_list, perms)

    def check(self) -> None:
        """Judge the tables, once; every compact call of the library judges them too.

        Raises
        ------
        Refused
            1 (a count above 1,024), 2, 3, or 6: a rule is broken. The message says which.
        """
        if not self._judged:
            try:
                run("check_shift_tables", 2, tables=self)
            except Refused as e:
                self._refusal = e
            self._judged = True
        if self._refusal is not None:
            raise self._refusal.again()

    def __iter__(self) -> Iterator[Integers]:
        return iter((self.p2s, self.s2pp, self.nsym_list, self.perms))

    def __eq__(self, other: object) -> bool:
        return isinstance(other, Tables) and all(np.array_equal(a, b) for a, b in zip(self, other))

    def __hash__(self) -> int:
        return hash((self.counts, self.perms.tobytes()))

    def __reduce__(self) -> Tuple[Type["Tables"], Tuple[Integers, ...]]:
        return Tables, tuple(self)

    def __repr__(self) -> str:
        return f"Tables(n_satom={self.n_satom}, n_patom={self.n_patom}, num_trans={self.num_trans})"


def _own(a: ArrayLike, name: str, axes: int) -> Integers:
    own = _arrays.table(a, name, copy=True)
    if own.ndim != axes:
        raise ValueError(f"{name} has {own.ndim} axes, not {axes}")
    return own


def check_shift_tables(tables: TablesLike) -> None:
    """Judge shift tables alone, as every compact call of second order judges them.

    Parameters
    ----------
    tables : Tables, or p2s, s2pp, nsym_list and perms

    Raises
    ------
    Refused
        1 (a count above 1,024), 2, 3, or 6: a rule is broken. The message says which.

    Examples
    --------
    >>> check_shift_tables(([0], [0, 0], [0, 1], [[0, 1], [1, 0]]))
    """
    Tables.given(tables).check()


class Explanation(NamedTuple):
    """Why shift tables are refused, as `explain_shift_tables` says it.

    Attributes
    ----------
    number : int
        What `check_shift_tables` answers: 0, or the refusal 1, 2, 3 or 6.
    which : int
        1: 0 n_satom, 1 n_patom, 2 num_trans. 2 and 3: 0 perms, 1 p2s, 2 s2pp, 3 nsym_list. 6: the rule, 0 to 7, in the order of the
        header gullyfork.h.
    place : tuple of three ints
        3: the entry of the table, row after row. 6: the least rows and atoms that break the rule. What is not named is 0.
    words : str or None
        The rule that is broken, in words.
    """

    number: int
    which: int
    place: Tuple[int, int, int]
    words: Optional[str]


def explain_shift_tables(tables: TablesLike) -> Explanation:
    """Say why shift tables are refused: the first count, table, entry or rule that is wrong. Proved, and never refused.

    Parameters
    ----------
    tables : Tables, or p2s, s2pp, nsym_list and perms

    Examples
    --------
    >>> explain_shift_tables(([0], [0, 0, 0], [0, 1, 2], [[0, 1, 2], [1, 2, 0], [2, 0, 1]]))
    Explanation(number=6, which=7, place=(1, 0, 0), words='nsym_list: entry 1 is 1, which sends atom 1 to 2, not to 0')
    """
    t = Tables.given(tables)
    number, which, i, j, k = numbers = reason(t)
    return Explanation(number, which, (i, j, k), ": ".join(str(w) for w in broken_rule(t, numbers)) if number == 6 else None)
