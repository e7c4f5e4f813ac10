"""Shift tables from a cell: the supercell as phonopy numbers it, and where each shift sends every atom, by the library's matching."""
from __future__ import annotations

import itertools
from typing import TYPE_CHECKING, Dict, List, NamedTuple, Protocol, Sequence, Set, Tuple, Union, cast

import numpy as np

from . import _arrays
from .cells import compute_permutation

if TYPE_CHECKING:
    from ._types import ArrayLike, Doubles, Integers

    class PhonopyAtomsLike(Protocol):
        """What is read of phonopy's atoms."""

        @property
        def cell(self) -> ArrayLike: ...

        @property
        def scaled_positions(self) -> ArrayLike: ...

        @property
        def symbols(self) -> Sequence[str]: ...

    class AseAtomsLike(Protocol):
        """What is read of ASE's atoms."""

        def get_cell(self) -> ArrayLike: ...

        def get_scaled_positions(self, wrap: bool = ...) -> ArrayLike: ...

        def get_chemical_symbols(self) -> Sequence[str]: ...

    CellLike = Union[PhonopyAtomsLike, AseAtomsLike, Tuple[ArrayLike, ArrayLike, Sequence[object]]]

_HALF, _THIRD = 0.5, 1.0 / 3.0
_CENTRINGS: Dict[str, List[List[float]]] = {
    "P": [[1, 0, 0], [0, 1, 0], [0, 0, 1]],
    "F": [[0, _HALF, _HALF], [_HALF, 0, _HALF], [_HALF, _HALF, 0]],
    "I": [[-_HALF, _HALF, _HALF], [_HALF, -_HALF, _HALF], [_HALF, _HALF, -_HALF]],
    "A": [[1, 0, 0], [0, _HALF, -_HALF], [0, _HALF, _HALF]],
    "C": [[_HALF, _HALF, 0], [-_HALF, _HALF, 0], [0, 0, 1]],
    "R": [[2 * _THIRD, -_THIRD, -_THIRD], [_THIRD, _THIRD, -2 * _THIRD], [_THIRD, _THIRD, _THIRD]],
}
_WHOLE = 1e-4  # how near to whole numbers the quotient of two matrices has to be


class Atoms(NamedTuple):
    """A cell: basis vectors in rows, positions in them, and the elements."""

    lattice: Doubles
    positions: Doubles
    elements: Tuple[str, ...]

    def name(self, a: int) -> str:
        """An atom in words."""
        return f"atom {a} ({self.elements[a]})"


def atoms_of(cell: CellLike) -> Atoms:
    """A cell from ASE, from phonopy, or as plain arrays; ValueError names what is wrong with it."""
    if isinstance(cell, (tuple, list)):
        if len(cell) != 3:
            raise TypeError("a cell of plain arrays is (lattice, positions, elements)")
        lattice, positions, symbols = cell
    elif hasattr(cell, "scaled_positions"):
        theirs = cast("PhonopyAtomsLike", cell)
        lattice, positions, symbols = theirs.cell, theirs.scaled_positions, theirs.symbols
    elif hasattr(cell, "get_chemical_symbols"):
        lattice, positions, symbols = np.asarray(cell.get_cell()), cell.get_scaled_positions(wrap=False), cell.get_chemical_symbols()
    else:
        raise TypeError(f"cell has to be ASE or phonopy atoms, or (lattice, positions, elements), not {type(cell).__name__}")
    found = Atoms(_arrays.numbers(lattice, "lattice"), _arrays.numbers(positions, "positions"), tuple(str(x) for x in symbols))
    if found.lattice.shape != (3, 3) or not np.isfinite(found.lattice).all() or np.linalg.det(found.lattice) == 0.0:
        raise ValueError("lattice has to be three basis vectors, in rows, that span a volume")
    if found.positions.shape != (len(found.elements), 3):
        raise ValueError(f"positions has the shape {found.positions.shape}, {len(found.elements)} elements ask for ({len(found.elements)}, 3)")
    odd = np.flatnonzero(~np.isfinite(found.positions).all(axis=1))
    if odd.size:
        raise ValueError(f"{found.name(int(odd[0]))}: its position is not finite")
    return found


def _whole(a: Doubles, what: str) -> Integers:
    near = np.rint(a)
    if not np.isfinite(a).all() or np.abs(a - near).max() > _WHOLE:
        raise ValueError(what)
    return near.astype(np.int64)


def _matrix(given: ArrayLike) -> Integers:
    m = _arrays.numbers(given, "supercell_matrix")
    m = np.diag(np.full(3, m)) if m.shape == () else np.diag(m) if m.shape == (3,) else m
    if m.shape != (3, 3):
        raise ValueError(f"supercell_matrix has the shape {m.shape}: it is one number, three, or (3, 3)")
    whole = _whole(m, "supercell_matrix has to hold whole numbers")
    if round(float(np.linalg.det(whole))) < 1:
        raise ValueError(f"supercell_matrix has the determinant {np.linalg.det(whole):.0f}: it has to be 1 or more")
    return whole


def _primitive(given: Union[ArrayLike, str, None], cell: Atoms) -> Doubles:
    if given is None:
        return np.eye(3)
    if isinstance(given, str):
        if given == "auto":
            return _guessed(cell)
        if given not in _CENTRINGS:
            raise ValueError(f"primitive_matrix is {given!r}: a matrix, auto, or one of {', '.join(_CENTRINGS)}")
        return np.array(_CENTRINGS[given])
    m = _arrays.numbers(given, "primitive_matrix")
    if m.shape != (3, 3) or not np.isfinite(m).all() or np.linalg.det(m) <= 0.0:
        raise ValueError("primitive_matrix has to be of the shape (3, 3), and its determinant above 0")
    return m


def _guessed(cell: Atoms) -> Doubles:
    try:
        from phonopy.structure.atoms import PhonopyAtoms
        from phonopy.structure.cells import guess_primitive_matrix
    except ImportError:
        raise ImportError('primitive_matrix="auto" needs phonopy (Debian: python3-phonopy)') from None
    matrix: Doubles = guess_primitive_matrix(PhonopyAtoms(symbols=cell.elements, cell=cell.lattice, scaled_positions=cell.positions))
    return matrix


def _remainders(matrix: Integers, points: Integers) -> Integers:
    """Points modulo the lattice of the matrix's columns: two are the same exactly if their remainders are. Whole numbers throughout."""
    size = abs(round(float(np.linalg.det(matrix))))
    adjugate = np.rint(np.linalg.inv(matrix) * size).astype(np.int64)
    left: Integers = points @ adjugate.T % size
    return left


def supercell_of(cell: Atoms, matrix: Integers) -> Atoms:
    """The supercell with its atoms in phonopy's order: atom by atom of the unit cell, its images in the frame around the supercell, the
    first axis fastest; of images that are the same in the supercell the first."""
    corners = np.array([matrix @ corner for corner in itertools.product((0, 1), repeat=3)])
    frame = corners.max(axis=0) - corners.min(axis=0)
    points = np.array([(a, b, c) for c in range(frame[2]) for b in range(frame[1]) for a in range(frame[0])])
    _, first = np.unique(_remainders(matrix, points), axis=0, return_index=True)
    points = points[np.sort(first)]
    places = (cell.positions[:, None, :] + points).reshape(-1, 3) @ np.linalg.inv(matrix).T
    return Atoms(matrix.T @ cell.lattice, places, tuple(np.repeat(np.array(cell.elements, object), len(points))))


def _shift_vectors(quotient: Integers) -> Doubles:
    """The shifts of the primitive lattice inside the supercell, in its basis: whole multiples of 1/N, in rising order."""
    count = abs(round(float(np.linalg.det(quotient))))
    steps = (np.rint(np.linalg.inv(quotient) * count).astype(np.int64) % count).T.tolist()
    found: Set[Tuple[int, ...]] = {(0, 0, 0)}
    new = list(found)
    while new:
        new = [v for v in {tuple((x + y) % count for x, y in zip(v, step)) for v in new for step in steps} if v not in found]
        found.update(new)
    return np.array(sorted(found)) / count


def nearest(cell: Atoms, place: Doubles) -> Tuple[int, float]:
    """The atom that is nearest to a place, and how far it is."""
    d = cell.positions - place
    d -= np.rint(d)
    images = np.array(list(itertools.product((-1, 0, 1), repeat=3)))
    far = np.sqrt((((d[:, None, :] + images) @ cell.lattice) ** 2).sum(axis=-1).min(axis=-1))
    return int(far.argmin()), float(far.min())


def _sent(cell: Atoms, shift: Doubles, symprec: float) -> Integers:
    """Where a shift sends every atom."""
    moved = cell.positions + shift
    match = compute_permutation(cell.lattice.T, symprec, cell.positions, moved)
    words = f"the shift ({', '.join(f'{x:.6g}' for x in shift)})"
    lost = np.flatnonzero(match.slots < 0)
    if lost.size:
        a = int(lost[0])
        other, far = nearest(cell, moved[a])
        raise ValueError(f"{cell.name(a)}: no atom where {words} sends it; the nearest, {cell.name(other)}, is {far:.3g} away")
    for a, b in enumerate(match.slots.tolist()):
        if cell.elements[a] != cell.elements[b]:
            raise ValueError(f"{cell.name(a)}: {words} sends it to {cell.name(b)}")
    return match.slots


def _one_at_a_place(cell: Atoms, symprec: float) -> None:
    for a in range(1, len(cell.elements)):
        other, far = nearest(cell._replace(positions=cell.positions[:a]), cell.positions[a])
        if far < symprec:
            raise ValueError(f"{cell.name(a)} and {cell.name(other)} stand at the same place")


def tables_of(given: CellLike, supercell_matrix: ArrayLike, primitive_matrix: Union[ArrayLike, str, None],
              symprec: float) -> Tuple[Integers, Integers, Integers, Integers]:
    """p2s, s2pp, nsym_list and perms, as phonopy's Primitive has them."""
    unit = atoms_of(given)
    _one_at_a_place(unit, symprec)
    matrix = _matrix(supercell_matrix)
    quotient = np.linalg.inv(_primitive(primitive_matrix, unit)) @ matrix
    shifts = _shift_vectors(_whole(quotient, "the supercell is no whole multiple of the primitive cell: supercell_matrix and primitive_matrix do not fit"))
    cell = supercell_of(unit, matrix)
    perms = np.array([_sent(cell, shift, symprec) for shift in shifts])
    perms = perms[np.argsort(perms[:, 0])] if perms.size else perms.reshape(len(shifts), 0)
    first = perms.min(axis=0)
    p2s, s2pp = np.unique(first, return_inverse=True)
    return p2s, s2pp, (perms == first).argmax(axis=0), perms
