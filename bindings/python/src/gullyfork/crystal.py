"""The crystal that a set belongs to: its cell, its symmetry operations, and what phonopy knows of it.

Operations are spglib's, the maps of the atoms the library's proved matching's. How far a set is from obeying them, the `crystal_report_*` calls
say.
"""
from __future__ import annotations

import argparse
import os
from typing import TYPE_CHECKING, Dict, List, Mapping, NamedTuple, Optional, Protocol, Tuple, cast

import numpy as np

from . import files
from ._commands import DONE, added
from ._shifts import Atoms, atoms_of, nearest
from .cells import compute_permutation
from .files import Operations
from .tables import Tables

if TYPE_CHECKING:
    from ._commands import Commands
    from ._shifts import CellLike, PhonopyAtomsLike
    from ._types import Doubles, Integers, PrimitiveLike

    class Primitive(PhonopyAtomsLike, PrimitiveLike, Protocol):
        """phonopy's primitive cell."""

    class Phonon(Protocol):
        """What is asked of phonopy."""

        @property
        def primitive(self) -> Primitive: ...

        @property
        def supercell(self) -> PhonopyAtomsLike: ...

        force_constants: Doubles

        def run_qpoints(self, q_points: Doubles) -> None: ...

        def get_qpoints_dict(self) -> Dict[str, Doubles]: ...

__all__ = ["Cell", "Operations", "Unknown", "cell_of", "frequencies", "operations", "read_cell", "read_set"]


class Unknown(ValueError):
    """Something cannot be worked out; the message says what is missing."""


class Cell(NamedTuple):
    """What is known of the supercell of a set.

    Attributes
    ----------
    tables : Tables
        Its shift tables.
    lattice : ndarray of float64, shape (3, 3)
        Basis vectors in rows.
    positions : ndarray of float64, shape (n_satom, 3)
        In the basis vectors.
    elements : tuple of str
        Of every atom; empty where they are not known.
    phonon : phonopy.Phonopy, or None
        The same cell in phonopy.
    """

    tables: Tables
    lattice: Doubles
    positions: Doubles
    elements: Tuple[str, ...] = ()
    phonon: Optional[Phonon] = None


def operations(cell: CellLike, symprec: float = 1e-5) -> Operations:
    """Find the operations of a supercell: one for each rotation of its space group, 48 at most.

    The others differ from these by a shift of the primitive lattice, which the shift tables have.

    Parameters
    ----------
    cell : ASE Atoms, PhonopyAtoms, or (lattice, positions, elements)
        The supercell, as for `Tables.from_cell`.
    symprec : float
        How near to its place an image has to be, in the unit of the lattice.

    Returns
    -------
    Operations

    Raises
    ------
    ImportError
        spglib is not there.
    ValueError
        spglib finds no space group, or an operation of it sends an atom where no atom is.

    Examples
    --------
    >>> import numpy as np
    >>> found = operations((np.diag([3.0, 3.0, 4.0]), [[0, 0, 0], [0.5, 0.5, 0.5]], ["Ti", "O"]))
    >>> found.rotations.shape, found.maps.shape
    ((16, 3, 3), (16, 2))
    """
    try:
        import spglib
    except ImportError:
        raise ImportError("the operations of a crystal need spglib (Debian: python3-spglib, which phonopy needs too)") from None
    atoms = atoms_of(cell)
    numbers = np.unique(np.array(atoms.elements), return_inverse=True)[1] + 1
    group = spglib.get_symmetry((atoms.lattice, atoms.positions, numbers), symprec)
    if group is None:
        raise ValueError("spglib finds no space group of this cell")
    turns, first = np.unique(group["rotations"], axis=0, return_index=True)
    maps = np.array([_sent(atoms, w, v, symprec) for w, v in zip(turns, group["translations"][first])])
    basis = atoms.lattice.T
    return Operations(_plain(basis @ turns @ np.linalg.inv(basis)), maps)


def _plain(matrices: Doubles) -> Doubles:
    """Without what rounding left of the numbers that operations have along the usual axes."""
    out: Doubles = np.ascontiguousarray(matrices)
    for x in (0.0, 0.5, np.sqrt(0.75), 1.0):
        near = np.abs(np.abs(out) - x) < 1e-12
        out[near] = np.copysign(x, out[near]) if x else 0.0
    return out


def _sent(atoms: Atoms, turn: Integers, shift: Doubles, symprec: float) -> Integers:
    """Where an operation sends every atom. spglib's own tolerance is a little wider in places: twice the tolerance is near enough."""
    moved = np.ascontiguousarray(atoms.positions @ turn.T + shift)
    match = compute_permutation(np.ascontiguousarray(atoms.lattice.T), 2.0 * symprec, atoms.positions, moved)
    if not match.found:
        a = int(np.flatnonzero(match.slots < 0)[0])
        other, far = nearest(atoms, moved[a])
        raise ValueError(f"{atoms.name(a)}: no atom where an operation of the crystal sends it; the nearest, {atoms.name(other)}, is {far:.3g} away")
    return match.slots


def frequencies(phonon: Phonon, fc: Doubles) -> Tuple[float, float, int]:
    """Return the lowest and the highest frequency of a set of second order, by phonopy, and at how many wave vectors.

    The wave vectors are those that the supercell holds, at which nothing is interpolated. Imaginary frequencies are negative, as in
    phonopy; there is no correction for charges.

    Parameters
    ----------
    phonon : phonopy.Phonopy
        The cell of the set.
    fc : ndarray of float64, shape (n, m, 3, 3)
        Full or compact.
    """
    from phonopy.harmonic.dynmat_to_fc import get_commensurate_points

    ratio = np.asarray(phonon.supercell.cell, np.float64) @ np.linalg.inv(np.asarray(phonon.primitive.cell, np.float64))
    points: Doubles = get_commensurate_points(np.rint(ratio.T).astype(int))
    phonon.force_constants = fc.copy()
    phonon.run_qpoints(points)
    found = phonon.get_qpoints_dict()["frequencies"]
    return float(found.min()), float(found.max()), len(points)


# ---- cells in files

def read_cell(path: str, order: int = 2, atoms: Optional[int] = None) -> Cell:
    """Read the cell of a phonopy.yaml or a phono3py.yaml, by phonopy.

    Parameters
    ----------
    path : str
    order : int
        Of the set. phono3py may have a supercell of its own for second order (dim-fc2), which is taken for sets of order 2.
    atoms : int, optional
        How many atoms the supercell of the set has: where the yaml has two supercells, it decides.

    Returns
    -------
    Cell

    Raises
    ------
    Unknown
        phonopy is not there, or cannot read it.
    """
    try:
        from phonopy.interface.phonopy_yaml import load_yaml
    except ImportError:
        raise Unknown("--cell needs phonopy (Debian: python3-phonopy)") from None
    if not os.path.exists(path):
        raise Unknown(f"{path}: no such file")
    try:
        return cell_of(_phonon(load_yaml(path), order, atoms))
    except Exception as e:  # phonopy raises whatever it meets
        raise Unknown(f"{path}: phonopy cannot read it: {type(e).__name__}: {e}") from None


def read_set(path: str, yaml: Optional[str] = None) -> Tuple[files.ForceConstants, Optional[Cell]]:
    """Read the set of a file, and its cell, if a yaml is named.

    Parameters
    ----------
    path : str
        As for `files.read`; with a yaml also ShengBTE's FORCE_CONSTANTS_3RD, which is read into the yaml's supercell.
    yaml : str, optional
        A phonopy.yaml or a phono3py.yaml.
    """
    if yaml and files.is_shengbte(path):
        cell = read_cell(yaml, 3)
        return files.read_shengbte(path, cell), cell
    found = files.read(path)
    return found, read_cell(yaml, found.order, found.array.shape[1]) if yaml else None


def cell_of(phonon: Phonon) -> Cell:
    """Return the cell of a phonopy.Phonopy.

    Parameters
    ----------
    phonon : phonopy.Phonopy
    """
    atoms = atoms_of(phonon.supercell)
    return Cell(Tables.of(phonon.primitive), atoms.lattice, atoms.positions, atoms.elements, phonon)


def of_supercell(tables: Tables, lattice: Doubles, positions: Doubles, elements: List[str]) -> Cell:
    """The cell of a supercell that is written out, as a delivery's is; with phonopy's, where phonopy is there and knows the elements."""
    cell = Cell(tables, lattice, positions, tuple(elements))
    try:
        from phonopy import Phonopy
        from phonopy.structure.atoms import PhonopyAtoms

        atoms = PhonopyAtoms(symbols=elements, cell=lattice, scaled_positions=positions)
        return cell._replace(phonon=Phonopy(atoms, np.eye(3, dtype=int), primitive_matrix="auto", is_symmetry=False, log_level=0))
    except Exception:  # what phonopy cannot take, is looked at without it
        return cell


_PREFIX = "phonon_"  # phono3py's names for what second order has of its own


def _phonon(data: Mapping[str, object], order: int, atoms: Optional[int]) -> Phonon:
    """Phonopy of the yaml's unit cell and matrices."""
    from phonopy import Phonopy
    from phonopy.interface.calculator import get_default_physical_units
    from phonopy.structure.atoms import parse_cell_dict

    unit = parse_cell_dict(data["unit_cell"])
    prefixes = [p for p in ((_PREFIX, "") if order == 2 else ("", _PREFIX)) if f"{p}supercell_matrix" in data]
    if not prefixes:
        raise ValueError("it has no supercell_matrix")
    fits = [p for p in prefixes if round(abs(np.linalg.det(np.array(data[f"{p}supercell_matrix"])))) * len(unit) == atoms]
    prefix = (fits or prefixes)[0]
    header = next((data[name] for name in ("phonopy", "phono3py") if isinstance(data.get(name), dict)), {})
    calculator = cast("Dict[str, str]", header).get("calculator")
    phonon: Phonon = Phonopy(
        unit, np.array(data[f"{prefix}supercell_matrix"]), primitive_matrix=data.get(f"{prefix}primitive_matrix", data.get("primitive_matrix")),
        factor=get_default_physical_units(calculator)["factor"], calculator=calculator, is_symmetry=False, log_level=0)
    return phonon


# ---- the command

_COMMAND = """Find the operations of a delivery's crystal, and write operations.txt.

FOLDER: a delivery, of which tables.txt and cell.txt are read. One operation for each rotation of the space group that spglib finds, as a
Cartesian matrix and a map of the atoms; `delivery/run` and `delivery/verify` judge the sets by them."""


def command(commands: Commands) -> None:
    """Add the sub-command."""
    c = added(commands, "operations", _run, _COMMAND)
    c.add_argument("folder", metavar="FOLDER")
    c.add_argument("--symprec", type=float, default=1e-5, help="how near to its place an image has to be (%(default)s)")
    c.add_argument("--overwrite", action="store_true", help="replace operations.txt, if it is there")


def _run(a: argparse.Namespace) -> int:
    found = operations(files.read_supercell(a.folder), a.symprec)
    print(f"written {files.write_operations(a.folder, found, a.overwrite)}: {len(found.maps)} operations")
    return DONE
