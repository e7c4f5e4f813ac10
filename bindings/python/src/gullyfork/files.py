"""Sets of force constants in files: FORCE_CONSTANTS (text), force_constants.hdf5, phono3py's fc2.hdf5 and fc3.hdf5, fc4.hdf5, .npy, and the
delivery folder.

`read(path)` tells the kind from the first bytes. What is wrong with a file is said with its place, as Unreadable; nothing is guessed. A
file is written whole beside its place and then takes its name, so nobody ever finds half of one; a file that is there is not replaced
unless overwrite=True. FORCE_CONSTANTS has 15 digits after the point; hdf5 and .npy keep every bit.

>>> import numpy as np, tempfile, os
>>> folder = tempfile.mkdtemp()
>>> write(os.path.join(folder, "FORCE_CONSTANTS"), np.ones((1, 2, 3, 3)), p2s=[0])
>>> read(os.path.join(folder, "FORCE_CONSTANTS"))
ForceConstants(order 2, compact, 1 x 2 atoms, from FORCE_CONSTANTS)
"""
from __future__ import annotations

import errno
import io
import math
import os
import re
import shutil
import stat
from dataclasses import dataclass
from typing import TYPE_CHECKING, BinaryIO, Callable, Dict, List, NamedTuple, Optional, Sequence, Tuple, Union

import numpy as np

from .tables import Tables

if TYPE_CHECKING:
    import h5py

    from ._types import ArrayLike, Doubles, Integers, NDArray
    from .crystal import Cell

    Path = Union[str, "os.PathLike[str]"]

__all__ = ["Delivery", "ForceConstants", "Job", "Operations", "Unreadable", "is_shengbte", "read", "read_delivery", "read_job", "read_shengbte", "read_supercell", "units_of", "write", "write_delivery",
           "write_operations"]

_NPY, _HDF5 = b"\x93NUMPY", b"\x89HDF\r\n\x1a\n"
_LONGEST = 1 << 20  # letters of a line of text
_NO_TEXT = re.compile(r"[^\t\r\n -~]")
_DATASETS = {"fc3": 3, "fc4": 4, "force_constants": 2, "fc2": 2}


class Unreadable(ValueError):
    """A file does not hold what it should; the message says where."""


@dataclass(repr=False)
class ForceConstants:
    """A set and what its file says of it.

    Attributes
    ----------
    array : ndarray of float64
        The set, (n, m, 3, 3) and so on.
    source : str
        The kind of file.
    p2s : ndarray of int64, or None
        The atoms of the supercell that the rows are of, where the file says so.
    unit : str or None
    """

    array: Doubles
    source: str
    p2s: Optional[Integers] = None
    unit: Optional[str] = None

    @property
    def order(self) -> int:
        """2, 3 or 4."""
        return self.array.ndim // 2

    @property
    def full(self) -> bool:
        """Whether all atoms of the supercell stand in every place."""
        return self.array.shape[0] == self.array.shape[1]

    def __repr__(self) -> str:
        first, others = self.array.shape[:2]
        return f"ForceConstants(order {self.order}, {'full' if self.full else 'compact'}, {first} x {others} atoms, from {self.source})"


def _judged(a: NDArray[np.generic], path: str, source: str, rows: Optional[ArrayLike] = None, unit: Optional[str] = None) -> ForceConstants:
    order = a.ndim // 2
    if a.dtype.kind != "f" or a.dtype.itemsize > 8:
        raise Unreadable(f"{path}: it holds {a.dtype}, not real numbers of 8 bytes or fewer")
    if order not in (2, 3, 4) or a.ndim != 2 * order or a.shape[order:] != (3,) * order or len(set(a.shape[1:order])) != 1:
        raise Unreadable(f"{path}: the shape {a.shape} is of no set of order 2, 3 or 4")
    if a.shape[0] > a.shape[1]:
        raise Unreadable(f"{path}: the shape {a.shape} has more atoms in the first place than in the others")
    p2s = None if rows is None else np.asarray(rows)
    if p2s is not None:
        if p2s.ndim != 1 or p2s.dtype.kind not in "iu":
            raise Unreadable(f"{path}: p2s_map is of {p2s.dtype} and the shape {p2s.shape}, not a list of atoms")
        if len(p2s) != a.shape[0] and a.shape[0] != a.shape[1]:
            raise Unreadable(f"{path}: p2s_map has {len(p2s)} atoms, the set {a.shape[0]} rows")
    return ForceConstants(np.ascontiguousarray(a, np.float64), source, None if p2s is None else p2s.astype(np.int64), unit)


# ---- reading

def opened(path: str) -> BinaryIO:
    """A file to read from; a pipe or a device, which might never end, is an OSError as what cannot be opened is."""
    mode = os.stat(path).st_mode
    if not stat.S_ISREG(mode) and not stat.S_ISDIR(mode):  # of a folder `open` says it
        raise OSError(errno.EINVAL, "it is no file, but a pipe or a device", path)
    return open(path, "rb")


def read(path: Path) -> ForceConstants:
    """Read the set in a file, of whichever kind it is.

    Parameters
    ----------
    path : str or path
        FORCE_CONSTANTS, force_constants.hdf5, fc2.hdf5, fc3.hdf5, fc4.hdf5 or .npy, under any name.

    Returns
    -------
    ForceConstants

    Raises
    ------
    Unreadable
        It holds no set; the message says where.
    """
    path = os.fspath(path)
    if os.path.isdir(path):
        raise Unreadable(f"{path}: a folder: read_delivery reads a delivery")
    try:
        with opened(path) as f:
            first = f.read(8)
        if first.startswith(_NPY):
            return _read_npy(path)
        if first == _HDF5:
            return _read_hdf5(path)
        return _read_text(path)
    except OSError as e:
        raise Unreadable(f"{path}: {e.strerror or e}") from None


def _read_npy(path: str) -> ForceConstants:
    try:
        return _judged(np.load(path, allow_pickle=False), path, ".npy")
    except Unreadable:
        raise
    except (ValueError, EOFError) as e:
        raise Unreadable(f"{path}: {e}") from None


def _read_hdf5(path: str) -> ForceConstants:
    with _hdf5(path, "r") as f:
        name = _dataset(f, path)
        p2s = f["p2s_map"][()] if "p2s_map" in f else None
        unit = f["physical_unit"][()] if "physical_unit" in f else None
        found = _judged(f[name][()], path, f"hdf5, {name}", p2s, None if unit is None else _text(unit))
    if found.order != _DATASETS[name]:
        raise Unreadable(f"{path}: {name} holds a set of order {found.order}")
    return found


def _text(unit: ArrayLike) -> str:
    first: object = np.ravel(unit)[0]
    return first.decode("utf-8", "replace") if isinstance(first, bytes) else str(first)


def _hdf5(path: str, mode: str) -> h5py.File:
    try:
        import h5py
    except ImportError:
        raise ImportError("hdf5 files need h5py (Debian: python3-h5py)") from None
    return h5py.File(path, mode)


def _dataset(f: h5py.File, path: str) -> str:
    """The name of the set in an hdf5 file."""
    for name in _DATASETS:
        if name in f:
            return name
    raise Unreadable(f"{path}: it has none of {', '.join(_DATASETS)}, but {', '.join(sorted(f)) or 'nothing'}")


class _Lines:
    """The lines of a text that are not blank, one after the other, each with its words and its number."""

    def __init__(self, path: str) -> None:
        self.path, self.number, self.file = path, 0, io.TextIOWrapper(opened(path), encoding="ascii", newline="\n")

    def __enter__(self) -> "_Lines":
        return self

    def __exit__(self, *_: object) -> None:
        self.file.close()

    def bad(self, number: int, what: str) -> Unreadable:
        return Unreadable(f"{self.path}, line {number}: {what}")

    def _words(self) -> List[str]:
        """The words of the next line that has any; none at the end of the file."""
        try:
            while line := self.file.readline(_LONGEST):
                self.number += 1
                if len(line) == _LONGEST:
                    raise self.bad(self.number, f"it is longer than {_LONGEST:,} letters, and no line is")
                if _NO_TEXT.search(line):
                    raise self.bad(self.number, "it has a byte that is none of a text")
                words = line.split()
                if words:
                    return words
        except UnicodeDecodeError:
            raise Unreadable(f"{self.path}: neither a text, nor .npy, nor hdf5") from None
        return []

    def next(self, what: str) -> Tuple[int, List[str]]:
        """The next line; `what` says what it should be, for the message at the end of the file."""
        words = self._words()
        if not words:
            raise self.bad(max(self.number, 1), f"the file ends where {what} is expected")
        return self.number, words

    def named(self, name: str, count: int, what: str) -> Tuple[int, List[str]]:
        """The words after the name with which the next line has to begin."""
        number, words = self.next(f"a line {name}")
        if words[0] != name:
            raise self.bad(number, f"it begins with {words[0]} where {name} is expected")
        if len(words) - 1 != count:
            raise self.bad(number, f"{name} has {len(words) - 1} entries, {what} asks for {count}")
        return number, words[1:]

    def integers(self, number: int, words: Sequence[str]) -> List[int]:
        try:
            return [int(w) for w in words]
        except ValueError:
            raise self.bad(number, f"{' '.join(words)!r} are no whole numbers") from None

    def reals(self, number: int, words: Sequence[str]) -> List[float]:
        try:
            return [float(w) for w in words]
        except ValueError:
            raise self.bad(number, f"{' '.join(words)!r} are no numbers") from None

    def end(self, what: str) -> None:
        words = self._words()
        if words:
            raise self.bad(self.number, f"{words[0]} stands after {what}, which is the last that is expected")


def _read_text(path: str) -> ForceConstants:
    """FORCE_CONSTANTS: a line of one or two counts; for each pair a line of its atoms, counted from 1, and three lines of three numbers."""
    with _Lines(path) as t:
        number, words = t.next("a line of the number of atoms")
        if len(words) not in (1, 2):
            raise t.bad(number, f"{len(words)} words where one or two numbers of atoms are expected")
        counts = t.integers(number, words)
        n, m = counts[0], counts[-1]
        if n < 1 or m < 1:
            raise t.bad(number, "a number of atoms is not above 0")
        rows: List[Doubles] = []
        p2s: List[int] = []
        for i in range(n):
            row = np.empty((m, 3, 3))
            for j in range(m):
                what = f"block {j + 1} of row {i + 1}, of {n} x {m} blocks,"
                number, words = t.next(what)
                if len(words) != 2:
                    raise t.bad(number, f"{len(words)} words where a pair of atoms is expected")
                first, second = t.integers(number, words)
                if j == 0:
                    p2s.append(first - 1)
                if (first, second) != (p2s[i] + 1, j + 1):
                    raise t.bad(number, f"the pair {first} {second} stands where {p2s[i] + 1} {j + 1} is expected")
                for k in range(3):
                    number, words = t.next(what)
                    if len(words) != 3:
                        raise t.bad(number, f"{len(words)} words where three numbers are expected")
                    row[j, k] = t.reals(number, words)
            rows.append(row)
        t.end(f"the last of {n} x {m} blocks")
    if min(p2s) < 0 or max(p2s) >= m or len(set(p2s)) != n:
        rows_of = ", ".join(str(a + 1) for a in p2s)
        raise Unreadable(f"{path}: the rows are of atoms {rows_of}: {n} different ones from 1 to {m} are expected")
    return _judged(np.array(rows), path, "FORCE_CONSTANTS", p2s)


# ---- ShengBTE

def is_shengbte(path: Path) -> bool:
    """Return whether a file begins as ShengBTE's FORCE_CONSTANTS_3RD: a count, and then the number of the first block alone in its line.

    Parameters
    ----------
    path : str or path
    """
    try:
        with _Lines(os.fspath(path)) as t:
            return all(len(t.next("")[1]) == 1 for _ in range(2))
    except (OSError, Unreadable):
        return False


def read_shengbte(path: Path, cell: Cell, symprec: float = 1e-3) -> ForceConstants:
    """Read ShengBTE's FORCE_CONSTANTS_3RD into the compact set of a supercell.

    A block names its three atoms by their numbers in the primitive cell, which has to have the atoms of `cell` in the same order, and the
    cells of the second and the third by Cartesian vectors. Blocks of the same atoms of the supercell are added up, as ShengBTE writes an
    atom on the border once for each of its images; what no block names is zero.

    Parameters
    ----------
    path : str or path
    cell : Cell
        Of the supercell, as `crystal.read_cell` returns it, in angstrom.
    symprec : float
        How near to its place an atom has to be.

    Returns
    -------
    ForceConstants

    Raises
    ------
    Unreadable
        It is no such file, or a block names a place where the supercell has no such atom; the message says where.
    """
    path = os.fspath(path)
    t = cell.tables
    fc3 = np.zeros(t.shapes[1])
    try:
        with _Lines(path) as text:
            number, words = text.next("the number of blocks")
            for k in range(1, text.integers(number, words[:1])[0] + 1):
                what = f"block {k} of {words[0]}"
                if text.integers(*text.next(what)) != [k]:
                    raise text.bad(text.number, f"{what} does not begin with its number")
                vectors = [text.reals(*text.next(what)) for _ in range(2)]
                number, named = text.next(what)
                atoms = text.integers(number, named)
                if [len(v) for v in vectors] != [3, 3] or len(atoms) != 3 or not all(1 <= a <= t.n_patom for a in atoms):
                    raise text.bad(number, f"{what}: two vectors and three atoms from 1 to {t.n_patom} are expected")
                places = [_supercell_atom(cell, a - 1, v, symprec) for a, v in zip(atoms[1:], vectors)]
                if None in places:
                    raise text.bad(number, f"{what}: the supercell has no such atom there: is it the cell of this file?")
                fc3[(atoms[0] - 1, *places)] += _shengbte_block(text, what)
            text.end("the last block")
    except OSError as e:
        raise Unreadable(f"{path}: {e.strerror or e}") from None
    return ForceConstants(fc3, "FORCE_CONSTANTS_3RD", t.p2s, "eV/angstrom^3")


def _supercell_atom(cell: Cell, primitive: int, vector: List[float], symprec: float) -> Optional[int]:
    """The image of an atom of the primitive cell that is a vector away from it."""
    t = cell.tables
    images = np.flatnonzero(t.s2pp == primitive)
    d = cell.positions[images] - cell.positions[t.p2s[primitive]] - np.linalg.solve(cell.lattice.T, np.array(vector))
    far = np.sqrt((((d - np.rint(d)) @ cell.lattice) ** 2).sum(axis=1))
    return int(images[far.argmin()]) if far.min() < symprec else None


def _shengbte_block(text: _Lines, what: str) -> Doubles:
    block = np.empty((3, 3, 3))
    for i, j, k in np.ndindex(3, 3, 3):
        number, words = text.next(what)
        if words[:-1] != [str(i + 1), str(j + 1), str(k + 1)]:
            raise text.bad(number, f"{what}: the directions {i + 1} {j + 1} {k + 1} are expected")
        block[i, j, k] = text.reals(number, words[-1:])[0]
    return block


# ---- writing

def _put(path: str, overwrite: bool, writer: Callable[[str], None]) -> None:
    """Lets the writer write a file beside the place, and gives it the name."""
    if not overwrite and os.path.lexists(path):
        raise FileExistsError(f"{path} is there; overwrite=True replaces it")
    new = f"{path}.{os.getpid()}.new"
    try:
        writer(new)
        if overwrite:
            os.replace(new, path)
        else:
            _take_name(new, path)
    finally:
        if os.path.lexists(new):
            os.unlink(new)


def _take_name(new: str, path: str) -> None:
    """Gives the file its name where nothing has it: a link fails where somebody else was faster."""
    try:
        os.link(new, path)
    except FileExistsError:
        raise
    except OSError:  # a file system without links
        os.rename(new, path)


def write(path: Path, array: ArrayLike, p2s: Optional[ArrayLike] = None, unit: Optional[str] = None, overwrite: bool = False,
          like: Optional[Path] = None) -> None:
    """Write a set.

    Parameters
    ----------
    path : str or path
        hdf5 if the name ends in .hdf5 or .h5 (datasets and compression as phonopy and phono3py have them), .npy, or else
        FORCE_CONSTANTS, for second order only.
    array : array_like of float
    p2s : array_like of int, optional
        The atoms of the supercell that the rows of a compact set are of.
    unit : str, optional
        For hdf5.
    overwrite : bool
        Whether a file that is there is replaced.
    like : str or path, optional
        An hdf5 file with a set of the same shape: everything else in it (version, attributes, other datasets, compression) is kept.

    Raises
    ------
    FileExistsError
        It is there, and overwrite is False.
    ValueError
        No set, or none that this kind of file can hold.
    """
    path = os.fspath(path)
    found = _judged(np.asarray(array), "the array", "", p2s)
    if path.endswith((".hdf5", ".h5")):
        _put(path, overwrite, lambda new: _write_hdf5(new, found, unit) if like is None else _write_like(new, found, os.fspath(like)))
    elif path.endswith(".npy"):
        _put(path, overwrite, lambda new: _write_npy(new, found))
    elif found.order != 2:
        raise ValueError(f"{path}: FORCE_CONSTANTS is for second order; name a file .hdf5 or .npy")
    elif not found.full and p2s is None:
        raise ValueError(f"{path}: FORCE_CONSTANTS names the atoms of the rows: give p2s")
    else:
        _put(path, overwrite, lambda new: _write_text(new, found))


def _write_hdf5(path: str, found: ForceConstants, unit: Optional[str]) -> None:
    with _hdf5(path, "w") as f:
        f.create_dataset({2: "force_constants", 3: "fc3", 4: "fc4"}[found.order], data=found.array, compression="gzip")
        if found.p2s is not None:
            f.create_dataset("p2s_map", data=found.p2s)
        if unit is not None:
            f.create_dataset("physical_unit", data=np.array([unit.encode("utf-8")]))


def _write_like(path: str, found: ForceConstants, like: str) -> None:
    shutil.copyfile(like, path)
    with _hdf5(path, "r+") as f:
        name = _dataset(f, like)
        old = f[name]
        if old.shape != found.array.shape:
            raise ValueError(f"{like}: it has a set of the shape {old.shape}, the array has {found.array.shape}")
        if old.dtype.itemsize == 8:
            old[...] = found.array
            return
        kept, how = dict(old.attrs), {k: getattr(old, k) for k in ("chunks", "compression", "compression_opts", "shuffle", "fletcher32")}
        del f[name]  # of fewer bytes: the set's own bits would be lost
        f.create_dataset(name, data=found.array, **how).attrs.update(kept)


def _write_npy(path: str, found: ForceConstants) -> None:
    with open(path, "wb") as f:
        np.save(f, found.array)


def _write_text(path: str, found: ForceConstants) -> None:
    n, m = found.array.shape[:2]
    rows = np.arange(n) if found.full or found.p2s is None else found.p2s
    lines = ["%4d %4d" % (n, m)]
    for i, a in enumerate(rows):
        for j in range(m):
            lines.append("%d %d" % (a + 1, j + 1))
            lines += ["%22.15f%22.15f%22.15f" % tuple(v) for v in found.array[i, j]]
    with open(path, "w", encoding="ascii") as f:
        f.write("\n".join(lines))  # as phonopy writes it, byte for byte


# ---- the delivery folder

class Operations(NamedTuple):
    """Operations of a crystal.

    Attributes
    ----------
    rotations : ndarray of float64, shape (num_rot, 3, 3)
        Cartesian matrices.
    maps : ndarray of int64, shape (num_rot, n)
        Operation r sends atom a to maps[r, a].
    """

    rotations: Doubles
    maps: Integers


class Delivery(NamedTuple):
    """A delivery, as delivery/run reads it.

    Attributes
    ----------
    tables : Tables
    lattice : ndarray of float64, shape (3, 3)
        Basis vectors of the supercell in rows.
    elements : list of str
    positions : ndarray of float64, shape (n_satom, 3)
    fc2 : ndarray of float64, shape (n_satom or n_patom, n_satom, 3, 3)
        The set of second order, full or compact.
    fc3 : ndarray of float64, shape (n_patom, n_satom, n_satom, 3, 3, 3)
        The compact set of third order.
    fc4 : ndarray of float64, shape (n_patom, n_satom, n_satom, n_satom, 3, 3, 3, 3), or None
        The compact set of fourth order.
    operations : Operations or None
        Of the crystal, as operations.txt has them.
    """

    tables: Tables
    lattice: Doubles
    elements: List[str]
    positions: Doubles
    fc2: Doubles
    fc3: Doubles
    fc4: Optional[Doubles] = None
    operations: Optional[Operations] = None

    @property
    def sets(self) -> Dict[str, Doubles]:
        """Its sets by the names fc2, fc3 and fc4."""
        return {name: a for name, a in (("fc2", self.fc2), ("fc3", self.fc3), ("fc4", self.fc4)) if a is not None}


def read_delivery(folder: Path) -> Delivery:
    """Read the delivery in a folder: tables.txt, cell.txt, fc2.f64 and fc3.f64, and, where they are there, fc4.f64 and operations.txt.

    Parameters
    ----------
    folder : str or path

    Returns
    -------
    Delivery

    Raises
    ------
    Unreadable
        A file is missing, or does not hold what it should; the message says where.
    """
    folder = os.fspath(folder)
    try:
        tables = _read_tables(os.path.join(folder, "tables.txt"))
        lattice, elements, positions = _read_cell(os.path.join(folder, "cell.txt"), tables.n_satom)
        operations = _read_operations(os.path.join(folder, "operations.txt"), tables.n_satom)
        n, p = tables.n_satom, tables.n_patom
        fc2 = _read_numbers(os.path.join(folder, "fc2.f64"), (n, n, 3, 3), (p, n, 3, 3))
        fc3 = _read_numbers(os.path.join(folder, "fc3.f64"), (p, n, n, 3, 3, 3))
        fourth = os.path.join(folder, "fc4.f64")
        if n > 64 and os.path.lexists(fourth):
            raise Unreadable(f"{fourth}: the cell has more than 64 atoms, the limit of fourth order")
        fc4 = _read_numbers(fourth, (p, n, n, n, 3, 3, 3, 3)) if os.path.lexists(fourth) else None
    except OSError as e:
        raise Unreadable(f"{e.filename}: {e.strerror}") from None
    return Delivery(tables, lattice, elements, positions, fc2, fc3, fc4, operations)


class Job(NamedTuple):
    """What job.txt tells of a delivery: set number and unit in words, empty where they are not stated, and the bounds that it changes."""

    set: str
    unit: str
    bounds: Dict[str, float]


def read_job(folder: Path) -> Job:
    """Read FOLDER/job.txt, in which any line may be missing; there need not be one.

    Parameters
    ----------
    folder : str or path

    Returns
    -------
    Job

    Raises
    ------
    Unreadable
        It does not hold what it should; the message says where.
    """
    path, job = os.path.join(os.fspath(folder), "job.txt"), Job("", "", {})
    if not os.path.lexists(path):
        return job
    try:
        with _Lines(path) as t:
            while words := t._words():
                job = _job(t, job, t.number, words)
    except OSError as e:
        raise Unreadable(f"{e.filename}: {e.strerror}") from None
    return job


_MEASURES = ("orders", "drift", "change", "crystal", "left")


def _job(t: _Lines, job: Job, number: int, words: List[str]) -> Job:
    name, entries = words[0], words[1:]
    if name == "unit" and len(entries) == 2:
        return job._replace(unit=f"{entries[0]}/{entries[1]}^2, ^3, ^4 at order 2, 3, 4; the lattice in {entries[1]}")
    if name not in ("set", *_MEASURES):
        raise t.bad(number, "unit asks for two entries, of energy and of length, as in: unit eV Angstrom" if name == "unit" else
                    f"it begins with {name}: a job has set, unit, {', '.join(_MEASURES)}")
    if len(entries) != 1:
        raise t.bad(number, f"{name} asks for one entry")
    if name == "set":
        n = t.integers(number, entries)[0]
        if not 1 <= n < 2**32:
            raise t.bad(number, f"set has {n}: a set number is from 1 to 4,294,967,295")
        return job._replace(set=str(n))
    x = t.reals(number, entries)[0]
    if not 0.0 <= x or float(f"{x:g}") != x:
        raise t.bad(number, f"{name} has {entries[0]}: a bound is a part of the largest number, from 0 on, of six digits at most")
    return job._replace(bounds={**job.bounds, name: x})


def units_of(folder: Path) -> Optional[Tuple[str, str]]:
    """Return the units of energy and length that a delivery's certificate states, or else its job.txt; None if neither does.

    Parameters
    ----------
    folder : str or path
    """
    found = ""
    for name, start in (("certificate.txt", "unit: "), ("job.txt", "unit ")):
        path = os.path.join(os.fspath(folder), name)
        if os.path.isfile(path) and not found:
            with open(path, encoding="utf-8", errors="replace") as f:
                found = next((line[len(start):].strip() for line in f if line.startswith(start)), "")
    words = re.fullmatch(r"(\S+)/(\S+)\^2, .*|(\S+)\s+(\S+)", found)
    if words is None or found == "not stated":
        return None
    energy, length = words[1] or words[3], words[2] or words[4]
    return energy, length


def read_supercell(folder: Path) -> Tuple[Doubles, Doubles, List[str]]:
    """Read the supercell of a delivery: lattice, positions and elements, as `crystal.operations` takes them.

    Parameters
    ----------
    folder : str or path
    """
    folder = os.fspath(folder)
    try:
        n = _read_tables(os.path.join(folder, "tables.txt")).n_satom
        lattice, elements, positions = _read_cell(os.path.join(folder, "cell.txt"), n)
    except OSError as e:
        raise Unreadable(f"{e.filename}: {e.strerror}") from None
    return lattice, positions, elements


def _read_tables(path: str) -> Tables:
    with _Lines(path) as t:
        return _tables(t)


def _tables(t: _Lines) -> Tables:
    def count(name: str) -> int:
        number, words = t.named(name, 1, "a count")
        n = t.integers(number, words)[0]
        if not 0 <= n <= 1024:
            raise t.bad(number, f"{name} is {n}: a count is from 0 to 1024")
        return n

    def entries(name: str, n: int, what: str) -> List[int]:
        number, words = t.named(name, n, what)
        return t.integers(number, words)

    n_satom, n_patom, num_trans = count("n_satom"), count("n_patom"), count("num_trans")
    p2s, s2pp = entries("p2s", n_patom, "n_patom"), entries("s2pp", n_satom, "n_satom")
    nsym_list = entries("nsym_list", n_satom, "n_satom")
    perms = [entries("perms", n_satom, "n_satom") for _ in range(num_trans)]
    t.end("the perms of the last shift")
    rows = np.array(perms, np.int64).reshape(num_trans, n_satom)
    return Tables(np.array(p2s, np.int64), np.array(s2pp, np.int64), np.array(nsym_list, np.int64), rows)


def _read_cell(path: str, n_satom: int) -> Tuple[Doubles, List[str], Doubles]:
    lattice: List[List[float]] = []
    elements: List[str] = []
    positions: List[List[float]] = []
    with _Lines(path) as t:
        for _ in range(3):
            number, words = t.named("lattice", 3, "a vector")
            lattice.append(t.reals(number, words))
        for a in range(n_satom):
            number, words = t.next(f"atom {a} of the {n_satom} that tables.txt asks for")
            if len(words) != 4:
                raise t.bad(number, f"{len(words)} words where an element and three coordinates are expected")
            elements.append(words[0])
            positions.append(t.reals(number, words[1:]))
        t.end("the last of n_satom atoms")
    found = np.array(lattice), np.array(positions).reshape(n_satom, 3)
    if not (np.isfinite(found[0]).all() and np.isfinite(found[1]).all()):
        raise Unreadable(f"{path}: a number is not finite")
    return found[0], elements, found[1]


def _read_operations(path: str, n_satom: int) -> Optional[Operations]:
    if not os.path.lexists(path):
        return None
    rotations: List[List[float]] = []
    maps: List[List[int]] = []
    with _Lines(path) as t:
        number, words = t.named("num_rot", 1, "a count")
        count = t.integers(number, words)[0]
        if not 1 <= count <= 48:
            raise t.bad(number, f"num_rot is {count}: a crystal has from 1 to 48 operations, apart from the shifts")
        for _ in range(count):
            number, words = t.named("matrix", 9, "a matrix")
            rotations.append(t.reals(number, words))
            number, words = t.named("atoms", n_satom, "n_satom")
            maps.append(t.integers(number, words))
        t.end("the atoms of the last operation")
    matrices = np.array(rotations).reshape(count, 3, 3)
    if not np.isfinite(matrices).all():
        raise Unreadable(f"{path}: a number is not finite")
    return Operations(matrices, np.array(maps, np.int64).reshape(count, n_satom))


def _read_numbers(path: str, shape: Tuple[int, ...], *others: Tuple[int, ...]) -> Doubles:
    """Of the shape, or of another one, if the file has its length."""
    with opened(path) as f:
        size = os.fstat(f.fileno()).st_size
        shape = next((other for other in others if size == 8 * math.prod(other) < 8 * math.prod(shape)), shape)
        asked = 8 * math.prod(shape)
        if size != asked:
            raise Unreadable(f"{path}: it has {size} bytes, the counts ask for {asked // 8} numbers of 8 bytes, {asked}")
        return np.fromfile(f, "<f8").reshape(shape).astype(np.float64, copy=False)


def write_delivery(folder: Path, d: Delivery, overwrite: bool = False) -> None:
    """Write the files of a delivery; the folder is made if it is not there.

    Parameters
    ----------
    folder : str or path
    d : Delivery
    overwrite : bool
        Whether files that are there are replaced.

    Raises
    ------
    FileExistsError
        A file is there, and overwrite is False.
    ValueError
        The parts do not fit each other.
    """
    folder = os.fspath(folder)
    n, p = d.tables.n_satom, d.tables.n_patom
    second = (p if np.shape(d.fc2)[:1] == (p,) else n, n, 3, 3)
    shapes = {"lattice": (3, 3), "positions": (n, 3), "fc2": second, "fc3": (p, n, n, 3, 3, 3)}
    if d.fc4 is not None:
        shapes["fc4"] = (p, n, n, n, 3, 3, 3, 3)
    for name, shape in shapes.items():
        if np.shape(getattr(d, name)) != shape:
            raise ValueError(f"{name} has the shape {np.shape(getattr(d, name))}, the tables ask for {shape}")
    if len(d.elements) != n:
        raise ValueError(f"elements has {len(d.elements)} entries, the tables ask for {n}")
    os.makedirs(folder, exist_ok=True)
    sets = {f"{name}.f64": array for name, array in d.sets.items()}
    texts = ("tables.txt", "cell.txt") if d.operations is None else ("tables.txt", "cell.txt", "operations.txt")
    paths = {name: os.path.join(folder, name) for name in (*texts, *sets)}
    there = [path for path in paths.values() if os.path.lexists(path)]
    if there and not overwrite:
        raise FileExistsError(f"{there[0]} is there; overwrite=True replaces it")
    rows: List[Tuple[str, List[float]]] = [("n_satom", [n]), ("n_patom", [p]), ("num_trans", [d.tables.num_trans])]
    rows += [(name, table.tolist()) for name, table in zip(("p2s", "s2pp", "nsym_list"), d.tables)]
    rows += [("perms", row) for row in d.tables.perms.tolist()]
    cell: List[Tuple[str, List[float]]] = [("lattice", v) for v in np.asarray(d.lattice).tolist()]
    cell += zip(d.elements, np.asarray(d.positions).tolist())
    for name, lines in (("tables.txt", rows), ("cell.txt", cell)):
        put_bytes(paths[name], overwrite, _rows(lines))
    if d.operations is not None:
        write_operations(folder, d.operations, overwrite)
    for name, array in sets.items():
        put_bytes(paths[name], overwrite, np.asarray(array).astype("<f8").tobytes())


def _rows(lines: List[Tuple[str, List[float]]]) -> bytes:
    return "".join(f"{word} {' '.join(map(repr, entries))}\n" for word, entries in lines).encode("ascii")


def write_operations(folder: Path, found: Operations, overwrite: bool = False) -> str:
    """Write FOLDER/operations.txt, by which a delivery is judged.

    Parameters
    ----------
    folder : str or path
    found : Operations
        As `crystal.operations` returns them.
    overwrite : bool
        Whether a file that is there is replaced.

    Returns
    -------
    str
        The path of the file.
    """
    lines: List[Tuple[str, List[float]]] = [("num_rot", [len(found.maps)])]
    for rotation, sent in zip(found.rotations, found.maps):
        lines += [("matrix", rotation.ravel().tolist()), ("atoms", sent.tolist())]
    path = os.path.join(os.fspath(folder), "operations.txt")
    put_bytes(path, overwrite, _rows(lines))
    return path


def put_bytes(path: str, overwrite: bool, data: bytes) -> None:
    """Writes a file as a whole."""
    def writer(new: str) -> None:
        with open(new, "wb") as f:
            f.write(data)

    _put(path, overwrite, writer)
