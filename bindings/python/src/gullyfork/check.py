"""The checker: what is wrong with a set of force constants, a measure to a line with its bound, and one verdict.

`check(found)` works out the table MEASURES on a set; `python -m gullyfork check FILE` prints it.

>>> import numpy as np
>>> from gullyfork.files import ForceConstants
>>> finding = check(ForceConstants(np.zeros((1, 1, 3, 3)) + np.eye(3), "an example"))
>>> finding.faults
['sums over an atom that are not zero']
"""
from __future__ import annotations

import argparse
import json
import math
import os
import sys
from typing import TYPE_CHECKING, Callable, Dict, List, NamedTuple, Optional, Tuple, Union

import numpy as np

import gullyfork as gf

from . import _look as look
from . import certificate, crystal, files, picture
from ._commands import DONE, FAULTS, added
from ._progress import Tell, quiet, terminal
from .crystal import Cell, Unknown, read_cell
from .files import ForceConstants, Unreadable
from .tables import Tables

if TYPE_CHECKING:
    from ._commands import Commands
    from ._types import Doubles

    Json = Union[None, bool, int, float, str, List["Json"], Dict[str, "Json"]]

__all__ = ["Bounds", "Cell", "Finding", "MEASURES", "Measure", "Reading", "Seen", "Subject", "check", "read_cell"]

_LARGEST, _SMALLEST = 1e30, 1e-290  # of the largest number of a set, in any unit in use


class Bounds(NamedTuple):
    """The bounds of a check.

    Attributes
    ----------
    tolerance : float
        Of sums that should vanish and of differences under exchange of atoms, as a part of the largest number.
    crystal : float
        Of differences under the crystal's operations, as a part of the largest number. It is wider: sets from fits or from finite
        displacements carry noise that a symmetrizer has not touched; a swapped leg or another crystal gives some tenths.
    lowest, highest : float
        Of frequencies, in THz. Acoustic modes are a little off zero by rounding; no crystal vibrates above the highest.
    """

    tolerance: float = 1e-6
    crystal: float = 1e-2
    lowest: float = -0.1
    highest: float = 150.0


class Subject:
    """A set that is judged, with what is known of it so far.

    Parameters
    ----------
    found : ForceConstants
    tables : Tables or None
    cell : Cell or None
    level : int
        Of the symmetrizer of second order.
    tell : callable
        Is given the step that begins.
    """

    def __init__(self, found: ForceConstants, tables: Optional[Tables], cell: Optional[Cell], level: int, tell: Tell) -> None:
        self.found, self.fc, self.order, self.full = found, found.array, found.order, found.full
        self.given, self.cell, self.level, self.tell = tables, cell, level, tell
        self.finite = True
        self.tables_fit = True
        self.scale = 0.0
        self.symmetrized: Optional[Doubles] = None
        self._frequencies: Optional[Tuple[float, float, int]] = None

    def numbers(self) -> None:
        """Raise Unknown if a number is not finite."""
        if not self.finite:
            raise Unknown("not worked out: a number is not finite")

    def whole(self) -> Optional[Tables]:
        """Return the tables of a compact set, None for a full one; Unknown where they are not there or do not fit."""
        self.numbers()
        if not self.tables_fit:
            raise Unknown("not worked out: the shift tables are not those of this set")
        if not self.full and self.given is None:
            raise Unknown("not known without shift tables (--cell)")
        return None if self.full else self.given

    def part(self, value: float) -> float:
        """Return a value as a part of the largest number.

        Parameters
        ----------
        value : float
        """
        return value / self.scale if self.scale > 0.0 else value

    def frequencies(self) -> Tuple[float, float, int]:
        """Return the lowest and the highest frequency, and at how many wave vectors."""
        if self.order != 2:
            raise Unknown("of second order only")
        self.whole()
        if self.cell is None or self.cell.phonon is None:
            raise Unknown("not known without a cell and phonopy (--cell)")
        if self._frequencies is None:
            self._frequencies = crystal.frequencies(self.cell.phonon, self.fc)
        return self._frequencies


class Seen(NamedTuple):
    """What a measure found: its value, what is behind it in words, and what worked it out, if not what the measure says."""

    value: float
    words: str
    by: Optional[str] = None


class Measure(NamedTuple):
    """An entry of the table of measures: a report that is added is one more.

    Attributes
    ----------
    name, unit : str
    by : str
        What works it out: the proved library, or numpy, phonopy, which are not proved.
    work : callable
        Works it out on a Subject and returns Seen, or raises Unknown with the reason.
    least, most : callable
        The bound, of Bounds; None: no bound on this side.
    fault : str
        What is wrong with a set that is beyond it.
    """

    name: str
    unit: str
    by: str
    work: Callable[[Subject], Seen]
    least: Callable[[Bounds], Optional[float]]
    most: Callable[[Bounds], Optional[float]]
    fault: str


class Reading(NamedTuple):
    """A measure of a set, and whether it is within its bound. value is None where it could not be worked out; words has the reason."""

    name: str
    value: Optional[float]
    unit: str
    least: Optional[float]
    most: Optional[float]
    by: str
    words: str
    fault: Optional[str]

    @property
    def line(self) -> str:
        """As the command prints it."""
        mark = "FAULT" if self.fault else "?" if self.value is None else "-" if self.least is None and self.most is None else "ok"
        if self.value is None:
            return f"{mark:<6}{self.name:<14}{self.words}"
        bound = "" if self.most is None else f", at most {self.most:g}"
        if self.least is not None:
            bound = f", at least {self.least:g}" if self.most is None else f", {self.least:g} to {self.most:g}"
        return f"{mark:<6}{self.name:<14}{self.value:<10.4g} {self.unit}{bound}; {self.words} [{self.by}]"

    def json(self) -> Dict[str, Json]:
        """As --json has it."""
        known = {k: v if not isinstance(v, float) or math.isfinite(v) else str(v) for k, v in self._asdict().items()}
        return {**known, "fault": self.fault is not None}


# ---- the measures

def _tables(s: Subject) -> Seen:
    if s.given is None:
        raise Unknown("none" if s.full else "none: --cell gives them; without them only sums over the other atoms are judged")
    t, shape = s.given, s.fc.shape
    s.tables_fit = False
    if shape[:2] != (t.n_satom if s.full else t.n_patom, t.n_satom):
        return Seen(1, f"of {t.n_patom} x {t.n_satom} atoms, the set is of {shape[0]} x {shape[1]}: another cell")
    try:
        t.check()
    except gf.Refused as e:
        return Seen(1, f"{e.words}: {e.argument}: {e.detail}")
    if s.found.p2s is not None and not s.full and not np.array_equal(s.found.p2s, t.p2s):
        return Seen(1, f"rows of atoms {', '.join(map(str, s.found.p2s))}; the primitive cell has {', '.join(map(str, t.p2s))}")
    s.tables_fit = True
    return Seen(0, f"{t.num_trans} shifts, every rule is kept")


def _finite(s: Subject) -> Seen:
    odd = np.argwhere(~np.isfinite(s.fc))
    if len(odd):
        s.finite = False
        nan = int(np.isnan(s.fc).sum())
        return Seen(len(odd), f"{nan:,} NaN, {len(odd) - nan:,} infinite, the first at {look.place(odd[0], s.order)}")
    s.scale = look.worst(s.fc)[0]
    return Seen(0, "all finite")


def _size(s: Subject) -> Seen:
    s.numbers()
    if s.scale == 0.0:
        raise Unknown("all numbers are zero")
    return Seen(s.scale, f"in {s.found.unit}" if s.found.unit else "in the file's unit")


def _rows(s: Subject) -> Seen:
    s.numbers()
    empty = ~s.fc.any(axis=tuple(range(s.order, 2 * s.order)))
    rows = np.flatnonzero(empty.all(axis=tuple(range(1, s.order))))
    named = f": {', '.join(str(r) for r in rows[:8])}{' ..' if len(rows) > 8 else ''}" if len(rows) else ""
    return Seen(len(rows), f"{len(rows)} of {len(s.fc)} rows{named}; {int(empty.sum()):,} of {empty.size:,} blocks are zero")


def _drift(s: Subject) -> Seen:
    s.numbers()
    try:
        t = s.whole()
    except Unknown:
        return _sums(s)
    value, where = look.drift(s.fc, t)
    return Seen(s.part(value), f"worst sum {value:.3e} {where}")


def _sums(s: Subject) -> Seen:
    """Of a compact set without its tables, over the other atoms."""
    value, words = 0.0, ""
    for leg in range(s.order - 1, 0, -1):
        most, k = look.worst(look.sums(s.fc, None, leg))
        if not words or most > value:
            value, words = most, f"worst sum {most:.3e} over leg {leg}, {look.place(k, s.order - 1)}"
    return Seen(s.part(value), words + "; over the first leg not known without shift tables", "numpy")


def _exchange(s: Subject) -> Seen:
    report = look.difference(s.fc, s.whole())
    if report.place is None or report.order is None:
        return Seen(0.0, "no number changes, in any order of its legs")
    order = " ".join(map(str, report.order))
    return Seen(s.part(report.value), f"widest difference {report.value:.3e} at {look.place(report.place, s.order)}, pairs in the order {order}")


def _audit(s: Subject) -> Seen:
    t = s.whole()
    audited = look.audit(s.fc, t)
    return Seen(0 if audited.alike else 1, look.audit_words(audited, t is not None) + " (not judged: rounding alone makes numbers unlike)")


def _crystal(s: Subject) -> Seen:
    t = s.whole()
    if s.cell is None or not s.cell.elements:
        raise Unknown("not known without a cell (--cell)")
    try:
        found = crystal.operations((s.cell.lattice, s.cell.positions, s.cell.elements))
    except (ImportError, ValueError) as e:
        raise Unknown(str(e)) from None
    d = look.deviation(s.fc, t, found.rotations, found.maps)
    if d.place is None:
        return Seen(0.0, f"{len(found.maps)} operations; all are obeyed exactly")
    return Seen(s.part(d.value), f"{len(found.maps)} operations; widest difference {d.value:.3e} under operation {d.operation}, "
                                 f"{look.place(d.place, s.order)}")


def _lowest(s: Subject) -> Seen:
    low, _, count = s.frequencies()
    return Seen(low, f"of {count} wave vectors; negative: imaginary")


def _highest(s: Subject) -> Seen:
    _, high, count = s.frequencies()
    return Seen(high, f"of {count} wave vectors")


def _symmetrizing(s: Subject) -> Seen:
    s.symmetrized = look.symmetrized(s.fc, s.whole(), s.level)
    change = gf.set_difference(s.symmetrized, s.fc)
    if change.place is None:
        return Seen(0.0, "no number would change")
    return Seen(s.part(change.value), f"a number would change by {change.value:.3e} at most, at {look.place(change.place, s.order)}")


def _none(_: Bounds) -> Optional[float]:
    return None


def _zero(_: Bounds) -> Optional[float]:
    return 0.0


_LIBRARY, _NUMPY, _PHONOPY = "proved", "numpy", "phonopy"
_PART = "of the largest"

MEASURES: Tuple[Measure, ...] = (
    Measure("tables", "faults", _LIBRARY, _tables, _none, _zero, "tables of another cell, or that break a rule"),
    Measure("finite", "not finite", _NUMPY, _finite, _none, _zero, "numbers that are not finite"),
    Measure("size", "largest number", _NUMPY, _size, lambda b: _SMALLEST, lambda b: _LARGEST, "numbers of no possible size: is their byte order right?"),
    Measure("zero rows", "rows", _NUMPY, _rows, _none, _zero, "rows that are zero throughout"),
    Measure("drift", _PART, _LIBRARY, _drift, _none, lambda b: b.tolerance, "sums over an atom that are not zero"),
    Measure("exchange", _PART, _LIBRARY, _exchange, _none, lambda b: b.tolerance,
            "numbers that change when atoms are exchanged"),
    Measure("audit", "places", _LIBRARY, _audit, _none, _none, ""),
    Measure("crystal", _PART, "proved, for the operations that spglib finds", _crystal, _none, lambda b: b.crystal,
            "numbers that do not obey the crystal's operations"),
    Measure("lowest", "THz", _PHONOPY, _lowest, lambda b: b.lowest, _none, "imaginary frequencies"),
    Measure("highest", "THz", _PHONOPY, _highest, _none, lambda b: b.highest, "frequencies that no crystal has: is the unit right?"),
    Measure("symmetrizing", _PART, _LIBRARY, _symmetrizing, _none, _none, ""),
)
"""What is worked out of a set, in this order."""


class Finding(NamedTuple):
    """What a check found.

    Attributes
    ----------
    readings : list of Reading
        One for each measure.
    symmetrized : ndarray of float64, or None
        The set without drift and alike under exchange; None where it could not be worked out.
    """

    readings: List[Reading]
    symmetrized: Optional[Doubles]

    @property
    def faults(self) -> List[str]:
        """What is wrong, in words; none: the set is clean."""
        return [r.fault for r in self.readings if r.fault]

    @property
    def lines(self) -> List[str]:
        """As the command prints them."""
        return [r.line for r in self.readings]

    def reading(self, name: str) -> Reading:
        """Return the reading of a measure.

        Parameters
        ----------
        name : str
        """
        return next(r for r in self.readings if r.name == name)


def _read(measure: Measure, s: Subject, bounds: Bounds) -> Reading:
    least, most = measure.least(bounds), measure.most(bounds)
    try:
        seen = measure.work(s)
    except Unknown as e:
        return Reading(measure.name, None, measure.unit, least, most, measure.by, str(e), None)
    within = (least is None or seen.value >= least) and (most is None or seen.value <= most)
    return Reading(measure.name, float(seen.value), measure.unit, least, most, seen.by or measure.by, seen.words, None if within else measure.fault)


def check(found: ForceConstants, cell: Union[Cell, Tables, None] = None, bounds: Bounds = Bounds(), level: int = 3, tell: Tell = quiet) -> Finding:
    """Judge a set by every measure of MEASURES.

    Parameters
    ----------
    found : ForceConstants
        As `files.read` returns it, or made of an array.
    cell : Cell or Tables, optional
        What is known of the supercell. Without the tables of a compact set only sums over its other atoms are judged; the crystal's
        operations and the frequencies need a cell.
    bounds : Bounds
        Beyond which a measure is a fault.
    level : int
        Of the symmetrizer of second order.
    tell : callable
        Is given the step that begins.

    Returns
    -------
    Finding

    Raises
    ------
    Refused
        1: more atoms than the library takes.

    Examples
    --------
    >>> import numpy as np
    >>> fc = np.random.default_rng(1).standard_normal((4, 4, 3, 3))
    >>> gf.perm_trans_symmetrize_fc(fc, 3)
    >>> check(ForceConstants(fc, "an example")).faults
    []
    >>> fc[0, 1, 0, 0] += 0.5
    >>> check(ForceConstants(fc, "an example")).reading("exchange").words
    'widest difference 5.000e-01 at atoms 0 1, xx, pairs in the order 1 0'
    """
    tables = cell.tables if isinstance(cell, Cell) else cell
    s = Subject(found, tables, cell if isinstance(cell, Cell) else None, level, tell)
    readings = []
    for measure in MEASURES:
        tell(f"{found.source}: {measure.name}")
        readings.append(_read(measure, s, bounds))
    tell("")
    return Finding(readings, s.symmetrized)


# ---- the command

_COMMAND = """Judge a file or a delivery folder: every measure with its bound, and one verdict.

FILE: FORCE_CONSTANTS, force_constants.hdf5, fc2.hdf5, fc3.hdf5, fc4.hdf5, .npy, or a delivery folder; full or compact; with --cell also
ShengBTE's FORCE_CONSTANTS_3RD (--symmetrize writes an hdf5 or .npy file of it). --cell names the
phonopy.yaml or phono3py.yaml of the set: its shift tables, by which the first atom of a compact set is judged, its crystal, whose operations
spglib finds, and the frequencies, by phonopy. A delivery has its own cell. --symmetrize writes the symmetrized set; of an hdf5 file
everything else is kept. Of a delivery with a certificate each line is held against the files, as `verify` does."""


def command(commands: Commands) -> None:
    """Add the sub-command."""
    c = added(commands, "check", _run, _COMMAND)
    default = Bounds()
    c.add_argument("file", metavar="FILE")
    c.add_argument("--cell", metavar="YAML", help="a phonopy.yaml or phono3py.yaml")
    c.add_argument("--tolerance", type=_bound, default=default.tolerance, help="of drift and exchange, as a part of the largest number (%(default)s)")
    c.add_argument("--crystal", type=_bound, default=default.crystal, help="the same of the crystal's operations (%(default)s)")
    c.add_argument("--lowest", type=float, default=default.lowest, metavar="THZ", help="of the lowest frequency (%(default)s)")
    c.add_argument("--highest", type=float, default=default.highest, metavar="THZ", help="of the highest frequency (%(default)s)")
    c.add_argument("--level", type=int, default=3, help="of the symmetrizer of second order (%(default)s)")
    c.add_argument("--json", action="store_true", help="print one JSON object")
    c.add_argument("--plot", metavar="PNG", help="draw the set too, as `picture` does")
    c.add_argument("--symmetrize", metavar="OUT", help="write the symmetrized set to a file, or folder, that is not there yet")
    c.add_argument("--overwrite", action="store_true", help="let --symmetrize replace what is there, also its own input")


def _bound(word: str) -> float:
    x = float(word)
    if not 0.0 <= x < math.inf:
        raise argparse.ArgumentTypeError(f"{word}: a number from 0 on")
    return x


class _Report:
    """What the command says, as lines or as one JSON object."""

    def __init__(self, as_json: bool) -> None:
        self.as_json = as_json
        self.sets: List[Json] = []
        self.faults: List[str] = []
        self.more: Dict[str, Json] = {}

    def say(self, words: str) -> None:
        if not self.as_json:
            print(words)

    def judged(self, name: str, found: ForceConstants, finding: Finding) -> None:
        kind, shape = "full" if found.full else "compact", found.array.shape[:found.order]
        self.say(f"{name}: {kind} set of order {found.order} ({found.source}), {' x '.join(map(str, shape))} atoms, {found.array.size:,} numbers")
        for line in finding.lines:
            self.say(line)
        self.sets.append({"name": name, "order": found.order, "kind": kind, "atoms": list(shape), "measures": [r.json() for r in finding.readings]})

    def ended(self) -> int:
        if self.as_json:
            verdict = "clean" if not self.faults else "faults"
            print(json.dumps({"sets": self.sets, **self.more, "faults": list(self.faults), "verdict": verdict}, indent=1))
        self.say("VERDICT " + ("clean" if not self.faults else "; ".join(self.faults)))
        return FAULTS if self.faults else DONE


def _run(a: argparse.Namespace) -> int:
    if a.symmetrize and not a.overwrite and os.path.lexists(a.symmetrize):
        raise Unreadable(f"{a.symmetrize} is there already: it is not overwritten (--overwrite)")
    return _delivery(a) if os.path.isdir(a.file) else _file(a)


def _bounds(a: argparse.Namespace) -> Bounds:
    return Bounds(a.tolerance, a.crystal, a.lowest, a.highest)


def _draw(report: _Report, path: str, name: str, found: ForceConstants, finding: Finding, cell: Optional[Cell], tell: Tell,
          length: Optional[str] = None) -> None:
    if not np.isfinite(found.array).all():
        report.say("drawn   nothing: numbers that are not finite")
    elif cell is not None and finding.symmetrized is None:
        report.say("drawn   nothing: tables that are not of this set")
    else:
        tell(f"drawing of {path}")
        picture.draw(path, name, found, finding.symmetrized, cell, length)
        tell("")
        report.say(f"drawn   {path}")
        report.more["drawn"] = path


def _written(report: _Report, a: argparse.Namespace, known: bool) -> None:
    if a.symmetrize:
        report.more["written"] = a.symmetrize if known else None
        report.say("written " + (a.symmetrize if known else "nothing: the set cannot be symmetrized"))


def _file(a: argparse.Namespace) -> int:
    report, tell = _Report(a.json), terminal()
    plots = picture.paths(a.plot, []) if a.plot else []
    found, cell = crystal.read_set(a.file, a.cell)
    finding = check(found, cell, _bounds(a), a.level, tell)
    report.judged(a.file, found, finding)
    if plots:
        _draw(report, plots[0], a.file, found, finding, cell, tell)
    out = finding.symmetrized
    if a.symmetrize and out is not None:
        like = a.file if found.source.startswith("hdf5") else None
        files.write(a.symmetrize, out, found.p2s, found.unit, a.overwrite, like)
    _written(report, a, out is not None)
    report.faults += finding.faults
    return report.ended()


def _certified(report: _Report, folder: str) -> None:
    """What holds of the delivery's certificate, if it has one; what does not is a fault."""
    path = os.path.join(folder, certificate.NAME)
    if not os.path.lexists(path):
        return
    report.say(f"{path}:")
    held = certificate.look_at(folder, report.say)
    report.more["certificate"] = [{"name": line.name, "found": line.found, "stated": line.stated, "holds": line.holds} for line in held.lines]
    report.faults += [f"{certificate.NAME}: {name}" for name in held.wrong]
    report.faults += [] if held.whole else [f"{certificate.NAME}: the delivery cannot be read"]


def _delivery(a: argparse.Namespace) -> int:
    if a.cell:
        raise Unreadable(f"{a.file}: a delivery has its own cell; leave --cell out")
    report, tell = _Report(a.json), terminal()
    _certified(report, a.file)
    try:
        d = files.read_delivery(a.file)
    except Unreadable as e:
        if not report.faults:
            raise
        print(f"gullyfork: {e}", file=sys.stderr)
        return report.ended()
    cell = crystal.of_supercell(d.tables, d.lattice, d.positions, d.elements)
    plots = picture.paths(a.plot, list(d.sets)) if a.plot else []
    units = files.units_of(a.file)
    sets: Dict[str, Optional[Doubles]] = {}
    for short, array in d.sets.items():
        name = f"{short}.f64"
        found, path = ForceConstants(array, name, None, f"{units[0]}/{units[1]}^{array.ndim // 2}" if units else None), os.path.join(a.file, name)
        finding = check(found, cell, _bounds(a), a.level, tell)
        report.judged(path, found, finding)
        report.faults += [f"{name}: {fault}" for fault in finding.faults]
        if plots:
            _draw(report, plots[len(sets)], path, found, finding, cell, tell, units[1] if units else None)
        sets[short] = finding.symmetrized
    known = {short: array for short, array in sets.items() if array is not None}
    if a.symmetrize and len(known) == len(sets):
        files.write_delivery(a.symmetrize, d._replace(fc2=known["fc2"], fc3=known["fc3"], fc4=known.get("fc4")), a.overwrite)
    _written(report, a, len(known) == len(sets))
    return report.ended()
