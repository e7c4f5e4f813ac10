"""What the library's calls, and numpy, see in a set: sums over legs, exchanged pairs, audits. For sets of every order, full (tables None) or
compact."""
from __future__ import annotations

import itertools
from typing import TYPE_CHECKING, Callable, Dict, Iterator, List, Optional, Sequence, Tuple, Union

import numpy as np

import gullyfork as gf

from .tables import Tables

if TYPE_CHECKING:
    from ._types import Doubles, Flags, Integers

_TYPE = {(0, 1): 0, (0, 2): 1, (1, 2): 2}  # of a transpose of third order, by its legs
# by order, of a full set and of a compact one
_AUDITS = {2: (gf.audit_fc2, gf.audit_compact_fc2), 3: (gf.audit_fc3, gf.audit_compact_fc3), 4: (gf.audit_fc4, gf.audit_compact_fc4)}
_DIFFERENCES = {2: (gf.difference_report_fc2, gf.difference_report_compact_fc2), 3: (gf.difference_report_fc3, gf.difference_report_compact_fc3),
                4: (gf.difference_report_fc4, gf.difference_report_compact_fc4)}
_CRYSTALS = {2: (gf.crystal_report_fc2, gf.crystal_report_compact_fc2), 3: (gf.crystal_report_fc3, gf.crystal_report_compact_fc3),
             4: (gf.crystal_report_fc4, gf.crystal_report_compact_fc4)}


def place(k: Sequence[int], atoms: int) -> str:
    """An entry in words: its atoms, and its directions as letters."""
    return ("atom " if atoms == 1 else "atoms ") + " ".join(str(i) for i in k[:atoms]) + ", " + "".join("xyz"[i] for i in k[atoms:])


def worst(a: Doubles) -> Tuple[float, Tuple[int, ...]]:
    """The largest absolute value and its place."""
    if a.size == 0:
        return 0.0, (0,) * a.ndim
    k = np.unravel_index(np.argmax(np.abs(a)), a.shape)
    return abs(float(a[k])), tuple(int(i) for i in k)


def swap(fc: Doubles, tables: Tables, a: int, b: int) -> None:
    """Exchanges two (atom, direction) pairs of every number of a compact set, in place, by a proved call. a < b."""
    order = fc.ndim // 2
    if order == 2:
        gf.true_transpose_compact_fc2(fc, tables)
    elif order == 3:
        gf.true_transpose_compact_fc3(fc, tables, _TYPE[a, b])
    else:
        gf.swap_pairs_compact_fc4(fc, tables, a, b)


def _walk(legs: int) -> List[int]:
    """Swaps of neighbours, each by its left leg, after which every order of the legs has been once, but for the one at the start."""
    if legs == 1:
        return []
    swaps: List[int] = []
    for k, between in enumerate([*_walk(legs - 1), None]):
        down = k % 2 == 0  # the last leg goes through all the others, to and fro; the others change places when it stands at an end
        swaps += range(legs - 2, -1, -1) if down else range(legs - 1)
        if between is not None:
            swaps.append(between + down)
    return swaps


def exchanged(fc: Doubles, tables: Optional[Tables]) -> Iterator[Doubles]:
    """The set with its (atom, direction) pairs in every other order, one after the other; each is good until the next."""
    order = fc.ndim // 2
    if tables is None:
        for p in itertools.islice(itertools.permutations(range(order)), 1, None):
            yield fc.transpose(*p, *(order + k for k in p))
    else:
        other = fc.copy()
        for left in _walk(order):
            swap(other, tables, left, left + 1)
            yield other


def same_bits(fc: Doubles, other: Doubles) -> Flags:
    """Entry by entry, NaN by NaN's bits."""
    same: Flags = fc.view(np.int64) == np.ascontiguousarray(other).view(np.int64)
    return same


def audit(fc: Doubles, tables: Optional[Tables]) -> gf.Audit:
    """What the proved audit says."""
    full, compact = _AUDITS[fc.ndim // 2]
    return full(fc) if tables is None else compact(fc, tables)


def difference(fc: Doubles, tables: Optional[Tables]) -> gf.Report:
    """The widest difference between permutations of the same pairs, by the proved report."""
    full, compact = _DIFFERENCES[fc.ndim // 2]
    return full(fc) if tables is None else compact(fc, tables)


def deviation(fc: Doubles, tables: Optional[Tables], rotations: Doubles, maps: Integers) -> gf.CrystalReport:
    """How far a set is from obeying operations, by the proved report."""
    full, compact = _CRYSTALS[fc.ndim // 2]
    return full(fc, rotations, maps) if tables is None else compact(fc, tables, rotations, maps)


def drift(fc: Doubles, tables: Optional[Tables]) -> Tuple[float, str]:
    """The worst sum over an atom and where it is, by the proved report."""
    if fc.ndim == 4:
        d = gf.drift_report(fc) if tables is None else gf.drift_report_compact_fc2(fc, tables)
        return d.value, f"along {d.along.name.lower()}, {place((d.atom, *d.directions), 1)}"
    if fc.ndim == 6:
        leg: Union[gf.LegDrift, gf.LegSums] = gf.drift_report_fc3(fc) if tables is None else gf.drift_report_compact_fc3(fc, tables)
    else:
        leg = gf.drift_report_fc4(fc) if tables is None else gf.drift_report_compact_fc4(fc, tables)
    return leg.value, f"over leg {leg.leg}, {place((*leg.atoms, *leg.directions), len(leg.atoms))}"


def sums(fc: Doubles, tables: Optional[Tables], leg: int) -> Doubles:
    """The sums over a leg's atom. Over the first leg of a compact set: those over the last one, the two exchanged."""
    last = fc.ndim // 2 - 1
    if leg == last == 1 and tables is None and fc.shape[0] == fc.shape[1]:
        return gf.row_sums_fc2(fc)
    if leg > 0 or tables is None:
        over: Doubles = fc.sum(axis=leg)
        return over
    other = fc.copy()
    swap(other, tables, 0, last)
    return sums(other, tables, last)


def symmetrized(fc: Doubles, tables: Optional[Tables], level: int) -> Doubles:
    """A copy without drift and alike under exchange, by the proved calls. level: of second order; above it one level leaves rounding alone."""
    order = fc.ndim // 2
    if order == 2:
        out = fc.copy() if tables is None else gf.compact_to_full_fc2(fc, tables)
        gf.perm_trans_symmetrize_fc(out, level)
        if tables is None:
            return out
        out = np.ascontiguousarray(out[tables.p2s])  # the compact call leaves drift behind
        gf.set_index_permutation_symmetry_compact_fc(out, tables, False)
        return out
    out = fc.copy()
    if tables is None:
        (gf.perm_trans_symmetrize_fc3 if order == 3 else gf.perm_trans_symmetrize_fc4)(out)
    else:
        (gf.perm_trans_symmetrize_compact_fc3 if order == 3 else gf.perm_trans_symmetrize_compact_fc4)(out, tables)
    return out


# ---- verdicts of the proved calls, in the words of delivery/measures.c

def number(x: float, bits: bool = True) -> str:
    """A number to read, and all its bits, as C's %a has them.

    >>> number(0.1)
    '0.1 (0x1.999999999999ap-4)'
    """
    if x != x or not bits:
        return f"{x:.6g}"
    digits, power, exponent = x.hex().partition("p")
    if "." in digits:
        digits = digits.rstrip("0").rstrip(".")
    return f"{x:.6g} ({digits}{power}{exponent})"


_LEGS: Dict[int, Tuple[Callable[[Doubles], Union[gf.LegDrift, gf.LegSums]], Callable[[Doubles, Tables], gf.LegSums]]] = {
    3: (gf.drift_report_fc3, gf.drift_report_compact_fc3), 4: (gf.drift_report_fc4, gf.drift_report_compact_fc4)}


def drift_words(fc: Doubles, tables: Optional[Tables], bits: bool = True) -> Tuple[float, str]:
    """The proved drift report of a set, of a compact one of what it reads out to: the worst sum, and in words. bits: whether these have its bits."""
    if fc.ndim == 4:
        d = gf.drift_report(fc) if tables is None else gf.drift_report_compact_fc2(fc, tables)
        return d.value, _drift(d.kind, d.value, f"along {d.along.name.lower()}, atom {d.atom}", d.directions, bits)
    full, compact = _LEGS[fc.ndim // 2]
    s = full(fc) if tables is None else compact(fc, tables)
    return s.value, _drift(s.kind, s.value, f"over leg {s.leg}, atoms {' '.join(map(str, s.atoms))}", s.directions, bits)


def _drift(kind: gf.DriftKind, value: float, where: str, directions: Sequence[int], bits: bool) -> str:
    if kind is gf.DriftKind.STILL:
        return "all sums are zero"
    return f"worst sum {number(value, bits)} {where}, directions {' '.join(map(str, directions))}"


def audit_words(audited: gf.Audit, compact: bool, worst: str = "") -> str:
    """What an audit says: alike, or the first place with its numbers, after the worst difference where it is given."""
    if audited.place is None or audited.order is None or audited.here is None or audited.there is None:
        return "alike"
    order = len(audited.order)
    atoms, directions = ([str(k) for k in part] for part in (audited.place[:order], audited.place[order:]))
    if compact:
        atoms[0] += " (of the primitive cell)"
    return (f"unlike, {worst + '; ' if worst else ''}first at atoms {' '.join(atoms)}, directions {' '.join(directions)}: {number(audited.here)}, and "
            f"{number(audited.there)} with the pairs in the order {' '.join(map(str, audited.order))}")
