"""What the library says of a delivery, in the words of delivery/verdicts.c and measures.c, and whether that is a fault."""
from __future__ import annotations

import math
from typing import TYPE_CHECKING, Callable, Dict, List, NamedTuple, Optional, Sequence, Tuple

import numpy as np

import gullyfork as gf

from . import _look as look

if TYPE_CHECKING:
    from ._types import Doubles
    from .files import Delivery
    from .tables import Tables

_LARGEST, _SMALLEST = 1e30, 1e-290  # of the largest number of a set, in any unit in use
NO_OPERATIONS = "no operations are given"


class Verdict(NamedTuple):
    """What is found, in words, and whether it is a fault."""

    words: str
    fault: bool = False


class Bounds(NamedTuple):
    """The bounds of a delivery, each a part of the set's largest number; docs/DELIVERIES.md has the reason of each default.

    Attributes
    ----------
    orders : float
        Between the orders of the same legs, before the job.
    drift : float
        Of sums over an atom, before the job.
    change : float
        By how much the job may change a number.
    crystal : float
        Of deviations from the crystal's operations, before and after.
    left : float
        Of sums over an atom, after the job.
    """

    orders: float = 3e-3
    drift: float = 1e-2
    change: float = 3e-3
    crystal: float = 5e-3
    left: float = 1e-9

    @property
    def words(self) -> str:
        """As a certificate has them: a bound that is not the default is shown beside it."""
        pairs = zip(self._fields, self, Bounds())
        return ", ".join(f"{name} {x:g}" + ("" if x == default else f" (default {default:g})") for name, x, default in pairs)

    @property
    def wider(self) -> bool:
        """Whether one of them is wider than its default."""
        return any(x > default for x, default in zip(self, Bounds()))

    @staticmethod
    def parsed(words: str) -> Optional[Bounds]:
        """The bounds of such words; None if they are not of that form, or one judges nothing."""
        try:
            found = Bounds(*(float(part.split(" ")[1]) for part in words.split(", ")))
        except (ValueError, IndexError, TypeError):
            return None
        return found if found.words == words and all(0.0 <= x <= most for x, most in zip(found, WIDEST)) else None


WIDEST = Bounds(3e-2, 1e-1, 3e-2, 5e-2, 1e-8)  # ten times as wide: a set that is farther off is not to be delivered


# ---- words

def _digits(x: float) -> str:
    return f"{x:.6g}"


def _at(q: int, fc: Doubles, full: bool) -> str:
    """Where the number of an address is."""
    return _place([int(k) for k in np.unravel_index(q, fc.shape)], fc.ndim // 2, full)


def _place(k: Sequence[int], order: int, full: bool) -> str:
    atoms, directions = ([str(i) for i in part] for part in (k[:order], k[order:]))
    first = atoms[0] + ("" if full else " (of the primitive cell)")
    return f"atoms {' '.join([first, *atoms[1:]])}, directions {' '.join(directions)}"


def _largest(fc: Doubles) -> float:
    return float(np.fmax.reduce(np.abs(fc), axis=None, initial=0.0))


def _judged(value: float, largest: float, at_most: float, where: str) -> Verdict:
    part = 0.0 if value == 0.0 else value / largest if largest else math.nan if value != value else math.inf
    return Verdict(f"{_digits(part)} of the largest, at most {at_most:g}: {where}", not part <= at_most)


def states_fault(words: str, at_most: float) -> bool:
    """Whether words of a measure, as a certificate states them, are above their bound, or have another bound than this."""
    part, found, rest = words.partition(" of the largest, at most ")
    try:
        bound = float(rest.split(":")[0])
        return not (found and float(part) <= bound) or bound != at_most
    except ValueError:
        return True


# ---- the cell

def counts(d: Delivery) -> Verdict:
    return Verdict(f"{d.tables.n_satom} atoms, {d.tables.n_patom} in the primitive cell, {d.tables.num_trans} shifts")


def cell(d: Delivery) -> Verdict:
    formula = {name: d.elements.count(name) for name in d.elements}
    runs: List[str] = []
    a = 0
    while a < len(d.elements):
        b = a
        while b + 1 < len(d.elements) and d.elements[b + 1] == d.elements[a]:
            b += 1
        runs.append(f"{d.elements[a]} {a}" + ("" if a == b else f"-{b}"))
        a = b + 1
    (p, s, t), (q, u, v), (r, w, x) = d.lattice.T.tolist()
    volume = abs(p * (u * x - v * w) - s * (q * x - v * r) + t * (q * w - u * r))
    lengths = [math.sqrt(i * i + j * j + k * k) for i, j, k in d.lattice.tolist()]
    return Verdict(f"{' '.join(f'{name}{n}' for name, n in formula.items())}: {', '.join(runs)}; vectors of {' '.join(map(_digits, lengths))}, "
                   f"volume {look.number(volume)}")


def tables(d: Delivery) -> Verdict:
    try:
        d.tables.check()
    except gf.Refused as e:
        return Verdict(e.words, True)
    return Verdict("every rule is kept")


def _sends(d: Delivery, turn: Doubles, near: float, row: Sequence[int]) -> Tuple[bool, str]:
    """Whether the positions, moved by the matrix and the shift that takes atom 0 to its image, stand where the row says, each atom on one of its
    element; and what is odd."""
    n = d.tables.n_satom
    if not n or min(row) < 0 or max(row) >= n:
        return False, ""
    pos = d.positions
    moved = np.zeros((n, 3))
    with np.errstate(all="ignore"):
        for x in range(3):
            total = np.full(n, pos[row[0], x])
            for y in range(3):
                total = total + turn[x, y] * (pos[:, y] - pos[0, y])
            moved[:, x] = total
    match = gf.compute_permutation(d.lattice.T, near, pos, moved)
    odd = f": {match.words}" if match.pair else ""
    same = bool(match.found and np.array_equal(match.slots, row))
    other = next((a for a in range(n) if same and d.elements[a] != d.elements[row[a]]), None)
    if other is None:
        return same, odd
    return False, odd or f": {d.elements[other]} {other} goes to {d.elements[row[other]]} {row[other]}"


def positions(d: Delivery) -> Verdict:
    seen = [_sends(d, np.eye(3), 1e-5, row) for row in d.tables.perms.tolist()]
    same = [fits for fits, _ in seen]
    words = f"{sum(same)} of {len(seen)} shifts send them as their row of the tables says"
    if all(same):
        return Verdict(words)
    return Verdict(f"{words}; not shift {same.index(False)}{next((odd for _, odd in seen if odd), '')}", True)


def _product(a: Doubles, b: Doubles) -> Doubles:
    """With the roundings of delivery/verdicts.c."""
    out: Doubles = a[:, :1] * b[0] + a[:, 1:2] * b[1] + a[:, 2:] * b[2]
    return out


def _on_positions(lattice: Doubles, r: Doubles) -> Optional[Doubles]:
    """The same operation on positions in the lattice's vectors; None if the lattice has no such operation."""
    with np.errstate(all="ignore"):
        volume = float(lattice[0] @ np.cross(lattice[1], lattice[2]))
        inverse = np.array([[lattice[(y + 1) % 3, (x + 1) % 3] * lattice[(y + 2) % 3, (x + 2) % 3]
                             - lattice[(y + 1) % 3, (x + 2) % 3] * lattice[(y + 2) % 3, (x + 1) % 3] for y in range(3)] for x in range(3)]) / volume
        exact = _product(inverse, _product(r, lattice))
        turn: Doubles = np.rint(exact)
        return turn if (np.abs(exact - turn) <= 1e-3).all() else None


def operations(d: Delivery) -> Verdict:
    if d.operations is None:
        return Verdict(NO_OPERATIONS)
    matrices, maps = d.operations
    seen: List[Tuple[bool, str]] = []
    for r, row in zip(matrices, maps.tolist()):
        turn = _on_positions(d.lattice.T, r) if (np.abs(_product(r, r.T) - np.eye(3)) <= 1e-4).all() else None
        seen.append((False, "") if turn is None else _sends(d, turn, 1e-4, row))
    fit = [good for good, _ in seen]
    lost = next(((a, b) for a in range(len(maps)) for b in range(len(maps))
                 if not (np.abs(matrices - _product(matrices[a], matrices[b])) <= 1e-3).all(axis=(1, 2)).any()), None)
    group = "they are a group" if lost is None else f"they are no group: operation {lost[0]} after operation {lost[1]} is none of them"
    words = f"{sum(fit)} of {len(fit)} send the atoms as they say; {group}"
    if not all(fit):
        words += f"; not operation {fit.index(False)}{next((odd for _, odd in seen if odd), '')}"
    return Verdict(words, lost is not None or not all(fit))


# ---- a set: tables is None for a full one

def size(fc: Doubles, t: Optional[Tables]) -> Verdict:
    flat = fc.ravel()
    odd = np.flatnonzero(~(np.abs(flat) <= _LARGEST))
    if odd.size:
        at = _at(int(odd[0]), fc, t is None)
        return Verdict(f"the number of {at} is {_digits(float(flat[odd[0]]))}, and no force constant is larger than {_LARGEST:g}", True)
    most = int(np.abs(flat).argmax()) if flat.size else 0
    if not flat.size or flat[most] == 0.0:
        return Verdict("all numbers are zero", True)
    at, x = _at(most, fc, t is None), float(flat[most])
    if abs(x) < _SMALLEST:
        return Verdict(f"the largest number, of {at}, is {_digits(x)}, and no force constants are all that small", True)
    squares = 0.0
    for part in np.array_split(flat, 1 + flat.size // 2**20):  # one after the other, as C adds them
        squares = float(np.cumsum(np.concatenate(([squares], part * part)))[-1])
    return Verdict(f"largest number {look.number(x)} at {at}; sum of squares {look.number(squares)}")


def on_site(fc: Doubles, t: Optional[Tables]) -> Verdict:
    atoms = range(len(fc)) if t is None else t.p2s.tolist()
    smallest, least = math.inf, (0, 0)
    for i, atom in enumerate(atoms):
        for k in range(3):
            if 0 <= atom < fc.shape[1] and not fc[i, atom, k, k] >= smallest:
                smallest, least = float(fc[i, atom, k, k]), (i, k)
    first = "" if t is None else " (of the primitive cell)"
    return Verdict(f"smallest number {look.number(smallest)} at atom {least[0]}{first}, direction {least[1]}", not smallest > 0.0)


def _refused(work: Callable[..., Verdict]) -> Callable[..., Verdict]:
    """A refusal is a fault."""
    def tried(*given: object) -> Verdict:
        try:
            return work(*given)
        except gf.Refused as e:
            return Verdict(f"refused, {e.number}: {e.words}", True)
    return tried


def _difference_words(fc: Doubles, t: Optional[Tables]) -> Tuple[float, str]:
    found = look.difference(fc, t)
    if found.place is None or found.order is None:
        return 0.0, "all differences are zero"
    where = _place(found.place, fc.ndim // 2, t is None)
    return found.value, f"worst difference {look.number(found.value)} at {where}, with the pairs in the order {' '.join(map(str, found.order))}"


@_refused
def orders(fc: Doubles, t: Optional[Tables], at_most: float) -> Verdict:
    value, where = _difference_words(fc, t)
    return _judged(value, _largest(fc), at_most, where)


@_refused
def drift(fc: Doubles, t: Optional[Tables], at_most: float) -> Verdict:
    value, where = look.drift_words(fc, t)
    return _judged(value, _largest(fc), at_most, where)


@_refused
def crystal(fc: Doubles, t: Optional[Tables], d: Delivery, at_most: float) -> Verdict:
    order, n = fc.ndim // 2, d.tables.n_satom
    matrices, maps = d.operations or (np.zeros((0, 3, 3)), np.zeros((0, n), np.int64))
    shifts = d.tables.num_trans if t is None else 0
    if not shifts + len(maps):
        return Verdict(NO_OPERATIONS)
    words = f"{len(maps)} operations" + (f" and {shifts} shifts, " if shifts else ", ")
    if t is None:  # the shifts of a full set are operations too
        matrices, maps = np.concatenate([np.tile(np.eye(3), (shifts, 1, 1)), matrices]), np.concatenate([d.tables.perms, maps])
    found = look.deviation(fc, t, matrices, maps)
    if found.operation is None or found.place is None:
        return _judged(0.0, _largest(fc), at_most, words + "all deviations are zero")
    under = f"shift {found.operation}" if found.operation < shifts else f"operation {found.operation - shifts}"
    return _judged(found.value, _largest(fc), at_most,
                   f"{words}worst deviation {look.number(found.value)} under {under} at {_place(found.place, order, t is None)}")


@_refused
def change(before: Doubles, after: Doubles, full: bool, at_most: float) -> Verdict:
    if before.shape != after.shape:
        raise ValueError(f"the set before has the shape {before.shape}, the one after {after.shape}")
    found = gf.set_difference(after, before)
    words = "no number changed"
    if found.place is not None:
        words = f"a number changed by {look.number(found.value)} at {_place(found.place, after.ndim // 2, full)}"
    return _judged(found.value, _largest(before), at_most, words)


def audit(fc: Doubles, t: Optional[Tables]) -> Verdict:
    try:
        found = look.audit(fc, t)
        if found.alike:
            return Verdict("alike")
        return Verdict(look.audit_words(found, t is not None, _difference_words(fc, t)[1]), True)
    except gf.Refused as e:
        return Verdict(e.words, True)
