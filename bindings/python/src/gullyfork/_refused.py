"""Refusals as exceptions. The number is the library's; which argument is to blame is worked out afterwards, for the message only."""
from __future__ import annotations

from typing import TYPE_CHECKING, Dict, Mapping, NamedTuple, Optional, Tuple, Type, Union, cast

import numpy as np

from ._library import CALLS, words

if TYPE_CHECKING:
    from ._types import Given, Integers
    from .tables import Tables

LIMITS = {2: 1024, 3: 256, 4: 64}  # atoms, by the order of the set
_LIMITS = {"level": 1000, "num_rot": 1024, "num_disp": 1024, "num_site_sym": 1024}
_ATOMS = ("n_satom", "n_patom", "num_trans", "num_atom", "num_pos", "num_first")
GRID, GRID_MOST = 2.0**-20, 2.0**20

Blame = Tuple[Optional[str], Optional[str]]
_NOBODY: Blame = (None, None)


class Refused(ValueError):
    """A call was refused: every array is as it was.

    Attributes
    ----------
    number : int
        The refusal, as the library answered it.
    words : str
        What it means.
    call : str
        The call's name.
    argument, detail : str or None
        What is to blame; None where that could not be worked out.

    Examples
    --------
    >>> import numpy as np, gullyfork
    >>> try:
    ...     gullyfork.perm_trans_symmetrize_fc(np.zeros((1, 1, 3, 3)), level=1001)
    ... except gullyfork.Refused as refused:
    ...     print(refused.number, refused.argument, refused.detail, sep="; ")
    1; level; 1001, limit 1000
    """

    def __init__(self, number: int, call: str, argument: Optional[str] = None, detail: Optional[str] = None) -> None:
        self.number, self.words, self.call, self.argument, self.detail = number, words(number), call, argument, detail
        text = f"{call}: refusal {number}, {self.words}"
        if argument:
            text += f" ({argument}: {detail})" if detail else f" ({argument})"
        super().__init__(text)

    def again(self) -> "Refused":
        """Return the same refusal, to be raised anew."""
        return Refused(self.number, self.call, self.argument, self.detail)

    def __reduce__(self) -> Tuple[Type["Refused"], Tuple[object, ...]]:
        return Refused, (self.number, self.call, self.argument, self.detail)


Refused.__module__ = "gullyfork"  # where users find it, and what a traceback shows


class _Call(NamedTuple):
    """A call that was refused. given: the caller's arrays, each with the shape that was asked for, and an index table with the name of
    the count that its entries are below."""

    order: int
    given: Mapping[str, Given]
    values: Mapping[str, Union[int, float]]
    tables: Optional["Tables"]

    def table(self, name: str) -> Integers:
        return cast("Integers", self.given[name][0])


def explain(answer: int, call: str, order: int, given: Mapping[str, Given], values: Mapping[str, Union[int, float]],
            tables: Optional["Tables"], names: Mapping[str, str]) -> Refused:
    """The exception for a refusal. names: of arrays that the caller knows by another name."""
    try:
        argument, detail = _BLAME.get(answer, lambda _: _NOBODY)(_Call(order, given, values, tables))
    except Exception:  # a message that cannot be worked out must not hide the refusal
        argument, detail = _NOBODY
    return Refused(answer, call, names.get(argument, argument) if argument else None, detail)


def _above(c: _Call) -> Blame:
    counts: Dict[str, float] = {} if c.tables is None else dict(zip(("n_satom", "n_patom", "num_trans"), c.tables.counts))
    for name, value in {**counts, **c.values}.items():
        limit = LIMITS[c.order] if name in _ATOMS else _LIMITS.get(name)
        if limit is not None and value > limit:
            return name, f"{value}, limit {limit}"
    if "atom_list" in c.given and c.table("atom_list").size > 1024:
        return "atom_list", f"{c.table('atom_list').size} entries, limit 1024"
    return _NOBODY


def _length(c: _Call) -> Blame:
    t = c.tables
    if t is not None and t.nsym_list.size != t.n_satom:
        return "nsym_list", f"{t.nsym_list.size} entries, s2pp has {t.n_satom}"
    if t is not None and t.perms.shape[1] != t.n_satom:
        return "perms", f"rows of {t.perms.shape[1]} entries, s2pp has {t.n_satom}"
    for name, (a, shape, *_) in c.given.items():
        if np.shape(a) != shape:  # type: ignore[arg-type]  # an array
            return name, f"shape {np.shape(a)}, asked for {shape}"  # type: ignore[arg-type]
    return _NOBODY


def _beyond(name: str, a: Integers, count: float) -> Optional[Blame]:
    bad = np.argwhere((a < 0) | (a >= count))
    if not len(bad):
        return None
    place = tuple(int(i) for i in bad[0])
    return name, f"entry {place if len(place) > 1 else place[0]} is {int(a[place])}, count {count}"


def _entry(c: _Call) -> Blame:
    t, found = c.tables, None
    if t is not None:
        found = (_beyond("p2s", t.p2s, t.n_satom) or _beyond("s2pp", t.s2pp, t.n_patom) or _beyond("nsym_list", t.nsym_list, t.num_trans)
                 or _beyond("perms", t.perms, t.n_satom))
    for name, (_, _, *below) in c.given.items():
        if below and str(below[0]) in c.values:
            found = found or _beyond(name, c.table(name), c.values[str(below[0])])
    for name in ("i", "j"):
        if not found and name in c.values and c.values[name] >= c.values["n_satom"]:
            found = name, f"{c.values[name]}, n_satom {c.values['n_satom']}"
    for name in ("leg_a", "leg_b"):
        if not found and c.values.get(name, 0) > 3:
            found = name, f"{c.values[name]}, legs 0 to 3"
    return found or _NOBODY


def _slab(c: _Call) -> Blame:
    for name in ("target", "source"):
        if c.values[name] >= c.values["num_first"]:
            return name, f"{c.values[name]}, num_first {c.values['num_first']}"
    return "target", f"{c.values['target']}, and the source is the same"


def _representative(c: _Call) -> Blame:
    listed, map_atoms = c.table("atom_list"), c.table("map_atoms")
    for a in listed:
        r = map_atoms[a]
        if r not in listed:
            return "atom_list", f"atom {a} is represented by atom {r}, which is not listed"
        if map_atoms[r] != r:
            return "map_atoms", f"atom {a} is represented by atom {r}, which is represented by atom {map_atoms[r]}"
    return _NOBODY


def _grid(c: _Call) -> Blame:
    i, j = int(c.values["i"]), int(c.values["j"])
    old, new = (np.asarray(c.given[name][0], np.float64) for name in ("fc", "block"))
    looked: Tuple[Tuple[str, "np.ndarray[Tuple[int, int], np.dtype[np.float64]]", Tuple[int, ...]], ...] = (("fc", old[i, j], (i, j)), ("block", new, ()))
    for name, block, before in looked:
        with np.errstate(all="ignore"):
            off = np.argwhere(~((np.abs(block) <= GRID_MOST) & (block / GRID == np.rint(block / GRID))))
        if len(off):
            place = tuple(int(k) for k in off[0])
            return name, f"entry {before + place} is {float(block[place])!r}, no multiple of 2^-20 from -2^20 to 2^20"
    return _NOBODY


def _rule(c: _Call) -> Blame:
    return broken_rule(c.tables, reason(c.tables)) if c.tables is not None else _NOBODY


def reason(t: "Tables") -> Tuple[int, int, int, int, int]:
    """The five numbers of gf_explain_shift_tables, which is never refused with room for them."""
    place = np.zeros(5, np.uintp)
    CALLS["explain_shift_tables"].function(*t.slices, place.ctypes.data, place.size, *t.counts)
    number, which, i, j, k = (int(x) for x in place)
    return number, which, i, j, k


def broken_rule(t: "Tables", numbers: Tuple[int, int, int, int, int]) -> Blame:
    """The rule of shift tables that the reason of refusal 6 names, in words."""
    _, rule, i, j, k = numbers
    if rule == 0:
        return "perms", f"{t.num_trans} rows: n_satom {t.n_satom} is not n_patom {t.n_patom} x num_trans {t.num_trans}"
    if rule == 1:
        return "perms", f"row {i} sends atoms {j} and {k} to the same place"
    if rule == 2:
        return "perms", "no row sends each atom to itself (the null shift)"
    if rule == 3:
        return "perms", f"row {i} and then row {j} is no row: a shift is missing"
    if rule == 4:
        return "perms", f"rows {i} and {j} both send atom {k} to atom {t.perms[i, k]}"
    if rule == 5:
        a = int(t.p2s[i])
        return "s2pp", f"entry {a} is {t.s2pp[a]}, and p2s[{i}] is {a}"
    if rule == 6:
        image = int(t.perms[i, j])
        return "s2pp", f"it is {t.s2pp[j]} for atom {j} and {t.s2pp[image]} for atom {image}, where row {i} sends it"
    row = int(t.nsym_list[i])
    return "nsym_list", f"entry {i} is {row}, which sends atom {i} to {t.perms[row, i]}, not to {t.p2s[t.s2pp[i]]}"


_BLAME = {1: _above, 2: _length, 3: _entry, 4: _slab, 5: _representative, 6: _rule, 10: _grid}
