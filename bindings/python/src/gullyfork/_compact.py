"""Calls on compact sets: a set, shift tables, a work slice of marks, their counts, and values, if any."""
from __future__ import annotations

from typing import TYPE_CHECKING, Optional

import numpy as np

from . import _arrays
from ._library import CALLS
from ._refused import LIMITS
from ._run import both, memory, room, run
from .tables import Tables

if TYPE_CHECKING:
    from ._types import ArrayLike, Bytes, Doubles, TablesLike

_U8 = np.dtype(np.uint8)
_FORM = ["slice", "tables", "slice", "counts"]
# calls whose arguments come in this order, with values behind: what the short way hands on after the counts
_SHORT = {c.name: (c.function, [(a.name, a.type) for a in c.arguments[4:]]) for c in CALLS.values()
          if [a.form for a in c.arguments] == _FORM + ["value"] * (len(c.arguments) - 4)}


def compact(name: str, fc: Doubles, order: int, tables: TablesLike, work_legs: int, work: Optional[Bytes], **values: object) -> None:
    """work_legs: the work slice has n_patom x n_satom^(work_legs - 1) bytes; values: what the call takes beside."""
    t = tables if type(tables) is Tables else Tables.given(tables)
    shape = t.shapes[order - 2]
    short = _SHORT.get(name) if work is None and _arrays.ready(fc) and fc.shape == shape else None
    if short is not None:
        # small sets are a matter of microseconds. A refused call has touched nothing, so it is made again, to be explained
        function, last = short
        done = np.empty(_marks(t, order, work_legs), _U8)
        if function(_arrays.address(fc), fc.size, *t.slices, _arrays.address(done), done.size, *t.counts,
                    *[_arrays.value(values[key], key, kind) for key, kind in last]) == 0:
            return
    key = CALLS[name].arguments[0].name
    if not isinstance(fc, np.ndarray) or fc.shape != shape:
        _arrays.of_order(fc, key, order)
    marks = memory("done", work, "work", _marks(t, order, work_legs), np.uint8)
    run(name, order, changed={key: (fc, shape)}, **marks, tables=t, values=values)


def without_drift(name: str, fc: Doubles, order: int, tables: TablesLike, level: int, work: Optional[Bytes], drift: Optional[Doubles]) -> None:
    """A symmetrizer that takes the drift off: it works in marks, one to a block, and in the sums over a leg, a set of one leg fewer."""
    t = tables if type(tables) is Tables else Tables.given(tables)
    key, shape, limit = f"fc{order}", t.shapes[order - 2], LIMITS[order]
    if not isinstance(fc, np.ndarray) or fc.shape != shape:
        _arrays.of_order(fc, key, order)
    sums = memory("drift", drift, "drift", room((t.n_patom, limit), *[(t.n_satom, limit)] * (order - 2), (3**order, 3**order)))
    marks = memory("done", work, "work", _marks(t, order, order), np.uint8)
    run(name, order, changed={key: (fc, shape)}, **both(marks, sums), tables=t, values={"level": level})


def full_set(name: str, fc: ArrayLike, order: int, tables: TablesLike, out: Optional[Doubles]) -> Doubles:
    """The full set that a compact one is read out to: in out, or in new memory."""
    t = tables if type(tables) is Tables else Tables.given(tables)
    n = t.n_satom if t.n_satom <= LIMITS[order] else 0
    shape = (n,) * order + (3,) * order
    full = np.empty(shape) if out is None else out
    run(name, order, read={f"fc{order}": (fc, t.shapes[order - 2])}, **memory("full", full, "out", shape), tables=t)
    return full


def _marks(t: Tables, order: int, legs: int) -> int:
    limit = LIMITS[order]
    marks: int = t.n_patom * t.n_satom ** (legs - 1) if t.n_patom <= limit and t.n_satom <= limit else 0
    return marks
