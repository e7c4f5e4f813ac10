"""One way into the library for every call: arguments by the names that the header gives them."""
from __future__ import annotations

from typing import TYPE_CHECKING, Dict, List, Mapping, Optional, Sequence, Tuple, TypedDict, Union

import numpy as np

from . import _arrays
from ._library import CALLS, DTYPES
from ._refused import explain

if TYPE_CHECKING:
    from ._types import Bytes, Doubles, Given, Integers, NDArray, Scalar
    from .tables import Tables

    Made = Union[Doubles, Integers, Bytes, NDArray[np.uintp]]

_NONE: Dict[str, Given] = {}
_NO_NAMES: Dict[str, str] = {}
_NO_VALUES: Dict[str, object] = {}
_NOTHING_MADE: Dict[str, Made] = {}
_OF_ANY_SHAPE = ("work", "drift")  # memory to work in

# the C type of each slice, by call and name
_TYPES = {c.name: {a.name: a.type for a in c.arguments if a.form == "slice"} for c in CALLS.values()}


class Memory(TypedDict, total=False):
    """Memory that the binding made, or that the caller lent: arguments of `run`."""

    made: Mapping[str, Made]
    lent: Mapping[str, Given]


def room(*counts: Tuple[int, int]) -> int:
    """The product of counts; 0 where one is above its limit, since the call is refused for that before it looks at lengths."""
    length = 1
    for count, limit in counts:
        if count > limit:
            return 0
        length *= count
    return length


def run(name: str, order: int, *, changed: Mapping[str, Given] = _NONE, read: Mapping[str, Given] = _NONE,
        made: Mapping[str, Made] = _NOTHING_MADE, lent: Mapping[str, Given] = _NONE, values: Mapping[str, object] = _NO_VALUES,
        tables: Optional["Tables"] = None) -> int:
    """Calls gf_NAME and gives its answer; a refusal is raised as Refused, with what is to blame worked out afterwards.

    changed: arrays of the caller that the call writes, and read: those that it reads, each with the shape that it has to have, and an
    index table with the name of the count that its entries are below. made: arrays that the binding made. lent: memory of the caller
    for work or for a result, with its shape and the name under which the caller lent it. values: all other arguments. order: whose
    limits hold.
    """
    call, types = CALLS[name], _TYPES[name]
    arrays, names = dict(made), _NO_NAMES
    if lent:
        names = {key: str(given[2]) for key, given in lent.items()}
        changed = {**changed, **lent}
    for key, given in changed.items():
        arrays[key] = _arrays.changed(given[0], names.get(key, key), DTYPES[types[key]])  # type: ignore[type-var, assignment]  # one of four
    for key, given in read.items():
        arrays[key] = _arrays.read(given[0], key, types[key])
    for some in (changed, read):
        for key, given in some.items():
            a, shape = arrays[key], given[1]
            if a.shape != shape and a.size == _size(shape) and names.get(key) not in _OF_ANY_SHAPE:
                raise ValueError(f"{names.get(key, key)} has the shape {a.shape}, {name} asks for {shape}")
    if changed and (read or len(changed) > 1):
        _all_apart(changed, read, names)
    passed: Dict[str, Union[int, float]] = {}
    arguments: List[Union[int, float]] = []
    for key, form, kind, _ in call.arguments:
        if form == "slice":
            a = arrays[key]
            arguments += _arrays.address(a), a.size  # type: ignore[type-var]  # one of four types
        elif form == "value":
            passed[key] = x = _arrays.value(values[key], key, kind)
            arguments.append(x)
        else:
            arguments += tables.slices if form == "tables" else tables.counts  # type: ignore[union-attr]
    answer: int = call.function(*arguments)
    if 0 < answer < 64:
        given_ones = {key: (arrays[key], *given[1:]) for key, given in {**changed, **read}.items()}
        raise explain(answer, name, order, given_ones, passed, tables, names)
    return answer


def _size(shape: object) -> int:
    size = 1
    for n in shape:  # type: ignore[attr-defined]  # a tuple of counts
        size *= n
    return size


def _all_apart(changed: Mapping[str, Given], read: Mapping[str, Given], names: Mapping[str, str]) -> None:
    """What is changed shares no memory with anything else that the caller gave. Tables hold copies of their own."""
    written = [(names.get(key, key), given[0]) for key, given in changed.items()]
    for k, (key, a) in enumerate(written):
        for other, b in written[k + 1:]:
            _arrays.apart(a, key, b, other)
        for other, given in read.items():
            _arrays.apart(a, key, given[0], other)


def memory(key: str, given: Optional[NDArray[Scalar]], name: str, shape: Union[int, Tuple[int, ...]],
           dtype: "Union[type[np.float64], type[np.int64], type[np.uint8]]" = np.float64) -> Memory:
    """An array for work or for a result: what the caller lent under the name, or new memory. What it holds has no influence."""
    if given is None:
        return {"made": {key: np.empty(shape, dtype)}}
    return {"lent": {key: (given, shape if isinstance(shape, tuple) else (shape,), name)}}


def both(one: Memory, other: Memory) -> Memory:
    """Memory for two slices."""
    return {"made": {**one.get("made", {}), **other.get("made", {})}, "lent": {**one.get("lent", {}), **other.get("lent", {})}}
