"""The types of arguments and results. Imported for type checkers, and for the few that need them when they run."""
from __future__ import annotations

from typing import TYPE_CHECKING, Protocol, Sequence, Tuple, TypeVar, Union

import numpy as np
from numpy.typing import ArrayLike, NDArray

if TYPE_CHECKING:
    from .tables import Tables

__all__ = ["ArrayLike", "Bytes", "BytesLike", "Doubles", "Flags", "Given", "Integers", "NDArray", "PrimitiveLike", "Scalar", "TablesLike"]

Doubles = NDArray[np.float64]
Integers = NDArray[np.int64]
Bytes = NDArray[np.uint8]
Flags = NDArray[np.bool_]
BytesLike = Union[bytes, bytearray, memoryview, Bytes]
TablesLike = Union["Tables", Sequence[ArrayLike]]
"""Shift tables: `Tables`, or the four arrays p2s, s2pp, nsym_list and perms, which are converted at each call."""

Scalar = TypeVar("Scalar", bound=np.generic)
Given = Tuple[object, ...]
"""An argument with the shape that it has to have; an index table with the name of the count that its entries are below as well."""


class PrimitiveLike(Protocol):
    """What `Tables.of` reads of phonopy's `Primitive`."""

    @property
    def p2s_map(self) -> ArrayLike: ...

    @property
    def s2p_map(self) -> ArrayLike: ...

    @property
    def p2p_map(self) -> "dict[int, int]": ...

    @property
    def atomic_permutations(self) -> ArrayLike: ...
