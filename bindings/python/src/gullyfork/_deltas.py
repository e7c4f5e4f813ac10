"""What third and fourth order share: slabs from slabs, and blocks from the changes that displacements make."""
from __future__ import annotations

from typing import TYPE_CHECKING, Dict, Optional

import numpy as np

from . import _arrays
from ._refused import LIMITS
from ._run import memory, room, run

if TYPE_CHECKING:
    from ._run import Made
    from ._types import ArrayLike, Doubles, Given


def distribute(name: str, fc: Doubles, order: int, target: int, source: int, atom_mapping: ArrayLike, rot_cart: ArrayLike) -> None:
    num_first, n = _arrays.of_order(fc, f"fc{order}", order)
    run(name, order, changed={f"fc{order}": (fc, np.shape(fc))},
        read={"atom_mapping": (atom_mapping, (n,), "num_atom"), "rot_cart": (rot_cart, (3, 3))},
        values={"target": target, "source": source, "num_atom": n, "num_first": num_first})


def rotate(name: str, result: str, key: str, order: int, deltas: ArrayLike, inv_u: ArrayLike, site_sym_cart: ArrayLike, rot_map_syms: ArrayLike,
           out: Optional[Doubles], work: Optional[Doubles]) -> Doubles:
    numbers, rotations = _arrays.numbers(deltas, key), _arrays.numbers(site_sym_cart, "site_sym_cart")
    shape = numbers.shape
    if len(shape) != 2 * order - 1 or shape[order:] != (3,) * (order - 1) or len(set(shape[1:order])) > 1:
        asked = ", ".join(["num_disp"] + ["n"] * (order - 1) + ["3"] * (order - 1))
        raise ValueError(f"{key} has the shape {shape}, the changes of a set of order {order - 1} have ({asked})")
    if rotations.ndim != 3:
        raise ValueError(f"site_sym_cart has the shape {rotations.shape}, rotations have (num_site_sym, 3, 3)")
    num_disp, n, num_site_sym = shape[0], shape[1], rotations.shape[0]
    blocks = (n if n <= LIMITS[order] else 0,) * (order - 1) + (3,) * order
    turned = room((num_disp, 1024), (num_site_sym, 1024)) * 3 ** (order - 1)
    full = np.empty(blocks) if out is None else out
    made: Dict[str, Made] = {}
    lent: Dict[str, Given] = {}
    for part in (memory(result, full, "out", blocks), memory("rot_delta", work, "work", turned)):
        made.update(part.get("made", {}))
        lent.update(part.get("lent", {}))
    run(name, order, made=made, lent=lent,
        read={key: (deltas, shape), "inv_u": (inv_u, (3, num_disp * num_site_sym)), "site_sym_cart": (site_sym_cart, (num_site_sym, 3, 3)),
              "rot_map_syms": (rot_map_syms, (num_site_sym, n), "num_atom")},
        values={"num_atom": n, "num_site_sym": num_site_sym, "num_disp": num_disp})
    return full
