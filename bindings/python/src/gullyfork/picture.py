"""The picture of a set: how large the drift is by atom, how its blocks fall off, and by pair of atoms the largest number, what symmetrizing changes
and how far the orders of the same legs are apart, with the worst place marked.

`draw(..)` draws it; the command is `python -m gullyfork picture FILE OUT.png`.
"""
from __future__ import annotations

import argparse
import itertools
import os
from typing import TYPE_CHECKING, Dict, List, Optional, Tuple

import numpy as np

from . import _look as look
from . import crystal, files
from ._commands import DONE, added
from ._progress import terminal
from .crystal import Cell
from .files import ForceConstants, Unreadable

if TYPE_CHECKING:
    from matplotlib.axes import Axes
    from matplotlib.axis import Axis
    from matplotlib.figure import Figure

    from ._commands import Commands
    from ._types import Doubles, Integers

__all__ = ["draw"]

_ZERO = 1e-18  # where a logarithmic axis has what is zero
_BEFORE, _AFTER, _RED, _GREEN = "tab:blue", "tab:orange", "tab:red", "tab:green"


def _distances(cell: Cell, first: Integers) -> Doubles:
    """From each of the first atoms to the nearest image of every atom."""
    d = cell.positions[None, :, :] - cell.positions[first][:, None, :]
    d -= np.rint(d)
    images = np.array(list(itertools.product((-1, 0, 1), repeat=3)))
    far: Doubles = np.sqrt((((d[:, :, None, :] + images) @ cell.lattice) ** 2).sum(axis=-1).min(axis=-1))
    return far


class _Set:
    """A set as it is and symmetrized (None where that is not known), and what the panels ask of both."""

    def __init__(self, found: ForceConstants, after: Optional[Doubles], cell: Optional[Cell], length: Optional[str]) -> None:
        self.fc, self.after, self.cell, self.order, self.full = found.array, after, cell, found.order, found.full
        self.tables = cell.tables if cell and not found.full else None
        self.known = found.full or self.tables is not None
        self.unit = f"({found.unit})" if found.unit else "(unit of the file)"
        self.length = f"({length})" if length else "(unit of the cell)"
        elements = cell.elements if cell else ()
        self.columns = [f"{elements[a]} {a}" if elements else str(a) for a in range(self.fc.shape[1])]
        first = list(range(len(self.fc))) if self.full or cell is None else cell.tables.p2s.tolist()
        self.rows = [self.columns[a] for a in first]

    def both(self) -> List[Tuple[Doubles, str, str]]:
        """Each with its name and colour."""
        return [(self.fc, "as it is", _BEFORE)] + ([] if self.after is None else [(self.after, "symmetrized", _AFTER)])

    def sums(self, fc: Doubles) -> Dict[str, Doubles]:
        """The largest sum of each atom, over each leg; above second order by the last of the atoms left."""
        last = self.order - 1
        named = {last: "rows, over the last atom", 0: "columns, over the first atom"}
        legs = range(last, -1 if self.known else 0, -1)
        found = {named.get(leg, f"over atom {leg + 1} of {self.order}"): look.sums(fc, self.tables, leg) for leg in legs}
        atom = self.order - 2
        return {name: np.abs(a).max(axis=tuple(k for k in range(a.ndim) if k != atom), initial=0.0) for name, a in found.items()}

    def by_pair(self, a: Doubles) -> Doubles:
        """The largest of all numbers that have the first two atoms."""
        most: Doubles = a.max(axis=tuple(range(2, 2 * self.order)), initial=0)
        return most


def _drift(axes: Axes, s: _Set) -> None:
    least = 1.0
    for (fc, name, color), ring in zip(s.both(), ("none", "full")):
        for (what, sums), marker in zip(s.sums(fc).items(), "os^v"):
            axes.semilogy(np.maximum(sums, _ZERO), marker, color=color, fillstyle=ring, markersize=8 if ring == "none" else 4,
                          label=f"{what}, {name}")
            least = min(least, *sums)
    zero = f"; 0 is drawn at {_ZERO}" if least == 0.0 else ""
    axes.set(xlabel="atom" if s.order == 2 else "second of the two atoms that are left", ylabel=f"largest |sum| {s.unit}{zero}",
             title="Drift by atom")
    axes.legend(fontsize="x-small", loc="upper center", bbox_to_anchor=(0.5, -0.15), ncol=len(s.both()))
    axes.grid(alpha=0.3)
    _named(axes.xaxis, s.columns)


def _blocks(axes: Axes, s: _Set) -> None:
    norms = np.sqrt((s.fc ** 2).sum(axis=tuple(range(s.order, 2 * s.order))))
    if s.cell is None:
        axes.hist(np.log10(norms[norms > 0]), bins=60, color=_BEFORE)
        axes.set(xlabel=f"log10 of a block's norm {s.unit}", ylabel="number of blocks", title="Norm of the blocks, as it is")
        return
    far = pairs = _distances(s.cell, np.arange(len(s.fc)) if s.full else s.cell.tables.p2s)
    for _ in range(s.order - 2):  # of every further leg
        far = np.maximum(far[..., None], pairs.reshape(len(pairs), *[1] * (far.ndim - 1), -1))
    axes.semilogy(far.ravel(), np.maximum(norms.ravel(), _ZERO), ".", color=_BEFORE, markersize=4)
    axes.set(xlabel=("distance " if s.order == 2 else "largest distance from the first atom ") + s.length,
             ylabel=f"norm of a block {s.unit}", title="Blocks by distance, as it is")
    axes.grid(alpha=0.3, which="both")


def _exchange(axes: Axes, s: _Set, wide: Optional[Doubles]) -> None:
    title = "Orders of the same legs"
    if wide is None:
        axes.set_axis_off()
        axes.set_title(f"{title}\nnot known without shift tables (--cell)")
        return
    axes.set(xlabel=f"log10 of the widest difference {s.unit}", ylabel="number of entries")
    some = wide[wide > 0]
    if some.size:
        axes.hist(np.log10(some), bins=60, color=_RED)
        axes.set_title(f"{title}\n{some.size:,} of {wide.size:,} entries differ")
    else:
        axes.set_title(f"{title}\nnone of {wide.size:,} entries differs", color=_GREEN)
        axes.set(xticks=[], yticks=[])


def _named(axis: Axis, names: List[str]) -> None:
    """Atoms are whole numbers, and have their elements beside them; so many as can be read."""
    from matplotlib.ticker import FuncFormatter, MaxNLocator
    axis.set_major_locator(MaxNLocator(nbins=8, integer=True))
    axis.set_major_formatter(FuncFormatter(lambda x, _: names[int(x)] if x == int(x) and 0 <= x < len(names) else ""))
    axis.set_tick_params(labelsize="small")


def _map(figure: Figure, axes: Axes, s: _Set, a: Doubles, title: str, label: str) -> None:
    """A field for each pair of atoms, of what is positive there; the largest has a ring, and what is zero is white."""
    from matplotlib.colors import LogNorm
    axes.set(xlabel="second atom", ylabel="first atom" if s.full else "first atom (of the primitive cell)")
    axes.set_title(title)
    some = a[a > 0.0]
    low, high = (some.min(), some.max()) if some.size else (0.1, 10.0)
    norm = LogNorm(low if low < high else 0.1 * high, high)
    shown = axes.imshow(np.where(a > 0.0, a, np.nan), aspect="auto", interpolation="nearest", norm=norm)
    _named(axes.xaxis, s.columns)
    _named(axes.yaxis, s.rows)
    if some.size:
        figure.colorbar(shown, ax=axes, label=f"{label} {s.unit}")
        row, column = np.unravel_index(int(a.argmax()), a.shape)
        axes.plot(column, row, "o", color="black", fillstyle="none", markersize=16, markeredgewidth=3)
        axes.plot(column, row, "o", color="white", fillstyle="none", markersize=16, markeredgewidth=1)


def _nothing(axes: Axes, title: str) -> None:
    axes.set_axis_off()
    axes.set_title(title)


def _change(figure: Figure, axes: Axes, s: _Set) -> None:
    if s.after is None:
        _nothing(axes, "What symmetrizing changes:\nnot known, the set cannot be symmetrized")
        return
    change = np.abs(s.after - s.fc)
    value, k = look.worst(change)
    at = "" if value == 0.0 else f"\n{value:.3g} at {look.place(k, s.order)} (ring)"
    _map(figure, axes, s, s.by_pair(change), f"What symmetrizing changes{at or ': nothing'}", "largest change")


def _orders(figure: Figure, axes: Axes, s: _Set, wide: Optional[Doubles]) -> str:
    """Draws how far the orders of the same legs are apart; what the audit says."""
    if wide is None:
        _nothing(axes, "Orders of the same legs\nnot known without shift tables (--cell)")
        return "audit not known without shift tables"
    report = look.difference(s.fc, s.tables)
    at = "none differs" if report.place is None else f"{report.value:.3g} at {look.place(report.place, s.order)} (ring)"
    _map(figure, axes, s, s.by_pair(wide), f"How far the orders of the same legs are apart\n{at}", "widest difference")
    said = look.audit(s.fc, s.tables)
    return "audit: alike" if said.place is None else f"audit: unlike, worst {report.value:.3g}, first at {look.place(said.place, s.order)}"


def draw(path: str, name: str, found: ForceConstants, symmetrized: Optional[Doubles], cell: Optional[Cell], length: Optional[str] = None) -> None:
    """Draw a set: drift by atom before and after, the norm of blocks by distance, differences under exchange, and maps by pair of atoms.

    The maps: the largest number of a pair, what symmetrizing changes, and how far the orders of the same legs are apart, the worst place in a ring.

    Parameters
    ----------
    path : str
        A .png.
    name : str
        For the title.
    found : ForceConstants
    symmetrized : ndarray of float64, or None
        The same set, symmetrized.
    cell : Cell, optional
        Without it, the distribution of the norms stands in the place of that by distance.
    length : str, optional
        The unit of the cell.

    Raises
    ------
    ImportError
        matplotlib is not there.
    """
    try:
        import matplotlib
    except ImportError:
        raise ImportError("a picture needs matplotlib (Debian: python3-matplotlib)") from None
    matplotlib.use("Agg")
    import matplotlib.pyplot as plt

    s = _Set(found, symmetrized, cell, length)
    wide = np.max([np.abs(s.fc - other) for other in look.exchanged(s.fc, s.tables)], axis=0) if s.known else None
    figure, (above, below) = plt.subplots(2, 3, figsize=(18, 10), layout="constrained")
    _drift(above[0], s)
    _blocks(above[1], s)
    _exchange(above[2], s, wide)
    _map(figure, below[0], s, s.by_pair(np.abs(s.fc)), f"|fc{s.order}| by pair of atoms, as it is", "largest |number|")
    _change(figure, below[1], s)
    said = _orders(figure, below[2], s, wide)
    kind = f"{'full' if s.full else 'compact'} set of order {s.order}, {' x '.join(map(str, s.fc.shape[:s.order]))} atoms"
    drift = f"drift: {look.drift_words(s.fc, s.tables, bits=False)[1]}" if s.known else "drift of columns not known without shift tables"
    figure.suptitle(f"{name}: {kind}\n{said}; {drift}", fontsize="x-large", color=_RED if "unlike" in said else "black")
    figure.savefig(path, dpi=90)
    plt.close(figure)


# ---- the command

_COMMAND = """Draw a set: where its drift is, how its blocks fall off, and where numbers that should be the same are not.

FILE: as for `check`. OUT.png: of a delivery OUT-fc2.png and OUT-fc3.png are drawn, and OUT-fc4.png if it has fourth order. An older drawing is
replaced, nothing else is."""


def command(commands: Commands) -> None:
    """Add the sub-command."""
    c = added(commands, "picture", _run, _COMMAND)
    c.add_argument("file", metavar="FILE")
    c.add_argument("out", metavar="OUT.png")
    c.add_argument("--cell", metavar="YAML", help="a phonopy.yaml or phono3py.yaml: shift tables and distances")


def paths(path: str, names: List[str]) -> List[str]:
    """The files to draw to, one for each set; an older drawing is replaced, nothing else is."""
    root, ending = os.path.splitext(path)
    if ending != ".png":
        raise Unreadable(f"{path}: a plot is a .png")
    found = [f"{root}-{name}{ending}" for name in names] or [path]
    for one in found:
        if os.path.lexists(one):
            with open(one, "rb") as f:
                if not f.read(8).startswith(b"\x89PNG"):
                    raise Unreadable(f"{one} is there already, and is no drawing: it is not overwritten")
    return found


def _run(a: argparse.Namespace) -> int:
    folder = os.path.isdir(a.file)
    cell: Optional[Cell]
    length: Optional[str] = None
    if folder:
        d = files.read_delivery(a.file)
        cell = Cell(d.tables, d.lattice, d.positions, tuple(d.elements))
        units = files.units_of(a.file)
        length = units[1] if units else None
        sets = [ForceConstants(array, f"{name}.f64", None, f"{units[0]}/{units[1]}^{array.ndim // 2}" if units else None) for name, array in d.sets.items()]
        outs = paths(a.out, list(d.sets))
    else:
        outs = paths(a.out, [])
        one, cell = crystal.read_set(a.file, a.cell)
        sets = [one]
    tell = terminal()
    for out, found in zip(outs, sets):
        if not np.isfinite(found.array).all():
            raise ValueError(f"{a.file}: numbers that are not finite cannot be drawn")
        tables = None if cell is None or found.full else cell.tables
        tell(f"drawing of {out}")
        after = look.symmetrized(found.array, tables, 3) if found.full or tables is not None else None
        draw(out, os.path.join(a.file, found.source) if folder else a.file, found, after, cell, length)
        tell("")
        print(f"drawn   {out}")
    return DONE
