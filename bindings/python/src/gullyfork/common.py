"""Rounding and the square root, from the bits. Never refused."""
from __future__ import annotations

from . import _arrays
from ._library import CALLS

__all__ = ["nint", "round", "sqrt"]


def nint(x: float) -> int:
    """Return the nearest whole number as an int.

    Parameters
    ----------
    x : float
        Ties go away from zero; what is beyond int64 gives its nearest end, and NaN 0.

    Examples
    --------
    >>> nint(2.5), nint(-0.5), nint(float("nan"))
    (3, -1, 0)
    """
    nearest: int = CALLS["nint"].function(_arrays.real(x, "x"))
    return nearest


def round(x: float) -> float:
    """Return the nearest whole number as a float.

    Parameters
    ----------
    x : float
        Halves go away from zero.

    Examples
    --------
    >>> round(2.5), round(-0.25)
    (3.0, -0.0)
    """
    nearest: float = CALLS["round"].function(_arrays.real(x, "x"))
    return nearest


def sqrt(x: float) -> float:
    """Return the square root, to nearest, ties to even.

    Parameters
    ----------
    x : float
        -0.0 gives -0.0, other negative numbers NaN.

    Examples
    --------
    >>> sqrt(2.0)
    1.4142135623730951
    """
    root: float = CALLS["sqrt"].function(_arrays.real(x, "x"))
    return root
