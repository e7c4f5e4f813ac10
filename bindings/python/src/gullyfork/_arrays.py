"""Arrays as the library takes them.

What a call changes is changed in place: it has to be a plain array of the header's type, C-contiguous, aligned, writeable, and
apart from every other argument. It is never copied. What a call only reads is copied where it has to be.
"""
from __future__ import annotations

import operator
from ctypes import addressof, c_char
from typing import TYPE_CHECKING, Callable, Tuple, Union

import numpy as np

if TYPE_CHECKING:
    from typing_extensions import TypeGuard

    from ._types import ArrayLike, Bytes, Doubles, Integers, NDArray, Scalar

    Plain = NDArray[np.generic]

F64 = np.dtype(np.float64)
_RANGES = {"size_t": (0, 2**64 - 1), "int64_t": (-2**63, 2**63 - 1), "uint32_t": (0, 2**32 - 1), "uint8_t": (0, 255)}
_EXACT = 2**53  # up to here every whole number is a double


lent: Callable[[NDArray[Scalar]], c_char] = c_char.from_buffer  # type: ignore[assignment]  # numpy declares from Python 3.12 on that it lends memory


def address(a: NDArray[Scalar]) -> int:
    """Where the array's memory begins. The first way is four times as fast, and takes no array that is empty or read-only."""
    try:
        return addressof(lent(a))
    except (TypeError, ValueError):
        where: int = a.__array_interface__["data"][0]
        return where


def changed(a: object, name: str, dtype: np.dtype[Scalar]) -> NDArray[Scalar]:
    """The array itself, if the library may write into it."""
    if type(a) is np.ndarray and a.dtype == dtype and a.flags.carray:
        return a
    if not isinstance(a, np.ndarray):
        raise TypeError(f"{name} is changed in place: it has to be a numpy array, not {type(a).__name__}")
    if isinstance(a, np.ma.MaskedArray):
        raise TypeError(f"{name} is changed in place: it has to be a plain array, not a masked one")
    if a.dtype != dtype:
        found = f"{a.dtype.str} ({a.dtype})"
        raise TypeError(f"{name} is changed in place: its dtype has to be {dtype} of this machine's byte order, not {found}")
    if not a.flags.writeable:
        raise ValueError(f"{name} is changed in place, and is read-only")
    if not a.flags.c_contiguous:
        raise ValueError(f"{name} is changed in place: it has to be C-contiguous (strides {a.strides} of shape {a.shape})")
    if not a.flags.aligned:
        raise ValueError(f"{name} is changed in place: its memory is not aligned to {a.dtype.alignment} bytes")
    return a


def ready(a: object) -> TypeGuard[Doubles]:
    """Whether the array can be handed on as it is, to be read as doubles. Some arrays that could are not: numpy makes its own dtype float64
    once, and `is` takes half the time of `==`."""
    return type(a) is np.ndarray and a.dtype is F64 and a.flags.carray


def _array(a: object, name: str) -> Plain:
    if isinstance(a, np.ma.MaskedArray):
        raise TypeError(f"{name} is a masked array: what stands behind the mask is not for the library to read")
    if type(a) is np.ndarray:
        return a
    try:
        return np.asarray(a)
    except ValueError:
        raise ValueError(f"{name} is ragged: its rows are not of one length") from None


def _plain(a: Plain, dtype: np.dtype[Scalar]) -> NDArray[Scalar]:
    flags = a.flags
    return a if a.dtype == dtype and (flags.carray or flags.c_contiguous and flags.aligned) else a.astype(dtype, "C")  # type: ignore[return-value]


def numbers(a: ArrayLike, name: str) -> Doubles:
    """Real numbers as doubles."""
    found = _array(a, name)
    if found.dtype == F64:
        return _plain(found, F64)
    if found.dtype.kind not in "fiu" or found.dtype.itemsize > 8:
        raise TypeError(f"{name} has to hold real numbers that a double can hold, not {found.dtype}")
    if found.dtype.itemsize == 8 and found.dtype.kind in "iu" and found.size and (found.max() > _EXACT or found.min() < -_EXACT):
        raise ValueError(f"{name} holds a whole number beyond 2^53, which no double need be equal to")
    return _plain(found, F64)


_I64 = np.dtype(np.int64)


def table(a: ArrayLike, name: str, copy: bool = False) -> Integers:
    """An index table as int64: any integers, neither floats nor bools. copy: memory of its own, whatever was given."""
    found = _array(a, name)
    kind = found.dtype.kind
    if kind not in "iu" and not (found.size == 0 and found.dtype == F64):  # which is what numpy makes of an empty list
        raise TypeError(f"{name} is an index table: it has to hold integers, not {found.dtype}")
    if kind == "u" and found.dtype.itemsize == 8 and found.size and found.max() > _RANGES["int64_t"][1]:
        raise ValueError(f"{name} holds a number beyond int64")
    return found.astype(_I64, "C") if copy else _plain(found, _I64)


def read(a: object, name: str, kind: str) -> Union[Doubles, Integers, Bytes]:
    """An array that is only read, of the header's type."""
    if kind == "double":
        return numbers(a, name)  # type: ignore[arg-type]  # whatever was given: it is judged there
    if kind == "int64_t":
        return table(a, name)  # type: ignore[arg-type]
    return octets(a, name)


def octets(a: object, name: str) -> Bytes:
    """Bytes as they stand: bytes, bytearray, memoryview or an array of uint8."""
    if isinstance(a, np.ndarray) and not isinstance(a, np.ma.MaskedArray):
        if a.dtype != np.uint8 or a.ndim != 1 or not a.flags.c_contiguous:
            raise TypeError(f"{name} has to hold bytes in a row: an array of uint8 with one axis")
        return a
    if not isinstance(a, (bytes, bytearray, memoryview)):
        raise TypeError(f"{name} has to hold bytes, not {type(a).__name__}")
    return np.frombuffer(a, np.uint8) if len(a) else np.empty(0, np.uint8)


def flags(x: ArrayLike, name: str) -> Bytes:
    """A flag for each of three axes, as bytes: one for all of them, or three; True and False, or 1 and 0."""
    a = _array(x, name)
    if a.dtype.kind != "b" and not (a.dtype.kind in "iu" and np.isin(a, (0, 1)).all()):
        raise TypeError(f"{name} has to be True or False, or 1 or 0, for each axis, not {x!r}")
    if a.shape not in ((), (3,)):
        raise ValueError(f"{name} has the shape {a.shape}: it is one flag for all axes, or three")
    return np.full(3, a, np.uint8)


def apart(a: object, name: str, b: object, other: str) -> None:
    """Raises if b shares memory with a, which is changed."""
    if isinstance(a, np.ndarray) and isinstance(b, np.ndarray) and np.may_share_memory(a, b) and np.shares_memory(a, b):
        raise ValueError(f"{name} is changed in place, and {other} shares memory with it")


def whole(x: object, name: str, kind: str = "size_t") -> int:
    """A whole number that the header's type can hold: never wrapped round."""
    if type(x) is not int:
        if isinstance(x, (bool, np.bool_)):
            raise TypeError(f"{name} has to be a whole number, not a bool")
        try:
            x = operator.index(x)  # type: ignore[arg-type]  # it says what it takes
        except TypeError:
            raise TypeError(f"{name} has to be a whole number, not {type(x).__name__}") from None
    low, high = _RANGES[kind]
    if not low <= x <= high:
        raise ValueError(f"{name} is {x}: " + ("it counts from 0" if x < 0 == low else f"beyond {kind}"))
    return x


def real(x: object, name: str) -> float:
    """A real number as a double."""
    if type(x) is float:
        return x
    a = np.asarray(x)
    if a.ndim != 0:
        raise TypeError(f"{name} has to be one number, not an array of shape {a.shape}")
    return float(numbers(a, name))


def truth(x: object, name: str) -> bool:
    """A bool: a number in its place is most often an argument too many or too few."""
    if not isinstance(x, (bool, np.bool_)):
        raise TypeError(f"{name} has to be True or False, not {type(x).__name__}")
    return bool(x)


def value(x: object, name: str, kind: str) -> Union[int, float]:
    """A value of the header's type."""
    if kind == "double":
        return real(x, name)
    return truth(x, name) if kind == "bool" else whole(x, name, kind)


def of_order(a: ArrayLike, name: str, order: int) -> Tuple[int, int]:
    """The atoms of the first leg and of the others, of a set's shape."""
    shape = a.shape if isinstance(a, np.ndarray) else np.shape(a)
    if len(shape) != 2 * order or shape[order:] != (3,) * order or (order > 2 and len(set(shape[1:order])) > 1):
        asked = ", ".join(["n"] + ["m"] * (order - 1) + ["3"] * order)
        raise ValueError(f"{name} has the shape {shape}, a set of order {order} has ({asked})")
    return shape[0], shape[1]


def full(a: ArrayLike, name: str, order: int) -> int:
    """The atoms of a full set."""
    first, others = of_order(a, name, order)
    if first != others:
        raise ValueError(f"{name} has the shape {np.shape(a)}: a compact set, and this call takes a full one")
    return first
