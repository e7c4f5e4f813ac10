"""The shared library, and its C names with the types that gullyfork.h declares for them.

The types are read from the header when the package is loaded, so the two cannot drift apart. GULLYFORK_SO names another
library than the one in the package; it has to be of the header's version.
"""
from __future__ import annotations

import ctypes
import os
import re
from typing import TYPE_CHECKING, Dict, List, NamedTuple, Type, Union

import numpy as np

if TYPE_CHECKING:
    from ctypes import _NamedFuncPointer

    _Number = Union[Type["ctypes._SimpleCData[int]"], Type["ctypes._SimpleCData[float]"], Type["ctypes._SimpleCData[bool]"],
                    Type[ctypes.c_char_p], Type[ctypes.c_void_p]]
    _DType = Union["np.dtype[np.float64]", "np.dtype[np.int64]", "np.dtype[np.uint8]", "np.dtype[np.uintp]"]

_HERE = os.path.dirname(os.path.abspath(__file__))
SHARED = os.environ.get("GULLYFORK_SO") or os.path.join(_HERE, "libgullyfork.so")
HEADER = os.path.join(_HERE, "gullyfork.h")

_CTYPES: Dict[str, _Number] = {
    "size_t": ctypes.c_size_t, "int64_t": ctypes.c_int64, "uint32_t": ctypes.c_uint32, "uint8_t": ctypes.c_uint8,
    "double": ctypes.c_double, "bool": ctypes.c_bool, "char *": ctypes.c_char_p,
}
DTYPES: Dict[str, _DType] = {"double": np.dtype(np.float64), "int64_t": np.dtype(np.int64), "uint8_t": np.dtype(np.uint8), "size_t": np.dtype(np.uintp)}
TABLES = ("p2s", "s2pp", "nsym_list", "perms")
COUNTS = ("n_satom", "n_patom", "num_trans")


class Argument(NamedTuple):
    """One argument of a C name: a slice (its pointer and its length), a value, or the shift tables or their counts as one."""

    name: str
    form: str
    type: str
    changed: bool


class Call(NamedTuple):
    """A C name: `name` without gf_, its function, and its arguments in order."""

    name: str
    function: _NamedFuncPointer
    arguments: List[Argument]


class _Declared(NamedTuple):
    name: str
    result: str
    types: List[_Number]
    arguments: List[Argument]


def _joined(arguments: List[Argument]) -> List[Argument]:
    """The four shift tables as one argument, and their counts: Tables has them ready."""
    names = [a.name for a in arguments]
    out, k = [], 0
    while k < len(arguments):
        if tuple(names[k:k + 4]) == TABLES:
            out.append(Argument("tables", "tables", "", False))
            k += 4
        elif tuple(names[k:k + 3]) == COUNTS and "p2s" in names:
            out.append(Argument("counts", "counts", "", False))
            k += 3
        else:
            out.append(arguments[k])
            k += 1
    return out


def declarations(header: str) -> List[_Declared]:
    """What the header's text declares."""
    text = re.sub(r"/\*.*?\*/", " ", header, flags=re.S)
    out = []
    for result, name, words in re.findall(r"((?:const )?\w+(?: \*)?)\s*\b(gf_\w+)\s*\(([^)]*)\)\s*;", text):
        types: List[_Number] = []
        arguments: List[Argument] = []
        for word in ([] if words.strip() == "void" else words.split(",")):
            kind, argument = re.fullmatch(r"\s*(?:const )?(\w+) \*?(\w+)\s*", word).groups()  # type: ignore[union-attr]
            if "*" in word:
                types.append(ctypes.c_void_p)
                arguments.append(Argument(argument, "slice", kind, "const" not in word))
            else:
                types.append(_CTYPES[kind])
                if not (arguments and arguments[-1].form == "slice" and argument == arguments[-1].name + "_len"):
                    arguments.append(Argument(argument, "value", kind, False))
        out.append(_Declared(name, result.replace("const ", ""), types, _joined(arguments)))
    return out


def _header() -> str:
    try:
        with open(HEADER, encoding="utf-8") as f:
            return f.read()
    except OSError as e:
        raise ImportError(f"gullyfork: the package has no header ({e}): it was not built by bindings/python/build") from None


def _load() -> ctypes.CDLL:
    try:
        return ctypes.CDLL(SHARED)
    except OSError as e:
        raise ImportError(f"gullyfork: the shared library cannot be loaded: {e}") from None


def _calls(text: str, library: ctypes.CDLL) -> Dict[str, Call]:
    calls = {}
    for d in declarations(text):
        try:
            function = getattr(library, d.name)
        except AttributeError:
            raise ImportError(f"gullyfork: {SHARED} has no {d.name}, which the header declares: it is of another version") from None
        function.restype, function.argtypes = _CTYPES[d.result], d.types
        calls[d.name[3:]] = Call(d.name[3:], function, d.arguments)
    return calls


_text = _header()
CALLS = _calls(_text, _load())
HEADER_VERSION = re.search(r'^#define GF_VERSION "(.*)"', _text, re.M)[1]  # type: ignore[index]


def version() -> str:
    """Return the version of the library, three numbers with points between.

    Examples
    --------
    >>> len(version().split("."))
    3
    """
    text: bytes = CALLS["version"].function()
    return text.decode("ascii")


def words(answer: int) -> str:
    """Return what an answer of the library means.

    Parameters
    ----------
    answer : int
        From 0 to 255: 0 says that the work is done, 1 to 63 are refusals.

    Raises
    ------
    ValueError
        Any other number.

    Examples
    --------
    >>> words(6)
    'the shift tables break a rule'
    """
    if not 0 <= answer <= 255:
        raise ValueError(f"answer: {answer} is no number of 0 to 255")
    text: bytes = CALLS["words"].function(answer)
    return text.decode("utf-8")


if version() != HEADER_VERSION:
    raise ImportError(f"gullyfork: {SHARED} is version {version()}, the package is {HEADER_VERSION}")
