"""A delivery roll: one file that lists what was delivered.

>>> roll = appended(EMPTY, Kind.DELIVERY, 7, label=b"MgO, spring")
>>> roll = appended(roll, Kind.REPLACEMENT, 8, 7)
>>> for record in records(roll):
...     print(record.kind.name, record.set, record.earlier, record.label)
DELIVERY 7 0 b'MgO, spring'
REPLACEMENT 8 7 b''
>>> len(roll)
47

Every call takes the roll first, then what is asked or added, in the order kind, set, earlier, label. Bytes that are longer than the roll are
lent with `count=`, how many of them it fills. A file is worked by `begin`, `append`, `retire`, `renew` and `load`: one program at a time,
replaced as a whole, and never with a record that the others do not allow. `python -m gullyfork roll` is the command `roll`.

>>> import os, tempfile
>>> with tempfile.TemporaryDirectory() as folder:
...     file = os.path.join(folder, "roll.bin")
...     begin(file)
...     append(file, Kind.DELIVERY, 7, label=b"MgO, spring")
...     append(file, Kind.REPLACEMENT, 8, 7)
...     stands_now(load(file), 7).use, retire(file, 7)
(8, [7, 8])
"""
from __future__ import annotations

import enum
import hashlib
import os
from typing import Iterator, List, NamedTuple, Optional, Protocol, Tuple, Union

import numpy as np
from numpy.typing import NDArray

from . import _arrays
from ._alone import Alone, Path, Tell, quiet
from ._alone import begin as _begin
from ._alone import read as _read_file
from ._library import CALLS
from ._refused import Refused
from ._run import run

__all__ = [
    "EMPTY", "Kind", "Record", "Standing", "State", "append", "append_roll", "appended", "begin", "is_roll", "is_roll_former", "label_of", "load",
    "read_roll", "read_roll_former", "records", "records_former", "renew", "retire", "retire_all", "retired", "stands_now",
]

EMPTY = bytes(8)
_END, _NO_ROOM, _NOT_LAWFUL, _UNKNOWN_SET = 68, 8, 9, 11
_RECORDS, _BYTES = 1000, 65536
Bytes = NDArray[np.uint8]
BytesLike = Union[bytes, bytearray, memoryview, Bytes]
_OLDER = "an older roll: its starts are not in rising order; records_former reads it"


class Kind(enum.IntEnum):
    """What a record says of a set."""

    DELIVERY, REPLACEMENT, RETIREMENT = 1, 2, 3


class Record(NamedTuple):
    """A record; next: the position after it."""

    kind: Kind
    set: int
    earlier: int
    label: bytes
    next: int

    @property
    def words(self) -> str:
        """As the command lists it; in a label the bytes that are no text, or would move a terminal's cursor, are escaped.

        >>> read_roll(appended(EMPTY, Kind.REPLACEMENT, 8, 7, b"MgO\\n")).words
        'replacement 8 of 7 "MgO\\\\x0a"'
        """
        of = f" of {self.earlier}" if self.kind is Kind.REPLACEMENT else ""
        return f"{self.kind.name.lower()} {self.set}{of}" + (f' "{_escaped(self.label)}"' if self.label else "")


def _escaped(label: bytes) -> str:
    out = ""
    for c in label.decode("utf-8", "surrogateescape"):
        if c in '"\\':
            out += "\\" + c
        elif c < " " or "\x7f" <= c <= "\x9f" or "\udc80" <= c <= "\udcff":
            out += "".join(f"\\x{b:02x}" for b in c.encode("utf-8", "surrogateescape"))
        else:
            out += c
    return out


class _Judge(Protocol):
    """`is_roll` and `is_roll_former`."""

    def __call__(self, lent: BytesLike, *, count: Optional[int] = None) -> bool: ...


def _count(lent: Bytes, count: Optional[int]) -> int:
    return lent.size if count is None else _arrays.whole(count, "count")


def _lent(lent: BytesLike) -> Bytes:
    a = _arrays.octets(lent, "lent")
    if not a.flags.writeable:
        raise ValueError("lent is changed in place, and is read-only")
    return a


def is_roll(lent: BytesLike, *, count: Optional[int] = None) -> bool:
    """Tell whether bytes are a roll. Never refused.

    Parameters
    ----------
    lent : bytes, bytearray, memoryview or ndarray of uint8
        The roll, and what may stand after it.
    count : int, optional
        How many bytes the roll has; all, if left out.

    Returns
    -------
    bool
        Whether the first `count` bytes are there and are a roll.

    Examples
    --------
    >>> is_roll(EMPTY), is_roll(b"")
    (True, False)
    """
    a = _arrays.octets(lent, "lent")
    return bool(CALLS["is_roll"].function(_arrays.address(a), a.size, _count(a, count)))


def is_roll_former(lent: BytesLike, *, count: Optional[int] = None) -> bool:
    """Tell whether bytes are a roll by the former rule, under which older rolls list their starts in any order. Never refused.

    Parameters
    ----------
    lent : bytes, bytearray, memoryview or ndarray of uint8
        The roll, and what may stand after it.
    count : int, optional
        How many bytes the roll has; all, if left out.

    Returns
    -------
    bool
        Whether the first `count` bytes are there and are such a roll.

    Examples
    --------
    >>> older = bytes.fromhex("01070000000000000000" "01080000000000000000" "0a000000" "00000000" "02000000" "14000000")
    >>> is_roll(older), is_roll_former(older)
    (False, True)
    """
    a = _arrays.octets(lent, "lent")
    return bool(CALLS["is_roll_former"].function(_arrays.address(a), a.size, _count(a, count)))


def read_roll(lent: BytesLike, at: int = 0, *, count: Optional[int] = None) -> Optional[Record]:
    """Read a roll at a position.

    Parameters
    ----------
    lent : bytes, bytearray, memoryview or ndarray of uint8
        The roll, and what may stand after it.
    at : int
        The position: 0, or the `next` of a record.
    count : int, optional
        How many bytes the roll has; all, if left out.

    Returns
    -------
    Record or None
        The record that starts there; None where the trailer begins.

    Raises
    ------
    Refused
        7: not a roll, or neither a record nor the trailer starts there. The whole roll is judged in each call.

    Examples
    --------
    >>> read_roll(EMPTY) is None
    True
    """
    return _read("read_roll", is_roll, lent, at, count)


def read_roll_former(lent: BytesLike, at: int = 0, *, count: Optional[int] = None) -> Optional[Record]:
    """Read an older roll at a position, by the former rule.

    Parameters
    ----------
    lent : bytes, bytearray, memoryview or ndarray of uint8
        The roll, and what may stand after it.
    at : int
        The position: 0, or the `next` of a record.
    count : int, optional
        How many bytes the roll has; all, if left out.

    Returns
    -------
    Record or None
        The record that starts there; None where the trailer begins.

    Raises
    ------
    Refused
        7: not a roll, or neither a record nor the trailer starts there. The whole roll is judged in each call.

    Examples
    --------
    >>> read_roll_former(EMPTY) is None
    True
    """
    return _read("read_roll_former", is_roll_former, lent, at, count)


def _read(call: str, judge: _Judge, lent: BytesLike, at: int, count: Optional[int]) -> Optional[Record]:
    a = _arrays.octets(lent, "lent")
    slots = np.empty(6, np.uintp)
    count, at = _count(a, count), _arrays.whole(at, "at")
    try:
        answer = run(call, 2, read={"lent": (a, a.shape)}, made={"slots": slots}, values={"count": count, "at": at})
    except Refused as e:
        detail = f"neither a record nor the trailer starts at {at}" if judge(a, count=count) else _what_is_wrong(a, count)
        raise Refused(e.number, e.call, "at" if judge(a, count=count) else "lent", detail) from None
    if answer == _END:
        return None
    kind, number, earlier, start, length, following = (int(x) for x in slots)
    return Record(Kind(kind), number, earlier, a[start:start + length].tobytes(), following)


def records(lent: BytesLike, *, count: Optional[int] = None) -> Iterator[Record]:
    """Walk over the records of a roll, in order.

    Parameters
    ----------
    lent : bytes, bytearray, memoryview or ndarray of uint8
        The roll, and what may stand after it.
    count : int, optional
        How many bytes the roll has; all, if left out.

    Yields
    ------
    Record

    Raises
    ------
    Refused
        7: not a roll.
    """
    at = 0
    while (record := read_roll(lent, at, count=count)) is not None:
        yield record
        at = record.next


def records_former(lent: BytesLike, *, count: Optional[int] = None) -> Iterator[Record]:
    """Walk over the records of an older roll, by the former rule.

    `appended` to an empty roll they make the roll that all other calls take; `renew` does so with files.

    Parameters
    ----------
    lent : bytes, bytearray, memoryview or ndarray of uint8
        The roll, and what may stand after it.
    count : int, optional
        How many bytes the roll has; all, if left out.

    Yields
    ------
    Record

    Raises
    ------
    Refused
        7: not a roll by the former rule.

    Examples
    --------
    >>> older = bytes.fromhex("01070000000000000000" "01080000000000000000" "0a000000" "00000000" "02000000" "14000000")
    >>> roll = EMPTY
    >>> for record in records_former(older):
    ...     roll = appended(roll, record.kind, record.set, record.earlier, record.label)
    >>> is_roll(roll), [record.set for record in records(roll)], len(roll) == len(older)
    (True, [7, 8], True)
    """
    at = 0
    while (record := read_roll_former(lent, at, count=count)) is not None:
        yield record
        at = record.next


def append_roll(lent: BytesLike, kind: int, set: int, earlier: int = 0, label: bytes = b"", *, count: int) -> int:
    """Add a record at the end of a roll, in place.

    The numbers are not looked up in the roll: a second delivery of a set is taken (`append`, on a file, asks first).

    Parameters
    ----------
    lent : bytearray or ndarray of uint8
        The roll, changed in place, with room after it.
    kind : Kind
    set : int
        The set's number, from 1 on.
    earlier : int
        The number of the set that is replaced; 0 except for a replacement.
    label : bytes
        At most 255.
    count : int
        How many bytes the roll has.

    Returns
    -------
    int
        How many bytes it has now: 14 and the label more.

    Raises
    ------
    Refused
        7: not a roll, or the record breaks the rules; 8: the roll would pass 1,000 records, 65,536 bytes or what is lent.

    Examples
    --------
    >>> lent = bytearray(64)
    >>> append_roll(lent, Kind.DELIVERY, 1, count=8)
    22
    """
    a = _lent(lent)
    if isinstance(label, str):
        raise TypeError("label has to be bytes: encode the text")
    new_count = np.empty(1, np.uintp)
    values = {"count": count, "kind": kind, "set": set, "earlier": earlier}
    text = _arrays.octets(label, "label")
    try:
        run("append_roll", 2, changed={"lent": (a, a.shape)}, read={"label": (text, text.shape)}, made={"new_count": new_count},
            values=values)
    except Refused as e:
        raise Refused(e.number, e.call, *_blame(e.number, a, text.size, **{k: int(v) for k, v in values.items()})) from None
    return int(new_count[0])


def appended(roll: BytesLike, kind: int, set: int, earlier: int = 0, label: bytes = b"") -> bytes:
    """Return a roll with a record more.

    Parameters
    ----------
    roll : bytes, bytearray, memoryview or ndarray of uint8
        The former roll, which stays.
    kind : Kind
    set : int
        The set's number, from 1 on.
    earlier : int
        The number of the set that is replaced; 0 except for a replacement.
    label : bytes
        At most 255.

    Returns
    -------
    bytes
        The new roll.

    Raises
    ------
    Refused
        As `append_roll`.

    Examples
    --------
    >>> len(appended(EMPTY, Kind.DELIVERY, 7, label=b"MgO"))
    25
    """
    former = _arrays.octets(roll, "roll")
    lent = bytearray(former.tobytes() + bytes(14 + len(label)))
    return bytes(lent[:append_roll(lent, kind, set, earlier, label, count=former.size)])


class State(enum.Enum):
    """What a roll knows of a set: it was never delivered; the set at the end of its chain of replacements was
    retired; that set stands for it."""

    UNKNOWN, RETIRED, CURRENT = 70, 71, 0


class Standing(NamedTuple):
    """What stands now for a set; use: the number to use, where there is one."""

    state: State
    use: Optional[int]


def stands_now(lent: BytesLike, set: int, *, count: Optional[int] = None) -> Standing:
    """Tell which set stands now for a set number.

    A replaced set answers as the one that replaced it; retirement counts at the end of the chain.

    Parameters
    ----------
    lent : bytes, bytearray, memoryview or ndarray of uint8
        The roll, and what may stand after it.
    set : int
        The number that is asked for.
    count : int, optional
        How many bytes the roll has; all, if left out.

    Returns
    -------
    Standing
        State, and the number to use where there is one.

    Raises
    ------
    Refused
        7: not a roll; 9: a record that the others do not allow, which is named.

    Examples
    --------
    >>> roll = appended(appended(EMPTY, Kind.DELIVERY, 7), Kind.REPLACEMENT, 8, 7)
    >>> stands_now(roll, 7)
    Standing(state=<State.CURRENT: 0>, use=8)
    >>> stands_now(roll, 9).state.name
    'UNKNOWN'
    """
    a = _arrays.octets(lent, "lent")
    use, count = np.empty(1, np.uintp), _count(a, count)
    try:
        answer = run("stands_now", 2, read={"lent": (a, a.shape)}, made={"use_set": use}, values={"count": count, "set": set})
    except Refused as e:
        detail = _unlawful(a, count) if e.number == _NOT_LAWFUL else _what_is_wrong(a, count)
        raise Refused(e.number, e.call, "lent", detail) from None
    state = State(answer)
    return Standing(state, int(use[0]) if state is State.CURRENT else None)


def retire_all(lent: BytesLike, set: int, *, count: int) -> int:
    """Retire a set, those it replaces and those that replace it, step by step, in place.

    A retirement with an empty label is added for each that has none, by rising number.

    Parameters
    ----------
    lent : bytearray or ndarray of uint8
        The roll, changed in place, with room after it.
    set : int
        The set's number.
    count : int
        How many bytes the roll has.

    Returns
    -------
    int
        How many bytes it has now: 14 more for each retirement.

    Raises
    ------
    Refused
        7: not a roll; 9: a record that the others do not allow; 11: the set was never delivered; 8: they do not all fit.

    Examples
    --------
    >>> lent = bytearray(appended(appended(EMPTY, Kind.DELIVERY, 7), Kind.REPLACEMENT, 8, 7) + bytes(28))
    >>> count = retire_all(lent, 7, count=36)
    >>> [(record.kind.name, record.set) for record in records(lent, count=count)][2:]
    [('RETIREMENT', 7), ('RETIREMENT', 8)]
    """
    a = _lent(lent)
    new_count = np.empty(1, np.uintp)
    values = {"count": count, "set": set}
    try:
        run("retire_all", 2, changed={"lent": (a, a.shape)}, made={"new_count": new_count}, values=values)
    except Refused as e:
        raise Refused(e.number, e.call, *_not_retired(e.number, a, int(count), int(set))) from None
    return int(new_count[0])


def retired(roll: BytesLike, set: int) -> bytes:
    """Return a roll with the retirements of `retire_all`.

    Parameters
    ----------
    roll : bytes, bytearray, memoryview or ndarray of uint8
        The former roll, which stays.
    set : int
        The set's number.

    Returns
    -------
    bytes
        The new roll.

    Raises
    ------
    Refused
        As `retire_all`.

    Examples
    --------
    >>> [r.words for r in records(retired(appended(EMPTY, Kind.DELIVERY, 7), 7))]
    ['delivery 7', 'retirement 7']
    """
    former = _arrays.octets(roll, "roll")
    lent = bytearray(former.tobytes() + bytes(14 * _RECORDS))
    return bytes(lent[:retire_all(lent, set, count=former.size)])


def _not_retired(number: int, a: Bytes, count: int, set: int) -> Tuple[str, Optional[str]]:
    if number == _NOT_LAWFUL:
        return "lent", _unlawful(a, count)
    if number == _UNKNOWN_SET:
        return "set", f"{set}, which no record delivers"
    if number == _NO_ROOM:
        return "lent", f"{a.size} bytes, 14 more for each set to retire; limits {_RECORDS} records, {_BYTES} bytes"
    return "lent", _what_is_wrong(a, count)


def _unlawful(a: Bytes, count: int) -> Optional[str]:
    """The first record that the others do not allow."""
    delivered: List[int] = []
    replaced: List[int] = []
    for k, r in enumerate(records(a, count=count), 1):
        named, fault = r.earlier if r.kind is Kind.REPLACEMENT else r.set, None
        if r.kind is not Kind.DELIVERY and named not in delivered:
            fault = f"names set {named}, which no earlier record delivers"
        elif r.kind is Kind.REPLACEMENT and named in replaced:
            fault = f"replaces set {named}, which was replaced before"
        elif r.kind is not Kind.RETIREMENT and r.set in delivered:
            fault = f"delivers set {r.set}, which was delivered before"
        if fault:
            return f"{r.words}, line {k} of the list, {fault}"
        replaced += [named] if r.kind is Kind.REPLACEMENT else []
        delivered += [] if r.kind is Kind.RETIREMENT else [r.set]
    return None


def _what_is_wrong(a: Bytes, count: int) -> str:
    if count > a.size:
        return f"count {count} passes its {a.size} bytes"
    if is_roll_former(a, count=count):
        return _OLDER
    return f"its first {count} bytes are not a roll"


def _blame(number: int, a: Bytes, label: int, count: int, kind: int, set: int, earlier: int) -> Tuple[str, Optional[str]]:
    if number == _NO_ROOM:
        want = count + 14 + label
        if want > _BYTES:
            return "lent", f"the roll would have {want} bytes, limit {_BYTES}"
        return "lent", f"{a.size} bytes, the roll would have {want}" if want > a.size else f"the roll has {_RECORDS} records, the limit"
    if not is_roll(a, count=count):
        return "lent", _what_is_wrong(a, count)
    if kind not in (1, 2, 3):
        return "kind", f"{kind}, not 1, 2 or 3"
    if set == 0:
        return "set", "0, set numbers start at 1"
    if (earlier != 0) != (kind == Kind.REPLACEMENT):
        return "earlier", f"{earlier}: a replacement names an earlier set, and nothing else does"
    return "label", f"{label} bytes, limit 255"


# ---- files

def _in_roll(call: str, data: bytes) -> bytes:
    """The bytes, if they are a roll."""
    if not is_roll(data):
        raise Refused(7, call, "path", _what_is_wrong(np.frombuffer(data, np.uint8), len(data)))
    return data


def _allowed(call: str, data: bytes) -> bytes:
    """The bytes of a roll, if no record is one that the others do not allow."""
    try:
        stands_now(data, 1)
    except Refused as e:
        raise Refused(e.number, call, "path", e.detail) from None
    return data


def load(path: Path) -> bytes:
    """Read the roll in a file.

    Parameters
    ----------
    path : str, bytes or path
        The file.

    Returns
    -------
    bytes
        The roll.

    Raises
    ------
    Refused
        7: not a roll.
    OSError
        The file cannot be read.
    """
    return _in_roll("load", _read_file(path, _BYTES + 1))


def begin(path: Path) -> None:
    """Write an empty roll to a file that is not there yet.

    Parameters
    ----------
    path : str, bytes or path
        The file.

    Raises
    ------
    OSError
        There is such a file, or it cannot be written.
    """
    _begin(path, EMPTY)


def append(path: Path, kind: int, set: int, earlier: int = 0, label: bytes = b"", *, anyway: bool = False, tell: Tell = quiet) -> None:
    """Add a record at the end of the roll in a file: one program at a time, and replaced as a whole.

    Parameters
    ----------
    path : str, bytes or path
        The file.
    kind : Kind
    set : int
        The set's number, from 1 on.
    earlier : int
        The number of the set that is replaced; 0 except for a replacement.
    label : bytes
        At most 255.
    anyway : bool
        Write even a record that the others do not allow; from then on no standing can be told.
    tell : function of str
        Is told of waiting for another program, and of what one that was ended had left.

    Raises
    ------
    Refused
        7, 8: as `append_roll`; 9: a record that the others do not allow, which is named. The file is as it was.
    OSError
        The file cannot be read, written or locked, or could not keep its owner, group or names; it is as it was.
    """
    with Alone(path, tell) as file:
        new = appended(_in_roll("append", file.read(_BYTES + 1)), kind, set, earlier, label)
        file.replace(new if anyway else _allowed("append", new))


def retire(path: Path, set: int, *, tell: Tell = quiet) -> List[int]:
    """Retire a set of the roll in a file, and all sets that replacements link with it.

    Parameters
    ----------
    path : str, bytes or path
        The file.
    set : int
        The set's number.
    tell : function of str
        Is told of waiting for another program, and of what one that was ended had left.

    Returns
    -------
    list of int
        The numbers of the retirements that were added.

    Raises
    ------
    Refused
        As `retire_all`.
    OSError
        The file cannot be read, written or locked, or could not keep its owner, group or names; it is as it was.
    """
    with Alone(path, tell) as file:
        former = _in_roll("retire", file.read(_BYTES + 1))
        new, numbers = _retirements(former, set)
        if numbers:
            file.replace(new)
    return numbers


def _retirements(former: bytes, set: int) -> Tuple[bytes, List[int]]:
    new = retired(former, set)
    more = (len(new) - len(former)) // 14
    return new, [r.set for r in records(new)][-more:] if more else []


def renew(older: Path, path: Path, *, anyway: bool = False) -> None:
    """Write the records of an older roll to a file that is not there yet; the older file stays as it is.

    Parameters
    ----------
    older : str, bytes or path
        The file with the older roll.
    path : str, bytes or path
        The new file.
    anyway : bool
        Write even a record that the others do not allow; from then on no standing can be told.

    Raises
    ------
    Refused
        7: not a roll by the former rule; 9: a record that the others do not allow, which is named.
    OSError
        The older file cannot be read, there is such a new file, or it cannot be written.
    """
    data, new = _read_file(older, _BYTES + 1), EMPTY
    if not is_roll_former(data):
        raise Refused(7, "renew", "older", _what_is_wrong(np.frombuffer(data, np.uint8), len(data)))
    for r in records_former(data):
        new = appended(new, r.kind, r.set, r.earlier, r.label)
    _begin(path, new if anyway else _allowed("renew", new))


# ---- certificates

def label_of(path: Path) -> Tuple[bytes, str]:
    """Return the label of the record that delivers a certificate, and the set number that the certificate states, or "not stated".

    Parameters
    ----------
    path : str or path
        A delivery's certificate.txt.

    Raises
    ------
    ValueError
        It is no certificate of a delivery.
    """
    with open(path, "rb") as f:
        text = f.read(1 << 19)
    _, found, rest = text.partition(b"\nset: ")
    stated = rest.split(b"\n")[0]
    if len(text) == 1 << 19 or not text.startswith(b"gullyfork certificate ") or not found or len(stated) >= 16:
        raise ValueError(f"{os.fsdecode(path)}: it is no certificate of a delivery")
    return b"sha256 " + hashlib.sha256(text).hexdigest().encode(), stated.decode("utf-8", "replace")
