"""The certificate of a delivery: what `delivery/run` writes beside the sets, held against the files.

`verify(folder)` returns every line and whether it holds; `certify(folder, before)` writes one. The commands are
`python -m gullyfork verify FOLDER` and `python -m gullyfork certify FOLDER --before FOLDER`.
"""
from __future__ import annotations

import argparse
import hashlib
import os
import sys
import time
from typing import TYPE_CHECKING, Callable, Dict, Iterator, List, NamedTuple, Optional, Tuple

import gullyfork as gf

from . import _verdicts as verdicts
from . import files, roll
from ._commands import DONE, FAULTS, added
from ._progress import Tell, quiet, terminal
from ._verdicts import NO_OPERATIONS, Bounds, Verdict
from .files import Delivery, Unreadable

if TYPE_CHECKING:
    from ._commands import Commands
    from ._types import Doubles
    from .tables import Tables

__all__ = ["Bounds", "Line", "certify", "read", "verify"]

NAME = "certificate.txt"
_FIRST = b"gullyfork certificate 2"
_HEAD = ("library", "date", "set", "unit")
_FILES = ("tables.txt", "cell.txt", "operations.txt", "fc2.f64", "fc3.f64", "fc4.f64")
_OPTIONAL = ("operations.txt", "fc4.f64")
_CELL: Dict[str, Callable[[Delivery], Verdict]] = {
    "counts": verdicts.counts, "cell": verdicts.cell, "tables": verdicts.tables, "positions": verdicts.positions, "operations": verdicts.operations}
_NOT_STATED, _UNREADABLE = "not stated", "cannot be read: "
_CUT = "a file is missing, longer or shorter than it was, or not named: nothing more is looked at"
_MOST = 64 * (4096 + 40) - 1  # bytes of a certificate


def _files(operations: bool, fourth: bool) -> List[str]:
    left_out = [name for name, there in zip(_OPTIONAL, (operations, fourth)) if not there]
    return [name for name in _FILES if name not in left_out]


def _names(operations: bool, fourth: bool) -> List[str]:
    """The lines of a certificate, in their order."""
    found = _files(operations, fourth)
    sets = [name[:3] for name in found if name.endswith(".f64")]
    names = [*_HEAD, *found, *(f"input {s}.f64" for s in sets), *_CELL, "bounds"]
    for s in sets:
        names += [f"size {s}", f"orders {s} before", f"drift {s} before", f"crystal {s} before", f"change {s}", f"audit {s}", f"drift {s} after",
                  f"crystal {s} after"]
        names += [f"on-site {s}"] if s == "fc2" else []
    return names


def _stated_by(name: str, bounds: Bounds) -> Optional[float]:
    """The bound of a line that nothing in the delivery tells; below 0 where it has none; None for a line that is worked out again."""
    if name in _HEAD or name == "bounds" or name.startswith("input "):
        return -1.0
    if name.startswith("change "):
        return bounds.change
    if not name.endswith(" before"):
        return None
    return {"o": bounds.orders, "d": bounds.drift, "c": bounds.crystal}[name[0]]


class Line(NamedTuple):
    """A line of a certificate.

    Attributes
    ----------
    name : str
    found : str
        What is found in the files, and in front of a fault what is wrong with it.
    stated : str or None
        What the certificate states, where that is something else.
    holds : bool or None
        Whether it is true of the files and states no fault; None: it is only stated.
    """

    name: str
    found: str
    stated: Optional[str]
    holds: Optional[bool]

    @property
    def words(self) -> str:
        """As the command prints it."""
        if not self.name:
            return " " * 16 + self.found
        word = "STATED ONLY" if self.holds is None else "holds" if self.holds else "DOES NOT HOLD"
        return f"{word:<16}{self.name}: {self.found}" + ("" if self.stated is None else f"; the certificate has: {self.stated}")


# ---- reading

def read(folder: str) -> Dict[str, str]:
    """Read the lines of FOLDER/certificate.txt by their names.

    Parameters
    ----------
    folder : str

    Raises
    ------
    Unreadable
        It is not as it was written.
    """
    try:
        with files.opened(os.path.join(folder, NAME)) as f:
            text = f.read(_MOST)
    except OSError as e:
        raise Unreadable(e.strerror) from None
    if len(text) == _MOST or b"\0" in text:
        raise Unreadable("it is no certificate")
    first, _, rest = text.partition(b"\n")
    if first != _FIRST or b"\n" not in text:
        raise Unreadable("it does not begin as a certificate of this kind")
    names, lines = _names(b"\noperations.txt: " in rest, b"\nfc4.f64: " in rest), rest.split(b"\n")
    if len(lines) <= len(names) or any(not line.startswith(name.encode() + b": ") or len(line) - len(name) - 2 >= 4096 for name, line in zip(names, lines)):
        raise Unreadable("a line is missing, or is none of a certificate")
    body, end = lines[:len(names)], lines[len(names):]
    if end != [b"end: sha256 " + hashlib.sha256(b"".join(line + b"\n" for line in body)).hexdigest().encode(), b""]:
        raise Unreadable("its lines are not those that it was written with: the checksum at its end is another")
    return {name: line[len(name) + 2:].decode("utf-8", "replace") for name, line in zip(names, body)}


def _file(folder: str, name: str, stated: str, tell: Tell) -> str:
    """Bytes and checksum; of a file that has not as many bytes as stated the checksum is not worked out."""
    try:
        with files.opened(os.path.join(folder, name)) as f:
            size = os.fstat(f.fileno()).st_size
            if stated.split(" ")[0] != str(size):
                return f"{size} bytes"
            done, total = 0, hashlib.sha256()
            while part := f.read(1 << 24):
                done += len(part)
                total.update(part)
                tell(f"checksum of {name}: {100 * done // size} %")
            return f"{done} bytes, sha256 {total.hexdigest()}"
    except OSError as e:
        return f"{_UNREADABLE}{e.strerror}"


# ---- verdicts

def _tables_of(d: Delivery, fc: Doubles) -> Optional[Tables]:
    """Those of a compact set; None for a full one."""
    return None if fc.ndim == 4 and fc.shape[0] == fc.shape[1] else d.tables


def _before(d: Delivery, s: str, bounds: Bounds) -> Dict[str, Verdict]:
    fc = d.sets[s]
    t = _tables_of(d, fc)
    return {f"orders {s} before": verdicts.orders(fc, t, bounds.orders), f"drift {s} before": verdicts.drift(fc, t, bounds.drift),
            f"crystal {s} before": verdicts.crystal(fc, t, d, bounds.crystal)}


def _verdict(name: str, d: Delivery, bounds: Bounds) -> Verdict:
    """Of a line that is worked out again."""
    if name in _CELL:
        return _CELL[name](d)
    measure, s = name.split(" ")[:2]
    fc = d.sets[s]
    t = _tables_of(d, fc)
    if measure == "drift":
        return verdicts.drift(fc, t, bounds.left)
    if measure == "crystal":
        return verdicts.crystal(fc, t, d, bounds.crystal)
    return {"size": verdicts.size, "audit": verdicts.audit, "on-site": verdicts.on_site}[measure](fc, t)


# ---- holding one against the other

def _held(name: str, found: Verdict, stated: str) -> Line:
    if found.words != stated:
        return Line(name, found.words, stated, False)
    if found.fault:
        return Line(name, f"it is so, and it is a fault: {stated}", None, False)
    return Line(name, stated, None, None if stated == NO_OPERATIONS else True)


def _stated(name: str, stated: str, bound: float) -> Line:
    version = gf.version()
    if name == "library":
        return Line(name, version, None, True) if stated == version else Line(name, f"{stated} wrote it, {version} looks at it", None, None)
    if bound >= 0.0 and stated != NO_OPERATIONS and verdicts.states_fault(stated, bound):
        return Line(name, f"it states a fault: {stated}", None, False)
    return Line(name, stated, None, None)


def _standing(folder: str, path: str, stated: str) -> Line:
    """Which set of the roll has this certificate, and whether it stands now."""
    label = roll.label_of(os.path.join(folder, NAME))[0]
    try:
        data = roll.load(path)
        sets = [r.set for r in roll.records(data) if r.kind is not roll.Kind.RETIREMENT and r.label == label]
    except gf.Refused:
        return Line("roll", f"{path} is not a roll", None, False)
    except OSError as e:
        raise Unreadable(f"{path}: {e.strerror}") from None
    if not sets:
        return Line("roll", f"no record of {path} delivers this certificate", None, False)
    words = f"set {sets[-1]} of {path}, "
    try:
        state, use = roll.stands_now(data, sets[-1])
    except gf.Refused:
        return Line("roll", words + "and no standing can be told: its records do not allow each other", None, False)
    if state is roll.State.RETIRED:
        return Line("roll", words + "which is retired", None, False)
    if use != sets[-1]:
        return Line("roll", words + f"which was replaced: use {use}", None, False)
    if stated not in (_NOT_STATED, str(sets[-1])):
        return Line("roll", words + f"and the certificate states set {stated}", None, False)
    return Line("roll", words + "which stands now", None, True)


def _hold_files(folder: str, stated: Dict[str, str], tell: Tell) -> Iterator[Tuple[Line, bool]]:
    """Each line, and whether the file has as many bytes as stated."""
    for name in _FILES:
        if name in stated:
            found = _file(folder, name, stated[name], tell)
            fault = found.startswith(_UNREADABLE)
            yield _held(name, Verdict(found, fault), stated[name]), not fault and found.split(",")[0] == stated[name].split(",")[0]
        elif os.path.lexists(os.path.join(folder, name)):
            yield Line(name, "it is there, and the certificate does not name it", None, False), False


def _lines(folder: str, tell: Tell, path: Optional[str] = None) -> Iterator[Line]:
    """One after the other; Unreadable where the delivery cannot be read to its end."""
    try:
        stated = read(folder)
    except Unreadable as e:
        yield Line(NAME, str(e), None, False)
        return
    yield Line(NAME, "it is as it was written", None, True)
    for name in _HEAD:
        yield _stated(name, stated[name], -1.0)
    if path is not None:
        yield _standing(folder, path, stated["set"])
    bounds = Bounds.parsed(stated["bounds"])
    if bounds is None:
        yield Line("bounds", "they are no bounds of a certificate, or one judges nothing", None, False)
        return
    fit = True
    for line, whole in _hold_files(folder, stated, tell):
        fit &= whole
        yield line
    if not fit:
        yield Line("", _CUT, None, None)
        return
    d = files.read_delivery(folder)
    for name in list(stated)[len(_HEAD):]:
        if name in _FILES:
            continue
        tell(name)
        bound = _stated_by(name, bounds)
        yield _held(name, _verdict(name, d, bounds), stated[name]) if bound is None else _stated(name, stated[name], bound)


def verify(folder: str, tell: Tell = quiet, roll: Optional[str] = None) -> List[Line]:
    """Hold the certificate of a delivery against the files beside it.

    Parameters
    ----------
    folder : str
    tell : callable
        Is given the step that begins.
    roll : str, optional
        A roll of deliveries: a line says which set of it this delivery is, and holds if that stands now.

    Returns
    -------
    list of Line

    Raises
    ------
    Unreadable
        The delivery cannot be read.
    """
    return list(_lines(folder, tell, roll))


class Held(NamedTuple):
    """The lines of a certificate, the names of those that do not hold, and whether the whole delivery was read."""

    lines: List[Line]
    wrong: List[str]
    whole: bool


def look_at(folder: str, say: Callable[[str], None], path: Optional[str] = None) -> Held:
    """Says every line, one after the other; what cannot be read goes to standard error."""
    lines: List[Line] = []
    tell, whole = terminal(), True
    try:
        for line in _lines(folder, tell, path):
            tell("")
            say(line.words)
            lines.append(line)
    except (Unreadable, MemoryError) as e:
        tell("")
        print(f"gullyfork: {e}", file=sys.stderr)
        whole = False
    return Held(lines, [line.name for line in lines if line.holds is False], whole)


# ---- writing

def certify(folder: str, before: str, overwrite: bool = False, tell: Tell = quiet) -> str:
    """Write the certificate of a delivery, as `delivery/run` does.

    Parameters
    ----------
    folder : str
        The delivery.
    before : str
        The delivery that it was symmetrized from, with its job.txt, if it has one.
    overwrite : bool
        Whether a certificate that is there is replaced.
    tell : callable
        Is given the step that begins.

    Returns
    -------
    str
        The path of the certificate.

    Raises
    ------
    ValueError
        A verdict is a fault. Nothing is written.
    Unreadable
        A file cannot be read.
    FileExistsError
        There is one already, and overwrite is False.
    """
    d, was, job = files.read_delivery(folder), files.read_delivery(before), files.read_job(before)
    bounds = Bounds()._replace(**job.bounds)
    if Bounds.parsed(bounds.words) is None:
        raise ValueError(f"{before}: job.txt has a bound that judges nothing: they are at most {verdicts.WIDEST.words}")
    found: Dict[str, Verdict] = {}
    for s in d.sets:
        if s not in was.sets or was.sets[s].shape != d.sets[s].shape:
            raise ValueError(f"{before}: {s}.f64 is not there, or is of another shape than that of {folder}")
        found.update(_before(was, s, bounds))
        found[f"change {s}"] = verdicts.change(was.sets[s], d.sets[s], _tables_of(d, d.sets[s]) is None, bounds.change)
    stated = {"library": gf.version(), "date": time.strftime("%Y-%m-%dT%H:%M:%SZ", time.gmtime()), "set": job.set or _NOT_STATED,
              "unit": job.unit or _NOT_STATED, "bounds": bounds.words}
    lines: Dict[str, Verdict] = {}
    for name in _names(d.operations is not None, d.fc4 is not None):
        tell(name)
        at, file = (before, name[6:]) if name.startswith("input ") else (folder, name)
        if file in _FILES:
            size = os.path.getsize(os.path.join(at, file))
            lines[name] = Verdict(_file(at, file, f"{size} bytes", tell))
        else:
            lines[name] = Verdict(stated[name]) if name in stated else found.get(name) or _verdict(name, d, bounds)
    tell("")
    wrong = [f"{name}: {line.words}" for name, line in lines.items() if line.fault]
    if wrong:
        raise ValueError(f"{folder}: nothing is certified: {'; '.join(wrong)}")
    body = "".join(f"{name}: {line.words}\n" for name, line in lines.items()).encode("utf-8")
    path = os.path.join(folder, NAME)
    files.put_bytes(path, overwrite, _FIRST + b"\n" + body + b"end: sha256 " + hashlib.sha256(body).hexdigest().encode() + b"\n")
    return path


# ---- the commands

_VERIFY = """Hold a delivery against its certificate.

FOLDER: a delivery with its certificate.txt. A line for each line of the certificate, and a verdict, as `delivery/verify` prints them: a line
holds if it is true of the files and states no fault; the verdicts on the sets are those of the library's proved audits and reports. --roll
names a roll of deliveries: which set of it this is, and whether that stands now. Status 1 also where something cannot be read."""

_CERTIFY = """Write the certificate of a delivery, if nothing of it is a fault.

FOLDER: a delivery. --before names the delivery that it was symmetrized from: how far that was from its symmetries is stated, and its job.txt
has set number, unit and bounds. What is at fault is said, and then nothing is written: status 1."""


def verify_command(commands: Commands) -> None:
    """Add the sub-command."""
    c = added(commands, "verify", lambda a: main(a.folder, a.roll), _VERIFY)
    c.add_argument("folder", metavar="FOLDER")
    c.add_argument("--roll", metavar="ROLL", help="a roll of deliveries")


def certify_command(commands: Commands) -> None:
    """Add the sub-command."""
    c = added(commands, "certify", _certify, _CERTIFY)
    c.add_argument("folder", metavar="FOLDER")
    c.add_argument("--before", metavar="FOLDER", required=True, help="the delivery that it was symmetrized from")
    c.add_argument("--overwrite", action="store_true", help="replace a certificate that is there")


def _certify(a: argparse.Namespace) -> int:
    try:
        path = certify(a.folder, a.before, a.overwrite, terminal())
    except Unreadable:
        raise
    except ValueError as e:
        print(f"gullyfork: {e}", file=sys.stderr)
        return FAULTS
    print(f"written {path}")
    return DONE


def main(folder: str, path: Optional[str] = None) -> int:
    """Hold a delivery against its certificate, in print; the status."""
    held = look_at(folder, print, path)
    if held.wrong:
        print(f"DOES NOT HOLD: {len(held.wrong)} line{'s' if len(held.wrong) > 1 else ''}")
    elif not held.whole:
        print("DOES NOT HOLD: it cannot be read")
    else:
        bounds = Bounds.parsed(next(line.found for line in held.lines if line.name == "bounds"))
        print("HOLDS, by bounds that are wider than the defaults" if bounds is None or bounds.wider else "HOLDS")
    return DONE if held.whole and not held.wrong else FAULTS
