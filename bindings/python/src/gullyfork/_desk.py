"""python -m gullyfork roll: the command `roll` of the dispatch desk (delivery/roll.c), with the same words and statuses."""
from __future__ import annotations

import contextlib
import os
import signal
from typing import Dict, List, NamedTuple, Optional

from . import roll
from ._alone import Alone
from ._refused import Refused
from .roll import Kind, State

_USAGE = """usage: roll list FILE [SET]
       roll new FILE
       roll append [--anyway] FILE delivery SET [LABEL | --certificate CERTIFICATE]
       roll append [--anyway] FILE replacement SET EARLIER [LABEL | --certificate CERTIFICATE]
       roll append [--anyway] FILE retirement SET [LABEL]
       roll retire [--yes] FILE SET
       roll renew [--anyway] OLD NEW
       roll help
"""
_HELP = """list    the records, or which set stands now for SET
new     an empty roll, in a file that is not there yet
append  a record at the end; --anyway: even one that the others do not allow, after which no standing can be told;
        --certificate: the label is the checksum of a delivery's certificate.txt, by which verify --roll finds the set
retire  SET and every set linked to it by replacements; --yes: without asking
renew   the records of an older roll, in a file that is not there yet
A word that begins with - is an option; after -- none is.
status  0 done, or a set to use; 70 the set is unknown; 71 retired; 1 a file cannot be read or written;
        2 wrong usage; 3 not agreed to; 7 not a roll, or a label above 255 bytes; 8 the roll is full;
        9 a record that the others do not allow; 11 the set to retire was never delivered.
"""
_WRONG_USAGE, _NOT_AGREED = 2, 3
_MOST_WORDS = 6
_NOTHING_WRITTEN = ": nothing was written; with --anyway it is, and no standing can be told from then on"
_NO_STANDING = ": no standing can be told"


class _Wrong(Exception):
    """Wrong usage, in words; without words the usage is printed."""


# ---- what the command says: bytes, as a label or a name may be no text

def _write(fd: int, text: str) -> None:
    data = text.encode("utf-8", "surrogateescape")
    while data:
        data = data[os.write(fd, data):]


def _print(text: str) -> None:
    try:
        _write(1, text)
    except OSError as e:
        raise OSError(e.errno, e.strerror, "standard output") from None


def _complain(text: str) -> None:
    with contextlib.suppress(OSError):  # nobody is there to hear it
        _write(2, text)


def _tell(text: str) -> None:
    _complain(f"roll: {text}\n")


def _refused(e: Refused, path: str, so: str, set: int = 0) -> int:
    """What is said of a refusal, and its number."""
    if e.number == 7 and e.argument == "label":
        _tell(f"{path}: a label has at most 255 bytes (refusal 7); left as it is")
    elif e.number == 7 and e.detail == roll._OLDER:
        _tell(f"{path}: an older roll, whose trailer does not list the starts in rising order (refusal 7); left as it is:"
              f" roll renew {path} NEW brings its records over to a new file")
    elif e.number == 7:
        _tell(f"{path}: not a roll (refusal 7); left as it is")
    elif e.number == 8:
        _tell(f"{path}: full (refusal 8): a roll has at most 1,000 records and 65,536 bytes; left as it is")
    elif e.number == 9:
        _tell(f"{path}: {e.detail} (refusal 9){so}")
    else:
        _tell(f"{path}: set {set} was never delivered (refusal 11)")
    return e.number


# ---- the commands

def _list(path: str) -> int:
    try:
        data = roll.load(path)
    except Refused as e:
        return _refused(e, path, "")
    lines = [r.words for r in roll.records(data)]
    _print("".join(line + "\n" for line in lines) + f"{len(lines)} record{'' if len(lines) == 1 else 's'}, {len(data)} bytes\n")
    return 0


def _ask(path: str, set: int) -> int:
    try:
        state, use = roll.stands_now(roll.load(path), set)
    except Refused as e:
        return _refused(e, path, _NO_STANDING)
    words = {State.UNKNOWN: "unknown", State.RETIRED: "retired", State.CURRENT: "current" if use == set else f"replaced, use {use}"}
    _print(f"{set}: {words[state]}\n")
    return state.value


def _append(path: str, kind: Kind, set: int, earlier: int, label: bytes, anyway: bool) -> int:
    try:
        roll.append(path, kind, set, earlier, label, anyway=anyway, tell=_tell)
    except Refused as e:
        return _refused(e, path, _NOTHING_WRITTEN)
    return 0


def _renew(older: str, path: str, anyway: bool) -> int:
    try:
        roll.renew(older, path, anyway=anyway)
    except Refused as e:
        return _refused(e, older, _NOTHING_WRITTEN)
    return 0


def _agreed() -> bool:
    _print("append? [y/N] ")
    first = b""
    with contextlib.suppress(OSError):
        first = os.read(0, 1)
    if first not in (b"y", b"Y"):
        _print("left as it is\n")
    return first in (b"y", b"Y")


def _retire(path: str, set: int, yes: bool) -> int:
    file = Alone(path, _tell)
    try:
        seen = roll._in_roll("retire", file.read(roll._BYTES + 1))
        new, numbers = roll._retirements(seen, set)
        if not numbers:
            _print(f"{path}: every set linked to {set} has its retirement; nothing to append\n")
            return 0
        _print(f"{path}: {len(numbers)} retirement{'' if len(numbers) == 1 else 's'} to append: {' '.join(map(str, numbers))}\n")
        if not yes:
            file.close()  # nobody waits for the answer; after it the roll has to be the one that was shown
            if not _agreed():
                return _NOT_AGREED
            file = Alone(path, _tell)
            if file.read(roll._BYTES + 1) != seen:
                _tell(f"{path}: changed meanwhile; left as it is")
                return _NOT_AGREED
        file.replace(new)
    except Refused as e:
        return _refused(e, path, _NO_STANDING, set)
    finally:
        file.close()
    _print("appended\n")
    return 0


# ---- the words of the command

class _Request(NamedTuple):
    options: List[str]
    words: List[str]  # the first one is the command
    certificate: List[str]  # none or one

    def asked(self, command: str, least: int, most: int, *options: str) -> bool:
        """Whether this command was asked for, with so many words after it, and no options but these."""
        return self.words[:1] == [command] and least < len(self.words) <= most + 1 and all(o in options for o in self.options)


def _sort(arguments: List[str]) -> _Request:
    q = _Request([], [], [])
    ended = False
    left = iter(arguments)
    for word in left:
        if ended or word[:1] != "-" or word == "-":
            q.words.append(word)
        elif word == "--":
            ended = True
        elif word in ("--help", "--anyway", "--yes"):
            q.options.append(word)
        elif word == "--certificate" and not q.certificate:
            named = next(left, None)
            if named is None:
                raise _Wrong
            q.certificate.append(named)
        else:
            raise _Wrong
    if len(q.words) > _MOST_WORDS:
        raise _Wrong
    return q


def _number(word: str) -> int:
    digits = word.lstrip("0")
    if not (word.isascii() and word.isdigit()) or not 0 < len(digits) <= 10 or int(digits) >= 2**32:
        raise _Wrong(f"{word}: not a set number (1 to 4,294,967,295)")
    return int(digits)


def _append_words(q: _Request) -> int:
    kinds: Dict[str, Kind] = {kind.name.lower(): kind for kind in Kind}
    kind: Optional[Kind] = kinds.get(q.words[2])
    label = 5 if kind is Kind.REPLACEMENT else 4
    if kind is None or not label <= len(q.words) <= label + 1:
        raise _Wrong
    set = _number(q.words[3])
    earlier = _number(q.words[4]) if kind is Kind.REPLACEMENT else 0
    given = os.fsencode("".join(q.words[label:]))
    if q.certificate and (kind is Kind.RETIREMENT or len(q.words) > label):
        raise _Wrong
    return _append(q.words[1], kind, set, earlier, _certified(q.certificate[0], set) if q.certificate else given, "--anyway" in q.options)


def _certified(path: str, set: int) -> bytes:
    """The label that names a certificate, whose set is the one to deliver."""
    try:
        label, stated = roll.label_of(path)
    except ValueError:
        raise OSError(0, "it is no certificate of a delivery", path) from None
    if stated not in ("not stated", str(set)):
        raise OSError(0, f"it is the certificate of set {stated}, not of {set}", path)
    return label


def _run(arguments: List[str]) -> int:
    q = _sort(arguments)
    if "--help" in q.options or q.asked("help", 0, 0, "--anyway", "--yes"):
        _print(_USAGE + _HELP)
        return 0
    if q.asked("append", 3, 5, "--anyway"):
        return _append_words(q)
    if q.certificate:
        raise _Wrong
    if q.asked("renew", 2, 2, "--anyway"):
        return _renew(q.words[1], q.words[2], bool(q.options))
    if q.asked("retire", 2, 2, "--yes"):
        return _retire(q.words[1], _number(q.words[2]), bool(q.options))
    if q.asked("list", 1, 1):
        return _list(q.words[1])
    if q.asked("list", 2, 2):
        return _ask(q.words[1], _number(q.words[2]))
    if q.asked("new", 1, 1):
        roll.begin(q.words[1])
        return 0
    raise _Wrong


def _fill_standard_streams() -> None:
    """Where standard input, output or error is closed, a roll that is opened would take its number, and what is said would be written into
    the roll. A file takes the place in which each of them fails."""
    for fd in range(3):
        try:
            os.fstat(fd)
        except OSError:
            os.open(os.devnull, os.O_RDONLY if fd else os.O_WRONLY)


def main(arguments: List[str]) -> int:
    """Work the dispatch desk's roll; `roll help` says how.

    Parameters
    ----------
    arguments : list of str
        The words after `roll`.

    Returns
    -------
    int
        The status.
    """
    _fill_standard_streams()
    signal.signal(signal.SIGPIPE, signal.SIG_DFL)  # as any command ends when nobody reads on
    try:
        return _run(arguments)
    except _Wrong as e:
        _complain(f"roll: {e}\n" if e.args else _USAGE)
        return _WRONG_USAGE
    except OSError as e:
        _tell(f"{os.fsdecode(e.filename)}: {e.strerror}")
        return 1
