"""A file that one program at a time replaces as a whole: whoever reads it finds the former bytes or the new ones, never a part of them.

As delivery/alone.c does it, so that programs in C and in Python respect each other: the same lock, and the same names of files that are
written beside, NAME.unfinished-XXXXXX. What cannot be done is an OSError, and the file is as it was.
"""
from __future__ import annotations

import contextlib
import errno
import fcntl
import os
import re
import secrets
import stat
import string
from types import TracebackType
from typing import Callable, Iterator, Optional, Tuple, Type, Union

Path = Union[str, bytes, "os.PathLike[str]", "os.PathLike[bytes]"]
Tell = Callable[[str], None]
_UNFINISHED = ".unfinished-"
_ACCESS = "system.posix_acl_access"
_LETTERS = string.ascii_letters + string.digits


def quiet(words: str) -> None:
    """Says nothing."""


@contextlib.contextmanager
def _of(path: str) -> Iterator[None]:
    """Errors name the file as the user did."""
    try:
        yield
    except OSError as e:
        raise OSError(e.errno, e.strerror, path) from None


def _read(fd: int, most: int) -> bytes:
    data = b""
    while len(data) < most and (part := os.read(fd, most - len(data))):
        data += part
    return data


def read(path: Path, most: int) -> bytes:
    """The bytes of a file, at most so many."""
    name = os.fsdecode(path)
    with _of(name):
        fd = os.open(name, os.O_RDONLY)
        try:
            return _read(fd, most)
        finally:
            os.close(fd)


# ---- the folder and the unfinished files in it

def _open_folder(path: str) -> int:
    """Before anything is written, so that what was written can be made to last."""
    folder = os.path.dirname(path) or "."
    with _of(folder):
        return os.open(folder, os.O_RDONLY | os.O_DIRECTORY)


def _sync_folder(folder: int, name: str) -> None:
    """The new name lasts only if the folder is on the disk too; some file systems know no such call for a folder, and say EINVAL."""
    try:
        os.fsync(folder)
    except OSError as e:
        if e.errno != errno.EINVAL:
            words = f"written, but its folder could not be synced ({e.strerror}): a loss of power may undo it"
            raise OSError(e.errno, words, name) from None


def _sweep(folder: int, path: str, tell: Tell) -> None:
    """Whoever holds the file writes beside it alone: every unfinished file is of a run that was ended."""
    unfinished = re.compile(re.escape(os.path.basename(path) + _UNFINISHED) + "[A-Za-z0-9]{6}")
    for entry in os.listdir(folder):
        if unfinished.fullmatch(entry):
            with contextlib.suppress(OSError):
                if stat.S_ISREG(os.stat(entry, dir_fd=folder, follow_symlinks=False).st_mode):
                    os.unlink(entry, dir_fd=folder)
                    tell(f"removed {entry}, which a run that was ended had left")


# ---- a new file beside

def _open_draft(path: str, mode: int) -> Tuple[int, str]:
    while True:
        name = path + _UNFINISHED + "".join(secrets.choice(_LETTERS) for _ in range(6))
        with contextlib.suppress(FileExistsError):
            return os.open(name, os.O_RDWR | os.O_CREAT | os.O_EXCL, mode), name


@contextlib.contextmanager
def _draft(path: str, mode: int) -> Iterator[Tuple[int, str]]:
    """A new file beside; what ends before its name was changed leaves nothing."""
    fd, name = _open_draft(path, mode)
    try:
        yield fd, name
    except BaseException:
        with contextlib.suppress(OSError):
            os.unlink(name)
        raise
    finally:
        os.close(fd)


def _fill(fd: int, data: bytes) -> None:
    done = 0
    while done < len(data):
        done += os.write(fd, data[done:])
    os.fsync(fd)


def begin(path: Path, data: bytes) -> None:
    """A new file with these bytes; none where there is such a file already."""
    name = os.fsdecode(path)
    if os.path.lexists(name):
        raise FileExistsError(errno.EEXIST, os.strerror(errno.EEXIST), name)
    folder = _open_folder(name)
    try:
        with _of(name), _draft(name, 0o666) as (fd, beside):  # less what the user's mask takes away
            _fill(fd, data)
            os.link(beside, name)  # not rename: it fails where there is such a file by now
        with contextlib.suppress(OSError):
            os.unlink(beside)
        _sync_folder(folder, name)
    finally:
        os.close(folder)


# ---- one program at a time

class Alone:
    """A file that this program holds, until it is closed; tell: is told of waiting, and of what was cleaned up."""

    def __init__(self, path: Path, tell: Tell = quiet) -> None:
        self._name, self._tell, self._waited = os.fsdecode(path), tell, False
        self._path = os.path.realpath(self._name)  # where links lead to, so that a link stays a link
        with _of(self._name):
            while not self._open():
                os.close(self._fd)  # another program has put another file in its place
        self._judge()

    def _open(self) -> bool:
        self._fd = os.open(self._path, os.O_RDWR | os.O_NONBLOCK)
        try:
            self._lock()
            self._is, now = os.fstat(self._fd), os.stat(self._path)
        except BaseException:
            os.close(self._fd)
            raise
        return os.path.samestat(self._is, now)

    def _lock(self) -> None:
        """A network share locks a file exclusively only where it is open for writing."""
        try:
            fcntl.flock(self._fd, fcntl.LOCK_EX | fcntl.LOCK_NB)
        except BlockingIOError:
            if not self._waited:
                self._tell(f"{self._name}: another desk has it; waiting")
            self._waited = True
            fcntl.flock(self._fd, fcntl.LOCK_EX)

    def _judge(self) -> None:
        """What could not be replaced and stay what it is."""
        words = None
        if not stat.S_ISREG(self._is.st_mode):
            words = "it is no file, but a pipe or a device"
        elif not self._is.st_mode & 0o222:  # root may write to such a file, but whoever took the right away meant root too
            words = "it is read-only; left as it is"
        if words:
            self.close()
            raise PermissionError(errno.EACCES, words, self._name)

    def read(self, most: int) -> bytes:
        """Its bytes, at most so many."""
        with _of(self._name):
            os.lseek(self._fd, 0, os.SEEK_SET)
            return _read(self._fd, most)

    def _one_name(self) -> None:
        if os.fstat(self._fd).st_nlink > 1:
            raise PermissionError(errno.EPERM, "it has another name (a hard link), under which the former file would stay; left as it is")

    def _shared(self) -> bool:
        """In a folder that its group shares (chmod g+s) a file belongs to whoever wrote it last, and the group goes on with it."""
        return bool(os.stat(os.path.dirname(self._path)).st_mode & stat.S_ISGID and self._is.st_mode & stat.S_IWGRP)

    def _keep_owner(self, fd: int) -> None:
        """Tried on the new file while it is empty."""
        new, former = os.fstat(fd), self._is
        if (new.st_uid, new.st_gid) == (former.st_uid, former.st_gid):
            return
        with contextlib.suppress(OSError):
            return os.fchown(fd, former.st_uid, former.st_gid)
        if new.st_gid == former.st_gid and self._shared():
            return
        raise PermissionError(errno.EPERM, f"it belongs to user {former.st_uid} and group {former.st_gid}, which a file written by user"
                              f" {new.st_uid} cannot: let its owner write, or share its folder in its group (chmod g+s); left as it is")

    def _keep_mode(self, fd: int) -> None:
        """The mode, and the access list beyond it where there is one (setfacl)."""
        os.fchmod(fd, stat.S_IMODE(self._is.st_mode))
        entries = b""
        with contextlib.suppress(OSError):
            entries = os.getxattr(self._fd, _ACCESS)
        if entries:
            os.setxattr(fd, _ACCESS, entries)

    def replace(self, data: bytes) -> None:
        """The new bytes take the place of the file, with its owner, its group and its mode; what runs that were ended left is removed."""
        folder = _open_folder(self._path)
        try:
            with _of(self._name):
                _sweep(folder, self._path, self._tell)
                self._one_name()  # an unfinished file may have been a second name
                with _draft(self._path, 0o600) as (fd, beside):
                    self._keep_owner(fd)
                    self._keep_mode(fd)
                    _fill(fd, data)
                    os.rename(beside, self._path)
            _sync_folder(folder, self._name)
        finally:
            os.close(folder)

    def close(self) -> None:
        """Others may have it."""
        if self._fd >= 0:
            os.close(self._fd)
        self._fd = -1

    def __enter__(self) -> "Alone":
        return self

    def __exit__(self, kind: Optional[Type[BaseException]], value: Optional[BaseException], trace: Optional[TracebackType]) -> None:
        self.close()
