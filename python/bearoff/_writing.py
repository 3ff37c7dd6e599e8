"""Writes files atomically: the new file takes the place of the old one in one step."""

from __future__ import annotations

import errno
import os
import stat
from contextlib import ExitStack, contextmanager, suppress
from secrets import token_hex
from typing import Iterator, Optional, Tuple

from .errors import BadArgument
from .positions import shown

_DATABASE = b"EPCTABLE"
_UNNAMED = "/proc/self/fd"
_OPEN_FILES = ("/dev/fd", "/proc/self/fd", "/proc/thread-self/fd")
_CHANGED = (errno.EBUSY, "another program has just replaced it; try again")


def write_whole(name: str, content: bytes) -> None:
    """Writes a file at the end of a name's links, and replaces a plain file that stands there.

    The old file stays as it was until the new one is whole and fsynced. The new one keeps its
    permissions and belongs to the user who writes it. Anything but a plain file, such as a pipe
    or `/dev/stdout`, is written into.

    Raises `BadArgument` if a database stands there or the name is invalid, and OSError if the
    file can't be written.
    """
    with _reported(name):
        place, stream = _end_of_links(name)
        if stream is None:
            _replace(name, place, content)
            return
        how = os.O_WRONLY | os.O_NOCTTY | os.O_CLOEXEC
        # an open file isn't opened again: the next output of the process would overwrite this
        handle = os.open(name, how) if stream < 0 else os.dup(stream)
        with open(handle, "wb", 0):
            if stream < 0 and stat.S_ISREG(os.fstat(handle).st_mode):
                raise OSError(*_CHANGED)
            _write(handle, content)


def place_of(name: str) -> Tuple[str, bool]:
    """The place at the end of a name's links, for SQLite, which writes there itself; and whether
    nothing is there yet. Raises what `write_whole` does.
    """
    with _reported(name):
        place, stream = _end_of_links(name)
        if stream is not None:
            raise OSError(errno.EINVAL, "not a plain file; write a .csv or .json into it")
        # so that SQLite doesn't take it for an address, such as file:..
        place = os.path.join(".", place)
        return place, _permissions(name, place) is None


@contextmanager
def _reported(name: str) -> Iterator[None]:
    """Reports errors under the name that was given, and not under that of a temporary file."""
    try:
        yield
    except OSError as error:
        raise OSError(error.errno, error.strerror, name) from error
    except ValueError as error:
        raise BadArgument(f"{error}: {shown(name)}") from None


def _end_of_links(name: str) -> Tuple[str, Optional[int]]:
    """The place that a name leads to, with None for a plain file or for nothing there, the number
    of a file that this process has open, or -1 for anything else.
    """
    for _ in range(40):
        folder, last = os.path.split(name)
        if last.isdigit() and os.path.realpath(folder) in [
            os.path.realpath(it) for it in _OPEN_FILES
        ]:
            return name, int(last)
        try:
            name = os.path.join(folder, os.readlink(name))
        except FileNotFoundError:
            return name, None
        except OSError as error:
            if error.errno != errno.EINVAL:
                raise
            return name, None if stat.S_ISREG(os.lstat(name).st_mode) else -1
    raise OSError(errno.ELOOP, os.strerror(errno.ELOOP))


def _permissions(name: str, place: str, folder: Optional[int] = None) -> Optional[int]:
    """Those of the plain file at a place, or None if nothing is there. It has to be writable, what
    the name leads to, and not a database.
    """
    how = os.O_RDWR | os.O_NOFOLLOW | os.O_NONBLOCK | os.O_CLOEXEC
    try:
        handle = os.open(place, how, dir_fd=folder)
    except FileNotFoundError:
        return None
    with open(handle, "rb", 0) as file:
        old = os.fstat(handle)
        if not (stat.S_ISREG(old.st_mode) and os.path.samestat(old, os.stat(name))):
            raise OSError(*_CHANGED)
        if file.read(len(_DATABASE)) == _DATABASE:
            raise BadArgument("this is a bearoff database, which only bearoff build replaces")
    return old.st_mode & 0o777


def _replace(name: str, place: str, content: bytes) -> None:
    where, last = os.path.split(place)
    beside = f".bearoff-{token_hex(8)}"
    with ExitStack() as done:
        # one handle for all that follows: a folder that is swapped meanwhile changes nothing
        folder = os.open(where or ".", os.O_RDONLY | os.O_DIRECTORY | os.O_CLOEXEC)
        done.callback(os.close, folder)
        mode = _permissions(name, last, folder)
        handle, is_named = _begun(beside, folder, 0o666 if mode is None else 0o600)
        done.callback(os.close, handle)
        try:
            _write(handle, content)
            if mode is not None:
                os.fchmod(handle, mode)
            os.fsync(handle)
            if not is_named:
                # with a folder, since without one the link to the file would be linked
                own = f"{_UNNAMED}/{handle}"
                os.link(own, beside, src_dir_fd=handle, dst_dir_fd=folder)
            os.replace(beside, last, src_dir_fd=folder, dst_dir_fd=folder)
        except BaseException:
            with suppress(OSError):
                os.remove(beside, dir_fd=folder)
            raise
        os.fsync(folder)


def _begun(beside: str, folder: int, mode: int) -> Tuple[int, bool]:
    """A new file, and whether it has its name already. If the system allows it gets one once it is
    whole, so that nothing is left of it if the process is killed before.
    """
    if os.path.isdir(_UNNAMED):
        with suppress(AttributeError, OSError):
            how = os.O_TMPFILE | os.O_WRONLY | os.O_CLOEXEC
            return os.open(".", how, mode, dir_fd=folder), False
    how = os.O_CREAT | os.O_EXCL | os.O_WRONLY | os.O_CLOEXEC
    return os.open(beside, how, mode, dir_fd=folder), True


def _write(handle: int, content: bytes) -> None:
    left = memoryview(content)
    while left:
        left = left[os.write(handle, left) :]
