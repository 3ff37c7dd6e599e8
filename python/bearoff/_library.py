"""The shared library: what its calls take, where it is found, and a stack that is large enough for
it."""

from __future__ import annotations

import ctypes
import ctypes.util
import errno
import os
import threading
from pathlib import Path
from struct import Struct
from typing import Any, Callable, Dict, List, Optional, Tuple

from .errors import NoLibrary

__version__ = "1.0.0"

# how many bytes there are, and how much stack, as the header has it
LINE = 32
RESULTS = 127
REPLY = 16642
FILE = 15060844
STACK = 1572864

# a thread of Python needs stack of its own too
_MORE_STACK = 4 << 20

# what the library's structs hold, and rooms for one of them
PLAY = Struct("=8BB6B")
COUNTS = Struct("=6B")
POSITION_INFO = Struct("=3B")
RACE = Struct("=16B")
PlayRoom = ctypes.c_char * PLAY.size
CountsRoom = ctypes.c_char * COUNTS.size
PositionInfoRoom = ctypes.c_char * POSITION_INFO.size
RaceRoom = ctypes.c_char * RACE.size
PlaceRoom = ctypes.c_char * 1


# .. and those with numbers, which have three words of 64 bits each, the greatest first
WORDS = 3
MOST_ROLLS = 33
NUMBER = Struct("=3Q")
FRACTION = Struct("=6Q")
PIPS = Struct("=7Q")
CHANCE = Struct("=4Q")
SHARES = Struct(f"={WORDS * (MOST_ROLLS + 1)}Q")
RESULT = Struct("=6B2x6Q")
NumberRoom = ctypes.c_char * NUMBER.size
FractionRoom = ctypes.c_char * FRACTION.size
PipsRoom = ctypes.c_char * PIPS.size
ChanceRoom = ctypes.c_char * CHANCE.size
SharesRoom = ctypes.c_char * SHARES.size


class FileStruct(ctypes.Structure):
    """The struct that `bearoff_open` fills; one that it didn't fill is not open."""

    _fields_ = [
        ("bytes", ctypes.c_void_p),
        ("length", ctypes.c_size_t),
        ("is_open", ctypes.c_uint8),
        ("bound", ctypes.c_uint8),
        ("version", ctypes.c_uint16),
        ("ranks", ctypes.c_uint16 * (6 * 16 * 91 + 92)),
    ]


class AboutStruct(ctypes.Structure):
    """What a file says of itself."""

    _fields_ = [
        ("version", ctypes.c_uint16),
        ("bound", ctypes.c_uint8),
        ("rolls", ctypes.c_uint8),
        ("positions", ctypes.c_uint32),
    ]


_POINTER = ctypes.c_void_p
_BYTE = ctypes.c_uint8
_RANK = ctypes.c_uint16
_VERSION = ctypes.c_uint16
_SIZE = ctypes.c_size_t
_Calls = Dict[str, Optional[Tuple[Any, ...]]]

# what the calls take that last long enough to let other threads run meanwhile
_LONG_CALLS: _Calls = {
    "upgrade": (_POINTER, _SIZE, _POINTER, _SIZE, _POINTER, _SIZE, _POINTER),
    "build": (_VERSION, _BYTE, _POINTER, _SIZE, _POINTER, _SIZE, _POINTER),
    "open": (_POINTER, _POINTER, _SIZE, _POINTER, _SIZE, _POINTER),
    "listed_positions": (_POINTER, _RANK, _POINTER, _SIZE),
    "listed_means": (_POINTER, _RANK, _POINTER, _SIZE),
    "listed_epcs": (_POINTER, _RANK, _POINTER, _SIZE),
    "listed_distributions": (_POINTER, _RANK, _POINTER, _SIZE),
}

# .. and those that are over before another thread could have begun; what takes pointers alone is
# given them as they are, since to convert them would cost a third of the call
_SHORT_CALLS: _Calls = {
    "position_info": None,
    "read_position": (_POINTER, _SIZE, _POINTER, _POINTER),
    "play_to": (_POINTER, _BYTE, _BYTE, _POINTER, _POINTER),
    "about": None,
    "rank": None,
    "position_of": (_POINTER, _RANK, _POINTER),
    "mean": None,
    "epc": None,
    "distribution": None,
    "within": (_POINTER, _POINTER, _BYTE, _POINTER),
    "play": (_POINTER, _POINTER, _BYTE, _BYTE, _POINTER),
    "loss": (_POINTER, _POINTER, _BYTE, _BYTE, _POINTER, _POINTER),
    "moves": (_POINTER, _POINTER, _BYTE, _BYTE, _POINTER, _SIZE, _POINTER),
    "answer_line": (_POINTER, _POINTER, _SIZE, _POINTER, _SIZE, _POINTER),
}


class Library:
    """The calls of the shared library by their names, without ``bearoff_``. Each gives a
    status."""

    def __init__(self, path: str) -> None:
        try:
            short, long = ctypes.PyDLL(path), ctypes.CDLL(path)
        except OSError as error:
            raise NoLibrary(f"{path} is no library: {error}") from error
        self._declare(short, {"library_version": None})
        release = self._release()
        if not _is_enough(release, __version__):
            raise NoLibrary(
                f"{path} is of version {release}, and this package of version {__version__}"
            )
        self._declare(short, _SHORT_CALLS)
        self._declare(long, _LONG_CALLS)

    def _release(self) -> str:
        numbers = [ctypes.c_uint16() for _ in range(3)]
        self.library_version(*map(ctypes.byref, numbers))
        return ".".join(str(number.value) for number in numbers)

    def _declare(self, handle: ctypes.CDLL, calls: _Calls) -> None:
        for name, arguments in calls.items():
            call = getattr(handle, "bearoff_" + name, None)
            if call is None:
                raise NoLibrary(f"{handle._name} has no function bearoff_{name}")
            if arguments:
                call.argtypes = arguments
            call.restype = ctypes.c_uint32
            setattr(self, name, call)

    def __getattr__(self, name: str) -> Any:
        raise AttributeError(name)


def _is_enough(told: str, wanted: str) -> bool:
    """Whether a library of one version has all that another one has."""
    have, want = ([int(number) for number in version.split(".")] for version in (told, wanted))
    return have[0] == want[0] and have >= want


def _path() -> str:
    named = os.environ.get("BEAROFF_LIBRARY")
    if named:
        return named
    beside = Path(__file__).with_name("libbearoff.so")
    found = str(beside) if beside.exists() else ctypes.util.find_library("bearoff")
    # in a checkout, what `make unproved` compiled: it says itself that it is not proved
    checkout = Path(__file__).resolve().parent.parent.parent
    unproved = checkout / "out/unproved/library/libbearoff.so"
    if not found and unproved.exists():
        found = str(unproved)
    if not found:
        raise NoLibrary(
            "libbearoff is missing: install the wheel of a release, or set BEAROFF_LIBRARY to the"
            " library's path; in a checkout, run `make unproved`, which compiles it without a"
            " proof in some minutes, or `packaging/library DIR`, which proves it first"
        )
    return found


# Held while the library is loaded, and while the stack of new threads is another one. A thread of
# a parent that holds it is not in the child, where nobody would let it go: so a fork waits for it,
# and finds the usual stack. It may be taken twice by one thread, since a signal handler may fork.
_changing = threading.RLock()
if hasattr(os, "register_at_fork"):
    os.register_at_fork(
        before=_changing.acquire,
        after_in_parent=_changing.release,
        after_in_child=_changing.release,
    )

_library: Optional[Library] = None


def library() -> Library:
    """The library, which is loaded once."""
    global _library
    if _library is None:
        with _changing:
            if _library is None:
                _library = Library(_path())
    return _library


def on_stack(size: int, call: Callable[..., int], *arguments: Any) -> int:
    """The status of a call that runs in a thread of its own, with at least so much stack, whatever
    the caller's thread has. Raises OSError where no thread can be begun.
    """
    told: List[int] = []
    failed: List[BaseException] = []

    def run() -> None:
        try:
            told.append(call(*arguments))
        except BaseException as error:
            failed.append(error)

    thread = threading.Thread(target=run, name="bearoff")
    with _changing:
        before = threading.stack_size(size + _MORE_STACK)
        try:
            thread.start()
        except RuntimeError as error:
            raise OSError(errno.EAGAIN, f"no thread can be begun: {error}") from error
        finally:
            threading.stack_size(before)
    thread.join()
    if failed:
        raise failed[0]
    return told[0]


def address(room: bytearray) -> Any:
    """What a call takes as the address of some bytes."""
    return ctypes.byref(ctypes.c_char.from_buffer(room))
