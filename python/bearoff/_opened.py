"""Bytes that the library has accepted: those of a database, or of a board file, which has the
whole home board. Both are asked by the same calls.
"""

from __future__ import annotations

import ctypes
from fractions import Fraction
from typing import Optional, Tuple

from . import _library as lib
from .errors import NOT_OPEN, Damaged
from .exact import lowest_terms, over_whole, wide_number
from .ranking import Ranks

MOST_CHECKERS = 15

# the greatest bounds of a database and of a board file
MOST_OLD_PIPS = 44
MOST_PIPS = 58
MOST_OF_BOARD = 90

_BOARD_VERSION = 3


class Opened:
    """Bytes that the library has accepted, and the struct in which it keeps what it knows of them.
    Neither changes, and each call holds on to both until it is over, so threads and copies may
    share them.
    """

    def __init__(self, library: lib.Library, content: bytes) -> None:
        self.library = library
        self.content = content
        self.struct = lib.FileStruct(bytes=ctypes.cast(ctypes.c_char_p(content), ctypes.c_void_p))
        self.at = ctypes.byref(self.struct)
        self.ranks: Optional[Ranks] = None
        self.mean = library.mean
        self.epc = library.epc
        self.distribution = library.distribution
        self.within = library.within
        self.play = library.play
        self.loss = library.loss
        self.moves = library.moves
        self.answer_line = library.answer_line
        self._take(lib.AboutStruct())

    def _take(self, about: lib.AboutStruct) -> None:
        self.version: int = about.version
        self.bound: int = about.bound
        # the most rolls that have a share, and the denominator of each number
        self.rolls: int = about.rolls
        self.denominator: int = 36**self.rolls
        self.length: int = about.positions

    def check(self) -> None:
        """Lets the library check the bytes, and raises `Damaged` where it refuses them."""
        line = ctypes.create_string_buffer(lib.LINE)
        needed = ctypes.c_size_t()
        status = lib.on_stack(
            lib.STACK,
            self.library.open,
            self.at,
            self.content,
            len(self.content),
            line,
            lib.LINE,
            ctypes.byref(needed),
        )
        if status:
            raise Damaged(status, line.raw[: needed.value].decode("ascii"))
        about = lib.AboutStruct()
        self.library.about(self.at, ctypes.byref(about))
        self._take(about)

    @property
    def status(self) -> int:
        """The status of a call that asks nothing but whether it is open."""
        return 0 if self.struct.is_open else NOT_OPEN

    def share(self, *words: int) -> Fraction:
        """A numerator over the whole."""
        return over_whole(wide_number(*words), self.denominator)

    def rank(self, counts: bytes) -> Tuple[int, int]:
        """The status, and the rank of a position."""
        rank = ctypes.c_uint16()
        return self.library.rank(self.at, counts, ctypes.byref(rank)), rank.value

    def position(self, rank: int) -> Tuple[int, bytes]:
        """.. and the counts of the position of a rank."""
        told = lib.CountsRoom()
        return self.library.position_of(self.at, rank, told), told.raw


def fraction_of(*words: int) -> Fraction:
    """A fraction that the library tells in lowest terms, the words of the denominator last."""
    return lowest_terms(wide_number(*words[: lib.WORDS]), wide_number(*words[lib.WORDS :]))


def build(library: lib.Library, bound: int, version: int) -> Tuple[int, memoryview]:
    """The status, and the bytes of the file of a bound and a version."""
    work, room = bytearray(0 if version == _BOARD_VERSION else lib.FILE), bytearray(lib.FILE)
    filled = ctypes.c_size_t()
    status = lib.on_stack(
        lib.STACK,
        library.build,
        version,
        bound,
        lib.address(work) if work else lib.address(room),
        len(work),
        lib.address(room),
        len(room),
        ctypes.byref(filled),
    )
    return status, memoryview(room)[: filled.value]


def usual_version(bound: int) -> int:
    """The version of the file that is built for a bound: the first that has it."""
    return 1 if bound <= MOST_OLD_PIPS else 2 if bound <= MOST_PIPS else _BOARD_VERSION
