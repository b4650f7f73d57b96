"""Finds the library for C, and declares what the package calls of it (`include/zimgasol.h`).

The rules of that header aren't checked by the library. The modules above this one keep them: a
handle is used by one thread at a time, is freed once, and no buffer goes while a call has it.
"""

from __future__ import annotations

import ctypes
import ctypes.util
import functools
import os
import threading
import weakref
from pathlib import Path
from typing import Any, Callable

#: The version of the header that these declarations are of, in its first two numbers.
SERIES = (0, 3)
#: The file that a wheel bundles.
BUNDLED = Path(__file__).parent / "lib" / "libzimgasol.so"

DONE = 0
NO_MEMORY = 60
TOTAL = 20
TRUNCATED = 34
RUNNING = 100
BAD_LENGTH = 108
#: The source of a fault that is of no one source.
ROUND = 2**64 - 1
#: The most bytes of a stream up to the end of its size list.
TABLE_BYTES = 70_000

u8, u32, u64, size = ctypes.c_uint8, ctypes.c_uint32, ctypes.c_uint64, ctypes.c_size_t


class LibraryError(ImportError):
    """The library for C isn't found, or has another version."""


class Handle(ctypes.Structure):
    _fields_ = [("at", ctypes.c_void_p), ("full", u64)]


class Block(ctypes.Structure):
    _fields_ = [("id", u8 * 256), ("pages", u64)]


class Settings(ctypes.Structure):
    _fields_ = [
        ("frame", u32),
        ("round_end", u32),
        ("waiting", u64),
        ("zero_blocks", u64),
        ("whole_rounds", u64),
        ("reserved", u64 * 4),
    ]


class SendSettings(ctypes.Structure):
    _fields_ = [
        ("channels", size),
        ("limit", size),
        ("uuid", u8 * 16),
        ("named", u64),
        ("name_len", size),
        ("name", u8 * 1024),
        ("reserved", u64 * 4),
    ]


class RawFault(ctypes.Structure):
    _fields_ = [
        ("round", u64),
        ("source", u64),
        ("number", u32),
        ("first", u64),
        ("second", u64),
        ("reserved", u64 * 3),
    ]


class Fed(ctypes.Structure):
    _fields_ = [("taken", size), ("rounds", u64)]


class RawStanding(ctypes.Structure):
    _fields_ = [
        ("rounds", u64),
        ("missing", u64),
        ("claimed", u64),
        ("has_all_rounds", u64),
        ("is_closed", u64),
        ("closed_at", u64),
        ("reserved", u64 * 4),
    ]


class RawSource(ctypes.Structure):
    _fields_ = [("fed", u64), ("is_known", u64), ("valid_up_to", u64), ("reserved", u64 * 4)]


class Text(ctypes.Structure):
    _fields_ = [("bytes", ctypes.c_void_p), ("bytes_len", size)]


class Place(ctypes.Structure):
    _fields_ = [("block", size), ("page", u64)]


class Bitmap(ctypes.Structure):
    _fields_ = [("words", ctypes.c_void_p), ("len", size)]


class Batch(ctypes.Structure):
    _fields_ = [("block", size), ("count", size), ("pages", u64 * 128)]


class Lent(ctypes.Structure):
    _fields_ = [("bytes", ctypes.c_void_p), ("len", size)]


class Buffer(ctypes.Structure):
    _fields_ = [("bytes", ctypes.c_void_p), ("len", size)]


_HANDLE = ctypes.POINTER(Handle)
_BYTES = ctypes.c_void_p

# of each call what it returns, and its arguments
_CALLS: dict[str, tuple[Any, list[Any]]] = {
    "version": (u32, []),
    "read_status_text": (None, [u32, ctypes.POINTER(Text)]),
    "read_fault_text": (u64, [ctypes.POINTER(RawFault), ctypes.c_bool, u64, _BYTES, size]),
    "table_new": (u32, [_HANDLE, u64, ctypes.POINTER(Block), size, ctypes.POINTER(size)]),
    "table_of_stream": (u32, [_HANDLE, u64, u32, _BYTES, size, ctypes.POINTER(u64)]),
    "table_blocks": (size, [_HANDLE]),
    "table_block": (u32, [_HANDLE, size, ctypes.POINTER(Block)]),
    "table_free": (None, [_HANDLE]),
    "load_new": (u32, [_HANDLE, _HANDLE, _BYTES, size, size, ctypes.POINTER(Settings)]),
    "load_feed": (
        u32,
        [_HANDLE, ctypes.POINTER(Buffer), size, size, _BYTES, size, ctypes.POINTER(Fed)],
    ),
    "load_takes": (ctypes.c_bool, [_HANDLE, size]),
    "load_end": (u32, [_HANDLE, size]),
    "load_verdict": (u32, [_HANDLE, ctypes.POINTER(RawFault)]),
    "load_fault_of": (u32, [_HANDLE, size, ctypes.POINTER(RawFault)]),
    "load_standing": (None, [_HANDLE, ctypes.POINTER(RawStanding)]),
    "load_source": (None, [_HANDLE, size, ctypes.POINTER(RawSource)]),
    "load_free": (None, [_HANDLE]),
    "send_new": (u32, [_HANDLE, _HANDLE, ctypes.POINTER(SendSettings)]),
    "send_begin_round": (u32, [_HANDLE]),
    "send_begin_round_bitmaps": (u32, [_HANDLE, ctypes.POINTER(Bitmap), size]),
    "send_put_page": (u32, [_HANDLE, size, u64, _BYTES, size]),
    "send_worker": (u32, [_HANDLE, _HANDLE]),
    "send_give_back": (u32, [_HANDLE, _HANDLE]),
    "send_end_round": (u32, [_HANDLE]),
    "send_finish": (u32, [_HANDLE, ctypes.c_bool]),
    "send_drain": (size, [_HANDLE, size, _BYTES, size]),
    "send_free": (None, [_HANDLE]),
    "worker_next": (u32, [_HANDLE, ctypes.POINTER(Batch)]),
    "worker_pack": (u32, [_HANDLE, ctypes.POINTER(Lent), size]),
    "worker_drain": (size, [_HANDLE, _BYTES, size]),
    "worker_free": (None, [_HANDLE]),
}


def _path() -> str:
    """Returns the file of the library: that of ZIMGASOL_LIBRARY, the bundled one, or the system's.

    Raises LibraryError if there is none.
    """
    named = os.environ.get("ZIMGASOL_LIBRARY")
    if named:
        return named
    if BUNDLED.exists():
        return str(BUNDLED)
    found = ctypes.util.find_library("zimgasol")
    if found is None:
        raise LibraryError("libzimgasol isn't found: set ZIMGASOL_LIBRARY to its file")
    return found


@functools.lru_cache(maxsize=None)
def library() -> Any:
    """Returns the library, with its calls declared as attributes without `zimgasol_`.

    Raises LibraryError if it can't be loaded, or has another version than 0.3.
    """
    path = _path()
    try:
        found = ctypes.CDLL(path)
        for name, (returned, arguments) in _CALLS.items():
            call = getattr(found, f"zimgasol_{name}")
            call.restype, call.argtypes = returned, arguments
            setattr(found, name, call)
    except (OSError, AttributeError) as error:
        raise LibraryError(f"{path}: {error}") from error
    number = found.version()
    if divmod(number // 100, 100) != SERIES:
        raise LibraryError(f"{path}: the library has version {version_text(number)}, not 0.3")
    return found


def version_text(number: int) -> str:
    """Returns a version's number as three numbers with dots."""
    return f"{number // 10000}.{number // 100 % 100}.{number % 100}"


def library_version() -> str:
    """Returns the version of the library that was found."""
    return version_text(library().version())


def _free(free: Callable[[Any], None], handle: Handle, process: int) -> None:
    # (in the child of a fork no call is made, since the process may have had threads)
    if os.getpid() == process:
        free(ctypes.byref(handle))


class Owned:
    """A handle that is freed once, and that one thread at a time uses."""

    def __init__(self, kind: str) -> None:
        self._lib = library()
        self.raw = Handle()
        self.lock = threading.RLock()
        free = getattr(self._lib, f"{kind}_free")
        self._finalizer = weakref.finalize(self, _free, free, self.raw, os.getpid())

    def close(self) -> None:
        """Frees the handle. A second call does nothing."""
        with self.lock:
            self._finalizer()

    @property
    def closed(self) -> bool:
        """Whether the handle was freed."""
        return not self._finalizer.alive

    def ref(self) -> Any:
        """Returns a reference to pass to a call. Raises ValueError after `close`."""
        if self.closed:
            raise ValueError("the handle is closed")
        return ctypes.byref(self.raw)


def address(buffer: Any) -> int:
    """Returns where a ctypes array lies."""
    return ctypes.addressof(buffer)
