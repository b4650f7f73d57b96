"""What the package raises, and the fault of a stream."""

from __future__ import annotations

import ctypes
from dataclasses import dataclass
from typing import Optional, Union

from . import _library as lib

#: A source of a stream: the only or main one, or a channel from 0 on.
Source = Union[str, int]
MAIN = "main"


@dataclass(frozen=True)
class Fault:
    """The fault of a stream, as docs/use/FAULTS.md numbers it."""

    #: The fault's number.
    number: int
    #: What it is, with what it carries and where it is.
    text: str
    #: `"main"`, the number of a channel, or None if it is of no one source.
    source: Optional[Source]
    #: The byte of its source at which the item at fault begins, if it has a place.
    byte: Optional[int]
    #: How many rounds, or of one stream how many sections, were counted before it.
    rounds: int


class Error(Exception):
    """The base of what the package raises by itself."""


class CallError(Error):
    """A call that the library refused."""

    def __init__(self, number: int) -> None:
        self.number = number
        self.text = status_text(number)
        super().__init__(f"{number}: {self.text}")


class StreamError(Error):
    """A stream that has a fault."""

    def __init__(self, fault: Fault) -> None:
        self.fault = fault
        self.number = fault.number
        self.text = fault.text
        self.source = fault.source
        self.byte = fault.byte
        self.rounds = fault.rounds
        super().__init__(fault.text)


class IncompleteError(Error):
    """A stream without a fault that lacks pages, or that was cut after RAM."""

    def __init__(self, text: str, missing: int) -> None:
        self.missing = missing
        super().__init__(text)


class FileFormatError(Error):
    """A file that has no stream of QEMU's, or a compressed one."""


def status_text(number: int) -> str:
    """Returns the library's few words on a status."""
    empty = ctypes.create_string_buffer(1)
    text = lib.Text(lib.address(empty), 1)
    lib.library().read_status_text(number, ctypes.byref(text))
    return ctypes.string_at(text.bytes, text.bytes_len - 1).decode("ascii", "replace")


def fault_of(raw: lib.RawFault, byte: Optional[int], before: int = 0) -> Fault:
    """Returns a fault of the library's as one of this package.

    `byte` is counted from the stream's first byte, and `before` bytes of the file precede it.
    """
    at = None if byte is None else byte + before
    out = ctypes.create_string_buffer(256)
    lib.library().read_fault_text(
        ctypes.byref(raw), at is not None, at or 0, lib.address(out), len(out)
    )
    source: Optional[Source] = MAIN if raw.source == 0 else raw.source - 1
    if raw.source == lib.ROUND:
        source = None
    return Fault(raw.number, out.value.decode("ascii", "replace"), source, at, raw.round)


def done(status: int) -> None:
    """Raises an error unless a call was done."""
    if status == lib.NO_MEMORY:
        raise MemoryError("the library was refused memory")
    if status != lib.DONE:
        raise CallError(status)
