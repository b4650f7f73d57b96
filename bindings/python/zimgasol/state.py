"""The state of a machine beside its RAM: what is before RAM's records, and what is after RAM.

`extract` keeps it in the folder `state`, as `zimgasol extract` does, and `save` writes it around
RAM's sections. docs/use/ZIMGASOL.md describes the three files.
"""

from __future__ import annotations

import mmap
import os
from dataclasses import dataclass
from pathlib import Path
from typing import Optional, Tuple, Union

from ._inputs import header_length
from ._tail import EXTRA, UNKNOWN, WHOLE, Tail
from .errors import FileFormatError, StreamError
from .load import Frame, Table

FOLDER = "state"
LIBVIRT, BEFORE, AFTER = "libvirt.bin", "before.bin", "after.bin"
#: The most bytes before RAM's records.
MOST_BEFORE = 1 << 26

_PIECE = 1 << 20
# START's head after its id: the name, and the numbers of the instance and of the version
_RAM = b"\3ram" + bytes(4) + (4).to_bytes(4, "big")
_MEM_SIZE, _EOS = 4, 0x10
_SECTION_START, _FOOTER = b"\1", b"\x7e"
# the capability by which a machine leaves out shared memory, after its length
_SHARED_OUT = b"\x0fx-ignore-shared"


@dataclass(frozen=True)
class State:
    """The state of a machine, as bytes."""

    #: QEMU's stream up to the end of RAM's size list.
    before: bytes
    #: All bytes after RAM. Of a folder they are a view of the mapped file.
    after: Union[bytes, memoryview]
    #: libvirt's header; empty if there is none.
    libvirt: bytes = b""

    @classmethod
    def read(cls, folder: Union[str, os.PathLike[str]]) -> State:
        """Reads the state in a folder that `extract` made. Raises OSError."""
        path = Path(folder) / FOLDER
        libvirt = path / LIBVIRT
        return cls(
            before=_front(path / BEFORE),
            after=_mapped(path / AFTER),
            libvirt=_front(libvirt) if os.path.lexists(libvirt) else b"",
        )

    def table(self, page_size: int = 4096) -> Table:
        """Returns the machine's blocks. Raises FileFormatError as `save` does."""
        return self._table(page_size)[0]

    def _table(self, page_size: int) -> Tuple[Table, int]:
        """Returns the machine's blocks, and the id of RAM's section."""
        try:
            table = _table_of(self.before, page_size)
            end = list_end(self.before, page_size)
        except StreamError as error:
            raise FileFormatError(f"before.bin: {error}") from error
        if table is None or end != len(self.before):
            raise FileFormatError("before.bin isn't a machine's stream up to the end of RAM's list")
        number = _section_id(self.before, table.total)
        if number is None:
            raise FileFormatError("before.bin has no START of RAM's section")
        return table, number

    def check(self, page_size: int = 4096) -> Tuple[Table, int]:
        """Returns the machine's blocks, and the id of RAM's section.

        Raises FileFormatError unless `before` is the beginning of a machine's stream up to the end
        of RAM's size list, with all its memory in the stream; `after` is complete; and `libvirt` is
        empty, or a whole header before a stream that isn't compressed.
        """
        if self.libvirt and header_length(LIBVIRT, self.libvirt) != len(self.libvirt):
            raise FileFormatError("libvirt.bin isn't a complete header of libvirt's")
        found = self._table(page_size)
        if _SHARED_OUT in self.before:
            raise FileFormatError("before.bin: the machine left out shared memory")
        tail = Tail()
        for at in range(0, len(self.after), _PIECE):
            tail.take(bytes(self.after[at : at + _PIECE]))
        if tail.state() != WHOLE:
            raise FileFormatError(f"after.bin: {_REASONS.get(tail.state(), 'it is cut')}")
        return found


_REASONS = {
    UNKNOWN: "it isn't known whether the state of the devices is complete",
    EXTRA: "other bytes follow the end of the stream",
}


def _front(path: Path) -> bytes:
    if path.stat().st_size > MOST_BEFORE:
        raise FileFormatError(f"{path} has more than {MOST_BEFORE} bytes")
    return path.read_bytes()


def _mapped(path: Path) -> Union[bytes, memoryview]:
    with path.open("rb") as file:
        if os.fstat(file.fileno()).st_size == 0:
            return b""
        return memoryview(mmap.mmap(file.fileno(), 0, access=mmap.ACCESS_READ))


def _table_of(stream: bytes, page_size: int) -> Optional[Table]:
    return Table.of_stream(stream, page_size, Frame.MACHINE)


def _has_table(stream: bytes, page_size: int) -> bool:
    table = _table_of(stream, page_size)
    if table is not None:
        table.close()
    return table is not None


def list_end(stream: bytes, page_size: int) -> Optional[int]:
    """Returns the byte after RAM's size list; None if it isn't complete in `stream`.

    The library has a table from the last block's entry on, so the shortest beginning that has one
    ends there. After an entry QEMU may write numbers of 8 bytes: an address, a page size. A record
    has flags in the bits that they don't have.
    """
    if not _has_table(stream, page_size):
        return None
    short, end = 0, len(stream)
    while end - short > 1:
        middle = (short + end) // 2
        if _has_table(stream[:middle], page_size):
            end = middle
        else:
            short = middle
    while end + 8 <= len(stream) and not _number(stream, end) & (page_size - 1):
        end += 8
    return end


def _number(stream: bytes, at: int) -> int:
    return int.from_bytes(stream[at : at + 8], "big")


def _section_id(before: bytes, total: int) -> Optional[int]:
    # (an id has no such bytes, so the last place is that of START)
    at = before.rfind(_RAM + (total | _MEM_SIZE).to_bytes(8, "big")) - 5
    if at < 0 or before[at : at + 1] != _SECTION_START:
        return None
    return int.from_bytes(before[at + 1 : at + 5], "big")


def start_end(number: int) -> bytes:
    """Returns the bytes of a START without records after its size list, in section `number`."""
    return _EOS.to_bytes(8, "big") + _FOOTER + number.to_bytes(4, "big")


def set_section_id(section: bytearray, number: int) -> None:
    """Sets the id in the head and in the footer of a section."""
    section[1:5] = section[-4:] = number.to_bytes(4, "big")


__all__ = ["State"]
