"""The memory that blocks are loaded into: anonymous mappings, or mappings of sparse files."""

from __future__ import annotations

import mmap
import os
import tempfile
from typing import IO, List, Optional, Sequence

from .load import Table

# (mmap has the name from Python 3.11 on; the number is that of Linux on x86-64)
_NORESERVE = getattr(mmap, "MAP_NORESERVE", 0x4000)


class Memory:
    """A mapping of zeros for each block of a table. Pages without contents take no memory."""

    def __init__(self, table: Table, files: Optional[Sequence[IO[bytes]]] = None) -> None:
        self.maps: List[mmap.mmap] = []
        flags = mmap.MAP_PRIVATE | mmap.MAP_ANONYMOUS | _NORESERVE
        for i, block in enumerate(table.blocks):
            length = block.pages * table.page_size
            if files is None:
                self.maps.append(mmap.mmap(-1, length, flags=flags))
            else:
                os.ftruncate(files[i].fileno(), length)
                self.maps.append(mmap.mmap(files[i].fileno(), length))

    @classmethod
    def in_folder(cls, table: Table, folder: "str | os.PathLike[str]") -> Memory:
        """Maps files without names in a folder, so that the system can write pages to its disk."""
        files = [tempfile.TemporaryFile(dir=folder) for _ in table.blocks]
        try:
            return cls(table, files)
        finally:
            for it in files:
                it.close()

    def close(self) -> None:
        """Unmaps what nobody looks at any more. Other mappings go with their last view."""
        for it in self.maps:
            try:
                it.close()
            except BufferError:
                pass
        self.maps = []
