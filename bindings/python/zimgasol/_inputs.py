"""The inputs of a load: files, pipes, connections and objects with bytes; and libvirt's header."""

from __future__ import annotations

import io
import os
import select
import stat
from typing import Any, List, Optional, Sequence, Tuple, Union

from .errors import FileFormatError

#: A path, a descriptor, or an object with `readinto` or `read`.
Given = Union[str, "os.PathLike[str]", int, Any]

PIECE = 1 << 20
_PACKERS = {
    b"\x1f\x8b": "gzip",
    b"\xfd7zXZ\0": "xz",
    b"\x28\xb5\x2f\xfd": "zstd",
    b"\x89LZO": "lzop",
    b"BZh": "bzip2",
}
_LIBVIRT, _LIBVIRT_PART, _HEADER_LEN = b"LibvirtQemudSave", b"LibvirtQemudPart", 92
_FORMATS = {1: "gzip", 2: "bzip2", 3: "xz", 4: "lzop", 5: "zstd", 6: "sparse (mapped-ram)"}


class Input:
    """A source's bytes, of which those that were read and not taken are `kept[start:end]`."""

    def __init__(self, given: Given) -> None:
        self.name = str(given) if isinstance(given, (str, os.PathLike)) else f"<{given}>"
        self._closes = isinstance(given, (str, os.PathLike))
        self._file: Any = given
        if self._closes:
            self._file = io.FileIO(given, "r")
        elif isinstance(given, int):
            self._file = io.FileIO(given, "r", closefd=False)
        self.length = self._length()
        self.kept = bytearray(PIECE)
        self.start = self.end = self.read = 0
        self.is_over = False

    def _length(self) -> Optional[int]:
        try:
            found = os.fstat(self._file.fileno())
            left = found.st_size - self._file.tell()
        except (OSError, AttributeError, ValueError):
            return None
        return left if stat.S_ISREG(found.st_mode) else None

    @property
    def waiting(self) -> int:
        """How many bytes are kept."""
        return self.end - self.start

    def fileno(self) -> Optional[int]:
        """Returns a descriptor that tells when bytes come; None of an object that may buffer."""
        if isinstance(self._file, io.FileIO) or hasattr(self._file, "recv_into"):
            return int(self._file.fileno())
        return None

    def fill(self) -> int:
        """Reads more bytes after those that are kept. Returns how many; 0 at the end."""
        if self.start == self.end:
            self.start = self.end = 0
        if self.end == len(self.kept):
            self.kept += bytes(len(self.kept))
        with memoryview(self.kept) as view, view[self.end :] as room:
            count = self._read_into(room)
        self.end += count
        self.read += count
        self.is_over = count == 0
        return count

    def _read_into(self, room: memoryview) -> int:
        for name in ("readinto", "recv_into"):
            if hasattr(self._file, name):
                count = getattr(self._file, name)(room)
                if count is None:
                    raise BlockingIOError(f"{self.name}: the input doesn't block")
                return int(count)
        text = self._file.read(len(room))
        room[: len(text)] = text
        return len(text)

    def fill_to(self, count: int) -> None:
        """Reads until `count` bytes are kept, or the input is over."""
        while self.waiting < count and not self.is_over:
            self.fill()

    def first(self, count: int) -> bytes:
        """Returns the first bytes that are kept, at most `count`."""
        return bytes(self.kept[self.start : min(self.end, self.start + count)])

    def skip(self, count: int) -> None:
        """Reads `count` bytes, and drops them."""
        while count and not (self.is_over and not self.waiting):
            some = min(count, self.waiting)
            self.start += some
            count -= some
            if count:
                self.fill()

    def close(self) -> None:
        """Closes the input, if it was opened here."""
        if self._closes:
            self._file.close()


def wait_for(inputs: Sequence[Input]) -> List[Input]:
    """Waits until one of the inputs has bytes or is over. Returns those that do."""
    numbers = [it.fileno() for it in inputs]
    if None in numbers or len(inputs) == 1:
        return [it for it, number in zip(inputs, numbers) if number is None] or list(inputs)
    poll = select.poll()
    for number in numbers:
        poll.register(number or 0, select.POLLIN)
    ready = {number for number, _ in poll.poll()}
    return [it for it, number in zip(inputs, numbers) if number in ready]


def skip_header(source: Input, most_kept: int = 0) -> Tuple[int, bytes]:
    """Skips libvirt's header. Returns its length, 0 without one, and its bytes if they are kept:
    `most_kept` is then the most of them, and else 0.

    Raises FileFormatError if the stream is compressed, libvirt never completed it, or more bytes
    would be kept.
    """
    source.fill_to(_HEADER_LEN)
    length = header_length(source.name, source.first(_HEADER_LEN))
    if not most_kept:
        source.skip(length)
        return length, b""
    if length > most_kept:
        raise FileFormatError(f"{source.name}: libvirt's header has more than {most_kept} bytes")
    source.fill_to(length)
    kept = source.first(length)
    source.skip(length)
    return length, kept


def header_length(name: str, text: bytes) -> int:
    """Returns the length of libvirt's header, of which `text` is the beginning; 0 without one.

    Raises FileFormatError as `skip_header` does.
    """
    for magic, packer in _PACKERS.items():
        if text.startswith(magic):
            raise FileFormatError(f"{name}: {packer} compressed it: decompress it first")
    if text.startswith(_LIBVIRT_PART):
        raise FileFormatError(f"{name}: libvirt never completed this save")
    if not text.startswith(_LIBVIRT):
        return 0
    if len(text) < _HEADER_LEN:
        raise FileFormatError(f"{name}: libvirt's header is cut")
    order = "little" if text[16:20] == b"\2\0\0\0" else "big"
    fields = [int.from_bytes(text[at : at + 4], order) for at in (16, 20, 28)]  # type: ignore
    version, more, packed = fields
    if version != 2:
        raise FileFormatError(f"{name}: libvirt's header has a version other than 2")
    if packed:
        how = _FORMATS.get(packed, "in a way that isn't known")
        raise FileFormatError(f"{name}: libvirt saved it {how}: save it with format raw")
    return _HEADER_LEN + more
