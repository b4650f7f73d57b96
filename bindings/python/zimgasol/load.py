"""Tables of blocks, and loads into blocks, as the library has them."""

from __future__ import annotations

import ctypes
import enum
from dataclasses import dataclass
from typing import Any, Iterable, List, Optional, Sequence, Tuple

from . import _library as lib
from .errors import Fault, StreamError, done, fault_of


class Frame(enum.Enum):
    """What a stream is read as."""

    #: RAM's section alone, up to the end byte after its END.
    RAM = 0
    #: A whole machine's stream, as QEMU writes it, up to the footer of RAM's END.
    MACHINE = 1


class RoundEnd(enum.Enum):
    """What ends a round of a main stream."""

    BY_FLUSH = 0
    BY_EOS = 1
    AS_SHOWN = 2


class Verdict(enum.Enum):
    """How a load stands on the bytes that it took."""

    RUNNING = "running"
    DONE = "done"
    FAULT = "fault"


@dataclass(frozen=True)
class BlockInfo:
    """A RAM block: its id, and how many pages it has."""

    id: str
    pages: int


@dataclass(frozen=True)
class Standing:
    """How a load stands: see `zimgasol_standing` of zimgasol.h."""

    rounds: int
    missing: int
    has_all_rounds: bool
    #: How many bytes the main stream has, once it is closed.
    closed_at: Optional[int]


class Table(lib.Owned):
    """The page size of a guest, and its RAM blocks in their order."""

    def __init__(self, page_size: int, blocks: Iterable[Tuple[str, int]]) -> None:
        super().__init__("table")
        self.page_size = page_size
        raw = [_raw_block(name, pages) for name, pages in blocks]
        array, entry = (lib.Block * max(1, len(raw)))(*raw), lib.size()
        done(
            self._lib.table_new(self.ref(), page_size, array, len(raw), ctypes.byref(entry))
        )
        self.blocks = tuple(self._list())

    @classmethod
    def of_stream(
        cls,
        piece: bytes,
        page_size: int = 4096,
        frame: Frame = Frame.MACHINE,
        *,
        before: int = 0,
        is_all: bool = False,
    ) -> Optional[Table]:
        """Returns the table of the stream that begins with `piece`; None if more is needed.

        Raises StreamError of a fault before the table, whose byte counts `before` bytes more. If
        `piece` is all of the stream, it is the fault 34 that more is needed.
        """
        table = cls.__new__(cls)
        lib.Owned.__init__(table, "table")
        table.page_size = page_size
        text, at = ctypes.create_string_buffer(piece, len(piece) + 1), lib.u64()
        status = table._lib.table_of_stream(
            table.ref(), page_size, frame.value, lib.address(text), len(piece), ctypes.byref(at)
        )
        if status == lib.RUNNING and not is_all:
            return None
        status = lib.TRUNCATED if status == lib.RUNNING else status
        if 11 <= status <= 49:
            raise StreamError(fault_of(lib.RawFault(number=status), at.value, before))
        done(status)
        table.blocks = tuple(table._list())
        return table

    def _list(self) -> List[BlockInfo]:
        found, raw = [], lib.Block()
        for i in range(self._lib.table_blocks(self.ref())):
            done(self._lib.table_block(self.ref(), i, ctypes.byref(raw)))
            found.append(BlockInfo(bytes(raw.id).split(b"\0")[0].decode("ascii"), raw.pages))
        return found

    @property
    def total(self) -> int:
        """The bytes of all blocks."""
        return self.page_size * sum(it.pages for it in self.blocks)


def _raw_block(name: str, pages: int) -> lib.Block:
    text = name.encode("utf-8")
    # (a byte 0 would end the id, so one that has it or is too long isn't the one that was meant)
    if b"\0" in text or len(text) > 255 or not 0 <= pages < 2**64:
        raise ValueError(f"no block can be {name!r} of {pages} pages")
    block = lib.Block(pages=pages)
    ctypes.memmove(block.id, text, len(text))
    return block


class Load(lib.Owned):
    """A load into blocks: writable buffers, one for each block of the table, of its length.

    Until `close` nobody else reads or writes them. With `zero_blocks` they hold zeros at first.
    With 0 channels it is of one stream. One thread at a time is in a call, and others wait.
    """

    def __init__(
        self,
        table: Table,
        blocks: Sequence[Any],
        channels: int = 0,
        uuid: bytes = bytes(16),
        *,
        frame: Frame = Frame.MACHINE,
        round_end: RoundEnd = RoundEnd.AS_SHOWN,
        waiting: int = 0,
        zero_blocks: bool = False,
        whole_rounds: bool = False,
    ) -> None:
        super().__init__("load")
        self.channels = channels
        self._held = [_writable(it) for it in blocks]
        wanted = [it.pages * table.page_size for it in table.blocks]
        if [len(it) for it in self._held] != wanted:
            self._held = []
            done(lib.BAD_LENGTH)
        raw = [lib.Buffer(lib.address(it), len(it)) for it in self._held]
        self._blocks = (lib.Buffer * len(raw))(*raw)
        settings = lib.Settings(
            frame.value, round_end.value, waiting, zero_blocks, whole_rounds
        )
        text = ctypes.create_string_buffer(uuid, len(uuid) + 1)
        with table.lock:
            done(
                self._lib.load_new(
                    self.ref(), table.ref(), lib.address(text), len(uuid), channels,
                    ctypes.byref(settings),
                )
            )

    def feed(self, source: int, piece: Any, start: int = 0, end: Optional[int] = None) -> int:
        """Takes the first bytes of `piece[start:end]` of a source: 0 is the main one, 1 + j is
        channel j. Returns how many it took.

        Raises CallError if the call is refused, and MemoryError if an allocation is.
        """
        at, count, _held = _readable(piece)
        end = count if end is None else end
        if not 0 <= start <= end <= count:
            raise ValueError("the piece has no such bytes")
        fed = lib.Fed()
        with self.lock:
            done(
                self._lib.load_feed(
                    self.ref(), self._blocks, len(self._blocks), source,
                    at + start, end - start, ctypes.byref(fed),
                )
            )
        return int(fed.taken)

    def takes(self, source: int) -> bool:
        """Returns whether bytes of a source are taken now."""
        with self.lock:
            return bool(self._lib.load_takes(self.ref(), source))

    def end(self, source: int) -> None:
        """Ends a source, all of whose bytes were taken."""
        with self.lock:
            done(self._lib.load_end(self.ref(), source))

    def verdict(self) -> Verdict:
        """Returns how the load stands. The fault is `fault`."""
        with self.lock:
            status = self._lib.load_verdict(self.ref(), ctypes.byref(lib.RawFault()))
        known = {lib.DONE: Verdict.DONE, lib.RUNNING: Verdict.RUNNING}
        return known.get(status, Verdict.FAULT)

    def fault(self, before: int = 0) -> Optional[Fault]:
        """Returns the fault of the verdict. `before` bytes of the file precede the main stream."""
        raw = lib.RawFault()
        with self.lock:
            status = self._lib.load_verdict(self.ref(), ctypes.byref(raw))
            return None if status in (lib.DONE, lib.RUNNING) else self._placed(raw, before)

    def fault_of(self, source: int, before: int = 0) -> Optional[Fault]:
        """Returns the fault of a source's own bytes, whatever the others have."""
        raw = lib.RawFault()
        with self.lock:
            status = self._lib.load_fault_of(self.ref(), source, ctypes.byref(raw))
            return self._placed(raw, before) if status and raw.number == status else None

    def _placed(self, raw: lib.RawFault, before: int) -> Fault:
        # only these faults are of an item that begins at a byte
        at = None
        if 11 <= raw.number <= 49 or raw.number in (64, 65):
            source = lib.RawSource()
            self._lib.load_source(self.ref(), raw.source, ctypes.byref(source))
            at = source.valid_up_to if source.is_known else None
        return fault_of(raw, at, before if raw.source == 0 else 0)

    def standing(self) -> Standing:
        """Returns how the load stands."""
        raw = lib.RawStanding()
        with self.lock:
            self._lib.load_standing(self.ref(), ctypes.byref(raw))
        closed_at = raw.closed_at if raw.is_closed else None
        return Standing(raw.rounds, raw.missing, bool(raw.has_all_rounds), closed_at)

    def fed(self, source: int) -> int:
        """Returns how many bytes of a source were taken."""
        raw = lib.RawSource()
        with self.lock:
            self._lib.load_source(self.ref(), source, ctypes.byref(raw))
        return int(raw.fed)

    def close(self) -> None:
        """Frees the load, and lets go of the blocks."""
        with self.lock:
            super().close()
            self._held = []
            self._blocks = (lib.Buffer * 0)()

    def __enter__(self) -> "Load":
        return self

    def __exit__(self, *_: object) -> None:
        self.close()


def _writable(buffer: Any) -> Any:
    view = memoryview(buffer).cast("B")
    return (ctypes.c_char * len(view)).from_buffer(view)


def _readable(buffer: Any) -> Tuple[int, int, Any]:
    """Returns where the bytes of a buffer lie, how many there are, and what keeps them."""
    view = memoryview(buffer).cast("B")
    if len(view) and not view.readonly:
        held = (ctypes.c_char * len(view)).from_buffer(view)
        return lib.address(held), len(view), held
    text = buffer if isinstance(buffer, bytes) else bytes(view)
    return ctypes.cast(ctypes.c_char_p(text), ctypes.c_void_p).value or 0, len(text), text
