"""Reads saved guests: `open`, `verify` and `extract`."""

from __future__ import annotations

import io
import os
import time
from collections.abc import Iterator, Mapping
from dataclasses import asdict, dataclass
from typing import IO, Any, Callable, Dict, List, Optional, Sequence, Tuple, Union

from . import _library as lib
from ._inputs import PIECE, Given, Input, skip_header, wait_for
from ._memory import Memory
from ._tail import WHOLE, Tail
from .errors import Error, Fault, FileFormatError, IncompleteError, StreamError, fault_of
from .load import BlockInfo, Frame, Load, Table, Verdict
from .state import MOST_BEFORE, State, list_end

#: Is called with the bytes that were read, and with those of all inputs if that is known. An
#: exception that it raises ends the work.
Progress = Callable[[int, Optional[int]], None]

MOST_BYTES = 1 << 40
_MOST_BEFORE_TABLE = 1 << 22


@dataclass(frozen=True)
class Report:
    """What was found of a saved guest."""

    #: The name of the file, or of the main stream.
    file: str
    page_size: int
    blocks: Tuple[BlockInfo, ...]
    #: How many bytes of all inputs were read.
    bytes: int
    #: How many sections are complete, or on channels how many rounds.
    rounds: int
    #: How many pages have no record.
    missing: int
    #: The byte of the file at which RAM ends; None if it wasn't reached.
    end: Optional[int]
    fault: Optional[Fault]
    #: Of the bytes after RAM: "whole", "cut", "unknown" or "extra"; None if they weren't checked.
    tail: Optional[str]
    #: Whether pages without a record are taken as they are.
    partial: bool
    #: Why the file isn't complete; None if it is.
    problem: Optional[str]
    seconds: float

    @property
    def complete(self) -> bool:
        """Whether the file has the whole guest, as `zimgasol verify` judges it with status 0."""
        return self.problem is None

    @property
    def verdict(self) -> str:
        """`"complete"`, `"partial"`, `"cut"` (after RAM), `"fault"`, or `"refused"`."""
        if self.fault is not None:
            return "fault"
        if self.end is None:
            return "refused"
        if self.missing:
            return "partial"
        return "complete" if self.problem is None else "cut"

    @property
    def pages(self) -> int:
        """The pages of all blocks."""
        return sum(it.pages for it in self.blocks)

    def as_dict(self) -> Dict[str, Any]:
        """Returns all of it as what JSON has."""
        return {**asdict(self), "complete": self.complete, "verdict": self.verdict}


@dataclass
class _Options:
    page_size: int
    frame: Frame
    uuid: Optional[bytes]
    limit: int
    partial: bool
    ram_only: bool
    whole_rounds: bool
    progress: Optional[Progress]
    state: bool = False

    @property
    def keeps_state(self) -> bool:
        """Whether the state is kept: that of a machine's stream, which is read to its end."""
        return self.state and self.frame is Frame.MACHINE and not self.ram_only


class _Reader:
    """One reading of a guest, from its first byte to its report."""

    def __init__(self, inputs: List[Input], options: _Options) -> None:
        self.inputs, self.options = inputs, options
        self.main = inputs[0]
        self.started = time.monotonic()
        self.before = 0
        #: libvirt's header, and the stream up to the end of the size list, if the state is kept.
        self.libvirt, self.front = b"", b""
        #: Where the bytes after RAM are written, if it is set.
        self.after: Optional[IO[bytes]] = None
        self.table: Optional[Table] = None
        self.load: Optional[Load] = None
        self.tail = Tail() if options.frame is Frame.MACHINE and not options.ram_only else None
        lengths = [it.length for it in inputs]
        self.total = None if None in lengths else sum(it or 0 for it in lengths)

    def find_table(self) -> Table:
        """Reads up to the end of the size list. Raises StreamError of a fault before it."""
        options, more = self.options, 4096
        if len(self.inputs) == 1:
            most = MOST_BEFORE if options.keeps_state else 0
            self.before, self.libvirt = skip_header(self.main, most)
        while self.table is None:
            self.main.fill_to(more)
            text = self.main.first(more)
            is_all = len(text) < more or more >= _MOST_BEFORE_TABLE
            self.table = Table.of_stream(
                text, options.page_size, options.frame, before=self.before, is_all=is_all
            )
            more *= 2
        if self.table.total > options.limit:
            raise StreamError(fault_of(lib.RawFault(number=lib.TOTAL), None))
        if options.keeps_state:
            self.front = self._front()
        return self.table

    def _front(self) -> bytes:
        """Returns the stream up to the end of the size list, once an item after it is kept."""
        more = 4096
        while True:
            self.main.fill_to(more)
            text = self.main.first(more)
            end = list_end(text, self.options.page_size)
            if len(text) < more or (end is not None and end + 8 <= more):
                return text[:end]
            more *= 2

    def load_into(self, blocks: Sequence[Any]) -> None:
        """Loads all that the inputs have into blocks of zeros."""
        assert self.table is not None
        options, channels = self.options, len(self.inputs) - 1
        self.load = Load(
            self.table, blocks, channels, self._uuid(), frame=options.frame,
            zero_blocks=True, whole_rounds=options.whole_rounds,
        )
        while self.load.verdict() is Verdict.RUNNING:
            if not self._feed_all():
                self._read_some()
            self._tell()
        if self.tail is not None and self.load.verdict() is Verdict.DONE:
            self._read_tail()

    def _uuid(self) -> bytes:
        if self.options.uuid is not None:
            return self.options.uuid
        if len(self.inputs) == 1:
            return bytes(16)
        self.inputs[1].fill_to(64)
        return self.inputs[1].first(24)[8:].ljust(16, b"\0")

    def _feed_all(self) -> bool:
        """Feeds what is kept and taken. Returns whether anything was taken, or a source ended."""
        assert self.load is not None
        changed = False
        for number, source in enumerate(self.inputs):
            if source.waiting and self.load.takes(number):
                taken = self.load.feed(number, source.kept, source.start, source.end)
                self._note_tail(number, taken)
                source.start += taken
                changed = changed or taken > 0
            if source.is_over and not source.waiting and self.load.takes(number):
                self.load.end(number)
                changed = True
        return changed

    def _note_tail(self, number: int, taken: int) -> None:
        # what follows RAM is in the piece that closed the main stream
        if number or self.tail is None or self.load is None:
            return
        closed_at = self.load.standing().closed_at
        if closed_at is not None:
            more = min(taken, self.load.fed(0) - closed_at)
            end = self.main.start + taken
            self._take_after(bytes(self.main.kept[end - more : end]))

    def _take_after(self, piece: bytes) -> None:
        assert self.tail is not None
        self.tail.take(piece)
        if self.after is not None:
            self.after.write(piece)

    def _read_some(self) -> None:
        assert self.load is not None
        wanted = [
            it
            for number, it in enumerate(self.inputs)
            if not it.waiting and not it.is_over and self.load.takes(number)
        ]
        for it in wait_for(wanted) if wanted else []:
            it.fill()
        if not wanted:
            # (no source can go on: the verdict is there once all are ended)
            for number in range(len(self.inputs)):
                self.load.end(number)

    def _read_tail(self) -> None:
        assert self.tail is not None
        while True:
            self._take_after(self.main.first(self.main.waiting))
            self.main.start = self.main.end
            if not self.main.fill():
                break
            self._tell()

    def _tell(self) -> None:
        if self.options.progress is not None:
            self.options.progress(sum(it.read for it in self.inputs), self.total)

    def report(self, fault: Optional[Fault] = None, problem: Optional[str] = None) -> Report:
        """Returns what was found. A fault that is passed stands before the table."""
        missing, rounds, end = 0, 0, None
        if self.load is not None:
            standing = self.load.standing()
            fault = fault or self.load.fault(self.before)
            missing, rounds = standing.missing, standing.rounds
            if standing.closed_at is not None:
                end = self.before + standing.closed_at
        is_read = self.tail is not None and self.load is not None and fault is None
        tail = self.tail.state() if self.tail is not None and is_read else None
        return Report(
            file=self.main.name,
            page_size=self.options.page_size,
            blocks=self.table.blocks if self.table is not None else (),
            bytes=sum(it.read for it in self.inputs),
            rounds=rounds,
            missing=missing,
            end=end,
            fault=fault,
            tail=tail,
            partial=self.options.partial,
            problem=problem or _problem(fault, missing, tail, self.options.partial),
            seconds=time.monotonic() - self.started,
        )

    def close(self) -> None:
        """Frees the handles, and closes the inputs that were opened here."""
        for it in (self.load, self.table, *self.inputs):
            if it is not None:
                it.close()


def _problem(
    fault: Optional[Fault], missing: int, tail: Optional[str], partial: bool
) -> Optional[str]:
    if fault is not None:
        return fault.text
    if missing and not partial:
        return f"{missing} pages have no record"
    if tail not in (None, WHOLE):
        return {
            "cut": "the stream ends early after RAM",
            "unknown": "it isn't known whether the devices are complete",
        }.get(tail or "", "other bytes follow the stream's end")
    return None


def _reader(path: Given, channels: Sequence[Given], options: _Options) -> _Reader:
    inputs: List[Input] = []
    try:
        for it in (path, *channels):
            inputs.append(Input(it))
    except BaseException:
        for opened in inputs:
            opened.close()
        raise
    return _Reader(inputs, options)


def _frame(frame: Union[str, Frame]) -> Frame:
    return frame if isinstance(frame, Frame) else Frame[frame.upper()]


class Blocks(Mapping[str, memoryview]):
    """The memory of a guest: of each block's id a view of its bytes."""

    def __init__(self, views: Dict[str, memoryview]) -> None:
        self._views = views

    def __getitem__(self, name: str) -> memoryview:
        return self._views[name]

    def __iter__(self) -> Iterator[str]:
        return iter(self._views)

    def __len__(self) -> int:
        return len(self._views)


class Guest:
    """A guest whose memory was loaded. `close`, or the end of a `with`, gives the memory back."""

    def __init__(self, report: Report, memory: Memory, state: Optional[State] = None) -> None:
        self.report = report
        #: The machine's state beside RAM, if it was asked for.
        self.state = state
        self._memory = memory
        ids = [it.id for it in report.blocks]
        #: The memory of each block, by its id.
        self.blocks = Blocks(dict(zip(ids, map(memoryview, memory.maps))))

    @property
    def page_size(self) -> int:
        """The bytes of a page."""
        return self.report.page_size

    @property
    def pages(self) -> int:
        """The pages of all blocks."""
        return self.report.pages

    @property
    def missing(self) -> int:
        """How many pages have no record. They are zeros."""
        return self.report.missing

    @property
    def fault(self) -> Optional[Fault]:
        """The stream's fault, if it was opened with `check=False`."""
        return self.report.fault

    @property
    def verdict(self) -> str:
        """The verdict of the report."""
        return self.report.verdict

    def page(self, block: str, number: int) -> memoryview:
        """Returns a page of a block. Raises IndexError if the block hasn't it."""
        view, size = self.blocks[block], self.page_size
        if not 0 <= number < len(view) // size:
            raise IndexError(f"block {block} has no page {number}")
        return view[number * size : (number + 1) * size]

    def array(self, block: str) -> Any:
        """Returns a block as an array of numpy's over the same memory, a row for each page."""
        import numpy

        view = numpy.frombuffer(self.blocks[block], dtype=numpy.uint8)
        return view.reshape(-1, self.page_size)

    def close(self) -> None:
        """Lets go of the memory. It is unmapped with the last view of it that is held elsewhere."""
        for view in self.blocks._views.values():
            try:
                view.release()
            except BufferError:
                pass
        self.blocks = Blocks({})
        self._memory.close()

    def __enter__(self) -> Guest:
        return self

    def __exit__(self, *_: object) -> None:
        self.close()


def open(
    path: Given,
    *,
    channels: Sequence[Given] = (),
    page_size: int = 4096,
    frame: Union[str, Frame] = Frame.MACHINE,
    uuid: Optional[bytes] = None,
    limit: int = MOST_BYTES,
    partial: bool = False,
    ram_only: bool = False,
    check: bool = True,
    state: bool = False,
    folder: Union[str, os.PathLike[str], None] = None,
    progress: Optional[Progress] = None,
) -> Guest:
    """Loads a saved guest, a stream or a main stream with `channels`, and returns its memory.

    An input is a path, a descriptor, or an object with `readinto`, `recv_into` or `read`. `limit`
    is the most bytes that the guest may have. The memory is anonymous, or with `folder` that of
    files without names there. Without `uuid` the hellos have to have the first channel's.

    Raises StreamError, IncompleteError or FileFormatError if the guest isn't complete. With
    `check=False` it returns the guest as far as it was read, by whole sections or rounds; a fault
    before the first page is raised all the same. `partial` takes pages without a record, and
    `ram_only` leaves what follows RAM unread. With `state` the guest has its machine's state, in
    memory; with `frame="ram"` there is none.
    """
    if state and ram_only:
        raise ValueError("`ram_only` leaves the state unread")
    options = _Options(
        page_size, _frame(frame), uuid, limit, partial, ram_only, not check, progress, state
    )
    reader, after = _reader(path, channels, options), io.BytesIO()
    reader.after = after if options.keeps_state else None
    try:
        memory = _load(reader, folder)
        report = reader.report()
    finally:
        reader.close()
    kept = State(reader.front, after.getvalue(), reader.libvirt) if options.keeps_state else None
    guest = Guest(report, memory, kept)
    if check and not report.complete:
        guest.close()
        raise_for(report)
    return guest


def _load(reader: _Reader, folder: Union[str, os.PathLike[str], None]) -> Memory:
    """Loads a guest into fresh memory, anonymous or that of files in a folder."""
    table = reader.find_table()
    memory = Memory(table) if folder is None else Memory.in_folder(table, folder)
    try:
        reader.load_into(memory.maps)
    except BaseException:
        reader.close()
        memory.close()
        raise
    return memory


def raise_for(report: Report) -> None:
    """Raises StreamError or IncompleteError unless a report is of a complete guest."""
    if report.fault is not None:
        raise StreamError(report.fault)
    if report.problem is not None:
        raise IncompleteError(f"{report.file}: {report.problem}", report.missing)


def verify(
    path: Given,
    *,
    channels: Sequence[Given] = (),
    page_size: int = 4096,
    frame: Union[str, Frame] = Frame.MACHINE,
    uuid: Optional[bytes] = None,
    limit: int = MOST_BYTES,
    partial: bool = False,
    ram_only: bool = False,
    folder: Union[str, os.PathLike[str], None] = None,
    progress: Optional[Progress] = None,
) -> Report:
    """Reads a saved guest, and reports whether it is complete. No fault of it is raised.

    The arguments are those of `open`. A load keeps the guest's memory, so this takes as much as
    the guest has pages with contents. With `folder` the system may write them to its disk.
    The program `zimgasol verify` takes 64 MB at any size.
    """
    options = _Options(page_size, _frame(frame), uuid, limit, partial, ram_only, False, progress)
    reader = _reader(path, channels, options)
    try:
        memory = _load(reader, folder)
        report = reader.report()
    except StreamError as error:
        return reader.report(fault=error.fault)
    except FileFormatError as error:
        return reader.report(problem=str(error))
    finally:
        reader.close()
    memory.close()
    return report


__all__ = ["Blocks", "Error", "Guest", "Progress", "Report", "open", "raise_for", "verify"]
