"""Writes memory as a stream, or as a main stream and channels: `save`, and the senders below it."""

from __future__ import annotations

import ctypes
import io
import json
import mmap
import os
from collections.abc import Mapping
from dataclasses import dataclass
from pathlib import Path
from typing import Any, Dict, List, Optional, Sequence, Tuple, Union

from . import _library as lib
from .errors import FileFormatError, done
from .load import Table
from .reading import Progress
from .state import State, set_section_id, start_end

#: A path, a descriptor, or an object with `write`.
Target = Union[str, "os.PathLike[str]", int, Any]

_ROUND = 256
_PIECE = 1 << 20


@dataclass(frozen=True)
class Saved:
    """What was written."""

    pages: int
    #: The bytes of the only or main stream.
    bytes: int
    #: The bytes of each channel.
    channels: Tuple[int, ...]


class Worker(lib.Owned):
    """A worker of a round on channels, which packs its packets."""

    def __init__(self) -> None:
        super().__init__("worker")
        self.batch = lib.Batch()

    def next(self) -> bool:
        """Reports the next packet's pages in `batch`. Returns False once the worker has ended."""
        with self.lock:
            status = self._lib.worker_next(self.ref(), ctypes.byref(self.batch))
        if status == lib.RUNNING:
            return True
        done(status)
        return False

    def pack(self, contents: Any, count: int) -> None:
        """Writes the packet of `count` pages, from the array `contents` of `Lent`."""
        with self.lock:
            status = self._lib.worker_pack(self.ref(), contents, count)
        if status != lib.RUNNING:
            done(status)

    def drain(self, room: Any) -> int:
        """Copies the channel's next bytes to a ctypes array. Returns how many; 0 if none wait."""
        with self.lock:
            return int(self._lib.worker_drain(self.ref(), lib.address(room), len(room)))


class Sender(lib.Owned):
    """A send of a table: of one stream with 0 channels, else of a main stream and channels."""

    def __init__(
        self,
        table: Table,
        channels: int = 0,
        *,
        limit: int = 0,
        uuid: bytes = bytes(16),
        machine: Optional[str] = None,
    ) -> None:
        super().__init__("send")
        settings = lib.SendSettings(channels, limit or 2**19 // table.page_size)
        if len(uuid) != 16:
            raise ValueError("a UUID has 16 bytes")
        ctypes.memmove(settings.uuid, uuid, 16)
        if machine is not None:
            name = machine.encode()
            settings.named, settings.name_len = 1, len(name)
            ctypes.memmove(settings.name, name, min(len(name), 1024))
        with table.lock:
            done(self._lib.send_new(self.ref(), table.ref(), ctypes.byref(settings)))

    def begin_round(self, bitmaps: Optional[Sequence[Any]] = None) -> None:
        """Begins a round: without bitmaps of pages that are put, or on channels of none; with them
        on channels, of a ctypes array of 64-bit words for each block.
        """
        with self.lock:
            if bitmaps is None:
                done(self._lib.send_begin_round(self.ref()))
                return
            raw = [lib.Bitmap(lib.address(it), len(it)) for it in bitmaps]
            array = (lib.Bitmap * len(raw))(*raw)
            done(self._lib.send_begin_round_bitmaps(self.ref(), array, len(raw)))

    def put_pages(self, block: int, first: int, count: int, at: int, page_size: int) -> None:
        """Sends pages that lie one after another from an address on, in the open round of one
        stream.
        """
        with self.lock:
            put, handle = self._lib.send_put_page, self.ref()
            for page in range(first, first + count):
                status = put(handle, block, page, at, page_size)
                if status:
                    done(status)
                at += page_size

    def worker(self) -> Worker:
        """Makes the worker of the next channel."""
        made = Worker()
        with self.lock:
            done(self._lib.send_worker(self.ref(), made.ref()))
        return made

    def give_back(self, worker: Worker) -> None:
        """Takes back the worker of the next channel, once it has ended."""
        with self.lock, worker.lock:
            done(self._lib.send_give_back(self.ref(), worker.ref()))

    def end_round(self) -> None:
        """Ends the round."""
        with self.lock:
            done(self._lib.send_end_round(self.ref()))

    def finish(self, left_open: bool = False) -> None:
        """Ends the streams, with `left_open` without the end byte of the only or main one."""
        with self.lock:
            done(self._lib.send_finish(self.ref(), left_open))

    def drain(self, source: int, room: Any) -> int:
        """Copies a source's next bytes to a ctypes array. Returns how many; 0 if none wait."""
        with self.lock:
            return int(self._lib.send_drain(self.ref(), source, lib.address(room), len(room)))


class _Output:
    """Where a source's bytes go: a file under a name that ends with `.partial`, or an object."""

    def __init__(self, given: Target, replace: bool) -> None:
        self.written = 0
        self._path: Optional[str] = None
        self._file: Any = given
        if isinstance(given, (str, os.PathLike)):
            self._path = str(os.fspath(given))
            if not replace and os.path.lexists(self._path):
                raise FileExistsError(f"{self._path} is there already")
            self._file = io.FileIO(f"{self._path}.partial", "w")
        elif isinstance(given, int):
            self._file = io.FileIO(given, "w", closefd=False)

    def write(self, piece: memoryview) -> None:
        """Writes all of a piece."""
        self.written += len(piece)
        if hasattr(self._file, "sendall"):
            self._file.sendall(piece)
            return
        while len(piece):
            count = self._file.write(piece)
            if count is None:
                raise BlockingIOError("the output doesn't block")
            piece = piece[count:]

    def sync(self) -> None:
        """Writes a file to its disk, and flushes an object."""
        if self._path is not None:
            os.fsync(self._file.fileno())
        elif hasattr(self._file, "flush"):
            self._file.flush()

    def finish(self) -> None:
        """Gives a file its name."""
        if self._path is not None:
            self._file.close()
            os.replace(f"{self._path}.partial", self._path)
            self._path = None

    def abandon(self) -> None:
        """Removes a file that has no name of its own yet."""
        if self._path is not None:
            self._file.close()
            os.unlink(f"{self._path}.partial")
            self._path = None


class _Saving:
    """One save of memory."""

    def __init__(self, blocks: Mapping[str, Any], page_size: int) -> None:
        self.page_size = page_size
        self.views = [memoryview(it).cast("B") for it in blocks.values()]
        pages = [len(it) // page_size for it in self.views]
        if any(len(it) % page_size for it in self.views):
            raise ValueError("a block's length is no multiple of the page size")
        self.table = Table(page_size, list(zip(blocks, pages)))
        self.pages = pages
        self.room = ctypes.create_string_buffer(_PIECE)
        # pages are copied here, since a call needs the address of bytes that nobody writes
        self.copy = ctypes.create_string_buffer(_ROUND * page_size)
        self.copies = memoryview(self.copy).cast("B")
        self.out = memoryview(self.room).cast("B")
        self.done = 0

    def copy_pages(self, block: int, first: int, count: int, to: int = 0) -> int:
        """Copies pages to their place among the copies. Returns the address of that."""
        start, size = to * self.page_size, count * self.page_size
        view = self.views[block][first * self.page_size :][:size]
        self.copies[start : start + size] = view
        self.done += size
        return lib.address(self.copy) + start

    def drain_section(self, sender: Sender, output: _Output, number: int) -> None:
        """Writes the section that waits of one stream, with this number as its id."""
        section = bytearray()
        while count := sender.drain(0, self.room):
            section += self.out[:count]
        set_section_id(section, number)
        output.write(memoryview(section))

    def drain(self, of: Union[Sender, Worker], source: int, output: _Output) -> None:
        """Writes what waits of a source."""
        while True:
            count = of.drain(source, self.room) if isinstance(of, Sender) else of.drain(self.room)
            if not count:
                return
            output.write(self.out[:count])


def _single(
    saving: _Saving,
    sender: Sender,
    main: _Output,
    progress: Optional[Progress],
    number: Optional[int] = None,
) -> None:
    """Sends all pages as sections of one stream, with this number as their id if there is one."""
    for block, pages in enumerate(saving.pages):
        for first in range(0, pages, _ROUND):
            count = min(_ROUND, pages - first)
            at = saving.copy_pages(block, first, count)
            sender.begin_round()
            sender.put_pages(block, first, count, at, saving.page_size)
            sender.end_round()
            if number is None:
                saving.drain(sender, 0, main)
            else:
                saving.drain_section(sender, main, number)
            if progress is not None:
                progress(saving.done, saving.table.total)


def _round(
    saving: _Saving,
    sender: Sender,
    outputs: Sequence[_Output],
    bitmaps: Optional[Sequence[Any]],
    progress: Optional[Progress],
) -> None:
    """Sends a round, whose packets are written on the channels in turn."""
    contents = (lib.Lent * 128)()
    sender.begin_round(bitmaps)
    workers = [sender.worker() for _ in outputs[1:]]
    running = list(zip(workers, outputs[1:]))
    while running:
        going = []
        for worker, output in running:
            goes_on = worker.next()
            if goes_on:
                batch = worker.batch
                for i in range(batch.count):
                    at = saving.copy_pages(batch.block, batch.pages[i], 1, i)
                    contents[i].bytes, contents[i].len = at, saving.page_size
                worker.pack(contents, batch.count)
                going.append((worker, output))
            saving.drain(worker, 0, output)
            if progress is not None:
                progress(saving.done, saving.table.total)
        running = going
    for worker in workers:
        sender.give_back(worker)
        worker.close()
    sender.end_round()
    saving.drain(sender, 0, outputs[0])


def _all_pages(pages: int) -> Any:
    words = (lib.u64 * ((pages + 63) // 64))()
    ctypes.memset(words, 0xFF, ctypes.sizeof(words))
    return words


def _paths(target: Target, channels: int) -> List[Target]:
    """Returns the paths of so many channels of a main stream that has a path."""
    if not channels:
        return []
    if not isinstance(target, (str, os.PathLike)):
        raise ValueError("a number of channels is for a path: pass their outputs")
    return [f"{os.fspath(target)}.{i}" for i in range(channels)]


class _FolderMemory:
    """The files of a folder that `extract` made."""

    def __init__(self, folder: Union[str, "os.PathLike[str]"], page_size: int) -> None:
        self._path = Path(folder)
        with (self._path / "blocks.json").open(encoding="utf-8") as file:
            listed = json.load(file)
        if not isinstance(listed.get("state"), str):
            raise FileFormatError(f"{self._path / 'blocks.json'} lists no state")
        if listed["page_size"] != page_size:
            raise ValueError(f"{self._path} has pages of {listed['page_size']} bytes")
        self._files = {it["id"]: it["file"] for it in listed["blocks"]}

    def memory(self, block: str) -> Any:
        """Maps the file of a block. Raises ValueError if there is none."""
        if block not in self._files:
            raise ValueError(f"{self._path} has no memory of block {block!r}")
        with (self._path / self._files[block]).open("rb") as file:
            return mmap.mmap(file.fileno(), 0, access=mmap.ACCESS_READ)


@dataclass(frozen=True)
class _Around:
    """The state that is written around RAM's sections, and the id that these have."""

    state: State
    number: int


def _blocks_of(
    given: Union[State, str, "os.PathLike[str]"], blocks: Mapping[str, Any], page_size: int
) -> Tuple[Dict[str, Any], _Around]:
    """Returns the memory of a machine's blocks, in the machine's order, and its state."""
    folder = None if isinstance(given, State) else _FolderMemory(given, page_size)
    state = given if isinstance(given, State) else State.read(given)
    table, number = state.check(page_size)
    wanted = {it.id: it.pages * page_size for it in table.blocks}
    table.close()
    for name in blocks:
        if name not in wanted:
            raise ValueError(f"the machine has no block {name!r}")
    found: Dict[str, Any] = {}
    for name, length in wanted.items():
        if name not in blocks and folder is None:
            raise ValueError(f"the memory of block {name!r} isn't given")
        found[name] = blocks[name] if name in blocks else folder.memory(name)  # type: ignore
        if memoryview(found[name]).nbytes != length:
            raise ValueError(f"block {name!r} has {length} bytes in the machine")
    return found, _Around(state, number)


def save(
    target: Target,
    blocks: Optional[Mapping[str, Any]] = None,
    *,
    channels: Union[int, Sequence[Target]] = 0,
    page_size: int = 4096,
    machine: Optional[str] = None,
    uuid: bytes = bytes(16),
    state: Union[State, str, "os.PathLike[str]", None] = None,
    replace: bool = False,
    progress: Optional[Progress] = None,
) -> Saved:
    """Writes blocks, a mapping of ids to bytes-like objects, as a stream; with `channels` as a main
    stream and channels, into `target` and `target.0`, `target.1` and so on, or into those given.

    An output is a path, a descriptor, or an object with `write` or `sendall`. Files are complete
    and synced when they get their names, the main stream last. `machine` is the name of QEMU's
    machine, without which the stream has no configuration: read it with either frame. Nobody may
    write to the blocks meanwhile.

    `state` is a folder that `extract` made, or the `state` of a guest that was opened with it. The
    stream is then a machine's, which QEMU resumes: the bytes before and after RAM are those of the
    state, and the blocks are the machine's. With a folder, memory that `blocks` doesn't have is the
    folder's. It is for one stream, and its machine has a name already.

    Raises ValueError or CallError of blocks that a stream can't have, FileFormatError of a state
    that isn't complete, FileExistsError without `replace`, and what an output raises. No file is
    left then.
    """
    if isinstance(channels, int):
        channels = _paths(target, channels)
    around: Optional[_Around] = None
    if state is not None:
        if channels or machine is not None:
            raise ValueError("`state` goes with neither `channels` nor `machine`")
        blocks, around = _blocks_of(state, blocks or {}, page_size)
    elif blocks is None:
        raise ValueError("without `state` there have to be blocks")
    saving = _Saving(blocks, page_size)
    outputs: List[_Output] = []
    try:
        for it in (target, *channels):
            outputs.append(_Output(it, replace))
        if around is None:
            _send(saving, outputs, uuid, machine, progress)
        else:
            _send_around(saving, outputs[0], around, progress)
        for output in outputs:
            output.sync()
        for output in reversed(outputs):
            output.finish()
    finally:
        saving.table.close()
        for output in outputs:
            output.abandon()
    written = [it.written for it in outputs]
    return Saved(sum(saving.pages), written[0], tuple(written[1:]))


def _send(
    saving: _Saving,
    outputs: Sequence[_Output],
    uuid: bytes,
    machine: Optional[str],
    progress: Optional[Progress],
) -> None:
    sender = Sender(saving.table, len(outputs) - 1, uuid=uuid, machine=machine)
    try:
        saving.drain(sender, 0, outputs[0])
        if len(outputs) == 1:
            _single(saving, sender, outputs[0], progress)
        else:
            # (QEMU's receiver needs a round without pages first)
            _round(saving, sender, outputs, None, progress)
            bitmaps = [_all_pages(it) for it in saving.pages]
            _round(saving, sender, outputs, bitmaps, progress)
        sender.finish()
        for source, output in enumerate(outputs):
            saving.drain(sender, source, output)
    finally:
        sender.close()


def _send_around(
    saving: _Saving, output: _Output, around: _Around, progress: Optional[Progress]
) -> None:
    """Writes one stream of a machine, with its state around RAM's sections."""
    state, number = around.state, around.number
    # (its START isn't written: the machine's own is among the bytes before the records)
    sender = Sender(saving.table, machine="")
    try:
        while sender.drain(0, saving.room):
            pass
        for text in (state.libvirt, state.before, start_end(number)):
            output.write(memoryview(text))
        _single(saving, sender, output, progress, number)
        sender.finish(left_open=True)
        saving.drain_section(sender, output, number)
    finally:
        sender.close()
    output.write(memoryview(state.after))
