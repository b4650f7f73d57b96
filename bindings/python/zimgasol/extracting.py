"""Extracts a saved guest's memory into files, as `zimgasol extract` does."""

from __future__ import annotations

import contextlib
import errno
import hashlib
import json
import os
import shutil
from pathlib import Path
from typing import IO, Any, Dict, List, Optional, Sequence, Union

from ._inputs import Given
from ._memory import Memory
from .load import Frame, Table
from .reading import MOST_BYTES, Progress, Report, _frame, _Options, _reader, _Reader, raise_for
from .state import AFTER, BEFORE, FOLDER, LIBVIRT

_STATE = [f"{FOLDER}/{it}" for it in (LIBVIRT, BEFORE, AFTER)]
_MOST_NAME = 200
_KEPT = b"-_@"


def file_name(block: str, number: int) -> str:
    """Returns the name of a block's file: the id, in which all but letters, digits, `-`, `_`, `@`
    and `.` is escaped, and dots too in an id that begins with one.
    """
    kept = _KEPT if block.startswith(".") else _KEPT + b"."
    parts = []
    for byte in block.encode("ascii"):
        is_plain = chr(byte).isalnum() or byte in kept
        parts.append(chr(byte) if is_plain else f"%{byte:02X}")
    name = "".join(parts)
    return f"{name if len(name) <= _MOST_NAME else f'%long-{number}'}.bin"


class _Folder:
    """The files of one extraction, under names that end with `.partial` until they are complete."""

    def __init__(self, folder: Union[str, os.PathLike[str]], replace: bool) -> None:
        self.path = Path(folder)
        self._replace = replace
        self._is_made = False
        self._names: List[str] = []
        self._files: List[IO[bytes]] = []
        self._has_old_state = False
        self._makes_state_folder = False
        self._state: Dict[str, IO[bytes]] = {}

    def create(self, table: Table) -> Memory:
        """Creates a sparse file for each block, and maps it. Raises FileExistsError."""
        self._is_made = not self.path.exists()
        self.path.mkdir(exist_ok=True)
        names = [file_name(it.id, i) for i, it in enumerate(table.blocks)]
        self._has_old_state = (self.path / FOLDER).is_dir()
        for name in (*names, "blocks.json", *_STATE):
            if not self._replace and os.path.lexists(self.path / name):
                raise FileExistsError(errno.EEXIST, "is there already", str(self.path / name))
        for name in names:
            self._names.append(name)
            self._files.append(self._partial(name).open("w+b"))
        return Memory(table, self._files)

    def create_state(self, libvirt: bytes, front: bytes) -> IO[bytes]:
        """Creates the files of the state, and writes what is before RAM's records. Returns the file
        of what is after RAM. Without bytes of libvirt's there is no file of it.
        """
        self._makes_state_folder = not self._has_old_state
        (self.path / FOLDER).mkdir(exist_ok=True)
        for name, text in ((LIBVIRT, libvirt), (BEFORE, front), (AFTER, b"")):
            if name != LIBVIRT or text:
                file = self._partial(f"{FOLDER}/{name}").open("wb")
                self._state[f"{FOLDER}/{name}"] = file
                file.write(text)
        return self._state[f"{FOLDER}/{AFTER}"]

    def _partial(self, name: str) -> Path:
        return self.path / f"{name}.partial"

    def _finish_state(self) -> None:
        """Gives the files of the state their names. An old state isn't that of the new memory."""
        for name in _STATE:
            if name in self._state:
                os.replace(self._partial(name), self.path / name)
            elif self._has_old_state:
                (self.path / name).unlink(missing_ok=True)
        if self._has_old_state and not self._state:
            with contextlib.suppress(OSError):
                (self.path / FOLDER).rmdir()
        self._state.clear()

    def finish(self, report: Report, digest: bool) -> None:
        """Syncs the files to their disk, and gives them their names, `blocks.json` last."""
        page_size, blocks = report.page_size, report.blocks
        listed: List[Dict[str, Any]] = []
        for name, file, block in zip(self._names, self._files, blocks):
            os.fsync(file.fileno())
            one: Dict[str, Any] = {"bytes": block.pages * page_size, "file": name, "id": block.id}
            if digest:
                one["sha256"] = _sha256(file)
            listed.append(one)
        for file in self._state.values():
            file.flush()
            os.fsync(file.fileno())
            file.close()
        self._names.append("blocks.json")
        with self._partial("blocks.json").open("w", encoding="ascii") as out:
            text: Dict[str, Any] = {"blocks": listed, "page_size": page_size}
            if self._state:
                text["state"] = report.tail
            out.write(json.dumps(text, indent=2, sort_keys=True) + "\n")
            out.flush()
            os.fsync(out.fileno())
        self._finish_state()
        for name in self._names:
            os.replace(self._partial(name), self.path / name)
        self._names.clear()

    def close(self) -> None:
        """Closes the files, and removes those that have no name of their own yet."""
        for file in self._files:
            file.close()
        for name, file in self._state.items():
            file.close()
            self._partial(name).unlink(missing_ok=True)
        if self._state and self._makes_state_folder:
            with contextlib.suppress(OSError):
                (self.path / FOLDER).rmdir()
        for name in self._names:
            self._partial(name).unlink(missing_ok=True)
        if self._is_made and not any(self.path.iterdir()):
            self.path.rmdir()


def _sha256(file: IO[bytes]) -> str:
    found = hashlib.sha256()
    file.seek(0)
    while piece := file.read(1 << 20):
        found.update(piece)
    return found.hexdigest()


def _test_room(folder: Path, reader: _Reader, table: Table) -> None:
    # a mapping of a file kills the process where its disk is full, so that is tested before
    need = table.total if reader.total is None else min(table.total, reader.total)
    if shutil.disk_usage(folder).free < need:
        raise OSError(errno.ENOSPC, f"{need} bytes may be needed", str(folder))


def extract(
    path: Given,
    folder: Union[str, os.PathLike[str]],
    *,
    channels: Sequence[Given] = (),
    page_size: int = 4096,
    frame: Union[str, Frame] = Frame.MACHINE,
    uuid: Optional[bytes] = None,
    limit: int = MOST_BYTES,
    partial: bool = False,
    replace: bool = False,
    digest: bool = False,
    state: bool = True,
    progress: Optional[Progress] = None,
) -> Report:
    """Writes the memory of a saved guest into `folder`: a sparse file for each block, and
    `blocks.json`, as `zimgasol extract` does. Files get their names once the stream is complete.

    With `state` the folder `state` gets the state of a machine beside its RAM, from which
    `save(.., state=folder)` makes a stream that QEMU resumes. With `frame="ram"` there is none.
    Without it an old state in the folder is in the way as a file is, and `replace` removes it.

    What follows RAM is checked and reported, but doesn't make the memory incomplete. The folder's
    disk needs room for the memory, or for the inputs' bytes if they are fewer: the files are
    mapped, and the system ends a process that writes to a mapping on a full disk.

    Raises StreamError, IncompleteError, FileFormatError, FileExistsError without `replace`, or
    OSError if there isn't room. No file is left then.
    """
    options = _Options(
        page_size, _frame(frame), uuid, limit, partial, False, False, progress, state
    )
    reader, files = _reader(path, channels, options), _Folder(folder, replace)
    try:
        return _extract(reader, files, digest)
    finally:
        reader.close()
        files.close()


def _extract(reader: _Reader, files: _Folder, digest: bool) -> Report:
    """Loads a guest into the files of a folder, and names them if it is complete."""
    table = reader.find_table()
    memory = files.create(table)
    try:
        _test_room(files.path, reader, table)
        if reader.options.keeps_state:
            reader.after = files.create_state(reader.libvirt, reader.front)
        reader.load_into(memory.maps)
        report = reader.report()
        if report.fault is not None or (report.missing and not report.partial):
            raise_for(report)
        for it in memory.maps:
            it.flush()
    finally:
        reader.close()
        memory.close()
    files.finish(report, digest)
    return report
