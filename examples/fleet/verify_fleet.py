#!/usr/bin/env python3
"""Verifies saved guests on the workers of Dask's distributed scheduler, and restores them if asked.

    verify_fleet.py --scheduler HOST:8786 --results night.jsonl /saves
    verify_fleet.py --workers 4 --results night.jsonl --list saves.txt --table night.tsv

Each save is a file with one stream, or a main stream with its channels beside it (`NAME.0`,
`NAME.1` and so on, as `zimgasol save --channels` and the captures have them). Operands are files,
and folders whose files that end with `--suffix` are taken. `--list` names a file with a path on
each line.

Each result is a line of JSON in `--results`, appended and synced when it comes. A run with the same
results leaves out each save that has a line and wasn't changed since, by its length and time. So a
run that was ended goes on, and no save has two lines. A worker that dies loses the saves that it
had in hand, and the scheduler gives them to others. If workers die again and again with a save
(Dask's `allowed-failures`, 3), its line has that error, and a later run tries it again.

The status is 0 if all saves are complete, 1 if one isn't, and 3 if one couldn't be read.
"""

from __future__ import annotations

import argparse
import fcntl
import json
import os
import re
import socket
import subprocess
import sys
import time
from pathlib import Path
from typing import Any, Dict, Iterable, Iterator, List, Optional, TextIO, Tuple

from distributed import Client, LocalCluster, as_completed

Result = Dict[str, Any]
# the saves that the scheduler has for each thread of the workers, so that it never has a million
AHEAD = 2


def channels_of(path: str) -> List[str]:
    """Returns the channels' files beside a main stream, in the order of their numbers."""
    main = Path(path)
    stem = main.name[: -len(".main")] if main.name.endswith(".main") else main.name
    found = []
    for it in main.parent.glob(f"{glob_text(stem)}.*"):
        number = it.name[len(stem) + 1 :]
        if number.isascii() and number.isdigit():
            found.append((int(number), str(it)))
    return [it for _, it in sorted(found)]


def glob_text(text: str) -> str:
    """Returns a pattern that has this text alone."""
    return re.sub(r"([*?[])", r"[\1]", text)


def state_of(path: str) -> Tuple[int, int]:
    """Returns the length and the time of a save, its channels counted."""
    found = [os.stat(it) for it in (path, *channels_of(path))]
    return sum(it.st_size for it in found), max(it.st_mtime_ns for it in found)


def row(path: str, started: float, **more: Any) -> Result:
    """Returns a line of the results. What isn't known is null."""
    names = ("guest", "pages", "missing", "fault", "byte", "error", "bytes", "restored")
    empty = dict.fromkeys((*names, "length", "changed"))
    return {
        "file": path,
        "status": 3,
        **empty,
        "seconds": round(time.monotonic() - started, 6),
        "host": socket.gethostname(),
        "process": os.getpid(),
        **more,
    }


def by_package(path: str, options: Dict[str, Any]) -> Result:
    """Verifies a save, or restores it into a folder of its own, by the package zimgasol."""
    import zimgasol

    started, channels = time.monotonic(), channels_of(path)
    keywords = {"channels": channels, "page_size": options["page"], "limit": options["limit"]}
    into = options["restore"] and folder_of(path, options["restore"])
    try:
        report = zimgasol.verify(path, **keywords)
        if into and report.complete:
            os.makedirs(os.path.dirname(into), exist_ok=True)
            zimgasol.extract(path, into, replace=True, **keywords)
    except (OSError, MemoryError, zimgasol.Error) as error:
        return row(path, started, error=str(error) or type(error).__name__)
    fault = report.fault
    return row(
        path,
        started,
        status=0 if report.complete else 1,
        guest={it.id: it.pages * report.page_size for it in report.blocks},
        pages=report.pages,
        missing=report.missing,
        fault=fault.number if fault else None,
        byte=fault.byte if fault else None,
        error=report.problem,
        bytes=report.bytes,
        restored=into if into and report.complete else None,
    )


def folder_of(path: str, under: str) -> str:
    """Returns the folder that a save is restored into: its own path, below another folder."""
    return os.path.join(under, os.path.abspath(path).lstrip("/"))


def by_program(path: str, options: Dict[str, Any]) -> Result:
    """Verifies a save by `zimgasol verify --json`, which keeps no guest in memory."""
    started = time.monotonic()
    words = [options["program"], "verify", "--json", "--page", str(options["page"])]
    words += ["--limit", str(options["limit"]), path]
    words += [it for channel in channels_of(path) for it in ("--channel", channel)]
    ran = subprocess.run(words, capture_output=True)
    said = ran.stderr.decode(errors="replace").strip()
    if ran.returncode not in (0, 1) or not ran.stdout.strip():
        return row(path, started, error=said or f"status {ran.returncode}")
    found = json.loads(ran.stdout)
    blocks, fault = found.get("blocks", []), found.get("fault")
    parts = [found, *found.get("channels", [])]
    return row(
        path,
        started,
        status=ran.returncode,
        guest={it["id"]: it["bytes"] for it in blocks},
        pages=sum(it["bytes"] for it in blocks) // options["page"],
        missing=sum(it["pages_without_record"] for it in blocks),
        fault=fault and fault["number"],
        byte=fault and fault["byte"],
        error=said or None,
        bytes=sum(it.get("bytes") or 0 for it in parts),
    )


def verify_one(path: str, options: Dict[str, Any]) -> Result:
    """Verifies a save on a worker. Its length and time are those from before it was read."""
    try:
        length, changed = state_of(path)
    except OSError as error:
        return row(path, time.monotonic(), error=str(error))
    found = (by_program if options["program"] else by_package)(path, options)
    return {**found, "length": length, "changed": changed}


class Results:
    """The lines of finished saves, one for each, in a file that outlives the run.

    One run at a time has the file: another one raises BlockingIOError.
    """

    def __init__(self, path: str) -> None:
        self.rows: Dict[str, Result] = {}
        self._file: TextIO = open(path, "a", encoding="utf-8")
        fcntl.flock(self._file, fcntl.LOCK_EX | fcntl.LOCK_NB)
        end = 0
        with open(path, "rb") as lines:
            for line in lines:
                # (the last line is cut if the run was killed while it wrote it)
                if not line.endswith(b"\n"):
                    break
                found = json.loads(line)
                self.rows[found["file"]] = found
                end += len(line)
        os.truncate(path, end)

    def is_done(self, path: str) -> bool:
        """Whether a save has a line, was read, and is as it was then."""
        found = self.rows.get(path)
        if found is None or found["status"] == 3:
            return False
        try:
            return (found["length"], found["changed"]) == state_of(path)
        except OSError:
            return False

    def add(self, found: Result) -> None:
        """Appends a line, and syncs it to its disk."""
        self.rows[found["file"]] = found
        self._file.write(json.dumps(found, sort_keys=True) + "\n")
        self._file.flush()
        os.fsync(self._file.fileno())

    def close(self) -> None:
        """Closes the file."""
        self._file.close()


def verify_all(
    client: Client, paths: Iterable[str], results: Results, options: Dict[str, Any]
) -> List[str]:
    """Has the workers verify each save that isn't done. Returns the saves that were."""
    waiting = iter([it for it in dict.fromkeys(paths) if not results.is_done(it)])
    finished: List[str] = []
    futures: Dict[str, str] = {}
    running = as_completed()
    threads = sum(it["nthreads"] for it in client.scheduler_info()["workers"].values())
    for path in first(waiting, max(1, threads) * AHEAD):
        submit(client, running, futures, path, options)
    for future in running:
        path = futures.pop(future.key)
        results.add(outcome(future, path))
        finished.append(path)
        # (the scheduler keeps no result, and makes none a second time if its worker dies)
        future.release()
        for more in first(waiting, 1):
            submit(client, running, futures, more, options)
    return finished


def outcome(future: Any, path: str) -> Result:
    """Returns the result of a save. Where it went with its worker, waits until another has it."""
    try:
        found: Result = future.result()
        return found
    except Exception as error:
        return row(path, time.monotonic(), error=repr(error))


def first(of: Iterator[str], count: int) -> List[str]:
    """Takes at most `count` from an iterator."""
    return [it for _, it in zip(range(count), of)]


def submit(
    client: Client, running: Any, futures: Dict[str, str], path: str, options: Dict[str, Any]
) -> None:
    """Passes a save to the scheduler."""
    future = client.submit(verify_one, path, options, pure=False)
    futures[future.key] = path
    running.add(future)


def saves_in(
    operands: Iterable[str], listed: Optional[str], suffixes: Tuple[str, ...]
) -> List[str]:
    """Returns the paths of all saves, each once. Channels' files are those of their main stream."""
    found: List[str] = []
    if listed:
        lines = sys.stdin if listed == "-" else open(listed, encoding="utf-8")
        found += [it.rstrip("\n") for it in lines if it.strip()]
    for operand in operands:
        if not os.path.isdir(operand):
            found.append(operand)
            continue
        for folder, _, names in os.walk(operand):
            found += [os.path.join(folder, it) for it in sorted(names) if it.endswith(suffixes)]
    return list(dict.fromkeys(map(os.path.abspath, found)))


COLUMNS = (
    *("file", "status", "guest", "pages", "missing", "fault", "byte"),
    *("rate", "seconds", "host", "error"),
)


def table_of(rows: Iterable[Result]) -> Iterator[str]:
    """Returns the lines of a table with tabs: of each save one, and the names before them."""
    yield "\t".join(COLUMNS)
    for found in rows:
        blocks = found["guest"] or {}
        is_timed = found["bytes"] and found["seconds"]
        rate = int(found["bytes"] / found["seconds"]) if is_timed else None
        guest = ",".join(f"{name}={size}" for name, size in blocks.items()) or None
        cells = {**found, "guest": guest, "rate": rate}
        texts = [str(cells[it]) if cells[it] is not None else "-" for it in COLUMNS]
        yield "\t".join(re.sub(r"\s", " ", it) for it in texts)


def arguments() -> argparse.ArgumentParser:
    """Returns the parser of the arguments."""
    parser = argparse.ArgumentParser(description="Verifies saved guests on Dask's workers.")
    parser.add_argument("saves", nargs="*", help="files, and folders")
    parser.add_argument("--list", help="a file with a path a line; - is the standard input")
    add = parser.add_argument
    add("--suffix", action="append", help="of files in folders (.sav, .save, .main)")
    add("--results", required=True, help="lines of JSON, which a later run goes on with")
    parser.add_argument("--table", help="a table with tabs of all results")
    where = parser.add_mutually_exclusive_group()
    where.add_argument("--scheduler", help="the address of a scheduler that runs")
    where.add_argument("--workers", type=int, default=4, help="processes here, without one (4)")
    how = parser.add_mutually_exclusive_group()
    how.add_argument("--program", help="the program zimgasol, for guests larger than the memory")
    how.add_argument("--restore", help="a folder below which each complete save is extracted")
    parser.add_argument("--page", type=int, default=4096)
    parser.add_argument("--limit", type=int, default=1 << 40, help="the most bytes of a guest")
    return parser


def main() -> int:
    """Runs the job. Returns the exit status."""
    given = arguments().parse_args()
    suffixes = tuple(given.suffix or (".sav", ".save", ".main"))
    paths = saves_in(given.saves, given.list, suffixes)
    options = {it: getattr(given, it) for it in ("program", "restore", "page", "limit")}
    results = Results(given.results)
    cluster = None
    if not given.scheduler:
        cluster = LocalCluster(
            n_workers=given.workers, threads_per_worker=1, dashboard_address=None, memory_limit=0
        )
    with Client(given.scheduler or cluster) as client:
        finished = verify_all(client, paths, results, options)
    if cluster is not None:
        cluster.close()
    results.close()
    rows = [results.rows[it] for it in paths]
    if given.table:
        Path(given.table).write_text("".join(f"{it}\n" for it in table_of(rows)))
    counts = [sum(it["status"] == status for it in rows) for status in (0, 1, 3)]
    print(f"{len(rows)} saves: {counts[0]} passed, {counts[1]} refused, {counts[2]} not read; "
          f"{len(rows) - len(finished)} were done before")
    return max((it["status"] for it in rows), default=0)


if __name__ == "__main__":
    sys.exit(main())
