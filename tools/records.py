#!/usr/bin/env python3
"""Records what was proved: of which sources, by which kit, and which files were built.

    tools/records.py --linked ARCHIVE FILE..

A record is a JSON file of out/proved. tools/prove.py writes one of the crate that it proved and
built, and tools/gate.py one of the gate that passed. With --linked, as tools/lib.sh calls it, the
files that were linked from ARCHIVE are added to the record of mig_c, if ARCHIVE is what that record
has. `make dist` reads the records.

A record has the commit, whether files differed from it, the kit, and the checksum of the sources. So
it holds of today's sources if they have the same checksum. It says what these commands did on this
machine. It is no proof: whoever can write into out/ can write any record.
"""
import contextlib
import hashlib
import json
import os
import subprocess
import sys
from pathlib import Path

from crates import CRATES, TOP, below, uses

FOLDER = TOP / "out" / "proved"
# what a proof is of: the sources of the crates, and these
LISTS = ("crates.txt", "HANDLES")
PARTS = ("src", "specs", "proofs", "must-fail")
COMMAND_SECONDS = 60


def said(*words):
    """Returns what a command prints; nothing if it isn't there, or fails."""
    try:
        ran = subprocess.run(words, cwd=TOP, capture_output=True, text=True, timeout=COMMAND_SECONDS)
    except (OSError, subprocess.SubprocessError):
        return ""
    return ran.stdout.strip() if ran.returncode == 0 else ""


def sum_of(file):
    """Returns the SHA-256 of a file."""
    return hashlib.sha256(Path(file).read_bytes()).hexdigest()


def sources(names):
    """Returns the checksum of the sources of these crates: of their names and bytes."""
    files = [TOP / it for it in LISTS]
    for name in sorted(names):
        for part in PARTS:
            files += sorted(it for it in (CRATES / name / part).rglob("*") if it.is_file())
    lines = [f"{sum_of(it)}  {it.relative_to(TOP)}\n" for it in files if it.is_file()]
    return hashlib.sha256("".join(lines).encode()).hexdigest()


def crates_of(name):
    """Returns the crates that a record is of: one with those below it, or all."""
    known = uses()
    return [*below(name, known), name] if name in known else list(known)


def now(name):
    """Returns what a record has of today's sources. `name` is a crate, or "gate" for all crates."""
    commit = said("git", "rev-parse", "HEAD")
    return {"commit": commit, "changed": not commit or bool(said("git", "status", "--porcelain")),
            "kit": said("rt", "version"), "sources": sources(crates_of(name))}


def forget(name):
    """Removes a record, before what it says is done again."""
    with contextlib.suppress(OSError):
        (FOLDER / f"{name}.json").unlink()


def write(name, record):
    """Writes a record. One that can't be written is left out: nothing but `make dist` asks for it."""
    try:
        FOLDER.mkdir(parents=True, exist_ok=True)
        (FOLDER / f"{name}.json").write_text(json.dumps(record, indent=1) + "\n")
    except OSError as error:
        print(f"there is no record of what was proved: {error}", file=sys.stderr)


def write_proved(name, before, **more):
    """Writes a record after a proof, of the sources that were there before and are still there."""
    if now(name)["sources"] == before["sources"]:
        write(name, {**before, **more})


def read(name):
    """Returns a record, or None."""
    try:
        return json.loads((FOLDER / f"{name}.json").read_text())
    except (OSError, ValueError):
        return None


def files_of(files):
    """Returns the checksums of those files that are there, by their names in the repository."""
    return {os.path.relpath(it, TOP): sum_of(it) for it in files if Path(it).is_file()}


def lacking(name, *files):
    """Returns why no record has these files as built from today's sources, which were proved; None if one has."""
    record, what = read(name), "the gate passed" if name == "gate" else f"{name} was proved"
    if record is None:
        return f"out/proved has no record that {what}"
    if record["sources"] != sources(crates_of(name)):
        return f"sources have changed since {what}"
    for file, value in files_of(files).items():
        if record.get("files", {}).get(file) != value:
            return f"{file} isn't the file that was built when {what}"
    return None


def main(words):
    if len(words) < 3 or words[0] != "--linked":
        sys.exit(__doc__)
    if lacking("mig_c", words[1]) is None:
        record = read("mig_c")
        write("mig_c", {**record, "files": {**record["files"], **files_of(words[2:])}})


if __name__ == "__main__":
    main(sys.argv[1:])
