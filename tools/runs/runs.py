#!/usr/bin/env python3
"""Runs the programs on what the gate has as data: `runs/` and the cases of `mig_rows`.

    tools/runs/runs.py [--built] [KIND ..]

The programs are those that `rt ci`, `make build` or `make program` proved and built in
crates/*/out. One that isn't there, or is older than a source, is built unproved first, which takes
a minute or two. The questions of large inputs are kept for a proved tool, and an unproved run says
how many they are. With --built the programs are taken whatever their age: the gate has just proved
them, or took them from an earlier run of the same files. KIND is one of

    tool       the files of cases of the tool, runs/tool
    zimgasol   the commands of docs/use/ZIMGASOL.md and more, runs/zimgasol
    captures   QEMU's own migrations, runs/captures
    manual     the man page of `zimgasol`, and its completions
    refused    allocations refused: of both programs, and of the cases that `mig_rows` plays;
               with proved programs alone
    falsified  each of the others on an expectation that was falsified, which has to fail; one of a
               large input with a proved program alone

and all of them without a KIND. The last line is 'N passed, M failed', and the status is 1 where
something failed.
"""
import contextlib
import io
import shutil
import sys
import tempfile
import time
from pathlib import Path

import cases
import commands
import manuals
import refused

sys.path.insert(1, str(Path(__file__).resolve().parent.parent))
import captures  # noqa: E402
import programs  # noqa: E402
from crates import CRATES, TOP  # noqa: E402

RUNS = TOP / "runs"
PROGRAMS = ("mig_tool", "zimgasol_cli", "mig_rows")
# Of each kind the programs that it runs.
NEEDS = {"tool": ("mig_tool",), "zimgasol": ("zimgasol_cli",), "captures": ("zimgasol_cli",),
         "manual": ("zimgasol_cli",), "refused": PROGRAMS, "falsified": ("mig_tool", "zimgasol_cli")}


def is_proved(found):
    """Returns whether the tool is the one that was proved and built."""
    return found["mig_tool"] == programs.built("mig_tool")


def play_tool(found, data):
    return cases.play(found["mig_tool"], sorted((data / "tool").glob("*.txt")), is_proved(found))


def play_zimgasol(found, data):
    return commands.play(found["zimgasol_cli"], data / "zimgasol")


def play_captures(found, data):
    return captures.play(found["zimgasol_cli"], data / "captures")


def play_manual(found, _):
    return manuals.play(found["zimgasol_cli"])


def play_refused(found, data):
    return refused.play(found, data / "zimgasol" / "data", CRATES / "mig_rows" / "data")


def replaced(file, old, new):
    """Falsifies an expectation: the first `old` of a file becomes `new`."""
    text = file.read_text()
    if old not in text:
        sys.exit(f"{file.name} hasn't {old!r}: there is nothing to falsify")
    file.write_text(text.replace(old, new, 1))


# An expectation of each kind that is falsified, in a copy of runs/.
FALSE = (("an answer of the tool", play_tool, "tool/loads.txt", "fault ", "fault 9"),
         ("a status of the tool", play_tool, "tool/words.txt", " = 2 ", " = 3 "),
         ("a line of zimgasol", play_zimgasol, "zimgasol/expected.txt", "complete", "whole"),
         ("a status of zimgasol", play_zimgasol, "zimgasol/expected.txt", "$ echo $?\n1\n", "$ echo $?\n0\n"),
         ("QEMU's memory", play_captures, "captures/none-7.2.22.sums", "3c5e", "3c5f"))
# One that a proved program alone is asked.
LARGE_FALSE = ("an answer on a large input", play_tool, "tool/loads.txt",
               "large length i = 1", "large length i = 2")


def falsified_refusals():
    """Says 1 where a run that doesn't report a refused allocation, or that changes a file, passes; else 0."""
    before, told = (("f", b"1"),), b"zimgasol: no memory\n"
    whole = refused.Ended(0, b"", b"", (("f", b"1"), ("g", b"2")))
    wrong = (refused.Ended(0, b"", told, before), refused.Ended(3, b"", b"", before), refused.Ended(3, b"", told, ()),
             refused.Ended(3, b"", told, (("f", b"9"),)), refused.Ended(3, b"", told, (*before, ("g", b"9"))),
             refused.Ended(3, b"", told, whole.files), refused.Ended(3, b"", told, (*before, ("g.partial", b""))),
             refused.Ended(3, b"", b"f: is no list of blocks that `extract` wrote\n", before))
    passes = [it for it in wrong if refused.of_zimgasol(it, before, whole)]
    passes += [it for it in (whole, refused.Ended(1, b"fault 60\n", b"", ())) if refused.of_tool(it, before, whole)]
    for it in passes:
        print(f"a refused allocation passes that ends so: {it}")
    return bool(passes)


def play_falsified(found, data):
    failed, tried = 0, [*FALSE, *[LARGE_FALSE] * is_proved(found)]
    for what, play, name, old, new in tried:
        with tempfile.TemporaryDirectory() as room:
            copy = Path(room) / "runs"
            shutil.copytree(data, copy)
            replaced(copy / name, old, new)
            with contextlib.redirect_stdout(io.StringIO()):
                _, wrong = play(found, copy)
        if wrong != 1:
            failed += 1
            print(f"{what} was falsified, and {wrong} failed")
    failed += falsified_refusals()
    count = len(tried) + 1
    print(f"falsified: {count} expectations, {failed or 'none'} of them passed", flush=True)
    if LARGE_FALSE not in tried:
        print("falsified: 1 expectation of a large input is kept for make test", flush=True)
    return count - failed, failed


PLAYS = {"tool": play_tool, "zimgasol": play_zimgasol, "captures": play_captures, "manual": play_manual,
         "refused": play_refused, "falsified": play_falsified}


def play(kinds, found):
    """Plays kinds of runs. Returns how many passed and failed."""
    passed = failed = 0
    for kind in kinds:
        start = time.monotonic()
        one, other = PLAYS[kind](found, RUNS)
        passed, failed = passed + one, failed + other
        print(f"  {kind}: {time.monotonic() - start:.1f} s", flush=True)
    return passed, failed


def main(kinds):
    if kinds[:1] in (["--help"], ["-h"]):
        print(__doc__.strip())
        return 0
    is_built, kinds = "--built" in kinds, [it for it in kinds if it != "--built"]
    if set(kinds) - set(PLAYS):
        sys.exit(__doc__)
    kinds = kinds or list(PLAYS)
    with tempfile.TemporaryDirectory(prefix="runs-") as room:
        found = {}
        for name in PROGRAMS:
            if not any(name in NEEDS[kind] for kind in kinds):
                continue
            found[name] = programs.built(name) if is_built else programs.proved(name)
            if not found[name] and (is_built or "refused" in kinds):
                sys.exit(f"{name} isn't proved and built in crates/{name}/out: rt ci does it")
            if not found[name]:
                print(f"{name} isn't proved, or a source is newer: built unproved", flush=True)
                found[name] = programs.unproved(name, room)
            if not found[name]:
                sys.exit(f"{name} can't be built")
        passed, failed = play(kinds, found)
    print(f"{passed} passed, {failed} failed")
    return 1 if failed or not passed else 0


if __name__ == "__main__":
    try:
        sys.exit(main(sys.argv[1:]))
    except KeyboardInterrupt:
        sys.exit(130)
