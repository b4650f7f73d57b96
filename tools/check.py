#!/usr/bin/env python3
"""Runs each test, stored run and file of cases from the source, and proves nothing.

    tools/check.py [CRATE..]

Tests run by `rt try --test`. A program runs by `rt try`, on the files stdin, args and data/ next to
its src/, and has to print its file stdout and end with the status in its file status. Each is
compiled with checks of memory and arithmetic. The interpreter of `rt try` also runs it if it can,
which it can't for tests and for most programs. The tool and `zimgasol` are built in this way, too,
and then run on what the gate runs them on: cases, commands and captures (tools/runs/runs.py). The
cases' questions of large inputs take minutes with those checks, and are kept for the gate. How many
they are stands before the last line.

Several run in parallel, as many as processors and free memory allow, or RT_JOBS of them; those that
take longest begin first. A run without an answer has failed, unless it was stopped for its time,
which a busy machine may do: these are said apart. Each test, stored run, case and command counts
one in the last line, 'N passed, M failed'.
"""
import os
import re
import shutil
import subprocess
import sys
import time
from concurrent.futures import ThreadPoolExecutor, as_completed
from pathlib import Path

from crates import CRATES, is_program, uses

RUNS = Path(__file__).resolve().parent / "runs" / "runs.py"
# The kinds of runs of each program.
PLAYED = {"mig_tool": ("tool",), "zimgasol_cli": ("zimgasol", "captures")}

# The most memory that one `rt try` takes, with its compiler.
MEMORY = 2 << 30
# The seconds that a program or a test may take, on a machine that is busy with ten times as much as it has
# processors for. Without this flag `rt try` stops it after 60.
SECONDS = 3600
# These take longest, so they begin first.
LONG = ("mig_rows", "mig_session_tests", "mig_tool", "zimgasol_cli")
ENDED = re.compile(rb"^run=ended status=(\d+) ", re.M)
TESTS = re.compile(rb"^test result: ok\. ([1-9]\d*) passed; 0 failed; 0 ignored; 0 filtered out$", re.M)
# What runs.py says of the questions that it didn't ask.
KEPT = re.compile(r"^.* kept for make test$", re.M)
PASSED_TEST = re.compile(rb"^test \S+ \.\.\. ok\n", re.M)


def content(file):
    return file.read_bytes() if file.is_file() else b""


def lines_of(name):
    return sum(file.read_bytes().count(b"\n") for file in (CRATES / name / "src").rglob("*.rt"))


def has_tests(name):
    return any(b"#[test]" in file.read_bytes() for file in (CRATES / name / "src").rglob("*.rt"))


def tried(name, words, arguments=()):
    """Runs `rt try` in a crate. Returns the output, the messages, and the status, where it ended."""
    crate = CRATES / name
    given = crate / "stdin" if "--test" not in words and (crate / "stdin").is_file() else os.devnull
    with open(given, "rb") as stdin:
        command = ["rt", "try", "--seconds", str(SECONDS), *words, "--", *arguments]
        ran = subprocess.run(command, cwd=crate, stdin=stdin, stdout=subprocess.PIPE, stderr=subprocess.PIPE)
    ended = ENDED.search(ran.stderr)
    return ran.stdout, ran.stderr, int(ended[1]) if ended else None


def last_lines(*texts):
    lines = [line for text in texts for line in text.decode(errors="replace").splitlines()]
    return "".join(f"    {line}\n" for line in lines[-20:])


def run_tests(name):
    """Runs a crate's tests. Returns how many passed and failed, and what to say of it."""
    wrote, said, status = tried(name, ["--test"])
    found = TESTS.search(wrote)
    if status == 0 and found:
        return int(found[1]), 0, f"{name}: {int(found[1])} tests passed"
    failed = max(1, len(re.findall(rb"^test \S+ \.\.\. FAILED$", wrote, re.M)))
    passed = len(PASSED_TEST.findall(wrote))
    return passed, failed, f"{name}: tests FAILED\n" + last_lines(PASSED_TEST.sub(b"", wrote), said)


def run_program(name):
    """Runs a program as it is stored. Returns what run_tests returns."""
    crate = CRATES / name
    data = sorted(file for file in (crate / "data").rglob("*") if file.is_file())
    words = [f"{file.relative_to(crate / 'data')}={file.relative_to(crate)}" for file in data]
    arguments = content(crate / "args").decode().splitlines()
    wrote, said, status = tried(name, [part for word in words for part in ("--data", word)], arguments)
    wanted = int(content(crate / "status") or 0)
    if status == wanted and wrote == content(crate / "stdout"):
        return 1, 0, f"{name}: stored run passed"
    why = "without an answer" if status is None else f"with status {status} and not {wanted}"
    if status == wanted:
        why, said = "as it doesn't print what the file stdout has, but this", b""
    return 0, 1, f"{name}: stored run FAILED, {why}\n" + last_lines(wrote, said)


def lanes():
    if os.environ.get("RT_JOBS", "").isdigit():
        return max(1, int(os.environ["RT_JOBS"]))
    with open("/proc/meminfo") as info:
        free = int(re.search(r"MemAvailable: *(\d+)", info.read())[1]) << 10
    return max(1, min(len(os.sched_getaffinity(0)), free // MEMORY))


def run_played(name):
    """Runs a program on the cases, commands and captures of runs/. Returns what run_tests returns."""
    kinds = PLAYED[name]
    ran = subprocess.run([sys.executable, RUNS, *kinds], stdin=subprocess.DEVNULL, stdout=subprocess.PIPE, text=True)
    found = re.search(r"^(\d+) passed, (\d+) failed$", ran.stdout, re.M)
    passed, failed = (int(found[1]), int(found[2])) if found else (0, 1)
    what, kept = " and ".join(kinds), "".join(f"\n    {it}" for it in KEPT.findall(ran.stdout))
    if not failed and not ran.returncode:
        return passed, 0, f"{name}: {passed} runs of {what} passed{kept}"
    return passed, max(1, failed), f"{name}: runs of {what} FAILED\n" + last_lines(ran.stdout.encode())


def timed(run, name):
    """Runs one. Returns how many passed, failed and were stopped for their time, and what to say."""
    start = time.monotonic()
    passed, failed, said = run(name)
    seconds = time.monotonic() - start
    head, end, rest = said.partition("\n")
    if failed and seconds >= SECONDS:
        return passed, 0, 1, f"{name}: stopped after {seconds / 60:.0f} minutes, without an answer"
    return passed, failed, 0, f"{head} ({seconds:.0f} s){end}{rest.rstrip()}"


def main(names):
    if names[:1] in (["--help"], ["-h"]):
        print(__doc__.strip())
        return 0
    if not shutil.which("rt"):
        sys.exit("there is no rt on the PATH: the Rattle kit has it in its folder bin")
    known = uses()
    unknown = [it for it in names if it not in known]
    if unknown:
        sys.exit(f"crates.txt names no crate {', '.join(unknown)}")
    first = {it: number for number, it in enumerate(LONG)}
    names = sorted(names or known, key=lambda it: (first.get(it, len(first)), -lines_of(it)))
    kinds = ((PLAYED.__contains__, run_played), (is_program, run_program), (has_tests, run_tests))
    runs = [(run, it) for it in names for has, run in kinds if has(it)]
    print(f"{len(runs)} runs, from the source and unproved, {lanes()} side by side", flush=True)
    passed = failed = stopped = 0
    kept = []
    with ThreadPoolExecutor(lanes()) as pool:
        futures = [pool.submit(timed, run, it) for run, it in runs]
        try:
            for future in as_completed(futures):
                one, other, late, said = future.result()
                passed, failed, stopped = passed + one, failed + other, stopped + late
                kept += map(str.strip, KEPT.findall(said))
                print(said, flush=True)
        finally:
            # (where it is interrupted, none is begun any more)
            for future in futures:
                future.cancel()
    nothing = [it for it in names if it not in {name for _, name in runs}]
    if nothing:
        print(f"with no test and no program: {', '.join(nothing)}"
              " (docs/build/ARCHITECTURE.md lists the crates with their tests)")
    for it in kept:
        print(it)
    if stopped:
        print(f"{stopped} stopped for their time, which says nothing of them: try these again alone")
    print(f"{passed} passed, {failed} failed")
    return 1 if failed or stopped or not passed else 0


if __name__ == "__main__":
    try:
        sys.exit(main(sys.argv[1:]))
    except KeyboardInterrupt:
        sys.exit(130)
