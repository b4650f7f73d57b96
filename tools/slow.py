#!/usr/bin/env python3
"""Prints how long the proof of each function of a crate takes, the longest first.

    tools/slow.py CRATE [tests]

Proves the crate, with `tests` also its #[test] functions, from nothing and by one process. The
libraries below it are proved first if they aren't yet. The first function's time includes the
reading of the libraries and of the sources, some 30 to 60 s. The values that a function owns and
drops make its proof slow: cut into parts that own less, it takes a fraction.
"""
import subprocess
import sys
import time
from pathlib import Path

TOP = Path(__file__).resolve().parent.parent


def times(folder, words):
    """The seconds between the lines of a check that name the functions, in the order in which they were checked."""
    run = subprocess.Popen(["rt", "check", "--jobs", "1", *words], cwd=folder, text=True, stdout=subprocess.PIPE, stderr=subprocess.STDOUT)
    last, found = time.monotonic(), []
    for line in run.stdout:
        if line.startswith("checked "):
            now = time.monotonic()
            found.append((now - last, line.split()[1].rstrip(",")))
            last = now
        elif "error" in line:
            print(line, end="", file=sys.stderr)
    return found, run.wait()


def main():
    if len(sys.argv) < 2 or sys.argv[1].startswith("-"):
        sys.exit(__doc__.split("\n\n")[1].strip())
    if not (TOP / "crates" / sys.argv[1] / "src").is_dir():
        sys.exit(f"there is no crate {sys.argv[1]}")
    folder = TOP / "crates" / sys.argv[1]
    kept, aside = folder / "out/incremental", folder / "out/incremental.aside"
    if kept.is_dir():
        kept.rename(aside)
    try:
        found, status = times(folder, ["--test"] if "tests" in sys.argv[2:] else [])
    finally:
        if aside.is_dir():
            subprocess.run(["rm", "-rf", kept], check=True)
            aside.rename(kept)
    for seconds, name in sorted(found, reverse=True):
        print(f"{seconds:7.1f} s  {name}")
    print(f"{sum(seconds for seconds, _ in found) / 60:7.1f} minutes, {len(found)} functions")
    sys.exit(status)


main()
