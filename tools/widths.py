#!/usr/bin/env python3
"""Finds lines of proofs that are wider than 160 columns. Prints each, and fails if there is one."""
import sys
from pathlib import Path

TOP = Path(__file__).resolve().parent.parent
MOST = 160


def main():
    files = sorted(TOP.glob("crates/*/proofs/**/*.antt"))
    lines = [(file, number, len(line)) for file in files
             for number, line in enumerate(file.read_text().split("\n"), 1)]
    wide = [f"{file.relative_to(TOP)}:{number}: {width} columns" for file, number, width in lines if width > MOST]
    for it in wide:
        print(it)
    if wide or not lines:
        sys.exit(f"{len(wide)} of {len(lines)} lines of proofs are wider than {MOST} columns")
    print(f"none of {len(lines)} lines of proofs is wider than {MOST} columns")


main()
