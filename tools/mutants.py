#!/usr/bin/env python3
"""Tries the planted bugs of mutants/, each of which the prover has to refuse.

    tools/mutants.py [--from-gate] [CRATE ..]

`mutants/CRATE/NAME.edit` is a planted bug of a crate, in the form of CONTRIBUTING. The gate tries
those of crates/CRATE/must-fail alone: the others are tried here, when a contract of the crate has
changed. They are put into a copy of the repository, whose libraries are those that `rt lib`, `rt
check` or `make lib` left, or are proved first. After `make test` alone, --from-gate is shorter: it
takes the libraries that the gate proved, and proves each crate with bugs once more.

The table says of each crate how many bugs there are and how many were refused. The status is 1
where one wasn't. The machine's memory bounds how many are tried at a time (RT_JOBS).
"""
import os
import re
import shutil
import subprocess
import sys
import tempfile
import time
from pathlib import Path

from crates import CRATES, TOP, below, uses
from gate import jobs

MUTANTS = TOP / "mutants"
TRIED = re.compile(r"^(?:rt: )?must-fail (\S+)/(\S+): (refused, as it must be|NOT REFUSED|BAD EDIT|NOT TRIED)")
REFUSED = "refused, as it must be"


def edits_of(name):
    return sorted((MUTANTS / name).glob("*.edit"))


def copied(folder):
    """Copies the repository, its folders `out` left out: rt finds by itself what was proved here of the same files."""
    for name in ("crates.txt", "HANDLES"):
        shutil.copy2(TOP / name, folder)
    shutil.copytree(CRATES, folder / "crates", ignore=shutil.ignore_patterns("out", "must-fail"))
    return folder


def ran(words, folder, said):
    """Runs rt, and prints the lines on bugs as they come. Returns its status, and what each bug came to."""
    came = {}
    env = {**os.environ, "RT_JOBS": os.environ.get("RT_JOBS") or jobs()}
    with subprocess.Popen(words, cwd=folder, env=env, stdout=subprocess.PIPE, stderr=subprocess.STDOUT, text=True) as tried:
        for line in tried.stdout:
            said.write(line)
            found = TRIED.match(line)
            if found:
                came[found[1], found[2]] = found[3]
                print(line[:150].rstrip(), flush=True)
    return tried.returncode, came


def prove(names, folder, said):
    """Proves the libraries of crates, lowest first, where rt finds none that are. Returns whether all are."""
    every = [it for name in names for it in [*below(name, uses()), name]]
    for it in dict.fromkeys(every):
        start = time.monotonic()
        status, _ = ran(["rt", "lib"], folder / "crates" / it, said)
        if status:
            print(f"{it} isn't proved: {said.name}")
            return False
        if time.monotonic() - start > 60:
            print(f"{it} proved ({(time.monotonic() - start) / 60:.0f} min)", flush=True)
    return True


def table(names, came):
    """Prints the table. Returns how many bugs weren't refused."""
    print("| Crate | Planted bugs | Refused | Others |\n|---|---|---|---|")
    lost = 0
    for name in names:
        results = {it.name: came.get((name, it.name), "NOT TRIED") for it in edits_of(name)}
        others = [f"{it.removesuffix('.edit')}: {result}" for it, result in results.items() if result != REFUSED]
        lost += len(others)
        print(f"| {name} | {len(results)} | {len(results) - len(others)} | {'; '.join(others)} |")
    return lost


def main(words):
    if words[:1] in (["--help"], ["-h"]):
        print(__doc__.strip())
        return 0
    from_gate, names = "--from-gate" in words, [it for it in words if it != "--from-gate"]
    have = sorted(it.name for it in MUTANTS.iterdir() if edits_of(it.name))
    unknown = [it for it in names if it not in have]
    if unknown:
        sys.exit(f"mutants/ has none of {', '.join(unknown)}; it has {', '.join(have)}")
    names, start = names or have, time.monotonic()
    (TOP / "out").mkdir(exist_ok=True)
    with tempfile.TemporaryDirectory(prefix="mutants-") as room, open(TOP / "out" / "mutants.log", "w") as said:
        folder = copied(Path(room))
        if not from_gate and not prove(names, folder, said):
            return 1
        for name in names:
            shutil.copytree(MUTANTS / name, folder / "crates" / name / "must-fail")
        _, came = ran(["rt", "ci" if from_gate else "must-fail", *names], folder, said)
    lost = table(names, came)
    bugs = sum(len(edits_of(it)) for it in names)
    print(f"{bugs} planted bugs, {lost or 'none'} not refused, {(time.monotonic() - start) / 60:.0f} min")
    return 1 if lost else 0


if __name__ == "__main__":
    try:
        sys.exit(main(sys.argv[1:]))
    except KeyboardInterrupt:
        sys.exit(130)
