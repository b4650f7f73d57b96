#!/usr/bin/env python3
"""Proves the crates below one, lowest first, and then proves and builds that one.

    tools/prove.py CRATE TIME

TIME is printed at the beginning: the approximate duration. A crate that hasn't changed since it was
proved here isn't proved again. The toolchain's output is written to out/prove.log; if a step fails
its last lines are printed, and its status is returned. Else out/proved has a record of what was
proved and built (tools/records.py).

Each crate finds the crates below it built. If rt proves only CRATE, it begins with a quick pass
over all sources, also of functions that CRATE doesn't reach. For these it prints
error[unsupported-theorem] at each of the exports of mig_c, though no proof fails. A line is printed
for each crate that was proved, and each minute.
"""
import os
import shutil
import subprocess
import sys
import time

import records
from crates import CRATES, TOP, below, is_program, uses

LOG = TOP / "out" / "prove.log"


def wait(name, step):
    """Waits for a step, with a line each minute, and returns its status."""
    minutes = 0
    with step:
        while True:
            try:
                return step.wait(timeout=60)
            except subprocess.TimeoutExpired:
                minutes += 1
                print(f"  {name}: {minutes} min so far", flush=True)


def prove(name, log):
    """Proves and builds a crate. A program runs on its stored words and input, and its output is shown."""
    crate = CRATES / name
    if not is_program(name):
        how = {"stdin": subprocess.DEVNULL, "stdout": log, "stderr": log}
        return wait(name, subprocess.Popen(["rt", "lib"], cwd=crate, **how))
    words = crate / "args"
    command = ["rt", "run", "--", *words.read_text().splitlines()] if words.is_file() else ["rt", "run"]
    given = crate / "stdin"
    with open(given if given.is_file() else os.devnull, "rb") as stdin:
        return wait(name, subprocess.Popen(command, cwd=crate, stdin=stdin, stderr=log))


def built(name):
    """Returns the file that a crate is built as."""
    crate = CRATES / name / "out"
    return crate / name if is_program(name) else crate / f"lib{name}.a"


def failed(name, status, text):
    print("\n".join(text.splitlines()[-40:]))
    print(f"{name} FAILED, with status {status}; all that was said is in {LOG.relative_to(TOP)}")
    return status if status > 0 else 128 - status


def main(name, how_long):
    names = [*below(name, uses()), name]
    print(f"proves {len(names)} crates: {', '.join(names)}")
    print(f"from nothing this takes {how_long} on 4 processors", flush=True)
    LOG.parent.mkdir(exist_ok=True)
    records.forget(name)
    record = records.now(name)
    with open(LOG, "w+") as log:
        for count, it in enumerate(names, 1):
            begin, start = log.seek(0, 2), time.monotonic()
            status = prove(it, log)
            if status:
                log.seek(begin)
                return failed(it, status, log.read())
            minutes, seconds = divmod(round(time.monotonic() - start), 60)
            print(f"{count} of {len(names)}: {it} proved ({minutes} min {seconds} s)", flush=True)
    records.write_proved(name, record, files=records.files_of([built(name)]))
    return 0


if __name__ == "__main__":
    if len(sys.argv) != 3:
        sys.exit(__doc__)
    if not shutil.which("rt"):
        sys.exit("there is no rt on the PATH: the Rattle kit has it in its folder bin")
    try:
        sys.exit(main(*sys.argv[1:]))
    except KeyboardInterrupt:
        sys.exit(130)
