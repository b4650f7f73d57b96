"""Finds the programs as they were proved, and builds them unproved where they weren't."""
import os
import shutil
import subprocess
import time
from pathlib import Path

from crates import CRATES, below, uses

# The words with which a program opens a file and waits for it.
OPENS = {"mig_tool": ["load", "{}", "{}.image"], "zimgasol_cli": ["verify", "{}"], "mig_rows": ["{}"]}
SECONDS = 900


def sources(name):
    """The files that a program is made from."""
    for it in [*below(name, uses()), name]:
        for part in ("src", "specs", "proofs"):
            yield from (file for file in (CRATES / it / part).rglob("*") if file.is_file())


def built(name):
    """The command of the program that was proved and built; None if there is none."""
    program = CRATES / name / "out" / name
    return [str(program)] if os.access(program, os.X_OK) else None


def proved(name):
    """The command of the program that was proved and built, if no source is newer."""
    program = built(name)
    made = os.stat(program[0]).st_mtime if program else 0
    return None if any(it.stat().st_mtime > made for it in sources(name)) else program


def running(at):
    """The command line of the program that has `at` among its words, as `rt try` runs it."""
    for process in Path("/proc").glob("[0-9]*"):
        try:
            words = (process / "cmdline").read_bytes().decode(errors="replace").split("\0")
        except OSError:
            continue
        found = [it for it in words if it.endswith("/program")]
        if at in words and found:
            return words[:words.index(found[0])], Path(found[0])
    return None


def unproved(name, folder):
    """Builds a program from its source, without a proof and with checks of memory and arithmetic, into `folder`.

    `rt try` builds the program and runs it, and keeps nothing. So the program is passed a pipe to
    read, and copied while it waits for that. Returns the command; None if it wasn't built.
    """
    pipe, copy = Path(folder) / f"{name}.pipe", Path(folder) / name
    os.mkfifo(pipe)
    words = [it.replace("{}", str(pipe)) for it in OPENS[name]]
    command = ["rt", "try", "--seconds", str(SECONDS), "--", *words]
    how = {"stdin": subprocess.DEVNULL, "stdout": subprocess.DEVNULL, "stderr": subprocess.PIPE}
    with subprocess.Popen(command, cwd=CRATES / name, **how) as tried:
        try:
            while tried.poll() is None:
                found = running(str(pipe))
                if found:
                    shutil.copy2(found[1], copy)
                    return [*found[0], str(copy)]
                time.sleep(0.1)
            print(tried.stderr.read().decode(errors="replace"))
            return None
        finally:
            tried.terminate()
            pipe.unlink()
