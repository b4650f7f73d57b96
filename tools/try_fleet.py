#!/usr/bin/env python3
"""Tries examples/fleet: saves verified by four workers of Dask, of which one is killed.

    tools/try_fleet.py

It comes after `make lib`, and after `make program` for what needs the program. It needs Debian's
python3-pytest and python3-distributed; without them nothing is tried, what is missing is said, and
the status is 2. The line of GNU parallel is tried where `parallel` is installed.
"""
import os
import shutil
import subprocess
import sys
from pathlib import Path

TOP = Path(__file__).resolve().parent.parent
PYTHON = os.environ.get("PYTHON") or ("/usr/bin/python3" if Path("/usr/bin/python3").exists() else sys.executable)
NEEDED = {"pytest": "python3-pytest", "distributed": "python3-distributed"}
PROGRAMS = ("out/zimgasol", "crates/zimgasol_cli/out/zimgasol_cli")


def main():
    missing = [package for module, package in NEEDED.items()
               if subprocess.run([PYTHON, "-c", f"import {module}"], capture_output=True).returncode]
    if missing:
        print(f"examples/fleet isn't tried: {', '.join(missing)} isn't installed", file=sys.stderr)
        return 2
    if not (TOP / "out/libzimgasol.so").exists():
        print("make lib comes first", file=sys.stderr)
        return 2
    if not shutil.which("parallel"):
        print("parallel isn't installed: its line isn't tried")
    if not any((TOP / it).exists() for it in PROGRAMS):
        print("the program zimgasol isn't built: what runs it isn't tried")
    words = ["-m", "pytest", "-q", "--no-header", "-p", "no:cacheprovider", "--show-capture=no", "-W", "ignore::DeprecationWarning"]
    env = {**os.environ, "PYTHONDONTWRITEBYTECODE": "1"}
    return subprocess.run([PYTHON, *words, "examples/fleet"], cwd=TOP, env=env).returncode


if __name__ == "__main__":
    sys.exit(main())
