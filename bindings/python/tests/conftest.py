"""What the tests of the package share: QEMU's captures, and the program `zimgasol` beside it."""

import json
import os
import subprocess
from pathlib import Path

import pytest

TOP = Path(__file__).resolve().parents[3]
CAPTURES = TOP / "runs/captures"
GUEST = TOP / "runs/zimgasol/data/guest.sav"
PROGRAMS = [TOP / "out/zimgasol", TOP / "crates/zimgasol_cli/out/zimgasol_cli"]
os.environ.setdefault("ZIMGASOL_LIBRARY", str(TOP / "out/libzimgasol.so"))


def found_program():
    """Returns the program's path: that of ZIMGASOL_PROGRAM, or one that was built here."""
    named = [Path(os.environ["ZIMGASOL_PROGRAM"])] if "ZIMGASOL_PROGRAM" in os.environ else []
    return next((it for it in (*named, *PROGRAMS) if it.exists()), None)


@pytest.fixture(scope="session")
def program():
    """Runs `zimgasol`, and returns its status and its JSON, if it printed some."""
    path = found_program()
    if path is None:
        pytest.skip("the program zimgasol isn't built: make program")

    def run(*words):
        ran = subprocess.run([path, *words], capture_output=True, timeout=600)
        text = ran.stdout.strip()
        return ran.returncode, json.loads(text) if text.startswith(b"{") else None

    return run


def sum_of(name):
    """Returns the SHA-256 of the capture's only block."""
    return (CAPTURES / f"{name}.sums").read_text().strip()
